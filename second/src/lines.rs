//! Lines of a text, one after the other, and the values they may have.

use crate::permission::Permission;

/// The text and the offset where its next line starts.
pub struct Lines<'a> {
    text: &'a [u8],
    pub at: usize,
}

impl<'a> Lines<'a> {
    pub fn new(text: &'a [u8]) -> Lines<'a> {
        Lines { text, at: 0 }
    }

    /// The next line without its LF, or nothing where the text has ended or
    /// its last line has no LF.
    fn content(&self) -> Option<&'a [u8]> {
        let left = &self.text[self.at..];
        let length = left.iter().position(|byte| *byte == b'\n')?;
        Some(&left[..length])
    }

    /// Reads the next line if it is `name=` and a value that has a meaning;
    /// gives its start and the meaning. Bad, it gives the start alone and
    /// stays there: that is the text's length where lines are missing.
    pub fn read<T>(
        &mut self,
        name: &str,
        meaning: impl Fn(&str) -> Option<T>,
    ) -> Result<(usize, T), usize> {
        let start = self.at;
        let content = self.content().ok_or(start)?;
        let line = std::str::from_utf8(content).map_err(|_| start)?;
        let (name_found, value) = line.split_once('=').ok_or(start)?;
        let value_found = meaning(value).ok_or(start)?;
        if name_found != name {
            return Err(start);
        }
        self.at = start + content.len() + 1;
        Ok((start, value_found))
    }
}

/// A number is of the form if it is written just as it would be printed, which
/// shuts out leading zeros, signs and blanks.
pub fn number(value: &str) -> Option<u16> {
    let number: u16 = value.parse().ok()?;
    if number.to_string() == value {
        Some(number)
    } else {
        None
    }
}

/// The perm of a command, where `none` is code 0.
pub fn perm_code(value: &str) -> Option<u8> {
    match value {
        "none" => Some(0),
        name => Permission::from_name(name).map(Permission::code),
    }
}

pub fn act_code(value: &str) -> Option<u8> {
    let names = ["grant", "wld", "wgd", "sld", "sgd"];
    (0u8..)
        .zip(names)
        .find(|(_, name)| *name == value)
        .map(|(code, _)| code)
}

pub fn end_value(value: &str) -> Option<()> {
    if value == "register" {
        Some(())
    } else {
        None
    }
}
