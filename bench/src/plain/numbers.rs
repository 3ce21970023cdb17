//! The functions of `crates/numbers/src/lib.rt`.

fn extended(v: u16, b: u8) -> Option<u16> {
    if v == 0 || !b.is_ascii_digit() {
        return None;
    }
    v.checked_mul(10)?.checked_add((b - b'0') as u16)
}

pub fn number(text: &[u8], at: usize) -> Option<(u16, usize)> {
    let first = *text.get(at)?;
    if !first.is_ascii_digit() {
        return None;
    }
    let mut v = (first - b'0') as u16;
    for i in at + 1..text.len() {
        let b = text[i];
        if b == b'\n' {
            return Some((v, i + 1));
        }
        v = extended(v, b)?;
    }
    None
}

pub fn digits(v: u32) -> usize {
    v.max(1).ilog10() as usize + 1
}
