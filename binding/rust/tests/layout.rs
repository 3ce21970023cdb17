//! The types here and in `rights.h` have the same layout, and the names there have the numbers
//! here.

use rights_register::raw::{CommandRead, Held, Outcome, Ran, RegisterRead, Written};
use rights_register::{Act, Answer, Command, Entry, Header};
use rights_register::{Layer, Office, Permission, Refusal, Tally};
use rights_register::{END_TEXT, HEADER_TEXT, LONGEST_RUN, MOST_OFFICES, ROW_TEXT};
use std::mem::{offset_of, size_of};

const HEADER: &str = include_str!("../../rights.h");

fn header_says(fact: String) {
    assert!(HEADER.contains(&fact), "rights.h does not say {fact}");
}

/// The header asserts the size of the type, and the offset of each of the fields named.
macro_rules! laid_out {
    ($here:ty, $there:literal $(, $field:ident)*) => {
        header_says(format!("RIGHTS_LAID_OUT(sizeof({}) == {});", $there, size_of::<$here>()));
        $(header_says(format!(
            "RIGHTS_LAID_OUT(offsetof({}, {}) == {});",
            $there, stringify!($field), offset_of!($here, $field)
        ));)*
    };
}

#[test]
fn types_are_laid_out_as_the_header_asserts() {
    laid_out!(Office, "rights_office_t");
    laid_out!(Layer, "rights_layer_t");
    laid_out!(Header, "rights_header_t", soa, layer);
    laid_out!(Command, "rights_command_t", layer, by, to, perm);
    laid_out!(Entry, "rights_entry_t", answer);
    laid_out!(Tally, "rights_tally_t", added);
    laid_out!(Ran, "rights_ran_t", tally);
    laid_out!(Outcome, "rights_outcome_t", removed, added);
    laid_out!(Held, "rights_held_t", offices);
    laid_out!(RegisterRead, "rights_register_read_t", at, header, next);
    laid_out!(CommandRead, "rights_command_read_t", at, command, next);
    laid_out!(Written, "rights_written_t", size);
}

/// The header gives the name this number, and no digit follows.
fn header_numbers(name: &str, number: usize) {
    let given = format!(" {name} = {number}");
    let mut behind = HEADER.split(&given).skip(1);
    assert!(
        behind.any(|rest| !rest.starts_with(|next: char| next.is_ascii_digit())),
        "rights.h does not say{given}"
    );
}

/// `NotEntitled` is `RIGHTS_NOT_ENTITLED` in C, and `TT` is `RIGHTS_TT`.
fn name_in_c(name: &str) -> String {
    let mut parts = String::from("RIGHTS");
    let mut was_small = true;
    for letter in name.chars() {
        if letter.is_uppercase() && was_small {
            parts.push('_');
        }
        was_small = letter.is_lowercase();
        parts.extend(letter.to_uppercase());
    }
    parts
}

#[test]
fn refusals_have_the_numbers_and_words_of_the_header() {
    for (place, refusal) in Refusal::ALL.into_iter().enumerate() {
        assert_eq!(usize::from(refusal.number()), place + 1);
        assert_eq!(Refusal::from_number(refusal.number()), Some(refusal));
        let name = name_in_c(&format!("{refusal:?}"));
        header_numbers(&name, place + 1);
        header_says(refusal.words().replace('≥', ">=").replace('·', "*"));
    }
    assert_eq!(Refusal::from_number(0), None);
    assert_eq!(Refusal::from_number(17), None);
}

#[test]
fn acts_permissions_and_sizes_have_the_numbers_of_the_header() {
    for act in Act::ALL {
        assert_eq!(Act::from_code(act.code()), Some(act));
        let name = name_in_c(&format!("{act:?}"));
        header_numbers(&name, usize::from(act.code()));
    }
    for permission in Permission::ALL {
        assert_eq!(Permission::from_code(permission.code()), Some(permission));
        let name = name_in_c(&format!("{permission:?}"));
        header_numbers(&name, usize::from(permission.code()));
    }
    header_numbers("RIGHTS_OFFICES", MOST_OFFICES);
    header_numbers("RIGHTS_RUN", LONGEST_RUN);
    header_numbers("RIGHTS_HEADER_TEXT", HEADER_TEXT);
    header_numbers("RIGHTS_ROW_TEXT", ROW_TEXT);
    header_numbers("RIGHTS_END_TEXT", END_TEXT);
    let unanswered = usize::from(Answer::UNANSWERED.byte());
    header_numbers("RIGHTS_UNANSWERED", unanswered);
}
