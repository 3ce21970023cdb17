//! What a call is lent, as a part of something larger: what stands before and behind the part is
//! known, and is looked at after the call too.

use rights_register::{Answer, Command, Entry, Layer, Office};
use std::hint::black_box;

/// Something that is lent in lists.
pub trait Known: Copy {
    /// How many stand before the part, and how many behind it.
    const BESIDE: usize;

    /// What stands in this place, counted from the first before the part on to the last behind it,
    /// without the part.
    fn known(place: usize) -> Self;
}

impl Known for u8 {
    /// More than the 128 cells of a row, and odd, so that a part starts where no word of memory does.
    const BESIDE: usize = 131;

    /// No call writes a byte over 127: cells are at most 15, offices 127, and texts are ASCII.
    fn known(place: usize) -> u8 {
        128 + (place % 128) as u8
    }
}

impl Known for Entry {
    const BESIDE: usize = 2;

    /// No command is answered by a number over 127.
    fn known(place: usize) -> Entry {
        let byte = u8::known(place);
        let number = u16::from_ne_bytes([byte, byte]);
        Entry {
            command: Command {
                act: byte,
                layer: Layer(number),
                by: Office(number),
                to: Office(number),
                perm: byte,
            },
            answer: Answer::from_byte(byte),
        }
    }
}

/// The part with what is beside it.
pub struct Lent<T>(Vec<T>);

impl<T: Known> Lent<T> {
    pub fn of(part: &[T]) -> Lent<T> {
        let before = (0..T::BESIDE).map(T::known);
        let behind = (T::BESIDE..2 * T::BESIDE).map(T::known);
        let part = part.iter().copied();
        Lent(before.chain(part).chain(behind).collect())
    }

    /// The part that is lent.
    pub fn part(&mut self) -> &mut [T] {
        let end = self.0.len() - T::BESIDE;
        &mut self.0[T::BESIDE..end]
    }

    /// All of it, after the call. The compiler may take for granted that nothing has changed which
    /// was lent to be read, or was not lent; the black box has it look again.
    pub fn whole(self) -> Vec<T> {
        black_box(self.0)
    }
}

/// The part with what is beside it, as a call leaves it that keeps to the part.
pub fn kept<T: Known>(part: &[T]) -> Vec<T> {
    Lent::of(part).whole()
}

/// The part again, of what `whole` or `kept` gave.
pub fn part_of<T: Known>(whole: &[T]) -> &[T] {
    &whole[T::BESIDE..whole.len() - T::BESIDE]
}
