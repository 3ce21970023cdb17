//! The functions of `crates/lines/src/lib.rt`.

use super::numbers;

#[derive(Clone, Copy, Debug, PartialEq, Eq)]
pub enum LineKind {
    N,
    Soa,
    Layer,
    Act,
    By,
    To,
    Perm,
}

#[inline(always)]
fn word(text: &[u8], at: usize, bytes: &[u8]) -> Option<usize> {
    let rest = text.get(at..)?.strip_prefix(bytes)?;
    Some(text.len() - rest.len())
}

#[inline(always)]
fn choice(text: &[u8], at: usize, words: &[(&[u8], u16)]) -> Option<(u16, usize)> {
    for (bytes, v) in words {
        if let Some(next) = word(text, at, bytes) {
            return Some((*v, next));
        }
    }
    None
}

#[inline(always)]
fn act(text: &[u8], at: usize) -> Option<(u16, usize)> {
    choice(
        text,
        at,
        &[
            (b"grant\n", 0),
            (b"wld\n", 1),
            (b"wgd\n", 2),
            (b"sld\n", 3),
            (b"sgd\n", 4),
        ],
    )
}

#[inline(always)]
fn perm(text: &[u8], at: usize) -> Option<(u16, usize)> {
    choice(
        text,
        at,
        &[
            (b"TT\n", 8),
            (b"TF\n", 4),
            (b"FT\n", 2),
            (b"FF\n", 1),
            (b"none\n", 0),
        ],
    )
}

#[inline(always)]
fn key(kind: LineKind) -> &'static [u8] {
    match kind {
        LineKind::N => b"n=",
        LineKind::Soa => b"soa=",
        LineKind::Layer => b"layer=",
        LineKind::Act => b"act=",
        LineKind::By => b"by=",
        LineKind::To => b"to=",
        LineKind::Perm => b"perm=",
    }
}

#[inline(always)]
fn value(text: &[u8], at: usize, kind: LineKind) -> Option<(u16, usize)> {
    match kind {
        LineKind::Act => act(text, at),
        LineKind::Perm => perm(text, at),
        _ => numbers::number(text, at),
    }
}

#[inline(always)]
pub fn line(text: &[u8], at: usize, kind: LineKind) -> Option<(u16, usize)> {
    let start = word(text, at, key(kind))?;
    value(text, start, kind)
}

pub fn end_line(text: &[u8], at: usize) -> Option<usize> {
    word(text, at, b"end=register\n")
}
