//! Damages of a stored text.

use super::rng::Rng;
use crate::text::FORM;
use std::cmp::Ordering;
use std::ops::Range;

/// What a damage makes of a sound state's text.
#[derive(Clone, Copy, Debug, PartialEq, Eq)]
pub enum Effect {
    /// It departs from the form.
    Departs,
    /// It keeps the form and has no sound state.
    Unsound,
    /// Any of these, or it has another sound state.
    Open,
}

/// Changes the text; false if it has nothing that can be damaged so.
pub type Make = fn(&mut Vec<u8>, &mut Rng) -> bool;

pub struct Damage {
    pub name: &'static str,
    pub effect: Effect,
    pub make: Make,
}

/// A field of a text: its line without the line feed, itself, its kind of line and its place in that.
struct Field {
    line: Range<usize>,
    at: Range<usize>,
    kind: usize,
    index: usize,
}

/// A field of a line of any kind. Each kind is as likely, each line of it, and each field of the line.
fn field(text: &[u8], rng: &mut Rng) -> Option<Field> {
    let kind = rng.below(FORM.len() as u32) as usize;
    field_of(text, rng, kind)
}

/// A field of a line of this kind.
fn field_of(text: &[u8], rng: &mut Rng, kind: usize) -> Option<Field> {
    let before: usize = FORM[..kind].iter().map(|lines| lines.lines).sum();
    let line = line_at(text, before + rng.below(FORM[kind].lines as u32) as usize)?;
    let commas = text[line.clone()].iter().filter(|byte| **byte == b',');
    let index = rng.below(commas.count() as u32 + 1) as usize;
    let mut fields = text[line.clone()].split(|byte| *byte == b',');
    let before: usize = fields.by_ref().take(index).map(|f| f.len() + 1).sum();
    let start = line.start + before;
    let at = start..start + fields.next()?.len();
    Some(Field {
        line,
        at,
        kind,
        index,
    })
}

/// The line of this number, from 0, without its line feed.
fn line_at(text: &[u8], number: usize) -> Option<Range<usize>> {
    let mut lines = text.split(|byte| *byte == b'\n');
    let start = lines.by_ref().take(number).map(|l| l.len() + 1).sum();
    let length = lines.next()?.len();
    Some(start..start + length)
}

/// A place of a byte for which this is true; each kind of line is as likely.
fn byte(text: &[u8], rng: &mut Rng, is: fn(u8) -> bool) -> Option<usize> {
    let start = field(text, rng)?.at.start;
    (start..text.len()).chain(0..start).find(|at| is(text[*at]))
}

fn is_digit(byte: u8) -> bool {
    byte.is_ascii_digit()
}

fn is_comma(byte: u8) -> bool {
    byte == b','
}

fn is_feed(byte: u8) -> bool {
    byte == b'\n'
}

/// Replaces what `at` finds, if it finds something.
fn replace(text: &mut Vec<u8>, at: Option<Range<usize>>, by: &[u8]) -> bool {
    let Some(at) = at else {
        return false;
    };
    text.splice(at, by.iter().copied());
    true
}

/// Replaces a byte for which `is` is true.
fn replace_byte(text: &mut Vec<u8>, rng: &mut Rng, is: fn(u8) -> bool, by: &[u8]) -> bool {
    let at = byte(text, rng, is).map(|at| at..at + 1);
    replace(text, at, by)
}

/// Replaces a field by what `change` makes of it.
fn change_field(
    text: &mut Vec<u8>,
    rng: &mut Rng,
    change: impl FnOnce(&str, &mut Rng) -> String,
) -> bool {
    let Some(Field { at, .. }) = field(text, rng) else {
        return false;
    };
    let old = String::from_utf8_lossy(&text[at.clone()]).into_owned();
    let new = change(&old, rng);
    replace(text, Some(at), new.as_bytes())
}

/// 2^32, a little more, or much more; some are the old number if it is cut to 32 or 64 bits.
fn too_large(old: &str, rng: &mut Rng) -> String {
    let old: u128 = old.parse().unwrap_or(0);
    let digits = 11 + rng.below(40) as usize;
    let number: u128 = match rng.below(7) {
        0 => 1 << 32,
        1 => (1 << 32) + old,
        2 => (1 << 33) + rng.word() as u128,
        3 => 10_u128.pow(10 + rng.below(10)),
        4 => (1 << 64) + old,
        5 => (1 << 96) + rng.draw() as u128,
        _ => return "9".repeat(digits),
    };
    number.to_string()
}

/// A number above the greatest that a sound state has in the field; some are the old number if bits are cut off.
fn above_greatest(text: &mut Vec<u8>, rng: &mut Rng) -> bool {
    let Some(found) = field(text, rng) else {
        return false;
    };
    let Some(&greatest) = FORM[found.kind].greatest.get(found.index) else {
        return false;
    };
    let is_memory_length = (found.kind, found.index) == (0, 5);
    if greatest == u32::MAX || is_memory_length {
        return false;
    }
    let old = String::from_utf8_lossy(&text[found.at.clone()])
        .parse()
        .unwrap_or(0);
    let more = u32::wrapping_add(old, 1 << rng.below(32));
    let any = greatest + 1 + rng.below(u32::MAX - greatest);
    let new = rng.pick(&[greatest + 1, more, more, any, u32::MAX]);
    let new = if new > greatest { new } else { greatest + 1 };
    replace(text, Some(found.at), new.to_string().as_bytes())
}

/// Another number in a field: any, a small one, one near it, or one with a bit changed.
fn any_number(old: &str, rng: &mut Rng) -> String {
    let old: u32 = old.parse().unwrap_or(0);
    let (any, small) = (rng.word() >> rng.below(32), rng.below(40));
    let near = old.wrapping_add(rng.below(7)).wrapping_sub(3);
    let flipped = old ^ 1 << rng.below(32);
    rng.pick(&[any, small, near, flipped]).to_string()
}

/// Two lines with their line feeds, the first of them first; none where they are the same.
fn two_lines(
    text: &[u8],
    rng: &mut Rng,
    of_one_kind: bool,
) -> Option<(Range<usize>, Range<usize>)> {
    let kinds = FORM.len() as u32;
    // there is one first line alone
    let a = if of_one_kind {
        1 + rng.below(kinds - 1)
    } else {
        rng.below(kinds)
    };
    let b = if of_one_kind {
        a
    } else {
        (a + 1 + rng.below(kinds - 1)) % kinds
    };
    let mut whole = |kind: u32| {
        let line = field_of(text, rng, kind as usize)?.line;
        Some(line.start..(line.end + 1).min(text.len()))
    };
    let (a, b) = (whole(a)?, whole(b)?);
    match a.start.cmp(&b.start) {
        Ordering::Less => Some((a, b)),
        Ordering::Greater => Some((b, a)),
        Ordering::Equal => None,
    }
}

fn exchange_lines(text: &mut Vec<u8>, rng: &mut Rng, of_one_kind: bool) -> bool {
    let Some((a, b)) = two_lines(text, rng, of_one_kind) else {
        return false;
    };
    let parts = [
        &text[..a.start],
        &text[b.clone()],
        &text[a.end..b.start],
        &text[a.clone()],
        &text[b.end..],
    ];
    *text = parts.concat();
    true
}

fn copy_line(text: &mut Vec<u8>, rng: &mut Rng) -> bool {
    let Some((a, b)) = two_lines(text, rng, true) else {
        return false;
    };
    let by = text[a].to_vec();
    replace(text, Some(b), &by)
}

/// A line with its line feed, so many times: none is one too few, two one too many.
fn repeat_line(text: &mut Vec<u8>, rng: &mut Rng, times: usize) -> bool {
    let Some(Field { line, .. }) = field(text, rng) else {
        return false;
    };
    let line = line.start..(line.end + 1).min(text.len());
    let by = text[line.clone()].repeat(times);
    replace(text, Some(line), &by)
}

fn field_too_few(text: &mut Vec<u8>, rng: &mut Rng) -> bool {
    let Some(Field { line, at, .. }) = field(text, rng) else {
        return false;
    };
    let with_comma = if at.end < line.end {
        at.start..at.end + 1
    } else {
        at.start.saturating_sub(1)..at.end
    };
    replace(text, Some(with_comma), b"")
}

/// One byte at any place replaced, left out or put in.
fn any_byte(text: &mut Vec<u8>, rng: &mut Rng) -> bool {
    let at = rng.below(text.len() as u32 + 1) as usize;
    let end = (at + rng.below(2) as usize).min(text.len());
    let any = rng.word() as u8;
    let by = [rng.pick(&[any, b'0', b'1', b'9', b',', b'\n', b' '])];
    let by = if rng.percent(75) { &by[..] } else { &[] };
    replace(text, Some(at..end), by)
}

/// Bytes that are neither digit, comma nor line feed.
const OTHERS: [u8; 16] = [
    b'/', b':', b'+', b'-', b' ', b'\r', b'\t', b'.', b';', b'a', b'F', b'x', b'_', 0, 0xB2, 0xFF,
];

/// What stands behind a text's end.
const BEHIND: [&str; 9] = ["\n", "0", "0\n", ",", " ", "\0", "\r\n", "0,0,0,0,0\n", "x"];
/// What stands before a text's front.
const BEFORE: [&str; 8] = ["\n", "0", ",", " ", "+", "-", "\0", "\u{FEFF}"];

const fn departs(name: &'static str, make: Make) -> Damage {
    let effect = Effect::Departs;
    Damage { name, effect, make }
}

const fn unsound(name: &'static str, make: Make) -> Damage {
    let effect = Effect::Unsound;
    Damage { name, effect, make }
}

const fn open(name: &'static str, make: Make) -> Damage {
    let effect = Effect::Open;
    Damage { name, effect, make }
}

/// So many damages, the first ones, always depart from the form.
pub const DEPARTING: usize = 26;

pub const DAMAGES: [Damage; 34] = [
    departs("another byte for a digit", |text, rng| {
        let by = rng.pick(&OTHERS);
        replace_byte(text, rng, is_digit, &[by])
    }),
    departs("a comma or a line feed for a digit", |text, rng| {
        let by = rng.pick(b",\n");
        replace_byte(text, rng, is_digit, &[by])
    }),
    departs("a comma left out", |text, rng| {
        replace_byte(text, rng, is_comma, b"")
    }),
    departs("a comma twice", |text, rng| {
        replace_byte(text, rng, is_comma, b",,")
    }),
    departs("another byte for a comma", |text, rng| {
        let other = rng.pick(&OTHERS);
        let by = rng.pick(&[other, b'\n', b'0', b'7']);
        replace_byte(text, rng, is_comma, &[by])
    }),
    departs("a line feed left out", |text, rng| {
        replace_byte(text, rng, is_feed, b"")
    }),
    departs("a line feed twice", |text, rng| {
        replace_byte(text, rng, is_feed, b"\n\n")
    }),
    departs("another byte for a line feed", |text, rng| {
        let other = rng.pick(&OTHERS);
        let by = rng.pick(&[other, b',', b'0', b'7']);
        replace_byte(text, rng, is_feed, &[by])
    }),
    departs("a comma before a line feed", |text, rng| {
        replace_byte(text, rng, is_feed, b",\n")
    }),
    departs("a carriage return before a line feed", |text, rng| {
        replace_byte(text, rng, is_feed, b"\r\n")
    }),
    departs("leading zeros", |text, rng| {
        change_field(text, rng, |old, rng| {
            "0".repeat(rng.pick(&[1, 1, 2, 30])) + old
        })
    }),
    departs("a minus sign", |text, rng| {
        change_field(text, rng, |old, _| format!("-{old}"))
    }),
    departs("a plus sign", |text, rng| {
        change_field(text, rng, |old, _| format!("+{old}"))
    }),
    departs("a space before a number", |text, rng| {
        change_field(text, rng, |old, _| format!(" {old}"))
    }),
    departs("a space behind a number", |text, rng| {
        change_field(text, rng, |old, _| format!("{old} "))
    }),
    departs("an empty field", |text, rng| {
        change_field(text, rng, |_, _| String::new())
    }),
    departs("a number of 2^32 or more", |text, rng| {
        change_field(text, rng, too_large)
    }),
    departs("a field too many", |text, rng| {
        change_field(text, rng, |old, _| format!("{old},0"))
    }),
    departs("a field too few", field_too_few),
    departs("a line too few", |text, rng| repeat_line(text, rng, 0)),
    departs("a line too many", |text, rng| repeat_line(text, rng, 2)),
    departs("lines of two kinds exchanged", |text, rng| {
        exchange_lines(text, rng, false)
    }),
    departs("bytes behind the end", |text, rng| {
        text.extend(rng.pick(&BEHIND).bytes());
        true
    }),
    departs("bytes before the front", |text, rng| {
        let before = rng.pick(&BEFORE);
        replace(text, Some(0..0), before.as_bytes())
    }),
    departs("the end cut off", |text, rng| {
        let length = rng.below(text.len() as u32) as usize;
        let cut = length < text.len();
        text.truncate(length);
        cut
    }),
    departs("no text", |text, _| {
        text.clear();
        true
    }),
    unsound("a number above its field's greatest", above_greatest),
    open("another number", |text, rng| {
        change_field(text, rng, any_number)
    }),
    open("another digit", |text, rng| {
        let by = b'0' + rng.below(10) as u8;
        replace_byte(text, rng, is_digit, &[by])
    }),
    open("a digit left out", |text, rng| {
        replace_byte(text, rng, is_digit, b"")
    }),
    open("a digit put in", |text, rng| {
        let by = b'0' + rng.below(10) as u8;
        let at = byte(text, rng, is_digit).map(|at| at + rng.below(2) as usize);
        replace(text, at.map(|at| at..at), &[by])
    }),
    open("two lines of one kind exchanged", |text, rng| {
        exchange_lines(text, rng, true)
    }),
    open("a line in the place of another of its kind", copy_line),
    open("another byte anywhere, one left out or put in", any_byte),
];
