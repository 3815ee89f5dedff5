//! Random traces kept as text: lines of calls, lines that depart from the form, and changed bytes.

use super::rng::Rng;
use crate::calls::{Call, FIELDS};
use crate::replay::{LINE_LIMIT, MEMORY_BYTES};

/// The calls, no swap among them, as text, one a line, each field without leading zeros and the ignored ones 0.
pub fn text_of(calls: &[Call]) -> Vec<u8> {
    let lines = calls.iter().map(|call| line_of(&call.to_numbers()));
    lines.collect::<String>().into_bytes()
}

/// The calls, no swap among them, as text. Fields that a call ignores are any numbers, and some fields have leading zeros.
pub fn varied_text_of(rng: &mut Rng, calls: &[Call]) -> Vec<u8> {
    let lines = calls.iter().map(|call| varied_line(rng, call));
    lines.collect::<String>().into_bytes()
}

pub fn line_of(numbers: &[u32; FIELDS]) -> String {
    joined(&numbers.map(|number| number.to_string()))
}

fn joined(fields: &[String]) -> String {
    fields.join(",") + "\n"
}

fn varied_line(rng: &mut Rng, call: &Call) -> String {
    let mut numbers = call.to_numbers();
    if rng.percent(30) {
        fill_ignored(rng, &mut numbers);
    }
    let mut fields = numbers.map(|number| number.to_string());
    if rng.percent(5) {
        let room = LINE_LIMIT - joined(&fields).len();
        let zeros = rng.pick(&[1, room / 2, room, room]);
        let field = &mut fields[rng.below(FIELDS as u32) as usize];
        *field = "0".repeat(zeros) + field;
    }
    joined(&fields)
}

/// Any numbers in the fields that the call ignores.
fn fill_ignored(rng: &mut Rng, numbers: &mut [u32; FIELDS]) {
    let [kind, _, register, address, value] = numbers;
    if *kind == 3 || *kind == 4 && *register != 7 && *register != 8 {
        *address = any_number(rng);
    }
    if *kind == 0 || *kind == 1 || *kind == 3 {
        *value = any_number(rng);
    }
}

/// The largest number of some bits, or any number.
fn any_number(rng: &mut Rng) -> u32 {
    let bits = rng.below(32);
    let any = rng.word();
    rng.pick(&[u32::MAX, u32::MAX >> bits, any])
}

/// A line that departs from the form, with its line feed.
pub fn departing_line(rng: &mut Rng) -> Vec<u8> {
    let mut fields = [3, 1, 1, 0, 0].map(|number: u32| number.to_string());
    let at = rng.below(FIELDS as u32) as usize;
    let long = 1 + rng.below(40) as usize;
    match rng.below(13) {
        0 => fields[at].clear(),
        1 => fields[at] = (u64::from(u32::MAX) + 1 + u64::from(rng.below(2))).to_string(),
        2 => fields[at] = rng.draw().to_string() + "0",
        3 => fields[at] = "9".repeat(long.max(11)),
        4 => fields[0] = (6 + rng.below(3)).to_string(),
        5 => fields[1] = (2 + rng.below(3)).to_string(),
        6 => fields[at] = format!("{}{}", rng.pick(&["+", "-", " ", "\0", "\t"]), fields[at]),
        7 => fields[at] += rng.pick(&["\r", " ", "x", "\0", ".", ";"]),
        8 => fields[at] += ",0",
        9 => fields[at] = "0".repeat(LINE_LIMIT + 1 - 10 + long) + &fields[at],
        10 => fields[at] = "0".repeat(LINE_LIMIT + 1 - 10) + &fields[at],
        11 => return swap_line(rng).into_bytes(),
        _ => return [&b"\n"[..], b"3,1,1,0\n", b"\xFF\n", b"\r\n", b",,,,\n"][at].to_vec(),
    }
    joined(&fields).into_bytes()
}

/// The line of a swap that a run serves or refuses.
fn swap_line(rng: &mut Rng) -> String {
    let width = rng.pick(&[1, 2, 4, 4]);
    let address = rng.below(MEMORY_BYTES as u32 + 0x100);
    line_of(&Call::swap(width, address, rng.word() >> (32 - 8 * width)).to_numbers())
}

/// The bytes that a changed byte is set to.
pub const BYTES: [u8; 16] = [
    b'0', b'1', b'2', b'4', b'5', b'9', b',', b'\n', b'\r', b' ', b'+', b'-', 0, b'/', b':', 255,
];

/// Every text with one byte replaced, one left out, or one put in.
pub fn changed(text: &[u8]) -> impl Iterator<Item = Vec<u8>> + '_ {
    let replaced = (0..text.len())
        .flat_map(move |at| BYTES.map(|byte| [&text[..at], &[byte], &text[at + 1..]].concat()));
    let left_out = (0..text.len()).map(move |at| [&text[..at], &text[at + 1..]].concat());
    let put_in = (0..=text.len())
        .flat_map(move |at| BYTES.map(|byte| [&text[..at], &[byte], &text[at..]].concat()));
    replaced.chain(left_out).chain(put_in)
}

#[cfg(test)]
mod tests {
    use super::*;
    use crate::replay::call_of;

    #[test]
    fn lines_are_calls_and_departing_lines_are_not() {
        let mut rng = Rng::new(1);
        for n in 0..20_000 {
            let call = Call::operate(rng.below(16), rng.below(16), rng.below(16), rng.word());
            let line = varied_line(&mut rng, &call);
            let read = call_of(line.as_bytes()).expect("a call");
            assert_eq!(read.to_numbers()[..3], call.to_numbers()[..3], "{line}");
            let line = departing_line(&mut rng);
            assert_eq!(call_of(&line), None, "{n}: {:?}", line.escape_ascii());
            assert!(line.ends_with(b"\n"));
        }
    }

    #[test]
    fn changes_of_a_byte() {
        let changes: Vec<_> = changed(b"ab").collect();
        assert_eq!(changes.len(), 2 * BYTES.len() + 2 + 3 * BYTES.len());
        assert!(changes.contains(&b"a,".to_vec()) && changes.contains(&b"b".to_vec()));
        assert!(changes.contains(&b"ab\n".to_vec()));
    }
}
