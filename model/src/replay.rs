//! Replay of a trace kept as text (document 02, One): one call a line, five decimal fields parted by
//! commas; each line's number and answer are printed. `replay` and its kind take the whole input's
//! bytes and give the output's; `stream` reads and writes as it goes.

use crate::answers::Answer;
use crate::bus::no_bad_words;
use crate::calls::{Call, FIELDS};
use crate::coverage::Unwatched;
use crate::machine::Machine;
use crate::plain::Plain;
use std::io::{self, BufRead, Read, Write};

/// Memory is so many zero bytes.
pub const MEMORY_BYTES: usize = 65_536;
/// A line has at most so many bytes, with the line feed that ends it.
pub const LINE_LIMIT: usize = 64;
/// The refusal of a line that departs from the form.
pub const DEPARTS: u32 = 13;

/// A machine that a trace can be replayed on.
pub trait Replays {
    fn answer(&mut self, call: &Call) -> Answer;
}

impl Replays for Machine {
    fn answer(&mut self, call: &Call) -> Answer {
        self.call(call)
    }
}

impl Replays for Plain {
    fn answer(&mut self, call: &Call) -> Answer {
        self.call(call)
    }
}

/// What a replay prints and how it ends.
#[derive(Clone, Debug, Default, PartialEq, Eq)]
pub struct Replayed {
    pub output: Vec<u8>,
    /// Lines printed.
    pub lines: u64,
    /// It stopped at a line that departs from the form.
    pub stopped: bool,
}

/// The machine at a replay's start. The map has no bad words.
pub fn fresh() -> Machine {
    Machine::fresh(vec![0; MEMORY_BYTES])
}

/// The plain machine at a replay's start.
pub fn fresh_plain() -> Plain {
    Plain::start(vec![0; MEMORY_BYTES], no_bad_words(MEMORY_BYTES))
}

/// What the replay of a whole input prints.
pub fn replay(input: &[u8]) -> Vec<u8> {
    replay_on(&mut fresh(), 0, input).output
}

/// What the replay of a whole input prints if the plain machine answers.
pub fn replay_plain(input: &[u8]) -> Vec<u8> {
    replay_on(&mut fresh_plain(), 0, input).output
}

/// Replays an input on a machine, behind so many lines.
pub fn replay_on<T: Replays>(machine: &mut T, before: u64, input: &[u8]) -> Replayed {
    let mut replayed = Replayed::default();
    for (number, line) in (before + 1..).zip(input.split_inclusive(|byte| *byte == b'\n')) {
        let answer = call_of(line).map(|call| machine.answer(&call));
        let printed = print(number, answer.unwrap_or(Answer::Refused(DEPARTS)));
        replayed.output.extend(printed.bytes());
        replayed.lines += 1;
        if answer.is_none() {
            replayed.stopped = true;
            break;
        }
    }
    replayed
}

/// The printed line: number, kind (0 served, 1 fault, 2 refused), and the value, FSR or refusal number.
fn print(number: u64, answer: Answer) -> String {
    match answer {
        Answer::Value(value) => format!("{number},0,{value}\n"),
        Answer::Signed(value) => format!("{number},0,{value}\n"),
        Answer::Fault(fault) => format!("{number},1,{}\n", fault.fsr()),
        Answer::Refused(refusal) => format!("{number},2,{refusal}\n"),
    }
}

/// The call of a line with its line feed; none if the line departs from the form.
pub fn call_of(line: &[u8]) -> Option<Call> {
    if line.len() > LINE_LIMIT {
        return None;
    }
    let fields = line.strip_suffix(b"\n")?.split(|byte| *byte == b',');
    let numbers: Vec<u32> = fields.map(number_of).collect::<Option<_>>()?;
    let numbers: [u32; FIELDS] = numbers.try_into().ok()?;
    call_of_numbers(&numbers)
}

/// The call of a line's numbers. A line has one of One's five kinds of call, so a swap departs from the form.
fn call_of_numbers(numbers: &[u32; FIELDS]) -> Option<Call> {
    let call = Call::from_numbers(numbers)?;
    (!matches!(call, Call::Swap { .. })).then_some(call)
}

/// The number of a field: digits, at least one, up to 4,294,967,295.
fn number_of(field: &[u8]) -> Option<u32> {
    if field.is_empty() {
        return None;
    }
    let mut number: u64 = 0;
    for byte in field {
        if !byte.is_ascii_digit() {
            return None;
        }
        number = 10 * number + u64::from(byte - b'0');
        if number > u64::from(u32::MAX) {
            return None;
        }
    }
    Some(number as u32)
}

/// Replays what a reader gives on a fresh machine and writes the answers; the lines are read into one
/// buffer. Gives the number of lines printed.
pub fn stream(mut input: impl BufRead, mut output: impl Write) -> io::Result<u64> {
    let mut machine = fresh();
    let mut line = Vec::with_capacity(LINE_LIMIT + 1);
    let mut number = 0;
    loop {
        line.clear();
        let limit = LINE_LIMIT as u64 + 1;
        if input.by_ref().take(limit).read_until(b'\n', &mut line)? == 0 {
            break;
        }
        number += 1;
        let Some(call) = parse(&line) else {
            writeln!(output, "{number},2,{DEPARTS}")?;
            break;
        };
        match machine.step(&call, &mut Unwatched) {
            Answer::Value(value) => writeln!(output, "{number},0,{value}")?,
            Answer::Signed(value) => writeln!(output, "{number},0,{value}")?,
            Answer::Fault(fault) => writeln!(output, "{number},1,{}", fault.fsr())?,
            Answer::Refused(refusal) => writeln!(output, "{number},2,{refusal}")?,
        }
    }
    output.flush()?;
    Ok(number)
}

/// As `call_of`, by `split` and `parse`.
fn parse(line: &[u8]) -> Option<Call> {
    if line.len() > LINE_LIMIT {
        return None;
    }
    let text = std::str::from_utf8(line).ok()?.strip_suffix('\n')?;
    let mut fields = text.split(',');
    let mut numbers = [0; FIELDS];
    for number in &mut numbers {
        let field = fields.next()?;
        // `parse` allows a plus sign
        if field.starts_with('+') {
            return None;
        }
        *number = field.parse().ok()?;
    }
    if fields.next().is_some() {
        return None;
    }
    call_of_numbers(&numbers)
}

#[cfg(test)]
mod tests {
    use super::*;

    /// What both forms of the replay print.
    fn printed(input: impl AsRef<[u8]>) -> String {
        let whole = replay(input.as_ref());
        let mut streamed = Vec::new();
        stream(input.as_ref(), &mut streamed).expect("slices do not fail");
        assert_eq!(whole, streamed, "{:?}", input.as_ref().escape_ascii());
        String::from_utf8(whole).expect("digits, commas, signs and line feeds")
    }

    #[test]
    fn example_of_the_paper() {
        let input = "3,1,1,0,0\n0,1,4,0,0\n0,1,3,0,0\n";
        assert_eq!(printed(input), "1,0,112\n2,0,0\n3,2,6\n");
        assert_eq!(replay_plain(input.as_bytes()), b"1,0,112\n2,0,0\n3,2,6\n");
    }

    #[test]
    fn nothing_prints_nothing() {
        assert_eq!(printed(""), "");
        assert_eq!(replay_plain(b""), b"");
    }

    #[test]
    fn answers() {
        let input =
            "2,1,1,9,128\n0,1,1,9,0\n1,1,1,9,0\n1,1,1,8,0\n2,1,4,16,2147483648\n1,1,4,16,7\n\
                     1,1,2,18,0\n0,0,4,65536,0\n3,1,6,0,0\n3,0,6,0,0\n4,1,1,0,128\n4,1,1,0,5\n\
                     4,1,7,122,0\n4,1,7,74,0\n2,1,1,0,256\n3,1,7,0,0\n";
        let output = "1,0,0\n2,0,128\n3,0,-128\n4,0,0\n5,0,0\n6,0,-2147483648\n\
                      7,0,-32768\n8,1,8\n9,0,65536\n10,2,8\n11,2,11\n12,2,12\n\
                      13,2,10\n14,0,0\n15,2,7\n16,2,9\n";
        assert_eq!(printed(input), output);
        assert_eq!(replay_plain(input.as_bytes()), output.as_bytes());
    }

    #[test]
    fn lines_of_64_bytes_and_no_longer() {
        let zeros = |n| format!("{}3,1,1,0,0\n", "0".repeat(n));
        assert_eq!(zeros(54).len(), 64);
        assert_eq!(printed(zeros(54)), "1,0,112\n");
        assert_eq!(printed(zeros(55)), "1,2,13\n");
        assert_eq!(printed(zeros(1_000_000)), "1,2,13\n");
        assert_eq!(printed("0".repeat(1_000_000)), "1,2,13\n");
    }

    /// Lines that depart from the form, behind one that does not and before another.
    #[test]
    fn lines_that_depart() {
        for line in [
            "",
            ",",
            ",,,,",
            "3,1,1,0",
            "3,1,1,0,",
            ",3,1,1,0,0",
            "3,1,1,0,0,",
            "3,1,1,0,0,0",
            "3,1,,0,0",
            "3,1,1,0,0\r",
            " 3,1,1,0,0",
            "3,1,1,0,0 ",
            "3,1, 1,0,0",
            "+3,1,1,0,0",
            "3,1,1,+0,0",
            "3,1,1,-0,0",
            "3,1,1,0,-1",
            "3,1,1,0,0x0",
            "3,1,1,0,4294967296",
            "3,1,1,4294967296,0",
            "3,1,4294967297,0,0",
            "4294967299,1,1,0,0",
            "3,1,1,0,18446744073709551616",
            "3,1,1,0,99999999999999999999999999999999999999999999",
            "6,1,1,0,0",
            "3,2,1,0,0",
            "3;1;1;0;0",
            "3,1,1,0,0\0",
            "3,1,1,0,\u{0661}",
        ] {
            let input = format!("3,1,1,0,0\n{line}\n3,1,1,0,0\n");
            assert_eq!(printed(&input), "1,0,112\n2,2,13\n", "{input:?}");
        }
        assert_eq!(printed(b"3,1,1,0,\xFF\n"), "1,2,13\n");
        assert_eq!(printed("3,1,1,0,0\n3,1,1,0,0"), "1,0,112\n2,2,13\n");
        assert_eq!(printed("\n"), "1,2,13\n");
    }

    /// A swap's five numbers are a call in a run, and a line that departs from the form in a text.
    #[test]
    fn swaps_depart() {
        for numbers in [
            [5, 1, 4, 0, 0],
            [5, 0, 4, 0, u32::MAX],
            [5, 1, 1, 3, 255],
            [5, 1, 2, 0, 0],
            [5, 1, 4, 65_536, 0],
        ] {
            assert!(Call::from_numbers(&numbers).is_some(), "{numbers:?}");
            let line = numbers.map(|number| number.to_string()).join(",");
            for line in [line.clone(), format!("00{line}")] {
                let input = format!("3,1,1,0,0\n{line}\n3,1,1,0,0\n");
                assert_eq!(printed(&input), "1,0,112\n2,2,13\n", "{input:?}");
                assert_eq!(replay_plain(input.as_bytes()), b"1,0,112\n2,2,13\n");
            }
        }
    }

    /// Fields that a call ignores are tested, and may have any number that fits.
    #[test]
    fn fields_of_any_number_that_fits() {
        let input = "3,1,1,4294967295,4294967295\n0003,01,00000000000000000001,0,00\n\
                     0,1,4294967295,4294967295,4294967295\n0,1,4,4294967295,4294967295\n";
        assert_eq!(printed(input), "1,0,112\n2,0,112\n3,2,6\n4,1,8\n");
    }

    #[test]
    fn replay_behind_lines() {
        let replayed = replay_on(
            &mut fresh(),
            u64::from(u32::MAX),
            b"3,1,1,0,0\n\n3,1,1,0,0\n",
        );
        assert_eq!(replayed.output, b"4294967296,0,112\n4294967297,2,13\n");
        assert_eq!((replayed.lines, replayed.stopped), (2, true));
    }
}
