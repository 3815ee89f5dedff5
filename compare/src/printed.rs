//! How often each kind of answer was printed in replays.

use sa110_model::answers::STATUSES;
use sa110_model::refusals::BAD_MAP;
use sa110_model::replay::call_of;
use std::fmt;

/// How often each kind of answer was printed.
#[derive(Clone, Default)]
pub struct Printed {
    /// Loads, signed loads, stores, CP15 reads and writes.
    served: [u64; 5],
    /// Signed loads with a minus sign.
    negative: u64,
    statuses: [u64; 16],
    refusals: [u64; BAD_MAP as usize + 1],
    /// Swaps, which depart from the form.
    swaps: u64,
}

impl Printed {
    /// Takes note of a text's lines and what they print.
    pub(crate) fn note(&mut self, text: &[u8], output: &[u8]) {
        let lines = text.split_inclusive(|byte| *byte == b'\n');
        for (line, printed) in lines.zip(output.split(|byte| *byte == b'\n')) {
            let printed = std::str::from_utf8(printed).expect("printed text");
            let fields: Vec<_> = printed.split(',').collect();
            let [_, kind, value] = fields[..] else {
                continue; // behind a line that departs from the form
            };
            let value: i64 = value.parse().expect("a printed number");
            match (kind, call_of(line)) {
                ("0", _) if value < 0 => self.negative += 1,
                ("0", Some(call)) => self.served[call.to_numbers()[0] as usize] += 1,
                ("0", None) => panic!("no call is served"),
                ("1", _) => self.statuses[value as usize % 16] += 1,
                _ => self.refusals[value as usize] += 1,
            }
            if line.starts_with(b"5,") {
                assert_eq!((kind, value), ("2", 13), "a line with kind 5");
                self.swaps += 1;
            }
        }
    }

    fn rows(&self) -> Vec<(String, u64)> {
        let names = [
            "load served",
            "signed load served, not negative",
            "store served",
            "read served",
            "write served",
        ];
        let served = names.iter().zip(self.served);
        let mut rows: Vec<_> = served.map(|(name, n)| (name.to_string(), n)).collect();
        rows.push(("signed load served, negative".to_string(), self.negative));
        for number in (1..=13).chain([BAD_MAP as usize]) {
            rows.push((format!("refusal {number}"), self.refusals[number]));
        }
        rows.push(("refusal 13 of a line with kind 5".to_string(), self.swaps));
        for status in STATUSES {
            let number = status as usize;
            rows.push((format!("fault status {number}"), self.statuses[number]));
        }
        rows
    }

    /// The kinds of answer that were never printed.
    pub fn missing(&self) -> Vec<String> {
        let rows = self.rows().into_iter();
        rows.filter(|row| row.1 == 0).map(|row| row.0).collect()
    }
}

impl fmt::Display for Printed {
    fn fmt(&self, out: &mut fmt::Formatter) -> fmt::Result {
        for (name, count) in self.rows() {
            writeln!(out, "{count:>10}  {name}")?;
        }
        Ok(())
    }
}
