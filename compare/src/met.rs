//! How often each kind of call, answer and look was compared.

use crate::side_by_side::{refused, Numbers};
use crate::NO_CALL;
use sa110::Look;
use sa110_model::answers::STATUSES;
use sa110_model::bus::{Bus, Word, LINE_WORDS, WORD_BYTES};
use sa110_model::refusals::BAD_MAP;
use sa110_model::registers::M;
use sa110_model::walk::walk;
use sa110_model::Machine;

/// The kinds of call, by their numbers.
const KINDS: [&str; 6] = [
    "load",
    "signed load",
    "store",
    "CP15 read",
    "CP15 write",
    "swap",
];

/// What looks find.
const LOOKS: [&str; 6] = [
    "nowhere",
    "nowhere, refusal 16",
    "nowhere, a bad word in the walk",
    "cache store",
    "memory",
    "memory, a bad word in the line",
];

#[derive(Clone, Default)]
pub struct Met {
    pub calls: u64,
    kinds: [u64; KINDS.len()],
    statuses: [u64; 16],
    refusals: [u64; BAD_MAP as usize + 1],
    no_calls: u64,
    looks: [u64; LOOKS.len()],
}

/// Which of `LOOKS` a look at an address is.
fn look_kind(m: &Machine, va: u32, found: Look) -> usize {
    match found {
        Look::OfStore(_) => 3,
        Look::OfMemory(at) => {
            let line = &m.bad[at / WORD_BYTES..][..LINE_WORDS];
            if line.contains(&1) {
                5
            } else {
                4
            }
        }
        Look::Nowhere => match refused(m) {
            Some(BAD_MAP) => 1,
            None if walks_to_a_bad_word(m, va) => 2,
            _ => 0,
        },
    }
}

fn walks_to_a_bad_word(m: &Machine, va: u32) -> bool {
    let bus = Bus {
        memory: &m.memory,
        bad: &m.bad,
    };
    let plain = &m.registers.plain;
    let aborted = walk(bus, plain.table_base, va).aborted;
    plain.has(M) && aborted.is_some_and(|at| bus.word(at) == Word::Bad)
}

impl Met {
    /// Takes note of what a look at an address finds.
    pub fn note_look(&mut self, machine: &Machine, va: u32, found: Look) {
        self.looks[look_kind(machine, va, found)] += 1;
    }

    /// Takes note of five numbers and what they are answered with.
    pub fn note(&mut self, numbers: &Numbers, code: u64) {
        self.calls += 1;
        if code == NO_CALL {
            self.no_calls += 1;
            return;
        }
        self.kinds[numbers[0] as usize] += 1;
        match code >> 32 {
            0 => {}
            1 => self.statuses[code as usize % 16] += 1,
            _ => self.refusals[code as u32 as usize] += 1,
        }
    }

    pub fn add(&mut self, other: &Met) {
        self.calls += other.calls;
        self.no_calls += other.no_calls;
        let kinds = self.kinds.iter_mut().zip(other.kinds);
        let statuses = self.statuses.iter_mut().zip(other.statuses);
        let refusals = self.refusals.iter_mut().zip(other.refusals);
        let looks = self.looks.iter_mut().zip(other.looks);
        for (sum, count) in kinds.chain(statuses).chain(refusals).chain(looks) {
            *sum += count;
        }
    }

    pub fn rows(&self) -> Vec<(String, u64)> {
        let kinds = KINDS.iter().zip(self.kinds);
        let mut rows: Vec<_> = kinds.map(|(name, n)| (name.to_string(), n)).collect();
        rows.push(("numbers that are no call".to_string(), self.no_calls));
        for number in (1..=12).chain([BAD_MAP as usize]) {
            rows.push((format!("refusal {number}"), self.refusals[number]));
        }
        for status in STATUSES {
            let number = status as usize;
            rows.push((format!("fault status {number}"), self.statuses[number]));
        }
        for (place, count) in LOOKS.iter().zip(self.looks) {
            rows.push((format!("look, {place}"), count));
        }
        rows
    }

    /// The rows that never occurred.
    pub fn missing(&self) -> Vec<String> {
        let rows = self.rows().into_iter();
        rows.filter(|row| row.1 == 0).map(|row| row.0).collect()
    }
}
