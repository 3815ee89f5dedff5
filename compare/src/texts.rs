//! States stored as text and texts read back: the library's beside the second model's.

use crate::packed::{OfModel, Packed};
use crate::side_by_side::{difference, Numbers, Setting};
use sa110_model::random::Rng;
use sa110_model::text;
use std::fmt;

/// What storing answers: 0 for a length, and its refusals.
const STORES: [u32; 5] = [0, 1, 3, 4, 15];
/// What reading answers: 0, and its refusals.
const READS: [u32; 5] = [0, 1, 14, 3, 4];

/// Bytes behind the slice that are watched too.
const BEHIND: usize = 64;

/// What was compared.
#[derive(Clone, Default)]
pub struct Texts {
    stores: [u64; STORES.len()],
    reads: [u64; READS.len()],
    /// Bytes of the texts stored.
    pub bytes: u64,
}

impl Texts {
    /// Stores a state with a slice of so many bytes lent, on both sides; `name` says what the state is. Gives
    /// the text, or the refusal.
    pub fn store(
        &mut self,
        packed: &Packed,
        memory: &[u8],
        room: usize,
        name: &dyn Fn() -> String,
    ) -> Result<Vec<u8>, u32> {
        let (state, registers) = packed.unpacked();
        let before = packed.clone();
        // no two bytes in a row are the same
        let mut slice: Vec<u8> = (0..room + BEHIND).map(|i| (i * 7) as u8).collect();
        let mut expected = slice.clone();
        let proved = packed.store_text(memory, &mut slice[..room]);
        let model = text::store(&state, &registers, memory, &mut expected[..room]);
        let n = memory.len();
        let said = || format!("storing, memory {n} bytes, slice {room}; {}", name());
        assert_eq!(proved, model, "{}", said());
        if slice != expected {
            panic!("{}: {}", said(), first_difference(&slice, &expected));
        }
        assert!(*packed == before, "{}: state or record changes", said());
        note(&mut self.stores, &STORES, model.err().unwrap_or(0));
        model.map(|length| {
            self.bytes += length as u64;
            slice.truncate(length);
            slice
        })
    }

    /// Reads a text back on both sides, the library's into a state and record of any numbers; `name` says
    /// what the text is. Gives what is read, or the refusal. A text that reads is stored as that very text.
    pub fn read(
        &mut self,
        rng: &mut Rng,
        text: &[u8],
        memory: &[u8],
        name: &dyn Fn() -> String,
    ) -> Result<Packed, u32> {
        let mut proved = any_numbers(rng);
        let refusal = proved.read_text(memory, text).err().unwrap_or(0);
        let model = text::read(text, memory);
        let n = memory.len();
        let said = || format!("reading, memory {n} bytes; {}", name());
        let expected = model.refused.unwrap_or(0);
        assert_eq!(refusal, expected, "{}", said());
        let left = Packed::of(&model.state, &model.registers);
        assert_eq!(difference(&proved, &left), None, "{}", said());
        note(&mut self.reads, &READS, expected);
        if expected != 0 {
            assert!(proved == Packed::ZERO, "{}: not all zeros", said());
            return Err(expected);
        }
        let again = self.store(&proved, memory, text.len(), name);
        assert!(again.as_deref() == Ok(text), "{}: another text", said());
        Ok(proved)
    }

    /// Makes the calls on the library in one run, and in runs between which the state is stored and read back;
    /// a run ends before each of these calls. Answers and everything left are compared; `name` says where
    /// the list comes from.
    pub fn carry_on(
        &mut self,
        rng: &mut Rng,
        setting: &Setting,
        calls: &[Numbers],
        stops: &[usize],
        name: &dyn Fn() -> String,
    ) {
        let mut unbroken = setting.clone();
        let mut expected = vec![0; calls.len()];
        let made = unbroken.run(calls.as_flattened(), &mut expected);
        assert_eq!(made, calls.len(), "{}", name());
        let mut broken = setting.clone();
        let mut answers = vec![0; calls.len()];
        let mut from = 0;
        for stop in stops.iter().chain([&calls.len()]) {
            let part = calls[from..*stop].as_flattened();
            broken.run(part, &mut answers[from..*stop]);
            from = *stop;
            let said = || format!("stopped before call {stop}; {}", name());
            let text = self.store(&broken.packed, &broken.memory, text::TEXT_MAX, &said);
            let text = text.unwrap_or_else(|refusal| panic!("refused by {refusal}; {}", said()));
            let back = self.read(rng, &text, &broken.memory, &said);
            let back = back.unwrap_or_else(|refusal| panic!("refused by {refusal}; {}", said()));
            assert_eq!(difference(&back, &broken.packed), None, "{}", said());
            broken.packed = back;
        }
        let at = (0..calls.len()).find(|i| answers[*i] != expected[*i]);
        assert_eq!(at, None, "the answer of a call; {}", name());
        assert_eq!(
            difference(&broken.packed, &unbroken.packed),
            None,
            "{}",
            name()
        );
        assert!(broken.memory == unbroken.memory, "memory; {}", name());
        assert!(broken.store == unbroken.store, "cache store; {}", name());
    }

    pub fn rows(&self) -> Vec<(String, u64)> {
        let row = |kind: &str, answer: u32| match answer {
            0 => format!("{kind}, served"),
            number => format!("{kind}, refusal {number}"),
        };
        let stores = STORES.map(|answer| row("storing", answer));
        let reads = READS.map(|answer| row("reading", answer));
        let counts = self.stores.into_iter().chain(self.reads);
        stores.into_iter().chain(reads).zip(counts).collect()
    }

    /// The rows that begin so and never occurred.
    pub fn missing(&self, kind: &str) -> Vec<String> {
        let rows = self.rows().into_iter();
        let never = rows.filter(|row| row.1 == 0).map(|row| row.0);
        never.filter(|name| name.starts_with(kind)).collect()
    }
}

impl fmt::Display for Texts {
    fn fmt(&self, out: &mut fmt::Formatter) -> fmt::Result {
        let (stores, reads): (u64, u64) = (self.stores.iter().sum(), self.reads.iter().sum());
        writeln!(out, "{stores} stored, {} bytes, {reads} read", self.bytes)?;
        for (name, count) in self.rows().iter().filter(|row| row.1 > 0) {
            writeln!(out, "{count:>10}  {name}")?;
        }
        Ok(())
    }
}

/// Counts an answer among those that there are.
fn note(counts: &mut [u64], answers: &[u32], answer: u32) {
    let at = answers.iter().position(|number| *number == answer);
    counts[at.unwrap_or_else(|| panic!("answer {answer}"))] += 1;
}

/// A state and record of any numbers.
fn any_numbers(rng: &mut Rng) -> Packed {
    let mut any = Packed::ZERO;
    let word = rng.draw() | 1;
    let s = &mut any.state;
    (s.size, s.used) = (word as usize, word as usize);
    s.entries.fill(word);
    s.lines.fill(word);
    s.words.fill(word);
    s.pointers.fill(word as u32);
    s.bytes.fill([word as u8; 16]);
    s.counts.calls = word as u32;
    (s.counts.misses, s.counts.hits) = (word as u32, word as u32);
    (s.counts.fills, s.counts.halves) = (word as u32, word as u32);
    let r = &mut any.cp15;
    (r.control, r.base, r.domains) = (word as u32, word as u32, word as u32);
    (r.fsr, r.far, r.pointer) = (word as u32, word as u32, word as u32);
    any
}

/// Where two slices first differ, with what stands around there.
fn first_difference(proved: &[u8], model: &[u8]) -> String {
    let at = proved.iter().zip(model).take_while(|(p, m)| p == m).count();
    let shown = |bytes: &[u8]| {
        let (from, to) = (at.saturating_sub(40), (at + 40).min(bytes.len()));
        bytes[from..to].escape_ascii().to_string()
    };
    let (p, m) = (shown(proved), shown(model));
    format!("byte {at}:\nproved ..{p}..\nmodel  ..{m}..")
}
