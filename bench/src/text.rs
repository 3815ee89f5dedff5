//! A state stored as text, and read back.

use crate::earlier::Earlier;
use crate::measure::{Line, Side};
use sa110_compare::full::is_full;
use sa110_compare::packed::{OfModel, Packed};
use sa110_model::random::longest::longest;
use sa110_model::random::Rng;
use sa110_model::text::{self, text_of, TEXT_MAX};
use sa110_model::Machine;
use std::hint::black_box;
use std::rc::Rc;

pub const WHAT: &str = "\
text: one state stored as text, or one text read back, again and again, with the test of refusal 3
  full: 512 lines, 32 TLB entries, 8 buffer entries, 16 MB of memory, each number with as many digits as a sound state's can have; 12,847 bytes
  fresh: the state after a start on 64 KB, all numbers but one 0; 6,174 bytes";

/// A library's storing: state and record, memory, and the slice for the text.
pub type Store = dyn Fn(&Packed, &[u8], &mut [u8]) -> Result<usize, u32>;
/// A library's reading, into a state and record: memory, and the text.
pub type Read = dyn Fn(&mut Packed, &[u8], &[u8]) -> Result<(), u32>;

/// A state to store, and its text.
struct Stored {
    machine: Machine,
    packed: Packed,
    text: Vec<u8>,
}

pub fn lines(earlier: Option<Earlier>) -> Vec<Line> {
    let full = longest(&mut Rng::new(1));
    assert!(is_full(&full));
    let fresh = Machine::fresh(vec![0; 0x10000]);
    let mut lines = Vec::new();
    for (name, machine) in [("full", full), ("fresh", fresh)] {
        let stored = Rc::new(Stored {
            packed: Packed::of(&machine.state, &machine.registers),
            text: text_of(&machine.state, &machine.registers),
            machine,
        });
        lines.push(store_line(name, &stored, earlier));
        lines.push(read_line(name, &stored, earlier));
    }
    lines
}

fn store_line(name: &str, stored: &Rc<Stored>, earlier: Option<Earlier>) -> Line {
    let store = earlier.and_then(|earlier| earlier.store_text());
    let side = Rc::clone(stored);
    Line {
        name: format!("text, store {name}"),
        calls: 1,
        library: library_stores(stored, Box::new(Packed::store_text)),
        earlier: store.map(|store| library_stores(stored, store)),
        model: Box::new(move |turns| {
            let m = &side.machine;
            let mut slice = [0; TEXT_MAX];
            for _ in 0..turns {
                let answer = text::store(black_box(&m.state), &m.registers, &m.memory, &mut slice);
                assert_eq!(answer, Ok(side.text.len()));
                black_box(&slice);
            }
        }),
    }
}

fn library_stores(stored: &Rc<Stored>, store: Box<Store>) -> Side {
    let side = Rc::clone(stored);
    let mut slice = [0; TEXT_MAX];
    let memory = &stored.machine.memory;
    let length = store(&stored.packed, memory, &mut slice);
    assert!(length.is_ok_and(|length| slice[..length] == stored.text));
    Box::new(move |turns| {
        let mut slice = [0; TEXT_MAX];
        for _ in 0..turns {
            let answer = store(black_box(&side.packed), &side.machine.memory, &mut slice);
            assert_eq!(answer, Ok(side.text.len()));
            black_box(&slice);
        }
    })
}

fn read_line(name: &str, stored: &Rc<Stored>, earlier: Option<Earlier>) -> Line {
    let read = earlier.and_then(|earlier| earlier.read_text());
    let side = Rc::clone(stored);
    Line {
        name: format!("text, read {name}"),
        calls: 1,
        library: library_reads(stored, Box::new(Packed::read_text)),
        earlier: read.map(|read| library_reads(stored, read)),
        model: Box::new(move |turns| {
            for _ in 0..turns {
                let back = text::read(black_box(&side.text), &side.machine.memory);
                assert_eq!(back.refused, None);
                black_box(&back);
            }
        }),
    }
}

fn library_reads(stored: &Rc<Stored>, read: Box<Read>) -> Side {
    let side = Rc::clone(stored);
    let mut back = Packed::ZERO;
    let answer = read(&mut back, &stored.machine.memory, &stored.text);
    assert!(answer.is_ok() && back == stored.packed);
    Box::new(move |turns| {
        for _ in 0..turns {
            let answer = read(&mut back, &side.machine.memory, black_box(&side.text));
            assert_eq!(answer, Ok(()));
            black_box(&back);
        }
    })
}
