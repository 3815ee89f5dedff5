//! `run` over lists that meet bad words, and what the test of the map, refusal 16, costs.

use crate::calls::{served, store, BUFFERED, DATA, MEMORY, PAGED, PAGE_COUNT};
use crate::earlier::Earlier;
use crate::measure::{measure, Line, Measured, Times};
use crate::runs::{list, run_line, List};
use sa110_model::random::Rng;
use sa110_model::{Call, Machine};

pub const WHAT: &str = "\
run, bad words: as the runs above, with bad words in the map, which is zeros otherwise
  behind: loads of any line in 64 small pages whose last word is bad, of its other words; every fill is aborted, the load served
  before: loads of any line in 64 small pages whose first word is bad; every load faults
  random: as random; one line in eight has a bad word
  stores: as buffered stores; every second word is bad, and its bytes are dropped";

pub const MAP: &str = "\
one call: runs of one call, a CP15 read, on a fresh machine; each run tests the map, a quarter of memory's length, once
ns a byte: the difference of two of these lines by the difference of their maps' lengths";

pub fn lines(earlier: Option<Earlier>) -> Vec<Line> {
    let rng = &mut Rng::new(1);
    let lists = [behind, before, random, stores];
    lists.iter().map(|of| run_line(of(rng), earlier)).collect()
}

/// A machine with the tables that `served` has, and these words bad in each line behind the tables.
fn with_bad_words(bad: impl Fn(usize) -> bool) -> Machine {
    let mut machine = served(&[]);
    for word in DATA as usize / 4..MEMORY as usize / 4 {
        machine.bad[word] = bad(word).into();
    }
    machine
}

fn any_line(rng: &mut Rng) -> u32 {
    PAGED + rng.below(PAGE_COUNT * 128) * 32
}

fn behind(rng: &mut Rng) -> List {
    let machine = with_bad_words(|word| word % 8 == 7);
    list("run, bad words behind", machine, |calls| {
        calls.push(Call::load(4, any_line(rng) + rng.below(7) * 4))
    })
}

fn before(rng: &mut Rng) -> List {
    let machine = with_bad_words(|word| word % 8 == 0);
    list("run, bad words before", machine, |calls| {
        calls.push(Call::load(4, any_line(rng) + rng.below(8) * 4))
    })
}

fn random(rng: &mut Rng) -> List {
    let machine = with_bad_words(|word| word / 8 % 8 == 3 && word % 8 == word / 64 % 8);
    list("run, bad words, random", machine, |calls| {
        let line = any_line(rng);
        calls.push(Call::load(4, line + rng.below(8) * 4));
        if rng.percent(50) {
            calls.push(store(rng, line));
        }
    })
}

fn stores(rng: &mut Rng) -> List {
    let machine = with_bad_words(|word| word % 2 == 1);
    list("run, bad words, stores", machine, |calls| {
        let line = BUFFERED + DATA + rng.below(2048) * 32;
        calls.push(store(rng, line))
    })
}

/// Memory's lengths, and their names.
const LENGTHS: [(usize, &str); 3] = [
    (1 << 16, "one call, 64 KB"),
    (1 << 20, "one call, 1 MB"),
    (1 << 24, "one call, 16 MB"),
];

/// A run of one call with a memory of so many bytes.
fn one_call(length: usize, name: &'static str, earlier: Option<Earlier>) -> Line {
    let list = List {
        name,
        machine: Machine::fresh(vec![0; length]),
        calls: vec![Call::read(1)],
    };
    run_line(list, earlier)
}

/// Prints a row for runs of one call with each memory, and rows of ns a byte of map between them.
pub fn print_map_rows(
    rounds: usize,
    earlier: Option<Earlier>,
    row: impl Fn(&str, &Measured) -> String,
) {
    let mut measured = Vec::new();
    for (length, name) in LENGTHS {
        let times = measure(&mut one_call(length, name, earlier), rounds);
        println!("{}", row(name, &times));
        measured.push(times);
    }
    for (i, name) in [
        (0, "ns a byte, 64 KB to 1 MB"),
        (1, "ns a byte, 1 to 16 MB"),
    ] {
        let bytes = (LENGTHS[i + 1].0 - LENGTHS[i].0) as f64 / 4.0;
        let a_byte = |less: Times, more: Times| (more.least - less.least) / bytes;
        let (less, more) = (&measured[i], &measured[i + 1]);
        let library = a_byte(less.library, more.library);
        let model = a_byte(less.model, more.model);
        let ratio = library / model;
        println!("{name:<28}{library:>18.4}{model:>18.4}{ratio:>8.2}");
    }
}
