//! Machines whose every place is taken: 32 TLB entries, 512 lines, eight buffer entries.

use sa110_model::random::Rng;
use sa110_model::state::{BUFFER_ENTRIES, LINES, SETS, WAYS};
use sa110_model::{words, Answer, Call, Machine};

/// Where the lines of a full cache lie. The model's soundness test compares two tags of a set only if
/// their low six bits are equal; the library's compares all.
#[derive(Clone, Copy, Debug, PartialEq, Eq)]
pub enum Tags {
    /// 16 KB in a row: no two tags of a set agree in their low six bits.
    InARow,
    /// Anywhere.
    Random,
    /// A megabyte apart: all tags of a set agree in their low six bits.
    Apart,
}

pub const TAGS: [Tags; 3] = [Tags::InARow, Tags::Random, Tags::Apart];

/// The level 1 table lies at 0, and each of its 4,096 words maps a section to physical 0, cacheable
/// and bufferable. Lines and stores lie behind the table.
const TABLE: u32 = 0x4000;
const MEMORY: u32 = 0x10000;

/// A machine that a run of the second model takes there: loads that fill every line, stores that hit
/// lines, and stores anywhere until TLB and buffer are full too.
pub fn full(rng: &mut Rng, tags: Tags) -> Machine {
    let mut memory = vec![0; MEMORY as usize];
    for megabyte in 0..TABLE / 4 {
        words::write(&mut memory, 4 * megabyte as usize, 4, 0xC0E);
    }
    let mut machine = Machine::fresh(memory);
    serve(&mut machine, Call::write(3, 1));
    serve(&mut machine, Call::write(1, 0xD));
    let mut held = Vec::new();
    for i in 0..LINES {
        let address = free_line(rng, &machine, tags, i);
        serve(&mut machine, Call::load(4, address));
        held.push(address);
    }
    for _ in 0..LINES {
        let line = rng.pick(&held);
        store(rng, &mut machine, line);
    }
    while !is_full(&machine) {
        let line = somewhere(rng);
        store(rng, &mut machine, line);
    }
    machine
}

/// Is every line, TLB entry and buffer entry taken?
pub fn is_full(machine: &Machine) -> bool {
    let state = &machine.state;
    state.cache.lines.iter().all(|line| line.valid == 1)
        && state.tlb.iter().all(|entry| entry.valid == 1)
        && state.buffer.entries as usize == BUFFER_ENTRIES
}

/// The address of the i-th line to load: its set is i / 32.
fn line_address(rng: &mut Rng, tags: Tags, i: usize) -> u32 {
    let (set, way) = ((i / WAYS) as u32, (i % WAYS) as u32);
    match tags {
        Tags::InARow => TABLE + (way * SETS as u32 + set) * 32,
        Tags::Random => somewhere(rng) & !0x1E0 | set << 5,
        Tags::Apart => way << 20 | TABLE | set << 5,
    }
}

/// Such an address of a line that is not held yet.
fn free_line(rng: &mut Rng, machine: &Machine, tags: Tags, i: usize) -> u32 {
    loop {
        let address = line_address(rng, tags, i);
        if machine.state.cache.find(address).is_none() {
            return address;
        }
    }
}

/// A line behind the table, in any megabyte.
fn somewhere(rng: &mut Rng) -> u32 {
    rng.below(0x1000) << 20 | (TABLE + rng.below((MEMORY - TABLE) / 32) * 32)
}

/// Stores a value somewhere in a line.
fn store(rng: &mut Rng, machine: &mut Machine, line: u32) {
    let width = rng.pick(&[1, 2, 4]);
    let address = line + rng.below(32) / width * width;
    let value = rng.word() >> (32 - 8 * width);
    serve(machine, Call::store(width, address, value));
}

fn serve(machine: &mut Machine, call: Call) {
    let answer = machine.call(&call);
    assert!(
        matches!(answer, Answer::Value(_)),
        "{call} answers {answer}"
    );
}
