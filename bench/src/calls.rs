//! `run` over lists of calls, and `call` on full caches.

use crate::earlier::Earlier;
use crate::measure::{Line, Side};
use crate::runs::{list, run_line, List};
use sa110_compare::full::{full, is_full, Tags, TAGS};
use sa110_compare::side_by_side::{Numbers, Setting};
use sa110_model::cache::address_of;
use sa110_model::random::Rng;
use sa110_model::{words, Answer, Call, Machine};
use std::cell::RefCell;
use std::hint::black_box;
use std::rc::Rc;

pub const WHAT: &str = "\
run: one run over a list of 4,096 calls again and again, from where the run before it ended; no word is bad
  hits: loads and stores of one line
  page hits: loads and stores of 512 lines in 32 small pages; TLB and Dcache hold them all
  random: loads of any line in 64 small pages, half of them with a store to the line behind; fills, evictions, walks
  buffered stores: stores to any block of memory that is bufferable and not cacheable
  merges: stores that join the newest entry of a full write buffer
  mixed: of 100 calls 75 loads and stores served everywhere, 15 CP15 calls, 10 faults
  swap hits: swaps of bytes and words of one line
  swap misses: swaps of bytes and words anywhere in memory that is bufferable and not cacheable; the buffer is empty, memory is read and written
call: loads and stores that hit, one call each, on the full caches of the soundness lines";

/// So many calls are in a list for `call`.
const CALL: usize = 64;

/// Level 1 words: sections of physical 0, cacheable and bufferable, bufferable, neither; then one of a
/// domain without access; the last leads to the table of pages.
const LEVEL1: [u32; 5] = [0xC0E, 0xC06, 0xC02, 0xC2E, PAGES | 1];
const CACHED: u32 = 0;
pub const BUFFERED: u32 = 1 << 20;
const UNCACHED: u32 = 2 << 20;
const FORBIDDEN: u32 = 3 << 20;
pub const PAGED: u32 = 4 << 20;
const UNMAPPED: u32 = 5 << 20;

/// The table of pages: 64 small pages in a row from physical `DATA` on, cacheable and bufferable, and one
/// that users may not access.
const PAGES: u32 = 0x4000;
pub const PAGE_COUNT: u32 = 64;
const PRIVILEGED_PAGE: u32 = PAGED + PAGE_COUNT * 0x1000;
pub const DATA: u32 = 0x10000;
pub const MEMORY: u32 = DATA + (PAGE_COUNT + 1) * 0x1000;

pub fn lines(earlier: Option<Earlier>) -> Vec<Line> {
    let rng = &mut Rng::new(1);
    let lists = [
        hits,
        page_hits,
        random,
        buffered_stores,
        merges,
        mixed,
        swap_hits,
        swap_misses,
    ];
    let lists = lists.iter().map(|of| run_line(of(rng), earlier));
    let mut lines: Vec<_> = lists.collect();
    lines.extend(TAGS.map(|tags| call_line(rng, tags, earlier)));
    lines
}

/// Loads and stores that hit one line.
fn hits(rng: &mut Rng) -> List {
    let machine = served(&[Call::load(4, CACHED + DATA)]);
    list("run, hits", machine, |calls| {
        calls.push(access(rng, CACHED + DATA))
    })
}

/// Loads and stores that hit 512 lines in 32 pages.
fn page_hits(rng: &mut Rng) -> List {
    let held: Vec<_> = (0..512)
        .map(|i| PAGED + i / 16 * 0x1000 + i % 16 * 32)
        .collect();
    let loads: Vec<_> = held.iter().map(|line| Call::load(4, *line)).collect();
    let machine = served(&loads);
    let state = &machine.state;
    assert!(state.tlb.iter().all(|entry| entry.valid == 1));
    assert!(state.cache.lines.iter().all(|line| line.valid == 1));
    list("run, page hits", machine, |calls| {
        let line = rng.pick(&held);
        calls.push(access(rng, line))
    })
}

/// Loads of any line of 64 pages, half of them with a store to the line behind.
fn random(rng: &mut Rng) -> List {
    list("run, random", served(&[]), |calls| {
        let line = PAGED + rng.below(PAGE_COUNT * 128) * 32;
        calls.push(Call::load(4, line + rng.below(8) * 4));
        if rng.percent(50) {
            calls.push(store(rng, line));
        }
    })
}

/// Stores to any block of uncached memory.
fn buffered_stores(rng: &mut Rng) -> List {
    list("run, buffered stores", served(&[]), |calls| {
        let line = BUFFERED + DATA + rng.below(2048) * 32;
        calls.push(store(rng, line))
    })
}

/// Stores to one block of uncached memory, each of which joins the newest entry.
fn merges(rng: &mut Rng) -> List {
    let others = (0..8).map(|i| Call::store(4, BUFFERED + DATA + 16 * i, i));
    let machine = served(&others.collect::<Vec<_>>());
    list("run, merges", machine, |calls| {
        let width = rng.pick(&[1, 2, 4]);
        let address = BUFFERED + DATA + 16 * 7 + rng.below(16) / width * width;
        calls.push(Call::store(width, address, value(rng, width)))
    })
}

/// Of 100 calls about 75 accesses that are served, 15 CP15 calls, 10 faults.
fn mixed(rng: &mut Rng) -> List {
    list("run, mixed", served(&[]), |calls| {
        let hot = PAGED + rng.below(8) * 0x1000 + rng.below(16) * 32;
        let far = PAGED + rng.below(PAGE_COUNT * 128) * 32;
        let flat = DATA + rng.below(2048) * 32;
        calls.push(match rng.below(100) {
            0..=49 => access(rng, hot),
            50..=59 => access(rng, far),
            60..=66 => access(rng, BUFFERED + flat),
            67..=74 => access(rng, UNCACHED + flat),
            75..=78 => Call::read(rng.below(7)),
            79..=80 => Call::write(rng.pick(&[4, 5, 6]), 0x15),
            81..=85 => Call::clean_line(hot),
            86..=87 => Call::drain(),
            88 => Call::flush_line(far),
            89 => Call::drop_tlb_entry(far),
            90..=91 => Call::load(4, hot + 1),
            92..=93 => Call::load(4, UNMAPPED + flat),
            94..=95 => access(rng, FORBIDDEN + flat),
            96..=97 => Call::load(4, UNCACHED + MEMORY),
            _ => Call::Load {
                privileged: false,
                width: 4,
                address: PRIVILEGED_PAGE,
            },
        });
    })
}

/// Swaps that hit one line.
fn swap_hits(rng: &mut Rng) -> List {
    let machine = served(&[Call::load(4, CACHED + DATA)]);
    list("run, swap hits", machine, |calls| {
        calls.push(swap(rng, CACHED + DATA))
    })
}

/// Swaps in any line of uncached memory.
fn swap_misses(rng: &mut Rng) -> List {
    list("run, swap misses", served(&[]), |calls| {
        let line = BUFFERED + DATA + rng.below(2048) * 32;
        calls.push(swap(rng, line))
    })
}

/// A load, a signed load or a store somewhere in a line.
fn access(rng: &mut Rng, line: u32) -> Call {
    if rng.percent(40) {
        return store(rng, line);
    }
    let (privileged, width) = (true, rng.pick(&[1, 2, 4]));
    let address = line + rng.below(32) / width * width;
    if rng.percent(25) {
        return Call::SignedLoad {
            privileged,
            width,
            address,
        };
    }
    Call::load(width, address)
}

pub fn store(rng: &mut Rng, line: u32) -> Call {
    let width = rng.pick(&[1, 2, 4]);
    let address = line + rng.below(32) / width * width;
    Call::store(width, address, value(rng, width))
}

fn swap(rng: &mut Rng, line: u32) -> Call {
    let width = rng.pick(&[1, 4]);
    let address = line + rng.below(32) / width * width;
    Call::swap(width, address, value(rng, width))
}

fn value(rng: &mut Rng, width: u32) -> u32 {
    rng.word() >> (32 - 8 * width)
}

/// A machine with the tables above that has served the calls.
pub fn served(calls: &[Call]) -> Machine {
    let mut memory = vec![0; MEMORY as usize];
    for (megabyte, word) in LEVEL1.iter().enumerate() {
        words::write(&mut memory, 4 * megabyte, 4, *word);
    }
    for page in 0..=PAGE_COUNT {
        let permission = if page < PAGE_COUNT { 0xFF0 } else { 0x550 };
        let word = (DATA + page * 0x1000) | permission | 0xE;
        words::write(&mut memory, (PAGES + 4 * page) as usize, 4, word);
    }
    let mut machine = Machine::fresh(memory);
    let opening = [Call::write(3, 1), Call::write(1, 0xF)];
    for call in opening.iter().chain(calls) {
        let answer = machine.call(call);
        assert!(
            matches!(answer, Answer::Value(_)),
            "{call} answers {answer}"
        );
    }
    machine
}

/// A line of `call` on a full cache: loads and stores that hit.
fn call_line(rng: &mut Rng, tags: Tags, earlier: Option<Earlier>) -> Line {
    let mut machine = full(rng, tags);
    let name = match tags {
        Tags::InARow => "call, in a row",
        Tags::Random => "call, random",
        Tags::Apart => "call, apart",
    };
    let calls: Vec<_> = (0..CALL)
        .map(|_| {
            let i = rng.below(512) as usize;
            let line = address_of(i, machine.state.cache.lines[i].tag);
            access(rng, line)
        })
        .collect();
    let list: Rc<Vec<_>> = Rc::new(calls.iter().map(Call::to_numbers).collect());
    let lent = Rc::new(RefCell::new(Setting::of(&machine)));
    Line {
        name: name.to_string(),
        calls: CALL,
        library: call_side(&lent, &list, |s, numbers| s.call(numbers)),
        earlier: earlier
            .map(|earlier| call_side(&lent, &list, move |s, numbers| earlier.call(s, numbers))),
        model: Box::new(move |turns| {
            for _ in 0..turns {
                for call in black_box(&calls) {
                    black_box(machine.call(call));
                }
            }
            assert!(is_full(&machine) && machine.state.counts.calls < u32::MAX);
        }),
    }
}

/// A library's calls, one by one. Both libraries have the same setting lent.
fn call_side(
    lent: &Rc<RefCell<Setting>>,
    list: &Rc<Vec<Numbers>>,
    call: impl Fn(&mut Setting, &Numbers) -> u64 + 'static,
) -> Side {
    let (lent, list) = (Rc::clone(lent), Rc::clone(list));
    Box::new(move |turns| {
        let setting = &mut *lent.borrow_mut();
        let before = setting.packed.state.counts.hits as usize;
        for _ in 0..turns {
            for numbers in black_box(&*list) {
                black_box(call(setting, numbers));
            }
        }
        let hits = setting.packed.state.counts.hits as usize - before;
        assert_eq!(hits, turns * CALL);
    })
}
