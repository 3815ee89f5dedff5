//! The state as text (document 02, Four): its form, reading it back, and refusals 1, 3, 4, 14 and 15. Tests
//! quote the words that they are about.

mod common;
use common::*;
use sa110_model::calls::Call;
use sa110_model::machine::Machine;
use sa110_model::random::longest::longest;
use sa110_model::random::rng::{from_environment, Rng};
use sa110_model::random::states;
use sa110_model::state::{Registers, State, MEMORY_LIMIT};
use sa110_model::text::{read, store, text_of, DEPARTS, FORM, TEXT_MAX, TOO_SHORT};

/// Places of the first TLB, cache and buffer line among the text's lines, and their number.
const TLB: usize = 1;
const CACHE: usize = TLB + 32;
const BUFFER: usize = CACHE + 512;
const ALL: usize = BUFFER + 8;

/// So many fields of zeros, as a line.
fn zeros(fields: usize) -> String {
    ["0"].repeat(fields).join(",") + "\n"
}

/// The text of the state after a served start on so many bytes.
fn fresh_text(memory: usize) -> String {
    let first = format!("0,0,0,0,0,{memory},{}", zeros(23));
    first + &zeros(11).repeat(32) + &zeros(5).repeat(512) + &zeros(18).repeat(8)
}

/// The stored text of a machine that refuses nothing.
fn stored(m: &Machine) -> Vec<u8> {
    let mut text = vec![0; TEXT_MAX];
    let length = store(&m.state, &m.registers, &m.memory, &mut text).expect("a text");
    text.truncate(length);
    text
}

fn lines_of(text: &[u8]) -> Vec<String> {
    let text = String::from_utf8(text.to_vec()).expect("digits, commas and line feeds");
    let lines = text.split_inclusive('\n');
    lines.map(|line| line.to_string()).collect()
}

/// The text with another field: this line's, from 0, and this place in it.
fn with_field(text: &[u8], line: usize, field: usize, new: &str) -> Vec<u8> {
    let mut lines = lines_of(text);
    let mut fields: Vec<_> = lines[line].trim_end().split(',').collect();
    fields[field] = new;
    lines[line] = fields.join(",") + "\n";
    lines.concat().into_bytes()
}

/// The text reads as this machine's state and record.
fn reads_as(text: &[u8], m: &Machine) {
    let back = read(text, &m.memory);
    assert_eq!(back.refused, None);
    assert!(back.state == *m.state && back.registers == m.registers);
}

/// The text is refused by this number, with a state and a record all zeros.
fn refused(text: &[u8], memory: &[u8], number: u32, name: &str) {
    let back = read(text, memory);
    assert_eq!(back.refused, Some(number), "{name}");
    let zero = (State::ZERO, Registers::default());
    assert!((back.state, back.registers) == zero, "{name}");
}

/// A machine that holds two TLB entries, a line with two dirty halves and a buffer entry.
fn ready() -> Machine {
    let mut m = mapped_twice();
    serve(
        &mut m,
        &[
            Call::load(4, 0x100),
            Call::store(4, 0x104, 0x55),
            Call::store(4, 0x110, 0x66),
            Call::store(1, 0x10_1208, 0x88),
        ],
    );
    m
}

/// "Fields are decimal ..., parted by commas, a line feed ending each line", of a fresh state.
#[test]
fn a_fresh_state() {
    for length in [0, 32, 0x4000, MEMORY_LIMIT] {
        let m = Machine::fresh(vec![7; length]);
        let text = fresh_text(length);
        assert_eq!(stored(&m), text.as_bytes());
        reads_as(text.as_bytes(), &m);
    }
    let text = fresh_text(64);
    let first =
        "0,0,0,0,0,64,0,0,0,0,0,0,0,0,0,0,0,0,0,0,0,0,0,0,0,0,0,0,0\n0,0,0,0,0,0,0,0,0,0,0\n";
    assert!(text.starts_with(first));
    let last = "0,0,0,0,0\n0,0,0,0,0,0,0,0,0,0,0,0,0,0,0,0,0,0\n";
    assert!(text.ends_with(&(last.to_string() + &zeros(18).repeat(7))));
}

/// A state that a run left, its lines worked out by hand.
#[test]
fn the_state_of_a_short_run() {
    let text = stored(&ready());
    let lines = lines_of(&text);
    let mut expected = lines_of(fresh_text(0x4000).as_bytes());
    // control, base, domains, FSR, FAR; memory; TLB pointer; set 8's pointer; entries; counts
    expected[0] = "13,0,1,0,0,16384,2,0,0,0,0,0,0,0,0,1,0,0,0,0,0,0,0,1,6,2,2,1,0\n".to_string();
    expected[TLB] = "1,0,0,0,0,3,3,3,3,1,1\n".to_string();
    expected[TLB + 1] = "1,0,1048576,0,0,3,3,3,3,1,1\n".to_string();
    expected[CACHE + 8 * 32] = "0,8,1,1,1\n".to_string();
    expected[BUFFER] = "0,0,0,0,0,0,0,0,136,0,0,0,0,0,0,0,256,288\n".to_string();
    assert_eq!(lines, expected);
    reads_as(&text, &ready());
}

/// "first a line with the five registers, the memory length, the TLB pointer, the sixteen set pointers, the
/// number of buffer entries and the five counts", and each other line "in document 01's order".
#[test]
fn the_order_of_fields() {
    let mut m = ready();
    let (r, s) = (&mut m.registers, &mut m.state);
    (r.plain.control, r.plain.table_base, r.plain.domain) = (1, 2, 3);
    (r.plain.fsr, r.plain.far) = (4, 5);
    (s.memory_length, r.tlb_pointer) = (6, 7);
    s.cache.pointers = std::array::from_fn(|i| 8 + i as u32);
    s.buffer.entries = 24;
    (s.counts.calls, s.counts.tlb_misses) = (25, 26);
    (s.counts.hits, s.counts.fills, s.counts.halves) = (27, 28, 29);
    let e = &mut s.tlb[30];
    (e.valid, e.size, e.virtual_base, e.physical_base) = (1, 2, 3, 4);
    (e.domain, e.ap, e.c, e.b) = (5, [6, 7, 8, 9], 10, 11);
    let (set, way) = (13, 30);
    let line = &mut s.cache.lines[set * 32 + way];
    (line.tag, line.frame, line.valid, line.dirty) = (1, 2, 3, [4, 5]);
    let slot = &mut s.buffer.slots[6];
    slot.bytes = std::array::from_fn(|i| 1 + i as u8);
    (slot.mask, slot.block) = (17, 18);
    let lines = lines_of(&text_of(&m.state, &m.registers));
    let upto = |n: u32| (1..=n).map(|i| i.to_string()).collect::<Vec<_>>().join(",") + "\n";
    assert_eq!(lines.len(), ALL);
    assert_eq!(lines[0], upto(29));
    assert_eq!(lines[TLB + 30], upto(11));
    assert_eq!(lines[CACHE + 32 * set + way], upto(5));
    assert_eq!(lines[BUFFER + 6], upto(18));
}

/// "storing a sound state and reading it back yields that state".
#[test]
fn round_trips() {
    let seed = from_environment("SEED", 41);
    let runs = from_environment("RUNS", 4_000);
    let (mut shortest, mut most) = (usize::MAX, 0);
    for run in 0..runs {
        let mut rng = Rng::of_run(seed, run);
        let m = states::sound(&mut rng).machine;
        let text = stored(&m);
        assert_eq!(text, text_of(&m.state, &m.registers));
        reads_as(&text, &m);
        shortest = shortest.min(text.len());
        most = most.max(text.len());
    }
    assert!(most <= TEXT_MAX);
    println!("Texts stored and read back: seed {seed}, {runs} states, {shortest} to {most} bytes.");
}

/// The longest text is as long as the greatest numbers of the fields make it, and sound states have it.
#[test]
fn the_longest_text() {
    let length = |lines: &sa110_model::text::Lines| {
        let fields = lines.greatest.iter().map(|most| most.to_string().len() + 1);
        lines.lines * fields.sum::<usize>()
    };
    assert_eq!(
        FORM.iter().map(length).collect::<Vec<_>>(),
        [159, 32 * 41, 512 * 21, 8 * 78]
    );
    assert_eq!(FORM.iter().map(length).sum::<usize>(), TEXT_MAX);
    for seed in 0..20 {
        let m = longest(&mut Rng::new(seed));
        assert!(m.is_sound());
        let text = stored(&m);
        assert_eq!(text.len(), TEXT_MAX);
        reads_as(&text, &m);
    }
}

/// "15 when the slice lent for the text is too short; storing answers the text's length, bytes behind it
/// stay".
#[test]
fn slices() {
    let m = ready();
    let text = stored(&m);
    let n = text.len();
    for length in [
        0,
        1,
        2,
        n / 2,
        n - 1,
        n,
        n + 1,
        n + 100,
        TEXT_MAX,
        TEXT_MAX + 1,
    ] {
        for byte in [0, b'0', b'\n', 0xA5] {
            let mut slice = vec![byte; length];
            let answer = store(&m.state, &m.registers, &m.memory, &mut slice);
            if length < n {
                assert_eq!(answer, Err(TOO_SHORT));
                assert_eq!(slice, vec![byte; length]);
            } else {
                assert_eq!(answer, Ok(n));
                assert_eq!(slice[..n], text);
                assert_eq!(slice[n..], vec![byte; length - n]);
            }
        }
    }
}

/// Makes refusal 1, 3 or 4 met by state and memory, and no other.
fn meet(number: u32, m: &mut Machine) {
    match number {
        1 => {
            m.memory.push(0);
            m.state.memory_length += 1;
        }
        3 => m.state.cache.pointers[3] = 32,
        4 => m.state.memory_length ^= 0x20,
        _ => {}
    }
}

/// All choices among four refusals, each in this order.
fn choices(order: [u32; 4]) -> impl Iterator<Item = Vec<u32>> {
    (0..16).map(move |choice: u32| {
        let places = (0..4).filter(|i| choice >> i & 1 == 1);
        places.map(|i| order[i]).collect()
    })
}

/// "Storing meets 1, 3, 4, 15", in this order; a refused one writes nothing.
#[test]
fn refusals_of_storing() {
    for met in choices([1, 3, 4, 15]) {
        let mut m = ready();
        for number in &met {
            meet(*number, &mut m);
        }
        let text = text_of(&m.state, &m.registers);
        let mut slice = vec![9; text.len() - met.contains(&15) as usize];
        let before = slice.clone();
        let answer = store(&m.state, &m.registers, &m.memory, &mut slice);
        match met.first() {
            Some(number) => assert_eq!((answer, slice), (Err(*number), before), "{met:?}"),
            None => assert_eq!((answer, slice), (Ok(text.len()), text)),
        }
    }
    // the cache store is not lent
    let mut m = ready();
    m.store.clear();
    stored(&m);
}

/// "reading 1, 14, 3, 4", in this order; "a refused read gives a state all zeros".
#[test]
fn refusals_of_reading() {
    for met in choices([1, 14, 3, 4]) {
        // a leading zero, the last bytes cut off, bytes behind the end
        for (before, cut, behind) in [("0", 0, ""), ("", 1, ""), ("", 2, "x\n"), ("", 0, "\n")] {
            let mut m = ready();
            for number in &met {
                meet(*number, &mut m);
            }
            let mut text = text_of(&m.state, &m.registers);
            if met.contains(&14) {
                text.truncate(text.len() - cut);
                text = [before.as_bytes(), &text, behind.as_bytes()].concat();
            }
            match met.first() {
                Some(number) => refused(&text, &m.memory, *number, &format!("{met:?}")),
                None => reads_as(&text, &m),
            }
        }
    }
    // the memory lent, not the one at the start, decides what lies outside
    let text = stored(&ready());
    refused(&text, &[0; 0x120], 3, "a buffer entry outside");
    refused(&text, &[0; 0x1220], 4, "all inside");
    refused(&text, &[0; 0x8000], 4, "a longer memory");
}

/// "decimal of at most 32 bits": a larger number departs, one that does not fit its field is unsound. In
/// every field of a first and a last line of its kind, of an empty state and one with every place taken.
#[test]
fn numbers_that_do_not_fit() {
    let full = longest(&mut Rng::new(1));
    let fresh = Machine::fresh(vec![0; MEMORY_LIMIT]);
    let mut tried = 0;
    for m in [&full, &fresh] {
        let text = stored(m);
        let mut first = 0;
        for lines in &FORM {
            for line in [first, first + lines.lines - 1] {
                for (field, most) in lines.greatest.iter().enumerate() {
                    let name = format!("{} line {line}, field {field}", lines.kind);
                    let with = |number: u64| with_field(&text, line, field, &number.to_string());
                    let memory_length = (line, field) == (0, 5);
                    let number = if memory_length { 4 } else { 3 };
                    let most = u64::from(*most);
                    for above in [most + 1, most + 256, 1 << 31, u32::MAX as u64] {
                        if above > most && above < 1 << 32 {
                            refused(&with(above), &m.memory, number, &name);
                            tried += 1;
                        }
                    }
                    for above in [1 << 32, (1 << 32) + 1, 1 << 33, 1 << 40, u64::MAX] {
                        refused(&with(above), &m.memory, DEPARTS, &name);
                        tried += 1;
                    }
                }
            }
            first += lines.lines;
        }
    }
    println!("Numbers that do not fit their fields: {tried}.");
}

/// Numbers that fit their field, and are unsound where they stand.
#[test]
fn unsound_numbers() {
    let m = ready();
    let text = stored(&m);
    for (line, field, new) in [
        (0, 0, "5"),                  // a control combination outside the list
        (0, 0, "125"),                // bits 4 to 6 are not kept
        (0, 1, "16385"),              // a table base
        (0, 23, "2"),                 // an entry with mask 0
        (0, 23, "0"),                 // an entry behind the number of them
        (0, 24, "1"),                 // calls below misses, hits and dirty halves
        (0, 28, "5"),                 // halves sent out
        (TLB, 0, "0"),                // an empty place not all zeros
        (TLB, 2, "1"),                // a section's base
        (TLB, 3, "4096"),             // likewise
        (CACHE + 8 * 32, 2, "0"),     // an empty place not all zeros
        (CACHE + 8 * 32, 1, "512"),   // a line outside memory
        (CACHE + 8 * 32 + 1, 4, "1"), // an empty place not all zeros
        (BUFFER, 7, "1"),             // a byte outside the mask
        (BUFFER, 17, "1024"),         // an entry outside memory
        (BUFFER + 1, 17, "1"),        // an empty place not all zeros
    ] {
        let text = with_field(&text, line, field, new);
        refused(
            &text,
            &m.memory,
            3,
            &format!("line {line}, field {field}, {new}"),
        );
    }
    refused(
        &with_field(&text, 0, 5, "16416"),
        &m.memory,
        4,
        "the memory length",
    );
}
