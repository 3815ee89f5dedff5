//! The proved library's replay of traces kept as text, cut anywhere, beside the second model's.

use sa110::{Replay, PRINTED_LINE};
use sa110_compare::cuts::Cuts;
use sa110_compare::replays::{Begin, Replays};
use sa110_compare::traces::{other_replays, text};
use sa110_model::plain::Plain;
use sa110_model::random::guided::guided_from_zeros;
use sa110_model::random::maps::{damage, Map};
use sa110_model::random::rng::{from_environment, Rng};
use sa110_model::random::texts::text_of;
use sa110_model::replay::{replay_on, MEMORY_BYTES};
use sa110_model::rules::Rules;
use sa110_model::state::STORE_BYTES;

const FRESH: &str = "a fresh start";
const BAD_WORDS: &str = "bad words";

/// A start as the paper has it; or one with bad words, with a memory of another length, that lends what does
/// not fit, has a state that is not sound, counts up to the limit, or is behind many lines.
fn begin(rng: &mut Rng) -> (Begin, String) {
    let mut begin = Begin::fresh();
    let state = &mut begin.replay.state;
    let name = match rng.below(40) {
        0 => {
            begin.memory.truncate(MEMORY_BYTES - 1);
            "memory of a length that is refused"
        }
        1 => {
            begin.store.push(0);
            "store of a length that is refused"
        }
        2 => {
            begin.replay.cp15.pointer = 32;
            "a pointer above 31"
        }
        3 => {
            begin.memory.truncate(MEMORY_BYTES / 2);
            "half the memory"
        }
        4..=5 => {
            state.counts.calls = u32::MAX - rng.below(100);
            "calls counted up to the limit"
        }
        6..=10 => {
            let most = i64::MAX as u64 - 100_000;
            begin.replay.lines = rng.pick(&[98, 9_998, 999_999_999, u32::MAX as u64 - 5, most]);
            "many lines before"
        }
        11..=12 => {
            begin = Begin::of(rng.pick(&[0, 32, 0x4000, 0x10020, 0x20000, 1 << 20]));
            "memory of another length"
        }
        13 => {
            let what = damage(rng, &mut begin.bad);
            return (begin, what);
        }
        14..=24 => BAD_WORDS,
        _ => FRESH,
    };
    (begin, name.to_string())
}

#[test]
fn random_texts() {
    let seed = from_environment("SEED", 1);
    let runs = from_environment("RUNS", 1_500);
    println!("seed {seed}, {runs} texts");
    let mut replays = Replays::default();
    for n in 0..runs {
        let mut rng = Rng::of_run(seed, n);
        let rng = &mut rng;
        let (mut begin, what) = begin(rng);
        let length = match rng.below(20) {
            0 => 6_000,
            1..=5 => rng.below(10),
            _ => 20 + rng.below(400),
        };
        let map = match &what[..] {
            BAD_WORDS => Map::random(rng),
            _ => Map::None,
        };
        let (text, bad) = text(rng, map, length as usize);
        if what == BAD_WORDS {
            begin.bad = bad;
        }
        let mut cuts = vec![Cuts::WHOLE];
        cuts.extend((0..3).map(|_| Cuts::random(rng, text.len())));
        let name = format!("seed {seed}, text {n}, {what}");
        let printed = replays.compare(&begin, &text, &cuts, &|| name.clone());
        if what == FRESH {
            other_replays(rng, &text, &printed, &name);
        }
    }
    println!("texts compared {replays}");
    println!("{}", replays.printed);
    // fewer runs need not meet everything
    if runs >= 1_500 {
        assert!(replays.lines >= 300_000);
        assert_eq!(replays.printed.missing(), Vec::<String>::new());
    }
}

/// Records between two parts: a line that has begun, bytes that wait, lines, stopped or not.
#[test]
fn records_between_parts() {
    let seed = from_environment("SEED", 1);
    let runs = from_environment("RUNS", 1_500) * 2;
    let mut replays = Replays::default();
    for n in 0..runs {
        let mut rng = Rng::of_run(seed, n);
        let rng = &mut rng;
        let mut begin = Begin::fresh();
        let map = Map::random(rng);
        let (text, bad) = text(rng, map, 6);
        let text = &text[..text.len().min(400)];
        begin.bad = bad;
        let r = &mut begin.replay;
        let cut = if rng.percent(50) {
            let end = text.iter().position(|byte| *byte == b'\n');
            let end = end.unwrap_or(text.len()).min(63);
            let cut = rng.below(end as u32 + 1) as usize;
            r.begun[..cut].copy_from_slice(&text[..cut]);
            r.held = cut;
            cut
        } else {
            r.held = rng.below(64) as usize;
            let byte = rng.pick(&[b'0', b'1', b',', b'x', 0]);
            r.begun[..r.held].fill(byte);
            0
        };
        // what stands behind the bytes held, and behind those that wait, does not matter
        let held = r.held;
        r.begun[held..].fill(rng.pick(&[0, b'\n', b'1']));
        r.waiting = rng.pick(&[0, 0, 1, 7, 33, 34, 39, 40, 63, 64]);
        r.pending.fill(rng.pick(&[0, b'\n', b'x']));
        r.stopped = rng.pick(&[0, 0, 0, 1, 2, u32::MAX]);
        r.lines = rng.draw() >> (1 + rng.below(63));
        r.lines = r.lines.min(i64::MAX as u64 - 1_000);
        let state = r.stopped;
        (r.taken, r.written) = (rng.draw() as usize, rng.draw() as usize);
        let cuts = [0; 3].map(|_| Cuts::random(rng, text.len()));
        replays.compare(&begin, &text[cut..], &cuts, &|| {
            format!("seed {seed}, record {n}, stopped {state}")
        });
    }
    println!("texts compared {replays}, from records between two parts");
}

/// A start's refusals are the start's.
#[test]
fn starts() {
    for (memory, store, expected) in [
        (0, STORE_BYTES, Ok(0)),
        (MEMORY_BYTES, STORE_BYTES, Ok(MEMORY_BYTES)),
        (33, STORE_BYTES, Err(1)),
        (64, 5, Err(2)),
        (33, 5, Err(1)),
    ] {
        let started = Replay::start(&vec![0; memory], &vec![0; store]);
        assert_eq!(started.map(|replay| replay.state.size), expected);
    }
}

/// The line behind the largest number of lines that a record may have, which is the longest printed.
#[test]
fn most_lines() {
    let mut begin = Begin::fresh();
    let (memory, bad, store) = (&mut begin.memory, &begin.bad, &mut begin.store);
    let replay = &mut begin.replay;
    replay.lines = i64::MAX as u64 - 1;
    let mut out = [7; 64];
    let text = b"2,1,4,0,2147483648\n";
    assert_eq!(replay.part(memory, bad, store, text, false, &mut out), 0);
    assert_eq!(replay.lines, i64::MAX as u64);
    out.fill(7);
    let text = b"1,1,4,0,0\n";
    assert_eq!(replay.part(memory, bad, store, text, true, &mut out), 0);
    let longest = b"9223372036854775808,0,-2147483648\n";
    assert_eq!(
        (longest.len(), replay.written),
        (PRINTED_LINE, PRINTED_LINE)
    );
    assert_eq!(out[..PRINTED_LINE], longest[..]);
    assert!(out[PRINTED_LINE..].iter().all(|byte| *byte == 7));
}

/// A way to damage a record.
type Damage = fn(&mut Replay, &mut Rng);

const DAMAGES: [(&str, Damage); 6] = [
    ("lines above 2^63 - 1", |r, rng| {
        r.lines = rng.pick(&[1 << 63, u64::MAX, (1 << 63) + 1]) | rng.draw() >> 40
    }),
    ("held above 63", |r, rng| {
        let any = rng.draw() as usize | 64;
        r.held = rng.pick(&[64, 65, 128, 1 << 32, usize::MAX, any])
    }),
    ("waiting above 64", |r, rng| {
        let any = rng.draw() as usize | 128;
        r.waiting = rng.pick(&[65, 66, 127, 1 << 32, usize::MAX, any])
    }),
    ("a line feed at the front of begun", |r, rng| {
        r.held = 1 + rng.below(63) as usize;
        r.begun[0] = b'\n'
    }),
    ("a line feed at the end of what is held", |r, rng| {
        r.held = 1 + rng.below(63) as usize;
        r.begun[r.held - 1] = b'\n'
    }),
    ("a line feed among what is held", |r, rng| {
        r.held = 1 + rng.below(63) as usize;
        r.begun[rng.below(r.held as u32) as usize] = b'\n'
    }),
];

/// A damaged record is answered with 3, and nothing changes but that taken and written are 0.
#[test]
fn damaged_records() {
    let seed = from_environment("SEED", 1);
    let runs = from_environment("RUNS", 1_500) * 4;
    for n in 0..runs {
        let mut rng = Rng::of_run(seed, n);
        let rng = &mut rng;
        let (mut begin, what) = begin(rng);
        let r = &mut begin.replay;
        let byte = rng.pick(&[b'0', b'3', b',', 255]);
        r.begun.fill(byte);
        r.held = rng.below(64) as usize;
        r.waiting = rng.below(65) as usize;
        r.stopped = rng.pick(&[0, 0, 0, 1, u32::MAX]);
        (r.taken, r.written) = (rng.draw() as usize, rng.draw() as usize);
        let mut names = vec![what];
        for _ in 0..1 + rng.below(2) {
            let (name, damage) = rng.pick(&DAMAGES);
            damage(r, rng);
            names.push(name.to_string());
        }
        let text = rng.pick(&["", "3,1,1,0,0\n", "3,1,1", "\n", "2,1,4,0,7\n2,1,4,4,7\n"]);
        let room = rng.pick(&[0, 1, 34, 100, 5_000]);
        let ends = rng.percent(50);
        let mut out = vec![7; room];
        let mut left = begin.clone();
        let (memory, bad, store) = (&mut left.memory, &left.bad, &mut left.store);
        let (replay, text) = (&mut left.replay, text.as_bytes());
        let answer = replay.part(memory, bad, store, text, ends, &mut out);
        let mut expected = begin.replay.clone();
        (expected.taken, expected.written) = (0, 0);
        let name = format!("seed {seed}, record {n}: {names:?}");
        assert_eq!(answer, 3, "{name}");
        assert!(left.replay == expected, "{name}: the record changes");
        assert!(out.iter().all(|byte| *byte == 7), "{name}: writes");
        let same = (left.memory, left.store) == (begin.memory, begin.store);
        assert!(same, "{name}: memory or store changes");
    }
    println!("texts compared {runs}, refused by 3 for damaged records");
}

/// Replays a whole text by the library; gives what is printed.
fn whole(begin: &mut Begin, text: &[u8], lines: usize) -> Vec<u8> {
    let Begin {
        replay,
        memory,
        bad,
        store,
    } = begin;
    let mut out = vec![0; PRINTED_LINE * lines];
    let (mut taken, mut written) = (0, 0);
    loop {
        let (rest, room) = (&text[taken..], &mut out[written..]);
        assert_eq!(replay.part(memory, bad, store, rest, true, room), 0);
        taken += replay.taken;
        written += replay.written;
        if taken == text.len() && replay.written == 0 {
            out.truncate(written);
            return out;
        }
    }
}

/// A text that keeps rules R1 to R6 prints what it prints on the plain machine, and leaves its memory.
#[test]
fn texts_that_keep_the_rules() {
    let seed = from_environment("SEED", 1);
    let runs = from_environment("RUNS", 1_500);
    let mut replays = Replays::default();
    let (mut lines, mut fills, mut with_bad_words) = (0, 0, 0);
    for n in 0..runs {
        let mut rng = Rng::of_run(seed, n);
        let rng = &mut rng;
        let (map, length) = (Map::random(rng), 50 + rng.below(400) as usize);
        let run = guided_from_zeros(rng, MEMORY_BYTES, map, length, Rules::ALL).run;
        let text = text_of(&run.calls);
        let mut begin = Begin::fresh();
        begin.bad.clone_from(&run.bad);
        let mut plain = Plain::start(run.memory, run.bad);
        let expected = replay_on(&mut plain, 0, &text);
        let name = format!("seed {seed}, text {n}");
        let cuts = [Cuts::random(rng, text.len())];
        let printed = replays.compare(&begin, &text, &cuts, &|| name.clone());
        assert!(printed == expected.output, "{name}: the plain machine's");
        assert_eq!(expected.lines, run.calls.len() as u64, "{name}");
        // the library itself, in one part
        let printed = whole(&mut begin, &text, run.calls.len());
        assert!(printed == expected.output, "{name}");
        assert!(begin.memory == plain.memory, "{name}: memory");
        let counts = begin.replay.state.counts;
        assert_eq!(counts.calls, plain.calls, "{name}");
        lines += expected.lines;
        fills += u64::from(counts.fills);
        with_bad_words += u64::from(map != Map::None);
    }
    println!(
        "texts compared {replays}, that keep R1 to R6; {with_bad_words} with bad words, {fills} line fills"
    );
    if runs >= 1_500 {
        assert!(lines >= 300_000 && fills >= 10_000);
    }
}
