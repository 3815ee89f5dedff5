//! Traces kept as text at the edges of the form, by the proved library and the second model.

use sa110::{PRINTED_LINE, TRACE_LINE};
use sa110_compare::cuts::{Cuts, Parts, Rooms};
use sa110_compare::replays::{Begin, Replays};
use sa110_compare::traces::{calls, other_replays};
use sa110_model::random::maps::Map;
use sa110_model::random::rng::{from_environment, Rng};
use sa110_model::random::texts::{changed, varied_text_of};

/// Short texts with one byte replaced, left out or put in, at every place.
#[test]
fn texts_with_one_byte_changed() {
    let seed = from_environment("SEED", 1);
    let runs = from_environment("RUNS", 1_500).div_ceil(60);
    let mut replays = Replays::default();
    let begin = Begin::fresh();
    let mut whole = vec![b"3,1,1,0,0\n0,1,4,0,0\n0,1,3,0,0\n".to_vec()];
    for n in 0..runs {
        let mut rng = Rng::of_run(seed, n);
        let (calls, _) = calls(&mut rng, Map::None, 40);
        let first = rng.below(calls.len() as u32 - 2) as usize;
        whole.push(varied_text_of(&mut rng, &calls[first..first + 3]));
    }
    for (n, text) in whole.iter().enumerate() {
        let mut rng = Rng::of_run(seed, n as u64);
        for (i, text) in changed(text).enumerate() {
            let cuts = [Cuts::random(&mut rng, text.len())];
            let name = || format!("seed {seed}, text {n}, change {i}");
            let printed = replays.compare(&begin, &text, &cuts, &name);
            if i % 4 == 0 {
                other_replays(&mut rng, &text, &printed, &name());
            }
        }
    }
    println!("texts compared {replays}, with one byte changed");
}

/// A line of so many bytes with its line feed: leading zeros of one field.
fn padded(field: usize, length: usize) -> String {
    let mut fields = ["3", "1", "1", "0", "0"].map(str::to_string);
    fields[field] = "0".repeat(length - 10) + &fields[field];
    fields.join(",") + "\n"
}

/// Texts at the edges of the form, and what they print.
fn edges() -> Vec<(String, String)> {
    let good = "3,1,1,0,0\n";
    let mut edges: Vec<(String, String)> = Vec::new();
    let mut add = |text: &str, printed: &str| edges.push((text.to_string(), printed.to_string()));
    add("", "");
    add(
        "3,1,1,0,0\n0,1,4,0,0\n0,1,3,0,0\n",
        "1,0,112\n2,0,0\n3,2,6\n",
    );
    for field in 0..5 {
        add(&padded(field, TRACE_LINE), "1,0,112\n");
        add(&padded(field, TRACE_LINE + 1), "1,2,13\n");
        let both = padded(field, TRACE_LINE) + &padded(field, TRACE_LINE + 1) + good;
        add(&both, "1,0,112\n2,2,13\n");
        // 64 and 63 bytes without the line feed that ends the line
        add(padded(field, TRACE_LINE + 1).trim_end(), "1,2,13\n");
        add(padded(field, TRACE_LINE).trim_end(), "1,2,13\n");
        let mut fields = ["3", "1", "1", "0", "0"];
        for (number, fits) in [
            ("4294967295", true),
            ("0000004294967295", true),
            ("4294967296", false),
            ("4294967297", false),
            ("4294967299", false),
            ("10000000000", false),
            ("18446744073709551616", false),
            ("18446744073709551619", false),
            ("340282366920938463463374607431768211457", false),
            ("", false),
            ("+1", false),
            ("-1", false),
            (" 1", false),
            ("1 ", false),
            ("1\r", false),
            ("0x1", false),
            ("1\0", false),
            ("1,1", false),
        ] {
            fields[field] = number;
            let printed = match field {
                0 | 1 => "2,2,13\n",
                _ if !fits => "2,2,13\n",
                2 => "2,2,9\n3,0,112\n",
                _ => "2,0,112\n3,0,112\n",
            };
            let text = format!("{good}{}\n{good}", fields.join(","));
            add(&text, &format!("1,0,112\n{printed}"));
        }
    }
    for line in [
        "3,1,1,0",
        "3,1,1,0,0,0",
        "3,1,1,0,0,",
        ",3,1,1,0,0",
        "",
        ",",
        ",,,,",
        "3",
        "6,1,1,0,0",
        "3,2,1,0,0",
        // swaps, which a run serves or refuses
        "5,1,4,0,0",
        "5,1,1,0,255",
        "5,0,4,65532,4294967295",
        "5,1,2,0,0",
        "005,1,4,0,0",
        "4,2,1,0,0",
        "\r",
        "3,1,1,0,0\r",
        "\0",
    ] {
        let text = format!("{good}{line}\n{good}{good}");
        add(&text, "1,0,112\n2,2,13\n");
        if !line.is_empty() {
            add(&format!("{good}{line}"), "1,0,112\n2,2,13\n");
        }
    }
    add("3,1,1,0,0", "1,2,13\n");
    add("\n\n\n", "1,2,13\n");
    add("\r\n", "1,2,13\n");
    edges
}

/// Each text at an edge cut in two at every place, and with every short slice.
#[test]
fn edges_of_the_form() {
    let mut replays = Replays::default();
    let begin = Begin::fresh();
    for (text, printed) in edges() {
        let mut cuts = vec![Cuts::WHOLE];
        for late in [false, true] {
            let at = |cut| Cuts {
                parts: Parts::At(cut),
                rooms: Rooms::Of(4 * PRINTED_LINE),
                late,
                ..Cuts::WHOLE
            };
            cuts.extend((0..=text.len()).map(at));
        }
        for parts in [Parts::Whole, Parts::Bytes] {
            let of = |room| Cuts {
                parts,
                rooms: Rooms::Of(room),
                ..Cuts::WHOLE
            };
            cuts.extend((1..=PRINTED_LINE + 2).map(of));
        }
        let output = replays.compare(&begin, text.as_bytes(), &cuts, &|| "edge".to_string());
        assert_eq!(output, printed.as_bytes(), "{text:?}");
        assert_eq!(sa110::replay(text.as_bytes()), output, "{text:?}");
    }
    println!("texts compared {replays}, at the edges of the form");
}

/// A megabyte without a line feed, with and without calls before it; and ten thousand lines.
#[test]
fn long_texts() {
    let mut replays = Replays::default();
    let begin = Begin::fresh();
    let mut rng = Rng::new(1);
    for byte in [b'0', b',', 255] {
        let line = vec![byte; 1 << 20];
        for before in ["", "3,1,1,0,0\n", "3,1,1,0,0"] {
            let text = [before.as_bytes(), &line, b"\n3,1,1,0,0\n"].concat();
            let cuts = [Cuts::WHOLE, Cuts::random(&mut rng, text.len())];
            replays.compare(&begin, &text, &cuts, &|| "a megabyte".to_string());
        }
    }
    // as many lines as one call replays at most, one less, one more, and many more
    for lines in [1_023, 1_024, 1_025, 2_048, 10_000] {
        let text = "1,1,1,0,0\n2,1,1,0,200\n".repeat(lines / 2 + 1);
        let text = &text[..10 * (lines / 2 + lines % 2) + 12 * (lines / 2)];
        let mut cuts = vec![Cuts::WHOLE];
        cuts.extend((0..10).map(|_| Cuts::random(&mut rng, text.len())));
        let all = replays.compare(&begin, text.as_bytes(), &cuts, &|| "long".to_string());
        assert_eq!(all.iter().filter(|byte| **byte == b'\n').count(), lines);
    }
    println!("texts compared {replays}, long ones");
}
