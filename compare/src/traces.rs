//! Traces kept as text, for the comparison of replays.

use sa110_model::random::guided::free_from_zeros;
use sa110_model::random::maps::Map;
use sa110_model::random::texts::{departing_line, varied_text_of};
use sa110_model::random::Rng;
use sa110_model::replay::{stream, MEMORY_BYTES};
use sa110_model::Call;
use std::io::BufReader;

/// Calls that set up tables and use them, or any calls without translation; and a map of this kind to make
/// them with.
pub fn calls(rng: &mut Rng, map: Map, length: usize) -> (Vec<Call>, Vec<u8>) {
    if rng.percent(90) {
        let run = free_from_zeros(rng, MEMORY_BYTES, map, length);
        return (run.calls, run.bad);
    }
    let bad = map.make(rng, MEMORY_BYTES, &[]);
    let address = |rng: &mut Rng| match rng.below(10) {
        0 => rng.word(),
        _ => rng.below(MEMORY_BYTES as u32 / 64),
    };
    let one = |_| {
        let (width, at, value) = (rng.pick(&[1, 2, 4, 4]), address(rng), rng.word());
        let privileged = rng.percent(50);
        match rng.below(3) {
            0 => Call::load(width, at),
            1 => Call::SignedLoad {
                privileged,
                width,
                address: at,
            },
            _ => Call::store(width, at, value >> (32 - 8 * width)),
        }
    };
    ((0..length).map(one).collect(), bad)
}

/// A text of calls; in some a line departs from the form, or the last line feed is missing. And a map of this
/// kind to replay it with.
pub fn text(rng: &mut Rng, map: Map, length: usize) -> (Vec<u8>, Vec<u8>) {
    let (calls, bad) = calls(rng, map, length);
    let mut text = varied_text_of(rng, &calls);
    if rng.percent(30) {
        let at = rng.below(text.len() as u32 + 1) as usize;
        let at = text[..at].iter().rposition(|byte| *byte == b'\n');
        let at = at.map_or(0, |feed| feed + 1);
        text.splice(at..at, departing_line(rng));
    }
    if rng.percent(15) {
        text.pop();
    }
    (text, bad)
}

/// The library's replay of a whole text and the second model's of what a reader gives print the same.
pub fn other_replays(rng: &mut Rng, text: &[u8], printed: &[u8], name: &str) {
    assert!(sa110::replay(text) == printed, "{name}: the whole text");
    let capacity = rng.pick(&[1, 7, 64, 65_536]);
    let mut streamed = Vec::new();
    let input = BufReader::with_capacity(capacity, text);
    stream(input, &mut streamed).expect("slices do not fail");
    assert!(streamed == printed, "{name}: the second model's stream");
}
