//! What is printed of a difference: the shortest list and the least memory that still differ.

use crate::shrunk;
use crate::side_by_side::{Numbers, Setting};
use sa110_model::Call;
use std::fmt;
use std::fmt::Write;

/// Shrinks a difference, and panics with what is left of it.
pub fn report(
    name: String,
    setting: &Setting,
    calls: &[Numbers],
    differs: &dyn Fn(&Setting, &[Numbers]) -> Option<String>,
) -> ! {
    let calls = shrunk(calls, |calls| differs(setting, calls).is_some());
    let mut setting = setting.clone();
    let still = |setting: &Setting| differs(setting, &calls).is_some();
    zero(
        &mut setting,
        [1024, 4],
        |setting| &mut setting.memory,
        still,
    );
    zero(&mut setting, [256, 1], |setting| &mut setting.bad, still);
    let what = differs(&setting, &calls).unwrap_or_default();
    let mut text = format!("{name}\n{what}\nall numbers hexadecimal; ");
    list(&mut text, &setting, &calls).expect("text is written");
    panic!("{text}");
}

/// Zeroes pieces of some bytes that the difference does not need, if they are not too many for that.
fn zero(
    setting: &mut Setting,
    sizes: [usize; 2],
    bytes: fn(&mut Setting) -> &mut Vec<u8>,
    differs: impl Fn(&Setting) -> bool,
) {
    let length = bytes(setting).len();
    if length > 0x40000 {
        return;
    }
    for size in sizes {
        for at in (0..length).step_by(size) {
            let end = (at + size).min(length);
            let piece = bytes(setting)[at..end].to_vec();
            if piece.iter().all(|byte| *byte == 0) {
                continue;
            }
            bytes(setting)[at..end].fill(0);
            if !differs(setting) {
                bytes(setting)[at..end].copy_from_slice(&piece);
            }
        }
    }
}

/// Writes the lengths, memory's words and the map's bytes that are not zero unless they are many, and the
/// calls.
fn list(text: &mut String, setting: &Setting, calls: &[Numbers]) -> fmt::Result {
    let (length, store) = (setting.memory.len(), setting.store.len());
    let map = setting.bad.len();
    writeln!(
        text,
        "memory of {length:X} bytes, map of {map:X}, store of {store:X}"
    )?;
    let words = setting.memory.chunks_exact(4);
    let words = words.map(|word| u32::from_le_bytes(word.try_into().unwrap()));
    list_words(text, "word", words)?;
    list_words(
        text,
        "map byte",
        setting.bad.iter().map(|byte| u32::from(*byte)),
    )?;
    for (i, numbers) in calls.iter().enumerate() {
        match Call::from_numbers(numbers) {
            Some(call) => writeln!(text, "{i:>5X}  {call}   {numbers:X?}")?,
            None => writeln!(text, "{i:>5X}  no call   {numbers:X?}")?,
        }
    }
    Ok(())
}

fn list_words(text: &mut String, name: &str, words: impl Iterator<Item = u32>) -> fmt::Result {
    let words: Vec<_> = words.zip(0..).filter(|(word, _)| *word != 0).collect();
    if words.len() > 32 {
        return writeln!(text, "       {name}: {:X} that are not 0", words.len());
    }
    for (word, i) in words {
        writeln!(text, "       {name} {word:X} at {:X}", 4 * i)?;
    }
    Ok(())
}
