//! Changes of packed words, any of which may leave the state sound.

use crate::packed::Packed;
use sa110_model::random::Rng;

/// Flips one bit; answers where.
pub fn flip_bit(p: &mut Packed, rng: &mut Rng) -> String {
    let bit = rng.below(64);
    let (low, byte) = (bit % 32, bit % 8);
    let (field, bit) = match rng.below(8) {
        0 => (change_record(p, rng, &|x| x ^ 1 << low), low),
        1 => (change_counts(p, rng, &|x| x ^ 1 << low), low),
        2 => (
            change_word(&mut p.state.entries, "TLB entry", rng, &|x| x ^ 1 << bit),
            bit,
        ),
        3 => (
            change_word(&mut p.state.lines, "line", rng, &|x| x ^ 1 << bit),
            bit,
        ),
        4 => (
            change_word(&mut p.state.words, "buffer word", rng, &|x| x ^ 1 << bit),
            bit,
        ),
        5 => (change_pointer(p, rng, &|x| x ^ 1 << low), low),
        6 => (change_byte(p, rng, &|x| x ^ 1 << byte), byte),
        _ => {
            p.state.used ^= 1 << bit;
            ("number of buffer entries".to_string(), bit)
        }
    };
    format!("{field}, bit {bit} flipped")
}

/// Replaces one word by a random one, by zero, one or all ones, by a number near it, or by another line's; answers where.
pub fn replace_word(p: &mut Packed, rng: &mut Rng) -> String {
    let (x, shift) = (rng.draw(), rng.below(64));
    let step = rng.below(7) as u64;
    let x = rng.pick(&[x, x, x & 0xFFFF_FFFF, x << 32, x >> shift, 0, 1, u64::MAX]);
    let near = |y: u64| y.wrapping_add(step).wrapping_sub(3);
    let far = rng.percent(60);
    let wide = |y: u64| if far { x } else { near(y) };
    let narrow = |y: u32| wide(y as u64) as u32;
    match rng.below(9) {
        0 => change_record(p, rng, &narrow),
        1 => change_counts(p, rng, &narrow),
        2 => change_word(&mut p.state.entries, "TLB entry", rng, &wide),
        3 => change_word(&mut p.state.lines, "line", rng, &wide),
        4 => change_word(&mut p.state.words, "buffer word", rng, &wide),
        5 => change_pointer(p, rng, &narrow),
        6 => change_byte(p, rng, &|y| wide(y as u64) as u8),
        7 => copy_line(p, rng),
        _ => {
            p.state.used = wide(p.state.used as u64) as usize;
            "number of buffer entries".to_string()
        }
    }
}

fn change_record(p: &mut Packed, rng: &mut Rng, change: &dyn Fn(u32) -> u32) -> String {
    let r = &mut p.cp15;
    let (name, x) = match rng.below(6) {
        0 => ("control", &mut r.control),
        1 => ("table base", &mut r.base),
        2 => ("domain values", &mut r.domains),
        3 => ("FSR", &mut r.fsr),
        4 => ("FAR", &mut r.far),
        _ => ("TLB pointer", &mut r.pointer),
    };
    *x = change(*x);
    name.to_string()
}

fn change_counts(p: &mut Packed, rng: &mut Rng, change: &dyn Fn(u32) -> u32) -> String {
    let c = &mut p.state.counts;
    let (name, x) = match rng.below(5) {
        0 => ("calls", &mut c.calls),
        1 => ("TLB misses", &mut c.misses),
        2 => ("hits", &mut c.hits),
        3 => ("fills", &mut c.fills),
        _ => ("halves sent out", &mut c.halves),
    };
    *x = change(*x);
    name.to_string()
}

fn change_word(
    words: &mut [u64],
    name: &str,
    rng: &mut Rng,
    change: &dyn Fn(u64) -> u64,
) -> String {
    let i = rng.below(words.len() as u32) as usize;
    words[i] = change(words[i]);
    format!("{name} {i}")
}

fn change_pointer(p: &mut Packed, rng: &mut Rng, change: &dyn Fn(u32) -> u32) -> String {
    let i = rng.below(p.state.pointers.len() as u32) as usize;
    p.state.pointers[i] = change(p.state.pointers[i]);
    format!("pointer of set {i}")
}

fn change_byte(p: &mut Packed, rng: &mut Rng, change: &dyn Fn(u8) -> u8) -> String {
    let (i, j) = (rng.below(8) as usize, rng.below(16) as usize);
    p.state.bytes[i][j] = change(p.state.bytes[i][j]);
    format!("byte {j} of buffer entry {i}")
}

/// Copies one line's tag, or the whole line, to another line, mostly of the same set.
fn copy_line(p: &mut Packed, rng: &mut Rng) -> String {
    let from = rng.below(512) as usize;
    let to = if rng.percent(80) {
        from / 32 * 32 + rng.below(32) as usize
    } else {
        rng.below(512) as usize
    };
    let tag = p.state.lines[from] >> 32 << 32;
    p.state.lines[to] = if rng.percent(50) {
        p.state.lines[from]
    } else {
        p.state.lines[to] & 0xFFFF_FFFF | tag
    };
    format!("line {to}, copied from line {from}")
}
