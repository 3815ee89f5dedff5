//! Random maps of bad words, and damages of a map.

use super::rng::Rng;
use crate::bus::WORD_BYTES;

#[derive(Clone, Copy, Debug, PartialEq, Eq)]
pub enum Map {
    /// No bad words.
    None,
    /// A few, mostly one a line.
    Sparse,
    /// Many.
    Dense,
    /// Every word is bad.
    All,
}

pub const MAPS: [Map; 4] = [Map::None, Map::Sparse, Map::Dense, Map::All];

impl Map {
    /// The kind of this name.
    pub fn named(name: &str) -> Option<Map> {
        MAPS.into_iter()
            .find(|map| format!("{map:?}").eq_ignore_ascii_case(name))
    }

    pub fn random(rng: &mut Rng) -> Map {
        match rng.below(100) {
            0..=29 => Map::None,
            30..=79 => Map::Sparse,
            80..=95 => Map::Dense,
            _ => Map::All,
        }
    }

    /// A map of this kind for a memory of so many bytes. Unless all words are bad, most of those at these
    /// physical addresses are good.
    pub fn make(self, rng: &mut Rng, memory: usize, spared: &[u32]) -> Vec<u8> {
        let words = memory / WORD_BYTES;
        let mut bad = vec![0; words];
        match self {
            Map::None => {}
            Map::Sparse if words > 0 => {
                for _ in 0..1 + words / rng.pick(&[32, 64, 256]) {
                    bad[rng.below(words as u32) as usize] = 1;
                }
            }
            Map::Sparse => {}
            Map::Dense => {
                let percent = rng.pick(&[12, 25, 50, 90]);
                bad.fill_with(|| rng.percent(percent).into());
            }
            Map::All => bad.fill(1),
        }
        if self != Map::All {
            let good = rng.pick(&[90, 97, 100]);
            for at in spared.iter().filter(|_| rng.percent(good)) {
                bad[*at as usize / WORD_BYTES] = 0;
            }
        }
        bad
    }
}

/// Makes a map one that refusal 16 meets; answers how.
pub fn damage(rng: &mut Rng, bad: &mut Vec<u8>) -> String {
    let n = bad.len();
    if n > 0 && rng.percent(60) {
        let at = rng.below(n as u32) as usize;
        let at = rng.pick(&[at, at, 0, n - 1]);
        let any = 2 + rng.below(254) as u8;
        bad[at] = rng.pick(&[2, 3, 0x80, 0xFE, 0xFF, any]);
        return format!("map byte {at:X} is {:X}", bad[at]);
    }
    let any = rng.below(2 * n as u32 + 2) as usize;
    let lengths = [
        n.saturating_sub(1),
        n + 1,
        n / 2,
        2 * n,
        4 * n,
        0,
        n + 8,
        any,
    ];
    let length = match rng.pick(&lengths) {
        length if length == n => n + 1,
        length => length,
    };
    bad.resize(length, rng.below(2) as u8);
    format!("map of {length:X} bytes")
}

#[cfg(test)]
mod tests {
    use super::*;
    use crate::bus::map_fits;

    #[test]
    fn maps_fit_and_damaged_ones_do_not() {
        let mut rng = Rng::new(1);
        for _ in 0..5_000 {
            let memory = rng.pick(&[0, 32, 64, 0x400, 0x4000]);
            for map in MAPS {
                let mut bad = map.make(&mut rng, memory, &[]);
                assert!(map_fits(memory, &bad));
                let count = bad.iter().filter(|byte| **byte == 1).count();
                match map {
                    Map::None => assert_eq!(count, 0),
                    Map::Sparse => assert!((count > 0) == (memory > 0)),
                    Map::Dense => assert!(memory < 0x4000 || count > memory / 64),
                    Map::All => assert_eq!(count, memory / 4),
                }
                let how = damage(&mut rng, &mut bad);
                assert!(!map_fits(memory, &bad), "{memory} bytes, {how}");
            }
        }
    }
}
