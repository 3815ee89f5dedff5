//! The bus: which words of memory abort (document 02, Five). The lent map has one byte a word, 1 for a bad word.

use crate::state::LINE_BYTES;
use crate::words;

/// A word, and so a byte of the map, is so many bytes of memory.
pub const WORD_BYTES: usize = 4;
/// The words of a line.
pub const LINE_WORDS: usize = LINE_BYTES / WORD_BYTES;

/// What the bus makes of a word. All but good ones abort.
#[derive(Clone, Copy, Debug, PartialEq, Eq)]
pub enum Word {
    Good,
    Bad,
    Outside,
}

/// Memory with its map. Words behind the map's end are good.
#[derive(Clone, Copy)]
pub struct Bus<'a> {
    pub memory: &'a [u8],
    pub bad: &'a [u8],
}

impl Bus<'_> {
    /// The word in which a physical address lies.
    #[inline]
    pub fn word(&self, physical: u32) -> Word {
        if physical as usize >= self.memory.len() {
            return Word::Outside;
        }
        match self.bad.get(physical as usize / WORD_BYTES) {
            Some(1) => Word::Bad,
            _ => Word::Good,
        }
    }

    #[inline]
    pub fn aborts(&self, physical: u32) -> bool {
        self.word(physical) != Word::Good
    }

    /// The value of the word at a physical address that is a multiple of four; none if it aborts.
    #[inline]
    pub fn read(&self, physical: u32) -> Option<u32> {
        (!self.aborts(physical)).then(|| words::read(self.memory, physical as usize, 4))
    }

    /// The first word of a physical line that aborts, 0 to 7. Of a line outside memory all do.
    #[inline]
    pub fn first_abort(&self, line: u32) -> Option<u32> {
        let first = line as usize * LINE_WORDS;
        if first * WORD_BYTES >= self.memory.len() {
            return Some(0);
        }
        let words = &self.bad[first..first + LINE_WORDS];
        let found = words.iter().position(|word| *word == 1);
        found.map(|number| number as u32)
    }
}

/// Memory that is written, with its map.
pub struct Board<'a> {
    pub memory: &'a mut [u8],
    pub bad: &'a [u8],
}

impl Board<'_> {
    #[inline]
    pub fn bus(&self) -> Bus<'_> {
        Bus {
            memory: self.memory,
            bad: self.bad,
        }
    }
}

/// The number of the word in its line.
#[inline]
pub fn number_in_line(physical: u32) -> u32 {
    physical / WORD_BYTES as u32 % LINE_WORDS as u32
}

/// Does the map fit a memory of so many bytes: a quarter of its length, no byte above 1? (Refusal 16.)
pub fn map_fits(memory: usize, bad: &[u8]) -> bool {
    // the bytes together have no bit above the lowest; a loop without an exit is fast
    bad.len() * WORD_BYTES == memory && bad.iter().fold(0, |all, byte| all | byte) <= 1
}

/// A map without bad words for a memory of so many bytes.
pub fn no_bad_words(memory: usize) -> Vec<u8> {
    vec![0; memory / WORD_BYTES]
}

#[cfg(test)]
mod tests {
    use super::*;

    #[test]
    fn words_of_a_map() {
        let memory = [7; 64];
        let mut bad = [0; 16];
        (bad[3], bad[8], bad[15]) = (1, 1, 1);
        let bus = Bus {
            memory: &memory,
            bad: &bad,
        };
        for physical in 0..64 {
            let is_bad = matches!(physical / 4, 3 | 8 | 15);
            assert_eq!(
                bus.word(physical),
                if is_bad { Word::Bad } else { Word::Good }
            );
            assert_eq!(bus.aborts(physical), is_bad);
        }
        for physical in [64, 1 << 24, u32::MAX] {
            assert_eq!(bus.word(physical), Word::Outside);
            assert_eq!(bus.read(physical & !3), None);
        }
        assert_eq!((bus.read(8), bus.read(12)), (Some(0x0707_0707), None));
        assert_eq!((bus.first_abort(0), bus.first_abort(1)), (Some(3), Some(0)));
        assert_eq!(bus.first_abort(2), Some(0));
        assert_eq!(bus.first_abort(u32::MAX >> 5), Some(0));
    }

    #[test]
    fn words_behind_the_map_are_good() {
        let memory = [0; 64];
        let bus = Bus {
            memory: &memory,
            bad: &[1],
        };
        assert_eq!(
            (bus.word(3), bus.word(4), bus.word(64)),
            (Word::Bad, Word::Good, Word::Outside)
        );
    }

    #[test]
    fn maps_that_fit() {
        assert!(map_fits(0, &[]) && map_fits(32, &[0; 8]) && map_fits(32, &[1; 8]));
        assert!(!map_fits(0, &[0]) && !map_fits(32, &[]) && !map_fits(32, &[0; 7]));
        assert!(!map_fits(32, &[0; 9]) && !map_fits(32, &[0; 32]));
        for at in 0..8 {
            for byte in [2, 3, 4, 128, 255] {
                let mut bad = [1; 8];
                bad[at] = byte;
                assert!(!map_fits(32, &bad), "byte {byte} at {at}");
            }
        }
    }
}
