//! Memories with page tables in them, and addresses worth using there.

use super::maps::Map;
use super::rng::Rng;
use crate::words;

/// A start's memory and store, the map of bad words, and what a generator of calls wants to know of them.
#[derive(Clone, Debug)]
pub struct World {
    pub memory: Vec<u8>,
    pub bad: Vec<u8>,
    pub store: Vec<u8>,
    /// Table bases worth writing.
    pub bases: Vec<u32>,
    /// Virtual addresses of lines worth accessing.
    pub lines: Vec<u32>,
    /// Virtual addresses of pages that second-level words were made for.
    pub pages: Vec<u32>,
    /// Physical addresses of descriptor words.
    pub descriptors: Vec<u32>,
    /// Megabytes of virtual space that a section maps to physical 0.
    pub sections: Vec<u32>,
    /// The second-level tables' physical addresses.
    pub tables: Vec<u32>,
    /// Large page groups with a small page's word among them.
    pub mixed: Vec<Mixed>,
}

/// A group of fifteen words of a large page and one of a small page.
#[derive(Clone, Copy, Debug)]
pub struct Mixed {
    /// Physical address of the small page's word.
    pub at: u32,
    /// The large page's word.
    pub word: u32,
    /// Virtual address of the small page.
    pub small: u32,
    /// Virtual address of another page of the group.
    pub other: u32,
}

const LENGTHS: [usize; 24] = [
    0, 0x20, 0x40, 0x420, 0x4000, 0x7FE0, 0x8000, 0xC000, 0x10000, 0x10000, 0x10000, 0x10000,
    0x10000, 0x10000, 0x10000, 0x10000, 0x10000, 0x10000, 0x14000, 0x14020, 0x18000, 0x20000,
    0x20000, 0x40000,
];

/// A random world of a random length, with a map of any kind.
pub fn world(rng: &mut Rng) -> World {
    let map = Map::random(rng);
    mapped_world(rng, map)
}

/// A random world of a random length, with a map of this kind.
pub fn mapped_world(rng: &mut Rng, map: Map) -> World {
    let length = rng.pick(&LENGTHS);
    world_with(rng, length, map)
}

/// A random world with memory of this length and a map of any kind.
pub fn world_of(rng: &mut Rng, length: usize) -> World {
    let map = Map::random(rng);
    world_with(rng, length, map)
}

/// A random world with memory of this length and a map of this kind.
pub fn world_with(rng: &mut Rng, length: usize, map: Map) -> World {
    let mut world = World {
        memory: if rng.percent(50) {
            rng.bytes(length)
        } else {
            vec![0; length]
        },
        bad: Vec::new(),
        store: rng.bytes(crate::state::STORE_BYTES),
        bases: Vec::new(),
        lines: Vec::new(),
        pages: Vec::new(),
        descriptors: Vec::new(),
        sections: Vec::new(),
        tables: Vec::new(),
        mixed: Vec::new(),
    };
    world.choose_tables(rng);
    let megabytes = world.choose_megabytes(rng);
    for base in world.bases.clone() {
        world.map_megabytes(rng, base, &megabytes);
    }
    world.narrow_lines(rng);
    world.bad = map.make(rng, length, &world.descriptors);
    world
}

impl World {
    fn length(&self) -> u32 {
        self.memory.len() as u32
    }

    /// Writes a descriptor if its place lies in memory.
    fn describe(&mut self, at: u32, word: u32) {
        if at < self.length() {
            words::write(&mut self.memory, at as usize, 4, word);
            self.descriptors.push(at);
        }
    }

    fn choose_tables(&mut self, rng: &mut Rng) {
        let bases = (self.length() / 0x4000).max(1);
        for _ in 0..1 + rng.below(2) {
            self.bases.push(rng.below(bases) * 0x4000);
        }
        let tables = (self.length() / 0x400).max(1);
        for _ in 0..2 + rng.below(3) {
            self.tables.push(rng.below(tables) * 0x400);
        }
    }

    fn choose_megabytes(&self, rng: &mut Rng) -> Vec<u32> {
        let count = 2 + rng.below(4);
        (0..count)
            .map(|_| {
                if self.length() < 0x4000 {
                    return rng.below(8);
                }
                let far = rng.below(0x1000);
                rng.pick(&[0, 0, 0, 1, 1, 2, 3, 4, 0x7FF, 0xFFF, far])
            })
            .collect()
    }

    /// The first megabyte is a section of memory; the others are sections, tables or any word.
    fn map_megabytes(&mut self, rng: &mut Rng, base: u32, megabytes: &[u32]) {
        for (i, megabyte) in megabytes.iter().enumerate().rev() {
            match rng.below(20) {
                _ if i == 0 => self.map_section(rng, base, *megabyte),
                0..=5 => self.map_section(rng, base, *megabyte),
                6..=18 => self.map_pages(rng, base, *megabyte),
                _ => {
                    self.describe(base + 4 * megabyte, rng.word());
                    self.lines.push(megabyte << 20 | (rng.below(0x8000) << 5));
                }
            }
        }
    }

    fn map_section(&mut self, rng: &mut Rng, base: u32, megabyte: u32) {
        let outside = rng.percent(10);
        let physical = if outside { rng.word() & 0xFFF0_0000 } else { 0 };
        let ap = permission(rng);
        let word = physical | ap << 10 | domain(rng) << 5 | cached(rng) << 2 | 2;
        self.describe(base + 4 * megabyte, word);
        if physical == 0 {
            self.sections.push(megabyte);
        }
        for _ in 0..20 + rng.below(60) {
            let reach = if rng.percent(95) {
                self.length().max(0x100)
            } else {
                0x10_0000
            };
            self.lines.push(megabyte << 20 | (rng.below(reach) & !31));
        }
    }

    fn map_pages(&mut self, rng: &mut Rng, base: u32, megabyte: u32) {
        let table = if rng.percent(96) {
            rng.pick(&self.tables)
        } else {
            rng.word() & 0xFFFF_FC00
        };
        let word = table | domain(rng) << 5 | 1;
        self.describe(base + 4 * megabyte, word);
        let pages = if rng.percent(30) { 70 } else { 4 };
        for _ in 0..pages + rng.below(12) {
            let page = rng.below(256);
            let first = megabyte << 20 | page << 12;
            match rng.below(20) {
                0..=13 => self.map_small(rng, table, page),
                14..=17 => self.map_large(rng, table, page),
                18 => self.map_mixed(rng, table, page, first),
                _ => self.describe(table.wrapping_add(4 * page), rng.word() & !2),
            }
            self.pages.push(first);
            for _ in 0..1 + rng.below(8) {
                self.lines.push(first | (rng.below(0x1000) & !31));
            }
        }
    }

    fn page_word(&self, rng: &mut Rng, size: u32, low: u32) -> u32 {
        let pages = (self.length() / size).max(1);
        let physical = if rng.percent(88) {
            rng.below(pages) * size
        } else {
            rng.word() & !(size - 1)
        };
        let mut ap = 0;
        for i in 0..4 {
            ap |= permission(rng) << (4 + 2 * i);
        }
        physical | ap | cached(rng) << 2 | low
    }

    fn map_small(&mut self, rng: &mut Rng, table: u32, page: u32) {
        let word = self.page_word(rng, 0x1000, 2);
        self.describe(table.wrapping_add(4 * page), word);
    }

    /// Sixteen equal words, or now and then a group that is not equal.
    fn map_large(&mut self, rng: &mut Rng, table: u32, page: u32) {
        let word = self.page_word(rng, 0x10000, 1);
        let broken = rng.percent(10);
        for i in 0..16 {
            if broken && rng.percent(30) {
                continue;
            }
            let at = table.wrapping_add(4 * (page & !15)).wrapping_add(4 * i);
            self.describe(at, word);
        }
    }

    /// A large page's group with one word of a small page in it.
    fn map_mixed(&mut self, rng: &mut Rng, table: u32, page: u32, small: u32) {
        let word = self.page_word(rng, 0x10000, 1);
        for i in 0..16 {
            let at = table.wrapping_add(4 * (page & !15)).wrapping_add(4 * i);
            self.describe(at, word);
        }
        self.map_small(rng, table, page);
        self.mixed.push(Mixed {
            at: table.wrapping_add(4 * page),
            word,
            small,
            other: small ^ 0x1000,
        });
    }

    /// Keeps a number of lines; in some worlds they all lie in one or two sets.
    fn narrow_lines(&mut self, rng: &mut Rng) {
        if self.lines.is_empty() {
            self.lines.push(0);
        }
        let keep = 8 + rng.below(120);
        let sets = [rng.below(16), rng.below(16)];
        let narrow = rng.percent(50);
        let mut kept = Vec::new();
        for _ in 0..keep {
            let line = rng.pick(&self.lines);
            kept.push(if narrow {
                line & !0x1E0 | rng.pick(&sets) << 5
            } else {
                line
            });
        }
        self.lines = kept;
    }
}

fn permission(rng: &mut Rng) -> u32 {
    if rng.percent(80) {
        3
    } else {
        rng.below(4)
    }
}

fn domain(rng: &mut Rng) -> u32 {
    if rng.percent(70) {
        0
    } else {
        rng.below(16)
    }
}

/// C times 2 plus B.
fn cached(rng: &mut Rng) -> u32 {
    if rng.percent(65) {
        3
    } else {
        rng.below(4)
    }
}
