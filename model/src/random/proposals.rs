//! Random calls, biased so that lines are hit, evicted, cleaned and their descriptors changed. Every kind of call occurs.

use super::rng::Rng;
use super::world::World;
use crate::calls::Call;
use crate::registers::{A, C, I, M, R, S, W};
use std::collections::VecDeque;

/// Proposes calls in a world. Some come in groups, which wait in a queue.
pub struct Proposer<'a> {
    pub world: &'a World,
    pub queue: VecDeque<Call>,
    /// Percentage of stores among the accesses.
    stores: u32,
    /// Percentage of swaps among the accesses, and among what stores and what is refused.
    swaps: u32,
    /// Number of lines that most accesses go to.
    hot: u32,
    /// Descriptors, table base and TLB are left alone.
    calm: bool,
}

impl<'a> Proposer<'a> {
    pub fn new(rng: &mut Rng, world: &'a World) -> Proposer<'a> {
        let lines = world.lines.len() as u32;
        Proposer {
            world,
            queue: VecDeque::new(),
            stores: 15 + rng.below(50),
            swaps: 3 + rng.below(20),
            hot: 1 + rng.below(lines.min(40)),
            calm: rng.percent(40),
        }
    }

    /// Proposes no swaps, for lists that become text.
    pub fn without_swaps(rng: &mut Rng, world: &'a World) -> Proposer<'a> {
        Proposer {
            swaps: 0,
            ..Proposer::new(rng, world)
        }
    }

    /// The calls that switch translation on.
    pub fn opening(&mut self, rng: &mut Rng) {
        self.queue.push_back(Call::write(3, domain_value(rng)));
        self.queue
            .push_back(Call::write(2, rng.pick(&self.world.bases)));
        self.queue.push_back(Call::flush_tlb());
        self.queue.push_back(Call::write(1, control_value(rng)));
    }

    /// The next call of the queue, or a fresh proposal.
    pub fn next(&mut self, rng: &mut Rng) -> Call {
        if let Some(call) = self.queue.pop_front() {
            return call;
        }
        let line = self.line(rng);
        match rng.below(1000) {
            770..=779 if self.swaps > 0 => self.store_and_swap(rng),
            0..=779 => self.access(rng),
            780..=859 => self.line_operation(rng),
            860..=879 => Call::drain(),
            880..=894 => Call::drop_tlb_entry(line),
            895..=934 => self.register_call(rng),
            935..=949 if rng.percent(self.swaps) => refused_swap(rng, line),
            935..=949 => refused_call(rng, line),
            950..=955 => self.sweep(rng),
            956..=959 => self.page_sweep(rng),
            960..=964 => Call::operate(7, 0, 6 + rng.below(2), rng.word()),
            965..=969 => Call::operate(rng.pick(&[7, 8]), 0, 5, rng.word()),
            970..=989 if self.calm => self.access(rng),
            970..=979 => self.descriptor_change(rng),
            980..=982 => self.mend_mixed(rng),
            983..=985 => Call::operate(8, 0, 6 + rng.below(2), rng.word()),
            986..=989 => self.base_change(rng),
            _ => self.wild_access(rng),
        }
    }

    fn line(&self, rng: &mut Rng) -> u32 {
        if rng.percent(70) {
            self.world.lines[rng.below(self.hot) as usize]
        } else {
            rng.pick(&self.world.lines)
        }
    }

    fn access(&self, rng: &mut Rng) -> Call {
        let address = self.line(rng) + rng.below(32);
        self.access_at(rng, address)
    }

    /// Mostly aligned and privileged.
    fn access_at(&self, rng: &mut Rng, address: u32) -> Call {
        let swap = rng.percent(self.swaps);
        let width = rng.pick(if swap { &[1, 4] } else { &[1, 2, 4, 4] });
        let address = if rng.percent(92) {
            address & !(width - 1)
        } else {
            address
        };
        let privileged = rng.percent(85);
        if swap {
            Call::Swap {
                privileged,
                width,
                address,
                value: store_value(rng, width),
            }
        } else if rng.percent(self.stores) {
            Call::Store {
                privileged,
                width,
                address,
                value: store_value(rng, width),
            }
        } else if rng.percent(75) {
            Call::Load {
                privileged,
                width,
                address,
            }
        } else {
            Call::SignedLoad {
                privileged,
                width,
                address,
            }
        }
    }

    /// A privileged store, or of a byte or a word now and then a swap.
    fn store(&self, rng: &mut Rng, width: u32, address: u32, value: u32) -> Call {
        if width != 2 && rng.percent(self.swaps) {
            Call::swap(width, address, value)
        } else {
            Call::store(width, address, value)
        }
    }

    /// A store and a swap of its word, which finds the bytes in the buffer where stores are buffered.
    fn store_and_swap(&mut self, rng: &mut Rng) -> Call {
        let word = self.line(rng) | (rng.below(8) * 4);
        self.queue.push_back(Call::swap(4, word, rng.word()));
        let width = rng.pick(&[1, 2, 4]);
        let address = word | (rng.below(4) / width * width);
        Call::store(width, address, store_value(rng, width))
    }

    /// Any address, one near the lines in use, or one in or near a bad word.
    fn wild_access(&self, rng: &mut Rng) -> Call {
        let address = match rng.below(4) {
            0 => rng.word(),
            1 => self.line(rng) ^ 1 << rng.below(32),
            2 => rng.below(self.world.memory.len() as u32 + 0x100),
            _ => self.section(rng) << 20 | (self.bad_word(rng) ^ rng.below(8)),
        };
        self.access_at(rng, address)
    }

    /// A megabyte of virtual space that a section maps to physical 0, or megabyte 0.
    fn section(&self, rng: &mut Rng) -> u32 {
        match self.world.sections[..] {
            [] => 0,
            _ => rng.pick(&self.world.sections),
        }
    }

    /// The physical address of a bad word, if one is found near a random place, or of any word.
    fn bad_word(&self, rng: &mut Rng) -> u32 {
        let bad = &self.world.bad;
        let first = rng.below(bad.len() as u32) as usize;
        let found = bad[first..].iter().take(100).position(|byte| *byte == 1);
        4 * (first + found.unwrap_or(0)) as u32
    }

    fn line_operation(&self, rng: &mut Rng) -> Call {
        let address = self.line(rng) + rng.below(32);
        if rng.percent(70) {
            Call::clean_line(address)
        } else {
            Call::flush_line(address)
        }
    }

    fn register_call(&mut self, rng: &mut Rng) -> Call {
        match rng.below(10) {
            0..=3 => Call::read(rng.below(7)),
            4..=5 => Call::write(1, control_value(rng)),
            6..=7 => Call::write(3, domain_value(rng)),
            8 => Call::write(4 + rng.below(3), rng.word()),
            _ => {
                // Translation off for some accesses, then on again.
                for _ in 0..rng.below(6) {
                    let address = match rng.below(4) {
                        0 => self.bad_word(rng) + rng.below(4),
                        _ => rng.below(self.world.memory.len() as u32 + 0x40),
                    };
                    let call = self.access_at(rng, address);
                    self.queue.push_back(call);
                }
                self.queue.push_back(Call::write(1, control_value(rng)));
                Call::write(1, rng.pick(&[0, A, S | I, R]))
            }
        }
    }

    /// A store to a descriptor word, and mostly what R4 asks for after it.
    fn descriptor_change(&mut self, rng: &mut Rng) -> Call {
        if self.world.descriptors.is_empty() {
            return Call::drain();
        }
        let physical = rng.pick(&self.world.descriptors);
        let address = self.section(rng) << 20 | physical;
        if rng.percent(85) {
            self.queue.push_back(Call::clean_line(address));
            self.queue.push_back(Call::drain());
            self.queue.push_back(Call::flush_tlb());
        }
        if rng.percent(40) {
            let value = descriptor(rng, self.world);
            self.queue.push_back(self.store(rng, 4, address, value));
            return Call::load(4, address);
        }
        let width = rng.pick(&[1, 2, 4, 4, 4]);
        let value = descriptor(rng, self.world) & (u32::MAX >> (32 - 8 * width));
        self.store(rng, width, address, value)
    }

    /// A small page's word becomes its group's large page's, while the TLB holds the small page.
    fn mend_mixed(&mut self, rng: &mut Rng) -> Call {
        if self.world.mixed.is_empty() || self.world.sections.is_empty() {
            return self.access(rng);
        }
        let mixed = rng.pick(&self.world.mixed);
        let address = rng.pick(&self.world.sections) << 20 | mixed.at;
        self.queue
            .push_back(self.store(rng, 4, address, mixed.word));
        self.queue.push_back(Call::load(1, mixed.other));
        self.queue.push_back(Call::drop_tlb_entry(mixed.small));
        Call::load(1, mixed.small)
    }

    fn base_change(&mut self, rng: &mut Rng) -> Call {
        if rng.percent(95) {
            self.queue.push_back(Call::flush_tlb());
        }
        if rng.percent(90) {
            return Call::write(2, rng.pick(&self.world.bases) | rng.below(0x4000));
        }
        // A base anywhere for some accesses, then one of the world's again.
        for _ in 0..rng.below(4) {
            let call = self.access(rng);
            self.queue.push_back(call);
        }
        let base = rng.pick(&self.world.bases);
        self.queue.push_back(Call::write(2, base));
        self.queue.push_back(Call::flush_tlb());
        Call::write(2, rng.word())
    }

    /// Loads of many pages in a row, so that TLB entries are replaced.
    fn page_sweep(&mut self, rng: &mut Rng) -> Call {
        for page in self.world.pages.iter().take(90) {
            let address = page | rng.below(0x400) << 2;
            self.queue.push_back(Call::load(4, address));
        }
        self.access(rng)
    }

    /// Many loads in a row, so that lines give way: rising lines of one set, or all lines in use.
    fn sweep(&mut self, rng: &mut Rng) -> Call {
        let first = self.line(rng);
        for i in 0..8 + rng.below(40) {
            let address = first.wrapping_add(i * 0x200);
            self.queue.push_back(Call::load(4, address));
            for _ in 0..rng.below(3) {
                let (at, value) = (address | (rng.below(8) * 4), rng.word());
                self.queue.push_back(self.store(rng, 4, at, value));
            }
        }
        Call::load(4, first)
    }
}

fn store_value(rng: &mut Rng, width: u32) -> u32 {
    let value = match rng.below(4) {
        0 => rng.pick(&[0, 0x80, 0x8000, 0x7F, 0x8000_0000, 0xFFFF_FFFF]),
        _ => rng.word(),
    };
    value & (u32::MAX >> (32 - 8 * width))
}

/// A listed control value; mostly all three of M, C, W.
pub fn control_value(rng: &mut Rng) -> u32 {
    let mut value = match rng.below(20) {
        0 => 0,
        1 => M,
        2..=3 => M | W,
        _ => M | C | W,
    };
    for (bit, percent) in [
        (A, 40),
        (S, 20),
        (R, 20),
        (I, 30),
        (0x70, 30),
        (1 << 20, 10),
    ] {
        if rng.percent(percent) {
            value |= bit;
        }
    }
    value
}

/// Mostly every domain a client.
pub fn domain_value(rng: &mut Rng) -> u32 {
    match rng.below(10) {
        0..=5 => 0x5555_5555,
        6 => 0xFFFF_FFFF,
        7 => 0x5555_5551,
        8 => rng.word() | 1,
        _ => rng.word(),
    }
}

/// A word to overwrite a descriptor with.
fn descriptor(rng: &mut Rng, world: &World) -> u32 {
    let inside = rng.below(world.memory.len() as u32);
    match rng.below(8) {
        0 => 0,
        1 => rng.word(),
        2 => 0xC0E,
        3 => rng.pick(&world.tables) | 1,
        4 => 0xFFD,
        _ => inside & 0xFFFF_F000 | 0xFF2 | rng.below(4) << 2,
    }
}

/// A swap that refusal 6 or 7 meets.
fn refused_swap(rng: &mut Rng, address: u32) -> Call {
    Call::Swap {
        privileged: rng.percent(50),
        width: rng.pick(&[0, 1, 1, 2, 2, 3, 8]),
        address,
        value: 0x100 | rng.word(),
    }
}

/// A call that one of refusals 6 to 12 meets, and perhaps a later one too.
pub fn refused_call(rng: &mut Rng, address: u32) -> Call {
    let privileged = rng.percent(50);
    match rng.below(8) {
        0 => Call::Load {
            privileged,
            width: rng.pick(&[0, 3, 5, 8, 0xFFFF_FFFF]),
            address,
        },
        1 => Call::Store {
            privileged,
            width: rng.pick(&[1, 2, 3]),
            address,
            value: 0x10000 | rng.word(),
        },
        2 => Call::Read {
            privileged: false,
            register: rng.below(16),
        },
        3 => Call::read(7 + rng.below(9)),
        4 => Call::operate(rng.pick(&[0, 9, 15, 7 + 256]), 0, 7, rng.word()),
        5 => Call::operate(7 + rng.below(2), 2 + rng.below(6), rng.below(10), 0),
        6 => Call::write(1, rng.word() & 0x1FFF | 0x80),
        _ => Call::write(1, rng.pick(&[4, 5, 8, 12])),
    }
}
