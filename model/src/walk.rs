//! The walk: level 1 and level 2 descriptors, read from memory alone (001, figures 2-1 and 2-2).

use crate::answers::{Abort, Status};
use crate::bus::Bus;
use crate::state::TlbEntry;

/// A walk: the physical addresses of the words it read and of one that aborted, and what it found.
#[derive(Clone, Copy, Debug, PartialEq, Eq)]
pub struct Walk {
    pub level1: Option<u32>,
    pub level2: Option<u32>,
    pub aborted: Option<u32>,
    pub found: Result<TlbEntry, Abort>,
}

/// Walks for a virtual address; memory is read over the bus, never cache or buffer.
pub fn walk(bus: Bus, table_base: u32, address: u32) -> Walk {
    let at = table_base + 4 * (address >> 20);
    let Some(word) = bus.read(at) else {
        return Walk {
            level1: None,
            level2: None,
            aborted: Some(at),
            found: Err(Abort {
                status: Status::WalkLevel1,
                domain: 0,
            }),
        };
    };
    let mut walk = Walk {
        level1: Some(at),
        level2: None,
        aborted: None,
        found: Err(Abort {
            status: Status::TranslationSection,
            domain: 0,
        }),
    };
    match word & 3 {
        1 => walk_level2(bus, word, address, &mut walk),
        2 => walk.found = Ok(section(word, address)),
        _ => {}
    }
    walk
}

/// The second level, under a level 1 word that names a table.
fn walk_level2(bus: Bus, level1: u32, address: u32, walk: &mut Walk) {
    let domain = level1 >> 5 & 15;
    let at = (level1 & 0xFFFF_FC00) + 4 * (address >> 12 & 0xFF);
    let Some(word) = bus.read(at) else {
        walk.aborted = Some(at);
        walk.found = Err(Abort {
            status: Status::WalkLevel2,
            domain,
        });
        return;
    };
    walk.level2 = Some(at);
    walk.found = match word & 3 {
        1 => Ok(page(1, 0xFFFF_0000, word, domain, address)),
        2 => Ok(page(2, 0xFFFF_F000, word, domain, address)),
        _ => Err(Abort {
            status: Status::TranslationPage,
            domain,
        }),
    };
}

fn section(word: u32, address: u32) -> TlbEntry {
    TlbEntry {
        valid: 1,
        size: 0,
        virtual_base: address & 0xFFF0_0000,
        physical_base: word & 0xFFF0_0000,
        domain: word >> 5 & 15,
        ap: [word >> 10 & 3; 4],
        c: word >> 3 & 1,
        b: word >> 2 & 1,
    }
}

fn page(size: u32, mask: u32, word: u32, domain: u32, address: u32) -> TlbEntry {
    TlbEntry {
        valid: 1,
        size,
        virtual_base: address & mask,
        physical_base: word & mask,
        domain,
        ap: [word >> 4 & 3, word >> 6 & 3, word >> 8 & 3, word >> 10 & 3],
        c: word >> 3 & 1,
        b: word >> 2 & 1,
    }
}
