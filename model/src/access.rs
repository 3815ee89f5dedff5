//! An access, step by step, on the library machine.

use crate::answers::{Abort, Answer, Fault, Status};
use crate::bus::Word;
use crate::cache::{half_of, store_index};
use crate::calls::{Access, Kind};
use crate::coverage::{Event, Watch};
use crate::library::Lent;
use crate::misses::{load_miss, store_miss, swap_miss};
use crate::registers::{A, C, M, R, S, W};
use crate::rights;
use crate::state::{PlainRegisters, TlbEntry};
use crate::tlb;
use crate::walk::walk;
use crate::words;

/// Where an access goes once translation and rights have passed.
#[derive(Clone, Copy, Debug, PartialEq, Eq)]
pub struct Place {
    pub physical: u32,
    pub page: bool,
    pub domain: u32,
    pub cacheable: bool,
    pub bufferable: bool,
}

impl Place {
    /// With M clear the address is flat, neither cacheable nor bufferable, and counts as section.
    pub fn flat(address: u32) -> Place {
        Place {
            physical: address,
            page: false,
            domain: 0,
            cacheable: false,
            bufferable: false,
        }
    }

    pub fn mapped(entry: &TlbEntry, address: u32) -> Place {
        Place {
            physical: entry.physical(address),
            page: entry.is_page(),
            domain: entry.domain,
            cacheable: entry.c == 1,
            bufferable: entry.b == 1,
        }
    }

    /// Does a load that misses here fill a line?
    #[inline]
    pub fn fills(&self, registers: &PlainRegisters) -> bool {
        registers.has(M) && registers.has(C) && self.cacheable
    }

    /// Is a store that misses here buffered?
    #[inline]
    pub fn buffers(&self, registers: &PlainRegisters) -> bool {
        registers.has(M) && registers.has(W) && (self.cacheable || self.bufferable)
    }

    /// A line fill aborts at or before the wanted word.
    pub fn fill_abort(&self) -> Abort {
        self.abort(Status::FillSection, Status::FillPage)
    }

    /// Any other access aborts.
    pub fn other_abort(&self) -> Abort {
        self.abort(Status::OtherSection, Status::OtherPage)
    }

    fn abort(&self, section: Status, page: Status) -> Abort {
        Abort {
            status: if self.page { page } else { section },
            domain: self.domain,
        }
    }
}

/// The address with its low bits cleared, or an alignment fault with A set.
#[inline]
pub fn aligned(registers: &PlainRegisters, access: &Access) -> Result<u32, Abort> {
    let low = access.address & (access.width - 1);
    if low != 0 && registers.has(A) {
        return Err(Abort {
            status: Status::Alignment,
            domain: 0,
        });
    }
    Ok(access.address - low)
}

/// Checks the rights of an access at a mapping. A swap is checked as a store.
#[inline]
pub fn check_rights(
    registers: &PlainRegisters,
    entry: &TlbEntry,
    address: u32,
    access: &Access,
) -> Result<(), Abort> {
    let index = rights::index(
        registers.domain_value(entry.domain),
        entry.permission(address),
        registers.has(S),
        registers.has(R),
        access.privileged,
        access.stores().is_some(),
    );
    let status = match (rights::TABLE[index], entry.is_page()) {
        (rights::ALLOWED, _) => return Ok(()),
        (rights::DOMAIN_FAULT, false) => Status::DomainSection,
        (rights::DOMAIN_FAULT, true) => Status::DomainPage,
        (_, false) => Status::PermissionSection,
        (_, true) => Status::PermissionPage,
    };
    Err(Abort {
        status,
        domain: entry.domain,
    })
}

/// Serves an access that is not refused, the count of calls included.
#[inline]
pub fn serve<T: Watch>(lent: &mut Lent, access: &Access, watch: &mut T) -> Answer {
    lent.state.counts.calls += 1;
    match reach(lent, access, watch) {
        Ok(value) if access.kind == Kind::SignedLoad => {
            Answer::Signed(words::signed(value, access.width))
        }
        Ok(value) => Answer::Value(value),
        Err(abort) => {
            let fault = Fault {
                status: abort.status,
                domain: abort.domain,
                address: access.address,
            };
            lent.registers.plain.fsr = fault.fsr();
            lent.registers.plain.far = fault.address;
            Answer::Fault(fault)
        }
    }
}

/// Alignment, translation and rights, then the cache, then buffer or memory.
#[inline]
fn reach<T: Watch>(lent: &mut Lent, access: &Access, watch: &mut T) -> Result<u32, Abort> {
    let address = aligned(&lent.registers.plain, access)?;
    if address != access.address {
        watch.note(Event::LowBitsCleared);
        if access.is_swap() {
            watch.note(Event::SwapLowBitsCleared);
        }
    }
    let place = translate(lent, access, address, watch)?;
    if let Some(index) = lent.state.cache.find(address) {
        if lent.word(place.physical) == Word::Bad {
            watch.note(Event::HitBad);
        }
        return Ok(hit(lent, index, access, address, watch));
    }
    let reached = match access.kind {
        Kind::Store(value) => store_miss(lent, access, &place, value, watch),
        Kind::Swap(value) => swap_miss(lent, access, &place, value, watch),
        _ => load_miss(lent, access, address, &place, watch),
    };
    reached.inspect_err(|abort| {
        // inside memory bad words alone abort
        if lent.word(place.physical) != Word::Outside {
            watch.note_bad(access, abort.status);
        }
    })
}

/// Translation and rights. A mapping goes to the TLB before any rights are checked.
#[inline]
fn translate<T: Watch>(
    lent: &mut Lent,
    access: &Access,
    address: u32,
    watch: &mut T,
) -> Result<Place, Abort> {
    if !lent.registers.plain.has(M) {
        watch.note(Event::FlatAccess);
        return Ok(Place::flat(address));
    }
    let index = match tlb::lookup(&lent.state.tlb, address) {
        Some(index) => {
            watch.note(Event::TlbHit);
            index
        }
        None => walk_into_tlb(lent, access, address, watch)?,
    };
    let entry = &lent.state.tlb[index];
    let registers = &lent.registers.plain;
    check_rights(registers, entry, address, access).inspect_err(|abort| {
        let kind = Kind::Load;
        let load = Access { kind, ..*access };
        if access.is_swap() && check_rights(registers, entry, address, &load).is_ok() {
            watch.note(Event::SwapWhereLoadsAlone);
        }
        if lent.word(entry.physical(address)) == Word::Bad {
            watch.note_bad(access, abort.status);
        }
    })?;
    Ok(Place::mapped(entry, address))
}

/// A TLB miss: counted even if the walk then faults. Answers the new entry's index.
fn walk_into_tlb<T: Watch>(
    lent: &mut Lent,
    access: &Access,
    address: u32,
    watch: &mut T,
) -> Result<usize, Abort> {
    watch.note(Event::TlbMiss);
    lent.state.counts.tlb_misses += 1;
    let walk = walk(lent.board.bus(), lent.registers.plain.table_base, address);
    let entry = walk.found.inspect_err(|abort| {
        if matches!(walk.aborted, Some(at) if lent.word(at) == Word::Bad) {
            watch.note_bad(access, abort.status);
        }
    })?;
    watch.note(match entry.size {
        0 => Event::SectionFound,
        1 => Event::LargePageFound,
        _ => Event::SmallPageFound,
    });
    Ok(tlb::place(
        &mut lent.state.tlb,
        &mut lent.registers.tlb_pointer,
        entry,
        watch,
    ))
}

/// A hit serves loads, stores and swaps with no bounds test; a store or swap marks its half.
#[inline]
fn hit<T: Watch>(
    lent: &mut Lent,
    index: usize,
    access: &Access,
    address: u32,
    watch: &mut T,
) -> u32 {
    lent.state.counts.hits += 1;
    if !lent.registers.plain.has(C) {
        watch.note(Event::HitWhileDisabled);
    }
    watch.note(match access.kind {
        Kind::Store(_) => Event::HitStore,
        Kind::Swap(_) => Event::HitSwap,
        _ => Event::HitLoad,
    });
    let at = store_index(index, address);
    let held = if access.loads() {
        words::read(lent.store, at, access.width)
    } else {
        0
    };
    if let Some(value) = access.stores() {
        words::write(lent.store, at, access.width, value);
        lent.state.cache.lines[index].dirty[half_of(address)] = 1;
    }
    held
}
