//! What happened in runs: events of the library machine, statuses, refusals, signs; those of swaps, and
//! statuses at bad words, also alone.

use crate::answers::{Answer, Status, STATUSES};
use crate::calls::{Access, Call, Kind};
use crate::refusals::BAD_MAP;
use std::fmt;

/// Takes note of the library machine's events. `Unwatched` costs nothing.
pub trait Watch {
    fn note(&mut self, event: Event);
    /// An access that faults with this status where its word, or one that its walk or fill reads, is bad.
    fn note_bad(&mut self, access: &Access, status: Status);
    fn note_answer(&mut self, call: &Call, answer: &Answer);
}

pub struct Unwatched;

impl Watch for Unwatched {
    #[inline]
    fn note(&mut self, _: Event) {}
    #[inline]
    fn note_bad(&mut self, _: &Access, _: Status) {}
    #[inline]
    fn note_answer(&mut self, _: &Call, _: &Answer) {}
}

macro_rules! events {
    ($($event:ident $name:literal),* $(,)?) => {
        #[derive(Clone, Copy, Debug, PartialEq, Eq)]
        pub enum Event { $($event),* }

        /// The events' names, in the order of `Event`.
        pub const EVENTS: [&str; [$($name),*].len()] = [$($name),*];
    };
}

events! {
    FlatAccess "flat access",
    LowBitsCleared "low bits cleared",
    TlbHit "TLB hit",
    TlbMiss "TLB miss",
    SectionFound "walk finds a section",
    LargePageFound "walk finds a large page",
    SmallPageFound "walk finds a small page",
    TlbPlaceEmpty "TLB entry into an empty place",
    TlbReplacement "TLB replacement of a valid entry",
    TlbFlush "TLB flush",
    TlbDrop "TLB drop of one entry",
    TlbDropSeveral "TLB drop of several entries",
    TlbDropNothing "TLB drop of nothing",
    HitLoad "hit load",
    HitStore "hit store",
    HitSwap "hit swap",
    HitWhileDisabled "hit with the Dcache disabled",
    HitBad "hit of a bad word",
    Fill "fill",
    FillBadBefore "fill aborted before the wanted word",
    FillBadAt "fill aborted at the wanted word",
    FillBadBehind "fill aborted behind the wanted word, the load served",
    FillOutside "fill outside memory",
    VictimEmpty "victim empty",
    VictimClean "victim clean",
    VictimHalfDirty "victim with one dirty half",
    VictimDirty "victim with two dirty halves",
    BadVictimEmpty "fill aborted by a bad word, victim empty",
    BadVictimClean "fill aborted by a bad word, victim clean",
    BadVictimDirty "fill aborted by a bad word, victim dirty",
    OutsideVictimEmpty "fill outside memory, victim empty",
    OutsideVictimClean "fill outside memory, victim clean",
    OutsideVictimDirty "fill outside memory, victim dirty",
    HalfSent "half sent out (new buffer entry)",
    UncachedLoad "uncached load",
    BufferedStore "buffered store",
    BufferedStoreBad "buffered store to a bad word",
    StoreJoins "store joins an entry",
    StoreJoinsFull "store joins an entry of a full buffer",
    StoreTakesEntry "store takes a new buffer entry",
    OldestLeaves "oldest entry leaves a full buffer",
    LeavesGood "entry with bytes of good words leaves",
    LeavesMixed "entry with bytes of good and bad words leaves",
    LeavesBad "entry with bytes of bad words leaves",
    DroppedStore "dropped store",
    DirectStore "direct store",
    DrainOfEntries "drain with entries",
    DrainOfNothing "drain without entries",
    DrainBeforeFill "drain before a fill",
    DrainBeforeAbortedFill "drain before a fill aborted by a bad word",
    DrainBeforeLoad "drain before an uncached load",
    NoDrainBeforeLoadAbort "entries stay at an uncached load that aborts",
    DrainBeforeStore "drain with entries before a direct store",
    NoDrainBeforeStoreAbort "entries stay at a direct store that aborts",
    SwapWhereLoadsFill "swap miss where a load fills",
    SwapWhereStoresBuffer "swap miss where a load fills nothing and a store is buffered",
    SwapWhereNeither "swap miss where neither",
    SwapOutsideWhereLoadsFill "swap outside memory where a load fills",
    SwapOutsideWhereStoresBuffer "swap outside memory where a load fills nothing and a store is dropped",
    SwapOutsideWhereNeither "swap outside memory where neither",
    SwapBadWhereLoadsFill "swap of a bad word where a load fills",
    SwapBadWhereStoresBuffer "swap of a bad word where a load fills nothing and a store is buffered",
    SwapBadWhereNeither "swap of a bad word where neither",
    DrainBeforeSwap "drain with entries before a swap",
    DrainOfSwapped "drain of bytes that a swap reads",
    NoDrainBeforeSwapAbort "entries stay at a swap that aborts",
    SwapLowBitsCleared "swap with low bits cleared",
    SwapWhereLoadsAlone "swap denied where a load is allowed",
    SwapOfHalfword "swap of width 2 refused by 6",
    CleanOfDirty "clean of a dirty line",
    CleanOfClean "clean of a clean line",
    CleanOfAbsent "clean of an absent line",
    LineFlush "line flush of a held line",
    LineFlushAbsent "line flush of an absent line",
    WholeFlush "whole Dcache flush",
    OperationNothing "operation (0,5), which does nothing",
    RegisterRead "register read",
    RegisterWrite "register write",
}

/// Counts of faults by status and of refusals by number.
#[derive(Clone, Debug, Default, PartialEq, Eq)]
struct Unserved {
    statuses: [u64; 16],
    refusals: [u64; BAD_MAP as usize + 1],
}

impl Unserved {
    fn note(&mut self, answer: &Answer) {
        match answer {
            Answer::Refused(number) => self.refusals[*number as usize] += 1,
            Answer::Fault(fault) => self.statuses[fault.status as usize] += 1,
            Answer::Value(_) | Answer::Signed(_) => {}
        }
    }

    fn add(&mut self, other: &Unserved) {
        let statuses = self.statuses.iter_mut().zip(other.statuses);
        let refusals = self.refusals.iter_mut().zip(other.refusals);
        for (sum, count) in statuses.chain(refusals) {
            *sum += count;
        }
    }

    /// A row for each of the statuses, for refusals 1 to `last` and for 16; `of` stands before their names.
    fn rows(&self, of: &str, statuses: &[Status], last: u32) -> Vec<(String, u64)> {
        let mut rows = status_rows(of, statuses, &self.statuses);
        for number in (1..=last).chain([BAD_MAP]) {
            let count = self.refusals[number as usize];
            rows.push((format!("{of}refusal {number}"), count));
        }
        rows
    }
}

fn status_rows(of: &str, statuses: &[Status], counts: &[u64; 16]) -> Vec<(String, u64)> {
    let row = |status: &Status| {
        let number = *status as usize;
        (format!("{of}fault status {number}"), counts[number])
    };
    statuses.iter().map(row).collect()
}

/// Counts of events and answers.
#[derive(Clone, Debug, PartialEq, Eq)]
pub struct Coverage {
    events: [u64; EVENTS.len()],
    /// Of all calls, and of swaps.
    unserved: Unserved,
    unserved_swaps: Unserved,
    /// Statuses at bad words, of loads, stores and swaps.
    bad: [[u64; 16]; 3],
    signed_negative: u64,
    signed_not_negative: u64,
}

impl Watch for Coverage {
    fn note(&mut self, event: Event) {
        self.events[event as usize] += 1;
    }

    fn note_bad(&mut self, access: &Access, status: Status) {
        let kind = match access.kind {
            Kind::Load | Kind::SignedLoad => 0,
            Kind::Store(_) => 1,
            Kind::Swap(_) => 2,
        };
        self.bad[kind][status as usize] += 1;
    }

    fn note_answer(&mut self, call: &Call, answer: &Answer) {
        self.unserved.note(answer);
        if let Call::Swap { width, .. } = call {
            self.unserved_swaps.note(answer);
            if *width == 2 && *answer == Answer::Refused(6) {
                self.note(Event::SwapOfHalfword);
            }
        }
        match answer {
            Answer::Signed(value) if *value < 0 => self.signed_negative += 1,
            Answer::Signed(_) => self.signed_not_negative += 1,
            _ => {}
        }
    }
}

impl Default for Coverage {
    fn default() -> Coverage {
        Coverage {
            events: [0; EVENTS.len()],
            unserved: Unserved::default(),
            unserved_swaps: Unserved::default(),
            bad: Default::default(),
            signed_negative: 0,
            signed_not_negative: 0,
        }
    }
}

/// The statuses but some.
fn statuses_but(left_out: &[Status]) -> Vec<Status> {
    let statuses = STATUSES.into_iter();
    let kept = statuses.filter(|status| !left_out.contains(status));
    kept.collect()
}

/// A store and a swap have no status of a fill.
const FILL: [Status; 2] = [Status::FillSection, Status::FillPage];
/// Alignment is asked before there is a word that could be bad; where translation fails there is none.
const NO_WORD: [Status; 3] = [
    Status::Alignment,
    Status::TranslationSection,
    Status::TranslationPage,
];

impl Coverage {
    /// Every row of the table: name and count.
    pub fn rows(&self) -> Vec<(String, u64)> {
        let mut rows = Vec::new();
        for (name, count) in EVENTS.iter().zip(self.events) {
            rows.push((name.to_string(), count));
        }
        rows.push(("signed load, negative".into(), self.signed_negative));
        rows.push(("signed load, not negative".into(), self.signed_not_negative));
        rows.extend(self.unserved.rows("", &STATUSES, 12));
        rows.extend(self.unserved_swaps.rows("swap, ", &statuses_but(&FILL), 7));
        let loads = statuses_but(&NO_WORD);
        let others = statuses_but(&[&FILL[..], &NO_WORD].concat());
        let kinds = [("load", &loads), ("store", &others), ("swap", &others)];
        for ((kind, statuses), counts) in kinds.iter().zip(&self.bad) {
            let of = format!("{kind} at a bad word, ");
            rows.extend(status_rows(&of, statuses, counts));
        }
        rows
    }

    /// The names of the rows that never occurred.
    pub fn missing(&self) -> Vec<String> {
        let rows = self.rows().into_iter();
        rows.filter(|row| row.1 == 0).map(|row| row.0).collect()
    }

    pub fn add(&mut self, other: &Coverage) {
        for (sum, count) in self.events.iter_mut().zip(other.events) {
            *sum += count;
        }
        self.unserved.add(&other.unserved);
        self.unserved_swaps.add(&other.unserved_swaps);
        let bad = self.bad.as_flattened_mut().iter_mut();
        for (sum, count) in bad.zip(other.bad.as_flattened()) {
            *sum += count;
        }
        self.signed_negative += other.signed_negative;
        self.signed_not_negative += other.signed_not_negative;
    }
}

impl fmt::Display for Coverage {
    fn fmt(&self, out: &mut fmt::Formatter) -> fmt::Result {
        for (name, count) in self.rows() {
            writeln!(out, "{count:>12}  {name}")?;
        }
        Ok(())
    }
}
