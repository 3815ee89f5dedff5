//! The rules R2 to R6 and the end condition, as a monitor fed by the plain machine alone.
//! R1 is the threading of the machine from call to call and needs no monitor. A swap is an access that
//! reaches its line and, unless it aborts, a store to its word and line. A store that is dropped, outside
//! memory or at a bad word, is none.

use crate::answers::Answer;
use crate::calls::Call;
use crate::plain::{Deed, Plain, Reached};
use crate::registers::Operation;
use crate::walk::Walk;
use std::collections::{BTreeMap, HashMap};

/// A part of the rules that can be left out, to show that it is needed.
#[derive(Clone, Copy, Debug, PartialEq, Eq)]
pub enum Part {
    /// R2: each physical line is reached through one virtual line.
    R2Physical,
    /// R2: each virtual line reaches one physical line.
    R2Virtual,
    /// R2 counts accesses with M clear.
    R2Flat,
    /// R2 counts accesses outside memory.
    R2Outside,
    /// R3 at a whole Dcache flush.
    R3Whole,
    /// R3 at a line flush.
    R3Line,
    /// A line is cleaned under the virtual line of its last store; without this part also under any
    /// address that now translates to it.
    CleanAddress,
    R4Clean,
    R4Drain,
    R4TlbFlush,
    /// The clean, then the drain, then the TLB flush; without this part in any order.
    R4Order,
    R5,
    /// R6: the sixteen words lie in memory.
    R6Memory,
    /// R6: the sixteen words are good ones.
    R6Good,
    /// R6: the sixteen words are equal.
    R6Equal,
    /// R6 is asked also of accesses whose rights then fail.
    R6Denied,
    EndClean,
    EndDrain,
}

/// The rules, all of them or with one part left out.
#[derive(Clone, Copy, Debug, PartialEq, Eq)]
pub struct Rules {
    left_out: Option<Part>,
}

impl Rules {
    pub const ALL: Rules = Rules { left_out: None };

    pub fn without(part: Part) -> Rules {
        Rules {
            left_out: Some(part),
        }
    }

    fn ask(&self, part: Part) -> bool {
        self.left_out != Some(part)
    }

    /// What a descriptor word needs after its last store (R4).
    fn word_needs(&self) -> Needs {
        Needs {
            clean: self.ask(Part::R4Clean),
            drain: self.ask(Part::R4Drain),
            tlb_flush: self.ask(Part::R4TlbFlush),
            ordered: self.ask(Part::R4Order),
        }
    }

    /// What a line needs after its last store at the end.
    fn end_needs(&self) -> Needs {
        Needs {
            clean: self.ask(Part::EndClean),
            drain: self.ask(Part::EndDrain),
            tlb_flush: false,
            ordered: true,
        }
    }
}

#[derive(Clone, Copy)]
struct Needs {
    clean: bool,
    drain: bool,
    tlb_flush: bool,
    ordered: bool,
}

/// What has been done since a last store. A step counts once the needed steps before it are done.
#[derive(Clone, Copy, Debug, Default, PartialEq, Eq)]
struct Since {
    clean: bool,
    drain: bool,
    tlb_flush: bool,
}

impl Since {
    fn drain(&mut self, needs: Needs) {
        self.drain |= !needs.ordered || self.clean || !needs.clean;
    }

    fn tlb_flush(&mut self, needs: Needs) {
        let before = (self.clean || !needs.clean) && (self.drain || !needs.drain);
        self.tlb_flush |= !needs.ordered || before;
    }

    fn done(&self, needs: Needs) -> bool {
        (self.clean || !needs.clean)
            && (self.drain || !needs.drain)
            && (self.tlb_flush || !needs.tlb_flush)
    }
}

/// A physical line that was stored to.
#[derive(Clone, Copy, Debug, PartialEq, Eq)]
struct StoredLine {
    /// The virtual line of its last store.
    through: u32,
    /// Since the line's last store.
    since: Since,
    /// Since each word's last store; none if it was never stored to.
    words: [Option<Since>; 8],
}

/// What the rules remember of a run.
#[derive(Clone, Debug, Default)]
pub struct History {
    /// Virtual line to physical line and back, since the last whole Dcache flush.
    reached: HashMap<u32, u32>,
    reached_by: HashMap<u32, u32>,
    /// By physical line.
    stored: BTreeMap<u32, StoredLine>,
    /// The table base was written since the last whole TLB flush.
    base_stale: bool,
}

impl History {
    /// Do the rules allow what the plain machine is about to do? If not, the part that forbids it.
    pub fn allows(&self, rules: &Rules, plain: &Plain, deed: &Deed) -> Result<(), Part> {
        if matches!(deed.answer, Answer::Refused(_)) {
            return Ok(());
        }
        if let Some(walk) = &deed.walk {
            self.allows_walk(rules, walk)?;
            allows_large_page(rules, plain, deed, walk)?;
        }
        if let Some(reached) = &deed.reached {
            self.allows_reach(rules, reached)?;
        }
        match deed.operation {
            Some(Operation::FlushDcache) => self.allows_whole_flush(rules),
            Some(Operation::FlushLine(address)) => self.allows_line_flush(rules, address / 32),
            _ => Ok(()),
        }
    }

    /// R5, and R4 for each word that the walk reads.
    fn allows_walk(&self, rules: &Rules, walk: &Walk) -> Result<(), Part> {
        if self.base_stale && rules.ask(Part::R5) {
            return Err(Part::R5);
        }
        for address in [walk.level1, walk.level2].into_iter().flatten() {
            self.allows_word(rules, address)?;
        }
        Ok(())
    }

    /// R4. The part answered is the first step that is missing.
    fn allows_word(&self, rules: &Rules, address: u32) -> Result<(), Part> {
        let needs = rules.word_needs();
        let since = self
            .stored
            .get(&(address / 32))
            .and_then(|line| line.words[(address / 4 % 8) as usize]);
        match since {
            Some(since) if !since.done(needs) => Err(match since {
                Since { clean: false, .. } if needs.clean => Part::R4Clean,
                Since { drain: false, .. } if needs.drain => Part::R4Drain,
                _ => Part::R4TlbFlush,
            }),
            _ => Ok(()),
        }
    }

    /// R2.
    fn allows_reach(&self, rules: &Rules, reached: &Reached) -> Result<(), Part> {
        if !counts_for_r2(rules, reached) {
            return Ok(());
        }
        let by = self.reached_by.get(&reached.physical_line);
        if by.is_some_and(|v| *v != reached.virtual_line) && rules.ask(Part::R2Physical) {
            return Err(Part::R2Physical);
        }
        let to = self.reached.get(&reached.virtual_line);
        if to.is_some_and(|p| *p != reached.physical_line) && rules.ask(Part::R2Virtual) {
            return Err(Part::R2Virtual);
        }
        Ok(())
    }

    /// R3 for all lines.
    fn allows_whole_flush(&self, rules: &Rules) -> Result<(), Part> {
        let uncleaned = self.stored.values().any(|line| !line.since.clean);
        if uncleaned && rules.ask(Part::R3Whole) {
            return Err(Part::R3Whole);
        }
        Ok(())
    }

    /// R3 for the lines stored to through the virtual line.
    fn allows_line_flush(&self, rules: &Rules, virtual_line: u32) -> Result<(), Part> {
        let uncleaned = self
            .stored
            .values()
            .any(|line| line.through == virtual_line && !line.since.clean);
        if uncleaned && rules.ask(Part::R3Line) {
            return Err(Part::R3Line);
        }
        Ok(())
    }

    /// Takes a call into the history. `plain` is the plain machine before the call.
    pub fn add(&mut self, rules: &Rules, plain: &Plain, deed: &Deed) {
        if matches!(deed.answer, Answer::Refused(_)) {
            return;
        }
        if let Some(reached) = &deed.reached {
            self.add_reached(rules, reached);
            if let Some(stored) = deed.stored {
                self.add_stored(stored.physical, reached.virtual_line);
            }
        }
        if matches!(deed.written, Some((2, _))) {
            self.base_stale = true;
        }
        match deed.operation {
            Some(Operation::FlushDcache) => {
                self.reached.clear();
                self.reached_by.clear();
            }
            Some(Operation::CleanLine(address)) => self.add_clean(rules, plain, address),
            Some(Operation::Drain) => self.add_drain(rules),
            Some(Operation::FlushTlb) => self.add_tlb_flush(rules),
            _ => {}
        }
    }

    fn add_reached(&mut self, rules: &Rules, reached: &Reached) {
        if counts_for_r2(rules, reached) {
            self.reached
                .insert(reached.virtual_line, reached.physical_line);
            self.reached_by
                .insert(reached.physical_line, reached.virtual_line);
        }
    }

    fn add_stored(&mut self, physical: u32, virtual_line: u32) {
        let line = self.stored.entry(physical / 32).or_insert(StoredLine {
            through: virtual_line,
            since: Since::default(),
            words: [None; 8],
        });
        line.through = virtual_line;
        line.since = Since::default();
        line.words[(physical / 4 % 8) as usize] = Some(Since::default());
    }

    fn add_clean(&mut self, rules: &Rules, plain: &Plain, address: u32) {
        let now_at = if rules.ask(Part::CleanAddress) {
            None
        } else {
            plain.translate(address).map(|physical| physical / 32)
        };
        for (physical_line, line) in self.stored.iter_mut() {
            if line.through == address / 32 || now_at == Some(*physical_line) {
                line.since.clean = true;
                for since in line.words.iter_mut().flatten() {
                    since.clean = true;
                }
            }
        }
    }

    fn add_drain(&mut self, rules: &Rules) {
        for line in self.stored.values_mut() {
            line.since.drain(rules.end_needs());
            for since in line.words.iter_mut().flatten() {
                since.drain(rules.word_needs());
            }
        }
    }

    fn add_tlb_flush(&mut self, rules: &Rules) {
        self.base_stale = false;
        for line in self.stored.values_mut() {
            for since in line.words.iter_mut().flatten() {
                since.tlb_flush(rules.word_needs());
            }
        }
    }

    /// The end condition: every line stored to has been cleaned after its last store, then drained.
    pub fn settled(&self, rules: &Rules) -> bool {
        self.stored
            .values()
            .all(|line| line.since.done(rules.end_needs()))
    }

    /// The virtual lines of the last stores to lines that have not been cleaned since.
    pub fn uncleaned(&self) -> Vec<u32> {
        let lines = self.stored.values().filter(|line| !line.since.clean);
        lines.map(|line| line.through).collect()
    }

    /// The virtual line of the last store to a physical line.
    pub fn through(&self, physical_line: u32) -> Option<u32> {
        self.stored.get(&physical_line).map(|line| line.through)
    }
}

fn counts_for_r2(rules: &Rules, reached: &Reached) -> bool {
    (!reached.flat || rules.ask(Part::R2Flat)) && (reached.inside || rules.ask(Part::R2Outside))
}

/// R6.
fn allows_large_page(rules: &Rules, plain: &Plain, deed: &Deed, walk: &Walk) -> Result<(), Part> {
    let large = matches!(walk.found, Ok(entry) if entry.size == 1);
    let (true, Some(level2)) = (large, walk.level2) else {
        return Ok(());
    };
    if deed.reached.is_none() && !rules.ask(Part::R6Denied) {
        return Ok(());
    }
    let first = (level2 & !63) as usize;
    let end = (first + 64).min(plain.memory.len());
    if end < first + 64 && rules.ask(Part::R6Memory) {
        return Err(Part::R6Memory);
    }
    let mut words = (first..end).step_by(4);
    let bad = words.any(|word| plain.bus().aborts(word as u32));
    if bad && rules.ask(Part::R6Good) {
        return Err(Part::R6Good);
    }
    let group = &plain.memory[first..end];
    let equal = group.chunks_exact(4).all(|word| *word == group[..4]);
    if !equal && rules.ask(Part::R6Equal) {
        return Err(Part::R6Equal);
    }
    Ok(())
}

/// The plain machine with the history of its run.
pub struct Monitor {
    pub plain: Plain,
    pub history: History,
    pub rules: Rules,
}

impl Monitor {
    pub fn start(memory: Vec<u8>, bad: Vec<u8>, rules: Rules) -> Monitor {
        Monitor {
            plain: Plain::start(memory, bad),
            history: History::default(),
            rules,
        }
    }

    /// What the call will do, if the rules allow it; otherwise the part that forbids it.
    pub fn propose(&self, call: &Call) -> Result<Deed, Part> {
        let deed = self.plain.foresee(call);
        self.history.allows(&self.rules, &self.plain, &deed)?;
        Ok(deed)
    }

    /// Does a call that was proposed.
    pub fn accept(&mut self, deed: &Deed) -> Answer {
        self.history.add(&self.rules, &self.plain, deed);
        self.plain.perform(deed);
        deed.answer
    }

    pub fn settled(&self) -> bool {
        self.history.settled(&self.rules)
    }
}
