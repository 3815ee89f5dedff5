//! The library's replay of a text in parts, beside the second model's of the whole: what they print and
//! what they leave.

use crate::cuts::Cuts;
use crate::packed::{OfModel, Packed};
use crate::printed::Printed;
use crate::shrunk;
use sa110::{no_bad_words, Replay, PRINTED_LINE, STORE_BYTES};
use sa110_model::random::Rng;
use sa110_model::replay::{replay_on, Replayed, MEMORY_BYTES};
use sa110_model::Machine;
use std::fmt;

/// What a replay begins with: a record, and what is lent.
#[derive(Clone)]
pub struct Begin {
    pub replay: Box<Replay>,
    pub memory: Vec<u8>,
    /// The map of bad words.
    pub bad: Vec<u8>,
    pub store: Vec<u8>,
}

impl Begin {
    /// A replay that has not begun, on 65,536 zero bytes without bad words.
    pub fn fresh() -> Begin {
        Begin::of(MEMORY_BYTES)
    }

    /// A replay that has not begun, on so many zero bytes without bad words.
    pub fn of(bytes: usize) -> Begin {
        let (memory, store) = (vec![0; bytes], vec![0; STORE_BYTES]);
        let replay = Replay::start(&memory, &store).expect("a served start");
        Begin {
            replay,
            memory,
            bad: no_bad_words(bytes),
            store,
        }
    }

    pub fn packed(&self) -> Packed {
        Packed {
            state: self.replay.state.clone(),
            cp15: self.replay.cp15,
        }
    }

    pub fn set_packed(&mut self, packed: Packed) {
        self.replay.state = packed.state;
        self.replay.cp15 = packed.cp15;
    }

    fn machine(&self) -> Machine {
        let (state, registers) = self.packed().unpacked();
        Machine {
            state: Box::new(state),
            registers,
            memory: self.memory.clone(),
            bad: self.bad.clone(),
            store: self.store.clone(),
        }
    }

    /// What the second model prints and leaves: what waits comes first, and a line that has begun goes on
    /// with the text; behind a line that departs from the form nothing is replayed.
    fn expected(&self, text: &[u8]) -> Expected {
        let r = &self.replay;
        let mut machine = self.machine();
        let mut output = r.pending[..r.waiting].to_vec();
        let mut replayed = Replayed::default();
        if r.stopped == 0 {
            let text = [&r.begun[..r.held], text].concat();
            replayed = replay_on(&mut machine, r.lines, &text);
        }
        output.extend(&replayed.output);
        Expected {
            output,
            lines: r.lines + replayed.lines,
            stopped: r.stopped != 0 || replayed.stopped,
            packed: Packed::of(&machine.state, &machine.registers),
            memory: machine.memory,
            store: machine.store,
        }
    }
}

/// What the second model prints and leaves.
struct Expected {
    output: Vec<u8>,
    lines: u64,
    stopped: bool,
    packed: Packed,
    memory: Vec<u8>,
    store: Vec<u8>,
}

/// One call replays so many lines at most.
const LINES_A_CALL: usize = 1_024;
/// So many bytes behind the slice are watched too.
const BEHIND: usize = 64;

/// The library's replay of a text that is fed in parts.
struct Fed<'a> {
    cuts: &'a Cuts,
    rng: Rng,
    left: Begin,
    output: Vec<u8>,
    /// The slice and the bytes behind it, each `mark`.
    out: Vec<u8>,
    mark: u8,
    calls: u64,
    /// What each call was given, took and wrote, where it is asked for.
    log: Option<Vec<String>>,
}

impl Fed<'_> {
    fn all(&mut self, text: &[u8]) -> Result<(), String> {
        let mut at = 0;
        loop {
            let end = at + self.cuts.part(&mut self.rng, at, text.len() - at);
            let ends = end == text.len() && !self.cuts.late;
            self.part(&text[at..end], ends)?;
            at = end;
            if ends {
                return Ok(());
            }
            if at == text.len() {
                return self.part(&[], true);
            }
        }
    }

    /// Calls until all of a part is taken and nothing was written into a slice that has room.
    fn part(&mut self, mut text: &[u8], ends: bool) -> Result<(), String> {
        loop {
            let room = self.cuts.room(&mut self.rng);
            let (taken, written) = self.call(text, ends, room)?;
            text = &text[taken..];
            if room > 0 && taken == 0 && written == 0 {
                if text.is_empty() {
                    return Ok(());
                }
                return Err(format!("nothing taken, nothing written of {room}"));
            }
        }
    }

    /// One call; gives what it took and wrote.
    fn call(&mut self, text: &[u8], ends: bool, room: usize) -> Result<(usize, usize), String> {
        let Begin {
            replay,
            memory,
            bad,
            store,
        } = &mut self.left;
        self.calls += 1;
        let (waiting, held) = (replay.waiting, replay.held);
        let (stopped, lines) = (replay.stopped != 0, replay.lines);
        let out = &mut self.out;
        if out.len() < room + BEHIND {
            out.resize(room + BEHIND, self.mark);
        }
        let answer = replay.part(memory, bad, store, text, ends, &mut out[..room]);
        let (taken, written) = (replay.taken, replay.written);
        if let Some(log) = &mut self.log {
            let (n, end) = (text.len(), if ends { ", ends" } else { "" });
            log.push(format!("text {n}{end}, room {room}: {taken}, {written}"));
        }
        let said = || {
            let (call, length) = (self.calls, text.len());
            format!("call {call}: {length} bytes of text, ends {ends}, {room} of room")
        };
        if answer != 0 || taken > text.len() || written > room {
            return Err(format!(
                "{}: gives {answer}, takes {taken}, writes {written}",
                said()
            ));
        }
        // what one call does
        let most = match (held, room / PRINTED_LINE) {
            (0, fit) => fit.clamp(1, LINES_A_CALL),
            _ => 1,
        };
        let replayed = replay.lines.wrapping_sub(lines);
        let does = match (waiting, stopped) {
            (0, false) => replayed <= most as u64,
            (0, true) => (taken, written, replayed) == (text.len(), 0, 0),
            _ => (taken, written, replayed) == (0, waiting.min(room), 0),
        };
        if !does {
            return Err(format!(
                "{}, {waiting} wait, {held} held, stopped {stopped}: takes {taken}, writes {written}, \
                 replays {replayed} lines",
                said()
            ));
        }
        let mark = self.mark;
        let behind = &out[written..room + BEHIND];
        // all bytes are the mark if each is the one behind it and the last is the mark
        if behind[1..] != behind[..behind.len() - 1] || behind[behind.len() - 1] != mark {
            return Err(format!(
                "{}: writes {written}, but changes bytes behind them",
                said()
            ));
        }
        self.output.extend(&out[..written]);
        out[..written].fill(mark);
        Ok((taken, written))
    }
}

/// What the two sides differ in, if they do.
fn difference(
    begin: &Begin,
    text: &[u8],
    expected: &Expected,
    cuts: &Cuts,
    calls: &mut u64,
) -> Option<String> {
    let mut fed = Fed::new(begin, cuts);
    let ran = fed.all(text);
    *calls += fed.calls;
    ran.err().or_else(|| fed.difference(expected))
}

impl Fed<'_> {
    fn new<'a>(begin: &Begin, cuts: &'a Cuts) -> Fed<'a> {
        let mut rng = Rng::new(cuts.seed);
        let mark = rng.pick(&[0xA5, 0, b'1', b'\n', 0xFF]);
        Fed {
            cuts,
            rng,
            left: begin.clone(),
            output: Vec::new(),
            out: Vec::new(),
            mark,
            calls: 0,
            log: None,
        }
    }

    /// What differs behind the whole text.
    fn difference(&self, expected: &Expected) -> Option<String> {
        let Fed { left, output, .. } = self;
        let r = &left.replay;
        if *output != expected.output {
            let same = output.iter().zip(&expected.output);
            let at = same.take_while(|(p, m)| p == m).count();
            let shown = |bytes: &[u8]| {
                let from = at.saturating_sub(40).min(bytes.len());
                let to = (at + 40).min(bytes.len());
                bytes[from..to].escape_ascii().to_string()
            };
            let (p, m) = (shown(output), shown(&expected.output));
            return Some(format!(
                "output at byte {at}:\nproved ..{p}..\nmodel  ..{m}.."
            ));
        }
        let parts = [
            (r.lines != expected.lines)
                .then(|| format!("lines {} not {}", r.lines, expected.lines)),
            ((r.stopped != 0) != expected.stopped).then(|| format!("stopped {}", r.stopped)),
            (r.waiting != 0).then(|| format!("{} bytes wait", r.waiting)),
            (r.held != 0 && !expected.stopped).then(|| format!("{} bytes held", r.held)),
            (r.state.counts != expected.packed.state.counts).then(|| {
                format!(
                    "counts {:?} not {:?}",
                    r.state.counts, expected.packed.state.counts
                )
            }),
            (left.packed() != expected.packed).then(|| "state or record".to_string()),
            (left.memory != expected.memory).then(|| "memory".to_string()),
            (left.store != expected.store).then(|| "store".to_string()),
        ];
        parts.into_iter().flatten().next()
    }
}

/// What was compared.
#[derive(Default)]
pub struct Replays {
    pub texts: u64,
    pub lines: u64,
    /// Replays of the library, each cut in a way of its own.
    pub replays: u64,
    pub calls: u64,
    pub printed: Printed,
}

impl Replays {
    /// Compares the replay of a text, cut in each of these ways. A difference is shrunk, printed and
    /// panicked with; `name` says where the text comes from. Gives the second model's output.
    pub fn compare(
        &mut self,
        begin: &Begin,
        text: &[u8],
        cuts: &[Cuts],
        name: &dyn Fn() -> String,
    ) -> Vec<u8> {
        let expected = begin.expected(text);
        for cuts in cuts {
            if difference(begin, text, &expected, cuts, &mut self.calls).is_some() {
                report(name(), begin, text, cuts);
            }
        }
        self.texts += 1;
        self.lines += expected.lines - begin.replay.lines;
        self.replays += cuts.len() as u64;
        let r = &begin.replay;
        if (r.held, r.waiting, r.stopped) == (0, 0, 0) {
            self.printed.note(text, &expected.output);
        }
        expected.output
    }
}

impl fmt::Display for Replays {
    fn fmt(&self, out: &mut fmt::Formatter) -> fmt::Result {
        let Replays {
            texts,
            lines,
            replays,
            calls,
            ..
        } = self;
        write!(
            out,
            "{texts}, {lines} lines printed, {replays} replays by {calls} calls"
        )
    }
}

/// Shrinks the text of a difference, by lines and then by bytes if it is short, and panics with what is
/// left.
fn report(name: String, begin: &Begin, text: &[u8], cuts: &Cuts) -> ! {
    let differs = |text: &[u8]| difference(begin, text, &begin.expected(text), cuts, &mut 0);
    let lines: Vec<_> = text.split_inclusive(|byte| *byte == b'\n').collect();
    let lines = shrunk(&lines, |lines| differs(&lines.concat()).is_some());
    let mut text = lines.concat();
    if text.len() < 10_000 {
        text = shrunk(&text, |text| differs(text).is_some());
    }
    let what = differs(&text).unwrap_or_default();
    let mut fed = Fed::new(begin, cuts);
    fed.log = Some(Vec::new());
    let _ = fed.all(&text); // what it says is in `what`
    let log = fed.log.unwrap_or_default();
    let calls = log[..log.len().min(200)].join("\n  ");
    let r = &begin.replay;
    let shown = &text[..text.len().min(4_000)];
    panic!(
        "{name}\n{what}\n{cuts:?}\nbegins with lines {}, stopped {}, held \"{}\", waiting \"{}\"\n\
         calls, with what each takes and writes:\n  {calls}\ntext of {} bytes: \"{}\"",
        r.lines,
        r.stopped,
        r.begun[..r.held].escape_ascii(),
        r.pending[..r.waiting].escape_ascii(),
        text.len(),
        shown.escape_ascii()
    );
}
