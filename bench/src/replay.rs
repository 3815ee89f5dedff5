//! The replay of traces kept as text, through files.

use crate::earlier::Earlier;
use crate::measure::{earlier_columns, earlier_names, measure_sides, Side, Times};
use sa110_compare::packed::Packed;
use sa110_model::random::texts::text_of;
use sa110_model::random::Rng;
use sa110_model::replay::{stream, MEMORY_BYTES};
use sa110_model::Call;
use std::cell::RefCell;
use std::fs::File;
use std::hint::black_box;
use std::io::{self, BufReader, BufWriter, Read, Seek, Write};
use std::path::{Path, PathBuf};
use std::rc::Rc;

pub const WHAT: &str = "\
replay: a text of 16,384 lines again and again, each time on a fresh machine with 65,536 zero bytes and no bad words; ns a line
  library, model: the text is a temporary file, read in blocks of 65,536 bytes; what is printed goes to another temporary file, overwritten
    from its front, in blocks of about 65,536 bytes. The library replays through sa110_replay; the model by read_until, split, parse, writeln
  earlier: as library, through the shared object's sa110_replay, where one is named; - where it has none
  run: the library's run over the same calls, parsed before, 1,024 at a time; nothing is read, parsed or printed. difference: library - run
  flat: loads and stores anywhere in memory, without translation
  hits: the first lines write page tables and switch on MMU, Dcache and write buffer; then loads and stores of the 512 lines of 4 small pages
  mixed: as hits, of 10 small pages, with fills and evictions; of 100 calls about 10 CP15 calls and 10 faults and refusals
  long lines: as hits, of a section of the last megabyte; addresses and values have ten digits";

/// A text has so many lines.
const LINES: usize = 16_384;
/// Input is read in blocks of so many bytes, and output written in blocks of about as many.
const BLOCK: usize = 65_536;
/// So many calls are replayed by one call at most, and run at a time.
const BATCH: usize = 1_024;

/// Level 1 table at 0: megabyte 0 has pages, megabyte 1 is a section of a domain without access. The
/// pages' table, and the data.
const PAGES: u32 = 0x4000;
const DATA: u32 = 0x5000;

/// A library's replay of a part of a text: record, memory, map, store, the part, whether the text ends with it,
/// and the slice for what is printed. A library without a map leaves it out.
pub type Part =
    dyn Fn(&mut sa110::Replay, &mut [u8], &[u8], &mut [u8], &[u8], bool, &mut [u8]) -> u32;

/// Prints a row for each text, with the columns of an earlier library where one is named.
pub fn print_rows(rounds: usize, earlier: Option<Earlier>) -> io::Result<()> {
    let rng = &mut Rng::new(1);
    print!(
        "{:<28}{:>18}{:>18}{:>8}{:>18}{:>12}",
        "ns a line", "library", "model", "ratio", "run", "difference"
    );
    println!("{}", earlier_names(earlier.is_some()));
    let texts = [
        ("replay, flat", flat(rng)),
        ("replay, hits", hits(rng)),
        ("replay, mixed", mixed(rng)),
        ("replay, long lines", long_lines(rng)),
    ];
    for (name, calls) in texts {
        let times = measured(name, &calls, rounds, earlier)?;
        println!("{}", row(name, &times, earlier.is_some()));
    }
    Ok(())
}

/// A row: the times of library, model and run and, where it has a replay, of the earlier library.
fn row(name: &str, times: &[Times], named: bool) -> String {
    let [library, model, run] = [times[0], times[1], times[2]];
    let ratio = library.least / model.least;
    let difference = library.least - run.least;
    let [shown, model, run] = [library, model, run].map(|times| times.to_string());
    let row = format!("{name:<28}{shown:>18}{model:>18}{ratio:>8.2}{run:>18}{difference:>12.0}");
    row + &earlier_columns(library, times.get(3).copied(), named)
}

fn flat(rng: &mut Rng) -> Vec<Call> {
    (0..LINES).map(|_| access(rng, 0, 2048)).collect()
}

/// Loads and stores of words in the 512 lines of 16 KB, at addresses and with values of ten digits.
fn long_lines(rng: &mut Rng) -> Vec<Call> {
    let mut calls = vec![
        // the last megabyte is a section of physical 0
        Call::store(4, 0x3FFC, 0xC0E),
        Call::write(3, 1),
        Call::write(2, 0),
        Call::flush_tlb(),
        Call::write(1, 0xD),
    ];
    calls.resize_with(LINES, || {
        let address = 0xFFF0_8000 + rng.below(4096) * 4;
        match rng.below(2) {
            0 => Call::store(4, address, rng.word() | 1 << 31),
            _ => Call::load(4, address),
        }
    });
    calls
}

/// The stores that write the tables, and the calls that switch translation on.
fn opening(pages: u32) -> Vec<Call> {
    let mut calls = vec![Call::store(4, 0, PAGES | 1), Call::store(4, 4, 0xC2E)];
    for page in 0..pages {
        let word = (DATA + page * 0x1000) | 0xFFE;
        calls.push(Call::store(4, PAGES + 4 * page, word));
    }
    calls.extend([
        Call::write(3, 1),
        Call::write(2, 0),
        Call::flush_tlb(),
        Call::write(1, 0xD),
    ]);
    calls
}

fn hits(rng: &mut Rng) -> Vec<Call> {
    let mut calls = opening(4);
    calls.resize_with(LINES, || access(rng, 0, 512));
    calls
}

fn mixed(rng: &mut Rng) -> Vec<Call> {
    let mut calls = opening(10);
    calls.resize_with(LINES, || {
        let line = rng.below(10 * 128) * 32;
        match rng.below(100) {
            0..=79 => access(rng, line, 1),
            80..=82 => Call::read(rng.below(7)),
            83..=84 => Call::write(rng.pick(&[4, 5, 6]), 0x15),
            85..=88 => Call::clean_line(line),
            89 => Call::drain(),
            90..=91 => access(rng, 1 << 20, 512),
            92..=93 => access(rng, 2 << 20, 512),
            94..=95 => access(rng, 10 << 12, 512),
            96..=97 => Call::load(3, line),
            _ => Call::read(7),
        }
    });
    calls
}

/// A load, a signed load or a store anywhere in so many lines.
fn access(rng: &mut Rng, first: u32, lines: u32) -> Call {
    let (privileged, width) = (true, rng.pick(&[1, 2, 4]));
    let address = first + rng.below(32 * lines) / width * width;
    match rng.below(10) {
        0..=3 => Call::store(width, address, rng.word() >> (32 - 8 * width)),
        4 => Call::SignedLoad {
            privileged,
            width,
            address,
        },
        _ => Call::load(width, address),
    }
}

/// A temporary file, removed when it is no longer needed.
struct Temporary(PathBuf);

impl Temporary {
    fn new(name: &str, bytes: &[u8]) -> io::Result<Temporary> {
        let name = format!("sa110-bench-{}-{name}", std::process::id());
        let file = Temporary(std::env::temp_dir().join(name));
        std::fs::write(&file.0, bytes)?;
        Ok(file)
    }
}

impl Drop for Temporary {
    fn drop(&mut self) {
        // nothing depends on it
        let _ = std::fs::remove_file(&self.0);
    }
}

/// The times of library, model and run and, where it has a replay, of the earlier library.
fn measured(
    name: &str,
    calls: &[Call],
    rounds: usize,
    earlier: Option<Earlier>,
) -> io::Result<Vec<Times>> {
    let input = Temporary::new("in", &text_of(calls))?;
    let output = |name| Temporary::new(name, &[]);
    let outputs = [output("library")?, output("earlier")?, output("model")?];
    let mut parts: Vec<Box<Part>> = vec![Box::new(sa110::Replay::part)];
    parts.extend(earlier.and_then(|earlier| earlier.replay()));
    let mut run = Run::new(calls.iter().flat_map(Call::to_numbers).collect());
    let mut library = Library::new();
    by_model(&input.0, &mut File::create(&outputs[2].0)?)?;
    let printed = std::fs::read(&outputs[2].0)?;
    let same = printed == lines_of(calls, &run.all());
    assert!(same, "{name}: model and run differ");
    for (part, output) in parts.iter().zip(&outputs) {
        library.replay(part, &input.0, &mut File::create(&output.0)?)?;
        let same = printed == std::fs::read(&output.0)? && library.left_as(&run);
        assert!(same, "{name}: replay and run differ");
    }
    let hits = run.packed.state.counts.hits as usize;
    assert!(
        name != "replay, hits" || hits > LINES * 9 / 10,
        "{hits} hits"
    );
    let library = Rc::new(RefCell::new(library));
    let mut replays = parts.into_iter().zip(&outputs).map(|(part, output)| {
        let library = Rc::clone(&library);
        file_side(&input, output, move |input, output| {
            library.borrow_mut().replay(&part, input, output)
        })
    });
    let mut sides = vec![
        replays.next().expect("the library's")?,
        file_side(&input, &outputs[2], by_model)?,
        Box::new(move |turns| (0..turns).for_each(|_| run.turn())),
    ];
    sides.extend(replays.next().transpose()?);
    Ok(measure_sides(sides.iter_mut().collect(), LINES, rounds))
}

/// A side that replays one file into another again and again.
fn file_side(
    input: &Temporary,
    output: &Temporary,
    mut replay: impl FnMut(&Path, &mut File) -> io::Result<()> + 'static,
) -> io::Result<Side> {
    let path = Rc::new(input.0.clone());
    let mut output = File::options().write(true).open(&output.0)?;
    Ok(Box::new(move |turns| {
        for _ in 0..turns {
            output.rewind().expect("a file can be rewound");
            replay(&path, &mut output).expect("files can be read and written");
        }
    }))
}

fn by_model(input: &Path, output: &mut File) -> io::Result<()> {
    let input = BufReader::with_capacity(BLOCK, File::open(input)?);
    let lines = stream(input, BufWriter::with_capacity(BLOCK, output))?;
    assert_eq!(lines, LINES as u64);
    Ok(())
}

/// What a library's replay is lent, and blocks for input and output. Both libraries have the same.
struct Library {
    memory: Vec<u8>,
    bad: Vec<u8>,
    store: Vec<u8>,
    block: Vec<u8>,
    out: Vec<u8>,
    replay: Option<Box<sa110::Replay>>,
}

impl Library {
    fn new() -> Library {
        Library {
            memory: vec![0; MEMORY_BYTES],
            bad: sa110::no_bad_words(MEMORY_BYTES),
            store: vec![0; sa110::STORE_BYTES],
            block: vec![0; BLOCK],
            out: vec![0; BLOCK + BATCH * sa110::PRINTED_LINE],
            replay: None,
        }
    }

    fn replay(&mut self, part: &Part, input: &Path, output: &mut File) -> io::Result<()> {
        let Library {
            memory,
            bad,
            store,
            block,
            out,
            replay: kept,
        } = self;
        memory.fill(0);
        store.fill(0);
        let mut replay = sa110::Replay::start(memory, store).expect("a served start");
        let mut input = File::open(input)?;
        let mut filled = 0;
        loop {
            let length = input.read(block)?;
            let mut text = &block[..length];
            loop {
                let (ends, room) = (length == 0, &mut out[filled..]);
                let answer = part(&mut replay, memory, bad, store, text, ends, room);
                assert_eq!(answer, 0);
                text = &text[replay.taken..];
                filled += replay.written;
                // as long as there is room for what one call may print
                if filled >= BLOCK {
                    output.write_all(&out[..filled])?;
                    filled = 0;
                }
                if text.is_empty() && replay.written == 0 {
                    break;
                }
            }
            if length == 0 {
                break;
            }
        }
        output.write_all(&out[..filled])?;
        assert_eq!(replay.lines, LINES as u64);
        *kept = Some(replay);
        Ok(())
    }

    /// Whether the replay left what the run left.
    fn left_as(&self, run: &Run) -> bool {
        let replay = self.replay.as_ref().expect("a replay");
        (&replay.state, &replay.cp15) == (&run.packed.state, &run.packed.cp15)
            && (&self.memory, &self.store) == (&run.memory, &run.store)
    }
}

/// The library's run over calls that are parsed.
struct Run {
    memory: Vec<u8>,
    bad: Vec<u8>,
    store: Vec<u8>,
    packed: Packed,
    calls: Vec<u32>,
    answers: Vec<u64>,
}

impl Run {
    fn new(calls: Vec<u32>) -> Run {
        Run {
            memory: vec![0; MEMORY_BYTES],
            bad: sa110::no_bad_words(MEMORY_BYTES),
            store: vec![0; sa110::STORE_BYTES],
            packed: Packed::ZERO,
            calls,
            answers: vec![0; BATCH],
        }
    }

    /// Runs the calls from a start, and tells each batch's answers.
    fn each(&mut self, mut tell: impl FnMut(&[u64])) {
        let (memory, bad, store) = (&mut self.memory, &self.bad, &mut self.store);
        memory.fill(0);
        store.fill(0);
        self.packed = Packed::start(memory, store).0;
        for calls in black_box(&self.calls).chunks(BATCH * sa110::FIELDS) {
            let answers = &mut self.answers;
            let made = self.packed.run(memory, bad, store, calls, answers);
            assert_eq!(made * sa110::FIELDS, calls.len());
            tell(&self.answers[..made]);
        }
    }

    fn turn(&mut self) {
        self.each(|answers| {
            black_box(answers);
        });
    }

    fn all(&mut self) -> Vec<u64> {
        let mut all = Vec::new();
        self.each(|answers| all.extend(answers));
        all
    }
}

/// The printed lines of a run's answers.
fn lines_of(calls: &[Call], answers: &[u64]) -> Vec<u8> {
    let lines = calls.iter().zip(answers).zip(1..);
    let line = |((call, code), number): ((&Call, &u64), u32)| {
        let (kind, value) = (code >> 32, *code as u32);
        match call {
            Call::SignedLoad { .. } if kind == 0 => format!("{number},0,{}\n", value as i32),
            _ => format!("{number},{kind},{value}\n"),
        }
    };
    lines.map(line).collect::<String>().into_bytes()
}
