//! Sides measured in turn.

use std::fmt;

/// One side of a line: takes so many turns.
pub type Side = Box<dyn FnMut(usize)>;

/// A line of the table: what is measured, by the library, by the model and, where it can, by an earlier
/// library. A turn makes `calls` calls.
pub struct Line {
    pub name: String,
    pub calls: usize,
    pub library: Side,
    pub model: Side,
    pub earlier: Option<Side>,
}

/// The times of a line.
pub struct Measured {
    pub library: Times,
    pub model: Times,
    pub earlier: Option<Times>,
}

/// Nanoseconds a call.
#[derive(Clone, Copy, Debug)]
pub struct Times {
    pub least: f64,
    pub median: f64,
}

impl fmt::Display for Times {
    fn fmt(&self, f: &mut fmt::Formatter) -> fmt::Result {
        write!(f, "{:.0} ({:.0})", self.least, self.median)
    }
}

/// The names of an earlier library's columns, where one is named.
pub fn earlier_names(named: bool) -> String {
    if named {
        format!("{:>18}{:>8}", "earlier", "ratio")
    } else {
        String::new()
    }
}

/// An earlier library's columns, where one is named: its times, and the ratio library / earlier; - where it
/// was not measured.
pub fn earlier_columns(library: Times, earlier: Option<Times>, named: bool) -> String {
    match earlier {
        Some(earlier) => {
            let ratio = library.least / earlier.least;
            format!("{:>18}{ratio:>8.3}", earlier.to_string())
        }
        None if named => format!("{:>18}{:>8}", "-", "-"),
        None => String::new(),
    }
}

/// A round takes about so many nanoseconds.
const ROUND: u64 = 200_000;

/// C's struct timespec.
#[repr(C)]
struct Timespec {
    seconds: i64,
    nanoseconds: i64,
}

extern "C" {
    fn clock_gettime(clock: i32, time: *mut Timespec) -> i32;
}

/// CLOCK_THREAD_CPUTIME_ID of Linux.
const THREAD: i32 = 3;

/// The nanoseconds that this thread has run: what other processes take is not counted.
fn nanoseconds() -> u64 {
    let mut time = Timespec {
        seconds: 0,
        nanoseconds: 0,
    };
    let failed = unsafe { clock_gettime(THREAD, &mut time) };
    assert_eq!(failed, 0, "the thread's clock");
    time.seconds as u64 * 1_000_000_000 + time.nanoseconds as u64
}

/// Measures the sides, one round each in turn; each goes first as often as the others.
pub fn measure(line: &mut Line, rounds: usize) -> Measured {
    let mut sides = vec![&mut line.library, &mut line.model];
    sides.extend(&mut line.earlier);
    let n = sides.len();
    let mut turns: Vec<_> = sides.iter_mut().map(|side| turns_a_round(side)).collect();
    // both libraries take as many turns
    if n == 3 {
        turns[2] = turns[0];
    }
    let mut taken = in_turn(sides, &turns, line.calls, rounds).into_iter();
    Measured {
        library: taken.next().expect("a library"),
        model: taken.next().expect("a model"),
        earlier: taken.next(),
    }
}

/// Measures any sides whose turns make so many calls.
pub fn measure_sides(mut sides: Vec<&mut Side>, calls: usize, rounds: usize) -> Vec<Times> {
    let turns: Vec<_> = sides.iter_mut().map(|side| turns_a_round(side)).collect();
    in_turn(sides, &turns, calls, rounds)
}

/// One round of each side after the other; a round of a side takes its number of turns.
fn in_turn(mut sides: Vec<&mut Side>, turns: &[usize], calls: usize, rounds: usize) -> Vec<Times> {
    let n = sides.len();
    let mut taken = vec![Vec::with_capacity(rounds); n];
    for round in 0..rounds {
        for i in (0..n).map(|i| (round + i) % n) {
            taken[i].push(round_of(sides[i], turns[i]));
        }
    }
    let taken = taken.into_iter();
    taken.map(|turns| times(turns, calls as f64)).collect()
}

/// How many turns take as long as a round, after some that warm up.
fn turns_a_round(side: &mut Side) -> usize {
    let mut turns = 1;
    loop {
        let start = nanoseconds();
        side(turns);
        if nanoseconds() - start >= ROUND {
            return turns;
        }
        turns *= 2;
    }
}

/// Nanoseconds a turn in one round.
fn round_of(side: &mut Side, turns: usize) -> f64 {
    let start = nanoseconds();
    side(turns);
    (nanoseconds() - start) as f64 / turns as f64
}

/// The times of a call, from those of turns of so many calls.
fn times(mut turns: Vec<f64>, calls: f64) -> Times {
    turns.sort_by(f64::total_cmp);
    Times {
        least: turns[0] / calls,
        median: turns[turns.len() / 2] / calls,
    }
}
