//! Whole random runs: guided ones keep the rules, free ones ignore them.

use super::maps::Map;
use super::proposals::Proposer;
use super::rng::Rng;
use super::world::{world, world_with, World};
use crate::calls::Call;
use crate::rules::{Monitor, Part, Rules};
use crate::term3::Run;
use crate::words;

/// A guided run, and how many proposals the rules turned down.
pub struct Guided {
    pub run: Run,
    pub turned_down: usize,
}

/// A random run of up to `length` calls that keeps the rules, then cleans every stored line through
/// its virtual line and drains. `rules` may have a part left out.
pub fn guided(rng: &mut Rng, length: usize, rules: Rules) -> Guided {
    let world = world(rng);
    guided_in(rng, world, length, rules)
}

/// As `guided`, in this world.
pub fn guided_in(rng: &mut Rng, world: World, length: usize, rules: Rules) -> Guided {
    let proposer = Proposer::new(rng, &world);
    let (calls, turned_down) = guided_calls(rng, proposer, &[], length, rules);
    let run = run_in(world, calls);
    Guided { run, turned_down }
}

/// As `guided` and without swaps, on so many zero bytes of memory with a map of this kind and a store of
/// zeros: the first calls store a world's descriptors, with translation off, then clean, drain and flush.
pub fn guided_from_zeros(
    rng: &mut Rng,
    bytes: usize,
    map: Map,
    length: usize,
    rules: Rules,
) -> Guided {
    let (world, mut first) = zero_world(rng, bytes, map);
    let mut lines: Vec<_> = world.descriptors.iter().map(|at| at / 32).collect();
    lines.sort_unstable();
    lines.dedup();
    first.extend(lines.iter().map(|line| Call::clean_line(line * 32)));
    first.extend([Call::drain(), Call::flush_tlb(), Call::flush_dcache()]);
    let proposer = Proposer::without_swaps(rng, &world);
    let (calls, turned_down) = guided_calls(rng, proposer, &first, length, rules);
    let run = run_in(world, calls);
    Guided { run, turned_down }
}

/// The calls of a guided run: the first ones, then up to `length` more that are proposed, then those that
/// settle it; and how many proposals the rules turned down.
fn guided_calls(
    rng: &mut Rng,
    mut proposer: Proposer,
    first: &[Call],
    length: usize,
    rules: Rules,
) -> (Vec<Call>, usize) {
    let World { memory, bad, .. } = proposer.world;
    let mut monitor = Monitor::start(memory.clone(), bad.clone(), rules);
    proposer.queue.extend(first);
    proposer.opening(rng);
    let mut calls = Vec::with_capacity(first.len() + length + 64);
    let mut turned_down = 0;
    for _ in 0..first.len() + length {
        let call = proposer.next(rng);
        match monitor.propose(&call) {
            Ok(deed) => {
                monitor.accept(&deed);
                calls.push(call);
            }
            Err(part) => {
                turned_down += 1;
                if rng.percent(25) {
                    comply(rng, &mut proposer, &monitor, part, call);
                }
            }
        }
    }
    settle(&mut monitor, &mut calls);
    (calls, turned_down)
}

/// The run of these calls on a world's memory, map and store.
fn run_in(world: World, calls: Vec<Call>) -> Run {
    Run {
        memory: world.memory,
        bad: world.bad,
        store: world.store,
        calls,
    }
}

/// Queues the calls that a rule asks for before the call that it turned down, then that call.
fn comply(rng: &mut Rng, proposer: &mut Proposer, monitor: &Monitor, part: Part, call: Call) {
    let mut calls = Vec::new();
    let mut queue = |call| calls.push(call);
    match part {
        Part::R6Memory | Part::R6Good | Part::R6Equal => return,
        Part::R5 => queue(Call::flush_tlb()),
        Part::R2Physical | Part::R2Virtual | Part::R3Whole => {
            for line in monitor.history.uncleaned() {
                queue(Call::clean_line(line * 32 + rng.below(32)));
            }
            queue(Call::flush_dcache());
        }
        Part::R3Line => {
            if let Call::Write { value, .. } = call {
                queue(Call::clean_line(value));
            }
        }
        _ => {
            for line in monitor.history.uncleaned() {
                queue(Call::clean_line(line * 32));
            }
            queue(Call::drain());
            queue(Call::flush_tlb());
        }
    }
    queue(call);
    for call in calls.into_iter().rev() {
        proposer.queue.push_front(call);
    }
}

/// Makes the end condition true.
fn settle(monitor: &mut Monitor, calls: &mut Vec<Call>) {
    let mut last: Vec<Call> = Vec::new();
    for line in monitor.history.uncleaned() {
        last.push(Call::clean_line(line * 32));
    }
    last.push(Call::drain());
    for call in last {
        let deed = monitor
            .propose(&call)
            .expect("cleans and drains are allowed");
        monitor.accept(&deed);
        calls.push(call);
    }
    assert!(monitor.settled(), "cleaned and drained");
}

/// A random run of `length` calls that ignores the rules.
pub fn free(rng: &mut Rng, length: usize) -> Run {
    let world = world(rng);
    let proposer = Proposer::new(rng, &world);
    let calls = free_calls(rng, proposer, &[], length);
    run_in(world, calls)
}

/// As `free` and without swaps, on so many zero bytes of memory with a map of this kind and a store of
/// zeros: the first calls store a world's descriptors, with translation off.
pub fn free_from_zeros(rng: &mut Rng, bytes: usize, map: Map, length: usize) -> Run {
    let (world, first) = zero_world(rng, bytes, map);
    let proposer = Proposer::without_swaps(rng, &world);
    let calls = free_calls(rng, proposer, &first, length);
    run_in(world, calls)
}

/// The first calls, then `length` more that are proposed.
fn free_calls(rng: &mut Rng, mut proposer: Proposer, first: &[Call], length: usize) -> Vec<Call> {
    proposer.queue.extend(first);
    proposer.opening(rng);
    (0..first.len() + length)
        .map(|_| proposer.next(rng))
        .collect()
}

/// A world whose memory and store are zero yet, and the stores that write its descriptors.
fn zero_world(rng: &mut Rng, bytes: usize, map: Map) -> (World, Vec<Call>) {
    let mut world = world_with(rng, bytes, map);
    let mut places = world.descriptors.clone();
    places.sort_unstable();
    places.dedup();
    let word = |at: u32| words::read(&world.memory, at as usize, 4);
    let stores = places.iter().map(|at| Call::store(4, *at, word(*at)));
    let stores = stores.collect();
    world.memory.fill(0);
    world.store.fill(0);
    (world, stores)
}
