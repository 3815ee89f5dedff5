//! Lines of `run` over a list of calls.

use crate::earlier::Earlier;
use crate::measure::{Line, Side};
use sa110::FIELDS;
use sa110_compare::numbers;
use sa110_compare::side_by_side::{Setting, Sides};
use sa110_model::{Call, Machine};
use std::cell::RefCell;
use std::hint::black_box;
use std::rc::Rc;

/// So many calls are in a list.
const RUN: usize = 4096;

/// A list of calls, and the machine that they are made on.
pub struct List {
    pub name: &'static str,
    pub machine: Machine,
    pub calls: Vec<Call>,
}

/// The first 4,096 calls that `push` gives, on this machine.
pub fn list(name: &'static str, machine: Machine, mut push: impl FnMut(&mut Vec<Call>)) -> List {
    let mut calls = Vec::new();
    while calls.len() < RUN {
        push(&mut calls);
    }
    calls.truncate(RUN);
    List {
        name,
        machine,
        calls,
    }
}

/// A line of `run` over a list.
pub fn run_line(list: List, earlier: Option<Earlier>) -> Line {
    let earlier = earlier.filter(|earlier| earlier.has(&list.calls, &list.machine.bad));
    let (name, calls) = (list.name, Rc::new(numbers(&list.calls)));
    let n = list.calls.len();
    let mut answers = vec![0; n];
    // library and model agree, and begin behind the first run
    let before = Setting::of(&list.machine);
    let mut sides = Sides::of(&before);
    assert_eq!(sides.run(&calls, &mut answers), Ok(n), "{name}");
    assert_eq!(sides.bytes(), Ok(()), "{name}");
    if let Some(earlier) = earlier {
        agrees(earlier, before, &calls, (&sides.proved, &answers), name);
    }
    let lent = Rc::new(RefCell::new((sides.proved, answers)));
    Line {
        name: name.to_string(),
        calls: n,
        library: run_side(&lent, &calls, |s, calls, answers| s.run(calls, answers)),
        earlier: earlier.map(|earlier| {
            run_side(&lent, &calls, move |s, calls, answers| {
                earlier.run(s, calls, answers)
            })
        }),
        model: model_side(sides.model, calls),
    }
}

/// The model's runs of the calls.
fn model_side(mut model: Machine, calls: Rc<Vec<u32>>) -> Side {
    let mut answers = vec![0; calls.len() / FIELDS];
    Box::new(move |turns| {
        for _ in 0..turns {
            assert_eq!(model.run(black_box(&calls), &mut answers), Ok(()));
            black_box(&mut answers);
        }
        assert!(model.state.counts.calls < u32::MAX);
    })
}

/// The earlier library answers and leaves what the library does.
fn agrees(earlier: Earlier, mut s: Setting, calls: &[u32], left: (&Setting, &[u64]), name: &str) {
    let mut answers = vec![0; left.1.len()];
    let made = earlier.run(&mut s, calls, &mut answers);
    assert_eq!(made, answers.len(), "{name}");
    let same = answers == left.1
        && s.packed == left.0.packed
        && s.memory == left.0.memory
        && s.store == left.0.store;
    assert!(same, "{name}: the earlier library differs");
}

/// A library's runs of the calls. Both libraries have the same setting and answers lent.
fn run_side(
    lent: &Rc<RefCell<(Setting, Vec<u64>)>>,
    calls: &Rc<Vec<u32>>,
    run: impl Fn(&mut Setting, &[u32], &mut [u64]) -> usize + 'static,
) -> Side {
    let (lent, calls) = (Rc::clone(lent), Rc::clone(calls));
    Box::new(move |turns| {
        let (setting, answers) = &mut *lent.borrow_mut();
        for _ in 0..turns {
            let made = run(setting, black_box(&calls), answers);
            assert_eq!(made, answers.len());
            black_box(&mut *answers);
        }
        assert!(setting.packed.state.counts.calls < u32::MAX);
    })
}
