//! The second model makes the calls and looks of crates/first_run, and gives the text that the program prints.

use sa110_model::bus::no_bad_words;
use sa110_model::plain::Plain;
use sa110_model::{words, Answer, Call, Machine};

/// The program's 64 KB of memory: a section, and a second-level table with a small page.
fn memory() -> Vec<u8> {
    let mut memory = vec![0; 0x10000];
    words::write(&mut memory, 0x4004, 4, 0xC0E);
    words::write(&mut memory, 0x4008, 4, 0x8021);
    words::write(&mut memory, 0x8000, 4, 0x905E);
    memory
}

fn signed_load(width: u32, address: u32) -> Call {
    Call::SignedLoad {
        privileged: true,
        width,
        address,
    }
}

fn user_load(width: u32, address: u32) -> Call {
    Call::Load {
        privileged: false,
        width,
        address,
    }
}

/// The list that the program runs.
fn listed() -> [Call; 17] {
    [
        Call::read(1),
        Call::write(2, 0x4000),
        Call::write(3, 5),
        Call::flush_tlb(),
        Call::write(1, 0xF),
        Call::store(4, 0x100010, 0xCAFE_1234),
        Call::load(4, 0x100010),
        signed_load(1, 0x100013),
        Call::store(2, 0x200480, 0xBEEF),
        Call::load(2, 0x200480),
        user_load(4, 0x200480),
        Call::read(5),
        Call::read(6),
        Call::load(4, 0x300000),
        Call::load(4, 0x100012),
        Call::load(3, 0x100010),
        Call::write(1, 5),
    ]
}

/// The calls that it then makes one by one, and the addresses that it looks at.
fn single() -> [Call; 4] {
    [
        signed_load(1, 0x100013),
        Call::load(2, 0x200480),
        user_load(4, 0x200480),
        Call::store(1, 0x100010, 0x100),
    ]
}

const LOOKS: [u32; 3] = [0x100010, 0x104004, 0x300000];

/// The loads that it makes last, when the word at 4008 is bad: of the word before it, and of it.
fn last() -> [Call; 2] {
    [Call::load(4, 0x104004), Call::load(4, 0x104008)]
}

/// A call in words.
fn call_text(call: &Call) -> String {
    let [kind, privileged, n, a, v] = call.to_numbers();
    let mode = ["user", "privileged"][privileged as usize];
    let what = match kind {
        2 => format!("store  {n:02} at {a:08x} = {v:08x}"),
        3 => format!("read   register {n:02}"),
        4 => format!("write  register {n:02} = {v:08x}"),
        _ => format!("{} {n:02} at {a:08x}", ["load  ", "signed"][kind as usize]),
    };
    format!("{mode:<11}{what:<33}")
}

/// An answer of a run, which has no address of a fault and no sign.
fn number_text(answer: &Answer) -> String {
    match *answer {
        Answer::Value(value) => format!("value {value:08x}"),
        Answer::Signed(value) => format!("value {value:08x}"),
        Answer::Fault(f) => format!(
            "fault, status {:02} domain {:02}",
            f.status as u32, f.domain
        ),
        Answer::Refused(number) => format!("refused by {number:02}"),
    }
}

/// An answer of a single call.
fn answer_text(answer: &Answer) -> String {
    match *answer {
        Answer::Signed(value) => {
            let sign = if value < 0 { '-' } else { '+' };
            format!("signed {sign}{:08x}", value.unsigned_abs())
        }
        Answer::Fault(f) => format!("{} address {:08x}", number_text(answer), f.address),
        _ => number_text(answer),
    }
}

/// The bytes of a part in words of four, or that it is empty.
fn part_text(part: &[u8]) -> String {
    if part.is_empty() {
        return " an empty part".to_string();
    }
    let hex = |bytes: &[u8]| bytes.iter().map(|b| format!("{b:02x}")).collect::<String>();
    part.chunks(4)
        .map(|word| format!(" {}", hex(word)))
        .collect()
}

/// The list on both machines, and what they count.
fn listed_text(machine: &mut Machine) -> String {
    let mut out = String::new();
    let mut plain = Plain::start(memory(), no_bad_words(memory().len()));
    for call in listed() {
        let (answer, other) = (machine.call(&call), plain.call(&call));
        out += &format!("{}  {}\n", call_text(&call), number_text(&answer));
        if other.as_number() != answer.as_number() {
            out += "  the plain machine answers something else\n";
        }
    }
    let c = &machine.state.counts;
    let (calls, misses, hits) = (c.calls, c.tlb_misses, c.hits);
    let (fills, halves) = (c.fills, c.halves);
    out += &format!("library: calls counted {calls:02}, TLB misses {misses:02}");
    out +=
        &format!(", Dcache hits {hits:02}, line fills {fills:02}, halves sent out {halves:02}\n");
    out + &format!("plain machine: calls counted {:02}\n", plain.calls)
}

/// Calls one by one, on what those before them left.
fn single_text(machine: &mut Machine, calls: &[Call]) -> String {
    let line = |call: &Call| {
        let answer = machine.call(call);
        format!("{}  {}\n", call_text(call), answer_text(&answer))
    };
    calls.iter().map(line).collect()
}

/// The looks, behind them.
fn looks_text(machine: &Machine) -> String {
    let line = |a: u32| format!("look at {a:08x}{}\n", part_text(machine.look(a)));
    LOOKS.into_iter().map(line).collect()
}

#[test]
fn program_prints_what_the_model_says() {
    let mut machine = Machine::fresh(memory());
    let mut expected = listed_text(&mut machine);
    expected += &single_text(&mut machine, &single());
    expected += &looks_text(&machine);
    machine.bad[0x4008 / 4] = 1;
    expected += &single_text(&mut machine, &last());
    assert_eq!(include_str!("../../crates/first_run/stdout"), expected);
}
