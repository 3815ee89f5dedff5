//! M1 to M12 of document 01. Memory 40000 bytes, table base 4000, domain register 5 unless stated.

mod common;
use common::*;
use sa110_model::answers::{Answer, Status};
use sa110_model::cache::{set_of, tag_of};
use sa110_model::calls::Call;
use sa110_model::machine::Machine;
use sa110_model::rights;
use sa110_model::words;

/// The cases' machine with these words in memory and this control value.
fn case(words: &[(usize, u32)], control: u32) -> Machine {
    machine(
        0x40000,
        words,
        &[
            Call::write(2, 0x4000),
            Call::write(3, 5),
            Call::write(1, control),
        ],
    )
}

fn fsr(machine: &mut Machine) -> Answer {
    machine.call(&Call::read(5))
}

#[test]
fn m1_fresh_control_reads_70() {
    let mut m = Machine::fresh(vec![0; 0x40000]);
    assert_eq!(m.call(&Call::read(1)), value(0x70));
}

#[test]
fn m2_control_writes() {
    let mut m = Machine::fresh(vec![0; 0x40000]);
    assert_eq!(m.call(&Call::write(1, 0x100D)), value(0));
    assert_eq!(m.call(&Call::read(1)), value(0x107D));
    assert_eq!(m.call(&Call::write(1, 5)), Answer::Refused(12));
    assert_eq!(m.call(&Call::write(1, 8)), Answer::Refused(12));
    assert_eq!(m.call(&Call::write(1, 0x85)), Answer::Refused(11));
    assert_eq!(m.call(&Call::read(1)), value(0x107D));
}

#[test]
fn m3_table_base_reads_without_its_low_bits() {
    let mut m = Machine::fresh(vec![0; 0x40000]);
    m.call(&Call::write(2, 0x12347FFF));
    assert_eq!(m.call(&Call::read(2)), value(0x12344000));
}

#[test]
fn m4_word_load_at_123456() {
    let words = [(0x4004, 0xC0E), (0x23454, 0xA1B2C3D4)];
    let mut m = case(&words, 0xF);
    let answer = m.call(&Call::load(4, 0x123456));
    assert_eq!(answer, fault(Status::Alignment, 0, 0x123456));
    assert_eq!(fsr(&mut m), value(0x01));
    assert_eq!(m.call(&Call::read(6)), value(0x123456));
    let mut m = case(&words, 0xD);
    assert_eq!(m.call(&Call::load(4, 0x123456)), value(0xA1B2C3D4));
}

#[test]
fn m5_set_2_tag_91a() {
    assert_eq!((set_of(0x123456), tag_of(0x123456)), (2, 0x91A));
    let mut m = case(&[(0x4004, 0xC0E)], 0xD);
    m.call(&Call::load(4, 0x123456));
    let line = m.state.cache.lines[2 * 32];
    assert_eq!((line.valid, line.tag, line.frame), (1, 0x91A, 0x23454 / 32));
    assert_eq!(m.state.cache.pointers[2], 1);
}

#[test]
fn m6_level_1_word_at_7ffc() {
    let mut m = case(&[(0x7FFC, 0xC0E), (0x124, 0x77)], 0xD);
    assert_eq!(m.call(&Call::load(4, 0xFFF00124)), value(0x77));
    let mut m = machine(
        0x7FE0,
        &[],
        &[
            Call::write(2, 0x4000),
            Call::write(3, 5),
            Call::write(1, 0xD),
        ],
    );
    let answer = m.call(&Call::load(4, 0xFFF00000));
    assert_eq!(answer, fault(Status::WalkLevel1, 0, 0xFFF00000));
    assert_eq!(fsr(&mut m), value(0x0C));
}

#[test]
fn m7_level_1_word_0() {
    let mut m = case(&[], 0xD);
    let answer = m.call(&Call::load(4, 0x123454));
    assert_eq!(answer, fault(Status::TranslationSection, 0, 0x123454));
    assert_eq!(fsr(&mut m), value(0x05));
}

#[test]
fn m8_level_2_word_at_8114() {
    let mut m = case(&[(0x4004, 0x8021)], 0xD);
    let answer = m.call(&Call::load(4, 0x145678));
    assert_eq!(answer, fault(Status::TranslationPage, 1, 0x145678));
    assert_eq!(fsr(&mut m), value(0x17));
    let mut m = case(&[(0x4004, 0x8021), (0x8114, 0x10FF2), (0x10678, 9)], 0xD);
    assert_eq!(m.call(&Call::load(4, 0x145678)), value(9));
}

#[test]
fn m9_small_page_10042() {
    let words = [(0x4004, 0x8021), (0x8114, 0x10042), (0x10678, 0x1234)];
    let mut m = case(&words, 0xD);
    assert_eq!(m.call(&Call::load(4, 0x145678)), value(0x1234));
    let answer = m.call(&user_load(4, 0x145678));
    assert_eq!(answer, fault(Status::PermissionPage, 1, 0x145678));
    assert_eq!(fsr(&mut m), value(0x1F));
    m.call(&Call::write(3, 1));
    let answer = m.call(&Call::load(4, 0x145678));
    assert_eq!(answer, fault(Status::DomainPage, 1, 0x145678));
    assert_eq!(fsr(&mut m), value(0x1B));
}

#[test]
fn m10_large_page_20ffd() {
    let words = [(0x4004, 0x8021), (0x8114, 0x20FFD), (0x25678, 0x4321)];
    let mut m = case(&words, 0xD);
    assert_eq!(m.call(&Call::load(4, 0x145678)), value(0x4321));
}

#[test]
fn m11_signed_loads() {
    assert_eq!(words::signed(0x80, 1), -128);
    assert_eq!(words::signed(0x8000, 2), -32768);
    assert_eq!(words::signed(0x7F, 1), 0x7F);
    let mut m = machine(
        0x40,
        &[(0, 0x80), (4, 0x8000), (8, 0x7F), (12, u32::MAX)],
        &[],
    );
    assert_eq!(m.call(&signed_load(1, 0)), Answer::Signed(-128));
    assert_eq!(m.call(&signed_load(2, 4)), Answer::Signed(-32768));
    assert_eq!(m.call(&signed_load(1, 8)), Answer::Signed(0x7F));
    assert_eq!(m.call(&signed_load(4, 12)), Answer::Signed(-1));
    assert_eq!(m.call(&Call::load(1, 0)), value(0x80));
}

#[test]
fn m12_ap_00_with_s() {
    for (privileged, store) in [(true, false), (true, true), (false, false), (false, true)] {
        let entry = rights::TABLE[rights::index(1, 0, true, false, privileged, store)];
        let allowed = privileged && !store;
        assert_eq!(entry, if allowed { 0 } else { 2 });
    }
    let mut m = case(&[(0x4004, 0x00E)], 0x10D);
    assert_eq!(m.call(&Call::load(4, 0x100000)), value(0));
    let denied = fault(Status::PermissionSection, 0, 0x100000);
    assert_eq!(m.call(&Call::store(4, 0x100000, 1)), denied);
    assert_eq!(m.call(&user_load(4, 0x100000)), denied);
    assert_eq!(m.call(&user_store(4, 0x100000, 1)), denied);
}

/// 001's table 2-3, row by row, and the domain values.
#[test]
fn rights_table() {
    // AP, S, R: user load, user store, privileged load, privileged store.
    let mut rows = vec![
        ((0, false, false), [false, false, false, false]),
        ((0, true, false), [false, false, true, false]),
        ((0, false, true), [true, false, true, false]),
        ((0, true, true), [false, false, false, false]),
    ];
    for (s, r) in [(false, false), (false, true), (true, false), (true, true)] {
        rows.push(((1, s, r), [false, false, true, true]));
        rows.push(((2, s, r), [true, false, true, true]));
        rows.push(((3, s, r), [true, true, true, true]));
    }
    assert_eq!(rows.len(), 16);
    for ((ap, s, r), allowed) in rows {
        for (i, allowed) in allowed.into_iter().enumerate() {
            let (privileged, store) = (i / 2 == 1, i % 2 == 1);
            let entry = |domain| rights::TABLE[rights::index(domain, ap, s, r, privileged, store)];
            assert_eq!(entry(0), rights::DOMAIN_FAULT);
            assert_eq!(entry(1), if allowed { 0 } else { 2 });
            assert_eq!(entry(2), rights::DOMAIN_FAULT);
            assert_eq!(entry(3), rights::ALLOWED);
        }
    }
}
