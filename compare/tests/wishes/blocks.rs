//! Wish 1: block moves.

use super::common::{Rig, BASE, I1};
use wd16::{Cause, Level, Setup};

const MBWU_R1_R2: u16 = 0x0E0A;

/// An op code at 0100, R1 0300, R2 0400, 1234 at 0300.
fn moving(op: u16, count: u16) -> Rig {
    Rig::new(&[op])
        .all()
        .reg(0, count)
        .reg(1, 0x0300)
        .reg(2, 0x0400)
        .word(0x0300, 0x1234)
}

#[test]
fn one_element_is_one_step() {
    let rig = moving(MBWU_R1_R2, 2).flags(0xF).go();
    assert_eq!((rig.at(0x0400), rig.pc()), (0x1234, 0x0100));
    assert_eq!(rig.s.r[..3], [1, 0x0302, 0x0402]);
    let rig = rig.go();
    assert_eq!((rig.s.r[0], rig.pc(), rig.nzvc()), (0, 0x0102, 0xF));
}

#[test]
fn the_eight_move_their_registers() {
    let moves: [(u16, u16, i16, i16); 8] = [
        (0x0E0A, 0x1234, 2, 2),
        (0x0E4A, 0x1234, -2, -2),
        (0x0E8A, 0x0034, 1, 1),
        (0x0ECA, 0x0034, -1, -1),
        (0x0F0A, 0x1234, 2, 0),
        (0x0F4A, 0x0034, 1, 0),
        (0x0F8A, 0x1234, 0, 2),
        (0x0FCA, 0x0034, 0, 1),
    ];
    for (op, moved, source, destination) in moves {
        let rig = moving(op, 5).go();
        assert_eq!(rig.at(0x0400), moved, "{op:04X}");
        let registers = [
            0x0300_u16.wrapping_add_signed(source),
            0x0400_u16.wrapping_add_signed(destination),
        ];
        assert_eq!(rig.s.r[1..3], registers, "{op:04X}");
    }
}

#[test]
fn a_count_of_zero_is_65536() {
    let rig = moving(MBWU_R1_R2, 0).go();
    assert_eq!((rig.s.r[0], rig.pc()), (0xFFFF, 0x0100));
}

#[test]
fn one_register_for_both_moves_twice_or_once() {
    assert_eq!(moving(0x0E09, 2).go().s.r[1], 0x0304);
    assert_eq!(moving(0x0EC9, 2).go().s.r[1], 0x02FE);
    assert_eq!(moving(0x0F09, 2).go().s.r[1], 0x0302);
    assert_eq!(moving(0x0FC9, 2).go().s.r[1], 0x0301);
}

#[test]
fn pc_is_the_address_after_the_op_code() {
    // MBWU PC,R2 reads at 0102.
    let rig = moving(0x0E3A, 2).word(0x0102, 0xABCD).go();
    assert_eq!((rig.at(0x0400), rig.pc()), (0xABCD, 0x0100));
    let rig = moving(0x0E3A, 1).word(0x0102, 0xABCD).go();
    assert_eq!((rig.at(0x0400), rig.pc()), (0xABCD, 0x0104));
    // MBBD R1,PC writes there.
    let rig = moving(0x0ECF, 1).go();
    assert_eq!((rig.byte_at(0x0102), rig.pc()), (0x34, 0x0101));
}

#[test]
fn r0_is_tested_after_all_three_sums() {
    // MBBD R0,R0 from 3: three times less one is the end.
    let rig = moving(0x0EC0, 3).go();
    assert_eq!((rig.s.r[0], rig.pc()), (0, 0x0102));
    // MBWU R0,R2 from FFFF: plus two, less one.
    let rig = moving(0x0E02, 0xFFFF).go();
    assert_eq!((rig.s.r[0], rig.pc()), (0, 0x0102));
    let rig = moving(0x0E02, 0x0300).go();
    assert_eq!(
        (rig.at(0x0400), rig.s.r[0], rig.pc()),
        (0x1234, 0x0301, 0x0100)
    );
}

#[test]
fn sp_moves_by_one_for_bytes_and_odd_words_keep_bit_0() {
    assert_eq!(moving(0x0EB2, 2).go().sp(), 0x0201);
    let rig = moving(MBWU_R1_R2, 2).reg(1, 0x0301).reg(2, 0x0401).go();
    assert_eq!(
        (rig.at(0x0400), rig.s.r[1], rig.s.r[2]),
        (0x1234, 0x0303, 0x0403)
    );
}

#[test]
fn a_blank_drops_its_own_element() {
    let rig = moving(MBWU_R1_R2, 3)
        .reg(2, 0x7FFE)
        .unfit(0x80)
        .word(0x12, 0x0600);
    let rig = rig.go().blank(0, Cause::BlankInOpCode, Some(0x8000));
    assert_eq!(rig.s.r[..3], [2, 0x0302, 0x8000]);
    assert_eq!(
        (rig.at(0x01FC), rig.at(0x7FFE), rig.pc()),
        (0x0102, 0x1234, 0x0600)
    );
}

#[test]
fn lines_are_heard_between_elements() {
    let rig = moving(MBWU_R1_R2, 3).i2().word(0x2A, 0x0700);
    let rig = rig.step(0, Cause::OpCode).step(I1, Cause::I1);
    assert_eq!((rig.at(0x01FC), rig.pc(), rig.s.r[0]), (0x0100, 0x0700, 2));
}

#[test]
fn an_op_code_that_was_written_over_acts_as_it_has_become() {
    let rig = moving(MBWU_R1_R2, 2).reg(2, 0x0100).word(0x0300, 0x0C83);
    let rig = rig.go().go();
    assert_eq!((rig.s.r[0], rig.s.r[3], rig.pc()), (1, 1, 0x0102));
}

/// XCT at 0100 of a block move at 0500.
fn traced(count: u16) -> Rig {
    let rig = moving(0x0005, count).word(0x20, 0x0700).word(0x1A, 0x0800);
    rig.word(0x0200, 0x0500).word(0x0500, MBWU_R1_R2)
}

#[test]
fn under_xct_one_element_is_traced() {
    let rig = traced(2).go();
    assert_eq!(
        (rig.at(0x0400), rig.at(0x0200), rig.pc()),
        (0x1234, 0x0500, 0x0700)
    );
    let rig = traced(1).go();
    assert_eq!((rig.at(0x0200), rig.pc()), (0x0502, 0x0700));
    let mut bare = traced(2);
    bare.setup.settings.microm = false;
    let rig = bare.go();
    assert_eq!((rig.at(0x0200), rig.pc()), (0x0502, 0x0800));
}

#[test]
fn without_the_microm_it_is_reserved() {
    for setup in [BASE, Setup::bench(Level(1)), Setup::bench(Level::ALL)] {
        let mut rig = moving(MBWU_R1_R2, 2).word(0x1A, 0x0800);
        rig.setup = setup;
        rig.setup.settings.microm = setup == BASE;
        let rig = rig.go();
        assert_eq!(
            (rig.pc(), rig.at(0x01FC), rig.at(0x0400)),
            (0x0800, 0x0102, 0)
        );
    }
    let rig = Rig::new(&[0xF000]).all().word(0x1A, 0x0800).go();
    assert_eq!(rig.pc(), 0x0800);
}
