//! The worked examples of the manual's Appendix C. The op code is at X, here 0100.

mod common;

use common::Rig;

#[test]
fn set_r0() {
    assert_eq!(Rig::new(&[0x0B00]).go().s.r[0], 0xFFFF);
}

#[test]
fn clr_at_r2() {
    let rig = Rig::new(&[0x0B4A]).reg(2, 0x0180).word(0x0180, 0x1234).go();
    assert_eq!((rig.at(0x0180), rig.s.r[2]), (0, 0x0180));
}

#[test]
fn inc_r3_autoincrement() {
    let rig = Rig::new(&[0x0C93]).reg(3, 0x0300).word(0x0300, 7).go();
    assert_eq!((rig.at(0x0300), rig.s.r[3]), (8, 0x0302));
}

#[test]
fn dec_literal_in_line() {
    let rig = Rig::new(&[0x0CD7, 0x0005]).go();
    assert_eq!((rig.at(0x0102), rig.pc()), (4, 0x0104));
}

#[test]
fn swab_deferred() {
    let rig = Rig::new(&[0x0BDC])
        .reg(4, 0x0180)
        .word(0x0180, 0x0300)
        .word(0x0300, 0x1280)
        .go();
    assert_eq!((rig.at(0x0300), rig.s.r[4]), (0x8012, 0x0182));
}

#[test]
fn com_autodecrement() {
    let rig = Rig::new(&[0x0C25]).reg(5, 0x0302).word(0x0300, 0x00FF).go();
    assert_eq!((rig.at(0x0300), rig.s.r[5]), (0xFF00, 0x0300));
}

#[test]
fn neg_of_itself() {
    let rig = Rig::new(&[0x0C67]).go();
    assert_eq!((rig.at(0x0100), rig.pc()), (0xF399, 0x0100));
}

#[test]
fn tst_autodecrement_deferred() {
    let rig = Rig::new(&[0x0AA9])
        .reg(1, 0x0304)
        .word(0x0302, 0x1090)
        .word(0x1090, 0x8000)
        .go();
    assert_eq!((rig.s.r[1], rig.nzvc()), (0x0302, 0b1000));
}

#[test]
fn ror_indexed() {
    let rig = Rig::new(&[0x0A34, 0x0004])
        .reg(4, 0x0300)
        .word(0x0304, 0x0003)
        .go();
    assert_eq!((rig.at(0x0304), rig.s.r[4], rig.pc()), (1, 0x0300, 0x0104));
    assert_eq!(rig.nzvc(), 0b0011);
}

#[test]
fn rol_indexed_deferred() {
    let rig = Rig::new(&[0x0A7E, 0x0006])
        .word(0x0206, 0x0300)
        .word(0x0300, 0x8001)
        .flags(1)
        .go();
    assert_eq!((rig.at(0x0300), rig.pc(), rig.nzvc()), (3, 0x0104, 0b0011));
}

#[test]
fn jsr_pc_tag() {
    let rig = Rig::new(&[0x71F7, 0x0010]).go();
    assert_eq!((rig.at(0x01FE), rig.pc()), (0x0104, 0x0114));
}

#[test]
fn jsr_r5_tag() {
    let rig = Rig::new(&[0x7177, 0x0010]).reg(5, 0x5555).go();
    assert_eq!(
        (rig.at(0x01FE), rig.s.r[5], rig.pc()),
        (0x5555, 0x0104, 0x0114)
    );
}

#[test]
fn jsr_pc_r4_autoincrement() {
    let rig = Rig::new(&[0x71D4]).reg(4, 0x0400).go();
    assert_eq!(
        (rig.at(0x01FE), rig.pc(), rig.s.r[4]),
        (0x0102, 0x0400, 0x0402)
    );
}

#[test]
fn jsr_as_a_co_routine_call() {
    let rig = Rig::new(&[0x71DE]).word(0x0200, 0x0600).go();
    assert_eq!(
        (rig.pc(), rig.sp(), rig.at(0x0200)),
        (0x0600, 0x0200, 0x0102)
    );
}

#[test]
fn the_routine_that_runs_thrice() {
    // SUBR: JSR PC,2(PC); TAGA: JSR PC,@PC; TAGB: NOP; RTN PC. The caller's PC is on the stack.
    let mut rig = Rig::new(&[0x71F7, 0x0002, 0x71CF, 0x0000, 0x001F])
        .reg(6, 0x01FE)
        .word(0x01FE, 0x0400);
    let mut nops = 0;
    while rig.pc() != 0x0400 {
        nops += u32::from(rig.pc() == 0x0106);
        rig = rig.go();
    }
    assert_eq!((nops, rig.sp()), (3, 0x0200));
}

#[test]
fn cmp_both_autoincrement() {
    let rig = Rig::new(&[0x9410])
        .reg(0, 0x0300)
        .word(0x0300, 5)
        .word(0x0302, 6)
        .go();
    assert_eq!((rig.s.r[0], rig.nzvc()), (0x0304, 0b1001));
}

#[test]
fn mov_down_one_word() {
    let rig = Rig::new(&[0xB2A2]).reg(2, 0x0306).word(0x0306, 0x1234).go();
    assert_eq!((rig.at(0x0304), rig.s.r[2]), (0x1234, 0x0304));
}

#[test]
fn bit_literal_and_absolute() {
    let rig = Rig::new(&[0xA5DF, 0x0002, 0x0004]);
    let set = rig.clone().word(4, 0x8002).go();
    assert_eq!((set.nzvc(), set.pc()), (0b0000, 0x0106));
    assert_eq!(rig.word(4, 0x8001).go().nzvc(), 0b0100);
}

#[test]
fn cmp_literal_takes_the_next_word_and_tag_the_one_after() {
    // 0104 is the offset, from 0106 on.
    let rig = Rig::new(&[0x95F7, 0x1234, 0x0010])
        .word(0x0116, 0x1234)
        .go();
    assert_eq!((rig.nzvc(), rig.pc()), (0b0100, 0x0106));
}

#[test]
fn jsr_pc_literal() {
    let rig = Rig::new(&[0x71D7]).go();
    assert_eq!((rig.at(0x01FE), rig.pc()), (0x0104, 0x0102));
}

#[test]
fn jsr_r5_literal() {
    let rig = Rig::new(&[0x7157]).reg(5, 0x5555).go();
    assert_eq!(
        (rig.at(0x01FE), rig.s.r[5], rig.pc()),
        (0x5555, 0x0104, 0x0102)
    );
}

#[test]
fn movb_both_autoincrement() {
    let rig = Rig::new(&[0xD410]).reg(0, 0x0302).word(0x0302, 0x1234).go();
    assert_eq!((rig.at(0x0302), rig.s.r[0]), (0x3434, 0x0304));
}

#[test]
fn movb_from_the_stack_moves_sp_by_two() {
    let rig = Rig::new(&[0xD581]).word(0x0200, 0x1280).go();
    assert_eq!((rig.s.r[1], rig.sp()), (0xFF80, 0x0202));
}

#[test]
fn clrb_literal_clears_the_lower_byte() {
    let rig = Rig::new(&[0x8B57, 0x1234]).go();
    assert_eq!((rig.at(0x0102), rig.pc()), (0x1200, 0x0104));
}

#[test]
fn bisb_keeps_the_upper_byte() {
    let rig = Rig::new(&[0xE001]).reg(0, 0xFF0F).reg(1, 0x12F0).go();
    assert_eq!(rig.s.r[1], 0x12FF);
}

#[test]
fn movb_deferred_moves_by_two() {
    let rig = Rig::new(&[0xD6AB])
        .reg(2, 0x0300)
        .reg(3, 0x0400)
        .word(0x0300, 0x0501)
        .word(0x03FE, 0x0600)
        .word(0x0500, 0xAB00)
        .go();
    assert_eq!((rig.s.r[2], rig.s.r[3]), (0x0302, 0x03FE));
    assert_eq!((rig.byte_at(0x0600), rig.byte_at(0x0601)), (0xAB, 0));
}

#[test]
fn jsr_sp_loses_the_stack() {
    let rig = Rig::new(&[0x71B7, 0x0010]).go();
    assert_eq!(
        (rig.at(0x01FE), rig.sp(), rig.pc()),
        (0x01FE, 0x0104, 0x0114)
    );
}
