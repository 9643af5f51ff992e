//! Wish 3: IEN is one op code late.

use super::common::{Rig, I0, I1, I3};
use wd16::{Cause, Mode};

const IEN: u16 = 0x0002;

/// I1's routine at 0700, I0's table at 0780.
fn rig(words: &[u16]) -> Rig {
    Rig::new(words).all().word(0x2A, 0x0700).word(0x28, 0x0780)
}

#[test]
fn one_more_op_code_begins_before_i0_or_i1() {
    for (line, cause) in [(I1, Cause::I1), (I0, Cause::I0)] {
        let marked = rig(&[IEN, 0x0C81]).go();
        assert!(marked.s.i2 && marked.s.mark);
        let later = marked.step(line, Cause::OpCode);
        assert_eq!((later.s.r[1], later.s.mark), (1, false));
        later.step(line, cause);
    }
    let mut page = rig(&[IEN]);
    page.setup.level = wd16::Level(1);
    let page = page.go();
    assert!(page.s.i2 && !page.s.mark);
    page.step(I1, Cause::I1);
}

#[test]
fn only_where_i2_was_clear() {
    assert!(!rig(&[IEN]).i2().go().s.mark);
    assert!(!rig(&[IEN, IEN]).go().go().s.mark);
    // SAVS 0001
    assert!(rig(&[0x000B, 1]).go().s.mark);
    assert!(!rig(&[0x000B, 1]).i2().go().s.mark);
}

#[test]
fn other_op_codes_set_i2_without_it() {
    // WFI; LSTS #1000; RTT, RRTT, RSTS and RSVC of a PS 1000.
    for words in [[0x0007, 0], [0x8D17, 0x1000]] {
        let after = rig(&words).go();
        assert!(after.s.i2 && !after.s.mark, "{words:04X?}");
    }
    for (op, ps_at) in [
        (0x000F, 0x0202),
        (0x0009, 0x020E),
        (0x000E, 0x0210),
        (0x0008, 0x0210),
    ] {
        let after = rig(&[op]).word(ps_at, 0x1000).go();
        assert!(after.s.i2 && !after.s.mark, "{op:04X}");
    }
}

#[test]
fn every_op_code_and_trap_clears_it() {
    // NOP, IDS, HALT, WFI, BPT, SVCA 00, a reserved and an illegal one, an element of a block move.
    for op in [
        0x0000, 0x0003, 0x0004, 0x0007, 0x0006, 0x0040, 0xF000, 0x7000, 0x0E0A,
    ] {
        assert!(!rig(&[op]).i2().mark().go().s.mark, "{op:04X}");
    }
}

#[test]
fn i3_and_idle_steps_keep_it() {
    let i3 = rig(&[0]).i2().mark().word(0x16, 0x0500).step(I3, Cause::I3);
    assert!(i3.s.mark);
    i3.step(I1, Cause::OpCode);
    let waiting = rig(&[]).i2().mark().mode(Mode::Waiting);
    assert!(waiting.step(I1 | I0, Cause::Nothing).s.mark);
    let halted = rig(&[]).mark().mode(Mode::HaltedPowerFail);
    assert!(halted.step(0, Cause::OpCode).s.mark);
}

#[test]
fn a_bus_error_clears_it_and_a_lock_up_keeps_it() {
    let error = rig(&[]).mark().reg(7, 0x8000).unfit(0x80);
    assert!(!error.clone().step(0, Cause::BlankInOpCode).s.mark);
    assert!(error.unfit(0x01).step(0, Cause::Locked).s.mark);
}

#[test]
fn under_xct_it_is_set_at_the_end() {
    let traced = |op: u16| {
        rig(&[0x0005])
            .word(0x0200, 0x0500)
            .word(0x0500, op)
            .word(0x20, 0x0700)
    };
    let ien = traced(IEN).mark().go();
    assert_eq!((ien.pc(), ien.s.i2, ien.s.mark), (0x0700, true, true));
    assert_eq!(ien.at(0x0202) & 0x1000, 0x1000);
    assert!(traced(0x000B).go().s.mark);
    assert!(!traced(IEN).i2().mark().go().s.mark);
    // Aborted, reserved, illegal.
    for op in [0x0007, 0xF000, 0x7000] {
        assert!(!traced(op).mark().go().s.mark, "{op:04X}");
    }
}
