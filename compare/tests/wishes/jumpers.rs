//! Wish 14: the other power-up and halt options.

use super::common::{Rig, I0, I1, I3, POWER_FAIL};
use wd16::{power_up, run, step, Cause, Mode, Refusal, State, PC};

/// Registers 1 to 6, PC 0100, I2 and N set, with this halt option.
fn rig(halt: u8) -> Rig {
    let rig = Rig::new(&[0]).jumpers(3, halt, 0x15).i2().flags(8);
    (0..6).fold(rig, |rig, register| rig.reg(register, register as u16 + 1))
}

fn up(power: u8, halt: u8, mut rig: Rig) -> (State, Rig) {
    rig = rig.jumpers(power, halt, 0x15);
    let state = power_up(&rig.setup, &mut rig.image, &rig.map).expect("a good call");
    (state, rig)
}

#[test]
fn the_bootstrap() {
    for mode in [Mode::Running, Mode::Waiting, Mode::HaltedSwitch] {
        let rig = rig(0).mode(mode).step(I3, Cause::I3);
        assert_eq!(
            (rig.pc(), rig.s.mode, rig.s.i2),
            (0xD500, Mode::Running, true)
        );
    }
    let edge = Rig::new(&[]).jumpers(3, 0, 0x3F).step(I3, Cause::I3);
    assert_eq!(edge.pc(), 0xFF00);
}

#[test]
fn registers_saved_and_restored() {
    for mode in [Mode::Running, Mode::Waiting, Mode::HaltedSwitch] {
        let before = rig(1).mode(mode);
        let saved = before.clone().step(I3 | POWER_FAIL, Cause::I3);
        let words: Vec<u16> = (0..9).map(|place| saved.at(2 * place)).collect();
        assert_eq!(words, [1, 2, 3, 4, 5, 6, 0x0200, 0x0100, 0x9708]);
        let expected = State {
            mode: Mode::Saved,
            ..before.s
        };
        assert_eq!(saved.s, expected);
        let waiting = saved.step(I3 | I1 | I0, Cause::Nothing);
        assert_eq!(waiting.s, expected);
        let restored = waiting
            .word(0x00, 0x7777)
            .word(0x10, 0x0005)
            .step(I1, Cause::I3);
        assert_eq!(
            (restored.s.r[0], restored.pc(), restored.nzvc()),
            (0x7777, 0x0100, 5)
        );
        assert_eq!((restored.s.i2, restored.s.mode), (false, Mode::Running));
    }
}

#[test]
fn the_mark_is_kept() {
    let saved = rig(1).mark().step(I3, Cause::I3);
    assert!(saved.s.mark);
    assert!(saved.step(I3, Cause::Nothing).step(0, Cause::I3).s.mark);
    assert!(rig(0).mark().step(I3, Cause::I3).s.mark);
}

#[test]
fn the_lock_up_option() {
    for mode in [Mode::Running, Mode::Waiting, Mode::HaltedSwitch] {
        let before = rig(2).mode(mode);
        let locked = before.clone().blank(I3, Cause::Locked, None);
        assert_eq!(
            locked.s,
            State {
                mode: Mode::Locked,
                ..before.s
            }
        );
        assert_eq!(locked.image, before.image);
    }
}

#[test]
fn a_halt_on_power_fail_ends_through_16() {
    for halt in 0..4 {
        let rig = rig(halt).mode(Mode::HaltedPowerFail).word(0x16, 0x0500);
        let on = rig.step(I3, Cause::OpCode);
        assert_eq!((on.pc(), on.s.mode), (0x0500, Mode::Running));
    }
}

#[test]
fn a_blank_drops_the_whole_save() {
    let before = rig(1).page(0, 2).word(0x12, 0x0600).word(0, 0xAAAA);
    let error = before.clone().blank(I3, Cause::BlankInSave, Some(0));
    assert_eq!(
        (error.at(0), error.pc(), error.s.i2),
        (0xAAAA, 0x0600, false)
    );
    assert_eq!((error.at(0x01FE), error.at(0x01FC)), (0x5708, 0x0100));
    let mut counted = before.clone();
    let ran = run(
        &counted.setup,
        counted.s,
        &mut counted.image,
        &counted.map,
        &[I3],
    )
    .unwrap();
    assert_eq!((ran.blanks, ran.first, ran.address), (1, Some(0), Some(0)));
    // Without the stack too, or without page 0, it locks.
    before.page(1, 2).blank(I3, Cause::Locked, Some(0));
    rig(1).unfit(0).blank(I3, Cause::Locked, Some(0));
    rig(1)
        .mode(Mode::Saved)
        .unfit(0)
        .blank(0, Cause::Locked, Some(0));
    // A read-only page 0 can be restored from.
    rig(1).mode(Mode::Saved).page(0, 2).step(0, Cause::I3);
}

#[test]
fn the_ps_shows_the_jumpers() {
    for (power, halt, bits) in [
        (0, 0, 0x0000),
        (1, 2, 0x0900),
        (2, 1, 0x0600),
        (3, 3, 0x0F00),
    ] {
        // SSTS R1
        let rig = Rig::new(&[0x8D41]).jumpers(power, halt, 0).i2().go();
        assert_eq!(rig.s.r[1], bits | 0x1000);
    }
}

#[test]
fn power_ups() {
    let board = || {
        Rig::new(&[])
            .word(0x16, 0x1235)
            .word(0x00, 0x0011)
            .word(0x0E, 0x0500)
    };
    let running = |pc: u16| {
        let mut state = State::cleared();
        state.r[PC] = pc;
        state
    };
    for halt in 0..4 {
        assert_eq!(up(0, halt, board()).0, running(0xD500));
        assert_eq!(up(0, halt, board().unfit(0)).0, running(0xD500));
        assert_eq!(up(3, halt, board()).0, running(0x1235));
        let picked = up(1, halt, board().word(0x10, 0xF00A)).0;
        assert_eq!(
            (picked.r[0], picked.r[PC], picked.i2),
            (0x0011, 0x0500, true)
        );
        assert_eq!(
            (picked.flags.bits(), picked.mode, picked.mark),
            (0xA, Mode::Running, false)
        );
    }
    assert_eq!(up(2, 0, board()).0, running(0xD500));
    assert_eq!(up(2, 3, board()).0, running(0x1235));
    let (state, rig) = up(2, 1, board());
    assert_eq!(
        state,
        State {
            mode: Mode::Saved,
            ..State::cleared()
        }
    );
    assert_eq!((rig.at(0x00), rig.at(0x0E), rig.at(0x10)), (0, 0, 0x0600));
}

#[test]
fn a_power_up_that_meets_a_blank_is_locked() {
    let locked = State {
        mode: Mode::Locked,
        ..State::cleared()
    };
    let board = || Rig::new(&[]).word(0x00, 0x0011).word(0x0E, 0x0500);
    assert_eq!(up(2, 2, board()).0, locked);
    for (power, halt) in [(1, 3), (2, 1), (2, 3), (3, 0)] {
        let (state, rig) = up(power, halt, board().unfit(0));
        assert_eq!((state, rig.at(0)), (locked, 0x0011));
    }
    let (state, rig) = up(2, 1, board().page(0, 2));
    assert_eq!((state, rig.at(0), rig.at(0x0E)), (locked, 0x0011, 0x0500));
}

#[test]
fn refusal_35_in_its_place() {
    for (power, halt, address) in [(4, 3, 0), (3, 4, 0), (3, 3, 64), (255, 255, 255)] {
        let rig = Rig::new(&[]).jumpers(power, halt, address);
        let (setup, s, mut image) = (&rig.setup, rig.s, rig.image.clone());
        let bad = &[3; 256];
        let long = &[4; 4_097];
        assert_eq!(power_up(setup, &mut image, bad), Err(Refusal(3)));
        assert_eq!(power_up(setup, &mut image, &rig.map), Err(Refusal(35)));
        assert_eq!(step(setup, s, &mut image, bad, 4), Err(Refusal(3)));
        assert_eq!(step(setup, s, &mut image, &rig.map, 4), Err(Refusal(35)));
        assert_eq!(run(setup, s, &mut image, bad, long), Err(Refusal(3)));
        assert_eq!(run(setup, s, &mut image, &rig.map, long), Err(Refusal(35)));
    }
    assert!(step(&rig(3).setup, rig(3).s, &mut rig(3).image, &[1; 256], 0).is_ok());
}
