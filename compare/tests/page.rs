//! The bench examples of document 01, and its rules for modes and causes.

mod common;

use common::{Rig, BASE, I0, I1, I3, POWER_FAIL};
use wd16::text::read_text;
use wd16::writer::write_text;
use wd16::{power_up, run, step, Cause, Level, Mode, Refusal, State, PC};

// ---- the examples, in document 01's order ----

#[test]
fn addi_overflows() {
    let rig = Rig::new(&[0x0800]).reg(0, 0x7FFF).go();
    assert_eq!((rig.s.r[0], rig.nzvc()), (0x8000, 0b1010));
}

#[test]
fn subi_borrows() {
    let rig = Rig::new(&[0x0810]).go();
    assert_eq!((rig.s.r[0], rig.nzvc()), (0xFFFF, 0b1001));
}

#[test]
fn ssra_takes_n_from_bit_7() {
    let rig = Rig::new(&[0x8820]).reg(0, 0x0101).go();
    assert_eq!((rig.s.r[0], rig.nzvc()), (0x0080, 0b1001));
}

#[test]
fn ash_to_the_right_takes_n_from_bit_15() {
    let rig = Rig::new(&[0x7402]).reg(2, 0x00FF).reg(0, 0x0101).go();
    assert_eq!((rig.s.r[0], rig.nzvc()), (0x0080, 0b0011));
}

#[test]
fn movb_extends_and_bisb_does_not() {
    assert_eq!(Rig::new(&[0xD080]).reg(2, 0x12FF).go().s.r[0], 0xFFFF);
    let rig = Rig::new(&[0xE080]).reg(2, 0x1280).reg(0, 0x3401).go();
    assert_eq!(rig.s.r[0], 0x3481);
}

#[test]
fn clr_keeps_c_on_a_register_alone() {
    assert_eq!(Rig::new(&[0x0B40]).flags(1).go().nzvc(), 0b0101);
    let rig = Rig::new(&[0x0B48]).flags(1).reg(0, 0x0300).go();
    assert_eq!(rig.nzvc(), 0b0100);
}

#[test]
fn div() {
    let rig = Rig::new(&[0x7E02]).reg(0, 5).reg(2, 3);
    let good = rig.clone().reg(1, 2).go();
    assert_eq!((good.s.r[0], good.s.r[1]), (0xAAAC, 1));
    assert_eq!(good.nzvc(), 0b1001);
    let large = rig.clone().reg(1, 3).go();
    assert_eq!((large.s.r[0], large.s.r[1], large.nzvc()), (5, 3, 0b0010));
    let zero = rig.reg(1, 2).reg(2, 0).go();
    assert_eq!((zero.s.r[0], zero.s.r[1], zero.nzvc()), (5, 2, 0b0011));
}

#[test]
fn sob() {
    let rig = Rig::new(&[0x7643]);
    assert_eq!(rig.clone().reg(1, 2).go().pc(), 0x00FC);
    assert_eq!(rig.clone().reg(1, 1).go().pc(), 0x0102);
    let wrapped = rig.reg(1, 0).go();
    assert_eq!((wrapped.pc(), wrapped.s.r[1]), (0x00FC, 0xFFFF));
}

#[test]
fn branches() {
    assert_eq!(Rig::new(&[0x01FE]).go().pc(), 0x00FE);
    assert_eq!(Rig::new(&[0x017F]).go().pc(), 0x0200);
}

#[test]
fn a_bus_error() {
    let rig = Rig::new(&[0xB240])
        .reg(0, 0x4321)
        .reg(1, 0x8000)
        .i2()
        .word(0x12, 0x0300)
        .unfit(0x80)
        .step(0, Cause::BlankInOpCode);
    assert_eq!((rig.s.r[0], rig.pc(), rig.s.i2), (0x4321, 0x0300, false));
    assert_eq!((rig.at(0x01FE), rig.at(0x01FC)), (0x5F00, 0x0102));
    assert_eq!(rig.sp(), 0x01FC);
}

#[test]
fn an_increment_before_a_bus_error_is_dropped() {
    let rig = Rig::new(&[0xB44A])
        .reg(1, 0x0300)
        .reg(2, 0x8000)
        .unfit(0x80)
        .step(0, Cause::BlankInOpCode);
    assert_eq!(rig.s.r[1], 0x0300);
}

#[test]
fn texts() {
    let lines: [(&[u16], &str); 2] = [
        (&[0x15C0, 0x0005], "ADD #0005,R0"),
        (&[0xB7E6, 0x1234], "MOV @#1234,-(SP)"),
    ];
    for (words, line) in lines {
        let mut text = [b'x'; 32];
        let (length, taken) = write_text(Level::BASE, words, &mut text).unwrap();
        assert_eq!(&text[..length], line.as_bytes());
        assert!(text[length..].iter().all(|&byte| byte == b'x'));
        assert_eq!(taken, words.len());
        let mut back = [0; 3];
        assert_eq!(
            read_text(Level::BASE, line.as_bytes(), &mut back),
            Ok(words.len())
        );
        assert_eq!(&back[..words.len()], words);
    }
}

#[test]
fn jsr_on_a_register_is_illegal() {
    let rig = Rig::new(&[0x7140]).word(0x1C, 0x0400).i2().go();
    assert_eq!((rig.pc(), rig.s.i2, rig.nzvc()), (0x0400, false, 0b1001));
    assert_eq!((rig.at(0x01FE), rig.at(0x01FC)), (0x1F09, 0x0102));
}

#[test]
fn i0_goes_by_its_table() {
    let rig = Rig::new(&[])
        .i2()
        .flags(0b0101)
        .word(0x28, 0x0400)
        .word(0x0406, 0x0010)
        .step(0x0300 | I0, Cause::I0);
    assert_eq!((rig.pc(), rig.s.i2), (0x0416, false));
    assert_eq!((rig.at(0x01FE), rig.at(0x01FC)), (0x1F05, 0x0100));
}

// ---- one step ----

#[test]
fn a_push_at_0000_writes_fffe() {
    let rig = Rig::new(&[0x0006]).reg(6, 0).word(0x2C, 0x0600).go();
    assert_eq!((rig.at(0xFFFE), rig.at(0xFFFC)), (0x0F00, 0x0102));
    assert_eq!((rig.sp(), rig.pc()), (0xFFFC, 0x0600));
}

#[test]
fn i3_comes_first_and_keeps_i2() {
    for mode in [Mode::Running, Mode::Waiting] {
        let rig = Rig::new(&[])
            .i2()
            .mode(mode)
            .word(0x16, 0x0500)
            .step(I3 | I1 | I0, Cause::I3);
        assert_eq!((rig.pc(), rig.s.i2, rig.sp()), (0x0500, true, 0x0200));
        assert_eq!(rig.s.mode, Mode::Running);
    }
}

#[test]
fn i1_goes_through_2a_or_14() {
    let rig = Rig::new(&[])
        .i2()
        .mode(Mode::Waiting)
        .word(0x2A, 0x0500)
        .word(0x14, 0x0600);
    let clock = rig.clone().step(I1 | I0, Cause::I1);
    assert_eq!((clock.pc(), clock.at(0x01FE)), (0x0500, 0x1F00));
    assert_eq!((clock.s.mode, clock.s.i2), (Mode::Running, false));
    let fail = rig.step(I1 | POWER_FAIL, Cause::I1);
    assert_eq!((fail.pc(), fail.at(0x01FE)), (0x0600, 0x9F00));
    assert_eq!(fail.at(0x01FC), 0x0100);
}

#[test]
fn without_i2_neither_i0_nor_i1_is_heard() {
    Rig::new(&[0x0000]).step(I1 | I0, Cause::OpCode);
    let rig = Rig::new(&[]).mode(Mode::Waiting);
    let same = rig.clone().step(I1 | I0, Cause::Nothing);
    assert_eq!(same.s, rig.s);
}

#[test]
fn power_fail_alone_interrupts_nothing() {
    let rig = Rig::new(&[0x0000]).i2().step(POWER_FAIL, Cause::OpCode);
    assert_eq!(rig.pc(), 0x0102);
    Rig::new(&[])
        .i2()
        .mode(Mode::Waiting)
        .step(POWER_FAIL, Cause::Nothing);
}

#[test]
fn halts_and_their_ends() {
    let rig = Rig::new(&[0x0004]).i2().word(0x16, 0x0700);
    let fail = rig.clone().step(POWER_FAIL, Cause::OpCode);
    assert_eq!((fail.s.mode, fail.s.i2), (Mode::HaltedPowerFail, false));
    let still = fail.step(POWER_FAIL | I3, Cause::Nothing);
    assert_eq!(still.s.mode, Mode::HaltedPowerFail);
    let on = still.step(0, Cause::OpCode);
    assert_eq!((on.s.mode, on.pc()), (Mode::Running, 0x0700));

    let switch = rig.go();
    assert_eq!((switch.s.mode, switch.s.i2), (Mode::HaltedSwitch, false));
    let still = switch.step(I1 | I0 | POWER_FAIL, Cause::Nothing);
    assert_eq!(still.s.mode, Mode::HaltedSwitch);
    let on = still.step(I3 | POWER_FAIL, Cause::I3);
    assert_eq!(
        (on.s.mode, on.pc(), on.sp()),
        (Mode::Running, 0x0700, 0x0200)
    );
}

#[test]
fn wfi_waits_with_i2_set() {
    let rig = Rig::new(&[0x0007]).go();
    assert_eq!(
        (rig.s.mode, rig.s.i2, rig.pc()),
        (Mode::Waiting, true, 0x0102)
    );
    let rig = rig.step(0, Cause::Nothing).word(0x2A, 0x0500);
    let rig = rig.step(I1, Cause::I1);
    assert_eq!((rig.s.mode, rig.at(0x01FC)), (Mode::Running, 0x0102));
}

#[test]
fn ien_and_ids_act_at_once() {
    let rig = Rig::new(&[0x0002]).word(0x2A, 0x0500).go();
    assert!(rig.s.i2);
    rig.step(I1, Cause::I1);
    assert!(!Rig::new(&[0x0003]).i2().go().s.i2);
}

#[test]
fn reserved_op_codes() {
    for op in [0x0E00, 0x0FFF, 0xF000, 0xFFFF] {
        let rig = Rig::new(&[op])
            .i2()
            .flags(0b0110)
            .word(0x1A, 0x0700)
            .step(POWER_FAIL, Cause::OpCode);
        assert_eq!((rig.pc(), rig.s.i2, rig.nzvc()), (0x0700, false, 0b0110));
        assert_eq!((rig.at(0x01FE), rig.at(0x01FC)), (0x9F06, 0x0102));
    }
}

// ---- bus errors and locks ----

#[test]
fn a_second_blank_locks() {
    let rig = Rig::new(&[0x000A])
        .reg(6, 0x0302)
        .reg(5, 0x5555)
        .word(0x0300, 0x1111)
        .unfit(0x02)
        .i2();
    let locked = rig.clone().step(0, Cause::Locked);
    let expected = State {
        mode: Mode::Locked,
        ..rig.s
    };
    assert_eq!(locked.s, expected);
    assert_eq!(locked.image, rig.image);
    let again = locked.clone().step(I3, Cause::Locked);
    assert_eq!((again.s, again.image), (locked.s, locked.image));
}

#[test]
fn all_writes_before_a_blank_are_taken_back() {
    let rig = Rig::new(&[0x000A])
        .reg(6, 0x0304)
        .reg(5, 0x5555)
        .reg(4, 0x4444)
        .word(0x02FE, 0xAAAA)
        .word(0x12, 0x0600)
        .unfit(0x02)
        .flags(0b0010)
        .step(POWER_FAIL, Cause::BlankInOpCode);
    assert_eq!((rig.at(0x0302), rig.at(0x0300)), (0xCF02, 0x0102));
    assert_eq!(
        (rig.sp(), rig.pc(), rig.at(0x02FE)),
        (0x0300, 0x0600, 0xAAAA)
    );
}

#[test]
fn a_blank_fetch_pushes_pc_plus_2() {
    let rig = Rig::new(&[])
        .reg(7, 0x8001)
        .word(0x12, 0x0600)
        .unfit(0x80)
        .step(0, Cause::BlankInOpCode);
    assert_eq!((rig.at(0x01FC), rig.pc()), (0x8003, 0x0600));
}

#[test]
fn a_blank_in_the_table_of_i0_pushes_pc() {
    let rig = Rig::new(&[])
        .i2()
        .mode(Mode::Waiting)
        .word(0x12, 0x0600)
        .word(0x28, 0x8000)
        .unfit(0x80)
        .step(I0, Cause::BlankInInterrupt);
    assert_eq!((rig.at(0x01FE), rig.at(0x01FC)), (0x5F00, 0x0100));
    assert_eq!((rig.pc(), rig.sp(), rig.s.i2), (0x0600, 0x01FC, false));
    assert_eq!(rig.s.mode, Mode::Running);
}

#[test]
fn without_page_0_a_restart_locks() {
    let rig = Rig::new(&[]).unfit(0);
    rig.clone().step(I3, Cause::Locked);
    rig.clone().mode(Mode::HaltedSwitch).step(I3, Cause::Locked);
    let end = rig.mode(Mode::HaltedPowerFail).step(0, Cause::Locked);
    assert_eq!((end.s.mode, end.pc()), (Mode::Locked, 0x0100));
}

// ---- power-up, run, refusals ----

#[test]
fn power_up_takes_pc_from_16() {
    let mut rig = Rig::new(&[]).word(0x16, 0x1235);
    let up = power_up(&BASE, &mut rig.image, &rig.map).unwrap();
    let mut expected = State::cleared();
    expected.r[PC] = 0x1235;
    assert_eq!(up, expected);
    let mut rig = rig.unfit(0);
    let locked = State {
        mode: Mode::Locked,
        ..State::cleared()
    };
    assert_eq!(power_up(&BASE, &mut rig.image, &rig.map), Ok(locked));
}

#[test]
fn a_run_counts_its_blanks() {
    // 0100: TST @#8000, then the handler TST @#8000 at 0300, BR back to it.
    let mut rig = Rig::new(&[0x0000, 0x0A9F, 0x8000])
        .word(0x12, 0x0300)
        .word(0x0300, 0x0A9F)
        .word(0x0302, 0x8000)
        .unfit(0x80);
    let ran = run(&BASE, rig.s, &mut rig.image, &rig.map, &[0; 4]).unwrap();
    assert_eq!((ran.blanks, ran.first), (3, Some(1)));
    let none = run(&BASE, rig.s, &mut rig.image, &rig.map, &[]).unwrap();
    assert_eq!((none.state, none.blanks, none.first), (rig.s, 0, None));
}

#[test]
fn the_step_that_locks_is_no_blank() {
    let mut rig = Rig::new(&[]).reg(7, 0x8000).unfit(0x80).unfit(0);
    let ran = run(&BASE, rig.s, &mut rig.image, &rig.map, &[0; 3]).unwrap();
    assert_eq!((ran.state.mode, ran.blanks), (Mode::Locked, 0));
}

#[test]
fn refusals_in_order() {
    let rig = Rig::new(&[0x000A]);
    let mut image = rig.image.clone();
    let long = vec![0x0004; 4_097];
    let mut bad_map = rig.map;
    bad_map[255] = 2;
    let short = &rig.map[1..];
    assert_eq!(power_up(&BASE, &mut image[1..], short), Err(Refusal(1)));
    assert_eq!(power_up(&BASE, &mut image, short), Err(Refusal(2)));
    assert_eq!(power_up(&BASE, &mut image, &bad_map), Err(Refusal(3)));
    assert_eq!(
        step(&BASE, rig.s, &mut image[1..], short, 4),
        Err(Refusal(1))
    );
    assert_eq!(step(&BASE, rig.s, &mut image, short, 4), Err(Refusal(2)));
    assert_eq!(step(&BASE, rig.s, &mut image, &bad_map, 4), Err(Refusal(3)));
    assert_eq!(step(&BASE, rig.s, &mut image, &rig.map, 4), Err(Refusal(5)));
    let refused = |image: &mut [u8], map: &[u8], lines: &[u16]| {
        run(&BASE, rig.s, image, map, lines).map(|ran| ran.blanks)
    };
    assert_eq!(refused(&mut image[1..], short, &long), Err(Refusal(1)));
    assert_eq!(refused(&mut image, short, &long), Err(Refusal(2)));
    assert_eq!(refused(&mut image, &bad_map, &long), Err(Refusal(3)));
    assert_eq!(refused(&mut image, &rig.map, &long), Err(Refusal(4)));
    for bit in [2, 4, 5, 6, 12, 13, 14, 15] {
        let lines = [0, 1 << bit];
        assert_eq!(refused(&mut image, &rig.map, &lines), Err(Refusal(5)));
    }
    assert_eq!(image, rig.image);
    assert_eq!(
        refused(&mut image, &rig.map, &long[..4_096]),
        Err(Refusal(5))
    );
    assert!(refused(&mut image, &rig.map, &[0x0F8B; 4_096]).is_ok());
}

#[test]
fn the_formats_by_high_byte() {
    // Reserved are 0E, 0F and F0 to FF, and nothing else traps through 1A.
    for high in 0..=0xFF_u16 {
        let rig = Rig::new(&[high << 8 | 0x08])
            .word(0x1A, 0x0700)
            .word(0x1C, 0x0700)
            .go();
        let reserved = matches!(high, 0x0E | 0x0F | 0xF0..=0xFF);
        assert_eq!(rig.pc() == 0x0700, reserved, "{high:02X}");
    }
}
