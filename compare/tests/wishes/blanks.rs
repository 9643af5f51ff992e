//! Wishes 4 and 5: the blank's address, and pages that can't be written.

use super::common::{Rig, I0, I3};
use wd16::bench::{bench, load};
use wd16::{run, Cause, Level, Mode, Refusal};

/// The trap's routine at 0600.
fn rig(words: &[u16]) -> Rig {
    Rig::new(words).all().word(0x12, 0x0600)
}

#[test]
fn the_address_is_the_one_formed() {
    let told = |rig: Rig, at: u16| {
        rig.blank(0, Cause::BlankInOpCode, Some(at));
    };
    // TST @R1, INC (R1)+ and CLRB -(R1) at an odd address; MOV @#8001,R0.
    told(rig(&[0x0A89]).reg(1, 0x8001).unfit(0x80), 0x8001);
    told(rig(&[0x0C91]).reg(1, 0x80FF).unfit(0x80), 0x80FF);
    told(rig(&[0x8B61]).reg(1, 0x8002).unfit(0x80), 0x8001);
    told(rig(&[0xB7C0, 0x8001]).unfit(0x80), 0x8001);
    // The op code itself, at an odd PC; the word after it; a pointer.
    told(rig(&[]).reg(7, 0x8001).unfit(0x80), 0x8001);
    told(
        rig(&[]).reg(7, 0x7FFE).word(0x7FFE, 0x0AB9).unfit(0x80),
        0x8000,
    );
    told(rig(&[0x0A99]).reg(1, 0x8003).unfit(0x80), 0x8003);
    told(
        rig(&[0x0A99])
            .reg(1, 0x0300)
            .word(0x0300, 0x8005)
            .unfit(0x80),
        0x8005,
    );
}

#[test]
fn the_first_reached_is_told() {
    let both = |words: &[u16]| rig(words).unfit(0x80).unfit(0x90);
    // MOV @R1,@R2: the source. JSR R1,@(R2)+ with a blank stack: the pointer.
    let told = |rig: Rig, at: u16| {
        rig.blank(0, Cause::BlankInOpCode, Some(at));
    };
    told(both(&[0xB24A]).reg(1, 0x8000).reg(2, 0x9000), 0x8000);
    told(rig(&[0x705A]).reg(2, 0x8000).unfit(0x80), 0x8000);
    // TCALL @R1: the operand, then the table.
    told(rig(&[0x0D89]).reg(1, 0x8000).unfit(0x80), 0x8000);
    told(
        rig(&[0x0D89])
            .reg(1, 0x0300)
            .word(0x0300, 0x7F00)
            .unfit(0x80),
        0x8002,
    );
    // PRTN R1: the word at SP moves it to 8000.
    told(rig(&[0x0029]).word(0x0200, 0x3F00).unfit(0x80), 0x8000);
    // I0's table entry, at an odd address.
    let i0 = rig(&[]).i2().word(0x28, 0x8001).unfit(0x80);
    i0.blank(0x0300 | I0, Cause::BlankInInterrupt, Some(0x8007));
}

#[test]
fn a_lock_up_tells_the_dropped_work_once() {
    // TST @R1 with R1 and SP blank.
    let rig = rig(&[0x0A89])
        .reg(1, 0x8000)
        .reg(6, 0x9000)
        .unfit(0x80)
        .unfit(0x8F);
    let locked = rig.blank(0, Cause::Locked, Some(0x8000));
    locked.blank(0, Cause::Locked, None);
}

#[test]
fn a_run_tells_the_address_of_its_first_blank() {
    let mut rig = rig(&[0x0000, 0x0A9F, 0x8001])
        .word(0x0600, 0x0A9F)
        .word(0x0602, 0x9000);
    rig = rig.unfit(0x80).unfit(0x90);
    let ran = run(&rig.setup, rig.s, &mut rig.image, &rig.map, &[0; 4]).unwrap();
    assert_eq!(
        (ran.blanks, ran.first, ran.address),
        (3, Some(1), Some(0x8001))
    );
    rig.setup.level = Level(3);
    let ran = run(&rig.setup, rig.s, &mut rig.image, &rig.map, &[0; 4]).unwrap();
    assert_eq!((ran.first, ran.address), (Some(1), None));
    let mut locks = Rig::new(&[]).all().unfit(0x01).unfit(0x00);
    let ran = run(&locks.setup, locks.s, &mut locks.image, &locks.map, &[0; 2]).unwrap();
    assert_eq!(
        (ran.state.mode, ran.first, ran.address),
        (Mode::Locked, None, None)
    );
}

// ---- read-only pages ----

#[test]
fn a_write_to_a_read_only_page_is_a_blank() {
    let at_r1 = |op: u16| rig(&[op]).reg(1, 0x8000).page(0x80, 2).word(0x8000, 0x1234);
    // INC @R1; BISB R2,@R1 of nothing; SET's like, and XCH R2,@R1.
    for op in [0x0C89, 0xE089, 0x0B09, 0x7889] {
        let rig = at_r1(op).blank(0, Cause::BlankInOpCode, Some(0x8000));
        assert_eq!(rig.at(0x8000), 0x1234);
    }
    // TST, CMP @R1,R2, CMPB R2,@R1, BIT, LSTS, MUL, DIV, ASH, ASHC, JSR R2,@R1, LEA R2,@R1.
    for op in [
        0x0A89, 0x9242, 0xC089, 0xA089, 0x8D09, 0x7C89, 0x7E89, 0x7489, 0x7A89, 0x7089, 0x7289,
    ] {
        at_r1(op).go();
    }
}

#[test]
fn op_codes_and_vectors_may_lie_there() {
    let rig = rig(&[0x0006])
        .word(0x2C, 0x0500)
        .page(0x00, 2)
        .page(0x05, 2)
        .go();
    assert_eq!(rig.pc(), 0x0500);
    assert_eq!(rig.go().pc(), 0x0502);
    // MSKO R1 writes 2E.
    Rig::new(&[0x0021])
        .all()
        .word(0x12, 0x0600)
        .page(0, 2)
        .blank(0, Cause::BlankInOpCode, Some(0x2E));
}

#[test]
fn a_stack_there_locks() {
    let rig = rig(&[0x0006]).page(0x01, 2);
    rig.blank(0, Cause::Locked, Some(0x01FE));
}

#[test]
fn a_map_byte_over_2_is_refused() {
    let mut rig = Rig::new(&[]).all().page(7, 2);
    assert!(run(&rig.setup, rig.s, &mut rig.image, &rig.map, &[]).is_ok());
    rig.setup.level = Level(4);
    let refused = run(&rig.setup, rig.s, &mut rig.image, &rig.map, &[]);
    assert_eq!(refused, Err(Refusal(3)));
    let mut rig = Rig::new(&[]).all().page(7, 3);
    let refused = run(&rig.setup, rig.s, &mut rig.image, &rig.map, &[]);
    assert_eq!(refused, Err(Refusal(3)));
}

/// Pages 05 and 80, a word in 05, no lines, then these bytes.
fn job(fourth: &[u8]) -> Vec<u8> {
    let three = [2, 0, 0x05, 0x80, 1, 0, 0x00, 0x05, 0x34, 0x12, 0, 0];
    [&three[..], fourth].concat()
}

#[test]
fn a_fourth_section() {
    let map_of = |bytes: &[u8]| load(Level::ALL, bytes).map(|job| (job.map[0x05], job.map[0x80]));
    assert_eq!(map_of(&job(&[])), Ok((1, 1)));
    assert_eq!(map_of(&job(&[0, 0])), Ok((1, 1)));
    assert_eq!(map_of(&job(&[1, 0, 0x05])), Ok((2, 1)));
    assert_eq!(map_of(&job(&[2, 0, 0x05, 0x80])), Ok((2, 2)));
    let refusals: [(&[u8], u8); 10] = [
        (&[1], 11),
        (&[1, 0], 11),
        (&[2, 0, 0x05], 11),
        (&[1, 1], 12),
        (&[2, 0, 0x05, 0x05], 22),
        (&[2, 0, 0x80, 0x05], 22),
        (&[1, 0, 0x06], 22),
        (&[2, 0, 0x06], 22),
        (&[0, 0, 9], 20),
        (&[1, 0, 0x05, 9], 20),
    ];
    for (fourth, number) in refusals {
        assert_eq!(map_of(&job(fourth)), Err(Refusal(number)), "{fourth:?}");
    }
    assert_eq!(bench(Level(4), &job(&[0, 0])), "REFUSED 20");
}

#[test]
fn bench_prints_the_address() {
    let bytes: Vec<u8> = [
        &[1, 0, 0, 4, 0][..],
        &[0x12, 0, 0x90, 0, 0x16, 0, 0x80, 0],
        &[0x80, 0, 0x9F, 0x0A, 0x82, 0, 0x01, 0x80],
        &[1, 0, 0, 0],
    ]
    .concat();
    // SP 0000 would push at FFFE: the step locks, and tells none.
    let line = "0000 0000 0000 0000 0000 0000 0000 0080 0F00 4 0000 ---- ----";
    assert_eq!(bench(Level::ALL, &bytes), line);
    assert_eq!(bench(Level(3), &bytes), line[..line.len() - 5]);
    let fitted = [&[2, 0, 0, 0xFF], &bytes[3..]].concat();
    let line = "0000 0000 0000 0000 0000 0000 FFFC 0090 0F00 0 0001 0000 8001";
    assert_eq!(bench(Level::ALL, &fitted), line);
}

#[test]
fn i3_without_page_0_locks_and_tells_16() {
    let rig = Rig::new(&[]).all().unfit(0);
    rig.blank(I3, Cause::Locked, Some(0x16));
}
