//! Odd corners, one test for each reading of document 01 and the manual.

mod common;

use common::{Rig, I0, I3, POWER_FAIL};
use wd16::{Cause, Mode};

// ---- order of reads and writes ----

#[test]
fn rtn() {
    let rig = Rig::new(&[0x001D]).reg(5, 0x0400).word(0x0200, 0x1234).go();
    assert_eq!((rig.pc(), rig.s.r[5], rig.sp()), (0x0400, 0x1234, 0x0202));
    let sp = Rig::new(&[0x001E]).word(0x0200, 0x1234).go();
    assert_eq!((sp.pc(), sp.sp()), (0x0200, 0x1236));
    let pc = Rig::new(&[0x001F]).word(0x0200, 0x1234).go();
    assert_eq!((pc.pc(), pc.sp()), (0x1234, 0x0202));
}

#[test]
fn prtn() {
    let rig = Rig::new(&[0x002D])
        .reg(5, 0x0400)
        .word(0x0200, 3)
        .word(0x0206, 0x1234)
        .go();
    assert_eq!((rig.pc(), rig.s.r[5], rig.sp()), (0x0400, 0x1234, 0x0208));
    let sp = Rig::new(&[0x002E])
        .word(0x0200, 3)
        .word(0x0206, 0x1234)
        .go();
    assert_eq!((sp.pc(), sp.sp()), (0x0206, 0x1236));
}

#[test]
fn jsr_stores_the_moved_register() {
    // JSR SP,@R0 stores the moved SP.
    let sp = Rig::new(&[0x7188]).reg(0, 0x0400).go();
    assert_eq!((sp.at(0x01FE), sp.sp(), sp.pc()), (0x01FE, 0x0102, 0x0400));
    // JSR R1,(R1)+ stores R1 incremented.
    let moved = Rig::new(&[0x7051]).reg(1, 0x0400).go();
    assert_eq!((moved.at(0x01FE), moved.s.r[1]), (0x0402, 0x0102));
    assert_eq!(moved.pc(), 0x0400);
    // JSR PC,(PC)+ at X pushes X+4 and goes to X+2.
    let pc = Rig::new(&[0x71D7]).go();
    assert_eq!((pc.at(0x01FE), pc.pc()), (0x0104, 0x0102));
}

#[test]
fn lea_comes_after_the_increment() {
    let rig = Rig::new(&[0x7251]).reg(1, 0x0400).go();
    assert_eq!((rig.s.r[1], rig.nzvc()), (0x0400, 0b1001));
}

#[test]
fn jsr_and_lea_read_nothing_at_the_address() {
    let lea = Rig::new(&[0x7249]).reg(1, 0x8000).unfit(0x80).go();
    assert_eq!(lea.s.r[1], 0x8000);
    let jsr = Rig::new(&[0x71C9]).reg(1, 0x8000).unfit(0x80).go();
    assert_eq!(jsr.pc(), 0x8000);
}

#[test]
fn tcall_reads_its_operand_before_the_push() {
    // TCALL SP: 0102 + 0200 is the table address.
    let rig = Rig::new(&[0x0D86]).word(0x0302, 0x0010).go();
    assert_eq!((rig.pc(), rig.at(0x01FE)), (0x0312, 0x0102));
    // TCALL 0000(R0): PC is the one after both words.
    let rig = Rig::new(&[0x0DB0, 0x0000])
        .reg(0, 0x0400)
        .word(0x0400, 0x0020)
        .word(0x0124, 0x0003)
        .go();
    assert_eq!((rig.pc(), rig.at(0x01FE)), (0x0127, 0x0104));
}

#[test]
fn tcall_sees_its_push() {
    // The table entry is the pushed word: 0102 + 00FC is 01FE.
    let rig = Rig::new(&[0x0D80]).reg(0, 0x00FC).go();
    assert_eq!(rig.pc(), 0x01FE + 0x0102);
}

#[test]
fn tjmp_pc_is_pc_plus_pc() {
    let rig = Rig::new(&[0x0DC7]).word(0x0204, 0x0006).go();
    assert_eq!((rig.pc(), rig.sp()), (0x020A, 0x0200));
}

#[test]
fn mov_sp_to_its_own_stack_stores_the_old_sp() {
    let rig = Rig::new(&[0xB1A6]).go();
    assert_eq!((rig.at(0x01FE), rig.sp()), (0x0200, 0x01FE));
}

#[test]
fn pc_as_source_and_destination() {
    // MOV PC,@#0300: the source is X+2.
    let source = Rig::new(&[0xB1DF, 0x0300]).go();
    assert_eq!(source.at(0x0300), 0x0102);
    // MOV @PC,@#0300: the word at X+2, which is the address.
    let at_pc = Rig::new(&[0xB3DF, 0x0300]).go();
    assert_eq!(at_pc.at(0x0300), 0x0300);
    // ADD #0010,PC: the destination is X+4.
    let destination = Rig::new(&[0x15C7, 0x0010]).go();
    assert_eq!(destination.pc(), 0x0114);
    // MOV 0010(PC),0020(PC): X+4 plus 10 goes to X+6 plus 20.
    let both = Rig::new(&[0xBDF7, 0x0010, 0x0020])
        .word(0x0114, 0x1234)
        .go();
    assert_eq!((both.at(0x0126), both.pc()), (0x1234, 0x0106));
}

#[test]
fn div_sees_its_register_moved() {
    // DIV R0,(R1)+: R1 is REG+1, 0002 at 0300 divides 0302:R0 not.
    let rig = Rig::new(&[0x7E11]).reg(1, 0x0300).word(0x0300, 2).go();
    assert_eq!((rig.s.r[1], rig.nzvc()), (0x0302, 0b0010));
    // With a divisor of 0303 it is 0302:0000.
    let rig = Rig::new(&[0x7E11]).reg(1, 0x0300).word(0x0300, 0x0303).go();
    let pair = 0x0302_0000_u32;
    assert_eq!(u32::from(rig.s.r[0]), pair / 0x0303);
    assert_eq!(u32::from(rig.s.r[1]), pair % 0x0303);
}

#[test]
fn xch_reads_both_then_writes_both() {
    let rig = Rig::new(&[0x7851]).reg(1, 0x0300).word(0x0300, 0x1234).go();
    assert_eq!((rig.s.r[1], rig.at(0x0300)), (0x1234, 0x0302));
    let registers = Rig::new(&[0x7801]).reg(0, 1).reg(1, 2).go();
    assert_eq!((registers.s.r[0], registers.s.r[1]), (2, 1));
}

#[test]
fn the_register_after_pc_is_r0() {
    // MUL PC,R1: 0102 * 0200 is 00020400.
    let rig = Rig::new(&[0x7DC1]).reg(1, 0x0200).go();
    assert_eq!((rig.pc(), rig.s.r[0]), (0x0400, 0x0002));
    // SDLA SP,01: PC:SP is 01020200.
    let rig = Rig::new(&[0x8FB0]).go();
    assert_eq!((rig.sp(), rig.pc()), (0x0400, 0x0204));
    // ASHC PC,R1 with 1: R0:PC.
    let rig = Rig::new(&[0x7BC1]).reg(0, 1).reg(1, 1).go();
    assert_eq!((rig.pc(), rig.s.r[0]), (0x0204, 2));
}

#[test]
fn sob_pc_takes_one_from_pc() {
    assert_eq!(Rig::new(&[0x77C3]).go().pc(), 0x00FB);
}

#[test]
fn svcb_and_svcc() {
    for (op, location) in [(0x0085, 0x24), (0x00C5, 0x26)] {
        let rig = Rig::new(&[op]).word(location, 0x0600).i2().flags(0b0110);
        let numbered = |rig: Rig, register: usize| rig.reg(register, 0x1000 + register as u16);
        let rig = (0..6).fold(rig, numbered).go();
        assert_eq!((rig.pc(), rig.sp(), rig.s.i2), (0x0600, 0x01EE, true));
        let stack: Vec<u16> = (0..9).map(|place| rig.at(0x01EE + 2 * place)).collect();
        let expected = [
            0x1000, 0x1001, 0x1002, 0x1003, 0x1004, 0x1005, 0x0200, 0x0102, 0x1F06,
        ];
        assert_eq!(stack, expected);
        assert_eq!((rig.s.r[1], rig.s.r[5]), (0x01FC, 0x000A));
        assert_eq!((rig.s.r[0], rig.s.r[4]), (0x1000, 0x1004));
    }
}

#[test]
fn svcb_reads_its_vector_after_the_pushes() {
    // SP 0036: PS 34, PC 32, SP 30, R5 2E, R4 2C, R3 2A, R2 28, R1 26, R0 24.
    let rig = Rig::new(&[0x0080]).reg(6, 0x0036).reg(0, 0x0777).go();
    assert_eq!(rig.pc(), 0x0777);
}

#[test]
fn svca_goes_by_its_table_and_keeps_i2() {
    let rig = Rig::new(&[0x0043])
        .i2()
        .word(0x22, 0x0401)
        .word(0x0406, 0x0010)
        .go();
    assert_eq!((rig.pc(), rig.s.i2), (0x0417, true));
    assert_eq!((rig.at(0x01FE), rig.at(0x01FC)), (0x1F00, 0x0102));
}

#[test]
fn bpt_keeps_i2() {
    let rig = Rig::new(&[0x0006]).i2().word(0x2C, 0x0600).go();
    assert_eq!((rig.pc(), rig.s.i2), (0x0600, true));
}

#[test]
fn savs() {
    let rig = Rig::new(&[0x000B, 0x0F01])
        .word(0x2E, 0x1000)
        .reg(0, 7)
        .go();
    assert_eq!((rig.pc(), rig.sp(), rig.s.i2), (0x0104, 0x01F2, true));
    assert_eq!((rig.at(0x01F2), rig.at(0x01F4)), (0x1000, 7));
    assert_eq!(rig.at(0x2E), 0x1F01);
    // R0 is pushed onto 2E and read back from there.
    let over = Rig::new(&[0x000B, 0x0F01])
        .reg(6, 0x003A)
        .reg(0, 0x00F0)
        .go();
    assert_eq!((over.at(0x2C), over.at(0x2E)), (0x00F0, 0x0FF1));
    // The mask's own push goes onto 2E.
    let onto = Rig::new(&[0x000B, 0x0F01])
        .reg(6, 0x003C)
        .word(0x2E, 0x2000)
        .go();
    assert_eq!((onto.sp(), onto.at(0x2E)), (0x002E, 0x2F01));
}

#[test]
fn rsts_writes_the_mask_before_the_other_pops() {
    // SP 002C: the mask 1234 goes to 2E, from where R0 is popped.
    let rig = Rig::new(&[0x000E])
        .reg(6, 0x002C)
        .word(0x2C, 0x1234)
        .word(0x3A, 0x0700)
        .word(0x3C, 0x100A)
        .go();
    assert_eq!((rig.at(0x2E), rig.s.r[0]), (0x1234, 0x1234));
    assert_eq!((rig.pc(), rig.sp()), (0x0700, 0x003E));
    assert_eq!((rig.s.i2, rig.nzvc()), (true, 0b1010));
}

#[test]
fn rsvc_skips_the_saved_sp() {
    let rig = Rig::new(&[0x0008])
        .word(0x0200, 0x1111)
        .word(0x020C, 0x9999)
        .word(0x020E, 0x0700)
        .word(0x0210, 0x0F05)
        .go();
    assert_eq!((rig.s.r[0], rig.pc(), rig.sp()), (0x1111, 0x0700, 0x0212));
    assert_eq!(rig.nzvc(), 0b0101);
}

#[test]
fn returns_from_traps_and_subroutines() {
    let rig = |op: u16| {
        Rig::new(&[op])
            .i2()
            .word(0x020C, 0x0700)
            .word(0x020E, 0x0F05)
            .go()
    };
    let rrtt = rig(0x0009);
    assert_eq!((rrtt.pc(), rrtt.sp(), rrtt.s.i2), (0x0700, 0x0210, false));
    let rrtn = rig(0x000D);
    assert_eq!((rrtn.pc(), rrtn.sp(), rrtn.s.i2), (0x0700, 0x020E, true));
    let rest = rig(0x000C);
    assert_eq!((rest.pc(), rest.sp()), (0x0102, 0x020C));
}

#[test]
fn vectors_see_the_pushes() {
    // BPT with SP 0030: PC goes to 2C, where the vector is read.
    let rig = Rig::new(&[0x0006]).reg(6, 0x0030).go();
    assert_eq!(rig.pc(), 0x0102);
}

#[test]
fn iak_reads_the_device_code_of_the_line() {
    let rig = Rig::new(&[0x0013]).step(0x0F00, Cause::OpCode);
    assert_eq!(rig.s.r[3], 0x001E);
    let heard = Rig::new(&[0x0013]).step(0x0300 | I0, Cause::OpCode);
    assert_eq!(heard.s.r[3], 6);
}

#[test]
fn msko_stores_the_register() {
    let rig = Rig::new(&[0x0027]).go();
    assert_eq!((rig.at(0x2E), rig.nzvc()), (0x0102, 0));
}

// ---- odd addresses, bytes ----

#[test]
fn registers_keep_bit_0() {
    let rig = Rig::new(&[0x0C93]).reg(7, 0x0101).reg(3, 0x0301).go();
    assert_eq!((rig.pc(), rig.s.r[3], rig.at(0x0300)), (0x0103, 0x0303, 1));
    let push = Rig::new(&[0x0006]).reg(7, 0x0101).reg(6, 0x0201).go();
    assert_eq!((push.at(0x01FE), push.at(0x01FC)), (0x0F00, 0x0103));
    assert_eq!(push.sp(), 0x01FD);
}

#[test]
fn a_pointer_keeps_bit_0_for_a_byte() {
    // INCB @(R1)+
    let rig = Rig::new(&[0x8C99]).reg(1, 0x0300).word(0x0300, 0x0401).go();
    assert_eq!((rig.at(0x0400), rig.s.r[1]), (0x0100, 0x0302));
}

#[test]
fn an_odd_table_address_is_added_odd() {
    let rig = Rig::new(&[])
        .i2()
        .word(0x28, 0x0401)
        .word(0x0400, 0x0010)
        .step(I0, Cause::I0);
    assert_eq!(rig.pc(), 0x0411);
}

#[test]
fn strides() {
    // LSTS, SSTS, ADC and SBC are word op codes.
    for op in [0x8D00, 0x8D40, 0x8D80, 0x8DC0] {
        assert_eq!(Rig::new(&[op | 0x11]).reg(1, 0x0300).go().s.r[1], 0x0302);
    }
    // Byte op codes move by 1, by 2 for SP.
    assert_eq!(Rig::new(&[0x8C91]).reg(1, 0x0300).go().s.r[1], 0x0301);
    assert_eq!(Rig::new(&[0x8CA1]).reg(1, 0x0300).go().s.r[1], 0x02FF);
    assert_eq!(Rig::new(&[0x8CA6]).go().sp(), 0x01FE);
    // ASH and ASHC move by 1; XCH, MUL, DIV and LEA by 2.
    for (op, by) in [
        (0x7400, 1),
        (0x7A00, 1),
        (0x7800, 2),
        (0x7C00, 2),
        (0x7E00, 2),
    ] {
        let rig = Rig::new(&[op | 0x15]).reg(5, 0x0300).go();
        assert_eq!(rig.s.r[5], 0x0300 + by);
    }
    assert_eq!(Rig::new(&[0x7215]).reg(5, 0x0300).go().s.r[5], 0x0302);
}

#[test]
fn a_byte_at_an_odd_sp_is_the_odd_byte() {
    let rig = Rig::new(&[0xD581]).reg(6, 0x0201).word(0x0200, 0x7F00).go();
    assert_eq!((rig.s.r[1], rig.sp()), (0x007F, 0x0203));
}

#[test]
fn a_byte_op_code_changes_the_lower_byte_alone() {
    let rig = Rig::new(&[0x8C00]).reg(0, 0x1234).go();
    assert_eq!((rig.s.r[0], rig.nzvc()), (0x12CB, 0b1001));
}

// ---- indicators ----

#[test]
fn overflow_of_bytes() {
    assert_eq!(Rig::new(&[0x8C40]).reg(0, 0x1280).go().nzvc(), 0b1011); // NEGB
    assert_eq!(Rig::new(&[0x8C40]).reg(0, 0x1200).go().nzvc(), 0b0100);
    assert_eq!(Rig::new(&[0x8C80]).reg(0, 0x127F).go().nzvc(), 0b1010); // INCB
    assert_eq!(Rig::new(&[0x8C80]).reg(0, 0x12FF).go().nzvc(), 0b0101);
    assert_eq!(Rig::new(&[0x8CC0]).reg(0, 0x1280).go().nzvc(), 0b0010); // DECB
    assert_eq!(Rig::new(&[0x8CC0]).reg(0, 0x1200).go().nzvc(), 0b1001);
}

#[test]
fn overflow_of_words() {
    assert_eq!(Rig::new(&[0x0C40]).reg(0, 0x8000).go().nzvc(), 0b1011); // NEG
    assert_eq!(Rig::new(&[0x0C40]).go().nzvc(), 0b0100);
    assert_eq!(Rig::new(&[0x0C80]).reg(0, 0x7FFF).go().nzvc(), 0b1010); // INC
    assert_eq!(Rig::new(&[0x0C80]).reg(0, 0xFFFF).go().nzvc(), 0b0101);
    assert_eq!(Rig::new(&[0x0CC0]).reg(0, 0x8000).go().nzvc(), 0b0010); // DEC
    assert_eq!(Rig::new(&[0x0CC0]).go().nzvc(), 0b1001);
    assert_eq!(Rig::new(&[0x0D00]).reg(0, 0x7FFF).go().nzvc(), 0b1010); // IW2
    assert_eq!(Rig::new(&[0x0D00]).reg(0, 0xFFFE).go().nzvc(), 0b0101);
    assert_eq!(Rig::new(&[0x0D00]).reg(0, 0xFFFF).go().nzvc(), 0b0001);
}

#[test]
fn clrb_resets_c_in_every_mode() {
    let rig = Rig::new(&[0x8B40]).flags(0b1011).reg(0, 0x1234).go();
    assert_eq!((rig.s.r[0], rig.nzvc()), (0x1200, 0b0100));
}

#[test]
fn compare_and_subtract() {
    // CMP R0,R1: 8000 - 0001, V: the result has the sign of (DST).
    let cmp = Rig::new(&[0x9001]).reg(0, 0x8000).reg(1, 1).go();
    assert_eq!(cmp.nzvc(), 0b0010);
    // CMPB R0,R1: 7F - 80.
    let cmpb = Rig::new(&[0xC001]).reg(0, 0x7F).reg(1, 0x80).go();
    assert_eq!(cmpb.nzvc(), 0b1011);
    // SUB R0,R1: 0001 - 8000.
    let sub = Rig::new(&[0x2001]).reg(0, 0x8000).reg(1, 1).go();
    assert_eq!((sub.s.r[1], sub.nzvc()), (0x8001, 0b1011));
}

#[test]
fn adc_and_sbc_set_v_from_n_and_c() {
    let adc = Rig::new(&[0x8D80]).flags(1).reg(0, 0x7FFF).go();
    assert_eq!((adc.s.r[0], adc.nzvc()), (0x8000, 0b1010));
    let carry = Rig::new(&[0x8D80]).flags(1).reg(0, 0xFFFF).go();
    assert_eq!((carry.s.r[0], carry.nzvc()), (0, 0b0111));
    let sbc = Rig::new(&[0x8DC0]).flags(1).go();
    assert_eq!((sbc.s.r[0], sbc.nzvc()), (0xFFFF, 0b1001));
}

#[test]
fn swab_and_swad() {
    let swab = Rig::new(&[0x0BC0]).flags(0b0011).reg(0, 0x8012).go();
    assert_eq!((swab.s.r[0], swab.nzvc()), (0x1280, 0b1001));
    let low = Rig::new(&[0x0BC0]).reg(0, 0x0012).go();
    assert_eq!((low.s.r[0], low.nzvc()), (0x1200, 0b0100));
    let swad = Rig::new(&[0x8BC0]).flags(1).reg(0, 0x1218).go();
    assert_eq!((swad.s.r[0], swad.nzvc()), (0x1281, 0b1010));
}

#[test]
fn sxt_and_ssts_keep_the_indicators() {
    let sxt = Rig::new(&[0x0D40]).flags(0b1101).go();
    assert_eq!((sxt.s.r[0], sxt.nzvc()), (0xFFFF, 0b1101));
    let ssts = Rig::new(&[0x8D40])
        .flags(0b0101)
        .i2()
        .step(POWER_FAIL, Cause::OpCode);
    assert_eq!((ssts.s.r[0], ssts.nzvc()), (0x9F05, 0b0101));
}

#[test]
fn lsts_loads_indicators_and_i2() {
    let rig = Rig::new(&[0x8D00]).reg(0, 0x100A).go();
    assert_eq!((rig.nzvc(), rig.s.i2), (0b1010, true));
    let rig = Rig::new(&[0x8D00]).reg(0, 0xEFF5).i2().go();
    assert_eq!((rig.nzvc(), rig.s.i2), (0b0101, false));
}

#[test]
fn large_counts_of_ash() {
    let ash = |value: u16, count: u16| {
        let rig = Rig::new(&[0x7402]).reg(0, value).reg(2, count).go();
        (rig.s.r[0], rig.nzvc())
    };
    assert_eq!(ash(0x0001, 16), (0, 0b0111));
    assert_eq!(ash(0xFFFF, 17), (0, 0b0100));
    assert_eq!(ash(0xFFFF, 127), (0, 0b0100));
    assert_eq!(ash(0x8000, 0x00F0), (0xFFFF, 0b1001));
    assert_eq!(ash(0x8000, 0x0080), (0xFFFF, 0b1001));
    assert_eq!(ash(0x7FFF, 0x0080), (0, 0b0100));
    assert_eq!(ash(0x1234, 0xFF00), (0x1234, 0b1001));
}

#[test]
fn ashc_works_on_the_pair() {
    let ashc = |high: u16, low: u16, count: u16| {
        let rig = Rig::new(&[0x7A02])
            .reg(0, low)
            .reg(1, high)
            .reg(2, count)
            .go();
        (rig.s.r[1], rig.s.r[0], rig.nzvc())
    };
    assert_eq!(ashc(0x4000, 0x8000, 1), (0x8001, 0x0000, 0b1000));
    assert_eq!(ashc(0x8000, 0x0001, 0xFF), (0xC000, 0x0000, 0b1001));
    assert_eq!(ashc(0x0000, 0x0001, 32), (0, 0, 0b0101));
    assert_eq!(ashc(0x0000, 0x0001, 33), (0, 0, 0b0100));
    assert_eq!(ashc(0x1234, 0x5678, 0), (0x1234, 0x5678, 0b1001));
}

#[test]
fn double_shifts() {
    let shift = |op: u16, high: u16, low: u16, flags: u16| {
        let rig = Rig::new(&[op]).reg(0, low).reg(1, high).flags(flags).go();
        (rig.s.r[1], rig.s.r[0], rig.nzvc())
    };
    // SDRR, SDLR, SDRA, SDLA by one bit.
    assert_eq!(shift(0x8E00, 0x0001, 0x0001, 1), (0x8000, 0x8000, 0b0011));
    assert_eq!(shift(0x8E10, 0x8000, 0x8000, 1), (0x0001, 0x0001, 0b0011));
    assert_eq!(shift(0x8E20, 0x8001, 0x0100, 0), (0xC000, 0x8080, 0b1010));
    assert_eq!(shift(0x8E30, 0x4000, 0x0001, 1), (0x8000, 0x0002, 0b1010));
    // Z of a right shift is of REG alone, of a left shift of REG+1 alone.
    assert_eq!(shift(0x8E20, 0x0002, 0x0000, 0), (0x0001, 0x0000, 0b0100));
    assert_eq!(shift(0x8E30, 0x0000, 0x0001, 0), (0x0000, 0x0002, 0b0100));
}

#[test]
fn single_rotates_go_through_c() {
    let rig = Rig::new(&[0x880F]).reg(0, 0x8001).go();
    // 16 places of a 17-bit rotate are one place the other way.
    assert_eq!((rig.s.r[0], rig.nzvc()), (0x0002, 0b0011));
}

#[test]
fn mul() {
    let mul = |x: u16, y: u16| {
        let rig = Rig::new(&[0x7C02]).reg(0, x).reg(2, y).go();
        (rig.s.r[1], rig.s.r[0], rig.nzvc())
    };
    assert_eq!(mul(0xFFFF, 0xFFFF), (0xFFFE, 0x0001, 0b1001));
    assert_eq!(mul(0, 5), (0, 0, 0b0101));
    assert_eq!(mul(0x100, 0x100), (1, 0, 0b0001));
}

#[test]
fn a_bus_error_pushes_the_indicators_from_before() {
    // ASH presets, then its operand is blank.
    let rig = Rig::new(&[0x7409])
        .reg(1, 0x8000)
        .flags(0b0110)
        .word(0x12, 0x0600)
        .unfit(0x80)
        .step(0, Cause::BlankInOpCode);
    assert_eq!((rig.at(0x01FE), rig.nzvc()), (0x4F06, 0b0110));
}

// ---- XCT ----

/// XCT at 0100, the op code at 0400, PS on the stack.
fn traced(words: &[u16], ps: u16) -> Rig {
    let rig = Rig::new(&[0x0005])
        .word(0x0200, 0x0400)
        .word(0x0202, ps)
        .word(0x20, 0x0700)
        .word(0x1E, 0x0800)
        .word(0x1A, 0x0900)
        .word(0x1C, 0x0A00);
    words
        .iter()
        .zip((0x0400..).step_by(2))
        .fold(rig, |rig, (&word, at)| rig.word(at, word))
}

#[test]
fn xct_of_an_op_code() {
    // ADD #0001,R0 with C set in the popped PS; bit 12 is ignored.
    let rig = traced(&[0x15C0, 0x0001], 0x1001).go();
    assert_eq!((rig.s.r[0], rig.pc(), rig.sp()), (1, 0x0700, 0x0200));
    assert_eq!((rig.at(0x0202), rig.at(0x0200)), (0x0F00, 0x0404));
    assert!(!rig.s.i2);
    let kept = traced(&[0x0000], 0x000F).i2().go();
    assert_eq!((kept.at(0x0202), kept.s.i2), (0x1F0F, true));
}

#[test]
fn xct_pushes_the_i2_that_the_op_code_left() {
    let rig = traced(&[0x0002], 0).go();
    assert_eq!((rig.at(0x0202), rig.s.i2), (0x1F00, true));
    let rig = traced(&[0x0003], 0).i2().go();
    assert_eq!((rig.at(0x0202), rig.s.i2), (0x0F00, false));
}

#[test]
fn xct_of_what_it_does_not_execute() {
    for op in [0x0004, 0x0005, 0x0006, 0x0007] {
        let rig = traced(&[op], 0x000A).i2().go();
        assert_eq!((rig.pc(), rig.sp(), rig.s.i2), (0x0800, 0x0200, false));
        assert_eq!((rig.at(0x0202), rig.at(0x0200)), (0x1F0A, 0x0402));
        assert_eq!((rig.nzvc(), rig.s.mode), (0b1010, Mode::Running));
    }
}

#[test]
fn xct_of_reserved_and_illegal() {
    let reserved = traced(&[0xF123], 0x0006).i2().go();
    assert_eq!((reserved.pc(), reserved.sp()), (0x0900, 0x0200));
    assert_eq!((reserved.at(0x0202), reserved.at(0x0200)), (0x1F06, 0x0402));
    assert!(!reserved.s.i2);
    let illegal = traced(&[0x7200], 0x0006).go();
    assert_eq!((illegal.pc(), illegal.sp()), (0x0A00, 0x0200));
    assert_eq!((illegal.at(0x0202), illegal.at(0x0200)), (0x0F09, 0x0402));
}

#[test]
fn xct_of_svcb_saves_the_sp_after_the_pops() {
    let rig = traced(&[0x0081], 0).word(0x24, 0x0B00).go();
    // The frame of nine words below 0204, then PS and the PC 0B00.
    assert_eq!((rig.pc(), rig.sp()), (0x0700, 0x01EE));
    assert_eq!((rig.at(0x01F0), rig.at(0x01EE)), (0x0F00, 0x0B00));
    assert_eq!(
        (rig.at(0x0202), rig.at(0x0200), rig.at(0x01FE)),
        (0x0F00, 0x0402, 0x0204)
    );
    assert_eq!((rig.s.r[1], rig.s.r[5]), (0x0200, 2));
}

#[test]
fn a_blank_in_xct_drops_all_of_it() {
    let rig = traced(&[0x0C89], 0x000F)
        .reg(1, 0x8000)
        .unfit(0x80)
        .word(0x12, 0x0600)
        .step(0, Cause::BlankInOpCode);
    assert_eq!((rig.pc(), rig.sp(), rig.nzvc()), (0x0600, 0x01FC, 0));
    assert_eq!((rig.at(0x01FE), rig.at(0x01FC)), (0x4F00, 0x0102));
    assert_eq!((rig.at(0x0200), rig.at(0x0202)), (0x0400, 0x000F));
}

// ---- modes ----

#[test]
fn i3_is_cause_1_at_every_line_word() {
    let rig = Rig::new(&[]).word(0x16, 0x0500);
    let rig = rig.step(I3, Cause::I3).step(I3, Cause::I3);
    assert_eq!(rig.pc(), 0x0500);
}

#[test]
fn halt_and_wfi_are_cause_0() {
    Rig::new(&[0x0004]).step(POWER_FAIL, Cause::OpCode);
    Rig::new(&[0x0007]).step(0, Cause::OpCode);
}

/// High bytes of branches, and whether each is taken at these indicators, bits of N Z V C.
fn conditions(flags: u16) -> [(u16, bool); 7] {
    let [n, z, v, c] = [8, 4, 2, 1].map(|bit| flags & bit != 0);
    [
        (0x02, !z),
        (0x04, !(n ^ v)),
        (0x06, !(z | (n ^ v))),
        (0x80, !n),
        (0x82, !(c | z)),
        (0x84, !v),
        (0x86, !c),
    ]
}

#[test]
fn branch_conditions() {
    let all = (0..16).flat_map(|flags| conditions(flags).map(|condition| (flags, condition)));
    for (flags, (high, taken)) in all {
        let goes = |op: u16| Rig::new(&[op << 8 | 0x10]).flags(flags).go().pc() == 0x0122;
        assert_eq!(goes(high), taken);
        assert_eq!(goes(high + 1), !taken);
    }
}
