//! The op codes, format by format, in the manual's order.

use crate::alu::{self, Way};
use crate::board::Blank;
use crate::cpu::Cpu;
use crate::operand::Place;
use crate::state::{Flags, Mode, PC, SP};

/// Fixed locations of page 0.
pub(crate) mod location {
    /// R0 to R5, SP, PC and PS, of the power-up and halt options.
    pub fn saved() -> impl Iterator<Item = u16> {
        (0x00..0x12).step_by(2)
    }

    pub const BUS_ERROR: u16 = 0x12;
    pub const POWER_FAIL: u16 = 0x14;
    pub const RESTART: u16 = 0x16;
    pub const RESERVED: u16 = 0x1A;
    pub const ILLEGAL: u16 = 0x1C;
    pub const XCT_ERROR: u16 = 0x1E;
    pub const XCT_TRACE: u16 = 0x20;
    pub const SVCA_TABLE: u16 = 0x22;
    pub const SVCB: u16 = 0x24;
    pub const SVCC: u16 = 0x26;
    pub const I0_TABLE: u16 = 0x28;
    pub const I1: u16 = 0x2A;
    pub const BPT: u16 = 0x2C;
    pub const MASK: u16 = 0x2E;
}

/// Why an op code was not executed to its end.
#[derive(Clone, Copy, PartialEq, Eq, Debug)]
pub(crate) enum Stop {
    Blank(Blank),
    /// Reserved or illegal: the location that its trap goes through.
    Trap(u16),
}

impl From<Blank> for Stop {
    fn from(blank: Blank) -> Stop {
        Stop::Blank(blank)
    }
}

const HALT: u16 = 0x0004;
const XCT: u16 = 0x0005;
const BPT: u16 = 0x0006;
const WFI: u16 = 0x0007;

/// What the high byte of an op code tells.
#[derive(Clone, Copy, PartialEq, Eq, Debug)]
enum Class {
    /// Formats 1 to 4.
    Low,
    /// Format 5.
    Branch,
    /// Format 6, of three kinds.
    Immediate,
    SingleShift,
    DoubleShift,
    /// Format 7.
    SingleWord,
    SingleByte,
    Format9,
    /// Format 8, reserved where its microm isn't fitted.
    BlockMove,
    /// Format 10.
    DoubleWord,
    DoubleByte,
    /// Format 11, whose microm isn't fitted.
    Reserved,
}

const fn class(high: usize) -> Class {
    match high {
        0x00 => Class::Low,
        0x01..=0x07 | 0x80..=0x87 => Class::Branch,
        0x08 | 0x09 => Class::Immediate,
        0x88 | 0x89 => Class::SingleShift,
        0x8E | 0x8F => Class::DoubleShift,
        0x0A..=0x0D | 0x8D => Class::SingleWord,
        0x8A..=0x8C => Class::SingleByte,
        0x0E | 0x0F => Class::BlockMove,
        0x70..=0x7F => Class::Format9,
        0x10..=0x6F | 0x90..=0xBF => Class::DoubleWord,
        0xC0..=0xEF => Class::DoubleByte,
        _ => Class::Reserved,
    }
}

/// The class of each high byte.
static PLATE: [Class; 256] = {
    let mut plate = [Class::Reserved; 256];
    let mut high = 0;
    while high < 256 {
        plate[high] = class(high);
        high += 1;
    }
    plate
};

/// What preliminary decoding of format 9 presets.
const PRESET: Flags = Flags {
    n: true,
    z: false,
    v: false,
    c: true,
};

impl Cpu<'_> {
    // ---- the stack, the PS and PC ----

    /// The PS as it is formed now.
    pub(crate) fn ps(&self) -> u16 {
        self.s.quiet_ps(self.jumpers) | u16::from(self.line.power_fail()) << 15
    }

    #[inline]
    pub(crate) fn push(&mut self, value: u16) -> Result<(), Blank> {
        self.s.r[SP] = self.s.r[SP].wrapping_sub(2);
        self.board.write_word(self.s.r[SP], value)
    }

    /// Pushes the register as it is after SP has moved.
    #[inline]
    fn push_register(&mut self, register: usize) -> Result<(), Blank> {
        self.s.r[SP] = self.s.r[SP].wrapping_sub(2);
        self.board.write_word(self.s.r[SP], self.s.r[register])
    }

    #[inline]
    pub(crate) fn pop(&mut self) -> Result<u16, Blank> {
        let value = self.board.read_word(self.s.r[SP])?;
        self.s.r[SP] = self.s.r[SP].wrapping_add(2);
        Ok(value)
    }

    pub(crate) fn push_ps_and_pc(&mut self) -> Result<(), Blank> {
        self.push(self.ps())?;
        self.push_register(PC)
    }

    pub(crate) fn pc_from(&mut self, location: u16) -> Result<(), Blank> {
        self.s.r[PC] = self.board.read_word(location)?;
        Ok(())
    }

    /// PC goes to the table entry's address plus the entry.
    pub(crate) fn pc_by_table(&mut self, entry: u16) -> Result<(), Blank> {
        self.s.r[PC] = entry.wrapping_add(self.board.read_word(entry)?);
        Ok(())
    }

    /// The common routine of the error traps, which resets I2.
    fn trap(&mut self, location: u16) -> Result<(), Blank> {
        self.push_ps_and_pc()?;
        self.s.i2 = false;
        self.pc_from(location)
    }

    // ---- one op code ----

    /// Fetches the op code at PC and executes it, with its trap if it has one.
    /// Under XCT that op code is the one whose PC and PS are on the stack.
    #[inline]
    pub(crate) fn op_code(&mut self) -> Result<(), Blank> {
        let mut op = self.fetch()?;
        self.s.mark = false;
        let traced = op == XCT;
        if traced {
            op = self.fetch_traced()?;
            if matches!(op, HALT | XCT | BPT | WFI) {
                return self.trap(location::XCT_ERROR);
            }
        }
        match self.execute(op) {
            Ok(()) if traced => {
                self.push_ps_and_pc()?;
                self.pc_from(location::XCT_TRACE)
            }
            Ok(()) => Ok(()),
            Err(Stop::Blank(blank)) => Err(blank),
            Err(Stop::Trap(location)) => self.trap(location),
        }
    }

    /// Pops PC and PS, keeping I2, and fetches from there.
    fn fetch_traced(&mut self) -> Result<u16, Blank> {
        self.s.r[PC] = self.pop()?;
        self.s.flags = Flags::from_bits(self.pop()?);
        self.fetch()
    }

    /// Executes one op code other than XCT; PC is its address + 2.
    #[inline(always)]
    fn execute(&mut self, op: u16) -> Result<(), Stop> {
        match PLATE[usize::from(op >> 8)] {
            Class::Low => self.formats_1_to_4(op)?,
            Class::Branch => self.branch(op),
            Class::Immediate => self.immediate(op),
            Class::SingleShift => self.single_shift(op),
            Class::DoubleShift => self.double_shift(op),
            Class::SingleWord => self.single_word(op)?,
            Class::SingleByte => self.single_byte(op)?,
            Class::Format9 => self.format_9(op)?,
            Class::BlockMove if self.settings.microm => self.block_move(op)?,
            Class::DoubleWord => self.double_word(op)?,
            Class::DoubleByte => self.double_byte(op)?,
            Class::BlockMove | Class::Reserved => return Err(Stop::Trap(location::RESERVED)),
        }
        Ok(())
    }

    // ---- formats 1 to 4 ----

    fn formats_1_to_4(&mut self, op: u16) -> Result<(), Blank> {
        let register = usize::from(op & 7);
        match op {
            0x0000..=0x000F => self.format_1(op),
            // IAK
            0x0010..=0x0017 => {
                self.s.r[register] = self.line.acknowledge();
                Ok(())
            }
            // RTN
            0x0018..=0x001F => self.rtn(register),
            // MSKO
            0x0020..=0x0027 => self.board.write_word(location::MASK, self.s.r[register]),
            // PRTN
            0x0028..=0x002F => {
                let words = self.board.read_word(self.s.r[SP])?;
                self.s.r[SP] = self.s.r[SP].wrapping_add(words.wrapping_mul(2));
                self.rtn(register)
            }
            // LCC
            0x0030..=0x003F => {
                self.s.flags = Flags::from_bits(op);
                Ok(())
            }
            0x0040..=0x007F => self.svca(op & 0x3F),
            0x0080..=0x00BF => self.svcb_or_svcc(op & 0x3F, location::SVCB),
            _ => self.svcb_or_svcc(op & 0x3F, location::SVCC),
        }
    }

    fn format_1(&mut self, op: u16) -> Result<(), Blank> {
        match op {
            0x0 | 0x1 => {} // NOP, RESET
            0x2 => self.ien(),
            0x3 => self.s.i2 = false, // IDS
            HALT => self.halt(),
            XCT => unreachable!("XCT is taken before"),
            BPT => self.bpt()?,
            WFI => self.wfi(),
            0x8 => self.rsvc()?,
            0x9 => self.rrtt()?,
            0xA => self.save()?,
            0xB => self.savs()?,
            0xC => self.rest()?,
            0xD => self.rrtn()?,
            0xE => self.rsts()?,
            _ => self.rtt()?,
        }
        Ok(())
    }

    fn halt(&mut self) {
        self.s.i2 = false;
        self.s.mode = if self.line.power_fail() {
            Mode::HaltedPowerFail
        } else {
            Mode::HaltedSwitch
        };
    }

    fn bpt(&mut self) -> Result<(), Blank> {
        self.push_ps_and_pc()?;
        self.pc_from(location::BPT)
    }

    fn wfi(&mut self) {
        self.s.i2 = true;
        self.s.mode = Mode::Waiting;
    }

    /// R5 to R0 pushed.
    fn save(&mut self) -> Result<(), Blank> {
        for register in (0..=5).rev() {
            self.push_register(register)?;
        }
        Ok(())
    }

    fn savs(&mut self) -> Result<(), Blank> {
        let mask = self.fetch()?;
        self.save()?;
        self.s.r[SP] = self.s.r[SP].wrapping_sub(2);
        let old = self.board.read_word(location::MASK)?;
        self.board.write_word(self.s.r[SP], old)?;
        let old = self.board.read_word(location::MASK)?;
        self.board.write_word(location::MASK, old | mask)?;
        self.ien();
        Ok(())
    }

    /// I2 set; where it was clear, the next op code is the last that is not interrupted.
    fn ien(&mut self) {
        self.s.mark = self.late_ien && !self.s.i2;
        self.s.i2 = true;
    }

    /// R0 to R5 popped.
    fn rest(&mut self) -> Result<(), Blank> {
        for register in 0..=5 {
            self.s.r[register] = self.pop()?;
        }
        Ok(())
    }

    /// PC and PS popped.
    fn rtt(&mut self) -> Result<(), Blank> {
        self.s.r[PC] = self.pop()?;
        let ps = self.pop()?;
        self.s.load_ps(ps);
        Ok(())
    }

    /// The registers popped, the saved SP passed over, PC and PS popped.
    fn rsvc(&mut self) -> Result<(), Blank> {
        self.rest()?;
        self.s.r[SP] = self.s.r[SP].wrapping_add(2);
        self.rtt()
    }

    fn rrtt(&mut self) -> Result<(), Blank> {
        self.rest()?;
        self.rtt()
    }

    fn rrtn(&mut self) -> Result<(), Blank> {
        self.rest()?;
        self.s.r[PC] = self.pop()?;
        Ok(())
    }

    /// The mask back from the stack, then as RRTT.
    fn rsts(&mut self) -> Result<(), Blank> {
        let mask = self.board.read_word(self.s.r[SP])?;
        self.board.write_word(location::MASK, mask)?;
        self.s.r[SP] = self.s.r[SP].wrapping_add(2);
        self.rrtt()
    }

    /// PC <- REG; REG <- @SP; SP + 2.
    fn rtn(&mut self, register: usize) -> Result<(), Blank> {
        self.s.r[PC] = self.s.r[register];
        self.s.r[register] = self.board.read_word(self.s.r[SP])?;
        self.s.r[SP] = self.s.r[SP].wrapping_add(2);
        Ok(())
    }

    fn svca(&mut self, argument: u16) -> Result<(), Blank> {
        self.push_ps_and_pc()?;
        let table = self.board.read_word(location::SVCA_TABLE)?;
        self.pc_by_table(table.wrapping_add(argument * 2))
    }

    fn svcb_or_svcc(&mut self, argument: u16, location: u16) -> Result<(), Blank> {
        let sp_at_start = self.s.r[SP];
        self.push_ps_and_pc()?;
        let saved_pc_at = self.s.r[SP];
        self.push(sp_at_start)?;
        self.save()?;
        self.s.r[1] = saved_pc_at;
        self.s.r[5] = argument * 2;
        self.pc_from(location)
    }

    // ---- format 5 ----

    #[inline]
    fn branch(&mut self, op: u16) {
        let Flags { n, z, v, c } = self.s.flags;
        let taken = match op >> 8 {
            0x01 => true,             // BR
            0x02 => !z,               // BNE
            0x03 => z,                // BEQ
            0x04 => n == v,           // BGE
            0x05 => n != v,           // BLT
            0x06 => !(z || (n != v)), // BGT
            0x07 => z || (n != v),    // BLE
            0x80 => !n,               // BPL
            0x81 => n,                // BMI
            0x82 => !(c || z),        // BHI
            0x83 => c || z,           // BLOS
            0x84 => !v,               // BVC
            0x85 => v,                // BVS
            0x86 => !c,               // BCC
            _ => c,                   // BCS
        };
        if taken {
            let words = i16::from(op as u8 as i8);
            self.s.r[PC] = self.s.r[PC].wrapping_add_signed(words * 2);
        }
    }

    // ---- format 6 ----

    /// ADDI, SUBI, BICI, MOVI.
    #[inline]
    fn immediate(&mut self, op: u16) {
        let number = (op & 0xF) + 1;
        let register = usize::from(op >> 6 & 7);
        let x = self.s.r[register];
        let c = self.s.flags.c;
        let (y, flags) = match op >> 4 & 3 {
            0 => alu::add::<16>(number, x),        // ADDI
            1 => alu::subtract::<16>(x, number),   // SUBI
            2 => alu::logic::<16>(x & !number, c), // BICI
            _ => alu::logic::<16>(number, c),      // MOVI
        };
        self.s.r[register] = y;
        self.s.flags = flags;
    }

    /// SSRR, SSLR, SSRA, SSLA.
    fn single_shift(&mut self, op: u16) {
        let register = usize::from(op >> 6 & 7);
        let count = u32::from(op & 0xF) + 1;
        let (y, flags) =
            alu::shift_single::<16>(Way::of_shift(op), self.s.r[register], self.s.flags.c, count);
        self.s.r[register] = y;
        self.s.flags = flags;
    }

    /// SDRR, SDLR, SDRA, SDLA.
    fn double_shift(&mut self, op: u16) {
        let register = usize::from(op >> 6 & 7);
        let count = u32::from(op & 0xF) + 1;
        let (pair, flags) = alu::shift_double(
            Way::of_shift(op),
            self.pair(register),
            self.s.flags.c,
            count,
        );
        self.set_pair(register, pair);
        self.s.flags = flags;
    }

    /// REG+1:REG; the register after PC is R0.
    fn pair(&self, register: usize) -> u32 {
        u32::from(self.s.r[(register + 1) & 7]) << 16 | u32::from(self.s.r[register & 7])
    }

    fn set_pair(&mut self, register: usize, pair: u32) {
        self.s.r[register & 7] = pair as u16;
        self.s.r[(register + 1) & 7] = (pair >> 16) as u16;
    }

    // ---- format 7 ----

    /// 0A00 to 0DFF and 8D00 to 8DFF.
    #[inline]
    fn single_word(&mut self, op: u16) -> Result<(), Blank> {
        let place = self.decode::<2>(op)?;
        let x = self.load_word(place)?;
        let c = self.s.flags.c;
        let (y, flags) = match op & 0xFFC0 {
            0x0A00 => alu::shift_single::<16>(Way::RotateRight, x, c, 1), // ROR
            0x0A40 => alu::shift_single::<16>(Way::RotateLeft, x, c, 1),  // ROL
            0x0A80 => return self.only_flags(alu::logic::<16>(x, c)),     // TST
            0x0AC0 => alu::shift_single::<16>(Way::ArithmeticLeft, x, c, 1), // ASL
            0x0B00 => alu::logic::<16>(0xFFFF, c),                        // SET
            0x0B40 => alu::logic::<16>(0, c && place.is_register()),      // CLR
            0x0B80 => alu::shift_single::<16>(Way::ArithmeticRight, x, c, 1), // ASR
            0x0BC0 => alu::swap_bytes(x, c),                              // SWAB
            0x0C00 => alu::complement::<16>(x),                           // COM
            0x0C40 => alu::negate::<16>(x),                               // NEG
            0x0C80 => alu::increment::<16>(x),                            // INC
            0x0CC0 => alu::decrement::<16>(x),                            // DEC
            0x0D00 => alu::increment_by_two(x),                           // IW2
            0x0D40 => (if self.s.flags.n { 0xFFFF } else { 0 }, self.s.flags), // SXT
            0x0D80 => return self.tcall(x),
            0x0DC0 => return self.tjmp(x),
            0x8D00 => return self.lsts(x),
            0x8D40 => (self.ps(), self.s.flags), // SSTS
            0x8D80 => alu::add_carry(x, c),      // ADC
            _ => alu::subtract_carry(x, c),      // SBC
        };
        self.s.flags = flags;
        self.store_word(place, y)
    }

    /// The end of an op code that only tests.
    #[inline]
    fn only_flags(&mut self, (_, flags): (u16, Flags)) -> Result<(), Blank> {
        self.s.flags = flags;
        Ok(())
    }

    fn tcall(&mut self, offset: u16) -> Result<(), Blank> {
        self.push_register(PC)?;
        self.tjmp(offset)
    }

    fn tjmp(&mut self, offset: u16) -> Result<(), Blank> {
        self.pc_by_table(self.s.r[PC].wrapping_add(offset))
    }

    fn lsts(&mut self, ps: u16) -> Result<(), Blank> {
        self.s.load_ps(ps);
        Ok(())
    }

    /// 8A00 to 8CFF.
    #[inline]
    fn single_byte(&mut self, op: u16) -> Result<(), Blank> {
        let place = self.decode::<1>(op)?;
        let x = self.load_byte(place)?;
        let c = self.s.flags.c;
        let (y, flags) = match op & 0xFFC0 {
            0x8A00 => alu::shift_single::<8>(Way::RotateRight, x, c, 1), // RORB
            0x8A40 => alu::shift_single::<8>(Way::RotateLeft, x, c, 1),  // ROLB
            0x8A80 => return self.only_flags(alu::logic::<8>(x, c)),     // TSTB
            0x8AC0 => alu::shift_single::<8>(Way::ArithmeticLeft, x, c, 1), // ASLB
            0x8B00 => alu::logic::<8>(0xFF, c),                          // SETB
            0x8B40 => alu::logic::<8>(0, false),                         // CLRB
            0x8B80 => alu::shift_single::<8>(Way::ArithmeticRight, x, c, 1), // ASRB
            0x8BC0 => alu::swap_digits(x),                               // SWAD
            0x8C00 => alu::complement::<8>(x),                           // COMB
            0x8C40 => alu::negate::<8>(x),                               // NEGB
            0x8C80 => alu::increment::<8>(x),                            // INCB
            _ => alu::decrement::<8>(x),                                 // DECB
        };
        self.s.flags = flags;
        self.store_byte(place, y)
    }

    // ---- format 8 ----

    /// One element of a block move. PC is the op code's address again unless it was the last.
    #[inline(never)]
    fn block_move(&mut self, op: u16) -> Result<(), Blank> {
        let op_code_at = self.s.r[PC].wrapping_sub(2);
        let (from, to) = (usize::from(op >> 3 & 7), usize::from(op & 7));
        // MBWU, MBWD, MBBU, MBBD, MBWA, MBBA, MABW, MABB
        let (bytes, source_by, destination_by) = match op >> 6 & 7 {
            0 => (2, 2, 2),
            1 => (2, -2, -2),
            2 => (1, 1, 1),
            3 => (1, -1, -1),
            4 => (2, 2, 0),
            5 => (1, 1, 0),
            6 => (2, 0, 2),
            _ => (1, 0, 1),
        };
        let (source, destination) = (self.s.r[from], self.s.r[to]);
        if bytes == 2 {
            let word = self.board.read_word(source)?;
            self.board.write_word(destination, word)?;
        } else {
            let byte = self.board.read_byte(source)?;
            self.board.write_byte(destination, byte)?;
        }
        self.s.r[from] = self.s.r[from].wrapping_add_signed(source_by);
        self.s.r[to] = self.s.r[to].wrapping_add_signed(destination_by);
        self.s.r[0] = self.s.r[0].wrapping_sub(1);
        if self.s.r[0] != 0 {
            self.s.r[PC] = op_code_at;
        }
        Ok(())
    }

    // ---- format 9 ----

    #[inline]
    fn format_9(&mut self, op: u16) -> Result<(), Stop> {
        let register = usize::from(op >> 6 & 7);
        if op & 0xFE00 == 0x7600 {
            self.sob(register, op & 0x3F);
            return Ok(());
        }
        self.s.flags = PRESET;
        match op & 0xFE00 {
            0x7000 => self.jsr(register, op),
            // LEA
            0x7200 => {
                self.s.r[register] = self.address(op)?;
                Ok(())
            }
            0x7400 => Ok(self.ash(register, op)?),
            0x7800 => Ok(self.xch(register, op)?),
            0x7A00 => Ok(self.ashc(register, op)?),
            0x7C00 => Ok(self.mul(register, op)?),
            _ => Ok(self.div(register, op)?),
        }
    }

    #[inline]
    fn sob(&mut self, register: usize, offset: u16) {
        let left = self.s.r[register].wrapping_sub(1);
        self.s.r[register] = left;
        if left != 0 {
            self.s.r[PC] = self.s.r[PC].wrapping_sub(offset * 2);
        }
    }

    /// The address of the destination; a register has none.
    fn address(&mut self, op: u16) -> Result<u16, Stop> {
        match self.decode::<2>(op)? {
            Place::Memory(address) => Ok(address),
            Place::Register(_) => Err(Stop::Trap(location::ILLEGAL)),
        }
    }

    fn jsr(&mut self, register: usize, op: u16) -> Result<(), Stop> {
        let address = self.address(op)?;
        self.push_register(register)?;
        self.s.r[register] = self.s.r[PC];
        self.s.r[PC] = address;
        Ok(())
    }

    fn ash(&mut self, register: usize, op: u16) -> Result<(), Blank> {
        let place = self.decode::<1>(op)?;
        let count = self.load_byte(place)? as u8;
        if count != 0 {
            let (y, flags) = alu::arithmetic_shift(self.s.r[register], count);
            self.s.r[register] = y;
            self.s.flags = flags;
        }
        Ok(())
    }

    fn ashc(&mut self, register: usize, op: u16) -> Result<(), Blank> {
        let place = self.decode::<1>(op)?;
        let count = self.load_byte(place)? as u8;
        if count != 0 {
            let (pair, flags) = alu::arithmetic_shift_combined(self.pair(register), count);
            self.set_pair(register, pair);
            self.s.flags = flags;
        }
        Ok(())
    }

    fn xch(&mut self, register: usize, op: u16) -> Result<(), Blank> {
        let place = self.decode::<2>(op)?;
        let there = self.load_word(place)?;
        let here = self.s.r[register];
        self.store_word(place, here)?;
        self.s.r[register] = there;
        Ok(())
    }

    fn mul(&mut self, register: usize, op: u16) -> Result<(), Blank> {
        let place = self.decode::<2>(op)?;
        let factor = self.load_word(place)?;
        let (pair, flags) = alu::multiply(self.s.r[register], factor);
        self.set_pair(register, pair);
        self.s.flags = flags;
        Ok(())
    }

    fn div(&mut self, register: usize, op: u16) -> Result<(), Blank> {
        let place = self.decode::<2>(op)?;
        let divisor = self.load_word(place)?;
        let (answer, flags) = alu::divide(self.pair(register), divisor);
        if let Some((quotient, remainder)) = answer {
            self.s.r[register] = quotient;
            self.s.r[(register + 1) & 7] = remainder;
        }
        self.s.flags = flags;
        Ok(())
    }

    // ---- format 10 ----

    /// The nine word op codes.
    #[inline]
    fn double_word(&mut self, op: u16) -> Result<(), Blank> {
        let from = self.decode::<2>(op >> 6)?;
        let src = self.load_word(from)?;
        let to = self.decode::<2>(op)?;
        let c = self.s.flags.c;
        // MOV
        if op >> 12 == 0xB {
            self.s.flags = alu::logic::<16>(src, c).1;
            return self.store_word(to, src);
        }
        let dst = self.load_word(to)?;
        let (y, flags) = match op >> 12 {
            0x1 => alu::add::<16>(src, dst),                              // ADD
            0x2 => alu::subtract::<16>(dst, src),                         // SUB
            0x3 => alu::logic::<16>(src & dst, c),                        // AND
            0x4 => alu::logic::<16>(!src & dst, c),                       // BIC
            0x5 => alu::logic::<16>(src | dst, c),                        // BIS
            0x6 => alu::logic::<16>(src ^ dst, c),                        // XOR
            0x9 => return self.only_flags(alu::subtract::<16>(src, dst)), // CMP
            _ => return self.only_flags(alu::logic::<16>(src & dst, c)),  // BIT
        };
        self.s.flags = flags;
        self.store_word(to, y)
    }

    /// CMPB, MOVB, BISB.
    #[inline]
    fn double_byte(&mut self, op: u16) -> Result<(), Blank> {
        let from = self.decode::<1>(op >> 6)?;
        let src = self.load_byte(from)?;
        let to = self.decode::<1>(op)?;
        let c = self.s.flags.c;
        match op >> 12 {
            // CMPB
            0xC => {
                let dst = self.load_byte(to)?;
                self.only_flags(alu::subtract::<8>(src, dst))
            }
            // MOVB: a register gets the sign through bit 15
            0xD => {
                self.s.flags = alu::logic::<8>(src, c).1;
                match to {
                    Place::Register(register) => {
                        self.s.r[usize::from(register & 7)] = src as u8 as i8 as u16;
                        Ok(())
                    }
                    Place::Memory(address) => self.board.write_byte(address, src as u8),
                }
            }
            // BISB
            _ => {
                let dst = self.load_byte(to)?;
                let (y, flags) = alu::logic::<8>(src | dst, c);
                self.s.flags = flags;
                self.store_byte(to, y)
            }
        }
    }
}
