//! The state of the processor, and the words that go with it.

/// Number of the stack pointer among the registers.
pub const SP: usize = 6;
/// Number of the program counter among the registers.
pub const PC: usize = 7;

/// What the processor is about; the numbers are document 01's.
#[derive(Clone, Copy, PartialEq, Eq, Debug)]
#[repr(u8)]
pub enum Mode {
    Running = 0,
    Waiting = 1,
    /// Halted until power fail is clear.
    HaltedPowerFail = 2,
    /// Halted until the switch, I3, is set.
    HaltedSwitch = 3,
    Locked = 4,
    /// Registers saved by the halt option, until I3 is clear (wish 14).
    Saved = 5,
}

impl Mode {
    /// The mode of that number.
    pub fn from_number(number: u8) -> Option<Mode> {
        match number {
            0 => Some(Mode::Running),
            1 => Some(Mode::Waiting),
            2 => Some(Mode::HaltedPowerFail),
            3 => Some(Mode::HaltedSwitch),
            4 => Some(Mode::Locked),
            5 => Some(Mode::Saved),
            _ => None,
        }
    }
}

/// What a step was; the numbers are document 01's. Its 7 is never given: a step that can't
/// fetch 16 can't fetch 12 either, and locks.
#[derive(Clone, Copy, PartialEq, Eq, Debug)]
#[repr(u8)]
pub enum Cause {
    /// An op code or its trap, or the end of a halt on power fail.
    OpCode = 0,
    /// I3, also as the end of a halt; registers saved or restored by the halt option.
    I3 = 1,
    I1 = 2,
    I0 = 3,
    /// Waiting or halted, and nothing to end it.
    Nothing = 4,
    BlankInOpCode = 5,
    BlankInInterrupt = 6,
    Locked = 8,
    /// A bus error while registers were saved (wish 14).
    BlankInSave = 9,
}

impl Cause {
    /// The cause of that number.
    pub fn from_number(number: u8) -> Option<Cause> {
        const ALL: [Cause; 9] = [
            Cause::OpCode,
            Cause::I3,
            Cause::I1,
            Cause::I0,
            Cause::Nothing,
            Cause::BlankInOpCode,
            Cause::BlankInInterrupt,
            Cause::Locked,
            Cause::BlankInSave,
        ];
        ALL.into_iter().find(|&cause| cause as u8 == number)
    }

    /// Whether a run counts the step as a blank.
    pub fn is_blank(self) -> bool {
        matches!(
            self,
            Cause::BlankInOpCode | Cause::BlankInInterrupt | Cause::BlankInSave
        )
    }
}

/// The indicators.
#[derive(Clone, Copy, PartialEq, Eq, Debug, Default)]
pub struct Flags {
    pub n: bool,
    pub z: bool,
    pub v: bool,
    pub c: bool,
}

impl Flags {
    /// The indicators of bits 3 to 0.
    pub fn from_bits(bits: u16) -> Flags {
        Flags {
            n: bits & 8 != 0,
            z: bits & 4 != 0,
            v: bits & 2 != 0,
            c: bits & 1 != 0,
        }
    }

    /// N 8, Z 4, V 2, C 1.
    pub fn bits(self) -> u16 {
        u16::from(self.n) << 3 | u16::from(self.z) << 2 | u16::from(self.v) << 1 | u16::from(self.c)
    }
}

/// The whole state.
#[derive(Clone, Copy, PartialEq, Eq, Debug)]
pub struct State {
    /// R0 to R5, SP, PC.
    pub r: [u16; 8],
    pub flags: Flags,
    /// The interrupt enable.
    pub i2: bool,
    pub mode: Mode,
    /// I2 was set by the last op code, and I0 and I1 wait for one more (wish 3).
    pub mark: bool,
}

impl State {
    /// Registers 0, indicators, I2 and the mark clear, running.
    pub fn cleared() -> State {
        State {
            r: [0; 8],
            flags: Flags::default(),
            i2: false,
            mode: Mode::Running,
            mark: false,
        }
    }

    /// The PS with bits 15 and 14 clear: the jumpers as it shows them, I2, the indicators.
    pub fn quiet_ps(&self, jumpers: u16) -> u16 {
        jumpers | u16::from(self.i2) << 12 | self.flags.bits()
    }

    /// What a popped PS sets: the indicators and I2.
    pub fn load_ps(&mut self, ps: u16) {
        self.flags = Flags::from_bits(ps);
        self.i2 = ps & 0x1000 != 0;
    }
}

/// A line word.
#[derive(Clone, Copy, PartialEq, Eq, Debug)]
pub struct Line(pub u16);

impl Line {
    /// The bits that a line word may not have set.
    pub const UNUSED: u16 = 0xF074;

    pub fn i0(self) -> bool {
        self.0 & 0x0001 != 0
    }

    pub fn i1(self) -> bool {
        self.0 & 0x0002 != 0
    }

    pub fn i3(self) -> bool {
        self.0 & 0x0008 != 0
    }

    pub fn power_fail(self) -> bool {
        self.0 & 0x0080 != 0
    }

    /// None of I0, I1 and I3.
    pub fn is_quiet(self) -> bool {
        self.0 & 0x000B == 0
    }

    /// The acknowledge code: twice the device code.
    pub fn acknowledge(self) -> u16 {
        (self.0 >> 8 & 0x000F) << 1
    }
}
