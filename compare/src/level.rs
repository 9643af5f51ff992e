//! Which wishes of document 02 are built, and what a board is set to.

use crate::Refusal;

/// The wishes that change what a call answers.
#[derive(Clone, Copy, PartialEq, Eq, Debug)]
#[repr(u8)]
pub enum Wish {
    BlockMoves = 1,
    LateIen = 3,
    BlankAddress = 4,
    ReadOnlyPages = 5,
    Listing = 6,
    Assembler = 7,
    Trace = 8,
    Columns = 9,
    NoCause7 = 10,
    Recorder = 13,
    Jumpers = 14,
}

/// The wishes from 1 to this number are built.
#[derive(Clone, Copy, PartialEq, Eq, PartialOrd, Ord, Debug)]
pub struct Level(pub u8);

impl Level {
    /// Document 01 alone.
    pub const BASE: Level = Level(0);
    /// All wishes.
    pub const ALL: Level = Level(14);
    /// What the proved code has: bench, speed and difftest are held to this one.
    pub const LANDED: Level = Level(14);

    /// The level that a program is told, or the landed one.
    pub fn told(argument: Option<&str>) -> Level {
        argument.map_or(Level::LANDED, |level| {
            Level(level.parse().expect("a level, as 14"))
        })
    }

    pub fn has(self, wish: Wish) -> bool {
        wish as u8 <= self.0
    }
}

/// What the board is set to.
#[derive(Clone, Copy, PartialEq, Eq, Debug)]
pub struct Settings {
    /// The third microm, of the block moves, is fitted.
    pub microm: bool,
    /// The numbers of the jumper pairs: 0 to 3 for 00, 01, 10, 11.
    pub power_up: u8,
    pub halt: u8,
    /// The external address register, of six bits.
    pub address: u8,
}

impl Settings {
    /// Bench's board.
    pub const BENCH: Settings = Settings {
        microm: true,
        power_up: 3,
        halt: 3,
        address: 0,
    };

    /// The jumpers as the PS shows them: halt in bits 11 and 10, power-up in 9 and 8.
    pub fn ps_bits(&self) -> u16 {
        u16::from(self.halt & 3) << 10 | u16::from(self.power_up & 3) << 8
    }

    /// C000 with bits 8 to 13 from the external address register.
    pub fn bootstrap(&self) -> u16 {
        0xC000 | u16::from(self.address & 0x3F) << 8
    }
}

/// What a processor is built as.
#[derive(Clone, Copy, PartialEq, Eq, Debug)]
pub struct Setup {
    pub level: Level,
    pub settings: Settings,
}

impl Setup {
    /// Bench's board at a level.
    pub const fn bench(level: Level) -> Setup {
        Setup {
            level,
            settings: Settings::BENCH,
        }
    }

    /// The settings that the level knows, the others as document 01 has them. Refusal 35.
    pub fn known(&self) -> Result<Settings, Refusal> {
        let Settings {
            microm,
            power_up,
            halt,
            address,
        } = self.settings;
        let microm = microm && self.level.has(Wish::BlockMoves);
        if !self.level.has(Wish::Jumpers) {
            return Ok(Settings {
                microm,
                ..Settings::BENCH
            });
        }
        if power_up > 3 || halt > 3 || address > 0x3F {
            return Err(Refusal(35));
        }
        Ok(Settings {
            microm,
            ..self.settings
        })
    }
}
