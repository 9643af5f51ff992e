//! A board to try op codes on.
#![allow(dead_code)]

use wd16::board::{IMAGE, PAGES};
use wd16::{step, Cause, Flags, Level, Mode, Settings, Setup, State, Stepped, PC, SP};

/// Bench's board by document 01 alone.
pub const BASE: Setup = Setup::bench(Level::BASE);

/// I0, I1, I3 and power fail in a line word.
pub const I0: u16 = 0x0001;
pub const I1: u16 = 0x0002;
pub const I3: u16 = 0x0008;
pub const POWER_FAIL: u16 = 0x0080;

/// State, image and map, all pages fitted, PC 0100, SP 0200.
#[derive(Clone)]
pub struct Rig {
    pub setup: Setup,
    pub s: State,
    pub image: Vec<u8>,
    pub map: [u8; PAGES],
}

impl Rig {
    /// The words stand from 0100 on, where PC points.
    pub fn new(words: &[u16]) -> Rig {
        let mut s = State::cleared();
        s.r[PC] = 0x0100;
        s.r[SP] = 0x0200;
        let rig = Rig {
            setup: BASE,
            s,
            image: vec![0; IMAGE],
            map: [1; PAGES],
        };
        words
            .iter()
            .zip((0x0100..).step_by(2))
            .fold(rig, |rig, (&word, at)| rig.word(at, word))
    }

    pub fn word(mut self, at: u16, value: u16) -> Rig {
        let at = usize::from(at & 0xFFFE);
        self.image[at..at + 2].copy_from_slice(&value.to_le_bytes());
        self
    }

    pub fn reg(mut self, register: usize, value: u16) -> Rig {
        self.s.r[register] = value;
        self
    }

    /// N Z V C as four bits.
    pub fn flags(mut self, bits: u16) -> Rig {
        self.s.flags = Flags::from_bits(bits);
        self
    }

    /// All wishes, with these jumpers and address register.
    pub fn jumpers(mut self, power_up: u8, halt: u8, address: u8) -> Rig {
        self.setup = Setup {
            level: Level::ALL,
            settings: Settings {
                microm: true,
                power_up,
                halt,
                address,
            },
        };
        self
    }

    /// All wishes, on bench's board.
    pub fn all(self) -> Rig {
        self.jumpers(3, 3, 0)
    }

    pub fn mark(mut self) -> Rig {
        self.s.mark = true;
        self
    }

    pub fn page(mut self, page: usize, value: u8) -> Rig {
        self.map[page] = value;
        self
    }

    pub fn i2(mut self) -> Rig {
        self.s.i2 = true;
        self
    }

    pub fn mode(mut self, mode: Mode) -> Rig {
        self.s.mode = mode;
        self
    }

    pub fn unfit(mut self, page: usize) -> Rig {
        self.map[page] = 0;
        self
    }

    /// One step on a line word that must have this cause.
    pub fn step(mut self, line: u16, cause: Cause) -> Rig {
        let stepped = self.stepped(line);
        assert_eq!(stepped.cause, cause);
        self.s = stepped.state;
        self
    }

    /// What a step comes to; the image changes.
    pub fn stepped(&mut self, line: u16) -> Stepped {
        let stepped = step(&self.setup, self.s, &mut self.image, &self.map, line);
        stepped.expect("a good call")
    }

    /// One step that must have this cause and tell this address.
    pub fn blank(mut self, line: u16, cause: Cause, told: Option<u16>) -> Rig {
        let stepped = self.stepped(line);
        assert_eq!((stepped.cause, stepped.blank), (cause, told));
        self.s = stepped.state;
        self
    }

    /// One op code on a quiet line.
    pub fn go(self) -> Rig {
        self.step(0, Cause::OpCode)
    }

    pub fn at(&self, address: u16) -> u16 {
        let at = usize::from(address & 0xFFFE);
        u16::from_le_bytes([self.image[at], self.image[at + 1]])
    }

    pub fn byte_at(&self, address: u16) -> u8 {
        self.image[usize::from(address)]
    }

    pub fn pc(&self) -> u16 {
        self.s.r[PC]
    }

    pub fn sp(&self) -> u16 {
        self.s.r[SP]
    }

    pub fn nzvc(&self) -> u16 {
        self.s.flags.bits()
    }
}
