//! The eight addressing modes, and operands of a word or a byte.

use crate::board::Blank;
use crate::cpu::Cpu;
use crate::state::{PC, SP};

/// Where an operand is.
#[derive(Clone, Copy, PartialEq, Eq, Debug)]
pub(crate) enum Place {
    Register(u16),
    Memory(u16),
}

impl Place {
    #[inline]
    pub(crate) fn is_register(self) -> bool {
        matches!(self, Place::Register(_))
    }
}

/// How far an autoincrement or autodecrement moves: `SIZE` bytes, but 2 for SP and PC.
#[inline]
fn stride<const SIZE: u16>(register: usize) -> u16 {
    if register == SP || register == PC {
        2
    } else {
        SIZE
    }
}

impl Cpu<'_> {
    /// The word at PC; PC moves on.
    #[inline]
    pub(crate) fn fetch(&mut self) -> Result<u16, Blank> {
        let word = self.board.read_word(self.s.r[PC])?;
        self.s.r[PC] = self.s.r[PC].wrapping_add(2);
        Ok(word)
    }

    /// Decodes bits 5 to 0 of `field`, mode and register, for operands of `SIZE` bytes.
    #[inline(always)]
    pub(crate) fn decode<const SIZE: u16>(&mut self, field: u16) -> Result<Place, Blank> {
        let register = usize::from(field & 7);
        let place = match field >> 3 & 7 {
            0 => Place::Register(field & 7),
            1 => Place::Memory(self.s.r[register]),
            2 => Place::Memory(self.step_up(register, stride::<SIZE>(register))),
            3 => {
                let pointer = self.step_up(register, 2);
                Place::Memory(self.board.read_word(pointer)?)
            }
            4 => Place::Memory(self.step_down(register, stride::<SIZE>(register))),
            5 => {
                let pointer = self.step_down(register, 2);
                Place::Memory(self.board.read_word(pointer)?)
            }
            6 => Place::Memory(self.indexed(register)?),
            _ => {
                let pointer = self.indexed(register)?;
                Place::Memory(self.board.read_word(pointer)?)
            }
        };
        Ok(place)
    }

    /// The register before it is moved up.
    #[inline]
    fn step_up(&mut self, register: usize, by: u16) -> u16 {
        let address = self.s.r[register];
        self.s.r[register] = address.wrapping_add(by);
        address
    }

    /// The register after it is moved down.
    #[inline]
    fn step_down(&mut self, register: usize, by: u16) -> u16 {
        let address = self.s.r[register].wrapping_sub(by);
        self.s.r[register] = address;
        address
    }

    /// The next word plus the register; PC is the one after that word.
    #[inline]
    fn indexed(&mut self, register: usize) -> Result<u16, Blank> {
        let offset = self.fetch()?;
        Ok(offset.wrapping_add(self.s.r[register]))
    }

    #[inline]
    pub(crate) fn load_word(&self, place: Place) -> Result<u16, Blank> {
        match place {
            Place::Register(register) => Ok(self.s.r[usize::from(register & 7)]),
            Place::Memory(address) => self.board.read_word(address),
        }
    }

    /// The lower byte of a register, or the byte of memory.
    #[inline]
    pub(crate) fn load_byte(&self, place: Place) -> Result<u16, Blank> {
        match place {
            Place::Register(register) => Ok(self.s.r[usize::from(register & 7)] & 0xFF),
            Place::Memory(address) => Ok(u16::from(self.board.read_byte(address)?)),
        }
    }

    #[inline]
    pub(crate) fn store_word(&mut self, place: Place, value: u16) -> Result<(), Blank> {
        match place {
            Place::Register(register) => {
                self.s.r[usize::from(register & 7)] = value;
                Ok(())
            }
            Place::Memory(address) => self.board.write_word(address, value),
        }
    }

    /// The upper byte of a register stays.
    #[inline]
    pub(crate) fn store_byte(&mut self, place: Place, value: u16) -> Result<(), Blank> {
        match place {
            Place::Register(register) => {
                let whole = &mut self.s.r[usize::from(register & 7)];
                *whole = *whole & 0xFF00 | value & 0x00FF;
                Ok(())
            }
            Place::Memory(address) => self.board.write_byte(address, value as u8),
        }
    }
}
