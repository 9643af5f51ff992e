//! The numeric op code table: names, base codes and operands. The interpreter
//! doesn't use it; the text and the generator of random cases do.

use crate::level::{Level, Wish};

/// What follows a mnemonic, and where it stands in the op code.
#[derive(Clone, Copy, PartialEq, Eq, Debug)]
pub enum Operands {
    Nothing,
    /// The mask in the next word.
    Mask,
    /// A register in bits 2 to 0.
    Register,
    /// One digit in bits 3 to 0.
    Digit,
    /// Six bits.
    Six,
    /// A displacement of eight bits.
    Displacement,
    /// A number, less one in bits 3 to 0, and a register in bits 8 to 6.
    NumberRegister,
    /// A register in bits 8 to 6 and a count, less one in bits 3 to 0.
    RegisterCount,
    /// A mode and register in bits 5 to 0.
    Destination,
    /// A register in bits 8 to 6 and an offset of six bits.
    RegisterOffset,
    /// A register in bits 8 to 6 and a mode and register in bits 5 to 0.
    RegisterDestination,
    /// The same, and mode 0 is illegal.
    RegisterAddress,
    /// Mode and register twice.
    SourceDestination,
    /// A register in bits 5 to 3 and one in bits 2 to 0, both holding addresses.
    TwoRegisters,
}

impl Operands {
    /// The bits of the op code that hold operands.
    pub fn bits(self) -> u16 {
        match self {
            Operands::Nothing | Operands::Mask => 0x0000,
            Operands::Register => 0x0007,
            Operands::Digit => 0x000F,
            Operands::Six | Operands::TwoRegisters => 0x003F,
            Operands::Displacement => 0x00FF,
            Operands::NumberRegister | Operands::RegisterCount => 0x01CF,
            Operands::Destination => 0x003F,
            Operands::RegisterOffset
            | Operands::RegisterDestination
            | Operands::RegisterAddress => 0x01FF,
            Operands::SourceDestination => 0x0FFF,
        }
    }
}

/// A row of the table.
#[derive(Clone, Copy, PartialEq, Eq, Debug)]
pub struct Row {
    pub base: u16,
    pub name: &'static str,
    pub operands: Operands,
}

impl Row {
    /// Whether the word is one of the row's, legal or not.
    pub fn covers(&self, word: u16) -> bool {
        word & !self.operands.bits() == self.base
    }

    /// Whether the word is one of the row's illegal ones.
    pub fn forbids(&self, word: u16) -> bool {
        self.operands == Operands::RegisterAddress && word & 0x0038 == 0
    }
}

const fn row(base: u16, name: &'static str, operands: Operands) -> Row {
    Row {
        base,
        name,
        operands,
    }
}

/// The rows that have a text: the block moves only from wish 1 on.
pub fn rows(level: Level) -> &'static [Row] {
    if level.has(Wish::BlockMoves) {
        &ROWS
    } else {
        &ROWS[..ROWS.len() - BLOCK_MOVES]
    }
}

/// The row that covers the word; a reserved word has none.
pub fn row_of(level: Level, word: u16) -> Option<&'static Row> {
    rows(level).iter().find(|row| row.covers(word))
}

use Operands::*;

/// The rows of format 8, which stand last.
pub const BLOCK_MOVES: usize = 8;

/// Formats 1 to 7, 9, 10 and 8.
pub const ROWS: [Row; 111] = [
    row(0x0000, "NOP", Nothing),
    row(0x0001, "RESET", Nothing),
    row(0x0002, "IEN", Nothing),
    row(0x0003, "IDS", Nothing),
    row(0x0004, "HALT", Nothing),
    row(0x0005, "XCT", Nothing),
    row(0x0006, "BPT", Nothing),
    row(0x0007, "WFI", Nothing),
    row(0x0008, "RSVC", Nothing),
    row(0x0009, "RRTT", Nothing),
    row(0x000A, "SAVE", Nothing),
    row(0x000B, "SAVS", Mask),
    row(0x000C, "REST", Nothing),
    row(0x000D, "RRTN", Nothing),
    row(0x000E, "RSTS", Nothing),
    row(0x000F, "RTT", Nothing),
    row(0x0010, "IAK", Register),
    row(0x0018, "RTN", Register),
    row(0x0020, "MSKO", Register),
    row(0x0028, "PRTN", Register),
    row(0x0030, "LCC", Digit),
    row(0x0040, "SVCA", Six),
    row(0x0080, "SVCB", Six),
    row(0x00C0, "SVCC", Six),
    row(0x0100, "BR", Displacement),
    row(0x0200, "BNE", Displacement),
    row(0x0300, "BEQ", Displacement),
    row(0x0400, "BGE", Displacement),
    row(0x0500, "BLT", Displacement),
    row(0x0600, "BGT", Displacement),
    row(0x0700, "BLE", Displacement),
    row(0x8000, "BPL", Displacement),
    row(0x8100, "BMI", Displacement),
    row(0x8200, "BHI", Displacement),
    row(0x8300, "BLOS", Displacement),
    row(0x8400, "BVC", Displacement),
    row(0x8500, "BVS", Displacement),
    row(0x8600, "BCC", Displacement),
    row(0x8700, "BCS", Displacement),
    row(0x0800, "ADDI", NumberRegister),
    row(0x0810, "SUBI", NumberRegister),
    row(0x0820, "BICI", NumberRegister),
    row(0x0830, "MOVI", NumberRegister),
    row(0x8800, "SSRR", RegisterCount),
    row(0x8810, "SSLR", RegisterCount),
    row(0x8820, "SSRA", RegisterCount),
    row(0x8830, "SSLA", RegisterCount),
    row(0x8E00, "SDRR", RegisterCount),
    row(0x8E10, "SDLR", RegisterCount),
    row(0x8E20, "SDRA", RegisterCount),
    row(0x8E30, "SDLA", RegisterCount),
    row(0x0A00, "ROR", Destination),
    row(0x0A40, "ROL", Destination),
    row(0x0A80, "TST", Destination),
    row(0x0AC0, "ASL", Destination),
    row(0x0B00, "SET", Destination),
    row(0x0B40, "CLR", Destination),
    row(0x0B80, "ASR", Destination),
    row(0x0BC0, "SWAB", Destination),
    row(0x0C00, "COM", Destination),
    row(0x0C40, "NEG", Destination),
    row(0x0C80, "INC", Destination),
    row(0x0CC0, "DEC", Destination),
    row(0x0D00, "IW2", Destination),
    row(0x0D40, "SXT", Destination),
    row(0x0D80, "TCALL", Destination),
    row(0x0DC0, "TJMP", Destination),
    row(0x8A00, "RORB", Destination),
    row(0x8A40, "ROLB", Destination),
    row(0x8A80, "TSTB", Destination),
    row(0x8AC0, "ASLB", Destination),
    row(0x8B00, "SETB", Destination),
    row(0x8B40, "CLRB", Destination),
    row(0x8B80, "ASRB", Destination),
    row(0x8BC0, "SWAD", Destination),
    row(0x8C00, "COMB", Destination),
    row(0x8C40, "NEGB", Destination),
    row(0x8C80, "INCB", Destination),
    row(0x8CC0, "DECB", Destination),
    row(0x8D00, "LSTS", Destination),
    row(0x8D40, "SSTS", Destination),
    row(0x8D80, "ADC", Destination),
    row(0x8DC0, "SBC", Destination),
    row(0x7000, "JSR", RegisterAddress),
    row(0x7200, "LEA", RegisterAddress),
    row(0x7400, "ASH", RegisterDestination),
    row(0x7600, "SOB", RegisterOffset),
    row(0x7800, "XCH", RegisterDestination),
    row(0x7A00, "ASHC", RegisterDestination),
    row(0x7C00, "MUL", RegisterDestination),
    row(0x7E00, "DIV", RegisterDestination),
    row(0x1000, "ADD", SourceDestination),
    row(0x2000, "SUB", SourceDestination),
    row(0x3000, "AND", SourceDestination),
    row(0x4000, "BIC", SourceDestination),
    row(0x5000, "BIS", SourceDestination),
    row(0x6000, "XOR", SourceDestination),
    row(0x9000, "CMP", SourceDestination),
    row(0xA000, "BIT", SourceDestination),
    row(0xB000, "MOV", SourceDestination),
    row(0xC000, "CMPB", SourceDestination),
    row(0xD000, "MOVB", SourceDestination),
    row(0xE000, "BISB", SourceDestination),
    row(0x0E00, "MBWU", TwoRegisters),
    row(0x0E40, "MBWD", TwoRegisters),
    row(0x0E80, "MBBU", TwoRegisters),
    row(0x0EC0, "MBBD", TwoRegisters),
    row(0x0F00, "MBWA", TwoRegisters),
    row(0x0F40, "MBBA", TwoRegisters),
    row(0x0F80, "MABW", TwoRegisters),
    row(0x0FC0, "MABB", TwoRegisters),
];
