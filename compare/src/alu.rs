//! Arithmetic: values in, value and indicators out. `W` is the width in bits.

use crate::state::Flags;

/// A result with the indicators it sets.
pub type Done = (u16, Flags);

const fn ones(width: u32) -> u32 {
    ((1u64 << width) - 1) as u32
}

#[inline]
fn cut<const W: u32>(x: u16) -> u16 {
    x & ones(W) as u16
}

#[inline]
fn top<const W: u32>(x: u16) -> bool {
    x >> (W - 1) & 1 == 1
}

/// N from the top bit, Z from the value.
#[inline]
fn by_value<const W: u32>(x: u16, v: bool, c: bool) -> Flags {
    Flags {
        n: top::<W>(x),
        z: x == 0,
        v,
        c,
    }
}

/// N and Z from the value, V reset, C as it was.
#[inline]
pub fn logic<const W: u32>(x: u16, c: bool) -> Done {
    (x, by_value::<W>(x, false, c))
}

/// V is set where both operands have one sign and the sum the other.
#[inline]
pub fn add<const W: u32>(src: u16, dst: u16) -> Done {
    let wide = u32::from(src) + u32::from(dst);
    let sum = cut::<W>(wide as u16);
    let v = top::<W>(src) == top::<W>(dst) && top::<W>(sum) != top::<W>(src);
    (sum, by_value::<W>(sum, v, wide > ones(W)))
}

/// `from - what`; V is set where the signs differ and the result has that of `what`.
#[inline]
pub fn subtract<const W: u32>(from: u16, what: u16) -> Done {
    let rest = cut::<W>(from.wrapping_sub(what));
    let v = top::<W>(from) != top::<W>(what) && top::<W>(rest) == top::<W>(what);
    (rest, by_value::<W>(rest, v, from < what))
}

#[inline]
pub fn complement<const W: u32>(x: u16) -> Done {
    let y = cut::<W>(!x);
    (y, by_value::<W>(y, false, true))
}

#[inline]
pub fn negate<const W: u32>(x: u16) -> Done {
    let y = cut::<W>(x.wrapping_neg());
    (y, by_value::<W>(y, y == 1 << (W - 1), y != 0))
}

#[inline]
pub fn increment<const W: u32>(x: u16) -> Done {
    let y = cut::<W>(x.wrapping_add(1));
    (y, by_value::<W>(y, y == 1 << (W - 1), y == 0))
}

#[inline]
pub fn decrement<const W: u32>(x: u16) -> Done {
    let y = cut::<W>(x.wrapping_sub(1));
    (y, by_value::<W>(y, y == (1 << (W - 1)) - 1, x == 0))
}

/// IW2.
#[inline]
pub fn increment_by_two(x: u16) -> Done {
    let y = x.wrapping_add(2);
    (
        y,
        by_value::<16>(y, y == 0x8000 || y == 0x8001, x >= 0xFFFE),
    )
}

/// V is N exclusive or C, of the new ones.
#[inline]
fn mixed(n: bool, z: bool, c: bool) -> Flags {
    Flags { n, z, v: n != c, c }
}

#[inline]
pub fn add_carry(x: u16, c: bool) -> Done {
    let (y, carry) = x.overflowing_add(u16::from(c));
    (y, mixed(top::<16>(y), y == 0, carry))
}

#[inline]
pub fn subtract_carry(x: u16, c: bool) -> Done {
    let (y, borrow) = x.overflowing_sub(u16::from(c));
    (y, mixed(top::<16>(y), y == 0, borrow))
}

/// SWAB: the indicators tell of the lower byte of the result.
#[inline]
pub fn swap_bytes(x: u16, c: bool) -> Done {
    let y = x.swap_bytes();
    (y, by_value::<8>(y & 0xFF, false, c))
}

/// SWAD: V is bit 7 too.
#[inline]
pub fn swap_digits(x: u16) -> Done {
    let y = cut::<8>(x << 4 | x >> 4);
    (y, by_value::<8>(y, top::<8>(y), false))
}

/// The four ways to move bits.
#[derive(Clone, Copy, PartialEq, Eq, Debug)]
pub enum Way {
    RotateRight,
    RotateLeft,
    ArithmeticRight,
    ArithmeticLeft,
}

impl Way {
    /// The way that bits 5 and 4 of a format 6 shift name.
    pub fn of_shift(op: u16) -> Way {
        match op >> 4 & 3 {
            0 => Way::RotateRight,
            1 => Way::RotateLeft,
            2 => Way::ArithmeticRight,
            _ => Way::ArithmeticLeft,
        }
    }

    pub fn is_right(self) -> bool {
        matches!(self, Way::RotateRight | Way::ArithmeticRight)
    }
}

/// One bit: the value after, and the bit that left it.
#[inline]
fn shift_once(way: Way, width: u32, x: u32, c: bool) -> (u32, bool) {
    let high = x >> (width - 1) & 1;
    match way {
        Way::RotateRight => (x >> 1 | u32::from(c) << (width - 1), x & 1 == 1),
        Way::ArithmeticRight => (x >> 1 | high << (width - 1), x & 1 == 1),
        Way::RotateLeft => ((x << 1 | u32::from(c)) & ones(width), high == 1),
        Way::ArithmeticLeft => (x << 1 & ones(width), high == 1),
    }
}

/// `count` bits, one by one: the value after, and C.
#[inline]
pub fn shift(way: Way, width: u32, x: u32, c: bool, count: u32) -> (u32, bool) {
    let mut moved = (x, c);
    for _ in 0..count {
        moved = shift_once(way, width, moved.0, moved.1);
    }
    moved
}

/// ROR, ROL, ASR, ASL and the shifts of one register: N from bit 7 after a move
/// to the right, from the top bit after one to the left.
#[inline]
pub fn shift_single<const W: u32>(way: Way, x: u16, c: bool, count: u32) -> Done {
    let (y, c) = shift(way, W, u32::from(x), c, count);
    let y = y as u16;
    let n = if way.is_right() {
        top::<8>(y)
    } else {
        top::<W>(y)
    };
    (y, mixed(n, y == 0, c))
}

/// The shifts of two registers: N and Z from the lower register after a move to
/// the right, from the upper one after a move to the left.
pub fn shift_double(way: Way, pair: u32, c: bool, count: u32) -> (u32, Flags) {
    let (pair, c) = shift(way, 32, pair, c, count);
    let (low, high) = (pair as u16, (pair >> 16) as u16);
    let flags = if way.is_right() {
        mixed(top::<8>(low), low == 0, c)
    } else {
        mixed(top::<16>(high), high == 0, c)
    };
    (pair, flags)
}

/// The way and the number of bits that a byte from -128 to 127 asks for.
fn signed_count(count: u8) -> (Way, u32) {
    let count = i32::from(count as i8);
    let way = if count < 0 {
        Way::ArithmeticRight
    } else {
        Way::ArithmeticLeft
    };
    (way, count.unsigned_abs())
}

/// ASH by a count other than 0: N from bit 15 in both directions.
pub fn arithmetic_shift(x: u16, count: u8) -> Done {
    let (way, bits) = signed_count(count);
    let (y, c) = shift(way, 16, u32::from(x), false, bits);
    let y = y as u16;
    (y, mixed(top::<16>(y), y == 0, c))
}

/// ASHC by a count other than 0: N and Z from the pair, V reset.
pub fn arithmetic_shift_combined(pair: u32, count: u8) -> (u32, Flags) {
    let (way, bits) = signed_count(count);
    let (pair, c) = shift(way, 32, pair, false, bits);
    let flags = Flags {
        n: pair >> 31 == 1,
        z: pair == 0,
        v: false,
        c,
    };
    (pair, flags)
}

/// MUL: C is indeterminate in the manual, the preset 1 here.
pub fn multiply(x: u16, y: u16) -> (u32, Flags) {
    let pair = u32::from(x) * u32::from(y);
    let flags = Flags {
        n: pair >> 31 == 1,
        z: pair == 0,
        v: false,
        c: true,
    };
    (pair, flags)
}

/// DIV: quotient and remainder, or none; and the indicators.
pub fn divide(pair: u32, divisor: u16) -> (Option<(u16, u16)>, Flags) {
    if pair >> 16 >= u32::from(divisor) {
        let error = Flags {
            n: false,
            z: false,
            v: true,
            c: divisor == 0,
        };
        return (None, error);
    }
    let quotient = (pair / u32::from(divisor)) as u16;
    let remainder = (pair % u32::from(divisor)) as u16;
    let flags = by_value::<16>(quotient, false, true);
    (Some((quotient, remainder)), flags)
}
