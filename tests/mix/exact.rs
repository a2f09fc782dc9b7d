//! Numbers of binary32 in exact whole numbers: a finite one is a sign and a count of 2^-300. Rounding is done here, once for each
//! operation; no float operation of the machine is used.

/// 640 bits, low word first.
#[derive(Clone, Copy, PartialEq, Eq, Debug)]
pub struct Big([u64; 10]);

pub const SCALE: u32 = 300;

impl Big {
    pub fn of(n: u128) -> Big {
        let mut words = [0; 10];
        (words[0], words[1]) = (n as u64, (n >> 64) as u64);
        Big(words)
    }

    pub fn is_zero(&self) -> bool {
        self.0 == [0; 10]
    }

    pub fn length(&self) -> u32 {
        (0..10)
            .rev()
            .find(|i| self.0[*i] != 0)
            .map_or(0, |i| 64 * i as u32 + 64 - self.0[i].leading_zeros())
    }

    pub fn less(&self, other: &Big) -> bool {
        self.0.iter().rev().lt(other.0.iter().rev())
    }

    pub fn plus(&self, other: &Big) -> Big {
        let (mut out, mut carry) = ([0; 10], 0u128);
        for i in 0..10 {
            let sum = u128::from(self.0[i]) + u128::from(other.0[i]) + carry;
            (out[i], carry) = (sum as u64, sum >> 64);
        }
        assert!(carry == 0);
        Big(out)
    }

    /// `other` is at most this.
    pub fn minus(&self, other: &Big) -> Big {
        let (mut out, mut borrow) = ([0; 10], false);
        for i in 0..10 {
            let (a, b) = self.0[i].overflowing_sub(other.0[i]);
            let (c, d) = a.overflowing_sub(u64::from(borrow));
            (out[i], borrow) = (c, b || d);
        }
        assert!(!borrow);
        Big(out)
    }

    pub fn up(&self, shift: u32) -> Big {
        assert!(self.length() + shift <= 640);
        let (words, bits) = ((shift / 64) as usize, shift % 64);
        let mut out = [0; 10];
        for i in words..10 {
            out[i] = self.0[i - words] << bits;
            if bits > 0 && i > words {
                out[i] |= self.0[i - words - 1] >> (64 - bits);
            }
        }
        Big(out)
    }

    pub fn down(&self, shift: u32) -> Big {
        let (words, bits) = ((shift / 64) as usize, shift % 64);
        let mut out = [0; 10];
        for i in 0..10 - words.min(10) {
            out[i] = self.0[i + words] >> bits;
            if bits > 0 && i + words + 1 < 10 {
                out[i] |= self.0[i + words + 1] << (64 - bits);
            }
        }
        Big(out)
    }

    pub fn low(&self) -> u128 {
        assert!(self.length() <= 128);
        u128::from(self.0[0]) | u128::from(self.0[1]) << 64
    }
}

#[derive(Clone, Copy, Debug)]
pub enum Number {
    Nan,
    Infinite(bool),
    /// A minus sign, and how many 2^-300.
    Finite(bool, Big),
}

use Number::{Finite, Infinite, Nan};

/// Digits and the power of two of a pattern.
fn split(bits: u32) -> (u128, i32) {
    let (field, digits) = (bits >> 23 & 255, u128::from(bits & 0x7f_ffff));
    if field == 0 {
        (digits, -149)
    } else {
        (digits | 1 << 23, field as i32 - 150)
    }
}

pub fn read(v: f32) -> Number {
    let bits = v.to_bits();
    let minus = bits >> 31 == 1;
    match (bits >> 23 & 255, bits & 0x7f_ffff) {
        (255, 0) => Infinite(minus),
        (255, _) => Nan,
        _ => {
            let (digits, power) = split(bits);
            Finite(minus, Big::of(digits).up((power + SCALE as i32) as u32))
        }
    }
}

/// The nearest f32, ties to even: its bits, or those of an infinity.
fn rounded(minus: bool, size: Big) -> f32 {
    // the last kept place: 24 digits, and no place below 2^-149
    let place = size.length().saturating_sub(24).max(SCALE - 149);
    let (mut kept, rest) = (size.down(place).low() as u32, size.minus(&size.down(place).up(place)));
    let half = Big::of(1).up(place - 1);
    if half.less(&rest) || (rest == half && kept % 2 == 1) {
        kept += 1;
    }
    // a carry to 2^24 moves on into the exponent by itself
    let field = place - (SCALE - 149);
    let bits = if kept < 1 << 23 { kept } else { ((field + 1) << 23) + (kept - (1 << 23)) };
    f32::from_bits(bits.min(0x7f80_0000) | u32::from(minus) << 31)
}

/// The sum of two numbers, rounded once. A zero is negative where both are.
pub fn sum(a: Number, b: Number) -> f32 {
    match (a, b) {
        (Nan, _) | (_, Nan) => f32::NAN,
        (Infinite(s), Infinite(t)) if s != t => f32::NAN,
        (Infinite(s), _) | (_, Infinite(s)) => {
            if s {
                f32::NEG_INFINITY
            } else {
                f32::INFINITY
            }
        }
        (Finite(s, x), Finite(t, y)) => {
            let (minus, size) = match (s == t, x.less(&y)) {
                (true, _) => (s, x.plus(&y)),
                (false, true) => (t, y.minus(&x)),
                (false, false) => (s, x.minus(&y)),
            };
            rounded(if size.is_zero() { s && t } else { minus }, size)
        }
    }
}

/// The product, not rounded.
pub fn product(a: f32, b: f32) -> Number {
    let minus = (a.to_bits() ^ b.to_bits()) >> 31 == 1;
    match (read(a), read(b)) {
        (Nan, _) | (_, Nan) => Nan,
        (Infinite(_), Finite(_, x)) | (Finite(_, x), Infinite(_)) if x.is_zero() => Nan,
        (Infinite(_), _) | (_, Infinite(_)) => Infinite(minus),
        _ => {
            let ((m, e), (n, f)) =
                (split(a.to_bits() & 0x7fff_ffff), split(b.to_bits() & 0x7fff_ffff));
            Finite(minus, Big::of(m * n).up((e + f + SCALE as i32) as u32))
        }
    }
}

pub fn times(a: f32, b: f32) -> f32 {
    match product(a, b) {
        Nan => f32::NAN,
        Infinite(s) => {
            if s {
                f32::NEG_INFINITY
            } else {
                f32::INFINITY
            }
        }
        Finite(s, x) => rounded(s, x),
    }
}

pub fn less(a: f32, b: f32) -> f32 {
    sum(
        read(a),
        match read(b) {
            Nan => Nan,
            Infinite(s) => Infinite(!s),
            Finite(s, x) => Finite(!s, x),
        },
    )
}

/// The largest whole number that is not above a finite v.
pub fn floor(v: f32) -> Option<i128> {
    let Finite(minus, size) = read(v) else { return None };
    let whole = size.down(SCALE);
    let above = whole.up(SCALE) != size;
    // 2^127 and more: far outside i32, and its sign is all that counts
    let whole = if whole.length() > 126 { 1 << 126 } else { whole.low() as i128 };
    Some(if minus { -(whole + i128::from(above)) } else { whole })
}

/// v less its floor, rounded. The floor of a zero has its sign.
pub fn less_floor(v: f32, floor: i128) -> f32 {
    let minus = if floor == 0 { v.to_bits() >> 31 == 1 } else { floor < 0 };
    sum(read(v), Finite(!minus, Big::of(floor.unsigned_abs()).up(SCALE)))
}

/// How many 2^-149 a finite number that is not negative is.
pub fn units(v: f32) -> Big {
    match read(v) {
        Finite(_, size) => size.down(SCALE - 149),
        _ => panic!("{v} has no size"),
    }
}
