//! The two widths, f64 and f32, and what the programs need of them. Used by all three.
use num_traits::Float;
use std::cmp::Ordering;
use std::fmt::{Debug, LowerExp};

pub trait Bits: Copy {
    /// The bits of an entry; those of an f32 are the low half.
    fn bits(self) -> u64;
}

pub trait Width: Float + Bits + Debug + LowerExp {
    const MAX: Self;
    const MIN_POSITIVE: Self;
    const INFINITY: Self;
    const NEG_INFINITY: Self;
    const NAN: Self;
    /// Digits of the significand: 53 or 24.
    const DIGITS: u32;
    /// The exponent of the largest numbers: 1023 or 127.
    const TOP: i64;
    const SIZE: u32;
    /// Numbers are drawn in f64 and rounded once.
    fn of(x: f64) -> Self;
    fn from_bits(word: u64) -> Self;
    fn up(self) -> Self;
    fn down(self) -> Self;
    fn total_cmp(&self, other: &Self) -> Ordering;

    /// Buffers are filled with signalling NaNs of distinct payloads beforehand. No sum is ever one, so an entry that
    /// was not written shows, even where the answer is a NaN.
    fn untouched(i: usize) -> Self {
        Self::from_bits(Self::INFINITY.bits() | 1 << (Self::DIGITS - 3) | (i as u64 + 1))
    }
    fn same(self, other: Self) -> bool {
        self.bits() == other.bits() || (self.is_nan() && other.is_nan())
    }
}

macro_rules! width {
    ($T:ident, $word:ident) => {
        impl Bits for $T {
            fn bits(self) -> u64 {
                self.to_bits() as u64
            }
        }
        impl Width for $T {
            const MAX: $T = $T::MAX;
            const MIN_POSITIVE: $T = $T::MIN_POSITIVE;
            const INFINITY: $T = $T::INFINITY;
            const NEG_INFINITY: $T = $T::NEG_INFINITY;
            const NAN: $T = $T::NAN;
            const DIGITS: u32 = $T::MANTISSA_DIGITS;
            const TOP: i64 = $T::MAX_EXP as i64 - 1;
            const SIZE: u32 = $word::BITS;
            fn of(x: f64) -> $T {
                x as $T
            }
            fn from_bits(word: u64) -> $T {
                $T::from_bits(word as $word)
            }
            fn up(self) -> $T {
                self.next_up()
            }
            fn down(self) -> $T {
                self.next_down()
            }
            fn total_cmp(&self, other: &$T) -> Ordering {
                $T::total_cmp(self, other)
            }
        }
    };
}
width!(f64, u64);
width!(f32, u32);

/// Whether the arguments begin with `f32`, and the others.
pub fn narrow(args: &[String]) -> (bool, &[String]) {
    match args {
        [first, rest @ ..] if first == "f32" => (true, rest),
        _ => (false, args),
    }
}
