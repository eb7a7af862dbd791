//! The original Rust behind one face for all axis counts. Used by `corpus` and `compare`.
use crate::cases::{Grid, STRAIGHT};
use crate::width::Width;
use interpn::multicubic::{MulticubicRectilinear, MulticubicRegular};
use std::hint::black_box;

pub type Message = &'static str;
pub const UNPLACEABLE: Message = "Unrepresentable coordinate value";
pub const MISMATCH: Message = "Dimension mismatch";

pub trait Reader<T> {
    /// Origin and class on one axis; None where get_loc refuses.
    fn place(&self, x: T, axis: usize) -> Option<(usize, u8)>;
    fn one(&self, x: &[T]) -> Result<T, Message>;
    fn one_grad(&self, x: &[T], gradient: &mut [T]) -> Result<(), Message>;
    fn batch(&self, columns: &[&[T]], out: &mut [T]) -> Result<(), Message>;
    fn batch_grad(&self, columns: &[&[T]], out: &mut [&mut [T]]) -> Result<(), Message>;
}

macro_rules! reader {
    ($kind:ident) => {
        impl<T: Width, const N: usize> Reader<T> for $kind<'_, T, N> {
            fn place(&self, x: T, axis: usize) -> Option<(usize, u8)> {
                match self.oracle_place(x, axis) {
                    Ok(place) => Some(place),
                    Err(message) => {
                        assert_eq!(message, UNPLACEABLE);
                        None
                    }
                }
            }
            fn one(&self, x: &[T]) -> Result<T, Message> {
                self.interp_one(x.try_into().unwrap())
            }
            fn one_grad(&self, x: &[T], gradient: &mut [T]) -> Result<(), Message> {
                gradient.copy_from_slice(&self.interp_one_grad(x.try_into().unwrap())?);
                Ok(())
            }
            fn batch(&self, columns: &[&[T]], out: &mut [T]) -> Result<(), Message> {
                self.interp(columns.try_into().unwrap(), out)
            }
            fn batch_grad(&self, columns: &[&[T]], out: &mut [&mut [T]]) -> Result<(), Message> {
                self.interp_grad(columns.try_into().unwrap(), out.try_into().unwrap())
            }
        }
    };
}
reader!(MulticubicRegular);
reader!(MulticubicRectilinear);

/// Makes the grid with `new` and hands it on, or the message with which `new` refuses it.
pub fn read<T: Width, R>(g: &Grid<T>, then: impl FnOnce(Result<&dyn Reader<T>, Message>) -> R) -> R {
    fn sized<const N: usize, T: Width, R>(g: &Grid<T>, then: impl FnOnce(Result<&dyn Reader<T>, Message>) -> R) -> R {
        // A bool that comes from elsewhere, so that the Rust is not compiled for a comparison of numbers.
        let straight = black_box(g.mode == STRAIGHT);
        if g.rectilinear {
            let parts = g.cut();
            match MulticubicRectilinear::<T, N>::new(parts[..].try_into().unwrap(), &g.values, straight) {
                Ok(reader) => then(Ok(&reader)),
                Err(message) => then(Err(message)),
            }
        } else {
            let dims: [usize; N] = g.counts[..].try_into().unwrap();
            let starts: [T; N] = g.starts[..].try_into().unwrap();
            let steps: [T; N] = g.steps[..].try_into().unwrap();
            match MulticubicRegular::<T, N>::new(dims, starts, steps, &g.values, straight) {
                Ok(reader) => then(Ok(&reader)),
                Err(message) => then(Err(message)),
            }
        }
    }
    match g.counts.len() {
        1 => sized::<1, T, R>(g, then),
        2 => sized::<2, T, R>(g, then),
        3 => sized::<3, T, R>(g, then),
        4 => sized::<4, T, R>(g, then),
        _ => unreachable!(),
    }
}

/// The number for the message of `new`, with the axis the number names (0 for 3): the Rust gives the message only,
/// and the axis is the lowest that has the fault.
pub fn refusal<T: Width>(g: &Grid<T>, message: Message) -> (u8, usize) {
    match message {
        MISMATCH => (3, 0),
        "All grids must have at least four entries" | "All grids must have at least 4 entries" => {
            (4, g.counts.iter().position(|&n| n < 4).unwrap())
        }
        "All grids must be monotonically increasing" => {
            let axis = if g.rectilinear {
                g.cut().iter().position(|a| !(a[1] > a[0]))
            } else {
                g.steps.iter().position(|&s| !(s > T::zero()))
            };
            (5, axis.unwrap())
        }
        _ => unreachable!("{message}"),
    }
}
