//! Held, the third mode, which the Rust does not have: what is expected of ours in it. Used by `compare` and `bench`.
//! On each axis a query below the first node is replaced by that node, and one above the last node by the last. A NaN is
//! neither, and stays. Then place, value and the components of the other axes are the Rust's cubic answers to the replaced
//! query, and the component of a replaced axis is the Rust's reduction with four +0 as the row of that axis.
use crate::cases::*;
use crate::original::Reader;
use crate::width::Width;
use interpn::multicubic::{MulticubicRectilinear, MulticubicRegular};

pub const HELD: u8 = 2;

/// The coordinate as it is used. One that is replaced is another number than the one given, so the bits tell.
pub fn used<T: Width>(a: &Axis<T>, x: T) -> T {
    let (first, last) = (a.node(0), a.node(a.n() - 1));
    if x < first {
        first
    } else if x > last {
        last
    } else {
        x
    }
}

/// A coordinate, about as often past an end as not; one in `odd` is a NaN or any float, none where `odd` is 0.
pub fn coordinate<T: Width>(r: &mut Rng, a: &Axis<T>, odd: usize) -> T {
    if odd > 0 && r.one_in(odd) {
        return match r.below(4) {
            0 | 1 => T::NAN,
            2 => T::from_bits(r.next()),
            _ => special(r),
        };
    }
    let low = r.coin();
    let end = a.node(if low { 0 } else { a.n() - 1 });
    let out = |x: T| if low { -x } else { x };
    match r.below(12) {
        0..=3 => any_class(r, a),
        4 => near_node(r, a),
        // At the end, and the other zero where it is a zero.
        5 => end,
        6 => if end.is_zero() { -end } else { end },
        // The float just beyond it, and the one just inside.
        7 => if low { end.down() } else { end.up() },
        8 => if low { end.up() } else { end.down() },
        // Far beyond.
        9 => end + out(T::of((1.0 + r.unit()) * pow2(r.range(-20, T::TOP - 1)))),
        10 => out(T::MAX),
        _ => out(T::INFINITY),
    }
}

/// A block reduced by the four-term sums of the Rust, axis 0 first and fastest in the block.
fn reduced<T: Width>(block: &[T], rows: &[[T; 4]]) -> T {
    let mut level = block.to_vec();
    for w in rows {
        level = level.chunks(4).map(|v| (w[1] * v[1] + w[0] * v[0]) + (w[3] * v[3] + w[2] * v[2])).collect();
    }
    level[0]
}

/// Puts into `gradient` the components of the axes that are `replaced`, for a query x as it is used, which the Rust places
/// and answers with `value`. The rows of the other axes are the Rust's weights, asked on a grid of each axis alone. With all
/// rows the same lines must give `value`: so what they do is what the Rust does.
pub fn flatten<T: Width>(
    g: &Grid<T>,
    reader: &dyn Reader<T>,
    x: &[T],
    replaced: &[bool],
    value: T,
    gradient: &mut [T],
) -> Result<(), String> {
    let n = x.len();
    let cut = if g.rectilinear { g.cut() } else { vec![] };
    let rows: Vec<[T; 4]> = (0..n)
        .map(|d| {
            let values = &g.values[..g.counts[d]];
            if g.rectilinear {
                MulticubicRectilinear::<T, 1>::new(&[cut[d]], values, false)?.oracle_weights(x[d], 0)
            } else {
                let axis = MulticubicRegular::<T, 1>::new([values.len()], [g.starts[d]], [g.steps[d]], values, false)?;
                axis.oracle_weights(x[d], 0)
            }
        })
        .collect::<Result<_, _>>()?;
    let origins: Vec<usize> = (0..n).map(|d| reader.place(x[d], d).unwrap().0).collect();
    // Entry i of the block has the offset i / 4^d % 4 on axis d.
    let index = |i: usize| (0..n).fold(0, |at, d| at * g.counts[d] + origins[d] + (i >> (2 * d)) % 4);
    let block: Vec<T> = (0..1 << (2 * n)).map(|i| g.values[index(i)]).collect();
    let again = reduced(&block, &rows);
    if !again.same(value) {
        return Err(format!("the reduction of src/held.rs gives {again:e}, the Rust {value:e}"));
    }
    for d in 0..n {
        if replaced[d] {
            let mut rows = rows.clone();
            rows[d] = [T::zero(); 4];
            gradient[d] = reduced(&block, &rows);
        }
    }
    Ok(())
}
