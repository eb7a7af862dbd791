
// ---- end of the original text; what follows is added for the test build ----

#[macro_use]
mod stand_ins {
    /// Stand-in 1: `dispatch_ndims!`. The original names it, and it is in none of the five files.
    macro_rules! dispatch_ndims {
        ($ndims:expr, $msg:literal, [$($n:literal),* $(,)?], |$N:ident| $body:block) => {
            match $ndims {
                $($n => { const $N: usize = $n; $body })*
                _ => Err($msg),
            }
        };
    }
    pub(crate) use dispatch_ndims;
}
pub(crate) use stand_ins::dispatch_ndims;

/// Stand-in 2: `index_arr_fixed_dims`, the value at the sum of index * stride.
#[inline]
pub(crate) fn index_arr_fixed_dims<T: Copy, const N: usize>(
    loc: [usize; N],
    dimprod: [usize; N],
    vals: &[T],
) -> T {
    let mut i = 0;
    for j in 0..N {
        i += loc[j] * dimprod[j];
    }
    vals[i]
}

pub mod multicubic;

/// Stand-in 3: multilinear's `check_bounds`, re-exported by the originals and never called here.
pub mod multilinear {
    pub mod regular {
        pub fn check_bounds() {}
    }
    pub mod rectilinear {
        pub fn check_bounds() {}
    }
}
