//! The fourteen C calls of each archive, libcapi.a and libcapi_f32.a, and one function for each pair of them. Used by
//! `compare` and `bench`.
//! A slice goes over as its pointer and its length; the answer is the number of the refusal, 0 where there is none.
//! The declarations are by hand, after include/veltzuma.h of this version.
use crate::cases::Grid;
use crate::width::Width;

pub const VERSION: u32 = 4;

pub trait Calls: Width {
    fn version() -> u32;
    fn new(g: &Grid<Self>, refusal: &mut [usize]) -> u8;
    fn get_loc(
        g: &Grid<Self>, x: &[Self], refusal: &mut [usize], origins: &mut [usize], classes: &mut [u8], marks: &mut [u8],
    ) -> u8;
    fn interp_one(g: &Grid<Self>, x: &[Self], refusal: &mut [usize], value: &mut [Self], marks: &mut [u8]) -> u8;
    fn interp_one_grad(g: &Grid<Self>, x: &[Self], refusal: &mut [usize], gradient: &mut [Self], marks: &mut [u8]) -> u8;
    fn interp_one_with_grad(
        g: &Grid<Self>, x: &[Self], refusal: &mut [usize], value: &mut [Self], gradient: &mut [Self], marks: &mut [u8],
        sums: &mut [usize],
    ) -> u8;
    fn interp(g: &Grid<Self>, queries: &[Self], refusal: &mut [usize], out: &mut [Self]) -> u8;
    fn interp_grad(g: &Grid<Self>, queries: &[Self], refusal: &mut [usize], out: &mut [Self]) -> u8;
}

// SAFETY, for all of them: each pointer and length come from one slice, the slices written to are borrowed alone,
// and the calls keep none of them.
macro_rules! calls {
    ($T:ident, $archive:literal, $suffix:literal) => {
        const _: () = {
            #[link(name = $archive, kind = "static")]
            unsafe extern "C" {
                #[link_name = concat!("veltzuma_version", $suffix)]
                fn version() -> u32;
                #[link_name = concat!("veltzuma_regular_new", $suffix)]
                fn regular_new(
                    axis_count: usize, counts: *const usize, counts_len: usize, starts: *const $T, starts_len: usize,
                    steps: *const $T, steps_len: usize, vals: *const $T, vals_len: usize,
                    refusal: *mut usize, refusal_len: usize,
                ) -> u8;
                #[link_name = concat!("veltzuma_regular_get_loc", $suffix)]
                fn regular_get_loc(
                    axis_count: usize, counts: *const usize, counts_len: usize, starts: *const $T, starts_len: usize,
                    steps: *const $T, steps_len: usize, vals: *const $T, vals_len: usize, mode: u8,
                    x: *const $T, x_len: usize, refusal: *mut usize, refusal_len: usize,
                    origins: *mut usize, origins_len: usize, classes: *mut u8, classes_len: usize,
                    marks: *mut u8, marks_len: usize,
                ) -> u8;
                #[link_name = concat!("veltzuma_regular_interp_one", $suffix)]
                fn regular_interp_one(
                    axis_count: usize, counts: *const usize, counts_len: usize, starts: *const $T, starts_len: usize,
                    steps: *const $T, steps_len: usize, vals: *const $T, vals_len: usize, mode: u8,
                    x: *const $T, x_len: usize, refusal: *mut usize, refusal_len: usize,
                    value: *mut $T, value_len: usize, marks: *mut u8, marks_len: usize,
                ) -> u8;
                #[link_name = concat!("veltzuma_regular_interp_one_grad", $suffix)]
                fn regular_interp_one_grad(
                    axis_count: usize, counts: *const usize, counts_len: usize, starts: *const $T, starts_len: usize,
                    steps: *const $T, steps_len: usize, vals: *const $T, vals_len: usize, mode: u8,
                    x: *const $T, x_len: usize, refusal: *mut usize, refusal_len: usize,
                    gradient: *mut $T, gradient_len: usize, marks: *mut u8, marks_len: usize,
                ) -> u8;
                #[link_name = concat!("veltzuma_regular_interp_one_with_grad", $suffix)]
                fn regular_interp_one_with_grad(
                    axis_count: usize, counts: *const usize, counts_len: usize, starts: *const $T, starts_len: usize,
                    steps: *const $T, steps_len: usize, vals: *const $T, vals_len: usize, mode: u8,
                    x: *const $T, x_len: usize, refusal: *mut usize, refusal_len: usize,
                    value: *mut $T, value_len: usize, gradient: *mut $T, gradient_len: usize,
                    marks: *mut u8, marks_len: usize, sums: *mut usize, sums_len: usize,
                ) -> u8;
                #[link_name = concat!("veltzuma_regular_interp", $suffix)]
                fn regular_interp(
                    axis_count: usize, counts: *const usize, counts_len: usize, starts: *const $T, starts_len: usize,
                    steps: *const $T, steps_len: usize, vals: *const $T, vals_len: usize, mode: u8,
                    queries: *const $T, queries_len: usize, refusal: *mut usize, refusal_len: usize,
                    out: *mut $T, out_len: usize,
                ) -> u8;
                #[link_name = concat!("veltzuma_regular_interp_grad", $suffix)]
                fn regular_interp_grad(
                    axis_count: usize, counts: *const usize, counts_len: usize, starts: *const $T, starts_len: usize,
                    steps: *const $T, steps_len: usize, vals: *const $T, vals_len: usize, mode: u8,
                    queries: *const $T, queries_len: usize, refusal: *mut usize, refusal_len: usize,
                    out: *mut $T, out_len: usize,
                ) -> u8;
                #[link_name = concat!("veltzuma_rectilinear_new", $suffix)]
                fn rectilinear_new(
                    axis_count: usize, counts: *const usize, counts_len: usize, axes: *const $T, axes_len: usize,
                    vals: *const $T, vals_len: usize, refusal: *mut usize, refusal_len: usize,
                ) -> u8;
                #[link_name = concat!("veltzuma_rectilinear_get_loc", $suffix)]
                fn rectilinear_get_loc(
                    axis_count: usize, counts: *const usize, counts_len: usize, axes: *const $T, axes_len: usize,
                    vals: *const $T, vals_len: usize, mode: u8, x: *const $T, x_len: usize,
                    refusal: *mut usize, refusal_len: usize, origins: *mut usize, origins_len: usize,
                    classes: *mut u8, classes_len: usize, marks: *mut u8, marks_len: usize,
                ) -> u8;
                #[link_name = concat!("veltzuma_rectilinear_interp_one", $suffix)]
                fn rectilinear_interp_one(
                    axis_count: usize, counts: *const usize, counts_len: usize, axes: *const $T, axes_len: usize,
                    vals: *const $T, vals_len: usize, mode: u8, x: *const $T, x_len: usize,
                    refusal: *mut usize, refusal_len: usize, value: *mut $T, value_len: usize,
                    marks: *mut u8, marks_len: usize,
                ) -> u8;
                #[link_name = concat!("veltzuma_rectilinear_interp_one_grad", $suffix)]
                fn rectilinear_interp_one_grad(
                    axis_count: usize, counts: *const usize, counts_len: usize, axes: *const $T, axes_len: usize,
                    vals: *const $T, vals_len: usize, mode: u8, x: *const $T, x_len: usize,
                    refusal: *mut usize, refusal_len: usize, gradient: *mut $T, gradient_len: usize,
                    marks: *mut u8, marks_len: usize,
                ) -> u8;
                #[link_name = concat!("veltzuma_rectilinear_interp_one_with_grad", $suffix)]
                fn rectilinear_interp_one_with_grad(
                    axis_count: usize, counts: *const usize, counts_len: usize, axes: *const $T, axes_len: usize,
                    vals: *const $T, vals_len: usize, mode: u8, x: *const $T, x_len: usize,
                    refusal: *mut usize, refusal_len: usize, value: *mut $T, value_len: usize,
                    gradient: *mut $T, gradient_len: usize, marks: *mut u8, marks_len: usize,
                    sums: *mut usize, sums_len: usize,
                ) -> u8;
                #[link_name = concat!("veltzuma_rectilinear_interp", $suffix)]
                fn rectilinear_interp(
                    axis_count: usize, counts: *const usize, counts_len: usize, axes: *const $T, axes_len: usize,
                    vals: *const $T, vals_len: usize, mode: u8, queries: *const $T, queries_len: usize,
                    refusal: *mut usize, refusal_len: usize, out: *mut $T, out_len: usize,
                ) -> u8;
                #[link_name = concat!("veltzuma_rectilinear_interp_grad", $suffix)]
                fn rectilinear_interp_grad(
                    axis_count: usize, counts: *const usize, counts_len: usize, axes: *const $T, axes_len: usize,
                    vals: *const $T, vals_len: usize, mode: u8, queries: *const $T, queries_len: usize,
                    refusal: *mut usize, refusal_len: usize, out: *mut $T, out_len: usize,
                ) -> u8;
            }
            impl Calls for $T {
                fn version() -> u32 {
                    unsafe { version() }
                }
                fn new(g: &Grid<$T>, refusal: &mut [usize]) -> u8 {
                    unsafe {
                        if g.rectilinear {
                            rectilinear_new(
                                g.axis_count, g.counts.as_ptr(), g.counts.len(), g.joined.as_ptr(), g.joined.len(),
                                g.values.as_ptr(), g.values.len(), refusal.as_mut_ptr(), refusal.len(),
                            )
                        } else {
                            regular_new(
                                g.axis_count, g.counts.as_ptr(), g.counts.len(), g.starts.as_ptr(), g.starts.len(),
                                g.steps.as_ptr(), g.steps.len(), g.values.as_ptr(), g.values.len(),
                                refusal.as_mut_ptr(), refusal.len(),
                            )
                        }
                    }
                }
                fn get_loc(
                    g: &Grid<$T>, x: &[$T], refusal: &mut [usize], origins: &mut [usize], classes: &mut [u8], marks: &mut [u8],
                ) -> u8 {
                    unsafe {
                        if g.rectilinear {
                            rectilinear_get_loc(
                                g.axis_count, g.counts.as_ptr(), g.counts.len(), g.joined.as_ptr(), g.joined.len(),
                                g.values.as_ptr(), g.values.len(), g.mode, x.as_ptr(), x.len(),
                                refusal.as_mut_ptr(), refusal.len(), origins.as_mut_ptr(), origins.len(),
                                classes.as_mut_ptr(), classes.len(), marks.as_mut_ptr(), marks.len(),
                            )
                        } else {
                            regular_get_loc(
                                g.axis_count, g.counts.as_ptr(), g.counts.len(), g.starts.as_ptr(), g.starts.len(),
                                g.steps.as_ptr(), g.steps.len(), g.values.as_ptr(), g.values.len(), g.mode,
                                x.as_ptr(), x.len(), refusal.as_mut_ptr(), refusal.len(),
                                origins.as_mut_ptr(), origins.len(), classes.as_mut_ptr(), classes.len(),
                                marks.as_mut_ptr(), marks.len(),
                            )
                        }
                    }
                }
                fn interp_one(g: &Grid<$T>, x: &[$T], refusal: &mut [usize], value: &mut [$T], marks: &mut [u8]) -> u8 {
                    unsafe {
                        if g.rectilinear {
                            rectilinear_interp_one(
                                g.axis_count, g.counts.as_ptr(), g.counts.len(), g.joined.as_ptr(), g.joined.len(),
                                g.values.as_ptr(), g.values.len(), g.mode, x.as_ptr(), x.len(),
                                refusal.as_mut_ptr(), refusal.len(), value.as_mut_ptr(), value.len(),
                                marks.as_mut_ptr(), marks.len(),
                            )
                        } else {
                            regular_interp_one(
                                g.axis_count, g.counts.as_ptr(), g.counts.len(), g.starts.as_ptr(), g.starts.len(),
                                g.steps.as_ptr(), g.steps.len(), g.values.as_ptr(), g.values.len(), g.mode,
                                x.as_ptr(), x.len(), refusal.as_mut_ptr(), refusal.len(), value.as_mut_ptr(), value.len(),
                                marks.as_mut_ptr(), marks.len(),
                            )
                        }
                    }
                }
                fn interp_one_grad(g: &Grid<$T>, x: &[$T], refusal: &mut [usize], gradient: &mut [$T], marks: &mut [u8]) -> u8 {
                    unsafe {
                        if g.rectilinear {
                            rectilinear_interp_one_grad(
                                g.axis_count, g.counts.as_ptr(), g.counts.len(), g.joined.as_ptr(), g.joined.len(),
                                g.values.as_ptr(), g.values.len(), g.mode, x.as_ptr(), x.len(),
                                refusal.as_mut_ptr(), refusal.len(), gradient.as_mut_ptr(), gradient.len(),
                                marks.as_mut_ptr(), marks.len(),
                            )
                        } else {
                            regular_interp_one_grad(
                                g.axis_count, g.counts.as_ptr(), g.counts.len(), g.starts.as_ptr(), g.starts.len(),
                                g.steps.as_ptr(), g.steps.len(), g.values.as_ptr(), g.values.len(), g.mode,
                                x.as_ptr(), x.len(), refusal.as_mut_ptr(), refusal.len(),
                                gradient.as_mut_ptr(), gradient.len(), marks.as_mut_ptr(), marks.len(),
                            )
                        }
                    }
                }
                fn interp_one_with_grad(
                    g: &Grid<$T>, x: &[$T], refusal: &mut [usize], value: &mut [$T], gradient: &mut [$T], marks: &mut [u8],
                    sums: &mut [usize],
                ) -> u8 {
                    unsafe {
                        if g.rectilinear {
                            rectilinear_interp_one_with_grad(
                                g.axis_count, g.counts.as_ptr(), g.counts.len(), g.joined.as_ptr(), g.joined.len(),
                                g.values.as_ptr(), g.values.len(), g.mode, x.as_ptr(), x.len(),
                                refusal.as_mut_ptr(), refusal.len(), value.as_mut_ptr(), value.len(),
                                gradient.as_mut_ptr(), gradient.len(), marks.as_mut_ptr(), marks.len(),
                                sums.as_mut_ptr(), sums.len(),
                            )
                        } else {
                            regular_interp_one_with_grad(
                                g.axis_count, g.counts.as_ptr(), g.counts.len(), g.starts.as_ptr(), g.starts.len(),
                                g.steps.as_ptr(), g.steps.len(), g.values.as_ptr(), g.values.len(), g.mode,
                                x.as_ptr(), x.len(), refusal.as_mut_ptr(), refusal.len(), value.as_mut_ptr(), value.len(),
                                gradient.as_mut_ptr(), gradient.len(), marks.as_mut_ptr(), marks.len(),
                                sums.as_mut_ptr(), sums.len(),
                            )
                        }
                    }
                }
                fn interp(g: &Grid<$T>, queries: &[$T], refusal: &mut [usize], out: &mut [$T]) -> u8 {
                    unsafe {
                        if g.rectilinear {
                            rectilinear_interp(
                                g.axis_count, g.counts.as_ptr(), g.counts.len(), g.joined.as_ptr(), g.joined.len(),
                                g.values.as_ptr(), g.values.len(), g.mode, queries.as_ptr(), queries.len(),
                                refusal.as_mut_ptr(), refusal.len(), out.as_mut_ptr(), out.len(),
                            )
                        } else {
                            regular_interp(
                                g.axis_count, g.counts.as_ptr(), g.counts.len(), g.starts.as_ptr(), g.starts.len(),
                                g.steps.as_ptr(), g.steps.len(), g.values.as_ptr(), g.values.len(), g.mode,
                                queries.as_ptr(), queries.len(), refusal.as_mut_ptr(), refusal.len(),
                                out.as_mut_ptr(), out.len(),
                            )
                        }
                    }
                }
                fn interp_grad(g: &Grid<$T>, queries: &[$T], refusal: &mut [usize], out: &mut [$T]) -> u8 {
                    unsafe {
                        if g.rectilinear {
                            rectilinear_interp_grad(
                                g.axis_count, g.counts.as_ptr(), g.counts.len(), g.joined.as_ptr(), g.joined.len(),
                                g.values.as_ptr(), g.values.len(), g.mode, queries.as_ptr(), queries.len(),
                                refusal.as_mut_ptr(), refusal.len(), out.as_mut_ptr(), out.len(),
                            )
                        } else {
                            regular_interp_grad(
                                g.axis_count, g.counts.as_ptr(), g.counts.len(), g.starts.as_ptr(), g.starts.len(),
                                g.steps.as_ptr(), g.steps.len(), g.values.as_ptr(), g.values.len(), g.mode,
                                queries.as_ptr(), queries.len(), refusal.as_mut_ptr(), refusal.len(),
                                out.as_mut_ptr(), out.len(),
                            )
                        }
                    }
                }
            }
        };
    };
}
calls!(f64, "capi", "");
calls!(f32, "capi_f32", "_f32");
