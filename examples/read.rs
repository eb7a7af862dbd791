// Reads a small rectilinear table from Rust by the calls for C: values, gradients and marks at a node, between nodes, and held
// past an end, by a call for each and by one for both. Exits with 1 where an answer is not what docs/SPECIFICATION.md says.

// The declarations are by hand, after include/veltzuma.h of this version.
const VERSION: u32 = 4;

#[link(name = "capi", kind = "static")]
unsafe extern "C" {
    fn veltzuma_version() -> u32;
    fn veltzuma_rectilinear_interp_one(
        axis_count: usize,
        counts: *const usize,
        counts_len: usize,
        axes: *const f64,
        axes_len: usize,
        vals: *const f64,
        vals_len: usize,
        mode: u8,
        x: *const f64,
        x_len: usize,
        refusal: *mut usize,
        refusal_len: usize,
        value: *mut f64,
        value_len: usize,
        marks: *mut u8,
        marks_len: usize,
    ) -> u8;
    fn veltzuma_rectilinear_interp_one_grad(
        axis_count: usize,
        counts: *const usize,
        counts_len: usize,
        axes: *const f64,
        axes_len: usize,
        vals: *const f64,
        vals_len: usize,
        mode: u8,
        x: *const f64,
        x_len: usize,
        refusal: *mut usize,
        refusal_len: usize,
        gradient: *mut f64,
        gradient_len: usize,
        marks: *mut u8,
        marks_len: usize,
    ) -> u8;
    fn veltzuma_rectilinear_interp_one_with_grad(
        axis_count: usize,
        counts: *const usize,
        counts_len: usize,
        axes: *const f64,
        axes_len: usize,
        vals: *const f64,
        vals_len: usize,
        mode: u8,
        x: *const f64,
        x_len: usize,
        refusal: *mut usize,
        refusal_len: usize,
        value: *mut f64,
        value_len: usize,
        gradient: *mut f64,
        gradient_len: usize,
        marks: *mut u8,
        marks_len: usize,
        sums: *mut usize,
        sums_len: usize,
    ) -> u8;
}

const CUBIC: u8 = 0;
const HELD: u8 = 2;

const NEITHER: u8 = 0;
const ABOVE: u8 = 2;

fn main() {
    // First of all: calls of another version may take other arguments, or answer otherwise.
    let version = unsafe { veltzuma_version() };
    if version != VERSION {
        println!("the archive is of version {version}, the declarations of {VERSION}");
        std::process::exit(1);
    }
    // Two axes; the values are x + 10 y, which the cubic gives back.
    let (x, y) = ([0.0, 1.0, 2.0, 4.0, 7.0], [0.0, 1.0, 2.0, 3.0]);
    let counts = [x.len(), y.len()];
    let axes: Vec<f64> = x.iter().chain(&y).copied().collect();
    let vals: Vec<f64> = x.iter().flat_map(|a| y.iter().map(move |b| a + 10.0 * b)).collect();
    let mut wrong = false;
    let cases = [
        (CUBIC, [4.0, 2.0], 24.0, [1.0, 10.0], [NEITHER, NEITHER]),
        (CUBIC, [3.0, 1.5], 18.0, [1.0, 10.0], [NEITHER, NEITHER]),
        // Past the last x, 7, the surface is level along x. The mark says that the query lay there.
        (HELD, [9.0, 1.5], 22.0, [0.0, 10.0], [ABOVE, NEITHER]),
    ];
    for (mode, query, expected, slopes, past) in cases {
        let (mut refusal, mut value, mut gradient) = ([9usize; 2], [0.0f64], [9.0f64; 2]);
        let (mut marks, mut marks_again) = ([9u8; 2], [9u8; 2]);
        let number = unsafe {
            veltzuma_rectilinear_interp_one(
                2, counts.as_ptr(), 2, axes.as_ptr(), axes.len(), vals.as_ptr(), vals.len(), mode, query.as_ptr(), 2,
                refusal.as_mut_ptr(), 2, value.as_mut_ptr(), 1, marks.as_mut_ptr(), 2,
            )
        };
        let second = unsafe {
            veltzuma_rectilinear_interp_one_grad(
                2, counts.as_ptr(), 2, axes.as_ptr(), axes.len(), vals.as_ptr(), vals.len(), mode, query.as_ptr(), 2,
                refusal.as_mut_ptr(), 2, gradient.as_mut_ptr(), 2, marks_again.as_mut_ptr(), 2,
            )
        };
        // Both in one call: the same numbers, the sums that they share being taken once, and how many were taken.
        let (mut value_of_both, mut gradient_of_both, mut marks_of_both, mut sums) = ([9.0f64], [9.0f64; 2], [9u8; 2], [9usize]);
        let third = unsafe {
            veltzuma_rectilinear_interp_one_with_grad(
                2, counts.as_ptr(), 2, axes.as_ptr(), axes.len(), vals.as_ptr(), vals.len(), mode, query.as_ptr(), 2,
                refusal.as_mut_ptr(), 2, value_of_both.as_mut_ptr(), 1, gradient_of_both.as_mut_ptr(), 2,
                marks_of_both.as_mut_ptr(), 2, sums.as_mut_ptr(), 1,
            )
        };
        println!(
            "mode {mode} at {query:?}: number {number}, value {}, gradient {gradient:?}, marks {marks:?}; both by {} sums",
            value[0], sums[0]
        );
        wrong |= marks != past || marks_again != past || marks_of_both != past;
        wrong |= third != 0 || value_of_both != value || gradient_of_both != gradient || sums[0] != 11;
        wrong |= number != 0 || second != 0 || (value[0] - expected).abs() > 1e-12;
        wrong |= (gradient[0] - slopes[0]).abs() > 1e-12 || (gradient[1] - slopes[1]).abs() > 1e-12;
    }
    std::process::exit(wrong as i32);
}
