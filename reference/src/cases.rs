//! Random grids and queries, the same for the same seed. Used by `corpus` and `compare`.
//! All grids made here are ordered, so that both sides take them or both refuse them, but for flat axes: those ours refuses
//! with 10 and the Rust takes. A rectilinear axis may be flat as drawn, for ours alone; `mended` makes it rise for both.
//! The draws of f64 must not change: the corpus of f64 is made of them.
use crate::width::Width;

/// splitmix64: small, and the same on every machine.
#[derive(Default)]
pub struct Rng(pub u64);
impl Rng {
    pub fn next(&mut self) -> u64 {
        self.0 = self.0.wrapping_add(0x9e3779b97f4a7c15);
        let mut z = self.0;
        z = (z ^ (z >> 30)).wrapping_mul(0xbf58476d1ce4e5b9);
        z = (z ^ (z >> 27)).wrapping_mul(0x94d049bb133111eb);
        z ^ (z >> 31)
    }
    pub fn below(&mut self, n: usize) -> usize {
        (self.next() % n as u64) as usize
    }
    pub fn range(&mut self, lo: i64, hi: i64) -> i64 {
        lo + (self.next() % (hi - lo + 1) as u64) as i64
    }
    /// From 0 up to, not including, 1.
    pub fn unit(&mut self) -> f64 {
        (self.next() >> 11) as f64 / (1u64 << 53) as f64
    }
    pub fn coin(&mut self) -> bool {
        self.next() >> 63 == 1
    }
    pub fn one_in(&mut self, n: usize) -> bool {
        self.below(n) == 0
    }
    pub fn pick<T: Copy>(&mut self, xs: &[T]) -> T {
        xs[self.below(xs.len())]
    }
}

#[derive(Clone, Debug)]
pub enum Axis<T> {
    Regular { start: T, step: T, n: usize },
    Rectilinear(Vec<T>),
}
impl<T: Width> Axis<T> {
    pub fn n(&self) -> usize {
        match self {
            Axis::Regular { n, .. } => *n,
            Axis::Rectilinear(a) => a.len(),
        }
    }
    pub fn node(&self, i: usize) -> T {
        match self {
            Axis::Regular { start, step, .. } => *start + *step * T::of(i as f64),
            Axis::Rectilinear(a) => a[i],
        }
    }
    /// Whether an entry of a rectilinear axis is equal to the one before it, as numbers: -0 and +0 are.
    pub fn flat(&self) -> bool {
        matches!(self, Axis::Rectilinear(a) if a.windows(2).any(|pair| pair[0] == pair[1]))
    }
    /// The axis with every entry above the one before it, for an axis that is ordered; one that rises stays as it is. Each
    /// entry that does not rise is the next number above the one before it. There is none above infinity: then the entries
    /// before it are the numbers below it, one after the other.
    pub fn mended(&self) -> Axis<T> {
        let mut axis = self.clone();
        if let Axis::Rectilinear(a) = &mut axis {
            for i in 1..a.len() {
                if !(a[i] > a[i - 1]) {
                    a[i] = a[i - 1].up();
                }
            }
            for i in (1..a.len()).rev() {
                if !(a[i - 1] < a[i]) {
                    a[i - 1] = a[i].down();
                }
            }
            assert!(a.windows(2).all(|pair| pair[1] > pair[0]));
        }
        axis
    }
    /// Whether the quotient is exactly -2^63, where the two sides are meant to differ.
    pub fn apart(&self, x: T) -> bool {
        match self {
            Axis::Regular { start, step, .. } => (x - *start) / *step == -T::of(pow2(63)),
            Axis::Rectilinear(_) => false,
        }
    }
}

/// The two modes of the Rust, by the numbers of the C calls: its linearize_extrapolation off and on.
pub const CUBIC: u8 = 0;
pub const STRAIGHT: u8 = 1;

/// A grid in the form that the C calls take. Fields of the other kind stay empty.
#[derive(Clone, Debug)]
pub struct Grid<T> {
    pub rectilinear: bool,
    /// The Rust is asked in STRAIGHT where it is that, and in CUBIC where it is anything else.
    pub mode: u8,
    /// As told to ours; the counts may be fewer.
    pub axis_count: usize,
    pub counts: Vec<usize>,
    pub starts: Vec<T>,
    pub steps: Vec<T>,
    pub joined: Vec<T>,
    pub values: Vec<T>,
}
impl<T: Width> Grid<T> {
    pub fn new(axes: &[Axis<T>], values: Vec<T>, mode: u8) -> Grid<T> {
        let mut g = Grid {
            rectilinear: matches!(axes[0], Axis::Rectilinear(_)),
            mode,
            axis_count: axes.len(),
            counts: axes.iter().map(Axis::n).collect(),
            starts: vec![],
            steps: vec![],
            joined: vec![],
            values,
        };
        for a in axes {
            match a {
                Axis::Regular { start, step, .. } => {
                    g.starts.push(*start);
                    g.steps.push(*step);
                }
                Axis::Rectilinear(a) => g.joined.extend(a),
            }
        }
        g
    }
    /// The joined axes cut apart by the counts; the last axis takes what is left, so that a joined length that is
    /// wrong reaches the Rust as a count that does not fit the values.
    pub fn cut(&self) -> Vec<&[T]> {
        let mut rest = &self.joined[..];
        let last = self.counts.len() - 1;
        let mut parts = vec![];
        for &n in &self.counts[..last] {
            let (part, more) = rest.split_at(n);
            parts.push(part);
            rest = more;
        }
        parts.push(rest);
        parts
    }
}

pub fn product<T: Width>(axes: &[Axis<T>]) -> usize {
    axes.iter().map(Axis::n).product()
}

pub fn pow2(e: i64) -> f64 {
    2.0f64.powi(e as i32)
}

fn number(r: &mut Rng) -> f64 {
    (r.unit() * 2.0 - 1.0) * pow2(r.range(-10, 10))
}

pub fn subnormal<T: Width>(r: &mut Rng) -> T {
    let digits = r.next() >> (65 - T::DIGITS) >> r.below(T::DIGITS as usize - 3);
    T::from_bits(digits | (r.next() & 1) << (T::SIZE - 1))
}

/// The least number above zero.
fn least<T: Width>() -> T {
    T::zero().up()
}

// ---- axes ----

pub fn regular_axis<T: Width>(r: &mut Rng, flavour: &str, n: usize) -> Axis<T> {
    let rounded = |(start, step): (f64, f64)| (T::of(start), T::of(step));
    let (start, step) = match flavour {
        // Steps a power of two, starts whole multiples of them: nodes are exact.
        "exact" => {
            let e = r.range(-20, 20);
            rounded((r.range(-(1 << 20), 1 << 20) as f64 * pow2(e), pow2(e)))
        }
        "whole" => rounded((r.range(-9, 9) as f64, r.pick(&[1.0, 2.0, 0.5, 3.0]))),
        "plain" => rounded((number(r), r.pick(&[0.1, 0.3, 1.0 / 3.0, 1.7, 0.01, 123.456]))),
        "wild" => rounded((number(r) * pow2(r.range(-60, 60)), (1.0 + r.unit()) * pow2(r.range(-60, 60)))),
        "huge" => {
            let e = T::TOP - r.range(0, 12);
            rounded(((r.unit() * 2.0 - 1.0) * pow2(e), (1.0 + r.unit()) * pow2(e - r.range(0, 6) - 1)))
        }
        "extreme" => (
            r.pick(&[-T::MAX, T::MAX, T::of(0.0), T::of(-0.0), T::of(1.0)]),
            r.pick(&[T::MAX, T::MIN_POSITIVE, least(), T::INFINITY, T::of(1.0)]),
        ),
        "tiny" => {
            let s = subnormal::<T>(r).abs().max(least());
            (subnormal(r), r.pick(&[s, least(), T::MIN_POSITIVE, T::MIN_POSITIVE * T::of(8.0)]))
        }
        // Starts that are not finite: no query can be placed.
        "lost" => (r.pick(&[T::INFINITY, T::NEG_INFINITY, T::NAN]), r.pick(&[T::INFINITY, T::of(1.0), T::of(0.25)])),
        // Quotients come out as wanted: start 0, step a power of two.
        "quotient" => rounded((r.pick(&[0.0, -0.0]), pow2(r.range(-20, 20)))),
        "bits" => {
            let step = T::from_bits(r.next()).abs();
            (T::from_bits(r.next()), if step > T::zero() { step } else { T::one() })
        }
        _ => unreachable!(),
    };
    Axis::Regular { start, step, n }
}

/// An axis that is ordered, and may be flat: the flavours `flat` and `zeros` are, `extreme`, `huge` and `bits` may be.
pub fn rectilinear_axis<T: Width>(r: &mut Rng, flavour: &str, n: usize) -> Axis<T> {
    // Each sum is rounded; where it does not rise, the next number above is taken.
    let rising = |r: &mut Rng, first: T, gap: &mut dyn FnMut(&mut Rng) -> T| {
        let mut a = vec![first];
        while a.len() < n {
            let last = a[a.len() - 1];
            let next = last + gap(r);
            a.push(if next > last { next } else { last.up() });
        }
        a
    };
    let mut a = match flavour {
        "exact" => {
            let first = r.range(-(1 << 20), 1 << 20) as f64 * pow2(r.range(-20, 0));
            let wide = r.coin();
            rising(r, T::of(first), &mut |r| T::of(pow2(if wide { r.range(-20, 19) } else { r.range(-3, 3) })))
        }
        "whole" => {
            let first = r.range(-9, 9) as f64;
            rising(r, T::of(first), &mut |r| T::of(r.range(1, 4) as f64))
        }
        "plain" => {
            let first = number(r);
            rising(r, T::of(first), &mut |r| T::of(0.05 + r.unit()))
        }
        "wild" => {
            let first = number(r);
            rising(r, T::of(first), &mut |r| T::of((1.0 + r.unit()) * pow2(r.range(-40, 40))))
        }
        // Equal neighbours after entry 1.
        "flat" => {
            let first = number(r);
            let mut a = rising(r, T::of(first), &mut |r| T::of(0.05 + r.unit()));
            for _ in 0..r.range(1, 3) {
                let i = 2 + r.below(n - 2);
                a[i] = a[i - 1];
            }
            a
        }
        // -0 and +0 as equal neighbours after entry 1.
        "zeros" => {
            let k = 1 + r.below(n - 2);
            let mut a: Vec<T> = (0..n).map(|i| T::of(i as f64 - k as f64)).collect();
            let (plus, minus) = (T::of(0.0), T::of(-0.0));
            (a[k], a[k + 1]) = if r.coin() { (plus, minus) } else { (minus, plus) };
            a
        }
        "huge" => {
            let e = T::TOP - r.range(0, 3);
            rising(r, T::of(-pow2(e)), &mut |r| T::of(r.unit() * pow2(e - 1)))
        }
        "extreme" => {
            let low = r.pick(&[T::NEG_INFINITY, -T::MAX]);
            let half = T::MAX / T::of(2.0);
            let mut rest: Vec<T> = (1..n)
                .map(|_| r.pick(&[-T::MAX, -half, T::of(-1.0), T::of(0.0), T::of(1.0), half, T::MAX, T::INFINITY]))
                .collect();
            rest.sort_by(T::total_cmp);
            if rest[0] <= low {
                rest[0] = low.up();
            }
            rest.insert(0, low);
            rest
        }
        "tiny" => {
            let first = subnormal(r);
            rising(r, first, &mut |r| subnormal::<T>(r).abs())
        }
        "bits" => {
            let mut a: Vec<T> = (0..n)
                .map(|_| {
                    let x = T::from_bits(r.next());
                    if x.is_nan() { T::one() } else { x }
                })
                .collect();
            a.sort_by(T::total_cmp);
            if !(a[1] > a[0]) {
                a[0] = T::NEG_INFINITY;
                a[1] = a[1].max(-T::MAX);
            }
            a
        }
        _ => unreachable!(),
    };
    // Whatever a flavour did, the axis is ordered; here too it may come out flat after entry 1.
    for i in 2..n {
        if a[i] < a[i - 1] {
            a[i] = a[i - 1];
        }
    }
    assert!(a[1] > a[0]);
    Axis::Rectilinear(a)
}

pub fn axis<T: Width>(r: &mut Rng, rectilinear: bool, flavour: &str, n: usize) -> Axis<T> {
    if rectilinear { rectilinear_axis(r, flavour, n) } else { regular_axis(r, flavour, n) }
}

// ---- queries ----

/// A coordinate made to fall into the class wanted (numbers as in `oracle_place`). On odd axes rounding may move it.
pub fn of_class<T: Width>(r: &mut Rng, a: &Axis<T>, class: usize) -> T {
    let n = a.n();
    match a {
        Axis::Regular { start, step, .. } => {
            let u = r.unit();
            let q = match class {
                0 => 1.0 + u * (n as f64 - 3.0),
                1 => u,
                2 => -4.0 * u - 0.001,
                3 => n as f64 - 2.0 + u,
                _ => n as f64 - 1.0 + 4.0 * u,
            };
            *start + *step * T::of(q)
        }
        Axis::Rectilinear(a) => {
            let far = T::of(r.unit()) * (a[n - 1] - a[0]).min(T::MAX);
            let i = match class {
                0 => 1 + r.below(n - 3),
                1 => 0,
                2 => return a[0] - far,
                3 => n - 2,
                _ => return (a[n - 1] + far).max(a[n - 1].up()),
            };
            a[i] + T::of(1.0 - r.unit()) * (a[i + 1] - a[i])
        }
    }
}

pub fn any_class<T: Width>(r: &mut Rng, a: &Axis<T>) -> T {
    let class = r.below(5);
    of_class(r, a, class)
}

/// A node, or the float just above or below it.
pub fn near_node<T: Width>(r: &mut Rng, a: &Axis<T>) -> T {
    let x = a.node(r.below(a.n()));
    match r.below(5) {
        0 => x.up(),
        1 => x.down(),
        _ => x,
    }
}

/// Zeros, infinities, NaN, extremes and subnormals.
pub fn special<T: Width>(r: &mut Rng) -> T {
    match r.below(12) {
        0 => T::of(0.0),
        1 => T::of(-0.0),
        2 => T::INFINITY,
        3 => T::NEG_INFINITY,
        4 => T::NAN,
        5 => T::MAX,
        6 => -T::MAX,
        7 => T::MIN_POSITIVE,
        8 => -T::MIN_POSITIVE,
        9 => least(),
        10 => -least::<T>(),
        _ => subnormal(r),
    }
}

/// A quotient at or beside one of the marks, on an axis of the flavour "quotient". The marks are 2^63; 2^53 or 2^24, above
/// which the odd numbers are missing; and 2^52 or 2^23, from which on all numbers are whole.
pub fn at_mark<T: Width>(r: &mut Rng, a: &Axis<T>) -> T {
    let Axis::Regular { step, n, .. } = a else { unreachable!() };
    let digits = T::DIGITS as i64;
    let [top, even, whole] = [63, digits, digits - 1].map(|e| T::of(pow2(e)));
    // The last four in f32 alone, so that the draws of f64 stay.
    let many = if T::DIGITS == 53 { 19 } else { 23 };
    let q = match r.below(many) {
        0 => top,
        1 | 2 => top.down(),
        3 => top.up(),
        4 => -top,
        5 | 6 => (-top).up(),
        7 => (-top).down(),
        8 => even,
        9 => even.down(),
        10 => even.up(),
        11 => -even,
        12 => (-even).up(),
        13 => (-even).down(),
        14 => T::of(*n as f64 - 1.0).down(),
        15 => -least::<T>(),
        16 => T::of(r.pick(&[pow2(62), -pow2(62), pow2(64), -pow2(64), 1e30, -1e30])),
        17 => whole.down(),
        18 => (-whole).up(),
        19 => whole,
        20 => whole.up(),
        21 => -whole,
        _ => (-whole).down(),
    };
    q * *step
}

// ---- values ----

pub fn values<T: Width>(r: &mut Rng, flavour: &str, len: usize) -> Vec<T> {
    let part = |n: f64| T::MAX / T::of(n);
    (0..len)
        .map(|_| match flavour {
            "whole" => T::of(r.range(-1000, 1000) as f64),
            "short" => T::of(r.range(-64, 64) as f64 / 8.0),
            "unit" => T::of(r.unit() * 2.0 - 1.0),
            "log" => T::of((r.unit() * 2.0 - 1.0) * pow2(r.range(-40, 40))),
            "big" => r.pick(&[T::MAX, -T::MAX, part(4.0), -part(2.0), T::of(1.0)]),
            "small" => {
                let some = subnormal(r);
                r.pick(&[least(), -least::<T>(), T::MIN_POSITIVE, T::of(-0.0), T::of(0.0), some])
            }
            "zeros" => T::of(r.pick(&[0.0, -0.0])),
            "odd" => {
                if r.one_in(12) {
                    r.pick(&[T::NAN, T::INFINITY, T::NEG_INFINITY, T::of(-0.0), T::MAX])
                } else {
                    T::of(r.range(-9, 9) as f64)
                }
            }
            "nan" => T::NAN,
            "bits" => T::from_bits(r.next()),
            _ => unreachable!(),
        })
        .collect()
}

pub fn any_values<T: Width>(r: &mut Rng, len: usize) -> Vec<T> {
    let flavour = match r.below(24) {
        0..=7 => "whole",
        8..=10 => "short",
        11..=14 => "unit",
        15..=16 => "log",
        17 => "big",
        18 => "small",
        19 => "zeros",
        20..=22 => "odd",
        _ => "bits",
    };
    values(r, flavour, len)
}

// ---- grids that `new` refuses with 3, 4 or 5 ----

/// One or more faults, at random. The caller asks the Rust what it makes of them.
pub fn faulty<T: Width>(r: &mut Rng, rectilinear: bool, many: usize, count: &mut dyn FnMut(&mut Rng) -> usize) -> Grid<T> {
    let mut axes: Vec<Axis<T>> = (0..many)
        .map(|_| {
            let n = count(r);
            axis(r, rectilinear, "whole", n)
        })
        .collect();
    let (mut more_values, mut more_joined) = (0i64, 0i64);
    for _ in 0..r.range(1, 3) {
        let d = r.below(many);
        match (r.below(6), &mut axes[d]) {
            (0, _) => more_values = r.pick(&[1, -1, 7, -4]),
            (1, Axis::Rectilinear(_)) => more_joined = r.pick(&[1, -1, 4]),
            (1 | 2, Axis::Regular { n, .. }) => *n = r.pick(&[0, 1, 2, 3, 3]),
            (2, Axis::Rectilinear(a)) => a.truncate(r.pick(&[0, 1, 2, 3, 3])),
            (_, Axis::Regular { step, .. }) => {
                *step = r.pick(&[T::of(0.0), T::of(-0.0), T::of(-1.0), T::NAN, T::NEG_INFINITY, -T::MIN_POSITIVE])
            }
            (3, Axis::Rectilinear(a)) => a.iter_mut().take(2).for_each(|x| *x = T::zero()),
            (4, Axis::Rectilinear(a)) => a.iter_mut().take(1 + r.below(2)).for_each(|x| *x = T::NAN),
            (_, Axis::Rectilinear(a)) => a.iter_mut().take(1).for_each(|x| *x = T::of(1e9)),
        }
    }
    // A wrong joined length by itself, and on no empty axis: else the counts that the Rust sees could fit the values.
    if more_joined != 0 {
        more_values = 0;
        if axes.iter().any(|a| a.n() == 0) {
            more_joined = 0;
        }
    }
    let len = (product(&axes) as i64 + more_values).max(0) as usize;
    let values = values(r, "short", len);
    let mut g = Grid::new(&axes, values, r.coin() as u8);
    if rectilinear {
        let len = (g.joined.len() as i64 + more_joined) as usize;
        g.joined.resize(len, T::of(99.0));
    }
    g
}
