//! Makes the corpus: grids and queries, with what the original Rust answers. The same bytes for the same seed.
//!   corpus [f32] SEED FILE        (from target/checked)
//! The file is a sequence of 64-bit little-endian words. Word 0: the number of groups. Then each group:
//!   kind       0 regular, 1 rectilinear
//!   mode       0 cubic, 1 straight (linearize_extrapolation)
//!   n          axis count
//!   counts     4 words, 0 past n
//!   regular: starts, 4 words, and steps, 4 words (bits, 0 past n); rectilinear: J, then J words, the joined axes (bits)
//!   V, then V words, the values (bits)
//!   number, axis   what `new` gives: 0 0, or 3, 4, 5 with the lowest such axis (0 for 3); then Q is 0
//!   Q          number of queries
//!   queries    n * Q words, joined columns (bits)
//!   answers    for each query: 1, then n words origin * 8 + class, the value, n words the gradient (bits, any NaN as
//!              7ff8000000000000); or, where it cannot be placed, 0 and the lowest axis on which get_loc refuses
//! With f32 the same words, the bits of an f32 in the low half of its word, any NaN answer as 7fc00000.
//! No query has a NaN coordinate: ours refuses those with 9, and the Rust is no reference for them. Where one is drawn, its
//! query is left out, or a number stands in its place (`put_numbers`); both are counted.
//! No grid that is taken has a flat axis: ours refuses those with 10, and the Rust, which takes them, is no reference there.
//! Where one is drawn, its entries are mended before the queries are drawn (`mend`); groups, axes and entries are counted.
#[path = "../cases.rs"]
mod cases;
#[path = "../original.rs"]
mod original;
#[path = "../width.rs"]
mod width;
use cases::*;
use original::*;
use std::collections::BTreeMap;
use std::num::FpCategory;
use std::panic::catch_unwind;
use width::*;

const MOST_WORDS: usize = 131_072;
const CLASSES: [&str; 5] = ["None", "InsideLow", "OutsideLow", "InsideHigh", "OutsideHigh"];
const KINDS: [&str; 2] = ["regular", "rectilinear"];
const MODES: [&str; 2] = ["cubic", "straight"];

/// The bits of an answer; any NaN as the quiet one without payload.
fn bits<T: Width>(x: T) -> u64 {
    if x.is_nan() { T::INFINITY.bits() | 1 << (T::DIGITS - 2) } else { x.bits() }
}

/// A NaN with the upper digits of the word as its payload.
fn with_payload<T: Width>(word: u64) -> T {
    T::from_bits(T::INFINITY.bits() | word >> (65 - T::DIGITS) | 1)
}

/// `wide` in f64; `narrow` in f32, where `wide` would round to zero or to infinity.
fn either<T: Width>(wide: f64, narrow: f64) -> T {
    T::of(if T::DIGITS == 53 { wide } else { narrow })
}

struct Corpus {
    words: Vec<u64>,
    groups: usize,
    queries: usize,
    /// Queries left out: by a quotient of exactly -2^63; and by a NaN coordinate, of each kind.
    apart: usize,
    missing: [usize; 2],
    /// Queries with a number in the place of a NaN that was drawn, and the draws of such numbers, which are their own.
    in_place: usize,
    numbers: Rng,
    /// Groups with a flat axis as drawn, such axes by their flavour, and their entries that were changed.
    mended: usize,
    mended_axes: BTreeMap<String, usize>,
    entries: usize,
    tally: BTreeMap<String, usize>,
    /// By kind, mode, axis count, axis and class.
    classes: BTreeMap<(usize, usize, usize, usize, usize), usize>,
}

impl Corpus {
    fn count(&mut self, what: String) {
        *self.tally.entry(what).or_default() += 1;
    }

    fn head<T: Width>(&mut self, topic: &str, g: &Grid<T>) {
        let n = g.counts.len();
        assert!((1..=4).contains(&n) && g.axis_count == n && g.values.len() <= 4096 && g.joined.len() <= 4096);
        self.groups += 1;
        self.count(format!("groups, {}, axis count {n}", KINDS[g.rectilinear as usize]));
        self.count(format!("groups, {}", MODES[g.mode as usize]));
        self.count(format!("topic {topic}: groups"));
        let four = |xs: &[u64]| (0..4).map(|i| xs.get(i).copied().unwrap_or(0)).collect::<Vec<u64>>();
        let raw = |xs: &[T]| xs.iter().map(|x| x.bits()).collect::<Vec<u64>>();
        self.words.extend([g.rectilinear as u64, g.mode as u64, n as u64]);
        self.words.extend(four(&g.counts.iter().map(|&n| n as u64).collect::<Vec<u64>>()));
        if g.rectilinear {
            self.words.push(g.joined.len() as u64);
            self.words.extend(raw(&g.joined));
        } else {
            self.words.extend(four(&raw(&g.starts)));
            self.words.extend(four(&raw(&g.steps)));
        }
        self.words.push(g.values.len() as u64);
        self.words.extend(raw(&g.values));
    }

    /// The axes of a group, those that are flat mended.
    fn mend<T: Width>(&mut self, drawn: Vec<(&str, Axis<T>)>) -> Vec<Axis<T>> {
        self.mended += drawn.iter().any(|(_, a)| a.flat()) as usize;
        let mut axes = vec![];
        for (flavour, a) in drawn {
            let risen = a.mended();
            if a.flat() {
                *self.mended_axes.entry(flavour.into()).or_default() += 1;
                self.entries += (0..a.n()).filter(|&i| a.node(i).bits() != risen.node(i).bits()).count();
            }
            axes.push(risen);
        }
        axes
    }

    /// Puts numbers in the place of NaN coordinates on regular axes that start at no finite number. There nearly every draw
    /// is a NaN, and what such an axis is for is a quotient that is NaN or infinite.
    fn put_numbers<T: Width>(&mut self, axes: &[Axis<T>], x: &mut [T]) {
        let mut any = false;
        for (a, x) in axes.iter().zip(x) {
            if x.is_nan() && matches!(a, Axis::Regular { start, .. } if !start.is_finite()) {
                let [zero, one] = [T::zero(), T::one()];
                *x = self.numbers.pick(&[zero, -zero, one, -one, T::MAX, -T::MAX, T::INFINITY, T::NEG_INFINITY]);
                any = true;
            }
        }
        self.in_place += any as usize;
    }

    /// A grid that `new` takes, and queries to it.
    fn group<T: Width>(&mut self, topic: &str, axes: &[Axis<T>], mode: u8, values: Vec<T>, mut queries: Vec<Vec<T>>) {
        assert!(!axes.iter().any(Axis::flat));
        let g = Grid::new(axes, values, mode);
        queries.iter_mut().for_each(|x| self.put_numbers(axes, x));
        let before = queries.len();
        queries.retain(|x| !axes.iter().zip(x).any(|(a, &x)| a.apart(x)));
        let between = queries.len();
        queries.retain(|x| !x.iter().any(|x| x.is_nan()));
        self.apart += before - between;
        self.missing[g.rectilinear as usize] += between - queries.len();
        let n = axes.len();
        let c = queries.len();
        assert!(c <= 64);
        self.head(topic, &g);
        self.words.extend([0, 0, c as u64]);
        let columns: Vec<Vec<T>> = (0..n).map(|d| queries.iter().map(|x| x[d]).collect()).collect();
        for column in &columns {
            self.words.extend(column.iter().map(|x| x.bits()));
        }
        read(&g, |reader| {
            let reader = reader.expect("a group's grid is taken");
            let mut answers: Vec<Option<(T, Vec<T>)>> = vec![];
            for x in &queries {
                answers.push(self.answer(topic, &g, axes, reader, x));
            }
            // The batch follows from the single answers: the entries before the first unplaceable query hold them,
            // the others keep what they held.
            let first = answers.iter().position(|a| a.is_none());
            let expected = |result: Result<(), Message>| match result {
                Ok(()) => assert_eq!(first, None),
                Err(message) => assert!(first.is_some() && message == UNPLACEABLE),
            };
            let columns: Vec<&[T]> = columns.iter().map(|x| &x[..]).collect();
            let mut out: Vec<T> = (0..c).map(T::untouched).collect();
            expected(reader.batch(&columns, &mut out));
            let mut grad: Vec<Vec<T>> = (0..n).map(|d| (0..c).map(|i| T::untouched(d * c + i)).collect()).collect();
            expected(reader.batch_grad(&columns, &mut grad.iter_mut().map(|x| &mut x[..]).collect::<Vec<_>>()));
            for i in 0..c {
                if i < first.unwrap_or(c) {
                    let (value, gradient) = answers[i].as_ref().unwrap();
                    assert!(out[i].same(*value) && out[i].bits() != T::untouched(i).bits());
                    for d in 0..n {
                        assert!(grad[d][i].same(gradient[d]) && grad[d][i].bits() != T::untouched(d * c + i).bits());
                    }
                } else {
                    assert_eq!(out[i].bits(), T::untouched(i).bits());
                    for d in 0..n {
                        assert_eq!(grad[d][i].bits(), T::untouched(d * c + i).bits());
                    }
                }
            }
            if let Some(k) = first {
                if k > 0 && answers[k..].iter().any(|a| a.is_some()) {
                    self.count("groups with an unplaceable query in the middle".into());
                }
            }
        });
    }

    /// One query's answer, written down and counted.
    fn answer<T: Width>(
        &mut self,
        topic: &str,
        g: &Grid<T>,
        axes: &[Axis<T>],
        reader: &dyn Reader<T>,
        x: &[T],
    ) -> Option<(T, Vec<T>)> {
        let n = x.len();
        let kind = KINDS[g.rectilinear as usize];
        self.queries += 1;
        self.count(format!("queries, {kind}, axis count {n}"));
        self.count(format!("topic {topic}: queries"));
        assert!(!x.iter().any(|x| x.is_nan()));
        for (what, is) in [
            ("an infinity", (|x| x.is_infinite()) as fn(&T) -> bool),
            ("a subnormal number", |x| x.classify() == FpCategory::Subnormal),
            ("-0", |x| x.bits() == T::of(-0.0).bits()),
        ] {
            if x.iter().any(is) {
                self.count(format!("queries with {what}, {kind}"));
            }
        }
        if axes.iter().zip(x).all(|(a, &x)| (0..a.n()).any(|i| a.node(i) == x)) {
            self.count(format!("queries at a node, {kind}"));
        }
        let close = |a: &Axis<T>| matches!(a, Axis::Rectilinear(a) if a.windows(2).any(|pair| pair[0].up() == pair[1]));
        if axes.iter().any(close) {
            self.count("queries to an axis with an entry that is the next number above the one before".into());
        }
        for (a, &x) in axes.iter().zip(x) {
            if let Axis::Regular { start, step, .. } = a {
                let q = ((x - *start) / *step).abs();
                if q.is_nan() {
                    let i = [start.is_nan(), (x - *start).is_nan(), true].iter().position(|&is| is).unwrap();
                    self.count(NAN_QUOTIENTS[i].into());
                }
                for e in marks::<T>() {
                    let mark = T::of(pow2(e));
                    if q >= mark.down() && q <= mark.up() {
                        self.count(beside(e));
                    }
                }
            }
        }
        let places: Vec<Option<(usize, u8)>> = (0..n).map(|d| reader.place(x[d], d)).collect();
        let value = reader.one(x);
        let mut gradient = vec![T::zero(); n];
        let taken = reader.one_grad(x, &mut gradient);
        if let Some(axis) = places.iter().position(|p| p.is_none()) {
            assert!(value == Err(UNPLACEABLE) && taken == Err(UNPLACEABLE));
            self.count(format!("queries unplaceable, {kind}, axis count {n}"));
            self.count(format!("unplaceable on axis {axis} first"));
            self.words.extend([0, axis as u64]);
            return None;
        }
        let value = value.unwrap();
        taken.unwrap();
        self.words.push(1);
        for (d, p) in places.iter().enumerate() {
            let (origin, class) = p.unwrap();
            *self.classes.entry((g.rectilinear as usize, g.mode as usize, n, d, class as usize)).or_default() += 1;
            self.words.push(origin as u64 * 8 + class as u64);
        }
        self.words.push(bits(value));
        self.words.extend(gradient.iter().map(|&x| bits(x)));
        if value.is_nan() {
            self.count(format!("answers with a NaN value, {kind}"));
        }
        // Where NaN values stand, against the query's block.
        let mut nans = [false; 2];
        for (i, v) in g.values.iter().enumerate() {
            if v.is_nan() {
                let mut rest = i;
                let mut inside = true;
                for d in (0..n).rev() {
                    let (origin, _) = places[d].unwrap();
                    inside &= (origin..origin + 4).contains(&(rest % g.counts[d]));
                    rest /= g.counts[d];
                }
                nans[inside as usize] = true;
            }
        }
        if nans[1] {
            self.count("queries with a NaN value inside the block".into());
            assert!(value.is_nan());
        } else if nans[0] {
            self.count("queries with NaN values outside the block only".into());
        }
        Some((value, gradient))
    }

    /// A grid that `new` refuses.
    fn refused<T: Width>(&mut self, g: &Grid<T>) -> bool {
        let Some(message) = read(g, |reader| reader.err()) else { return false };
        let (number, axis) = refusal(g, message);
        self.head("refused", g);
        self.count(format!("refusals, number {number}"));
        self.words.extend([number as u64, axis as u64, 0]);
        true
    }
}

/// What makes the quotient of a number a NaN, the first that applies.
const NAN_QUOTIENTS: [&str; 3] = [
    "coordinates with a NaN quotient, the start being NaN",
    "coordinates with a NaN quotient, by an infinity less an infinity",
    "coordinates with a NaN quotient, by an infinity over an infinity",
];

fn marks<T: Width>() -> [i64; 3] {
    [T::DIGITS as i64 - 1, T::DIGITS as i64, 63]
}
fn beside(e: i64) -> String {
    format!("coordinates with a quotient at or beside 2^{e} or -2^{e}")
}

/// Small counts: the words go to queries rather than to tables.
fn count(r: &mut Rng, many: usize) -> usize {
    match many {
        1 => r.pick(&[4, 4, 5, 5, 6, 7]),
        2 => r.pick(&[4, 4, 4, 5, 5, 6, 7]),
        3 => r.pick(&[4, 4, 4, 4, 5]),
        _ => 4,
    }
}

fn grid<T: Width>(r: &mut Rng, o: &mut Corpus, rectilinear: bool, flavours: &[&str], many: usize) -> Vec<Axis<T>> {
    let longer = if many == 4 && r.coin() { r.below(4) } else { 9 };
    let drawn = (0..many)
        .map(|d| {
            let n = if d == longer { 5 } else { count(r, many) };
            let flavour = r.pick(flavours);
            (flavour, axis(r, rectilinear, flavour, n))
        })
        .collect();
    o.mend(drawn)
}

fn how_many_axes(r: &mut Rng) -> usize {
    r.pick(&[1, 1, 1, 1, 1, 1, 1, 2, 2, 2, 2, 2, 2, 3, 3, 3, 3, 4, 4])
}

fn make<T: Width>(r: &mut Rng, o: &mut Corpus) {
    let [zero, one] = [T::zero(), T::one()];
    let all = |xs: &[f64]| xs.iter().map(|&x| T::of(x)).collect::<Vec<T>>();
    // The marked cases (clause 9.1), and the cubes 0, 1, 8, 27.
    let five = [Axis::Regular { start: zero, step: one, n: 5 }];
    let uneven = [Axis::Rectilinear(all(&[0.0, 1.0, 2.0, 4.0, 7.0]))];
    let cubes = [Axis::Regular { start: zero, step: one, n: 4 }];
    let single = |xs: &[f64]| xs.iter().map(|&x| vec![T::of(x)]).collect::<Vec<_>>();
    for mode in [CUBIC, STRAIGHT] {
        let v = values(r, "whole", 5);
        o.group("marked", &five, mode, v, single(&[-0.5, 0.0, 1.0, 2.5, 3.0, 4.0, pow2(63)]));
        let v = values(r, "whole", 5);
        o.group("marked", &uneven, mode, v, single(&[0.0, 1.0, 4.0, 7.0, 8.0]));
        let mut queries = single(&[1.5, 4.0, -0.0]);
        queries.push(vec![either(-1e-300, -1e-37)]);
        o.group("marked", &cubes, mode, all(&[0.0, 1.0, 8.0, 27.0]), queries);
        o.group("marked", &cubes, mode, vec![T::NAN; 4], single(&[1.5, 4.0]));
        o.group("marked", &uneven, mode, vec![one; 5], vec![]);
        o.group("marked", &five, mode, vec![one; 5], vec![]);
    }

    // Every class on every axis: all combinations on one to three axes, each at random on four.
    let ordinary = ["whole", "plain", "plain", "exact"];
    for rectilinear in [false, true] {
        for mode in [CUBIC, STRAIGHT] {
            for many in 1..=4usize {
                let mut combos: Vec<usize> = (0..5usize.pow(many as u32)).collect();
                for i in (1..combos.len()).rev() {
                    let j = r.below(i + 1);
                    combos.swap(i, j);
                }
                let (parts, size) = [(6, 5), (6, 25), (10, 13), (5, 10)][many - 1];
                for part in 0..parts {
                    let axes = grid::<T>(r, o, rectilinear, &ordinary, many);
                    let v = any_values(r, product(&axes));
                    let queries = (0..size * if many == 1 { 3 } else { 1 })
                        .map(|i| {
                            // Four axes: the first five parts walk through all classes of each axis.
                            let combo = combos[(part * size + i) % combos.len()];
                            let class = |d: usize| if many < 4 { combo / 5usize.pow(d as u32) % 5 } else { (combo + i * (d + 1) + part) % 5 };
                            (0..many).map(|d| of_class(r, &axes[d], class(d))).collect()
                        })
                        .collect();
                    o.group("class", &axes, mode, v, queries);
                }
            }
        }
    }

    // Nodes and their neighbours among the floats.
    for i in 0..60 {
        let many = how_many_axes(r);
        let axes = grid::<T>(r, o, i % 2 == 1, &["exact", "exact", "whole", "plain", "wild"], many);
        let v = any_values(r, product(&axes));
        let queries = (0..10).map(|_| axes.iter().map(|a| near_node(r, a)).collect()).collect();
        o.group("node", &axes, r.coin() as u8, v, queries);
    }
    // Zeros, infinities, subnormals and extremes as queries. NaN are drawn too, and left out.
    for i in 0..80 {
        let rectilinear = i % 2 == 1;
        let many = how_many_axes(r);
        let flavours: &[&str] = if rectilinear {
            &["whole", "plain", "extreme", "tiny", "huge", "zeros", "flat"]
        } else {
            &["whole", "plain", "whole", "extreme", "tiny", "huge"]
        };
        let axes = grid::<T>(r, o, rectilinear, flavours, many);
        let v = any_values(r, product(&axes));
        let queries = (0..10)
            .map(|_| {
                let odd = r.below(many);
                (0..many).map(|d| if d == odd || r.one_in(4) { special(r) } else { any_class(r, &axes[d]) }).collect()
            })
            .collect();
        o.group("special", &axes, r.coin() as u8, v, queries);
    }
    // Huge, tiny and lost axes.
    for i in 0..100 {
        let rectilinear = i % 2 == 1;
        let many = how_many_axes(r);
        let flavours: &[&str] = if rectilinear {
            &["huge", "tiny", "extreme", "wild"]
        } else {
            &["huge", "tiny", "extreme", "wild", "huge", "tiny", "wild", "lost"]
        };
        let axes = grid::<T>(r, o, rectilinear, flavours, many);
        let v = any_values(r, product(&axes));
        let queries = (0..8)
            .map(|_| axes.iter().map(|a| if r.one_in(3) { near_node(r, a) } else { any_class(r, a) }).collect())
            .collect();
        o.group("extreme", &axes, r.coin() as u8, v, queries);
    }
    // Quotients at the marks, some of them on one axis among ordinary others.
    for _ in 0..50 {
        let many = how_many_axes(r);
        let axes = grid::<T>(r, o, false, &["quotient"], many);
        let v = any_values(r, product(&axes));
        let queries = (0..14)
            .map(|_| {
                let odd = r.below(many);
                (0..many).map(|d| if d == odd || r.one_in(6) { at_mark(r, &axes[d]) } else { any_class(r, &axes[d]) }).collect()
            })
            .collect();
        o.group("quotient", &axes, r.coin() as u8, v, queries);
    }
    // Entries that are the next number above the one before, and zero and the least number above it: flat as drawn, and mended.
    for _ in 0..60 {
        let many = how_many_axes(r);
        let axes = grid::<T>(r, o, true, &["flat", "flat", "zeros", "plain"], many);
        let v = any_values(r, product(&axes));
        let queries = (0..9)
            .map(|_| axes.iter().map(|a| if r.coin() { near_node(r, a) } else { any_class(r, a) }).collect())
            .collect();
        o.group("close", &axes, r.coin() as u8, v, queries);
    }
    // NaN, infinities and extremes among the values; on axes of five to seven entries some blocks leave them out.
    for i in 0..80 {
        let many = r.pick(&[1, 1, 1, 2, 2, 3]);
        let axes: Vec<Axis<T>> = (0..many)
            .map(|_| {
                let n = if many == 3 { 5 } else { r.pick(&[5, 6, 7]) };
                let flavour = r.pick(&ordinary);
                axis(r, i % 2 == 1, flavour, n)
            })
            .collect();
        let flavour = r.pick(&["whole", "short", "odd", "big", "small"]);
        let mut v = values(r, flavour, product(&axes));
        for _ in 0..r.range(1, 2) {
            let at = r.pick(&[0, v.len() - 1, r.0 as usize % v.len()]);
            let payload = with_payload(r.next());
            v[at] = r.pick(&[T::NAN, T::NAN, payload, T::INFINITY, T::NEG_INFINITY, T::MAX]);
        }
        let queries = (0..10)
            .map(|_| axes.iter().map(|a| if r.one_in(3) { near_node(r, a) } else { any_class(r, a) }).collect())
            .collect();
        o.group("values", &axes, r.coin() as u8, v, queries);
    }
    // Floats by their bits: whatever comes.
    for i in 0..40 {
        let many = r.pick(&[1, 1, 1, 2]);
        let axes = grid::<T>(r, o, i % 2 == 1, &["bits"], many);
        let v = any_values(r, product(&axes));
        let queries = (0..8)
            .map(|_| {
                axes.iter()
                    .map(|a| match r.below(3) {
                        0 => T::from_bits(r.next()),
                        1 => near_node(r, a),
                        _ => any_class(r, a),
                    })
                    .collect()
            })
            .collect();
        o.group("bits", &axes, r.coin() as u8, v, queries);
    }
    // The signs of zeros: a node at zero, queries at both zeros and beside them, values of zeros and ones.
    for i in 0..40 {
        let many = r.pick(&[1, 1, 1, 1, 2]);
        let axes: Vec<Axis<T>> = (0..many)
            .map(|_| {
                let n = r.pick(&[4, 5]);
                let k = r.below(n);
                let step = r.pick(&[1.0, 0.5, 3.0]);
                let node = |i: usize| T::of((i as f64 - k as f64) * step);
                if i % 2 == 0 {
                    Axis::Regular { start: node(0), step: T::of(step), n }
                } else {
                    Axis::Rectilinear((0..n).map(node).collect())
                }
            })
            .collect();
        let v = (0..product(&axes)).map(|_| T::of(r.pick(&[0.0, -0.0, 1.0, -1.0]))).collect();
        let (minus, small) = (T::of(-0.0), either::<T>(1e-320, 1e-40));
        let queries = (0..6).map(|_| (0..many).map(|_| r.pick(&[zero, minus, minus, -small, small])).collect()).collect();
        o.group("zeros", &axes, r.coin() as u8, v, queries);
    }
    // Batches that stop: an unplaceable query among good ones, at the beginning, in the middle, at the end, or two.
    for i in 0..50 {
        let many = how_many_axes(r);
        let axes = grid::<T>(r, o, false, &ordinary, many);
        let v = any_values(r, product(&axes));
        let mut queries: Vec<Vec<T>> = (0..9).map(|_| axes.iter().map(|a| any_class(r, a)).collect()).collect();
        let any = r.below(9);
        let stops: [&[usize]; 5] = [&[4], &[0], &[8], &[3, 6], &[any]];
        for &at in stops[i % 5] {
            for d in 0..many {
                if d == at % many || r.one_in(4) {
                    let far = either::<T>(1e300, 1e35);
                    queries[at][d] = r.pick(&[T::INFINITY, T::NEG_INFINITY, far, -far]);
                }
            }
        }
        o.group("stopped", &axes, r.coin() as u8, v, queries);
    }
    // Grids that `new` refuses: first the orders that are easily missed, then faults at random.
    let regular = |axes: &[(f64, usize)], len: usize| {
        let axes: Vec<Axis<T>> = axes.iter().map(|&(step, n)| Axis::Regular { start: zero, step: T::of(step), n }).collect();
        Grid::new(&axes, vec![one; len], CUBIC)
    };
    let rectilinear = |axes: &[&[f64]], len: usize| {
        let axes: Vec<Axis<T>> = axes.iter().map(|a| Axis::Rectilinear(all(a))).collect();
        Grid::new(&axes, vec![one; len], CUBIC)
    };
    let good: &[f64] = &[0.0, 1.0, 2.0, 3.0];
    for g in [
        regular(&[(f64::NAN, 4), (1.0, 3)], 12),
        regular(&[(1.0, 4), (-0.0, 5), (f64::NAN, 4)], 80),
        regular(&[(1.0, 3), (1.0, 2)], 5),
        regular(&[(f64::NAN, 4)], 5),
        regular(&[(1.0, 4096), (1.0, 4096), (1.0, 0)], 0),
        regular(&[(1.0, 4096), (1.0, 256), (1.0, 0), (1.0, 4096)], 0),
        regular(&[(1.0, 4096)], 0),
        rectilinear(&[&[0.0, 1.0, 2.0, 1.0], &[5.0, 5.0, 6.0, 7.0]], 16),
        rectilinear(&[&[0.0, 1.0, f64::NAN, 3.0], good, &[f64::NAN, 5.0, 6.0, 7.0]], 64),
        rectilinear(&[&[0.0, 0.0, 1.0, 2.0], &[0.0, 1.0, 2.0]], 12),
        rectilinear(&[&[0.0, f64::NAN, 1.0, 2.0]], 4),
        rectilinear(&[&[-0.0, 0.0, 1.0, 2.0]], 4),
        rectilinear(&[good, &[]], 0),
        rectilinear(&[&[f64::INFINITY, f64::INFINITY, f64::INFINITY, f64::INFINITY]], 4),
    ] {
        assert!(o.refused(&g));
    }
    let mut done = 0;
    while done < 66 {
        let many = how_many_axes(r).min(3);
        let g = faulty::<T>(r, done % 2 == 1, many, &mut |r| r.pick(&[4, 4, 5]));
        done += o.refused(&g) as usize;
    }
    // The longest axes, once of each kind.
    for rectilinear in [false, true] {
        let axes = [axis::<T>(r, rectilinear, "whole", 4096)];
        let v = values(r, "whole", product(&axes));
        let mut queries: Vec<Vec<T>> = (0..30).map(|_| vec![any_class(r, &axes[0])]).collect();
        queries.extend((0..30).map(|_| vec![near_node(r, &axes[0])]));
        o.group("long", &axes, rectilinear as u8, v, queries);
    }
    // All values NaN: answered on both kinds, inside and past an end.
    for mode in [CUBIC, STRAIGHT] {
        for many in 1..=2 {
            let v = values(r, "nan", 4usize.pow(many as u32));
            let queries = vec![vec![T::of(1.5); many], vec![T::of(-0.5); many]];
            o.group("all NaN", &vec![cubes[0].clone(); many], mode, v.clone(), queries.clone());
            o.group("all NaN", &vec![Axis::Rectilinear(all(good)); many], mode, v, queries);
        }
    }
}

fn main() {
    let args: Vec<String> = std::env::args().skip(1).collect();
    let (narrow, rest) = narrow(&args);
    let [seed, file] = rest else {
        eprintln!("usage: corpus [f32] SEED FILE");
        std::process::exit(2);
    };
    let seed: u64 = seed.parse().expect("a whole number as the seed");
    // Where overflow wraps, a case in which the Rust overflows would slip in.
    let hook = std::panic::take_hook();
    std::panic::set_hook(Box::new(|_| {}));
    let wraps = catch_unwind(|| std::hint::black_box(isize::MIN) - 1).is_ok();
    std::panic::set_hook(hook);
    if wraps {
        eprintln!("corpus: run it from target/checked");
        std::process::exit(2);
    }
    let mut r = Rng(seed.wrapping_mul(0x2545f4914f6cdd1d));
    let mut o = Corpus {
        words: vec![0],
        groups: 0,
        queries: 0,
        apart: 0,
        missing: [0; 2],
        in_place: 0,
        numbers: Rng(!seed.wrapping_mul(0x2545f4914f6cdd1d)),
        mended: 0,
        mended_axes: BTreeMap::new(),
        entries: 0,
        tally: BTreeMap::new(),
        classes: BTreeMap::new(),
    };
    if narrow { make::<f32>(&mut r, &mut o) } else { make::<f64>(&mut r, &mut o) }
    o.words[0] = o.groups as u64;

    println!("{}, seed {seed}", if narrow { "f32" } else { "f64" });
    println!("{:7} words, at most {MOST_WORDS}", o.words.len());
    println!("{:7} groups", o.groups);
    println!("{:7} queries", o.queries);
    println!("{:7} queries left out, their quotient being exactly -2^63", o.apart);
    for (kind, missing) in KINDS.iter().zip(o.missing) {
        println!("{missing:7} queries left out, a coordinate being NaN, {kind}");
    }
    println!("{:7} queries with a number in the place of a NaN, on an axis that starts at no finite number", o.in_place);
    let axes: usize = o.mended_axes.values().sum();
    println!("{:7} groups with a flat axis as drawn: {axes} axes, {} entries of them mended", o.mended, o.entries);
    for (flavour, count) in &o.mended_axes {
        println!("{count:7} of these axes drawn as {flavour}");
    }
    for (what, count) in &o.tally {
        println!("{count:7} {what}");
    }
    println!("places by class, over both modes:");
    for kind in 0..2 {
        for n in 1..=4 {
            for axis in 0..n {
                let row: Vec<String> = (0..5)
                    .map(|class| {
                        let each = [0, 1].map(|mode| o.classes.get(&(kind, mode, n, axis, class)).copied().unwrap_or(0));
                        assert!(each[0] > 0 && each[1] > 0, "a class is missing");
                        format!("{} {}", CLASSES[class], each[0] + each[1])
                    })
                    .collect();
                println!("  {}, axis count {n}, axis {axis}: {}", KINDS[kind], row.join(", "));
            }
        }
    }
    for e in if narrow { marks::<f32>() } else { marks::<f64>() } {
        assert!(o.tally.contains_key(&beside(e)), "no quotient beside 2^{e}");
    }
    assert!(NAN_QUOTIENTS.iter().all(|&what| o.tally.contains_key(what)), "a NaN quotient is missing");
    assert!(o.groups >= 600 && o.queries >= 5000 && o.words.len() <= MOST_WORDS);
    let bytes: Vec<u8> = o.words.iter().flat_map(|w| w.to_le_bytes()).collect();
    std::fs::write(file, bytes).expect("the file can be written");
}
