//! Times libcapi.a against the original Rust on one core; with f32, libcapi_f32.a against the Rust at f32.
//!   bench [f32] [REPEATS [QUERIES [OUTSIDE]]]     all cases: 21 repeats, 100,000 queries, 0 percent outside the table
//!   bench list                                    the names of the cases
//!   bench [f32] once SIDE CASE [TIMES [QUERIES]]  one side (rust or ours) of one case, 10 times 10,000 queries, for callgrind
//! Both sides run in one process, by turns, over the same queries. Each answer is compared before anything is timed.
//! The cases are in cubic. Then the batches in held, ours alone, since the Rust does not have it, by turns with ours in cubic.
//! Then value and gradient of single queries, ours alone: by one call, by turns with the two calls apart.
//! At the end the ratios that are limited, three axes of 20: values at most 2.0 times the Rust's time, gradients 2.5. Exit code 1 where one is over.
#[allow(dead_code)]
#[path = "../cases.rs"]
mod cases;
#[allow(dead_code)]
#[path = "../held.rs"]
mod held;
#[allow(dead_code)]
#[path = "../original.rs"]
mod original;
#[allow(dead_code)]
#[path = "../ours.rs"]
mod ours;
#[allow(dead_code)]
#[path = "../width.rs"]
mod width;
use cases::{Axis, CUBIC, Grid, Rng, STRAIGHT, product};
use held::{HELD, used};
use interpn::multicubic::{MulticubicRectilinear, MulticubicRegular};
use original::read;
use ours::Calls;
use std::hint::black_box;
use std::time::Instant;
use width::narrow;

#[derive(Clone, Copy, PartialEq)]
enum Call {
    Values,
    Gradients,
    /// Query by query with interp_one. The Rust keeps its grid; ours checks it again at each call, and writes marks.
    One,
    /// The same, with the Rust making its grid by `new` each time.
    NewAndOne,
    /// Ours alone: value and gradient, query by query, with interp_one and interp_one_grad.
    Apart,
    /// The same with interp_one_with_grad, which the Rust does not have.
    Both,
}

#[derive(Clone)]
struct Case<T> {
    name: String,
    axes: Vec<Axis<T>>,
    grid: Grid<T>,
    call: Call,
    columns: Vec<Vec<T>>,
    joined: Vec<T>,
}

fn cases<T: Calls>(queries: usize, outside: usize) -> Vec<Case<T>> {
    let shapes: [(&[usize], &[Call]); 5] = [
        (&[20, 20, 20], &[Call::Values, Call::Gradients]),
        (&[7, 9, 12], &[Call::Values, Call::Gradients, Call::One, Call::NewAndOne, Call::Apart, Call::Both]),
        (&[20], &[Call::Values, Call::Gradients, Call::Apart, Call::Both]),
        (&[20, 20], &[Call::Values, Call::Gradients, Call::Apart, Call::Both]),
        (&[8, 8, 8, 8], &[Call::Values, Call::Gradients, Call::Apart, Call::Both]),
    ];
    let starts = [-1.0, 0.25, 10.0, 3.0];
    let steps = [0.125, 0.3, 2.0, 0.7];
    let mut list = vec![];
    for (counts, calls) in shapes {
        for rectilinear in [false, true] {
            let mut r = Rng(1);
            let axes: Vec<Axis<T>> = (0..counts.len())
                .map(|d| {
                    let (start, step, n) = (starts[d], steps[d], counts[d]);
                    if !rectilinear {
                        return Axis::Regular { start: T::of(start), step: T::of(step), n };
                    }
                    // Uneven gaps over about the same span.
                    Axis::Rectilinear((0..n).map(|i| T::of(start + step * (i as f64 + 0.6 * (r.unit() - 0.5)))).collect())
                })
                .collect();
            let values: Vec<T> = (0..product(&axes)).map(|_| T::of(r.unit() * 200.0 - 100.0)).collect();
            let columns: Vec<Vec<T>> = axes
                .iter()
                .map(|a| {
                    let (low, high) = (a.node(0), a.node(a.n() - 1));
                    (0..queries)
                        .map(|_| {
                            let u = r.unit();
                            if r.below(100) >= outside {
                                low + (high - low) * T::of(u)
                            } else if u < 0.5 {
                                low - (high - low) * T::of(0.2) * T::of(u)
                            } else {
                                high + (high - low) * T::of(0.2) * T::of(u - 0.5)
                            }
                        })
                        .collect()
                })
                .collect();
            for &call in calls {
                let kind = if rectilinear { "rectilinear" } else { "regular" };
                let shape = counts.iter().map(|n| n.to_string()).collect::<Vec<_>>().join("x");
                let what = match call {
                    Call::Values => "values",
                    Call::Gradients => "gradients",
                    Call::One => "one",
                    Call::NewAndOne => "new-and-one",
                    Call::Apart => "apart",
                    Call::Both => "both",
                };
                list.push(Case {
                    name: format!("{kind}-{shape}-{what}"),
                    grid: Grid::new(&axes, values.clone(), CUBIC),
                    axes: axes.clone(),
                    call,
                    joined: columns.concat(),
                    columns: columns.clone(),
                });
            }
        }
    }
    list
}

impl<T: Calls> Case<T> {
    /// The same in held, where it is a batch.
    fn held(&self) -> Option<Case<T>> {
        if !matches!(self.call, Call::Values | Call::Gradients) {
            return None;
        }
        let mut held = Case { name: format!("{}-held", self.name), ..self.clone() };
        held.grid.mode = HELD;
        Some(held)
    }
    fn queries(&self) -> usize {
        self.columns[0].len()
    }
    fn ours_alone(&self) -> bool {
        self.grid.mode == HELD || matches!(self.call, Call::Apart | Call::Both)
    }
    fn buffer(&self) -> Vec<T> {
        let wide = match self.call {
            Call::Values | Call::One | Call::NewAndOne => 1,
            Call::Gradients => self.columns.len(),
            Call::Apart | Call::Both => 1 + self.columns.len(),
        };
        vec![T::zero(); wide * self.queries()]
    }

    fn rust(&self, out: &mut [T]) {
        let g = black_box(&self.grid);
        let columns: Vec<&[T]> = self.columns.iter().map(|x| &x[..]).collect();
        match self.call {
            Call::Values => read(g, |reader| reader.unwrap().batch(black_box(&columns), out).unwrap()),
            Call::Gradients => {
                let mut parts: Vec<&mut [T]> = out.chunks_mut(self.queries()).collect();
                read(g, |reader| reader.unwrap().batch_grad(black_box(&columns), &mut parts).unwrap())
            }
            Call::Apart | Call::Both => unreachable!(),
            // Three axes, called directly: here a call through a table would show.
            Call::One | Call::NewAndOne => {
                let again = self.call == Call::NewAndOne;
                let query = |i: usize| [columns[0][i], columns[1][i], columns[2][i]];
                if g.rectilinear {
                    let parts = g.cut();
                    let grids: &[&[T]; 3] = parts[..].try_into().unwrap();
                    let new = || MulticubicRectilinear::<T, 3>::new(black_box(grids), &g.values, g.mode == STRAIGHT).unwrap();
                    let kept = new();
                    for (i, y) in out.iter_mut().enumerate() {
                        let x = black_box(query(i));
                        *y = if again { new().interp_one(x) } else { kept.interp_one(x) }.unwrap();
                    }
                } else {
                    let dims: [usize; 3] = g.counts[..].try_into().unwrap();
                    let starts: [T; 3] = g.starts[..].try_into().unwrap();
                    let steps: [T; 3] = g.steps[..].try_into().unwrap();
                    let new = || MulticubicRegular::<T, 3>::new(black_box(dims), starts, steps, &g.values, g.mode == STRAIGHT).unwrap();
                    let kept = new();
                    for (i, y) in out.iter_mut().enumerate() {
                        let x = black_box(query(i));
                        *y = if again { new().interp_one(x) } else { kept.interp_one(x) }.unwrap();
                    }
                }
            }
        }
    }

    fn ours(&self, out: &mut [T]) {
        let g = black_box(&self.grid);
        let mut refusal = [0; 2];
        match self.call {
            Call::Values => assert_eq!(T::interp(g, &self.joined, &mut refusal, out), 0),
            Call::Gradients => assert_eq!(T::interp_grad(g, &self.joined, &mut refusal, out), 0),
            Call::One | Call::NewAndOne => {
                let mut marks = [0; 3];
                for (i, y) in out.iter_mut().enumerate() {
                    let x = black_box([self.columns[0][i], self.columns[1][i], self.columns[2][i]]);
                    assert_eq!(T::interp_one(g, &x, &mut refusal, std::slice::from_mut(y), &mut marks), 0);
                }
            }
            Call::Apart | Call::Both => {
                let (n, mut marks, mut sums) = (self.columns.len(), [0; 4], [0]);
                for (i, y) in out.chunks_mut(1 + n).enumerate() {
                    let mut x = [T::zero(); 4];
                    (0..n).for_each(|d| x[d] = self.columns[d][i]);
                    let (x, marks, (value, gradient)) = (&black_box(x)[..n], &mut marks[..n], y.split_at_mut(1));
                    if self.call == Call::Both {
                        assert_eq!(T::interp_one_with_grad(g, x, &mut refusal, value, gradient, marks, &mut sums), 0);
                    } else {
                        assert_eq!(T::interp_one(g, x, &mut refusal, value, marks), 0);
                        assert_eq!(T::interp_one_grad(g, x, &mut refusal, gradient, marks), 0);
                    }
                }
            }
        }
    }
}

fn once<T: Calls>(args: &[String]) {
    let number = |i: usize, default: usize| args.get(i).map_or(default, |a| a.parse().expect("a whole number"));
    let (times, queries) = (number(2, 10), number(3, 10_000));
    let mut list = cases::<T>(queries, 0);
    list.extend(list.iter().filter_map(Case::held).collect::<Vec<_>>());
    let case = list.iter().find(|c| args.get(1) == Some(&c.name)).expect("a case of `bench list`");
    let mut out = case.buffer();
    for _ in 0..times {
        match args[0].as_str() {
            "rust" if case.ours_alone() => panic!("the Rust has no such case"),
            "rust" => case.rust(black_box(&mut out)),
            "ours" => case.ours(black_box(&mut out)),
            _ => panic!("the side is rust or ours"),
        }
    }
    println!("sum {:e}", out.iter().fold(T::zero(), |sum, &x| sum + x));
}

/// Two sides by turns: median and least of each in ns per query, and the median of the second's time over the first's.
fn by_turns(
    repeats: usize, queries: usize, mut first: impl FnMut(), mut second: impl FnMut(),
) -> ((f64, f64), (f64, f64), f64) {
    let mut times = [vec![], vec![]];
    for i in 0..repeats {
        for turn in 0..2 {
            // Who begins changes from repeat to repeat.
            let side = (i + turn) % 2;
            let start = Instant::now();
            if side == 0 { first() } else { second() }
            times[side].push(start.elapsed().as_nanos() as f64 / queries as f64);
        }
    }
    let mut pairs: Vec<f64> = times[0].iter().zip(&times[1]).map(|(first, second)| second / first).collect();
    pairs.sort_by(f64::total_cmp);
    let [first, second] = times.map(|mut t| {
        t.sort_by(f64::total_cmp);
        (t[t.len() / 2], t[0])
    });
    (first, second, pairs[pairs.len() / 2])
}

/// The line of a case with two sides.
fn beside(name: &str, first: (f64, f64), second: (f64, f64), ratio: f64) {
    println!(
        "{name:37} {:9.2} {:9.2} {:9.2} {:9.2} {ratio:8.3} {:8.3}",
        first.0, first.1, second.0, second.1, second.1 / first.1
    );
}

fn all<T: Calls>(args: &[String]) {
    let number = |i: usize, default: usize| args.get(i).map_or(default, |a| a.parse().expect("a whole number"));
    let (repeats, queries, outside) = (number(0, 21), number(1, 100_000), number(2, 0));
    println!("f{}, {repeats} repeats, {queries} queries, {outside} percent of the coordinates outside; ns per query", T::SIZE);
    println!("{:37} {:>9} {:>9} {:>9} {:>9} {:>8} {:>8}", "", "Rust", "", "ours", "", "ours/Rust", "");
    println!("{:37} {:>9} {:>9} {:>9} {:>9} {:>8} {:>8}", "case", "median", "least", "median", "least", "median", "least");
    let mut limited = vec![];
    for case in cases::<T>(queries, outside).into_iter().filter(|case| !case.ours_alone()) {
        let (mut a, mut b) = (case.buffer(), case.buffer());
        case.rust(&mut a);
        case.ours(&mut b);
        if let Some(i) = (0..a.len()).find(|&i| !a[i].same(b[i])) {
            println!("{}: entry {i} differs: ours {:e}, the Rust {:e}", case.name, b[i], a[i]);
            std::process::exit(1);
        }
        let (rust, ours, ratio) =
            by_turns(repeats, queries, || case.rust(black_box(&mut a)), || case.ours(black_box(&mut b)));
        let limit = match case.call {
            Call::Values => 2.0,
            Call::Gradients => 2.5,
            _ => f64::INFINITY,
        };
        if case.name.contains("20x20x20") && limit.is_finite() {
            limited.push((case.name.clone(), ratio, limit));
        }
        beside(&case.name, rust, ours, ratio);
    }
    held_batches::<T>(repeats, queries, outside);
    together::<T>(repeats, queries, outside);
    println!("\nlimits, the median ratio of {repeats} pairs:");
    for (name, ratio, limit) in &limited {
        println!("{name:37} {ratio:8.3} of {limit:.1}  {}", if ratio <= limit { "within" } else { "OVER" });
    }
    if limited.iter().any(|(_, ratio, limit)| ratio > limit) {
        std::process::exit(1);
    }
}

/// The batches in held, by turns with ours in cubic. Before that the answers are looked at: they are the Rust's in cubic to the
/// queries as they are used, but for the components of replaced axes, which are zeros.
fn held_batches<T: Calls>(repeats: usize, queries: usize, outside: usize) {
    println!("\nheld, ours alone, since the Rust does not have it; the ratio is that to ours in cubic, by turns");
    println!("{:37} {:>9} {:>9} {:>10} {:>8}", "case", "median", "least", "median", "least");
    for cubic in cases::<T>(queries, outside) {
        let Some(held) = cubic.held() else { continue };
        let (mut a, mut b) = (cubic.buffer(), cubic.buffer());
        let mut asked = cubic.clone();
        for (axis, column) in cubic.axes.iter().zip(&mut asked.columns) {
            column.iter_mut().for_each(|x| *x = used(axis, *x));
        }
        asked.rust(&mut a);
        held.ours(&mut b);
        let replaced = |i: usize| asked.columns[i / queries][i % queries] != cubic.columns[i / queries][i % queries];
        let gradients = cubic.call == Call::Gradients;
        if let Some(i) = (0..a.len()).find(|&i| if gradients && replaced(i) { !b[i].is_zero() } else { !a[i].same(b[i]) }) {
            println!("{}: entry {i} is {:e}, and not what was expected", held.name, b[i]);
            std::process::exit(1);
        }
        let (cubic, ours, ratio) =
            by_turns(repeats, queries, || cubic.ours(black_box(&mut a)), || held.ours(black_box(&mut b)));
        println!("{:37} {:9.2} {:9.2} {ratio:10.3} {:8.3}", held.name, ours.0, ours.1, ours.1 / cubic.1);
    }
}

/// Value and gradient by one call, by turns with the two calls apart, after a look that they are the same.
fn together<T: Calls>(repeats: usize, queries: usize, outside: usize) {
    println!("\nvalue and gradient of single queries, ours alone: by one call, beside the two calls apart, by turns");
    println!("{:37} {:>9} {:>9} {:>9} {:>9} {:>8} {:>8}", "", "apart", "", "both", "", "both/apart", "");
    println!("{:37} {:>9} {:>9} {:>9} {:>9} {:>8} {:>8}", "case", "median", "least", "median", "least", "median", "least");
    let list = cases::<T>(queries, outside);
    let of = |call: Call| list.iter().filter(move |case| case.call == call);
    for (apart, both) in of(Call::Apart).zip(of(Call::Both)) {
        let (mut a, mut b) = (apart.buffer(), apart.buffer());
        apart.ours(&mut a);
        both.ours(&mut b);
        if let Some(i) = (0..a.len()).find(|&i| !a[i].same(b[i])) {
            println!("{}: entry {i} differs: {:e}, apart {:e}", both.name, b[i], a[i]);
            std::process::exit(1);
        }
        let (two, one, ratio) =
            by_turns(repeats, queries, || apart.ours(black_box(&mut a)), || both.ours(black_box(&mut b)));
        beside(&both.name, two, one, ratio);
    }
}

fn run<T: Calls>(args: &[String]) {
    assert_eq!(T::version(), ours::VERSION, "the archive is of another version than src/ours.rs");
    match args.first().map(|a| a.as_str()) {
        Some("list") => {
            let list = cases::<T>(1, 0);
            list.iter().cloned().chain(list.iter().filter_map(Case::held)).for_each(|c| println!("{}", c.name));
        }
        Some("once") => once::<T>(&args[1..]),
        _ => all::<T>(args),
    }
}

fn main() {
    let args: Vec<String> = std::env::args().skip(1).collect();
    match narrow(&args) {
        (true, rest) => run::<f32>(rest),
        (false, rest) => run::<f64>(rest),
    }
}
