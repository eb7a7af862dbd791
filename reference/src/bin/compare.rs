//! Compares libcapi.a with the original Rust over random grids and queries; with f32, libcapi_f32.a with the Rust at f32.
//!   compare [f32] QUERIES SEED        as many queries in cubic and straight, and as many in held
//! Compared: numbers, query and axis of a refusal, places, values, gradients, batches, and every entry of every
//! buffer, those that must stay as they were too. By their bits, except that any NaN answer matches any NaN.
//! Left out, and counted: queries whose quotient is exactly -2^63 on some axis, where the two are meant to differ.
//! Queries with a NaN coordinate are ours alone, since the two are meant to differ there too: those that are drawn are taken
//! out of the comparison, more are made, and each is asked by every single call and in a batch of values and of gradients.
//! Expected is the refusal of the lowest axis that refuses: 9 where its coordinate is a NaN, 8 where it is a number that the
//! Rust cannot place. Their draws are their own as well.
//! Flat axes, on which an entry is equal to the one before it, are ours alone too: refused with 10, and taken by the Rust. A
//! rectilinear grid that is drawn with one goes to ours alone, as drawn, and is compared with that axis mended; more are made.
//! Expected is what 5, 6 and 10 say by their definition, before 7 and 9. These draws are their own too.
//! Each grid is then asked in held too, which the Rust does not have: a check on us, and no reference, by what
//! src/held.rs works out. Its draws are its own, so that those of cubic and straight are the same with it and without.
//! Mode numbers that are none are ours alone as well: they are refused with 3, and 1 and 2 come first.
//! Marks are ours alone and are compared with nothing; only the entries that must stay as they were are looked at.
//! The call for value and gradient together is ours alone as well: it is asked at every query, beside the two calls apart, and
//! gives what they give, the marks too; the number of its sums is the one of the axis count, and 0 where it refuses.
//! Exit code 1 at the first difference, which is printed.
#[path = "../cases.rs"]
mod cases;
#[path = "../held.rs"]
mod held;
#[path = "../original.rs"]
mod original;
#[path = "../ours.rs"]
mod ours;
#[path = "../width.rs"]
mod width;
use cases::*;
use held::HELD;
use original::*;
use ours::Calls;
use std::collections::{BTreeMap, BTreeSet};
use std::time::Instant;
use width::*;

/// Entries before and after each lent buffer that no call may touch.
const GUARD: usize = 4;

/// A buffer lent to our side, filled beforehand with distinct entries.
struct Lent<T> {
    all: Vec<T>,
    len: usize,
    mark: fn(usize) -> T,
}
impl<T: Copy> Lent<T> {
    fn new(len: usize, mark: fn(usize) -> T) -> Lent<T> {
        Lent { all: (0..len + 2 * GUARD).map(mark).collect(), len, mark }
    }
    fn part(&mut self) -> &mut [T] {
        &mut self.all[GUARD..GUARD + self.len]
    }
    fn at(&self, i: usize) -> T {
        self.all[GUARD + i]
    }
}
// By their bits, entries that must stay can be compared whatever they are.
impl Bits for usize {
    fn bits(self) -> u64 {
        self as u64
    }
}
impl Bits for u8 {
    fn bits(self) -> u64 {
        self as u64
    }
}
impl<T: Bits> Lent<T> {
    fn kept(&self, i: usize) -> bool {
        self.all[GUARD + i].bits() == (self.mark)(GUARD + i).bits()
    }
    /// The entries that no answer goes to: those from `used` on, and the guards.
    fn rest_kept(&self, used: usize) -> bool {
        (0..self.all.len()).all(|i| (GUARD..GUARD + used).contains(&i) || self.all[i].bits() == (self.mark)(i).bits())
    }
    fn all_bits(&self) -> Vec<u64> {
        self.all.iter().map(|x| x.bits()).collect()
    }
}
impl<T: Width> Lent<T> {
    /// Whether two buffers that were alike beforehand are still: written at the same entries and with the same bits, where
    /// any NaN matches any NaN.
    fn like(&self, other: &Lent<T>) -> bool {
        let kept = |lent: &Lent<T>, i: usize| lent.all[i].bits() == (lent.mark)(i).bits();
        let alike = |i: usize| self.all[i].same(other.all[i]) && kept(self, i) == kept(other, i);
        self.all.len() == other.all.len() && (0..self.all.len()).all(alike)
    }
}

fn floats<T: Width>(len: usize) -> Lent<T> {
    Lent::new(len, T::untouched)
}
fn wholes(len: usize) -> Lent<usize> {
    Lent::new(len, |i| 0xa5a5_0000 + i)
}
fn bytes(len: usize) -> Lent<u8> {
    Lent::new(len, |i| 0xa0 + i as u8)
}

/// Number and refusal of one call against what is expected. On 7 nothing at all is written.
fn outcome(call: &str, number: u8, refusal: &Lent<usize>, expected: (u8, usize, usize)) -> Result<(), String> {
    if number != expected.0 {
        return Err(format!("{call}: number {number}, expected {}", expected.0));
    }
    if number == 7 {
        return if refusal.rest_kept(0) { Ok(()) } else { Err(format!("{call}: refusal written on 7")) };
    }
    let got = (refusal.at(0), refusal.at(1));
    if got != (expected.1, expected.2) {
        return Err(format!("{call}: query and axis {got:?}, expected {:?}", (expected.1, expected.2)));
    }
    if refusal.rest_kept(2) { Ok(()) } else { Err(format!("{call}: refusal written past its two entries")) }
}

/// One answer against the one expected.
fn answer<T: Width>(call: &str, i: usize, ours: &Lent<T>, at: usize, expected: T) -> Result<(), String> {
    let got = ours.at(at);
    if got.same(expected) && !ours.kept(at) {
        return Ok(());
    }
    let note = if ours.kept(at) { " (not written)" } else { "" };
    let digits = T::SIZE as usize / 4;
    Err(format!("{call}: query {i}, entry {at}: {:0digits$x}{note}, expected {:0digits$x}", got.bits(), expected.bits()))
}

/// Queries by columns, as given to ours and as asked of the Rust. The two are the same, but in held a coordinate that is
/// replaced is another number.
struct Queries<T> {
    given: Vec<Vec<T>>,
    used: Vec<Vec<T>>,
}
impl<T: Width> Queries<T> {
    fn none(axes: usize) -> Queries<T> {
        Queries { given: vec![vec![]; axes], used: vec![vec![]; axes] }
    }
    fn push(&mut self, given: &[T], used: &[T]) {
        self.given.iter_mut().zip(given).for_each(|(column, &x)| column.push(x));
        self.used.iter_mut().zip(used).for_each(|(column, &x)| column.push(x));
    }
    fn len(&self) -> usize {
        self.given[0].len()
    }
    fn given(&self, i: usize) -> Vec<T> {
        self.given.iter().map(|column| column[i]).collect()
    }
    fn used(&self, i: usize) -> Vec<T> {
        self.used.iter().map(|column| column[i]).collect()
    }
    /// Query i as the single calls are asked. Past the axis count no coordinate is looked at, and NaN there are no matter.
    fn asked(&self, i: usize) -> Vec<T> {
        [&self.given(i)[..], &[T::NAN; 3][..i % 4]].concat()
    }
}

/// What is expected of the gradient, from the Rust's at the query as it is used and its value there.
fn expect<T: Width>(
    g: &Grid<T>,
    reader: &dyn Reader<T>,
    given: &[T],
    used: &[T],
    value: T,
    gradient: &mut [T],
    k: &mut Counts,
) -> Result<(), String> {
    let replaced: Vec<bool> = given.iter().zip(used).map(|(x, y)| x.bits() != y.bits()).collect();
    if !replaced.contains(&true) {
        return Ok(());
    }
    assert_eq!(g.mode, HELD);
    held::flatten(g, reader, used, &replaced, value, gradient)?;
    for (&y, _) in gradient.iter().zip(&replaced).filter(|(_, replaced)| **replaced) {
        let sort = if y.is_nan() { 2 } else { y.is_sign_negative() as usize };
        assert!(y.is_nan() || y.is_zero());
        k.flat[sort] += 1;
    }
    Ok(())
}

#[derive(Default)]
struct Counts {
    queries: u64,
    left_out: u64,
    unplaceable: u64,
    /// Coordinates that are numbers and have a NaN as their quotient.
    no_quotient: u64,
    nan: u64,
    batches: u64,
    stopped: u64,
    single: u64,
    lengths: u64,
    by: BTreeMap<String, u64>,
    /// Queries with a NaN, ours alone: those taken out of the draws, by kind; all of them, by the axis of their 9, or with 8
    /// since an axis below the NaN is unplaceable; all of them by kind and mode, and their batches by the number that stops them.
    taken_out: [u64; 2],
    nines: [u64; 4],
    eights: u64,
    missing: BTreeMap<String, u64>,
    /// Value and gradient in one call, by number and sums; and calls with a slice that is too short.
    together: BTreeMap<(u8, usize), u64>,
    short: u64,
    /// Held: components by a row of four +0 that came out as +0, -0, NaN.
    flat: [u64; 3],
    /// Calls with a mode number that is none, by the number of their refusal, and which mode numbers they were.
    modes: BTreeMap<u8, u64>,
    tried: BTreeSet<u8>,
}

impl Counts {
    fn print(&self) {
        println!("{:10} queries compared in {} batches", self.queries, self.batches);
        println!("{:10} of them unplaceable", self.unplaceable);
        println!("{:10} coordinates with a NaN quotient", self.no_quotient);
        println!("{:10} batches with an unplaceable query in the middle", self.stopped);
        println!("{:10} answers that are NaN", self.nan);
        println!("{:10} queries compared by the single calls too (get_loc, interp_one, interp_one_grad)", self.single);
        println!("{:10} batches with a buffer of a wrong length", self.lengths);
        println!("{:10} queries left out, their quotient being exactly -2^63", self.left_out);
        for (what, count) in &self.by {
            println!("{count:10} {what}");
        }
        let nines: u64 = self.nines.iter().sum();
        println!("queries with a NaN coordinate, ours alone, by the single calls and in a batch");
        let [regular, rectilinear] = self.taken_out;
        println!("{:10} taken out of the comparison: {regular} regular, {rectilinear} rectilinear", regular + rectilinear);
        println!("{:10} in all, with those that were made", nines + self.eights);
        println!("{nines:10} refused with 9, on the axes 0 to 3: {:?}", self.nines);
        println!("{:10} refused with 8, an axis below the NaN being unplaceable", self.eights);
        for (what, count) in &self.missing {
            println!("{count:10} {what}");
        }
        println!("value and gradient in one call, ours alone, beside the two calls apart");
        for ((number, sums), count) in &self.together {
            match number {
                0 => println!("{count:10} answered, with {sums} sums"),
                _ => println!("{count:10} refused with {number}, with {sums} sums"),
            }
        }
        println!("{:10} calls with a slice that is too short, refused with 3 or 7", self.short);
    }
}

/// What is expected of a query as it is used: the number and the axis of the lowest axis that refuses it, 9 where its
/// coordinate is a NaN, 8 where it is a number that the Rust cannot place.
fn refusal_of<T: Width>(reader: &dyn Reader<T>, used: &[T]) -> Option<(u8, usize)> {
    let axis = (0..used.len()).find(|&d| used[d].is_nan() || reader.place(used[d], d).is_none())?;
    Some((if used[axis].is_nan() { 9 } else { 8 }, axis))
}

fn any_nan<T: Width>(x: &[T]) -> bool {
    x.iter().any(|x| x.is_nan())
}

/// The batch calls over queries from..to; gives the number, query and axis with which they are refused. The Rust is asked for
/// the queries before the first with a NaN.
fn batch<T: Calls>(
    g: &Grid<T>,
    reader: &dyn Reader<T>,
    queries: &Queries<T>,
    from: usize,
    to: usize,
    k: &mut Counts,
) -> Result<Option<(u8, usize, usize)>, String> {
    let (n, c) = (queries.given.len(), to - from);
    let m = queries.used.iter().filter_map(|x| x[from..to].iter().position(|x| x.is_nan())).min().unwrap_or(c);
    let parts: Vec<&[T]> = queries.used.iter().map(|x| &x[from..from + m]).collect();
    let joined: Vec<T> = queries.given.iter().flat_map(|x| &x[from..to]).copied().collect();

    let mut out: Vec<T> = (0..m).map(T::untouched).collect();
    let taken = reader.batch(&parts, &mut out);
    let first = (0..m).find(|&i| out[i].bits() == T::untouched(i).bits());
    let agrees = |result: Result<(), Message>| result == if first.is_some() { Err(UNPLACEABLE) } else { Ok(()) };
    if !agrees(taken) || (first.unwrap_or(m)..m).any(|i| out[i].bits() != T::untouched(i).bits()) {
        return Err("the Rust's batch of values is not what was assumed of it".into());
    }
    let mut grad: Vec<T> = (0..n * m).map(T::untouched).collect();
    let taken = if m == 0 {
        reader.batch_grad(&parts, &mut (0..n).map(|_| &mut [][..]).collect::<Vec<&mut [T]>>())
    } else {
        reader.batch_grad(&parts, &mut grad.chunks_mut(m).collect::<Vec<_>>())
    };
    let done = first.unwrap_or(m);
    if !agrees(taken) || (0..n * m).any(|i| (grad[i].bits() == T::untouched(i).bits()) != (i % m >= done)) {
        return Err("the Rust's batch of gradients is not what was assumed of it".into());
    }
    let mut stop = None;
    if done < c {
        let refusal = refusal_of(reader, &queries.used(from + done));
        let (number, axis) = refusal.ok_or("the Rust's batch stopped at a query that it can place")?;
        stop = Some((number, done, axis));
    }
    let expected = stop.unwrap_or((0, 0, 0));
    if g.mode == HELD {
        for i in 0..done {
            let mut gradient: Vec<T> = (0..n).map(|d| grad[d * m + i]).collect();
            expect(g, reader, &queries.given(from + i), &queries.used(from + i), out[i], &mut gradient, k)?;
            (0..n).for_each(|d| grad[d * m + i] = gradient[d]);
        }
    }

    let mut refusal = wholes(4);
    let mut lent = floats(c);
    let number = T::interp(g, &joined, refusal.part(), lent.part());
    outcome("interp", number, &refusal, expected)?;
    for i in 0..done {
        answer("interp", from + i, &lent, i, out[i])?;
        k.nan += out[i].is_nan() as u64;
    }
    if !lent.rest_kept(done) {
        return Err("interp: an entry was written that must stay".into());
    }

    let mut refusal = wholes(4);
    let mut lent = floats(n * c);
    let number = T::interp_grad(g, &joined, refusal.part(), lent.part());
    outcome("interp_grad", number, &refusal, expected)?;
    for d in 0..n {
        for i in 0..done {
            answer("interp_grad", from + i, &lent, d * c + i, grad[d * m + i])?;
        }
        if !(done..c).all(|i| lent.kept(d * c + i)) {
            return Err("interp_grad: an entry was written that must stay".into());
        }
    }
    if !lent.rest_kept(n * c) {
        return Err("interp_grad: an entry was written outside the buffer".into());
    }
    k.batches += 1;
    k.stopped += (stop.is_some() && done > 0 && done + 1 < c) as u64;
    Ok(stop)
}

/// The three single calls on query i; gives the number and axis with which they are refused. Where it has a NaN, the Rust is
/// not asked for an answer.
fn single<T: Calls>(
    g: &Grid<T>,
    reader: &dyn Reader<T>,
    queries: &Queries<T>,
    i: usize,
    k: &mut Counts,
) -> Result<Option<(u8, usize)>, String> {
    let (given, used) = (&queries.given(i)[..], &queries.used(i)[..]);
    let n = used.len();
    let asked = !any_nan(used);
    let bad = refusal_of(reader, used);
    let expected = bad.map_or((0, 0, 0), |(number, axis)| (number, 0, axis));
    let written = if bad.is_some() { 0 } else { n };
    let x = &queries.asked(i)[..];

    let (mut refusal, mut origins, mut classes, mut marks) = (wholes(4), wholes(n + 2), bytes(n + 2), bytes(n + 2));
    let number = T::get_loc(g, x, refusal.part(), origins.part(), classes.part(), marks.part());
    outcome("get_loc", number, &refusal, expected)?;
    for d in 0..written {
        let (ours, expected) = ((origins.at(d), classes.at(d)), reader.place(used[d], d).unwrap());
        if ours != expected {
            return Err(format!("get_loc: query {i}, axis {d}: {ours:?}, expected {expected:?}"));
        }
    }
    if !origins.rest_kept(written) || !classes.rest_kept(written) || !marks.rest_kept(written) {
        return Err("get_loc: an entry was written that must stay".into());
    }

    let (mut refusal, mut value, mut marks) = (wholes(4), floats(3), bytes(n + 2));
    let number = T::interp_one(g, x, refusal.part(), value.part(), marks.part());
    outcome("interp_one", number, &refusal, expected)?;
    let rust = if asked { reader.one(used) } else { Err(UNPLACEABLE) };
    match rust {
        Ok(rust) => answer("interp_one", i, &value, 0, rust)?,
        Err(_) if bad.is_some() => {}
        Err(message) => return Err(format!("the Rust's interp_one refuses: {message}")),
    }
    if !value.rest_kept(written.min(1)) || !marks.rest_kept(written) {
        return Err("interp_one: an entry was written that must stay".into());
    }

    let (mut refusal, mut gradient, mut marks) = (wholes(4), floats(n + 2), bytes(n + 2));
    let number = T::interp_one_grad(g, x, refusal.part(), gradient.part(), marks.part());
    outcome("interp_one_grad", number, &refusal, expected)?;
    let mut slopes = vec![T::zero(); n];
    match if asked { reader.one_grad(used, &mut slopes) } else { Err(UNPLACEABLE) } {
        Ok(()) => {
            expect(g, reader, given, used, rust?, &mut slopes, k)?;
            (0..n).try_for_each(|d| answer("interp_one_grad", i, &gradient, d, slopes[d]))?
        }
        Err(_) if bad.is_some() => {}
        Err(message) => return Err(format!("the Rust's interp_one_grad refuses: {message}")),
    }
    if !gradient.rest_kept(written) || !marks.rest_kept(written) {
        return Err("interp_one_grad: an entry was written that must stay".into());
    }
    k.single += 1;
    Ok(bad)
}

/// The four-term sums that value and gradient take together on one to four axes.
const SUMS: [usize; 4] = [2, 11, 48, 197];

/// Value and gradient of query i in one call, and by the two calls apart, into buffers that are alike: number, refusal, marks,
/// value and gradient come out alike, what must stay too. The number of sums is that of the axis count, and 0 on a refusal.
fn together<T: Calls>(g: &Grid<T>, queries: &Queries<T>, i: usize, k: &mut Counts) -> Result<(), String> {
    let n = g.counts.len();
    let x = &queries.asked(i)[..];
    let (mut told, mut value, mut marks) = ([(); 3].map(|()| wholes(4)), [(); 2].map(|()| floats(3)), [(); 3].map(|()| bytes(n + 2)));
    let (mut gradient, mut sums) = ([(); 2].map(|()| floats(n + 2)), wholes(3));
    let numbers = [
        T::interp_one_with_grad(
            g, x, told[0].part(), value[0].part(), gradient[0].part(), marks[0].part(), sums.part(),
        ),
        T::interp_one(g, x, told[1].part(), value[1].part(), marks[1].part()),
        T::interp_one_grad(g, x, told[2].part(), gradient[1].part(), marks[2].part()),
    ];
    let taken = if numbers[0] == 0 { SUMS[n - 1] } else { 0 };
    let apart = [
        (numbers[1..] != [numbers[0]; 2], "the number"),
        (told[1..].iter().any(|t| t.all_bits() != told[0].all_bits()), "query and axis"),
        (!value[0].like(&value[1]), "the value"),
        (!gradient[0].like(&gradient[1]), "the gradient"),
        (marks[1..].iter().any(|m| m.all_bits() != marks[0].all_bits()), "a mark"),
        (sums.at(0) != taken || !sums.rest_kept(1), "the number of sums"),
    ];
    if let Some((_, what)) = apart.iter().find(|(differs, _)| *differs) {
        let shown = |lent: &mut Lent<T>| lent.part().iter().map(|x| format!("{:x}", x.bits())).collect::<Vec<_>>().join(" ");
        return Err(format!(
            "interp_one_with_grad: query {i}, {what} is another, numbers {numbers:?}\n\
             value {} and apart {}\ngradient {} and apart {}\nmarks {:?}, apart {:?} and {:?}\nsums {:?}, expected {taken}",
            shown(&mut value[0]), shown(&mut value[1]), shown(&mut gradient[0]), shown(&mut gradient[1]),
            marks[0].all, marks[1].all, marks[2].all, sums.part(),
        ));
    }
    *k.together.entry((numbers[0], sums.at(0))).or_default() += 1;
    Ok(())
}

/// One slice of that call an entry too short, on a grid that is taken: the query is 3, and tells no sum; any other is 7, and
/// nothing is written.
fn too_short<T: Calls>(g: &Grid<T>, x: &[T], k: &mut Counts) -> Result<(), String> {
    let n = x.len();
    for short in 0..6 {
        let len = |slice: usize, fit: usize| fit - (slice == short) as usize;
        let (mut refusal, mut value, mut gradient) = (wholes(len(0, 2)), floats(len(1, 1)), floats(len(2, n)));
        let (mut marks, mut sums, x) = (bytes(len(3, n)), wholes(len(4, 1)), &x[..len(5, n)]);
        let number =
            T::interp_one_with_grad(g, x, refusal.part(), value.part(), gradient.part(), marks.part(), sums.part());
        let expected = if short == 5 { 3 } else { 7 };
        let told = if expected == 3 { refusal.part() == [0, 0] && sums.part() == [0] } else { refusal.rest_kept(0) && sums.rest_kept(0) };
        let kept = value.rest_kept(0) && gradient.rest_kept(0) && marks.rest_kept(0) && refusal.rest_kept(2) && sums.rest_kept(1);
        if number != expected || !told || !kept {
            return Err(format!("interp_one_with_grad, slice {short} too short: number {number}, expected {expected}; refusal {:?}, sums {:?}", refusal.all, sums.all));
        }
        k.short += 1;
    }
    Ok(())
}

/// A query or answer buffer of a wrong length, which both refuse without writing anything; every other time with a NaN as the
/// first coordinate, since 7 comes before 9.
fn wrong_length<T: Calls>(
    g: &Grid<T>,
    reader: &dyn Reader<T>,
    columns: &[Vec<T>],
    r: &mut Rng,
    k: &mut Counts,
) -> Result<(), String> {
    let (n, c) = (columns.len(), columns[0].len());
    let (mut queries, mut lengths) = (columns.to_vec(), vec![c; n]);
    if k.lengths % 2 == 1 {
        queries[0].iter_mut().take(1).for_each(|x| *x = T::NAN);
    }
    let other = if c > 0 && r.coin() { c - 1 } else { c + 1 };
    let spoiled = r.below(n);
    let mut values = c;
    match r.below(3) {
        0 => queries[spoiled].resize(other, T::one()),
        1 => {
            lengths[spoiled] = other;
            values = other;
        }
        // All columns alike, so that the length can be divided by the axis count.
        _ => {
            lengths.fill(other);
            values = other;
        }
    }
    let parts: Vec<&[T]> = queries.iter().map(|x| &x[..]).collect();
    let total: usize = lengths.iter().sum();
    let mut out = vec![T::zero(); values];
    let mut grad: Vec<Vec<T>> = lengths.iter().map(|&len| vec![T::zero(); len]).collect();
    if reader.batch(&parts, &mut out) != Err(MISMATCH)
        || reader.batch_grad(&parts, &mut grad.iter_mut().map(|x| &mut x[..]).collect::<Vec<_>>()) != Err(MISMATCH)
    {
        return Err("the Rust takes buffers of a wrong length".into());
    }
    let joined = parts.concat();
    for (call, len) in [("interp", values), ("interp_grad", total)] {
        let (mut refusal, mut lent) = (wholes(4), floats(len));
        let run = if call == "interp" { T::interp } else { T::interp_grad };
        outcome(call, run(g, &joined, refusal.part(), lent.part()), &refusal, (7, 0, 0))?;
        if !lent.rest_kept(0) {
            return Err(format!("{call}: an entry was written on 7"));
        }
    }
    k.lengths += 1;
    Ok(())
}

/// A grid that `new` refuses with this number and axis: all seven calls give them and write nothing but the refusal, and one of
/// them that it took no sum, whatever the queries are; half the time they are NaN.
fn refused<T: Calls>(g: &Grid<T>, (number, axis): (u8, usize), r: &mut Rng, k: &mut Counts) -> Result<(), String> {
    let n = g.counts.len();
    let c = r.below(4);
    let expected = (number, 0, axis);
    let mut x: Vec<T> = (0..n * c.max(1)).map(|_| special(r)).collect();
    if c % 2 == 1 {
        x.fill(T::NAN);
    }
    let check = |call: &str, number: u8, refusal: Lent<usize>, lent: &[&Lent<T>]| {
        outcome(call, number, &refusal, expected)?;
        if lent.iter().all(|x| x.rest_kept(0)) { Ok(()) } else { Err(format!("{call}: an entry was written on {number}")) }
    };
    let mut refusal = wholes(4);
    let number = T::new(g, refusal.part());
    check("new", number, refusal, &[])?;
    let mut marks = bytes(n);
    let (mut refusal, mut origins, mut classes) = (wholes(4), wholes(n), bytes(n));
    let number = T::get_loc(g, &x[..n], refusal.part(), origins.part(), classes.part(), marks.part());
    check("get_loc", number, refusal, &[])?;
    if !origins.rest_kept(0) || !classes.rest_kept(0) {
        return Err("get_loc: an entry was written on a refusal".into());
    }
    let (mut refusal, mut lent) = (wholes(4), floats(1));
    let number = T::interp_one(g, &x[..n], refusal.part(), lent.part(), marks.part());
    check("interp_one", number, refusal, &[&lent])?;
    let (mut refusal, mut lent) = (wholes(4), floats(n));
    let number = T::interp_one_grad(g, &x[..n], refusal.part(), lent.part(), marks.part());
    check("interp_one_grad", number, refusal, &[&lent])?;
    let (mut refusal, mut value, mut sums) = (wholes(4), floats(1), wholes(2));
    let number =
        T::interp_one_with_grad(g, &x[..n], refusal.part(), value.part(), lent.part(), marks.part(), sums.part());
    check("interp_one_with_grad", number, refusal, &[&value, &lent])?;
    if sums.at(0) != 0 || !sums.rest_kept(1) {
        return Err(format!("interp_one_with_grad: sums {:?} on a refusal", sums.part()));
    }
    *k.together.entry((number, 0)).or_default() += 1;
    if !marks.rest_kept(0) {
        return Err("a single call: a mark was written on a refusal".into());
    }
    let (mut refusal, mut lent) = (wholes(4), floats(c));
    let number = T::interp(g, &x[..n * c], refusal.part(), lent.part());
    check("interp", number, refusal, &[&lent])?;
    let (mut refusal, mut lent) = (wholes(4), floats(n * c));
    let number = T::interp_grad(g, &x[..n * c], refusal.part(), lent.part());
    check("interp_grad", number, refusal, &[&lent])?;
    *k.by.entry(format!("grids refused with {}", expected.0)).or_default() += 1;
    Ok(())
}

fn random_axes<T: Width>(r: &mut Rng) -> Vec<Axis<T>> {
    let rectilinear = r.coin();
    let many = r.pick(&[1, 1, 2, 2, 2, 3, 3, 3, 3, 4]);
    let odd: &[&str] = if rectilinear {
        &["wild", "flat", "flat", "zeros", "huge", "extreme", "tiny", "bits"]
    } else {
        &["wild", "wild", "huge", "huge", "extreme", "tiny", "tiny", "quotient", "quotient", "bits"]
    };
    let calm = r.below(3) > 0;
    (0..many)
        .map(|_| {
            let n = match many {
                1 if r.one_in(100) => r.pick(&[4096, 4095, 1000]),
                1 => r.range(4, 40) as usize,
                2 => r.range(4, 16) as usize,
                3 => r.range(4, 12) as usize,
                _ => r.range(4, 6) as usize,
            };
            let flavour = if calm || r.coin() {
                r.pick(&["whole", "plain", "exact"])
            } else if !rectilinear && r.one_in(40) {
                "lost"
            } else {
                r.pick(odd)
            };
            axis(r, rectilinear, flavour, n)
        })
        .collect()
}

/// One coordinate; one in `odd` is drawn from the odd ones, none where `odd` is 0.
fn coordinate<T: Width>(r: &mut Rng, a: &Axis<T>, odd: usize) -> T {
    if odd > 0 && r.one_in(odd) {
        return match (r.below(3), a) {
            (0, Axis::Regular { .. }) => at_mark(r, a),
            (1, _) => T::from_bits(r.next()),
            _ => special(r),
        };
    }
    if r.one_in(6) { near_node(r, a) } else { any_class(r, a) }
}

/// The queries, asked of both sides in the grid's mode: in batches, and some of them singly.
fn asked<T: Calls>(g: &Grid<T>, queries: &Queries<T>, r: &mut Rng, k: &mut Counts) -> Result<(), String> {
    let size = queries.len();
    assert!(!queries.given.iter().any(|column| any_nan(column)));
    *k.by.entry(format!("queries, {}, axis count {}", kind(g), g.counts.len())).or_default() += size as u64;
    k.queries += size as u64;
    for (x, (&start, &step)) in queries.used.iter().zip(g.starts.iter().zip(&g.steps)) {
        k.no_quotient += x.iter().filter(|&&x| ((x - start) / step).is_nan()).count() as u64;
    }
    read(g, |reader| -> Result<(), String> {
        let reader = reader.map_err(|message| format!("the Rust refuses a grid meant to be taken: {message}"))?;
        let mut refusal = wholes(4);
        let number = T::new(g, refusal.part());
        outcome("new", number, &refusal, (0, 0, 0))?;
        let single = |i: usize, k: &mut Counts| {
            single(g, reader, queries, i, k).map_err(|e| format!("{e}\nby a single call, query {i}, mode {}", g.mode))
        };
        // The whole batch; where it stops, what is left in smaller ones.
        let (mut from, mut to) = (0, size);
        loop {
            let Some((_, q, _)) = batch(g, reader, queries, from, to, k)? else {
                if to == size {
                    break;
                }
                (from, to) = (to, (to + 16).min(size));
                continue;
            };
            k.unplaceable += 1;
            single(from + q, k)?;
            from += q + 1;
            to = (from + 16).min(size);
            if from == size {
                break;
            }
        }
        for i in 0..size.min(20) {
            single(i, k)?;
        }
        (0..size).try_for_each(|i| together(g, queries, i, k))?;
        if r.one_in(8) {
            wrong_length(g, reader, &queries.given, r, k)?;
            if size > 0 {
                too_short(g, &queries.given(0), k)?;
            }
        }
        Ok(())
    })
    .map_err(|e| {
        let named = e.split("query ").skip(1).find_map(|s| s.split(',').next()?.parse::<usize>().ok()).filter(|&i| i < size);
        let x = named.map(|i| (queries.given(i), queries.used(i)));
        format!("{e}\nquery as given and as used, where one is named: {x:?}\n{g:?}")
    })
}

fn kind<T>(g: &Grid<T>) -> &'static str {
    if g.rectilinear { "rectilinear" } else { "regular" }
}

/// Any NaN: of either sign, quiet or signalling.
fn nan<T: Width>(r: &mut Rng) -> T {
    let payload = (r.next() >> (65 - T::DIGITS)).max(1);
    T::from_bits(T::INFINITY.bits() | payload | (r.next() & 1) << (T::SIZE - 1))
}

/// A query with a NaN on some axis; beside it now and then another NaN, or a number that regular axes as a rule cannot place.
fn with_nan<T: Width>(axes: &[Axis<T>], mode: u8, r: &mut Rng) -> Vec<T> {
    let at = r.below(axes.len());
    axes.iter()
        .enumerate()
        .map(|(d, a)| match r.below(8) {
            _ if d == at => nan(r),
            0 => nan(r),
            1 | 2 => r.pick(&[T::INFINITY, T::NEG_INFINITY, T::MAX, -T::MAX]),
            _ if mode == HELD => held::coordinate(r, a, 10),
            _ => coordinate(r, a, 10),
        })
        .collect()
}

/// Queries with a NaN, of ours alone: those that were taken out of the draws, and some that are made here. Each is asked by the
/// single calls, and in a batch after some of the queries that are numbers and before others of either sort. Those before it are
/// asked of the Rust again, and counted no more.
fn missing<T: Calls>(
    g: &Grid<T>,
    axes: &[Axis<T>],
    numbers: &Queries<T>,
    mut nans: Queries<T>,
    r: &mut Rng,
    k: &mut Counts,
) -> Result<(), String> {
    k.taken_out[g.rectilinear as usize] += nans.len() as u64;
    for _ in 0..r.below(8) {
        let given = with_nan(axes, g.mode, r);
        let used = used_in(g.mode, axes, &given);
        if !apart(axes, &used) {
            nans.push(&given, &used);
        }
    }
    let modes = ["cubic", "straight", "held"];
    *k.missing.entry(format!("queries, {}, {}", kind(g), modes[g.mode as usize])).or_default() += nans.len() as u64;
    let mut aside = Counts::default();
    read(g, |reader| -> Result<(), String> {
        let reader = reader.map_err(|message| format!("the Rust refuses a grid meant to be taken: {message}"))?;
        for i in 0..nans.len() {
            let told = |e: String| format!("{e}\na query with a NaN: {:?}, mode {}\n{g:?}", nans.given(i), g.mode);
            together(g, &nans, i, k).map_err(told)?;
            match single(g, reader, &nans, i, &mut aside).map_err(told)?.ok_or("no refusal of a NaN is expected")? {
                (9, axis) => k.nines[axis] += 1,
                _ => k.eights += 1,
            }
            let mut queries = Queries::none(axes.len());
            let size = numbers.len();
            let most = if r.one_in(200) { size } else { size.min(8) };
            let before = r.below(most + 1);
            let from = r.below(size - before + 1);
            (from..from + before).for_each(|j| queries.push(&numbers.given(j), &numbers.used(j)));
            queries.push(&nans.given(i), &nans.used(i));
            for _ in 0..r.below(6) {
                let of = if size == 0 || r.one_in(3) { &nans } else { numbers };
                let j = r.below(of.len());
                queries.push(&of.given(j), &of.used(j));
            }
            let stop = batch(g, reader, &queries, 0, queries.len(), &mut aside).map_err(told)?;
            let (number, ..) = stop.ok_or("no refusal of a NaN is expected")?;
            *k.missing.entry(format!("batches stopped by {number}")).or_default() += 1;
        }
        Ok(())
    })
}

/// The order of 9 and 8 in plain cases, in figures that are worked out nowhere. All values are NaN.
fn figures<T: Calls>() -> Result<(), String> {
    let [nan, inf, inside] = [T::NAN, T::INFINITY, T::of(1.5)];
    let regular = |start: T| [start, T::zero()].map(|start| Axis::Regular { start, step: T::one(), n: 4 });
    let (plain, no_start, far_start) = (regular(T::zero()), regular(nan), regular(inf));
    let uneven = [(); 2].map(|()| Axis::Rectilinear([0.0, 1.0, 2.0, 4.0].map(T::of).to_vec()));
    // Number and axis in cubic and in straight, and in held; zeros where there is no refusal.
    for (axes, x, given, held) in [
        (&plain, [inside, inside], (0, 0), (0, 0)),
        (&plain, [nan, inside], (9, 0), (9, 0)),
        (&plain, [inside, nan], (9, 1), (9, 1)),
        (&plain, [nan, nan], (9, 0), (9, 0)),
        (&plain, [inf, nan], (8, 0), (9, 1)),
        (&plain, [-inf, nan], (8, 0), (9, 1)),
        (&plain, [nan, inf], (9, 0), (9, 0)),
        (&plain, [inside, inf], (8, 1), (0, 0)),
        (&uneven, [inside, inside], (0, 0), (0, 0)),
        (&uneven, [nan, inside], (9, 0), (9, 0)),
        (&uneven, [inside, nan], (9, 1), (9, 1)),
        (&uneven, [nan, nan], (9, 0), (9, 0)),
        (&uneven, [inf, nan], (9, 1), (9, 1)),
        (&uneven, [nan, inf], (9, 0), (9, 0)),
        (&uneven, [inf, -inf], (0, 0), (0, 0)),
        (&no_start, [inside, nan], (8, 0), (8, 0)),
        (&no_start, [nan, inside], (9, 0), (9, 0)),
        (&far_start, [inf, nan], (8, 0), (8, 0)),
        (&far_start, [nan, nan], (9, 0), (9, 0)),
    ] {
        for mode in [CUBIC, STRAIGHT, HELD] {
            let g = Grid::new(axes, vec![nan; 16], mode);
            let mut queries = Queries::none(2);
            [x, [nan; 2]].iter().for_each(|x| queries.push(x, &used_in(mode, axes, x)));
            let alone = if mode == HELD { held } else { given };
            let batched = if alone.0 == 0 { (9, 1, 0) } else { (alone.0, 0, alone.1) };
            read(&g, |reader| -> Result<(), String> {
                let (reader, mut aside) = (reader?, Counts::default());
                together(&g, &queries, 0, &mut aside)?;
                let worked_out = (single(&g, reader, &queries, 0, &mut aside)?, batch(&g, reader, &queries, 0, 2, &mut aside)?);
                let same = worked_out == (Some(alone).filter(|a| a.0 > 0), Some(batched));
                if same { Ok(()) } else { Err(format!("{worked_out:?}, in figures {alone:?} and {batched:?}")) }
            })
            .map_err(|e| format!("{e}\n{x:?}, mode {mode}\n{g:?}"))?;
        }
    }
    Ok(())
}

/// A query as it is used in a mode.
fn used_in<T: Width>(mode: u8, axes: &[Axis<T>], given: &[T]) -> Vec<T> {
    axes.iter().zip(given).map(|(a, &x)| if mode == HELD { held::used(a, x) } else { x }).collect()
}

/// Whether a quotient is exactly -2^63.
fn apart<T: Width>(axes: &[Axis<T>], used: &[T]) -> bool {
    axes.iter().zip(used).any(|(a, &x)| a.apart(x))
}

/// What is counted of the queries in held.
const COUNTED: [&str; 10] = [
    "queries with a replaced axis",
    "queries without a replaced axis",
    "coordinates not replaced",
    "coordinates not replaced: at the first or the last node",
    "coordinates not replaced: at such a node, as the other zero",
    "coordinates replaced by the first node",
    "coordinates replaced by the last node",
    "coordinates replaced: infinite",
    "coordinates replaced: the float just beyond the node",
    "coordinates replaced: unplaceable as given",
];

/// Queries to the same axes in held, and those among them with a NaN.
fn held_queries<T: Width>(axes: &[Axis<T>], r: &mut Rng, k: &mut Counts) -> (Queries<T>, Queries<T>) {
    let size = if r.one_in(5) { r.below(12) } else { r.range(50, 1000) as usize };
    let odd = r.pick(&[0, 0, 0, 10, 100, 1000]);
    let (mut queries, mut nans) = (Queries::none(axes.len()), Queries::none(axes.len()));
    let mut counted = [0; COUNTED.len()];
    for _ in 0..size {
        let given: Vec<T> = axes.iter().map(|a| held::coordinate(r, a, odd)).collect();
        let used = used_in(HELD, axes, &given);
        if apart(axes, &used) {
            k.left_out += 1;
            continue;
        }
        if any_nan(&given) {
            nans.push(&given, &used);
            continue;
        }
        let mut any = false;
        for (d, a) in axes.iter().enumerate() {
            let (x, ends) = (given[d], [a.node(0), a.node(a.n() - 1)]);
            let replaced = x.bits() != used[d].bits();
            any |= replaced;
            // Whether it has no place as given.
            let far = T::of(pow2(63));
            let lost = match a {
                Axis::Regular { start, step, .. } => !((x - *start) / *step >= -far && (x - *start) / *step < far),
                Axis::Rectilinear(_) => false,
            };
            for (i, is) in [
                !replaced,
                ends.contains(&x),
                ends.iter().any(|e| e.is_zero() && x.is_zero() && e.bits() != x.bits()),
                replaced && x < ends[0],
                replaced && x > ends[1],
                replaced && x.is_infinite(),
                replaced && (x.up() == ends[0] || x.down() == ends[1]),
                replaced && lost,
            ]
            .into_iter()
            .enumerate()
            {
                counted[2 + i] += is as u64;
            }
        }
        counted[!any as usize] += 1;
        queries.push(&given, &used);
    }
    for (what, count) in COUNTED.iter().zip(counted) {
        *k.by.entry(what.to_string()).or_default() += count;
    }
    (queries, nans)
}

/// The calls on a grid that is refused with this number and axis before any buffer is looked at: lengths that fit, or one too
/// short or too long, and a refusal with room or without. Nothing is written but the refusal, and 0 for the number of sums, and
/// these only where they have room. The six that have a mode, and `new` where the mode is one.
fn before_lengths<T: Calls>(g: &Grid<T>, expected: (u8, usize), nan: bool, r: &mut Rng) -> Result<(), String> {
    let n = g.axis_count;
    let mut len = |fit: usize| if r.one_in(4) { (fit + 1).saturating_sub(r.pick(&[0, 2])) } else { fit };
    let c = len(3);
    let entry = |i: usize| if nan { T::NAN } else { T::of(i as f64) };
    // A single query that is too short is 3 by itself.
    let x: Vec<T> = (0..len(n).max(if expected.0 > 3 { n } else { 0 })).map(entry).collect();
    let many: Vec<T> = (0..len(n * c)).map(entry).collect();
    let (mut origins, mut classes) = (wholes(len(n)), bytes(len(n)));
    let mut marks = bytes(classes.len);
    let mut lent = [1, n, c, n * c].map(|fit| floats::<T>(len(fit)));
    // For value and gradient in one call nothing is drawn, so that the draws are the same with it and without: it has an entry for
    // its sums, or one fewer or more as the batch has, and as much room for its refusal as the call before.
    let (mut sums, mut room) = (wholes(c - 2), 0);
    for call in (0..7).filter(|&call| call != 5 || g.mode <= HELD) {
        if call < 6 {
            room = r.pick(&[4, 4, 4, 2, 1, 0]);
        }
        let mut refusal = wholes(room);
        let (name, number) = match call {
            0 => ("get_loc", T::get_loc(g, &x, refusal.part(), origins.part(), classes.part(), marks.part())),
            1 => ("interp_one", T::interp_one(g, &x, refusal.part(), lent[0].part(), marks.part())),
            2 => ("interp_one_grad", T::interp_one_grad(g, &x, refusal.part(), lent[1].part(), marks.part())),
            3 => ("interp", T::interp(g, &many, refusal.part(), lent[2].part())),
            4 => ("interp_grad", T::interp_grad(g, &many, refusal.part(), lent[3].part())),
            5 => ("new", T::new(g, refusal.part())),
            _ => {
                let [value, gradient, ..] = &mut lent;
                let both = (value.part(), gradient.part(), marks.part(), sums.part());
                ("interp_one_with_grad", T::interp_one_with_grad(g, &x, refusal.part(), both.0, both.1, both.2, both.3))
            }
        };
        let told = if refusal.len < 2 { 0 } else { 2 };
        let kept = refusal.rest_kept(told) && (0..told).all(|i| refusal.at(i) == [0, expected.1][i]);
        if number != expected.0 || !kept {
            let refusal = refusal.part();
            return Err(format!("{name}, mode {}: number {number}, expected {expected:?}; refusal {refusal:?}\n{g:?}", g.mode));
        }
        let kept = origins.rest_kept(0) && classes.rest_kept(0) && marks.rest_kept(0);
        let counted = if call == 6 { sums.len.min(1) } else { 0 };
        let kept = kept && sums.rest_kept(counted) && (0..counted).all(|i| sums.at(i) == 0);
        if !kept || lent.iter().any(|x| !x.rest_kept(0)) {
            return Err(format!("{name}, mode {}: an entry is not as it must be on {number}\n{g:?}", g.mode));
        }
    }
    Ok(())
}

/// The six calls with mode numbers that are none, whatever else is wrong: 1 or 2 where they apply, else 3.
fn no_mode<T: Calls>(g: &Grid<T>, modes: impl Iterator<Item = u8>, r: &mut Rng, k: &mut Counts) -> Result<(), String> {
    let mut g = g.clone();
    let n = g.counts.len();
    let expected = if !(1..=4).contains(&n) {
        1
    } else if g.counts.iter().any(|&c| c > 4096) || g.counts.iter().map(|&c| c as u128).product::<u128>() > 1 << 20 {
        2
    } else {
        3
    };
    for mode in modes {
        g.mode = mode;
        before_lengths(&g, (expected, 0), false, r)?;
        *k.modes.entry(expected).or_default() += 6;
        k.tried.insert(mode);
    }
    Ok(())
}

/// Every mode number that is none, on grids that are taken and on grids that each check of grids refuses. Those in the three
/// modes too, with NaN among the queries: 1 to 6 and 10 come before 9.
fn all_modes<T: Calls>(r: &mut Rng, k: &mut Counts) -> Result<(), String> {
    for rectilinear in [false, true] {
        let good = axis::<T>(r, rectilinear, "whole", 5);
        let long = axis::<T>(r, rectilinear, "whole", 4097);
        let wide = axis::<T>(r, rectilinear, "whole", 1025);
        let short = axis::<T>(r, rectilinear, "whole", 3);
        let still = match &good {
            Axis::Regular { start, n, .. } => Axis::Regular { start: *start, step: T::zero(), n: *n },
            Axis::Rectilinear(a) => Axis::Rectilinear(vec![a[0]; 5]),
        };
        let back = match &good {
            Axis::Regular { .. } => good.clone(),
            Axis::Rectilinear(a) => Axis::Rectilinear(vec![a[0], a[2], a[1], a[3], a[4]]),
        };
        let level = match &good {
            Axis::Regular { .. } => good.clone(),
            Axis::Rectilinear(a) => Axis::Rectilinear(vec![a[0], a[1], a[2], a[3], a[3]]),
        };
        let none = Grid { axis_count: 0, counts: vec![], ..Grid::new(&[good.clone()], vec![T::one(); 5], HELD) };
        let mut grids = vec![(none, (1, 0))];
        for (axes, expected) in [
            (vec![good.clone()], (0, 0)),
            (vec![good.clone(); 2], (0, 0)),
            (vec![good.clone(); 3], (0, 0)),
            (vec![good.clone(); 4], (0, 0)),
            (vec![good.clone(); 5], (1, 0)),
            (vec![long.clone()], (2, 0)),
            (vec![good.clone(), long], (2, 0)),
            (vec![wide.clone(), wide], (2, 0)),
            (vec![short, good.clone()], (4, 0)),
            (vec![good.clone(), still], (5, 1)),
            (vec![back, good.clone()], if rectilinear { (6, 0) } else { (0, 0) }),
            (vec![good, level], if rectilinear { (10, 1) } else { (0, 0) }),
        ] {
            // The values of the grids that are too large are not there.
            let len = product(&axes).min(625);
            grids.push((Grid::new(&axes, values(r, "short", len), HELD), expected));
        }
        for (mut g, expected) in grids {
            no_mode(&g, 3..=255, r, k)?;
            for mode in if expected.0 == 0 { 0..0 } else { 0..3 } {
                g.mode = mode;
                (0..8).try_for_each(|_| refused(&g, expected, r, k)).map_err(|e| format!("{e}\n{g:?}"))?;
            }
        }
    }
    Ok(())
}

/// What is counted of flat axes, and the draws for them.
#[derive(Default)]
struct Flat {
    r: Rng,
    /// Rectilinear axes drawn for the comparison, and those of them that are flat; the grids these are of, and their queries,
    /// which are compared with those axes mended, in cubic and straight and in held.
    axes: [u64; 2],
    grids: u64,
    queries: [u64; 2],
    /// Grids of ours alone, as drawn and made; all of them by number, and those with 10 by axis.
    asked: [u64; 2],
    by: BTreeMap<u8, u64>,
    tens: [u64; 4],
    /// Calls with buffers that fit; with others, and those of them with NaN for queries; and calls with too few counts.
    calls: [u64; 4],
}

impl Flat {
    fn print(&self) {
        println!("flat axes, ours alone");
        let ([all, flat], [given, held], [drawn, made]) = (self.axes, self.queries, self.asked);
        println!("{all:10} rectilinear axes drawn for the comparison, {flat} of them flat, in {} grids", self.grids);
        println!("{:10} queries to these grids, their axes mended: {given} in cubic and straight, {held} in held", given + held);
        println!("{:10} grids asked of ours alone, in the three modes: {drawn} as drawn, {made} made", drawn + made);
        for (number, count) in &self.by {
            println!("{count:10} of them refused with {number}");
        }
        println!("{:10} with 10 on the axes 0 to 3: {:?}", self.tens.iter().sum::<u64>(), self.tens);
        let [fit, any, nan, few] = self.calls;
        println!("{fit:10} calls with buffers that fit");
        println!("{any:10} calls with buffers of any length, {nan} of them with NaN for queries");
        println!("{few:10} calls with too few counts, refused with 3");
    }
}

/// What 5, 6 and 10 say of the axes, by their definition, each over all axes before the next: entry 1 not above entry 0; a
/// later entry below the one before it, or a NaN; an entry equal to the one before it, as numbers.
fn order_of<T: Width>(axes: &[Axis<T>]) -> (u8, usize) {
    let faults: [(u8, fn(&[T]) -> bool); 3] = [
        (5, |a| !(a[1] > a[0])),
        (6, |a| (2..a.len()).any(|i| !(a[i] >= a[i - 1]))),
        (10, |a| (1..a.len()).any(|i| a[i] == a[i - 1])),
    ];
    for (number, fault) in faults {
        if let Some(axis) = axes.iter().position(|a| matches!(a, Axis::Rectilinear(a) if fault(a))) {
            return (number, axis);
        }
    }
    (0, 0)
}

/// The same axes with one to three faults, most of them an entry equal to the one before it.
fn made_flat<T: Width>(axes: &[Axis<T>], r: &mut Rng) -> Vec<Axis<T>> {
    let mut axes = axes.to_vec();
    for _ in 0..r.range(1, 3) {
        let d = r.below(axes.len());
        let Axis::Rectilinear(a) = &mut axes[d] else { unreachable!() };
        // The last pair, the first that is not that of 5, or any other.
        let i = match r.below(4) {
            0 => a.len() - 1,
            1 => 2,
            _ => 2 + r.below(a.len() - 2),
        };
        match r.below(16) {
            // The two zeros in either order, whole numbers before and after them.
            0..=3 => {
                a.iter_mut().enumerate().for_each(|(j, x)| *x = T::of(j as f64 - i as f64 + (j < i) as u8 as f64));
                let zero = T::of(r.pick(&[0.0, -0.0]));
                (a[i - 1], a[i]) = (zero, -zero);
            }
            4 | 5 => a[i - 1..].fill(T::INFINITY),
            6 => a[i] = T::NAN,
            7 => a[i] = a[0].down(),
            8 => a[1] = a[0],
            _ => a[i] = a[i - 1],
        }
    }
    axes
}

/// A grid that 5, 6 or 10 refuses, of ours alone: all seven calls in the three modes, with buffers that fit and with any, NaN or
/// not for queries, and now and then with too few counts or with a mode number that is none.
fn ours_alone<T: Calls>(axes: &[Axis<T>], values: &[T], expected: (u8, usize), f: &mut Flat) -> Result<(), String> {
    let mut aside = Counts::default();
    let r = &mut f.r;
    for mode in [CUBIC, STRAIGHT, HELD] {
        let mut g = Grid::new(axes, values.to_vec(), mode);
        let nan = r.coin();
        refused(&g, expected, r, &mut aside).map_err(|e| format!("{e}\nmode {mode}\n{g:?}"))?;
        before_lengths(&g, expected, nan, r)?;
        f.calls[0] += 7;
        f.calls[1] += 7;
        f.calls[2] += nan as u64 * 7;
        if r.one_in(8) {
            g.counts.pop();
            before_lengths(&g, (3, 0), nan, r)?;
            f.calls[3] += 7;
        }
    }
    let mut g = Grid::new(axes, values.to_vec(), HELD);
    g.mode = r.range(3, 255) as u8;
    before_lengths(&g, (3, 0), false, r)?;
    *f.by.entry(expected.0).or_default() += 1;
    if expected.0 == 10 {
        f.tens[expected.1] += 1;
    }
    Ok(())
}

/// The flat axes of one round: the grid as drawn where it has one, and one or two that are made of its axes.
fn flat_axes<T: Calls>(drawn: &[Axis<T>], risen: &[Axis<T>], values: &[T], f: &mut Flat) -> Result<(), String> {
    let flat = drawn.iter().filter(|a| a.flat()).count() as u64;
    f.axes[0] += drawn.len() as u64;
    f.axes[1] += flat;
    let mut grids = vec![];
    if flat > 0 {
        f.grids += 1;
        f.asked[0] += 1;
        grids.push(drawn.to_vec());
    }
    for _ in 0..f.r.range(1, 2) {
        f.asked[1] += 1;
        grids.push(made_flat(risen, &mut f.r));
    }
    for axes in grids {
        let expected = order_of(&axes);
        if expected.0 == 0 {
            return Err(format!("a flat axis is expected among {axes:?}"));
        }
        ours_alone(&axes, values, expected, f)?;
    }
    Ok(())
}

/// The same in plain cases, in figures that are worked out nowhere. Zeros where the grid is taken: then it is compared.
fn flat_figures<T: Calls>() -> Result<(), String> {
    let f = &mut Flat::default();
    let all = |xs: &[f64]| xs.iter().map(|&x| T::of(x)).collect::<Vec<T>>();
    let [inf, nan, one, most] = [T::INFINITY, T::NAN, T::one(), T::MAX];
    let least = T::zero().up();
    let (good, last, middle) = (all(&[0.0, 1.0, 2.0, 3.0]), all(&[0.0, 1.0, 2.0, 2.0]), all(&[0.0, 1.0, 1.0, 2.0]));
    let (still, back) = (all(&[1.0, 1.0, 2.0, 3.0]), all(&[0.0, 1.0, 2.0, 1.0]));
    let mut long: Vec<T> = (0..4096).map(|i| T::of(i as f64)).collect();
    long[4095] = long[4094];
    let ([minus, plus], [a, b]) = ([-one, one], [T::zero(), -T::zero()]);
    let cases: Vec<(Vec<Vec<T>>, (u8, usize))> = vec![
        (vec![last.clone()], (10, 0)),
        (vec![middle.clone()], (10, 0)),
        (vec![all(&[0.0, 1.0, 1.0, 1.0])], (10, 0)),
        (vec![all(&[0.0, 1.0, 2.0, 2.0, 3.0])], (10, 0)),
        (vec![long], (10, 0)),
        // The two zeros, at the last pair, in the middle, and first.
        (vec![vec![minus + minus, minus, a, b]], (10, 0)),
        (vec![vec![minus + minus, minus, b, a]], (10, 0)),
        (vec![vec![minus, a, b, plus]], (10, 0)),
        (vec![vec![minus, b, a, plus]], (10, 0)),
        (vec![vec![a, b, plus, plus + plus]], (5, 0)),
        (vec![vec![b, a, plus, plus + plus]], (5, 0)),
        // Infinities in a row.
        (vec![vec![minus, plus, inf, inf]], (10, 0)),
        (vec![vec![-inf, inf, inf, inf]], (10, 0)),
        (vec![vec![-inf, -inf, minus, plus]], (5, 0)),
        (vec![vec![inf; 4]], (5, 0)),
        // The lowest flat axis.
        (vec![last.clone(), good.clone(), last.clone()], (10, 0)),
        (vec![good.clone(), middle.clone(), last.clone()], (10, 1)),
        (vec![good.clone(), good.clone(), last.clone()], (10, 2)),
        (vec![good.clone(), good.clone(), good.clone(), middle.clone()], (10, 3)),
        // 6 before 10, on another axis and on the same.
        (vec![last.clone(), back.clone()], (6, 1)),
        (vec![back.clone(), last.clone()], (6, 0)),
        (vec![all(&[0.0, 1.0, 1.0, 0.5])], (6, 0)),
        (vec![all(&[0.0, 2.0, 1.0, 1.0])], (6, 0)),
        (vec![vec![minus, plus, plus, nan]], (6, 0)),
        (vec![vec![minus, plus, nan, nan]], (6, 0)),
        // 5 before both.
        (vec![last.clone(), still.clone()], (5, 1)),
        (vec![back.clone(), last.clone(), still.clone()], (5, 2)),
        (vec![all(&[1.0, 1.0, 2.0, 2.0])], (5, 0)),
        (vec![all(&[1.0, 1.0, 1.0, 1.0])], (5, 0)),
        // Neighbours one unit apart.
        (vec![vec![minus, plus, plus.up(), plus.up().up()]], (0, 0)),
        (vec![vec![plus.down(), plus, plus.up(), plus.up().up()]], (0, 0)),
        (vec![vec![-least, a, least, plus]], (0, 0)),
        (vec![vec![-least, b, least, plus]], (0, 0)),
        (vec![vec![minus, plus, most, inf]], (0, 0)),
        (vec![vec![-inf, -most, most, inf]], (0, 0)),
        (vec![vec![-most, (-most).up(), most.down(), most]], (0, 0)),
    ];
    for (entries, expected) in cases {
        let axes: Vec<Axis<T>> = entries.into_iter().map(Axis::Rectilinear).collect();
        let values: Vec<T> = (0..product(&axes)).map(|i| T::of((i * i % 11) as f64)).collect();
        let worked_out = order_of(&axes);
        if worked_out != expected {
            return Err(format!("{worked_out:?} is worked out, in figures {expected:?}: {axes:?}"));
        }
        match expected.0 {
            0 => taken(&axes, &values, f)?,
            _ => (0..16).try_for_each(|_| ours_alone(&axes, &values, expected, f))?,
        }
    }
    let axis = |a: &[T]| Axis::Rectilinear(a.to_vec());
    // A flat axis beside what 1 to 4 refuse, by all seven calls: those come first.
    let (short, over) = (axis(&good[..3]), Axis::Rectilinear((0..4097).map(|i| T::of(i as f64)).collect()));
    for (axes, more, expected) in [
        (vec![axis(&last); 5], 0, (1, 0)),
        (vec![axis(&last), over], 0, (2, 0)),
        (vec![axis(&last), axis(&good)], 1, (3, 0)),
        (vec![axis(&last), axis(&good)], -1, (3, 0)),
        (vec![axis(&last), short], 0, (4, 1)),
    ] {
        let values = vec![one; (product(&axes).min(1 << 12) as i64 + more) as usize];
        for mode in [CUBIC, STRAIGHT, HELD] {
            let g = Grid::new(&axes, values.clone(), mode);
            refused(&g, expected, &mut f.r, &mut Counts::default()).map_err(|e| format!("{e}\n{g:?}"))?;
        }
    }
    // 10 before 7, by a refusal of one entry, an answer buffer that is too short, and one query over the most; before 9.
    let g = Grid::new(&[axis(&last)], good.clone(), CUBIC);
    let over = vec![T::zero(); (1 << 20) + 1];
    for (told, queries, room) in [(1, &over[..2], 2), (4, &over[..2], 1), (4, &over[..], over.len()), (4, &[nan, nan][..], 2)] {
        for call in [T::interp, T::interp_grad] {
            let (mut refusal, mut lent) = (wholes(told), floats::<T>(room));
            let number = call(&g, queries, refusal.part(), lent.part());
            if number != 10 || !lent.rest_kept(0) || (told < 2 && !refusal.rest_kept(0)) {
                return Err(format!("a batch on a flat axis: number {number}, expected 10\n{g:?}"));
            }
        }
    }
    let mut refusal = wholes(1);
    let number = T::new(&g, refusal.part());
    let few = Grid { counts: vec![], ..g };
    let mut aside = wholes(4);
    let fewer = T::new(&few, aside.part());
    if (number, fewer) != (10, 3) || !refusal.rest_kept(0) {
        return Err(format!("new: {number} and {fewer}, expected 10 with room for one entry and 3 with too few counts"));
    }
    // Regular axes have no 10, and nodes that coincide are no refusal.
    let level = [Axis::Regular { start: T::of(1e16), step: T::of(0.1), n: 5 }];
    assert!((1..5).all(|i| level[0].node(i) == level[0].node(0)));
    taken(&level, &all(&[1.0, 4.0, 9.0, 16.0, 25.0]), f)
}

/// A grid that both take, at its nodes, between them and beyond, in the three modes.
fn taken<T: Calls>(axes: &[Axis<T>], values: &[T], f: &mut Flat) -> Result<(), String> {
    for mode in [CUBIC, STRAIGHT, HELD] {
        let mut queries = Queries::none(axes.len());
        for i in 0..400 {
            let one = if i % 2 == 0 { near_node } else { any_class };
            let given: Vec<T> = axes.iter().map(|a| one(&mut f.r, a)).collect();
            let used = used_in(mode, axes, &given);
            if !any_nan(&given) && !apart(axes, &used) {
                queries.push(&given, &used);
            }
        }
        asked(&Grid::new(axes, values.to_vec(), mode), &queries, &mut f.r, &mut Counts::default())?;
    }
    Ok(())
}

/// The draws and counts of cubic and straight, and those of held; the draws for queries with a NaN; and flat axes.
struct Run {
    r: Rng,
    k: Counts,
    h: Rng,
    held: Counts,
    n: Rng,
    flat: Flat,
}

/// One random grid with its queries, and now and then a grid that is refused.
fn round<T: Calls>(run: &mut Run) -> Result<(), String> {
    let Run { r, k, h, held, n, flat } = run;
    if r.one_in(8) {
        let (rectilinear, many) = (r.coin(), r.pick(&[1, 2, 3, 4]));
        let mut g = faulty::<T>(r, rectilinear, many, &mut |r| r.range(4, 7) as usize);
        if let Some(message) = read(&g, |reader| reader.err()) {
            let expected = refusal(&g, message);
            refused(&g, expected, r, k).map_err(|e| format!("{e}\n{g:?}"))?;
            g.mode = HELD;
            refused(&g, expected, h, held).map_err(|e| format!("{e}\n{g:?}"))?;
            let mode = h.range(3, 255) as u8;
            no_mode(&g, [mode].into_iter(), h, held)?;
        }
    }
    let drawn = random_axes::<T>(r);
    let axes: Vec<Axis<T>> = drawn.iter().map(Axis::mended).collect();
    let mended = drawn.iter().any(Axis::flat) as u64;
    let mut g = Grid::new(&axes, any_values(r, product(&axes)), if r.coin() { STRAIGHT } else { CUBIC });
    let size = if r.one_in(5) { r.below(12) } else { r.range(50, 1000) as usize };
    let odd = r.pick(&[0, 0, 0, 10, 100, 1000]);
    let (mut queries, mut nans) = (Queries::none(axes.len()), Queries::none(axes.len()));
    for _ in 0..size {
        let x: Vec<T> = axes.iter().map(|a| coordinate(r, a, odd)).collect();
        if apart(&axes, &x) {
            k.left_out += 1;
            continue;
        }
        if any_nan(&x) { nans.push(&x, &x) } else { queries.push(&x, &x) }
    }
    asked(&g, &queries, r, k)?;
    missing(&g, &axes, &queries, nans, n, k)?;
    flat.queries[0] += mended * queries.len() as u64;

    g.mode = HELD;
    // On values of one sign many components of replaced axes are -0.
    if h.one_in(4) {
        g.values.iter_mut().for_each(|v| *v = -v.abs());
    }
    let (queries, nans) = held_queries(&axes, h, held);
    asked(&g, &queries, h, held)?;
    missing(&g, &axes, &queries, nans, n, held)?;
    flat.queries[1] += mended * queries.len() as u64;
    let mode = h.range(3, 255) as u8;
    no_mode(&g, [mode].into_iter(), h, held)?;
    if g.rectilinear { flat_axes(&drawn, &axes, &g.values, flat) } else { Ok(()) }
}

/// Whether there was no difference.
fn compare<T: Calls>(queries: u64, seed: u64) -> bool {
    assert_eq!(T::version(), ours::VERSION, "the archive is of another version than src/ours.rs");
    let start = Instant::now();
    let seeded = seed.wrapping_mul(0x2545f4914f6cdd1d);
    let n = Rng(seeded.rotate_left(32));
    let flat = Flat { r: Rng(seeded.rotate_left(16)), ..Flat::default() };
    let mut run = Run { r: Rng(seeded), k: Counts::default(), h: Rng(!seeded), held: Counts::default(), n, flat };
    let mut grids = 0u64;
    let plain = figures::<T>().and_then(|()| flat_figures::<T>());
    let mut difference = plain.and_then(|()| all_modes::<T>(&mut run.h, &mut run.held)).err();
    while run.k.queries.min(run.held.queries) < queries && difference.is_none() {
        difference = round::<T>(&mut run).err();
        grids += 1;
    }
    let Run { k, held, flat, .. } = run;
    println!("f{}, seed {seed}, {:.1} seconds", T::SIZE, start.elapsed().as_secs_f64());
    println!("{grids:10} grids taken by both");
    println!("cubic and straight, against the Rust");
    k.print();
    println!("held, which the Rust does not have: no reference, a check on us by its cubic answers to the replaced queries");
    held.print();
    let ([plus, minus, nan], all) = (held.flat, held.flat.iter().sum::<u64>());
    println!("{all:10} components of a replaced axis, by a row of four +0: {plus} are +0, {minus} are -0, {nan} are NaN");
    println!("mode numbers that are none, ours alone: {} of 253", held.tried.len());
    for (number, count) in &held.modes {
        println!("{count:10} calls refused with {number}");
    }
    flat.print();
    match &difference {
        None => println!("no difference"),
        Some(difference) => println!("DIFFERENCE in grid {grids}: {difference}"),
    }
    difference.is_none()
}

fn main() {
    let args: Vec<String> = std::env::args().skip(1).collect();
    let (narrow, rest) = narrow(&args);
    let numbers: Vec<u64> = rest.iter().map(|a| a.parse().expect("whole numbers")).collect();
    let &[queries, seed] = &numbers[..] else {
        eprintln!("usage: compare [f32] QUERIES SEED");
        std::process::exit(2);
    };
    if !(if narrow { compare::<f32> } else { compare::<f64> })(queries, seed) {
        std::process::exit(1);
    }
}
