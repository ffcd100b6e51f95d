//! Lists of candidate directions through librulvimba, beside document 02 (ii) read once more and plainly: who is present
//! stands in order of arrival, and is sorted from nothing after every call. And calls on memory that no calls from an
//! empty list leave, beside the rules for such memory.
use super::harness::{bits, Guarded, GUARD};
use super::inputs::{edges, Rng};
use super::rulvimba::{self, Candidate, Candidates, CANDIDATES};
use std::array::from_fn;
use std::sync::LazyLock;

#[derive(Clone, Copy)]
enum Call {
    Arrival(Candidate),
    Departure(u16),
}
use Call::*;

fn arrival(id: u16, density: f64) -> Call {
    Arrival(Candidate { id, density })
}

// ---- document 02 (ii), once more

/// The call's number where these are present, 0 if it is accepted.
fn number_of(present: &[Candidate], call: Call) -> u64 {
    let has = |id| present.iter().any(|c| c.id == id);
    match call {
        Arrival(c) if !c.density.is_finite() || c.density < 0.0 => 9,
        Arrival(_) if present.len() >= 64 => 11,
        Arrival(c) if has(c.id) => 12,
        Departure(id) if !has(id) => 12,
        _ => 0,
    }
}

/// Who is present, in order of arrival.
#[derive(Default)]
struct Present(Vec<Candidate>);

impl Present {
    fn has(&self, id: u16) -> bool {
        self.0.iter().any(|c| c.id == id)
    }

    /// Answers the call's number.
    fn call(&mut self, call: Call) -> u64 {
        let number = number_of(&self.0, call);
        match call {
            _ if number != 0 => (),
            Arrival(c) => self.0.push(c),
            Departure(id) => self.0.retain(|c| c.id != id),
        }
        number
    }

    /// Greatest density first, by value; the sort leaves equal ones in order of arrival.
    fn sorted(&self) -> Vec<Candidate> {
        let mut all = self.0.clone();
        all.sort_by(|a, b| b.density.partial_cmp(&a.density).expect("finite densities"));
        all
    }
}

/// Memory that has a list: in its first places the list, past them what it had before.
fn holding(list: &[Candidate], before: &Candidates) -> Candidates {
    let mut now = Candidates { count: list.len(), ..*before };
    for (i, c) in list.iter().enumerate() {
        (now.ids[i], now.densities[i]) = (c.id, c.density);
    }
    now
}

/// The rules for any memory: a count above 64 is 64; an arrival goes before the first that it is greater than, a departure
/// takes the first that has the id.
fn on_any(before: &Candidates, call: Call) -> (u64, Candidates) {
    let mut list: Vec<Candidate> = before.iter().collect();
    let number = number_of(&list, call);
    if number != 0 {
        return (number, *before);
    }
    match call {
        Arrival(c) => {
            let at = list.iter().position(|e| e.density < c.density);
            list.insert(at.unwrap_or(list.len()), c);
        }
        Departure(id) => {
            let at = list.iter().position(|e| e.id == id);
            list.remove(at.expect("an id that is present"));
        }
    }
    (0, holding(&list, before))
}

// ---- the library's list in memory

/// The count and either array stand by themselves, each with words about it that no call may touch.
struct Memory {
    count: Guarded<usize>,
    ids: Guarded<[u16; CANDIDATES]>,
    densities: Guarded<[f64; CANDIDATES]>,
}

impl Memory {
    fn new(of: &Candidates) -> Self {
        Self { count: Guarded::new(of.count), ids: Guarded::new(of.ids), densities: Guarded::new(of.densities) }
    }

    fn call(&mut self, call: Call) -> u64 {
        let (count, ids, densities) = (&mut self.count.held, &mut self.ids.held, &mut self.densities.held);
        match call {
            Arrival(c) => rulvimba::arrive_in(count, ids, densities, c),
            Departure(id) => rulvimba::depart_in(count, ids, densities, id),
        }
    }

    fn held(&self) -> Candidates {
        Candidates { count: self.count.held, ids: self.ids.held, densities: self.densities.held }
    }

    /// Whether it holds this, and the words about it are as they were. In the first `moved` places any NaN equals any
    /// NaN; elsewhere nothing was to be moved.
    fn is(&self, must: &Candidates, moved: usize) -> bool {
        let same = |(i, (x, y)): (usize, (&f64, &f64))| if i < moved { bits(*x) == bits(*y) } else { x.to_bits() == y.to_bits() };
        self.count.is_kept(&must.count, true)
            && self.ids.is_kept(&must.ids, true)
            && self.densities.is_kept(&must.densities, false)
            && self.densities.held.iter().zip(&must.densities).enumerate().all(same)
    }
}

// ---- the comparison

#[derive(Default)]
struct Tally {
    calls: usize,
    lists: usize,
    differences: usize,
    /// How many calls were to answer each number.
    arrivals: [usize; 13],
    departures: [usize; 13],
    /// How often 0, 1, 2 to 61, 62, 63 and 64 were present after a call.
    present: [usize; 6],
}

impl Tally {
    /// One call, whose number and what memory must hold after it the judge says. Memory that differs is put right, so that
    /// a difference counts once.
    fn call(&mut self, memory: &mut Memory, call: Call, number: u64, must: &Candidates) {
        let before = memory.held();
        let here = memory.call(call);
        let moved = if number == 0 { must.count } else { 0 };
        self.calls += 1;
        self.present[[1, 2, 62, 63, 64].partition_point(|n| *n <= must.count)] += 1;
        match call {
            Arrival(_) => self.arrivals[number as usize] += 1,
            Departure(_) => self.departures[number as usize] += 1,
        }
        if here != number || !memory.is(must, moved) {
            self.differences += 1;
            if self.differences <= 3 {
                report(call, &before, (here, memory), (number, must));
            }
            *memory = Memory::new(must);
        }
    }

    /// A list of calls from an empty list, whose places hold anything.
    fn list(&mut self, rng: &mut Rng, mut next: impl FnMut(&mut Rng, &Present) -> Option<Call>) {
        let mut memory = Memory::new(&Candidates { count: 0, ..any_memory(rng) });
        let mut present = Present::default();
        self.lists += 1;
        while let Some(call) = next(rng, &present) {
            let number = present.call(call);
            let before = memory.held();
            let must = if number == 0 { holding(&present.sorted(), &before) } else { before };
            self.call(&mut memory, call, number, &must);
        }
    }

    fn written(&mut self, rng: &mut Rng, calls: &[Call]) {
        let mut calls = calls.iter();
        self.list(rng, |_, _| calls.next().copied());
    }

    fn print(&self, name: &str, lists: &str) {
        println!("{name:<44} {:>9} calls {:>7} differences from the second reading, in {} {lists}", self.calls, self.differences, self.lists);
        let (a, d) = (&self.arrivals, &self.departures);
        println!(
            "  accepted {} arrivals and {} departures, refused {} by 9, {} by 11, {} by 12 ({} arrivals and {} departures)",
            a[0], d[0], a[9], a[11], a[12] + d[12], a[12], d[12]
        );
    }
}

fn text(m: &Candidates) -> String {
    let entries: Vec<String> = m.ids.iter().zip(&m.densities).map(|(id, d)| format!("{id}:{:016x}", d.to_bits())).collect();
    format!("{} of {}", m.count, entries.join(" "))
}

fn report(call: Call, before: &Candidates, here: (u64, &Memory), judge: (u64, &Candidates)) {
    match call {
        Arrival(c) => println!("  rulvimba_arrive_in, id {}, density {:016x}", c.id, c.density.to_bits()),
        Departure(id) => println!("  rulvimba_depart_in, id {id}"),
    }
    let held = here.1.held();
    let about = if here.1.is(&held, 0) { "" } else { ", and wrote past its memory" };
    println!("    before {}\n    here  {}, {}{about}\n    judge {}, {}", text(before), here.0, text(&held), judge.0, text(judge.1));
}

// ---- inputs

/// Densities that are refused: NaN of several patterns, infinities, numbers below 0.
const BAD: [f64; 14] = [
    f64::NAN,
    f64::from_bits(0x7ff0000000000001),
    f64::from_bits(0x7fffffffffffffff),
    f64::from_bits(0xfff8000000000000),
    f64::from_bits(0xfff0000000000001),
    f64::from_bits(0xffffffffffffffff),
    f64::from_bits(GUARD),
    f64::INFINITY,
    f64::NEG_INFINITY,
    -1.0,
    -0.5,
    -f64::MIN_POSITIVE,
    f64::from_bits(0x8000000000000001),
    f64::MIN,
];

/// The edges that are taken, with zeros of either sign, subnormals and the largest double.
static GOOD: LazyLock<Vec<f64>> = LazyLock::new(|| edges().into_iter().filter(|x| x.is_finite() && *x >= 0.0).collect());

fn good(rng: &mut Rng) -> f64 {
    match rng.below(8) {
        0 => 0.0,
        1 => -0.0,
        2 => rng.unit(),
        3 => f64::from_bits(rng.next() % 0x7ff0000000000000),
        _ => GOOD[rng.below(GOOD.len())],
    }
}

fn bad(rng: &mut Rng) -> f64 {
    BAD[rng.below(BAD.len())]
}

/// Memory whose every bit is drawn, the count too.
fn any_memory(rng: &mut Rng) -> Candidates {
    Candidates { count: rng.next() as usize, ids: from_fn(|_| rng.next() as u16), densities: from_fn(|_| f64::from_bits(rng.next())) }
}

// ---- lists that are written out

/// Calls, with the number of each written out, and the ids after the last.
type Known = (Vec<(Call, u64)>, Vec<u16>);

fn known() -> Vec<Known> {
    let tiny = f64::from_bits(1);
    vec![
        // one that comes again stands behind its equals
        (vec![(arrival(7, 0.5), 0), (arrival(3, 0.5), 0), (arrival(9, 1.0), 0), (Departure(7), 0), (arrival(7, 0.5), 0)], vec![9, 3, 7]),
        // zeros of either sign are equal, and the least number above them is greater
        (vec![(arrival(1, -0.0), 0), (arrival(2, 0.0), 0), (arrival(3, -0.0), 0), (arrival(4, tiny), 0)], vec![4, 1, 2, 3]),
        // 9 comes before 12
        (
            vec![
                (Departure(5), 12),
                (arrival(5, f64::NAN), 9),
                (arrival(5, f64::INFINITY), 9),
                (arrival(5, f64::NEG_INFINITY), 9),
                (arrival(5, -tiny), 9),
                (arrival(5, f64::MAX), 0),
                (arrival(5, 2.0), 12),
                (arrival(5, -1.0), 9),
                (arrival(0, 2.0), 0),
                (arrival(65535, 2.0), 0),
                (Departure(5), 0),
                (Departure(5), 12),
            ],
            vec![0, 65535],
        ),
        // 64 present: 9 before 11 before 12, and a departure is neither 9 nor 11
        (
            (0..64).map(|id| (arrival(id, 1.0), 0))
                .chain([(arrival(3, 1.0), 11), (arrival(64, 1.0), 11), (arrival(3, -1.0), 9), (Departure(64), 12), (Departure(0), 0)])
                .chain([(arrival(3, 1.0), 12), (arrival(64, 2.0), 0), (arrival(64, 2.0), 11)])
                .collect(),
            std::iter::once(64).chain(1..64).collect(),
        ),
    ]
}

/// The calls of the known lists, once the reading gave what is written.
fn known_calls() -> Vec<Vec<Call>> {
    let calls = |(calls, ids): Known| {
        let mut present = Present::default();
        for (i, (call, written)) in calls.iter().enumerate() {
            assert_eq!(present.call(*call), *written, "the number of call {i}, by the second reading");
        }
        assert_eq!(present.sorted().iter().map(|c| c.id).collect::<Vec<_>>(), ids, "the ids, by the second reading");
        calls.into_iter().map(|(call, _)| call).collect()
    };
    known().into_iter().map(calls).collect()
}

/// What is refused where 64 are present: by 9, by 11 with an id among them and with another, by 12.
fn refusals_when_full(ids: &[u16; CANDIDATES], other: u16) -> Vec<Call> {
    vec![arrival(ids[0], f64::NAN), arrival(ids[63], 0.5), arrival(other, 0.5), Departure(other)]
}

/// Filled to 64, whose densities are told by the place of arrival; then a departure and an arrival again and again; then
/// emptied from the front of the arrivals.
fn filled(density: impl Fn(usize) -> f64) -> Vec<Call> {
    // ids that agree in one byte
    let ids: [u16; CANDIDATES] = from_fn(|i| [i * 0x101, i << 8, i, 0xffff - i][i % 4] as u16 ^ (i as u16 & 3) << 4);
    let other = 0x7f7f;
    let mut calls: Vec<Call> = ids.iter().enumerate().map(|(i, id)| arrival(*id, density(i))).collect();
    calls.extend(refusals_when_full(&ids, other));
    for i in (0..CANDIDATES).step_by(7) {
        calls.extend([Departure(ids[i]), arrival(ids[(i + 1) % 64], 1.0), arrival(ids[i], density(i)), arrival(ids[i], density(i))]);
    }
    calls.extend(refusals_when_full(&ids, other));
    calls.extend(ids.iter().map(|id| Departure(*id)));
    calls.push(Departure(ids[0]));
    calls
}

/// Every edge arrives, those that are refused between those that are taken, and some depart.
fn edge_values() -> Vec<Call> {
    let mut calls = vec![];
    for (i, x) in GOOD.iter().enumerate() {
        let id = i as u16 * 509;
        calls.extend([arrival(id, *x), arrival(id.wrapping_add(1), BAD[i % BAD.len()])]);
        if i % 3 == 2 {
            calls.push(Departure(id - 509));
        }
    }
    calls
}

fn edge_lists() -> Vec<Vec<Call>> {
    let mut all = known_calls();
    all.push(filled(|_| 0.25));
    all.push(filled(|i| if i % 3 == 0 { -0.0 } else { 0.0 }));
    all.push(filled(|i| i as f64));
    all.push(filled(|i| 1.0 / (1 + i) as f64));
    all.push(filled(|i| f64::from_bits((i as u64 * 37) % 5)));
    all.push(filled(|i| [f64::MAX, f64::MAX.next_down(), 1e308, 1.0][i % 4]));
    all.push(edge_values());
    all.push(BAD.iter().map(|x| arrival(0, *x)).chain([Departure(0)]).collect());
    all
}

/// With `n` present: an arrival to each place, by itself and behind its equals, which departs again; and a departure from
/// each place, which comes again.
fn every_place(n: usize) -> Vec<Call> {
    let density = |i: usize| (2 * (n - i)) as f64;
    let new = 40000;
    let mut calls: Vec<Call> = (0..n).map(|i| arrival(i as u16, density(i))).collect();
    for at in 0..=n {
        calls.extend([arrival(new, density(at) + 1.0), Departure(new), arrival(new, density(at)), Departure(new)]);
    }
    for at in 0..n {
        calls.extend([Departure(at as u16), arrival(at as u16, density(at))]);
    }
    calls
}

// ---- lists at random

/// What the calls of a list are drawn from: few ids and few densities, so that ties, repeats and refusals are common, and how
/// many are to be present.
struct Mix {
    ids: Vec<u16>,
    densities: Vec<f64>,
    any_density: bool,
    aim: usize,
}

impl Mix {
    fn new(rng: &mut Rng) -> Self {
        let n = [2, 5, 66, 66, 80, 80, 300][rng.below(7)];
        let mut ids: Vec<u16> = (0..n).map(|_| rng.next() as u16).collect();
        ids[..2].copy_from_slice(&[0, 65535]);
        let densities = (0..1 + rng.below(6)).map(|_| good(rng)).collect();
        Self { ids, densities, any_density: rng.below(8) == 0, aim: Self::aim(rng) }
    }

    fn aim(rng: &mut Rng) -> usize {
        [0, 1, 2, 30, 62, 63, 63, 64, 64][rng.below(9)]
    }

    fn density(&self, rng: &mut Rng) -> f64 {
        match rng.below(16) {
            0 => bad(rng),
            1 => 0.0 * rng.sign(),
            _ if self.any_density => good(rng),
            _ => self.densities[rng.below(self.densities.len())],
        }
    }

    fn id(&self, rng: &mut Rng) -> u16 {
        self.ids[rng.below(self.ids.len())]
    }

    /// Mostly an id that isn't present, as far as a few turns find one.
    fn arriving(&self, rng: &mut Rng, present: &Present) -> u16 {
        let mut id = self.id(rng);
        for _ in 0..rng.below(16) {
            if !present.has(id) {
                break;
            }
            id = self.id(rng);
        }
        id
    }

    /// Mostly an id that is present.
    fn departing(&self, rng: &mut Rng, present: &Present) -> u16 {
        match present.0.len() {
            n if n > 0 && rng.below(8) > 0 => present.0[rng.below(n)].id,
            _ => self.id(rng),
        }
    }

    fn next(&mut self, rng: &mut Rng, present: &Present) -> Call {
        if rng.below(256) == 0 {
            self.aim = Self::aim(rng);
        }
        // of eight calls so many arrive
        let arrivals = match present.0.len() {
            n if n < self.aim => 7,
            n if n > self.aim => 1,
            _ => 4,
        };
        if rng.below(8) < arrivals {
            arrival(self.arriving(rng, present), self.density(rng))
        } else {
            Departure(self.departing(rng, present))
        }
    }
}

fn length(rng: &mut Rng) -> usize {
    let most = [8, 100, 400, 2000][rng.below(4)];
    1 + rng.below(most)
}

/// A list of so many calls.
fn at_random(rng: &mut Rng, length: usize) -> impl FnMut(&mut Rng, &Present) -> Option<Call> {
    let mut mix = Mix::new(rng);
    let mut left = length;
    move |rng, present| {
        let call = mix.next(rng, present);
        left = left.checked_sub(1)?;
        Some(call)
    }
}

/// Answers how many calls there were, and the differences.
fn compare_lists(seed: u64, count: usize) -> (usize, usize) {
    let rng = &mut Rng(seed ^ 0xca4d);
    let mut t = Tally::default();
    for calls in edge_lists().into_iter().chain((0..=CANDIDATES).map(every_place)) {
        t.written(rng, &calls);
    }
    let until = t.calls + count;
    while t.calls < until {
        let length = length(rng).min(until - t.calls);
        let next = at_random(rng, length);
        t.list(rng, next);
    }
    t.print("rulvimba_arrive_in, rulvimba_depart_in", "lists");
    let p = &t.present;
    println!("  present after a call: 0 {}, 1 {}, 2 to 61 {}, 62 {}, 63 {}, 64 {}", p[0], p[1], p[2], p[3], p[4], p[5]);
    (t.calls, t.differences)
}

// ---- memory that no calls left

/// Few ids, so that some stand twice; densities in any order, also ones that no arrival has; any count.
fn unmade(rng: &mut Rng) -> Candidates {
    let mix = Mix::new(rng);
    let few = 1 + rng.below(mix.ids.len());
    let mut densities: [f64; CANDIDATES] = from_fn(|_| mix.density(rng));
    if rng.below(4) == 0 {
        densities.sort_by(|a, b| b.total_cmp(a));
    }
    let count = match rng.below(6) {
        0 => 65 + rng.below(4),
        1 => [usize::MAX, 1 << 32, (1 << 32) + 5, 1 << 63, 256, 128][rng.below(6)],
        2 => 62 + rng.below(3),
        _ => rng.below(CANDIDATES + 1),
    };
    Candidates { count, ids: from_fn(|_| mix.ids[rng.below(few)]), densities }
}

/// A call with an id that is there, or stands past the count, or any.
fn call_on(rng: &mut Rng, m: &Candidates) -> Call {
    let id = if rng.below(4) == 0 { rng.next() as u16 } else { m.ids[rng.below(CANDIDATES)] };
    match rng.below(5) {
        0 => arrival(id, m.densities[rng.below(CANDIDATES)]),
        1 => arrival(rng.next() as u16, m.densities[rng.below(CANDIDATES)]),
        2 => arrival(rng.next() as u16, good(rng)),
        _ => Departure(id),
    }
}

fn compare_unmade(seed: u64, count: usize) -> usize {
    let rng = &mut Rng(seed ^ 0x0dd);
    let mut t = Tally::default();
    while t.calls < count {
        let mut now = if rng.below(16) == 0 { any_memory(rng) } else { unmade(rng) };
        let mut memory = Memory::new(&now);
        t.lists += 1;
        for _ in 0..(1 + rng.below(4)).min(count - t.calls) {
            let call = call_on(rng, &now);
            let (number, must) = on_any(&now, call);
            t.call(&mut memory, call, number, &must);
            now = memory.held();
        }
    }
    t.print("the same on memory that no calls left", "memories");
    t.differences
}

/// `count` calls at random behind the edges, and `others` on memory that no calls left: how many there were of the first,
/// and the differences.
pub fn compare(seed: u64, count: usize, others: usize) -> (usize, usize) {
    let (calls, differences) = compare_lists(seed, count);
    (calls, differences + compare_unmade(seed, others))
}

// ---- the sample: a record for each call, with the whole list after it

const LISTS: usize = 24;

fn record(out: &mut String, kind: char, id: u16, density: f64, number: u64, list: &[Candidate]) {
    out.push_str(&format!("{kind} {id:04x} {:016x} {number:02} {:02}", density.to_bits(), list.len()));
    for c in list {
        out.push_str(&format!(" {:04x} {:016x}", c.id, c.density.to_bits()));
    }
    out.push('\n');
}

fn record_list(out: &mut String, rng: &mut Rng, mut next: impl FnMut(&mut Rng, &Present) -> Option<Call>) {
    let mut present = Present::default();
    record(out, 'n', 0, 0.0, 0, &[]);
    while let Some(call) = next(rng, &present) {
        let number = present.call(call);
        match call {
            Arrival(c) => record(out, 'a', c.id, c.density, number, &present.sorted()),
            Departure(id) => record(out, 'd', id, 0.0, number, &present.sorted()),
        }
    }
}

pub fn sample(seed: u64) -> String {
    let rng = &mut Rng(seed ^ 0x5a4);
    let mut out = String::new();
    for calls in edge_lists() {
        let mut calls = calls.into_iter();
        record_list(&mut out, rng, |_, _| calls.next());
    }
    for _ in 0..LISTS {
        let length = 1 + rng.below(80);
        let next = at_random(rng, length);
        record_list(&mut out, rng, next);
    }
    out
}

// ---- for the benchmark

/// A list that arrivals and departures are timed on.
pub trait Listed {
    fn empty() -> Self;
    fn arrive(&mut self, c: Candidate) -> u64;
    fn depart(&mut self, id: u16) -> u64;
    fn all(&self) -> Vec<Candidate>;
}

impl Listed for Candidates {
    fn empty() -> Self {
        Self::new()
    }
    #[inline]
    fn arrive(&mut self, c: Candidate) -> u64 {
        Candidates::arrive(self, c)
    }
    #[inline]
    fn depart(&mut self, id: u16) -> u64 {
        Candidates::depart(self, id)
    }
    fn all(&self) -> Vec<Candidate> {
        self.iter().collect()
    }
}

/// The list as one writes it in Rust: kept sorted, with room from the start.
pub struct Sorted(Vec<(u16, f64)>);

#[inline(never)]
extern "C-unwind" fn sorted_arrive(list: &mut Vec<(u16, f64)>, c: Candidate) -> u64 {
    if !c.density.is_finite() || c.density < 0.0 {
        return 9;
    }
    if list.len() == CANDIDATES {
        return 11;
    }
    if list.iter().any(|e| e.0 == c.id) {
        return 12;
    }
    let at = list.partition_point(|e| e.1 >= c.density);
    list.insert(at, (c.id, c.density));
    0
}

#[inline(never)]
extern "C-unwind" fn sorted_depart(list: &mut Vec<(u16, f64)>, id: u16) -> u64 {
    match list.iter().position(|e| e.0 == id) {
        Some(at) => {
            list.remove(at);
            0
        }
        None => 12,
    }
}

impl Listed for Sorted {
    fn empty() -> Self {
        Self(Vec::with_capacity(CANDIDATES))
    }
    #[inline]
    fn arrive(&mut self, c: Candidate) -> u64 {
        sorted_arrive(&mut self.0, c)
    }
    #[inline]
    fn depart(&mut self, id: u16) -> u64 {
        sorted_depart(&mut self.0, id)
    }
    fn all(&self) -> Vec<Candidate> {
        self.0.iter().map(|(id, density)| Candidate { id: *id, density: *density }).collect()
    }
}
