// The engine beside the second implementation (tests/second.rs): random cases for both, the comparison of what they answer, and the count of
// what the cases reached. tests/compare.py builds and starts it:
//
//   cases SEED CASES FOLDER SECOND -- WORDS OF THE DRIVER -- WORDS OF BENCH_RUN [-- WORDS OF ANOTHER BENCH_RUN ..]
//
// Behind the driver's words comes what it is to do: read_charts, write_back, held_calls, stored_runs or read_texts; tests/read_charts.py,
// tests/write_back.py, tests/held_calls.py, tests/read_texts.py and the head of tests/driver.c have the forms of its input and output. Charts and
// traces have the form of document 01, texts that of docs/GRAMMAR.md. No answer is worked out here: what both say alike passes, and what was reached
// is counted from requests and answers. A case depends on the seed and its own number alone.

use std::cell::Cell;
use std::collections::{BTreeMap, BTreeSet};
use std::io::Write;
use std::ops::{Index, IndexMut, Range};
use std::path::{Path, PathBuf};
use std::process::{exit, Command, Stdio};
use std::sync::atomic::{AtomicBool, AtomicU64, Ordering};
use std::time::Instant;
use std::{env, fs, thread};
use Field::*;

// ---------------------------------------------------------------------------------------------
// Random numbers, and sets as 64-bit words: bit k is number k
// ---------------------------------------------------------------------------------------------

// Splitmix64. It changes in its place, so that one choice can stand within another.
struct Rng(Cell<u64>);

impl Rng {
    // Of one case, from a hash of its name (FNV-1a).
    fn of(what: &str, seed: u64, number: u64) -> Rng {
        let mixed = |hash: u64, byte: u8| (hash ^ u64::from(byte)).wrapping_mul(0x100_0000_01b3);
        Rng(Cell::new(format!("{what} {seed} {number}").bytes().fold(0xcbf2_9ce4_8422_2325, mixed)))
    }

    fn any(&self) -> u64 {
        self.0.set(self.0.get().wrapping_add(0x9e37_79b9_7f4a_7c15));
        let mixed = (self.0.get() ^ self.0.get() >> 30).wrapping_mul(0xbf58_476d_1ce4_e5b9);
        let mixed = (mixed ^ mixed >> 27).wrapping_mul(0x94d0_49bb_1331_11eb);
        mixed ^ mixed >> 31
    }

    fn below(&self, many: usize) -> usize {
        (self.any() % many as u64) as usize
    }

    // Both ends are possible.
    fn between(&self, least: i64, most: i64) -> i64 {
        least + (self.any() % (most - least + 1) as u64) as i64
    }

    // True in so many of a hundred cases.
    fn chance(&self, percent: usize) -> bool {
        self.below(100) < percent
    }

    fn pick<T: Copy>(&self, among: &[T]) -> T {
        among[self.below(among.len())]
    }
}

fn has(set: u64, k: u64) -> bool {
    k < 64 && set >> k & 1 == 1
}

fn members(set: u64) -> Vec<usize> {
    (0..64).filter(|k| set >> k & 1 == 1).collect()
}

// All numbers below this one.
fn numbers(many: usize) -> u64 {
    (0..many.min(64)).map(|k| 1 << k).sum()
}

// Some of them, possibly none.
fn chosen(rng: &Rng, among: u64, most: usize) -> u64 {
    let mut left = members(among);
    let many = rng.below(left.len().min(most) + 1);
    (0..many).map(|_| 1 << left.swap_remove(rng.below(left.len()))).sum()
}

// ---------------------------------------------------------------------------------------------
// What a chart and a run are made of (document 01, "The chart and its bytes")
// ---------------------------------------------------------------------------------------------

// "Waits and durations are at most 86,400,000."
const DAY: i64 = 86_400_000;
// "11 | elapsed time above 60,000 ms"
const MINUTE: i64 = 60_000;
// "the free-running 32-bit millisecond clock"
const TURN: i64 = 1 << 32;

// The fields of a held chart, then of a held run, in the order of a request; behind the chart's stand bytes that belong to no field (CHART_IMAGE).
#[rustfmt::skip]
#[derive(Clone, Copy, Debug, PartialEq)]
enum Field {
    Steps, Actions, Transitions, Blocks, Cases, Initial, Output, Value, Sources, Targets, On, Off, Wait,
    BlockStep, BlockAction, Qualifier, Duration, CaseStep, Signal, Expected, Edition,
    Clock, Active, Activity, Stored, Latched, Counters, Timers, Good, Bad, Hold,
}

// Of each field the bytes that a number takes, and how many numbers there are.
#[rustfmt::skip]
const LAYOUT: [(Field, usize, usize); 31] = [
    (Steps, 8, 1), (Actions, 8, 1), (Transitions, 8, 1), (Blocks, 8, 1), (Cases, 8, 1),
    (Initial, 1, 64), (Output, 1, 32), (Value, 4, 32),
    (Sources, 8, 64), (Targets, 8, 64), (On, 8, 64), (Off, 8, 64), (Wait, 4, 64),
    (BlockStep, 1, 256), (BlockAction, 1, 256), (Qualifier, 1, 256), (Duration, 4, 256),
    (CaseStep, 1, 64), (Signal, 1, 64), (Expected, 1, 64), (Edition, 1, 1),
    (Clock, 4, 1), (Active, 8, 1), (Activity, 8, 1), (Stored, 8, 1), (Latched, 8, 1),
    (Counters, 4, 64), (Timers, 4, 32), (Good, 8, 1), (Bad, 8, 1), (Hold, 1, 1),
];
// the chart's fields end here, and the run's begin
const RUN: usize = Clock as usize;
// a chart's image takes so many bytes, the last seven of them 0
const CHART_IMAGE: usize = 4560;

// A kind of record: the field with its count, but for the edition, which has none; the most there may be, and the fields of its body.
struct Kind {
    count: Option<Field>,
    limit: usize,
    fields: &'static [Field],
}

const KINDS: [Kind; 6] = [
    Kind { count: Some(Steps), limit: 64, fields: &[Initial] },
    Kind { count: Some(Actions), limit: 32, fields: &[Output, Value] },
    Kind { count: Some(Transitions), limit: 64, fields: &[Sources, Targets, On, Off, Wait] },
    Kind { count: Some(Blocks), limit: 256, fields: &[BlockStep, BlockAction, Qualifier, Duration] },
    Kind { count: Some(Cases), limit: 64, fields: &[CaseStep, Signal, Expected] },
    Kind { count: None, limit: 1, fields: &[Edition] },
];
// places in KINDS: one less than the kind's number in a file
const STEP: usize = 0;
const ACTION: usize = 1;
const TRANSITION: usize = 2;
const BLOCK: usize = 3;
const CASE: usize = 4;
const EDITION: usize = 5;

const NAMES: [&str; 11] = ["N", "R", "S", "L", "D", "P", "SD", "DS", "SL", "P1", "P0"];
const N: u64 = 0;
const R: u64 = 1;
const S: u64 = 2;
const L: u64 = 3;
const D: u64 = 4;
const P: u64 = 5;
const SD: u64 = 6;
const DS: u64 = 7;
const SL: u64 = 8;
const P1: u64 = 9;
const P0: u64 = 10;
const QUALIFIERS: [u64; 11] = [N, R, S, L, D, P, SD, DS, SL, P1, P0];
const TIMED: [u64; 5] = [L, D, SD, DS, SL];
const UNTIMED: [u64; 6] = [N, R, S, P, P1, P0];

fn width_of(field: Field) -> usize {
    LAYOUT[field as usize].1
}

// The largest number of so many bytes.
fn largest(width: usize) -> u64 {
    u64::MAX >> (64 - 8 * width)
}

fn put(bytes: &mut Vec<u8>, number: u64, width: usize) {
    bytes.extend_from_slice(&number.to_le_bytes()[..width]);
}

fn number_at(bytes: &[u8], place: usize, width: usize) -> u64 {
    bytes[place..place + width].iter().rev().fold(0, |number, byte| number << 8 | u64::from(*byte))
}

// A record with these numbers in its body, each with its width.
fn record(kind: u64, body: impl IntoIterator<Item = (u64, usize)>) -> Vec<u8> {
    let mut bytes = Vec::with_capacity(40);
    put(&mut bytes, 0, 2);
    put(&mut bytes, kind, 2);
    body.into_iter().for_each(|(number, width)| put(&mut bytes, number, width));
    bytes[0] = bytes.len() as u8 - 4; // no body has more than 36 bytes
    bytes
}

// ---------------------------------------------------------------------------------------------
// Random charts
// ---------------------------------------------------------------------------------------------

// The fields of a body in their order, and zeros behind them; a value by its 32 bits.
type Record = [u64; 5];
// A chart's records by kind; that of the edition stands in charts of edition 2 alone.
type Chart = [Vec<Record>; 6];

// How many records of each kind: mostly a few, sometimes more, sometimes all that may be.
fn sizes(rng: &Rng) -> [usize; 5] {
    let most = match rng.below(20) {
        0..=12 => [5, 5, 8, 9, 6],
        13..=17 => [20, 12, 30, 60, 30],
        _ => return [STEP, ACTION, TRANSITION, BLOCK, CASE].map(|kind| KINDS[kind].limit - usize::from(rng.chance(20))),
    };
    let mut many = most.map(|limit| rng.below(limit + 1));
    many[STEP] = 1 + rng.below(most[STEP]);
    many
}

// The waits and durations of one chart: few different ones, so that several end together.
fn times(rng: &Rng) -> [u64; 5] {
    let long = rng.pick(&[rng.between(5000, 59_999), 60_000, rng.between(60_001, DAY), DAY]);
    [0, 1, rng.between(2, 99) as u64, rng.between(100, 5000) as u64, long as u64]
}

// One of few inputs, so that transitions share them, or an action's activity.
fn signal(rng: &Rng, actions: usize) -> u64 {
    if actions == 0 || rng.chance(80) {
        return rng.pick(&[0, 0, 1, 1, 2, 31]);
    }
    32 + rng.below(actions) as u64
}

// From one step to another, or a fork, a join or both. Where steps are few, transitions are often rivals.
fn transition(rng: &Rng, steps: usize, actions: usize, due: &[u64]) -> Record {
    let from = rng.below(steps);
    let to = (from + 1 + rng.below(steps - 1)) % steps;
    let (source, target) = (1 << from, 1 << to);
    let others = if rng.chance(40) { chosen(rng, numbers(steps) & !(source | target), 3) } else { 0 };
    let sources = source | others & rng.any();
    let on = if rng.chance(70) { 1 << signal(rng, actions) } else { 0 };
    let off = if rng.chance(30) { 1 << signal(rng, actions) & !on } else { 0 };
    let wait = if rng.chance(45) { 0 } else { rng.pick(due) };
    [sources, (target | others) & !sources, on, off, wait]
}

// "An action has at most one timed block." One more of these qualifiers is one of the untimed.
fn blocks(rng: &Rng, many: usize, steps: usize, actions: usize, due: &[u64], qualifiers: &[u64]) -> Vec<Record> {
    let (mut found, mut with_timed) = (Vec::new(), 0);
    for _ in 0..if actions > 0 { many } else { 0 } {
        let (step, action, mut q) = (rng.below(steps) as u64, rng.below(actions) as u64, rng.pick(qualifiers));
        if TIMED.contains(&q) && has(with_timed, action) {
            q = rng.pick(&UNTIMED);
        }
        let timed = TIMED.contains(&q);
        with_timed |= u64::from(timed) << action;
        found.push([step, action, q, if timed { rng.pick(due) } else { 0 }, 0]);
    }
    found
}

fn random_chart(rng: &Rng) -> Chart {
    let [steps, actions, transitions, many, cases] = sizes(rng);
    let (due, first, outputs) = (times(rng), rng.below(steps), if rng.chance(70) { 3 } else { 32 });
    let values = [0, 1, 0x7fff_ffff, 0x8000_0000, 0xffff_ffff, rng.any() % TURN as u64];
    [
        (0..steps).map(|k| [u64::from(k == first || rng.chance(25)), 0, 0, 0, 0]).collect(),
        (0..actions).map(|_| [rng.below(outputs) as u64, rng.pick(&values), 0, 0, 0]).collect(),
        (0..if steps > 1 { transitions } else { 0 }).map(|_| transition(rng, steps, actions, &due)).collect(),
        blocks(rng, many, steps, actions, &due, &QUALIFIERS),
        (0..cases).map(|_| [rng.below(steps) as u64, signal(rng, actions), rng.any() % 2, 0, 0]).collect(),
        (0..rng.below(2)).map(|_| [2, 0, 0, 0, 0]).collect(),
    ]
}

// The chart's records as bytes, and the end record.
fn records(chart: &Chart) -> Vec<Vec<u8>> {
    let mut found = Vec::new();
    for (kind, number) in KINDS.iter().zip(1..) {
        for fields in &chart[number - 1] {
            found.push(record(number as u64, fields.iter().copied().zip(kind.fields.iter().map(|field| width_of(*field)))));
        }
    }
    found.push(record(0, []));
    found
}

fn file_of(chart: &Chart) -> Vec<u8> {
    records(chart).concat()
}

// The waits and durations that a counter or a timer may reach.
fn due_times(chart: &Chart) -> Vec<u64> {
    let timed = chart[BLOCK].iter().filter(|block| TIMED.contains(&block[2])).map(|block| block[3]);
    let mut due: Vec<u64> = chart[TRANSITION].iter().map(|transition| transition[4]).chain(timed).chain([0]).collect();
    due.sort_unstable();
    due.dedup();
    due
}

// ---------------------------------------------------------------------------------------------
// Random traces. Clocks count on here, and are read modulo 2^32.
// ---------------------------------------------------------------------------------------------

fn reading(clock: i64) -> u64 {
    clock.rem_euclid(TURN) as u64
}

fn is_accepted(last: i64, clock: i64) -> bool {
    (0..=MINUTE).contains(&(clock - last))
}

// Elapsed time that is refused: the clock one back, the least that is too much, or any.
fn refused_gap(rng: &Rng) -> i64 {
    rng.pick(&[-1, MINUTE + 1, rng.between(MINUTE + 1, TURN - 1)])
}

// A clock that puts some counter or timer at a wait or duration, one below or one above; or one of the limits; or any.
fn clock_after(rng: &Rng, last: i64, calls: &[i64], due: &[u64]) -> i64 {
    match rng.below(30) {
        0..=17 => {
            let since = &calls[calls.len().saturating_sub(6)..];
            let ends = since.iter().flat_map(|call| due.iter().map(move |time| call + *time as i64));
            let near = ends.flat_map(|end| [end - 1, end, end + 1]).filter(|clock| is_accepted(last, *clock));
            rng.pick(&near.chain([last]).collect::<Vec<i64>>())
        }
        18..=26 => last + rng.pick(&[0, 1, rng.between(2, 200), rng.between(200, MINUTE)]),
        27 => last + rng.pick(&[MINUTE - 1, MINUTE]),
        _ => last + refused_gap(rng),
    }
}

// Mostly those that the wanted transition asks for, or any.
fn inputs_for(rng: &Rng, chart: &Chart, wanted: Option<Record>) -> u64 {
    let inputs = rng.pick(&[0, 1, 2, 3, 5, rng.any()]) & numbers(32);
    if chart[TRANSITION].is_empty() || rng.chance(30) {
        return inputs;
    }
    let [_, _, on, off, _] = wanted.unwrap_or_else(|| rng.pick(&chart[TRANSITION]));
    (inputs | on) & !off & numbers(32)
}

fn start_record(clock: i64) -> Vec<u8> {
    record(17, [(reading(clock), 4)])
}

fn cycle_record(clock: i64, inputs: u64) -> Vec<u8> {
    record(16, [(reading(clock), 4), (inputs, 4)])
}

fn random_trace(rng: &Rng, chart: &Chart) -> Vec<Vec<u8>> {
    let mut last = rng.pick(&[0, 1000, rng.between(0, TURN - 1), TURN - 1, TURN - rng.between(2, 70_000)]);
    let (mut calls, mut found, due) = (vec![last], vec![start_record(last)], due_times(chart));
    for _ in 0..rng.pick(&[0, 1, rng.between(2, 12), rng.between(5, 30)]) {
        let clock = clock_after(rng, last, &calls, &due);
        found.push(cycle_record(clock, inputs_for(rng, chart, None)));
        if is_accepted(last, clock) {
            last = clock;
            calls.push(clock);
        }
    }
    found
}

// ---------------------------------------------------------------------------------------------
// Damage, to the fields of a chart or to the bytes of records
// ---------------------------------------------------------------------------------------------

// A number at or near a limit, within what the field can hold.
fn boundary(rng: &Rng, width: usize, old: u64, near: &[u64]) -> u64 {
    let (most, power) = (largest(width), 1 << rng.below(8 * width));
    let around = |limit: u64| [limit.wrapping_sub(1), limit, limit.wrapping_add(1)];
    let mut values = vec![0, 1, most, power, power - 1, old ^ power];
    values.extend(around(old).into_iter().chain(near.iter().copied().flat_map(around)));
    values.retain(|value| *value <= most && *value != old);
    rng.pick(&values)
}

// A kind of which the chart has records.
fn some_kind(rng: &Rng, chart: &Chart) -> usize {
    rng.pick(&(STEP..=EDITION).filter(|kind| !chart[*kind].is_empty()).collect::<Vec<usize>>())
}

// One field of one record at or near a limit; also a step that is source and target, a signal in both sets.
fn alter_field(rng: &Rng, chart: &mut Chart) {
    let (steps, actions) = (chart[STEP].len(), chart[ACTION].len());
    let kind = some_kind(rng, chart);
    let (k, i) = (rng.below(chart[kind].len()), rng.below(KINDS[kind].fields.len()));
    let width = width_of(KINDS[kind].fields[i]);
    let near = match width {
        8 => vec![numbers(steps), numbers(32 + actions)],
        4 => vec![DAY as u64],
        _ => vec![steps as u64, actions as u64, 32 + actions as u64, 64, 10],
    };
    let fields = &mut chart[kind][k];
    fields[i] = boundary(rng, width, fields[i], &near);
    if kind == TRANSITION && rng.chance(30) {
        let (a, b) = rng.pick(&[(0, 1), (2, 3)]);
        fields[a] |= fields[b];
    }
}

// As many of a kind as may be, or one more.
fn too_many(rng: &Rng, chart: &mut Chart) {
    let kind = some_kind(rng, chart);
    chart[kind] = chart[kind].iter().copied().cycle().take(KINDS[kind].limit + rng.below(2)).collect();
}

fn no_initial(rng: &Rng, chart: &mut Chart) {
    chart[STEP] = vec![[0; 5]; rng.below(chart[STEP].len() + 1)];
    if rng.chance(50) {
        chart[TRANSITION..EDITION].iter_mut().for_each(Vec::clear);
    }
}

fn timed_twice(rng: &Rng, chart: &mut Chart) {
    chart[BLOCK].truncate(KINDS[BLOCK].limit - 2);
    let action = rng.below(chart[ACTION].len().max(1)) as u64;
    for _ in 0..2 {
        let step = rng.below(chart[STEP].len()) as u64;
        chart[BLOCK].push([step, action, rng.pick(&TIMED), rng.pick(&[0, 5, DAY as u64]), 0]);
    }
}

// A record replaced, doubled, moved, left out, or with another length or kind in its head.
fn moved_records(rng: &Rng, mut parts: Vec<Vec<u8>>) -> Vec<u8> {
    let (i, j) = (rng.below(parts.len()), rng.below(parts.len()));
    let part = parts[i].clone();
    match rng.below(5) {
        0 => parts[j] = part,
        1 => parts.insert(j, part),
        2 => {
            parts.remove(i);
            parts.insert(j, part);
        }
        3 => drop(parts.remove(i)),
        _ => {
            let place = rng.pick(&[0, 2]);
            let other = boundary(rng, 2, number_at(&part, place, 2), &[6, 16, 17, 256]);
            parts[i][place..place + 2].copy_from_slice(&other.to_le_bytes()[..2]);
        }
    }
    parts.concat()
}

// The bytes cut, with surplus behind them, a part doubled, or a few changed.
fn changed_bytes(rng: &Rng, mut data: Vec<u8>) -> Vec<u8> {
    let (place, end) = (rng.below(data.len()), data.len());
    match rng.below(7) {
        0 | 1 => data.truncate(rng.pick(&[place, end - 1, end.saturating_sub(4)])),
        2 => data.extend((0..=rng.below(9)).map(|_| rng.pick(&[0, rng.any() as u8]))),
        3 => data.resize(end + rng.pick(&[1, 4, 4, 70_000]), 0),
        4 => drop(data.splice(place..place, data[place..end.min(place + 1 + rng.below(40))].to_vec())),
        _ => {
            for k in (0..=rng.below(3)).map(|_| rng.below(end)) {
                data[k] = boundary(rng, 1, u64::from(data[k]), &[]) as u8;
            }
        }
    }
    data
}

fn damaged(rng: &Rng, parts: Vec<Vec<u8>>) -> Vec<u8> {
    if rng.chance(50) {
        moved_records(rng, parts)
    } else {
        changed_bytes(rng, parts.concat())
    }
}

// An edition record, mostly a right one, put anywhere or where it belongs, with another byte, of another length, of another kind or cut.
fn faulty_edition(rng: &Rng, mut parts: Vec<Vec<u8>>) -> Vec<u8> {
    let (anywhere, end) = (rng.below(parts.len() + 1), parts.len() - 1);
    let byte = rng.pick(&[0, 1, 3, 255, rng.any() % 256]);
    match rng.below(6) {
        0 => parts.insert(anywhere, record(6, [(2, 1)])),
        1 => parts.splice(end..end, (0..=rng.below(2)).map(|_| record(6, [(2, 1)]))).for_each(drop),
        2 => parts.insert(end, record(6, [(byte, 1)])),
        3 => parts.insert(end, record(6, (0..rng.pick(&[0, 2, 3, 36])).map(|_| (2, 1)))),
        4 => parts.insert(end, record(rng.pick(&[7, 8, 262, 1536, 65_535]), [(2, 1)])),
        _ => {
            parts.truncate(end);
            parts.push(record(6, [(2, 1)])[..rng.below(6)].to_vec());
        }
    }
    parts.concat()
}

fn faulty_file(rng: &Rng, mut chart: Chart) -> Vec<u8> {
    match rng.below(14) {
        0..=5 => return damaged(rng, records(&chart)),
        6..=7 => return faulty_edition(rng, records(&chart)),
        8..=10 => alter_field(rng, &mut chart),
        11 => too_many(rng, &mut chart),
        12 => no_initial(rng, &mut chart),
        _ => timed_twice(rng, &mut chart),
    }
    file_of(&chart)
}

// ---------------------------------------------------------------------------------------------
// Held charts and runs
// ---------------------------------------------------------------------------------------------

// What a caller holds, a chart and a run: the numbers of all fields, in one list.
#[derive(Clone)]
struct Held(Vec<u64>);

// Where each field begins in it, and where the last one ends.
const PLACES: [usize; 32] = {
    let (mut places, mut k) = ([0; 32], 0);
    while k < LAYOUT.len() {
        places[k + 1] = places[k] + LAYOUT[k].2;
        k += 1;
    }
    places
};

impl Index<Field> for Held {
    type Output = [u64];

    fn index(&self, field: Field) -> &[u64] {
        &self.0[PLACES[field as usize]..PLACES[field as usize + 1]]
    }
}

impl IndexMut<Field> for Held {
    fn index_mut(&mut self, field: Field) -> &mut [u64] {
        &mut self.0[PLACES[field as usize]..PLACES[field as usize + 1]]
    }
}

impl Held {
    // The chart of a valid file, and a run of zeros.
    fn of(file: &[u8]) -> Held {
        let (mut held, mut place) = (Held(vec![0; PLACES[LAYOUT.len()]]), 0);
        held[Edition][0] = 1; // "absent means edition 1"
        while number_at(file, place + 2, 2) != 0 {
            let kind = &KINDS[number_at(file, place + 2, 2) as usize - 1];
            let k = kind.count.map_or(0, |count| held.count(count));
            place += 4;
            for field in kind.fields {
                held[*field][k] = number_at(file, place, width_of(*field));
                place += width_of(*field);
            }
            kind.count.into_iter().for_each(|count| held[count][0] += 1);
        }
        held
    }

    // The same chart, and a run of zeros.
    fn still(&self) -> Held {
        let mut held = self.clone();
        held.0[PLACES[RUN]..].fill(0);
        held
    }

    // Whether they have the same chart, and the same run but for the hold mark, which is the last field.
    fn equals_but_mark(&self, other: &Held) -> bool {
        self.0[..PLACES[Hold as usize]] == other.0[..PLACES[Hold as usize]]
    }

    // Whether they have the same chart but for the edition, which is its last field, and the other's is one that there is.
    fn differs_by_edition(&self, other: &Held) -> bool {
        let same = self.0[..PLACES[Edition as usize]] == other.0[..PLACES[Edition as usize]];
        same && ![1, 2].contains(&self[Edition][0]) && [1, 2].contains(&other[Edition][0])
    }

    fn is_held(&self) -> bool {
        self[Hold][0] == 1
    }

    fn is_second(&self) -> bool {
        self[Edition][0] == 2
    }

    fn count(&self, field: Field) -> usize {
        self[field][0] as usize
    }

    fn counts(&self) -> Vec<u64> {
        KINDS.iter().filter_map(|kind| kind.count).map(|count| self[count][0]).collect()
    }

    fn bytes(&self) -> Vec<u8> {
        let mut bytes = Vec::with_capacity(5500);
        for (field, width, _) in LAYOUT {
            if field as usize == RUN {
                bytes.resize(CHART_IMAGE, 0);
            }
            self[field].iter().for_each(|number| put(&mut bytes, *number, width));
        }
        bytes
    }
}

// A counter or timer that reaches one of its times after the elapsed time, or nearly does.
fn nearly_reached(rng: &Rng, mut own: Vec<u64>, elapsed: i64) -> u64 {
    if own.is_empty() || rng.chance(30) {
        own = vec![DAY as u64, 0, rng.between(0, DAY) as u64];
    }
    (rng.pick(&own) as i64 - elapsed + rng.between(-1, 1)).clamp(0, DAY) as u64
}

// A hold mark: 0 or 1, or now and then none of them.
fn some_mark(rng: &Rng) -> u64 {
    match rng.below(20) {
        0..=11 => 0,
        12..=18 => 1,
        _ => rng.pick(&[2, 3, 128, 254, 255, rng.any() % 256]),
    }
}

// A run of the chart, but now and then for its mark; mostly one in which the wanted transition has its sources active and its targets not, or in
// edition 2 as they come.
fn put_run(rng: &Rng, held: &mut Held, chart: &Chart, elapsed: i64, wanted: Option<Record>) {
    held[Hold][0] = some_mark(rng);
    // the counters of a held run stand still: some are at their time, and some would be if they did not
    let growth = if held.is_held() && rng.chance(50) { 0 } else { elapsed };
    for (field, kind) in [(Active, STEP), (Activity, ACTION), (Stored, ACTION), (Latched, ACTION), (Good, CASE), (Bad, CASE)] {
        held[field][0] = chosen(rng, numbers(chart[kind].len()), 64);
    }
    if let Some([sources, targets, ..]) = wanted.filter(|_| rng.chance(70)) {
        held[Active][0] |= sources;
        if !held.is_second() || rng.chance(40) {
            held[Active][0] &= !targets;
        }
    }
    for k in members(held[Active][0]) {
        let waits = chart[TRANSITION].iter().filter(|transition| has(transition[0], k as u64)).map(|transition| transition[4]);
        let counted = chart[BLOCK].iter().filter(|block| block[0] == k as u64 && [L, D, DS].contains(&block[2]));
        held[Counters][k] = nearly_reached(rng, waits.chain(counted.map(|block| block[3])).collect(), growth);
    }
    for k in members(held[Latched][0]) {
        let latching = chart[BLOCK].iter().filter(|block| block[1] == k as u64 && [SD, SL].contains(&block[2]));
        held[Timers][k] = nearly_reached(rng, latching.map(|block| block[3]).collect(), elapsed);
    }
    held[Clock][0] = reading(rng.pick(&[0, 1000, -1, -rng.between(1, 60_000), rng.between(0, TURN - 1)]));
}

// One of these fields at or near a limit; of a table an entry that counts, the first that does not, or the last.
fn alter_held(rng: &Rng, held: &mut Held, fields: Range<usize>) {
    let (field, width, many) = rng.pick(&LAYOUT[fields]);
    let counts = held.counts();
    let k = rng.pick(&[rng.below(many), 0, rng.pick(&counts).min(many as u64 - 1) as usize, many - 1]);
    let mut near = if width == 4 { vec![DAY as u64] } else { [&counts[..], &[64, 32, 256]].concat() };
    if width == 8 {
        near.extend(counts.iter().flat_map(|many| [numbers(*many as usize), numbers((*many as usize).saturating_add(32))]));
    }
    held[field][k] = boundary(rng, width, held[field][k], &near);
}

// The most that a field may be, or how many numbers may be in a set; or anything.
enum Limit {
    Most(u64),
    Below(u64),
    Open,
}

fn limit_of(held: &Held, field: Field) -> Limit {
    let (steps, actions, cases) = (held[Steps][0], held[Actions][0], held[Cases][0]);
    match field {
        Steps | Transitions | Cases => Limit::Most(64),
        Actions => Limit::Most(32),
        Blocks => Limit::Most(256),
        Initial | Expected | Hold => Limit::Most(1),
        Edition => Limit::Most(2),
        Output => Limit::Most(31),
        Wait | Duration | Counters | Timers => Limit::Most(DAY as u64),
        BlockStep | CaseStep => Limit::Most(steps - 1),
        BlockAction => Limit::Most(actions.max(1) - 1),
        Qualifier => Limit::Most(10),
        Signal => Limit::Most(31 + actions),
        Sources | Targets | Active => Limit::Below(steps),
        On | Off => Limit::Below(32 + actions),
        Activity | Stored | Latched => Limit::Below(actions),
        Good | Bad => Limit::Below(cases),
        Value | Clock => Limit::Open,
    }
}

// The entries of a field that count: of a table those below its count, of times those that run.
fn entries(held: &Held, field: Field) -> Vec<usize> {
    let kind = KINDS.iter().find(|kind| kind.fields.contains(&field));
    let counted = 0..kind.and_then(|kind| kind.count).map_or(1, |count| held.count(count));
    match field {
        Counters => members(held[Active][0]),
        Timers => members(held[Latched][0]),
        Duration => counted.filter(|k| TIMED.contains(&held[Qualifier][*k])).collect(),
        _ => counted.collect(),
    }
}

// A field that counts at its limit, or above it by one; which, if a field can be so.
fn put_at_limit(rng: &Rng, held: &mut Held) -> Option<(Field, bool)> {
    let (field, above) = (rng.pick(&LAYOUT).0, rng.chance(50));
    let among = entries(held, field);
    if among.is_empty() {
        return None;
    }
    let k = rng.pick(&among);
    match limit_of(held, field) {
        Limit::Most(most) => held[field][k] = most + u64::from(above),
        Limit::Below(many) => {
            let last = (many + u64::from(above)).checked_sub(1).filter(|last| *last < 64)?;
            held[field][k] |= 1 << last;
        }
        Limit::Open => return None,
    }
    Some((field, above))
}

// Anything in some of the entries beyond the counts.
fn put_junk(rng: &Rng, held: &mut Held) {
    for (kind, count) in KINDS.iter().filter_map(|kind| Some((kind, kind.count?))) {
        let many = held.count(count);
        for field in kind.fields {
            let beyond = held[*field][many..].iter_mut().filter(|_| rng.chance(20));
            beyond.for_each(|entry| *entry = rng.any() & largest(width_of(*field)));
        }
    }
}

// Weights of which each transition in turn sets that of a target, so that it is balanced where that is possible.
fn balance(weights: &mut [u64], chart: &Chart) {
    for [sources, targets, ..] in &chart[TRANSITION] {
        let sum = |set: u64| members(set).iter().map(|k| weights[*k]).sum::<u64>();
        let free = targets.trailing_zeros() as usize;
        let (left, entered) = (sum(*sources), sum(targets & !(1 << free)));
        weights[free] = left.saturating_sub(entered).min(65535);
    }
}

// As many as there are steps; all alike but for a few, or balanced where they can be.
fn step_weights(rng: &Rng, chart: &Chart) -> Vec<u64> {
    let weight = rng.pick(&[0, 1, 65535, rng.any() % 65536]);
    let mut weights: Vec<u64> = chart[STEP].iter().map(|_| if rng.chance(5) { rng.any() % 65536 } else { weight }).collect();
    if rng.chance(50) {
        balance(&mut weights, chart);
    }
    weights
}

// Mostly not the number of steps.
fn other_length(rng: &Rng, steps: usize) -> usize {
    rng.pick(&[steps - 1, steps + 1, 0, 64, 255])
}

// As many as there are steps, mostly.
fn random_weights(rng: &Rng, chart: &Chart) -> Vec<u64> {
    let mut weights = step_weights(rng, chart);
    if rng.chance(20) {
        weights.resize(other_length(rng, weights.len()), weights[0]);
    }
    weights
}

// Two weighings for one chart. The second is any too, or zeros, or what the first lacks of 65,535, or less; then 65,536 at a step or two, in some of the
// cases: at the first, at the last or at any.
fn two_weighings(rng: &Rng, chart: &Chart) -> [Vec<u64>; 2] {
    let mut first = step_weights(rng, chart);
    let mut second = match rng.below(4) {
        0 => step_weights(rng, chart),
        1 => vec![0; first.len()],
        2 => first.iter().map(|weight| 65535 - weight).collect(),
        _ => first.iter().map(|weight| rng.any() % (65536 - weight)).collect(),
    };
    for _ in 0..if rng.chance(30) { 1 + rng.below(2) } else { 0 } {
        let k = rng.pick(&[0, first.len() - 1, rng.below(first.len())]);
        first[k] = first[k].max(1);
        second[k] = 65536 - first[k];
    }
    if rng.chance(50) {
        (first, second) = (second, first);
    }
    [first, second]
}

// ---------------------------------------------------------------------------------------------
// Indexes (document 02, request ix)
// ---------------------------------------------------------------------------------------------

// The words of an index, and in which of the ways it was made, if not from the chart as it is held.
struct Leaving {
    words: Vec<u64>,
    way: Option<usize>,
}

const WAYS: [&str; 10] = [
    "a transition left out",
    "a transition too many",
    "a transition that there is not",
    "a step that there is not",
    "a step and a transition that there are not",
    "the targets",
    "zeros",
    "ones",
    "another chart",
    "the chart before it was altered",
];

// "for every step, the set of transitions that have it as a source", or as a target if that is the field; "0 beyond the last step". A chart with a
// count above its limit has as many as it can have.
fn index_of(held: &Held, field: Field) -> Vec<u64> {
    let (steps, transitions) = (held.count(Steps), held.count(Transitions).min(64));
    let word = |k: usize| (0..transitions).filter(|t| has(held[field][*t], k as u64)).map(|t| 1 << t).sum();
    (0..64).map(|k| if k < steps { word(k) } else { 0 }).collect()
}

// A step and a transition, by whose bit an index is altered in this way, if there are such.
fn other_bit(rng: &Rng, held: &Held, way: usize) -> Option<(usize, usize)> {
    let (steps, transitions) = (held.count(Steps).min(64), held.count(Transitions).min(64));
    let some = |numbers: Range<usize>| numbers.clone().nth(rng.below(numbers.len().max(1)));
    match way {
        0 => {
            let (t, bit) = (some(0..transitions)?, rng.below(64));
            members(held[Sources][t]).into_iter().cycle().nth(bit).map(|k| (k, t))
        }
        1 => some(0..steps).zip(some(0..transitions)),
        2 => some(0..steps).zip(some(transitions..64)),
        3 => some(steps..64).zip(some(0..transitions)),
        4 => some(steps..64).zip(some(transitions..64)),
        _ => None,
    }
}

// The chart altered so that it is still one, and mostly not that of its index: the last transition gone, one more that is like another, or a source
// more.
fn alter_sources(rng: &Rng, held: &mut Held) {
    let (steps, many) = (held.count(Steps), held.count(Transitions));
    if many == 0 || many > 64 {
        return;
    }
    let t = rng.below(many);
    match rng.below(3) {
        0 => held[Transitions][0] -= 1,
        1 if many < 64 => {
            [Sources, Targets, On, Off, Wait].iter().for_each(|field| held[*field][many] = held[*field][t]);
            held[Transitions][0] += 1;
        }
        _ => held[Sources][t] |= chosen(rng, numbers(steps) & !held[Targets][t], 1),
    }
}

// The chart's own in about half of the cases, or one made in one of the ways, which now and then is the chart's own too; in the last way the chart is
// altered after it.
fn some_index(rng: &Rng, held: &mut Held) -> Leaving {
    let mut words = index_of(held, Sources);
    if rng.chance(50) {
        return Leaving { words, way: None };
    }
    let way = rng.below(WAYS.len());
    if let Some((k, t)) = other_bit(rng, held, way) {
        words[k] = if way == 0 { words[k] & !(1 << t) } else { words[k] | 1 << t };
    }
    match way {
        5 => words = index_of(held, Targets),
        6 => words.fill(0),
        7 => words.fill(u64::MAX),
        8 => words = index_of(&Held::of(&file_of(&random_chart(rng))), Sources),
        9 => alter_sources(rng, held),
        _ => {}
    }
    Leaving { words, way: Some(way) }
}

// ---------------------------------------------------------------------------------------------
// Texts (document 02, request iv, with the grammar of docs/GRAMMAR.md)
// ---------------------------------------------------------------------------------------------

// A block as a text has it; a qualifier that is left out is N.
#[derive(Clone)]
struct TextBlock {
    action: usize,
    qualifier: Option<u64>,
    digits: String,
}

struct TextStep {
    initial: bool,
    name: usize,
    blocks: Vec<TextBlock>,
}

// Sources and targets, and inputs, each with whether it stands after NOT; none is TRUE.
#[derive(Clone)]
struct TextTransition {
    lists: [Vec<usize>; 2],
    inputs: Vec<(bool, usize)>,
}

// What a text says, name by name.
struct TextChart {
    steps: Vec<TextStep>,
    transitions: Vec<TextTransition>,
}

fn shuffled<T>(rng: &Rng, mut these: Vec<T>) -> Vec<T> {
    (1..these.len()).for_each(|k| these.swap(k, rng.below(k + 1)));
    these
}

// A set's names in any order, sometimes one of them twice.
fn listed(rng: &Rng, set: u64) -> Vec<usize> {
    let mut names = members(set);
    if rng.chance(15) {
        names.push(rng.pick(&names));
    }
    shuffled(rng, names)
}

// TRUE, a few inputs or many; no input is both plain and after NOT.
fn text_inputs(rng: &Rng) -> Vec<(bool, usize)> {
    let (many, off) = (rng.pick(&[0, 1, 1, 2, rng.below(5), if rng.chance(5) { 40 } else { 3 }]), rng.any());
    let inputs = (0..many).map(|_| rng.pick(&[0, 1, 9, 10, 31, rng.below(32), rng.below(32)]));
    inputs.map(|k| (has(off, k as u64), k)).collect()
}

fn text_block(rng: &Rng, [_, action, q, duration, _]: Record) -> TextBlock {
    let qualifier = (q != N || rng.chance(60)).then_some(q);
    TextBlock { action: action as usize, qualifier, digits: duration.to_string() }
}

fn text_transition(rng: &Rng, steps: usize) -> TextTransition {
    let [sources, targets, ..] = transition(rng, steps, 0, &[0]);
    TextTransition { lists: [sources, targets].map(|set| listed(rng, set)), inputs: text_inputs(rng) }
}

// A chart that has no fault.
fn text_chart(rng: &Rng, [steps, actions, transitions, many, _]: [usize; 5]) -> TextChart {
    let found = blocks(rng, many, steps, actions, &times(rng), &QUALIFIERS);
    let of = |k: usize| found.iter().filter(|block| block[0] == k as u64).map(|block| text_block(rng, *block)).collect();
    TextChart {
        steps: (0..steps).map(|k| TextStep { initial: k == 0 || rng.chance(25), name: k, blocks: of(k) }).collect(),
        transitions: (0..if steps > 1 { transitions } else { 0 }).map(|_| text_transition(rng, steps)).collect(),
    }
}

// The faults of a text's chart in the order in which they are tested, and their numbers. Those of transitions are tested transition by transition.
const TEXT_FAULTS: [(&str, u64); 8] = [
    ("a step out of order", 25),
    ("too many transitions", 4),
    ("too many blocks", 4),
    ("a step that there is not", 5),
    ("a step that is both", 6),
    ("an input that is both", 7),
    ("a long duration", 5),
    ("two timed blocks", 8),
];
const OF_TRANSITIONS: Range<usize> = 3..6;

// Another name for a step than its number; now and then it is the 65th, which has none.
fn put_odd_name(rng: &Rng, steps: &mut Vec<TextStep>) {
    if rng.chance(10) {
        (steps.len()..64).for_each(|name| steps.push(TextStep { initial: false, name, blocks: Vec::new() }));
        return steps.push(TextStep { initial: rng.chance(25), name: rng.below(64), blocks: Vec::new() });
    }
    let k = rng.below(steps.len());
    let others: Vec<usize> =
        [0, k.saturating_sub(1), k + 1, 63, rng.below(64)].into_iter().filter(|name| *name != k && *name < 64).collect();
    steps[k].name = rng.pick(&others);
}

// Digits of a duration above the limit, by one or so that 32 or 64 bits of it are below, or very many.
fn long_digits(rng: &Rng) -> String {
    let above =
        rng.pick(&[DAY as u128 + 1, 1 << 32, (1 << 32) + 5, 1 << 64, (1 << 64) + 5, DAY as u128 + 1 + u128::from(rng.any()), u128::MAX]);
    if rng.chance(80) {
        return above.to_string();
    }
    format!("{above}{}", "0".repeat(rng.pick(&[10, 100, 3000])))
}

fn put_timed(rng: &Rng, steps: &mut [TextStep], action: usize, digits: String) {
    let k = rng.below(steps.len());
    let place = rng.below(steps[k].blocks.len() + 1);
    steps[k].blocks.insert(place, TextBlock { action, qualifier: Some(rng.pick(&TIMED)), digits });
}

// This fault, in this transition if it is one of transitions; whether the chart has what it takes.
fn put_text_fault(rng: &Rng, chart: &mut TextChart, fault: usize, t: usize) -> bool {
    let (steps, many) = (chart.steps.len(), chart.transitions.len());
    let blocks: usize = chart.steps.iter().map(|step| step.blocks.len()).sum();
    match (fault, many) {
        (0, _) => put_odd_name(rng, &mut chart.steps),
        (1 | 3..=5, 0) => return false,
        // a block or two more would be another fault
        (6.., _) if (255..=256).contains(&blocks) => return false,
        (1, _) => chart.transitions = chart.transitions.iter().cloned().cycle().take(65 + rng.pick(&[0, 0, 1, 64])).collect(),
        (2, _) => {
            let block = TextBlock { action: rng.below(32), qualifier: Some(rng.pick(&UNTIMED)), digits: String::new() };
            let more = 257 - blocks.min(256) + rng.pick(&[0, 0, 1, 256]);
            chart.steps[rng.below(steps)].blocks.extend(vec![block; more]);
        }
        (3, _) if steps > 63 => return false,
        (3, _) => {
            let list = &mut chart.transitions[t].lists[rng.below(2)];
            list.truncate(if rng.chance(50) { 0 } else { list.len() });
            list.push(rng.pick(&[steps, 63, steps + rng.below(64 - steps)]));
        }
        (4, _) => {
            let [sources, targets] = &mut chart.transitions[t].lists;
            targets.push(rng.pick(sources));
        }
        (5, _) => {
            let (k, not) = (rng.below(32), rng.chance(50));
            let inputs = &mut chart.transitions[t].inputs;
            inputs.insert(rng.below(inputs.len() + 1), (not, k));
            inputs.insert(rng.below(inputs.len() + 1), (!not, k));
        }
        (6, _) => put_timed(rng, &mut chart.steps, rng.below(32), long_digits(rng)),
        _ => {
            let action = rng.below(32);
            (0..2).for_each(|_| put_timed(rng, &mut chart.steps, action, rng.pick(&["0", "5", "86400000"]).to_string()));
        }
    }
    true
}

// One of these faults, and the transition that it is in.
type TextFault = (usize, Option<usize>);

// None, one, two or three of them, each with the transition that it is in, if it is in one; those of transitions are often in the same.
fn put_text_faults(rng: &Rng, chart: &mut TextChart) -> Vec<TextFault> {
    let among = |_| if rng.chance(40) { OF_TRANSITIONS.start + rng.below(OF_TRANSITIONS.len()) } else { rng.below(TEXT_FAULTS.len()) };
    let mut wanted: Vec<usize> = (0..rng.pick(&[0, 0, 0, 0, 1, 1, 1, 2, 2, 3])).map(among).collect();
    wanted.sort_unstable();
    let (many, same) = (chart.transitions.len().max(1), rng.below(chart.transitions.len().max(1)));
    let mut faults = Vec::new();
    for fault in wanted {
        let t = if rng.chance(60) { same } else { rng.below(many) };
        if put_text_fault(rng, chart, fault, t) {
            faults.push((fault, OF_TRANSITIONS.contains(&fault).then_some(t)));
        }
    }
    faults
}

// A token, and what it is in its production.
#[derive(Clone)]
struct Token {
    spelling: String,
    role: &'static str,
}

// All that a token can be, and what stands between tokens.
#[rustfmt::skip]
const ROLES: [&str; 27] = [
    "INITIAL_STEP", "STEP", "a step's own name", "the colon", "an action's name", "an opening bracket", "a qualifier", "the comma of a duration",
    "a duration", "a closing bracket", "the end of an association", "END_STEP", "TRANSITION", "FROM", "TO", "a step's name", "the opening of a list",
    "the comma of a list", "the closing of a list", "the assignment", "TRUE", "NOT", "AND", "an input's name", "the end of a condition",
    "END_TRANSITION", "white space",
];

// A text's tokens, as they are put.
#[derive(Default)]
struct Tokens(Vec<Token>);

impl Tokens {
    fn put(&mut self, role: &'static str, spelling: impl ToString) {
        self.0.push(Token { spelling: spelling.to_string(), role });
    }

    fn put_block(&mut self, rng: &Rng, block: &TextBlock) {
        self.put("an action's name", format!("A{}", block.action));
        self.put("an opening bracket", "(");
        block.qualifier.into_iter().for_each(|q| self.put("a qualifier", NAMES[q as usize]));
        if block.qualifier.is_some_and(|q| TIMED.contains(&q)) {
            self.put("the comma of a duration", ",");
            let (head, unit) = (rng.pick(&["T#", "T#", "TIME#"]), rng.pick(&["ms", "ms", "Ms", "mS", "MS"]));
            self.put("a duration", format!("{head}{}{unit}", block.digits));
        }
        self.put("a closing bracket", ")");
        self.put("the end of an association", ";");
    }

    fn put_step(&mut self, rng: &Rng, step: &TextStep) {
        let keyword = if step.initial { "INITIAL_STEP" } else { "STEP" };
        self.put(keyword, keyword);
        self.put("a step's own name", format!("S{}", step.name));
        self.put("the colon", ":");
        step.blocks.iter().for_each(|block| self.put_block(rng, block));
        self.put("END_STEP", "END_STEP");
    }

    // Two names or more stand in brackets, and one without them.
    fn put_list(&mut self, names: &[usize]) {
        for (k, name) in names.iter().enumerate() {
            if names.len() > 1 {
                let (role, sign) = if k == 0 { ("the opening of a list", "(") } else { ("the comma of a list", ",") };
                self.put(role, sign);
            }
            self.put("a step's name", format!("S{name}"));
        }
        if names.len() > 1 {
            self.put("the closing of a list", ")");
        }
    }

    fn put_condition(&mut self, inputs: &[(bool, usize)]) {
        if inputs.is_empty() {
            self.put("TRUE", "TRUE");
        }
        for (k, (not, name)) in inputs.iter().enumerate() {
            (k > 0).then(|| self.put("AND", "AND"));
            not.then(|| self.put("NOT", "NOT"));
            self.put("an input's name", format!("X{name}"));
        }
    }

    fn put_transition(&mut self, TextTransition { lists: [sources, targets], inputs }: &TextTransition) {
        self.put("TRANSITION", "TRANSITION");
        self.put("FROM", "FROM");
        self.put_list(sources);
        self.put("TO", "TO");
        self.put_list(targets);
        self.put("the assignment", ":=");
        self.put_condition(inputs);
        self.put("the end of a condition", ";");
        self.put("END_TRANSITION", "END_TRANSITION");
    }
}

fn tokens_of(rng: &Rng, chart: &TextChart) -> Vec<Token> {
    let mut tokens = Tokens::default();
    chart.steps.iter().for_each(|step| tokens.put_step(rng, step));
    chart.transitions.iter().for_each(|transition| tokens.put_transition(transition));
    tokens.0
}

fn is_word(token: &Token) -> bool {
    token.spelling.starts_with(|first: char| first.is_ascii_alphabetic())
}

// "bytes 9 to 13 and 32"
const BLANKS: [u8; 6] = [9, 10, 11, 12, 13, 32];

// White space, which must be there or may be left out, by the layout of the text: as little as may be, or one byte or a few of some kind.
fn white_space(rng: &Rng, layout: usize, needed: bool) -> Vec<u8> {
    let more = match layout {
        0 | 2 => 0,
        1 => usize::from(!needed && rng.chance(30)),
        _ => rng.pick(&[0, 0, 1, rng.below(4)]),
    };
    let kinds = [&b" "[..], b" \n", &BLANKS][layout.min(2)];
    (0..usize::from(needed) + more).map(|_| rng.pick(kinds)).collect()
}

// A text's bytes, and where each token begins and ends.
#[derive(Clone)]
struct Spelled {
    bytes: Vec<u8>,
    tokens: Vec<(Range<usize>, &'static str)>,
}

fn spelled(rng: &Rng, tokens: &[Token], layout: usize) -> Spelled {
    let mut found = Spelled { bytes: white_space(rng, layout, false), tokens: Vec::new() };
    for (k, token) in tokens.iter().enumerate() {
        if k > 0 {
            found.bytes.extend(white_space(rng, layout, is_word(&tokens[k - 1]) && is_word(token)));
        }
        let from = found.bytes.len();
        found.bytes.extend(token.spelling.bytes());
        found.tokens.push((from..found.bytes.len(), token.role));
    }
    found.bytes.extend(white_space(rng, layout, false));
    found
}

impl Spelled {
    fn role_at(&self, place: usize) -> &'static str {
        self.tokens.iter().find(|(range, _)| range.contains(&place)).map_or("white space", |(_, role)| role)
    }

    fn token(&self, k: usize) -> &str {
        std::str::from_utf8(&self.bytes[self.tokens[k].0.clone()]).expect("a token")
    }

    // What stands between this token and the next.
    fn gap(&self, k: usize) -> &[u8] {
        &self.bytes[self.tokens[k].0.end..self.tokens[k + 1].0.start]
    }
}

// Ways in which a text is damaged, token by token and then byte by byte.
#[rustfmt::skip]
const DAMAGES: [&str; 12] = [
    "a token gone", "a token twice", "two tokens the other way round", "another token", "no blank between words",
    "a blank within a token", "a token behind the last", "a cut", "a byte replaced", "a byte gone", "a byte more", "a letter in the other case",
];
const ANOTHER: usize = 3;
const BEHIND_THE_LAST: usize = 6;

// Tokens of other places, and some that are none.
#[rustfmt::skip]
const OTHER_TOKENS: [&str; 60] = [
    "INITIAL_STEP", "STEP", "END_STEP", "TRANSITION", "FROM", "TO", "END_TRANSITION", "TRUE", "NOT", "AND", "S0", "S1", "S9", "S10", "S63", "S64",
    "S00", "S01", "S70", "S", "A0", "A31", "A32", "A00", "X0", "X9", "X31", "X32", "X032", "X", "(", ")", ",", ":", ";", ":=", "=", "N", "R", "L",
    "D", "P", "SD", "DS", "SL", "P1", "P0", "P2", "T#5ms", "TIME#5MS", "T#05ms", "T#5s", "t#5ms", "T#", "T#5", "&", "OR", "FALSE", "(S0)", "(*",
];

// Numbers at the limits of names and beyond them, and some that are none.
const OTHER_NUMBERS: [&str; 17] = ["", "0", "9", "10", "31", "63", "00", "01", "031", "32", "40", "64", "70", "99", "100", "310", "630"];

// Durations at the limit and beyond it, and some that are none.
#[rustfmt::skip]
const OTHER_DURATIONS: [&str; 12] = [
    "T#0ms", "TIME#86400000Ms", "T#86400001mS", "T#4294967301MS", "T#00ms", "T#05ms", "TIME#5s", "T#1_0ms", "T#1.5ms", "T#ms", "t#5ms", "TIM#5ms",
];

// Another in the place of this token: often one of its kind, or what is nearly so.
fn other_spelling(rng: &Rng, token: &Token) -> String {
    match token.role {
        _ if rng.chance(30) => rng.pick(&OTHER_TOKENS).to_string(),
        "a qualifier" => rng.pick(&NAMES).to_string(),
        "a duration" => rng.pick(&OTHER_DURATIONS).to_string(),
        role if role.ends_with("name") => format!("{}{}", &token.spelling[..1], rng.pick(&OTHER_NUMBERS)),
        _ => rng.pick(&OTHER_TOKENS).to_string(),
    }
}

fn damage_tokens(rng: &Rng, tokens: &mut Vec<Token>, way: usize) {
    let k = rng.below(tokens.len());
    let next = (k + 1) % tokens.len();
    match way {
        0 => drop(tokens.remove(k)),
        1 => tokens.insert(k, tokens[k].clone()),
        2 => tokens.swap(k, next),
        ANOTHER => tokens[k].spelling = other_spelling(rng, &tokens[k]),
        4 => {
            let among: Vec<usize> = (1..tokens.len()).filter(|k| is_word(&tokens[k - 1]) && is_word(&tokens[*k])).collect();
            let k = rng.pick(&among);
            let second = tokens.remove(k);
            tokens[k - 1].spelling += &second.spelling;
        }
        BEHIND_THE_LAST => tokens.push(Token { spelling: rng.pick(&OTHER_TOKENS).to_string(), role: "" }),
        _ => {
            let among: Vec<usize> = (0..tokens.len()).filter(|k| tokens[*k].spelling.len() > 1).collect();
            let spelling = &mut tokens[rng.pick(&among)].spelling;
            spelling.insert(1 + rng.below(spelling.len() - 1), char::from(rng.pick(&BLANKS)));
        }
    }
}

// A byte of which texts are made, mostly.
fn text_byte(rng: &Rng) -> u8 {
    if rng.chance(80) {
        rng.pick(b" \n()#,:;=_019463ACDEFIMNOPRSTX")
    } else {
        rng.any() as u8
    }
}

// What a byte is replaced by in every place of a short text, beside one that is drawn.
const REPLACING: [u8; 10] = *b" 014SDN;,)";

fn damage_bytes(rng: &Rng, bytes: &mut Vec<u8>, way: usize) {
    let place = rng.below(bytes.len());
    match way {
        7 => bytes.truncate(rng.pick(&[place, place, bytes.len() - 1])),
        8 => bytes[place] = text_byte(rng),
        9 => drop(bytes.remove(place)),
        10 => bytes.insert(rng.below(bytes.len() + 1), text_byte(rng)),
        _ => {
            let letters: Vec<usize> = (0..bytes.len()).filter(|k| bytes[*k].is_ascii_alphabetic()).collect();
            bytes[rng.pick(&letters)] ^= 32;
        }
    }
}

// ---------------------------------------------------------------------------------------------
// The cases
// ---------------------------------------------------------------------------------------------

// A request, and what its answer says of what was reached.
struct Case {
    request: Vec<u8>,
    count: Box<dyn FnOnce(&mut Reached, &str)>,
}

const START: u64 = 0;
const CYCLE: u64 = 1;
const TALLY: u64 = 2;
const WEIGHING: u64 = 3;
const WRITING: u64 = 4;
const SHIFT: u64 = 5;
const HOLD: u64 = 6;
const RELEASE: u64 = 7;
const INDEX: u64 = 8;
const CYCLE_BY: u64 = 9;
const SHIFT_BY: u64 = 10;
const ADDING: u64 = 11;
// each by its name
#[rustfmt::skip]
const CALLS: [&str; 12] = [
    "start", "cycle", "tally", "weighing", "writing", "shift", "hold", "release", "building", "cycle by index", "shift by index", "adding",
];

// A call on what is held, without the lists that may follow.
fn request(held: &Held, kind: u64, clock: u64, inputs: u64, lent: u64, weights: usize) -> Vec<u8> {
    let mut bytes = held.bytes();
    for (number, width) in [(kind, 1), (clock, 4), (inputs, 4), (lent, 1), (weights as u64, 1)] {
        put(&mut bytes, number, width);
    }
    bytes
}

// The driver takes a file's length in two bytes.
fn shortened(mut file: Vec<u8>) -> Vec<u8> {
    file.truncate(65_535);
    file
}

fn read_case(rng: &Rng, _: u64) -> Case {
    let file = shortened(faulty_file(rng, random_chart(rng)));
    let read = file.clone();
    Case { request: file, count: Box::new(move |reached, line| count_read(reached, &read, line)) }
}

fn back_case(rng: &Rng, _: u64) -> Case {
    let chart = random_chart(rng);
    let file = if rng.chance(80) { file_of(&chart) } else { shortened(faulty_file(rng, chart)) };
    let (same, read) = (format!("0 {} same", file.len()), file.clone());
    let count = move |reached: &mut Reached, line: &str| {
        reached.add(if line == same { "written back" } else { "not written back" }, 1);
        reached.note("written back in edition 2", line == same && Held::of(&read).is_second());
        reached.note("written back in 6,441 bytes", line == same && read.len() == 6441);
    };
    Case { request: file, count: Box::new(count) }
}

// A call on a held chart and run, by an index if it has one, the field that was put at its limit or above it, whether the run is one of the chart but
// for its mark, whether the chart is one but for its edition, and the number of a fault that it has beside its edition.
struct Call {
    held: Held,
    kind: u64,
    clock: u64,
    inputs: u64,
    lent: u64,
    index: Option<Leaving>,
    limit: Option<(Field, bool)>,
    fits: bool,
    by_edition: bool,
    fault: Option<u64>,
}

// Any transition, or often one with several sources and a wait.
fn some_transition(rng: &Rng, chart: &Chart) -> Option<Record> {
    let joins: Vec<Record> = chart[TRANSITION].iter().filter(|t| t[0].count_ones() > 1 && t[4] > 0).copied().collect();
    let among = if joins.is_empty() || rng.chance(60) { &chart[TRANSITION] } else { &joins };
    (!among.is_empty()).then(|| rng.pick(among))
}

// An edition that there is not.
fn no_edition(rng: &Rng) -> u64 {
    rng.pick(&[0, 3, 255, rng.between(3, 255) as u64])
}

// Less than half get a field at its limit or above it, less than a third some field or two altered, a few another edition.
fn alter(rng: &Rng, held: &mut Held) -> Option<(Field, bool)> {
    match rng.below(11) {
        0..=4 => return put_at_limit(rng, held),
        5..=7 => {
            for _ in 0..=rng.below(2) {
                let (from, to) = rng.pick(&[(0, RUN), (0, RUN), (RUN, LAYOUT.len())]);
                alter_held(rng, held, from..to);
            }
        }
        8 => held[Edition][0] = rng.pick(&[1, 2, no_edition(rng), no_edition(rng)]),
        _ => {}
    }
    None
}

// The chart in edition 2, with an action that has one block alone, a pulse or one that goes by the step's counter, on a source or a target of this
// transition; and often with a transition that leads back the same way, told by the same signals, behind the same wait.
fn make_second(rng: &Rng, chart: &mut Chart, [sources, targets, on, off, wait]: Record) {
    let (due, actions) = (due_times(chart), chart[ACTION].len());
    chart[EDITION] = vec![[2, 0, 0, 0, 0]];
    if actions > 0 {
        let (action, q) = (rng.below(actions) as u64, rng.pick(&[P, P1, P0, L, D, DS]));
        let duration = if TIMED.contains(&q) { rng.pick(&due) } else { 0 };
        chart[BLOCK].retain(|block| block[1] != action);
        chart[BLOCK].truncate(KINDS[BLOCK].limit - 1);
        chart[BLOCK].push([rng.pick(&members(sources | targets)) as u64, action, q, duration, 0]);
    }
    if chart[TRANSITION].len() < KINDS[TRANSITION].limit && rng.chance(50) {
        chart[TRANSITION].insert(rng.below(chart[TRANSITION].len() + 1), [targets, sources, on, off, wait]);
    }
}

// The run so that nothing but another transition or the key speaks against this one in edition 2, nor against one that leads back; its inputs are left
// to the call.
fn ripen(rng: &Rng, held: &mut Held, [sources, targets, on, off, wait]: Record) {
    held[Hold][0] = u64::from(rng.chance(20));
    held[Active][0] |= sources | targets;
    held[Activity][0] = (held[Activity][0] | on >> 32) & !(off >> 32);
    held[Stored][0] &= rng.pick(&[0, 0, u64::MAX]);
    for k in members(sources | targets) {
        held[Counters][k] = held[Counters][k].max(rng.pick(&[wait, DAY as u64]));
    }
}

// An edition that there is not, and beside it another fault of the chart; its number, if the chart has what it takes.
fn put_two_faults(rng: &Rng, held: &mut Held) -> Option<u64> {
    let (transitions, blocks, fault) = (held.count(Transitions), held.count(Blocks), rng.pick(&[4, 6, 7, 8, 9]));
    held[Edition][0] = no_edition(rng);
    match fault {
        4 => held[Steps][0] = 65,
        6 if transitions > 0 => held[Sources][transitions - 1] = 0,
        7 if transitions > 0 => [On, Off].iter().for_each(|field| held[*field][0] |= 1),
        8 if blocks > 1 => {
            held[BlockAction][1] = held[BlockAction][0];
            held[Qualifier][..2].fill(L);
        }
        9 => held[Initial].fill(0),
        _ => return None,
    }
    Some(fault)
}

// One of those other faults by itself.
fn put_one_fault(rng: &Rng, held: &mut Held) {
    let edition = held[Edition][0];
    put_two_faults(rng, held);
    held[Edition][0] = edition;
}

fn held_case(rng: &Rng, _: u64) -> Case {
    let mut chart = random_chart(rng);
    let wanted = some_transition(rng, &chart);
    let ripe = wanted.filter(|_| rng.chance(15));
    ripe.into_iter().for_each(|transition| make_second(rng, &mut chart, transition));
    let elapsed = rng.pick(&[0, 1, MINUTE, rng.between(0, 50), rng.between(0, 2000), rng.between(0, MINUTE)]);
    let mut held = Held::of(&file_of(&chart));
    put_run(rng, &mut held, &chart, elapsed, wanted);
    ripe.into_iter().for_each(|transition| ripen(rng, &mut held, transition));
    let made = held.clone();
    let gap = if ripe.is_some() || rng.chance(88) { elapsed } else { refused_gap(rng) };
    let told = ripe.map(|[_, _, on, off, _]| (rng.any() | on) & !off & numbers(32));
    let (clock, inputs) = (reading(held[Clock][0] as i64 + gap), told.unwrap_or_else(|| inputs_for(rng, &chart, wanted)));
    let any_call = rng.pick(&[START, CYCLE, CYCLE, CYCLE, CYCLE, CYCLE, TALLY, WEIGHING, HOLD, RELEASE, INDEX]);
    let (kind, limit, fault) = match rng.below(20) {
        _ if ripe.is_some() => (CYCLE, None, None),
        0 if any_call == INDEX => {
            put_one_fault(rng, &mut held);
            (INDEX, None, None)
        }
        0 => (any_call, None, put_two_faults(rng, &mut held)),
        _ => (any_call, alter(rng, &mut held), None),
    };
    let index = (kind == CYCLE && rng.chance(30)).then(|| some_index(rng, &mut held));
    let kind = if index.is_some() { CYCLE_BY } else { kind };
    let (fits, by_edition) = (held.equals_but_mark(&made), held.differs_by_edition(&made));
    let lent = if rng.chance(60) { 32 } else { rng.pick(&[0, 31, 33, 64, 255, rng.any() % 256]) };
    let weights = if kind == WEIGHING { random_weights(rng, &chart) } else { Vec::new() };
    let mut bytes = request(&held, kind, clock, inputs, lent, weights.len());
    weights.iter().for_each(|weight| put(&mut bytes, *weight, 2));
    index.iter().flat_map(|index| &index.words).for_each(|word| put(&mut bytes, *word, 8));
    let call = Call { held, kind, clock, inputs, lent, index, limit, fits, by_edition, fault };
    Case { request: bytes, count: Box::new(move |reached, line| count_held(reached, &call, line)) }
}

// A chart with junk beyond its counts, sometimes with a field altered too, and every kind of lent length.
fn writing_case(rng: &Rng, _: u64) -> Case {
    let file = file_of(&random_chart(rng));
    let mut held = Held::of(&file);
    put_junk(rng, &mut held);
    let made = held.clone();
    match rng.below(20) {
        0..=2 => alter_held(rng, &mut held, 0..Edition as usize),
        3 => held[Edition][0] = no_edition(rng),
        _ => {}
    }
    let (size, second, by_edition) = (file.len() as u64, held.is_second(), held.differs_by_edition(&made));
    let (more, fewer) = (size + 2 + rng.any() % 300, rng.any() % size);
    let lent = rng.pick(&[size, size, size, size - 1, size + 1, more, fewer, 0, 6441]);
    let count = move |reached: &mut Reached, line: &str| {
        count_written(reached, size, lent, "", line);
        if second {
            count_written(reached, size, lent, IN_2, line);
        }
        count_edition(reached, "writing", second, by_edition, line);
    };
    Case { request: request(&held, WRITING, lent, 0, 32, 0), count: Box::new(count) }
}

// Clocks of which none is refused, or one: the first, the last or one between, mostly with others behind it that would not be.
fn shift_clocks(rng: &Rng, first: u64, many: usize, due: &[u64]) -> Vec<u64> {
    let mut calls = vec![first as i64];
    for k in 0..many {
        let clock = clock_after(rng, calls[k], &calls, due);
        calls.push(if is_accepted(calls[k], clock) { clock } else { calls[k] + rng.between(0, 50) });
    }
    let mut clocks: Vec<u64> = calls[1..].iter().map(|clock| reading(*clock)).collect();
    if many > 0 && rng.chance(60) {
        let k = rng.pick(&[0, many / 2, many - 1]);
        clocks[k] = reading(calls[k] + refused_gap(rng));
    }
    clocks
}

// A shift on a held chart and run, by an index if it has one, the lengths of its three lists, whether its first cycle is refused by 11, and what a
// call has too.
struct Shift {
    held: Held,
    index: Option<Leaving>,
    lengths: [usize; 3],
    late: bool,
    fits: bool,
    by_edition: bool,
}

// What a shift is made on: as it was made, or altered; of one that is as long as may be, or longer, both marks and both editions.
fn alter_shifted(rng: &Rng, held: &mut Held, number: u64, right: bool) {
    match rng.below(20) {
        0..=2 if !right => {
            let (from, to) = rng.pick(&[(0, RUN), (RUN, LAYOUT.len())]);
            alter_held(rng, held, from..to);
        }
        3 if !right => held[Edition][0] = no_edition(rng),
        _ => {}
    }
    if right {
        // of the two that are as long as may be, the second is held, and they are of both editions; in the next 2,000 the other way round
        held[Hold][0] = number / 2 % 2;
        held[Edition][0] = 1 + (number / 2 + number / 2000) % 2;
    }
}

// Three in 2,000 shifts are as long as may be, or by one longer, and all else is right: each costs as much as a hundred others. They are by an index
// in every second 2,000.
fn shift_case(rng: &Rng, number: u64) -> Case {
    let chart = random_chart(rng);
    let mut held = Held::of(&file_of(&chart));
    put_run(rng, &mut held, &chart, 0, some_transition(rng, &chart));
    let made = held.clone();
    let few = rng.pick(&[0, 1, 2, rng.between(3, 12) as usize, rng.between(13, 60) as usize]);
    let (many, right) = [(4096, true), (4097, true), (4096, true)].get(number as usize % 2000).copied().unwrap_or((few, false));
    let clocks = shift_clocks(rng, held[Clock][0], many, &due_times(&chart));
    alter_shifted(rng, &mut held, number, right);
    let index = match right {
        true => (number / 2000 % 2 == 1).then(|| Leaving { words: index_of(&held, Sources), way: None }),
        false => rng.chance(30).then(|| some_index(rng, &mut held)),
    };
    let (fits, by_edition) = (held.equals_but_mark(&made), held.differs_by_edition(&made));
    let uneven = || if right || rng.chance(90) { many } else { rng.pick(&[many + 1, many.max(1) - 1]) };
    let (inputs, words) = (uneven(), uneven());
    let lent = if right || rng.chance(80) { 32 } else { rng.pick(&[31, 0, 33, 255]) };
    let kind = if index.is_some() { SHIFT_BY } else { SHIFT };
    let mut bytes = request(&held, kind, (many | inputs << 16) as u64, words as u64, lent, 0);
    index.iter().flat_map(|index| &index.words).for_each(|word| put(&mut bytes, *word, 8));
    clocks.iter().for_each(|clock| put(&mut bytes, *clock, 4));
    (0..inputs).for_each(|_| put(&mut bytes, inputs_for(rng, &chart, None), 4));
    let late = clocks.first().is_some_and(|clock| reading(*clock as i64 - held[Clock][0] as i64) > MINUTE as u64);
    let shift = Shift { held, index, lengths: [many, inputs, words], late, fits, by_edition };
    Case { request: bytes, count: Box::new(move |reached, line| count_any_shift(reached, &shift, line)) }
}

// Two weighings to be added on a held chart, beside a held run, the number of words lent for their sum, and whether the chart is one but for its
// edition.
struct Adding {
    held: Held,
    lists: [Vec<u64>; 2],
    lent: usize,
    by_edition: bool,
}

// A chart as it was made, or altered, beside a run of it but now and then for its mark; and lists of the right length, or one or more that mostly are
// not. What is more in the clock and the inputs than two lengths is anything.
fn adding_case(rng: &Rng, _: u64) -> Case {
    let chart = random_chart(rng);
    let mut held = Held::of(&file_of(&chart));
    put_run(rng, &mut held, &chart, 0, None);
    put_junk(rng, &mut held);
    let made = held.clone();
    match rng.below(20) {
        0..=1 => alter_held(rng, &mut held, 0..Edition as usize),
        2 => held[Edition][0] = no_edition(rng),
        3..=4 => put_one_fault(rng, &mut held),
        _ => {}
    }
    let (steps, mut lists, mut lent) = (chart[STEP].len(), two_weighings(rng, &chart), chart[STEP].len());
    let longer = || if rng.chance(10) { steps + 256 } else { other_length(rng, steps) };
    // bit k is list k
    let wrong = if rng.chance(70) { 0 } else { rng.pick(&[1, 2, 4, rng.below(8)]) };
    for (k, list) in lists.iter_mut().enumerate().filter(|(k, _)| wrong >> k & 1 == 1) {
        // the first list's length has one byte
        list.resize(if k == 0 { other_length(rng, steps) } else { longer() }, list[0]);
    }
    if wrong >> 2 == 1 {
        lent = longer();
    }
    let above = || rng.any() << 16 & numbers(32);
    let mut bytes = request(&held, ADDING, above() | lists[1].len() as u64, above() | lent as u64, rng.any() % 256, lists[0].len());
    lists.iter().flatten().for_each(|weight| put(&mut bytes, *weight, 2));
    let by_edition = held.differs_by_edition(&made);
    let adding = Adding { held, lists, lent, by_edition };
    Case { request: bytes, count: Box::new(move |reached, line| count_added(reached, &adding, line)) }
}

// A call of a run, as the driver's stored_runs takes it.
#[derive(Clone, Copy, PartialEq)]
enum Entry {
    Start,
    Cycle,
    Turn(bool),
    Cycles,
}

// Few actions, which most blocks set or reset.
fn storing_chart(rng: &Rng) -> Chart {
    let mut chart = random_chart(rng);
    let (steps, actions, due) = (chart[STEP].len(), chart[ACTION].len(), due_times(&chart));
    if rng.chance(80) {
        chart[BLOCK] = blocks(rng, rng.between(2, 12) as usize, steps, actions.min(4), &due, &[S, S, R, DS, DS, N]);
    }
    chart
}

// A start and then cycles, turns of the key and shifts; now and then of a file that is none.
fn stored_case(rng: &Rng, _: u64) -> Case {
    let chart = storing_chart(rng);
    let (held, due) = (Held::of(&file_of(&chart)), due_times(&chart));
    let right = rng.chance(97);
    let file = if right { file_of(&chart) } else { shortened(faulty_file(rng, chart.clone())) };
    let mut last = rng.pick(&[0, 1000, rng.between(0, TURN - 1), TURN - rng.between(1, 70_000)]);
    let (mut bytes, mut entries, mut calls) = (framed([&file].into_iter(), 2), vec![Entry::Start], vec![last]);
    let many = rng.between(0, 30);
    put(&mut bytes, last as u64, 4);
    put(&mut bytes, many as u64, 2);
    for _ in 0..many {
        let (entry, clocks) = match rng.below(20) {
            0..=14 => (Entry::Cycle, vec![reading(clock_after(rng, last, &calls, &due))]),
            15..=16 => (Entry::Turn(true), vec![]),
            17..=18 => (Entry::Turn(false), vec![]),
            _ => (Entry::Cycles, shift_clocks(rng, reading(last), rng.below(12), &due)),
        };
        put_entry(&mut bytes, entry, &clocks, || inputs_for(rng, &chart, None));
        for clock in clocks.into_iter().map_while(|clock| {
            // a shift ends at the first that is refused
            let gap = reading(clock as i64 - last) as i64;
            last += if gap <= MINUTE { gap } else { 0 };
            (gap <= MINUTE).then_some(last)
        }) {
            calls.push(clock);
        }
        entries.push(entry);
    }
    let count = move |reached: &mut Reached, line: &str| match right {
        true => count_stored_run(reached, &held, &entries, line),
        false => reached.note("run of a refused chart", !line.starts_with("0 ")),
    };
    Case { request: bytes, count: Box::new(count) }
}

fn put_entry(bytes: &mut Vec<u8>, entry: Entry, clocks: &[u64], inputs: impl Fn() -> u64) {
    let kind = match entry {
        Entry::Turn(true) => 1,
        Entry::Turn(false) => 2,
        Entry::Cycles => 3,
        _ => 0,
    };
    put(bytes, kind, 1);
    if entry == Entry::Cycles {
        put(bytes, clocks.len() as u64, 2);
    }
    clocks.iter().for_each(|clock| put(bytes, *clock, 4));
    clocks.iter().for_each(|_| put(bytes, inputs(), 4));
}

// A text as it was made: with what faults, in which way it was damaged, and what is counted of it if it is accepted.
struct TextCase {
    faults: Vec<TextFault>,
    way: Option<usize>,
    size: usize,
    has: BTreeSet<String>,
}

// More than half are no more damaged than by their chart's faults. Ten in 2,000 have 70,000 bytes of white space in front of some token, mostly the
// first.
fn text_case(rng: &Rng, number: u64) -> Case {
    let mut chart = text_chart(rng, if rng.chance(50) { [3, 4, 3, 4, 0].map(|most| 1 + rng.below(most + 1)) } else { sizes(rng) });
    let faults = put_text_faults(rng, &mut chart);
    let way = rng.chance(45).then(|| rng.pick(&[BEHIND_THE_LAST, ANOTHER, rng.below(DAMAGES.len()), rng.below(DAMAGES.len())]));
    let mut tokens = tokens_of(rng, &chart);
    way.into_iter().filter(|way| *way <= BEHIND_THE_LAST).for_each(|way| damage_tokens(rng, &mut tokens, way));
    let mut made = spelled(rng, &tokens, rng.below(4));
    let has = if way.is_none() { what_it_has(&chart, &made) } else { BTreeSet::new() };
    let far = (number % 200 == 0).then(|| made.tokens[rng.pick(&[0, 0, rng.below(made.tokens.len())])].0.start);
    far.into_iter().for_each(|place| drop(made.bytes.splice(place..place, vec![rng.pick(&BLANKS); 70_000])));
    way.into_iter().filter(|way| *way > BEHIND_THE_LAST).for_each(|way| damage_bytes(rng, &mut made.bytes, way));
    let case = TextCase { faults, way, size: made.bytes.len(), has };
    Case { request: made.bytes, count: Box::new(move |reached, line| count_text(reached, &case, line)) }
}

// So many cases in a row are cuts and replacements of one short text, and it has no more bytes than let each be one of them.
const OF_ONE: u64 = 2000;
const SHORT: usize = 160;

// A few steps, blocks and transitions, often with a fault of the chart.
fn short_text(rng: &Rng) -> Spelled {
    loop {
        let mut chart = text_chart(rng, [1, 1, 0, 0, 0].map(|least| least + rng.below(3)));
        put_text_faults(rng, &mut chart);
        // most that are too long are so by far
        if chart.steps.iter().map(|step| 1 + step.blocks.len()).sum::<usize>() + chart.transitions.len() > 12 {
            continue;
        }
        let made = spelled(rng, &tokens_of(rng, &chart), rng.pick(&[0, 2, 3]));
        if (SHORT / 2..=SHORT).contains(&made.bytes.len()) {
            return made;
        }
    }
}

// What became of a short text.
enum Change {
    Cut(usize),
    Replaced(usize),
    Other,
}

// First its cuts, the longest first, so that what was cut off stands where the driver had it; then each byte replaced by each of a few and by one
// that is drawn; and what is left of their number is damaged anywhere.
fn short_text_case(rng: &Rng, number: u64) -> Case {
    let made = short_text(rng);
    let (size, own) = (made.bytes.len(), Rng(Cell::new(rng.any() ^ number)));
    let (mut bytes, index) = (made.bytes.clone(), (number % OF_ONE) as usize);
    let (place, which) = (index.saturating_sub(size) / (REPLACING.len() + 1), index.saturating_sub(size) % (REPLACING.len() + 1));
    let change = if index < size {
        bytes.truncate(size - 1 - index);
        Change::Cut(size - 1 - index)
    } else if place < size {
        bytes[place] = REPLACING.get(which).copied().unwrap_or_else(|| text_byte(&own));
        if bytes[place] == made.bytes[place] {
            Change::Other
        } else {
            Change::Replaced(place)
        }
    } else {
        damage_bytes(&own, &mut bytes, own.pick(&[9, 10, 11]));
        Change::Other
    };
    Case { request: bytes, count: Box::new(move |reached, line| count_short_text(reached, &made, &change, line)) }
}

// A chart file, or none, and a trace.
struct Printing {
    file: Option<Vec<u8>>,
    trace: Vec<u8>,
}

// The first trace is as long as may be, or longer by a record or two.
fn print_case(rng: &Rng, number: u64) -> Printing {
    let chart = random_chart(rng);
    let (file, trace) = (file_of(&chart), random_trace(rng, &chart));
    if number == 0 {
        let cycles = (0..5460 + rng.between(0, 2)).map(|k| cycle_record(7 * k, inputs_for(rng, &chart, None)));
        return Printing { file: Some(file), trace: [start_record(0)].into_iter().chain(cycles).flatten().collect() };
    }
    match rng.below(40) {
        0..=12 => Printing { file: Some(faulty_file(rng, chart)), trace: trace.concat() },
        13 => Printing { file: None, trace: trace.concat() },
        14..=19 => Printing { file: Some(file), trace: damaged(rng, trace) },
        20 => Printing { file: Some(file), trace: Vec::new() },
        _ => Printing { file: Some(file), trace: trace.concat() },
    }
}

// ---------------------------------------------------------------------------------------------
// What was reached
// ---------------------------------------------------------------------------------------------

// How often each thing was reached, by its name.
#[derive(Default)]
struct Reached(BTreeMap<String, u64>);

impl Reached {
    fn add(&mut self, name: &str, many: u64) {
        match self.0.get_mut(name) {
            Some(reached) => *reached += many,
            None => drop(self.0.insert(name.to_string(), many)),
        }
    }

    fn note(&mut self, name: &str, so: bool) {
        self.add(name, u64::from(so));
    }

    // An answer by its number of refusal.
    fn answer(&mut self, code: u64, accepted: &str) {
        if code == 0 {
            self.add(accepted, 1);
        } else {
            self.add(&format!("refused {code}"), 1);
        }
    }

    fn add_all(&mut self, others: &Reached) {
        others.0.iter().for_each(|(name, many)| self.add(name, *many));
    }

    fn of(&self, name: &str) -> u64 {
        self.0.get(name).copied().unwrap_or_default()
    }
}

// What a comparison must reach: without it equal answers say nothing of it.
fn needed() -> Vec<String> {
    let mut names: Vec<String> = (1..=18).chain([20, 21]).map(|code| format!("refused {code}")).collect();
    for (q, name) in (0..).zip(NAMES).filter(|(q, _)| *q != R) {
        let timed = TIMED.contains(&q);
        let of = |what: &str| format!("{name} {what}");
        names.push(of("active"));
        names.extend((timed || q == P || q == P1).then(|| of("not active")));
        names.extend(["at its duration", "one ms before"].into_iter().filter(|_| timed).map(of));
    }
    for field in LAYOUT.iter().map(|(field, _, _)| *field).filter(|field| *field != Value && *field != Clock) {
        names.extend([false, true].map(|above| name_of(field, above)));
    }
    for reason in 1..=6 {
        names.push(format!("reason {reason} alone"));
        names.extend((reason + 1..=6).map(|later| format!("reason {reason} before {later}")));
    }
    names.extend([1, 3, 4, 5].map(|reason| format!("printed reason {reason}")));
    names.extend(NEEDED.iter().map(|name| name.to_string()));
    names.extend(needed_of_hold());
    names.extend(needed_of_editions());
    names.extend(needed_of_indexes());
    names.extend(needed_of_adding());
    names.extend(STORED.iter().flat_map(|name| [name.to_string(), format!("{name}{IN_2}")]));
    names.push("run of a refused chart".to_string());
    names.extend(needed_of_texts());
    names
}

// Texts: each fault of the chart by itself and before each that is tested behind it, in one transition and in two; each way of damage; what accepted
// texts have; and short ones cut and with a byte replaced in each token's role.
fn needed_of_texts() -> Vec<String> {
    let mut names: Vec<String> = [19, 25, 4, 5, 6, 7, 8].iter().map(|code| format!("text refused {code}")).collect();
    for (early, (name, _)) in TEXT_FAULTS.iter().enumerate() {
        names.extend([format!("text refused by {name}"), format!("text refused 19 with {name}")]);
        for (late, (behind, _)) in TEXT_FAULTS.iter().enumerate() {
            let both = [early, late].iter().all(|fault| OF_TRANSITIONS.contains(fault));
            names.extend((early < late && !both).then(|| format!("text refused by {name} with {behind}")));
            names.extend((early < late && both).then(|| format!("text refused by {name} with {behind} in one transition")));
            names.extend((early != late && both).then(|| format!("text refused by {name} with {behind} in a later transition")));
        }
    }
    names.extend(DAMAGES.map(|way| format!("text refused 19 by {way}")));
    names.extend(
        ROLES.iter().flat_map(|role| [format!("text cut in {role}"), format!("text replaced in {role}"), format!("text with {role}")]),
    );
    names.extend(NAMES.map(|name| format!("text with {name}")));
    names.extend(TEXT_NAMES.map(|name| format!("text with {name}")));
    names.extend(BLANKS.iter().flat_map(|byte| ["between words", "beside a sign"].map(|place| format!("text with byte {byte} {place}"))));
    names.extend(NEEDED_OF_TEXTS.map(str::to_string));
    names
}

const TEXT_NAMES: [&str; 12] = ["S0", "S9", "S10", "S63", "A0", "A9", "A10", "A31", "X0", "X9", "X10", "X31"];

#[rustfmt::skip]
const NEEDED_OF_TEXTS: [&str; 36] = [
    "texts accepted", "text refused 19 at its end", "text refused 19 within", "text with no qualifier", "text with T#", "text with TIME#",
    "text with unit ms", "text with unit Ms", "text with unit mS", "text with unit MS", "text with duration 0", "text with duration 86400000",
    "text with a list of two", "text with a list of more", "text with a name twice in a list", "text with an input twice",
    "text with a plain input behind a NOT", "text with more than 32 inputs", "text with one step", "text with 64 steps", "text with 64 transitions",
    "text with 256 blocks", "text with a later initial step", "text without transitions", "text with several blanks",
    "text with nothing beside a sign", "text with white space before it", "text with white space behind it", "text cut, and one still",
    "text replaced, and one still", "text replaced, and refused behind it", "text refused 25 with 65 steps", "text damaged, and accepted",
    "text accepted of more than 65,536 bytes", "text refused 19 behind 65,536 bytes", "text refused 25 behind 65,536 bytes",
];

// What a text must not get: another number than that of the first of its faults, a place where its number has none, or one before all that was
// changed.
const NEVER_OF_TEXTS: [&str; 4] = [
    "text refused by another fault",
    "text refused at a place without 19 and 25",
    "text refused before its cut",
    "text refused before what was replaced",
];

// Document 02, request (xi), in both editions.
#[rustfmt::skip]
const STORED: [&str; 22] = [
    "set at the start", "not set beside R at the start", "newly set by S", "newly set by DS at its duration", "newly set by DS above it",
    "not set by DS one ms before", "not set by DS one ms before under hold", "not set by S beside R", "not set by DS beside R", "reset where stored",
    "reset where not stored", "stored again after a reset", "stored beyond its step", "stored over a refused call", "stored over a turn of the key",
    "stored over a cycle under hold", "shift sets", "shift resets", "shift keeps", "stopped shift sets", "stopped shift resets", "stopped shift keeps",
];

// Under hold none is taken, so no source is used and no target claimed; and no edge makes P, P1 or P0 active.
fn needed_of_hold() -> Vec<String> {
    let mut names: Vec<String> = [1, 3, 4, 5].iter().map(|reason| format!("reason 7 before {reason}")).collect();
    let marked = ["cycle", "tally", "shift", "hold", "release", "cycle by index", "shift by index"];
    names.extend(marked.map(|call| format!("{call} refused by the mark alone")));
    for q in [N, S, L, D, SD, DS, SL] {
        names.extend(["active", "not active"].map(|so| format!("{} {so} under hold", NAMES[q as usize])));
    }
    for q in TIMED {
        names.extend(["at its duration", "one ms before"].map(|time| format!("{} {time} under hold", NAMES[q as usize])));
    }
    names.extend(NEEDED_OF_HOLD.iter().map(|name| name.to_string()));
    names
}

#[rustfmt::skip]
const NEEDED_OF_HOLD: [&str; 29] = [
    "reason 7 alone", "cycle accepted under hold", "cycle refused 11 under hold", "tally accepted under hold",
    "hold accepted without hold", "hold accepted under hold", "hold refused by the chart",
    "release accepted without hold", "release accepted under hold", "release refused by the chart",
    "shift accepted under hold", "shift of 4096 under hold", "shift refused in its middle under hold",
    "S sets under hold", "DS sets under hold", "SD latches under hold", "SL latches under hold", "R resets under hold", "R elsewhere under hold",
    "L kept from its duration", "D kept from its duration", "DS kept from its duration", "SD past its duration", "SL past its duration",
    "P not active where it would be", "P1 not active where it would be", "P0 not active where it would be", "case not marked where it would be",
    "clock turned under hold",
];

// behind the name of what is counted in edition 2 by itself
const IN_2: &str = " in edition 2";

// Edition 2 by itself: what was said of both, where it may differ, and what there is in it alone. An earlier transition claims no step there.
fn needed_of_editions() -> Vec<String> {
    let mut names = Vec::new();
    for call in CALLS {
        names.extend([format!("{call} refused by the edition alone"), format!("{call} accepted{IN_2}")]);
    }
    for reason in 1..=4 {
        names.push(format!("reason {reason} alone{IN_2}"));
        names.extend((reason + 1..=4).map(|later| format!("reason {reason} before {later}{IN_2}")));
    }
    names.extend([1, 3, 4].map(|reason| format!("reason 7 before {reason}{IN_2}")));
    names.extend([1, 3, 4].map(|reason| format!("printed reason {reason}{IN_2}")));
    names.extend([4, 6, 7].map(|early| format!("{early} before the edition's 5")));
    names.extend([8, 9].map(|late| format!("the edition's 5 before {late}")));
    names.extend([3, 4, 5].map(|code| format!("refused {code} by the edition record")));
    names.extend([8, 9, 10].map(|code| format!("refused {code} behind the edition record")));
    for q in [P, P1, P0] {
        names.push(format!("{} active where left and entered", NAMES[q as usize]));
        names.push(format!("{} not active at a target that stays", NAMES[q as usize]));
    }
    names.extend([L, D, DS].map(|q| format!("{} anew where left and entered", NAMES[q as usize])));
    names.extend([L, D, DS].map(|q| format!("{} goes on at a target that stays", NAMES[q as usize])));
    names.extend(IN_BOTH.iter().map(|name| format!("{name}{IN_2}")));
    names.extend(NEEDED_OF_EDITIONS.iter().map(|name| name.to_string()));
    names
}

#[rustfmt::skip]
const IN_BOTH: [&str; 16] = [
    "files read", "written back", "written", "written into its length", "written into more", "one byte too few", "transitions taken",
    "two taken in one call", "reason 7 alone", "cycle accepted under hold", "shift accepted under hold", "shift refused nowhere",
    "shift refused in its middle", "shift of 1", "shift of 4096", "printed calls",
];

#[rustfmt::skip]
const NEEDED_OF_EDITIONS: [&str; 19] = [
    "files read in edition 1", "written back in 6,441 bytes", "written in 6,441 bytes", "edition 0 refused", "edition 3 refused",
    "edition 255 refused", "refused 1 in the edition record", "refused 2 behind the edition record", "refused 2 by kind 7",
    "step left and entered", "target that stays", "one target of two taken", "target of two taken that stays", "case marked where left and entered",
    "case not marked at a target that stays", "kept from an active step by the key alone", "shift leaves and enters a step",
    "printed step left and entered", "printed target that stays",
];

// behind the name of what is counted by an index by itself
const BY: &str = " by index";

// The faults that a call by an index may have behind 15 and the chart's, in the order in which they are tested.
const CYCLE_FAULTS: [u64; 3] = [20, 12, 11];
const SHIFT_FAULTS: [u64; 4] = [20, 12, 18, 11];

// Each of a call's refusals, by itself and with each fault behind it; and what it must not do: refuse before an earlier fault, or accept any.
fn in_order(call: &str, faults: &[u64]) -> Vec<String> {
    let with = |k: usize| faults[k + 1..].iter().map(move |late| format!("{call} refused {} with {late}", faults[k]));
    let each = (0..faults.len()).flat_map(|k| [format!("{call} refused {}", faults[k])].into_iter().chain(with(k)));
    each.collect()
}

fn out_of_order(call: &str, faults: &[u64]) -> Vec<String> {
    let with = |k: usize| faults[..k].iter().map(move |early| format!("{call} refused {} with {early}", faults[k]));
    let each = (0..faults.len()).flat_map(|k| [format!("{call} accepted with {}", faults[k])].into_iter().chain(with(k)));
    each.collect()
}

// Calls by an index: each refusal, by itself and with each fault behind it; 20 in each way that an index can be another; and in both editions, held
// and not, the same answers where transitions are consulted and where they are not.
fn needed_of_indexes() -> Vec<String> {
    let mut names = Vec::new();
    for (call, faults) in [("cycle", &CYCLE_FAULTS[..]), ("shift", &SHIFT_FAULTS[..])] {
        names.extend(["15", "by the chart"].map(|code| format!("{call}{BY} refused {code}")));
        names.extend(["15", "by the chart"].map(|code| format!("{call}{BY} refused {code} with 20")));
        names.extend(in_order(&format!("{call}{BY}"), faults));
        names.extend(WAYS.map(|way| format!("{call}{BY} refused 20 by {way}")));
        for edition in [1, 2] {
            names.extend(["under", "without"].map(|so| format!("{call}{BY} accepted {so} hold in edition {edition}")));
        }
    }
    for edition in [1, 2] {
        names.extend(CONSULTED.map(|name| format!("{name} in edition {edition}")));
        names.extend([1, 2, 3, 4, 7].map(|reason| format!("reason {reason}{BY} in edition {edition}")));
    }
    names.extend([5, 6].map(|reason| format!("reason {reason}{BY} in edition 1")));
    names.extend((4..=9).map(|code| format!("building refused {code}")));
    names.extend(SHIFTED.map(|name| format!("{name}{BY}")));
    names.extend(NEEDED_OF_BUILDING.map(str::to_string));
    names
}

#[rustfmt::skip]
const CONSULTED: [&str; 11] = [
    "taken by index", "two taken by index", "several consulted", "several consulted of one step", "none consulted", "all consulted",
    "some not consulted", "taken beside some not consulted", "consulted by one source of two",
    "kept by an earlier one that leaves a later step", "moved by a shift by index",
];

const SHIFTED: [&str; 8] = [
    "shift refused at its beginning",
    "shift refused in its middle",
    "shift refused at its end",
    "shift refused nowhere",
    "shift of 0",
    "shift of 1",
    "shift of 4096",
    "shift of 4097",
];

#[rustfmt::skip]
const NEEDED_OF_BUILDING: [&str; 9] = [
    "building accepted", "built of no transition", "built with a word of several transitions", "built with a transition in several words",
    "built of 64 steps", "built of 64 transitions", "built beside a run that is none", "built with fewer than 32 outputs", "built too late",
];

// What an index must not do: an earlier fault is refused first, any fault is refused, and its own number is for an index that is another.
fn never_of_indexes() -> Vec<String> {
    let mut names = [11, 12, 15, 18, 20].map(|code| format!("building refused {code}")).to_vec();
    for (call, faults) in [("cycle", &CYCLE_FAULTS[..]), ("shift", &SHIFT_FAULTS[..])] {
        names.extend(out_of_order(&format!("{call}{BY}"), faults));
        names.push(format!("{call}{BY} refused 20 by the chart itself"));
    }
    names
}

// The faults that adding may have behind the chart's, in the order in which they are tested; and its lists.
const ADDING_FAULTS: [u64; 2] = [13, 21];
const LISTS: [&str; 3] = ["first", "second", "third"];

// Adding: each refusal, by itself and with each fault behind it, the chart's by their numbers; each list that is wrong by itself, in each way; and in both
// editions what is added, and where a sum doesn't fit.
fn needed_of_adding() -> Vec<String> {
    let mut names = in_order("adding", &ADDING_FAULTS);
    names.extend(["", " with 13", " with 21"].map(|fault| format!("adding refused by the chart{fault}")));
    names.extend((4..=9).map(|code| format!("adding refused {code}")));
    for list in LISTS {
        names.extend(["shorter", "longer", "empty"].map(|length| format!("adding refused 13 by the {list} list alone, {length}")));
    }
    names.extend([1, 2].iter().flat_map(|edition| ADDED.map(|name| format!("{name} in edition {edition}"))));
    names
}

#[rustfmt::skip]
const ADDED: [&str; 18] = [
    "added on one step", "added on two steps", "added on 64 steps", "added to 65,535", "added zeros", "added to zeros", "added zeros to zeros",
    "added balanced ones", "added unbalanced ones", "added to a balanced one", "added beside a run that is none",
    "21 at the first step", "21 at the last step", "21 at step 63", "21 at one step alone", "21 at several steps", "21 by 65,536", "21 by more",
];

// What adding must not do: tell a fault that it has not, or another step than the first whose sum doesn't fit, name a step otherwise, write where it
// refuses, or make an unbalanced sum of balanced weighings.
fn never_of_adding() -> Vec<String> {
    let mut names = out_of_order("adding", &ADDING_FAULTS);
    names.extend(ADDING_FAULTS.map(|code| format!("adding refused {code} without it")));
    names.extend([11, 12, 14, 15, 17, 18, 20].map(|code| format!("adding refused {code}")));
    names.extend(NEVER_ADDED.map(str::to_string));
    names
}

const NEVER_ADDED: [&str; 4] =
    ["adding names another step", "adding names a step without 21", "adding refused, and written", "added balanced ones, unbalanced"];

// What must not be reached: in edition 2 no target is tested; a second line has no reason that needs a transition taken, nor a key; kind 6 is neither
// above 6 nor smaller than any kind before it; and what an index and adding must not do.
fn never() -> Vec<String> {
    let mut names = vec!["refused 2 by the edition record".to_string()];
    names.extend([5, 6].map(|reason| format!("reason {reason}{IN_2}")));
    names.extend([5, 6].map(|reason| format!("printed reason {reason}{IN_2}")));
    names.extend([0, 2, 6, 7].map(|reason| format!("printed reason {reason}")));
    names.extend(never_of_indexes());
    names.extend(never_of_adding());
    names.extend(NEVER_OF_TEXTS.map(str::to_string));
    names
}

#[rustfmt::skip]
const NEEDED: [&str; 32] = [
    "R resets", "P not active at leaving", "transitions taken", "forks taken", "joins taken", "two taken in one call",
    "taken at its wait", "not taken one ms before", "not taken by a later source", "taken beside a younger step",
    "passed", "failed", "not run", "accepted at 60,000 ms", "clock turned", "balanced",
    "files read", "written", "written into its length", "written into more", "one byte too few", "written back", "not written back",
    "shift refused at its beginning", "shift refused in its middle", "shift refused at its end", "shift refused nowhere",
    "shift of 0", "shift of 1", "shift of 4096", "shift of 4097", "empty second lines",
];

fn name_of(field: Field, above: bool) -> String {
    format!("{field:?} {}", if above { "above it" } else { "at its limit" }).to_lowercase()
}

// The first numbers of an answer, as far as it has them.
fn answered(line: &str, many: usize) -> Vec<u64> {
    line.split(' ').take(many).map(|word| word.parse().unwrap_or_else(|_| panic!("no number: {word}"))).collect()
}

// The kind of the last record in front of this place or of the end record, 0 if there is none; the records up to there are whole.
fn kind_before(file: &[u8], place: usize) -> u64 {
    let (mut at, mut before) = (0, 0);
    while at < place && number_at(file, at + 2, 2) != 0 {
        before = number_at(file, at + 2, 2);
        at += 4 + number_at(file, at, 2) as usize;
    }
    before
}

// A reading by its number, and by the edition record: where it is the faulty one, stands in front of it, or of the end of a file refused behind that.
fn count_read(reached: &mut Reached, file: &[u8], line: &str) {
    let numbers = answered(line, 8);
    let (code, place, edition) = (numbers[0], numbers[1] as usize, numbers[7]);
    let kind = file.get(place..).filter(|left| left.len() >= 4).map_or(0, |left| number_at(left, 2, 2));
    reached.answer(code, "files read");
    match code {
        0 => reached.add(&format!("files read in edition {edition}"), 1),
        1 => reached.note("refused 1 in the edition record", kind == 6),
        2 => {
            reached.note("refused 2 behind the edition record", kind_before(file, place) == 6 && kind < 6);
            reached.note("refused 2 by kind 7", kind == 7);
            reached.note("refused 2 by the edition record", kind == 6);
        }
        3..=5 => reached.note(&format!("refused {code} by the edition record"), kind == 6),
        8..=10 => reached.note(&format!("refused {code} behind the edition record"), kind_before(file, file.len()) == 6),
        _ => {}
    }
}

// What a call makes of its chart's edition: the code is the first number of each line.
fn count_edition(reached: &mut Reached, name: &str, second: bool, by_edition: bool, line: &str) {
    let code = answered(line, 1)[0];
    reached.note(&format!("{name} refused by the edition alone"), code == 5 && by_edition);
    reached.note(&format!("{name} accepted{IN_2}"), code == 0 && second);
}

fn count_moves(reached: &mut Reached, held: &Held, taken: u64) {
    for edition in ["", IN_2].into_iter().filter(|edition| edition.is_empty() || held.is_second()) {
        reached.add(&format!("transitions taken{edition}"), u64::from(taken.count_ones()));
        reached.note(&format!("two taken in one call{edition}"), taken.count_ones() > 1);
    }
    for k in members(taken) {
        reached.note("forks taken", held[Targets][k].count_ones() > 1);
        reached.note("joins taken", held[Sources][k].count_ones() > 1);
    }
}

// The active steps, and the active actions.
type Standing = (u64, u64);

// Of each block, whether its action has no other.
fn are_alone(held: &Held) -> Vec<bool> {
    let actions = &held[BlockAction][..held.count(Blocks)];
    let mut blocks_of = [0; 256];
    actions.iter().for_each(|action| blocks_of[*action as usize] += 1);
    actions.iter().map(|action| blocks_of[*action as usize] == 1).collect()
}

// By actions with one block alone, whose activity that block decides; of R, by an active action that is so no more.
fn count_actions(reached: &mut Reached, held: &Held, before: Standing, after: Standing) {
    for (k, alone) in are_alone(held).into_iter().enumerate() {
        let (step, action, q) = (held[BlockStep][k], held[BlockAction][k], held[Qualifier][k]);
        let (here, left, active) = (has(after.0, step), has(before.0, step) && !has(after.0, step), has(after.1, action));
        if q == R {
            reached.note("R resets", here && has(before.1, action) && !active);
        } else if alone && (here && q != P0 || left && q == P0) {
            reached.add(&format!("{} {}", NAMES[q as usize], if active { "active" } else { "not active" }), 1);
        } else if alone && left && q == P {
            reached.note("P not active at leaving", !active);
        }
    }
}

fn count_tally(reached: &mut Reached, counts: &[u64]) {
    ["passed", "failed", "not run"].iter().zip(counts).for_each(|(name, many)| reached.add(name, *many));
}

fn count_clock(reached: &mut Reached, last: u64, clock: u64) {
    reached.note("accepted at 60,000 ms", reading(clock as i64 - last as i64) == MINUTE as u64);
    reached.note("clock turned", clock < last);
}

// Of blocks on active steps: a counter or timer at the duration, or one below.
fn count_durations(reached: &mut Reached, held: &Held, active: u64, counters: &[u64], timers: &[u64]) {
    let under = if held.is_held() { " under hold" } else { "" };
    for k in (0..held.count(Blocks)).filter(|k| has(active, held[BlockStep][*k])) {
        let (q, duration) = (held[Qualifier][k], held[Duration][k]);
        let counter = counters[held[BlockStep][k] as usize];
        let time = if [SD, SL].contains(&q) { timers[held[BlockAction][k] as usize] } else { counter };
        if TIMED.contains(&q) && duration > 0 && (time == duration || time == duration - 1) {
            reached.add(&format!("{} {}{under}", NAMES[q as usize], if time == duration { "at its duration" } else { "one ms before" }), 1);
        }
    }
}

fn elapsed(call: &Call) -> u64 {
    reading(call.clock as i64 - call.held[Clock][0] as i64)
}

// What the counters of active steps grow by.
fn growth(call: &Call) -> u64 {
    if call.held.is_held() {
        0
    } else {
        elapsed(call)
    }
}

// What speaks against transition k, each reason of request (vi) by itself, whatever comes before it; the key, which comes first, left out. In
// edition 2 no target does.
fn against(call: &Call, taken: u64, k: usize) -> [bool; 6] {
    let (held, active) = (&call.held, call.held[Active][0]);
    let before = |field: Field| members(taken & numbers(k)).iter().fold(0, |set, earlier| set | held[field][*earlier]);
    let signals = call.inputs | held[Activity][0] << 32;
    let (growth, sources) = (growth(call), held[Sources][k]);
    let targets = if held.is_second() { 0 } else { held[Targets][k] };
    [
        sources & !active != 0,
        sources & before(Sources) != 0,
        held[On][k] & !signals | held[Off][k] & signals != 0,
        members(sources & active).iter().any(|step| held[Counters][*step] + growth < held[Wait][k]),
        targets & active != 0,
        targets & before(Targets) != 0,
    ]
}

// Whether anything but a wait keeps transition k, with all sources active, from being taken.
fn is_kept(call: &Call, taken: u64, k: usize) -> bool {
    let [_, used, signal, _, occupied, claimed] = against(call, taken, k);
    used || signal || occupied || claimed
}

// Of an accepted cycle: each reason where nothing else speaks against the transition, and where a later one does too; 7 is the first in their order.
fn count_reasons(reached: &mut Reached, call: &Call, taken: u64, line: &str) {
    let reasons = line.split(' ').rev().take(64).collect::<Vec<&str>>().into_iter().rev();
    let edition = if call.held.is_second() { IN_2 } else { "" };
    for (k, word) in reasons.enumerate().filter(|(_, word)| *word != "0") {
        let later = against(call, taken, k).into_iter().zip(1..).filter(|(so, _)| *so).map(|(_, reason)| reason.to_string());
        let later: Vec<String> = later.filter(|reason| word == "7" || reason.as_str() > word).collect();
        reached.note(&format!("reason {word}{IN_2}"), call.held.is_second());
        reached.note(&format!("reason {word} alone{edition}"), later.is_empty());
        later.iter().for_each(|reason| reached.add(&format!("reason {word} before {reason}{edition}"), 1));
    }
}

// Of transitions with all sources active: the least counter at the wait, or one below; only a counter behind the first source's below it;
// and below it only one of a step that is no source.
fn count_waits(reached: &mut Reached, call: &Call, taken: u64) {
    let (held, active) = (&call.held, call.held[Active][0]);
    let counts = |set: u64| members(set).iter().map(|step| held[Counters][*step] + growth(call)).collect::<Vec<u64>>();
    for k in (0..held.count(Transitions)).filter(|k| held[Wait][*k] > 0 && held[Sources][*k] & !active == 0) {
        let (wait, is_taken, of_sources) = (held[Wait][k], has(taken, k as u64), counts(held[Sources][k]));
        let least = of_sources.iter().copied().min().unwrap_or_default();
        reached.note("taken at its wait", is_taken && least == wait);
        reached.note("not taken one ms before", !is_taken && least == wait - 1);
        reached.note("not taken by a later source", least < wait && wait <= of_sources[0] && !is_kept(call, taken, k));
        reached.note("taken beside a younger step", is_taken && counts(active & !held[Sources][k]).iter().any(|count| *count < wait));
    }
}

// An accepted start, or an accepted cycle that is not under hold.
fn count_call(reached: &mut Reached, call: &Call, line: &str) {
    let numbers = answered(line, 106);
    let (held, taken, after) = (&call.held, numbers[1], (numbers[3], numbers[4]));
    reached.add("accepted calls", 1);
    count_moves(reached, held, taken);
    count_actions(reached, held, (held[Active][0], held[Activity][0]), after);
    count_durations(reached, held, after.0, &numbers[10..74], &numbers[74..106]);
    count_waits(reached, call, taken);
    if held.is_second() && call.kind == CYCLE {
        count_second_cycle(reached, call, taken, &numbers);
    }
}

// What the transitions taken in a cycle leave, what they lead to, and of that what more than one of them leads to.
struct Moves {
    left: u64,
    targets: u64,
    shared: u64,
}

fn moves(held: &Held, taken: u64) -> Moves {
    let mut found = Moves { left: 0, targets: 0, shared: 0 };
    for k in members(taken) {
        found.left |= held[Sources][k];
        found.shared |= found.targets & held[Targets][k];
        found.targets |= held[Targets][k];
    }
    found
}

// Of a cycle in edition 2 that is not under hold: steps that are left and entered, active behind it with counter 0, and targets that were active and
// are not left, whose counter is not 0 then.
fn count_second_cycle(reached: &mut Reached, call: &Call, taken: u64, numbers: &[u64]) {
    let (held, Moves { left, targets, shared }) = (&call.held, moves(&call.held, taken));
    let (again, stays) = (left & targets, targets & held[Active][0] & !left);
    let counter = |step: usize| numbers[10 + step];
    let counts = |step: &usize| has(numbers[3], *step as u64) && counter(*step) > 0;
    reached.note("step left and entered", members(again).iter().any(|step| has(numbers[3], *step as u64) && counter(*step) == 0));
    reached.note("target that stays", members(stays).iter().any(counts));
    reached.note("one target of two taken", shared & !held[Active][0] != 0);
    reached.note("target of two taken that stays", members(shared & stays).iter().any(counts));
    for k in deciding_blocks(held) {
        let (step, active) = (held[BlockStep][k], has(numbers[4], held[BlockAction][k]));
        count_second_block(reached, call, k, active, (has(again, step), has(stays, step)));
    }
    for k in 0..held.count(Cases) {
        let (step, marked) = (held[CaseStep][k], has(numbers[7] | numbers[8], k as u64));
        let before = has(held[Good][0] | held[Bad][0], k as u64);
        reached.note("case marked where left and entered", has(again, step) && marked && !before);
        reached.note("case not marked at a target that stays", has(stays, step) && !marked);
    }
}

// Of a block that decides its action's activity: pulses, and L, D and DS where the counter that was reached before begins anew or goes on.
fn count_second_block(reached: &mut Reached, call: &Call, k: usize, active: bool, (again, stays): (bool, bool)) {
    let (held, q, duration) = (&call.held, call.held[Qualifier][k], call.held[Duration][k]);
    let name = NAMES[q as usize];
    let reaches = duration > 0 && held[Counters][held[BlockStep][k] as usize] + growth(call) >= duration;
    if [P, P1, P0].contains(&q) {
        reached.note(&format!("{name} active where left and entered"), again && active);
        reached.note(&format!("{name} not active at a target that stays"), stays && !active);
    } else if [L, D, DS].contains(&q) && reaches {
        reached.note(&format!("{name} anew where left and entered"), again && active == (q == L));
        reached.note(&format!("{name} goes on at a target that stays"), stays && active == (q != L));
    }
}

// A shift of one accepted cycle in edition 2: a step that is active before it and behind it, and whose counter of more than 0 is 0, was left and
// entered.
fn count_second_shift(reached: &mut Reached, held: &Held, line: &str) {
    let numbers = answered(line, 106);
    let left_and_entered = |step: &usize| has(numbers[3], *step as u64) && held[Counters][*step] > 0 && numbers[10 + step] == 0;
    reached.note("shift leaves and enters a step", numbers[1] == 1 && members(held[Active][0]).iter().any(left_and_entered));
    reached.note(&format!("shift accepted under hold{IN_2}"), numbers[0] == 0 && numbers[1] > 0 && held.is_held());
}

// An accepted cycle under hold: what goes on, and what the key keeps from happening.
fn count_held_cycle(reached: &mut Reached, call: &Call, line: &str) {
    let numbers = answered(line, 106);
    let after = After { activity: numbers[4], stored: numbers[5], latched: numbers[6], marked: numbers[7] | numbers[8] };
    count_durations(reached, &call.held, call.held[Active][0], &numbers[10..74], &numbers[74..106]);
    count_held_actions(reached, &call.held, &after);
    count_held_resets(reached, &call.held, &after);
    count_held_times(reached, call);
    count_held_moves(reached, call, &after);
}

// What a cycle left in a run: sets of actions, and the cases that have a mark.
struct After {
    activity: u64,
    stored: u64,
    latched: u64,
    marked: u64,
}

// The blocks that decide their action's activity: it has no other, and was not stored.
fn deciding_blocks(held: &Held) -> Vec<usize> {
    let alone = are_alone(held);
    (0..alone.len()).filter(|k| alone[*k] && !has(held[Stored][0], held[BlockAction][*k])).collect()
}

// By blocks on active steps, and N and S elsewhere too, where they are not active. What is set or latched was not so before.
fn count_held_actions(reached: &mut Reached, held: &Held, after: &After) {
    for k in deciding_blocks(held) {
        let (action, q, here) = (held[BlockAction][k], held[Qualifier][k], has(held[Active][0], held[BlockStep][k]));
        if ![R, P, P1, P0].contains(&q) && (here || q == N || q == S) {
            let so = if has(after.activity, action) { "active" } else { "not active" };
            reached.add(&format!("{} {so} under hold", NAMES[q as usize]), 1);
        }
        if here && (q == S || q == DS) {
            reached.note(&format!("{} sets under hold", NAMES[q as usize]), has(after.stored, action));
        }
        if here && (q == SD || q == SL) && !has(held[Latched][0], action) {
            reached.note(&format!("{} latches under hold", NAMES[q as usize]), has(after.latched, action));
        }
    }
}

// Of stored actions: R on an active step resets them, and R elsewhere does not.
fn count_held_resets(reached: &mut Reached, held: &Held, after: &After) {
    for k in (0..held.count(Blocks)).filter(|k| held[Qualifier][*k] == R && has(held[Stored][0], held[BlockAction][*k])) {
        let (here, stored) = (has(held[Active][0], held[BlockStep][k]), has(after.stored, held[BlockAction][k]));
        reached.note("R resets under hold", here && !stored);
        reached.note("R elsewhere under hold", !here && stored);
    }
}

// Of blocks on active steps: a duration that the counter would reach if it did not stand, or that the timer reaches.
fn count_held_times(reached: &mut Reached, call: &Call) {
    let held = &call.held;
    for k in (0..held.count(Blocks)).filter(|k| has(held[Active][0], held[BlockStep][*k])) {
        let (q, duration, name) = (held[Qualifier][k], held[Duration][k], NAMES[held[Qualifier][k] as usize]);
        let between = |time: u64| time < duration && duration <= time + elapsed(call);
        if [L, D, DS].contains(&q) {
            reached.note(&format!("{name} kept from its duration"), between(held[Counters][held[BlockStep][k] as usize]));
        } else if [SD, SL].contains(&q) && has(held[Latched][0], held[BlockAction][k]) {
            reached.note(&format!("{name} past its duration"), between(held[Timers][held[BlockAction][k] as usize]));
        }
    }
}

// Of the first transition that nothing but the key keeps: pulses on the steps that it would enter or leave, and cases on those it would leave.
fn count_held_moves(reached: &mut Reached, call: &Call, after: &After) {
    let held = &call.held;
    let Some(kept) = (0..held.count(Transitions)).find(|k| against(call, 0, *k) == [false; 6]) else { return };
    let (left, active) = (held[Sources][kept], held[Active][0]);
    let entered = held[Targets][kept] & !(active & !left);
    reached.note("kept from an active step by the key alone", held[Targets][kept] & active != 0);
    for k in deciding_blocks(held) {
        let (step, q) = (held[BlockStep][k], held[Qualifier][k]);
        if q == P0 && has(left, step) || (q == P || q == P1) && has(entered, step) {
            reached.note(&format!("{} not active where it would be", NAMES[q as usize]), !has(after.activity, held[BlockAction][k]));
        }
    }
    for k in (0..held.count(Cases)).filter(|k| has(left, held[CaseStep][*k])) {
        reached.note("case not marked where it would be", !has(after.marked, k as u64));
    }
}

// A field above its limit by the refusal that it gets, one at its limit by a call that reads it and does not refuse it so.
fn count_limit(reached: &mut Reached, kind: u64, field: Field, above: bool, code: u64) {
    let of_run = field as usize >= RUN;
    let refusal = match field {
        Steps | Actions | Transitions | Blocks | Cases => 4,
        _ if of_run => 12,
        _ => 5,
    };
    if code != 15 && (!of_run || [CYCLE, TALLY, HOLD, RELEASE].contains(&kind)) {
        reached.note(&name_of(field, above), (code == refusal) == above);
    }
}

// What a call makes of its run's mark, and whether that alone can be why the run is none of the chart.
fn count_mark(reached: &mut Reached, name: &str, mark: u64, fits: bool, code: u64) {
    reached.note(&format!("{name} refused by the mark alone"), code == 12 && mark > 1 && fits);
    if code == 0 {
        reached.add(&format!("{name} accepted {} hold", if mark == 1 { "under" } else { "without" }), 1);
    }
}

fn count_cycle(reached: &mut Reached, call: &Call, taken: u64, line: &str) {
    let last = call.held[Clock][0];
    count_reasons(reached, call, taken, line);
    if call.held.is_held() {
        reached.note("clock turned under hold", call.clock < last);
        reached.note(&format!("cycle accepted under hold{IN_2}"), call.held.is_second());
        count_held_cycle(reached, call, line);
    } else {
        count_clock(reached, last, call.clock);
        count_call(reached, call, line);
    }
}

fn count_held(reached: &mut Reached, call: &Call, line: &str) {
    let (numbers, mark) = (answered(line, 4), call.held[Hold][0]);
    let code = numbers[0];
    let name = CALLS[call.kind as usize];
    reached.answer(code, &format!("{name} accepted"));
    count_edition(reached, name, call.held.is_second(), call.by_edition, line);
    match call.fault {
        Some(late @ (8 | 9)) => reached.note(&format!("the edition's 5 before {late}"), code == 5),
        Some(early) => reached.note(&format!("{early} before the edition's 5"), code == early),
        None => {}
    }
    for edition in [0, 3, 255] {
        reached.note(&format!("edition {edition} refused"), code == 5 && call.by_edition && call.held[Edition][0] == edition);
    }
    // where the mark is none, it refuses the run whatever other field is above its limit; by an index the chart may have been altered since
    if let Some((field, above)) = call.limit.filter(|(field, _)| call.index.is_none() && (*field == Hold || mark < 2)) {
        count_limit(reached, call.kind, field, above, code);
    }
    if ![START, WEIGHING, INDEX].contains(&call.kind) {
        count_mark(reached, name, mark, call.fits, code);
    }
    call.index.iter().for_each(|index| count_cycle_by(reached, call, index, line));
    match call.kind {
        CYCLE if code == 11 => reached.note("cycle refused 11 under hold", mark == 1),
        HOLD | RELEASE => reached.note(&format!("{name} refused by the chart"), (4..=9).contains(&code)),
        INDEX => count_built(reached, call, line),
        _ if code > 0 || call.kind == CYCLE_BY => {}
        START => count_call(reached, &Call { held: call.held.still(), clock: 0, inputs: 0, index: None, ..*call }, line),
        CYCLE => count_cycle(reached, call, numbers[1], line),
        TALLY => count_tally(reached, &numbers[1..]),
        _ => reached.note("balanced", numbers[2] > 0),
    }
}

// An index that is built, by its words; and nothing but the chart is tested for it.
fn count_built(reached: &mut Reached, call: &Call, line: &str) {
    let numbers = answered(line, 65);
    let (held, code, words) = (&call.held, numbers[0], &numbers[1..]);
    if code > 0 {
        return reached.add(&format!("building refused {code}"), 1);
    }
    let shared = words.iter().enumerate().any(|(k, word)| words[..k].iter().any(|other| other & word != 0));
    reached.note("built of no transition", words.iter().all(|word| *word == 0));
    reached.note("built with a word of several transitions", words.iter().any(|word| word.count_ones() > 1));
    reached.note("built with a transition in several words", shared);
    reached.note("built of 64 steps", held.count(Steps) == 64);
    reached.note("built of 64 transitions", held.count(Transitions) == 64);
    reached.note("built beside a run that is none", held[Hold][0] > 1);
    reached.note("built with fewer than 32 outputs", call.lent < 32);
    reached.note("built too late", elapsed(call) > MINUTE as u64);
}

// A call by its number, and by each fault beside it that comes behind 15 and the chart's.
fn count_faults(reached: &mut Reached, name: &str, faults: &[u64], code: u64) {
    let said = match code {
        0 => "accepted".to_string(),
        4..=9 => "refused by the chart".to_string(),
        _ => format!("refused {code}"),
    };
    if code > 0 {
        reached.add(&format!("{name} {said}"), 1);
    }
    for fault in faults.iter().filter(|fault| **fault != code) {
        reached.add(&format!("{name} {said} with {fault}"), 1);
    }
}

// A call by an index so; of 20, by the way in which the index was made.
fn count_by(reached: &mut Reached, name: &str, index: &Leaving, faults: &[u64], code: u64) {
    count_faults(reached, name, faults, code);
    if code == 20 {
        let way = index.way.filter(|_| faults.contains(&20)).map_or("the chart itself", |way| WAYS[way]);
        reached.add(&format!("{name} refused 20 by {way}"), 1);
    }
}

// Whether the index is another chart's. That is no fault yet where 15 is the answer and the chart may be at fault too.
fn is_other(held: &Held, index: &Leaving, fits: bool, code: u64) -> bool {
    index.words != index_of(held, Sources) && (code != 15 || fits)
}

fn count_cycle_by(reached: &mut Reached, call: &Call, index: &Leaving, line: &str) {
    let numbers = answered(line, 2);
    let (held, code) = (&call.held, numbers[0]);
    let other_run = held[Hold][0] > 1 || call.limit.is_some_and(|(field, above)| above && field as usize >= RUN);
    let so = [(20, is_other(held, index, call.fits, code)), (12, other_run), (11, elapsed(call) > MINUTE as u64)];
    let faults: Vec<u64> = so.iter().filter(|(_, so)| *so).map(|(fault, _)| *fault).collect();
    count_by(reached, "cycle by index", index, &faults, code);
    if code == 0 {
        let so = if held.is_held() { "under" } else { "without" };
        reached.add(&format!("cycle by index accepted {so} hold in edition {}", held[Edition][0]), 1);
        count_consulted(reached, held, index, numbers[1], line);
    }
}

// An accepted cycle by the chart's index: the transitions that leave some active step, which it consults, and those that it does not.
fn count_consulted(reached: &mut Reached, held: &Held, index: &Leaving, taken: u64, line: &str) {
    let (active, all, edition) = (held[Active][0], numbers(held.count(Transitions)), format!(" in edition {}", held[Edition][0]));
    let consulted = members(active).iter().fold(0, |set, step| set | index.words[*step]);
    let reasons: Vec<&str> = line.split(' ').rev().take(64).collect();
    for reason in reasons.iter().filter(|reason| **reason != "0") {
        reached.add(&format!("reason {reason}{BY}{edition}"), 1);
    }
    if held.is_held() {
        return;
    }
    let mut note = |name: &str, so: bool| reached.note(&format!("{name}{edition}"), so);
    note("taken by index", taken != 0);
    note("two taken by index", taken.count_ones() > 1);
    note("several consulted", consulted.count_ones() > 1);
    note("several consulted of one step", members(active).iter().any(|step| index.words[*step].count_ones() > 1));
    note("none consulted", consulted == 0 && all != 0);
    note("all consulted", consulted == all && all != 0);
    note("some not consulted", consulted != all);
    note("taken beside some not consulted", taken != 0 && consulted != all);
    note("consulted by one source of two", members(consulted).iter().any(|t| held[Sources][*t] & !active != 0));
    // the last of the line's numbers is that of transition 63
    let kept = members(consulted).into_iter().filter(|t| ["2", "6"].contains(&reasons[63 - t]));
    note("kept by an earlier one that leaves a later step", kept.into_iter().any(|t| is_kept_by_later_step(held, taken, t)));
}

// Whether a transition taken before this one uses a source or claims a target of it, and leaves none but later steps than this one's first.
fn is_kept_by_later_step(held: &Held, taken: u64, t: usize) -> bool {
    let meets = |field: Field, earlier: usize| held[field][earlier] & held[field][t] != 0;
    let earlier = members(taken & numbers(t)).into_iter().filter(|earlier| meets(Sources, *earlier) || meets(Targets, *earlier));
    earlier.into_iter().any(|earlier| held[Sources][earlier].trailing_zeros() > held[Sources][t].trailing_zeros())
}

// By the number of lent bytes, where nothing else refuses a writing; of both editions, or of edition 2 once more by itself.
fn count_written(reached: &mut Reached, size: u64, lent: u64, edition: &str, line: &str) {
    let numbers = answered(line, 2);
    let (code, length) = (numbers[0], numbers[1]);
    if code == 0 || edition.is_empty() {
        reached.answer(code, &format!("written{edition}"));
    }
    reached.note(&format!("one byte too few{edition}"), code == 17 && lent == size - 1);
    reached.note(&format!("written into its length{edition}"), code == 0 && lent == length);
    reached.note(&format!("written into more{edition}"), code == 0 && lent > length);
    reached.note("written in 6,441 bytes", code == 0 && length == 6441);
}

// An adding by its number, with the faults that its lists have; a sum doesn't fit where both have a weight, and their lengths may be wrong too.
fn count_added(reached: &mut Reached, adding: &Adding, line: &str) {
    let (held, [first, second], numbers) = (&adding.held, &adding.lists, answered(line, 2 + adding.lent));
    let (code, step, sums) = (numbers[0], numbers[1], &numbers[2..]);
    let lengths = [first.len(), second.len(), adding.lent];
    let wrong: Vec<usize> = (0..3).filter(|list| lengths[*list] != held.count(Steps)).collect();
    let together: Vec<u64> = first.iter().zip(second).take(held.count(Steps)).map(|(first, second)| first + second).collect();
    let unfit: Vec<usize> = (0..together.len()).filter(|k| together[*k] > 65535).collect();
    let so = [(13, !wrong.is_empty()), (21, !unfit.is_empty())];
    let faults: Vec<u64> = so.iter().filter(|(_, so)| *so).map(|(fault, _)| *fault).collect();
    reached.answer(code, "adding accepted");
    count_edition(reached, "adding", held.is_second(), adding.by_edition, line);
    count_faults(reached, "adding", &faults, code);
    if ADDING_FAULTS.contains(&code) {
        reached.note(&format!("adding refused {code} without it"), !faults.contains(&code));
    }
    reached.note("adding names a step without 21", code != 21 && step > 0);
    reached.note("adding refused, and written", code > 0 && (0..).zip(sums).any(|(k, sum)| *sum != 50000 + k % 256));
    match (code, &wrong[..]) {
        (0, []) => count_sums(reached, adding, sums),
        (4..=9, _) => reached.add(&format!("adding refused {code}"), 1),
        (13, [list]) => {
            let length = if lengths[*list] > held.count(Steps) { "longer" } else { ["empty", "shorter"][lengths[*list].min(1)] };
            reached.add(&format!("adding refused 13 by the {} list alone, {length}", LISTS[*list]), 1);
        }
        (21, _) => count_unfit(reached, held, step, &unfit, &together),
        _ => {}
    }
}

// Whether each transition's sources weigh as much as its targets.
fn is_balanced(held: &Held, weights: &[u64]) -> bool {
    let sum = |set: u64| members(set).iter().map(|k| weights[*k]).sum::<u64>();
    (0..held.count(Transitions)).all(|t| sum(held[Sources][t]) == sum(held[Targets][t]))
}

// What was added; balanced ones where there are transitions, and neither is all zeros.
fn count_sums(reached: &mut Reached, adding: &Adding, sums: &[u64]) {
    let (held, lists) = (&adding.held, &adding.lists);
    let zeros = [0, 1].map(|k| lists[k].iter().all(|weight| *weight == 0));
    let balanced = [0, 1].map(|k| is_balanced(held, &lists[k]));
    let telling = held.count(Transitions) > 0 && zeros == [false; 2];
    reached.note("added balanced ones, unbalanced", balanced == [true; 2] && !is_balanced(held, sums));
    let mut note = |name: &str, so: bool| reached.note(&format!("{name} in edition {}", held[Edition][0]), so);
    note("added on one step", sums.len() == 1);
    note("added on two steps", sums.len() == 2);
    note("added on 64 steps", sums.len() == 64);
    note("added to 65,535", sums.contains(&65535));
    note("added zeros", zeros == [false, true]);
    note("added to zeros", zeros == [true, false]);
    note("added zeros to zeros", zeros == [true; 2]);
    note("added balanced ones", telling && balanced == [true; 2]);
    note("added unbalanced ones", telling && balanced == [false; 2]);
    note("added to a balanced one", telling && balanced == [true, false]);
    note("added beside a run that is none", held[Hold][0] > 1);
}

// Where sums don't fit, and by how much the first.
fn count_unfit(reached: &mut Reached, held: &Held, step: u64, unfit: &[usize], together: &[u64]) {
    let first = unfit.first().map(|k| *k as u64);
    reached.note("adding names another step", first != Some(step));
    let mut note = |name: &str, so: bool| reached.note(&format!("{name} in edition {}", held[Edition][0]), so);
    note("21 at the first step", step == 0);
    note("21 at the last step", step + 1 == held[Steps][0] && step > 0);
    note("21 at step 63", step == 63);
    note("21 at one step alone", unfit.len() == 1);
    note("21 at several steps", unfit.len() > 1);
    note("21 by 65,536", unfit.iter().take(1).any(|k| together[*k] == 65536));
    note("21 by more", unfit.iter().take(1).any(|k| together[*k] > 65536));
}

fn count_any_shift(reached: &mut Reached, shift: &Shift, line: &str) {
    let (held, length, mark) = (&shift.held, shift.lengths[0] as u64, shift.held[Hold][0]);
    if let Some(index) = &shift.index {
        return count_shift_by(reached, shift, index, line);
    }
    count_shift(reached, length, "", line);
    count_held_shift(reached, length, mark, shift.fits, line);
    count_edition(reached, "shift", held.is_second(), shift.by_edition, line);
    if held.is_second() {
        count_shift(reached, length, IN_2, line);
        count_second_shift(reached, held, line);
    }
}

// A shift by an index, apart from the others; one that leaves other steps active took a transition.
fn count_shift_by(reached: &mut Reached, shift: &Shift, index: &Leaving, line: &str) {
    let (held, [many, inputs, words], numbers) = (&shift.held, shift.lengths, answered(line, 4));
    let (code, accepted, edition) = (numbers[0], numbers[1], held[Edition][0]);
    let uneven = many != inputs || many != words || many > 4096;
    let so = [(20, is_other(held, index, shift.fits, code)), (12, held[Hold][0] > 1), (18, uneven), (11, shift.late)];
    let faults: Vec<u64> = so.iter().filter(|(_, so)| *so).map(|(fault, _)| *fault).collect();
    reached.answer(code, "shifts by index accepted");
    count_by(reached, "shift by index", index, &faults, code);
    count_shift(reached, many as u64, BY, line);
    count_mark(reached, "shift by index", held[Hold][0], shift.fits, code);
    count_edition(reached, "shift by index", held.is_second(), shift.by_edition, line);
    if code == 0 && accepted > 0 {
        let so = if held.is_held() { "under" } else { "without" };
        reached.add(&format!("shift by index accepted {so} hold in edition {edition}"), 1);
        reached.note(&format!("moved by a shift by index in edition {edition}"), numbers[3] != held[Active][0]);
    }
}

// A length is counted where it was judged: 18 comes behind 15, the chart's numbers and 12. Of both editions, or of edition 2 once more by itself; and
// apart from both by an index.
fn count_shift(reached: &mut Reached, length: u64, edition: &str, line: &str) {
    let numbers = answered(line, 2);
    let (code, accepted) = (numbers[0], numbers[1]);
    if edition.is_empty() {
        reached.answer(code, "shifts accepted");
        reached.add("cycles of shifts", accepted);
    }
    reached.note(&format!("shift refused nowhere{edition}"), code == 0 && length > 0);
    if code == 11 && length > 1 {
        reached.note(&format!("shift refused at its beginning{edition}"), accepted == 0);
        reached.note(&format!("shift refused in its middle{edition}"), 0 < accepted && accepted < length - 1);
        reached.note(&format!("shift refused at its end{edition}"), accepted == length - 1);
    }
    if [0, 1, 4096, 4097].contains(&length) && (code == 18) == (length > 4096) && [0, 11, 18].contains(&code) {
        reached.add(&format!("shift of {length}{edition}"), 1);
    }
}

// A shift by the mark that it begins with; one of no cycle says nothing of it but whether it is refused.
fn count_held_shift(reached: &mut Reached, length: u64, mark: u64, fits: bool, line: &str) {
    let numbers = answered(line, 2);
    let (code, accepted) = (numbers[0], numbers[1]);
    if code == 12 || length > 0 {
        count_mark(reached, "shift", mark, fits, code);
    }
    if mark == 1 && [0, 11].contains(&code) {
        reached.note("shift of 4096 under hold", length == 4096);
        reached.note("shift refused in its middle under hold", 0 < accepted && accepted + 1 < length);
    }
}

// What a caller sees after a call of a run.
struct Seen {
    code: u64,
    accepted: u64,
    active: u64,
    stored: u64,
    counters: [u64; 64],
}

// The calls of a line, in their order. The counters that are not 0 stand as k:n behind a c.
fn seen(entries: &[Entry], line: &str) -> Vec<Seen> {
    let mut words = line.split(' ').peekable();
    let mut calls = Vec::new();
    for entry in entries {
        let mut number = || words.next().and_then(|word| word.parse().ok()).expect("a number");
        let (code, accepted) = (number(), if *entry == Entry::Cycles { number() } else { 0 });
        let (active, stored, mut counters) = (number(), number(), [0; 64]);
        assert_eq!(words.next(), Some("c"));
        while let Some((k, n)) = words.peek().and_then(|word| word.split_once(':')) {
            counters[k.parse::<usize>().expect("a step")] = n.parse().expect("a counter");
            words.next();
        }
        calls.push(Seen { code, accepted, active, stored, counters });
    }
    calls
}

// Of an accepted start or cycle: what the blocks of active steps did to their actions, which were stored before or not.
fn deeds(held: &Held, first: bool, under: bool, before: u64, call: &Seen) -> Vec<String> {
    let on: Vec<usize> = (0..held.count(Blocks)).filter(|k| has(call.active, held[BlockStep][*k])).collect();
    let reset = on.iter().filter(|k| held[Qualifier][**k] == R).fold(0, |set, k| set | 1 << held[BlockAction][*k]);
    let (mut set, mut names) = (0, Vec::new());
    let mut note = |so: bool, name: String| names.extend(so.then_some(name));
    for k in on {
        let (action, q, duration) = (held[BlockAction][k], held[Qualifier][k], held[Duration][k]);
        let counter = call.counters[held[BlockStep][k] as usize];
        let (was, is, beside) = (has(before, action), has(call.stored, action), has(reset, action));
        let sets = q == S || q == DS && counter >= duration;
        set |= u64::from(sets) << action;
        note(q == R, format!("reset where {}", if was { "stored" } else { "not stored" }));
        note(sets && beside && !is, format!("not set by {} beside R", NAMES[q as usize]));
        note(sets && first, format!("{} at the start", if is { "set" } else { "not set beside R" }));
        note(q == S && is && !was, "newly set by S".to_string());
        note(q == DS && is && !was && sets, format!("newly set by DS {}", if counter > duration { "above it" } else { "at its duration" }));
        note(q == DS && !is && counter + 1 == duration, format!("not set by DS one ms before{}", if under { " under hold" } else { "" }));
    }
    note(call.stored & !set != 0, "stored beyond its step".to_string());
    names
}

// Of any call but an accepted start or cycle: what was stored over it, and what a shift changed.
fn stored_over(entry: Entry, before: u64, call: &Seen) -> Vec<String> {
    let kept = call.stored & before != 0;
    let named: &[(bool, &str)] = match entry {
        Entry::Cycles if call.accepted > 0 => {
            let stopped = if call.code == 0 { "shift" } else { "stopped shift" };
            let changed = [(call.stored & !before, "sets"), (before & !call.stored, "resets"), (before & call.stored, "keeps")];
            return changed.iter().filter(|(set, _)| *set != 0).map(|(_, what)| format!("{stopped} {what}")).collect();
        }
        Entry::Turn(_) if call.code == 0 => &[(kept, "stored over a turn of the key")],
        _ => &[(kept && call.code != 0, "stored over a refused call")],
    };
    named.iter().filter(|(so, _)| *so).map(|(_, name)| name.to_string()).collect()
}

// A run of calls of a chart that was read.
fn count_stored_run(reached: &mut Reached, held: &Held, entries: &[Entry], line: &str) {
    let (mut before, mut lost, mut under) = (0, 0, false);
    for (entry, call) in entries.iter().zip(&seen(entries, line)) {
        let names = match entry {
            Entry::Start | Entry::Cycle if call.code == 0 => {
                let mut names = deeds(held, *entry == Entry::Start, under, before, call);
                names.extend((under && before & call.stored != 0).then(|| "stored over a cycle under hold".to_string()));
                names.extend((call.stored & !before & lost != 0).then(|| "stored again after a reset".to_string()));
                names
            }
            _ => stored_over(*entry, before, call),
        };
        for name in names {
            reached.note(&format!("{name}{IN_2}"), held.is_second());
            reached.add(&name, 1);
        }
        if let (Entry::Turn(mark), 0) = (entry, call.code) {
            under = *mark;
        }
        (lost, before) = (lost | before & !call.stored, call.stored);
    }
}

// What is counted of a text that is accepted: its tokens by their roles, names, qualifiers and durations, and the white space.
fn what_it_has(chart: &TextChart, made: &Spelled) -> BTreeSet<String> {
    let mut has: BTreeSet<String> = made.tokens.iter().map(|(_, role)| format!("text with {role}")).collect();
    for (k, (_, role)) in made.tokens.iter().enumerate() {
        let token = made.token(k);
        if *role == "a duration" {
            let (head, digits) = token.split_once('#').expect("a duration");
            let (digits, unit) = digits.split_at(digits.len() - 2);
            has.extend([format!("text with {head}#"), format!("text with unit {unit}")]);
            has.extend(["0", "86400000"].contains(&digits).then(|| format!("text with duration {digits}")));
        } else if *role == "a qualifier" || TEXT_NAMES.contains(&token) {
            has.insert(format!("text with {token}"));
        }
        if k + 1 < made.tokens.len() {
            let words = [k, k + 1].iter().all(|k| made.token(*k).starts_with(|first: char| first.is_ascii_alphabetic()));
            has.insert(match (made.gap(k), words) {
                ([], _) => "text with nothing beside a sign".to_string(),
                ([byte], true) => format!("text with byte {byte} between words"),
                ([byte], false) => format!("text with byte {byte} beside a sign"),
                _ => "text with several blanks".to_string(),
            });
        }
    }
    let (first, last) = (&made.tokens[0].0, &made.tokens[made.tokens.len() - 1].0);
    let white = first.start > 0 || last.end < made.bytes.len() || has.contains("text with several blanks");
    has.extend(white.then(|| "text with white space".to_string()));
    has.extend((first.start > 0).then(|| "text with white space before it".to_string()));
    has.extend((last.end < made.bytes.len()).then(|| "text with white space behind it".to_string()));
    has.extend(what_it_says(chart).into_iter().map(str::to_string));
    has
}

fn is_twice<T: PartialEq>(these: &[T]) -> bool {
    (1..these.len()).any(|k| these[..k].contains(&these[k]))
}

fn what_it_says(TextChart { steps, transitions }: &TextChart) -> Vec<&'static str> {
    let blocks: Vec<&TextBlock> = steps.iter().flat_map(|step| &step.blocks).collect();
    let lists: Vec<&Vec<usize>> = transitions.iter().flat_map(|transition| &transition.lists).collect();
    let inputs: Vec<&[(bool, usize)]> = transitions.iter().map(|transition| &transition.inputs[..]).collect();
    let behind_not = |list: &&[(bool, usize)]| list.windows(2).any(|two| two[0].0 && !two[1].0);
    let so = [
        (blocks.iter().any(|block| block.qualifier.is_none()), "text with no qualifier"),
        (lists.iter().any(|list| list.len() == 2), "text with a list of two"),
        (lists.iter().any(|list| list.len() > 2), "text with a list of more"),
        (lists.iter().any(|list| is_twice(list)), "text with a name twice in a list"),
        (inputs.iter().any(|list| is_twice(list)), "text with an input twice"),
        (inputs.iter().any(behind_not), "text with a plain input behind a NOT"),
        (inputs.iter().any(|list| list.len() > 32), "text with more than 32 inputs"),
        (steps.len() == 1, "text with one step"),
        (steps.len() == 64, "text with 64 steps"),
        (steps.len() == 65, "text with 65 steps"),
        (steps[1..].iter().any(|step| step.initial), "text with a later initial step"),
        (transitions.is_empty(), "text without transitions"),
        (transitions.len() == 64, "text with 64 transitions"),
        (blocks.len() == 256, "text with 256 blocks"),
    ];
    so.into_iter().filter(|(so, _)| *so).map(|(_, name)| name).collect()
}

// The first of a chart's faults: by their order, but of those of transitions that of the first transition.
fn first_fault(faults: &[TextFault]) -> Option<TextFault> {
    faults
        .iter()
        .copied()
        .min_by_key(|(fault, t)| if OF_TRANSITIONS.contains(fault) { (OF_TRANSITIONS.start, *t, *fault) } else { (*fault, None, 0) })
}

fn count_text(reached: &mut Reached, case: &TextCase, line: &str) {
    let numbers = answered(line, 2);
    let (code, place) = (numbers[0], numbers[1] as usize);
    reached.add(&if code == 0 { "texts accepted".to_string() } else { format!("text refused {code}") }, 1);
    reached.note("text refused at a place without 19 and 25", place > 0 && code != 19 && code != 25);
    if code == 19 {
        reached.add(if place == case.size { "text refused 19 at its end" } else { "text refused 19 within" }, 1);
    }
    reached.note("text accepted of more than 65,536 bytes", code == 0 && case.size > 65_536);
    reached.note("text refused 19 behind 65,536 bytes", code == 19 && place > 65_536);
    reached.note("text refused 25 behind 65,536 bytes", code == 25 && place > 65_536);
    match case.way {
        Some(way) => {
            reached.note(&format!("text refused 19 by {}", DAMAGES[way]), code == 19);
            reached.note("text damaged, and accepted", code == 0);
            for (fault, _) in case.faults.iter().filter(|_| code == 19 && way == BEHIND_THE_LAST) {
                reached.add(&format!("text refused 19 with {}", TEXT_FAULTS[*fault].0), 1);
            }
        }
        None => count_text_faults(reached, case, code),
    }
    case.has.iter().filter(|_| code == 0).for_each(|name| reached.add(name, 1));
}

// By the first fault of a text that is not damaged, and by each behind it.
fn count_text_faults(reached: &mut Reached, case: &TextCase, code: u64) {
    let Some((first, t)) = first_fault(&case.faults) else {
        return reached.note("text refused by another fault", code != 0);
    };
    let (name, number) = TEXT_FAULTS[first];
    reached.note("text refused by another fault", code != number);
    reached.note(&format!("text refused by {name}"), case.faults.len() == 1);
    reached.note("text refused 25 with 65 steps", number == 25 && case.has.contains("text with 65 steps"));
    for (fault, other) in case.faults.iter().filter(|other| **other != (first, t)) {
        let which = match (t, other) {
            (Some(t), Some(other)) if t == *other => " in one transition",
            (Some(_), Some(_)) => " in a later transition",
            _ => "",
        };
        reached.add(&format!("text refused by {name} with {}{which}", TEXT_FAULTS[*fault].0), 1);
    }
}

fn count_short_text(reached: &mut Reached, made: &Spelled, change: &Change, line: &str) {
    let numbers = answered(line, 2);
    let (code, at) = (numbers[0], numbers[1] as usize);
    match *change {
        Change::Cut(size) => {
            reached.note(&format!("text cut in {}", made.role_at(size)), code == 19 && at == size);
            reached.note("text cut, and one still", code != 19);
            reached.note("text refused before its cut", code == 19 && at < size);
        }
        Change::Replaced(place) => {
            reached.note(&format!("text replaced in {}", made.role_at(place)), code == 19 && at == place);
            reached.note("text replaced, and one still", code != 19);
            reached.note("text replaced, and refused behind it", code == 19 && at > place);
            reached.note("text refused before what was replaced", code == 19 && at < place);
        }
        Change::Other => {}
    }
}

// Of a cycle that took nothing. An earlier transition that uses or claims a step is taken, so 2 and 6 stand in none; in edition 2 neither does 5.
fn count_second(reached: &mut Reached, held: &Held, line: &str) {
    reached.note("empty second lines", line.is_empty());
    for digit in line.chars() {
        reached.add(&format!("printed reason {digit}"), 1);
        reached.note(&format!("printed reason {digit}{IN_2}"), held.is_second());
    }
}

// A printed call of edition 2, from these steps.
fn count_second_printed(reached: &mut Reached, held: &Held, active: u64, taken: u64) {
    let Moves { left, targets, .. } = moves(held, taken);
    reached.add(&format!("printed calls{IN_2}"), 1);
    reached.note("printed step left and entered", left & targets != 0);
    reached.note("printed target that stays", targets & active & !left != 0);
}

fn count_printed(reached: &mut Reached, case: &Printing, printed: &str) {
    let (mut before, mut last) = ((0, 0), None);
    let accepted = !printed.starts_with("refused chart");
    let held = Held::of(case.file.as_deref().filter(|_| accepted).unwrap_or(&[0; 4]));
    let (mut lines, mut number) = (printed.lines(), 0);
    while let Some(line) = lines.next() {
        let words: Vec<&str> = line.split(' ').collect();
        if words.contains(&"refused") {
            reached.add(&format!("refused {}", words[words.len() - 1]), 1);
        } else if words[0] == "passed" {
            count_tally(reached, &[1, 3, 5].map(|k| words[k].parse().expect("a count")));
        } else {
            let [active, activity, taken] = [1, 2, 3].map(|k| u64::from_str_radix(words[k], 16).expect("a set"));
            let clock = number_at(&case.trace, if number > 0 { 12 * number } else { 4 }, 4);
            reached.add("accepted calls", 1);
            last.into_iter().for_each(|last| count_clock(reached, last, clock));
            count_moves(reached, &held, taken);
            count_actions(reached, &held, before, (active, activity));
            if held.is_second() {
                count_second_printed(reached, &held, before.0, taken);
            }
            (before, last) = ((active, activity), Some(clock));
            if number > 0 && taken == 0 {
                count_second(reached, &held, lines.next().expect("a second line"));
            }
        }
        number += 1;
    }
}

// ---------------------------------------------------------------------------------------------
// The comparison
// ---------------------------------------------------------------------------------------------

// What the command line asks for.
struct Asked {
    seed: u64,
    cases: u64,
    folder: PathBuf,
    second: String,
    driver: Vec<String>,
    bench_runs: Vec<Vec<String>>,
}

// A case that the two answer differently, with the request as the second implementation takes it.
struct Difference {
    number: u64,
    request: Vec<u8>,
    engine: String,
    second: String,
}

// What a comparison of some cases finds.
type Found = Result<Reached, Difference>;

// What is answered by lines: how many cases for each that is asked for, and what the driver and the second implementation call it. The driver
// takes the length of a file in two bytes, the second implementation in four; a call on what is held has no length.
struct Part {
    what: &'static str,
    times: u64,
    driver: &'static str,
    second: &'static str,
    lengths: [usize; 2],
    // so many cases in a row have the same random numbers
    alike: u64,
    make: fn(&Rng, u64) -> Case,
}

const PARTS: [Part; 9] = [
    Part { what: "files read", times: 1, driver: "read_charts", second: "read", lengths: [2, 4], alike: 1, make: read_case },
    Part { what: "files written back", times: 1, driver: "write_back", second: "back", lengths: [2, 4], alike: 1, make: back_case },
    Part { what: "held calls", times: 5, driver: "held_calls", second: "held", lengths: [0, 0], alike: 1, make: held_case },
    Part { what: "held charts written", times: 1, driver: "held_calls", second: "held", lengths: [0, 0], alike: 1, make: writing_case },
    Part { what: "shifts", times: 1, driver: "held_calls", second: "held", lengths: [0, 0], alike: 1, make: shift_case },
    Part { what: "weighings added", times: 1, driver: "held_calls", second: "held", lengths: [0, 0], alike: 1, make: adding_case },
    Part { what: "runs of calls", times: 1, driver: "stored_runs", second: "stored", lengths: [0, 0], alike: 1, make: stored_case },
    Part { what: "texts read", times: 2, driver: "read_texts", second: "texts", lengths: [4, 4], alike: 1, make: text_case },
    Part { what: "texts changed", times: 10, driver: "read_texts", second: "texts", lengths: [4, 4], alike: OF_ONE, make: short_text_case },
];

// So many cases are made, answered and compared at a time: enough that starting two programs costs little, few enough for the memory, since the
// second implementation reads all of them before it answers.
const BATCH: u64 = 2000;
// Each printed run is a program of its own.
const PRINTED_BATCH: u64 = 25;

// What a program writes; an error of its own stands behind it, and so differs.
fn run(command: &[&str], folder: &Path, input: &[u8]) -> Vec<u8> {
    let mut program = Command::new("timeout");
    program.arg("300").args(command).current_dir(folder).stdin(Stdio::piped()).stdout(Stdio::piped()).stderr(Stdio::piped());
    let mut child = program.spawn().expect("the program 'timeout'");
    let stdin = child.stdin.take();
    thread::scope(|scope| {
        // where a program stops reading, its answer shows it
        scope.spawn(move || stdin.map(|mut stdin| stdin.write_all(input)));
        let mut done = child.wait_with_output().expect("what a program writes");
        if !done.status.success() || !done.stderr.is_empty() {
            done.stdout.extend(format!("{}: {}", done.status, String::from_utf8_lossy(&done.stderr)).bytes());
        }
        done.stdout
    })
}

fn text(bytes: &[u8]) -> String {
    String::from_utf8_lossy(bytes).into_owned()
}

// Each behind its length.
fn framed<'a>(requests: impl Iterator<Item = &'a Vec<u8>>, width: usize) -> Vec<u8> {
    let mut bytes = Vec::new();
    for request in requests {
        put(&mut bytes, request.len() as u64, width);
        bytes.extend_from_slice(request);
    }
    bytes
}

// What both write for these cases: a line for each, and what stands behind the last.
fn both_answer(asked: &Asked, part: &Part, cases: &[Case]) -> [Vec<String>; 2] {
    let [ours, theirs] = part.lengths.map(|width| framed(cases.iter().map(|case| &case.request), width));
    let driver: Vec<&str> = asked.driver.iter().map(String::as_str).chain([part.driver]).collect();
    let written = thread::scope(|scope| {
        let by_engine = scope.spawn(|| run(&driver, Path::new("."), &ours));
        let by_second = run(&[&asked.second, part.second], Path::new("."), &theirs);
        [by_engine.join().expect("what the driver writes"), by_second]
    });
    written.map(|bytes| {
        let mut lines: Vec<String> = text(&bytes).splitn(cases.len() + 1, '\n').map(str::to_string).collect();
        lines.resize(cases.len() + 1, String::new());
        lines
    })
}

// These cases through both. No line for a case, or something behind the last line, is a difference even where both write so.
fn compare_lines(asked: &Asked, part: &Part, numbers: Range<u64>) -> Found {
    let of = |number: u64| (part.make)(&Rng::of(part.what, asked.seed, number / part.alike), number);
    let cases: Vec<Case> = numbers.clone().map(of).collect();
    let [ours, theirs] = both_answer(asked, part, &cases);
    let mut reached = Reached::default();
    for (k, case) in cases.into_iter().map(Some).chain([None]).enumerate() {
        if ours[k] != theirs[k] || ours[k].is_empty() != case.is_none() {
            let request = framed(case.iter().map(|case| &case.request), part.lengths[1]);
            return Err(Difference { number: numbers.start + k as u64, request, engine: ours[k].clone(), second: theirs[k].clone() });
        }
        case.into_iter().for_each(|case| (case.count)(&mut reached, &ours[k]));
    }
    Ok(reached)
}

// A file and a trace as the second implementation takes them; a length of 2^32 - 1 says that there is no file.
fn printing_request(case: &Printing) -> Vec<u8> {
    let file = if case.file.is_some() { framed(case.file.iter(), 4) } else { vec![255; 4] };
    [file, framed([&case.trace].into_iter(), 4)].concat()
}

// What the second implementation prints for each case, which it writes behind its length.
fn printed_by_second(asked: &Asked, cases: &[Printing]) -> Vec<String> {
    let requests: Vec<u8> = cases.iter().flat_map(printing_request).collect();
    let written = run(&[&asked.second, "print"], Path::new("."), &requests);
    let (mut left, mut printed) = (&written[..], Vec::new());
    while left.len() >= 4 {
        let (one, behind) = left[4..].split_at((number_at(left, 0, 4) as usize).min(left.len() - 4));
        printed.push(text(one));
        left = behind;
    }
    printed.resize(cases.len(), String::new());
    printed
}

// What a bench_run prints, in a folder with the chart's file.
fn printed_by_engine(words: &[String], folder: &Path, case: &Printing) -> String {
    let place = folder.join("chart.bin");
    match &case.file {
        Some(file) => fs::write(place, file).expect("a file chart.bin"),
        None => drop(fs::remove_file(place)),
    }
    let words: Vec<&str> = words.iter().map(String::as_str).collect();
    text(&run(&words, folder, &case.trace))
}

fn compare_printed(asked: &Asked, numbers: Range<u64>) -> Found {
    let cases: Vec<Printing> = numbers.clone().map(|number| print_case(&Rng::of("printed runs", asked.seed, number), number)).collect();
    let folder = asked.folder.join(numbers.start.to_string());
    fs::create_dir(&folder).expect("a folder for chart.bin");
    let mut reached = Reached::default();
    for ((number, case), second) in numbers.zip(&cases).zip(printed_by_second(asked, &cases)) {
        for words in &asked.bench_runs {
            let engine = printed_by_engine(words, &folder, case);
            if engine != second {
                return Err(Difference { number, request: printing_request(case), engine, second });
            }
        }
        count_printed(&mut reached, case, &second);
    }
    Ok(reached)
}

// Batches in their order, each by the next worker that is free. What is begun is ended, so the difference of least number is always found.
fn in_batches(many: u64, size: u64, compare: impl Fn(Range<u64>) -> Found + Sync) -> Found {
    let (next, differs) = (AtomicU64::new(0), AtomicBool::new(false));
    let work = || {
        let mut found = Vec::new();
        while !differs.load(Ordering::SeqCst) {
            let first = next.fetch_add(size, Ordering::SeqCst);
            if first >= many {
                break;
            }
            let one = compare(first..many.min(first + size));
            differs.fetch_or(one.is_err(), Ordering::SeqCst);
            found.push(one);
        }
        found
    };
    let found: Vec<Found> = thread::scope(|scope| {
        let workers: Vec<_> = (0..thread::available_parallelism().map_or(1, usize::from)).map(|_| scope.spawn(work)).collect();
        workers.into_iter().flat_map(|worker| worker.join().expect("a worker")).collect()
    });
    let (mut reached, mut differences) = (Reached::default(), Vec::new());
    for one in found {
        one.map_or_else(|difference| differences.push(difference), |more| reached.add_all(&more));
    }
    differences.into_iter().min_by_key(|difference| difference.number).map_or(Ok(reached), Err)
}

fn fail(said: &str) -> ! {
    eprintln!("compare: {said}");
    exit(1)
}

// So many cases of one kind; the first difference ends the program, and its request is kept beside the second implementation.
fn compare(asked: &Asked, what: &str, many: u64, size: u64, batch: impl Fn(Range<u64>) -> Found + Sync) -> Reached {
    let begun = Instant::now();
    let Difference { number, request, engine, second } = match in_batches(many, size, batch) {
        Err(difference) => difference,
        Ok(reached) => {
            println!("{many} {what}: no difference ({:.1} s)", begun.elapsed().as_secs_f32());
            return reached;
        }
    };
    let kept = Path::new(&asked.second).with_file_name("case");
    fs::write(&kept, request).expect("a file for the request");
    let place = engine.bytes().zip(second.bytes()).take_while(|(ours, theirs)| ours == theirs).count();
    eprintln!("engine:\n{}\nsecond implementation:\n{}", around(&engine, place), around(&second, place));
    let named = format!("seed {}, {what}: case {number} differs from byte {place} on", asked.seed);
    fail(&format!("{named}; the second implementation's input for it is {}", kept.display()))
}

// An answer; of a long one what stands around this place.
fn around(answer: &str, place: usize) -> String {
    let end = answer.len().min(place + 1500);
    text(&answer.as_bytes()[place.saturating_sub(500).min(end)..end])
}

// How often each thing was reached, in lines of at most 140 characters.
fn print_reached(reached: &Reached, needed: &[String]) {
    let mut line = String::new();
    for name in needed.iter().chain(reached.0.keys().filter(|name| !needed.contains(name))) {
        let item = format!("{name}: {}; ", reached.of(name));
        if line.len() + item.len() > 140 {
            println!("{}", line.trim_end());
            line.clear();
        }
        line += &item;
    }
    println!("{}", line.trim_end_matches("; "));
}

fn asked() -> Option<Asked> {
    let words: Vec<String> = env::args().skip(1).collect();
    match words.split(|word| word == "--").collect::<Vec<_>>()[..] {
        [[seed, cases, folder, second], driver, ref bench_runs @ ..] => Some(Asked {
            seed: seed.parse().ok()?,
            cases: cases.parse().ok()?,
            folder: PathBuf::from(folder),
            second: second.clone(),
            driver: driver.to_vec(),
            bench_runs: bench_runs.iter().map(|words| words.to_vec()).collect(),
        }),
        _ => None,
    }
}

fn main() {
    let asked = asked().unwrap_or_else(|| fail("the head of tests/cases.rs says what it takes"));
    let mut reached = Reached::default();
    for part in &PARTS {
        let batch = |numbers| compare_lines(&asked, part, numbers);
        reached.add_all(&compare(&asked, part.what, part.times * asked.cases, BATCH, batch));
    }
    let batch = |numbers| compare_printed(&asked, numbers);
    reached.add_all(&compare(&asked, "printed runs", (asked.cases / 20).max(1), PRINTED_BATCH, batch));
    let needed = needed();
    print_reached(&reached, &needed);
    let missing: Vec<String> = needed.into_iter().filter(|name| reached.of(name) == 0).collect();
    if !missing.is_empty() {
        fail(&format!("seed {} never reached: {}", asked.seed, missing.join(", ")));
    }
    let wrong: Vec<String> = never().into_iter().filter(|name| reached.of(name) > 0).collect();
    if !wrong.is_empty() {
        fail(&format!("seed {} reached what cannot be: {}", asked.seed, wrong.join(", ")));
    }
}
