// A second engine for the chart, its cycle and its tally, written from document 01 alone, with the
// writer of charts from request (i) of document 02, the rule for P from request (ii), the whole
// shift in one call from request (iii), the charts in the textual form from request (iv), the
// reasons why a transition waits from request (vi), the hold key from request (vii), the second
// edition of the stepping rule from request (viii), the index of leaving transitions from request
// (ix), the adding of weighings from request (x) and the sentence on stored actions from request
// (xi). No other request of document 02 is followed. For request (iv) its page GRAMMAR.md is
// followed too, "the subset's grammar, written into docs/ first", with its productions, what a text
// says and its answers. Words in quotation marks above a function are sentences of document 01, or
// of request (i), (ii), (iii), (iv), (vi), (vii), (viii), (ix), (x) or (xi) or of GRAMMAR.md where
// that is said. A function that only serves the command line says so instead, since none of them
// speaks of that. A cycle or a shift with an index consults all transitions, as one without: that
// the index changes no answer is what request (ix) claims. The cycle that consults fewer is in the
// selftest alone, which compares the two. Nor does request (xi) change an answer: its sentence is
// worked out from a history of the calls, beside the stored actions that the run keeps, and the
// selftest compares the two. The place of refusal 19 is found by one way through the productions,
// byte by byte; the selftest compares it with the place that all ways at once give, by productions
// that stand there as a value.

use std::collections::BTreeSet;
use std::io::{Read, Write};

// ---------------------------------------------------------------------------------------------
// Sets, numbers and tables
// ---------------------------------------------------------------------------------------------

type Set = BTreeSet<usize>;
type Code = u64;

// "Waits and durations are at most 86,400,000." "... stopping at 86,400,000."
const LONGEST: u32 = 86_400_000;

// "64-bit sets, bit k is number k"
fn set_of(word: u64) -> Set {
    (0..64).filter(|k| (word >> *k) & 1 == 1).collect()
}

// "64-bit sets, bit k is number k" (the way back)
fn word_of(set: &Set) -> u64 {
    let mut word = 0;
    for k in set.iter().filter(|k| **k < 64) {
        word |= 1u64 << *k;
    }
    word
}

// "... each numbered from 0 in file order." (the numbers that exist where there are `count`)
fn numbers(count: usize) -> Set {
    (0..count).collect()
}

// "all little-endian" (nothing if the bytes are too few)
fn number(bytes: &[u8], place: usize, width: usize) -> Option<u64> {
    let end = place.checked_add(width)?;
    let field = bytes.get(place..end)?;
    let mut value: u64 = 0;
    for byte in field.iter().rev() {
        value = (value << 8) | u64::from(*byte);
    }
    Some(value)
}

// "... each numbered from 0 ..." (entry k of a table)
fn at<T: Copy + Default>(table: &[T], k: usize) -> T {
    table.get(k).copied().unwrap_or_default()
}

// "... each numbered from 0 ..." (writing entry k of a table)
fn put<T>(table: &mut [T], k: usize, value: T) {
    if let Some(entry) = table.get_mut(k) {
        *entry = value;
    }
}

// Bytes taken field by field, from the first to the last.
struct Fields<'a> {
    bytes: &'a [u8],
    place: usize,
}

impl<'a> Fields<'a> {
    // "a two-byte body length, a two-byte kind, the body" (fields stand one after the other)
    fn new(bytes: &'a [u8]) -> Fields<'a> {
        Fields { bytes, place: 0 }
    }

    // "all little-endian" (the next field of this width)
    fn take(&mut self, width: usize) -> Option<u64> {
        let value = number(self.bytes, self.place, width)?;
        self.place += width;
        Some(value)
    }

    // For the command line: the next `length` bytes.
    fn slice(&mut self, length: usize) -> Option<&'a [u8]> {
        let end = self.place.checked_add(length)?;
        let slice = self.bytes.get(self.place..end)?;
        self.place = end;
        Some(slice)
    }

    // For the command line: the next `count` fields of this width.
    fn column(&mut self, count: usize, width: usize) -> Option<Vec<u64>> {
        (0..count).map(|_| self.take(width)).collect()
    }
}

// ---------------------------------------------------------------------------------------------
// The chart
// ---------------------------------------------------------------------------------------------

#[derive(Clone, Copy, PartialEq)]
enum Qualifier {
    N,
    R,
    S,
    L,
    D,
    P,
    SD,
    DS,
    SL,
    P1,
    P0,
}

// "Qualifiers: 0 N, 1 R, 2 S, 3 L, 4 D, 5 P, 6 SD, 7 DS, 8 SL, 9 P1, 10 P0."
fn qualifier_of(number: u8) -> Option<Qualifier> {
    match number {
        0 => Some(Qualifier::N),
        1 => Some(Qualifier::R),
        2 => Some(Qualifier::S),
        3 => Some(Qualifier::L),
        4 => Some(Qualifier::D),
        5 => Some(Qualifier::P),
        6 => Some(Qualifier::SD),
        7 => Some(Qualifier::DS),
        8 => Some(Qualifier::SL),
        9 => Some(Qualifier::P1),
        10 => Some(Qualifier::P0),
        _ => None,
    }
}

// "L, D, SD, DS and SL are timed and may have duration 0; the others must have duration 0."
fn is_timed(qualifier: Qualifier) -> bool {
    match qualifier {
        Qualifier::L | Qualifier::D | Qualifier::SD | Qualifier::DS | Qualifier::SL => true,
        Qualifier::N | Qualifier::R | Qualifier::S => false,
        Qualifier::P | Qualifier::P1 | Qualifier::P0 => false,
    }
}

#[derive(Clone, PartialEq)]
struct Step {
    initial: u8,
}

#[derive(Clone, PartialEq)]
struct Action {
    output: u8,
    value: i32,
}

#[derive(Clone, PartialEq)]
struct Transition {
    sources: Set,
    targets: Set,
    on: Set,
    off: Set,
    wait: u32,
}

#[derive(Clone, PartialEq)]
struct Block {
    step: usize,
    action: usize,
    qualifier: u8,
    duration: u32,
}

#[derive(Clone, PartialEq)]
struct Case {
    step: usize,
    signal: usize,
    expected: u8,
}

// A chart whose tables end at its counts. Request (viii): "A held chart says 1 or 2." (a byte, so
// that another can be given; an all-zero chart says 0)
#[derive(Clone, Default, PartialEq)]
struct Chart {
    steps: Vec<Step>,
    actions: Vec<Action>,
    transitions: Vec<Transition>,
    blocks: Vec<Block>,
    cases: Vec<Case>,
    edition: u8,
}

#[derive(Clone)]
struct Counts {
    steps: u64,
    actions: u64,
    transitions: u64,
    blocks: u64,
    cases: u64,
}

// A chart as a caller holds it: any counts, and tables that may go on beyond them.
#[derive(Clone)]
struct Held {
    counts: Counts,
    tables: Chart,
}

// "A chart held by a caller may have been altered." (a chart before anybody alters it)
fn hold(chart: &Chart) -> Held {
    let counts = Counts {
        steps: chart.steps.len() as u64,
        actions: chart.actions.len() as u64,
        transitions: chart.transitions.len() as u64,
        blocks: chart.blocks.len() as u64,
        cases: chart.cases.len() as u64,
    };
    Held { counts, tables: chart.clone() }
}

// ---------------------------------------------------------------------------------------------
// Tests of one record and of the whole chart
// ---------------------------------------------------------------------------------------------

// "A set or field may name only steps and actions that exist; all 32 inputs exist." with
// "Signals 0..31 are the cycle's inputs; signal 32+k is the activity of action k ..."
fn existing_signals(actions: usize) -> Set {
    let mut signals = numbers(32);
    signals.extend((0..actions).map(|k| 32 + k));
    signals
}

// "1 step | 1 | 1 initial, 0 not"; "5 | a field outside its stated range"
fn test_step(step: &Step) -> Result<(), Code> {
    if step.initial > 1 {
        return Err(5);
    }
    Ok(())
}

// "2 action | 5 | output 0..31; value, signed 32 bits"; "5 | a field outside its stated range"
fn test_action(action: &Action) -> Result<(), Code> {
    if action.output > 31 {
        return Err(5);
    }
    Ok(())
}

// "5 | a field outside its stated range"; "6 | a transition has no source, no target, or a step
// that is both"; "7 | a signal in both on and off"
fn test_transition(transition: &Transition, steps: usize, actions: usize) -> Result<(), Code> {
    let step_exists = |k: &usize| *k < steps;
    let signal_exists = |k: &usize| *k < 32 + actions;
    if !transition.sources.iter().all(step_exists) || !transition.targets.iter().all(step_exists) {
        return Err(5);
    }
    if !transition.on.iter().all(signal_exists) || !transition.off.iter().all(signal_exists) {
        return Err(5);
    }
    if transition.wait > LONGEST {
        return Err(5);
    }
    if transition.sources.is_empty() || transition.targets.is_empty() {
        return Err(6);
    }
    if !transition.sources.is_disjoint(&transition.targets) {
        return Err(6);
    }
    if !transition.on.is_disjoint(&transition.off) {
        return Err(7);
    }
    Ok(())
}

// "A set or field may name only steps and actions that exist"; "Waits and durations are at most
// 86,400,000."; "L, D, SD, DS and SL are timed and may have duration 0; the others must have
// duration 0."; "5 | a field outside its stated range"
fn test_block(block: &Block, steps: usize, actions: usize) -> Result<(), Code> {
    if block.step >= steps || block.action >= actions {
        return Err(5);
    }
    let qualifier = qualifier_of(block.qualifier).ok_or(5u64)?;
    if block.duration > LONGEST {
        return Err(5);
    }
    if !is_timed(qualifier) && block.duration != 0 {
        return Err(5);
    }
    Ok(())
}

// "5 case | 3 | step, signal 0..63, expected 0 or 1"; "A set or field may name only steps and
// actions that exist; all 32 inputs exist."; "5 | a field outside its stated range"
fn test_case(case: &Case, steps: usize, actions: usize) -> Result<(), Code> {
    if case.step >= steps || !existing_signals(actions).contains(&case.signal) {
        return Err(5);
    }
    if case.expected > 1 {
        return Err(5);
    }
    Ok(())
}

// Request (viii): "A held chart says 1 or 2."; "5 for another edition byte" (of a held chart; a
// file's record may only say 2)
fn test_edition(edition: u8) -> Result<(), Code> {
    if edition != 1 && edition != 2 {
        return Err(5);
    }
    Ok(())
}

// "9 | no initial step (a chart without steps included)"; "8 | two timed blocks for one action",
// in the order "9, 8"
fn test_whole(chart: &Chart) -> Result<(), Code> {
    if !chart.steps.iter().any(|step| step.initial == 1) {
        return Err(9);
    }
    let mut with_timed = Set::new();
    for block in &chart.blocks {
        let timed = qualifier_of(block.qualifier).map_or(false, is_timed);
        if timed && !with_timed.insert(block.action) {
            return Err(8);
        }
    }
    Ok(())
}

// ---------------------------------------------------------------------------------------------
// The reader
// ---------------------------------------------------------------------------------------------

// "it remembers the lent bytes and the place, with the kind before"
struct RecordReader<'a> {
    bytes: &'a [u8],
    place: usize,
    before: u64,
}

#[derive(Clone, Copy, PartialEq)]
enum Next {
    Record { kind: u64, body: usize, length: usize },
    End,
    Refused { code: Code, place: usize },
}

// "| Kind | Body |": 1 step 1, 2 action 5, 3 transition 36, 4 block 7, 5 case 3, "then one end
// record (kind 0, no body)"; request (viii): "kind 6, one byte"; "3 ... cover the kind"
fn body_length(kind: u64) -> u64 {
    match kind {
        1 => 1,
        2 => 5,
        3 => 36,
        4 => 7,
        5 => 3,
        6 => 1,
        _ => 0,
    }
}

// "Asked so, it tests 1, 2, 3 and the cut body only, and answers the kind with its body's place
// and length, or the end, or the refusal with the record's place. After the end or a refusal it
// doesn't move, and asking again answers the same. A place beyond the bytes answers 1." Request
// (viii): "2 now means a kind above 6" (or still one "smaller than the kind before it (kind 0
// excepted)")
fn next_record(reader: &mut RecordReader) -> Next {
    let place = reader.place;
    let length = number(reader.bytes, place, 2);
    let kind = number(reader.bytes, place.saturating_add(2), 2);
    let (length, kind) = match (length, kind) {
        (Some(length), Some(kind)) => (length, kind),
        _ => return Next::Refused { code: 1, place },
    };
    if kind > 6 || (kind != 0 && kind < reader.before) {
        return Next::Refused { code: 2, place };
    }
    if length != body_length(kind) {
        return Next::Refused { code: 3, place };
    }
    let length = length as usize;
    let body = place.saturating_add(4);
    let end = body.saturating_add(length);
    if end > reader.bytes.len() {
        return Next::Refused { code: 1, place };
    }
    if kind == 0 {
        return Next::End;
    }
    reader.place = end;
    reader.before = kind;
    Next::Record { kind, body, length }
}

// "A refused reading returns an all-zero chart and a place: the record's first byte for 1 to 7,
// the first surplus byte for 10, and 0 for 8 and 9. Every accepted call answers 0 for the number;
// an accepted chart has place 0 and zeros beyond its counts."
struct Reading {
    code: Code,
    place: usize,
    chart: Chart,
}

// "A refused reading returns an all-zero chart and a place"
fn read_chart(bytes: &[u8]) -> Reading {
    match read_records(bytes) {
        Ok(chart) => Reading { code: 0, place: 0, chart },
        Err((code, place)) => Reading { code, place, chart: Chart::default() },
    }
}

// "Reading takes records in order and tests each: head (1), 2, 3, body (1), 4, 5, 6, 7. After the
// end record: 10, 9, 8." Request (viii): "absent means edition 1"
fn read_records(bytes: &[u8]) -> Result<Chart, (Code, usize)> {
    let mut reader = RecordReader { bytes, place: 0, before: 0 };
    let mut chart = Chart { edition: 1, ..Chart::default() };
    loop {
        let place = reader.place;
        match next_record(&mut reader) {
            Next::Refused { code, place } => return Err((code, place)),
            Next::Record { kind, body, length } => {
                let body = bytes.get(body..body + length).unwrap_or(&[]);
                add_record(&mut chart, kind, body).map_err(|code| (code, place))?;
            }
            Next::End => {
                let after = place + 4;
                if after < bytes.len() {
                    return Err((10, after));
                }
                test_whole(&chart).map_err(|code| (code, 0))?;
                return Ok(chart);
            }
        }
    }
}

// "Kinds stand in the order 1, 2, 3, 4, 5"; request (viii): "A chart may have one more record, kind
// 6, ... after the cases"
fn add_record(chart: &mut Chart, kind: u64, body: &[u8]) -> Result<(), Code> {
    let mut fields = Fields::new(body);
    match kind {
        1 => add_step(chart, &mut fields),
        2 => add_action(chart, &mut fields),
        3 => add_transition(chart, &mut fields),
        4 => add_block(chart, &mut fields),
        5 => add_case(chart, &mut fields),
        6 => add_edition(chart, &mut fields),
        _ => Err(2),
    }
}

// "1 step | 1 | 1 initial, 0 not"; "4 | one more of a kind than its limit"
fn add_step(chart: &mut Chart, fields: &mut Fields) -> Result<(), Code> {
    let step = Step { initial: fields.take(1).ok_or(1u64)? as u8 };
    if chart.steps.len() >= 64 {
        return Err(4);
    }
    test_step(&step)?;
    chart.steps.push(step);
    Ok(())
}

// "2 action | 5 | output 0..31; value, signed 32 bits"; "4 | one more of a kind than its limit"
fn add_action(chart: &mut Chart, fields: &mut Fields) -> Result<(), Code> {
    let action = Action {
        output: fields.take(1).ok_or(1u64)? as u8,
        value: fields.take(4).ok_or(1u64)? as u32 as i32,
    };
    if chart.actions.len() >= 32 {
        return Err(4);
    }
    test_action(&action)?;
    chart.actions.push(action);
    Ok(())
}

// "3 transition | 36 | sources, targets, on, off (64-bit sets, bit k is number k); wait in ms (32
// bits)"; "4 | one more of a kind than its limit"
fn add_transition(chart: &mut Chart, fields: &mut Fields) -> Result<(), Code> {
    let transition = Transition {
        sources: set_of(fields.take(8).ok_or(1u64)?),
        targets: set_of(fields.take(8).ok_or(1u64)?),
        on: set_of(fields.take(8).ok_or(1u64)?),
        off: set_of(fields.take(8).ok_or(1u64)?),
        wait: fields.take(4).ok_or(1u64)? as u32,
    };
    if chart.transitions.len() >= 64 {
        return Err(4);
    }
    test_transition(&transition, chart.steps.len(), chart.actions.len())?;
    chart.transitions.push(transition);
    Ok(())
}

// "4 block | 7 | step, action, qualifier (a byte each); duration in ms (32 bits)"; "4 | one more
// of a kind than its limit"
fn add_block(chart: &mut Chart, fields: &mut Fields) -> Result<(), Code> {
    let block = Block {
        step: fields.take(1).ok_or(1u64)? as usize,
        action: fields.take(1).ok_or(1u64)? as usize,
        qualifier: fields.take(1).ok_or(1u64)? as u8,
        duration: fields.take(4).ok_or(1u64)? as u32,
    };
    if chart.blocks.len() >= 256 {
        return Err(4);
    }
    test_block(&block, chart.steps.len(), chart.actions.len())?;
    chart.blocks.push(block);
    Ok(())
}

// "5 case | 3 | step, signal 0..63, expected 0 or 1"; "4 | one more of a kind than its limit"
fn add_case(chart: &mut Chart, fields: &mut Fields) -> Result<(), Code> {
    let case = Case {
        step: fields.take(1).ok_or(1u64)? as usize,
        signal: fields.take(1).ok_or(1u64)? as usize,
        expected: fields.take(1).ok_or(1u64)? as u8,
    };
    if chart.cases.len() >= 64 {
        return Err(4);
    }
    test_case(&case, chart.steps.len(), chart.actions.len())?;
    chart.cases.push(case);
    Ok(())
}

// Request (viii): "kind 6, one byte with the value 2"; "3 and 4 cover the kind, limit one" (a chart
// that says 2 already has had its record); "5 for another edition byte" (1 is another one too)
fn add_edition(chart: &mut Chart, fields: &mut Fields) -> Result<(), Code> {
    let edition = fields.take(1).ok_or(1u64)? as u8;
    if chart.edition == 2 {
        return Err(4);
    }
    if edition != 2 {
        return Err(5);
    }
    chart.edition = edition;
    Ok(())
}

// ---------------------------------------------------------------------------------------------
// The held chart and the held run
// ---------------------------------------------------------------------------------------------

// "A chart has 1 to 64 steps, 0 to 32 actions, 0 to 64 transitions, 0 to 256 blocks and 0 to 64
// cases"; "4 | one more of a kind than its limit" (no steps at all is 9)
fn test_counts(counts: &Counts) -> Result<(), Code> {
    if counts.steps > 64 || counts.actions > 32 || counts.transitions > 64 {
        return Err(4);
    }
    if counts.blocks > 256 || counts.cases > 64 {
        return Err(4);
    }
    Ok(())
}

// "Entries beyond a count play no part." (the edition of request (viii) has no count and stays)
fn within_counts(held: &Held) -> Chart {
    let counts = &held.counts;
    let tables = &held.tables;
    Chart {
        steps: tables.steps.iter().take(counts.steps as usize).cloned().collect(),
        actions: tables.actions.iter().take(counts.actions as usize).cloned().collect(),
        transitions: tables.transitions.iter().take(counts.transitions as usize).cloned().collect(),
        blocks: tables.blocks.iter().take(counts.blocks as usize).cloned().collect(),
        cases: tables.cases.iter().take(counts.cases as usize).cloned().collect(),
        edition: tables.edition,
    }
}

// "Every call tests it again: 4, then records by kind with 5, 6, 7, then 9, 8. Entries beyond a
// count play no part." Request (viii): "5 for another edition byte, tested in a held chart after
// the cases"
fn test_chart(held: &Held) -> Result<Chart, Code> {
    test_counts(&held.counts)?;
    let chart = within_counts(held);
    let steps = chart.steps.len();
    let actions = chart.actions.len();
    for step in &chart.steps {
        test_step(step)?;
    }
    for action in &chart.actions {
        test_action(action)?;
    }
    for transition in &chart.transitions {
        test_transition(transition, steps, actions)?;
    }
    for block in &chart.blocks {
        test_block(block, steps, actions)?;
    }
    for case in &chart.cases {
        test_case(case, steps, actions)?;
    }
    test_edition(chart.edition)?;
    test_whole(&chart)?;
    Ok(chart)
}

// Request (vii): "The run record gets a hold mark" (a byte, so that one that is neither 0 nor 1 can
// be given and given back)
#[derive(Clone, PartialEq)]
struct Run {
    clock: u32,
    active: Set,
    activity: Set,
    stored: Set,
    latched: Set,
    step_counters: Vec<u32>,
    action_timers: Vec<u32>,
    good: Set,
    bad: Set,
    hold_mark: u8,
}

// "A refused start returns an all-zero run"; "... all else 0 ..." (the hold mark of request (vii)
// too)
fn zero_run() -> Run {
    Run {
        clock: 0,
        active: Set::new(),
        activity: Set::new(),
        stored: Set::new(),
        latched: Set::new(),
        step_counters: vec![0; 64],
        action_timers: vec![0; 32],
        good: Set::new(),
        bad: Set::new(),
        hold_mark: 0,
    }
}

// "step counters of inactive steps and action timers of unlatched actions are 0; none exceeds
// 86,400,000"
fn times_belong(times: &[u32], running: &Set) -> bool {
    let mut belong = true;
    for (k, time) in times.iter().enumerate() {
        if *time > LONGEST || (!running.contains(&k) && *time != 0) {
            belong = false;
        }
    }
    belong
}

// "A run belongs to a chart if active steps, activity, stored, latched and case marks name only
// existing numbers; step counters of inactive steps and action timers of unlatched actions are 0;
// none exceeds 86,400,000."; "12 | a run record that is not one of this chart"; request (vii): "12
// covers the mark too, which must be 0 or 1"
fn test_run(chart: &Chart, run: &Run) -> Result<(), Code> {
    let steps = numbers(chart.steps.len());
    let actions = numbers(chart.actions.len());
    let cases = numbers(chart.cases.len());
    let belongs = run.active.is_subset(&steps)
        && run.activity.is_subset(&actions)
        && run.stored.is_subset(&actions)
        && run.latched.is_subset(&actions)
        && run.good.is_subset(&cases)
        && run.bad.is_subset(&cases)
        && times_belong(&run.step_counters, &run.active)
        && times_belong(&run.action_timers, &run.latched)
        && (run.hold_mark == 0 || run.hold_mark == 1);
    if belongs {
        Ok(())
    } else {
        Err(12)
    }
}

// "15 | the lent outputs are fewer than 32"
fn test_outputs(outputs: &[i32]) -> Result<(), Code> {
    if outputs.len() < 32 {
        return Err(15);
    }
    Ok(())
}

// ---------------------------------------------------------------------------------------------
// One cycle
// ---------------------------------------------------------------------------------------------

// "The answer also carries the set of transitions taken (empty at start)." Request (vi): "The test
// answers for each transition" (one reason for each of the 64 transition numbers)
struct Answer {
    code: Code,
    taken: Set,
    reasons: Vec<u8>,
    run: Run,
}

// "A refused start returns an all-zero run, a refused cycle the run it was given, both with no
// transition taken"; request (vi): "Reasons ... of a refused call ... are 0."
fn refusal(code: Code, run: Run) -> Answer {
    Answer { code, taken: Set::new(), reasons: no_reasons(), run }
}

// Request (vi): "Reasons of a start, of a refused call and beyond the last transition are 0."
fn no_reasons() -> Vec<u8> {
    vec![0; 64]
}

// "Start tests 15 and then the chart"; "the set of transitions taken (empty at start)"; request
// (vi): "Reasons of a start ... are 0."
fn start(held: &Held, clock: u32, outputs: &mut [i32]) -> Answer {
    match test_outputs(outputs).and_then(|_| test_chart(held)) {
        Ok(chart) => {
            let run = do_start(&chart, clock, outputs);
            Answer { code: 0, taken: Set::new(), reasons: no_reasons(), run }
        }
        Err(code) => refusal(code, zero_run()),
    }
}

// "Start makes the initial steps active and entered, none left, all else 0, then does 4 to 6."
fn do_start(chart: &Chart, clock: u32, outputs: &mut [i32]) -> Run {
    let initial = initial_steps(chart);
    let mut run = zero_run();
    run.active = initial.clone();
    do_actions(chart, &mut run, &initial, &Set::new());
    write_outputs(chart, &run.activity, outputs);
    run.clock = clock;
    run
}

// "1 initial, 0 not"
fn initial_steps(chart: &Chart) -> Set {
    let steps = chart.steps.iter().enumerate();
    steps.filter(|(_, step)| step.initial == 1).map(|(k, _)| k).collect()
}

// "Elapsed time is the new reading of the free-running 32-bit millisecond clock minus the last,
// modulo 2^32."
fn elapsed(new: u32, last: u32) -> u32 {
    new.wrapping_sub(last)
}

// "11 | elapsed time above 60,000 ms"
fn test_elapsed(new: u32, last: u32) -> Result<(), Code> {
    if elapsed(new, last) > 60_000 {
        return Err(11);
    }
    Ok(())
}

// "a cycle tests 15, chart, 12, 11"
fn test_cycle(held: &Held, run: &Run, clock: u32, outputs: &[i32]) -> Result<Chart, Code> {
    test_outputs(outputs)?;
    let chart = test_chart(held)?;
    test_run(&chart, run)?;
    test_elapsed(clock, run.clock)?;
    Ok(chart)
}

// "Lent outputs stay untouched by a refusal"; "a refused cycle the run it was given"; request
// (vii): "In a cycle under hold ..." (it is one if the run it was given has the mark)
fn cycle(held: &Held, run: &Run, clock: u32, inputs: u32, outputs: &mut [i32]) -> Answer {
    match test_cycle(held, run, clock, outputs) {
        Ok(chart) if run.hold_mark == 1 => do_cycle_under_hold(&chart, run, clock, outputs),
        Ok(chart) => do_cycle(&chart, run, clock, inputs, outputs),
        Err(code) => refusal(code, run.clone()),
    }
}

// "One cycle", 1 to 6, without hold, in both editions of request (viii). "The run keeps the clock
// reading and the activity."
fn do_cycle(chart: &Chart, given: &Run, clock: u32, inputs: u32, outputs: &mut [i32]) -> Answer {
    let run = grown_run(given, clock);
    let signals = signals_of(inputs, &given.activity);
    let taken = take_transitions(chart, &run, &signals);
    let reasons = reasons_of(chart, &run, &signals);
    do_chosen(chart, run, &signals, (taken, reasons), clock, outputs)
}

// "Every step counter of an active step and every timer of a latched action grows by it, stopping
// at 86,400,000." (by the elapsed time; all else is as the run was given)
fn grown_run(given: &Run, clock: u32) -> Run {
    let mut run = given.clone();
    grow(&mut run.step_counters, &given.active, elapsed(clock, given.clock));
    grow(&mut run.action_timers, &given.latched, elapsed(clock, given.clock));
    run
}

// "Sources of taken transitions are left, targets entered."; "The run keeps the clock reading and
// the activity."; "The answer also carries the set of transitions taken" ("One cycle", 3 to 6, once
// the transitions and the reasons of request (vi) are chosen; the run has grown, and its active
// steps are still those of the cycle's beginning)
fn do_chosen(
    chart: &Chart,
    mut run: Run,
    signals: &Set,
    (taken, reasons): (Set, Vec<u8>),
    clock: u32,
    outputs: &mut [i32],
) -> Answer {
    let left = sources_of(chart, &taken);
    let targets = targets_of(chart, &taken);
    let entered = entered_steps(chart, &run.active, &left, &targets);
    move_steps(&mut run, &left, &targets, &entered);
    mark_cases(chart, &mut run, &left, signals);
    do_actions(chart, &mut run, &entered, &left);
    write_outputs(chart, &run.activity, outputs);
    run.clock = clock;
    Answer { code: 0, taken, reasons, run }
}

// "Signals 0..31 are the cycle's inputs; signal 32+k is the activity of action k as the previous
// call left it."
fn signals_of(inputs: u32, activity: &Set) -> Set {
    let mut signals = set_of(u64::from(inputs));
    signals.extend(activity.iter().map(|k| 32 + k));
    signals
}

// "Every step counter of an active step and every timer of a latched action grows by it, stopping
// at 86,400,000."
fn grow(times: &mut [u32], running: &Set, by: u32) {
    for k in running {
        let grown = at(times, *k).saturating_add(by).min(LONGEST);
        put(times, *k, grown);
    }
}

// "Transitions are taken in number order. One is taken if all its sources were active at the
// cycle's beginning and are not a source of one already taken; every "on" signal is 1 and every
// "off" signal 0; each source's counter has reached the wait; ..." Request (viii): "State the
// choosing once, with the target test as the only difference."
fn take_transitions(chart: &Chart, run: &Run, signals: &Set) -> Set {
    let mut taken = Set::new();
    for (k, transition) in chart.transitions.iter().enumerate() {
        let reached = |step: &usize| at(&run.step_counters, *step) >= transition.wait;
        if transition.sources.is_subset(&run.active)
            && transition.sources.is_disjoint(&sources_of(chart, &taken))
            && transition.on.is_subset(signals)
            && transition.off.is_disjoint(signals)
            && transition.sources.iter().all(reached)
            && targets_allow(chart, transition, &run.active, &taken)
        {
            taken.insert(k);
        }
    }
    taken
}

// The target test, in edition 1: "... each target was inactive at the beginning and is not a target
// of one already taken." Request (viii), in edition 2: "targets are not tested"
fn targets_allow(chart: &Chart, transition: &Transition, active: &Set, taken: &Set) -> bool {
    chart.edition == 2
        || (transition.targets.is_disjoint(active)
            && transition.targets.is_disjoint(&targets_of(chart, taken)))
}

// Request (vi): "The test answers for each transition"; "Reasons ... beyond the last transition are
// 0." Document 01: "Transitions are taken in number order." (Used are the sources and claimed are
// the targets of those already taken. This asks `take_transitions` nothing; the selftest holds the
// two together.) Request (viii): in edition 2 "targets are not tested", so neither "a target
// occupied" nor "a target claimed by an earlier one" is given there.
fn reasons_of(chart: &Chart, run: &Run, signals: &Set) -> Vec<u8> {
    let mut reasons = no_reasons();
    let mut used = Set::new();
    let mut claimed = Set::new();
    for (k, transition) in chart.transitions.iter().enumerate() {
        let reason = match reason_of_sources(transition, run, signals, &used) {
            0 if chart.edition != 2 => reason_of_targets(transition, run, &claimed),
            reason => reason,
        };
        if reason == 0 {
            used.extend(&transition.sources);
            claimed.extend(&transition.targets);
        }
        put(&mut reasons, k, reason);
    }
    reasons
}

// Request (vi): "taken; a source not active; a source used by an earlier one; a signal; a wait; ...
// The first in this order counts."; "... counting "a source not active" as 1 and so on to 6" (and
// "taken" as 0: nothing up to the wait holds it back)
fn reason_of_sources(t: &Transition, run: &Run, signals: &Set, used: &Set) -> u8 {
    if t.sources.iter().any(|step| !run.active.contains(step)) {
        return 1;
    }
    if t.sources.iter().any(|step| used.contains(step)) {
        return 2;
    }
    if t.on.iter().any(|signal| !signals.contains(signal)) {
        return 3;
    }
    if t.off.iter().any(|signal| signals.contains(signal)) {
        return 3;
    }
    if t.sources.iter().any(|step| at(&run.step_counters, *step) < t.wait) {
        return 4;
    }
    0
}

// Request (vi): "... a target occupied; a target claimed by an earlier one. The first in this order
// counts." (as 5 and 6, and "taken" as 0)
fn reason_of_targets(t: &Transition, run: &Run, claimed: &Set) -> u8 {
    if t.targets.iter().any(|step| run.active.contains(step)) {
        return 5;
    }
    if t.targets.iter().any(|step| claimed.contains(step)) {
        return 6;
    }
    0
}

// "Sources of taken transitions are left"
fn sources_of(chart: &Chart, taken: &Set) -> Set {
    let mut sources = Set::new();
    for transition in taken.iter().filter_map(|k| chart.transitions.get(*k)) {
        sources.extend(&transition.sources);
    }
    sources
}

// "Sources of taken transitions are left, targets entered." (the targets)
fn targets_of(chart: &Chart, taken: &Set) -> Set {
    let mut targets = Set::new();
    for transition in taken.iter().filter_map(|k| chart.transitions.get(*k)) {
        targets.extend(&transition.targets);
    }
    targets
}

// "Sources of taken transitions are left, targets entered." Request (viii): "In edition 2 a step
// counts as entered if it is a target and was inactive or left" (inactive at the cycle's beginning;
// left in this cycle)
fn entered_steps(chart: &Chart, before: &Set, left: &Set, targets: &Set) -> Set {
    if chart.edition != 2 {
        return targets.clone();
    }
    let inactive_or_left = |step: &usize| !before.contains(step) || left.contains(step);
    targets.iter().copied().filter(inactive_or_left).collect()
}

// "Sources of taken transitions are left, targets entered. A step entered or inactive has counter
// 0." Request (viii): "a step both left and entered stays active"; "then its counter is 0,
// otherwise it runs on" (a target that was active and not left stays active with its counter)
fn move_steps(run: &mut Run, left: &Set, targets: &Set, entered: &Set) {
    run.active = run.active.difference(left).copied().collect();
    run.active.extend(targets);
    for step in 0..64 {
        if entered.contains(&step) || !run.active.contains(&step) {
            put(&mut run.step_counters, step, 0);
        }
    }
}

// "For each case on a left step, the signal of this cycle is compared: equal sets its good mark,
// different its bad mark." (a step both left and entered is a left step too)
fn mark_cases(chart: &Chart, run: &mut Run, left: &Set, signals: &Set) {
    for (k, case) in chart.cases.iter().enumerate() {
        if left.contains(&case.step) {
            if signals.contains(&case.signal) == (case.expected == 1) {
                run.good.insert(k);
            } else {
                run.bad.insert(k);
            }
        }
    }
}

// "Actions, from the steps now active." "A reset action is inactive." "The run keeps ... the
// activity."
fn do_actions(chart: &Chart, run: &mut Run, entered: &Set, left: &Set) {
    let mut activity = Set::new();
    for action in 0..chart.actions.len() {
        let reset = is_reset(chart, run, action);
        if reset {
            clear_action(run, action);
        } else {
            set_and_latch(chart, run, action);
        }
        if !reset && is_active(chart, run, action, entered, left) {
            activity.insert(action);
        }
    }
    run.activity = activity;
}

// "4 block | 7 | step, action, qualifier (a byte each); duration in ms" (the blocks of one action
// with their qualifiers)
fn blocks_of(chart: &Chart, action: usize) -> Vec<(&Block, Qualifier)> {
    let mut blocks = Vec::new();
    for block in chart.blocks.iter().filter(|block| block.action == action) {
        if let Some(qualifier) = qualifier_of(block.qualifier) {
            blocks.push((block, qualifier));
        }
    }
    blocks
}

// ""Reset": some active step has an R block for it."
fn is_reset(chart: &Chart, run: &Run, action: usize) -> bool {
    let blocks = blocks_of(chart, action);
    blocks.iter().any(|(block, q)| *q == Qualifier::R && run.active.contains(&block.step))
}

// "With reset, stored and latch are cleared and the timer is 0."
fn clear_action(run: &mut Run, action: usize) {
    run.stored.remove(&action);
    run.latched.remove(&action);
    put(&mut run.action_timers, action, 0);
}

// "Without reset, an active S block, or an active DS block whose step counter has reached its
// duration, sets stored; an active SD or SL block latches, and a fresh latch has timer 0."
fn set_and_latch(chart: &Chart, run: &mut Run, action: usize) {
    for (block, qualifier) in blocks_of(chart, action) {
        if !run.active.contains(&block.step) {
            continue;
        }
        let counter = at(&run.step_counters, block.step);
        let sets = match qualifier {
            Qualifier::S => true,
            Qualifier::DS => counter >= block.duration,
            _ => false,
        };
        if sets {
            run.stored.insert(action);
        }
        let latches = qualifier == Qualifier::SD || qualifier == Qualifier::SL;
        if latches && run.latched.insert(action) {
            put(&mut run.action_timers, action, 0);
        }
    }
}

// "Without reset an action is active if it is stored, or ..."
fn is_active(chart: &Chart, run: &Run, action: usize, entered: &Set, left: &Set) -> bool {
    let blocks = blocks_of(chart, action);
    run.stored.contains(&action)
        || blocks.iter().any(|(block, q)| block_activates(run, block, *q, entered, left))
}

// "... or an active step has an N block, an L block with counter below its duration or a D block
// with counter at or above it; or SD is latched with timer at or above its duration; or SL is
// latched with timer below it; or P1 and the step was entered; or P0 and the step was left ..."
// Request (ii), in the place of "or P and either": "P is now active only in the call that enters
// the step, like P1."
fn block_activates(run: &Run, block: &Block, q: Qualifier, entered: &Set, left: &Set) -> bool {
    let active = run.active.contains(&block.step);
    let counter = at(&run.step_counters, block.step);
    let latched = run.latched.contains(&block.action);
    let timer = at(&run.action_timers, block.action);
    let entered = entered.contains(&block.step);
    let left = left.contains(&block.step);
    match q {
        Qualifier::N => active,
        Qualifier::L => active && counter < block.duration,
        Qualifier::D => active && counter >= block.duration,
        Qualifier::SD => latched && timer >= block.duration,
        Qualifier::SL => latched && timer < block.duration,
        Qualifier::P1 => entered,
        Qualifier::P0 => left,
        Qualifier::P => entered,
        Qualifier::R | Qualifier::S | Qualifier::DS => false,
    }
}

// "Each output gets the value of its first active action in the table, else 0."; "an accepted call
// writes the first 32 and no others"
fn write_outputs(chart: &Chart, activity: &Set, outputs: &mut [i32]) {
    for output in 0..32 {
        let mut actions = chart.actions.iter().enumerate();
        let first = actions
            .find(|(k, action)| activity.contains(k) && usize::from(action.output) == output);
        let value = first.map_or(0, |(_, action)| action.value);
        put(outputs, output, value);
    }
}

// ---------------------------------------------------------------------------------------------
// Tally and weighing
// ---------------------------------------------------------------------------------------------

#[derive(Clone, Copy, PartialEq)]
struct Tally {
    code: Code,
    passed: u64,
    failed: u64,
    notrun: u64,
}

// "the tally chart, 12"; "a refused tally three zeros"
fn tally(held: &Held, run: &Run) -> Tally {
    let mut answer = Tally { code: 0, passed: 0, failed: 0, notrun: 0 };
    let tested = test_chart(held).and_then(|chart| test_run(&chart, run).map(|_| chart));
    match tested {
        Ok(chart) => count_marks(&chart, run, &mut answer),
        Err(code) => answer.code = code,
    }
    answer
}

// "Tally: failed if the bad mark is set; passed if only the good mark is; otherwise not run. The
// three counts are read from the marks."
fn count_marks(chart: &Chart, run: &Run, answer: &mut Tally) {
    for case in 0..chart.cases.len() {
        if run.bad.contains(&case) {
            answer.failed += 1;
        } else if run.good.contains(&case) {
            answer.passed += 1;
        } else {
            answer.notrun += 1;
        }
    }
}

#[derive(Clone, Copy, PartialEq)]
struct Weighing {
    code: Code,
    transition: u64,
    total: u64,
}

// "the weighing chart, 13, 14"; "a refused weighing total 0"; "The transition it names is 0 unless
// the answer is 14."
fn weighing(held: &Held, weights: &[u16]) -> Weighing {
    match test_weights(held, &[weights.len()]) {
        Ok(chart) => weigh(&chart, weights),
        Err(code) => refused_weighing(code, 0),
    }
}

// "the weighing chart, 13, ..."; "13 | the number of weights is not the number of steps" (for one
// list or for several; the chart if there is no refusal)
fn test_weights(held: &Held, lengths: &[usize]) -> Result<Chart, Code> {
    let chart = test_chart(held)?;
    if lengths.iter().any(|length| *length != chart.steps.len()) {
        return Err(13);
    }
    Ok(chart)
}

// "a refused weighing total 0"
fn refused_weighing(code: Code, transition: u64) -> Weighing {
    Weighing { code, transition, total: 0 }
}

// "The weighing adds unsigned 16-bit weights over sources, targets and initial steps and returns
// the initial total."; "14 | unbalanced; the first such transition is named"
fn weigh(chart: &Chart, weights: &[u16]) -> Weighing {
    for (k, transition) in chart.transitions.iter().enumerate() {
        if weight_of(&transition.sources, weights) != weight_of(&transition.targets, weights) {
            return refused_weighing(14, k as u64);
        }
    }
    let total = weight_of(&initial_steps(chart), weights);
    Weighing { code: 0, transition: 0, total }
}

// "The weighing adds unsigned 16-bit weights"
fn weight_of(steps: &Set, weights: &[u16]) -> u64 {
    steps.iter().map(|step| u64::from(at(weights, *step))).sum()
}

// ---------------------------------------------------------------------------------------------
// The writer (request (i) of document 02)
// ---------------------------------------------------------------------------------------------

// Request (i): "The answer is the length written" (with the number of refusal; the length is 0 with
// every refusal)
#[derive(Clone, Copy, PartialEq)]
struct Writing {
    code: Code,
    length: u64,
}

// Request (i): "Write a held chart into lent bytes in the form of document 01."; "The answer is the
// length written; bytes behind it stay."
fn write_chart(held: &Held, lent: &mut [u8]) -> Writing {
    match test_writing(held, lent) {
        Ok(file) => {
            for (k, byte) in file.iter().enumerate() {
                put(lent, k, *byte);
            }
            Writing { code: 0, length: file.len() as u64 }
        }
        Err(code) => Writing { code, length: 0 },
    }
}

// Request (i): "Refusals: the chart's own first, then 17 when the lent bytes are fewer than the
// chart's length, nothing written." (the file to be written if there is no refusal)
fn test_writing(held: &Held, lent: &[u8]) -> Result<Vec<u8>, Code> {
    let chart = test_chart(held)?;
    let file = file_of(&chart);
    if lent.len() < file.len() {
        return Err(17);
    }
    Ok(file)
}

// "A file is a run of records"; "Kinds stand in the order 1, 2, 3, 4, 5, then one end record (kind
// 0, no body) and nothing more."; "each numbered from 0 in file order"; request (viii): "one more
// record, kind 6, ... after the cases; absent means edition 1 ..., and request (i) holds as it
// reads"
fn file_of(chart: &Chart) -> Vec<u8> {
    let mut file = Vec::new();
    for step in &chart.steps {
        file.extend(written_step(step));
    }
    for action in &chart.actions {
        file.extend(written_action(action));
    }
    for transition in &chart.transitions {
        file.extend(written_transition(transition));
    }
    for block in &chart.blocks {
        file.extend(written_block(block));
    }
    for case in &chart.cases {
        file.extend(written_case(case));
    }
    if chart.edition == 2 {
        file.extend(written_edition());
    }
    file.extend(written_record(0, &[]));
    file
}

// "all little-endian" (the lowest `width` bytes of a number, the lesser first)
fn little_endian(value: u64, width: usize) -> Vec<u8> {
    value.to_le_bytes().iter().take(width).copied().collect()
}

// "a two-byte body length, a two-byte kind, the body" (a body is fields, each a number and its
// width in bytes)
fn written_record(kind: u64, fields: &[(u64, usize)]) -> Vec<u8> {
    let mut body = Vec::new();
    for (value, width) in fields {
        body.extend(little_endian(*value, *width));
    }
    let mut bytes = little_endian(body.len() as u64, 2);
    bytes.extend(little_endian(kind, 2));
    bytes.extend(body);
    bytes
}

// "1 step | 1 | 1 initial, 0 not"
fn written_step(step: &Step) -> Vec<u8> {
    written_record(1, &[(u64::from(step.initial), 1)])
}

// "2 action | 5 | output 0..31; value, signed 32 bits"
fn written_action(action: &Action) -> Vec<u8> {
    written_record(2, &[(u64::from(action.output), 1), (u64::from(action.value as u32), 4)])
}

// "3 transition | 36 | sources, targets, on, off (64-bit sets, bit k is number k); wait in ms (32
// bits)"
fn written_transition(transition: &Transition) -> Vec<u8> {
    let fields = [
        (word_of(&transition.sources), 8),
        (word_of(&transition.targets), 8),
        (word_of(&transition.on), 8),
        (word_of(&transition.off), 8),
        (u64::from(transition.wait), 4),
    ];
    written_record(3, &fields)
}

// "4 block | 7 | step, action, qualifier (a byte each); duration in ms (32 bits)"
fn written_block(block: &Block) -> Vec<u8> {
    let fields = [
        (block.step as u64, 1),
        (block.action as u64, 1),
        (u64::from(block.qualifier), 1),
        (u64::from(block.duration), 4),
    ];
    written_record(4, &fields)
}

// "5 case | 3 | step, signal 0..63, expected 0 or 1"
fn written_case(case: &Case) -> Vec<u8> {
    let fields = [(case.step as u64, 1), (case.signal as u64, 1), (u64::from(case.expected), 1)];
    written_record(5, &fields)
}

// Request (viii): "kind 6, one byte with the value 2"
fn written_edition() -> Vec<u8> {
    written_record(6, &[(2, 1)])
}

// ---------------------------------------------------------------------------------------------
// A whole shift in one call (request (iii) of document 02)
// ---------------------------------------------------------------------------------------------

// Request (iii): "returns the number accepted and the run there" (with the number of refusal, 0 if
// all were accepted)
struct Shift {
    code: Code,
    accepted: u64,
    run: Run,
}

// Request (iii): "The rig computer collects up to 4,096 cycles and hands them over at once, clocks
// and inputs in two lent lists, and wants the activity word of each in a third."; "... all before
// any cycle, with 0 accepted and nothing written" (the run is then the one given)
fn shift(
    held: &Held,
    run: &Run,
    clocks: &[u32],
    inputs: &[u32],
    words: &mut [u64],
    outputs: &mut [i32],
) -> Shift {
    let lengths = [clocks.len(), inputs.len(), words.len()];
    match test_shift(held, run, lengths, outputs) {
        Ok(()) => do_shift(held, run, clocks, inputs, words, outputs),
        Err(code) => Shift { code, accepted: 0, run: run.clone() },
    }
}

// Request (iii): "Refusals: 15, chart, 12, then 18 ..., all before any cycle"
fn test_shift(held: &Held, run: &Run, lengths: [usize; 3], outputs: &[i32]) -> Result<(), Code> {
    test_outputs(outputs)?;
    let chart = test_chart(held)?;
    test_run(&chart, run)?;
    test_lengths(lengths)
}

// Request (iii): "18 when the three lists differ in length or exceed 4,096"
fn test_lengths(lengths: [usize; 3]) -> Result<(), Code> {
    let [clocks, inputs, words] = lengths;
    if clocks != inputs || clocks != words || clocks > 4096 {
        return Err(18);
    }
    Ok(())
}

// Request (iii): "The result equals the calls made singly. It stops at the first refused cycle and
// returns the number accepted and the run there, with the outputs of the last accepted cycle,
// untouched if there was none. Activity words behind that number stay."; "then 11, at its place"
fn do_shift(
    held: &Held,
    given: &Run,
    clocks: &[u32],
    inputs: &[u32],
    words: &mut [u64],
    outputs: &mut [i32],
) -> Shift {
    let mut shift = Shift { code: 0, accepted: 0, run: given.clone() };
    for (k, (clock, inputs)) in clocks.iter().zip(inputs).enumerate() {
        let answer = cycle(held, &shift.run, *clock, *inputs, outputs);
        shift.code = answer.code;
        shift.run = answer.run;
        if shift.code != 0 {
            break;
        }
        shift.accepted += 1;
        put(words, k, word_of(&shift.run.activity));
    }
    shift
}

// ---------------------------------------------------------------------------------------------
// Charts in the textual form (request (iv) of document 02, with its page GRAMMAR.md)
// ---------------------------------------------------------------------------------------------

// GRAMMAR.md: "A text is bytes." (the bytes, the place up to which they have been taken, and
// whether a word ends just there, with no white space behind it)
struct Text<'a> {
    bytes: &'a [u8],
    place: usize,
    behind_word: bool,
}

// GRAMMAR.md: "A text has one reading. It says a chart" (the number and the place of the name in
// each step's own head, and the chart)
struct Said {
    names: Vec<(usize, usize)>,
    chart: Chart,
}

// GRAMMAR.md: "`read_text` answers as a reading does: number, place, chart."; "A refused text has
// the all-zero chart. An accepted one has number 0 and place 0."
fn read_text(bytes: &[u8]) -> Reading {
    match test_text(bytes) {
        Ok(chart) => Reading { code: 0, place: 0, chart },
        Err((code, place)) => Reading { code, place, chart: Chart::default() },
    }
}

// Request (iv): "A text is accepted exactly if the subset's grammar, written into docs/ first,
// produces it, its steps stand so and its chart passes document 01"; "Refusals: 19 ...; then 25
// ...; then the chart's own, in a held chart's order, with place 0."
fn test_text(bytes: &[u8]) -> Result<Chart, (Code, usize)> {
    let mut text = Text { bytes, place: 0, behind_word: false };
    let said = parse_text(&mut text)?;
    test_names(&said.names)?;
    let chart = with_actions(said.chart);
    test_chart(&hold(&chart)).map_err(|code| (code, 0))
}

// Request (iv): "Steps stand ... in number order from S0 without a gap."; "25 with the place of the
// first step name out of number order" (GRAMMAR.md: "the S of the first such name in a step's own
// head")
fn test_names(names: &[(usize, usize)]) -> Result<(), (Code, usize)> {
    for (count, (name, place)) in names.iter().enumerate() {
        if *name != count {
            return Err((25, *place));
        }
    }
    Ok(())
}

// Request (iv): "action k drives output k with 1, and the actions reach up to the highest one
// named" (GRAMMAR.md: "none if no block names one")
fn with_actions(mut chart: Chart) -> Chart {
    let count = chart.blocks.iter().map(|block| block.action + 1).max().unwrap_or(0);
    chart.actions = (0..count).map(|k| Action { output: k as u8, value: 1 }).collect();
    chart
}

// Request (iv): "19 with the place of the first byte that no sentence of the grammar can continue
// through, or the text's length if it ends too early" (The functions below take a byte only if some
// text goes on with it behind those taken before, and refuse only where none goes on with the byte
// ahead. So it is the place up to which bytes were taken, which is the length at their end.)
fn no_text(text: &Text) -> (Code, usize) {
    (19, text.place)
}

// GRAMMAR.md: "A text is bytes." (the byte at the place; nothing at the end)
fn byte_ahead(text: &Text) -> Option<u8> {
    text.bytes.get(text.place).copied()
}

// GRAMMAR.md: "White space is any run of the bytes 9 to 13 and 32."
fn is_blank(byte: u8) -> bool {
    (9..=13).contains(&byte) || byte == 32
}

// GRAMMAR.md: "It may stand between any two tokens, before the first and after the last" (takes the
// white space and answers the byte behind it, where the next token must begin; nothing at the end)
fn token_ahead(text: &mut Text) -> Option<u8> {
    while byte_ahead(text).map_or(false, is_blank) {
        text.place += 1;
        text.behind_word = false;
    }
    byte_ahead(text)
}

// GRAMMAR.md: "it must stand between two tokens that are both words" (white space; asked where only
// a word may begin)
fn begin_word(text: &mut Text) -> Result<(), (Code, usize)> {
    token_ahead(text);
    if text.behind_word {
        return Err(no_text(text));
    }
    Ok(())
}

// GRAMMAR.md: "In quotation marks: these bytes."; "`x | y`: one of them."; "and it never stands
// inside a token" (takes bytes as long as one of the spellings begins with all of them; they must
// then be one. A longer spelling goes before a shorter one: no sign begins with a byte that goes on
// with a word, and white space must stand before another word.)
fn take_one_of<'s>(text: &mut Text, spellings: &[&'s str]) -> Result<&'s str, (Code, usize)> {
    let bytes = text.bytes;
    let from = text.place;
    let begins_one = |taken: &[u8]| spellings.iter().any(|s| s.as_bytes().starts_with(taken));
    while bytes.get(from..text.place + 1).map_or(false, begins_one) {
        text.place += 1;
    }
    let taken = bytes.get(from..text.place).unwrap_or(&[]);
    let spelled = spellings.iter().copied().find(|s| s.as_bytes() == taken);
    spelled.ok_or(no_text(text))
}

// GRAMMAR.md: "A word is a keyword, a qualifier, a name or a duration" (a keyword or a qualifier:
// one of these)
fn parse_word<'s>(text: &mut Text, words: &[&'s str]) -> Result<&'s str, (Code, usize)> {
    begin_word(text)?;
    let word = take_one_of(text, words)?;
    text.behind_word = true;
    Ok(word)
}

// GRAMMAR.md: "the other tokens, `( ) , : ; :=`, are signs" (this one)
fn parse_sign(text: &mut Text, sign: &str) -> Result<(), (Code, usize)> {
    token_ahead(text);
    take_one_of(text, &[sign])?;
    text.behind_word = false;
    Ok(())
}

// GRAMMAR.md: "step-name = "S" with a number from 0 to 63, action-name = "A" and input-name = "X"
// with one from 0 to 31 one token each"
fn parse_name(text: &mut Text, letter: &str, last: u32) -> Result<usize, (Code, usize)> {
    begin_word(text)?;
    take_one_of(text, &[letter])?;
    let name = take_number(text, last)?;
    text.behind_word = true;
    Ok(name as usize)
}

// GRAMMAR.md: "duration = ( "T#" | "TIME#" ) number ( "m" | "M" ) ( "s" | "S" ) one token"
fn parse_duration(text: &mut Text) -> Result<u32, (Code, usize)> {
    begin_word(text)?;
    take_one_of(text, &["T#", "TIME#"])?;
    let duration = take_number(text, u32::MAX)?;
    take_one_of(text, &["m", "M"])?;
    take_one_of(text, &["s", "S"])?;
    text.behind_word = true;
    Ok(duration)
}

// GRAMMAR.md: "number = "0", or a digit from "1" to "9" and any number of digits; in a name too"
// (no digit is taken that would lead beyond the last number). Request (iv): "Durations may have any
// number of digits" (their last number is the greatest of the field's 32 bits, which stands for
// every greater one: no digit leads beyond it, and it is refused as they are)
fn take_number(text: &mut Text, last: u32) -> Result<u32, (Code, usize)> {
    let mut number = digit_ahead(text).ok_or(no_text(text))?;
    text.place += 1;
    if number == 0 {
        return Ok(0);
    }
    while let Some(digit) = digit_ahead(text) {
        let longer = number.saturating_mul(10).saturating_add(digit);
        if longer > last {
            break;
        }
        number = longer;
        text.place += 1;
    }
    Ok(number)
}

// GRAMMAR.md: "a digit from "1" to "9" and any number of digits" (the digit at the place)
fn digit_ahead(text: &Text) -> Option<u32> {
    byte_ahead(text).and_then(|byte| char::from(byte).to_digit(10))
}

// GRAMMAR.md: "text = initial { initial | step } { transition }"; "It may stand ... before the
// first and after the last" (white space); request (viii): "absent means edition 1, as does text"
fn parse_text(text: &mut Text) -> Result<Said, (Code, usize)> {
    let mut said = Said { names: Vec::new(), chart: Chart { edition: 1, ..Chart::default() } };
    parse_word(text, &["INITIAL_STEP"])?;
    parse_step(text, &mut said, 1)?;
    while token_ahead(text).is_some() {
        match parse_word(text, heads_ahead(&said))? {
            "INITIAL_STEP" => parse_step(text, &mut said, 1)?,
            "STEP" => parse_step(text, &mut said, 0)?,
            _ => parse_transition(text, &mut said)?,
        }
    }
    Ok(said)
}

// Request (iv): "Steps stand before transitions" (what may begin behind a step or a transition)
fn heads_ahead(said: &Said) -> &'static [&'static str] {
    if said.chart.transitions.is_empty() {
        &["INITIAL_STEP", "STEP", "TRANSITION"]
    } else {
        &["TRANSITION"]
    }
}

// GRAMMAR.md: "initial = "INITIAL_STEP" step-name ":" { association ";" } "END_STEP""; "step =
// "STEP" step-name ":" { association ";" } "END_STEP"" (behind the first keyword); "Steps, in the
// text's order, initial or not."; "Blocks, in the text's order"
fn parse_step(text: &mut Text, said: &mut Said, initial: u8) -> Result<(), (Code, usize)> {
    token_ahead(text);
    let place = text.place;
    let name = parse_name(text, "S", 63)?;
    said.names.push((name, place));
    parse_sign(text, ":")?;
    while token_ahead(text) == Some(b'A') {
        let block = parse_association(text, said.chart.steps.len())?;
        said.chart.blocks.push(block);
        parse_sign(text, ";")?;
    }
    parse_word(text, &["END_STEP"])?;
    said.chart.steps.push(Step { initial });
    Ok(())
}

// GRAMMAR.md: "association = action-name "(" [ qualifier ] ")""; "the step in which it stands, the
// action, the qualifier by document 01's numbers, and the duration"
fn parse_association(text: &mut Text, step: usize) -> Result<Block, (Code, usize)> {
    let action = parse_name(text, "A", 31)?;
    parse_sign(text, "(")?;
    let (qualifier, duration) = match token_ahead(text) {
        Some(b')') => (0, 0),
        _ => parse_qualifier(text)?,
    };
    parse_sign(text, ")")?;
    Ok(Block { step, action, qualifier, duration })
}

// GRAMMAR.md: "qualifier = "N" | "R" | "S" | "P" | "P1" | "P0" | ( "L" | "D" | "SD" | "DS" | "SL" )
// "," duration"; "the qualifier by document 01's numbers, and the duration, 0 where there is none"
fn parse_qualifier(text: &mut Text) -> Result<(u8, u32), (Code, usize)> {
    let words = ["N", "R", "S", "L", "D", "P", "SD", "DS", "SL", "P1", "P0"];
    let qualifier = qualifier_number(parse_word(text, &words)?);
    if !qualifier_of(qualifier).map_or(false, is_timed) {
        return Ok((qualifier, 0));
    }
    parse_sign(text, ",")?;
    Ok((qualifier, parse_duration(text)?))
}

// "Qualifiers: 0 N, 1 R, 2 S, 3 L, 4 D, 5 P, 6 SD, 7 DS, 8 SL, 9 P1, 10 P0." (11 for another word,
// which is none of them)
fn qualifier_number(word: &str) -> u8 {
    match word {
        "N" => 0,
        "R" => 1,
        "S" => 2,
        "L" => 3,
        "D" => 4,
        "P" => 5,
        "SD" => 6,
        "DS" => 7,
        "SL" => 8,
        "P1" => 9,
        "P0" => 10,
        _ => 11,
    }
}

// GRAMMAR.md: "transition = "TRANSITION" "FROM" steps "TO" steps ":=" condition ";"
// "END_TRANSITION"" (behind the first keyword); "Transitions, in the text's order"; "The wait is
// 0."
fn parse_transition(text: &mut Text, said: &mut Said) -> Result<(), (Code, usize)> {
    parse_word(text, &["FROM"])?;
    let sources = parse_steps(text)?;
    parse_word(text, &["TO"])?;
    let targets = parse_steps(text)?;
    parse_sign(text, ":=")?;
    let (on, off) = parse_condition(text)?;
    parse_sign(text, ";")?;
    parse_word(text, &["END_TRANSITION"])?;
    said.chart.transitions.push(Transition { sources, targets, on, off, wait: 0 });
    Ok(())
}

// GRAMMAR.md: "steps = step-name | "(" step-name "," step-name { "," step-name } ")""; "the sources
// and targets as sets, so that a name twice in a list counts once"
fn parse_steps(text: &mut Text) -> Result<Set, (Code, usize)> {
    let mut steps = Set::new();
    if token_ahead(text) != Some(b'(') {
        steps.insert(parse_name(text, "S", 63)?);
        return Ok(steps);
    }
    parse_sign(text, "(")?;
    steps.insert(parse_name(text, "S", 63)?);
    parse_sign(text, ",")?;
    steps.insert(parse_name(text, "S", 63)?);
    while token_ahead(text) == Some(b',') {
        parse_sign(text, ",")?;
        steps.insert(parse_name(text, "S", 63)?);
    }
    parse_sign(text, ")")?;
    Ok(steps)
}

// GRAMMAR.md: "condition = "TRUE" | input { "AND" input }"; "the plain inputs as `on`, those after
// NOT as `off`, the same way; TRUE asks for nothing"
fn parse_condition(text: &mut Text) -> Result<(Set, Set), (Code, usize)> {
    let (mut on, mut off) = (Set::new(), Set::new());
    if token_ahead(text) == Some(b'T') {
        parse_word(text, &["TRUE"])?;
        return Ok((on, off));
    }
    parse_input(text, &mut on, &mut off)?;
    while token_ahead(text) == Some(b'A') {
        parse_word(text, &["AND"])?;
        parse_input(text, &mut on, &mut off)?;
    }
    Ok((on, off))
}

// GRAMMAR.md: "input = [ "NOT" ] input-name"; "the plain inputs as `on`, those after NOT as `off`"
fn parse_input(text: &mut Text, on: &mut Set, off: &mut Set) -> Result<(), (Code, usize)> {
    if token_ahead(text) == Some(b'N') {
        parse_word(text, &["NOT"])?;
        off.insert(parse_name(text, "X", 31)?);
    } else {
        on.insert(parse_name(text, "X", 31)?);
    }
    Ok(())
}

// ---------------------------------------------------------------------------------------------
// The hold key (request (vii) of document 02)
// ---------------------------------------------------------------------------------------------

// Request (vii): "one call to set it and one to clear it"; "... return the run ..." (with the
// number of refusal)
struct Turned {
    code: Code,
    run: Run,
}

// Request (vii): "The run record gets a hold mark, with one call to set it ..."
fn set_hold(held: &Held, run: &Run) -> Turned {
    turn_key(held, run, 1)
}

// Request (vii): "... and one to clear it."
fn clear_hold(held: &Held, run: &Run) -> Turned {
    turn_key(held, run, 0)
}

// Request (vii): "setting and clearing test chart, then 12, and refused return the run as given"
// (accepted, all else in the run stays, the clock reading and the activity too)
fn turn_key(held: &Held, given: &Run, mark: u8) -> Turned {
    let mut run = given.clone();
    match test_chart(held).and_then(|chart| test_run(&chart, given)) {
        Ok(()) => {
            run.hold_mark = mark;
            Turned { code: 0, run }
        }
        Err(code) => Turned { code, run },
    }
}

// Request (vii): "In a cycle under hold no transition is taken and step counters stand still, while
// action timers run on. Actions and outputs are worked out as usual, with nothing entered or left."
// Document 01: "The run keeps the clock reading and the activity." (The inputs play no part:
// without guards and left steps nothing reads them. Nor does the edition of request (viii): without
// taken transitions there are no targets.)
fn do_cycle_under_hold(chart: &Chart, given: &Run, clock: u32, outputs: &mut [i32]) -> Answer {
    let nothing = Set::new();
    let mut run = given.clone();
    grow(&mut run.action_timers, &given.latched, elapsed(clock, given.clock));
    do_actions(chart, &mut run, &nothing, &nothing);
    write_outputs(chart, &run.activity, outputs);
    run.clock = clock;
    Answer { code: 0, taken: nothing, reasons: reasons_under_hold(chart), run }
}

// Request (vii): "reason 7 of request (vi) is "hold" and comes first"; request (vi): "Reasons ...
// beyond the last transition are 0."
fn reasons_under_hold(chart: &Chart) -> Vec<u8> {
    let mut reasons = no_reasons();
    for k in 0..chart.transitions.len() {
        put(&mut reasons, k, 7);
    }
    reasons
}

// ---------------------------------------------------------------------------------------------
// An index of leaving transitions (request (ix) of document 02)
// ---------------------------------------------------------------------------------------------

// Request (ix): "building ... refused gives all zeros" (the number of refusal, and the index: 64
// sets of transitions, set k for step k)
struct Building {
    code: Code,
    index: Vec<Set>,
}

// Request (ix): "building tests the chart and refused gives all zeros"
fn build_index(held: &Held) -> Building {
    match test_chart(held) {
        Ok(chart) => Building { code: 0, index: index_of(&chart) },
        Err(code) => Building { code, index: no_index() },
    }
}

// Request (ix): "... refused gives all zeros" (no transition for any step)
fn no_index() -> Vec<Set> {
    vec![Set::new(); 64]
}

// Request (ix): "Beside the chart keep, for every step, the set of transitions that have it as a
// source"; "0 beyond the last step"
fn index_of(chart: &Chart) -> Vec<Set> {
    let mut index = no_index();
    for step in 0..chart.steps.len() {
        put(&mut index, step, leaving_transitions(chart, step));
    }
    index
}

// Request (ix): "the set of transitions that have it as a source" (a step)
fn leaving_transitions(chart: &Chart, step: usize) -> Set {
    let transitions = chart.transitions.iter().enumerate();
    transitions.filter(|(_, t)| t.sources.contains(&step)).map(|(k, _)| k).collect()
}

// Request (ix): "20 when it is not exactly the index of this chart, 0 beyond the last step"
fn test_index(chart: &Chart, index: &[Set]) -> Result<(), Code> {
    if index != index_of(chart) {
        return Err(20);
    }
    Ok(())
}

// "a cycle tests 15, chart, 12, 11"; request (ix): "20 ..., tested after the chart and before 12"
fn test_cycle_with_index(
    held: &Held,
    index: &[Set],
    run: &Run,
    clock: u32,
    outputs: &[i32],
) -> Result<(), Code> {
    test_outputs(outputs)?;
    let chart = test_chart(held)?;
    test_index(&chart, index)?;
    test_run(&chart, run)?;
    test_elapsed(clock, run.clock)
}

// Request (ix): "A cycle that consults only transitions leaving some active step takes the same
// ones, in both editions, and gives the same answer throughout." (so the answer is that of a cycle
// without an index); document 01: "a refused cycle the run it was given"
fn cycle_with_index(
    held: &Held,
    index: &[Set],
    run: &Run,
    clock: u32,
    inputs: u32,
    outputs: &mut [i32],
) -> Answer {
    match test_cycle_with_index(held, index, run, clock, outputs) {
        Ok(()) => cycle(held, run, clock, inputs, outputs),
        Err(code) => refusal(code, run.clone()),
    }
}

// Request (iii): "Refusals: 15, chart, 12, then 18 ..., all before any cycle"; request (ix): "20
// ..., tested after the chart and before 12"
fn test_shift_with_index(
    held: &Held,
    index: &[Set],
    run: &Run,
    lengths: [usize; 3],
    outputs: &[i32],
) -> Result<(), Code> {
    test_outputs(outputs)?;
    let chart = test_chart(held)?;
    test_index(&chart, index)?;
    test_run(&chart, run)?;
    test_lengths(lengths)
}

// Request (iii): "The result equals the calls made singly."; "... all before any cycle, with 0
// accepted and nothing written"; request (ix): "... gives the same answer throughout" (chart and
// index stay as they are during the shift, so one test of the index serves for all its cycles)
fn shift_with_index(
    held: &Held,
    index: &[Set],
    run: &Run,
    clocks: &[u32],
    inputs: &[u32],
    words: &mut [u64],
    outputs: &mut [i32],
) -> Shift {
    let lengths = [clocks.len(), inputs.len(), words.len()];
    match test_shift_with_index(held, index, run, lengths, outputs) {
        Ok(()) => do_shift(held, run, clocks, inputs, words, outputs),
        Err(code) => Shift { code, accepted: 0, run: run.clone() },
    }
}

// ---------------------------------------------------------------------------------------------
// Adding weighings (request (x) of document 02)
// ---------------------------------------------------------------------------------------------

// Request (x): "21 with the first step whose sum doesn't fit" (the number of refusal and that step,
// which is 0 unless the number is 21)
#[derive(Clone, Copy, PartialEq)]
struct Adding {
    code: Code,
    step: u64,
}

// Request (x): "Supply the sum, step by step, in a third lent list."; "... nothing written"
fn add_weighings(held: &Held, first: &[u16], second: &[u16], third: &mut [u16]) -> Adding {
    match test_adding(held, first, second, third) {
        Ok(sums) => {
            for (step, sum) in sums.iter().enumerate() {
                put(third, step, *sum);
            }
            Adding { code: 0, step: 0 }
        }
        Err(refused) => refused,
    }
}

// Request (x): "Refusals: chart; 13 if any of the three lengths is wrong; 21 ..." (the sums to be
// written if there is no refusal; 14 is none of the refusals, so the two need not be balanced)
fn test_adding(
    held: &Held,
    first: &[u16],
    second: &[u16],
    third: &[u16],
) -> Result<Vec<u16>, Adding> {
    match test_weights(held, &[first.len(), second.len(), third.len()]) {
        Ok(_) => sums_of(first, second).map_err(|step| Adding { code: 21, step }),
        Err(code) => Err(Adding { code, step: 0 }),
    }
}

// Request (x): "the sum, step by step"; "no step's sum exceeds 65,535" (or "the first step whose
// sum doesn't fit")
fn sums_of(first: &[u16], second: &[u16]) -> Result<Vec<u16>, u64> {
    let mut sums = Vec::new();
    for (step, (one, other)) in first.iter().zip(second).enumerate() {
        let sum = u32::from(*one) + u32::from(*other);
        if sum > 65_535 {
            return Err(step as u64);
        }
        sums.push(sum as u16);
    }
    Ok(sums)
}

// ---------------------------------------------------------------------------------------------
// Stored from set to reset (request (xi) of document 02)
// ---------------------------------------------------------------------------------------------

// Request (xi): "some call set it and no call ... reset it" (what one accepted call did: the
// actions that it set and those that it reset; "64-bit sets, bit k is number k")
#[derive(Clone, Copy, PartialEq)]
struct Done {
    set: u64,
    reset: u64,
}

// "64-bit sets, bit k is number k" (whether number k is in one)
fn has(word: u64, k: usize) -> bool {
    k < 64 && (word >> k) & 1 == 1
}

// Request (xi): "Set means an active S block, or an active DS block whose counter had reached its
// duration" (whether a block sets its action)
fn block_sets(block: &Block, active: &Set, counters: &[u32]) -> bool {
    let sets = match qualifier_of(block.qualifier) {
        Some(Qualifier::S) => true,
        Some(Qualifier::DS) => at(counters, block.step) >= block.duration,
        _ => false,
    };
    sets && active.contains(&block.step)
}

// ""Reset": some active step has an R block for it." (whether a block resets its action)
fn block_resets(block: &Block, active: &Set) -> bool {
    qualifier_of(block.qualifier) == Some(Qualifier::R) && active.contains(&block.step)
}

// Request (xi): "Set means ..., the start counted as a call." Document 01: "Actions, from the steps
// now active." (what a call did that left these steps active with these counters; a call may both
// set and reset an action)
fn done_by(chart: &Chart, active: &Set, counters: &[u32]) -> Done {
    let actions_of = |does: &dyn Fn(&Block) -> bool| {
        let blocks = chart.blocks.iter().filter(|block| does(block));
        word_of(&blocks.map(|block| block.action).collect())
    };
    Done {
        set: actions_of(&|block| block_sets(block, active, counters)),
        reset: actions_of(&|block| block_resets(block, active)),
    }
}

// Request (xi): "an action is stored exactly if some call set it and no call from that one on,
// itself included, reset it" (The latest call stands last in the history. Taken from the latest
// backwards, and no further than to the first that reset the action, they are just those calls for
// which "no call from that one on, itself included, reset it" is true; some of them must have set
// it.)
fn is_stored(history: &[Done], action: usize) -> bool {
    let mut none_reset_from_it = history.iter().rev().take_while(|call| !has(call.reset, action));
    none_reset_from_it.any(|call| has(call.set, action))
}

// Request (xi): "an action is stored exactly if ..." (all actions of the chart that are)
fn stored_by_sentence(sequence: &Sequence) -> Set {
    let actions = numbers(sequence.held.tables.actions.len());
    actions.into_iter().filter(|action| is_stored(&sequence.history, *action)).collect()
}

// Request (xi): "any sequence of accepted calls from a start, each given the run that the one
// before returned" (the run returned last, the outputs lent to every call, and what each accepted
// call did, the start first)
struct Sequence {
    held: Held,
    run: Run,
    outputs: Vec<i32>,
    history: Vec<Done>,
}

// Request (xi): "any sequence of accepted calls ... Hold and both editions are included." (a call
// behind the start: a cycle with clock and inputs, setting the hold mark, clearing it, or a shift
// with its clocks and its inputs)
#[derive(Clone, PartialEq)]
enum Entry {
    Cycle(u32, u32),
    Hold,
    Release,
    Shift(Vec<u32>, Vec<u32>),
}

// Request (xi): "from a start" (with its number; "A refused start returns an all-zero run", and the
// history is then empty)
fn begin_sequence(chart: &Chart, clock: u32) -> (Code, Sequence) {
    let held = hold(chart);
    let mut outputs = vec![0; 32];
    let answer = start(&held, clock, &mut outputs);
    let mut sequence = Sequence { held, run: zero_run(), outputs, history: Vec::new() };
    add_call(&mut sequence, answer.code, answer.run);
    (answer.code, sequence)
}

// Request (xi): "any sequence of accepted calls ..., each given the run that the one before
// returned" (a refused call adds nothing to the history)
fn add_call(sequence: &mut Sequence, code: Code, run: Run) {
    if code == 0 {
        let done = done_by(&sequence.held.tables, &run.active, &run.step_counters);
        sequence.history.push(done);
    }
    sequence.run = run;
}

// Request (xi): "each given the run that the one before returned" (one call more; its number and,
// for a shift alone, how many of its cycles were accepted)
fn make_call(sequence: &mut Sequence, entry: &Entry) -> (Code, Option<u64>) {
    let Sequence { held, run, outputs, .. } = sequence;
    let (code, run) = match entry {
        Entry::Cycle(clock, inputs) => {
            let answer = cycle(held, run, *clock, *inputs, outputs);
            (answer.code, answer.run)
        }
        Entry::Hold => {
            let answer = set_hold(held, run);
            (answer.code, answer.run)
        }
        Entry::Release => {
            let answer = clear_hold(held, run);
            (answer.code, answer.run)
        }
        Entry::Shift(clocks, inputs) => return make_shift(sequence, clocks, inputs),
    };
    add_call(sequence, code, run);
    (code, None)
}

// Request (iii): "The result equals the calls made singly. It stops at the first refused cycle and
// returns the number accepted and the run there" (so each accepted cycle of a shift is a call of
// its own; they are made singly, for the history alone, from the run that the shift was given)
fn make_shift(sequence: &mut Sequence, clocks: &[u32], inputs: &[u32]) -> (Code, Option<u64>) {
    let mut words = vec![0; clocks.len()];
    let Sequence { held, run, outputs, .. } = sequence;
    let whole = shift(held, run, clocks, inputs, &mut words, outputs);
    let mut outputs = vec![0; 32];
    for (clock, inputs) in clocks.iter().zip(inputs).take(whole.accepted as usize) {
        let single = cycle(&sequence.held, &sequence.run, *clock, *inputs, &mut outputs);
        add_call(sequence, single.code, single.run);
    }
    sequence.run = whole.run;
    (whole.code, Some(whole.accepted))
}

// ---------------------------------------------------------------------------------------------
// The printed run
// ---------------------------------------------------------------------------------------------

enum Call {
    Start { clock: u32 },
    Cycle { clock: u32, inputs: u32 },
}

// "one start record (kind 17, body 4: clock) and then cycle records (kind 16, body 8: clock,
// inputs), framed as in the chart file"; "16 | a trace record is cut, unknown, of wrong length,
// begins at byte 65,528 or later, or a start record is not exactly the first" (nothing for these)
fn trace_record(trace: &[u8], place: usize) -> Option<Call> {
    if place >= 65_528 {
        return None;
    }
    let length = number(trace, place, 2)?;
    let kind = number(trace, place + 2, 2)?;
    match (kind, length) {
        (17, 4) if place == 0 => {
            let clock = number(trace, place + 4, 4)? as u32;
            Some(Call::Start { clock })
        }
        (16, 8) if place != 0 => {
            let clock = number(trace, place + 4, 4)? as u32;
            let inputs = number(trace, place + 8, 4)? as u32;
            Some(Call::Cycle { clock, inputs })
        }
        _ => None,
    }
}

// "Program bench-run reads the file chart.bin and a trace on standard input"; "A chart file that
// can't be opened counts as empty; of a longer one the first 65,536 bytes are read, and they
// decide"; "A bad chart prints `refused chart` and the code ... stop there."
fn bench_run(file: Option<&[u8]>, trace: &[u8]) -> Vec<u8> {
    let file = file.unwrap_or(&[]);
    let file = file.get(..65_536).unwrap_or(file);
    let reading = read_chart(file);
    if reading.code != 0 {
        return format!("refused chart {}\n", reading.code).into_bytes();
    }
    print_calls(&hold(&reading.chart), trace).into_bytes()
}

// "Calls, refused ones too, are numbered from 0."; "a bad trace record `refused trace 16`; both
// stop there. Otherwise the tally ends the run"; "ended by the end of input"; "A refused cycle
// prints its number, `refused` and the code, and the run goes on."; request (vi): "... prints a
// second line ..." (for a cycle, never for a start)
fn print_calls(held: &Held, trace: &[u8]) -> String {
    let mut text = String::new();
    let mut run = zero_run();
    let mut outputs = vec![0; 32];
    let mut place = 0;
    let mut call_number: u64 = 0;
    while place < trace.len() {
        let answer = match trace_record(trace, place) {
            None => {
                text.push_str("refused trace 16\n");
                return text;
            }
            Some(Call::Start { clock }) => {
                place += 8;
                let answer = start(held, clock, &mut outputs);
                text.push_str(&call_line(call_number, &answer));
                answer
            }
            Some(Call::Cycle { clock, inputs }) => {
                place += 12;
                let answer = cycle(held, &run, clock, inputs, &mut outputs);
                text.push_str(&call_line(call_number, &answer));
                text.push_str(&second_line(held, &answer));
                answer
            }
        };
        run = answer.run;
        call_number += 1;
    }
    text.push_str(&tally_line(&tally(held, &run)));
    text
}

// "Per accepted call it prints its number (decimal), active steps (16 hex digits), activity (8),
// taken (16), with single spaces. Lower-case hex; each line ends in byte 10. A refused cycle prints
// its number, `refused` and the code"
fn call_line(call_number: u64, answer: &Answer) -> String {
    if answer.code != 0 {
        return format!("{} refused {}\n", call_number, answer.code);
    }
    let active = word_of(&answer.run.active);
    let activity = word_of(&answer.run.activity);
    let taken = word_of(&answer.taken);
    format!("{} {:016x} {:08x} {:016x}\n", call_number, active, activity, taken)
}

// Request (vi): "bench-run, when an accepted cycle takes nothing, prints a second line with the
// reason of every transition in number order as one digit" (nothing at all for another cycle);
// "each line ends in byte 10"
fn second_line(held: &Held, answer: &Answer) -> String {
    if answer.code != 0 || !answer.taken.is_empty() {
        return String::new();
    }
    let transitions = held.counts.transitions as usize;
    let reasons = answer.reasons.iter().take(transitions);
    let digits: String = reasons.map(|reason| reason.to_string()).collect();
    digits + "\n"
}

// "one line of `passed`, `failed` and `notrun`, each followed by its count in decimal, with single
// spaces"
fn tally_line(tally: &Tally) -> String {
    format!("passed {} failed {} notrun {}\n", tally.passed, tally.failed, tally.notrun)
}

// ---------------------------------------------------------------------------------------------
// The command line (not spoken of in document 01 or in the requests followed)
// ---------------------------------------------------------------------------------------------

// For the command line: one case of `print`, and what is printed for it.
fn print_case(input: &mut Fields) -> Option<Vec<u8>> {
    let length = input.take(4)?;
    let file = if length == 4_294_967_295 { None } else { Some(input.slice(length as usize)?) };
    let length = input.take(4)?;
    let trace = input.slice(length as usize)?;
    let printed = bench_run(file, trace);
    let mut output = (printed.len() as u32).to_le_bytes().to_vec();
    output.extend(printed);
    Some(output)
}

// For the command line: one case of `read`: the number, the place, the five counts and, last, the
// edition. "A refused reading returns an all-zero chart and a place" (so its edition is 0)
fn read_case(input: &mut Fields) -> Option<Vec<u8>> {
    let length = input.take(4)?;
    let reading = read_chart(input.slice(length as usize)?);
    Some(line_of(reading_values(&reading).iter()))
}

// For the command line: the number, the place, the five counts and the edition of a reading.
fn reading_values(reading: &Reading) -> [u64; 8] {
    let counts = hold(&reading.chart).counts;
    [
        reading.code,
        reading.place as u64,
        counts.steps,
        counts.actions,
        counts.transitions,
        counts.blocks,
        counts.cases,
        u64::from(reading.chart.edition),
    ]
}

// For the command line: one case of `texts`, framed as in `read`: the number, the place, the five
// counts and the edition, as in `read`, and of an accepted text the chart's file in hex, in one
// word. Request (i): "Write a held chart ... in the form of document 01."
fn texts_case(input: &mut Fields) -> Option<Vec<u8>> {
    let length = input.take(4)?;
    let reading = read_text(input.slice(length as usize)?);
    let mut words: Vec<String> =
        reading_values(&reading).iter().map(|value| value.to_string()).collect();
    if reading.code == 0 {
        words.push(hex_of(&file_of(&reading.chart)));
    }
    Some(line_of(words.iter()))
}

// For the command line: bytes in lower-case hex, two digits each, with nothing between.
fn hex_of(bytes: &[u8]) -> String {
    let digits = bytes.iter().flat_map(|byte| [byte / 16, byte % 16]);
    digits.filter_map(|digit| char::from_digit(u32::from(digit), 16)).collect()
}

// For the command line: one case of `back`, framed as in `read`: the number alone if the file is
// refused, else the number and the length of writing it back into as many bytes, each 165 before,
// and whether they then are the file. Request (i): "writing what was read gives the same bytes"
fn back_case(input: &mut Fields) -> Option<Vec<u8>> {
    let length = input.take(4)?;
    let file = input.slice(length as usize)?;
    let reading = read_chart(file);
    if reading.code != 0 {
        return Some(line_of([reading.code].iter()));
    }
    let mut lent = vec![165; file.len()];
    let answer = write_chart(&hold(&reading.chart), &mut lent);
    let compared = if lent == file { "same" } else { "differs" };
    Some(format!("{} {} {}\n", answer.code, answer.length, compared).into_bytes())
}

// For the command line: numbers in decimal with single spaces.
fn line_of<T: ToString>(values: impl Iterator<Item = T>) -> Vec<u8> {
    let words: Vec<String> = values.map(|value| value.to_string()).collect();
    (words.join(" ") + "\n").into_bytes()
}

// For the command line: a chart image, with the edition behind the table of expected values and
// then 7 bytes of padding, which are passed over.
fn chart_image(input: &mut Fields) -> Option<Held> {
    let counts = Counts {
        steps: input.take(8)?,
        actions: input.take(8)?,
        transitions: input.take(8)?,
        blocks: input.take(8)?,
        cases: input.take(8)?,
    };
    let initial = input.column(64, 1)?;
    let output = input.column(32, 1)?;
    let value = input.column(32, 4)?;
    let step = |k| Step { initial: at(&initial, k) as u8 };
    let action =
        |k| Action { output: at(&output, k) as u8, value: at(&value, k) as u32 as i32 };
    let tables = Chart {
        steps: (0..64).map(step).collect(),
        actions: (0..32).map(action).collect(),
        transitions: transitions_image(input)?,
        blocks: blocks_image(input)?,
        cases: cases_image(input)?,
        edition: input.take(1)? as u8,
    };
    input.slice(7)?;
    Some(Held { counts, tables })
}

// For the command line: the transitions of a chart image.
fn transitions_image(input: &mut Fields) -> Option<Vec<Transition>> {
    let sources = input.column(64, 8)?;
    let targets = input.column(64, 8)?;
    let on = input.column(64, 8)?;
    let off = input.column(64, 8)?;
    let wait = input.column(64, 4)?;
    let transition = |k| Transition {
        sources: set_of(at(&sources, k)),
        targets: set_of(at(&targets, k)),
        on: set_of(at(&on, k)),
        off: set_of(at(&off, k)),
        wait: at(&wait, k) as u32,
    };
    Some((0..64).map(transition).collect())
}

// For the command line: the blocks of a chart image.
fn blocks_image(input: &mut Fields) -> Option<Vec<Block>> {
    let step = input.column(256, 1)?;
    let action = input.column(256, 1)?;
    let qualifier = input.column(256, 1)?;
    let duration = input.column(256, 4)?;
    let block = |k| Block {
        step: at(&step, k) as usize,
        action: at(&action, k) as usize,
        qualifier: at(&qualifier, k) as u8,
        duration: at(&duration, k) as u32,
    };
    Some((0..256).map(block).collect())
}

// For the command line: the cases of a chart image.
fn cases_image(input: &mut Fields) -> Option<Vec<Case>> {
    let step = input.column(64, 1)?;
    let signal = input.column(64, 1)?;
    let expected = input.column(64, 1)?;
    let case = |k| Case {
        step: at(&step, k) as usize,
        signal: at(&signal, k) as usize,
        expected: at(&expected, k) as u8,
    };
    Some((0..64).map(case).collect())
}

// For the command line: a run image, with the hold mark as its last byte. Every set keeps all 64
// numbers and the mark is any byte, so that a refused cycle can give back "the run it was given".
fn run_image(input: &mut Fields) -> Option<Run> {
    let clock = input.take(4)? as u32;
    let active = set_of(input.take(8)?);
    let activity = set_of(input.take(8)?);
    let stored = set_of(input.take(8)?);
    let latched = set_of(input.take(8)?);
    let step_counters = input.column(64, 4)?.iter().map(|time| *time as u32).collect();
    let action_timers = input.column(32, 4)?.iter().map(|time| *time as u32).collect();
    let good = set_of(input.take(8)?);
    let bad = set_of(input.take(8)?);
    let hold_mark = input.take(1)? as u8;
    Some(Run {
        clock,
        active,
        activity,
        stored,
        latched,
        step_counters,
        action_timers,
        good,
        bad,
        hold_mark,
    })
}

// For the command line: an index, 64 words of 8 bytes, word k for step k. "64-bit sets, bit k is
// number k"
fn index_image(input: &mut Fields) -> Option<Vec<Set>> {
    Some(input.column(64, 8)?.iter().map(|word| set_of(*word)).collect())
}

// For the command line: the lists of a shift. There are as many clocks as the two lowest bytes of
// the call's clock say, as many inputs as its two highest say and as many activity words as the two
// lowest bytes of the call's inputs say, word k holding 4,294,967,296 + k before.
struct Lists {
    clocks: Vec<u32>,
    inputs: Vec<u32>,
    words: Vec<u64>,
}

// For the command line: the clocks and then the inputs, four bytes each, and the lent words.
fn lists_image(input: &mut Fields, clock: u32, lent: u32) -> Option<Lists> {
    let clocks = input.column((clock % 65_536) as usize, 4)?;
    let inputs = input.column((clock / 65_536) as usize, 4)?;
    Some(Lists {
        clocks: clocks.iter().map(|clock| *clock as u32).collect(),
        inputs: inputs.iter().map(|word| *word as u32).collect(),
        words: (0..lent % 65_536).map(|k| 4_294_967_296 + u64::from(k)).collect(),
    })
}

// For the command line: so many weights, two bytes each. The second weighing has as many as the two
// lowest bytes of the call's clock say.
fn weights_image(input: &mut Fields, count: usize) -> Option<Vec<u16>> {
    Some(input.column(count, 2)?.iter().map(|weight| *weight as u16).collect())
}

// For the command line: one case of `held`, and its line. The calls are 0 start, 1 cycle, 2 tally,
// 3 weighing, 4 writing, 5 shift, 6 setting the hold mark, 7 clearing it, 8 building an index, 9
// cycle with an index, 10 shift with an index and 11 adding weighings. The index follows the
// weights, a shift's clocks and inputs follow the index or, where there is none, the weights, and
// the second weighing follows the weights, which are the first.
fn held_case(input: &mut Fields) -> Option<Vec<u8>> {
    let held = chart_image(input)?;
    let run = run_image(input)?;
    let kind = input.take(1)?;
    let clock = input.take(4)? as u32;
    let inputs = input.take(4)? as u32;
    let lent = input.take(1)? as i32;
    let weights = input.take(1)? as usize;
    let weights = weights_image(input, weights)?;
    let mut outputs: Vec<i32> = (0..lent).map(|k| 1000 + k).collect();
    let line = match kind {
        0 => start_line(&start(&held, clock, &mut outputs), &outputs),
        1 => cycle_line(&cycle(&held, &run, clock, inputs, &mut outputs), &outputs),
        2 => {
            let answer = tally(&held, &run);
            line_of([answer.code, answer.passed, answer.failed, answer.notrun].iter())
        }
        3 => {
            let answer = weighing(&held, &weights);
            line_of([answer.code, answer.transition, answer.total].iter())
        }
        4 => writing_line(&held, clock),
        5 => {
            let Lists { clocks, inputs, mut words } = lists_image(input, clock, inputs)?;
            let answer = shift(&held, &run, &clocks, &inputs, &mut words, &mut outputs);
            shift_line(&answer, &outputs, &words)
        }
        6 => turned_line(&set_hold(&held, &run)),
        7 => turned_line(&clear_hold(&held, &run)),
        8 => building_line(&build_index(&held)),
        9 => {
            let index = index_image(input)?;
            let answer = cycle_with_index(&held, &index, &run, clock, inputs, &mut outputs);
            cycle_line(&answer, &outputs)
        }
        10 => {
            let index = index_image(input)?;
            let Lists { clocks, inputs, mut words } = lists_image(input, clock, inputs)?;
            let answer =
                shift_with_index(&held, &index, &run, &clocks, &inputs, &mut words, &mut outputs);
            shift_line(&answer, &outputs, &words)
        }
        11 => {
            let second = weights_image(input, (clock % 65_536) as usize)?;
            adding_line(&held, &weights, &second, inputs)
        }
        _ => b"unknown call\n".to_vec(),
    };
    Some(line)
}

// For the command line: the line of a start.
fn start_line(answer: &Answer, outputs: &[i32]) -> Vec<u8> {
    line_of(answer_values(answer, outputs).iter())
}

// For the command line: the line of a cycle, with the 64 reasons as its last 64 numbers.
fn cycle_line(answer: &Answer, outputs: &[i32]) -> Vec<u8> {
    let mut values = answer_values(answer, outputs);
    values.extend(answer.reasons.iter().map(|reason| i128::from(*reason)));
    line_of(values.iter())
}

// For the command line: the number, the transitions taken, the run and the lent outputs, in the
// line of a start or a cycle.
fn answer_values(answer: &Answer, outputs: &[i32]) -> Vec<i128> {
    let mut values = vec![i128::from(answer.code), i128::from(word_of(&answer.taken))];
    values.extend(run_values(&answer.run));
    values.extend(outputs.iter().map(|value| i128::from(*value)));
    values
}

// For the command line: the line of setting or clearing the hold mark: the number, 0 (where a start
// has the transitions taken) and the run.
fn turned_line(answer: &Turned) -> Vec<u8> {
    let mut values = vec![i128::from(answer.code), 0];
    values.extend(run_values(&answer.run));
    line_of(values.iter())
}

// For the command line: the fields of a run, in the line of a start, a cycle, a shift or of turning
// the hold key; the hold mark stands between the bad marks and the step counters.
fn run_values(run: &Run) -> Vec<i128> {
    let words = [
        u64::from(run.clock),
        word_of(&run.active),
        word_of(&run.activity),
        word_of(&run.stored),
        word_of(&run.latched),
        word_of(&run.good),
        word_of(&run.bad),
        u64::from(run.hold_mark),
    ];
    let mut values: Vec<i128> = words.iter().map(|word| i128::from(*word)).collect();
    values.extend(run.step_counters.iter().map(|time| i128::from(*time)));
    values.extend(run.action_timers.iter().map(|time| i128::from(*time)));
    values
}

// For the command line: the line of building an index: the number and the 64 words of the index.
fn building_line(answer: &Building) -> Vec<u8> {
    let mut values = vec![answer.code];
    values.extend(answer.index.iter().map(word_of));
    line_of(values.iter())
}

// For the command line: the line of a shift: the number, the number accepted, the run, the lent
// outputs and then all the lent activity words.
fn shift_line(answer: &Shift, outputs: &[i32], words: &[u64]) -> Vec<u8> {
    let mut values = vec![i128::from(answer.code), i128::from(answer.accepted)];
    values.extend(run_values(&answer.run));
    values.extend(outputs.iter().map(|value| i128::from(*value)));
    values.extend(words.iter().map(|word| i128::from(*word)));
    line_of(values.iter())
}

// For the command line: the line of a writing: the number, the length and then all the lent bytes.
// There are as many as the two lowest bytes of the call's clock say, byte k holding k % 251 before.
fn writing_line(held: &Held, clock: u32) -> Vec<u8> {
    let mut lent: Vec<u8> = (0..clock % 65_536).map(|k| (k % 251) as u8).collect();
    let answer = write_chart(held, &mut lent);
    let mut values = vec![answer.code, answer.length];
    values.extend(lent.iter().map(|byte| u64::from(*byte)));
    line_of(values.iter())
}

// For the command line: the line of adding weighings: the number, the step and then all the words
// of the third list. There are as many as the two lowest bytes of the call's inputs say, word k
// holding 50,000 + k % 256 before.
fn adding_line(held: &Held, first: &[u16], second: &[u16], inputs: u32) -> Vec<u8> {
    let mut third: Vec<u16> = (0..inputs % 65_536).map(|k| 50_000 + (k % 256) as u16).collect();
    let answer = add_weighings(held, first, second, &mut third);
    let mut values = vec![answer.code, answer.step];
    values.extend(third.iter().map(|word| u64::from(*word)));
    line_of(values.iter())
}

// For the command line: one case of `stored`, and its line: the start and then the entries, one
// after the other. The chart file's length has two bytes, the start's clock four and the number of
// entries two.
fn stored_case(input: &mut Fields) -> Option<Vec<u8>> {
    let length = input.take(2)?;
    let reading = read_chart(input.slice(length as usize)?);
    let clock = input.take(4)? as u32;
    let count = input.take(2)?;
    let entries: Option<Vec<Entry>> = (0..count).map(|_| entry_image(input)).collect();
    let entries = entries?;
    let (code, mut sequence) = begin_sequence(&reading.chart, clock);
    let mut values = values_of_call(&sequence, code, None);
    for entry in &entries {
        let (code, accepted) = make_call(&mut sequence, entry);
        values.extend(values_of_call(&sequence, code, accepted));
    }
    Some(line_of(values.iter()))
}

// For the command line: an entry of `stored`: 0 a cycle, 1 hold, 2 release, 3 a shift with the
// number of its cycles in two bytes, all its clocks and then all its inputs. (Nothing for another
// kind.)
fn entry_image(input: &mut Fields) -> Option<Entry> {
    match input.take(1)? {
        0 => {
            let clock = input.take(4)? as u32;
            Some(Entry::Cycle(clock, input.take(4)? as u32))
        }
        1 => Some(Entry::Hold),
        2 => Some(Entry::Release),
        3 => {
            let count = input.take(2)? as usize;
            let clocks = input.column(count, 4)?.iter().map(|clock| *clock as u32).collect();
            let inputs = input.column(count, 4)?.iter().map(|word| *word as u32).collect();
            Some(Entry::Shift(clocks, inputs))
        }
        _ => None,
    }
}

// For the command line: what the line of `stored` says of a call: its number, for a shift how many
// of its cycles were accepted, the active steps, the stored actions by the sentence of request (xi)
// (not those that the run keeps), the word c, and each step with a counter other than 0.
fn values_of_call(sequence: &Sequence, code: Code, accepted: Option<u64>) -> Vec<String> {
    let mut values = vec![code.to_string()];
    values.extend(accepted.map(|count| count.to_string()));
    values.push(word_of(&sequence.run.active).to_string());
    values.push(word_of(&stored_by_sentence(sequence)).to_string());
    values.push("c".to_string());
    let counters = sequence.run.step_counters.iter().enumerate();
    let running = counters.filter(|(_, counter)| **counter != 0);
    values.extend(running.map(|(step, counter)| format!("{}:{}", step, counter)));
    values
}

// For the command line: all cases of standard input, until its end or a cut case.
fn all_cases(one: fn(&mut Fields) -> Option<Vec<u8>>) {
    let mut bytes = Vec::new();
    let _ = std::io::stdin().lock().read_to_end(&mut bytes);
    let mut input = Fields::new(&bytes);
    let mut output = Vec::new();
    while let Some(printed) = one(&mut input) {
        output.extend(printed);
    }
    say(&output);
}

// For the command line: writes to standard output.
fn say(bytes: &[u8]) {
    let mut stdout = std::io::stdout().lock();
    let _ = stdout.write_all(bytes);
    let _ = stdout.flush();
}

// For the command line: the mode is the first argument.
fn main() {
    let mode = std::env::args_os().nth(1).unwrap_or_default();
    match mode.to_str() {
        Some("print") => all_cases(print_case),
        Some("read") => all_cases(read_case),
        Some("texts") => all_cases(texts_case),
        Some("held") => all_cases(held_case),
        Some("back") => all_cases(back_case),
        Some("stored") => all_cases(stored_case),
        Some("selftest") => selftest(),
        _ => {
            say(b"use: second print | read | texts | held | back | stored | selftest\n");
            std::process::exit(2);
        }
    }
}

// ---------------------------------------------------------------------------------------------
// The selftest: files and traces, written record by record
// ---------------------------------------------------------------------------------------------

// "A file is a run of records: a two-byte body length, a two-byte kind, the body"
fn record(kind: u16, body: &[u8]) -> Vec<u8> {
    let mut bytes = (body.len() as u16).to_le_bytes().to_vec();
    bytes.extend(kind.to_le_bytes());
    bytes.extend(body);
    bytes
}

// "1 step | 1 | 1 initial, 0 not"
fn step(initial: u8) -> Vec<u8> {
    record(1, &[initial])
}

// "2 action | 5 | output 0..31; value, signed 32 bits"
fn action(output: u8, value: i32) -> Vec<u8> {
    let mut body = vec![output];
    body.extend(value.to_le_bytes());
    record(2, &body)
}

// "3 transition | 36 | sources, targets, on, off (64-bit sets, bit k is number k); wait in ms"
fn transition(sources: u64, targets: u64, on: u64, off: u64, wait: u32) -> Vec<u8> {
    let mut body = Vec::new();
    for word in [sources, targets, on, off].iter() {
        body.extend(word.to_le_bytes());
    }
    body.extend(wait.to_le_bytes());
    record(3, &body)
}

// "4 block | 7 | step, action, qualifier (a byte each); duration in ms (32 bits)"
fn block(step: u8, action: u8, qualifier: u8, duration: u32) -> Vec<u8> {
    let mut body = vec![step, action, qualifier];
    body.extend(duration.to_le_bytes());
    record(4, &body)
}

// "5 case | 3 | step, signal 0..63, expected 0 or 1"
fn case(step: u8, signal: u8, expected: u8) -> Vec<u8> {
    record(5, &[step, signal, expected])
}

// Request (viii): "kind 6, one byte with the value 2" (here with any value)
fn edition(value: u8) -> Vec<u8> {
    record(6, &[value])
}

// "then one end record (kind 0, no body)"
fn end() -> Vec<u8> {
    record(0, &[])
}

// "one start record (kind 17, body 4: clock)"
fn start_record(clock: u32) -> Vec<u8> {
    record(17, &clock.to_le_bytes())
}

// "cycle records (kind 16, body 8: clock, inputs)"
fn cycle_record(clock: u32, inputs: u32) -> Vec<u8> {
    let mut body = clock.to_le_bytes().to_vec();
    body.extend(inputs.to_le_bytes());
    record(16, &body)
}

// "Chart A (152 bytes): steps 0 (initial) and 1; actions 0 (output 0, value 120) and 1 (output 0,
// value 7); transition 0 from 0 to 1 on input 0; transition 1 from 1 to 0 on input 1, wait 500;
// blocks step 1 N action 0, step 1 S action 1, step 0 R action 1; one case: step 1, signal 1,
// expected 1."
fn chart_a() -> Vec<u8> {
    [
        step(1),
        step(0),
        action(0, 120),
        action(0, 7),
        transition(1, 2, 1, 0, 0),
        transition(2, 1, 2, 0, 500),
        block(1, 0, 0, 0),
        block(1, 1, 2, 0),
        block(0, 1, 1, 0),
        case(1, 1, 1),
        end(),
    ]
    .concat()
}

// "Chart A ..." (held)
fn held_a() -> Held {
    hold(&read_chart(&chart_a()).chart)
}

// A chart of records without the end record, held.
fn held_of(records: &[Vec<u8>]) -> Held {
    let file = [records.concat(), end()].concat();
    hold(&read_chart(&file).chart)
}

// One start and then cycles, each with clock and inputs; the last answer and its outputs.
fn played(held: &Held, clock: u32, cycles: &[(u32, u32)]) -> (Answer, Vec<i32>) {
    let mut outputs = vec![5; 34];
    let mut answer = start(held, clock, &mut outputs);
    for (clock, inputs) in cycles {
        answer = cycle(held, &answer.run, *clock, *inputs, &mut outputs);
    }
    (answer, outputs)
}

// The code of the answer, the taken transitions, the active steps and the activity after play.
fn seen(held: &Held, clock: u32, cycles: &[(u32, u32)]) -> (Code, u64, u64, u64) {
    let (answer, _) = played(held, clock, cycles);
    let run = &answer.run;
    (answer.code, word_of(&answer.taken), word_of(&run.active), word_of(&run.activity))
}

struct Bench {
    passed: u64,
    productions: Form,
}

impl Bench {
    // One check; the first that fails ends the selftest with exit code 1.
    fn check(&mut self, name: &str, holds: bool) {
        if !holds {
            say(format!("failed: {} (after {} passed)\n", name, self.passed).as_bytes());
            std::process::exit(1);
        }
        self.passed += 1;
    }

    // A reading with its number and place; a refused one has an all-zero chart.
    fn reads(&mut self, name: &str, file: &[Vec<u8>], code: Code, place: usize) {
        let reading = read_chart(&file.concat());
        let counts = hold(&reading.chart).counts;
        let sum =
            counts.steps + counts.actions + counts.transitions + counts.blocks + counts.cases;
        let right = reading.code == code && reading.place == place;
        self.check(name, right && (code == 0 || sum == 0) && (code != 0 || sum != 0));
        let edition = reading.chart.edition;
        self.check(name, if code == 0 { edition == 1 || edition == 2 } else { edition == 0 });
    }

    // The reasons after a start at 0 and cycles: these digits, and 0 for every number behind them;
    // "taken" just where it was before.
    fn waits(&mut self, name: &str, held: &Held, cycles: &[(u32, u32)], digits: &str) {
        let (answer, _) = played(held, 0, cycles);
        self.check(name, answer.code == 0 && answer.reasons == reasons_by_hand(digits));
        self.check(name, digits.len() == held.counts.transitions as usize);
        self.check(name, taken_agree(held, &answer));
    }

    // The index of a chart: these words, one for each step, and 0 for every number behind them; a
    // cycle and a shift with it are accepted and leave what they leave without it.
    fn indexes(&mut self, name: &str, held: &Held, words: &[u64]) {
        let built = build_index(held);
        self.check(name, built.code == 0 && built.index == index_by_hand(words));
        self.check(name, words.len() == held.counts.steps as usize);
        self.check(name, built.index == index_by(held, |t| &t.sources));
        self.check(name, codes_with(held, &built.index, &began(held)) == (0, 0));
    }

    // What a cycle leaves without an index; it leaves the same with one, and the same again if it
    // consults only the transitions leaving some active step.
    fn agree(
        &mut self,
        name: &str,
        held: &Held,
        index: &[Set],
        run: &Run,
        go: (u32, u32),
    ) -> Cycled {
        let plain = cycled(held, run, go, 34);
        self.check(name, cycled_with(held, index, run, go, 34) == plain);
        self.check(name, cycled_leaving(held, index, run, go, 34) == plain);
        plain
    }

    // Two weighings added, in the one order and in the other: both leave this.
    fn adds(&mut self, name: &str, held: &Held, first: &[u16], second: &[u16], left: &Added) {
        self.check(name, added(held, first, second) == *left);
        self.check(name, added(held, second, first) == *left);
    }

    // A start at 0 and then these calls, all accepted: these actions are stored after the start and
    // after each call, by the sentence of request (xi) and by the run's own word.
    fn stores(&mut self, name: &str, held: &Held, entries: &[Entry], words: &[u64]) {
        let wanted: Vec<(Code, u64)> = words.iter().map(|word| (0, *word)).collect();
        self.check(name, stored_after(held, entries) == wanted);
    }

    // A bench-run with chart A and what it prints.
    fn prints(&mut self, name: &str, trace: &[Vec<u8>], printed: &str) {
        let output = bench_run(Some(&chart_a()), &trace.concat());
        self.check(name, output == printed.as_bytes());
    }

    // A text with its number and place; a refused one has an all-zero chart. By the productions it
    // is a text just if the number is not 19, and else the place is the same.
    fn answers(&mut self, name: &str, text: impl AsRef<[u8]>, code: Code, place: usize) {
        let reading = read_text(text.as_ref());
        self.check(name, (reading.code, reading.place) == (code, place));
        let zero = reading.chart == Chart::default();
        self.check(name, zero == (code != 0) && reading.chart.edition == u8::from(code == 0));
        let wanted = if code == 19 { Some(place) } else { None };
        self.check(name, by_productions(&self.productions, text.as_ref()) == wanted);
    }

    // A text that is none: the sign ^, which is taken out, stands before the byte of refusal 19.
    fn stops(&mut self, name: &str, marked: &str) {
        let place = marked.find('^').unwrap_or(usize::MAX);
        self.answers(name, marked.replacen('^', "", 1), 19, place);
    }

    // A text that is accepted and says what the file of these records says.
    fn says(&mut self, name: &str, text: impl AsRef<[u8]>, records: &[Vec<u8>]) {
        let file = [records.concat(), end()].concat();
        self.answers(name, text.as_ref(), 0, 0);
        let said = read_text(text.as_ref()).chart;
        self.check(name, said == read_chart(&file).chart && file_of(&said) == file);
    }
}

// Runs all checks and says how many passed.
fn selftest() {
    let mut bench = Bench { passed: 0, productions: text_form() };
    check_framing(&mut bench);
    check_limits(&mut bench);
    check_ranges(&mut bench);
    check_sets(&mut bench);
    check_ends(&mut bench);
    check_next_record(&mut bench);
    check_held_counts(&mut bench);
    check_held_entries(&mut bench);
    check_held_order(&mut bench);
    check_run_names(&mut bench);
    check_run_times(&mut bench);
    check_call_order(&mut bench);
    check_chart_a(&mut bench);
    check_clock(&mut bench);
    check_cap(&mut bench);
    check_timed(&mut bench);
    check_latches(&mut bench);
    check_pulses(&mut bench);
    check_conflicts(&mut bench);
    check_signals(&mut bench);
    check_outputs(&mut bench);
    check_tally(&mut bench);
    check_weighing(&mut bench);
    check_writing(&mut bench);
    check_writing_17(&mut bench);
    check_writing_order(&mut bench);
    check_writing_beyond(&mut bench);
    check_writing_lines(&mut bench);
    check_shift_none(&mut bench);
    check_shift_several(&mut bench);
    check_shift_singly(&mut bench);
    check_shift_11(&mut bench);
    check_shift_11_places(&mut bench);
    check_shift_order(&mut bench);
    check_shift_18(&mut bench);
    check_shift_4096(&mut bench);
    check_shift_lines(&mut bench);
    check_reason_sources(&mut bench);
    check_reason_guards(&mut bench);
    check_reason_targets(&mut bench);
    check_reason_neighbours(&mut bench);
    check_reason_order(&mut bench);
    check_reason_beyond(&mut bench);
    check_reason_none(&mut bench);
    check_reason_chart_a(&mut bench);
    check_reason_taken(&mut bench);
    check_reason_many(&mut bench);
    check_reason_lines(&mut bench);
    check_text_answers(&mut bench);
    check_text_page(&mut bench);
    check_text_left_out(&mut bench);
    check_text_blocks(&mut bench);
    check_text_transitions(&mut bench);
    check_text_names(&mut bench);
    check_text_qualifiers(&mut bench);
    check_text_durations(&mut bench);
    check_text_blanks(&mut bench);
    check_text_inside(&mut bench);
    check_text_case(&mut bench);
    check_text_25(&mut bench);
    check_text_chart(&mut bench);
    check_text_order(&mut bench);
    check_text_prefixes(&mut bench);
    check_text_strays(&mut bench);
    check_text_by_lot(&mut bench);
    check_text_19_by_lot(&mut bench);
    check_text_all_ways(&mut bench);
    check_text_lines(&mut bench);
    check_hold_key(&mut bench);
    check_hold_mark(&mut bench);
    check_hold_refusals(&mut bench);
    check_hold_order(&mut bench);
    check_hold_counted(&mut bench);
    check_hold_latched(&mut bench);
    check_hold_pulses(&mut bench);
    check_hold_times(&mut bench);
    check_hold_chart_a(&mut bench);
    check_hold_clock(&mut bench);
    check_hold_outputs(&mut bench);
    check_hold_reasons(&mut bench);
    check_hold_start(&mut bench);
    check_hold_shift(&mut bench);
    check_hold_by_lot(&mut bench);
    check_hold_between(&mut bench);
    check_hold_lines(&mut bench);
    check_edition_record(&mut bench);
    check_edition_places(&mut bench);
    check_edition_limits(&mut bench);
    check_edition_next(&mut bench);
    check_edition_held(&mut bench);
    check_edition_zero(&mut bench);
    check_edition_order(&mut bench);
    check_edition_writing(&mut bench);
    check_edition_taken(&mut bench);
    check_edition_counters(&mut bench);
    check_edition_pulses(&mut bench);
    check_edition_actions(&mut bench);
    check_edition_cases(&mut bench);
    check_edition_reasons(&mut bench);
    check_edition_hold(&mut bench);
    check_edition_shift(&mut bench);
    check_edition_same(&mut bench);
    check_edition_by_lot(&mut bench);
    check_edition_ledger(&mut bench);
    check_edition_weighed(&mut bench);
    check_edition_printed(&mut bench);
    check_edition_lines(&mut bench);
    check_index_built(&mut bench);
    check_index_limits(&mut bench);
    check_index_refused(&mut bench);
    check_index_junk(&mut bench);
    check_index_bits(&mut bench);
    check_index_other(&mut bench);
    check_index_altered(&mut bench);
    check_index_altered_by_lot(&mut bench);
    check_index_order(&mut bench);
    check_index_pairs(&mut bench);
    check_index_by_hand(&mut bench);
    check_index_leaving(&mut bench);
    check_index_all_sets(&mut bench);
    check_index_by_lot(&mut bench);
    check_index_wide(&mut bench);
    check_index_shift(&mut bench);
    check_index_teeth(&mut bench);
    check_index_lines(&mut bench);
    check_index_call_lines(&mut bench);
    check_adding_by_hand(&mut bench);
    check_adding_edges(&mut bench);
    check_adding_first(&mut bench);
    check_adding_13(&mut bench);
    check_adding_chart(&mut bench);
    check_adding_junk(&mut bench);
    check_adding_by_lot(&mut bench);
    check_adding_laws(&mut bench);
    check_adding_grouping(&mut bench);
    check_adding_lines(&mut bench);
    check_stored_start(&mut bench);
    check_stored_ring(&mut bench);
    check_stored_itself(&mut bench);
    check_stored_ds(&mut bench);
    check_stored_ds_again(&mut bench);
    check_stored_hold(&mut bench);
    check_stored_refused(&mut bench);
    check_stored_shift(&mut bench);
    check_stored_shift_among(&mut bench);
    check_stored_editions(&mut bench);
    check_stored_apart(&mut bench);
    check_stored_histories(&mut bench);
    check_stored_by_lot(&mut bench);
    check_stored_teeth(&mut bench);
    check_stored_lines(&mut bench);
    check_stored_wide_lines(&mut bench);
    check_stored_told(&mut bench);
    check_stored_cases(&mut bench);
    check_printed(&mut bench);
    check_printed_second(&mut bench);
    check_printed_no_second(&mut bench);
    check_printed_refusals(&mut bench);
    check_trace_length(&mut bench);
    say(format!("selftest: {} passed\n", bench.passed).as_bytes());
}

// ---------------------------------------------------------------------------------------------
// The selftest: the reader
// ---------------------------------------------------------------------------------------------

// Rows 1, 2 and 3, with "head (1), 2, 3, body (1)"; "Empty file: 1, place 0."; request (viii): "2
// now means a kind above 6"
fn check_framing(b: &mut Bench) {
    b.reads("empty file", &[], 1, 0);
    b.reads("three bytes", &[vec![1, 0, 1]], 1, 0);
    b.reads("no end record", &[step(1)], 1, 5);
    b.reads("end record cut", &[step(1), vec![0, 0, 0]], 1, 5);
    b.reads("body cut", &[step(1), vec![5, 0, 2, 0, 0, 0, 0, 0]], 1, 5);
    b.reads("body missing", &[vec![1, 0, 1, 0]], 1, 0);
    b.reads("kind 7", &[step(1), record(7, &[])], 2, 5);
    b.reads("kind 256", &[step(1), record(256, &[])], 2, 5);
    b.reads("kind 1 after 2", &[step(1), action(0, 0), step(0), end()], 2, 14);
    b.reads("2 before 3", &[step(1), record(7, &[1, 2])], 2, 5);
    b.reads("2 before 3, smaller", &[step(1), action(0, 0), vec![9, 0, 1, 0]], 2, 14);
    b.reads("step of 2", &[record(1, &[1, 0]), end()], 3, 0);
    b.reads("step of 0", &[record(1, &[]), end()], 3, 0);
    b.reads("action of 4", &[step(1), record(2, &[0; 4]), end()], 3, 5);
    b.reads("transition of 35", &[step(1), record(3, &[0; 35]), end()], 3, 5);
    b.reads("block of 8", &[step(1), record(4, &[0; 8]), end()], 3, 5);
    b.reads("case of 2", &[step(1), record(5, &[0; 2]), end()], 3, 5);
    b.reads("end of 1", &[step(1), record(0, &[0])], 3, 5);
    b.reads("3 before the cut body", &[vec![2, 0, 1, 0]], 3, 0);
    b.reads("one step", &[step(1), end()], 0, 0);
    b.check("chart A has 152 bytes", chart_a().len() == 152);
    b.reads("chart A", &[chart_a()], 0, 0);
    let counts = held_a().counts;
    let all =
        [counts.steps, counts.actions, counts.transitions, counts.blocks, counts.cases];
    b.check("chart A counts", all == [2, 2, 2, 3, 1]);
}

// Row 4; "64 steps accepted, a 65th refused 4."; "an accepted chart has at most 6,436"
fn check_limits(b: &mut Bench) {
    let steps = |count: usize| step(1).repeat(count);
    let actions = |count: usize| action(31, -1).repeat(count);
    let transitions = |count: usize| transition(1, 2, 0, 0, 0).repeat(count);
    let blocks = |count: usize| block(0, 0, 0, 0).repeat(count);
    let cases = |count: usize| case(0, 0, 0).repeat(count);
    b.reads("64 steps", &[steps(64), end()], 0, 0);
    b.reads("65 steps", &[steps(65), end()], 4, 320);
    b.reads("4 before 5", &[steps(64), step(2), end()], 4, 320);
    b.reads("cut body before 4", &[steps(64), vec![1, 0, 1, 0]], 1, 320);
    b.reads("3 before 4", &[steps(64), record(1, &[1, 1]), end()], 3, 320);
    b.reads("33 actions", &[steps(1), actions(33), end()], 4, 293);
    b.reads("65 transitions", &[steps(2), transitions(65), end()], 4, 2570);
    b.reads("257 blocks", &[steps(1), actions(1), blocks(257), end()], 4, 2830);
    b.reads("65 cases", &[steps(1), cases(65), end()], 4, 453);
    let full =
        [steps(64), actions(32), transitions(64), blocks(256), cases(64), end()].concat();
    b.check("fullest chart has 6,436 bytes", full.len() == 6436);
    b.reads("fullest chart", &[full], 0, 0);
}

// Row 5: "a field outside its stated range"
fn check_ranges(b: &mut Bench) {
    let two = || [step(1), step(0)].concat();
    let with_action = || [step(1), step(0), action(0, 0)].concat();
    let longest = 86_400_000;
    b.reads("initial 2", &[step(1), step(2), end()], 5, 5);
    b.reads("output 32", &[step(1), action(32, 0), end()], 5, 5);
    b.reads("output 31, least value", &[step(1), action(31, i32::MIN), end()], 0, 0);
    b.reads("source 2", &[two(), transition(4, 2, 0, 0, 0), end()], 5, 10);
    b.reads("target 63", &[two(), transition(1, 1 << 63, 0, 0, 0), end()], 5, 10);
    b.reads("on 32, no action", &[two(), transition(1, 2, 1 << 32, 0, 0), end()], 5, 10);
    b.reads("off 33, one action", &[with_action(), transition(1, 2, 0, 1 << 33, 0), end()], 5, 19);
    b.reads("on 32, one action", &[with_action(), transition(1, 2, 1 << 32, 0, 0), end()], 0, 0);
    b.reads("all inputs", &[two(), transition(1, 2, 0xffff_ffff, 0, 0), end()], 0, 0);
    b.reads("wait too long", &[two(), transition(1, 2, 0, 0, longest + 1), end()], 5, 10);
    b.reads("longest wait", &[two(), transition(1, 2, 0, 0, longest), end()], 0, 0);
    b.reads("block step 2", &[with_action(), block(2, 0, 0, 0), end()], 5, 19);
    b.reads("block action 1", &[with_action(), block(0, 1, 0, 0), end()], 5, 19);
    b.reads("qualifier 11", &[with_action(), block(0, 0, 11, 0), end()], 5, 19);
    b.reads("duration too long", &[with_action(), block(0, 0, 3, longest + 1), end()], 5, 19);
    for timed in [3, 4, 6, 7, 8].iter() {
        b.reads("longest duration", &[with_action(), block(0, 0, *timed, longest), end()], 0, 0);
        b.reads("timed, duration 0", &[with_action(), block(0, 0, *timed, 0), end()], 0, 0);
    }
    for untimed in [0, 1, 2, 5, 9, 10].iter() {
        b.reads("untimed, duration 1", &[with_action(), block(0, 0, *untimed, 1), end()], 5, 19);
        b.reads("untimed, duration 0", &[with_action(), block(0, 0, *untimed, 0), end()], 0, 0);
    }
    b.reads("case step 2", &[two(), case(2, 0, 0), end()], 5, 10);
    b.reads("case signal 32, no action", &[two(), case(0, 32, 0), end()], 5, 10);
    b.reads("case signal 64", &[with_action(), case(0, 64, 0), end()], 5, 19);
    b.reads("case signal 31", &[two(), case(0, 31, 1), end()], 0, 0);
    b.reads("case signal 32, one action", &[with_action(), case(0, 32, 1), end()], 0, 0);
    b.reads("expected 2", &[two(), case(0, 0, 2), end()], 5, 10);
}

// Rows 6 and 7, with "4, 5, 6, 7"
fn check_sets(b: &mut Bench) {
    let two = || [step(1), step(0)].concat();
    b.reads("no source", &[two(), transition(0, 2, 0, 0, 0), end()], 6, 10);
    b.reads("no target", &[two(), transition(1, 0, 0, 0, 0), end()], 6, 10);
    b.reads("source and target", &[two(), transition(3, 2, 0, 0, 0), end()], 6, 10);
    b.reads("on and off", &[two(), transition(1, 2, 5, 4, 0), end()], 7, 10);
    b.reads("5 before 6", &[two(), transition(0, 4, 0, 0, 0), end()], 5, 10);
    b.reads("5 (wait) before 6", &[two(), transition(0, 2, 0, 0, u32::MAX), end()], 5, 10);
    b.reads("5 (off) before 7", &[two(), transition(1, 2, 1 << 63, 1 << 63, 0), end()], 5, 10);
    b.reads("6 before 7", &[two(), transition(1, 1, 1, 1, 0), end()], 6, 10);
    let seven = transition(1, 2, 1, 1, 0);
    let six = transition(0, 2, 0, 0, 0);
    b.reads("first record first", &[two(), seven, six, end()], 7, 10);
}

// Rows 8, 9 and 10, with "After the end record: 10, 9, 8."
fn check_ends(b: &mut Bench) {
    let base = || [step(1), action(0, 0), action(1, 0)].concat();
    b.reads("two timed", &[base(), block(0, 1, 3, 5), block(0, 1, 6, 5), end()], 8, 0);
    b.reads("two equal timed", &[base(), block(0, 0, 4, 0), block(0, 0, 4, 0), end()], 8, 0);
    b.reads("timed on two actions", &[base(), block(0, 0, 3, 5), block(0, 1, 3, 5), end()], 0, 0);
    b.reads("timed and untimed", &[base(), block(0, 0, 0, 0), block(0, 0, 8, 5), end()], 0, 0);
    b.reads("no steps", &[end()], 9, 0);
    b.reads("no initial step", &[step(0), step(0), end()], 9, 0);
    b.reads("surplus byte", &[step(1), end(), vec![0]], 10, 9);
    b.reads("second end record", &[step(1), end(), end()], 10, 9);
    b.reads("10 before 9", &[end(), vec![7]], 10, 4);
    let timed = || block(0, 0, 3, 5);
    b.reads("9 before 8", &[step(0), action(0, 0), timed(), timed(), end()], 9, 0);
    b.reads("10 before 8", &[step(1), action(0, 0), timed(), timed(), end(), vec![1]], 10, 40);
    b.reads("end after kind 1", &[step(1), end()], 0, 0);
    b.reads("end after kind 5", &[step(1), case(0, 0, 0), end()], 0, 0);
}

// "After the end or a refusal it doesn't move, and asking again answers the same. A place beyond
// the bytes answers 1."
fn check_next_record(b: &mut Bench) {
    let file = [step(2), action(99, 0), end()].concat();
    let mut reader = RecordReader { bytes: &file, place: 0, before: 0 };
    let first = Next::Record { kind: 1, body: 4, length: 1 };
    let second = Next::Record { kind: 2, body: 9, length: 5 };
    b.check("first record", next_record(&mut reader) == first);
    b.check("second record", next_record(&mut reader) == second);
    b.check("the end", next_record(&mut reader) == Next::End);
    b.check("the end again", next_record(&mut reader) == Next::End);
    let file = [step(1), record(7, &[])].concat();
    let mut reader = RecordReader { bytes: &file, place: 0, before: 0 };
    let refused = Next::Refused { code: 2, place: 5 };
    b.check("record before the refusal", next_record(&mut reader) == first);
    b.check("a refusal", next_record(&mut reader) == refused);
    b.check("a refusal again", next_record(&mut reader) == refused);
    for place in [10, usize::MAX].iter() {
        let mut reader = RecordReader { bytes: &file, place: *place, before: 0 };
        let beyond = Next::Refused { code: 1, place: *place };
        b.check("place beyond the bytes", next_record(&mut reader) == beyond);
    }
}

// ---------------------------------------------------------------------------------------------
// The selftest: held charts and runs
// ---------------------------------------------------------------------------------------------

// "9 | no initial step (a chart without steps included)" (such a chart of edition 1, held)
fn held_without_steps() -> Held {
    hold(&Chart { edition: 1, ..Chart::default() })
}

// The number that the test of a held chart gives, 0 if accepted.
fn held_code(held: &Held) -> Code {
    test_chart(held).err().unwrap_or(0)
}

// Row 4 for a held chart, and 9 for one without steps
fn check_held_counts(b: &mut Bench) {
    b.check("held chart A", held_code(&held_a()) == 0);
    for beyond in [0u64, 1000, u64::MAX - 256].iter() {
        let mut held = held_a();
        held.counts.steps = 65 + beyond;
        b.check("held steps", held_code(&held) == 4);
        let mut held = held_a();
        held.counts.actions = 33 + beyond;
        b.check("held actions", held_code(&held) == 4);
        let mut held = held_a();
        held.counts.transitions = 65 + beyond;
        b.check("held transitions", held_code(&held) == 4);
        let mut held = held_a();
        held.counts.cases = 65 + beyond;
        b.check("held cases", held_code(&held) == 4);
        let mut held = held_a();
        held.counts.blocks = beyond.saturating_add(257);
        b.check("held blocks", held_code(&held) == 4);
    }
    let mut held = held_without_steps();
    b.check("held chart without steps", held_code(&held) == 9);
    held.counts.cases = 65;
    b.check("4 before 9", held_code(&held) == 4);
    let mut held = held_a();
    held.counts.steps = 0;
    b.check("held transition without steps", held_code(&held) == 5);
}

// "Entries beyond a count play no part." (chart A, held, with junk behind every count)
fn held_a_with_junk() -> Held {
    let mut held = held_a();
    held.tables.steps.push(Step { initial: 77 });
    held.tables.actions.push(Action { output: 32, value: 1 });
    let sets = set_of(u64::MAX);
    held.tables.transitions.push(Transition {
        sources: sets.clone(),
        targets: sets.clone(),
        on: sets.clone(),
        off: sets,
        wait: u32::MAX,
    });
    held.tables.blocks.push(Block { step: 255, action: 255, qualifier: 255, duration: 1 });
    held.tables.cases.push(Case { step: 255, signal: 255, expected: 255 });
    held
}

// "Entries beyond a count play no part."
fn check_held_entries(b: &mut Bench) {
    let held = held_a_with_junk();
    b.check("entries beyond the counts", held_code(&held) == 0);
    b.check("a cycle beside them", seen(&held, 1000, &[(1010, 1)]) == (0, 1, 2, 3));
    let mut more = held.clone();
    more.counts.steps = 3;
    b.check("a third step", held_code(&more) == 5);
    let mut more = held.clone();
    more.counts.actions = 3;
    b.check("a third action", held_code(&more) == 5);
    let mut more = held.clone();
    more.counts.transitions = 3;
    b.check("a third transition", held_code(&more) == 5);
    let mut more = held.clone();
    more.counts.blocks = 4;
    b.check("a fourth block", held_code(&more) == 5);
    more.counts.blocks = 3;
    more.counts.cases = 2;
    b.check("a second case", held_code(&more) == 5);
}

// "4, then records by kind with 5, 6, 7, then 9, 8"
fn check_held_order(b: &mut Bench) {
    let transition = |sources, targets, on, off| Transition {
        sources: set_of(sources),
        targets: set_of(targets),
        on: set_of(on),
        off: set_of(off),
        wait: 0,
    };
    let mut held = held_a();
    held.tables.transitions = vec![transition(1, 2, 1, 1), transition(0, 2, 0, 0)];
    b.check("held 7", held_code(&held) == 7);
    held.tables.cases = vec![Case { step: 9, signal: 0, expected: 0 }];
    b.check("held 7 before a later kind's 5", held_code(&held) == 7);
    held.tables.transitions = vec![transition(1, 2, 1, 0), transition(0, 2, 1, 1)];
    b.check("held 6", held_code(&held) == 6);
    held.tables.steps = vec![Step { initial: 0 }, Step { initial: 0 }];
    b.check("held 6 before 9", held_code(&held) == 6);
    held.tables.steps = vec![Step { initial: 0 }, Step { initial: 3 }];
    b.check("held 5 of a step first", held_code(&held) == 5);
    held.counts.steps = u64::MAX;
    b.check("held 4 before all", held_code(&held) == 4);
    let mut held = held_a();
    let timed = Block { step: 0, action: 0, qualifier: 3, duration: 9 };
    held.tables.blocks = vec![timed.clone(), timed.clone(), timed];
    b.check("held 8", held_code(&held) == 8);
    held.tables.steps = vec![Step { initial: 0 }, Step { initial: 0 }];
    b.check("held 9 before 8", held_code(&held) == 9);
}

// The numbers that a cycle at the run's clock and a tally give for a run of chart A; a refused
// cycle returns the run it was given.
fn run_codes(run: &Run) -> (Code, Code) {
    let mut outputs = vec![3; 32];
    let answer = cycle(&held_a(), run, run.clock, 0, &mut outputs);
    let kept = answer.run == *run && answer.taken.is_empty() && outputs == vec![3; 32];
    if answer.code != 0 && !kept {
        return (99, 99);
    }
    (answer.code, tally(&held_a(), run).code)
}

// Row 12: "active steps, activity, stored, latched and case marks name only existing numbers"
fn check_run_names(b: &mut Bench) {
    let run = zero_run();
    b.check("the all-zero run belongs", run_codes(&run) == (0, 0));
    for beyond in [2, 32, 63].iter() {
        let mut run = zero_run();
        run.active = [*beyond].iter().copied().collect();
        b.check("active step", run_codes(&run) == (12, 12));
        let mut run = zero_run();
        run.activity = [*beyond].iter().copied().collect();
        b.check("activity", run_codes(&run) == (12, 12));
        let mut run = zero_run();
        run.stored = [*beyond].iter().copied().collect();
        b.check("stored", run_codes(&run) == (12, 12));
        let mut run = zero_run();
        run.latched = [*beyond].iter().copied().collect();
        b.check("latched", run_codes(&run) == (12, 12));
        let mut run = zero_run();
        run.good = [*beyond].iter().copied().collect();
        b.check("good mark", run_codes(&run) == (12, 12));
        let mut run = zero_run();
        run.bad = [*beyond - 1].iter().copied().collect();
        b.check("bad mark", run_codes(&run) == (12, 12));
    }
    let mut run = zero_run();
    run.active = numbers(2);
    run.activity = numbers(2);
    run.stored = numbers(2);
    run.latched = numbers(2);
    run.good = numbers(1);
    run.bad = numbers(1);
    b.check("everything that exists", run_codes(&run) == (0, 0));
}

// Row 12: "step counters of inactive steps and action timers of unlatched actions are 0; none
// exceeds 86,400,000"
fn check_run_times(b: &mut Bench) {
    let mut run = zero_run();
    put(&mut run.step_counters, 1, 1);
    b.check("counter of an inactive step", run_codes(&run) == (12, 12));
    run.active = numbers(2);
    b.check("counter of an active step", run_codes(&run) == (0, 0));
    put(&mut run.step_counters, 1, 86_400_000);
    b.check("longest counter", run_codes(&run) == (0, 0));
    put(&mut run.step_counters, 1, 86_400_001);
    b.check("counter too long", run_codes(&run) == (12, 12));
    let mut run = zero_run();
    put(&mut run.action_timers, 1, 1);
    b.check("timer of an unlatched action", run_codes(&run) == (12, 12));
    run.latched = numbers(2);
    b.check("timer of a latched action", run_codes(&run) == (0, 0));
    put(&mut run.action_timers, 1, 86_400_000);
    b.check("longest timer", run_codes(&run) == (0, 0));
    put(&mut run.action_timers, 1, 86_400_001);
    b.check("timer too long", run_codes(&run) == (12, 12));
    let mut run = zero_run();
    put(&mut run.step_counters, 63, 1);
    b.check("counter of no step", run_codes(&run) == (12, 12));
    let mut run = zero_run();
    put(&mut run.action_timers, 31, 1);
    b.check("timer of no action", run_codes(&run) == (12, 12));
}

// Rows 11, 12 and 15: "Start tests 15 and then the chart; a cycle tests 15, chart, 12, 11";
// "A refused start returns an all-zero run"; "Lent outputs stay untouched by a refusal"
fn check_call_order(b: &mut Bench) {
    let mut broken = held_a();
    broken.counts.steps = 65;
    let mut strange = zero_run();
    strange.active = numbers(3);
    let mut few = vec![8; 31];
    let mut enough = vec![8; 32];
    let answer = start(&broken, 7, &mut few);
    b.check("start: 15 first", answer.code == 15 && answer.run == zero_run());
    let answer = start(&broken, 7, &mut enough);
    b.check("start: then the chart", answer.code == 4 && answer.run == zero_run());
    let answer = start(&held_a(), 7, &mut few);
    b.check("start: only 15", answer.code == 15 && answer.run == zero_run());
    let answer = cycle(&broken, &strange, 60_001, 1, &mut few);
    b.check("cycle: 15 first", answer.code == 15 && answer.run == strange);
    let answer = cycle(&broken, &strange, 60_001, 1, &mut enough);
    b.check("cycle: then the chart", answer.code == 4 && answer.run == strange);
    let answer = cycle(&held_a(), &strange, 60_001, 1, &mut enough);
    b.check("cycle: then 12", answer.code == 12 && answer.run == strange);
    let answer = cycle(&held_a(), &zero_run(), 60_001, 1, &mut enough);
    b.check("cycle: then 11", answer.code == 11 && answer.run == zero_run());
    b.check("outputs untouched", few == vec![8; 31] && enough == vec![8; 32]);
    b.check("tally: the chart first", tally(&broken, &strange).code == 4);
    let zeros = Tally { code: 12, passed: 0, failed: 0, notrun: 0 };
    b.check("tally: then 12", tally(&held_a(), &strange) == zeros);
}

// ---------------------------------------------------------------------------------------------
// The selftest: the cycle
// ---------------------------------------------------------------------------------------------

// "Chart A, last clock 1509: no transition, activity 3, case not run."; "Chart A, call 1: output 0
// is 120, by table order."; the trace of chart A
fn check_chart_a(b: &mut Bench) {
    let held = held_a();
    b.check("chart A, call 0", seen(&held, 1000, &[]) == (0, 0, 1, 0));
    b.check("chart A, call 1", seen(&held, 1000, &[(1010, 1)]) == (0, 1, 2, 3));
    b.check("chart A, call 2", seen(&held, 1000, &[(1010, 1), (1510, 2)]) == (0, 2, 1, 0));
    let (answer, _) = played(&held, 1000, &[(1010, 1), (1510, 2)]);
    let one = Tally { code: 0, passed: 1, failed: 0, notrun: 0 };
    b.check("chart A, tally", tally(&held, &answer.run) == one);
    b.check("chart A, last 1509", seen(&held, 1000, &[(1010, 1), (1509, 2)]) == (0, 0, 2, 3));
    let (answer, _) = played(&held, 1000, &[(1010, 1), (1509, 2)]);
    let none = Tally { code: 0, passed: 0, failed: 0, notrun: 1 };
    b.check("chart A, last 1509, tally", tally(&held, &answer.run) == none);
    b.check("chart A, last 1509, stored", word_of(&answer.run.stored) == 2);
    b.check("chart A, last 1509, counter", at(&answer.run.step_counters, 1) == 499);
    let (_, outputs) = played(&held, 1000, &[(1010, 1)]);
    b.check("chart A, call 1, output", at(&outputs, 0) == 120 && at(&outputs, 1) == 0);
    let (_, outputs) = played(&held, 1000, &[(1010, 1), (1510, 2)]);
    b.check("chart A, call 2, output", at(&outputs, 0) == 0);
    let (_, outputs) = played(&held, 1000, &[]);
    b.check("first 32 outputs", outputs == [vec![0; 32], vec![5; 2]].concat());
    b.check("without input nothing moves", seen(&held, 0, &[(10, 2), (20, 0)]) == (0, 0, 1, 0));
}

// "Last clock 4,294,967,000, new 200: elapsed 496."; "Elapsed 60,000 accepted; 60,001 refused 11;
// clock one back refused 11."
fn check_clock(b: &mut Bench) {
    let held = held_a();
    b.check("elapsed 496", elapsed(200, 4_294_967_000) == 496);
    let (answer, _) = played(&held, 4_294_967_000, &[(200, 0)]);
    b.check("counter 496", at(&answer.run.step_counters, 0) == 496 && answer.run.clock == 200);
    b.check("elapsed 60,000", seen(&held, 5, &[(60_005, 0)]).0 == 0);
    b.check("elapsed 60,001", seen(&held, 5, &[(60_006, 1)]) == (11, 0, 1, 0));
    b.check("one back", seen(&held, 5, &[(4, 1)]) == (11, 0, 1, 0));
    b.check("one back over the turn", seen(&held, 0, &[(u32::MAX, 1)]) == (11, 0, 1, 0));
    b.check("elapsed 0", seen(&held, 5, &[(5, 1)]) == (0, 1, 2, 3));
    let (answer, outputs) = played(&held, 5, &[(60_006, 1)]);
    b.check("a refusal keeps the clock", answer.run.clock == 5 && at(&outputs, 0) == 0);
    b.check("and the run goes on", seen(&held, 5, &[(60_006, 1), (6, 1)]) == (0, 1, 2, 3));
}

// "... grows by it, stopping at 86,400,000"
fn check_cap(b: &mut Bench) {
    let held = held_of(&[step(1), action(0, 1), block(0, 0, 6, 86_400_000)]);
    let mut run = zero_run();
    run.active = numbers(1);
    run.latched = numbers(1);
    put(&mut run.step_counters, 0, 86_399_999);
    put(&mut run.action_timers, 0, 86_399_998);
    let mut outputs = vec![0; 32];
    let first = cycle(&held, &run, 1, 0, &mut outputs).run;
    b.check("counter reaches the cap", at(&first.step_counters, 0) == 86_400_000);
    b.check("timer stays its own", at(&first.action_timers, 0) == 86_399_999);
    b.check("not yet active", first.activity.is_empty());
    let second = cycle(&held, &first, 60_001, 0, &mut outputs).run;
    b.check("counter stops at the cap", at(&second.step_counters, 0) == 86_400_000);
    b.check("timer stops at the cap", at(&second.action_timers, 0) == 86_400_000);
    b.check("now active", word_of(&second.activity) == 1);
}

// "L 100: counter 99 active, 100 not. D 100: 99 not, 100 active."; DS by "an active DS block whose
// step counter has reached its duration, sets stored"
fn check_timed(b: &mut Bench) {
    let one = |qualifier, duration| {
        held_of(&[step(1), action(0, 1), block(0, 0, qualifier, duration)])
    };
    b.check("L 100 at start", seen(&one(3, 100), 0, &[]).3 == 1);
    b.check("L 100 at 99", seen(&one(3, 100), 0, &[(99, 0)]).3 == 1);
    b.check("L 100 at 100", seen(&one(3, 100), 0, &[(100, 0)]).3 == 0);
    b.check("L 0", seen(&one(3, 0), 0, &[]).3 == 0);
    b.check("D 100 at start", seen(&one(4, 100), 0, &[]).3 == 0);
    b.check("D 100 at 99", seen(&one(4, 100), 0, &[(99, 0)]).3 == 0);
    b.check("D 100 at 100", seen(&one(4, 100), 0, &[(100, 0)]).3 == 1);
    b.check("D 0", seen(&one(4, 0), 0, &[]).3 == 1);
    b.check("DS 100 at 99", seen(&one(7, 100), 0, &[(99, 0)]).3 == 0);
    b.check("DS 100 at 100", seen(&one(7, 100), 0, &[(100, 0)]).3 == 1);
    b.check("DS 0", seen(&one(7, 0), 0, &[]).3 == 1);
    let away = |qualifier| {
        let to_one = transition(1, 2, 1, 0, 0);
        held_of(&[step(1), step(0), action(0, 1), to_one, block(0, 0, qualifier, 100)])
    };
    b.check("DS left early", seen(&away(7), 0, &[(99, 1), (300, 0)]).3 == 0);
    b.check("DS left late", seen(&away(7), 0, &[(100, 0), (110, 1), (300, 0)]).3 == 1);
    b.check("DS left just when it was due", seen(&away(7), 0, &[(100, 1)]).3 == 0);
    b.check("L left", seen(&away(3), 0, &[(10, 1)]).3 == 0);
    b.check("D left", seen(&away(4), 0, &[(200, 0), (210, 1)]).3 == 0);
}

// "SD 0 is active when latched; SL 0 never."; "Restarting SL when its step is entered again: only a
// reset clears the latch."; "Letting S win over R in one cycle."
fn check_latches(b: &mut Bench) {
    let one = |qualifier, duration| {
        let there = transition(1, 2, 1, 0, 0);
        let back = transition(2, 1, 2, 0, 0);
        let away = transition(1, 4, 4, 0, 0);
        let blocks = [block(0, 0, qualifier, duration), block(2, 0, 1, 0)].concat();
        held_of(&[step(1), step(0), step(0), action(0, 1), there, back, away, blocks])
    };
    b.check("SD 0 at start", seen(&one(6, 0), 0, &[]).3 == 1);
    b.check("SL 0 at start", seen(&one(8, 0), 0, &[]).3 == 0);
    b.check("SL 0 later", seen(&one(8, 0), 0, &[(5, 0)]).3 == 0);
    b.check("SD 100 at 99", seen(&one(6, 100), 0, &[(99, 0)]).3 == 0);
    b.check("SD 100 at 100", seen(&one(6, 100), 0, &[(100, 0)]).3 == 1);
    b.check("SD 100, step left", seen(&one(6, 100), 0, &[(50, 1), (100, 0)]).3 == 1);
    b.check("SD reset", seen(&one(6, 100), 0, &[(100, 0), (101, 4)]) == (0, 4, 4, 0));
    b.check("SL 100 at 99", seen(&one(8, 100), 0, &[(50, 1), (99, 0)]).3 == 1);
    b.check("SL 100 at 100", seen(&one(8, 100), 0, &[(50, 1), (100, 0)]).3 == 0);
    b.check("SL entered again", seen(&one(8, 100), 0, &[(50, 1), (120, 2)]) == (0, 2, 1, 0));
    let (answer, _) = played(&one(8, 100), 0, &[(50, 1), (90, 0), (95, 4)]);
    b.check("no R block's step, no reset", answer.run.latched.len() == 1);
    let (answer, _) = played(&one(8, 100), 0, &[(50, 1), (60, 2), (70, 4)]);
    b.check("reset clears the latch", answer.run.latched.is_empty());
    b.check("and its timer", at(&answer.run.action_timers, 0) == 0);
    let both = held_of(&[step(1), action(0, 1), block(0, 0, 2, 0), block(0, 0, 1, 0)]);
    b.check("R wins over S", seen(&both, 0, &[]).3 == 0);
    let both = held_of(&[step(1), action(0, 1), block(0, 0, 0, 0), block(0, 0, 1, 0)]);
    b.check("R wins over N", seen(&both, 0, &[(1, 0)]).3 == 0);
    let both = held_of(&[step(1), action(0, 1), block(0, 0, 6, 0), block(0, 0, 1, 0)]);
    b.check("R wins over SD", played(&both, 0, &[]).0.run.latched.is_empty());
    let none = held_of(&[step(1), action(0, 1)]);
    b.check("no block, no activity", seen(&none, 0, &[(1, 1)]).3 == 0);
}

// "or P1 and the step was entered; or P0 and the step was left"; "Start makes the initial steps
// active and entered, none left"; request (ii): "P is now active only in the call that enters the
// step, like P1."
fn check_pulses(b: &mut Bench) {
    let actions = [action(0, 1), action(1, 1), action(2, 1)].concat();
    let blocks = [block(0, 0, 5, 0), block(0, 1, 9, 0), block(0, 2, 10, 0)].concat();
    let moves = [transition(1, 2, 1, 0, 0), transition(2, 1, 2, 0, 0)].concat();
    let held = held_of(&[step(1), step(0), actions, moves, blocks]);
    b.check("pulses at start", seen(&held, 0, &[]).3 == 3);
    b.check("pulses are over", seen(&held, 0, &[(0, 0)]).3 == 0);
    b.check("pulses at leaving", seen(&held, 0, &[(0, 1)]).3 == 4);
    b.check("pulses after leaving", seen(&held, 0, &[(0, 1), (0, 0)]).3 == 0);
    b.check("pulses at entering", seen(&held, 0, &[(0, 1), (0, 2)]).3 == 3);
    b.check("pulses at leaving again", seen(&held, 0, &[(0, 1), (0, 2), (0, 1)]).3 == 4);
    let blocks = [block(0, 0, 10, 0), block(1, 0, 1, 0)].concat();
    let away = transition(1, 2, 1, 0, 0);
    let held = held_of(&[step(1), step(0), action(0, 1), away, blocks]);
    b.check("a reset P0", seen(&held, 0, &[(0, 1)]) == (0, 1, 2, 0));
    // Action 0 has P beside P0, action 1 has P beside P1, all on step 0.
    let actions = [action(0, 1), action(1, 1)].concat();
    let beside_p0 = [block(0, 0, 5, 0), block(0, 0, 10, 0)].concat();
    let beside_p1 = [block(0, 1, 5, 0), block(0, 1, 9, 0)].concat();
    let moves = [transition(1, 2, 1, 0, 0), transition(2, 1, 2, 0, 0)].concat();
    let held = held_of(&[step(1), step(0), actions, moves, beside_p0, beside_p1]);
    b.check("P beside others at start", seen(&held, 0, &[]).3 == 3);
    b.check("P beside others at leaving", seen(&held, 0, &[(0, 1)]).3 == 1);
    b.check("P beside others at entering", seen(&held, 0, &[(0, 1), (0, 2)]).3 == 3);
    // The call after leaving: transition 1 waits for the activity of action 0, which has P alone.
    let moves = [transition(1, 2, 1, 0, 0), transition(2, 4, 1 << 32, 0, 0)].concat();
    let held = held_of(&[step(1), step(0), step(0), action(0, 1), moves, block(0, 0, 5, 0)]);
    let after = seen(&held, 0, &[(0, 1), (0, 0)]);
    b.check("P left no activity behind", after == (0, 0, 2, 0));
}

// "Steps 0 and 1 initial, 0→2 and 1→2 both true: only the first is taken, and the next cycle takes
// none."; "Testing a source against the half-updated step set: a chain of steps then runs through
// in one cycle. A target so tested lets a step left in this cycle be entered in it."
fn check_conflicts(b: &mut Bench) {
    let moves = [transition(1, 4, 0, 0, 0), transition(2, 4, 0, 0, 0)].concat();
    let held = held_of(&[step(1), step(1), step(0), moves]);
    b.check("only the first", seen(&held, 0, &[(1, 0)]) == (0, 1, 6, 0));
    b.check("then none", seen(&held, 0, &[(1, 0), (2, 0)]) == (0, 0, 6, 0));
    let moves = [transition(1, 2, 0, 0, 0), transition(1, 4, 0, 0, 0)].concat();
    let held = held_of(&[step(1), step(0), step(0), moves]);
    b.check("one source, first target", seen(&held, 0, &[(1, 0)]) == (0, 1, 2, 0));
    let moves = [transition(1, 2, 0, 0, 0), transition(2, 4, 0, 0, 0)].concat();
    let held = held_of(&[step(1), step(0), step(0), moves]);
    b.check("a chain, one step a cycle", seen(&held, 0, &[(1, 0)]) == (0, 1, 2, 0));
    b.check("a chain, the next", seen(&held, 0, &[(1, 0), (2, 0)]) == (0, 2, 4, 0));
    let moves = [transition(1, 4, 0, 0, 0), transition(2, 1, 0, 0, 0)].concat();
    let held = held_of(&[step(1), step(1), step(0), moves]);
    b.check("no entering of a left step", seen(&held, 0, &[(1, 0)]) == (0, 1, 6, 0));
    let moves = [transition(1, 6, 0, 0, 0), transition(6, 1, 1, 0, 10)].concat();
    let held = held_of(&[step(1), step(0), step(0), moves]);
    b.check("a fork", seen(&held, 0, &[(1, 0)]) == (0, 1, 6, 0));
    b.check("a join too early", seen(&held, 0, &[(1, 0), (10, 1)]) == (0, 0, 6, 0));
    b.check("a join", seen(&held, 0, &[(1, 0), (11, 1)]) == (0, 2, 1, 0));
    let held = held_of(&[step(1), step(0), step(0), transition(3, 4, 0, 0, 0)]);
    b.check("a join with one source", seen(&held, 0, &[(1, 0)]) == (0, 0, 1, 0));
}

// "signal 32+k is the activity of action k as the previous call left it"; "Reading a case from the
// cycle after the step was left."
fn check_signals(b: &mut Bench) {
    let moves = transition(1, 2, 1 << 32, 0, 0);
    let held = held_of(&[step(1), step(0), action(0, 1), moves, block(0, 0, 4, 10)]);
    b.check("not active before", seen(&held, 0, &[(10, 0)]) == (0, 0, 1, 1));
    b.check("active before", seen(&held, 0, &[(10, 0), (11, 0)]) == (0, 1, 2, 0));
    let off = transition(1, 2, 0, 1 | 1 << 32, 0);
    let held = held_of(&[step(1), step(0), action(0, 1), off, block(0, 0, 9, 0)]);
    b.check("off, still active", seen(&held, 0, &[(1, 0)]) == (0, 0, 1, 0));
    b.check("off, inactive, input 0 on", seen(&held, 0, &[(1, 0), (2, 1)]) == (0, 0, 1, 0));
    b.check("off, inactive", seen(&held, 0, &[(1, 0), (2, 0)]) == (0, 1, 2, 0));
    let moves = transition(1, 2, 1, 0, 0);
    let cases = [case(0, 32, 1), case(0, 1, 1), case(0, 1, 0), case(1, 0, 1)].concat();
    let held = held_of(&[step(1), step(0), action(0, 1), moves, block(0, 0, 0, 0), cases]);
    let (answer, _) = played(&held, 0, &[(1, 1), (2, 2)]);
    b.check("good marks", word_of(&answer.run.good) == 5);
    b.check("bad marks", word_of(&answer.run.bad) == 2);
    let counts = Tally { code: 0, passed: 2, failed: 1, notrun: 1 };
    b.check("their tally", tally(&held, &answer.run) == counts);
}

// "Each output gets the value of its first active action in the table, else 0."
fn check_outputs(b: &mut Bench) {
    let actions = [action(3, 9), action(3, -7), action(3, 8), action(31, i32::MIN)].concat();
    let blocks = [block(0, 2, 0, 0), block(0, 1, 0, 0), block(0, 3, 0, 0)].concat();
    let held = held_of(&[step(1), actions, blocks]);
    let (answer, outputs) = played(&held, 0, &[]);
    b.check("activity of three", word_of(&answer.run.activity) == 14);
    b.check("first active action", at(&outputs, 3) == -7);
    b.check("least value", at(&outputs, 31) == i32::MIN);
    b.check("no action", at(&outputs, 0) == 0 && at(&outputs, 30) == 0);
    b.check("no others written", at(&outputs, 32) == 5 && at(&outputs, 33) == 5);
}

// ---------------------------------------------------------------------------------------------
// The selftest: tally, weighing
// ---------------------------------------------------------------------------------------------

// "failed if the bad mark is set; passed if only the good mark is; otherwise not run"; "Counting a
// step that is still active as passed."
fn check_tally(b: &mut Bench) {
    let held = held_of(&[step(1), case(0, 0, 1), case(0, 0, 1), case(0, 0, 1), case(0, 0, 1)]);
    let mut run = zero_run();
    let counts = |passed, failed, notrun| Tally { code: 0, passed, failed, notrun };
    b.check("no marks", tally(&held, &run) == counts(0, 0, 4));
    run.good = set_of(3);
    run.bad = set_of(6);
    b.check("marks", tally(&held, &run) == counts(1, 2, 1));
    run.good = set_of(15);
    run.bad = set_of(15);
    b.check("both marks", tally(&held, &run) == counts(0, 4, 0));
    let (answer, _) = played(&held, 0, &[(1, 1), (2, 1)]);
    b.check("a step still active", tally(&held, &answer.run) == counts(0, 0, 4));
}

// Rows 13 and 14; "Fork 0→{1,2}, weights 2,1,1, 0 initial: total 2, so 0 and 1 are never together;
// weights 2,1,2 refused 14, transition 0."
fn check_weighing(b: &mut Bench) {
    let answer = |code, transition, total| Weighing { code, transition, total };
    let fork = held_of(&[step(1), step(0), step(0), transition(1, 6, 0, 0, 0)]);
    b.check("fork 2,1,1", weighing(&fork, &[2, 1, 1]) == answer(0, 0, 2));
    b.check("fork 2,1,2", weighing(&fork, &[2, 1, 2]) == answer(14, 0, 0));
    b.check("two weights", weighing(&fork, &[2, 1]) == answer(13, 0, 0));
    b.check("four weights", weighing(&fork, &[2, 1, 1, 0]) == answer(13, 0, 0));
    b.check("13 before 14", weighing(&fork, &[]) == answer(13, 0, 0));
    let moves = [transition(1, 6, 0, 0, 0), transition(1, 2, 0, 0, 0), transition(4, 1, 0, 0, 0)];
    let held = held_of(&[step(1), step(1), step(0), moves.concat()]);
    b.check("first unbalanced is 1", weighing(&held, &[3, 1, 2]) == answer(14, 1, 0));
    b.check("first unbalanced is 2", weighing(&held, &[3, 3, 0]) == answer(14, 2, 0));
    b.check("balanced by zeros", weighing(&held, &[0, 0, 0]) == answer(0, 0, 0));
    let sixty_four = held_of(&[step(1).repeat(64)]);
    let most = vec![u16::MAX; 64];
    b.check("most weight", weighing(&sixty_four, &most) == answer(0, 0, 4_194_240));
    let mut broken = fork.clone();
    broken.counts.blocks = 257;
    b.check("the chart first", weighing(&broken, &[1]) == answer(4, 0, 0));
}

// ---------------------------------------------------------------------------------------------
// The selftest: the writer
// ---------------------------------------------------------------------------------------------

// "Chart A (152 bytes)" (byte by byte, worked out by hand from the table of kinds)
fn chart_a_bytes() -> Vec<u8> {
    let rows: [&[u8]; 23] = [
        &[1, 0, 1, 0, 1],
        &[1, 0, 1, 0, 0],
        &[5, 0, 2, 0, 0, 120, 0, 0, 0],
        &[5, 0, 2, 0, 0, 7, 0, 0, 0],
        &[36, 0, 3, 0],
        &[1, 0, 0, 0, 0, 0, 0, 0],
        &[2, 0, 0, 0, 0, 0, 0, 0],
        &[1, 0, 0, 0, 0, 0, 0, 0],
        &[0, 0, 0, 0, 0, 0, 0, 0],
        &[0, 0, 0, 0],
        &[36, 0, 3, 0],
        &[2, 0, 0, 0, 0, 0, 0, 0],
        &[1, 0, 0, 0, 0, 0, 0, 0],
        &[2, 0, 0, 0, 0, 0, 0, 0],
        &[0, 0, 0, 0, 0, 0, 0, 0],
        &[244, 1, 0, 0],
        &[7, 0, 4, 0],
        &[1, 0, 0, 0, 0, 0, 0],
        &[7, 0, 4, 0],
        &[1, 1, 2, 0, 0, 0, 0],
        &[7, 0, 4, 0, 0, 1, 1, 0, 0, 0, 0],
        &[3, 0, 5, 0, 1, 1, 1],
        &[0, 0, 0, 0],
    ];
    rows.concat()
}

// A chart written into so many lent bytes, each 9 before: number, length and the bytes after.
fn wrote(held: &Held, lent: usize) -> (Code, u64, Vec<u8>) {
    let mut bytes = vec![9; lent];
    let answer = write_chart(held, &mut bytes);
    (answer.code, answer.length, bytes)
}

// Request (i): "Reading what was written gives the same chart as far as its counts reach, and
// writing what was read gives the same bytes."
fn check_writing(b: &mut Bench) {
    b.check("chart A by hand has 152 bytes", chart_a_bytes().len() == 152);
    b.check("chart A written", wrote(&held_a(), 152) == (0, 152, chart_a_bytes()));
    let reading = read_chart(&wrote(&held_a(), 152).2);
    b.check("chart A read again", reading.code == 0 && reading.chart == held_a().tables);
    let small = held_of(&[step(1)]);
    let bytes = vec![1, 0, 1, 0, 1, 0, 0, 0, 0];
    b.check("one step written", wrote(&small, 9) == (0, 9, bytes));
    let records = [step(1), action(31, -2), block(0, 0, 8, 86_400_000), case(0, 32, 0)];
    let rows: [&[u8]; 5] = [
        &[1, 0, 1, 0, 1],
        &[5, 0, 2, 0, 31, 254, 255, 255, 255],
        &[7, 0, 4, 0, 0, 0, 8, 0, 92, 38, 5],
        &[3, 0, 5, 0, 0, 32, 0],
        &[0, 0, 0, 0],
    ];
    b.check("sign and long duration", wrote(&held_of(&records), 36) == (0, 36, rows.concat()));
    let steps = [1, 0, 1, 0, 1].repeat(64);
    let moves = transition(1 << 63 | 1, 1 << 40 | 2, 1 << 31, 1 << 8, 66_051);
    let rows: [&[u8]; 8] = [
        &steps,
        &[36, 0, 3, 0],
        &[1, 0, 0, 0, 0, 0, 0, 128],
        &[2, 0, 0, 0, 0, 1, 0, 0],
        &[0, 0, 0, 128, 0, 0, 0, 0],
        &[0, 1, 0, 0, 0, 0, 0, 0],
        &[3, 2, 1, 0],
        &[0, 0, 0, 0],
    ];
    let held = held_of(&[step(1).repeat(64), moves]);
    b.check("sets and wait", wrote(&held, 364) == (0, 364, rows.concat()));
    let most = [
        step(1).repeat(64),
        action(31, -1).repeat(32),
        transition(1, 2, 1 << 63, 0, 86_400_000).repeat(64),
        block(63, 31, 10, 0).repeat(256),
        case(63, 63, 1).repeat(64),
    ];
    let full = [most.concat(), end()].concat();
    b.check("fullest chart written", wrote(&held_of(&most), 6436) == (0, 6436, full));
    b.check("one byte less", wrote(&held_of(&most), 6435) == (17, 0, vec![9; 6435]));
}

// Request (i): "17 when the lent bytes are fewer than the chart's length, nothing written"; "The
// answer is the length written; bytes behind it stay."
fn check_writing_17(b: &mut Bench) {
    b.check("151 bytes lent", wrote(&held_a(), 151) == (17, 0, vec![9; 151]));
    b.check("no bytes lent", wrote(&held_a(), 0) == (17, 0, vec![]));
    b.check("8 bytes for one step", wrote(&held_of(&[step(1)]), 8) == (17, 0, vec![9; 8]));
    let longer = [chart_a_bytes(), vec![9]].concat();
    b.check("153 bytes lent", wrote(&held_a(), 153) == (0, 152, longer));
    let longer = [chart_a_bytes(), vec![9; 7000]].concat();
    b.check("7,152 bytes lent", wrote(&held_a(), 7152) == (0, 152, longer));
}

// Request (i): "the chart's own first, then 17"; document 01: "4, then records by kind with 5, 6,
// 7, then 9, 8"
fn check_writing_order(b: &mut Bench) {
    let empty = held_without_steps();
    b.check("no steps, 9 before 17", wrote(&empty, 0) == (9, 0, vec![]));
    b.check("no steps, room enough", wrote(&empty, 4) == (9, 0, vec![9; 4]));
    for lent in [0, 151, 152, 200].iter() {
        let untouched = vec![9; *lent];
        let mut held = held_a();
        let timed = Block { step: 0, action: 0, qualifier: 3, duration: 9 };
        held.tables.blocks = vec![timed.clone(), timed.clone(), timed];
        b.check("writing, 8", wrote(&held, *lent) == (8, 0, untouched.clone()));
        held.tables.steps = vec![Step { initial: 0 }, Step { initial: 0 }];
        b.check("writing, 9 before 8", wrote(&held, *lent) == (9, 0, untouched.clone()));
        held.tables.cases = vec![Case { step: 0, signal: 0, expected: 2 }];
        b.check("writing, 5 before 9", wrote(&held, *lent) == (5, 0, untouched.clone()));
        held.counts.actions = 33;
        b.check("writing, 4 first", wrote(&held, *lent) == (4, 0, untouched));
    }
}

// "Entries beyond a count play no part."; request (i): "as far as its counts reach"
fn check_writing_beyond(b: &mut Bench) {
    let held = held_a_with_junk();
    b.check("junk is not written", wrote(&held, 152) == (0, 152, chart_a_bytes()));
    b.check("junk takes no room", wrote(&held, 151) == (17, 0, vec![9; 151]));
    let mut held = held_a();
    held.counts.actions = 1;
    held.counts.transitions = 1;
    held.counts.blocks = 1;
    held.counts.cases = 0;
    let rows = [
        step(1),
        step(0),
        action(0, 120),
        transition(1, 2, 1, 0, 0),
        block(1, 0, 0, 0),
        end(),
        vec![9; 78],
    ];
    b.check("smaller counts", wrote(&held, 152) == (0, 74, rows.concat()));
}

// For the command line: the lines of a writing and of `back`.
fn check_writing_lines(b: &mut Bench) {
    let small = held_of(&[step(1)]);
    b.check("line of a writing", writing_line(&small, 11) == b"0 9 1 0 1 0 1 0 0 0 0 9 10\n");
    b.check("only two bytes of the clock", writing_line(&small, 131_076) == b"17 0 0 1 2 3\n");
    b.check("no lent bytes", writing_line(&small, 65_536) == b"17 0\n");
    let line = String::from_utf8(writing_line(&small, 300)).unwrap_or_default();
    b.check("bytes behind the length", line.starts_with("0 9 1 0 1 0 1 0 0 0 0 9 10 11 "));
    b.check("byte 251 holds 0", line.contains(" 249 250 0 1 2 ") && line.ends_with(" 47 48\n"));
    let back = |file: Vec<u8>| {
        let mut input = (file.len() as u32).to_le_bytes().to_vec();
        input.extend(file);
        back_case(&mut Fields::new(&input)).unwrap_or_default()
    };
    b.check("back, chart A", back(chart_a_bytes()) == b"0 152 same\n");
    b.check("back, empty file", back(vec![]) == b"1\n");
    b.check("back, surplus byte", back([chart_a_bytes(), vec![0]].concat()) == b"10\n");
}

// ---------------------------------------------------------------------------------------------
// The selftest: the whole shift
// ---------------------------------------------------------------------------------------------

// What a shift leaves: number, number accepted, run, activity words and outputs.
type Shifted = (Code, u64, Run, Vec<u64>, Vec<i32>);

// Lent activity words as they are before a call of the selftest, all different and none small.
fn lent_words(count: usize) -> Vec<u64> {
    (0..count as u64).map(|k| u64::MAX - k).collect()
}

// Clocks and inputs of cycles, in a list each.
fn lists_of(cycles: &[(u32, u32)]) -> (Vec<u32>, Vec<u32>) {
    cycles.iter().copied().unzip()
}

// A shift of cycles, each with clock and inputs, from a run, with as many activity words; the 34
// outputs are 5 before.
fn shifted(held: &Held, run: &Run, cycles: &[(u32, u32)]) -> Shifted {
    let (clocks, inputs) = lists_of(cycles);
    let mut words = lent_words(cycles.len());
    let mut outputs = vec![5; 34];
    let answer = shift(held, run, &clocks, &inputs, &mut words, &mut outputs);
    (answer.code, answer.accepted, answer.run, words, outputs)
}

// Request (iii): "The result equals the calls made singly." (what the shift must leave if, after a
// start, the first `accepted` of the cycles are accepted and the next, if any, gives this number)
fn singly(held: &Held, clock: u32, cycles: &[(u32, u32)], accepted: usize, code: Code) -> Shifted {
    let before = |count: usize| played(held, clock, cycles.get(..count).unwrap_or(&[]));
    let mut words = lent_words(cycles.len());
    for k in 0..accepted {
        put(&mut words, k, word_of(&before(k + 1).0.run.activity));
    }
    let (answer, outputs) = before(accepted);
    let outputs = if accepted == 0 { vec![5; 34] } else { outputs };
    (code, accepted as u64, answer.run, words, outputs)
}

// A shift in which no cycle may be accepted, with lists of these lengths and every cycle at this
// clock: its number, if nothing was accepted or written and the run is the one given, else 99.
fn shift_code(held: &Held, run: &Run, lengths: [usize; 3], lent: usize, clock: u32) -> Code {
    let [clocks, inputs, count] = lengths;
    let mut words = lent_words(count);
    let mut outputs = vec![8; lent];
    let clocks = vec![clock; clocks];
    let inputs = vec![1; inputs];
    let answer = shift(held, run, &clocks, &inputs, &mut words, &mut outputs);
    let kept = answer.run == *run && words == lent_words(count) && outputs == vec![8; lent];
    if answer.accepted != 0 || !kept {
        return 99;
    }
    answer.code
}

// The run of chart A after a start at 1000.
fn run_a() -> Run {
    played(&held_a(), 1000, &[]).0.run
}

// A chart in which every qualifier but R has an action of its own (R resets four of them), with a
// fork, a join and cases.
fn held_of_all() -> Held {
    let actions: Vec<Vec<u8>> = (0..11).map(|k| action(k % 4, 100 + i32::from(k))).collect();
    let moves = [
        transition(1, 6, 1, 0, 0),
        transition(2, 8, 2, 4, 30),
        transition(12, 1, 1 << 34, 1, 20),
        transition(8, 2, 1, 1 << 37, 10),
    ];
    let blocks = [
        [block(1, 0, 0, 0), block(2, 2, 2, 0), block(0, 2, 1, 0), block(3, 3, 3, 25)].concat(),
        [block(2, 4, 4, 40), block(1, 5, 5, 0), block(2, 6, 6, 50), block(0, 6, 1, 0)].concat(),
        [block(3, 7, 7, 15), block(0, 7, 1, 0), block(1, 8, 8, 60), block(0, 8, 1, 0)].concat(),
        [block(3, 9, 9, 0), block(2, 10, 10, 0)].concat(),
    ];
    let cases = [case(1, 1, 1), case(2, 34, 0), case(3, 2, 0)].concat();
    let steps = [step(1), step(0), step(0), step(0)].concat();
    held_of(&[steps, actions.concat(), moves.concat(), blocks.concat(), cases])
}

// Forty cycles for it after a start at 4,294,967,000, over the clock's turn.
fn cycles_of_all() -> Vec<(u32, u32)> {
    let clock = |k: u32| 4_294_967_000u32.wrapping_add(17 * k + k * k % 7);
    (1..41).map(|k| (clock(k), (k * k + k / 3) % 8)).collect()
}

// Request (iii): "untouched if there was none" (no cycles at all are accepted)
fn check_shift_none(b: &mut Bench) {
    let nothing = |run: &Run| (0, 0, run.clone(), vec![], vec![5; 34]);
    b.check("no cycles", shifted(&held_a(), &run_a(), &[]) == nothing(&run_a()));
    let zero = zero_run();
    b.check("no cycles, all-zero run", shifted(&held_a(), &zero, &[]) == nothing(&zero));
    let there = played(&held_a(), 1000, &[(1010, 1)]).0.run;
    b.check("no cycles, later run", shifted(&held_a(), &there, &[]) == nothing(&there));
    b.check("no cycles, 32 outputs", shift_code(&held_a(), &run_a(), [0; 3], 32, 0) == 0);
}

// Request (iii): "wants the activity word of each in a third"; chart A's trace and the L and D of
// the bench examples, by hand
fn check_shift_several(b: &mut Bench) {
    let written = |first: i32| [vec![first], vec![0; 31], vec![5; 2]].concat();
    let (code, accepted, run, words, outputs) = shifted(&held_a(), &run_a(), &[(1010, 1)]);
    b.check("one cycle", (code, accepted) == (0, 1));
    b.check("one cycle, word", words == vec![3]);
    b.check("one cycle, outputs", outputs == written(120));
    b.check("one cycle, run", run.clock == 1010 && word_of(&run.active) == 2);
    b.check("one cycle, run's activity", word_of(&run.activity) == 3);
    let cycles = [(1010, 1), (1509, 2), (1510, 2), (1510, 0), (1520, 1)];
    let (code, accepted, run, words, outputs) = shifted(&held_a(), &run_a(), &cycles);
    b.check("five cycles", (code, accepted) == (0, 5));
    b.check("five cycles, words", words == vec![3, 3, 0, 0, 3]);
    b.check("five cycles, outputs", outputs == written(120));
    b.check("five cycles, run", run.clock == 1520 && word_of(&run.active) == 2);
    b.check("five cycles, marks", word_of(&run.good) == 1 && run.bad.is_empty());
    let (_, _, run, _, outputs) = shifted(&held_a(), &run_a(), &[(1010, 1), (1510, 2)]);
    b.check("two cycles, outputs of the last", outputs == written(0));
    b.check("two cycles, run", run.clock == 1510 && word_of(&run.active) == 1);
    let without = shifted(&held_a(), &run_a(), &cycles);
    b.check("junk plays no part", shifted(&held_a_with_junk(), &run_a(), &cycles) == without);
    let cycles = [(1, 0), (99, 0), (100, 0), (60_100, 0), (120_100, 0)];
    let blocks = [block(0, 0, 3, 100), block(0, 1, 4, 100)].concat();
    let held = held_of(&[step(1), action(0, 1), action(1, 1), blocks]);
    let run = played(&held, 0, &[]).0.run;
    let (code, accepted, run, words, _) = shifted(&held, &run, &cycles);
    b.check("60,000 after the one before", (code, accepted) == (0, 5));
    b.check("L 100 and D 100", words == vec![1, 1, 2, 2, 2]);
    b.check("the counter has grown by all", at(&run.step_counters, 0) == 120_100);
    let blocks: Vec<Vec<u8>> = (0..32).map(|k| block(0, k, 0, 0)).collect();
    let held = held_of(&[step(1), action(0, 1).repeat(32), blocks.concat()]);
    let words = shifted(&held, &played(&held, 0, &[]).0.run, &[(0, 0), (0, 0)]).3;
    b.check("all actions", words == vec![4_294_967_295; 2]);
}

// Request (iii): "The result equals the calls made singly." (every beginning of the cycles, and two
// shifts one after the other)
fn check_shift_singly(b: &mut Bench) {
    let held = held_of_all();
    let cycles = cycles_of_all();
    let clock = 4_294_967_000;
    let began = played(&held, clock, &[]).0.run;
    b.check("all qualifiers, start", played(&held, clock, &[]).0.code == 0);
    let whole = shifted(&held, &began, &cycles);
    let seen_words: BTreeSet<u64> = whole.3.iter().copied().collect();
    let every = whole.3.iter().fold(0, |all, word| all | word);
    b.check("all qualifiers, many words", seen_words.len() > 10);
    b.check("all qualifiers, each but R is active", every == 0x7fd);
    b.check("all qualifiers, case marks", whole.2.good.len() + whole.2.bad.len() > 2);
    for count in 0..cycles.len() + 1 {
        let (first, second) = cycles.split_at(count);
        let answer = shifted(&held, &began, first);
        b.check("a beginning", answer == singly(&held, clock, first, count, 0));
        let rest = shifted(&held, &answer.2, second);
        let words: Vec<u64> = answer.3.iter().chain(rest.3.iter()).copied().collect();
        let both = (answer.0 + rest.0, answer.1 + rest.1) == (0, 40) && words == whole.3;
        b.check("two shifts", both && rest.2 == whole.2);
        b.check("two shifts, outputs", second.is_empty() || rest.4 == whole.4);
    }
}

// Request (iii): "It stops at the first refused cycle"; "untouched if there was none"; "Activity
// words behind that number stay."; "then 11, at its place" (chart A, by hand)
fn check_shift_11(b: &mut Bench) {
    let written = |first: i32| [vec![first], vec![0; 31], vec![5; 2]].concat();
    let lent = lent_words(3);
    for bad in [999, 61_001, u32::MAX].iter() {
        let cycles = [(*bad, 1), (1010, 1), (1510, 2)];
        let nothing = (11, 0, run_a(), lent.clone(), vec![5; 34]);
        b.check("first refused", shifted(&held_a(), &run_a(), &cycles) == nothing);
        let alone = (11, 0, run_a(), lent_words(1), vec![5; 34]);
        b.check("only one, refused", shifted(&held_a(), &run_a(), &[(*bad, 1)]) == alone);
    }
    for bad in [1009, 61_011, 1000, 0].iter() {
        let cycles = [(1010, 1), (*bad, 0), (1510, 2)];
        let (code, accepted, run, words, outputs) = shifted(&held_a(), &run_a(), &cycles);
        b.check("middle refused", (code, accepted) == (11, 1));
        b.check("middle refused, words", words == vec![3, at(&lent, 1), at(&lent, 2)]);
        b.check("middle refused, outputs", outputs == written(120));
        b.check("middle refused, run", run == played(&held_a(), 1000, &[(1010, 1)]).0.run);
        b.check("middle refused, clock", run.clock == 1010 && word_of(&run.active) == 2);
    }
    for bad in [1509, 61_511].iter() {
        let cycles = [(1010, 1), (1510, 2), (*bad, 1)];
        let (code, accepted, run, words, outputs) = shifted(&held_a(), &run_a(), &cycles);
        b.check("last refused", (code, accepted) == (11, 2));
        b.check("last refused, words", words == vec![3, 0, at(&lent, 2)]);
        b.check("last refused, outputs", outputs == written(0));
        b.check("last refused, run", run.clock == 1510 && word_of(&run.active) == 1);
        b.check("last refused, mark", word_of(&run.good) == 1);
    }
    let cycles = [(1010, 1), (1009, 0), (1008, 0)];
    let (code, accepted, run, words, _) = shifted(&held_a(), &run_a(), &cycles);
    b.check("two refused", (code, accepted, run.clock) == (11, 1, 1010));
    b.check("two refused, words", words == vec![3, at(&lent, 1), at(&lent, 2)]);
    let cycles = [(61_000, 1), (121_000, 2), (181_001, 0)];
    let (code, accepted, run, words, _) = shifted(&held_a(), &run_a(), &cycles);
    b.check("60,001 after the one before", (code, accepted, run.clock) == (11, 2, 121_000));
    b.check("60,001 after the one before, words", words == vec![3, 0, at(&lent, 2)]);
}

// The same at every place of a longer shift, from single calls; the cycle at that place is a
// millisecond before the one before it.
fn check_shift_11_places(b: &mut Bench) {
    let held = held_of_all();
    let clock = 4_294_967_000;
    let began = played(&held, clock, &[]).0.run;
    for place in 0..cycles_of_all().len() {
        let mut cycles = cycles_of_all();
        let last = played(&held, clock, cycles.get(..place).unwrap_or(&[])).0.run.clock;
        put(&mut cycles, place, (last.wrapping_sub(1), 7));
        let there = played(&held, clock, cycles.get(..place + 1).unwrap_or(&[])).0;
        b.check("single call refused", there.code == 11);
        let answer = shifted(&held, &began, &cycles);
        b.check("refused at its place", answer == singly(&held, clock, &cycles, place, 11));
        b.check("the run that the refused one gave back", answer.2 == there.run);
    }
}

// Request (iii): "Refusals: 15, chart, 12, then 18 when the three lists differ in length or exceed
// 4,096, all before any cycle, with 0 accepted and nothing written; then 11, at its place."
fn check_shift_order(b: &mut Bench) {
    let mut broken = held_a();
    broken.counts.steps = 65;
    let empty = held_without_steps();
    let mut strange = zero_run();
    strange.active = numbers(3);
    for lengths in [[0; 3], [1; 3], [3; 3], [1, 2, 3], [4097; 3]].iter() {
        for clock in [1010, 999].iter() {
            let code = |held: &Held, run: &Run, lent| shift_code(held, run, *lengths, lent, *clock);
            b.check("shift: 15 alone", code(&held_a(), &run_a(), 31) == 15);
            b.check("shift: 15, no outputs", code(&held_a(), &run_a(), 0) == 15);
            b.check("shift: 15 before the chart", code(&broken, &run_a(), 31) == 15);
            b.check("shift: 15 before 12", code(&held_a(), &strange, 31) == 15);
            b.check("shift: 15 before all", code(&broken, &strange, 31) == 15);
            b.check("shift: the chart's 4", code(&broken, &run_a(), 32) == 4);
            b.check("shift: the chart's 9", code(&empty, &zero_run(), 32) == 9);
            b.check("shift: the chart before 12", code(&broken, &strange, 32) == 4);
            b.check("shift: 9 before 12", code(&empty, &strange, 32) == 9);
            b.check("shift: 12", code(&held_a(), &strange, 32) == 12);
        }
    }
    for lengths in [[1, 2, 3], [4097; 3]].iter() {
        let code = |clock| shift_code(&held_a(), &run_a(), *lengths, 32, clock);
        b.check("shift: then 18", code(1010) == 18);
        b.check("shift: 18 before 11", code(999) == 18);
    }
    b.check("shift: then 11", shift_code(&held_a(), &run_a(), [3; 3], 32, 999) == 11);
    let mut outputs = vec![5; 32];
    let answer = shift(&held_a(), &run_a(), &[1010], &[1], &mut [9], &mut outputs);
    b.check("shift: 32 outputs are enough", answer.code == 0 && at(&outputs, 0) == 120);
}

// Request (iii): "18 when the three lists differ in length or exceed 4,096"
fn check_shift_18(b: &mut Bench) {
    let code = |lengths, clock| shift_code(&held_a(), &run_a(), lengths, 32, clock);
    for (less, more) in [(0, 1), (1, 2), (2, 7), (4095, 4096), (4096, 4097), (0, 4096)].iter() {
        for clock in [1010, 999].iter() {
            b.check("fewer clocks", code([*less, *more, *more], *clock) == 18);
            b.check("fewer inputs", code([*more, *less, *more], *clock) == 18);
            b.check("fewer words", code([*more, *more, *less], *clock) == 18);
            b.check("more clocks", code([*more, *less, *less], *clock) == 18);
            b.check("more inputs", code([*less, *more, *less], *clock) == 18);
            b.check("more words", code([*less, *less, *more], *clock) == 18);
        }
    }
    b.check("three lengths", code([2, 3, 1], 1010) == 18);
    for count in [4097, 5000, 8192, 65_536, 65_537, 69_632].iter() {
        b.check("too many cycles", code([*count; 3], 1010) == 18);
        b.check("too many cycles, 18 before 11", code([*count; 3], 999) == 18);
    }
}

// Request (iii): "up to 4,096 cycles" (chart A there and back again, each time after its wait of
// 500)
fn check_shift_4096(b: &mut Bench) {
    let cycle_of = |k: u32| (1500 + 500 * k, 1 + k % 2);
    let mut cycles: Vec<(u32, u32)> = (0..4096).map(cycle_of).collect();
    let (code, accepted, run, words, outputs) = shifted(&held_a(), &run_a(), &cycles);
    b.check("4,096 cycles", (code, accepted) == (0, 4096));
    b.check("4,096 cycles, words", words == [3, 0].repeat(2048));
    b.check("4,096 cycles, run", run.clock == 2_049_000 && word_of(&run.active) == 1);
    b.check("4,096 cycles, outputs", at(&outputs, 0) == 0 && at(&outputs, 33) == 5);
    let less = cycles.get(..4095).unwrap_or(&[]);
    let (code, accepted, run, words, outputs) = shifted(&held_a(), &run_a(), less);
    b.check("4,095 cycles", (code, accepted, run.clock) == (0, 4095, 2_048_500));
    b.check("4,095 cycles, words", words == [[3, 0].repeat(2047), vec![3]].concat());
    b.check("4,095 cycles, outputs", at(&outputs, 0) == 120 && word_of(&run.active) == 2);
    put(&mut cycles, 4095, (2_048_499, 2));
    let (code, accepted, run, words, outputs) = shifted(&held_a(), &run_a(), &cycles);
    b.check("the last of 4,096 refused", (code, accepted, run.clock) == (11, 4095, 2_048_500));
    let last = u64::MAX - 4095;
    b.check("its word stays", words == [[3, 0].repeat(2047), vec![3, last]].concat());
    b.check("the outputs before it", at(&outputs, 0) == 120 && word_of(&run.active) == 2);
}

// For the command line: the chart and the run of a case of `held`: one step, action 0 (output 0,
// value 7) with D 100 on it, edition 1 and the padding; clock 1000, the step active and the hold
// mark 0.
fn held_image() -> Vec<u8> {
    let mut image = Vec::new();
    for count in [1u64, 1, 0, 1, 0].iter() {
        image.extend(count.to_le_bytes());
    }
    image.extend([vec![1], vec![0; 63], vec![0; 32], vec![7], vec![0; 127]].concat());
    image.extend([vec![0; 4 * 512 + 256], vec![0; 512], vec![4], vec![0; 255]].concat());
    image.extend([vec![100], vec![0; 1023], vec![0; 192], vec![1], vec![0; 7]].concat());
    image.extend([vec![232, 3, 0, 0, 1], vec![0; 31], vec![0; 256 + 128 + 16], vec![0]].concat());
    image
}

// For the command line: the lines of all the calls that follow that chart and run, one case each,
// and whether nothing is left of the input.
fn held_lines(calls: &[Vec<u8>]) -> (String, bool) {
    let cases = calls.iter().map(|call| [held_image(), call.clone()].concat());
    let input = cases.collect::<Vec<Vec<u8>>>().concat();
    let mut fields = Fields::new(&input);
    let mut lines = Vec::new();
    while let Some(line) = held_case(&mut fields) {
        lines.extend(line);
    }
    let nothing_left = fields.place == input.len();
    (String::from_utf8(lines).unwrap_or_default(), nothing_left)
}

// For the command line: a call's fixed part: kind, clock, inputs, lent outputs, number of weights.
fn call_bytes(kind: u8, clock: u32, inputs: u32, lent: u8, weights: u8) -> Vec<u8> {
    let mut bytes = vec![kind];
    bytes.extend(clock.to_le_bytes());
    bytes.extend(inputs.to_le_bytes());
    bytes.extend([lent, weights].iter());
    bytes
}

// For the command line: four bytes each, least byte first.
fn four_bytes(values: &[u32]) -> Vec<u8> {
    values.iter().flat_map(|value| value.to_le_bytes().to_vec()).collect()
}

// For the command line: the lines of a shift, and beside them those of a start and of a cycle, by
// hand.
fn check_shift_lines(b: &mut Bench) {
    let zeros = |count: usize| " 0".repeat(count);
    let rest = zeros(63 + 32);
    let run = |text: &str, counter: u32| format!(" {} 0 0 0 0 0 {}{}", text, counter, rest);
    let lent: String = (0..33).map(|k| format!(" {}", 1000 + k)).collect();
    let written = |first: i32| format!(" {}{} 1032", first, zeros(31));
    let given = run("1000 1 0", 0);
    let fixed = |clocks: u32, inputs: u32, words: u32| {
        call_bytes(5, clocks + 65_536 * inputs, words, 33, 0)
    };
    let started = format!("0 0{}{}\n", run("77 1 0", 0), written(0));
    let cycled = format!("0 0{}{}{}\n", run("1101 1 1", 101), written(7), zeros(64));
    let refused = format!("11 0{}{}{}\n", given, lent, zeros(64));
    let start = call_bytes(0, 77, 0, 33, 0);
    let cycle = |clock| call_bytes(1, clock, 0, 33, 0);
    b.check("line of a start", held_lines(&[start.clone()]) == (started.clone(), true));
    b.check("line of a cycle", held_lines(&[cycle(1101)]) == (cycled.clone(), true));
    b.check("line of a refused cycle", held_lines(&[cycle(999)]) == (refused, true));
    let mut every = zero_run();
    every.clock = 9;
    every.active = set_of(1 << 63);
    every.activity = set_of(2);
    every.stored = set_of(3);
    every.latched = set_of(4);
    every.good = set_of(5);
    every.bad = set_of(6);
    every.hold_mark = 255;
    put(&mut every.step_counters, 63, 7);
    put(&mut every.action_timers, 0, 8);
    let fields = format!("9 9223372036854775808 2 3 4 5 6 255{} 7 8{}\n", zeros(63), zeros(31));
    b.check("fields of a run", line_of(run_values(&every).iter()) == fields.as_bytes());
    let lists = |clocks: &[u32], inputs: &[u32]| [four_bytes(clocks), four_bytes(inputs)].concat();
    let three = [fixed(3, 3, 3), lists(&[1060, 1100, 1101], &[u32::MAX, 0, 5])].concat();
    let accepted = format!("0 3{}{} 0 1 1\n", run("1101 1 1", 101), written(7));
    b.check("line of a shift", held_lines(&[three.clone()]) == (accepted.clone(), true));
    let high = [fixed(3, 3, 0xabcd_0003), lists(&[1060, 1100, 1101], &[0; 3])].concat();
    b.check("only two bytes of the inputs", held_lines(&[high]) == (accepted.clone(), true));
    let middle = [fixed(3, 3, 3), lists(&[1060, 1059, 1101], &[0; 3])].concat();
    let behind = format!("11 1{}{} 0 4294967297 4294967298\n", run("1060 1 0", 60), written(0));
    b.check("line of a shift, 11", held_lines(&[middle.clone()]) == (behind.clone(), true));
    let first = [fixed(1, 1, 1), lists(&[999], &[0])].concat();
    let untouched = format!("11 0{}{} 4294967296\n", given, lent);
    b.check("line of a shift, 11 first", held_lines(&[first]) == (untouched, true));
    let none = format!("0 0{}{}\n", given, lent);
    b.check("line of no cycles", held_lines(&[fixed(0, 0, 0)]) == (none.clone(), true));
    let fewer = [fixed(1, 2, 2), lists(&[1060], &[0; 2])].concat();
    let differ = format!("18 0{}{} 4294967296 4294967297\n", given, lent);
    b.check("line of a shift, fewer clocks", held_lines(&[fewer]) == (differ.clone(), true));
    let fewer = [fixed(2, 1, 2), lists(&[1060; 2], &[0])].concat();
    b.check("line of a shift, fewer inputs", held_lines(&[fewer]) == (differ.clone(), true));
    let words = [fixed(1, 1, 2), lists(&[1060], &[0])].concat();
    b.check("line of a shift, more words", held_lines(&[words]) == (differ.clone(), true));
    let words = [fixed(3, 3, 2), lists(&[1060; 3], &[0; 3])].concat();
    b.check("line of a shift, fewer words", held_lines(&[words]) == (differ, true));
    let long = [fixed(4097, 4097, 0), lists(&[1060; 4097], &[0; 4097])].concat();
    let beyond = format!("18 0{}{}\n", given, lent);
    b.check("line of a shift, 4,097", held_lines(&[long]) == (beyond, true));
    let most = [fixed(4096, 4096, 4096), lists(&[1100; 4096], &[0; 4096])].concat();
    let ones = " 1".repeat(4096);
    let all = format!("0 4096{}{}{}\n", run("1100 1 1", 100), written(7), ones);
    b.check("line of a shift, 4,096", held_lines(&[most]) == (all, true));
    let few = [call_bytes(5, 65_537, 2, 2, 0), lists(&[1060], &[0])].concat();
    let fifteen = format!("15 0{} 1000 1001 4294967296 4294967297\n", given);
    b.check("line of a shift, 15", held_lines(&[few]) == (fifteen, true));
    let weights = [call_bytes(5, 65_537, 1, 33, 2), vec![9; 4], lists(&[1100], &[0])].concat();
    let after = format!("0 1{}{} 1\n", run("1100 1 1", 100), written(7));
    b.check("the lists stand behind the weights", held_lines(&[weights]) == (after, true));
    let calls = [three.clone(), cycle(1101), fixed(0, 0, 0), middle, start];
    let lines = [accepted.clone(), cycled, none, behind, started].concat();
    b.check("one case after the other", held_lines(&calls) == (lines, true));
    let cut = three.get(..three.len() - 1).unwrap_or(&[]).to_vec();
    b.check("a cut list", held_lines(&[three, cut]) == (accepted, false));
}

// ---------------------------------------------------------------------------------------------
// The selftest: why a transition waits
// ---------------------------------------------------------------------------------------------

// Request (vi): "Reasons ... beyond the last transition are 0." (the 64 reasons that begin with
// these digits)
fn reasons_by_hand(digits: &str) -> Vec<u8> {
    let mut reasons: Vec<u8> = digits.bytes().map(|digit| digit - b'0').collect();
    reasons.resize(64, 0);
    reasons
}

// Request (vi): ""Taken" is given exactly where it was before" (whether the reasons of an accepted
// cycle say so)
fn taken_agree(held: &Held, answer: &Answer) -> bool {
    let transitions = numbers(held.counts.transitions as usize);
    let said = transitions.iter().copied().filter(|k| at(&answer.reasons, *k) == 0).collect();
    answer.taken == said
}

// A chart of steps, initial where the digit is 1, and these transitions, held.
fn held_steps(initial: &[u8], moves: &[Vec<u8>]) -> Held {
    let steps: Vec<Vec<u8>> = initial.iter().map(|digit| step(*digit)).collect();
    held_of(&[steps.concat(), moves.concat()])
}

// Request (vi): "a source not active; a source used by an earlier one" (1 and 2, each by itself)
fn check_reason_sources(b: &mut Bench) {
    let held = held_steps(&[1, 0, 0], &[transition(2, 4, 0, 0, 0)]);
    b.waits("1, the only source", &held, &[(1, 0)], "1");
    let held = held_steps(&[1, 0, 0], &[transition(3, 4, 0, 0, 0)]);
    b.waits("1, the second of two sources", &held, &[(1, 0)], "1");
    let held = held_steps(&[0, 1, 0], &[transition(3, 4, 0, 0, 0)]);
    b.waits("1, the first of two sources", &held, &[(1, 0)], "1");
    let moves = [transition(1, 2, 0, 0, 0), transition(2, 4, 0, 0, 0)];
    let held = held_steps(&[1, 0, 0], &moves);
    b.waits("1, entered only in this cycle", &held, &[(1, 0)], "01");
    b.waits("1, left in the cycle before", &held, &[(1, 0), (2, 0)], "10");
    b.waits("1, both", &held, &[(1, 0), (2, 0), (3, 0)], "11");
    let moves = [transition(1, 2, 0, 0, 0), transition(1, 4, 0, 0, 0)];
    b.waits("2", &held_steps(&[1, 0, 0], &moves), &[(1, 0)], "02");
    let moves = [transition(1, 2, 0, 0, 0), transition(5, 8, 0, 0, 0)];
    b.waits("2, one of two sources", &held_steps(&[1, 0, 1, 0], &moves), &[(1, 0)], "02");
    let moves = [transition(1, 2, 1, 0, 0), transition(1, 4, 0, 0, 0)];
    let held = held_steps(&[1, 0, 0], &moves);
    b.waits("2 only of one that was taken", &held, &[(1, 0)], "30");
    b.waits("2, the same when it is", &held, &[(1, 1)], "02");
    let moves = [transition(1, 4, 0, 0, 0), transition(3, 8, 0, 0, 0), transition(2, 16, 0, 0, 0)];
    let held = held_steps(&[1, 1, 0, 0, 0], &moves);
    b.waits("2 does not use its other source", &held, &[(1, 0)], "020");
}

// Request (vi): "a signal; a wait" (3 and 4, each by itself)
fn check_reason_guards(b: &mut Bench) {
    let held = held_steps(&[1, 0], &[transition(1, 2, 5, 2, 0)]);
    b.waits("3, on", &held, &[(1, 4)], "3");
    b.waits("3, the other on", &held, &[(1, 1)], "3");
    b.waits("3, off", &held, &[(1, 7)], "3");
    b.waits("3, on and off", &held, &[(1, 3)], "3");
    b.waits("3, none of them", &held, &[(1, 5)], "0");
    b.waits("3, others play no part", &held, &[(1, u32::MAX - 2)], "0");
    let moves = transition(1, 2, 1 << 32, 0, 0);
    let held = held_of(&[step(1), step(0), action(0, 1), moves, block(0, 0, 4, 10)]);
    b.waits("3, an action not active before", &held, &[(10, u32::MAX)], "3");
    b.waits("3, an action active before", &held, &[(10, 0), (10, 0)], "0");
    let moves = transition(1, 2, 0, 1 << 32, 0);
    let held = held_of(&[step(1), step(0), action(0, 1), moves, block(0, 0, 9, 0)]);
    b.waits("3, an action still active before", &held, &[(1, 0)], "3");
    b.waits("3, an action no longer active", &held, &[(1, 0), (1, 0)], "0");
    let held = held_steps(&[1, 0], &[transition(1, 2, 0, 0, 10)]);
    b.waits("4, at 0", &held, &[(0, 0)], "4");
    b.waits("4, at 9", &held, &[(9, 0)], "4");
    b.waits("4, at 10", &held, &[(10, 0)], "0");
    b.waits("4, at 9 and then 10", &held, &[(9, 0), (10, 0)], "0");
    let moves = [transition(2, 4, 1, 0, 0), transition(5, 8, 0, 0, 10)];
    let held = held_steps(&[1, 1, 0, 0], &moves);
    b.waits("4, one of two sources, 9", &held, &[(5, 1), (14, 0)], "14");
    b.waits("4, one of two sources, 10", &held, &[(5, 1), (15, 0)], "10");
}

// Request (vi): "a target occupied; a target claimed by an earlier one" (5 and 6, each by itself);
// document 01: "Steps 0 and 1 initial, 0→2 and 1→2 both true"
fn check_reason_targets(b: &mut Bench) {
    let held = held_steps(&[1, 1], &[transition(1, 2, 0, 0, 0)]);
    b.waits("5", &held, &[(1, 0)], "5");
    let held = held_steps(&[1, 0, 1], &[transition(1, 6, 0, 0, 0)]);
    b.waits("5, one of two targets", &held, &[(1, 0)], "5");
    let moves = [transition(1, 4, 0, 0, 0), transition(2, 1, 0, 0, 0)];
    let held = held_steps(&[1, 1, 0], &moves);
    b.waits("5, left only in this cycle", &held, &[(1, 0)], "05");
    b.waits("5, left in the cycle before", &held, &[(1, 0), (2, 0)], "10");
    let moves = [transition(1, 4, 0, 0, 0), transition(2, 4, 0, 0, 0)];
    let held = held_steps(&[1, 1, 0], &moves);
    b.waits("6", &held, &[(1, 0)], "06");
    b.waits("6, and then 5", &held, &[(1, 0), (2, 0)], "15");
    let moves = [transition(1, 4, 0, 0, 0), transition(2, 12, 0, 0, 0)];
    b.waits("6, one of two targets", &held_steps(&[1, 1, 0, 0], &moves), &[(1, 0)], "06");
    let moves = [transition(1, 4, 1, 0, 0), transition(2, 4, 0, 0, 0)];
    let held = held_steps(&[1, 1, 0], &moves);
    b.waits("6 only of one that was taken", &held, &[(1, 0)], "30");
    b.waits("6, the same when it is", &held, &[(1, 1)], "06");
    let moves =
        [transition(1, 8, 0, 0, 0), transition(2, 24, 0, 0, 0), transition(4, 16, 0, 0, 0)];
    let held = held_steps(&[1, 1, 1, 0, 0], &moves);
    b.waits("6 does not claim its other target", &held, &[(1, 0)], "060");
}

// Request (vi): "The first in this order counts." (each two neighbours, and each by itself beside
// them)
fn check_reason_neighbours(b: &mut Bench) {
    let moves = [transition(1, 2, 0, 0, 0), transition(5, 8, 0, 0, 0)];
    b.waits("1 before 2", &held_steps(&[1, 0, 0, 0], &moves), &[(1, 0)], "01");
    b.waits("1 before 2, 2 alone", &held_steps(&[1, 0, 1, 0], &moves), &[(1, 0)], "02");
    let moves = [transition(2, 4, 0, 0, 0), transition(3, 8, 0, 0, 0)];
    b.waits("1 before 2, sources turned", &held_steps(&[0, 1, 0, 0], &moves), &[(1, 0)], "01");
    let moves = [transition(1, 2, 0, 0, 0), transition(1, 4, 1, 2, 0)];
    let held = held_steps(&[1, 0, 0], &moves);
    b.waits("2 before 3, on", &held, &[(1, 0)], "02");
    b.waits("2 before 3, off", &held, &[(1, 3)], "02");
    b.waits("2 before 3, 2 alone", &held, &[(1, 1)], "02");
    let held = held_steps(&[1, 0], &[transition(1, 2, 1, 2, 10)]);
    b.waits("3 before 4, on", &held, &[(9, 0)], "3");
    b.waits("3 before 4, off", &held, &[(9, 3)], "3");
    b.waits("3 before 4, 4 alone", &held, &[(9, 1)], "4");
    b.waits("3 before 4, 3 alone", &held, &[(10, 0)], "3");
    b.waits("3 before 4, neither", &held, &[(10, 1)], "0");
    let held = held_steps(&[1, 1], &[transition(1, 2, 0, 0, 10)]);
    b.waits("4 before 5", &held, &[(9, 0)], "4");
    b.waits("4 before 5, 5 alone", &held, &[(10, 0)], "5");
    let moves = [transition(1, 8, 0, 0, 0), transition(2, 12, 0, 0, 0)];
    b.waits("5 before 6", &held_steps(&[1, 1, 1, 0], &moves), &[(1, 0)], "05");
    b.waits("5 before 6, 6 alone", &held_steps(&[1, 1, 0, 0], &moves), &[(1, 0)], "06");
    let moves = [transition(1, 4, 0, 0, 0), transition(2, 12, 0, 0, 0)];
    b.waits("5 before 6, targets turned", &held_steps(&[1, 1, 0, 1], &moves), &[(1, 0)], "05");
}

// A chart in which just these reasons from 1 to 6 hold transition 1 back in a cycle at 9 with input
// 0 off and input 1 on. Steps 0, 2 and 5 are initial; transition 0 is always taken, from 0 to 1;
// transition 1 goes from 2 to 4. For 1 it has the source 3 as well, for 2 the source 0, for 3 a
// signal, on or off, for 4 a wait of 10, for 5 the target 5 and for 6 the target 1.
fn held_back(why: &Set, signal: (u64, u64)) -> Held {
    let with = |reason: usize, set: u64| if why.contains(&reason) { set } else { 0 };
    let sources = 4 | with(1, 8) | with(2, 1);
    let targets = 16 | with(5, 32) | with(6, 2);
    let (on, off) = (with(3, signal.0), with(3, signal.1));
    let second = transition(sources, targets, on, off, with(4, 10) as u32);
    held_steps(&[1, 0, 1, 0, 0, 1], &[transition(1, 2, 0, 0, 0), second])
}

// Request (vi): "The first in this order counts." (all 64 sets of the six reasons)
fn check_reason_order(b: &mut Bench) {
    for word in 0..64 {
        let why = set_of(word << 1);
        let digits = format!("0{}", why.iter().next().unwrap_or(&0));
        for signal in [(1, 0), (0, 2), (3, 0), (0, 3), (1, 2)].iter() {
            let held = held_back(&why, *signal);
            b.check("the chart of these reasons", held_code(&held) == 0);
            b.waits("the first of these reasons", &held, &[(9, 2)], &digits);
        }
    }
}

// Request (vi): "Reasons ... beyond the last transition are 0."; document 01: "Entries beyond a
// count play no part."
fn check_reason_beyond(b: &mut Bench) {
    b.waits("no transitions", &held_of(&[step(1)]), &[(1, 0)], "");
    let held = held_a_with_junk();
    b.waits("junk beyond the last transition", &held, &[(1, 0)], "31");
    b.waits("junk beside a taken one", &held, &[(1, 1)], "01");
    let mut held = held_a();
    held.counts.transitions = 1;
    b.waits("one transition fewer", &held, &[(1, 0)], "3");
    b.waits("one transition fewer, taken", &held, &[(1, 1)], "0");
    held.counts.transitions = 0;
    b.waits("no transition counted", &held, &[(1, 1)], "");
    let held = held_steps(&[1, 0], &vec![transition(1, 2, 1, 0, 0); 64]);
    b.waits("64 transitions", &held, &[(1, 0)], &"3".repeat(64));
    b.waits("64 transitions, one taken", &held, &[(1, 1)], &("0".to_string() + &"2".repeat(63)));
    b.waits("64 transitions, then none", &held, &[(1, 1), (2, 1)], &"1".repeat(64));
    let last = [vec![transition(2, 1, 0, 0, 0); 63], vec![transition(1, 2, 0, 0, 0)]].concat();
    let held = held_steps(&[1, 0], &last);
    b.waits("64 transitions, the last taken", &held, &[(1, 0)], &("1".repeat(63) + "0"));
}

// Request (vi): "Reasons of a start, of a refused call ... are 0."
fn check_reason_none(b: &mut Bench) {
    let zeros = vec![0; 64];
    let mut outputs = vec![0; 32];
    let held = held_steps(&[1, 1], &[transition(1, 2, 0, 0, 0)]);
    let began = start(&held, 5, &mut outputs);
    b.check("reasons of a start", began.code == 0 && began.reasons == zeros);
    let full = held_steps(&[1, 0], &vec![transition(2, 1, 1, 0, 9); 64]);
    let answer = start(&full, 5, &mut outputs);
    b.check("reasons of a start, 64 transitions", answer.code == 0 && answer.reasons == zeros);
    let answer = start(&held, 5, &mut []);
    b.check("reasons of a start, 15", answer.code == 15 && answer.reasons == zeros);
    let mut broken = held.clone();
    broken.counts.cases = 65;
    let answer = start(&broken, 5, &mut outputs);
    b.check("reasons of a start, 4", answer.code == 4 && answer.reasons == zeros);
    let answer = cycle(&held, &began.run, 5, 0, &mut outputs);
    b.check("not of an accepted cycle", answer.code == 0 && answer.reasons != zeros);
    let answer = cycle(&held, &began.run, 5, 0, &mut []);
    b.check("reasons of a cycle, 15", answer.code == 15 && answer.reasons == zeros);
    let answer = cycle(&broken, &began.run, 5, 0, &mut outputs);
    b.check("reasons of a cycle, 4", answer.code == 4 && answer.reasons == zeros);
    let mut strange = began.run.clone();
    strange.active = numbers(3);
    let answer = cycle(&held, &strange, 5, 0, &mut outputs);
    b.check("reasons of a cycle, 12", answer.code == 12 && answer.reasons == zeros);
    for clock in [4, 60_006].iter() {
        let answer = cycle(&held, &began.run, *clock, 0, &mut outputs);
        b.check("reasons of a cycle, 11", answer.code == 11 && answer.reasons == zeros);
    }
}

// "Chart A, last clock 1509: no transition"; the trace of chart A
fn check_reason_chart_a(b: &mut Bench) {
    let why = |cycles: &[(u32, u32)], digits: &str| {
        let (answer, _) = played(&held_a(), 1000, cycles);
        answer.code == 0 && answer.reasons == reasons_by_hand(digits)
    };
    b.check("chart A, reasons of call 0", why(&[], ""));
    b.check("chart A, reasons of call 1", why(&[(1010, 1)], "01"));
    b.check("chart A, reasons of call 2", why(&[(1010, 1), (1510, 2)], "10"));
    b.check("chart A, last 1509, reasons", why(&[(1010, 1), (1509, 2)], "14"));
    b.check("chart A, no input", why(&[(1010, 1), (1509, 0)], "13"));
    b.check("chart A, no input, wait reached", why(&[(1010, 1), (1510, 1)], "13"));
    b.check("chart A, other input at first", why(&[(1010, 2)], "31"));
    let mut both = run_a();
    both.active = numbers(2);
    let mut outputs = vec![0; 32];
    let answer = cycle(&held_a(), &both, 1499, 3, &mut outputs);
    b.check("chart A, both steps, 499", answer.reasons == reasons_by_hand("54"));
    let answer = cycle(&held_a(), &both, 1500, 3, &mut outputs);
    b.check("chart A, both steps, 500", answer.reasons == reasons_by_hand("55"));
    let answer = cycle(&held_a(), &zero_run(), 0, 3, &mut outputs);
    b.check("chart A, no step", answer.code == 0 && answer.reasons == reasons_by_hand("11"));
}

// Request (vi): ""Taken" is given exactly where it was before" (all qualifiers, every call)
fn check_reason_taken(b: &mut Bench) {
    let held = held_of_all();
    let cycles = cycles_of_all();
    let mut took = 0;
    for count in 1..cycles.len() + 1 {
        let (answer, _) = played(&held, 4_294_967_000, cycles.get(..count).unwrap_or(&[]));
        b.check("taken as before", answer.code == 0 && taken_agree(&held, &answer));
        took += answer.taken.len();
    }
    b.check("some were taken", took > 4);
}

// Numbers that look drawn by lot, each from the one before; the upper half is used.
fn next_lot(lot: &mut u64) -> u64 {
    *lot = lot.wrapping_mul(6_364_136_223_846_793_005).wrapping_add(1_442_695_040_888_963_407);
    *lot >> 33
}

// A transition among six steps and three inputs, drawn by lot; sources and targets share no step,
// on and off no signal.
fn transition_by_lot(lot: &mut u64) -> Vec<u8> {
    let first = next_lot(lot) % 6;
    let sources = 1 << first | (1 << (next_lot(lot) % 6)) * (next_lot(lot) % 2);
    let mut targets = 1 << (next_lot(lot) % 6) | 1 << (next_lot(lot) % 6);
    targets &= !sources;
    if targets == 0 {
        targets = 63 & !sources;
    }
    let on = next_lot(lot) & next_lot(lot) & 7;
    let off = next_lot(lot) & next_lot(lot) & 7 & !on;
    transition(sources, targets, on, off, (next_lot(lot) % 3 * 10) as u32)
}

// Request (vi): ""Taken" is given exactly where it was before" (many charts with eight transitions,
// six cycles each; every reason must have been given)
fn check_reason_many(b: &mut Bench) {
    let mut lot = 1;
    let mut given = BTreeSet::new();
    for _ in 0..200 {
        let moves: Vec<Vec<u8>> = (0..8).map(|_| transition_by_lot(&mut lot)).collect();
        let initial: Vec<u8> = (0..5).map(|_| (next_lot(&mut lot) % 2) as u8).collect();
        let held = held_steps(&[vec![1], initial].concat(), &moves);
        let mut run = played(&held, 0, &[]).0.run;
        for k in 1..7 {
            let inputs = next_lot(&mut lot) as u32 % 8;
            let answer = cycle(&held, &run, 7 * k, inputs, &mut [0; 32]);
            b.check("taken as before, by lot", answer.code == 0 && taken_agree(&held, &answer));
            let beyond = answer.reasons.iter().skip(8).all(|reason| *reason == 0);
            b.check("64 reasons, by lot", answer.reasons.len() == 64 && beyond);
            given.extend(answer.reasons.iter().copied());
            run = answer.run;
        }
    }
    b.check("every reason was given", given == (0..7).collect());
}

// For the command line: the line of a cycle ends with the 64 reasons, that of a start does not.
fn check_reason_lines(b: &mut Bench) {
    let zeros = |count: usize| " 0".repeat(count);
    let (answer, _) = played(&held_a(), 1000, &[(1010, 1), (1509, 2)]);
    let line = String::from_utf8(cycle_line(&answer, &[120, -3])).unwrap_or_default();
    let run = format!("0 0 1509 2 3 2 0 0 0 0 0 499{}", zeros(62 + 32));
    b.check("line of a cycle, 14", line == format!("{} 120 -3 1 4{}\n", run, zeros(62)));
    let line = String::from_utf8(start_line(&answer, &[120, -3])).unwrap_or_default();
    b.check("the same without reasons", line == format!("{} 120 -3\n", run));
    // Two steps and one transition from 0 to 1 with a wait of 200 in the image.
    let mut image = held_image();
    for (place, byte) in [(0, 2), (16, 1), (264, 1), (776, 2), (2312, 200)].iter() {
        put(&mut image, *place, *byte);
    }
    let line_of_call = |call: Vec<u8>| {
        let input = [image.clone(), call].concat();
        let line = held_case(&mut Fields::new(&input)).unwrap_or_default();
        String::from_utf8(line).unwrap_or_default()
    };
    let rest = zeros(62 + 32);
    let run = |text: &str, counters: &str| format!("{} 0 0 0 0 0 {}{}", text, counters, rest);
    let out = |first: i32| format!(" {}{}", first, zeros(31));
    let waits = format!("{}{} 4{}\n", run("0 0 1199 1 1", "199 0"), out(7), zeros(63));
    b.check("line of a cycle, 4", line_of_call(call_bytes(1, 1199, 0, 32, 0)) == waits);
    let taken = format!("{}{}{}\n", run("0 1 1200 2 0", "0 0"), out(0), zeros(64));
    b.check("line of a cycle, taken", line_of_call(call_bytes(1, 1200, 0, 32, 0)) == taken);
    let lent: String = (0..32).map(|k| format!(" {}", 1000 + k)).collect();
    let refused = format!("{}{}{}\n", run("11 0 1000 1 0", "0 0"), lent, zeros(64));
    b.check("line of a cycle, 11", line_of_call(call_bytes(1, 999, 0, 32, 0)) == refused);
    let few = format!("{} 1000{}\n", run("15 0 1000 1 0", "0 0"), zeros(64));
    b.check("line of a cycle, 15", line_of_call(call_bytes(1, 1199, 0, 1, 0)) == few);
    let began = format!("{}{}\n", run("0 0 1199 1 0", "0 0"), out(0));
    b.check("line of a start, none", line_of_call(call_bytes(0, 1199, 0, 32, 0)) == began);
    let lists = [call_bytes(5, 65_537, 1, 32, 0), four_bytes(&[1199, 0])].concat();
    let shifted = format!("{}{} 1\n", run("0 1 1199 1 1", "199 0"), out(7));
    b.check("line of a shift, none", line_of_call(lists) == shifted);
}

// ---------------------------------------------------------------------------------------------
// The selftest: charts in the textual form
// ---------------------------------------------------------------------------------------------

// GRAMMAR.md, "Productions", as a value. A word is one of its spellings, or a duration.
enum Form {
    Words(Vec<String>),
    Sign(&'static str),
    Duration,
    All(Vec<Form>),
    One(Vec<Form>),
    Many(Box<Form>),
}

// GRAMMAR.md: "In quotation marks: these bytes." (a keyword or a qualifier)
fn word(spelling: &str) -> Form {
    Form::Words(vec![spelling.to_string()])
}

// GRAMMAR.md: ""S" with a number from 0 to 63" (all of them, by their spelling)
fn names_of(letter: &str, count: usize) -> Vec<String> {
    (0..count).map(|k| format!("{}{}", letter, k)).collect()
}

// GRAMMAR.md: "text = initial { initial | step } { transition }"
fn text_form() -> Form {
    let more = Form::One(vec![step_form("INITIAL_STEP"), step_form("STEP")]);
    let transitions = Form::Many(Box::new(transition_form()));
    Form::All(vec![step_form("INITIAL_STEP"), Form::Many(Box::new(more)), transitions])
}

// GRAMMAR.md: "step = "STEP" step-name ":" { association ";" } "END_STEP"" (and "initial" with its
// own keyword)
fn step_form(keyword: &str) -> Form {
    let each = Form::All(vec![association_form(), Form::Sign(";")]);
    Form::All(vec![
        word(keyword),
        Form::Words(names_of("S", 64)),
        Form::Sign(":"),
        Form::Many(Box::new(each)),
        word("END_STEP"),
    ])
}

// GRAMMAR.md: "association = action-name "(" [ qualifier ] ")""; "qualifier = "N" | "R" | "S" | "P"
// | "P1" | "P0" | ( "L" | "D" | "SD" | "DS" | "SL" ) "," duration"
fn association_form() -> Form {
    let plain = ["N", "R", "S", "P", "P1", "P0"].iter().map(|w| word(w)).collect();
    let timed = ["L", "D", "SD", "DS", "SL"].iter().map(|w| word(w)).collect();
    let with_duration = Form::All(vec![Form::One(timed), Form::Sign(","), Form::Duration]);
    let nothing = Form::All(vec![]);
    Form::All(vec![
        Form::Words(names_of("A", 32)),
        Form::Sign("("),
        Form::One(vec![Form::One(plain), with_duration, nothing]),
        Form::Sign(")"),
    ])
}

// GRAMMAR.md: "transition = "TRANSITION" "FROM" steps "TO" steps ":=" condition ";"
// "END_TRANSITION""
fn transition_form() -> Form {
    Form::All(vec![
        word("TRANSITION"),
        word("FROM"),
        steps_form(),
        word("TO"),
        steps_form(),
        Form::Sign(":="),
        condition_form(),
        Form::Sign(";"),
        word("END_TRANSITION"),
    ])
}

// GRAMMAR.md: "steps = step-name | "(" step-name "," step-name { "," step-name } ")""
fn steps_form() -> Form {
    let name = || Form::Words(names_of("S", 64));
    let more = Form::All(vec![Form::Sign(","), name()]);
    let list = vec![
        Form::Sign("("),
        name(),
        Form::Sign(","),
        name(),
        Form::Many(Box::new(more)),
        Form::Sign(")"),
    ];
    Form::One(vec![name(), Form::All(list)])
}

// GRAMMAR.md: "condition = "TRUE" | input { "AND" input }"; "input = [ "NOT" ] input-name"
fn condition_form() -> Form {
    let name = || Form::Words(names_of("X", 32));
    let input = || Form::One(vec![Form::All(vec![word("NOT"), name()]), name()]);
    let more = Form::Many(Box::new(Form::All(vec![word("AND"), input()])));
    Form::One(vec![word("TRUE"), Form::All(vec![input(), more])])
}

// Bytes on which a form is followed, and the furthest place that some way through it has reached.
struct Walk<'a> {
    bytes: &'a [u8],
    furthest: usize,
}

// Places that ways through a form have reached, each with whether a word ends just there.
type Spots = BTreeSet<(usize, bool)>;

// All places to which a form leads from some places, by every way that there is.
fn follow(walk: &mut Walk, form: &Form, from: &Spots) -> Spots {
    match form {
        Form::Words(spellings) => follow_token(walk, from, true, &|walk, place| {
            spellings.iter().filter_map(|s| spelled(walk, place, s)).collect()
        }),
        Form::Sign(sign) => follow_token(walk, from, false, &|walk, place| {
            spelled(walk, place, sign).into_iter().collect()
        }),
        Form::Duration => follow_token(walk, from, true, &durations_at),
        Form::All(forms) => {
            forms.iter().fold(from.clone(), |spots, form| follow(walk, form, &spots))
        }
        Form::One(forms) => forms.iter().flat_map(|form| follow(walk, form, from)).collect(),
        Form::Many(form) => {
            let mut all = from.clone();
            let mut new = from.clone();
            while !new.is_empty() {
                new = follow(walk, form, &new).difference(&all).copied().collect();
                all.extend(&new);
            }
            all
        }
    }
}

// GRAMMAR.md: "It may stand between any two tokens ...; it must stand between two tokens that are
// both words" (every place where a token may begin, and for each all places where it may end)
fn follow_token(
    walk: &mut Walk,
    from: &Spots,
    is_word: bool,
    ends: &dyn Fn(&mut Walk, usize) -> Set,
) -> Spots {
    let mut spots = Spots::new();
    for (place, behind_word) in from {
        for begin in places_behind_blanks(walk, *place) {
            if !(is_word && *behind_word && begin == *place) {
                spots.extend(ends(walk, begin).into_iter().map(|end| (end, is_word)));
            }
        }
    }
    spots
}

// GRAMMAR.md: "White space is any run of the bytes 9 to 13 and 32." (all places that such a run
// from here leads to, itself too)
fn places_behind_blanks(walk: &mut Walk, place: usize) -> Set {
    let blanks = walk.bytes.iter().skip(place).take_while(|byte| b"\t\n\x0b\x0c\r ".contains(byte));
    let last = place + blanks.count();
    walk.furthest = walk.furthest.max(last);
    (place..=last).collect()
}

// Where this spelling ends if it stands at the place; some way has led as far as it stands there.
fn spelled(walk: &mut Walk, place: usize, spelling: &str) -> Option<usize> {
    let bytes = walk.bytes.iter().skip(place);
    let same = spelling.bytes().zip(bytes).take_while(|(wanted, byte)| wanted == *byte).count();
    walk.furthest = walk.furthest.max(place + same);
    if same == spelling.len() {
        Some(place + same)
    } else {
        None
    }
}

// GRAMMAR.md: "duration = ( "T#" | "TIME#" ) number ( "m" | "M" ) ( "s" | "S" )" (all places where
// one ends that begins here)
fn durations_at(walk: &mut Walk, place: usize) -> Set {
    let mut ends = Set::new();
    for begin in ["T#", "TIME#"].iter().filter_map(|s| spelled(walk, place, s)).collect::<Set>() {
        for behind in numbers_at(walk, begin) {
            let units = ["ms", "mS", "Ms", "MS"];
            ends.extend(units.iter().filter_map(|unit| spelled(walk, behind, unit)));
        }
    }
    ends
}

// GRAMMAR.md: "number = "0", or a digit from "1" to "9" and any number of digits" (all places where
// one ends that begins here)
fn numbers_at(walk: &mut Walk, place: usize) -> Set {
    let digits = walk.bytes.iter().skip(place).take_while(|byte| byte.is_ascii_digit()).count();
    let most = if walk.bytes.get(place) == Some(&b'0') { 1 } else { digits };
    walk.furthest = walk.furthest.max(place + most);
    (1..=most).map(|count| place + count).collect()
}

// GRAMMAR.md: "the first byte that no text can continue through: the bytes before it begin some
// text, and with it they begin none. If the bytes end too early, ... their number" (by another way
// than `read_text`: all ways through the productions at once; nothing if the bytes are a text)
fn by_productions(productions: &Form, bytes: &[u8]) -> Option<usize> {
    let mut walk = Walk { bytes, furthest: 0 };
    let from = Spots::from([(0, false)]);
    let spots = follow(&mut walk, productions, &from);
    let last = |spot: &(usize, bool)| places_behind_blanks(&mut walk, spot.0);
    let ends: Set = spots.iter().flat_map(last).collect();
    if ends.contains(&bytes.len()) {
        None
    } else {
        Some(walk.furthest)
    }
}

// A text of one initial step S0 with these associations.
fn with_associations(associations: &str) -> String {
    format!("INITIAL_STEP S0: {} END_STEP", associations)
}

// A text of the steps S0, initial, and S1, with this behind them.
fn behind_two(rest: &str) -> String {
    format!("INITIAL_STEP S0: END_STEP STEP S1: END_STEP {}", rest)
}

// A text of the steps S0 and S1 with a transition from S0 to S1 on this condition.
fn with_condition(condition: &str) -> String {
    behind_two(&format!("TRANSITION FROM S0 TO S1 := {}; END_TRANSITION", condition))
}

// A text of so many steps, the first initial, with this behind them.
fn behind_steps(count: usize, rest: &str) -> String {
    let more: String = (1..count).map(|k| format!("STEP S{}: END_STEP ", k)).collect();
    format!("INITIAL_STEP S0: END_STEP {}{}", more, rest)
}

// A transition without condition between these.
fn move_text(from: &str, to: &str) -> String {
    format!("TRANSITION FROM {} TO {} := TRUE; END_TRANSITION ", from, to)
}

// A text in which every keyword, sign and kind of token stands.
fn full_text() -> String {
    let steps = [
        "INITIAL_STEP S0: A0(); A1(N); A2(R); A3(S); A4(P); A5(P1); A10(P0); END_STEP\n",
        "STEP S1: A0(L, T#0ms); A1(D, TIME#10mS); END_STEP\r\n",
        "INITIAL_STEP S2: A2(SD, T#500Ms); A3(DS, TIME#86400000MS); A31(SL, T#7ms); END_STEP\n",
    ];
    let transitions = [
        "TRANSITION FROM S0 TO S1 := TRUE; END_TRANSITION\n",
        "TRANSITION FROM (S0, S2) TO (S1, S1, S1) := X0 AND NOT X31 AND X10; END_TRANSITION\n",
        "TRANSITION FROM S1 TO S0 := NOT X2; END_TRANSITION\n",
    ];
    [steps.concat(), transitions.concat()].concat()
}

// GRAMMAR.md, "Answers": the rows of its last table, in their order
fn check_text_answers(b: &mut Bench) {
    b.answers("empty", "", 19, 0);
    b.answers("a step first", "STEP S0: END_STEP", 19, 0);
    b.answers("S64", "INITIAL_STEP S64: END_STEP", 19, 15);
    b.stops("S64, at the 4", "INITIAL_STEP S6^4: END_STEP");
    b.answers("S00", "INITIAL_STEP S00: END_STEP", 19, 15);
    b.stops("S00, at the second 0", "INITIAL_STEP S0^0: END_STEP");
    b.answers("END_STEX", "INITIAL_STEP S0: END_STEX", 19, 24);
    b.stops("END_STEX, at the X", "INITIAL_STEP S0: END_STE^X");
    b.answers("END_STE", "INITIAL_STEP S0: END_STE", 19, 24);
    b.answers("S1", "INITIAL_STEP S1: END_STEP", 25, 13);
    b.answers("19 and then 25", "INITIAL_STEP S1: END_STEP S", 19, 27);
    let nines = "INITIAL_STEP S0: A1(L,T#99999999999999999999ms); END_STEP";
    b.answers("twenty nines", nines, 5, 0);
    b.says("one step", "INITIAL_STEP S0: END_STEP", &[step(1)]);
}

// GRAMMAR.md, "Productions": the example behind them, what is in no text, and its table
fn check_text_page(b: &mut Bench) {
    let example = "INITIAL_STEP S0:END_STEP TRANSITION FROM(S0,S1)TO(S2,S3):=NOT X0;END_TRANSITION";
    b.answers("a text, of a chart refused 5", example, 5, 0);
    let steps = behind_steps(4, "TRANSITION FROM(S0,S1)TO(S2,S3):=NOT X0;END_TRANSITION");
    let four = [step(1), step(0).repeat(3), transition(3, 12, 0, 1, 0)];
    b.says("the same with its steps", steps, &four);
    b.stops("END_STEPSTEP", "INITIAL_STEP S0: END_STEP^STEP S1: END_STEP");
    b.stops("S 0", "INITIAL_STEP S^ 0: END_STEP");
    b.stops(": =", &behind_two("TRANSITION FROM S0 TO S1 :^ = TRUE; END_TRANSITION"));
    b.stops("T# 5ms", &with_associations("A1(D, T#^ 5ms);"));
    b.stops("A1;", &with_associations("A1^;"));
    let one = [step(1), action(0, 1), action(1, 1), block(0, 1, 0, 0)];
    b.says("A1()", with_associations("A1();"), &one);
    b.says("A1(N)", with_associations("A1(N);"), &one);
    b.stops("A1(D)", &with_associations("A1(D^);"));
    b.stops("A1(N,T#0ms)", &with_associations("A1(N^,T#0ms);"));
    b.stops("(S0)", &behind_two("TRANSITION FROM (S0^) TO S1 := TRUE; END_TRANSITION"));
    b.stops("(S1)", &behind_two("TRANSITION FROM S0 TO (S1^) := TRUE; END_TRANSITION"));
    b.stops("NOT NOT X0", &with_condition("NOT ^NOT X0"));
    b.stops("TRUE AND X0", &with_condition("TRUE ^AND X0"));
    b.stops("NOT TRUE", &with_condition("NOT ^TRUE"));
    b.stops("S64", &behind_two("TRANSITION FROM S6^4 TO S1 := TRUE; END_TRANSITION"));
    b.stops("S00", &behind_two("TRANSITION FROM S0 TO S0^0 := TRUE; END_TRANSITION"));
    b.stops("S01", "INITIAL_STEP S0: END_STEP STEP S0^1: END_STEP");
    b.stops("A32", &with_associations("A3^2();"));
    b.stops("X032", &with_condition("X0^32"));
    b.stops("T#007ms", &with_associations("A1(D, T#0^07ms);"));
    b.stops("T#1.5ms", &with_associations("A1(D, T#1^.5ms);"));
    b.stops("T#1_000ms", &with_associations("A1(D, T#1^_000ms);"));
    b.stops("T#5s", &with_associations("A1(D, T#5^s);"));
    b.stops("a step first", "^STEP S0: END_STEP");
    b.stops("a step first, an initial behind", "^STEP S0: END_STEP INITIAL_STEP S1: END_STEP");
    let between = "INITIAL_STEP S0: END_STEP STEP S1: END_STEP INITIAL_STEP S2: END_STEP";
    b.says("initial ones among the steps", between, &[step(1), step(0), step(1)]);
    b.stops("a step behind", &with_condition("TRUE; END_TRANSITION ^STEP S2: END_STEP"));
    let behind = "TRUE; END_TRANSITION ^INITIAL_STEP S2: END_STEP";
    b.stops("an initial step behind", &with_condition(behind));
    b.stops("initial_step", "^initial_step S0: END_STEP");
    b.stops("s0", "INITIAL_STEP ^s0: END_STEP");
    b.stops("true", &with_condition("^true"));
    b.stops("t#5ms", &with_associations("A1(D, ^t#5ms);"));
}

// GRAMMAR.md, "What the standard admits and this leaves out": the rows of its table, in their order
fn check_text_left_out(b: &mut Bench) {
    let two = behind_two(&move_text("S0", "S1"));
    b.stops("a second network", &format!("{}^INITIAL_STEP S2: END_STEP", two));
    b.stops("ACTION", &format!("{}^ACTION A0: X0 := TRUE; END_ACTION", two));
    b.stops("ACTION among the steps", &behind_two("^ACTION A0: X0 := TRUE; END_ACTION"));
    b.stops("another name", "INITIAL_STEP S^TART: END_STEP");
    b.stops("another name of an action", &with_associations("^B1();"));
    b.stops("an indicator", &with_associations("A1(N^, A2);"));
    b.stops("an indicator with a time", &with_associations("A1(D, T#5ms^, A2);"));
    b.stops("a variable for a time", &with_associations("A1(D, ^X0);"));
    b.stops("a variable T", &with_associations("A1(D, T^1);"));
    b.stops("a sign", &with_associations("A1(D, T#^-5ms);"));
    b.stops("days", &with_associations("A1(D, T#1^d);"));
    b.stops("minutes", &with_associations("A1(D, T#1m^5s);"));
    b.stops("seconds and milliseconds", &with_associations("A1(D, T#5^s1ms);"));
    b.stops("a fraction", &with_associations("A1(D, T#0^.5ms);"));
    b.stops("time#", &with_associations("A1(D, ^time#5ms);"));
    b.stops("an underscore before the digits", &with_associations("A1(D, T#^_5ms);"));
    b.stops("an underscore before the unit", &with_associations("A1(D, T#5^_ms);"));
    b.stops("an underscore in a name", "INITIAL_STEP S^_0: END_STEP");
    b.stops("an underscore behind a name", "INITIAL_STEP S0^_: END_STEP");
    b.stops("a name of a transition", &behind_two("TRANSITION ^T1 FROM S0 TO S1 := TRUE;"));
    let priority = "TRANSITION ^(PRIORITY := 1) FROM S0 TO S1 := TRUE; END_TRANSITION";
    b.stops("a priority", &behind_two(priority));
    b.stops("a graphical form", &behind_two("TRANSITION FROM S0 TO S1 :^ X0 END_TRANSITION"));
    b.stops("an instruction list", &with_condition("^LD X0"));
    b.stops("OR", &with_condition("X0 ^OR X1"));
    b.stops("XOR", &with_condition("X0 ^XOR X1"));
    b.stops("a comparison", &with_condition("X0 ^= X1"));
    b.stops("a call", &with_condition("X0^(X1)"));
    b.stops("another variable", &with_condition("^S0.X"));
    b.stops("FALSE", &with_condition("^FALSE"));
    b.stops("TRUE within an AND", &with_condition("X0 AND ^TRUE"));
    b.stops("TRUE twice", &with_condition("TRUE ^TRUE"));
    b.stops("&", &with_condition("X0 ^& X1"));
    b.stops("brackets", &with_condition("^(X0)"));
    b.stops("NOT with brackets", &with_condition("NOT ^(X0)"));
    b.stops("a comment first", "^(* chart *) INITIAL_STEP S0: END_STEP");
    b.stops("a comment in a step", &with_associations("^(* none *)"));
    b.stops("a comment in a condition", &with_condition("X0 ^(* and *) AND X1"));
    b.stops("a comment last", "INITIAL_STEP S0: END_STEP ^(* end *)");
    b.stops("a pragma", "^{ once } INITIAL_STEP S0: END_STEP");
    b.stops("PROGRAM", "^PROGRAM P1 INITIAL_STEP S0: END_STEP END_PROGRAM");
    b.stops("END_PROGRAM", "INITIAL_STEP S0: END_STEP ^END_PROGRAM");
}

// GRAMMAR.md, "What a text says": steps, blocks and actions; request (iv): "a missing qualifier is
// N"; "the actions reach up to the highest one named"
fn check_text_blocks(b: &mut Bench) {
    let actions = |count: u8| -> Vec<u8> { (0..count).flat_map(|k| action(k, 1)).collect() };
    b.says("no block, no action", "INITIAL_STEP S0:END_STEP", &[step(1)]);
    let one = |q: u8, duration| [step(1), actions(1), block(0, 0, q, duration)];
    b.says("no qualifier", with_associations("A0();"), &one(0, 0));
    let untimed = [("N", 0), ("R", 1), ("S", 2), ("P", 5), ("P1", 9), ("P0", 10)];
    for (word, q) in untimed {
        b.says(word, with_associations(&format!("A0({});", word)), &one(q, 0));
        b.stops(word, &with_associations(&format!("A0({}^,T#1ms);", word)));
    }
    for (word, q) in [("L", 3), ("D", 4), ("SD", 6), ("DS", 7), ("SL", 8)] {
        for duration in [0, 1, 500, 86_400_000] {
            let text = with_associations(&format!("A0({},T#{}ms);", word, duration));
            b.says(word, text, &one(q, duration));
        }
        b.stops(word, &with_associations(&format!("A0({}^);", word)));
        b.stops(word, &with_associations(&format!("A0({},^);", word)));
        b.stops(word, &with_associations(&format!("A0({},T#1ms^,T#1ms);", word)));
    }
    for k in 0..32 {
        let text = with_associations(&format!("A{}();", k));
        b.says("up to the highest", text, &[step(1), actions(k + 1), block(0, k, 0, 0)]);
    }
    let text = "INITIAL_STEP S0: A3(); A1(R); END_STEP STEP S1: A1(S); A3(); A3(); END_STEP";
    let blocks = [(0, 3, 0), (0, 1, 1), (1, 1, 2), (1, 3, 0), (1, 3, 0)];
    let blocks = blocks.iter().flat_map(|(s, a, q)| block(*s, *a, *q, 0)).collect();
    b.says("in the text's order", text, &[step(1), step(0), actions(4), blocks]);
    let timed = "A0(N); A0(L,T#5ms); A1(D,T#5ms); A0(R);";
    let blocks = [block(0, 0, 0, 0), block(0, 0, 3, 5), block(0, 1, 4, 5), block(0, 0, 1, 0)];
    b.says("timed and untimed", with_associations(timed), &[step(1), actions(2), blocks.concat()]);
    for (pattern, text) in [
        (&[1, 1][..], "INITIAL_STEP S0: END_STEP INITIAL_STEP S1: END_STEP"),
        (&[1, 0][..], "INITIAL_STEP S0: END_STEP STEP S1: END_STEP"),
        (&[1, 0, 1], "INITIAL_STEP S0:END_STEP STEP S1:END_STEP INITIAL_STEP S2:END_STEP"),
    ] {
        let steps: Vec<Vec<u8>> = pattern.iter().map(|initial| step(*initial)).collect();
        b.says("initial or not", text, &steps);
    }
}

// GRAMMAR.md, "What a text says": "the sources and targets as sets, so that a name twice in a list
// counts once; the plain inputs as `on`, those after NOT as `off`, the same way; TRUE asks for
// nothing. The wait is 0."
fn check_text_transitions(b: &mut Bench) {
    let two = |on, off| [step(1), step(0), transition(1, 2, on, off, 0)];
    b.says("TRUE", with_condition("TRUE"), &two(0, 0));
    for k in 0..32 {
        b.says("plain", with_condition(&format!("X{}", k)), &two(1 << k, 0));
        b.says("after NOT", with_condition(&format!("NOT X{}", k)), &two(0, 1 << k));
    }
    b.says("an AND", with_condition("X0 AND X1"), &two(3, 0));
    b.says("an AND with NOT", with_condition("X0 AND NOT X1"), &two(1, 2));
    b.says("NOT first", with_condition("NOT X0 AND X1"), &two(2, 1));
    b.says("an AND of NOT", with_condition("NOT X5 AND NOT X4 AND NOT X3"), &two(0, 56));
    b.says("twice", with_condition("X2 AND X2 AND X1 AND X2"), &two(6, 0));
    b.says("twice after NOT", with_condition("NOT X2 AND NOT X2"), &two(0, 4));
    let all: Vec<String> = (0..32).map(|k| format!("X{}", k)).collect();
    b.says("all inputs", with_condition(&all.join(" AND ")), &two(0xffff_ffff, 0));
    let none = format!("NOT {}", all.join(" AND NOT "));
    b.says("no input", with_condition(&none), &two(0, 0xffff_ffff));
    let four = |rest: &str| behind_steps(4, rest);
    let steps = || [step(1), step(0).repeat(3)].concat();
    for (from, to, sources, targets) in [
        ("S0", "S1", 1, 2),
        ("S3", "S2", 8, 4),
        ("(S0,S1)", "S2", 3, 4),
        ("S0", "(S3,S2,S1)", 1, 14),
        ("(S0,S0)", "(S1,S1,S1,S1)", 1, 2),
        ("(S3,S1)", "(S0,S2)", 10, 5),
        ("(S3,S1,S3)", "(S2,S0,S0)", 10, 5),
    ] {
        let moves = transition(sources, targets, 0, 0, 0);
        b.says("sets", four(&move_text(from, to)), &[steps(), moves]);
    }
    let moves = [move_text("S2", "S1"), move_text("S0", "S3"), move_text("S2", "S1")].concat();
    let records = [(4, 2), (1, 8), (4, 2)];
    let records = records.iter().flat_map(|(from, to)| transition(*from, *to, 0, 0, 0)).collect();
    b.says("in the text's order", four(&moves), &[steps(), records]);
    let last = behind_steps(64, &move_text("S63", "(S10,S9)"));
    let moves = transition(1 << 63, 3 << 9, 0, 0, 0);
    b.says("all 64 steps", last, &[step(1), step(0).repeat(63), moves]);
}

// GRAMMAR.md: ""S" with a number from 0 to 63", ""A" and ... "X" with one from 0 to 31"; "numbers
// have no leading zero" (every number of up to three digits, leading zeros too, in every place of a
// name; the names by their spelling)
fn check_text_names(b: &mut Bench) {
    let places = [
        ("S", 64, "INITIAL_STEP ", ": END_STEP"),
        ("S", 64, "INITIAL_STEP S0: END_STEP STEP ", ":END_STEP"),
        ("S", 64, "INITIAL_STEP S0: END_STEP INITIAL_STEP ", " :END_STEP"),
        ("A", 32, "INITIAL_STEP S0:", "(N);END_STEP"),
        ("A", 32, "INITIAL_STEP S0: A0(N); ", " (); END_STEP"),
        ("S", 64, "INITIAL_STEP S0:END_STEP TRANSITION FROM ", " TO S1:=TRUE;END_TRANSITION"),
        ("S", 64, "INITIAL_STEP S0:END_STEP TRANSITION FROM(", ",S0)TO S1:=TRUE;END_TRANSITION"),
        ("S", 64, "INITIAL_STEP S0:END_STEP TRANSITION FROM(S0,", ")TO S1:=TRUE;END_TRANSITION"),
        ("S", 64, "INITIAL_STEP S0:END_STEP TRANSITION FROM S0 TO ", ":=X0;END_TRANSITION"),
        ("S", 64, "INITIAL_STEP S0:END_STEP TRANSITION FROM S0 TO(S1,S2,", "):=X0;END_TRANSITION"),
        ("X", 32, "INITIAL_STEP S0:END_STEP TRANSITION FROM S0 TO S1:=", ";END_TRANSITION"),
        ("X", 32, "INITIAL_STEP S0:END_STEP TRANSITION FROM S0 TO S1:=NOT ", ";END_TRANSITION"),
        ("X", 32, "INITIAL_STEP S0:END_STEP TRANSITION FROM S0 TO S1:=X0 AND ", ";END_TRANSITION"),
        ("X", 32, "INITIAL_STEP S0:END_STEP TRANSITION FROM S0 TO S1:=", " AND X0;END_TRANSITION"),
    ];
    let mut numbers: Vec<String> = vec![String::new()];
    numbers.extend((0..1000).map(|k| format!("{}", k)));
    numbers.extend((0..100).map(|k| format!("{:02}", k)));
    numbers.extend((0..1000).map(|k| format!("{:03}", k)));
    for (letter, count, before, behind) in places {
        let names = names_of(letter, count);
        let begins_one = |part: &str| names.iter().any(|name| name.starts_with(part));
        for number in &numbers {
            let name = format!("{}{}", letter, number);
            let text = format!("{}{}{}", before, name, behind);
            let code = read_text(text.as_bytes()).code;
            b.check("a name, or none", (code != 19) == names.contains(&name));
            if code == 19 {
                let good = (0..=name.len()).filter(|k| begins_one(name.get(..*k).unwrap_or("?")));
                let place = before.len() + good.max().unwrap_or(0);
                b.check("the place in a name", read_text(text.as_bytes()).place == place);
            }
        }
        let other = format!("{}{}0{}", before, letter.to_lowercase(), behind);
        b.answers("a lower-case name", other, 19, before.len());
        let cut = format!("{}{}", before, letter);
        b.answers("a cut name", &cut, 19, cut.len());
    }
}

// GRAMMAR.md: "qualifier = ..." (every word of up to two letters or digits, without and with a
// duration; the eleven by their spelling) and "duration = ..."
fn check_text_qualifiers(b: &mut Bench) {
    let bytes: Vec<char> = ('A'..='Z').chain('0'..='9').collect();
    let mut words: Vec<String> = vec![String::new()];
    words.extend(bytes.iter().map(|byte| byte.to_string()));
    for one in &bytes {
        words.extend(bytes.iter().map(|two| format!("{}{}", one, two)));
    }
    let untimed = ["", "N", "R", "S", "P", "P1", "P0"];
    let timed = ["L", "D", "SD", "DS", "SL"];
    for word in &words {
        for (allowed, rest) in [(&untimed[..], ");"), (&timed[..], ",T#5ms);")] {
            let text = with_associations(&format!("A0({}{}", word, rest));
            let reading = read_text(text.as_bytes());
            let right = allowed.contains(&word.as_str());
            b.check("a qualifier, or none", reading.code == if right { 0 } else { 19 });
            let place = by_productions(&b.productions, text.as_bytes());
            b.check("the place in a qualifier", right || place == Some(reading.place));
        }
    }
    b.stops("three letters", &with_associations("A0(SD^S,T#5ms);"));
    b.stops("P10", &with_associations("A0(P1^0);"));
    b.stops("P 1", &with_associations("A0(P ^1);"));
    b.stops("S D", &with_associations("A0(S ^D,T#5ms);"));
    b.stops("D S", &with_associations("A0(D ^S,T#5ms);"));
    b.stops("two qualifiers", &with_associations("A0(N^,R);"));
    b.stops("two words", &with_associations("A0(N ^R);"));
    b.stops("a lower-case one", &with_associations("A0(^n);"));
    b.stops("a sign alone", &with_associations("A0(^,T#5ms);"));
    b.stops("a duration alone", &with_associations("A0(^T#5ms);"));
    b.stops("no sign between", &with_associations("A0(D ^T#5ms);"));
    b.stops("nothing between", &with_associations("A0(D^T#5ms);"));
}

// GRAMMAR.md: "duration = ( "T#" | "TIME#" ) number ( "m" | "M" ) ( "s" | "S" ) one token"; "A
// duration is the number that its digits write, however many there are."; request (iv): "one above
// the limit is refusal 5"
fn check_text_durations(b: &mut Bench) {
    let with = |duration: &str| with_associations(&format!("A0(SL,{});", duration));
    let says = |duration| [step(1), action(0, 1), block(0, 0, 8, duration)];
    for begin in ["T#", "TIME#"] {
        for unit in ["ms", "mS", "Ms", "MS"] {
            for digits in [0, 1, 9, 10, 500, 86_399_999, 86_400_000] {
                let duration = format!("{}{}{}", begin, digits, unit);
                b.says("a duration", with(&duration), &says(digits));
            }
        }
    }
    b.stops("T", &with("T^5ms"));
    b.stops("TI", &with("TI^#5ms"));
    b.stops("TIM", &with("TIM^#5ms"));
    b.stops("TIME", &with("TIME^5ms"));
    b.stops("TIMER", &with("TIME^R#5ms"));
    b.stops("TT", &with("T^T#5ms"));
    b.stops("a blank before #", &with("T^ #5ms"));
    b.stops("a blank before the unit", &with("T#5^ ms"));
    b.stops("a blank in the unit", &with("T#5m^ s"));
    b.stops("a blank among the digits", &with("T#5^ 5ms"));
    b.stops("a sign +", &with("T#^+5ms"));
    b.stops("no digits", &with("T#^ms"));
    b.stops("no unit", &with("T#5^"));
    b.stops("half a unit", &with("T#5m^"));
    b.stops("us", &with("T#5^us"));
    b.stops("mms", &with("T#5m^ms"));
    b.stops("mss", &with("T#5ms^s"));
    b.stops("a number alone", &with("^5"));
    b.stops("00", &with("T#0^0ms"));
    b.stops("Time#", &with("T^ime#5ms"));
    for above in ["86400001", "99999999", "86400000000", "4294967295", "4294967296"] {
        b.answers("above the limit", with(&format!("T#{}ms", above)), 5, 0);
    }
    // 2^32, 2^33, 2^64 and 2^65 with 500 behind it, and 2^32 and 2^64 with the limit.
    let turned = ["4294967796", "8589935092", "18446744073709552116", "36893488147419103732"];
    for above in turned.iter().chain(&["4381367296", "18446744073795951616"]) {
        b.answers("not cut", with(&format!("T#{}ms", above)), 5, 0);
    }
    for count in [9, 10, 19, 20, 38, 39, 100, 5000] {
        for (first, digit) in [("1", "0"), ("9", "9"), ("4", "2")] {
            let digits = [first, &digit.repeat(count - 1)].concat();
            b.answers("many digits", with(&format!("TIME#{}MS", digits)), 5, 0);
            let cut = format!("INITIAL_STEP S0: A0(SL,T#{}", digits);
            b.answers("many digits, cut", &cut, 19, cut.len());
            let text = with(&format!("T#{}?ms", digits));
            b.answers("many digits, stopped", &text, 19, text.find('?').unwrap_or(0));
        }
        let zeros = with(&format!("T#{}ms", "0".repeat(count)));
        b.answers("many zeros", &zeros, 19, zeros.find("#00").unwrap_or(0) + 2);
    }
}

// A token of a text and whether it is a word.
type Token = (String, bool);

// GRAMMAR.md: "A token is what stands in quotation marks, a name or a duration. A word is a
// keyword, a qualifier, a name or a duration; the other tokens, `( ) , : ; :=`, are signs." (the
// tokens of a text, by another way: white space ends a token, and so does a sign)
fn tokens_of(text: &str) -> Vec<Token> {
    let mut spread = text.replace(":=", " \u{1} ");
    for sign in ["(", ")", ",", ":", ";"] {
        spread = spread.replace(sign, &format!(" {} ", sign));
    }
    let spread = spread.replace('\u{1}', ":=");
    let is_word = |token: &str| token.starts_with(|first: char| first.is_ascii_alphabetic());
    spread.split_whitespace().map(|token| (token.to_string(), is_word(token))).collect()
}

// Tokens with this between those that are both words and that between the others; the places where
// they begin.
fn joined(tokens: &[Token], needed: &str, other: &str) -> (String, Vec<usize>) {
    let mut text = String::new();
    let mut places = Vec::new();
    let mut word_before = false;
    for (token, is_word) in tokens {
        if !places.is_empty() {
            text.push_str(if word_before && *is_word { needed } else { other });
        }
        places.push(text.len());
        text.push_str(token);
        word_before = *is_word;
    }
    (text, places)
}

// Tokens with single spaces, but with this before the token k.
fn joined_but(tokens: &[Token], k: usize, gap: &str) -> (String, usize) {
    let (before, _) = joined(tokens.get(..k).unwrap_or(&[]), " ", " ");
    let (behind, _) = joined(tokens.get(k..).unwrap_or(&[]), " ", " ");
    (format!("{}{}{}", before, gap, behind), before.len() + gap.len())
}

// GRAMMAR.md: "White space is any run of the bytes 9 to 13 and 32. It may stand between any two
// tokens, before the first and after the last; it must stand between two tokens that are both
// words" (at every gap of a text in which all kinds of tokens stand)
fn check_text_blanks(b: &mut Bench) {
    let tokens = tokens_of(&full_text());
    let said = read_text(full_text().as_bytes()).chart;
    let same = |text: &str| read_text(text.as_bytes()).chart == said;
    b.answers("the full text", full_text(), 0, 0);
    b.check("its tokens", tokens.len() == 124);
    b.check("as little as can be", same(&joined(&tokens, " ", "").0));
    let run = "\t\n\u{b}\u{c}\r  \r\n\n";
    b.check("runs everywhere", same(&joined(&tokens, run, run).0));
    b.check("runs where they must", same(&joined(&tokens, run, "").0));
    let (text, _) = joined(&tokens, " ", "");
    b.check("runs at both ends", same(&format!("{}{}{}", run, text, run)));
    for (k, pair) in tokens.windows(2).enumerate() {
        let both = pair.iter().all(|(_, is_word)| *is_word);
        let (text, place) = joined_but(&tokens, k + 1, "");
        if both {
            b.answers("none between two words", &text, 19, place);
        } else {
            b.check("none beside a sign", same(&text));
        }
        for byte in 0..=32 {
            let gap = char::from(byte).to_string();
            let (text, place) = joined_but(&tokens, k + 1, &gap);
            let reading = read_text(text.as_bytes());
            match byte {
                9..=13 | 32 => b.check("a blank between", reading.chart == said),
                _ => {
                    let right = (reading.code, reading.place) == (19, place - 1);
                    b.check("another byte between", right);
                }
            }
        }
    }
    // All bytes, before the first, between two words, beside a sign and behind the last; with the
    // bytes that may begin a token there, behind which what follows is refused.
    for (before, behind, begins) in [
        ("", "INITIAL_STEP S0:END_STEP", "I"),
        ("INITIAL_STEP", "S0:END_STEP", ""),
        ("INITIAL_STEP S0:", "END_STEP", "AE"),
        ("INITIAL_STEP S0:END_STEP", "", ""),
    ] {
        for byte in 0..=255 {
            let text = [before.as_bytes(), &[byte], behind.as_bytes()].concat();
            let place = before.len() + usize::from(begins.as_bytes().contains(&byte));
            match byte {
                9..=13 | 32 => b.answers("a blank", text, 0, 0),
                _ => b.answers("another byte", text, 19, place),
            }
        }
    }
}

// GRAMMAR.md: "and it never stands inside a token" (a blank at every place inside every token;
// where the bytes before it are a token too, the first byte behind it is the refused one)
fn check_text_inside(b: &mut Bench) {
    let tokens = tokens_of(&full_text());
    let (text, places) = joined(&tokens, " ", " ");
    let with_shorter = ["A10", "A31", "X10", "X31", "P1", "P0", "SD", "DS", "SL"];
    let mut behind = 0;
    for ((token, _), place) in tokens.iter().zip(places) {
        for k in 1..token.len() {
            let (before, rest) = text.split_at(place + k);
            let shorter = k + 1 == token.len() && with_shorter.contains(&token.as_str());
            for blank in ["\t", "\n", "\u{b}", "\u{c}", "\r", " "] {
                let broken = format!("{}{}{}", before, blank, rest);
                b.answers("inside a token", broken, 19, place + k + usize::from(shorter));
            }
            behind += usize::from(shorter);
        }
    }
    b.check("each of these once", behind == with_shorter.len());
}

// Request (iv): "Keywords and names are upper case."; GRAMMAR.md: "the unit alone may be in either
// case" (each letter of the full text in the other case)
fn check_text_case(b: &mut Bench) {
    let tokens = tokens_of(&full_text());
    let (text, places) = joined(&tokens, " ", " ");
    let mut either = 0;
    for ((token, _), place) in tokens.iter().zip(places) {
        let bytes = token.bytes().enumerate();
        for (k, letter) in bytes.filter(|(_, byte)| byte.is_ascii_alphabetic()) {
            let mut bytes = text.clone().into_bytes();
            put(&mut bytes, place + k, letter ^ 32);
            if token.contains('#') && k + 2 >= token.len() {
                b.answers("a unit in the other case", &bytes, 0, 0);
                either += 1;
            } else {
                b.answers("a letter in the other case", &bytes, 19, place + k);
            }
        }
    }
    b.check("both letters of five units", either == 10);
}

// Request (iv): "Steps stand ... in number order from S0 without a gap."; "25 with the place of the
// first step name out of number order"; GRAMMAR.md: "65 steps are 25, since there is no S64"
fn check_text_25(b: &mut Bench) {
    for k in 1..64 {
        b.answers("the first", format!("INITIAL_STEP S{}: END_STEP", k), 25, 13);
    }
    b.answers("a place behind blanks", "\n INITIAL_STEP \t\r\n S1 : END_STEP", 25, 19);
    b.answers("twice", "INITIAL_STEP S0: END_STEP STEP S0: END_STEP", 25, 31);
    b.answers("a gap", "INITIAL_STEP S0: END_STEP STEP S2: END_STEP STEP S1: END_STEP", 25, 31);
    b.answers("turned", "INITIAL_STEP S1: END_STEP STEP S0: END_STEP", 25, 13);
    b.answers("an initial one", "INITIAL_STEP S0: END_STEP INITIAL_STEP S5: END_STEP", 25, 39);
    let two = "INITIAL_STEP S0: END_STEP STEP S2: END_STEP STEP S3: END_STEP";
    b.answers("the first of two", two, 25, 31);
    for count in 1..64 {
        let text = behind_steps(count, "");
        for name in (0..64).filter(|name| *name != count) {
            let wrong = format!("{}STEP S{}: END_STEP", text, name);
            let reading = read_text(wrong.as_bytes());
            let place = text.len() + 5;
            b.check("out of order", (reading.code, reading.place) == (25, place));
        }
        b.check("in order", read_text(behind_steps(count + 1, "").as_bytes()).code == 0);
    }
    let full = behind_steps(64, "");
    for name in 0..64 {
        let text = format!("{}STEP S{}:END_STEP", full, name);
        b.answers("a 65th step", text, 25, full.len() + 5);
    }
    b.stops("a 65th step S64", &format!("{}STEP S6^4:END_STEP", full));
    let more = "STEP S0:END_STEP ".repeat(1000);
    b.answers("many steps", format!("{}{}", full, more), 25, full.len() + 5);
    // A step named elsewhere is no head: the order of the names in transitions is free.
    let moves = [move_text("S2", "S1"), move_text("(S2,S1)", "S0")].concat();
    b.answers("names in transitions", behind_steps(3, &moves), 0, 0);
}

// Rows 4 to 8 of a held chart, each by itself; GRAMMAR.md: "4 | more than 64 transitions or 256
// blocks"; "5 | a transition names a step that the text does not have, or a duration is above
// 86,400,000"; "6, 7 | a step both a source and a target; an input both plain and after NOT"; "8 |
// two timed blocks for one action"
fn check_text_chart(b: &mut Bench) {
    let moves = |count: usize| behind_two(&move_text("S0", "S1").repeat(count));
    let blocks = |count: usize| with_associations(&"A0();".repeat(count));
    b.says("64 transitions", moves(64), &[step(1), step(0), transition(1, 2, 0, 0, 0).repeat(64)]);
    let full = [step(1), action(0, 1), block(0, 0, 0, 0).repeat(256)];
    b.says("256 blocks", blocks(256), &full);
    for count in [65, 66, 128, 256, 257, 320, 1000] {
        b.answers("more transitions", moves(count), 4, 0);
    }
    for count in [257, 258, 512, 513, 1000] {
        b.answers("more blocks", blocks(count), 4, 0);
    }
    let block_each = |count: usize| {
        let blocks = format!(": {}", "A0();".repeat(count));
        behind_steps(64, "").replace(':', &blocks)
    };
    b.answers("four blocks in each of 64 steps", block_each(4), 0, 0);
    b.answers("five blocks in each of 64 steps", block_each(5), 4, 0);
    for name in 2..64 {
        let name = format!("S{}", name);
        b.answers("5, a source", behind_two(&move_text(&name, "S1")), 5, 0);
        b.answers("5, a target", behind_two(&move_text("S0", &name)), 5, 0);
    }
    b.answers("5, in a list", behind_two(&move_text("(S0,S2)", "S1")), 5, 0);
    b.answers("5, last in a list", behind_two(&move_text("S0", "(S1,S1,S63)")), 5, 0);
    b.answers("5, a block", with_associations("A0(L,T#86400001ms);"), 5, 0);
    b.answers("6", behind_two(&move_text("S0", "S0")), 6, 0);
    b.answers("6, in a list", behind_two(&move_text("(S0,S1)", "S1")), 6, 0);
    b.answers("6, in two lists", behind_two(&move_text("(S0,S1)", "(S1,S1)")), 6, 0);
    for k in 0..32 {
        b.answers("7", with_condition(&format!("X{} AND NOT X{}", k, k)), 7, 0);
        b.answers("7, turned", with_condition(&format!("NOT X{} AND X{}", k, k)), 7, 0);
    }
    b.answers("7, among others", with_condition("X1 AND NOT X2 AND X3 AND NOT X1"), 7, 0);
    for one in ["L", "D", "SD", "DS", "SL"] {
        for two in ["L", "D", "SD", "DS", "SL"] {
            let pair = format!("A0({},T#0ms); A0({},T#1ms);", one, two);
            b.answers("8", with_associations(&pair), 8, 0);
            let apart = format!("A0({},T#0ms); A1({},T#1ms);", one, two);
            b.answers("8, of two actions", with_associations(&apart), 0, 0);
        }
    }
    let apart = "INITIAL_STEP S0: A7(L,T#5ms); END_STEP STEP S1: A7(); A7(L,T#5ms); END_STEP";
    b.answers("8, in two steps", apart, 8, 0);
}

// Request (iv): "Refusals: 19 ...; then 25 ...; then the chart's own, in a held chart's order";
// GRAMMAR.md: "4; then transition by transition 5, 6, 7; then the blocks' 5; then 8" (a text with
// all of these, of which the first is then taken away, and so on)
fn check_text_order(b: &mut Bench) {
    let good = move_text("S0", "S1");
    let five = move_text("S0", "S40");
    let five_and_six = move_text("S0", "(S0,S40)");
    let six = move_text("S0", "S0");
    let seven = good.replace("TRUE", "X0 AND NOT X0");
    let five_and_seven = five.replace("TRUE", "X0 AND NOT X0");
    let six_and_seven = six.replace("TRUE", "X0 AND NOT X0");
    let all = |name: &str, blocks: &str, moves: &str, last: &str| {
        let step = format!("STEP {}: {} END_STEP ", name, blocks);
        format!("INITIAL_STEP S0: END_STEP {}{}{}", step, moves, last)
    };
    let bad = "A0(L,T#86400001ms); A0(L,T#5ms);";
    let eight = "A0(L,T#5ms); A0(L,T#5ms);";
    let many = |more: &str| format!("{}{}", good.repeat(64), more);
    let text = all("S2", bad, &many(&five), "?");
    b.answers("19 first", &text, 19, text.len() - 1);
    b.answers("then 25", all("S2", bad, &many(&five), ""), 25, 31);
    b.answers("then 4", all("S1", bad, &many(&five), ""), 4, 0);
    b.answers("then 4, transitions", all("S1", bad, &many(&six), ""), 4, 0);
    b.answers("then 4, of seven", all("S1", bad, &seven.repeat(65), ""), 4, 0);
    let lots = format!("{}{}", bad, "A0();".repeat(255));
    b.answers("then 4, blocks", all("S1", &lots, &six_and_seven, ""), 4, 0);
    for (code, first) in [(5, &five), (5, &five_and_six), (5, &five_and_seven), (6, &six)] {
        for second in [&five, &six, &seven, &good] {
            let moves = [first.as_str(), second].concat();
            b.answers("then a transition", all("S1", bad, &moves, ""), code, 0);
            b.answers("25 before it", all("S3", bad, &moves, ""), 25, 31);
            let moves = [good.as_str(), &moves].concat();
            b.answers("the second transition", all("S1", bad, &moves, ""), code, 0);
        }
    }
    for (code, first) in [(6, &six_and_seven), (7, &seven)] {
        for second in [&five, &five_and_seven, &six, &good] {
            let moves = [first.as_str(), second].concat();
            b.answers("transition by transition", all("S1", bad, &moves, ""), code, 0);
            b.answers("before 8", all("S1", eight, &moves, ""), code, 0);
        }
    }
    let last = [good.repeat(63), seven.clone()].concat();
    b.answers("the last transition", all("S1", bad, &last, ""), 7, 0);
    b.answers("then a block's 5", all("S1", bad, &good, ""), 5, 0);
    b.answers("a block's 5 behind the 8", all("S1", &[eight, bad].concat(), &good, ""), 5, 0);
    b.answers("then 8", all("S1", eight, &good, ""), 8, 0);
    b.answers("then nothing", all("S1", "A0(L,T#5ms); A1(L,T#5ms);", &good, ""), 0, 0);
    // 19 before each of the others, at the end of the text and at its length.
    for (blocks, moves) in [(bad, &good), (eight, &good), ("", &six), ("", &seven), ("", &five)] {
        let text = all("S1", blocks, moves, "");
        let cut = text.trim_end().strip_suffix('N').unwrap_or("");
        b.answers("19 at the length", cut, 19, cut.len());
        b.answers("19 at a byte", format!("{}:", text), 19, text.len());
    }
}

// Texts of many kinds, all accepted: by hand, and some drawn by lot.
fn varied_texts() -> Vec<String> {
    let mut texts = vec![
        "INITIAL_STEP S0:END_STEP".to_string(),
        "\tINITIAL_STEP\u{b}S0\u{c}:\r\nEND_STEP \n".to_string(),
        with_associations("A0();A31 ( ) ; A10(N);A0(P0);A0 ( P1 ) ;A0(P);A0(S);A0(R);"),
        with_associations("A3(SD,TIME#0ms); A30 ( SL , T#86400000MS ) ; A1(L,T#1mS);A2(D,T#9Ms);"),
        with_condition("TRUE"),
        with_condition("NOT X31"),
        with_condition("X3 AND X30 AND NOT X0 AND NOT X19"),
        behind_steps(3, &move_text("(S0,S0)", "(S1,S2,S1)")),
        behind_steps(64, &move_text("S63", "(S6,S59)").repeat(3)),
        behind_two(&"TRANSITION FROM(S0,S0)TO(S1,S1):=NOT X1;END_TRANSITION ".repeat(3)),
        full_text(),
        joined(&tokens_of(&full_text()), " ", "").0,
        joined(&tokens_of(&full_text()), "\r\n\t", "\u{b}\u{c}").0,
    ];
    let mut lot = 83;
    while texts.len() < 60 {
        let drawn = text_by_lot(&mut lot);
        if read_text(&drawn.text).code == 0 {
            texts.push(String::from_utf8(drawn.text).unwrap_or_default());
        }
    }
    texts
}

// GRAMMAR.md: "If the bytes end too early, so that more bytes would make them a text, their number"
// (every proper prefix: it is a text just if it ends with a whole step or a whole transition, and
// white space may stand behind that; and else 19 at its length)
fn check_text_prefixes(b: &mut Bench) {
    for text in varied_texts() {
        b.answers("a varied text", &text, 0, 0);
        for length in 0..text.len() {
            let prefix = text.get(..length).unwrap_or("?");
            let reading = read_text(prefix.as_bytes());
            let shown = prefix.trim_end();
            if shown.ends_with("END_STEP") || shown.ends_with("END_TRANSITION") {
                // Steps stand before transitions, so it has all steps that it names.
                b.check("a prefix that is a text", (reading.code, reading.place) == (0, 0));
            } else {
                b.check("a prefix", (reading.code, reading.place) == (19, length));
            }
        }
    }
}

// GRAMMAR.md: "the bytes before it begin some text, and with it they begin none" (a byte that is in
// no token, at every place of every one of these texts and of every one of their prefixes, each way
// that it can stand there)
fn check_text_strays(b: &mut Bench) {
    let strays = [b'?', b'^', b'=', b'a', 0, 8, 14, 31, 33, 127, 128, 160, 255];
    for (k, text) in varied_texts().iter().enumerate() {
        let bytes = text.as_bytes();
        for place in 0..=bytes.len() {
            let (before, behind) = bytes.split_at(place);
            let stray = at(&strays, k % strays.len());
            for stray in [b'?', stray] {
                // The sign = may go on with a colon.
                if stray == b'=' && before.ends_with(b":") {
                    continue;
                }
                let inserted = [before, &[stray], behind].concat();
                let refused = |bytes: &[u8]| {
                    let reading = read_text(bytes);
                    (reading.code, reading.place) == (19, place)
                };
                b.check("a stray byte", refused(&inserted));
                b.check("a stray byte, nothing behind", refused(&[before, &[stray]].concat()));
                let replaced = [before, &[stray], behind.get(1..).unwrap_or(&[])].concat();
                b.check("a stray byte in its place", refused(&replaced));
            }
        }
    }
}

// A text drawn by lot; the place of the first name out of number order, and the file of a chart
// that says the same.
struct DrawnText {
    text: Vec<u8>,
    misnamed: Option<usize>,
    file: Vec<u8>,
}

// One of these, drawn by lot.
fn drawn<T: Copy>(lot: &mut u64, of: &[T]) -> Option<T> {
    of.get((next_lot(lot) % of.len().max(1) as u64) as usize).copied()
}

// Tokens of a list of steps, drawn by lot, and the steps in a word. One in so many is beyond.
fn steps_by_lot(lot: &mut u64, tokens: &mut Vec<Token>, among: &[u64]) -> u64 {
    let count = 1 + next_lot(lot) % 3;
    let mut word = 0;
    let mut list = Vec::new();
    for _ in 0..count {
        let beyond = next_lot(lot) % 40 == 0;
        let name = if beyond { next_lot(lot) % 64 } else { drawn(lot, among).unwrap_or(0) };
        word |= 1 << name;
        list.push(format!("S{}", name));
    }
    match list.len() {
        1 => tokens.extend(tokens_of(&list.concat())),
        _ => tokens.extend(tokens_of(&format!("({})", list.join(",")))),
    }
    word
}

// A transition among so many steps, drawn by lot: its tokens, and its record. Mostly its sources
// and its targets share no step.
fn transition_text_by_lot(lot: &mut u64, tokens: &mut Vec<Token>, count: u64) -> Vec<u8> {
    let all: Vec<u64> = (0..count).collect();
    let (from, to): (Vec<u64>, Vec<u64>) = all.iter().partition(|_| next_lot(lot) % 2 == 0);
    let apart = next_lot(lot) % 15 > 0 && !from.is_empty() && !to.is_empty();
    tokens.extend(tokens_of("TRANSITION FROM"));
    let sources = steps_by_lot(lot, tokens, if apart { &from } else { &all });
    tokens.extend(tokens_of("TO"));
    let targets = steps_by_lot(lot, tokens, if apart { &to } else { &all });
    let (mut on, mut off) = (0, 0);
    let mut inputs = Vec::new();
    for _ in 0..next_lot(lot) % 4 {
        let k = drawn(lot, &[0, 1, 9, 10, 12, 29, 30, 31]).unwrap_or(0);
        if next_lot(lot) % 3 == 0 {
            off |= 1 << k;
            inputs.push(format!("NOT X{}", k));
        } else {
            on |= 1 << k;
            inputs.push(format!("X{}", k));
        }
    }
    let condition = if inputs.is_empty() { "TRUE".to_string() } else { inputs.join(" AND ") };
    tokens.extend(tokens_of(&format!(":= {}; END_TRANSITION", condition)));
    transition(sources, targets, on, off, 0)
}

// A block of this step, drawn by lot: its tokens, and its step, action, qualifier and duration.
fn block_by_lot(lot: &mut u64, tokens: &mut Vec<Token>, step: u8) -> (u8, u8, u8, u32) {
    let words = ["", "N", "R", "S", "P", "P1", "P0", "L", "D", "SD", "DS", "SL"];
    let numbers = [0, 0, 1, 2, 5, 9, 10, 3, 4, 6, 7, 8];
    let k = (next_lot(lot) % 12) as usize;
    let action = drawn(lot, &[0, 1, 2, 3, 4, 5, 6, 7, 8, 9, 13, 22, 30, 31]).unwrap_or(0);
    let lengths = [("0", 0), ("1", 1), ("10", 10), ("500", 500), ("86400000", 86_400_000)];
    let above = [("86400001", 86_400_001), ("4294967296", u32::MAX), ("99999999999", u32::MAX)];
    let beyond = next_lot(lot) % 25 == 0;
    let length = if beyond { drawn(lot, &above) } else { drawn(lot, &lengths) };
    let (digits, duration) = length.unwrap_or(("0", 0));
    let begin = drawn(lot, &["T#", "TIME#"]).unwrap_or("");
    let unit = drawn(lot, &["ms", "mS", "Ms", "MS"]).unwrap_or("");
    let timed = k > 6;
    let rest = if timed { format!(", {}{}{}", begin, digits, unit) } else { String::new() };
    tokens.extend(tokens_of(&format!("A{}({}{});", action, at(&words, k), rest)));
    (step, action, at(&numbers, k), if timed { duration } else { 0 })
}

// A text drawn by lot of up to six steps, three blocks in each and four transitions, with white
// space by lot.
fn text_by_lot(lot: &mut u64) -> DrawnText {
    let mut tokens = Vec::new();
    let mut misnamed = None;
    let (mut steps, mut blocks, mut moves) = (Vec::new(), Vec::new(), Vec::new());
    let count = 1 + next_lot(lot) % 6;
    for k in 0..count {
        let initial = k == 0 || next_lot(lot) % 4 == 0;
        let name = if next_lot(lot) % 40 == 0 { next_lot(lot) % 64 } else { k };
        tokens.extend(tokens_of(if initial { "INITIAL_STEP" } else { "STEP" }));
        if name != k && misnamed.is_none() {
            misnamed = Some(tokens.len());
        }
        tokens.extend(tokens_of(&format!("S{}:", name)));
        steps.push(step(u8::from(initial)));
        for _ in 0..next_lot(lot) % 4 {
            blocks.push(block_by_lot(lot, &mut tokens, k as u8));
        }
        tokens.extend(tokens_of("END_STEP"));
    }
    for _ in 0..next_lot(lot) % 5 {
        moves.push(transition_text_by_lot(lot, &mut tokens, count));
    }
    let actions = blocks.iter().map(|block| block.1 + 1).max().unwrap_or(0);
    let actions = (0..actions).flat_map(|k| action(k, 1)).collect();
    let blocks = blocks.iter().flat_map(|(s, a, q, d)| block(*s, *a, *q, *d)).collect();
    let file = [steps.concat(), actions, moves.concat(), blocks, end()].concat();
    let (text, places) = spaced_by_lot(lot, &tokens);
    let misnamed = misnamed.and_then(|k| places.get(k).copied());
    DrawnText { text, misnamed, file }
}

// Tokens with white space by lot, and the places where they begin.
fn spaced_by_lot(lot: &mut u64, tokens: &[Token]) -> (Vec<u8>, Vec<usize>) {
    let mut text = Vec::new();
    let mut places = Vec::new();
    let mut word_before = false;
    let most = 1 + next_lot(lot) % 3;
    for (token, is_word) in tokens {
        let least = u64::from(word_before && *is_word);
        for _ in 0..least.max(next_lot(lot) % most) {
            text.push(drawn(lot, &[9, 10, 11, 12, 13, 32, 32, 32]).unwrap_or(32));
        }
        places.push(text.len());
        text.extend(token.as_bytes());
        word_before = *is_word;
    }
    text.extend(b"\n ".iter().take(next_lot(lot) as usize % 3));
    (text, places)
}

// Request (iv): "A text is accepted exactly if the subset's grammar ... produces it, its steps
// stand so and its chart passes document 01; it has one reading." (many texts by lot, each beside a
// file that says the same: the answer is 25 at the first name out of order, else what reading that
// file gives, with place 0. None of them has more of a kind than its limit, and so the order of a
// held chart is that of the file.)
fn check_text_by_lot(b: &mut Bench) {
    let mut lot = 89;
    let mut counts = [0; 26];
    for _ in 0..6000 {
        let drawn = text_by_lot(&mut lot);
        let reading = read_text(&drawn.text);
        let read = read_chart(&drawn.file);
        let (code, place) = match drawn.misnamed {
            Some(place) => (25, place),
            None => (read.code, 0),
        };
        b.check("the answer, by lot", (reading.code, reading.place) == (code, place));
        if code == 0 {
            b.check("one reading, by lot", reading.chart == read.chart);
            b.check("written, by lot", file_of(&reading.chart) == drawn.file);
        } else {
            b.check("all zero, by lot", reading.chart == Chart::default());
        }
        let before = at(&counts, code as usize);
        put(&mut counts, code as usize, before + 1);
    }
    let often: Vec<u64> = [0, 5, 6, 7, 8, 25].iter().map(|code| at(&counts, *code)).collect();
    b.check("all numbers, by lot", often.iter().all(|count| *count > 200));
    b.check("no other number, by lot", often.iter().sum::<u64>() == 6000);
}

// A text altered by lot: a byte taken out, put in, exchanged for another or for its neighbour, a
// token put in, a piece taken out, or the end cut off.
fn altered_by_lot(lot: &mut u64, text: &[u8]) -> Vec<u8> {
    let place = next_lot(lot) as usize % (text.len() + 1);
    let (before, behind) = text.split_at(place);
    let bytes = b"ABDEFILMNOPRSTUX_#0123456789(),:;=ms \t\n?&";
    let byte = [drawn(lot, bytes).unwrap_or(b'?')];
    let rest = |from: usize| behind.get(from..).unwrap_or(&[]);
    let words = ["S0", "A1", "X31", "STEP", "END_STEP", "TRANSITION", "AND", "T#5ms", " TRUE"];
    let pieces = ["NOT ", ":=", ";", "D,", "INITIAL_STEP ", " TO ", "FROM(", "X0 AND ", "A0();"];
    match next_lot(lot) % 8 {
        0 => [before, rest(1)].concat(),
        1 => [before, &byte, behind].concat(),
        2 => [before, &byte, rest(1)].concat(),
        3 => {
            let mut turned = text.to_vec();
            let next = (place + 1).min(text.len());
            turned.get_mut(place..next + 1).unwrap_or(&mut []).reverse();
            turned
        }
        4 => [before, drawn(lot, &words).unwrap_or("").as_bytes(), behind].concat(),
        5 => [before, drawn(lot, &pieces).unwrap_or("").as_bytes(), behind].concat(),
        6 => [before, rest(next_lot(lot) as usize % 12)].concat(),
        _ => before.to_vec(),
    }
}

// Request (iv): "19 with the place of the first byte that no sentence of the grammar can continue
// through, or the text's length if it ends too early" (many texts by lot, altered once or more: the
// place is that which all ways through the productions at once give, and if they give none it is
// another number)
fn check_text_19_by_lot(b: &mut Bench) {
    let mut lot = 97;
    let (mut stopped, mut ended, mut texts) = (0, 0, 0);
    for _ in 0..2500 {
        let drawn = text_by_lot(&mut lot).text;
        let once = altered_by_lot(&mut lot, &drawn);
        let other = altered_by_lot(&mut lot, &drawn);
        let twice = altered_by_lot(&mut lot, &other);
        for text in [once, other, twice] {
            let reading = read_text(&text);
            match by_productions(&b.productions, &text) {
                Some(place) => {
                    b.check("19, by lot", (reading.code, reading.place) == (19, place));
                    stopped += usize::from(place < text.len());
                    ended += usize::from(place == text.len());
                }
                None => {
                    b.check("a text, by lot", reading.code != 19);
                    texts += 1;
                }
            }
        }
    }
    b.check("stopped, ended and texts, by lot", stopped > 3000 && ended > 500 && texts > 300);
}

// Every text of up to so many pieces, each of which is one of these, behind a beginning; how many
// of them are texts.
fn check_pieces(b: &mut Bench, begin: &str, pieces: &[&str], most: u32) -> usize {
    let mut texts = 0;
    for count in 0..=most {
        for ways in 0..pieces.len().pow(count) {
            let mut text = begin.to_string();
            let mut rest = ways;
            for _ in 0..count {
                text.push_str(at(pieces, rest % pieces.len()));
                rest /= pieces.len();
            }
            let reading = read_text(text.as_bytes());
            let place = by_productions(&b.productions, text.as_bytes());
            let found = if reading.code == 19 { Some(reading.place) } else { None };
            b.check("all ways", found == place);
            texts += usize::from(place.is_none());
        }
    }
    texts
}

// The same place by all ways through the productions, for every short run of pieces (keywords,
// qualifiers and names that share a beginning, blanks and signs); how many are texts, by hand
fn check_text_all_ways(b: &mut Bench) {
    let pieces = ["INITIAL_STEP S0:", "END_STEP", " ", "STEP", "S0:"];
    let texts = check_pieces(b, "", &pieces, 4);
    b.check("steps", texts == 10);
    let begin = "INITIAL_STEP S0:A0(";
    let pieces = ["S", "D", "L", "P", "1", "0", " ", ",", "T#5ms", ");END_STEP"];
    let texts = check_pieces(b, begin, &pieces, 4);
    b.check("qualifiers", texts == 40);
    let begin = "INITIAL_STEP S0:END_STEP TRANSITION FROM S0 TO S0:=";
    let pieces = ["TRUE", "NOT", "AND ", "X1", "3", " ", ";END_TRANSITION"];
    let texts = check_pieces(b, begin, &pieces, 5);
    b.check("conditions", texts == 57);
    let begin = "INITIAL_STEP S0:END_STEP TRANSITION FROM";
    let pieces = ["(S6", "S6", "3", ",", ")", " ", "TO S0:=TRUE;END_TRANSITION"];
    let texts = check_pieces(b, begin, &pieces, 5);
    b.check("lists", texts == 6);
}

// For the command line: a case of `texts`.
fn text_bytes(text: impl AsRef<[u8]>) -> Vec<u8> {
    [&four_bytes(&[text.as_ref().len() as u32]), text.as_ref()].concat()
}

// For the command line: the lines of an input of `texts`, and whether nothing is left of it.
fn text_lines(input: &[u8]) -> (String, bool) {
    let mut fields = Fields::new(input);
    let mut lines = Vec::new();
    while let Some(line) = texts_case(&mut fields) {
        lines.extend(line);
    }
    (String::from_utf8(lines).unwrap_or_default(), fields.place == input.len())
}

// For the command line: lines of `texts`, by hand, byte for byte; cut cases, and one case behind
// the other.
fn check_text_lines(b: &mut Bench) {
    let whole = |line: &str| (line.to_string(), true);
    let line = |text: &str| text_lines(&text_bytes(text));
    b.check("an empty text", line("") == whole("19 0 0 0 0 0 0 0\n"));
    let one = "INITIAL_STEP S0: END_STEP";
    let said = "0 0 1 0 0 0 0 1 010001000100000000\n";
    b.check("one step", line(one) == whole(said));
    let input = [&[25, 0, 0, 0], one.as_bytes()].concat();
    b.check("every byte", text_lines(&input) == whole(said));
    b.check("25", line("INITIAL_STEP S1: END_STEP") == whole("25 13 0 0 0 0 0 0\n"));
    b.check("19", line("INITIAL_STEP S1: END_STEP S") == whole("19 27 0 0 0 0 0 0\n"));
    b.check("6", line(&behind_two(&move_text("S1", "S1"))) == whole("6 0 0 0 0 0 0 0\n"));
    let text = "INITIAL_STEP S0: A1(SL,T#258ms); END_STEP STEP S1: END_STEP \
                TRANSITION FROM S0 TO S1 := X8 AND NOT X31; END_TRANSITION";
    let words = [
        "0 0 2 2 1 1 0 1 0100010001",
        "0100010000",
        "050002000001000000",
        "050002000101000000",
        "240003000100000000000000020000000000000000010000000000000000008000000000",
        "00000000",
        "0700040000010802010000",
        "00000000\n",
    ];
    b.check("all kinds", line(text) == whole(&words.concat()));
    let full = behind_steps(64, &move_text("S63", "S0").repeat(64));
    let full = full.replacen("S0:", &format!("S0:{}", "A31();".repeat(256)), 1);
    let (long, left) = line(&full);
    b.check("the longest", left && long.starts_with("0 0 64 32 64 256 0 1 01000100010100"));
    b.check("its length", long.len() == 21 + 2 * (64 * 5 + 32 * 9 + 64 * 40 + 256 * 11 + 4) + 1);
    let cases = [text_bytes(one), text_bytes(""), text_bytes("\n"), text_bytes(one)].concat();
    let lines = [said, "19 0 0 0 0 0 0 0\n", "19 1 0 0 0 0 0 0\n", said].concat();
    b.check("one behind the other", text_lines(&cases) == whole(&lines));
    b.check("nothing", text_lines(&[]) == whole(""));
    let case = text_bytes(one);
    for length in 1..case.len() {
        let cut = case.get(..length).unwrap_or(&[]);
        b.check("a cut case", text_lines(cut).0.is_empty());
        b.check("a cut case behind", text_lines(&[&case, cut].concat()).0 == said);
    }
    let long = text_bytes(format!("{}{}", " ".repeat(70_000), one));
    b.check("four bytes of length", text_lines(&long) == whole(said));
    b.check("their hex", hex_of(&[0, 1, 15, 16, 165, 255]) == "00010f10a5ff");
}

// ---------------------------------------------------------------------------------------------
// The selftest: the hold key
// ---------------------------------------------------------------------------------------------

// A call after a start: the mark set, the mark cleared, or a cycle with clock and inputs.
#[derive(Clone, Copy)]
enum Deed {
    Set,
    Clear,
    Cycle(u32, u32),
}

// One such call; setting and clearing take no transition, give no reasons and write no outputs.
fn deed_done(held: &Held, run: &Run, deed: Deed, outputs: &mut [i32]) -> Answer {
    let turned = match deed {
        Deed::Set => set_hold(held, run),
        Deed::Clear => clear_hold(held, run),
        Deed::Cycle(clock, inputs) => return cycle(held, run, clock, inputs, outputs),
    };
    Answer { code: turned.code, taken: Set::new(), reasons: no_reasons(), run: turned.run }
}

// One start and then such calls; the last answer and the outputs.
fn keyed(held: &Held, clock: u32, deeds: &[Deed]) -> (Answer, Vec<i32>) {
    let mut outputs = vec![5; 34];
    let mut answer = start(held, clock, &mut outputs);
    for deed in deeds {
        answer = deed_done(held, &answer.run, *deed, &mut outputs);
    }
    (answer, outputs)
}

// The code of the answer, the taken transitions, the active steps and the activity after them.
fn keyed_seen(held: &Held, clock: u32, deeds: &[Deed]) -> (Code, u64, u64, u64) {
    let (answer, _) = keyed(held, clock, deeds);
    let run = &answer.run;
    (answer.code, word_of(&answer.taken), word_of(&run.active), word_of(&run.activity))
}

// A run with another hold mark and all else as it is.
fn with_mark(run: &Run, mark: u8) -> Run {
    let mut run = run.clone();
    run.hold_mark = mark;
    run
}

// A run of chart A in which everything is set that may be.
fn full_run_a() -> Run {
    let mut run = zero_run();
    run.clock = 4_294_967_295;
    run.active = numbers(2);
    run.activity = numbers(2);
    run.stored = numbers(2);
    run.latched = numbers(2);
    run.good = numbers(1);
    run.bad = numbers(1);
    put(&mut run.step_counters, 0, 86_400_000);
    put(&mut run.step_counters, 1, 3);
    put(&mut run.action_timers, 0, 4);
    put(&mut run.action_timers, 1, 86_400_000);
    run
}

// Request (vii): "The run record gets a hold mark, with one call to set it and one to clear it."
// (nothing else in the run moves, however often it is set or cleared)
fn check_hold_key(b: &mut Bench) {
    let held = held_a();
    let later = played(&held, 1000, &[(1010, 1), (1300, 0)]).0.run;
    for run in [zero_run(), run_a(), later, full_run_a()].iter() {
        b.check("no mark before", run.hold_mark == 0);
        let set = set_hold(&held, run);
        b.check("set", set.code == 0 && set.run == with_mark(run, 1));
        let again = set_hold(&held, &set.run);
        b.check("set again", again.code == 0 && again.run == set.run);
        let cleared = clear_hold(&held, &set.run);
        b.check("cleared", cleared.code == 0 && cleared.run == *run);
        let again = clear_hold(&held, &cleared.run);
        b.check("cleared again", again.code == 0 && again.run == *run);
    }
    let junk = held_a_with_junk();
    b.check("set beside junk", set_hold(&junk, &run_a()).run == with_mark(&run_a(), 1));
    b.check("junk plays no part", set_hold(&junk, &run_a()).code == 0);
    // Action 0 has P1 on step 0: its activity stays until the next cycle, whatever the key does.
    let away = transition(1, 2, 1 << 32, 0, 0);
    let held = held_of(&[step(1), step(0), action(0, 9), away, block(0, 0, 9, 0)]);
    let (set, clear) = (Deed::Set, Deed::Clear);
    b.check("activity stays, set", keyed_seen(&held, 7, &[set]) == (0, 0, 1, 1));
    b.check("activity stays, cleared", keyed_seen(&held, 7, &[set, clear]) == (0, 0, 1, 1));
    let deeds = [set, clear, Deed::Cycle(8, 0)];
    b.check("and is the signal", keyed_seen(&held, 7, &deeds) == (0, 1, 2, 0));
    let deeds = [set, Deed::Cycle(8, 0), clear, Deed::Cycle(9, 0)];
    b.check("of the call before", keyed_seen(&held, 7, &deeds) == (0, 0, 1, 0));
    let (answer, outputs) = keyed(&held, 7, &[set, clear]);
    b.check("the clock stays", answer.run.clock == 7);
    b.check("the outputs stay", at(&outputs, 0) == 9);
}

// Request (vii): "12 covers the mark too, which must be 0 or 1" (in every call that tests 12)
fn check_hold_mark(b: &mut Bench) {
    let zeros = Tally { code: 12, passed: 0, failed: 0, notrun: 0 };
    let all_zero = vec![0; 64];
    for base in [zero_run(), run_a(), full_run_a()].iter() {
        for mark in 0..=255 {
            let run = with_mark(base, mark);
            let wanted = if mark < 2 { 0 } else { 12 };
            b.check("mark, cycle and tally", run_codes(&run) == (wanted, wanted));
            let set = set_hold(&held_a(), &run);
            let cleared = clear_hold(&held_a(), &run);
            b.check("mark, set and clear", (set.code, cleared.code) == (wanted, wanted));
            let one = shift_code(&held_a(), &run, [0; 3], 32, 0);
            b.check("mark, shift of none", one == wanted);
            if mark > 1 {
                b.check("mark, set, run as given", set.run == run);
                b.check("mark, clear, run as given", cleared.run == run);
                b.check("mark, tally of zeros", tally(&held_a(), &run) == zeros);
                let answer = cycle(&held_a(), &run, run.clock, 1, &mut [0; 32]);
                b.check("mark, cycle, no reasons", answer.reasons == all_zero);
                let code = shift_code(&held_a(), &run, [2; 3], 32, run.clock);
                b.check("mark, shift of two", code == 12);
            }
        }
    }
    let mut run = run_a();
    run.bad = numbers(1);
    let failed = Tally { code: 0, passed: 0, failed: 1, notrun: 0 };
    b.check("tally under hold", tally(&held_a(), &with_mark(&run, 1)) == failed);
}

// The numbers that setting and clearing give, if both return the run as given, else 99.
fn key_codes(held: &Held, run: &Run) -> (Code, Code) {
    let set = set_hold(held, run);
    let cleared = clear_hold(held, run);
    if set.run != *run || cleared.run != *run {
        return (99, 99);
    }
    (set.code, cleared.code)
}

// Request (vii): "setting and clearing test chart, then 12, and refused return the run as given";
// document 01: "4, then records by kind with 5, 6, 7, then 9, 8"
fn check_hold_refusals(b: &mut Bench) {
    let mut strange = run_a();
    strange.active = numbers(3);
    let mut counted = run_a();
    put(&mut counted.step_counters, 1, 1);
    let mut timed = run_a();
    put(&mut timed.action_timers, 0, 1);
    let mut long = run_a();
    put(&mut long.step_counters, 0, 86_400_001);
    let mut marked = run_a();
    marked.bad = numbers(2);
    let runs = [strange, counted, timed, long, marked];
    let empty = held_without_steps();
    for mark in [0, 1, 2, 255].iter() {
        for run in runs.iter().chain([with_mark(&run_a(), 2)].iter()) {
            let run = with_mark(run, if run.hold_mark == 2 { 2 } else { *mark });
            b.check("key: 12", key_codes(&held_a(), &run) == (12, 12));
            b.check("key: no steps, 9 before 12", key_codes(&empty, &run) == (9, 9));
            let mut held = held_a();
            let timed = Block { step: 0, action: 0, qualifier: 3, duration: 9 };
            held.tables.blocks = vec![timed.clone(), timed.clone(), timed];
            b.check("key: 8 before 12", key_codes(&held, &run) == (8, 8));
            held.tables.steps = vec![Step { initial: 0 }, Step { initial: 0 }];
            b.check("key: 9 before 8", key_codes(&held, &run) == (9, 9));
            held.tables.cases = vec![Case { step: 0, signal: 0, expected: 2 }];
            b.check("key: 5 before 9", key_codes(&held, &run) == (5, 5));
            if let Some(first) = held.tables.transitions.first_mut() {
                first.off = set_of(1);
            }
            b.check("key: 7 of an earlier kind", key_codes(&held, &run) == (7, 7));
            if let Some(first) = held.tables.transitions.first_mut() {
                first.targets = set_of(1);
            }
            b.check("key: 6 before 7", key_codes(&held, &run) == (6, 6));
            held.counts.actions = 33;
            b.check("key: 4 first", key_codes(&held, &run) == (4, 4));
        }
    }
    let mut broken = held_a();
    broken.counts.steps = 65;
    let good = with_mark(&run_a(), 1);
    b.check("key: the chart alone", key_codes(&broken, &good) == (4, 4));
    b.check("key: the chart alone, no mark", key_codes(&broken, &run_a()) == (4, 4));
}

// Rows 11, 12, 15 and 18 with a mark: "a cycle tests 15, chart, 12, 11"; request (iii): "15, chart,
// 12, then 18 ...; then 11, at its place"; request (vii): "12 covers the mark too"
fn check_hold_order(b: &mut Bench) {
    let mut broken = held_a();
    broken.counts.steps = 65;
    for mark in [2, 3, 128, 254, 255].iter() {
        let run = with_mark(&run_a(), *mark);
        let mut few = vec![8; 31];
        let mut enough = vec![8; 32];
        let answer = cycle(&broken, &run, 999, 1, &mut few);
        b.check("mark: 15 first", answer.code == 15 && answer.run == run);
        let answer = cycle(&broken, &run, 999, 1, &mut enough);
        b.check("mark: then the chart", answer.code == 4 && answer.run == run);
        let answer = cycle(&held_a(), &run, 999, 1, &mut enough);
        b.check("mark: then 12", answer.code == 12 && answer.run == run);
        let answer = cycle(&held_a(), &run, 1001, 1, &mut enough);
        b.check("mark: 12 alone", answer.code == 12 && answer.run == run);
        b.check("mark: outputs untouched", few == vec![8; 31] && enough == vec![8; 32]);
        b.check("mark: tally, chart first", tally(&broken, &run).code == 4);
        for lengths in [[1; 3], [1, 2, 3], [4097; 3]].iter() {
            let code = |held: &Held, lent| shift_code(held, &run, *lengths, lent, 999);
            b.check("mark: shift, 15 first", code(&broken, 31) == 15);
            b.check("mark: shift, then the chart", code(&broken, 32) == 4);
            b.check("mark: shift, then 12", code(&held_a(), 32) == 12);
        }
    }
    let run = with_mark(&run_a(), 1);
    for lengths in [[1, 2, 3], [4097; 3]].iter() {
        b.check("hold: then 18", shift_code(&held_a(), &run, *lengths, 32, 999) == 18);
    }
    b.check("hold: then 11", shift_code(&held_a(), &run, [1; 3], 32, 999) == 11);
}

// A chart of two steps, 0 initial, with one action (output 0, value 1), a transition from 0 to 1
// that nothing holds back, and one block of step 0.
fn held_one(qualifier: u8, duration: u32) -> Held {
    let away = transition(1, 2, 0, 0, 0);
    held_of(&[step(1), step(0), action(0, 1), away, block(0, 0, qualifier, duration)])
}

// A run of it at clock 1000 under hold, with step 0 active at this counter, the action latched with
// this timer if there is one, and stored if that is said.
fn run_one(counter: u32, timer: Option<u32>, stored: bool) -> Run {
    let mut run = zero_run();
    run.clock = 1000;
    run.hold_mark = 1;
    run.active = numbers(1);
    put(&mut run.step_counters, 0, counter);
    if let Some(timer) = timer {
        run.latched = numbers(1);
        put(&mut run.action_timers, 0, timer);
    }
    if stored {
        run.stored = numbers(1);
    }
    run
}

// Whether a cycle 50 ms later, under hold, is accepted and leaves just this: activity and stored
// (each 0 or 1), the timer if latched, the counter as it was, no transition taken, step 0 alone
// active, no case marked, the clock reading renewed, the mark kept and the output by the activity.
fn held_50(held: &Held, run: &Run, activity: u64, stored: bool, timer: Option<u32>) -> bool {
    let mut wanted = run_one(at(&run.step_counters, 0), timer, stored);
    wanted.clock = 1050;
    wanted.activity = set_of(activity);
    let mut outputs = vec![5; 33];
    let answer = cycle(held, run, 1050, 0, &mut outputs);
    let written = [vec![activity as i32], vec![0; 31], vec![5]].concat();
    answer.code == 0
        && answer.taken.is_empty()
        && answer.reasons == reasons_by_hand("7")
        && answer.run == wanted
        && outputs == written
}

// Request (vii): "step counters stand still ... Actions and outputs are worked out as usual" (N, R,
// S and the qualifiers with a step counter, each on both sides of its time)
fn check_hold_counted(b: &mut Bench) {
    let run = |counter| run_one(counter, None, false);
    let ends = |held: &Held, counter, activity, stored| {
        held_50(held, &run(counter), activity, stored, None)
    };
    b.check("hold, N", ends(&held_one(0, 0), 7, 1, false));
    b.check("hold, S", ends(&held_one(2, 0), 7, 1, true));
    b.check("hold, S at 0", ends(&held_one(2, 0), 0, 1, true));
    b.check("hold, R", ends(&held_one(1, 0), 7, 0, false));
    b.check("hold, L 100 at 0", ends(&held_one(3, 100), 0, 1, false));
    b.check("hold, L 100 at 50", ends(&held_one(3, 100), 50, 1, false));
    b.check("hold, L 100 at 99", ends(&held_one(3, 100), 99, 1, false));
    b.check("hold, L 100 at 100", ends(&held_one(3, 100), 100, 0, false));
    b.check("hold, L 0", ends(&held_one(3, 0), 0, 0, false));
    b.check("hold, D 100 at 50", ends(&held_one(4, 100), 50, 0, false));
    b.check("hold, D 100 at 99", ends(&held_one(4, 100), 99, 0, false));
    b.check("hold, D 100 at 100", ends(&held_one(4, 100), 100, 1, false));
    b.check("hold, D 0", ends(&held_one(4, 0), 0, 1, false));
    b.check("hold, DS 100 at 50", ends(&held_one(7, 100), 50, 0, false));
    b.check("hold, DS 100 at 99", ends(&held_one(7, 100), 99, 0, false));
    b.check("hold, DS 100 at 100", ends(&held_one(7, 100), 100, 1, true));
    b.check("hold, DS 0", ends(&held_one(7, 0), 0, 1, true));
    let longest = 86_400_000;
    b.check("hold, L longest, one before", ends(&held_one(3, longest), longest - 1, 1, false));
    b.check("hold, L longest", ends(&held_one(3, longest), longest, 0, false));
    b.check("hold, D longest, one before", ends(&held_one(4, longest), longest - 1, 0, false));
    b.check("hold, D longest", ends(&held_one(4, longest), longest, 1, false));
    b.check("hold, DS longest, one before", ends(&held_one(7, longest), longest - 1, 0, false));
    b.check("hold, DS longest", ends(&held_one(7, longest), longest, 1, true));
    for qualifier in [3, 4, 7].iter() {
        let held = held_one(*qualifier, 100);
        let stored = run_one(7, None, true);
        b.check("hold, stored before", held_50(&held, &stored, 1, true, None));
    }
    let reset = held_one(1, 0);
    b.check("hold, R of stored", held_50(&reset, &run_one(7, None, true), 0, false, None));
    b.check("hold, R of latched", held_50(&reset, &run_one(7, Some(9), true), 0, false, None));
    let both = |first, second| {
        let away = transition(1, 2, 0, 0, 0);
        held_of(&[step(1), step(0), action(0, 1), away, block(0, 0, first, 0), second])
    };
    b.check("hold, R over S", ends(&both(2, block(0, 0, 1, 0)), 7, 0, false));
    b.check("hold, R over N", ends(&both(0, block(0, 0, 1, 0)), 7, 0, false));
    b.check("hold, R over DS", ends(&both(1, block(0, 0, 7, 5)), 7, 0, false));
    b.check("hold, R over SD", ends(&both(1, block(0, 0, 6, 0)), 7, 0, false));
    for q in [0, 2, 3, 4, 6, 7, 8].iter() {
        let elsewhere = both(5, block(1, 0, *q, 0));
        b.check("hold, an inactive step's block", ends(&elsewhere, 7, 0, false));
    }
}

// Request (vii): "action timers run on" (SD and SL, each on both sides of its time; the counter
// plays no part)
fn check_hold_latched(b: &mut Bench) {
    let ends = |held: &Held, counter, timer: Option<u32>, activity, after| {
        held_50(held, &run_one(counter, timer, false), activity, false, Some(after))
    };
    for counter in [0, 99, 100, 86_400_000].iter() {
        let counter = *counter;
        b.check("hold, SD 100 at 99", ends(&held_one(6, 100), counter, Some(49), 0, 99));
        b.check("hold, SD 100 at 100", ends(&held_one(6, 100), counter, Some(50), 1, 100));
        b.check("hold, SD 100 latched", ends(&held_one(6, 100), counter, None, 0, 0));
        b.check("hold, SD 0 latched", ends(&held_one(6, 0), counter, None, 1, 0));
        b.check("hold, SD 0 later", ends(&held_one(6, 0), counter, Some(0), 1, 50));
        b.check("hold, SL 100 at 99", ends(&held_one(8, 100), counter, Some(49), 1, 99));
        b.check("hold, SL 100 at 100", ends(&held_one(8, 100), counter, Some(50), 0, 100));
        b.check("hold, SL 100 latched", ends(&held_one(8, 100), counter, None, 1, 0));
        b.check("hold, SL 1 latched", ends(&held_one(8, 1), counter, None, 1, 0));
        b.check("hold, SL 0 latched", ends(&held_one(8, 0), counter, None, 0, 0));
        b.check("hold, SL 0 later", ends(&held_one(8, 0), counter, Some(0), 0, 50));
    }
    let longest = 86_400_000;
    let (before, short) = (Some(longest - 51), longest - 1);
    b.check("hold, SD longest", ends(&held_one(6, longest), 0, Some(longest - 50), 1, longest));
    b.check("hold, SD longest, before", ends(&held_one(6, longest), 0, before, 0, short));
    b.check("hold, SL longest, before", ends(&held_one(8, longest), 0, before, 1, short));
    b.check("hold, the timer's cap", ends(&held_one(8, longest), 0, Some(longest - 1), 0, longest));
    b.check("hold, at the cap", ends(&held_one(6, 5), 0, Some(longest), 1, longest));
    // Latched by a step that has been left: 0 has SD or SL 100 and goes on to 1, which has nothing.
    for (qualifier, words) in [(6, [0, 0, 1]), (8, [1, 1, 0])].iter() {
        let held = held_one(*qualifier, 100);
        let deeds = [Deed::Cycle(30, 0), Deed::Set, Deed::Cycle(99, 0), Deed::Cycle(100, 0)];
        let left = keyed_seen(&held, 0, deeds.get(..1).unwrap_or(&[]));
        b.check("left, then hold", left == (0, 1, 2, at(words, 0)));
        let first = keyed_seen(&held, 0, deeds.get(..3).unwrap_or(&[]));
        b.check("left, hold at 99", first == (0, 0, 2, at(words, 1)));
        b.check("left, hold at 100", keyed_seen(&held, 0, &deeds) == (0, 0, 2, at(words, 2)));
        let run = keyed(&held, 0, &deeds).0.run;
        b.check("left, timer", at(&run.action_timers, 0) == 100);
        b.check("left, counter", at(&run.step_counters, 1) == 0);
    }
    // An unlatched action's timer stays 0: action 1 has D, action 0 SD.
    let blocks = [block(0, 0, 6, 100), block(0, 1, 4, 100)].concat();
    let held = held_of(&[step(1), action(0, 1), action(1, 1), blocks]);
    let run = keyed(&held, 0, &[Deed::Set, Deed::Cycle(150, 0)]).0.run;
    b.check("hold, only the latched", at(&run.action_timers, 0) == 150);
    b.check("hold, not the other", at(&run.action_timers, 1) == 0);
    b.check("hold, SD 100 and D 100 part", word_of(&run.activity) == 1);
}

// Request (vii): "with nothing entered or left" (P, P1 and P0, with a transition that nothing else
// holds back)
fn check_hold_pulses(b: &mut Bench) {
    let actions = [action(0, 1), action(1, 1), action(2, 1)].concat();
    let of_step = |k| [block(k, 0, 5, 0), block(k, 1, 9, 0), block(k, 2, 10, 0)].concat();
    let moves = [transition(1, 2, 1, 0, 0), transition(2, 1, 2, 0, 0)].concat();
    let go = |inputs| Deed::Cycle(0, inputs);
    let (set, clear) = (Deed::Set, Deed::Clear);
    let held = held_of(&[step(1), step(0), actions.clone(), moves.clone(), of_step(0)]);
    b.check("pulses, start and set", keyed_seen(&held, 0, &[set]) == (0, 0, 1, 3));
    b.check("pulses over under hold", keyed_seen(&held, 0, &[set, go(0)]) == (0, 0, 1, 0));
    b.check("no leaving under hold", keyed_seen(&held, 0, &[set, go(1)]) == (0, 0, 1, 0));
    let deeds = [set, go(1), go(1), clear, go(0)];
    b.check("none when the key turns back", keyed_seen(&held, 0, &deeds) == (0, 0, 1, 0));
    let deeds = [set, go(1), go(1), clear, go(1)];
    b.check("leaving after it", keyed_seen(&held, 0, &deeds) == (0, 1, 2, 4));
    let deeds = [go(1), set, go(0)];
    b.check("left, then hold", keyed_seen(&held, 0, &deeds) == (0, 0, 2, 0));
    let deeds = [go(1), set, go(2)];
    b.check("no entering under hold", keyed_seen(&held, 0, &deeds) == (0, 0, 2, 0));
    let deeds = [go(1), set, go(2), clear, go(2)];
    b.check("entering after it", keyed_seen(&held, 0, &deeds) == (0, 2, 1, 3));
    let deeds = [go(1), go(2), set, go(0)];
    b.check("entered, then hold", keyed_seen(&held, 0, &deeds) == (0, 0, 1, 0));
    let held = held_of(&[step(1), step(0), actions, moves, of_step(1)]);
    b.check("no entering of the target", keyed_seen(&held, 0, &[set, go(1)]) == (0, 0, 1, 0));
    let deeds = [set, go(1), clear, go(1)];
    b.check("the target after it", keyed_seen(&held, 0, &deeds) == (0, 1, 2, 3));
    for qualifier in [5, 9, 10].iter() {
        for stored in [false, true].iter() {
            let held = held_one(*qualifier, 0);
            let run = run_one(0, None, *stored);
            let activity = u64::from(*stored);
            b.check("a pulse alone", held_50(&held, &run, activity, *stored, None));
        }
    }
}

// Request (vii): "step counters stand still, while action timers run on" (of several steps and
// actions, over several cycles, up to the cap)
fn check_hold_times(b: &mut Bench) {
    let blocks = [block(0, 0, 6, 200), block(1, 1, 8, 200), block(2, 2, 4, 5)].concat();
    let actions = [action(0, 1), action(1, 2), action(2, 3)].concat();
    let held = held_of(&[step(1), step(1), step(1), step(0), actions, blocks]);
    let mut run = played(&held, 0, &[(3, 0), (4, 0)]).0.run;
    let counters = |run: &Run| run.step_counters.get(..5).unwrap_or(&[]).to_vec();
    let timers = |run: &Run| run.action_timers.get(..4).unwrap_or(&[]).to_vec();
    b.check("before", counters(&run) == [4, 4, 4, 0, 0] && timers(&run) == [4, 4, 0, 0]);
    run = set_hold(&held, &run).run;
    let words = [(4, 2), (5, 2), (199, 2), (200, 1), (60_200, 1), (60_200, 1)];
    for (clock, activity) in words.iter() {
        let answer = cycle(&held, &run, *clock, u32::MAX, &mut [0; 32]);
        run = answer.run;
        b.check("under hold", answer.code == 0 && run.clock == *clock && run.hold_mark == 1);
        b.check("counters stand", counters(&run) == [4, 4, 4, 0, 0]);
        b.check("timers run", timers(&run) == [*clock, *clock, 0, 0]);
        b.check("D 5 at 4 stands too", word_of(&run.activity) == *activity);
    }
    run = clear_hold(&held, &run).run;
    run = cycle(&held, &run, 60_201, 0, &mut [0; 32]).run;
    b.check("counters go on", counters(&run) == [5, 5, 5, 0, 0]);
    b.check("timers as before", timers(&run) == [60_201, 60_201, 0, 0]);
    b.check("D 5 at 5", word_of(&run.activity) == 5);
    let held = held_of(&[step(1), action(0, 1), block(0, 0, 6, 86_400_000)]);
    let mut run = with_mark(&zero_run(), 1);
    run.active = numbers(1);
    run.latched = numbers(1);
    put(&mut run.step_counters, 0, 86_399_999);
    put(&mut run.action_timers, 0, 86_399_998);
    let first = cycle(&held, &run, 1, 0, &mut [0; 32]).run;
    b.check("cap: the timer grows", at(&first.action_timers, 0) == 86_399_999);
    b.check("cap: not yet active", first.activity.is_empty());
    let second = cycle(&held, &first, 60_001, 0, &mut [0; 32]).run;
    b.check("cap: the timer stops", at(&second.action_timers, 0) == 86_400_000);
    b.check("cap: now active", word_of(&second.activity) == 1);
    b.check("cap: the counter stood", at(&second.step_counters, 0) == 86_399_999);
    // 1,440 cycles of 60,000 ms under hold: the whole of the longest time.
    let mut run = with_mark(&played(&held, 0, &[(7, 0)]).0.run, 1);
    for k in 1..1441 {
        run = cycle(&held, &run, 7 + 60_000 * k, 0, &mut [0; 32]).run;
    }
    b.check("a day under hold, counter", at(&run.step_counters, 0) == 7);
    b.check("a day under hold, timer", at(&run.action_timers, 0) == 86_400_000);
    b.check("a day under hold, clock", run.clock == 86_400_007);
}

// Request (vii): "In a cycle under hold no transition is taken and step counters stand still"; "...
// with nothing entered or left" (so the wait of chart A is only reached by the time of cycles
// without hold, and no case is marked under it)
fn check_hold_chart_a(b: &mut Bench) {
    let held = held_a();
    let go = |clock, inputs| Deed::Cycle(clock, inputs);
    let (set, clear) = (Deed::Set, Deed::Clear);
    let one = Tally { code: 0, passed: 1, failed: 0, notrun: 0 };
    let none = Tally { code: 0, passed: 0, failed: 0, notrun: 1 };
    let at_once = [set, go(1010, 1), go(1020, 3)];
    b.check("chart A held at once", keyed_seen(&held, 1000, &at_once) == (0, 0, 1, 0));
    let deeds = [go(1010, 1), set, go(1510, 2), go(1600, 3), go(61_600, 2)];
    b.check("chart A held at 500", keyed_seen(&held, 1000, &deeds) == (0, 0, 2, 3));
    let (answer, outputs) = keyed(&held, 1000, &deeds);
    b.check("chart A held, tally", tally(&held, &answer.run) == none);
    b.check("chart A held, no mark", answer.run.good.is_empty() && answer.run.bad.is_empty());
    b.check("chart A held, counter", at(&answer.run.step_counters, 1) == 0);
    b.check("chart A held, stored", word_of(&answer.run.stored) == 2);
    b.check("chart A held, output", at(&outputs, 0) == 120 && at(&outputs, 1) == 0);
    let reached = [go(1010, 1), go(1510, 0), set, go(1511, 2), go(1512, 0)];
    b.check("wait reached, held", keyed_seen(&held, 1000, &reached) == (0, 0, 2, 3));
    let (answer, _) = keyed(&held, 1000, &reached);
    b.check("wait reached, counter", at(&answer.run.step_counters, 1) == 500);
    b.check("wait reached, tally", tally(&held, &answer.run) == none);
    let cleared = [reached.to_vec(), vec![clear, go(1512, 2)]].concat();
    b.check("wait reached, cleared", keyed_seen(&held, 1000, &cleared) == (0, 2, 1, 0));
    let (answer, _) = keyed(&held, 1000, &cleared);
    b.check("cleared, tally", tally(&held, &answer.run) == one);
    // 99 ms before the hold and 400 after it are one too few.
    let part = [go(1010, 1), go(1109, 0), set, go(1200, 2), go(1600, 2), go(61_600, 2), clear];
    let (answer, _) = keyed(&held, 1000, &part);
    b.check("99 ms before the hold", at(&answer.run.step_counters, 1) == 99);
    let short = [part.to_vec(), vec![go(62_000, 2)]].concat();
    b.check("499 ms without hold", keyed_seen(&held, 1000, &short) == (0, 0, 2, 3));
    let enough = [part.to_vec(), vec![go(62_001, 2)]].concat();
    b.check("500 ms without hold", keyed_seen(&held, 1000, &enough) == (0, 2, 1, 0));
    let two = [short, vec![go(62_001, 2)]].concat();
    b.check("500 ms in two", keyed_seen(&held, 1000, &two) == (0, 2, 1, 0));
    // A case is compared with the signal of the cycle that leaves, never with one under hold.
    let moves = transition(1, 2, 1, 0, 0);
    let cases = [case(0, 1, 1), case(0, 1, 0), case(0, 0, 1), case(1, 0, 0)].concat();
    let held = held_of(&[step(1), step(0), moves, cases]);
    let (answer, _) = keyed(&held, 0, &[set, go(1, 3), go(2, 1), go(3, 0)]);
    b.check("no case marked", answer.run.good.is_empty() && answer.run.bad.is_empty());
    let (answer, _) = keyed(&held, 0, &[set, go(1, 3), go(2, 0), clear, go(3, 1)]);
    b.check("marks by the last", word_of(&answer.run.good) == 6);
    b.check("and bad by the last", word_of(&answer.run.bad) == 1);
    let (later, _) = keyed(&held, 0, &[go(1, 1), set, go(2, 2), go(3, 3)]);
    b.check("marks from before stay", word_of(&later.run.good) == 6);
    b.check("bad ones too", word_of(&later.run.bad) == 1);
    // Set and cleared between two cycles: as if the key had not been turned.
    let turned = [go(1010, 1), set, clear, go(1510, 2)];
    let (answer, _) = keyed(&held_a(), 1000, &turned);
    let (same, _) = played(&held_a(), 1000, &[(1010, 1), (1510, 2)]);
    b.check("no cycle under hold", answer.run == same.run && answer.taken == same.taken);
}

// "Elapsed time is the new reading ... minus the last, modulo 2^32." and row 11, under hold: "Last
// clock 4,294,967,000, new 200: elapsed 496."; "Elapsed 60,000 accepted; 60,001 refused 11; clock
// one back refused 11."; "a refused cycle the run it was given" (with its mark)
fn check_hold_clock(b: &mut Bench) {
    let blocks = [block(0, 0, 6, 496), block(0, 1, 4, 1)].concat();
    let away = transition(1, 2, 0, 0, 0);
    let held = held_of(&[step(1), step(0), action(0, 1), action(1, 1), away, blocks]);
    for (new, timer, activity) in [(200, 496, 1), (199, 495, 0), (0, 296, 0)].iter() {
        let (answer, _) = keyed(&held, 4_294_967_000, &[Deed::Set, Deed::Cycle(*new, 0)]);
        let run = &answer.run;
        b.check("turn: accepted", answer.code == 0 && run.clock == *new);
        b.check("turn: timer", at(&run.action_timers, 0) == *timer);
        b.check("turn: counter", at(&run.step_counters, 0) == 0);
        b.check("turn: activity", word_of(&run.activity) == *activity);
        b.check("turn: mark and step", run.hold_mark == 1 && word_of(&run.active) == 1);
    }
    let over = [Deed::Set, Deed::Cycle(4_294_967_295, 0), Deed::Cycle(0, 0), Deed::Cycle(1, 0)];
    let (answer, _) = keyed(&held, 4_294_967_000, &over);
    b.check("turn in three", at(&answer.run.action_timers, 0) == 297);
    let cleared = [over.to_vec(), vec![Deed::Clear, Deed::Cycle(3, 0)]].concat();
    let (answer, _) = keyed(&held, 4_294_967_000, &cleared);
    b.check("turn, then cleared", answer.code == 0 && word_of(&answer.taken) == 1);
    b.check("turn, timer goes on", at(&answer.run.action_timers, 0) == 299);
    let began = keyed(&held, 5, &[Deed::Set]).0.run;
    for (clock, code) in [(60_005, 0), (60_006, 11), (4, 11), (u32::MAX, 11), (5, 0)].iter() {
        for inputs in [0, 1, u32::MAX].iter() {
            let mut outputs = vec![6; 40];
            let answer = cycle(&held, &began, *clock, *inputs, &mut outputs);
            b.check("hold, 11 or not", answer.code == *code && answer.taken.is_empty());
            let refused = answer.run == began && outputs == vec![6; 40];
            b.check("hold, 11, run as given", refused == (*code == 11));
            let digits = if *code == 11 { "" } else { "7" };
            b.check("hold, 11, reasons", answer.reasons == reasons_by_hand(digits));
            b.check("hold, mark kept", answer.run.hold_mark == 1);
        }
    }
    let deeds = [Deed::Set, Deed::Cycle(60_006, 0), Deed::Cycle(60_005, 0)];
    let (answer, _) = keyed(&held, 5, &deeds);
    b.check("hold goes on after 11", answer.code == 0 && answer.run.clock == 60_005);
    b.check("with the whole time", at(&answer.run.action_timers, 0) == 60_000);
    // The reading is renewed under hold: 60,000 ms after the last held cycle is accepted.
    let deeds = [Deed::Set, Deed::Cycle(60_000, 0), Deed::Clear, Deed::Cycle(120_000, 0)];
    b.check("the reading is renewed", keyed_seen(&held, 0, &deeds).0 == 0);
    let deeds = [Deed::Set, Deed::Cycle(60_000, 0), Deed::Clear, Deed::Cycle(120_001, 0)];
    b.check("and tested again", keyed_seen(&held, 0, &deeds).0 == 11);
    let deeds = [Deed::Set, Deed::Clear, Deed::Cycle(60_001, 0)];
    b.check("the key renews nothing", keyed_seen(&held, 0, &deeds).0 == 11);
    let mut few = vec![6; 31];
    let answer = cycle(&held, &began, 6, 0, &mut few);
    b.check("hold, 15", answer.code == 15 && answer.run == began && few == vec![6; 31]);
    b.check("hold, 15, no reasons", answer.reasons == reasons_by_hand(""));
    let mut broken = held.clone();
    broken.counts.cases = 65;
    let mut enough = vec![6; 32];
    let answer = cycle(&broken, &began, 6, 0, &mut enough);
    b.check("hold, 4", answer.code == 4 && answer.run == began && enough == vec![6; 32]);
    b.check("hold, 4, no reasons", answer.reasons == reasons_by_hand(""));
    let mut strange = began.clone();
    strange.active = numbers(3);
    let answer = cycle(&held, &strange, 6, 0, &mut enough);
    b.check("hold, 12", answer.code == 12 && answer.run == strange && enough == vec![6; 32]);
    b.check("hold, 12, no reasons", answer.reasons == reasons_by_hand(""));
}

// Request (vii): "Actions and outputs are worked out as usual"; document 01: "Each output gets the
// value of its first active action in the table, else 0."; "writes the first 32 and no others"
fn check_hold_outputs(b: &mut Bench) {
    let actions = [action(3, 9), action(3, -7), action(3, 8), action(31, i32::MIN)].concat();
    let blocks = [block(0, 0, 9, 0), block(0, 1, 8, 50), block(0, 2, 0, 0), block(0, 3, 6, 50)];
    let held = held_of(&[step(1), actions, blocks.concat()]);
    let wanted = |three: i32, last: i32| {
        [vec![0; 3], vec![three], vec![0; 27], vec![last], vec![5; 2]].concat()
    };
    let (answer, outputs) = keyed(&held, 0, &[Deed::Set]);
    b.check("outputs of the start stay", outputs == wanted(9, 0));
    b.check("activity of the start stays", word_of(&answer.run.activity) == 7);
    let (answer, outputs) = keyed(&held, 0, &[Deed::Set, Deed::Cycle(49, 0)]);
    b.check("outputs under hold, 49", outputs == wanted(-7, 0));
    b.check("activity under hold, 49", word_of(&answer.run.activity) == 6);
    let (answer, outputs) = keyed(&held, 0, &[Deed::Set, Deed::Cycle(50, 0)]);
    b.check("outputs under hold, 50", outputs == wanted(8, i32::MIN));
    b.check("activity under hold, 50", word_of(&answer.run.activity) == 12);
}

// Request (vii): "reason 7 of request (vi) is "hold" and comes first" (before each of the others
// and before "taken"); request (vi): "Reasons of a start, of a refused call and beyond the last
// transition are 0."; "prints a second line with the reason of every transition in number order as
// one digit"
fn check_hold_reasons(b: &mut Bench) {
    for word in 0..64 {
        let held = held_back(&set_of(word << 1), (1, 2));
        let (answer, _) = keyed(&held, 0, &[Deed::Set, Deed::Cycle(9, 2)]);
        b.check("hold before these", answer.code == 0 && answer.reasons == reasons_by_hand("77"));
        b.check("hold takes nothing", answer.taken.is_empty() && taken_agree(&held, &answer));
        b.check("hold's second line", second_line(&held, &answer) == "77\n");
        let (before, _) = played(&held, 0, &[(9, 2)]);
        let deeds = [Deed::Set, Deed::Cycle(0, 2), Deed::Clear, Deed::Cycle(9, 2)];
        let (after, _) = keyed(&held, 0, &deeds);
        b.check("without hold as before", after.reasons == before.reasons);
        b.check("taken as before", after.taken == before.taken && after.run == before.run);
    }
    let why = |held: &Held, digits: &str| {
        let (answer, _) = keyed(held, 0, &[Deed::Set, Deed::Cycle(1, 1)]);
        let line = second_line(held, &answer) == digits.to_string() + "\n";
        answer.code == 0 && answer.reasons == reasons_by_hand(digits) && line
    };
    b.check("hold, no transitions", why(&held_of(&[step(1)]), ""));
    b.check("hold, chart A", why(&held_a(), "77"));
    b.check("hold, junk beyond", why(&held_a_with_junk(), "77"));
    let mut held = held_a();
    held.counts.transitions = 1;
    b.check("hold, one transition fewer", why(&held, "7"));
    let held = held_steps(&[1, 0], &vec![transition(1, 2, 1, 0, 0); 64]);
    b.check("hold, 64 transitions", why(&held, &"7".repeat(64)));
    let held = held_steps(&[1, 0], &[transition(2, 1, 0, 0, 0)]);
    b.check("hold, a source not active", why(&held, "7"));
    let began = keyed(&held_a(), 0, &[Deed::Set]).0.run;
    let mut outputs = vec![0; 32];
    let refused = cycle(&held_a(), &began, 60_001, 1, &mut outputs);
    b.check("hold, refused, none", refused.code == 11 && refused.reasons == reasons_by_hand(""));
    b.check("hold, refused, no line", second_line(&held_a(), &refused).is_empty());
    let all_zero = with_mark(&zero_run(), 1);
    let answer = cycle(&held_a(), &all_zero, 0, 3, &mut outputs);
    b.check("hold, no active step", answer.reasons == reasons_by_hand("77"));
}

// "Start makes the initial steps active and entered, none left, all else 0"; "A refused start
// returns an all-zero run" (so the mark is 0, whatever was before)
fn check_hold_start(b: &mut Bench) {
    let mut outputs = vec![0; 32];
    for held in [held_a(), held_of_all(), held_one(6, 0)].iter() {
        let answer = start(held, 9, &mut outputs);
        b.check("start, mark 0", answer.code == 0 && answer.run.hold_mark == 0);
    }
    b.check("all-zero run, mark 0", zero_run().hold_mark == 0);
    b.check("15, mark 0", start(&held_a(), 9, &mut []).run.hold_mark == 0);
    let mut broken = held_a();
    broken.counts.steps = 65;
    b.check("4, mark 0", start(&broken, 9, &mut outputs).run.hold_mark == 0);
    let (answer, _) = keyed(&held_a(), 1000, &[Deed::Set, Deed::Cycle(1001, 1)]);
    b.check("held", answer.run.hold_mark == 1 && answer.taken.is_empty());
    let again = start(&held_a(), 1001, &mut outputs);
    let answer = cycle(&held_a(), &again.run, 1002, 1, &mut outputs);
    b.check("a new start is not held", word_of(&answer.taken) == 1);
}

// A shift of cycles from a run, made singly: what it must leave (outputs 5 before).
fn singly_from(held: &Held, run: &Run, cycles: &[(u32, u32)]) -> Shifted {
    let mut words = lent_words(cycles.len());
    let mut outputs = vec![5; 34];
    let mut now = run.clone();
    for (k, (clock, inputs)) in cycles.iter().enumerate() {
        let answer = cycle(held, &now, *clock, *inputs, &mut outputs);
        if answer.code != 0 {
            return (answer.code, k as u64, now, words, outputs);
        }
        now = answer.run;
        put(&mut words, k, word_of(&now.activity));
    }
    (0, cycles.len() as u64, now, words, outputs)
}

// Request (iii): "The result equals the calls made singly." (a shift that begins under hold goes on
// under it to its end)
fn check_hold_shift(b: &mut Bench) {
    let blocks = [block(0, 0, 3, 100), block(0, 1, 4, 100), block(0, 2, 6, 100)].concat();
    let more = [block(0, 3, 8, 100), block(0, 4, 9, 0), block(0, 5, 10, 0)].concat();
    let actions: Vec<Vec<u8>> = (0..6).map(|k| action(k, 1)).collect();
    let away = transition(1, 2, 0, 0, 0);
    let held = held_of(&[step(1), step(0), actions.concat(), away, blocks, more, case(0, 0, 1)]);
    let began = keyed(&held, 0, &[Deed::Set]).0.run;
    let cycles = [(0, 1), (99, 1), (100, 0), (60_100, u32::MAX)];
    let (code, accepted, run, words, outputs) = shifted(&held, &began, &cycles);
    b.check("shift under hold", (code, accepted) == (0, 4));
    b.check("shift under hold, words", words == vec![9, 9, 5, 5]);
    b.check("shift under hold, mark", run.hold_mark == 1 && run.clock == 60_100);
    b.check("shift under hold, step", word_of(&run.active) == 1 && run.good.is_empty());
    b.check("shift under hold, counter", at(&run.step_counters, 0) == 0);
    b.check("shift under hold, timer", at(&run.action_timers, 2) == 60_100);
    let written = [vec![1, 0, 1], vec![0; 29], vec![5; 2]].concat();
    b.check("shift under hold, outputs", outputs == written && run.bad.is_empty());
    let none = (0, 0, began.clone(), vec![], vec![5; 34]);
    b.check("no cycles under hold", shifted(&held, &began, &[]) == none);
    let cycles = [(50, 1), (49, 1), (100, 1)];
    let (code, accepted, run, words, _) = shifted(&held, &began, &cycles);
    b.check("shift under hold, 11", (code, accepted, run.clock) == (11, 1, 50));
    b.check("shift under hold, 11, mark", run.hold_mark == 1);
    b.check("shift under hold, 11, words", words == vec![9, u64::MAX - 1, u64::MAX - 2]);
    let first = (11, 0, began.clone(), lent_words(1), vec![5; 34]);
    b.check("shift under hold, 11 first", shifted(&held, &began, &[(60_001, 1)]) == first);
    let cleared = clear_hold(&held, &began).run;
    let (_, _, run, words, _) = shifted(&held, &cleared, &[(10, 1), (20, 0)]);
    b.check("the same without hold", words == vec![40, 8] && word_of(&run.active) == 2);
    b.check("the same, no mark", run.hold_mark == 0 && word_of(&run.good) == 1);
    // All qualifiers: the hold begins after each number of cycles.
    let held = held_of_all();
    let cycles = cycles_of_all();
    let mut seen_words = BTreeSet::new();
    for count in 0..cycles.len() + 1 {
        let (first, second) = cycles.split_at(count);
        let before = played(&held, 4_294_967_000, first).0.run;
        let run = set_hold(&held, &before).run;
        let answer = shifted(&held, &run, second);
        b.check("singly under hold", answer == singly_from(&held, &run, second));
        b.check("all accepted", (answer.0, answer.1) == (0, second.len() as u64));
        let kept = answer.2.active == before.active && answer.2.hold_mark == 1;
        b.check("steps kept", kept && answer.2.step_counters == before.step_counters);
        b.check("marks kept", answer.2.good == before.good && answer.2.bad == before.bad);
        seen_words.extend(answer.3);
    }
    b.check("many words under hold", seen_words.len() > 8);
}

// A chart drawn by lot: six steps, eight transitions, four actions with a timed and three untimed
// blocks each, and four cases.
fn held_by_lot(lot: &mut u64) -> Held {
    let mut records = vec![step(1)];
    records.extend((0..5).map(|_| step((next_lot(lot) % 2) as u8)));
    records.extend((0..4).map(|k| action(k % 3, 10 + i32::from(k))));
    records.extend((0..8).map(|_| transition_by_lot(lot)));
    for k in 0..4 {
        let timed = at(&[3u8, 4, 6, 7, 8], (next_lot(lot) % 5) as usize);
        let where_timed = (next_lot(lot) % 6) as u8;
        records.push(block(where_timed, k, timed, (next_lot(lot) % 4 * 7) as u32));
        for _ in 0..3 {
            let untimed = at(&[0u8, 1, 2, 5, 9, 10], (next_lot(lot) % 6) as usize);
            records.push(block((next_lot(lot) % 6) as u8, k, untimed, 0));
        }
    }
    for _ in 0..4 {
        records.push(case((next_lot(lot) % 6) as u8, (next_lot(lot) % 36) as u8, 1));
    }
    held_of(&records)
}

// Request (vii), by another way: "no transition is taken ... with nothing entered or left" as a
// chart without transitions; "step counters stand still" as an elapsed time of 0; "action timers
// run on" as timers that have grown before. (The run after the cycle, and the outputs.)
fn under_hold_otherwise(held: &Held, run: &Run, clock: u32, inputs: u32) -> (Run, Vec<i32>) {
    let mut still = held.clone();
    still.counts.transitions = 0;
    let mut grown = with_mark(run, 0);
    for k in 0..32 {
        if run.latched.contains(&k) {
            let timer = u64::from(at(&run.action_timers, k)) + u64::from(clock - run.clock);
            put(&mut grown.action_timers, k, timer.min(86_400_000) as u32);
        }
    }
    grown.clock = clock;
    let mut outputs = vec![5; 34];
    let answer = cycle(&still, &grown, clock, inputs, &mut outputs);
    (with_mark(&answer.run, 1), outputs)
}

// One more for each of these steps.
fn count_up(counts: &mut [usize], steps: &Set) {
    for step in steps {
        let more = at(counts, *step) + 1;
        put(counts, *step, more);
    }
}

// Request (vii): "Actions and outputs are worked out as usual"; "Demand 3 holds with such calls
// between cycles" (many charts and calls by lot: for every step, initial plus arrivals is
// departures plus active, by the transitions taken; a call under hold leaves what the other way
// leaves)
fn check_hold_by_lot(b: &mut Bench) {
    let mut lot = 7;
    let (mut held_cycles, mut taken_after, mut words) = (0, 0, BTreeSet::new());
    for _ in 0..200 {
        let held = held_by_lot(&mut lot);
        b.check("a chart by lot", held_code(&held) == 0);
        let mut run = played(&held, 0, &[]).0.run;
        let (mut arrived, mut departed) = (vec![0; 6], vec![0; 6]);
        count_up(&mut arrived, &run.active);
        let mut outputs = vec![5; 34];
        for k in 1..25 {
            let (clock, inputs) = (7 * k, next_lot(&mut lot) as u32 % 8);
            let deed = match next_lot(&mut lot) % 8 {
                0 | 1 => Deed::Set,
                2 => Deed::Clear,
                _ => Deed::Cycle(clock, inputs),
            };
            let answer = deed_done(&held, &run, deed, &mut outputs);
            b.check("accepted by lot", answer.code == 0);
            match deed {
                Deed::Set => b.check("set by lot", answer.run == with_mark(&run, 1)),
                Deed::Clear => b.check("cleared by lot", answer.run == with_mark(&run, 0)),
                Deed::Cycle(..) if run.hold_mark == 1 => {
                    let (other, written) = under_hold_otherwise(&held, &run, clock, inputs);
                    b.check("under hold by lot", answer.run == other && outputs == written);
                    b.check("all 7 by lot", answer.reasons == reasons_by_hand("77777777"));
                    held_cycles += 1;
                    words.insert(word_of(&other.activity));
                }
                Deed::Cycle(..) => {
                    b.check("no hold by lot", taken_agree(&held, &answer));
                    b.check("no 7 by lot", answer.reasons.iter().all(|reason| *reason < 7));
                    taken_after += answer.taken.len();
                }
            }
            for t in answer.taken.iter().filter_map(|k| held.tables.transitions.get(*k)) {
                count_up(&mut arrived, &t.targets);
                count_up(&mut departed, &t.sources);
            }
            run = answer.run;
            let active = |step| usize::from(run.active.contains(&step));
            let even = |step| at(&arrived, step) == at(&departed, step) + active(step);
            b.check("the ledger by lot", (0..6).all(even));
        }
    }
    b.check("many cycles under hold", held_cycles > 1000 && words.len() == 16);
    b.check("and some taken", taken_after > 200);
}

// Request (vii): a key that is set and cleared again before a cycle, or cleared when it is clear,
// changes nothing of it (all qualifiers, at every place)
fn check_hold_between(b: &mut Bench) {
    let held = held_of_all();
    let cycles = cycles_of_all();
    let clock = 4_294_967_000;
    let deed_of = |(clock, inputs): &(u32, u32)| Deed::Cycle(*clock, *inputs);
    let plain: Vec<Deed> = cycles.iter().map(deed_of).collect();
    let (whole, outputs) = keyed(&held, clock, &plain);
    let same = |deeds: &[Deed]| {
        let (answer, written) = keyed(&held, clock, deeds);
        let run = answer.run == whole.run && answer.taken == whole.taken;
        answer.code == 0 && run && answer.reasons == whole.reasons && written == outputs
    };
    for place in 0..plain.len() {
        let (first, second) = plain.split_at(place);
        let turned = [first, &[Deed::Set, Deed::Set, Deed::Clear], second].concat();
        b.check("set and cleared", same(&turned));
        b.check("cleared", same(&[first, &[Deed::Clear], second].concat()));
        let (held_then, _) = keyed(&held, clock, &[first, &[Deed::Set], second].concat());
        b.check("set and left so", held_then.run.hold_mark == 1 && held_then.taken.is_empty());
    }
}

// For the command line: the hold mark in a run image and in the lines, and the calls 6 and 7, by
// hand.
fn check_hold_lines(b: &mut Bench) {
    let zeros = |count: usize| " 0".repeat(count);
    let line_of_call = |image: &[u8], call: Vec<u8>| {
        let input = [image, &call].concat();
        let mut fields = Fields::new(&input);
        let line = held_case(&mut fields).unwrap_or_default();
        (String::from_utf8(line).unwrap_or_default(), fields.place == input.len())
    };
    let whole = |line: String| (line, true);
    let image_of = |mark: u8| {
        let mut image = held_image();
        let last = image.len() - 1;
        put(&mut image, last, mark);
        image
    };
    let run = |text: &str, mark: u8| format!("{} 0 0 0 0 {}{}", text, mark, zeros(64 + 32));
    let key = |kind| call_bytes(kind, 77, 88, 33, 0);
    for mark in 0..=255 {
        let accepted = mark < 2;
        let set = run(if accepted { "0 0 1000 1 0" } else { "12 0 1000 1 0" }, mark.max(1)) + "\n";
        b.check("line of 6", line_of_call(&image_of(mark), key(6)) == whole(set));
        let left = if accepted { 0 } else { mark };
        let cleared = run(if accepted { "0 0 1000 1 0" } else { "12 0 1000 1 0" }, left) + "\n";
        b.check("line of 7", line_of_call(&image_of(mark), key(7)) == whole(cleared));
        let began = format!("{}{} 1032\n", run("0 0 77 1 0", 0), zeros(32));
        b.check("line of 0", line_of_call(&image_of(mark), key(0)) == whole(began));
    }
    let lent: String = (0..33).map(|k| format!(" {}", 1000 + k)).collect();
    let cycle = |clock| call_bytes(1, clock, 0, 33, 0);
    let stood = format!("{}{} 1032{}\n", run("0 0 1101 1 0", 1), zeros(32), zeros(64));
    b.check("line of 1, held", line_of_call(&image_of(1), cycle(1101)) == whole(stood));
    let refused = format!("{}{}{}\n", run("11 0 1000 1 0", 1), lent, zeros(64));
    b.check("line of 1, 11", line_of_call(&image_of(1), cycle(999)) == whole(refused));
    let refused = format!("{}{}{}\n", run("12 0 1000 1 0", 255), lent, zeros(64));
    b.check("line of 1, 12", line_of_call(&image_of(255), cycle(1101)) == whole(refused));
    let tally = call_bytes(2, 0, 0, 0, 0);
    b.check("line of 2", line_of_call(&image_of(1), tally.clone()) == whole("0 0 0 0\n".into()));
    b.check("line of 2, 12", line_of_call(&image_of(2), tally) == whole("12 0 0 0\n".into()));
    let two = [call_bytes(5, 131_074, 2, 33, 0), four_bytes(&[1060, 1101, 0, 0])].concat();
    let shifted = format!("{}{} 1032 0 0\n", run("0 2 1101 1 0", 1), zeros(32));
    b.check("line of 5, held", line_of_call(&image_of(1), two.clone()) == whole(shifted));
    let refused = format!("{}{} 4294967296 4294967297\n", run("12 0 1000 1 0", 2), lent);
    b.check("line of 5, 12", line_of_call(&image_of(2), two) == whole(refused));
    // SD 100 in the place of D, latched with timer 60, the counter 5 and a transition to step 1.
    let mut image = image_of(1);
    let first = image.len() - 437;
    for (place, byte) in [(0, 2), (16, 1), (264, 1), (776, 2), (3080, 6)].iter() {
        put(&mut image, *place, *byte);
    }
    for (place, byte) in [(28, 1), (36, 5), (292, 60)].iter() {
        put(&mut image, first + *place, *byte);
    }
    let run = |text: &str, mark: u8, timer: u32| {
        format!("{} 0 1 0 0 {} 5{} {}{}", text, mark, zeros(63), timer, zeros(31))
    };
    let out = |value: i32| format!(" {}{} 1032", value, zeros(31));
    let line = format!("{}{} 7{}\n", run("0 0 1039 1 0", 1, 99), out(0), zeros(63));
    b.check("line of 1, SD at 99", line_of_call(&image, cycle(1039)) == whole(line));
    let line = format!("{}{} 7{}\n", run("0 0 1040 1 1", 1, 100), out(7), zeros(63));
    b.check("line of 1, SD at 100", line_of_call(&image, cycle(1040)) == whole(line));
    let set = run("0 0 1000 1 0", 1, 60) + "\n";
    b.check("line of 6, counter and timer", line_of_call(&image, key(6)) == whole(set));
    let cleared = run("0 0 1000 1 0", 0, 60) + "\n";
    b.check("line of 7, counter and timer", line_of_call(&image, key(7)) == whole(cleared));
    put(&mut image, 0, 65);
    let refused = run("4 0 1000 1 0", 1, 60) + "\n";
    b.check("line of 6, 4", line_of_call(&image, key(6)) == whole(refused.clone()));
    b.check("line of 7, 4", line_of_call(&image, key(7)) == whole(refused));
    // Clock, inputs and lent outputs play no part, the weights are passed over.
    let set = format!("0 0 1000 1 0 0 0 0 0 1{}\n", zeros(64 + 32));
    let cleared = format!("0 0 1000 1 0 0 0 0 0 0{}\n", zeros(64 + 32));
    let weights = |kind| [call_bytes(kind, u32::MAX, u32::MAX, 0, 3), vec![9; 6]].concat();
    let calls = [weights(6), key(7), call_bytes(6, 0, 0, 255, 0), weights(7), key(6)];
    let lines = [&set, &cleared, &set, &cleared, &set].map(|line| line.as_str()).concat();
    b.check("6 and 7, one after the other", held_lines(&calls) == (lines, true));
    b.check("no call 12", held_lines(&[key(12)]) == ("unknown call\n".into(), true));
    let image = image_of(200);
    let mut fields = Fields::new(image.get(first..).unwrap_or(&[]));
    let mark = run_image(&mut fields).map(|run| run.hold_mark);
    b.check("the mark is the last byte", mark == Some(200) && fields.place == 437);
    let mut fields = Fields::new(image.get(first..first + 436).unwrap_or(&[]));
    b.check("an image without the mark", run_image(&mut fields).is_none());
}

// ---------------------------------------------------------------------------------------------
// The selftest: the second edition
// ---------------------------------------------------------------------------------------------

// Chart A without its end record, with the record of request (viii) and then the end record.
fn chart_a_second() -> Vec<u8> {
    let records = chart_a().get(..148).unwrap_or(&[]).to_vec();
    [records, edition(2), end()].concat()
}

// A held chart with another edition and all else as it is.
fn in_edition(held: &Held, edition: u8) -> Held {
    let mut held = held.clone();
    held.tables.edition = edition;
    held
}

// A chart of edition 2 by its record: steps, initial where the digit is 1, and these transitions.
fn second_steps(initial: &[u8], moves: &[Vec<u8>]) -> Held {
    let steps: Vec<Vec<u8>> = initial.iter().map(|digit| step(*digit)).collect();
    held_of(&[steps.concat(), moves.concat(), edition(2)])
}

// Request (viii): "A chart may have one more record, kind 6, one byte with the value 2, after the
// cases; absent means edition 1"; "5 for another edition byte"
fn check_edition_record(b: &mut Bench) {
    let said = |records: &[Vec<u8>]| held_of(records).tables.edition;
    let two = || [step(1), step(0)].concat();
    let away = || transition(1, 2, 0, 0, 0);
    b.reads("edition 2", &[step(1), edition(2), end()], 0, 0);
    b.check("edition 2 is read", said(&[step(1), edition(2)]) == 2);
    b.check("absent means edition 1", said(&[step(1)]) == 1);
    b.check("the record has five bytes", edition(2) == [1, 0, 6, 0, 2]);
    for byte in 0..=255 {
        let (code, place) = if byte == 2 { (0, 0) } else { (5, 5) };
        b.reads("an edition byte", &[step(1), edition(byte), end()], code, place);
        let (code, place) = if byte == 2 { (0, 0) } else { (5, 148) };
        let records = chart_a().get(..148).unwrap_or(&[]).to_vec();
        b.reads("an edition byte, chart A", &[records, edition(byte), end()], code, place);
    }
    // After the cases, or after what stands in their place if there are none.
    let with_action = || [two(), action(0, 1)].concat();
    let with_block = || [with_action(), away(), block(0, 0, 0, 0)].concat();
    b.check("after an action", said(&[with_action(), edition(2)]) == 2);
    b.check("after a transition", said(&[two(), away(), edition(2)]) == 2);
    b.check("after a block", said(&[with_block(), edition(2)]) == 2);
    b.check("after a case", said(&[with_block(), case(0, 0, 0), edition(2)]) == 2);
    b.check("a case alone", said(&[with_block(), case(0, 0, 0)]) == 1);
    // All else of the chart is read as before.
    b.check("chart A in edition 2 has 157 bytes", chart_a_second().len() == 157);
    let reading = read_chart(&chart_a_second());
    b.check("chart A in edition 2", reading.code == 0 && reading.place == 0);
    b.check("chart A in edition 2 says 2", reading.chart.edition == 2);
    b.check("and is chart A", reading.chart == in_edition(&held_a(), 2).tables);
    b.check("chart A says 1", held_a().tables.edition == 1 && reading.chart != held_a().tables);
    let counts = hold(&reading.chart).counts;
    let all = [counts.steps, counts.actions, counts.transitions, counts.blocks, counts.cases];
    b.check("its counts", all == [2, 2, 2, 3, 1]);
    // "6 | a transition has ... a step that is both" and the other rows stay in edition 2.
    b.reads("still 6", &[two(), transition(3, 2, 0, 0, 0), edition(2), end()], 6, 10);
    b.reads("still 7", &[two(), transition(1, 2, 4, 4, 0), edition(2), end()], 7, 10);
    b.reads("still 5", &[two(), transition(1, 4, 0, 0, 0), edition(2), end()], 5, 10);
}

// Request (viii): "after the cases" (at every place of chart A; the record behind it is then
// "smaller than the kind before it"); "2 now means a kind above 6"
fn check_edition_places(b: &mut Bench) {
    let split = |place: usize| {
        let mut first = chart_a();
        let second = first.split_off(place);
        (first, second)
    };
    for place in [0, 5, 10, 19, 28, 68, 108, 119, 130, 141].iter() {
        let (first, second) = split(*place);
        let with = |record: Vec<u8>| [first.clone(), record, second.clone()];
        b.reads("too early", &with(edition(2)), 2, place + 5);
        b.reads("too early, 5 of its own first", &with(edition(1)), 5, *place);
        b.reads("too early, 3 of its own first", &with(record(6, &[])), 3, *place);
        b.reads("too early, twice", &with(edition(2).repeat(2)), 4, place + 5);
        b.reads("too early, kind 7", &with(record(7, &[2])), 2, *place);
    }
    let (first, second) = split(148);
    b.reads("in its place", &[first.clone(), edition(2), second.clone()], 0, 0);
    b.reads("in its place, kind 7", &[first.clone(), record(7, &[2]), second.clone()], 2, 148);
    b.reads("behind the end record", &[chart_a(), edition(2)], 10, 152);
    b.reads("behind it, end again", &[chart_a(), edition(2), end()], 10, 152);
    b.reads("no end record", &[first.clone(), edition(2)], 1, 153);
    b.reads("the end record cut", &[first, edition(2), vec![0, 0, 0]], 1, 153);
    for kind in [7, 8, 255, 256, 262, 1536, 1537, 65_535].iter() {
        b.reads("above 6", &[step(1), record(*kind, &[2]), end()], 2, 5);
        b.reads("above 6, no body", &[step(1), record(*kind, &[])], 2, 5);
        b.reads("above 6, after 6", &[step(1), edition(2), record(*kind, &[2]), end()], 2, 10);
        b.reads("above 6, first", &[record(*kind, &[2]), end()], 2, 0);
    }
    let smaller =
        [step(1), action(0, 1), transition(1, 2, 0, 0, 0), block(0, 0, 0, 0), case(0, 0, 0)];
    for record in smaller.iter() {
        b.reads("below 6, after 6", &[step(1), edition(2), record.clone(), end()], 2, 10);
    }
    b.reads("2 before 3, after 6", &[step(1), edition(2), vec![9, 0, 5, 0]], 2, 10);
    b.reads("2 before the cut body", &[step(1), edition(2), vec![3, 0, 5, 0]], 2, 10);
}

// Request (viii): "3 and 4 cover the kind, limit one"; document 01: "head (1), 2, 3, body (1), 4,
// 5, 6, 7. After the end record: 10, 9, 8."; request (viii): "A chart then has at most 6,441
// bytes."
fn check_edition_limits(b: &mut Bench) {
    for length in [0, 2, 3, 4, 5, 7, 36, 256, 257].iter() {
        b.reads("edition of this length", &[step(1), record(6, &vec![2; *length]), end()], 3, 5);
        let second = record(6, &vec![2; *length]);
        b.reads("the second of it, 3 before 4", &[step(1), edition(2), second, end()], 3, 10);
    }
    b.reads("3 before the cut body", &[step(1), vec![2, 0, 6, 0]], 3, 5);
    b.reads("3, the longest", &[step(1), vec![255, 255, 6, 0, 2], end()], 3, 5);
    b.reads("3, the length's upper byte", &[step(1), vec![1, 1, 6, 0, 2], end()], 3, 5);
    b.reads("head cut", &[step(1), vec![1, 0, 6]], 1, 5);
    b.reads("body missing", &[step(1), vec![1, 0, 6, 0]], 1, 5);
    b.reads("second head cut", &[step(1), edition(2), vec![1, 0, 6]], 1, 10);
    b.reads("cut body before 4", &[step(1), edition(2), vec![1, 0, 6, 0]], 1, 10);
    b.reads("a second record", &[step(1), edition(2), edition(2), end()], 4, 10);
    b.reads("three records", &[step(1), edition(2).repeat(3), end()], 4, 10);
    b.reads("a second record, no end", &[step(1), edition(2), edition(2)], 4, 10);
    for byte in 0..=255 {
        b.reads("4 before 5", &[step(1), edition(2), edition(byte), end()], 4, 10);
        if byte != 2 {
            b.reads("first record first", &[step(1), edition(byte), edition(2), end()], 5, 5);
        }
    }
    b.reads("end after kind 6", &[step(1), edition(2), end()], 0, 0);
    b.reads("end of 1 after kind 6", &[step(1), edition(2), record(0, &[0])], 3, 10);
    b.reads("surplus byte", &[step(1), edition(2), end(), vec![0]], 10, 14);
    b.reads("second end record", &[step(1), edition(2), end(), end()], 10, 14);
    b.reads("no steps", &[edition(2), end()], 9, 0);
    b.reads("no initial step", &[step(0), edition(2), end()], 9, 0);
    b.reads("10 before 9", &[edition(2), end(), vec![7]], 10, 9);
    let timed = || block(0, 0, 3, 5).repeat(2);
    b.reads("8", &[step(1), action(0, 0), timed(), edition(2), end()], 8, 0);
    b.reads("9 before 8", &[step(0), action(0, 0), timed(), edition(2), end()], 9, 0);
    b.reads("10 before 8", &[step(1), action(0, 0), timed(), edition(2), end(), vec![1]], 10, 45);
    b.reads("5 before 10", &[step(1), edition(1), end(), vec![1]], 5, 5);
    b.reads("5 before 9", &[step(0), edition(1), end()], 5, 5);
    b.reads("5 before 8", &[step(1), action(0, 0), timed(), edition(3), end()], 5, 36);
    let most = [
        step(1).repeat(64),
        action(31, -1).repeat(32),
        transition(1, 2, 0, 0, 0).repeat(64),
        block(0, 0, 0, 0).repeat(256),
        case(0, 0, 0).repeat(64),
    ]
    .concat();
    let full = [most.clone(), edition(2), end()].concat();
    b.check("fullest chart has 6,441 bytes", full.len() == 6441);
    b.check("fullest chart says 2", read_chart(&full).chart.edition == 2);
    b.reads("fullest chart", &[full.clone()], 0, 0);
    b.reads("fullest chart and a byte", &[full, vec![0]], 10, 6441);
    b.reads("fullest chart, two", &[most.clone(), edition(2), edition(2), end()], 4, 6437);
    b.reads("a 65th case", &[most.clone(), case(0, 0, 0), edition(2), end()], 4, 6432);
    b.reads("a 65th case behind it", &[most, edition(2), case(0, 0, 0), end()], 2, 6437);
}

// "Asked so, it tests 1, 2, 3 and the cut body only" (with request (viii): neither the edition byte
// nor the limit of one); "After the end or a refusal it doesn't move, and asking again answers the
// same."
fn check_edition_next(b: &mut Bench) {
    let file = [step(1), edition(9), edition(2), end()].concat();
    let mut reader = RecordReader { bytes: &file, place: 0, before: 0 };
    let of = |kind, body| Next::Record { kind, body, length: 1 };
    b.check("a step", next_record(&mut reader) == of(1, 4));
    b.check("an edition, any byte", next_record(&mut reader) == of(6, 9));
    b.check("a second edition", next_record(&mut reader) == of(6, 14));
    b.check("the end", next_record(&mut reader) == Next::End);
    b.check("the end again", next_record(&mut reader) == Next::End);
    let tails = [
        (case(0, 0, 0), 2),
        (step(1), 2),
        (record(7, &[2]), 2),
        (record(6, &[]), 3),
        (record(6, &[2, 2]), 3),
        (vec![1, 0, 6, 0], 1),
        (vec![1, 0, 6], 1),
        (vec![], 1),
    ];
    for (tail, code) in tails.iter() {
        let file = [edition(2), tail.clone()].concat();
        let mut reader = RecordReader { bytes: &file, place: 0, before: 0 };
        b.check("an edition first", next_record(&mut reader) == of(6, 4));
        let refused = Next::Refused { code: *code, place: 5 };
        b.check("then a refusal", next_record(&mut reader) == refused);
        b.check("and again", next_record(&mut reader) == refused);
    }
}

// All the calls on a held chart that have to do with no index: start, cycle, tally, weighing,
// writing, shift of none, adding weighings, setting and clearing the mark, with what each returns
// and leaves if it is refused: their numbers, or 99 where a refused one returns or leaves something
// else.
fn codes_of_calls(held: &Held, run: &Run, weights: usize) -> Vec<Code> {
    let mut outputs = vec![8; 33];
    let began = start(held, 7, &mut outputs);
    let kept = began.run == zero_run() && began.taken.is_empty() && outputs == vec![8; 33];
    let begun = if began.code != 0 && !kept { 99 } else { began.code };
    let mut outputs = vec![8; 33];
    let cycled = cycle(held, run, run.clock, 1, &mut outputs);
    let kept = cycled.run == *run && cycled.taken.is_empty() && outputs == vec![8; 33];
    let kept = kept && cycled.reasons == no_reasons();
    let cycled = if cycled.code != 0 && !kept { 99 } else { cycled.code };
    let counted = tally(held, run);
    let zeros = [counted.passed, counted.failed, counted.notrun] == [0; 3];
    let counted = if counted.code != 0 && !zeros { 99 } else { counted.code };
    let weighed = weighing(held, &vec![0; weights]);
    let zeros = weighed.total == 0 && weighed.transition == 0;
    let weighed = if weighed.code != 0 && !zeros { 99 } else { weighed.code };
    let (code, length, bytes) = wrote(held, 200);
    let kept = length == 0 && bytes == vec![9; 200];
    let written = if code != 0 && !kept { 99 } else { code };
    let shifted = shift_code(held, run, [0; 3], 32, 0);
    let adding = adding_code(held, [weights; 3], 1);
    let turned = [set_hold(held, run), clear_hold(held, run)];
    let turned = turned.iter().map(|t| if t.code != 0 && t.run != *run { 99 } else { t.code });
    let mut codes = vec![begun, cycled, counted, weighed, written, shifted, adding];
    codes.extend(turned);
    codes
}

// Request (viii): "A held chart says 1 or 2."; "5 for another edition byte, tested in a held chart
// after the cases"; document 01: "4, then records by kind with 5, 6, 7, then 9, 8"
fn check_edition_held(b: &mut Bench) {
    for byte in 0..=255 {
        let wanted = if byte == 1 || byte == 2 { 0 } else { 5 };
        let held = in_edition(&held_a(), byte);
        b.check("held edition", held_code(&held) == wanted);
        b.check("held edition, all calls", codes_of_calls(&held, &run_a(), 2) == [wanted; 9]);
        let junk = in_edition(&held_a_with_junk(), byte);
        b.check("held edition beside junk", held_code(&junk) == wanted);
        let mut none = in_edition(&held_without_steps(), byte);
        let first = if wanted == 5 { 5 } else { 9 };
        b.check("held edition, no steps", held_code(&none) == first);
        b.check("no steps, all calls", codes_of_calls(&none, &zero_run(), 0) == vec![first; 9]);
        none.counts.blocks = 257;
        b.check("4 before the edition, no steps", held_code(&none) == 4);
        let mut held = in_edition(&held_a(), byte);
        let timed = Block { step: 0, action: 0, qualifier: 3, duration: 9 };
        held.tables.blocks = vec![timed.clone(), timed.clone(), timed];
        b.check("the edition before 8", held_code(&held) == if wanted == 5 { 5 } else { 8 });
        held.tables.steps = vec![Step { initial: 0 }, Step { initial: 0 }];
        b.check("the edition before 9", held_code(&held) == first);
        held.tables.cases = vec![Case { step: 0, signal: 0, expected: 2 }];
        b.check("a case's 5 too", held_code(&held) == 5);
        if let Some(first) = held.tables.transitions.first_mut() {
            first.off = set_of(1);
        }
        b.check("7 before the edition", held_code(&held) == 7);
        b.check("7, all calls", codes_of_calls(&held, &run_a(), 2) == [7; 9]);
        if let Some(first) = held.tables.transitions.first_mut() {
            first.targets = set_of(1);
        }
        b.check("6 before the edition", held_code(&held) == 6);
        held.counts.actions = 33;
        b.check("4 before the edition", held_code(&held) == 4);
    }
}

// Request (viii): "A held chart says 1 or 2."; document 01: "A refused reading returns an all-zero
// chart" (which says 0 and so is refused 5, not 9, since the edition is tested before them)
fn check_edition_zero(b: &mut Bench) {
    let zero = Chart::default();
    b.check("an all-zero chart says 0", zero.edition == 0 && zero.steps.is_empty());
    b.check("an all-zero chart, 5", held_code(&hold(&zero)) == 5);
    b.check("in all calls", codes_of_calls(&hold(&zero), &zero_run(), 0) == [5; 9]);
    let files = [
        vec![],
        end(),
        [step(1), edition(1), end()].concat(),
        [step(1), edition(2), edition(2), end()].concat(),
        [step(1), edition(2), end(), end()].concat(),
        [step(0), edition(2), end()].concat(),
        [step(1), edition(2), step(1), end()].concat(),
        [step(1), record(6, &[]), end()].concat(),
        [chart_a_second(), vec![0]].concat(),
    ];
    for file in files.iter() {
        let reading = read_chart(file);
        b.check("refused, all zero", reading.code != 0 && reading.chart == zero);
        b.check("refused, then held", held_code(&hold(&reading.chart)) == 5);
    }
}

// The order of every call with a chart of another edition: "Start tests 15 and then the chart; a
// cycle tests 15, chart, 12, 11; the tally chart, 12; the weighing chart, 13, 14"; request (i):
// "the chart's own first, then 17"; request (iii): "15, chart, 12, then 18 ...; then 11"; request
// (vii): "chart, then 12"; request (x): "chart; 13 ...; 21 ..."
fn check_edition_order(b: &mut Bench) {
    let mut strange = run_a();
    strange.active = numbers(3);
    for byte in [0, 3, 4, 128, 255].iter() {
        let held = in_edition(&held_a(), *byte);
        let mut few = vec![8; 31];
        let mut enough = vec![8; 32];
        let answer = start(&held, 7, &mut few);
        b.check("start, 15 first", answer.code == 15 && answer.run == zero_run());
        let answer = start(&held, 7, &mut enough);
        b.check("start, then 5", answer.code == 5 && answer.run == zero_run());
        let answer = cycle(&held, &strange, 999, 1, &mut few);
        b.check("cycle, 15 first", answer.code == 15 && answer.run == strange);
        let answer = cycle(&held, &strange, 999, 1, &mut enough);
        b.check("cycle, 5 before 12", answer.code == 5 && answer.run == strange);
        let answer = cycle(&held, &run_a(), 999, 1, &mut enough);
        b.check("cycle, 5 before 11", answer.code == 5 && answer.run == run_a());
        b.check("outputs untouched", few == vec![8; 31] && enough == vec![8; 32]);
        let zeros = Tally { code: 5, passed: 0, failed: 0, notrun: 0 };
        b.check("tally, 5 before 12", tally(&held, &strange) == zeros);
        b.check("weighing, 5 before 13", weighing(&held, &[1]) == refused_weighing(5, 0));
        b.check("weighing, 5 before 14", weighing(&held, &[1, 2]) == refused_weighing(5, 0));
        b.check("writing, 5 before 17", wrote(&held, 3) == (5, 0, vec![9; 3]));
        b.check("adding, 5 before 13", adding_code(&held, [2, 1, 2], 1) == 5);
        b.check("adding, 5 before 21", adding_code(&held, [2; 3], u16::MAX) == 5);
        for lengths in [[0; 3], [1; 3], [1, 2, 3], [4097; 3]].iter() {
            let code = |run: &Run, lent| shift_code(&held, run, *lengths, lent, 999);
            b.check("shift, 15 first", code(&strange, 31) == 15);
            b.check("shift, 5 before 12", code(&strange, 32) == 5);
            b.check("shift, 5 before 18 and 11", code(&run_a(), 32) == 5);
        }
        b.check("key, 5 before 12", key_codes(&held, &strange) == (5, 5));
        b.check("key, 5", key_codes(&held, &with_mark(&run_a(), 1)) == (5, 5));
    }
    // In edition 2 the numbers behind the chart's are the same as in edition 1.
    for byte in [1, 2].iter() {
        let held = in_edition(&held_a(), *byte);
        let mut outputs = vec![8; 32];
        b.check("then 12", cycle(&held, &strange, 999, 1, &mut outputs).code == 12);
        b.check("then 11", cycle(&held, &run_a(), 999, 1, &mut outputs).code == 11);
        b.check("tally, then 12", tally(&held, &strange).code == 12);
        b.check("weighing, then 13", weighing(&held, &[1]) == refused_weighing(13, 0));
        b.check("weighing, then 14", weighing(&held, &[1, 2]) == refused_weighing(14, 0));
        b.check("adding, then 13", adding_code(&held, [2, 1, 2], u16::MAX) == 13);
        b.check("adding, then 21", adding_code(&held, [2; 3], u16::MAX) == 21);
        b.check("shift, then 12", shift_code(&held, &strange, [1, 2, 3], 32, 999) == 12);
        b.check("shift, then 18", shift_code(&held, &run_a(), [1, 2, 3], 32, 999) == 18);
        b.check("shift, then 11", shift_code(&held, &run_a(), [1; 3], 32, 999) == 11);
        b.check("key, then 12", key_codes(&held, &strange) == (12, 12));
        b.check("mark, then 12", key_codes(&held, &with_mark(&run_a(), 2)) == (12, 12));
    }
}

// Request (viii): "request (i) holds as it reads": "Reading what was written gives the same chart
// as far as its counts reach, and writing what was read gives the same bytes."; "17 when the lent
// bytes are fewer than the chart's length"; request (viii): "A chart then has at most 6,441 bytes."
fn check_edition_writing(b: &mut Bench) {
    let first = chart_a_bytes().get(..148).unwrap_or(&[]).to_vec();
    let by_hand = [first, vec![1, 0, 6, 0, 2], vec![0, 0, 0, 0]].concat();
    let held = in_edition(&held_a(), 2);
    b.check("by hand as by records", by_hand == chart_a_second() && by_hand.len() == 157);
    b.check("edition 2 written", wrote(&held, 157) == (0, 157, by_hand.clone()));
    let longer = [chart_a_bytes(), vec![9; 5]].concat();
    b.check("edition 1 as before", wrote(&held_a(), 157) == (0, 152, longer));
    b.check("edition 1, 152 bytes", wrote(&held_a(), 152) == (0, 152, chart_a_bytes()));
    b.check("bytes behind it stay", wrote(&held, 159) == (0, 157, [by_hand, vec![9; 2]].concat()));
    for lent in [0, 4, 151, 152, 153, 156].iter() {
        b.check("edition 2, 17", wrote(&held, *lent) == (17, 0, vec![9; *lent]));
    }
    b.check("junk beside edition 2", wrote(&in_edition(&held_a_with_junk(), 2), 157).0 == 0);
    let junk = wrote(&in_edition(&held_a_with_junk(), 2), 157).2;
    b.check("junk is not written", junk == chart_a_second());
    let small = held_of(&[step(1), edition(2)]);
    let bytes = vec![1, 0, 1, 0, 1, 1, 0, 6, 0, 2, 0, 0, 0, 0];
    b.check("one step in edition 2", wrote(&small, 14) == (0, 14, bytes));
    b.check("one step, 13 bytes", wrote(&small, 13) == (17, 0, vec![9; 13]));
    let most = [
        step(1).repeat(64),
        action(31, -1).repeat(32),
        transition(1, 2, 1 << 63, 0, 86_400_000).repeat(64),
        block(63, 31, 10, 0).repeat(256),
        case(63, 63, 1).repeat(64),
        edition(2),
    ];
    let full = [most.concat(), end()].concat();
    b.check("fullest chart written", wrote(&held_of(&most), 6441) == (0, 6441, full));
    b.check("one byte less", wrote(&held_of(&most), 6440) == (17, 0, vec![9; 6440]));
    // Both round trips, in both editions, on charts by lot.
    let mut lot = 3;
    for _ in 0..60 {
        let first = held_by_lot(&mut lot);
        b.check("by lot, edition 1", first.tables.edition == 1);
        for byte in [1, 2].iter() {
            let held = in_edition(&first, *byte);
            let (code, length, bytes) = wrote(&held, 1000);
            let file = bytes.get(..length as usize).unwrap_or(&[]).to_vec();
            let reading = read_chart(&file);
            b.check("written by lot", code == 0 && reading.code == 0);
            b.check("read what was written", reading.chart == held.tables);
            let again = wrote(&hold(&reading.chart), file.len());
            b.check("write what was read", again == (0, length, file.clone()));
            let longer = wrote(&first, 1000).1 + if *byte == 2 { 5 } else { 0 };
            b.check("five bytes more", length == longer);
        }
    }
    let files = [
        vec![step(1)],
        vec![step(1), case(0, 0, 1)],
        vec![step(0), step(1), transition(1, 2, 1, 2, 3)],
        vec![step(1), action(3, -9), block(0, 0, 7, 8)],
    ];
    for records in files.iter() {
        for last in [vec![], edition(2)].iter() {
            let file = [records.concat(), last.clone(), end()].concat();
            let held = hold(&read_chart(&file).chart);
            let same = (0, file.len() as u64, file.clone());
            b.check("the same bytes", wrote(&held, file.len()) == same);
        }
    }
}

// Request (viii): "targets are not tested, and a step both left and entered stays active"; "State
// the choosing once, with the target test as the only difference." (each chart in both editions:
// the transitions taken and the steps then active)
fn check_edition_taken(b: &mut Bench) {
    let both = |initial: &[u8], moves: &[Vec<u8>], cycles: &[(u32, u32)]| {
        let of = |held: &Held| {
            let (code, taken, active, _) = seen(held, 0, cycles);
            (code, taken, active)
        };
        (of(&held_steps(initial, moves)), of(&second_steps(initial, moves)))
    };
    let go = |sources, targets| transition(sources, targets, 0, 0, 0);
    let once = [(1, 0)];
    let twice = [(1, 0), (2, 0)];
    let moves = [go(1, 2)];
    b.check("occupied", both(&[1, 1], &moves, &once) == ((0, 0, 3), (0, 1, 2)));
    b.check("occupied, then", both(&[1, 1], &moves, &twice) == ((0, 0, 3), (0, 0, 2)));
    b.check("free", both(&[1, 0], &moves, &once) == ((0, 1, 2), (0, 1, 2)));
    let moves = [go(1, 6)];
    b.check("one of two occupied", both(&[1, 0, 1], &moves, &once) == ((0, 0, 5), (0, 1, 6)));
    b.check("both occupied", both(&[1, 1, 1], &moves, &once) == ((0, 0, 7), (0, 1, 6)));
    let moves = [go(1, 4), go(2, 4)];
    b.check("claimed", both(&[1, 1, 0], &moves, &once) == ((0, 1, 6), (0, 3, 4)));
    b.check("claimed, then", both(&[1, 1, 0], &moves, &twice) == ((0, 0, 6), (0, 0, 4)));
    b.check("claimed and occupied", both(&[1, 1, 1], &moves, &once) == ((0, 0, 7), (0, 3, 4)));
    let moves = [go(1, 4), go(2, 1)];
    b.check("left, then entered", both(&[1, 1, 0], &moves, &once) == ((0, 1, 6), (0, 3, 5)));
    let moves = [go(2, 1), go(1, 4)];
    b.check("entered, then left", both(&[1, 1, 0], &moves, &once) == ((0, 2, 6), (0, 3, 5)));
    let moves = [go(1, 2), go(2, 1)];
    b.check("two change places", both(&[1, 1], &moves, &once) == ((0, 0, 3), (0, 3, 3)));
    b.check("and again", both(&[1, 1], &moves, &twice) == ((0, 0, 3), (0, 3, 3)));
    b.check("one goes alone", both(&[1, 0], &moves, &twice) == ((0, 2, 1), (0, 2, 1)));
    let moves = [go(1, 2), go(2, 4), go(4, 1)];
    b.check("a full ring", both(&[1, 1, 1], &moves, &once) == ((0, 0, 7), (0, 7, 7)));
    b.check("a ring with a gap", both(&[1, 1, 0], &moves, &once) == ((0, 2, 5), (0, 3, 6)));
    let moves = [go(1, 2), go(2, 4)];
    b.check("a chain, both active", both(&[1, 1, 0], &moves, &once) == ((0, 2, 5), (0, 3, 6)));
    // "Testing a source against the half-updated step set: a chain of steps then runs through in
    // one cycle." (nor does it in edition 2)
    b.check("a chain, one active", both(&[1, 0, 0], &moves, &once) == ((0, 1, 2), (0, 1, 2)));
    b.check("a chain, the next", both(&[1, 0, 0], &moves, &twice) == ((0, 2, 4), (0, 2, 4)));
    // The tests of sources, signals and waits stay.
    let moves = [go(1, 2), go(1, 4)];
    b.check("a source used", both(&[1, 0, 0], &moves, &once) == ((0, 1, 2), (0, 1, 2)));
    b.check("used only if taken", both(&[1, 1, 0], &moves, &once) == ((0, 2, 6), (0, 1, 2)));
    let moves = [go(1, 4), go(3, 8)];
    b.check("one source used", both(&[1, 1, 0, 0], &moves, &once) == ((0, 1, 6), (0, 1, 6)));
    b.check("one source missing", both(&[0, 1, 1, 0], &moves, &once) == ((0, 0, 6), (0, 0, 6)));
    let moves = [transition(1, 2, 1, 2, 10)];
    for (clock, inputs) in [(9, 1), (10, 0), (10, 3), (10, 2), (9, 0)].iter() {
        let cycles = [(*clock, *inputs)];
        b.check("signal and wait", both(&[1, 1], &moves, &cycles) == ((0, 0, 3), (0, 0, 3)));
    }
    b.check("neither", both(&[1, 1], &moves, &[(10, 1)]) == ((0, 0, 3), (0, 1, 2)));
    // A fork and a join over occupied steps.
    let moves = [go(1, 6), go(6, 1)];
    b.check("fork and join", both(&[1, 1, 1], &moves, &once) == ((0, 0, 7), (0, 3, 7)));
    b.check("a join into it", both(&[1, 1, 1], &[go(6, 1)], &once) == ((0, 0, 7), (0, 1, 1)));
    // 63 steps into one, and 64 in a ring.
    let moves: Vec<Vec<u8>> = (0..63).map(|k| go(1 << k, 1 << 63)).collect();
    let initial = [vec![1; 63], vec![0]].concat();
    let wanted = ((0, 1, u64::MAX - 1), (0, u64::MAX >> 1, 1 << 63));
    b.check("63 into one", both(&initial, &moves, &once) == wanted);
    let moves: Vec<Vec<u8>> = (0..64).map(|k: u32| go(1 << k, 1 << ((k + 1) % 64))).collect();
    let wanted = ((0, 0, u64::MAX), (0, u64::MAX, u64::MAX));
    b.check("a ring of 64", both(&[1; 64], &moves, &once) == wanted);
    // "signal 32+k is the activity of action k as the previous call left it" (in edition 2 too)
    let records = [step(1), step(1), action(0, 1), transition(1, 2, 1 << 32, 0, 0)].concat();
    let held = held_of(&[records, block(0, 0, 4, 10), edition(2)]);
    b.check("not active before", seen(&held, 0, &[(10, 0)]) == (0, 0, 3, 1));
    b.check("active before", seen(&held, 0, &[(10, 0), (11, 0)]) == (0, 1, 2, 0));
}

// The counters of the first so many steps after a start at 0 and cycles.
fn counters_after(held: &Held, cycles: &[(u32, u32)], count: usize) -> Vec<u32> {
    let (answer, _) = played(held, 0, cycles);
    answer.run.step_counters.get(..count).unwrap_or(&[]).to_vec()
}

// Request (viii): "In edition 2 a step counts as entered if it is a target and was inactive or
// left; then its counter is 0, otherwise it runs on."
fn check_edition_counters(b: &mut Bench) {
    let on = |sources, targets, signal| transition(sources, targets, signal, 0, 0);
    let held = second_steps(&[1, 1], &[on(1, 2, 1)]);
    b.check("before", counters_after(&held, &[(30, 0)], 2) == [30, 30]);
    b.check("occupied runs on", counters_after(&held, &[(30, 0), (50, 1)], 2) == [0, 50]);
    b.check("and on", counters_after(&held, &[(30, 0), (50, 1), (57, 1)], 2) == [0, 57]);
    b.check("occupied at once", counters_after(&held, &[(0, 1)], 2) == [0, 0]);
    let held = second_steps(&[1, 0], &[on(1, 2, 1)]);
    b.check("inactive has 0", counters_after(&held, &[(30, 0), (50, 1)], 2) == [0, 0]);
    b.check("and runs then", counters_after(&held, &[(30, 0), (50, 1), (57, 1)], 2) == [0, 7]);
    let held = second_steps(&[1, 1, 0], &[on(1, 4, 1), on(2, 4, 1)]);
    b.check("claimed has 0", counters_after(&held, &[(30, 0), (50, 1)], 3) == [0, 0, 0]);
    b.check("claimed runs", counters_after(&held, &[(50, 1), (57, 1)], 3) == [0, 0, 7]);
    for turned in [false, true].iter() {
        let mut moves = [on(1, 4, 1), on(2, 1, 1)];
        if *turned {
            moves.reverse();
        }
        let held = second_steps(&[1, 1, 0], &moves);
        b.check("left has 0", counters_after(&held, &[(30, 0), (50, 1)], 3) == [0, 0, 0]);
        let later = counters_after(&held, &[(30, 0), (50, 1), (57, 0)], 3);
        b.check("left and entered runs", later == [7, 0, 7]);
    }
    let held = second_steps(&[1, 1], &[on(1, 2, 1), on(2, 1, 1)]);
    b.check("changed places", counters_after(&held, &[(30, 0), (50, 1)], 2) == [0, 0]);
    b.check("and run", counters_after(&held, &[(30, 1), (50, 0)], 2) == [20, 20]);
    let held = second_steps(&[1, 0, 1], &[on(1, 6, 1)]);
    b.check("a fork, one occupied", counters_after(&held, &[(30, 0), (50, 1)], 3) == [0, 0, 50]);
    // Occupied by two, and both occupied and left by a third: one target, left, has 0.
    let held = second_steps(&[1, 1, 1], &[on(1, 4, 1), on(2, 4, 1)]);
    b.check("occupied and claimed", counters_after(&held, &[(30, 0), (50, 1)], 3) == [0, 0, 50]);
    let held = second_steps(&[1, 1, 1, 0], &[on(1, 4, 1), on(2, 4, 1), on(4, 8, 1)]);
    let after = counters_after(&held, &[(30, 0), (50, 1)], 4);
    b.check("occupied, claimed and left", after == [0, 0, 0, 0]);
    b.check("it stays active", seen(&held, 0, &[(30, 0), (50, 1)]) == (0, 7, 12, 0));
    // The steps of no transition run on, in both editions.
    let held = second_steps(&[1, 1, 1], &[on(1, 2, 1)]);
    b.check("a bystander", counters_after(&held, &[(30, 0), (50, 1)], 3) == [0, 50, 50]);
    // "... stopping at 86,400,000" (a counter that runs on)
    let held = second_steps(&[1, 1], &[on(1, 2, 1)]);
    let mut run = played(&held, 0, &[]).0.run;
    put(&mut run.step_counters, 1, 86_399_999);
    let answer = cycle(&held, &run, 2, 1, &mut [0; 32]);
    b.check("runs on to the cap", word_of(&answer.taken) == 1);
    b.check("and stops there", at(&answer.run.step_counters, 1) == 86_400_000);
    // "each source's counter has reached the wait" (of a step whose counter ran on, and of one that
    // was left and entered at 60)
    let held = second_steps(&[1, 1, 0], &[on(1, 2, 1), transition(2, 4, 2, 0, 100)]);
    let at_99 = seen(&held, 0, &[(60, 1), (99, 2)]);
    b.check("the wait of one that ran on, 99", at_99 == (0, 0, 2, 0));
    let at_100 = seen(&held, 0, &[(60, 1), (100, 2)]);
    b.check("the wait of one that ran on, 100", at_100 == (0, 2, 4, 0));
    let moves = [on(1, 2, 1), on(2, 4, 1), transition(2, 4, 2, 0, 100)];
    let held = second_steps(&[1, 1, 0], &moves);
    b.check("left and entered at 60", seen(&held, 0, &[(60, 1)]) == (0, 3, 6, 0));
    let at_159 = seen(&held, 0, &[(60, 1), (159, 2)]);
    b.check("the wait of one entered, 99", at_159 == (0, 0, 6, 0));
    let at_160 = seen(&held, 0, &[(60, 1), (160, 2)]);
    b.check("the wait of one entered, 100", at_160 == (0, 4, 4, 0));
}

// "or P1 and the step was entered; or P0 and the step was left"; request (ii): "P is now active
// only in the call that enters the step, like P1."; request (viii): "a step counts as entered if it
// is a target and was inactive or left" (actions 0 P, 1 P1, 2 P0 and 3 N, all of one step)
fn check_edition_pulses(b: &mut Bench) {
    let actions: Vec<Vec<u8>> = (0..4).map(|k| action(k, 1)).collect();
    let of_step = |k| {
        [block(k, 0, 5, 0), block(k, 1, 9, 0), block(k, 2, 10, 0), block(k, 3, 0, 0)].concat()
    };
    let moves = [transition(1, 4, 1, 0, 0), transition(2, 1, 2, 0, 0)].concat();
    let steps = [step(1), step(1), step(0)].concat();
    let records = [steps.clone(), actions.concat(), moves, of_step(0)].concat();
    let first = held_of(&[records.clone()]);
    let held = held_of(&[records, edition(2)]);
    b.check("start", seen(&held, 0, &[]) == (0, 0, 3, 11));
    b.check("start, edition 1", seen(&first, 0, &[]) == (0, 0, 3, 11));
    b.check("nothing moves", seen(&held, 0, &[(0, 0)]) == (0, 0, 3, 8));
    b.check("left alone", seen(&held, 0, &[(0, 1)]) == (0, 1, 6, 4));
    b.check("a target, active and not left", seen(&held, 0, &[(0, 2)]) == (0, 2, 1, 8));
    b.check("left and entered", seen(&held, 0, &[(0, 3)]) == (0, 3, 5, 15));
    b.check("and then over", seen(&held, 0, &[(0, 3), (0, 0)]) == (0, 0, 5, 8));
    b.check("inactive, entered", seen(&held, 0, &[(0, 1), (0, 2)]) == (0, 2, 5, 11));
    b.check("edition 1, a target occupied", seen(&first, 0, &[(0, 2)]) == (0, 0, 3, 8));
    b.check("edition 1, left alone", seen(&first, 0, &[(0, 3)]) == (0, 1, 6, 4));
    b.check("edition 1, entered", seen(&first, 0, &[(0, 1), (0, 2)]) == (0, 2, 5, 11));
    // The outputs of the step left and entered: each action has its own, with the value 1.
    let (_, outputs) = played(&held, 0, &[(0, 3)]);
    b.check("outputs", outputs == [vec![1; 4], vec![0; 28], vec![5; 2]].concat());
    let (_, outputs) = played(&held, 0, &[(0, 2)]);
    let one = [vec![0; 3], vec![1], vec![0; 28], vec![5; 2]].concat();
    b.check("outputs, not entered", outputs == one);
    // Entered by two at once, and occupied by two at once.
    let moves = [transition(1, 4, 1, 0, 0), transition(2, 4, 1, 0, 0)].concat();
    let records = [actions.concat(), moves, of_step(2), edition(2)].concat();
    let held = held_of(&[steps, records.clone()]);
    b.check("entered by two", seen(&held, 0, &[(0, 1)]) == (0, 3, 4, 11));
    let held = held_of(&[step(1).repeat(3), records]);
    b.check("occupied, by two", seen(&held, 0, &[(0, 0), (0, 1)]) == (0, 3, 4, 8));
    // Both steps that change places are left and entered: P0 and P1 of each.
    let blocks = [block(0, 0, 9, 0), block(0, 1, 10, 0), block(1, 2, 9, 0), block(1, 3, 10, 0)];
    let moves = [transition(1, 2, 1, 0, 0), transition(2, 1, 1, 0, 0)].concat();
    let held = held_of(&[step(1).repeat(2), actions.concat(), moves, blocks.concat(), edition(2)]);
    b.check("changing places", seen(&held, 0, &[(0, 0), (0, 1)]) == (0, 3, 3, 15));
    b.check("not changing", seen(&held, 0, &[(0, 0)]) == (0, 0, 3, 0));
    // "A reset action is inactive." (a pulse of a step both left and entered that also resets it)
    let blocks = [block(0, 0, 9, 0), block(0, 0, 10, 0), block(1, 0, 1, 0)].concat();
    let moves = [transition(1, 2, 1, 0, 0), transition(2, 1, 1, 0, 0)].concat();
    let held = held_of(&[step(1).repeat(2), action(0, 1), moves, blocks, edition(2)]);
    b.check("reset by the other", seen(&held, 0, &[(0, 1)]) == (0, 3, 3, 0));
}

// "Actions, from the steps now active." with request (viii): "then its counter is 0, otherwise it
// runs on" (each qualifier with a time, on a step both left and entered, and on a target that was
// active and not left; stored, latch and reset)
fn check_edition_actions(b: &mut Bench) {
    // Steps 0 and 1 change places on input 0.
    let places = |q, duration| {
        let moves = [transition(1, 2, 1, 0, 0), transition(2, 1, 1, 0, 0)].concat();
        let steps = step(1).repeat(2);
        held_of(&[steps, action(0, 1), moves, block(0, 0, q, duration), edition(2)])
    };
    // Step 0 goes to 1, which is occupied, on input 0.
    let occupied = |q, duration| {
        let moves = transition(1, 2, 1, 0, 0);
        let steps = step(1).repeat(2);
        held_of(&[steps, action(0, 1), moves, block(1, 0, q, duration), edition(2)])
    };
    let word = |held: &Held, cycles: &[(u32, u32)]| seen(held, 0, cycles).3;
    b.check("L over", word(&places(3, 100), &[(150, 0)]) == 0);
    b.check("L again", word(&places(3, 100), &[(150, 0), (160, 1)]) == 1);
    b.check("L again, 99", word(&places(3, 100), &[(150, 0), (160, 1), (259, 0)]) == 1);
    b.check("L again, 100", word(&places(3, 100), &[(150, 0), (160, 1), (260, 0)]) == 0);
    b.check("L not again, 99", word(&occupied(3, 100), &[(99, 1)]) == 1);
    b.check("L not again, 100", word(&occupied(3, 100), &[(100, 1)]) == 0);
    b.check("D reached", word(&places(4, 100), &[(150, 0)]) == 1);
    b.check("D anew", word(&places(4, 100), &[(150, 0), (160, 1)]) == 0);
    b.check("D anew, 99", word(&places(4, 100), &[(150, 0), (160, 1), (259, 0)]) == 0);
    b.check("D anew, 100", word(&places(4, 100), &[(150, 0), (160, 1), (260, 0)]) == 1);
    b.check("D not anew, 99", word(&occupied(4, 100), &[(99, 1)]) == 0);
    b.check("D not anew, 100", word(&occupied(4, 100), &[(100, 1)]) == 1);
    b.check("DS anew, just when it was due", word(&places(7, 100), &[(100, 1)]) == 0);
    b.check("DS anew, 99", word(&places(7, 100), &[(99, 1), (198, 0)]) == 0);
    b.check("DS anew, 100", word(&places(7, 100), &[(99, 1), (199, 0)]) == 1);
    b.check("DS stored before", word(&places(7, 100), &[(100, 0), (101, 1)]) == 1);
    b.check("DS not anew, 99", word(&occupied(7, 100), &[(99, 1)]) == 0);
    b.check("DS not anew, 100", word(&occupied(7, 100), &[(100, 1)]) == 1);
    b.check("N stays", word(&places(0, 0), &[(1, 1), (2, 1)]) == 1);
    b.check("N stays, occupied", word(&occupied(0, 0), &[(1, 1)]) == 1);
    // "Restarting SL when its step is entered again: only a reset clears the latch." The timer is
    // the action's own and isn't handed over.
    b.check("SL, 99", word(&places(8, 100), &[(50, 1), (99, 1)]) == 1);
    b.check("SL, 100", word(&places(8, 100), &[(50, 1), (100, 1)]) == 0);
    b.check("SD, 99", word(&places(6, 100), &[(50, 1), (99, 1)]) == 0);
    b.check("SD, 100", word(&places(6, 100), &[(50, 1), (100, 1)]) == 1);
    for q in [6, 8].iter() {
        let run = played(&places(*q, 100), 0, &[(50, 1), (99, 1)]).0.run;
        b.check("timer", at(&run.action_timers, 0) == 99 && at(&run.step_counters, 0) == 0);
        let run = played(&occupied(*q, 100), 0, &[(50, 1), (99, 1)]).0.run;
        b.check("timer, occupied", at(&run.action_timers, 0) == 99);
        b.check("counter, occupied", at(&run.step_counters, 1) == 99);
    }
    // Step 0 has R, step 1 S; 0 goes to 2 on input 0, 1 goes to 0 on input 1.
    let blocks = [block(0, 0, 1, 0), block(1, 0, 2, 0)].concat();
    let moves = [transition(1, 4, 1, 0, 0), transition(2, 1, 2, 0, 0)].concat();
    let steps = [step(1), step(1), step(0)].concat();
    let held = held_of(&[steps, action(0, 1), moves, blocks, edition(2)]);
    b.check("R over S", seen(&held, 0, &[]) == (0, 0, 3, 0));
    b.check("R's step left", seen(&held, 0, &[(1, 1)]) == (0, 1, 6, 1));
    b.check("R's step left and entered", seen(&held, 0, &[(1, 3)]) == (0, 3, 5, 0));
    b.check("R's step a target", seen(&held, 0, &[(1, 2)]) == (0, 2, 1, 0));
    b.check("R's step entered", seen(&held, 0, &[(1, 1), (2, 2)]) == (0, 2, 5, 0));
    let run = played(&held, 0, &[(1, 1), (2, 2)]).0.run;
    b.check("stored no more", run.stored.is_empty());
    // S on a step both left and entered, and on one only left.
    let moves = [transition(1, 4, 1, 0, 0), transition(2, 1, 2, 0, 0)].concat();
    let steps = [step(1), step(1), step(0), step(1)].concat();
    let more = transition(8, 16, 4, 0, 0);
    let blocks = [block(0, 0, 2, 0), block(3, 0, 1, 0)].concat();
    let records = [steps, step(0), action(0, 1), moves, more, blocks].concat();
    let held = held_of(&[records, edition(2)]);
    b.check("reset goes, S left and entered", seen(&held, 0, &[(1, 7)]) == (0, 7, 21, 1));
    b.check("reset goes, S left", seen(&held, 0, &[(1, 5)]) == (0, 5, 22, 0));
}

// "For each case on a left step, the signal of this cycle is compared: equal sets its good mark,
// different its bad mark." (a step both left and entered is left; a target that was active and not
// left isn't)
fn check_edition_cases(b: &mut Bench) {
    let moves = [transition(1, 4, 1, 0, 0), transition(2, 1, 2, 0, 0)].concat();
    let cases = [case(0, 0, 1), case(0, 0, 0), case(1, 1, 1), case(2, 0, 1)].concat();
    let held = held_of(&[step(1), step(1), step(0), moves, cases, edition(2)]);
    let marks = |cycles: &[(u32, u32)]| {
        let (answer, _) = played(&held, 0, cycles);
        (word_of(&answer.run.good), word_of(&answer.run.bad))
    };
    let counts = |cycles: &[(u32, u32)]| {
        let answer = tally(&held, &played(&held, 0, cycles).0.run);
        (answer.code, answer.passed, answer.failed, answer.notrun)
    };
    b.check("marks of a start", marks(&[]) == (0, 0) && counts(&[]) == (0, 0, 0, 4));
    b.check("marks, nothing moves", marks(&[(1, 0)]) == (0, 0));
    b.check("marks, left", marks(&[(1, 1)]) == (1, 2));
    b.check("marks, a target not left", marks(&[(1, 2)]) == (4, 0));
    b.check("marks, left and entered", marks(&[(1, 3)]) == (5, 2));
    b.check("tally, left and entered", counts(&[(1, 3)]) == (0, 2, 1, 1));
    b.check("tally, a target not left", counts(&[(1, 2)]) == (0, 1, 0, 3));
    b.check("marks stay", marks(&[(1, 3), (2, 0)]) == (5, 2));
    let first = in_edition(&held, 1);
    let (answer, _) = played(&first, 0, &[(1, 3)]);
    b.check("edition 1, left alone", word_of(&answer.run.good) == 1);
    b.check("edition 1, bad", word_of(&answer.run.bad) == 2);
    // Step 0 is left and entered twice, first with input 1 on and then off: both marks.
    let moves = [transition(1, 2, 1, 0, 0), transition(2, 1, 1, 0, 0)].concat();
    let held = held_of(&[step(1), step(1), moves, case(0, 1, 1), edition(2)]);
    let (answer, _) = played(&held, 0, &[(1, 3), (2, 1)]);
    b.check("both marks", word_of(&answer.run.good) == 1 && word_of(&answer.run.bad) == 1);
    b.check("which fails", tally(&held, &answer.run).failed == 1);
}

// Request (vi) in edition 2: "a source not active; a source used by an earlier one; a signal; a
// wait", and since "targets are not tested" neither "a target occupied" nor "a target claimed";
// ""Taken" is given exactly where it was" (taken)
fn check_edition_reasons(b: &mut Bench) {
    for word in 0..64 {
        let why = set_of(word << 1);
        let first = why.iter().copied().find(|reason| *reason < 5).unwrap_or(0);
        let digits = format!("0{}", first);
        for signal in [(1, 0), (0, 2), (3, 0), (0, 3), (1, 2)].iter() {
            let held = in_edition(&held_back(&why, *signal), 2);
            b.check("the chart of these reasons", held_code(&held) == 0);
            b.waits("the first of these reasons", &held, &[(9, 2)], &digits);
        }
    }
    let go = |sources, targets| transition(sources, targets, 0, 0, 0);
    b.waits("no 5", &second_steps(&[1, 1], &[go(1, 2)]), &[(1, 0)], "0");
    b.waits("then 1", &second_steps(&[1, 1], &[go(1, 2)]), &[(1, 0), (2, 0)], "1");
    let held = second_steps(&[1, 1, 0], &[go(1, 4), go(2, 4)]);
    b.waits("no 6", &held, &[(1, 0)], "00");
    b.waits("then 11", &held, &[(1, 0), (2, 0)], "11");
    let moves = [go(1, 2), go(1, 4)];
    b.waits("2, where edition 1 has 50", &second_steps(&[1, 1, 0], &moves), &[(1, 0)], "02");
    b.waits("edition 1 has 50", &held_steps(&[1, 1, 0], &moves), &[(1, 0)], "50");
    let held = second_steps(&[1, 1], &[transition(1, 2, 1, 0, 10)]);
    b.waits("3 before 4", &held, &[(9, 0)], "3");
    b.waits("4", &held, &[(9, 1)], "4");
    b.waits("3", &held, &[(10, 0)], "3");
    b.waits("taken", &held, &[(10, 1)], "0");
    let held = second_steps(&[1, 1], &vec![transition(1, 2, 1, 0, 0); 64]);
    b.waits("64 transitions", &held, &[(1, 0)], &"3".repeat(64));
    b.waits("64, one taken", &held, &[(1, 1)], &("0".to_string() + &"2".repeat(63)));
    b.waits("no transitions", &second_steps(&[1], &[]), &[(1, 0)], "");
    b.waits("chart A in edition 2", &in_edition(&held_a_with_junk(), 2), &[(1, 0)], "31");
    // "Reasons of a start, of a refused call and beyond the last transition are 0."
    let held = second_steps(&[1, 0], &[transition(2, 1, 0, 0, 0)]);
    let mut outputs = vec![0; 32];
    let began = start(&held, 5, &mut outputs);
    b.check("a start", began.code == 0 && began.reasons == reasons_by_hand(""));
    let refused = cycle(&held, &began.run, 4, 0, &mut outputs);
    b.check("a refused cycle", refused.code == 11 && refused.reasons == reasons_by_hand(""));
    let answer = cycle(&held, &began.run, 5, 0, &mut outputs);
    b.check("an accepted one", answer.code == 0 && answer.reasons == reasons_by_hand("1"));
}

// Request (vii) in edition 2: "In a cycle under hold no transition is taken and step counters stand
// still, while action timers run on. Actions and outputs are worked out as usual, with nothing
// entered or left."; "reason 7 ... comes first"
fn check_edition_hold(b: &mut Bench) {
    let (set, clear) = (Deed::Set, Deed::Clear);
    let go = |clock, inputs| Deed::Cycle(clock, inputs);
    let actions: Vec<Vec<u8>> = (0..5).map(|k| action(k, 1)).collect();
    let pulses = [block(0, 0, 5, 0), block(0, 1, 9, 0), block(0, 2, 10, 0)].concat();
    let others = [block(0, 3, 6, 100), block(0, 4, 3, 100)].concat();
    let moves = [transition(1, 2, 1, 0, 0), transition(2, 1, 1, 0, 0)].concat();
    let steps = step(1).repeat(2);
    let cases = case(0, 0, 1);
    let held = held_of(&[steps, actions.concat(), moves, pulses, others, cases, edition(2)]);
    b.check("before the key", keyed_seen(&held, 0, &[]) == (0, 0, 3, 19));
    b.check("set", keyed_seen(&held, 0, &[set]) == (0, 0, 3, 19));
    b.check("held", keyed_seen(&held, 0, &[set, go(50, 1)]) == (0, 0, 3, 16));
    b.check("held, SD at 99", keyed_seen(&held, 0, &[set, go(99, 1)]) == (0, 0, 3, 16));
    b.check("held, SD at 100", keyed_seen(&held, 0, &[set, go(100, 1)]) == (0, 0, 3, 24));
    let (answer, outputs) = keyed(&held, 0, &[go(30, 0), set, go(100, 1)]);
    b.check("held, counters", answer.run.step_counters.get(..2) == Some(&[30, 30][..]));
    b.check("held, timer", at(&answer.run.action_timers, 3) == 100);
    b.check("held, reasons", answer.reasons == reasons_by_hand("77"));
    b.check("held, second line", second_line(&held, &answer) == "77\n");
    b.check("held, no marks", answer.run.good.is_empty() && answer.run.bad.is_empty());
    b.check("held, mark", answer.run.hold_mark == 1 && answer.run.clock == 100);
    let written = [vec![0; 3], vec![1; 2], vec![0; 27], vec![5; 2]].concat();
    b.check("held, outputs", outputs == written);
    let deeds = [go(30, 0), set, go(100, 1), clear, go(107, 1)];
    b.check("cleared, they move", keyed_seen(&held, 0, &deeds) == (0, 3, 3, 31));
    let (answer, _) = keyed(&held, 0, &deeds);
    b.check("cleared, counters", answer.run.step_counters.get(..2) == Some(&[0, 0][..]));
    b.check("cleared, mark of the case", word_of(&answer.run.good) == 1);
    let deeds = [go(30, 0), set, go(100, 1), clear, go(107, 0)];
    let (answer, _) = keyed(&held, 0, &deeds);
    b.check("cleared, counters run on", answer.run.step_counters.get(..2) == Some(&[37, 37][..]));
    b.check("cleared, no 7", answer.reasons == reasons_by_hand("33"));
    let refused = cycle(&held, &keyed(&held, 5, &[set]).0.run, 4, 1, &mut [0; 32]);
    b.check("held, 11", refused.code == 11 && refused.reasons == reasons_by_hand(""));
    for mark in 0..=255 {
        let run = with_mark(&played(&held, 0, &[]).0.run, mark);
        let wanted = if mark < 2 { 0 } else { 12 };
        b.check("mark, cycle", cycle(&held, &run, 0, 0, &mut [0; 32]).code == wanted);
        b.check("mark, set", set_hold(&held, &run).code == wanted);
        b.check("mark, clear", clear_hold(&held, &run).code == wanted);
        b.check("mark, tally", tally(&held, &run).code == wanted);
    }
    for word in 0..64 {
        let held = in_edition(&held_back(&set_of(word << 1), (1, 2)), 2);
        let (answer, _) = keyed(&held, 0, &[set, go(9, 2)]);
        b.check("7 comes first", answer.code == 0 && answer.reasons == reasons_by_hand("77"));
        b.check("and takes nothing", answer.taken.is_empty());
    }
}

// Request (iii) in edition 2: "The result equals the calls made singly." (by hand, and then every
// beginning of the forty cycles, with the hold key and with a refused cycle)
fn check_edition_shift(b: &mut Bench) {
    let moves = [transition(1, 2, 1, 0, 0), transition(2, 1, 1, 0, 0)].concat();
    let blocks = [block(0, 0, 9, 0), block(0, 1, 10, 0), block(0, 2, 4, 20)].concat();
    let actions: Vec<Vec<u8>> = (0..3).map(|k| action(k, 7)).collect();
    let held = held_of(&[step(1).repeat(2), actions.concat(), moves, blocks, edition(2)]);
    let began = played(&held, 0, &[]).0.run;
    let cycles = [(10, 0), (20, 0), (30, 1), (49, 0), (50, 0), (60, 1)];
    let (code, accepted, run, words, outputs) = shifted(&held, &began, &cycles);
    b.check("six cycles", (code, accepted) == (0, 6) && words == vec![0, 4, 3, 0, 4, 3]);
    b.check("six cycles, run", word_of(&run.active) == 3 && run.clock == 60);
    b.check("six cycles, outputs", outputs == [vec![7; 2], vec![0; 30], vec![5; 2]].concat());
    let first = in_edition(&held, 1);
    let words = shifted(&first, &played(&first, 0, &[]).0.run, &cycles).3;
    b.check("the same in edition 1", words == vec![0, 4, 4, 4, 4, 4]);
    let cycles = [(10, 0), (30, 1), (29, 1), (50, 0)];
    let (code, accepted, run, words, _) = shifted(&held, &began, &cycles);
    b.check("11 at its place", (code, accepted, run.clock) == (11, 2, 30));
    b.check("11, words", words == vec![0, 3, u64::MAX - 2, u64::MAX - 3]);
    b.check("11, run", run == played(&held, 0, &[(10, 0), (30, 1)]).0.run);
    let mut differ = 0;
    let mut lot = 5;
    for k in 0..40 {
        let first = if k == 0 { held_of_all() } else { held_by_lot(&mut lot) };
        let held = in_edition(&first, 2);
        let cycles = cycles_of_all();
        let clock = 4_294_967_000;
        let began = played(&held, clock, &[]).0.run;
        let whole = shifted(&held, &began, &cycles);
        b.check("whole", whole == singly(&held, clock, &cycles, 40, 0));
        let (head, rest) = cycles.split_at(k);
        let answer = shifted(&held, &began, head);
        b.check("a beginning", answer == singly(&held, clock, head, k, 0));
        let rest_of = shifted(&held, &answer.2, rest);
        b.check("and the rest", rest_of.2 == whole.2 && rest_of.4 == whole.4);
        let key = set_hold(&held, &answer.2).run;
        let rest_held = shifted(&held, &key, rest);
        b.check("the rest under hold", rest_held == singly_from(&held, &key, rest));
        let mut refused = cycles.clone();
        put(&mut refused, k, (answer.2.clock.wrapping_sub(1), 7));
        let stopped = shifted(&held, &began, &refused);
        b.check("refused at its place", stopped == singly(&held, clock, &refused, k, 11));
        let before = played(&first, clock, &[]).0.run;
        if shifted(&first, &before, &cycles) != whole {
            differ += 1;
        }
    }
    b.check("the editions differ", differ > 10);
}

// Request (viii): the start, the tally, the weighing and the key say nothing of the edition: each
// answers in edition 2 what it answers in edition 1. ("Start makes the initial steps active and
// entered, none left"; "The weighing adds unsigned 16-bit weights over sources, targets and initial
// steps")
fn check_edition_same(b: &mut Bench) {
    let mut lot = 11;
    for _ in 0..100 {
        let first = held_by_lot(&mut lot);
        let second = in_edition(&first, 2);
        let (one, outputs_one) = played(&first, 77, &[]);
        let (two, outputs_two) = played(&second, 77, &[]);
        b.check("start", (one.code, two.code) == (0, 0) && one.run == two.run);
        b.check("start, outputs", outputs_one == outputs_two && two.taken.is_empty());
        let mut run = one.run;
        run.good = set_of(next_lot(&mut lot) % 16);
        run.bad = set_of(next_lot(&mut lot) % 16);
        b.check("tally", tally(&first, &run) == tally(&second, &run));
        let weights: Vec<u16> = (0..6).map(|_| (next_lot(&mut lot) % 2) as u16).collect();
        b.check("weighing", weighing(&first, &weights) == weighing(&second, &weights));
        b.check("set", set_hold(&first, &run).run == set_hold(&second, &run).run);
        let key = with_mark(&run, 1);
        b.check("clear", clear_hold(&first, &key).run == clear_hold(&second, &key).run);
        let held_cycle = |held: &Held| cycle(held, &key, 90, 7, &mut [0; 32]);
        let (one, two) = (held_cycle(&first), held_cycle(&second));
        b.check("under hold", one.run == two.run && one.reasons == two.reasons);
    }
    let fork = second_steps(&[1, 0, 0], &[transition(1, 6, 0, 0, 0)]);
    let total = Weighing { code: 0, transition: 0, total: 2 };
    b.check("fork 2,1,1", weighing(&fork, &[2, 1, 1]) == total);
    b.check("fork 2,1,2", weighing(&fork, &[2, 1, 2]) == refused_weighing(14, 0));
    // Chart A never finds a target occupied or claimed: the same run in both editions.
    let cycles = [(1010, 1), (1509, 2), (1510, 2), (1511, 0), (1520, 3)];
    for count in 0..cycles.len() + 1 {
        let some = cycles.get(..count).unwrap_or(&[]);
        let (one, outputs_one) = played(&held_a(), 1000, some);
        let (two, outputs_two) = played(&in_edition(&held_a(), 2), 1000, some);
        b.check("chart A", one.run == two.run && one.taken == two.taken);
        b.check("chart A, outputs", one.reasons == two.reasons && outputs_one == outputs_two);
    }
}

// One cycle without hold by another way: all sets are 64-bit words. In edition 2 it leaves out the
// one test of targets; all else is one rule for both editions, since in edition 1 every target was
// inactive. (The transitions taken and the run after it.)
fn cycle_in_words(held: &Held, run: &Run, clock: u32, inputs: u32) -> (u64, Run) {
    let chart = &held.tables;
    let has = |word: u64, k: usize| (word >> k) & 1 == 1;
    let by = u64::from(clock.wrapping_sub(run.clock));
    let older = |time: u32| (u64::from(time) + by).min(86_400_000) as u32;
    let active = word_of(&run.active);
    let signals = u64::from(inputs) | (word_of(&run.activity) << 32);
    let (mut taken, mut left, mut targets) = (0u64, 0u64, 0u64);
    for (k, t) in chart.transitions.iter().enumerate() {
        let (from, to) = (word_of(&t.sources), word_of(&t.targets));
        let ready = from & active & !left == from;
        let true_now = word_of(&t.on) & !signals == 0 && word_of(&t.off) & signals == 0;
        let waited = t.sources.iter().all(|s| older(at(&run.step_counters, *s)) >= t.wait);
        let free = to & (active | targets) == 0;
        if ready && true_now && waited && (free || chart.edition == 2) {
            taken |= 1 << k;
            left |= from;
            targets |= to;
        }
    }
    let now = (active & !left) | targets;
    let entered = targets & (!active | left);
    let mut after = run.clone();
    after.clock = clock;
    after.active = set_of(now);
    for s in 0..64 {
        let counter = older(at(&run.step_counters, s));
        let stands = !has(now, s) || has(entered, s);
        put(&mut after.step_counters, s, if stands { 0 } else { counter });
    }
    for (k, case) in chart.cases.iter().enumerate().filter(|(_, case)| has(left, case.step)) {
        let equal = u8::from(has(signals, case.signal)) == case.expected;
        let marks = if equal { &mut after.good } else { &mut after.bad };
        marks.insert(k);
    }
    after.activity = Set::new();
    let counters = after.step_counters.clone();
    for a in 0..chart.actions.len() {
        let blocks: Vec<&Block> = chart.blocks.iter().filter(|x| x.action == a).collect();
        let some = |q: u8, holds: &dyn Fn(&Block) -> bool| {
            blocks.iter().any(|x| x.qualifier == q && holds(x))
        };
        let on = |x: &Block| has(now, x.step);
        let reached = |x: &Block| has(now, x.step) && at(&counters, x.step) >= x.duration;
        let below = |x: &Block| has(now, x.step) && at(&counters, x.step) < x.duration;
        let was = run.latched.contains(&a);
        let timer = if was { older(at(&run.action_timers, a)) } else { 0 };
        let reset = some(1, &on);
        let stored = !reset && (run.stored.contains(&a) || some(2, &on) || some(7, &reached));
        let latched = !reset && (was || some(6, &on) || some(8, &on));
        let timed = some(6, &|x| timer >= x.duration) || some(8, &|x| timer < x.duration);
        let pulse = some(5, &|x| has(entered, x.step))
            || some(9, &|x| has(entered, x.step))
            || some(10, &|x| has(left, x.step));
        let steps = some(0, &on) || some(3, &below) || some(4, &reached);
        after.stored.remove(&a);
        after.latched.remove(&a);
        after.stored.extend((a..a + 1).filter(|_| stored));
        after.latched.extend((a..a + 1).filter(|_| latched));
        put(&mut after.action_timers, a, if latched { timer } else { 0 });
        if !reset && (stored || steps || pulse || (latched && timed)) {
            after.activity.insert(a);
        }
    }
    (taken, after)
}

// Request (viii): "State the choosing once, with the target test as the only difference." (many
// charts and cycles by lot, each from the same run in both editions: both leave what the other way
// leaves; where edition 1 holds nothing back for a target, edition 2 answers the same; otherwise
// the first so held back is taken in edition 2, and all is the same before it)
fn check_edition_by_lot(b: &mut Bench) {
    let mut lot = 13;
    let (mut same, mut apart, mut stayed, mut ran_on) = (0, 0, 0, 0);
    let mut given = BTreeSet::new();
    for k in 0..400 {
        let first = held_by_lot(&mut lot);
        let second = in_edition(&first, 2);
        let mut run = played(&first, 0, &[]).0.run;
        for cycles in 1..13 {
            let (clock, inputs) = (9 * cycles, next_lot(&mut lot) as u32 % 8);
            let (mut written_one, mut written_two) = (vec![5; 34], vec![5; 34]);
            let one = cycle(&first, &run, clock, inputs, &mut written_one);
            let two = cycle(&second, &run, clock, inputs, &mut written_two);
            b.check("accepted", (one.code, two.code) == (0, 0));
            let (taken, after) = cycle_in_words(&first, &run, clock, inputs);
            b.check("edition 1 in words", word_of(&one.taken) == taken && one.run == after);
            let (taken, after) = cycle_in_words(&second, &run, clock, inputs);
            b.check("edition 2 in words", word_of(&two.taken) == taken && two.run == after);
            b.check("edition 1, taken", taken_agree(&first, &one));
            b.check("edition 2, taken", taken_agree(&second, &two));
            b.check("edition 2, reasons", two.reasons.iter().all(|reason| *reason < 5));
            let kept = test_run(&second.tables, &two.run).is_ok();
            b.check("edition 2, a run of it", kept);
            match one.reasons.iter().position(|reason| *reason == 5 || *reason == 6) {
                None => {
                    let equal = one.run == two.run && one.taken == two.taken;
                    b.check("the same answer", equal && one.reasons == two.reasons);
                    b.check("the same outputs", written_one == written_two);
                    same += 1;
                }
                Some(place) => {
                    let before = one.reasons.get(..place) == two.reasons.get(..place);
                    b.check("the same before it", before && at(&two.reasons, place) == 0);
                    b.check("and it is taken", two.taken.contains(&place));
                    apart += 1;
                }
            }
            let left = sources_of(&second.tables, &two.taken);
            for step in targets_of(&second.tables, &two.taken) {
                let was = run.active.contains(&step);
                b.check("a target is active", two.run.active.contains(&step));
                let counter = at(&two.run.step_counters, step);
                if was && !left.contains(&step) {
                    b.check("ran on", counter == at(&run.step_counters, step) + 9);
                    ran_on += 1;
                } else {
                    b.check("entered", counter == 0);
                    stayed += usize::from(was);
                }
            }
            given.extend(two.reasons.iter().copied());
            run = if k % 2 == 0 { two.run } else { one.run };
        }
    }
    b.check("both happened", same > 500 && apart > 500);
    b.check("steps stayed and ran on", stayed > 100 && ran_on > 100);
    b.check("every reason up to 4", given == (0..5).collect());
}

// Request (viii): "For edition 2, demand 3 reads: initial plus arrivals is at least departures plus
// active, arrivals counted per transition" (for every step, after every call, with the hold key
// turned between; in edition 1 the two are equal)
fn check_edition_ledger(b: &mut Bench) {
    let mut lot = 17;
    let (mut more, mut took) = (0, 0);
    for edition in [1, 2].repeat(150) {
        let held = in_edition(&held_by_lot(&mut lot), edition);
        let mut run = played(&held, 0, &[]).0.run;
        let (mut arrived, mut departed) = (vec![0; 6], vec![0; 6]);
        count_up(&mut arrived, &run.active);
        let mut outputs = vec![5; 34];
        for k in 1..25 {
            let deed = match next_lot(&mut lot) % 12 {
                0 => Deed::Set,
                1 | 2 => Deed::Clear,
                _ => Deed::Cycle(9 * k, next_lot(&mut lot) as u32 % 8),
            };
            let answer = deed_done(&held, &run, deed, &mut outputs);
            b.check("accepted", answer.code == 0);
            for t in answer.taken.iter().filter_map(|k| held.tables.transitions.get(*k)) {
                count_up(&mut arrived, &t.targets);
                count_up(&mut departed, &t.sources);
                took += 1;
            }
            run = answer.run;
            let active = |step| usize::from(run.active.contains(&step));
            let spent = |step| at(&departed, step) + active(step);
            if held.tables.edition == 2 {
                b.check("at least", (0..6).all(|step| at(&arrived, step) >= spent(step)));
                more += (0..6).filter(|step| at(&arrived, *step) > spent(*step)).count();
            } else {
                b.check("equal", (0..6).all(|step| at(&arrived, step) == spent(step)));
            }
        }
    }
    b.check("more in edition 2", more > 1000 && took > 500);
}

// Request (viii): "the weighed sum never rises, so the exclusion of two steps holds as before"
// (charts by lot of balanced transitions: steps 0 and 3 weigh 2, the others 1; two steps that weigh
// more than the initial total are never active together)
fn check_edition_weighed(b: &mut Bench) {
    let balanced = [
        (1, 6),
        (6, 1),
        (8, 48),
        (48, 8),
        (1, 8),
        (8, 1),
        (2, 4),
        (4, 16),
        (16, 32),
        (32, 2),
        (18, 36),
        (6, 8),
    ];
    let weights: [u16; 6] = [2, 1, 1, 2, 1, 1];
    let weight = |steps: &Set| -> u64 { steps.iter().map(|k| u64::from(at(&weights, *k))).sum() };
    let mut lot = 19;
    let (mut fell, mut pairs) = (0, 0);
    for _ in 0..300 {
        let mut records = Vec::new();
        for k in 0..6 {
            records.push(step(u8::from(k == 1 || next_lot(&mut lot) % 4 == 0)));
        }
        for _ in 0..10 {
            let (sources, targets) = at(&balanced, (next_lot(&mut lot) % 12) as usize);
            let on = next_lot(&mut lot) & next_lot(&mut lot) & 7;
            records.push(transition(sources, targets, on, 0, 0));
        }
        records.push(edition(2));
        let held = held_of(&records);
        let mut run = played(&held, 0, &[]).0.run;
        let total = weight(&run.active);
        let weighed = Weighing { code: 0, transition: 0, total };
        b.check("balanced", weighing(&held, &weights) == weighed);
        for k in 1..15 {
            let inputs = next_lot(&mut lot) as u32 % 8;
            let answer = cycle(&held, &run, k, inputs, &mut [0; 32]);
            let (before, after) = (weight(&run.active), weight(&answer.run.active));
            b.check("never rises", answer.code == 0 && after <= before && after <= total);
            fell += usize::from(after < before);
            run = answer.run;
            for one in 0..6 {
                for two in 0..one {
                    if u64::from(at(&weights, one)) + u64::from(at(&weights, two)) > total {
                        let together = run.active.contains(&one) && run.active.contains(&two);
                        b.check("never together", !together);
                        pairs += 1;
                    }
                }
            }
        }
    }
    b.check("it fell, and there were pairs", fell > 100 && pairs > 1000);
}

// The printed run of a file of edition 2, and of one whose edition is refused; request (vi): "when
// an accepted cycle takes nothing, prints a second line"
fn check_edition_printed(b: &mut Bench) {
    let trace = [start_record(0), cycle_record(1, 0), cycle_record(2, 0)].concat();
    let none = "passed 0 failed 0 notrun 0\n";
    let print = |records: &[Vec<u8>]| {
        String::from_utf8(bench_run(Some(&records.concat()), &trace)).unwrap_or_default()
    };
    let chart = [step(1), step(1), transition(1, 2, 0, 0, 0)].concat();
    let began = "0 0000000000000003 00000000 0000000000000000\n";
    let first = "1 0000000000000003 00000000 0000000000000000\n5\n";
    let second = "2 0000000000000003 00000000 0000000000000000\n5\n";
    let printed = [began, first, second, none].concat();
    b.check("edition 1, occupied", print(&[chart.clone(), end()]) == printed);
    let first = "1 0000000000000002 00000000 0000000000000001\n";
    let second = "2 0000000000000002 00000000 0000000000000000\n1\n";
    let printed = [began, first, second, none].concat();
    b.check("edition 2, occupied", print(&[chart.clone(), edition(2), end()]) == printed);
    // Two steps change places; step 0 has P0 of action 0 and a case on input 0, expected 1.
    let moves = [transition(1, 2, 0, 0, 0), transition(2, 1, 0, 0, 0)].concat();
    let chart_two = [step(1), step(1), action(0, 1), moves, block(0, 0, 10, 0), case(0, 0, 1)];
    let first = "1 0000000000000003 00000001 0000000000000003\n";
    let second = "2 0000000000000003 00000001 0000000000000003\n";
    let printed = [began, first, second, "passed 0 failed 1 notrun 0\n"].concat();
    b.check("edition 2, places", print(&[chart_two.concat(), edition(2), end()]) == printed);
    let first = "1 0000000000000003 00000000 0000000000000000\n55\n";
    let second = "2 0000000000000003 00000000 0000000000000000\n55\n";
    let printed = [began, first, second, "passed 0 failed 0 notrun 1\n"].concat();
    b.check("edition 1, places", print(&[chart_two.concat(), end()]) == printed);
    // Chart A prints the same in both editions.
    let trace_a = [start_record(1000), cycle_record(1010, 1), cycle_record(1510, 2)].concat();
    let printed = bench_run(Some(&chart_a()), &trace_a);
    b.check("chart A prints", printed.ends_with(b"passed 1 failed 0 notrun 0\n"));
    b.check("chart A, edition 2", bench_run(Some(&chart_a_second()), &trace_a) == printed);
    // "A bad chart prints `refused chart` and the code"
    let refused = |records: &[Vec<u8>], code: u64| {
        let file = [vec![chart.clone()], records.to_vec()].concat();
        print(&file) == format!("refused chart {}\n", code)
    };
    for byte in [0, 1, 3, 255].iter() {
        b.check("prints 5", refused(&[edition(*byte), end()], 5));
    }
    b.check("prints 4", refused(&[edition(2), edition(2), end()], 4));
    b.check("prints 3", refused(&[record(6, &[]), end()], 3));
    b.check("prints 2", refused(&[record(7, &[2]), end()], 2));
    b.check("prints 2, after 6", refused(&[edition(2), case(0, 0, 0), end()], 2));
    b.check("prints 1", refused(&[edition(2)], 1));
    b.check("prints 10", refused(&[edition(2), end(), vec![0; 70_000]], 10));
    b.check("prints 9", print(&[step(0), edition(2), end()]) == "refused chart 9\n");
}

// For the command line: the edition in a chart image (with padding that is passed over) and in the
// lines of `read` and `back`, by hand.
fn check_edition_lines(b: &mut Bench) {
    let framed = |file: &[u8]| [(file.len() as u32).to_le_bytes().to_vec(), file.to_vec()].concat();
    let read = |file: Vec<u8>| read_case(&mut Fields::new(&framed(&file))).unwrap_or_default();
    b.check("read, edition 1", read(chart_a()) == b"0 0 2 2 2 3 1 1\n");
    b.check("read, edition 2", read(chart_a_second()) == b"0 0 2 2 2 3 1 2\n");
    let bad = [step(1), edition(1), end()].concat();
    b.check("read, refused", read(bad.clone()) == b"5 5 0 0 0 0 0 0\n");
    let back = |file: Vec<u8>| back_case(&mut Fields::new(&framed(&file))).unwrap_or_default();
    b.check("back, edition 2", back(chart_a_second()) == b"0 157 same\n");
    b.check("back, refused", back(bad) == b"5\n");
    let small = held_of(&[step(1), edition(2)]);
    let line = writing_line(&small, 15);
    b.check("line of a writing", line == b"0 14 1 0 1 0 1 1 0 6 0 2 0 0 0 0 14\n");
    b.check("line of a writing, 17", writing_line(&small, 3) == b"17 0 0 1 2\n");
    // The image: 4,552 bytes, the edition, 7 bytes of padding.
    let image = held_image();
    b.check("the image has 4,560 bytes", image.len() == 4560 + 437 && at(&image, 4552) == 1);
    let mut fields = Fields::new(&image);
    let held = chart_image(&mut fields);
    b.check("and is read so", fields.place == 4560 && held.map_or(0, |x| x.tables.edition) == 1);
    let cut = image.get(..4559).unwrap_or(&[]);
    b.check("an image cut", chart_image(&mut Fields::new(cut)).is_none());
    let zeros = |count: usize| " 0".repeat(count);
    let lent: String = (0..32).map(|k| format!(" {}", 1000 + k)).collect();
    // Two steps, both active; transition 0 from 0 to 1; the counters 5 and 6.
    let image_of = |edition: u8, padding: u8| {
        let mut image = image.clone();
        for (place, byte) in [(0, 2), (16, 1), (40, 1), (41, 1), (264, 1), (776, 2)].iter() {
            put(&mut image, *place, *byte);
        }
        put(&mut image, 4552, edition);
        for place in 4553..4560 {
            put(&mut image, place, padding);
        }
        for (place, byte) in [(4, 3), (36, 5), (40, 6)].iter() {
            put(&mut image, 4560 + *place, *byte);
        }
        image
    };
    let line_of_call = |image: &[u8], call: Vec<u8>| {
        let input = [image, &call].concat();
        let line = held_case(&mut Fields::new(&input)).unwrap_or_default();
        String::from_utf8(line).unwrap_or_default()
    };
    let run = |text: &str, counters: &str| format!("{} 0 0 0 0 0 {}{}", text, counters, zeros(94));
    let cycle = || call_bytes(1, 1007, 0, 32, 0);
    for padding in [0, 1, 2, 255].iter() {
        let line = |edition, call| line_of_call(&image_of(edition, *padding), call);
        let one = format!("{}{} 5{}\n", run("0 0 1007 3 0", "12 13"), zeros(32), zeros(63));
        b.check("line of a cycle, edition 1", line(1, cycle()) == one);
        let two = format!("{}{}{}\n", run("0 1 1007 2 0", "0 13"), zeros(32), zeros(64));
        b.check("line of a cycle, edition 2", line(2, cycle()) == two);
        for other in [0, 3, 4, 129, 254, 255].iter() {
            let refused = format!("{}{}{}\n", run("5 0 1000 3 0", "5 6"), lent, zeros(64));
            b.check("line of a cycle, 5", line(*other, cycle()) == refused);
            let refused = format!("5 0{}{}\n", zeros(8 + 96), lent);
            b.check("line of a start, 5", line(*other, call_bytes(0, 7, 0, 32, 0)) == refused);
            b.check("line of a tally, 5", line(*other, call_bytes(2, 0, 0, 0, 0)) == "5 0 0 0\n");
            b.check("line of a weighing, 5", line(*other, call_bytes(3, 0, 0, 0, 0)) == "5 0 0\n");
            b.check("line of a writing, 5", line(*other, call_bytes(4, 2, 0, 0, 0)) == "5 0 0 1\n");
            let refused = run("5 0 1000 3 0", "5 6") + "\n";
            b.check("line of setting, 5", line(*other, call_bytes(6, 0, 0, 0, 0)) == refused);
            b.check("line of clearing, 5", line(*other, call_bytes(7, 0, 0, 0, 0)) == refused);
            let lists = [call_bytes(5, 65_537, 1, 32, 0), four_bytes(&[1007, 0])].concat();
            let refused = format!("{}{} 4294967296\n", run("5 0 1000 3 0", "5 6"), lent);
            b.check("line of a shift, 5", line(*other, lists) == refused);
        }
    }
    let zero = [vec![0; 4560], vec![0; 437], call_bytes(2, 0, 0, 0, 0)].concat();
    b.check("an all-zero image", held_case(&mut Fields::new(&zero)) == Some(b"5 0 0 0\n".to_vec()));
}

// ---------------------------------------------------------------------------------------------
// The selftest: the index of leaving transitions
// ---------------------------------------------------------------------------------------------

// Request (ix): "A cycle that consults only transitions leaving some active step" (which these are;
// a set, so they are consulted in number order)
fn leaving_some(index: &[Set], active: &Set) -> Set {
    let mut consulted = Set::new();
    for transitions in active.iter().filter_map(|step| index.get(*step)) {
        consulted.extend(transitions);
    }
    consulted
}

// "Transitions are taken in number order. One is taken if all its sources were active at the
// cycle's beginning and are not a source of one already taken; ..." (of those consulted; no other
// transition is looked at)
fn take_consulted(chart: &Chart, consulted: &Set, run: &Run, signals: &Set) -> Set {
    let (mut taken, mut used, mut claimed) = (Set::new(), Set::new(), Set::new());
    for k in consulted {
        if let Some(t) = chart.transitions.get(*k) {
            let ready = t.sources.is_subset(&run.active) && t.sources.is_disjoint(&used);
            let true_now = t.on.is_subset(signals) && t.off.is_disjoint(signals);
            let waited = t.sources.iter().all(|s| at(&run.step_counters, *s) >= t.wait);
            let free = t.targets.is_disjoint(&run.active) && t.targets.is_disjoint(&claimed);
            if ready && true_now && waited && (free || chart.edition == 2) {
                taken.insert(*k);
                used.extend(&t.sources);
                claimed.extend(&t.targets);
            }
        }
    }
    taken
}

// Request (vi): "The test answers for each transition" (of those consulted; of any other no source
// is active, so it has "a source not active", which is 1)
fn reasons_consulted(chart: &Chart, consulted: &Set, run: &Run, signals: &Set) -> Vec<u8> {
    let mut reasons = vec![1; chart.transitions.len()];
    reasons.resize(64, 0);
    let (mut used, mut claimed) = (Set::new(), Set::new());
    for k in consulted {
        if let Some(t) = chart.transitions.get(*k) {
            let mut reason = reason_of_sources(t, run, signals, &used);
            if reason == 0 && chart.edition != 2 {
                reason = reason_of_targets(t, run, &claimed);
            }
            if reason == 0 {
                used.extend(&t.sources);
                claimed.extend(&t.targets);
            }
            put(&mut reasons, *k, reason);
        }
    }
    reasons
}

// Request (ix): "A cycle that consults only transitions leaving some active step" (without tests
// and without hold; but for what it consults it does what `do_cycle` does)
fn do_cycle_leaving(
    chart: &Chart,
    index: &[Set],
    given: &Run,
    (clock, inputs): (u32, u32),
    outputs: &mut [i32],
) -> Answer {
    let run = grown_run(given, clock);
    let signals = signals_of(inputs, &given.activity);
    let consulted = leaving_some(index, &given.active);
    let taken = take_consulted(chart, &consulted, &run, &signals);
    let reasons = reasons_consulted(chart, &consulted, &run, &signals);
    do_chosen(chart, run, &signals, (taken, reasons), clock, outputs)
}

// The same with its tests and, under hold, as there: no transition is consulted at all.
fn cycle_leaving(
    held: &Held,
    index: &[Set],
    run: &Run,
    go: (u32, u32),
    outputs: &mut [i32],
) -> Answer {
    if let Err(code) = test_cycle_with_index(held, index, run, go.0, outputs) {
        return refusal(code, run.clone());
    }
    let chart = within_counts(held);
    if run.hold_mark == 1 {
        return do_cycle_under_hold(&chart, run, go.0, outputs);
    }
    do_cycle_leaving(&chart, index, run, go, outputs)
}

// What a cycle leaves: number, transitions taken, reasons, run and outputs.
type Cycled = (Code, u64, Vec<u8>, Run, Vec<i32>);

// An answer and the outputs beside it, in one.
fn all_of(answer: Answer, outputs: Vec<i32>) -> Cycled {
    (answer.code, word_of(&answer.taken), answer.reasons, answer.run, outputs)
}

// A cycle without an index, with so many outputs, 5 before; a cycle is its clock and its inputs.
fn cycled(held: &Held, run: &Run, go: (u32, u32), lent: usize) -> Cycled {
    let mut outputs = vec![5; lent];
    let answer = cycle(held, run, go.0, go.1, &mut outputs);
    all_of(answer, outputs)
}

// The same with an index.
fn cycled_with(held: &Held, index: &[Set], run: &Run, go: (u32, u32), lent: usize) -> Cycled {
    let mut outputs = vec![5; lent];
    let answer = cycle_with_index(held, index, run, go.0, go.1, &mut outputs);
    all_of(answer, outputs)
}

// The same, consulting only the transitions leaving some active step.
fn cycled_leaving(held: &Held, index: &[Set], run: &Run, go: (u32, u32), lent: usize) -> Cycled {
    let mut outputs = vec![5; lent];
    let answer = cycle_leaving(held, index, run, go, &mut outputs);
    all_of(answer, outputs)
}

// "a refused cycle the run it was given ... with no transition taken"; "Lent outputs stay untouched
// by a refusal"; request (vi): "Reasons ... of a refused call ... are 0."
fn refused_cycle(code: Code, run: &Run, lent: usize) -> Cycled {
    (code, 0, vec![0; 64], run.clone(), vec![5; lent])
}

// A shift with an index, with as many activity words as cycles and 34 outputs, 5 before.
fn shifted_with(held: &Held, index: &[Set], run: &Run, cycles: &[(u32, u32)]) -> Shifted {
    let (clocks, inputs) = lists_of(cycles);
    let mut words = lent_words(cycles.len());
    let mut outputs = vec![5; 34];
    let answer =
        shift_with_index(held, index, run, &clocks, &inputs, &mut words, &mut outputs);
    (answer.code, answer.accepted, answer.run, words, outputs)
}

// Request (iii): "The result equals the calls made singly." (each consulting only the transitions
// leaving some active step)
fn shifted_leaving(held: &Held, index: &[Set], run: &Run, cycles: &[(u32, u32)]) -> Shifted {
    let mut words = lent_words(cycles.len());
    let mut outputs = vec![5; 34];
    let mut now = run.clone();
    for (k, go) in cycles.iter().enumerate() {
        let answer = cycle_leaving(held, index, &now, *go, &mut outputs);
        if answer.code != 0 {
            return (answer.code, k as u64, now, words, outputs);
        }
        now = answer.run;
        put(&mut words, k, word_of(&now.activity));
    }
    (0, cycles.len() as u64, now, words, outputs)
}

// An index by hand: these words for the first steps, and 0 for every step behind them.
fn index_by_hand(words: &[u64]) -> Vec<Set> {
    let mut index: Vec<Set> = words.iter().map(|word| set_of(*word)).collect();
    index.resize(64, Set::new());
    index
}

// An index by another way: transition after transition, its bit into the word of each of its steps.
fn index_by(held: &Held, steps_of: fn(&Transition) -> &Set) -> Vec<Set> {
    let mut words = vec![0u64; 64];
    let counted = held.tables.transitions.iter().take(held.counts.transitions as usize);
    for (k, transition) in counted.enumerate() {
        for step in steps_of(transition) {
            let word = at(&words, *step) | 1 << k;
            put(&mut words, *step, word);
        }
    }
    index_by_hand(&words)
}

// An index with one bit turned over: of this transition in the word of this step.
fn turned_bit(index: &[Set], step: usize, transition: usize) -> Vec<Set> {
    let mut index = index.to_vec();
    if let Some(transitions) = index.get_mut(step) {
        if !transitions.remove(&transition) {
            transitions.insert(transition);
        }
    }
    index
}

// A held chart with its transition k altered.
fn altered(held: &Held, k: usize, by: &dyn Fn(&mut Transition)) -> Held {
    let mut held = held.clone();
    if let Some(transition) = held.tables.transitions.get_mut(k) {
        by(transition);
    }
    held
}

// A held chart altered in any way.
fn altered_all(held: &Held, by: &dyn Fn(&mut Held)) -> Held {
    let mut held = held.clone();
    by(&mut held);
    held
}

// The numbers that a cycle and a shift of one cycle give with an index, at the run's clock with
// inputs 0 and 1; accepted, both must leave what they leave without one, and refused, what a
// refused one leaves; otherwise 99.
fn codes_with(held: &Held, index: &[Set], run: &Run) -> (Code, Code) {
    let go = (run.clock, 3);
    let one = cycled_with(held, index, run, go, 34);
    let two = shifted_with(held, index, run, &[go]);
    let wanted = match one.0 {
        0 => cycled(held, run, go, 34),
        code => refused_cycle(code, run, 34),
    };
    let one_code = if one == wanted { one.0 } else { 99 };
    let wanted = match two.0 {
        0 => shifted(held, run, &[go]),
        code => (code, 0, run.clone(), lent_words(1), vec![5; 34]),
    };
    (one_code, if two == wanted { two.0 } else { 99 })
}

// The number of a shift with an index in which no cycle may be accepted, as in `shift_code`.
fn shift_code_with(
    (held, index): (&Held, &[Set]),
    run: &Run,
    lengths: [usize; 3],
    lent: usize,
    clock: u32,
) -> Code {
    let [clocks, inputs, count] = lengths;
    let mut words = lent_words(count);
    let mut outputs = vec![8; lent];
    let (clocks, inputs) = (vec![clock; clocks], vec![1; inputs]);
    let answer =
        shift_with_index(held, index, run, &clocks, &inputs, &mut words, &mut outputs);
    let kept = answer.run == *run && words == lent_words(count) && outputs == vec![8; lent];
    if answer.accepted != 0 || !kept {
        return 99;
    }
    answer.code
}

// A run that belongs to a chart: its start at 1000.
fn began(held: &Held) -> Run {
    played(held, 1000, &[]).0.run
}

// Request (ix): "for every step, the set of transitions that have it as a source" (by hand)
fn check_index_built(b: &mut Bench) {
    let go = |sources, targets| transition(sources, targets, 0, 0, 0);
    b.indexes("chart A", &held_a(), &[1, 2]);
    b.indexes("chart A in edition 2", &in_edition(&held_a(), 2), &[1, 2]);
    b.indexes("one step", &held_of(&[step(1)]), &[0]);
    b.indexes("no transitions", &held_steps(&[1, 0, 1], &[]), &[0, 0, 0]);
    b.indexes("a fork", &held_steps(&[1, 0, 0], &[go(1, 6)]), &[1, 0, 0]);
    b.indexes("a join", &held_steps(&[1, 1, 0], &[go(3, 4)]), &[1, 1, 0]);
    b.indexes("fork and join", &held_steps(&[1, 0, 0], &[go(1, 6), go(6, 1)]), &[1, 2, 2]);
    let moves = [go(1, 2), go(1, 4), go(1, 6)];
    b.indexes("three from one step", &held_steps(&[1, 0, 0], &moves), &[7, 0, 0]);
    let moves = [go(1, 2), go(2, 1), go(1, 4)];
    b.indexes("another between two", &held_steps(&[1, 0, 0], &moves), &[5, 2, 0]);
    let moves = [go(2, 1), go(2, 1), go(2, 1)];
    b.indexes("one transition three times", &held_steps(&[1, 0], &moves), &[0, 7]);
    let moves = [go(3, 8), go(6, 8), go(5, 8)];
    b.indexes("joins that share sources", &held_steps(&[1, 0, 0, 0], &moves), &[5, 3, 6, 0]);
    let moves = [go(1, 8), go(2, 8), go(4, 8), go(7, 8)];
    b.indexes("all into one", &held_steps(&[1, 1, 1, 0], &moves), &[9, 10, 12, 0]);
    let moves = [go(3, 12), go(12, 3), go(1, 8), go(8, 1)];
    b.indexes("two forks that are joins", &held_steps(&[1, 1, 0, 0], &moves), &[5, 1, 2, 10]);
    b.indexes("a step of no transition", &held_steps(&[1, 0, 0], &[go(1, 4)]), &[1, 0, 0]);
    let mut moves = [go(1, 2), go(2, 4), go(4, 1)];
    b.indexes("a ring", &held_steps(&[1, 0, 0], &moves), &[1, 2, 4]);
    moves.rotate_right(1);
    b.indexes("a ring, the last first", &held_steps(&[1, 0, 0], &moves), &[2, 4, 1]);
    b.indexes("all qualifiers", &held_of_all(), &[1, 2, 4, 12]);
    // Neither signals nor waits nor initial steps play a part.
    let moves = [transition(1, 6, 5, 2, 86_400_000), transition(6, 1, 0, u64::from(u32::MAX), 7)];
    b.indexes("guards and waits", &held_steps(&[0, 0, 1], &moves), &[1, 2, 2]);
    b.indexes("guards, edition 2", &second_steps(&[0, 0, 1], &moves), &[1, 2, 2]);
}

// "A chart has 1 to 64 steps, ... 0 to 64 transitions" (the index at these limits)
fn check_index_limits(b: &mut Bench) {
    let go = |sources, targets| transition(sources, targets, 0, 0, 0);
    let all = [1; 64];
    let last = |rest: u64, word: u64| [vec![rest; 63], vec![word]].concat();
    let first = |word: u64| [vec![word], vec![0; 63]].concat();
    b.indexes("64 steps, no transitions", &held_steps(&all, &[]), &[0; 64]);
    let moves: Vec<Vec<u8>> = (0..64).map(|k: u32| go(1 << k, 1 << ((k + 1) % 64))).collect();
    let words: Vec<u64> = (0..64).map(|k: u32| 1 << k).collect();
    b.indexes("a ring of 64", &held_steps(&all, &moves), &words);
    b.indexes("a ring of 64, edition 2", &second_steps(&all, &moves), &words);
    let moves = vec![go(1, 2); 64];
    b.indexes("64 from the first step", &held_steps(&all, &moves), &first(u64::MAX));
    b.indexes("64 from one of two", &held_steps(&[1, 0], &moves), &[u64::MAX, 0]);
    let moves = vec![go(1 << 63, 1); 64];
    b.indexes("64 from the last step", &held_steps(&all, &moves), &last(0, u64::MAX));
    let join = go(u64::MAX >> 1, 1 << 63);
    b.indexes("a join of 63", &held_steps(&all, &[join.clone()]), &last(1, 0));
    b.indexes("64 joins of 63", &held_steps(&all, &vec![join; 64]), &last(u64::MAX, 0));
    b.indexes("a fork to 63", &held_steps(&all, &[go(1, u64::MAX - 1)]), &first(1));
    let moves: Vec<Vec<u8>> = (0..64).map(|k: u32| go(!(1 << k), 1 << k)).collect();
    let words: Vec<u64> = (0..64).map(|k: u32| !(1 << k)).collect();
    b.indexes("all but one into it", &held_steps(&all, &moves), &words);
    let moves = [vec![go(1, 2); 63], vec![go(1 << 63, 1)]].concat();
    let words = [vec![u64::MAX >> 1], vec![0; 62], vec![1 << 63]].concat();
    b.indexes("the last from the last", &held_steps(&all, &moves), &words);
    // Every limit at once: each transition from all steps but the last, on the last signal.
    let join = transition(u64::MAX >> 1, 1 << 63, 1 << 63, 1, 86_400_000);
    let most = [
        step(1).repeat(64),
        action(31, -1).repeat(32),
        join.repeat(64),
        block(63, 31, 10, 0).repeat(256),
        case(63, 63, 1).repeat(64),
    ];
    b.indexes("fullest chart", &held_of(&most), &last(u64::MAX, 0));
    b.indexes("fullest, edition 2", &in_edition(&held_of(&most), 2), &last(u64::MAX, 0));
    // Transition k from step 63 - k: bit k stands in word 63 - k.
    let moves: Vec<Vec<u8>> =
        (0..64).map(|k: u32| go(1 << (63 - k), 1 << ((64 - k) % 64))).collect();
    let words: Vec<u64> = (0..64).map(|k: u32| 1 << (63 - k)).collect();
    b.indexes("backwards", &held_steps(&all, &moves), &words);
}

// Charts made of chart A by an alteration, each with its number of refusal.
fn refused_charts() -> Vec<(Code, Held)> {
    let a = held_a();
    let longest = 86_400_000;
    let steps = |first: u8, second: u8| vec![Step { initial: first }, Step { initial: second }];
    let action = || Action { output: 32, value: 0 };
    let blocks = |qualifier, duration| vec![Block { step: 0, action: 0, qualifier, duration }; 3];
    let case = || Case { step: 2, signal: 0, expected: 0 };
    vec![
        (4, altered_all(&a, &|held| held.counts.steps = 65)),
        (4, altered_all(&a, &|held| held.counts.actions = 33)),
        (4, altered_all(&a, &|held| held.counts.transitions = 65)),
        (4, altered_all(&a, &|held| held.counts.blocks = 257)),
        (4, altered_all(&a, &|held| held.counts.cases = u64::MAX)),
        (5, altered_all(&a, &|held| held.tables.steps = steps(1, 2))),
        (5, altered_all(&a, &|held| held.counts.steps = 1)),
        (5, altered_all(&a, &|held| held.counts.steps = 0)),
        (5, altered_all(&a, &|held| held.tables.actions = vec![action(); 2])),
        (5, altered(&a, 0, &|t| t.sources = set_of(4))),
        (5, altered(&a, 1, &|t| t.targets = set_of(1 << 63))),
        (5, altered(&a, 0, &|t| t.on = set_of(1 << 34))),
        (5, altered(&a, 1, &|t| t.off = set_of(1 << 34))),
        (5, altered(&a, 1, &|t| t.wait = longest + 1)),
        (5, altered_all(&a, &|held| held.tables.blocks = blocks(11, 0))),
        (5, altered_all(&a, &|held| held.tables.blocks = blocks(0, 1))),
        (5, altered_all(&a, &|held| held.tables.cases = vec![case()])),
        (5, in_edition(&a, 0)),
        (5, in_edition(&a, 3)),
        (5, hold(&Chart::default())),
        (6, altered(&a, 0, &|t| t.sources = Set::new())),
        (6, altered(&a, 1, &|t| t.targets = Set::new())),
        (6, altered(&a, 1, &|t| t.sources = numbers(2))),
        (7, altered(&a, 0, &|t| t.off = numbers(1))),
        (9, altered_all(&a, &|held| held.tables.steps = steps(0, 0))),
        (9, held_without_steps()),
        (8, altered_all(&a, &|held| held.tables.blocks = blocks(3, 9))),
    ]
}

// Request (ix): "building tests the chart and refused gives all zeros"; document 01: "4, then
// records by kind with 5, 6, 7, then 9, 8"; request (viii): "5 for another edition byte, tested in
// a held chart after the cases"
fn check_index_refused(b: &mut Bench) {
    let zeros = index_by_hand(&[]);
    b.check("64 words", zeros.len() == 64 && build_index(&held_a()).index.len() == 64);
    let mut codes = BTreeSet::new();
    for (code, held) in refused_charts().iter() {
        let built = build_index(held);
        b.check("building, refused", built.code == *code);
        b.check("building, all zeros", built.index == zeros);
        codes.insert(*code);
    }
    b.check("every number of a chart", codes == (4..10).collect());
    let mut held = held_of_all();
    let code = |held: &Held| {
        let built = build_index(held);
        if built.index == zeros { built.code } else { 99 }
    };
    b.check("building, not all zeros", code(&held_of_all()) == 99);
    for byte in 0..=255 {
        let wanted = if byte == 1 || byte == 2 { 99 } else { 5 };
        b.check("building, any edition", code(&in_edition(&held, byte)) == wanted);
    }
    held.tables.blocks = vec![Block { step: 0, action: 0, qualifier: 3, duration: 9 }; 14];
    b.check("building, 8", code(&held) == 8);
    held.tables.steps = vec![Step { initial: 0 }; 4];
    b.check("building, 9 before 8", code(&held) == 9);
    held.tables.edition = 0;
    b.check("building, the edition before 9", code(&held) == 5);
    held = altered(&held, 3, &|t| t.off.extend(&t.on));
    b.check("building, 7 before it", code(&held) == 7);
    held = altered(&held, 2, &|t| t.sources = Set::new());
    b.check("building, 6 of an earlier one", code(&held) == 6);
    held = altered(&held, 1, &|t| t.wait = u32::MAX);
    b.check("building, 5 of an earlier one", code(&held) == 5);
    held.counts.cases = 65;
    b.check("building, 4 first", code(&held) == 4);
}

// A held chart with full tables, junk behind every count; the junk transitions have these sources.
fn with_full_tables(held: &Held, sources: &Set) -> Held {
    let mut held = held.clone();
    let (sources, targets) = (sources.clone(), sources.clone());
    let transition = Transition { sources, targets, on: numbers(1), off: numbers(1), wait: 5 };
    held.tables.steps.resize(64, Step { initial: 9 });
    held.tables.actions.resize(32, Action { output: 99, value: 3 });
    held.tables.transitions.resize(64, transition);
    held.tables.blocks.resize(256, Block { step: 0, action: 0, qualifier: 3, duration: 1 });
    held.tables.cases.resize(64, Case { step: 99, signal: 99, expected: 2 });
    held
}

// "Entries beyond a count play no part." (the index of a chart with junk in its tables)
fn check_index_junk(b: &mut Bench) {
    let run = run_a();
    let a = index_by_hand(&[1, 2]);
    b.indexes("junk beyond the counts", &held_a_with_junk(), &[1, 2]);
    b.check("junk, A's index", codes_with(&held_a_with_junk(), &a, &run) == (0, 0));
    // Junk transition 2 has every step as a source.
    let with_junk = index_by_hand(&[5, 6]);
    b.check("junk, with its bits", codes_with(&held_a_with_junk(), &with_junk, &run) == (20, 20));
    let all = index_by_hand(&[vec![5, 6], vec![4; 62]].concat());
    b.check("junk, bits everywhere", codes_with(&held_a_with_junk(), &all, &run) == (20, 20));
    let fewer = |count: u64| altered_all(&held_a(), &|held| held.counts.transitions = count);
    b.indexes("one transition counted", &fewer(1), &[1, 0]);
    b.indexes("no transition counted", &fewer(0), &[0, 0]);
    b.check("one counted, A's index", codes_with(&fewer(1), &a, &run) == (20, 20));
    b.check("none counted, A's index", codes_with(&fewer(0), &a, &run) == (20, 20));
    b.check("one counted", codes_with(&fewer(1), &index_by_hand(&[1]), &run) == (0, 0));
    b.check("none counted", codes_with(&fewer(0), &index_by_hand(&[]), &run) == (0, 0));
    // Charts by lot with full tables behind their counts.
    let mut lot = 29;
    for k in 0..40 {
        let held = held_by_lot(&mut lot);
        let junk = with_full_tables(&held, &set_of(next_lot(&mut lot) * 4_294_967_297));
        let index = build_index(&held).index;
        let built = build_index(&junk);
        b.check("junk by lot, built", built.code == 0 && built.index == index);
        let run = began(&held);
        b.check("junk by lot", codes_with(&junk, &index, &run) == (0, 0));
        let go = (1005, k % 8);
        let same = cycled_with(&junk, &index, &run, go, 34) == cycled(&held, &run, go, 34);
        b.check("junk by lot, the same cycle", same);
    }
}

// Request (ix): "20 when it is not exactly the index of this chart, 0 beyond the last step" (one
// bit more or less, anywhere)
fn check_index_bits(b: &mut Bench) {
    let run = run_a();
    let a = index_by_hand(&[1, 2]);
    b.check("A's index", codes_with(&held_a(), &a, &run) == (0, 0));
    b.check("built is by hand", build_index(&held_a()).index == a);
    for step in 0..64 {
        for transition in 0..64 {
            let name = match (step < 2, transition < 2) {
                (true, true) => "a bit of a step and a transition",
                (true, false) => "a bit of a step and of no transition",
                (false, true) => "a bit of no step and of a transition",
                (false, false) => "a bit of no step and no transition",
            };
            let index = turned_bit(&a, step, transition);
            b.check(name, codes_with(&held_a(), &index, &run) == (20, 20));
        }
    }
    // A chart of one step has no transition: all words are 0.
    let one = held_of(&[step(1)]);
    let zeros = index_by_hand(&[]);
    b.check("no transitions, zeros", codes_with(&one, &zeros, &began(&one)) == (0, 0));
    for k in 0..64 {
        for (step, transition) in [(0, k), (k, 0), (1, k), (k, 63), (63, k)].iter() {
            let index = turned_bit(&zeros, *step, *transition);
            b.check("no transitions, one bit", codes_with(&one, &index, &began(&one)) == (20, 20));
        }
    }
    // A ring of 64 steps: word k has bit k alone.
    let go = |k: u32| transition(1 << k, 1 << ((k + 1) % 64), 1, 0, 0);
    let moves: Vec<Vec<u8>> = (0..64).map(go).collect();
    for ring in [held_steps(&[1; 64], &moves), second_steps(&[1; 64], &moves)].iter() {
        let words: Vec<u64> = (0..64).map(|k: u32| 1 << k).collect();
        let index = index_by_hand(&words);
        let run = began(ring);
        b.check("a ring of 64", codes_with(ring, &index, &run) == (0, 0));
        for k in 0..64 {
            for transition in [k, (5 * k + 3) % 64].iter() {
                let other = turned_bit(&index, k, *transition);
                let code = cycled_with(ring, &other, &run, (1000, 0), 34);
                b.check("a ring of 64, one bit", code == refused_cycle(20, &run, 34));
            }
        }
    }
}

// Request (ix): "20 when it is not exactly the index of this chart" (other words altogether)
fn check_index_other(b: &mut Bench) {
    let zeros = index_by_hand(&[]);
    let ones = index_by_hand(&[u64::MAX; 64]);
    let moves = [transition(1, 2, 1, 0, 0), transition(1, 4, 2, 0, 0), transition(6, 1, 0, 0, 0)];
    let other = held_steps(&[1, 0, 0], &moves);
    b.indexes("another chart", &other, &[3, 4, 4]);
    let full: Vec<Vec<u8>> = (0..64).map(|k: u32| transition(!(1 << k), 1 << k, 0, 0, 0)).collect();
    let charts = [
        held_a(),
        in_edition(&held_a(), 2),
        held_a_with_junk(),
        other.clone(),
        in_edition(&other, 2),
        held_of_all(),
        held_one(6, 100),
        held_steps(&[1; 64], &full),
    ];
    for (k, held) in charts.iter().enumerate() {
        let run = began(held);
        let right = build_index(held).index;
        b.check("its index", codes_with(held, &right, &run) == (0, 0));
        b.check("its index by another way", index_by(held, |t| &t.sources) == right);
        b.check("all zeros", codes_with(held, &zeros, &run) == (20, 20));
        b.check("all ones", codes_with(held, &ones, &run) == (20, 20));
        let targets = index_by(held, |t| &t.targets);
        b.check("its targets", codes_with(held, &targets, &run) == (20, 20));
        let steps = held.counts.steps as usize;
        let transitions = numbers(held.counts.transitions as usize);
        let mut every = vec![transitions.clone(); steps];
        every.resize(64, Set::new());
        b.check("every transition for each step", codes_with(held, &every, &run) == (20, 20));
        let beyond = vec![transitions; 64];
        b.check("and for every number", codes_with(held, &beyond, &run) == (20, 20));
        let mut next = right.clone();
        next.rotate_right(1);
        b.check("each word one step on", codes_with(held, &next, &run) == (20, 20));
        next.rotate_left(2);
        b.check("each word one step back", codes_with(held, &next, &run) == (20, 20));
        let up: Vec<Set> = right.iter().map(|x| set_of(word_of(x) << 1)).collect();
        b.check("each bit one up", codes_with(held, &up, &run) == (20, 20));
        let not: Vec<Set> = right.iter().map(|x| set_of(!word_of(x))).collect();
        b.check("each bit turned over", codes_with(held, &not, &run) == (20, 20));
        // The first three, and the fourth and fifth, have the same sources, and no other two do.
        let group = |k: usize| match k {
            0..=2 => 0,
            3 | 4 => 3,
            k => k,
        };
        for (other, chart) in charts.iter().enumerate() {
            let wanted = if group(k) == group(other) { (0, 0) } else { (20, 20) };
            let index = build_index(chart).index;
            b.check("the index of another chart", codes_with(held, &index, &run) == wanted);
        }
    }
    // Without transitions, all zeros is the index.
    for held in [held_of(&[step(1)]), held_steps(&[1; 64], &[]), held_steps(&[0, 1], &[])].iter() {
        let run = began(held);
        b.check("no transitions, all zeros", codes_with(held, &zeros, &run) == (0, 0));
        b.check("no transitions, all ones", codes_with(held, &ones, &run) == (20, 20));
        let a = index_by_hand(&[1, 2]);
        b.check("no transitions, chart A's", codes_with(held, &a, &run) == (20, 20));
    }
    // Chart A's two words exchanged, and its two bits in one word.
    for words in [[2, 1], [3, 0], [0, 3], [3, 3], [1, 1], [2, 2], [1, 0], [0, 2]].iter() {
        let index = index_by_hand(words);
        b.check("A's bits elsewhere", codes_with(&held_a(), &index, &run_a()) == (20, 20));
    }
}

// Request (ix): "20 when it is not exactly the index of this chart" (of a chart altered after its
// index was built; what no source names plays no part)
fn check_index_altered(b: &mut Bench) {
    let held = held_of_all();
    let built = index_by_hand(&[1, 2, 4, 12]);
    let run = began(&held);
    let moves = |k: usize| held.tables.transitions.get(k).cloned().into_iter();
    let in_order = |order: &[usize]| {
        altered_all(&held, &|held| {
            held.tables.transitions = order.iter().flat_map(|k| moves(*k)).collect();
            held.counts.transitions = order.len() as u64;
        })
    };
    // A fifth transition, from 0 to 2.
    let added = altered_all(&held, &|held| {
        let (sources, targets) = (numbers(1), set_of(4));
        let (on, off) = (Set::new(), Set::new());
        held.tables.transitions.push(Transition { sources, targets, on, off, wait: 0 });
        held.counts.transitions = 5;
    });
    let changed = [
        (altered(&held, 1, &|t| t.sources = set_of(6)), [1, 2, 6, 12]),
        (altered(&held, 1, &|t| t.sources = set_of(4)), [1, 0, 6, 12]),
        (altered(&held, 2, &|t| t.sources = set_of(8)), [1, 2, 0, 12]),
        (altered(&held, 2, &|t| t.sources = set_of(4)), [1, 2, 4, 8]),
        (altered(&held, 2, &|t| t.sources = set_of(14)), [1, 6, 4, 12]),
        (altered(&held, 0, &|t| t.sources = set_of(9)), [1, 2, 4, 13]),
        (added, [17, 2, 4, 12]),
        (in_order(&[0, 1, 2]), [1, 2, 4, 4]),
        (in_order(&[0, 1, 3]), [1, 2, 0, 4]),
        (in_order(&[1, 2, 3]), [0, 1, 2, 6]),
        (in_order(&[0]), [1, 0, 0, 0]),
        (in_order(&[]), [0, 0, 0, 0]),
        (in_order(&[1, 0, 2, 3]), [2, 1, 4, 12]),
        (in_order(&[0, 1, 3, 2]), [1, 2, 8, 12]),
        (in_order(&[0, 1, 2, 3, 3]), [1, 2, 4, 28]),
    ];
    for (other, words) in changed.iter() {
        b.check("altered, accepted chart", held_code(other) == 0);
        b.indexes("altered, its own index", other, words);
        let own = index_by_hand(words);
        b.check("altered, the old index", codes_with(other, &built, &run) == (20, 20));
        b.check("altered, the new index", codes_with(other, &own, &run) == (0, 0));
        b.check("as before, the new index", codes_with(&held, &own, &run) == (20, 20));
    }
    let kept = [
        held.clone(),
        altered(&held, 1, &|t| t.wait = 0),
        altered(&held, 0, &|t| t.wait = 86_400_000),
        altered(&held, 0, &|t| t.targets = set_of(8)),
        altered(&held, 3, &|t| t.targets = set_of(7)),
        altered(&held, 0, &|t| t.on = Set::new()),
        altered(&held, 0, &|t| t.off = set_of(1 << 40)),
        in_edition(&held, 2),
        altered_all(&held, &|held| held.counts.cases = 0),
        altered_all(&held, &|held| held.counts.blocks = 0),
        altered_all(&held, &|held| held.tables.actions.reverse()),
        altered_all(&held, &|held| held.tables.steps = vec![Step { initial: 1 }; 4]),
        altered_all(&held, &|held| {
            held.tables.steps.push(Step { initial: 1 });
            held.counts.steps = 5;
        }),
        altered_all(&held, &|held| {
            held.tables.steps.resize(64, Step { initial: 0 });
            held.counts.steps = 64;
        }),
    ];
    for other in kept.iter() {
        b.check("kept, accepted chart", held_code(other) == 0);
        b.check("kept, the index built", build_index(other).index == built);
        b.check("kept, the old index", codes_with(other, &built, &run) == (0, 0));
        let cycles = cycles_of_all();
        let run = played(other, 4_294_967_000, &[]).0.run;
        let whole = shifted(other, &run, &cycles);
        b.check("kept, a shift", shifted_with(other, &built, &run, &cycles) == whole);
    }
    // Two transitions with the same sources exchange their places: the same index, and the cycle
    // goes by the chart as it is now.
    let moves = [transition(1, 2, 0, 0, 0), transition(1, 4, 0, 0, 0)];
    let one = held_steps(&[1, 0, 0], &moves);
    let two = altered_all(&one, &|held| held.tables.transitions.reverse());
    let index = build_index(&one).index;
    let after = |held: &Held| cycled_with(held, &index, &began(held), (1001, 0), 34).3;
    b.check("exchanged, before", word_of(&after(&one).active) == 2);
    b.check("exchanged, after", word_of(&after(&two).active) == 4);
    b.check("exchanged, same index", codes_with(&two, &index, &began(&two)) == (0, 0));
}

// Request (ix): "20 when it is not exactly the index of this chart" (charts by lot, one transition
// taken from another after the index was built: 20 just where its sources are others than before)
fn check_index_altered_by_lot(b: &mut Bench) {
    let mut lot = 31;
    let (mut others, mut same) = (0, 0);
    for _ in 0..150 {
        let held = held_by_lot(&mut lot);
        let index = build_index(&held).index;
        let anew = held_by_lot(&mut lot).tables.transitions;
        for (k, (before, after)) in held.tables.transitions.iter().zip(&anew).enumerate() {
            let differ = before.sources != after.sources;
            let other = altered(&held, k, &|t| *t = after.clone());
            let wanted = if differ { (20, 20) } else { (0, 0) };
            b.check("taken from another", codes_with(&other, &index, &began(&held)) == wanted);
            b.check("its own index", build_index(&other).index == index_by(&other, |t| &t.sources));
            others += usize::from(differ);
            same += usize::from(!differ);
        }
    }
    b.check("others and the same", others > 500 && same > 50);
}

// Document 01: "a cycle tests 15, chart, 12, 11"; request (iii): "15, chart, 12, then 18 ...; then
// 11, at its place"; request (ix): "20 ..., tested after the chart and before 12" (every set of
// these faults, with each number of a chart)
fn check_index_order(b: &mut Bench) {
    let right = index_by_hand(&[1, 2]);
    let wrong = [
        index_by_hand(&[]),
        index_by_hand(&[2, 1]),
        index_by_hand(&[1, 2, 1]),
        index_by_hand(&[1, 2 | 1 << 63]),
        index_by_hand(&[u64::MAX; 64]),
    ];
    let mut strange = run_a();
    strange.active = numbers(3);
    let mut counted = run_a();
    put(&mut counted.step_counters, 1, 1);
    let strange = [strange, counted, with_mark(&run_a(), 2)];
    let charts = [vec![(0, held_a())], refused_charts()].concat();
    for (k, (number, held)) in charts.iter().enumerate() {
        for faults in 0..32 {
            let has = |bit: u32| (faults >> bit) & 1 == 1;
            let or_0 = |holds: bool, code: Code| if holds { code } else { 0 };
            let lent = if has(0) { 31 } else { 34 };
            let wrong = wrong.get((k + faults) % 5).unwrap_or(&right);
            let index = if has(1) { wrong } else { &right };
            let strange = strange.get((k + faults) % 3).cloned().unwrap_or_else(run_a);
            let run = if has(2) { strange } else { run_a() };
            let clock = if has(3) { 999 } else { 1010 };
            let lengths = if has(4) { [1, 2, 3] } else { [1; 3] };
            let first = |codes: &[Code]| codes.iter().copied().find(|code| *code != 0).unwrap_or(0);
            let (few, other) = (or_0(has(0), 15), or_0(has(1), 20));
            let (odd, late) = (or_0(has(2), 12), or_0(has(3), 11));
            let code = first(&[few, *number, other, odd, late]);
            let wanted = match code {
                0 => cycled(held, &run, (clock, 1), lent),
                code => refused_cycle(code, &run, lent),
            };
            let answer = cycled_with(held, index, &run, (clock, 1), lent);
            b.check("the first of these numbers, cycle", answer == wanted);
            let answer = cycled_leaving(held, index, &run, (clock, 1), lent);
            b.check("the same, consulting fewer", answer == wanted);
            let code = first(&[few, *number, other, odd, or_0(has(4), 18), late]);
            let answer = shift_code_with((held, index), &run, lengths, lent, clock);
            let wanted = if code == 0 { 99 } else { code };
            b.check("the first of these numbers, shift", answer == wanted);
        }
    }
}

// The same, pair by pair as the documents put them: 15, chart, 20, 12, 18, 11; and a shift of no
// cycles, which tests its index too
fn check_index_pairs(b: &mut Bench) {
    let a = held_a();
    let right = index_by_hand(&[1, 2]);
    let wrong = index_by_hand(&[1, 3]);
    let mut strange = run_a();
    strange.active = numbers(3);
    let broken = altered_all(&a, &|held| held.counts.steps = 65);
    let code = |held: &Held, index: &[Set], run: &Run, clock: u32, lent: usize| {
        let answer = cycled_with(held, index, run, (clock, 1), lent);
        if answer == refused_cycle(answer.0, run, lent) { answer.0 } else { 99 }
    };
    b.check("cycle: 15 before the chart", code(&broken, &right, &run_a(), 1010, 31) == 15);
    b.check("cycle: 15 before 20", code(&a, &wrong, &run_a(), 1010, 31) == 15);
    b.check("cycle: 15 before 20, none lent", code(&a, &wrong, &run_a(), 1010, 0) == 15);
    b.check("cycle: 15 before 12", code(&a, &right, &strange, 1010, 31) == 15);
    b.check("cycle: 15 before 11", code(&a, &right, &run_a(), 999, 31) == 15);
    b.check("cycle: the chart before 20", code(&broken, &wrong, &run_a(), 1010, 32) == 4);
    b.check("cycle: the chart before 12", code(&broken, &right, &strange, 1010, 32) == 4);
    b.check("cycle: the chart before 11", code(&broken, &right, &run_a(), 999, 32) == 4);
    b.check("cycle: 20 before 12", code(&a, &wrong, &strange, 1010, 32) == 20);
    b.check("cycle: 20 before 11", code(&a, &wrong, &run_a(), 999, 32) == 20);
    b.check("cycle: 12 before 11", code(&a, &right, &strange, 999, 32) == 12);
    b.check("cycle: 20 alone", code(&a, &wrong, &run_a(), 1010, 32) == 20);
    b.check("cycle: 11 alone", code(&a, &right, &run_a(), 999, 32) == 11);
    b.check("cycle: none of them", code(&a, &right, &run_a(), 1010, 32) == 99);
    b.check("cycle: 20 under hold", code(&a, &wrong, &with_mark(&run_a(), 1), 1010, 32) == 20);
    for lengths in [[1, 2, 3], [0, 0, 1], [4097; 3], [65_536; 3]].iter() {
        let code = |held: &Held, index: &[Set], run: &Run, lent: usize| {
            shift_code_with((held, index), run, *lengths, lent, 999)
        };
        b.check("shift: 15 before 20 and 18", code(&a, &wrong, &run_a(), 31) == 15);
        b.check("shift: the chart before 18", code(&broken, &right, &run_a(), 32) == 4);
        b.check("shift: the chart before 20", code(&broken, &wrong, &strange, 32) == 4);
        b.check("shift: 20 before 12", code(&a, &wrong, &strange, 32) == 20);
        b.check("shift: 20 before 18", code(&a, &wrong, &run_a(), 32) == 20);
        b.check("shift: 12 before 18", code(&a, &right, &strange, 32) == 12);
        b.check("shift: 18 before 11", code(&a, &right, &run_a(), 32) == 18);
    }
    for lengths in [[0; 3], [1; 3], [4096; 3]].iter() {
        let code = |index: &[Set]| shift_code_with((&a, index), &run_a(), *lengths, 32, 999);
        b.check("shift: 20 before 11", code(&wrong) == 20);
        b.check("shift: 11, or no cycle", code(&right) == if *lengths == [0; 3] { 0 } else { 11 });
    }
    let none = (0, 0, run_a(), vec![], vec![5; 34]);
    b.check("shift: no cycles", shifted_with(&a, &right, &run_a(), &[]) == none);
    let none = (20, 0, run_a(), vec![], vec![5; 34]);
    b.check("shift: no cycles, 20", shifted_with(&a, &wrong, &run_a(), &[]) == none);
}

// Request (ix): "takes the same ones, in both editions, and gives the same answer throughout"
// (chart A's trace and the bench examples, by hand, with the index)
fn check_index_by_hand(b: &mut Bench) {
    let a = held_a();
    let index = index_by_hand(&[1, 2]);
    let with = |run: &Run, go| cycled_with(&a, &index, run, go, 34);
    let first = with(&run_a(), (1010, 1));
    b.check("call 1", (first.0, first.1) == (0, 1) && first.2 == reasons_by_hand("01"));
    b.check("call 1, steps", word_of(&first.3.active) == 2 && word_of(&first.3.activity) == 3);
    b.check("call 1, outputs", first.4 == [vec![120], vec![0; 31], vec![5; 2]].concat());
    let early = with(&first.3, (1509, 2));
    b.check("1509", (early.0, early.1) == (0, 0) && early.2 == reasons_by_hand("14"));
    b.check("1509, steps", word_of(&early.3.active) == 2 && early.3.good.is_empty());
    let second = with(&first.3, (1510, 2));
    b.check("call 2", (second.0, second.1) == (0, 2) && second.2 == reasons_by_hand("10"));
    b.check("call 2, steps", word_of(&second.3.active) == 1 && word_of(&second.3.good) == 1);
    b.check("call 2, outputs", second.4 == [vec![0; 32], vec![5; 2]].concat());
    let held = with(&with_mark(&first.3, 1), (1510, 2));
    b.check("under hold", (held.0, held.1) == (0, 0) && held.2 == reasons_by_hand("77"));
    b.check("under hold, counter", at(&held.3.step_counters, 1) == 0 && held.3.clock == 1510);
    b.check("under hold, outputs", at(&held.4, 0) == 120 && held.3.hold_mark == 1);
    let nobody = with(&zero_run(), (0, 3));
    b.check("no active step", nobody.0 == 0 && nobody.2 == reasons_by_hand("11"));
    let late = refused_cycle(11, &run_a(), 34);
    b.check("60,001", with(&run_a(), (61_001, 1)) == late && with(&run_a(), (999, 1)) == late);
    // "Steps 0 and 1 initial, 0→2 and 1→2 both true: only the first is taken" (in edition 2 both)
    let moves = [transition(1, 4, 0, 0, 0), transition(2, 4, 0, 0, 0)];
    let claimed = held_steps(&[1, 1, 0], &moves);
    let index = index_by_hand(&[1, 2, 0]);
    let one = cycled_with(&claimed, &index, &began(&claimed), (1001, 0), 34);
    b.check("claimed", one.1 == 1 && one.2 == reasons_by_hand("06"));
    let next = cycled_with(&claimed, &index, &one.3, (1002, 0), 34);
    b.check("claimed, then none", next.1 == 0 && next.2 == reasons_by_hand("15"));
    let second = in_edition(&claimed, 2);
    let two = cycled_with(&second, &index, &began(&second), (1001, 0), 34);
    b.check("claimed, edition 2", two.1 == 3 && two.2 == reasons_by_hand("00"));
    b.check("claimed, steps", word_of(&one.3.active) == 6 && word_of(&two.3.active) == 4);
    // The shift of chart A that is worked out in `check_shift_several`, and a refused cycle in it.
    let index = index_by_hand(&[1, 2]);
    let cycles = [(1010, 1), (1509, 2), (1510, 2), (1510, 0), (1520, 1)];
    let (code, accepted, run, words, outputs) = shifted_with(&a, &index, &run_a(), &cycles);
    b.check("five cycles", (code, accepted) == (0, 5) && words == vec![3, 3, 0, 0, 3]);
    b.check("five cycles, run", run.clock == 1520 && word_of(&run.active) == 2);
    b.check("five cycles, outputs", at(&outputs, 0) == 120 && at(&outputs, 33) == 5);
    let cycles = [(1010, 1), (1009, 0), (1510, 2)];
    let (code, accepted, run, words, outputs) = shifted_with(&a, &index, &run_a(), &cycles);
    b.check("middle refused", (code, accepted, run.clock) == (11, 1, 1010));
    b.check("middle refused, words", words == vec![3, u64::MAX - 1, u64::MAX - 2]);
    b.check("middle refused, outputs", at(&outputs, 0) == 120);
    let cycle_of = |k: u32| (1500 + 500 * k, 1 + k % 2);
    let cycles: Vec<(u32, u32)> = (0..4096).map(cycle_of).collect();
    let (code, accepted, run, words, _) = shifted_with(&a, &index, &run_a(), &cycles);
    b.check("4,096 cycles", (code, accepted, run.clock) == (0, 4096, 2_049_000));
    b.check("4,096 cycles, words", words == [3, 0].repeat(2048));
    let held = with_mark(&run_a(), 1);
    let (code, accepted, run, words, _) = shifted_with(&a, &index, &held, &[(1010, 1), (1020, 1)]);
    b.check("held shift", (code, accepted) == (0, 2) && words == vec![0, 0]);
    b.check("held shift, run", word_of(&run.active) == 1 && run.hold_mark == 1);
}

// Request (ix): "consults only transitions leaving some active step" (which ones, by hand)
fn check_index_leaving(b: &mut Bench) {
    let consulted = |words: &[u64], active: u64| {
        word_of(&leaving_some(&index_by_hand(words), &set_of(active)))
    };
    b.check("chart A, step 0", consulted(&[1, 2], 1) == 1);
    b.check("chart A, step 1", consulted(&[1, 2], 2) == 2);
    b.check("chart A, both", consulted(&[1, 2], 3) == 3);
    b.check("chart A, none", consulted(&[1, 2], 0) == 0);
    b.check("a join, one source", consulted(&[1, 1, 0], 1) == 1);
    b.check("a join, the other source", consulted(&[1, 1, 0], 2) == 1);
    b.check("a join, its target", consulted(&[1, 1, 0], 4) == 0);
    b.check("all qualifiers, steps 1 and 3", consulted(&[1, 2, 4, 12], 10) == 14);
    b.check("64 words", consulted(&[1 << 63; 64], u64::MAX) == 1 << 63);
    // What is consulted, in number order, and what the others get: a join with one active source is
    // consulted and not taken; a chain and an unreached step are not consulted.
    let go = |sources, targets| transition(sources, targets, 0, 0, 0);
    let moves = [go(4, 8), go(6, 8), go(2, 16), go(8, 1), go(2, 8), go(1, 16)];
    for held in [held_steps(&[1, 1, 0, 0, 0], &moves), second_steps(&[1, 1, 0, 0, 0], &moves)] {
        let index = index_by_hand(&[32, 22, 3, 8, 0]);
        b.indexes("six transitions", &held, &[32, 22, 3, 8, 0]);
        let run = began(&held);
        b.check("consulted", word_of(&leaving_some(&index, &run.active)) == 54);
        let answer = b.agree("six transitions", &held, &index, &run, (1001, 0));
        let second = held.tables.edition == 2;
        b.check("taken", answer.1 == if second { 36 } else { 4 });
        b.check("reasons", answer.2 == reasons_by_hand(if second { "110120" } else { "110126" }));
    }
}

// Request (ix): "takes the same ones, in both editions, and gives the same answer throughout" (on
// a chart with fork, join and several transitions from one step: every set of active steps, every
// input, every wait, with and without hold)
fn check_index_all_sets(b: &mut Bench) {
    let moves = [
        transition(1, 6, 1, 0, 0),
        transition(6, 1, 2, 0, 10),
        transition(2, 8, 0, 1, 0),
        transition(2, 4, 4, 0, 0),
        transition(12, 2, 0, 4, 10),
        transition(8, 4, 1, 2, 0),
        transition(1, 8, 0, 3, 10),
    ];
    let (mut reasons, mut fewer) = (BTreeSet::new(), 0);
    for edition in [1, 2].iter() {
        let held = in_edition(&held_steps(&[1, 0, 0, 0], &moves), *edition);
        let index = index_by_hand(&[65, 14, 18, 48]);
        b.indexes("seven transitions", &held, &[65, 14, 18, 48]);
        for word in 0..16 {
            for inputs in 0..8 {
                for (late, mark) in [(9, 0), (10, 0), (10, 1)].iter() {
                    let mut run = with_mark(&zero_run(), *mark);
                    run.active = set_of(word);
                    let answer = b.agree("every set", &held, &index, &run, (*late, inputs));
                    b.check("accepted", answer.0 == 0);
                    reasons.extend(answer.2);
                    fewer += usize::from(leaving_some(&index, &run.active).len() < 7);
                }
            }
        }
    }
    b.check("every reason with 7", reasons == (0..8).collect() && fewer > 100);
}

// Each number below a count with one chance in so many, drawn by lot.
fn some_by_lot(lot: &mut u64, count: u64, of: u64) -> Set {
    (0..count as usize).filter(|_| next_lot(lot) % of == 0).collect()
}

// One to three numbers below a count, drawn by lot, in a word.
fn few_by_lot(lot: &mut u64, count: u64) -> u64 {
    let more = next_lot(lot) % 3;
    (0..more + 1).fold(0, |word, _| word | 1 << (next_lot(lot) % count))
}

// A chart drawn by lot of so many steps, at least two, and at most so many transitions, with three
// actions, three blocks and a case for every fourth step.
fn wide_by_lot(lot: &mut u64, steps: u64, transitions: u64) -> Held {
    let mut records = vec![step(1)];
    records.extend((1..steps).map(|_| step((next_lot(lot) % 2) as u8)));
    records.extend((0..3).map(|k| action(k, 10 + i32::from(k))));
    for _ in 0..transitions {
        let sources = few_by_lot(lot, steps);
        let mut targets = few_by_lot(lot, steps) & !sources;
        if targets == 0 {
            targets = (u64::MAX >> (64 - steps)) & !sources;
        }
        let on = next_lot(lot) & next_lot(lot) & next_lot(lot) & 3 | (next_lot(lot) % 8 / 7) << 32;
        let off = next_lot(lot) & next_lot(lot) & next_lot(lot) & 7 & !on;
        if targets != 0 {
            records.push(transition(sources, targets, on, off, (next_lot(lot) % 3 * 10) as u32));
        }
    }
    let place = |lot: &mut u64| (next_lot(lot) % steps) as u8;
    records.extend([block(place(lot), 0, 0, 0), block(place(lot), 1, 6, 15)]);
    records.extend([block(place(lot), 2, 4, 10), block(place(lot), 1, 1, 0)]);
    records.extend((0..steps).step_by(4).map(|k| case(k as u8, (next_lot(lot) % 3) as u8, 1)));
    held_of(&records)
}

// "A run belongs to a chart if ..." (such a run drawn by lot, whether or not a start leads to it;
// with no, few, many or all steps active, and now and then with the hold mark)
fn run_by_lot(lot: &mut u64, held: &Held) -> Run {
    let counts = &held.counts;
    let of = at(&[1, 2, 4, 16, 1000], (next_lot(lot) % 5) as usize);
    let mut run = zero_run();
    run.clock = next_lot(lot) as u32 * 2;
    run.active = some_by_lot(lot, counts.steps, of);
    run.activity = some_by_lot(lot, counts.actions, 2);
    run.stored = some_by_lot(lot, counts.actions, 4);
    run.latched = some_by_lot(lot, counts.actions, 2);
    run.good = some_by_lot(lot, counts.cases, 3);
    run.bad = some_by_lot(lot, counts.cases, 3);
    let times = [0, 1, 5, 10, 20, 86_399_995, 86_400_000];
    for k in run.active.iter() {
        put(&mut run.step_counters, *k, at(&times, (next_lot(lot) % 7) as usize));
    }
    for k in run.latched.iter() {
        put(&mut run.action_timers, *k, at(&times, (next_lot(lot) % 7) as usize));
    }
    run.hold_mark = u8::from(next_lot(lot) % 8 == 0);
    run
}

// What charts and runs by lot have shown, so that the comparison is not one of nothing.
#[derive(Default)]
struct Shown {
    taken: u64,
    fewer: u64,
    nobody: u64,
    held: u64,
    reasons: BTreeSet<u8>,
}

// One cycle by the three ways, and what it shows: every transition not consulted has reason 1, or 7
// under hold, and none of them is taken.
fn show(b: &mut Bench, held: &Held, index: &[Set], run: &Run, go: (u32, u32), shown: &mut Shown) {
    let answer = b.agree("by lot, three ways", held, index, run, go);
    b.check("by lot, accepted", answer.0 == 0);
    let consulted = leaving_some(index, &run.active);
    let others: Set = numbers(held.counts.transitions as usize);
    let others: Set = others.difference(&consulted).copied().collect();
    let reason = if run.hold_mark == 1 { 7 } else { 1 };
    b.check("not consulted", others.iter().all(|k| at(&answer.2, *k) == reason));
    b.check("taken are consulted", set_of(answer.1).is_subset(&consulted));
    shown.taken += u64::from(answer.1.count_ones());
    shown.fewer += u64::from(!others.is_empty());
    shown.nobody += u64::from(run.active.is_empty());
    shown.held += u64::from(run.hold_mark == 1);
    shown.reasons.extend(answer.2);
}

// Request (ix): "takes the same ones, in both editions, and gives the same answer throughout"
// (charts by lot of six steps and eight transitions: cycles one after the other from a start, with
// the hold key turned between, and from runs by lot)
fn check_index_by_lot(b: &mut Bench) {
    let mut lot = 37;
    let mut shown = Shown::default();
    for edition in [1, 2].repeat(120) {
        let held = in_edition(&held_by_lot(&mut lot), edition);
        let index = build_index(&held).index;
        b.check("by lot, the index", index == index_by(&held, |t| &t.sources));
        let mut run = began(&held);
        for _ in 0..10 {
            let go = (run.clock + next_lot(&mut lot) as u32 % 15, next_lot(&mut lot) as u32 % 8);
            show(b, &held, &index, &run, go, &mut shown);
            run = cycled(&held, &run, go, 34).3;
            run.hold_mark = u8::from(next_lot(&mut lot) % 10 == 0);
        }
        for _ in 0..5 {
            let run = run_by_lot(&mut lot, &held);
            let late = next_lot(&mut lot) as u32 % 15;
            let go = (run.clock.wrapping_add(late), next_lot(&mut lot) as u32 % 8);
            show(b, &held, &index, &run, go, &mut shown);
        }
    }
    b.check("by lot, taken", shown.taken > 1000 && shown.reasons == (0..8).collect());
    b.check("by lot, fewer", shown.fewer > 1000 && shown.nobody > 100 && shown.held > 100);
}

// The same on wider charts, up to 64 steps and 64 transitions, down to none.
fn check_index_wide(b: &mut Bench) {
    let mut lot = 41;
    let mut shown = Shown::default();
    let sizes = [(64, 64), (64, 20), (2, 64), (9, 64), (20, 40), (33, 5), (64, 1), (40, 0)];
    for (steps, transitions) in sizes.repeat(4) {
        let first = wide_by_lot(&mut lot, steps, transitions);
        b.check("wide, accepted", held_code(&first) == 0);
        for edition in [1, 2].iter() {
            let held = in_edition(&first, *edition);
            let index = build_index(&held).index;
            b.check("wide, the index", index == index_by(&held, |t| &t.sources));
            let mut run = began(&held);
            for k in 0..7 {
                let late = next_lot(&mut lot) as u32 % 15;
                let go = (run.clock.wrapping_add(late), next_lot(&mut lot) as u32 % 8);
                show(b, &held, &index, &run, go, &mut shown);
                run = match k {
                    0..=2 => cycled(&held, &run, go, 34).3,
                    _ => run_by_lot(&mut lot, &held),
                };
            }
        }
    }
    b.check("wide, taken", shown.taken > 200 && shown.reasons == (0..8).collect());
    b.check("wide, fewer", shown.fewer > 100 && shown.nobody > 5 && shown.held > 5);
}

// Requests (iii) and (ix): "The result equals the calls made singly."; "gives the same answer
// throughout" (shifts by lot: without an index, with it, and made singly by cycles that consult
// fewer; whole, under hold, and with a refused cycle in them)
fn check_index_shift(b: &mut Bench) {
    let mut lot = 43;
    let clock = 4_294_967_000;
    for k in 0..40 {
        let first = if k == 0 { held_of_all() } else { held_by_lot(&mut lot) };
        for edition in [1, 2].iter() {
            let held = in_edition(&first, *edition);
            let index = build_index(&held).index;
            let run = played(&held, clock, &[]).0.run;
            let mut refused = cycles_of_all();
            let last = played(&held, clock, refused.get(..k).unwrap_or(&[])).0.run.clock;
            put(&mut refused, k, (last.wrapping_sub(1), 7));
            let whole = cycles_of_all();
            for (mark, cycles) in [(0, whole.clone()), (1, whole), (0, refused)].iter() {
                let run = with_mark(&run, *mark);
                let plain = shifted(&held, &run, cycles);
                b.check("a shift with", shifted_with(&held, &index, &run, cycles) == plain);
                b.check("a shift singly", shifted_leaving(&held, &index, &run, cycles) == plain);
                let far = (plain.0, plain.1);
                b.check("accepted so far", far == (0, 40) || far == (11, k as u64));
                let other = turned_bit(&index, k % 6, (5 * k) % 64);
                let nothing = (20, 0, run.clone(), lent_words(40), vec![5; 34]);
                b.check("a shift, 20", shifted_with(&held, &other, &run, cycles) == nothing);
            }
        }
    }
}

// That the comparison would show a difference: with a transition missing from the index, a cycle
// that consults by it alone answers something else now and then; with transitions too many it
// answers the same (request (ix): "consults only ..." is about which need not be consulted).
fn check_index_teeth(b: &mut Bench) {
    let mut lot = 47;
    let (mut less, mut more) = (0, 0);
    for edition in [1, 2].repeat(60) {
        let held = in_edition(&held_by_lot(&mut lot), edition);
        let index = build_index(&held).index;
        let mut run = run_by_lot(&mut lot, &held);
        run.hold_mark = 0;
        let go = (run.clock.wrapping_add(20), next_lot(&mut lot) as u32 % 8);
        let plain = cycled(&held, &run, go, 34);
        let by = |index: &[Set]| {
            let mut outputs = vec![5; 34];
            let answer = do_cycle_leaving(&held.tables, index, &run, go, &mut outputs);
            all_of(answer, outputs)
        };
        for k in 0..8 {
            let without = index.iter().map(|x| x.iter().copied().filter(|t| *t != k).collect());
            let without: Vec<Set> = without.collect();
            let differs = by(&without) != plain;
            let reason = at(&plain.2, k);
            b.check("one missing, seen", differs == (reason != 1));
            less += usize::from(differs);
            let beside: Vec<Set> = index.iter().map(|x| x | &numbers(k)).collect();
            b.check("some too many", by(&beside) == plain);
            let consulted = |index: &[Set]| leaving_some(index, &run.active);
            more += usize::from(consulted(&beside) != consulted(&index));
        }
    }
    b.check("both happened", less > 100 && more > 100);
}

// For the command line: eight bytes each, least byte first.
fn eight_bytes(values: &[u64]) -> Vec<u8> {
    values.iter().flat_map(|value| value.to_le_bytes().to_vec()).collect()
}

// For the command line: the image of `held_image` with bytes at these places.
fn image_with(bytes: &[(usize, u8)]) -> Vec<u8> {
    let mut image = held_image();
    for (place, byte) in bytes.iter() {
        put(&mut image, *place, *byte);
    }
    image
}

// For the command line: the lines of all the calls on this image, and whether nothing is left.
fn lines_with(image: &[u8], calls: &[Vec<u8>]) -> (String, bool) {
    let input = calls.iter().flat_map(|call| [image, call].concat()).collect::<Vec<u8>>();
    let mut fields = Fields::new(&input);
    let mut lines = Vec::new();
    while let Some(line) = held_case(&mut fields) {
        lines.extend(line);
    }
    (String::from_utf8(lines).unwrap_or_default(), fields.place == input.len())
}

// For the command line: the line of building an index, by hand.
fn check_index_lines(b: &mut Bench) {
    let zeros = |count: usize| " 0".repeat(count);
    let build = || call_bytes(8, 0, 0, 0, 0);
    let line = |image: &[u8]| lines_with(image, &[build()]);
    let whole = |line: String| (line, true);
    b.check("line of 8, no transitions", line(&held_image()) == whole(format!("0{}\n", zeros(64))));
    // Two steps; transition 0 from 0 to 1.
    let two: &[(usize, u8)] = &[(0, 2), (16, 1), (264, 1), (776, 2)];
    let with = |more: &[(usize, u8)]| image_with(&[two, more].concat());
    b.check("line of 8", line(&with(&[])) == whole(format!("0 1{}\n", zeros(63))));
    // Transition 1 from 1 to 0, and then both from 1.
    let more = [(16, 2), (272, 2), (784, 1)];
    b.check("line of 8, two", line(&with(&more)) == whole(format!("0 1 2{}\n", zeros(62))));
    let more = [(16, 2), (264, 2), (776, 1), (272, 2), (784, 1)];
    b.check("line of 8, from one", line(&with(&more)) == whole(format!("0 0 3{}\n", zeros(62))));
    let more = [(272, 2), (784, 1)];
    b.check("line of 8, one counted", line(&with(&more)) == whole(format!("0 1{}\n", zeros(63))));
    let more = [(272, 255), (279, 255), (784, 255), (4552, 2)];
    b.check("line of 8, junk", line(&with(&more)) == whole(format!("0 1{}\n", zeros(63))));
    // 64 steps and 64 transitions: 63 from 0 to 1, the last from 63 to 0; or all from 0 to 1.
    let mut full = with(&[(0, 64), (16, 64)]);
    for k in 1..64 {
        put(&mut full, 264 + 8 * k, 1);
        put(&mut full, 776 + 8 * k, 2);
    }
    let ones = format!("0 18446744073709551615{}\n", zeros(63));
    b.check("line of 8, all ones", line(&full) == whole(ones));
    for (place, byte) in [(264 + 8 * 63, 0), (264 + 8 * 63 + 7, 128), (776 + 8 * 63, 1)].iter() {
        put(&mut full, *place, *byte);
    }
    let words = format!("0 9223372036854775807{} 9223372036854775808\n", zeros(62));
    b.check("line of 8, the last", line(&full) == whole(words));
    // Refused: each number of a chart, and 64 zeros.
    let refused: [(Code, &[(usize, u8)]); 11] = [
        (4, &[(0, 65)]),
        (4, &[(7, 1)]),
        (4, &[(16, 65)]),
        (5, &[(264, 5)]),
        (5, &[(4552, 0)]),
        (5, &[(4552, 3)]),
        (6, &[(264, 0)]),
        (6, &[(264, 3)]),
        (7, &[(1288, 1), (1800, 1)]),
        (9, &[(40, 0)]),
        (8, &[(24, 2), (3081, 3)]),
    ];
    for (code, bytes) in refused.iter() {
        let zero = format!("{}{}\n", code, zeros(64));
        b.check("line of 8, refused", line(&with(bytes)) == whole(zero));
    }
    // Clock, inputs, lent outputs and the run play no part, the weights are passed over.
    let strange = with(&[(4564, 255), (4996, 9)]);
    let one = format!("0 1{}\n", zeros(63));
    b.check("line of 8, any run", line(&strange) == whole(one.clone()));
    let other = [call_bytes(8, u32::MAX, u32::MAX, 255, 3), vec![9; 6]].concat();
    let calls = [build(), other.clone(), call_bytes(2, 0, 0, 0, 0), other];
    let lines = [&one, &one, "0 0 0 0\n", &one].concat();
    b.check("line of 8, one after the other", lines_with(&with(&[]), &calls) == whole(lines));
    for kind in [12, 13, 64, 255].iter() {
        let unknown = lines_with(&with(&[]), &[call_bytes(*kind, 0, 0, 0, 0), build()]);
        b.check("no such call", unknown == whole(format!("unknown call\n{}", one)));
    }
}

// For the command line: the lines of a cycle and of a shift with an index, by hand.
fn check_index_call_lines(b: &mut Bench) {
    let zeros = |count: usize| " 0".repeat(count);
    let whole = |line: &str| (line.to_string(), true);
    // Two steps; transition 0 from 0 to 1 with a wait of 200; the action is active from 100 on.
    let two: &[(usize, u8)] = &[(0, 2), (16, 1), (264, 1), (776, 2), (2312, 200)];
    let with = |more: &[(usize, u8)]| image_with(&[two, more].concat());
    let image = with(&[]);
    let words = |first: u64, last: u64| {
        [eight_bytes(&[first]), vec![0; 62 * 8], eight_bytes(&[last])].concat()
    };
    let right = words(1, 0);
    let run = |text: &str, counters: &str| format!("{} 0 0 0 0 0 {}{}", text, counters, zeros(94));
    let out = |first: i32| format!(" {}{}", first, zeros(31));
    let lent: String = (0..32).map(|k| format!(" {}", 1000 + k)).collect();
    let cycle = |clock, lent, index: &[u8]| [&call_bytes(9, clock, 0, lent, 0), index].concat();
    let waits = format!("{}{} 4{}\n", run("0 0 1199 1 1", "199 0"), out(7), zeros(63));
    let taken = format!("{}{}{}\n", run("0 1 1200 2 0", "0 0"), out(0), zeros(64));
    b.check("line of 9, 4", lines_with(&image, &[cycle(1199, 32, &right)]) == whole(&waits));
    b.check("line of 9, taken", lines_with(&image, &[cycle(1200, 32, &right)]) == whole(&taken));
    let plain = [call_bytes(1, 1199, 0, 32, 0), call_bytes(1, 1200, 0, 32, 0)];
    let both = [waits.as_str(), &taken].concat();
    b.check("the same without", lines_with(&image, &plain) == whole(&both));
    let refused = |code: Code| {
        format!("{} 0 {}{}{}\n", code, run("1000 1 0", "0 0"), lent, zeros(64))
    };
    let code = |image: &[u8], clock, index: &[u8], code| {
        lines_with(image, &[cycle(clock, 32, index)]) == whole(&refused(code))
    };
    let others = [(0, 0), (2, 0), (3, 0), (1 << 56, 0), (1, 1), (1, 1 << 63), (0, 1)];
    for (first, last) in others.iter() {
        b.check("line of 9, 20", code(&image, 1199, &words(*first, *last), 20));
        b.check("line of 9, 20 before 11", code(&image, 999, &words(*first, *last), 20));
    }
    b.check("line of 9, all ones", code(&image, 1199, &[255; 512], 20));
    b.check("line of 9, 11", code(&image, 999, &right, 11));
    let few = format!("{} 1000{}\n", run("15 0 1000 1 0", "0 0"), zeros(64));
    b.check("line of 9, 15", lines_with(&image, &[cycle(999, 1, &[255; 512])]) == whole(&few));
    b.check("line of 9, 4 before 20", code(&with(&[(16, 65)]), 999, &[0; 512], 4));
    // A counter of step 1, which isn't active, is 12.
    let strange = with(&[(4600, 3)]);
    let twelve = |code: Code| {
        format!("{} 0 {}{}{}\n", code, run("1000 1 0", "0 3"), lent, zeros(64))
    };
    let answer = |index: &[u8]| lines_with(&strange, &[cycle(999, 32, index)]);
    b.check("line of 9, 20 before 12", answer(&[0; 512]) == whole(&twelve(20)));
    b.check("line of 9, 12", answer(&right) == whole(&twelve(12)));
    // Under hold, and the hold mark kept in a refusal.
    let mark = with(&[(4996, 1)]);
    let marked = |text: &str| format!("{} 0 0 0 0 1{}", text, zeros(96));
    let line = format!("{}{} 7{}\n", marked("0 0 1200 1 0"), out(0), zeros(63));
    b.check("line of 9, held", lines_with(&mark, &[cycle(1200, 32, &right)]) == whole(&line));
    let line = format!("{}{}{}\n", marked("20 0 1000 1 0"), lent, zeros(64));
    let wrong = cycle(1200, 32, &[0; 512]);
    b.check("line of 9, held, 20", lines_with(&mark, &[wrong]) == whole(&line));
    // A shift: the index, the clocks and the inputs.
    let shift = |index: &[u8], counts: [u32; 3], lists: &[u32]| {
        let [clocks, inputs, words] = counts;
        let fixed = call_bytes(10, clocks + 65_536 * inputs, words, 32, 0);
        [&fixed, index, &four_bytes(lists)].concat()
    };
    let two_lists = [1199, 1200, 5, 0];
    let done = format!("{}{} 1 0\n", run("0 2 1200 2 0", "0 0"), out(0));
    let call = shift(&right, [2; 3], &two_lists);
    b.check("line of 10", lines_with(&image, &[call.clone()]) == whole(&done));
    let without = [call_bytes(5, 131_074, 2, 32, 0), four_bytes(&two_lists)].concat();
    b.check("line of 10, as of 5", lines_with(&image, &[without.clone()]) == whole(&done));
    let nothing = |code: Code, words: &str| {
        format!("{}{}{}\n", run(&format!("{} 0 1000 1 0", code), "0 0"), lent, words)
    };
    let two_words = " 4294967296 4294967297";
    let wrong = shift(&words(1, 1), [2; 3], &two_lists);
    b.check("line of 10, 20", lines_with(&image, &[wrong]) == whole(&nothing(20, two_words)));
    let call_18 = |index: &[u8]| lines_with(&image, &[shift(index, [1, 2, 2], &[999, 0, 0])]);
    b.check("line of 10, 20 before 18", call_18(&[1; 512]) == whole(&nothing(20, two_words)));
    b.check("line of 10, 18", call_18(&right) == whole(&nothing(18, two_words)));
    let none = |index: &[u8]| lines_with(&image, &[shift(index, [0; 3], &[])]);
    b.check("line of 10, no cycles", none(&right) == whole(&nothing(0, "")));
    b.check("line of 10, no cycles, 20", none(&[0; 512]) == whole(&nothing(20, "")));
    let late = shift(&right, [2; 3], &[1199, 1198, 0, 0]);
    let eleven = format!("{}{} 1 4294967297\n", run("11 1 1199 1 1", "199 0"), out(7));
    b.check("line of 10, 11", lines_with(&image, &[late]) == whole(&eleven));
    // Behind the weights, and one case after the other.
    let behind = |kind, clock, words| [call_bytes(kind, clock, words, 32, 2), vec![7; 4]].concat();
    let nine = [behind(9, 1199, 0), right.clone()].concat();
    let ten = [behind(10, 131_074, 2), right.clone(), four_bytes(&two_lists)].concat();
    let calls = [nine, ten, without, cycle(1200, 32, &right), call.clone()];
    let lines = [waits.as_str(), &done, &done, &taken, &done].concat();
    b.check("behind the weights", lines_with(&image, &calls) == whole(&lines));
    // A cut index, and a cut list behind a whole one.
    let cut = |call: &[u8]| call.get(..call.len() - 1).unwrap_or(&[]).to_vec();
    let once = |line: &str| (line.to_string(), false);
    let nine = cycle(1199, 32, &right);
    b.check("a cut index", lines_with(&image, &[nine.clone(), cut(&nine)]) == once(&waits));
    b.check("a cut list", lines_with(&image, &[call.clone(), cut(&call)]) == once(&done));
    let no_lists = shift(&right, [2; 3], &[]);
    b.check("no lists", lines_with(&image, &[call, no_lists]).0 == done);
}

// ---------------------------------------------------------------------------------------------
// The selftest: adding weighings
// ---------------------------------------------------------------------------------------------

// What adding weighings leaves: number, step and third list.
type Added = (Code, u64, Vec<u16>);

// The third list as it is before a call of the selftest, no two words of it the same.
fn lent_weights(count: usize) -> Vec<u16> {
    (0..count).map(|k| 60_000u16.wrapping_sub(k as u16)).collect()
}

// Two weighings added, with so many words lent for the sum.
fn added_into(held: &Held, first: &[u16], second: &[u16], lent: usize) -> Added {
    let mut third = lent_weights(lent);
    let answer = add_weighings(held, first, second, &mut third);
    (answer.code, answer.step, third)
}

// Two weighings added, with a word lent for every step.
fn added(held: &Held, first: &[u16], second: &[u16]) -> Added {
    added_into(held, first, second, held.counts.steps as usize)
}

// Request (x): "... nothing written" (what a refused adding leaves, with so many words lent)
fn refused_adding(code: Code, step: u64, lent: usize) -> Added {
    (code, step, lent_weights(lent))
}

// The number of an adding with lists of these lengths, with this weight throughout the first and 1
// throughout the second, if it names step 0 and a refused one leaves the third list as it was and
// an accepted one the sums, else 99.
fn adding_code(held: &Held, lengths: [usize; 3], weight: u16) -> Code {
    let [first, second, lent] = lengths;
    let answer = added_into(held, &vec![weight; first], &vec![1; second], lent);
    let wanted = match answer.0 {
        0 => (0, 0, vec![weight.wrapping_add(1); lent]),
        code => refused_adding(code, 0, lent),
    };
    if answer == wanted { answer.0 } else { 99 }
}

// Request (x), by another way, and for any number of weighings: every step's sum in 64 bits, and
// the least of the steps whose sum is 65,536 or more.
fn added_otherwise(weighings: &[&[u16]], steps: usize) -> Added {
    let of_step = |step: usize| weighings.iter().map(move |weights| u64::from(at(weights, step)));
    let sums: Vec<u64> = (0..steps).map(|step| of_step(step).sum()).collect();
    let beyond: Set = (0..steps).filter(|step| at(&sums, *step) >= 65_536).collect();
    match beyond.iter().next() {
        Some(step) => refused_adding(21, *step as u64, steps),
        None => (0, 0, sums.iter().map(|sum| *sum as u16).collect()),
    }
}

// Three weighings added, the first two of them first, and then the last two of them first; where
// one of the two calls is refused, what that call leaves.
fn grouped(held: &Held, first: &[u16], second: &[u16], third: &[u16]) -> (Added, Added) {
    let front = match added(held, first, second) {
        (0, _, sum) => added(held, &sum, third),
        refused => refused,
    };
    let back = match added(held, second, third) {
        (0, _, sum) => added(held, first, &sum),
        refused => refused,
    };
    (front, back)
}

// Request (x): "Supply the sum, step by step, in a third lent list. If both are balanced and no
// step's sum exceeds 65,535, the sum is balanced and its initial total is the sum of both totals"
// (by hand)
fn check_adding_by_hand(b: &mut Bench) {
    let sum = |weights: &[u16]| (0, 0, weights.to_vec());
    let total = |total| Weighing { code: 0, transition: 0, total };
    let fork = held_steps(&[1, 0, 0], &[transition(1, 6, 0, 0, 0)]);
    b.check("fork, 7,3,4", weighing(&fork, &[7, 3, 4]) == total(7));
    b.adds("fork, 2,1,1 and 7,3,4", &fork, &[2, 1, 1], &[7, 3, 4], &sum(&[9, 4, 5]));
    b.check("fork, 2 and 7 are 9", weighing(&fork, &[9, 4, 5]) == total(9));
    let large = [40_000, 30_000, 10_000];
    b.check("fork, large", weighing(&fork, &large) == total(40_000));
    b.check("fork, large too", weighing(&fork, &[25_535, 535, 25_000]) == total(25_535));
    let both = [65_535, 30_535, 35_000];
    b.adds("fork, just fits", &fork, &large, &[25_535, 535, 25_000], &sum(&both));
    b.check("fork, the most", weighing(&fork, &both) == total(65_535));
    let refused = refused_adding(21, 0, 3);
    b.adds("fork, one more", &fork, &large, &[25_536, 536, 25_000], &refused);
    // The two need not be balanced; what one lacks the other may bring.
    b.adds("one unbalanced", &fork, &[2, 1, 2], &[2, 1, 1], &sum(&[4, 2, 3]));
    b.check("the sum is not", weighing(&fork, &[4, 2, 3]) == refused_weighing(14, 0));
    b.adds("both unbalanced", &fork, &[2, 1, 2], &[2, 1, 0], &sum(&[4, 2, 2]));
    b.check("the sum is balanced", weighing(&fork, &[4, 2, 2]) == total(4));
    b.adds("chart A", &held_a(), &[500, 500], &[11, 11], &sum(&[511, 511]));
    b.check("chart A, 500 and 11", weighing(&held_a(), &[511, 511]) == total(511));
    b.adds("the least byte goes over", &held_a(), &[255, 511], &[1, 513], &sum(&[256, 1024]));
    // Many initial steps: no sum exceeds 65,535, the totals do.
    let all = held_steps(&[1; 64], &[]);
    b.adds("64 halves", &all, &[32_768; 64], &[32_767; 64], &sum(&[65_535; 64]));
    let halves = [weighing(&all, &[32_768; 64]), weighing(&all, &[32_767; 64])];
    b.check("their totals", halves == [total(2_097_152), total(2_097_088)]);
    b.check("64 halves, the total", weighing(&all, &[65_535; 64]) == total(4_194_240));
    let up: Vec<u16> = (0..64).collect();
    let down: Vec<u16> = (0..64).map(|k| 1000 * (64 - k)).collect();
    let added: Vec<u16> = (0..64).map(|k| 64_000 - 999 * k).collect();
    b.adds("64 different ones", &all, &up, &down, &sum(&added));
    // A step that is not initial and in no transition is a step.
    let alone = held_steps(&[1, 0, 0], &[]);
    b.adds("a step by itself", &alone, &[0, 0, 8], &[0, 0, 9], &sum(&[0, 0, 17]));
    b.adds("a step by itself, 21", &alone, &[0, 0, 65_535], &[5, 5, 1], &refused_adding(21, 2, 3));
}

// Request (x): "no step's sum exceeds 65,535"; "21 with the first step whose sum doesn't fit,
// nothing written" (the sums 65,535 and 65,536, and others, of one step)
fn check_adding_edges(b: &mut Bench) {
    let one = held_steps(&[1], &[]);
    let refused = refused_adding(21, 0, 1);
    for weight in (0..=65_535).step_by(257) {
        let room = 65_535 - weight;
        b.adds("65,535", &one, &[weight], &[room], &(0, 0, vec![65_535]));
        if let Some(more) = room.checked_add(1) {
            b.adds("65,536", &one, &[weight], &[more], &refused);
        }
    }
    b.adds("most and most", &one, &[65_535], &[65_535], &refused);
    b.adds("half and half", &one, &[32_768], &[32_768], &refused);
    b.adds("most and 1", &one, &[65_535], &[1], &refused);
    b.adds("most and 0", &one, &[65_535], &[0], &(0, 0, vec![65_535]));
    b.adds("0 and 0", &one, &[0], &[0], &(0, 0, vec![0]));
    let edges = [0, 1, 255, 256, 257, 32_767, 32_768, 32_769, 65_279, 65_280, 65_534, 65_535];
    for first in edges.iter() {
        for second in edges.iter() {
            let wanted = added_otherwise(&[&[*first], &[*second]], 1);
            b.check("edges", added(&one, &[*first], &[*second]) == wanted);
        }
    }
}

// Request (x): "21 with the first step whose sum doesn't fit, nothing written" (of 64 steps, all
// sums 65,535 but for one step, two or more)
fn check_adding_first(b: &mut Bench) {
    let all = held_steps(&[1; 64], &[]);
    let first: Vec<u16> = (0..64).map(|k| 1000 * k + 1).collect();
    let fits: Vec<u16> = first.iter().map(|weight| 65_535 - weight).collect();
    b.adds("all just fit", &all, &first, &fits, &(0, 0, vec![65_535; 64]));
    for k in 0..64 {
        let refused = refused_adding(21, k as u64, 64);
        let mut second = fits.clone();
        put(&mut second, k, at(&fits, k) + 1);
        b.adds("one is 65,536", &all, &first, &second, &refused);
        for later in k + 1..64 {
            let mut two = second.clone();
            put(&mut two, later, 65_535);
            b.adds("the first, not the largest", &all, &first, &two, &refused);
        }
        for later in k + 1..64 {
            put(&mut second, later, at(&fits, later) + 1);
        }
        b.adds("all from one on", &all, &first, &second, &refused);
    }
    // What doesn't fit may be in either list, and by the lists' own weights the later is larger.
    let three = held_steps(&[1, 0, 0], &[]);
    let lists = ([9, 65_535, 65_535], [9, 1, 65_535]);
    b.adds("step 1 of 1 and 2", &three, &lists.0, &lists.1, &refused_adding(21, 1, 3));
    let lists = ([65_535, 1, 65_535], [1, 65_535, 0]);
    b.adds("step 0 of 0 and 1", &three, &lists.0, &lists.1, &refused_adding(21, 0, 3));
}

// Request (x): "13 if any of the three lengths is wrong; 21 ..., nothing written" (each by itself,
// two, and all three, the same wrong one too; with sums that fit and sums that don't)
fn check_adding_13(b: &mut Bench) {
    let few: Vec<usize> = (0..7).collect();
    // 320 and 65,600 are 64 in their lowest bytes.
    let many = vec![0, 1, 63, 64, 65, 320, 65_600];
    for (steps, lengths) in [(1, &few), (2, &few), (3, &few), (5, &few), (64, &many)].iter() {
        let held = held_steps(&vec![1; *steps], &[]);
        for first in lengths.iter() {
            for second in lengths.iter() {
                for lent in lengths.iter() {
                    let lists = [*first, *second, *lent];
                    let right = lists == [*steps; 3];
                    let wanted = if right { (0, 21) } else { (13, 13) };
                    let codes = (adding_code(&held, lists, 7), adding_code(&held, lists, 65_535));
                    b.check("lengths", codes == wanted);
                }
            }
        }
    }
    // Each by itself on chart A, by hand; a sum that doesn't fit beside it.
    let a = held_a();
    for weight in [3, 65_535].iter() {
        let code = |lengths| adding_code(&a, lengths, *weight);
        b.check("the first too short", code([1, 2, 2]) == 13);
        b.check("the first too long", code([3, 2, 2]) == 13);
        b.check("the second too short", code([2, 1, 2]) == 13);
        b.check("the second too long", code([2, 3, 2]) == 13);
        b.check("the third too short", code([2, 2, 1]) == 13);
        b.check("the third too long", code([2, 2, 3]) == 13);
        b.check("no third", code([2, 2, 0]) == 13);
        b.check("none at all", code([0; 3]) == 13);
    }
    b.check("right, and fits", adding_code(&a, [2; 3], 65_534) == 0);
    b.check("right, and doesn't fit", adding_code(&a, [2; 3], 65_535) == 21);
}

// Request (x): "Refusals: chart; 13 if any of the three lengths is wrong; 21 ..."; document 01: "4,
// then records by kind with 5, 6, 7, then 9, 8"; request (viii): "5 for another edition byte,
// tested in a held chart after the cases"
fn check_adding_chart(b: &mut Bench) {
    let lengths = [[2; 3], [0; 3], [1; 3], [65; 3], [1, 2, 2], [2, 3, 2], [2, 2, 1], [0, 1, 64]];
    let mut codes = BTreeSet::new();
    for (code, held) in refused_charts().iter() {
        for lists in lengths.iter() {
            b.check("adding, the chart", adding_code(held, *lists, 1) == *code);
            b.check("adding, the chart first", adding_code(held, *lists, 65_535) == *code);
        }
        codes.insert(*code);
    }
    b.check("adding, every number of a chart", codes == (4..10).collect());
    // One fault more each time, before those already there.
    let mut held = held_of_all();
    b.check("adding, no fault", adding_code(&held, [4; 3], 65_534) == 0);
    b.check("adding, 21", adding_code(&held, [4; 3], 65_535) == 21);
    let code = |held: &Held| adding_code(held, [4, 4, 5], 65_535);
    b.check("adding, 13 before 21", code(&held) == 13);
    held.tables.blocks = vec![Block { step: 0, action: 0, qualifier: 3, duration: 9 }; 14];
    b.check("adding, 8 before 13", code(&held) == 8);
    held.tables.steps = vec![Step { initial: 0 }; 4];
    b.check("adding, 9 before 8", code(&held) == 9);
    held.tables.edition = 3;
    b.check("adding, the edition before 9", code(&held) == 5);
    held = altered(&held, 3, &|t| t.off.extend(&t.on));
    b.check("adding, 7 before it", code(&held) == 7);
    held = altered(&held, 2, &|t| t.targets = Set::new());
    b.check("adding, 6 of an earlier one", code(&held) == 6);
    held.tables.steps = vec![Step { initial: 2 }; 4];
    b.check("adding, 5 of a step", code(&held) == 5);
    held.counts.cases = 65;
    b.check("adding, 4 first", code(&held) == 4);
}

// "Entries beyond a count play no part."; "13 | the number of weights is not the number of steps"
// (steps counted, not those in the tables)
fn check_adding_junk(b: &mut Bench) {
    let junk = held_a_with_junk();
    b.check("junk, two", adding_code(&junk, [2; 3], 5) == 0);
    b.check("junk, three", adding_code(&junk, [3; 3], 5) == 13);
    let fewer = |count: u64| {
        let steps = held_steps(&[1, 0, 1], &[]);
        altered_all(&steps, &|held| held.counts.steps = count)
    };
    for count in 1..4 {
        for length in 0..5 {
            let wanted = if length == count { 0 } else { 13 };
            b.check("fewer", adding_code(&fewer(count as u64), [length; 3], 5) == wanted);
        }
    }
    let full = with_full_tables(&held_of_all(), &set_of(u64::MAX));
    b.check("full tables, 4", adding_code(&full, [4; 3], 5) == 0);
    b.check("full tables, 64", adding_code(&full, [64; 3], 5) == 13);
    b.check("full tables, 21", adding_code(&full, [4; 3], 65_535) == 21);
}

// A second weighing for a first one, drawn by lot: each sum is the first weight, 65,535 or any
// between, and with one chance in so many 65,536 or more (or the first weight, if that is 0).
fn second_by_lot(lot: &mut u64, first: &[u16], of: u64) -> Vec<u16> {
    let mut second = Vec::new();
    for weight in first {
        let room = 65_535 - u64::from(*weight);
        let beyond = next_lot(lot) % of == 0;
        let more = match next_lot(lot) % 3 {
            0 => 0,
            1 => room,
            _ => next_lot(lot) % (room + 1),
        };
        let more = if beyond { (room + 1 + more) % 65_536 } else { more };
        second.push(more as u16);
    }
    second
}

// Request (x): "Supply the sum, step by step, in a third lent list."; "order and grouping don't
// matter where all the sums involved fit, and the all-zero weighing changes nothing" (charts and
// weights by lot, balanced or not, of up to 64 steps, in both editions)
fn check_adding_by_lot(b: &mut Bench) {
    let mut lot = 53;
    let (mut fitted, mut refused) = (0, 0);
    let mut named = BTreeSet::new();
    for edition in [1, 2].repeat(100) {
        let steps = 2 + next_lot(&mut lot) % 63;
        let held = in_edition(&wide_by_lot(&mut lot, steps, 6), edition);
        let count = steps as usize;
        let zero = vec![0; count];
        for _ in 0..4 {
            let first: Vec<u16> = (0..count).map(|_| next_lot(&mut lot) as u16).collect();
            let second = second_by_lot(&mut lot, &first, 2 * steps);
            let wanted = added_otherwise(&[&first, &second], count);
            b.adds("sum by lot", &held, &first, &second, &wanted);
            if wanted.0 == 0 {
                fitted += 1;
            } else {
                named.insert(wanted.1);
                refused += 1;
            }
            b.adds("the all-zero weighing", &held, &first, &zero, &(0, 0, first.clone()));
        }
        b.adds("all zero twice", &held, &zero, &zero, &(0, 0, zero.clone()));
        let nothing = Weighing { code: 0, transition: 0, total: 0 };
        b.check("all zero, weighed", weighing(&held, &zero) == nothing);
    }
    b.check("some fitted, some didn't", fitted > 200 && refused > 200 && named.len() > 20);
}

// A chart drawn by lot of eight steps, with two weighings of 0 to 2 a step for which it is balanced
// and at most eight transitions.
fn balanced_by_lot(lot: &mut u64) -> (Held, Vec<u16>, Vec<u16>) {
    let one: Vec<u16> = (0..8).map(|_| (next_lot(lot) % 3) as u16).collect();
    let other: Vec<u16> = (0..8).map(|_| (next_lot(lot) % 3) as u16).collect();
    let sum = |word: u64, weights: &[u16]| -> u16 {
        (0..8).map(|k| (word >> k & 1) as u16 * at(weights, k)).sum()
    };
    let mut moves = Vec::new();
    for _ in 0..60 {
        let sources = few_by_lot(lot, 8);
        let targets = few_by_lot(lot, 8) & !sources;
        let balanced = |weights: &[u16]| sum(sources, weights) == sum(targets, weights);
        if targets != 0 && moves.len() < 8 && balanced(&one) && balanced(&other) {
            moves.push(transition(sources, targets, 0, 0, 0));
        }
    }
    let initial: Vec<u8> = (0..7).map(|_| (next_lot(lot) % 2) as u8).collect();
    (held_steps(&[vec![1], initial].concat(), &moves), one, other)
}

// A weighing made of two by lot: so many times the one and so many times the other, at most 65,532.
fn mixed_by_lot(lot: &mut u64, one: &[u16], other: &[u16]) -> Vec<u16> {
    let most = at(&[100, 11_000, 16_384, 16_384], (next_lot(lot) % 4) as usize);
    let (times, others) = ((next_lot(lot) % most) as u16, (next_lot(lot) % most) as u16);
    one.iter().zip(other).map(|(one, other)| times * one + others * other).collect()
}

// Request (x): "If both are balanced and no step's sum exceeds 65,535, the sum is balanced and its
// initial total is the sum of both totals; order and grouping don't matter where all the sums
// involved fit" (charts by lot and three balanced weighings each)
fn check_adding_laws(b: &mut Bench) {
    let mut lot = 59;
    let (mut moves, mut two, mut three, mut refused) = (0, 0, 0, 0);
    let total = |total| Weighing { code: 0, transition: 0, total };
    for edition in [1, 2].repeat(200) {
        let (held, one, other) = balanced_by_lot(&mut lot);
        let held = in_edition(&held, edition);
        moves += held.counts.transitions;
        let first = mixed_by_lot(&mut lot, &one, &other);
        let second = mixed_by_lot(&mut lot, &one, &other);
        let third = mixed_by_lot(&mut lot, &one, &other);
        let weighed = [&first, &second, &third].map(|weights| weighing(&held, weights));
        b.check("each is balanced", weighed.iter().all(|weighed| weighed.code == 0));
        let [of_first, of_second, of_third] = weighed.map(|weighed| weighed.total);
        let wanted = added_otherwise(&[&first, &second], 8);
        b.adds("sum of balanced ones", &held, &first, &second, &wanted);
        let (code, _, sum) = added(&held, &first, &second);
        if code == 0 {
            b.check("balanced, both totals", weighing(&held, &sum) == total(of_first + of_second));
            two += 1;
        }
        let all = added_otherwise(&[&first, &second, &third], 8);
        let (front, back) = grouped(&held, &first, &second, &third);
        if all.0 == 0 {
            b.check("grouping", front == all && back == all);
            let sum = total(of_first + of_second + of_third);
            b.check("balanced, three totals", weighing(&held, &front.2) == sum);
            three += 1;
        } else {
            b.check("either way refused", (front.0, back.0) == (21, 21));
            refused += 1;
        }
    }
    b.check("with transitions", moves > 800);
    b.check("some fitted, some didn't", two > 100 && three > 100 && refused > 100);
}

// Request (x): "order and grouping don't matter where all the sums involved fit" (and where one
// doesn't: weights are not negative, so if a first sum of two doesn't fit, nor does that of all
// three, and the other way is refused 21 as well, though it may name an earlier step)
fn check_adding_grouping(b: &mut Bench) {
    let one = held_steps(&[1], &[]);
    let third_part = [21_845];
    let most = (0, 0, vec![65_535]);
    let three = grouped(&one, &third_part, &third_part, &third_part);
    b.check("three parts", three == (most.clone(), most));
    let refused = refused_adding(21, 0, 1);
    let three = grouped(&one, &third_part, &third_part, &[21_846]);
    b.check("three parts and one", three == (refused.clone(), refused.clone()));
    b.check("their first sums fit", added(&one, &third_part, &[21_846]) == (0, 0, vec![43_691]));
    b.check("the front doesn't fit", added(&one, &[65_535], &[1]) == refused);
    b.check("the back fits", added(&one, &[1], &[0]) == (0, 0, vec![1]));
    let three = grouped(&one, &[65_535], &[1], &[0]);
    b.check("refused with either", three == (refused.clone(), refused));
    // The front doesn't fit at step 1; the back fits, and with it the sum doesn't at step 0.
    let two = held_steps(&[1, 0], &[]);
    let three = grouped(&two, &[1, 65_535], &[1, 1], &[65_534, 0]);
    b.check("another step", three == (refused_adding(21, 1, 2), refused_adding(21, 0, 2)));
    let three = grouped(&two, &[65_534, 0], &[1, 1], &[1, 65_535]);
    b.check("another step behind", three == (refused_adding(21, 0, 2), refused_adding(21, 1, 2)));
    // By lot: a way is refused where its first sum is, or else where the sum of all three is.
    let mut lot = 61;
    let (mut fitted, mut neither, mut front_only, mut back_only, mut another) = (0, 0, 0, 0, 0);
    for _ in 0..1500 {
        let count = 1 + (next_lot(&mut lot) % 6) as usize;
        let held = held_steps(&vec![1; count], &[]);
        let third_by_lot = |lot: &mut u64| -> Vec<u16> {
            let most = at(&[1000, 30_000, 60_000], (next_lot(lot) % 3) as usize);
            (0..count).map(|_| (next_lot(lot) % most) as u16).collect()
        };
        let first = third_by_lot(&mut lot);
        let second = third_by_lot(&mut lot);
        let third = third_by_lot(&mut lot);
        let all = added_otherwise(&[&first, &second, &third], count);
        let front = added_otherwise(&[&first, &second], count);
        let back = added_otherwise(&[&second, &third], count);
        match (front.0, back.0) {
            (0, 0) if all.0 == 0 => fitted += 1,
            (0, 0) => neither += 1,
            (21, 0) => front_only += 1,
            (0, 21) => back_only += 1,
            _ => {}
        }
        let last = |first_sum: Added| if first_sum.0 == 0 { all.clone() } else { first_sum };
        let wanted = (last(front), last(back));
        another += usize::from(wanted.0.1 != wanted.1.1);
        b.check("grouped by lot", grouped(&held, &first, &second, &third) == wanted);
    }
    b.check("all fitted, or only all three didn't", fitted > 100 && neither > 100);
    b.check("one first sum didn't", front_only > 100 && back_only > 100 && another > 50);
}

// For the command line: two bytes each, least byte first.
fn two_bytes(values: &[u16]) -> Vec<u8> {
    values.iter().flat_map(|value| value.to_le_bytes().to_vec()).collect()
}

// For the command line: a call of adding weighings, with so many words lent.
fn adding_bytes(first: &[u16], second: &[u16], lent: u32) -> Vec<u8> {
    let fixed = call_bytes(11, second.len() as u32, lent, 0, first.len() as u8);
    [fixed, two_bytes(first), two_bytes(second)].concat()
}

// For the command line: the lines of adding weighings, by hand.
fn check_adding_lines(b: &mut Bench) {
    let whole = |line: &str| (line.to_string(), true);
    // Two steps; transition 0 from 0 to 1.
    let two: &[(usize, u8)] = &[(0, 2), (16, 1), (264, 1), (776, 2)];
    let with = |more: &[(usize, u8)]| image_with(&[two, more].concat());
    let image = with(&[]);
    let line = |first: &[u16], second: &[u16], lent: u32| {
        lines_with(&image, &[adding_bytes(first, second, lent)])
    };
    b.check("line of 11", line(&[3, 500], &[4, 600], 2) == whole("0 0 7 1100\n"));
    b.check("line of 11, bytes", line(&[258, 1], &[768, 0], 2) == whole("0 0 1026 1\n"));
    b.check("line of 11, most", line(&[65_535, 1], &[0, 65_534], 2) == whole("0 0 65535 65535\n"));
    b.check("line of 11, 21", line(&[65_535, 1], &[1, 1], 2) == whole("21 0 50000 50001\n"));
    b.check("line of 11, step 1", line(&[1, 65_535], &[1, 1], 2) == whole("21 1 50000 50001\n"));
    b.check("line of 11, both", line(&[9, 9], &[65_535; 2], 2) == whole("21 0 50000 50001\n"));
    b.check("line of 11, first", line(&[9], &[65_535; 2], 2) == whole("13 0 50000 50001\n"));
    b.check("line of 11, second", line(&[9; 2], &[65_535; 3], 2) == whole("13 0 50000 50001\n"));
    b.check("line of 11, third", line(&[9; 2], &[65_535; 2], 1) == whole("13 0 50000\n"));
    let longer = "13 0 50000 50001 50002\n";
    b.check("line of 11, third longer", line(&[9; 2], &[9; 2], 3) == whole(longer));
    b.check("line of 11, no words", line(&[9; 2], &[9; 2], 0) == whole("13 0\n"));
    b.check("line of 11, nothing", line(&[], &[], 0) == whole("13 0\n"));
    // Long lists, and words beyond number 255.
    let long = line(&[9; 2], &[9; 2], 258).0;
    b.check("line of 11, word 256", long.ends_with(" 50254 50255 50000 50001\n"));
    let words: String = (0..65_535).map(|k| format!(" {}", 50_000 + k % 256)).collect();
    let long = line(&[9; 255], &[9; 65_535], 65_535);
    b.check("line of 11, the longest", long == whole(&format!("13 0{}\n", words)));
    // 64 steps.
    let up: Vec<u16> = (0..64).collect();
    let sums: String = (0..64).map(|k| format!(" {}", 1000 + k)).collect();
    let wide = lines_with(&with(&[(0, 64)]), &[adding_bytes(&up, &[1000; 64], 64)]);
    b.check("line of 11, 64 steps", wide == whole(&format!("0 0{}\n", sums)));
    // The chart first; the run, its hold mark, the edition 2 and the lent outputs play no part.
    let refused: [(Code, &[(usize, u8)]); 6] = [
        (4, &[(0, 65)]),
        (5, &[(4552, 3)]),
        (6, &[(264, 0)]),
        (7, &[(1288, 1), (1800, 1)]),
        (9, &[(40, 0)]),
        (8, &[(24, 2), (3081, 3)]),
    ];
    for (code, bytes) in refused.iter() {
        let right = adding_bytes(&[1, 2], &[3, 65_535], 2);
        let lines = lines_with(&with(bytes), &[right, adding_bytes(&[1], &[65_535], 0)]);
        b.check("line of 11, chart", lines == whole(&format!("{0} 0 50000 50001\n{0} 0\n", code)));
    }
    let strange = with(&[(4552, 2), (4564, 255), (4996, 9)]);
    let call = adding_bytes(&[1, 2], &[3, 4], 2);
    b.check("line of 11, any run", lines_with(&strange, &[call.clone()]) == whole("0 0 4 6\n"));
    // Only the two lowest bytes of clock and inputs count, the lent outputs don't.
    let lists = [two_bytes(&[1, 2]), two_bytes(&[3, 4])].concat();
    let high = [call_bytes(11, 0xabcd_0002, 0xffff_0002, 33, 2), lists.clone()].concat();
    b.check("line of 11, two bytes", lines_with(&image, &[high.clone()]) == whole("0 0 4 6\n"));
    // One case after the other, beside weighings, and cut lists.
    let weighed = [call_bytes(3, 2, 2, 0, 2), two_bytes(&[6, 6])].concat();
    let none = adding_bytes(&[], &[1], 1);
    let calls = [high, weighed.clone(), call.clone(), none, weighed, call.clone()];
    let lines = "0 0 4 6\n0 0 6\n0 0 4 6\n13 0 50000\n0 0 6\n0 0 4 6\n";
    b.check("line of 11, one after the other", lines_with(&image, &calls) == whole(lines));
    for less in 1..9 {
        let cut = call.get(..call.len() - less).unwrap_or(&[]).to_vec();
        b.check("line of 11, cut", lines_with(&image, &[call.clone(), cut]).0 == "0 0 4 6\n");
    }
}

// ---------------------------------------------------------------------------------------------
// The selftest: stored from set to reset
// ---------------------------------------------------------------------------------------------

// A shift of cycles, each with clock and inputs, as an entry.
fn shift_entry(cycles: &[(u32, u32)]) -> Entry {
    let (clocks, inputs) = lists_of(cycles);
    Entry::Shift(clocks, inputs)
}

// A start at 0 and then these calls; the sequence there.
fn sequence_of(held: &Held, entries: &[Entry]) -> Sequence {
    let mut sequence = begin_sequence(&held.tables, 0).1;
    for entry in entries {
        make_call(&mut sequence, entry);
    }
    sequence
}

// A start at 0 and then these calls: after each its number and the actions that are stored by the
// sentence; the number is 99 if they are not those that the run keeps.
fn stored_after(held: &Held, entries: &[Entry]) -> Vec<(Code, u64)> {
    let seen = |code: Code, sequence: &Sequence| {
        let stored = stored_by_sentence(sequence);
        (if stored == sequence.run.stored { code } else { 99 }, word_of(&stored))
    };
    let (code, mut sequence) = begin_sequence(&held.tables, 0);
    let mut after = vec![seen(code, &sequence)];
    for entry in entries {
        let code = make_call(&mut sequence, entry).0;
        after.push(seen(code, &sequence));
    }
    after
}

// What the calls of a history did, the actions set beside those reset, the start first.
fn dones(held: &Held, entries: &[Entry]) -> Vec<(u64, u64)> {
    sequence_of(held, entries).history.iter().map(|done| (done.set, done.reset)).collect()
}

// Steps 0 (initial) to 3 in a ring, each left to the next on the input of its own number; step 1
// has S and step 3 has R for action 0.
fn held_ring() -> Held {
    let steps = [step(1), step(0), step(0), step(0)].concat();
    held_of(&[steps, action(0, 1), ring_moves(), block(1, 0, 2, 0), block(3, 0, 1, 0)])
}

// The transitions of a ring of four steps: 0 to 1 on input 0, and so on to 3 to 0 on input 3.
fn ring_moves() -> Vec<u8> {
    let moves = [transition(1, 2, 1, 0, 0), transition(2, 4, 2, 0, 0)];
    [moves.concat(), transition(4, 8, 4, 0, 0), transition(8, 1, 8, 0, 0)].concat()
}

// One initial step with DS of this duration for action 0.
fn held_ds(duration: u32) -> Held {
    held_of(&[step(1), action(0, 1), block(0, 0, 7, duration)])
}

// Step 0 (initial) with DS 100 for action 0 goes to step 1 on input 0 and comes back on input 1;
// these blocks besides.
fn held_ds_again(blocks: &[Vec<u8>]) -> Held {
    let moves = [transition(1, 2, 1, 0, 0), transition(2, 1, 2, 0, 0)].concat();
    let records = [step(1), step(0), action(0, 1), moves, block(0, 0, 7, 100)].concat();
    held_of(&[records, blocks.concat()])
}

// Steps 0 and 1, both initial, go to each other's place on input 0; step 0 has DS 100 for action 0.
fn held_places() -> Held {
    let moves = [transition(1, 2, 1, 0, 0), transition(2, 1, 1, 0, 0)].concat();
    held_of(&[step(1).repeat(2), action(0, 1), moves, block(0, 0, 7, 100), edition(2)])
}

// Request (xi): "Set means an active S block, ... the start counted as a call."
fn check_stored_start(b: &mut Bench) {
    let one = |blocks: &[Vec<u8>]| held_of(&[step(1), action(0, 1), blocks.concat()]);
    let two = |blocks: &[Vec<u8>]| {
        held_of(&[step(1), step(0), step(1), action(0, 1), blocks.concat()])
    };
    let idle = [Entry::Cycle(5, 0), Entry::Cycle(6, 0)];
    let (set, reset) = (block(0, 0, 2, 0), block(0, 0, 1, 0));
    b.stores("S of an initial step", &one(&[set.clone()]), &idle, &[1, 1, 1]);
    b.stores("no block", &one(&[]), &idle, &[0, 0, 0]);
    b.stores("R of an initial step", &one(&[reset.clone()]), &idle, &[0, 0, 0]);
    b.stores("S and R of one step", &one(&[set.clone(), reset.clone()]), &idle, &[0, 0, 0]);
    b.stores("R and S of one step", &one(&[reset, set.clone()]), &idle, &[0, 0, 0]);
    b.stores("S of a step not active", &two(&[block(1, 0, 2, 0)]), &idle, &[0, 0, 0]);
    let elsewhere = [set.clone(), block(1, 0, 1, 0)];
    b.stores("R of a step not active", &two(&elsewhere), &idle, &[1, 1, 1]);
    let other = [set.clone(), block(2, 0, 1, 0)];
    b.stores("R of another initial step", &two(&other), &idle, &[0, 0, 0]);
    b.stores("S of another", &two(&[set.clone(), block(2, 0, 2, 0)]), &idle, &[1, 1, 1]);
    b.stores("DS 0", &one(&[block(0, 0, 7, 0)]), &idle, &[1, 1, 1]);
    b.stores("DS 1", &one(&[block(0, 0, 7, 1)]), &idle, &[0, 1, 1]);
    b.stores("DS 5 and 6", &one(&[block(0, 0, 7, 6)]), &idle, &[0, 0, 1]);
    b.stores("DS 0 of a step not active", &two(&[block(1, 0, 7, 0)]), &idle, &[0, 0, 0]);
    let both = [block(0, 0, 7, 0), block(0, 0, 1, 0)];
    b.stores("DS 0 and R", &one(&both), &idle, &[0, 0, 0]);
    for q in [0, 3, 4, 5, 6, 8, 9, 10] {
        b.stores("no other qualifier", &one(&[block(0, 0, q, 0)]), &idle, &[0, 0, 0]);
    }
    b.stores("no actions", &held_of(&[step(1)]), &idle, &[0, 0, 0]);
    let all: Vec<Vec<u8>> = (0..32).map(|k| block(63, k, 2, 0)).collect();
    let actions = action(0, 0).repeat(32);
    let held = held_of(&[step(0).repeat(63), step(1), actions, all.concat()]);
    b.stores("32 actions of step 63", &held, &idle, &[4_294_967_295; 3]);
    b.check("what the start did", dones(&two(&other), &[]) == [(1, 1)]);
    b.check("and two cycles", dones(&one(&[set]), &idle) == [(1, 0), (1, 0), (1, 0)]);
}

// Request (xi): "an action is stored exactly if some call set it and no call from that one on,
// itself included, reset it" (set by S, kept after its step is left, reset by R of another step)
fn check_stored_ring(b: &mut Bench) {
    let held = held_ring();
    let inputs = [0, 1, 0, 2, 0, 4, 0, 8, 0, 1];
    let cycles: Vec<(u32, u32)> = (1..11).zip(inputs).collect();
    let entries: Vec<Entry> = cycles.iter().map(|go| Entry::Cycle(go.0, go.1)).collect();
    let words = [0, 0, 1, 1, 1, 1, 0, 0, 0, 0, 1];
    b.stores("round the ring", &held, &entries, &words);
    b.stores("in edition 2", &in_edition(&held, 2), &entries, &words);
    let (s, r, none) = ((1, 0), (0, 1), (0, 0));
    let did = [none, none, s, s, none, none, r, r, none, none, s];
    b.check("what each call did", dones(&held, &entries) == did);
    for count in 0..cycles.len() + 1 {
        let part = shift_entry(cycles.get(..count).unwrap_or(&[]));
        let word = at(&words, count);
        b.stores("a shift up to there", &held, &[part.clone()], &[0, word]);
        let did = did.get(..count + 1).unwrap_or(&[]);
        b.check("each cycle a call of its own", dones(&held, &[part]) == did);
    }
    // From S straight to R, and from R straight to S.
    let straight = |first, second| {
        let blocks = [block(0, 0, first, 0), block(1, 0, second, 0)].concat();
        held_of(&[step(1), step(0), action(0, 1), transition(1, 2, 1, 0, 0), blocks])
    };
    let entries = [Entry::Cycle(1, 0), Entry::Cycle(2, 1), Entry::Cycle(3, 0)];
    b.stores("S, then R", &straight(2, 1), &entries, &[1, 1, 0, 0]);
    b.stores("R, then S", &straight(1, 2), &entries, &[0, 0, 1, 1]);
    b.stores("S, then S", &straight(2, 2), &entries, &[1, 1, 1, 1]);
    b.stores("S, then N", &straight(2, 0), &entries, &[1, 1, 1, 1]);
    b.stores("N, then R", &straight(0, 1), &entries, &[0, 0, 0, 0]);
}

// Request (xi): "no call from that one on, itself included, reset it" (S and R in one call; then
// R's step is left while S's step stays active). Steps 0 (S) and 1 (R) are initial; 1 goes to 2 on
// input 0 and comes back on input 1; 0 goes to 3 on input 2.
fn check_stored_itself(b: &mut Bench) {
    let moves = [transition(2, 4, 1, 0, 0), transition(4, 2, 2, 0, 0), transition(1, 8, 4, 0, 0)];
    let steps = [step(1), step(1), step(0), step(0)].concat();
    let blocks = [block(0, 0, 2, 0), block(1, 0, 1, 0)].concat();
    let held = held_of(&[steps, action(0, 1), moves.concat(), blocks]);
    let entries_of = |inputs: &[u32]| -> Vec<Entry> {
        inputs.iter().zip(1..).map(|(word, clock)| Entry::Cycle(clock, *word)).collect()
    };
    let entries = entries_of(&[0, 1, 2, 1, 4, 2, 1]);
    b.stores("R left, S stays", &held, &entries, &[0, 0, 1, 0, 1, 1, 0, 0]);
    let (both, s, r, none) = ((1, 1), (1, 0), (0, 1), (0, 0));
    let did = [both, both, s, both, s, none, r, none];
    b.check("what each call did", dones(&held, &entries) == did);
    // S's step is left while R's is active: the calls that set it were themselves reset.
    b.stores("S left under R", &held, &entries_of(&[0, 4, 1, 0]), &[0, 0, 0, 0, 0]);
    // Both are left in one call: nothing sets it any more.
    b.stores("both left", &held, &entries_of(&[0, 5, 0]), &[0, 0, 0, 0]);
    // Under hold nothing is left.
    let entries = [
        Entry::Hold,
        Entry::Cycle(1, 1),
        Entry::Release,
        Entry::Cycle(2, 1),
        Entry::Hold,
        Entry::Cycle(3, 2),
        Entry::Release,
        Entry::Cycle(4, 2),
    ];
    b.stores("under hold", &held, &entries, &[0, 0, 0, 0, 1, 1, 1, 1, 0]);
    let did = [both, both, both, both, s, s, s, s, both];
    b.check("hold and release are calls", dones(&held, &entries) == did);
}

// Request (xi): "or an active DS block whose counter had reached its duration"
fn check_stored_ds(b: &mut Bench) {
    let go = |clock| Entry::Cycle(clock, 0);
    let entries = [go(99), go(99), go(100), go(101), go(300)];
    b.stores("DS 100", &held_ds(100), &entries, &[0, 0, 0, 1, 1, 1]);
    b.check("DS 100, at it and above", {
        dones(&held_ds(100), &entries) == [(0, 0), (0, 0), (0, 0), (1, 0), (1, 0), (1, 0)]
    });
    b.stores("DS 100, above at once", &held_ds(100), &[go(60_000)], &[0, 1]);
    b.stores("DS 0", &held_ds(0), &[go(0), go(1)], &[1, 1, 1]);
    b.stores("DS 1", &held_ds(1), &[go(0), go(1)], &[0, 0, 1]);
    // 1,439 cycles of 60,000 ms, the last ms and the cap.
    let long: Vec<(u32, u32)> = (1..1440).map(|k| (60_000 * k, 0)).collect();
    let entries = [shift_entry(&long), go(86_399_999), go(86_400_000), go(86_450_000)];
    b.stores("DS of the longest duration", &held_ds(86_400_000), &entries, &[0, 0, 0, 1, 1]);
    // R of step 1: 2 goes there on input 0 and comes back on input 1, while DS's step stays.
    let moves = [transition(4, 2, 1, 0, 0), transition(2, 4, 2, 0, 0)].concat();
    let blocks = [block(0, 0, 7, 100), block(1, 0, 1, 0)].concat();
    let held = held_of(&[step(1), step(0), step(1), action(0, 1), moves, blocks]);
    let entries = [go(100), Entry::Cycle(110, 1), go(120), Entry::Cycle(130, 2)];
    b.stores("DS above, R between", &held, &entries, &[0, 1, 0, 0, 1]);
    let entries = [Entry::Cycle(10, 1), go(99), go(100), Entry::Cycle(101, 2)];
    b.stores("DS reached under R", &held, &entries, &[0, 0, 0, 0, 1]);
    let entries = [Entry::Cycle(10, 1), Entry::Cycle(99, 2), go(100)];
    b.stores("R before DS is reached", &held, &entries, &[0, 0, 0, 1]);
    // DS and S for one action, in two steps.
    let held = held_ds_again(&[block(1, 0, 2, 0)]);
    let entries = [go(50), Entry::Cycle(60, 1), Entry::Cycle(70, 2), go(80)];
    b.stores("S before DS is reached", &held, &entries, &[0, 0, 1, 1, 1]);
    let did = [(0, 0), (0, 0), (1, 0), (0, 0), (0, 0)];
    b.check("S alone set it", dones(&held, &entries) == did);
}

// Request (xi): "an active DS block whose counter had reached its duration"; document 01: "A step
// entered or inactive has counter 0." (a step left and entered again later)
fn check_stored_ds_again(b: &mut Bench) {
    let go = Entry::Cycle;
    let held = held_ds_again(&[]);
    let entries = [go(100, 0), go(150, 1), go(160, 2), go(259, 0), go(260, 0)];
    b.stores("entered again, stored from before", &held, &entries, &[0, 1, 1, 1, 1, 1]);
    let did = [(0, 0), (1, 0), (0, 0), (0, 0), (0, 0), (1, 0)];
    b.check("not set anew", dones(&held, &entries) == did);
    let counters = sequence_of(&held, &[go(100, 0), go(150, 1), go(160, 2)]).run.step_counters;
    b.check("its counter is 0", counters == [0; 64]);
    let reset = held_ds_again(&[block(1, 0, 1, 0)]);
    b.stores("reset between, set anew", &reset, &entries, &[0, 1, 0, 0, 0, 1]);
    let entries = [go(99, 0), go(100, 1), go(200, 0)];
    b.stores("left when it was due", &held, &entries, &[0, 0, 0, 0]);
    let entries = [go(60, 1), go(70, 2), go(100, 0), go(169, 0), go(170, 0)];
    b.stores("the time before is lost", &held, &entries, &[0, 0, 0, 0, 0, 1]);
    // DS 0 sets in the call that enters the step.
    let records = [step(1), step(0), action(0, 1), transition(1, 2, 1, 0, 0)].concat();
    let held = held_of(&[records, block(1, 0, 7, 0)]);
    b.stores("DS 0, entered", &held, &[go(5, 0), go(5, 1), go(6, 0)], &[0, 0, 1, 1]);
    // The counter of another step plays no part.
    let records = [step(1), step(1), step(0), action(0, 1), transition(1, 4, 1, 0, 0)].concat();
    let held = held_of(&[records, block(2, 0, 7, 100)]);
    let entries = [go(100, 0), go(110, 1), go(209, 0), go(210, 0)];
    b.stores("its own step's counter", &held, &entries, &[0, 0, 0, 0, 1]);
}

// Request (xi): "Hold and both editions are included."; request (vii): "In a cycle under hold ...
// step counters stand still" (the clocks go on)
fn check_stored_hold(b: &mut Bench) {
    let go = |clock| Entry::Cycle(clock, 0);
    let key = |inner: &[Entry]| [&[Entry::Hold], inner, &[Entry::Release]].concat();
    let held = held_ds(100);
    let short = [vec![go(99)], key(&[go(100), go(200), go(5000)]), vec![go(5000), go(5001)]];
    let short = short.concat();
    b.stores("one ms short under hold", &held, &short, &[0, 0, 0, 0, 0, 0, 0, 0, 1]);
    let stood = sequence_of(&held, short.get(..7).unwrap_or(&[])).run;
    b.check("the counter stood", at(&stood.step_counters, 0) == 99 && stood.clock == 5000);
    let inner = shift_entry(&[(100, 0), (60_100, 0)]);
    let long = [vec![go(99)], key(&[inner]), vec![go(60_101)]];
    b.stores("one ms short, a shift", &held, &long.concat(), &[0, 0, 0, 0, 0, 1]);
    let due = [vec![go(100)], key(&[go(101), go(102)]), vec![go(103)]].concat();
    b.stores("at its duration under hold", &held, &due, &[0, 1, 1, 1, 1, 1, 1]);
    b.check("hold and release set too", {
        let did = dones(&held, &due);
        did.len() == 7 && did.iter().skip(1).all(|call| *call == (1, 0))
    });
    b.stores("DS 0 under hold", &held_ds(0), &key(&[go(9)]), &[1, 1, 1, 1]);
    // Round the ring: held in step 2, stored, and in step 3, reset.
    let held = held_ring();
    let move_on = Entry::Cycle;
    let entries = [
        vec![move_on(1, 1), move_on(2, 2)],
        key(&[move_on(3, 4)]),
        vec![move_on(4, 0), move_on(5, 4)],
        key(&[move_on(6, 8)]),
        vec![move_on(7, 8)],
    ];
    let words = [0, 1, 1, 1, 1, 1, 1, 0, 0, 0, 0, 0];
    b.stores("kept over a hold", &held, &entries.concat(), &words);
    let entries = [Entry::Hold, Entry::Hold, move_on(1, 1), Entry::Release, Entry::Release];
    b.stores("nothing set under hold", &held, &entries, &[0, 0, 0, 0, 0, 0]);
    let entries = [Entry::Release, move_on(1, 1), Entry::Hold, move_on(2, 2), move_on(3, 4)];
    b.stores("S's step stays under hold", &held, &entries, &[0, 0, 1, 1, 1, 1]);
}

// Request (xi): "any sequence of accepted calls" (a refused one between adds nothing: what it would
// have set is not stored, what it would have reset is)
fn check_stored_refused(b: &mut Bench) {
    let held = held_ring();
    let go = Entry::Cycle;
    let entries = [
        (go(60_001, 1), (11, 0)),
        (go(1, 1), (0, 1)),
        (go(0, 2), (11, 1)),
        (go(60_002, 2), (11, 1)),
        (go(2, 2), (0, 1)),
        (go(1, 4), (11, 1)),
        (Entry::Hold, (0, 1)),
        (go(1, 4), (11, 1)),
        (Entry::Release, (0, 1)),
        (go(3, 4), (0, 0)),
        (go(2, 8), (11, 0)),
        (go(4, 8), (0, 0)),
        (go(3, 1), (11, 0)),
        (shift_entry(&vec![(5, 1); 4097]), (18, 0)),
        (shift_entry(&[(3, 1), (5, 1)]), (11, 0)),
        (go(60_004, 1), (0, 1)),
    ];
    let (calls, wanted): (Vec<Entry>, Vec<(Code, u64)>) = entries.iter().cloned().unzip();
    b.check("refused ones between", stored_after(&held, &calls) == [vec![(0, 0)], wanted].concat());
    let (s, r, none) = ((1, 0), (0, 1), (0, 0));
    b.check("they add nothing", dones(&held, &calls) == [none, s, none, none, none, r, none, s]);
    // DS one ms short: a refused cycle at its duration does not set.
    let entries = [go(99, 0), go(98, 0), go(60_100, 0), go(99, 0), go(100, 0)];
    let wanted = [(0, 0), (0, 0), (11, 0), (11, 0), (0, 0), (0, 1)];
    b.check("refused, one ms short", stored_after(&held_ds(100), &entries) == wanted);
    // A chart that is refused: all is refused and the history is empty. (An all-zero chart is
    // refused 5, for its edition; held with an edition, 9.)
    let calls = [go(0, 0), Entry::Hold, Entry::Release, shift_entry(&[(0, 0)]), shift_entry(&[])];
    for (code, edition) in [(5, 0), (9, 1), (9, 2)] {
        let zero = in_edition(&hold(&Chart::default()), edition);
        b.check("no chart", stored_after(&zero, &calls) == [(code, 0); 6]);
        let sequence = sequence_of(&zero, &calls);
        b.check("no history", sequence.history.is_empty() && sequence.run == zero_run());
        b.check("no outputs", sequence.outputs == [0; 32]);
    }
}

// Request (iii): "It stops at the first refused cycle and returns the number accepted"; request
// (xi), with each accepted cycle of the shift as a call
fn check_stored_shift(b: &mut Bench) {
    let held = held_ring();
    let one = |cycles: &[(u32, u32)]| {
        let mut sequence = begin_sequence(&held.tables, 0).1;
        let (code, accepted) = make_call(&mut sequence, &shift_entry(cycles));
        let own = sequence.run.stored == stored_by_sentence(&sequence);
        let calls = if own { sequence.history.len() } else { 99 };
        (code, accepted, word_of(&stored_by_sentence(&sequence)), calls)
    };
    let five = [(1, 1), (2, 2), (3, 4), (4, 8), (5, 1)];
    b.check("set, reset and set", one(&five) == (0, Some(5), 1, 6));
    b.check("set within it and left", one(&[(1, 1), (2, 2)]) == (0, Some(2), 1, 3));
    let four = [(1, 1), (2, 2), (3, 4), (4, 8)];
    b.check("reset within it and left", one(&four) == (0, Some(4), 0, 5));
    b.check("11 behind the set", one(&[(1, 1), (0, 2), (2, 2)]) == (11, Some(1), 1, 2));
    let stopped = [(1, 1), (2, 2), (1, 4), (3, 4)];
    b.check("11 before the reset", one(&stopped) == (11, Some(2), 1, 3));
    let stopped = [(1, 1), (2, 2), (3, 4), (2, 8), (4, 8), (5, 1)];
    b.check("11 behind the reset", one(&stopped) == (11, Some(3), 0, 4));
    let stopped = [(1, 1), (2, 2), (3, 4), (4, 8), (60_005, 1)];
    b.check("11 at the last", one(&stopped) == (11, Some(4), 0, 5));
    b.check("11 at the first", one(&[(60_001, 1), (1, 1)]) == (11, Some(0), 0, 1));
    b.check("no cycles", one(&[]) == (0, Some(0), 0, 1));
    b.check("4,096 cycles", one(&[(1, 1); 4096]) == (0, Some(4096), 1, 4097));
    b.check("4,097 cycles", one(&[(1, 1); 4097]) == (18, Some(0), 0, 1));
}

// The same with shifts among other calls, stopped in their middle by 11.
fn check_stored_shift_among(b: &mut Bench) {
    let held = held_ring();
    let calls = [
        Entry::Cycle(1, 1),
        Entry::Hold,
        shift_entry(&[(2, 2), (1, 2), (3, 2)]),
        Entry::Release,
        shift_entry(&[(3, 2), (4, 4), (3, 8), (5, 8)]),
        Entry::Cycle(5, 8),
        shift_entry(&[(6, 1), (7, 2), (60_008, 4)]),
        Entry::Cycle(8, 0),
    ];
    let codes = [(0, 0), (0, 1), (0, 1), (11, 1), (0, 1), (11, 0), (0, 0), (11, 1), (0, 1)];
    b.check("shifts among them", stored_after(&held, &calls) == codes);
    let (s, r, none) = ((1, 0), (0, 1), (0, 0));
    let did = [none, s, s, s, s, none, r, none, s, none, none];
    b.check("what each call did", dones(&held, &calls) == did);
    let sequence = sequence_of(&held, &calls);
    b.check("the run", sequence.run.clock == 8 && word_of(&sequence.run.active) == 4);
}

// Request (xi): "Hold and both editions are included."; request (viii): "a step counts as entered
// if it is a target and was inactive or left; then its counter is 0, otherwise it runs on"
fn check_stored_editions(b: &mut Bench) {
    let go = Entry::Cycle;
    let held = held_places();
    let entries = [go(99, 0), go(100, 1), go(199, 0), go(200, 0), go(201, 1), go(202, 0)];
    b.stores("left and entered when due", &held, &entries, &[0, 0, 0, 0, 1, 1, 1]);
    let (s, none) = ((1, 0), (0, 0));
    let did = [none, none, none, none, s, none, none];
    b.check("its counter begins anew", dones(&held, &entries) == did);
    let first = in_edition(&held, 1);
    b.stores("the same in edition 1", &first, &entries, &[0, 0, 1, 1, 1, 1, 1]);
    let cycles = [(99, 0), (100, 1), (199, 0), (200, 0), (199, 1)];
    b.check("a shift in edition 2", {
        stored_after(&held, &[shift_entry(&cycles)]) == [(0, 0), (11, 1)]
    });
    let entries = [go(99, 0), Entry::Hold, go(100, 1), Entry::Release, go(100, 0), go(101, 0)];
    b.stores("held, so not left", &held, &entries, &[0, 0, 0, 0, 0, 0, 1]);
    // Step 0 goes on input 0 to step 1, which is active, not left and has DS 100.
    let records = [step(1).repeat(2), action(0, 1), transition(1, 2, 1, 0, 0)].concat();
    let held = held_of(&[records, block(1, 0, 7, 100), edition(2)]);
    b.stores("a target that runs on", &held, &[go(99, 1), go(100, 0)], &[0, 0, 1]);
    b.stores("a target when due", &held, &[go(99, 0), go(100, 1)], &[0, 0, 1]);
    // Step 0 has R, step 1 S; 0 goes to 2 on input 0, 1 goes to 0 on input 1.
    let moves = [transition(1, 4, 1, 0, 0), transition(2, 1, 2, 0, 0)].concat();
    let steps = [step(1), step(1), step(0)].concat();
    let blocks = [block(0, 0, 1, 0), block(1, 0, 2, 0)].concat();
    let held = held_of(&[steps.clone(), action(0, 1), moves.clone(), blocks, edition(2)]);
    b.stores("R left and entered", &held, &[go(1, 3), go(2, 0)], &[0, 0, 0]);
    b.stores("R left", &held, &[go(1, 1), go(2, 2)], &[0, 1, 0]);
    let first = in_edition(&held, 1);
    b.stores("edition 1: R left, S stays", &first, &[go(1, 3), go(2, 0)], &[0, 1, 1]);
    // Step 0 has S and step 3 (initial) R; 3 goes to 4 on input 2.
    let more = [step(1), step(0), action(0, 1), moves, transition(8, 16, 4, 0, 0)].concat();
    let blocks = [block(0, 0, 2, 0), block(3, 0, 1, 0)].concat();
    let held = held_of(&[steps, more, blocks, edition(2)]);
    b.stores("S left and entered, R left", &held, &[go(1, 7), go(2, 0)], &[0, 1, 1]);
    b.stores("S and R left", &held, &[go(1, 5), go(2, 0)], &[0, 0, 0]);
    b.stores("edition 1: S and R left", &in_edition(&held, 1), &[go(1, 7)], &[0, 0]);
}

// Request (xi): "an action is stored exactly if ..." (each action for itself)
fn check_stored_apart(b: &mut Bench) {
    let go = Entry::Cycle;
    let steps = [step(1), step(0), step(0), step(0)].concat();
    let blocks = [block(0, 0, 2, 0), block(1, 1, 2, 0), block(2, 0, 1, 0), block(3, 1, 1, 0)];
    let held = held_of(&[steps.clone(), action(0, 1).repeat(2), ring_moves(), blocks.concat()]);
    let entries = [go(1, 1), go(2, 2), go(3, 4), go(4, 8), go(5, 1)];
    b.stores("two actions", &held, &entries, &[1, 3, 2, 0, 1, 3]);
    let did = [(1, 0), (2, 0), (0, 1), (0, 2), (1, 0), (2, 0)];
    b.check("what each call did", dones(&held, &entries) == did);
    let blocks = [block(0, 0, 2, 0), block(0, 1, 1, 0), block(1, 0, 1, 0), block(1, 1, 2, 0)];
    let moves = [transition(1, 2, 0, 0, 0), transition(2, 1, 0, 0, 0)].concat();
    let records = [step(1), step(0), action(0, 1).repeat(2), moves].concat();
    let held = held_of(&[records, blocks.concat()]);
    b.stores("in turns", &held, &[go(1, 0), go(2, 0), go(3, 0)], &[1, 2, 1, 2]);
    // Actions 0 and 31 of 32, and three DS with their own durations in one step.
    let blocks = [block(0, 31, 2, 0), block(0, 0, 1, 0), block(1, 0, 2, 0), block(3, 31, 1, 0)];
    let actions = action(0, 1).repeat(32);
    let held = held_of(&[steps, actions, ring_moves(), blocks.concat()]);
    let entries = [go(1, 1), go(2, 2), go(3, 4), go(4, 8)];
    let last = 1 << 31;
    b.stores("0 and 31", &held, &entries, &[last, last + 1, last + 1, 1, last]);
    let blocks = [block(0, 0, 7, 10), block(0, 1, 7, 20), block(0, 2, 7, 0)].concat();
    let held = held_of(&[step(1), action(0, 1).repeat(3), blocks]);
    let entries = [go(9, 0), go(10, 0), go(19, 0), go(20, 0)];
    b.stores("three durations", &held, &entries, &[4, 4, 5, 5, 7]);
}

// Request (xi), word for word: "an action is stored exactly if some call set it and no call from
// that one on, itself included, reset it" (of 32 actions; with the calls counted from number
// `first` on, where 0 is the start, and resets from so many calls `behind` that one on, where 0 is
// itself)
fn word_for_word(calls: &[Done], first: usize, behind: usize) -> Set {
    let some_call = |action: &usize| {
        (first..calls.len()).any(|call| {
            let set_it = calls.get(call).map_or(false, |done| has(done.set, *action));
            let mut from_that_one_on = calls.iter().skip(call + behind);
            set_it && from_that_one_on.all(|done| !has(done.reset, *action))
        })
    };
    (0..32).filter(some_call).collect()
}

// Request (xi): "some call set it and no call from that one on, itself included, reset it" (every
// history of up to six calls, each of which sets or not and resets or not; once for action 0 and
// once for action 31, with the other one set by all or reset by all)
fn check_stored_histories(b: &mut Bench) {
    for count in 0..7 {
        let mut stored = 0;
        for ways in 0..1u64 << (2 * count) {
            for (action, other) in [(0, 31), (31, 0)] {
                let done = |call: usize, set: u64, reset: u64| Done {
                    set: u64::from(has(ways, 2 * call)) << action | set << other,
                    reset: u64::from(has(ways, 2 * call + 1)) << action | reset << other,
                };
                let with_set: Vec<Done> = (0..count).map(|call| done(call, 1, 0)).collect();
                let with_reset: Vec<Done> = (0..count).map(|call| done(call, 0, 1)).collect();
                let wanted = word_for_word(&with_set, 0, 0);
                let this = is_stored(&with_set, action);
                b.check("word for word", this == wanted.contains(&action));
                b.check("whatever another is", is_stored(&with_reset, action) == this);
                b.check("the other, set by all", is_stored(&with_set, other) == (count > 0));
                b.check("the other, reset by all", !is_stored(&with_reset, other));
                stored += usize::from(this);
            }
        }
        // The last call leaves it stored if it only sets, whatever was before, and as it was if it
        // does nothing: 1 + 4 + 16 ... of the histories, for each of the two actions.
        let by_hand: usize = (0..count as u32).map(|before| 4usize.pow(before)).sum();
        b.check("as many as by hand", stored == 2 * by_hand);
    }
}

// A chart drawn by lot: six steps, eight transitions and five actions, each with up to two S, two R
// and an N block and mostly with a DS block.
fn clamps_by_lot(lot: &mut u64) -> Held {
    let mut records = vec![step(1)];
    records.extend((0..5).map(|_| step((next_lot(lot) % 4 / 3) as u8)));
    records.extend((0..5).map(|k| action(k, 1)));
    records.extend((0..8).map(|_| transition_by_lot(lot)));
    for k in 0..5 {
        for q in [2, 2, 1, 1, 0] {
            if next_lot(lot) % 2 == 0 {
                records.push(block((next_lot(lot) % 6) as u8, k, q, 0));
            }
        }
        if next_lot(lot) % 4 > 0 {
            let duration = next_lot(lot) % 5 * 7;
            records.push(block((next_lot(lot) % 6) as u8, k, 7, duration as u32));
        }
    }
    held_of(&records)
}

// A cycle by lot behind this clock; one of so many is refused, with a clock one back.
fn cycle_by_lot(lot: &mut u64, clock: u32, of: u64) -> (u32, u32) {
    let late = next_lot(lot) as u32 % 15;
    let inputs = next_lot(lot) as u32 % 8;
    let back = next_lot(lot) % of == 0;
    (if back { clock.wrapping_sub(1) } else { clock.wrapping_add(late) }, inputs)
}

// A call by lot behind this clock: a cycle, hold, release or a shift of up to eight cycles.
fn entry_by_lot(lot: &mut u64, clock: u32) -> Entry {
    match next_lot(lot) % 12 {
        0 => Entry::Hold,
        1 | 2 => Entry::Release,
        3..=5 => {
            let count = next_lot(lot) % 9;
            let mut cycles: Vec<(u32, u32)> = Vec::new();
            for _ in 0..count {
                let last = cycles.last().map_or(clock, |go| go.0);
                cycles.push(cycle_by_lot(lot, last, 12));
            }
            shift_entry(&cycles)
        }
        _ => {
            let (clock, inputs) = cycle_by_lot(lot, clock, 8);
            Entry::Cycle(clock, inputs)
        }
    }
}

// Request (iii): "the calls made singly" (the cycles of a shift; another call is itself alone)
fn singles_of(entry: &Entry) -> Vec<Entry> {
    match entry {
        Entry::Shift(clocks, inputs) => {
            clocks.iter().zip(inputs).map(|(clock, word)| Entry::Cycle(*clock, *word)).collect()
        }
        other => vec![other.clone()],
    }
}

// What a call did by another way: all sets are words, and a DS block sets by this rule of counter
// and duration.
fn done_otherwise(held: &Held, run: &Run, ds: fn(u32, u32) -> bool) -> Done {
    let active = word_of(&run.active);
    let mut done = Done { set: 0, reset: 0 };
    for block in held.tables.blocks.iter().filter(|block| has(active, block.step)) {
        let counter = at(&run.step_counters, block.step);
        match block.qualifier {
            1 => done.reset |= 1 << block.action,
            2 => done.set |= 1 << block.action,
            7 if ds(counter, block.duration) => done.set |= 1 << block.action,
            _ => {}
        }
    }
    done
}

// One sequence by lot: the calls as they are, and beside them with the cycles of shifts made
// singly; the runs after all accepted calls, and the numbers of those that end an entry.
struct ByLot {
    held: Held,
    whole: Sequence,
    alone: Sequence,
    runs: Vec<Run>,
    ends: Set,
}

// Its start.
fn begin_by_lot(lot: &mut u64, edition: u8) -> ByLot {
    let drawn = if next_lot(lot) % 4 == 0 { held_by_lot(lot) } else { clamps_by_lot(lot) };
    let held = in_edition(&drawn, edition);
    let clock = 4_294_967_200 + next_lot(lot) as u32 % 90;
    let (_, whole) = begin_sequence(&held.tables, clock);
    let (_, alone) = begin_sequence(&held.tables, clock);
    let runs = vec![alone.run.clone()];
    ByLot { held, whole, alone, runs, ends: numbers(1) }
}

// One call of it; the number and how many calls were accepted. After every accepted call the
// sentence gives just what the run keeps as stored, and a shift leaves what its cycles leave.
fn go_by_lot(b: &mut Bench, drawn: &mut ByLot, entry: &Entry) -> (Code, u64) {
    let (mut code, mut accepted) = (0, 0);
    for single in singles_of(entry) {
        code = make_call(&mut drawn.alone, &single).0;
        let kept = &drawn.alone.run.stored;
        b.check("the sentence, by lot", stored_by_sentence(&drawn.alone) == *kept);
        if code != 0 {
            break;
        }
        accepted += 1;
        drawn.runs.push(drawn.alone.run.clone());
    }
    let told = make_call(&mut drawn.whole, entry);
    let count = if matches!(entry, Entry::Shift(..)) { Some(accepted) } else { None };
    b.check("the number, by lot", told == (code, count));
    b.check("singly, by lot", drawn.whole.run == drawn.alone.run);
    b.check("the same history, by lot", drawn.whole.history == drawn.alone.history);
    b.check("all accepted calls, by lot", drawn.whole.history.len() == drawn.runs.len());
    if accepted > 0 {
        drawn.ends.insert(drawn.runs.len() - 1);
    }
    (code, accepted)
}

// Request (xi): "After any sequence of accepted calls from a start, each given the run that the one
// before returned ... Hold and both editions are included." (many charts and sequences by lot: the
// sentence, that sentence word for word and the stored actions that the run keeps agree)
fn check_stored_by_lot(b: &mut Bench) {
    let mut lot = 67;
    let (mut stopped, mut refused, mut under_hold, mut both, mut by_ds) = (0, 0, 0, 0, 0);
    let (mut began, mut ended) = (0, 0);
    let mut words = BTreeSet::new();
    for edition in [1, 2].repeat(200) {
        let mut drawn = begin_by_lot(&mut lot, edition);
        let kept = &drawn.whole.run.stored;
        b.check("the start by lot", stored_by_sentence(&drawn.whole) == *kept);
        for _ in 0..30 {
            let entry = entry_by_lot(&mut lot, drawn.whole.run.clock);
            let before = drawn.whole.run.stored.clone();
            let (code, accepted) = go_by_lot(b, &mut drawn, &entry);
            let kept = &drawn.whole.run.stored;
            let calls = &drawn.whole.history;
            b.check("word for word, by lot", word_for_word(calls, 0, 0) == *kept);
            stopped += usize::from(code == 11 && accepted > 0);
            refused += usize::from(code == 11 && accepted == 0);
            under_hold += usize::from(drawn.whole.run.hold_mark == 1);
            began += kept.difference(&before).count();
            ended += before.difference(kept).count();
            words.insert(word_of(kept));
        }
        for (run, done) in drawn.runs.iter().zip(&drawn.whole.history) {
            let reached = |counter, duration| counter >= duration;
            b.check("done otherwise", done_otherwise(&drawn.held, run, reached) == *done);
            both += usize::from(done.set & done.reset != 0);
            by_ds += usize::from(done_otherwise(&drawn.held, run, |_, _| false) != *done);
        }
    }
    b.check("stopped and refused, by lot", stopped > 200 && refused > 500);
    b.check("hold, and both in one call, by lot", under_hold > 1000 && both > 1000);
    b.check("begun, ended and by DS, by lot", began > 500 && ended > 200 && by_ds > 1000);
    b.check("all words, by lot", words == (0..32).collect());
}

// The sentence as it is, and six that say something else: that one itself is not included; the
// start is not counted; of a shift only its last cycle is counted; DS sets only above its duration;
// DS sets at once; DS never sets.
fn seven_sentences(drawn: &ByLot) -> [Set; 7] {
    let did = |rule: fn(u32, u32) -> bool| -> Vec<Done> {
        drawn.runs.iter().map(|run| done_otherwise(&drawn.held, run, rule)).collect()
    };
    let right = did(|counter, duration| counter >= duration);
    let ends: Vec<Done> = drawn.ends.iter().filter_map(|k| right.get(*k).copied()).collect();
    [
        word_for_word(&right, 0, 0),
        word_for_word(&right, 0, 1),
        word_for_word(&right, 1, 0),
        word_for_word(&ends, 0, 0),
        word_for_word(&did(|counter, duration| counter > duration), 0, 0),
        word_for_word(&did(|_, _| true), 0, 0),
        word_for_word(&did(|_, _| false), 0, 0),
    ]
}

// That the comparison would show a difference: each of the six other sentences gives something else
// than the run keeps, now and then, in both editions.
fn check_stored_teeth(b: &mut Bench) {
    for edition in [1, 2] {
        let mut lot = 73;
        let mut differ = [0; 7];
        for _ in 0..100 {
            let mut drawn = begin_by_lot(&mut lot, edition);
            for _ in 0..20 {
                let entry = entry_by_lot(&mut lot, drawn.whole.run.clock);
                go_by_lot(b, &mut drawn, &entry);
                for (count, stored) in differ.iter_mut().zip(seven_sentences(&drawn)) {
                    *count += usize::from(stored != drawn.whole.run.stored);
                }
            }
        }
        let [right, behind, start, ends, above, always, never] = differ;
        b.check("the sentence as it is", right == 0);
        b.check("itself not included", behind > 100);
        b.check("the start not counted", start > 10);
        b.check("a shift's inner cycles not counted", ends > 10);
        b.check("DS only above its duration", above > 10);
        b.check("DS at once, or never", always > 100 && never > 100);
    }
}

// For the command line: an entry of `stored`.
fn entry_bytes(entry: &Entry) -> Vec<u8> {
    match entry {
        Entry::Cycle(clock, inputs) => [vec![0], four_bytes(&[*clock, *inputs])].concat(),
        Entry::Hold => vec![1],
        Entry::Release => vec![2],
        Entry::Shift(clocks, inputs) => {
            let count = two_bytes(&[clocks.len() as u16]);
            [vec![3], count, four_bytes(clocks), four_bytes(inputs)].concat()
        }
    }
}

// For the command line: a case of `stored`.
fn stored_bytes(file: &[u8], clock: u32, entries: &[Entry]) -> Vec<u8> {
    let length = two_bytes(&[file.len() as u16]);
    let count = two_bytes(&[entries.len() as u16]);
    let entries: Vec<u8> = entries.iter().flat_map(entry_bytes).collect();
    [&length, file, &four_bytes(&[clock]), &count, &entries].concat()
}

// For the command line: the lines of an input of `stored`, and whether nothing is left of it.
fn stored_lines(input: &[u8]) -> (String, bool) {
    let mut fields = Fields::new(input);
    let mut lines = Vec::new();
    while let Some(line) = stored_case(&mut fields) {
        lines.extend(line);
    }
    (String::from_utf8(lines).unwrap_or_default(), fields.place == input.len())
}

// For the command line: lines of `stored`, by hand, byte for byte.
fn check_stored_lines(b: &mut Bench) {
    let whole = |line: &str| (line.to_string(), true);
    let line = |file: &[u8], clock, entries: &[Entry]| {
        stored_lines(&stored_bytes(file, clock, entries))
    };
    let go = Entry::Cycle;
    // One step; start at 1000, a cycle at 1008 with inputs 7, hold, release, a shift of two cycles.
    let head = vec![9, 0, 1, 0, 1, 0, 1, 0, 0, 0, 0, 232, 3, 0, 0, 4, 0];
    let calls = vec![0, 240, 3, 0, 0, 7, 0, 0, 0, 1, 2, 3, 2, 0, 241, 3, 0, 0, 242, 3, 0, 0];
    let input = [head, calls, vec![0; 8]].concat();
    let text = "0 1 0 c 0 1 0 c 0:8 0 1 0 c 0:8 0 1 0 c 0:8 0 2 1 0 c 0:10\n";
    b.check("every byte", stored_lines(&input) == whole(text));
    let entries = [
        go(1010, 1),
        Entry::Hold,
        go(1100, 2),
        Entry::Release,
        shift_entry(&[(1200, 0), (1599, 2), (1600, 2)]),
        go(1599, 0),
        go(1650, 0),
        shift_entry(&[(1700, 1), (1750, 0), (1749, 2), (1800, 2)]),
    ];
    let told = [
        "0 1 0 c 0 2 2 c 0 2 2 c 0 2 2 c 0 2 2 c",
        "0 3 1 0 c 11 1 0 c 0 1 0 c 0:50 11 2 2 2 c 1:50\n",
    ];
    b.check("chart A", line(&chart_a(), 1000, &entries) == whole(&told.join(" ")));
    let second = line(&chart_a_second(), 1000, &entries);
    b.check("chart A in edition 2", second == whole(&told.join(" ")));
}

// For the command line: lines of `stored` with nothing behind the start, with shifts of nothing,
// over the clock's turn, and the widest.
fn check_stored_wide_lines(b: &mut Bench) {
    let whole = |line: &str| (line.to_string(), true);
    let line = |file: &[u8], clock, entries: &[Entry]| {
        stored_lines(&stored_bytes(file, clock, entries))
    };
    let go = Entry::Cycle;
    b.check("no entries", line(&chart_a(), 1000, &[]) == whole("0 1 0 c\n"));
    let shifts = [shift_entry(&[]), shift_entry(&[(0, 0); 4097]), shift_entry(&[(999, 0)])];
    let text = "0 1 0 c 0 0 1 0 c 18 0 1 0 c 11 0 1 0 c\n";
    b.check("shifts of nothing", line(&chart_a(), 1000, &shifts) == whole(text));
    let one = [step(1), action(0, 1), block(0, 0, 7, 496), end()].concat();
    let text = "0 1 0 c 0 1 0 c 0:495 0 1 1 c 0:496\n";
    let turned = line(&one, 4_294_967_000, &[go(199, 0), go(200, 0)]);
    b.check("over the clock's turn", turned == whole(text));
    // All 64 steps and all 32 actions.
    let blocks: Vec<Vec<u8>> = (0..32).map(|k| block(63, k, 2, 0)).collect();
    let full = [step(1).repeat(64), action(0, 0).repeat(32), blocks.concat(), end()].concat();
    let counters: String = (0..64).map(|k| format!(" {}:{}", k, 60_000)).collect();
    let both = "18446744073709551615 4294967295 c";
    let text = format!("0 {} 0 {}{}\n", both, both, counters);
    b.check("the widest", line(&full, 0, &[go(60_000, 0)]) == whole(&text));
}

// For the command line: the line tells what the history says, not what the run keeps.
fn check_stored_told(b: &mut Bench) {
    let mut sequence = sequence_of(&held_ring(), &[Entry::Cycle(1, 1), Entry::Cycle(2, 2)]);
    let told = |sequence: &Sequence| values_of_call(sequence, 0, None).join(" ");
    b.check("told", told(&sequence) == "0 4 1 c");
    sequence.run.stored = Set::new();
    b.check("not by the run", told(&sequence) == "0 4 1 c");
    sequence.history.push(Done { set: 1, reset: 1 });
    b.check("but by the history", told(&sequence) == "0 4 0 c");
    let counted = values_of_call(&sequence, 11, Some(7)).join(" ");
    b.check("with a shift's count", counted == "11 7 4 0 c");
}

// For the command line: a refused chart, one case behind the other, cut cases and other kinds.
fn check_stored_cases(b: &mut Bench) {
    let whole = |line: &str| (line.to_string(), true);
    let shift_of_two = shift_entry(&[(1, 0), (2, 0)]);
    let entries = [Entry::Cycle(0, 1), Entry::Hold, Entry::Release, shift_of_two];
    let refused = "5 0 0 c 5 0 0 c 5 0 0 c 5 0 0 c 5 0 0 0 c\n";
    let surplus = [chart_a(), vec![0]].concat();
    let files = [vec![], end(), surplus, [step(1), edition(1), end()].concat()];
    for file in files.iter() {
        let line = stored_lines(&stored_bytes(file, 9, &entries));
        b.check("a refused chart", line == whole(refused));
        let line = stored_lines(&stored_bytes(file, 9, &[]));
        b.check("a refused chart alone", line == whole("5 0 0 c\n"));
    }
    let good = stored_bytes(&chart_a(), 0, &entries);
    let text = "0 1 0 c 0 2 2 c 0 2 2 c 0 2 2 c 0 2 2 2 c 1:2\n";
    b.check("chart A from 0", stored_lines(&good) == whole(text));
    let bad = stored_bytes(&[], 0, &entries);
    let three = [good.clone(), bad.clone(), good.clone()].concat();
    let texts = [text, refused, text].concat();
    b.check("one behind the other", stored_lines(&three) == whole(&texts));
    b.check("nothing", stored_lines(&[]) == whole(""));
    for length in 1..good.len() {
        let cut = good.get(..length).unwrap_or(&[]);
        b.check("a cut case", stored_lines(cut).0.is_empty());
        let behind = [&bad, cut].concat();
        b.check("a cut case behind", stored_lines(&behind).0 == refused);
    }
    b.check("the first entry's place", good.get(158..161) == Some(&[4, 0, 0][..]));
    for kind in 4..=255 {
        let mut other = good.clone();
        put(&mut other, 160, kind);
        let input = [good.clone(), other, good.clone()].concat();
        b.check("another kind", stored_lines(&input) == (text.to_string(), false));
    }
    for entry in entries.iter() {
        let bytes = entry_bytes(entry);
        let read = entry_image(&mut Fields::new(&bytes));
        b.check("an entry read", read.as_ref() == Some(entry));
    }
}

// ---------------------------------------------------------------------------------------------
// The selftest: the printed run
// ---------------------------------------------------------------------------------------------

// The printed run of chart A; "An empty trace prints the tally alone, all cases not run."
fn check_printed(b: &mut Bench) {
    let began = "0 0000000000000001 00000000 0000000000000000\n";
    let first = "1 0000000000000002 00000003 0000000000000001\n";
    let second = "2 0000000000000001 00000000 0000000000000002\n";
    let passed = "passed 1 failed 0 notrun 0\n";
    let notrun = "passed 0 failed 0 notrun 1\n";
    let trace = [start_record(1000), cycle_record(1010, 1), cycle_record(1510, 2)];
    b.prints("chart A's trace", &trace, &[began, first, second, passed].concat());
    b.prints("empty trace", &[], notrun);
    b.prints("start alone", &[start_record(0)], &[began, notrun].concat());
    let trace = [start_record(1000), cycle_record(999, 1), cycle_record(1010, 1)];
    let printed = [began, "1 refused 11\n", "2 0000000000000002 00000003 0000000000000001\n"];
    b.prints("a refused cycle", &trace, &[&printed.concat(), notrun].concat());
    let full = [step(1).repeat(64), action(0, 0).repeat(32)].concat();
    let blocks: Vec<Vec<u8>> = (0..32).map(|k| block(63, k, 0, 0)).collect();
    let file = [full, blocks.concat(), end()].concat();
    let printed = "0 ffffffffffffffff ffffffff 0000000000000000\npassed 0 failed 0 notrun 0\n";
    b.check("all hex digits", bench_run(Some(&file), &start_record(9)) == printed.as_bytes());
}

// Request (vi): "bench-run, when an accepted cycle takes nothing, prints a second line with the
// reason of every transition in number order as one digit"
fn check_printed_second(b: &mut Bench) {
    let began = "0 0000000000000001 00000000 0000000000000000\n";
    let first = "1 0000000000000002 00000003 0000000000000001\n";
    let second = "2 0000000000000002 00000003 0000000000000000\n14\n";
    let notrun = "passed 0 failed 0 notrun 1\n";
    let trace = [start_record(1000), cycle_record(1010, 1), cycle_record(1509, 2)];
    b.prints("chart A, last 1509", &trace, &[began, first, second, notrun].concat());
    let third = "3 0000000000000001 00000000 0000000000000002\n";
    let fourth = "4 0000000000000001 00000000 0000000000000000\n31\n";
    let passed = "passed 1 failed 0 notrun 0\n";
    let trace = [trace.concat(), cycle_record(1510, 2), cycle_record(1511, 2)];
    let printed = [began, first, second, third, fourth, passed].concat();
    b.prints("chart A, and two more", &trace, &printed);
    let trace = [start_record(1000), cycle_record(1000, 0), vec![8]];
    let idle = "1 0000000000000001 00000000 0000000000000000\n31\n";
    b.prints("before a bad record", &trace, &[began, idle, "refused trace 16\n"].concat());
    let moves = [
        transition(4, 1, 0, 0, 0),
        transition(1, 4, 1, 0, 0),
        transition(1, 4, 0, 0, 10),
        transition(1, 2, 0, 0, 0),
    ];
    let file = [step(1), step(1), step(0), moves.concat(), end()].concat();
    let trace = [start_record(0), cycle_record(9, 0)].concat();
    let lines = [
        "0 0000000000000003 00000000 0000000000000000\n",
        "1 0000000000000003 00000000 0000000000000000\n1345\n",
        "passed 0 failed 0 notrun 0\n",
    ];
    b.check("1, 3, 4 and 5", bench_run(Some(&file), &trace) == lines.concat().as_bytes());
    let file = [step(1), step(1), transition(1, 2, 0, 0, 0).repeat(64), end()].concat();
    let fives = "5".repeat(64) + "\n";
    let idle = "1 0000000000000003 00000000 0000000000000000\n";
    let [start, _, tally] = lines;
    let lines = [start, idle, &fives, tally];
    b.check("64 digits", bench_run(Some(&file), &trace) == lines.concat().as_bytes());
}

// Request (vi): "when an accepted cycle takes nothing" (none after a start, a refused cycle or one
// that takes something; an empty one for a chart without transitions)
fn check_printed_no_second(b: &mut Bench) {
    let began = "0 0000000000000001 00000000 0000000000000000\n";
    let none = "passed 0 failed 0 notrun 0\n";
    let file = [step(1), end()].concat();
    let print = |trace: &[Vec<u8>]| bench_run(Some(&file), &trace.concat());
    let trace = [start_record(0), cycle_record(1, 0)];
    let idle = "1 0000000000000001 00000000 0000000000000000\n\n";
    b.check("an empty second line", print(&trace) == [began, idle, none].concat().as_bytes());
    let trace = [start_record(0)];
    b.check("none after a start", print(&trace) == [began, none].concat().as_bytes());
    let trace = [start_record(1), cycle_record(0, 0)];
    let printed = [began, "1 refused 11\n", none].concat();
    b.check("none after a refused cycle", print(&trace) == printed.as_bytes());
    let trace = [start_record(1), cycle_record(0, 0), cycle_record(1, 0), cycle_record(0, 0)];
    let idle = "2 0000000000000001 00000000 0000000000000000\n\n";
    let printed = [began, "1 refused 11\n", idle, "3 refused 11\n", none].concat();
    b.check("an empty one between refused cycles", print(&trace) == printed.as_bytes());
    let notrun = "passed 0 failed 0 notrun 1\n";
    b.prints("chart A, none after a start", &[start_record(7)], &[began, notrun].concat());
    let trace = [start_record(7), cycle_record(6, 1), cycle_record(60_008, 1)];
    let printed = [began, "1 refused 11\n2 refused 11\n", notrun].concat();
    b.prints("chart A, none after a refused cycle", &trace, &printed);
    let moves = [transition(1, 4, 0, 0, 0), transition(2, 4, 0, 0, 0)].concat();
    let file = [step(1), step(1), step(0), moves, end()].concat();
    let trace = [start_record(0), cycle_record(1, 0), cycle_record(2, 0)].concat();
    let lines = [
        "0 0000000000000003 00000000 0000000000000000\n",
        "1 0000000000000006 00000000 0000000000000001\n",
        "2 0000000000000006 00000000 0000000000000000\n15\n",
        none,
    ];
    b.check("none if one is taken", bench_run(Some(&file), &trace) == lines.concat().as_bytes());
}

// Row 16; "A chart file that can't be opened counts as empty; of a longer one the first 65,536
// bytes are read, and they decide"
fn check_printed_refusals(b: &mut Bench) {
    let began = "0 0000000000000001 00000000 0000000000000000\n";
    let refused = "refused trace 16\n";
    let both = [began, refused].concat();
    let good = || start_record(0);
    b.prints("trace head cut", &[vec![4, 0, 17]], refused);
    b.prints("start cut", &[vec![4, 0, 17, 0, 1, 2, 3]], refused);
    b.prints("cycle first", &[cycle_record(0, 0)], refused);
    b.prints("second start", &[good(), start_record(0)], &both);
    b.prints("cycle cut", &[good(), vec![8, 0, 16, 0, 0, 0, 0, 0, 0, 0, 0]], &both);
    b.prints("cycle head cut", &[good(), vec![8]], &both);
    b.prints("unknown kind", &[good(), record(15, &[0; 8])], &both);
    b.prints("kind 0", &[good(), record(0, &[])], &both);
    b.prints("start of 8", &[record(17, &[0; 8])], refused);
    b.prints("cycle of 4", &[good(), record(16, &[0; 4])], &both);
    b.prints("stops there", &[good(), record(16, &[]), cycle_record(0, 0)], &both);
    b.check("no file", bench_run(None, &good()) == b"refused chart 1\n");
    b.check("empty file", bench_run(Some(&[]), &good()) == b"refused chart 1\n");
    b.check("chart first", bench_run(Some(&end()), &[1]) == b"refused chart 9\n");
    let surplus = [chart_a(), vec![0]].concat();
    b.check("surplus byte", bench_run(Some(&surplus), &good()) == b"refused chart 10\n");
    let long = [chart_a(), vec![0; 70_000]].concat();
    b.check("long file", bench_run(Some(&long), &[]) == b"refused chart 10\n");
}

// Row 16: "begins at byte 65,528 or later"; 8 + 12 * 5,460 = 65,528; request (vi): "... when an
// accepted cycle takes nothing, prints a second line" (each of these takes nothing)
fn check_trace_length(b: &mut Bench) {
    let most = [start_record(0), cycle_record(0, 0).repeat(5460)].concat();
    b.check("longest trace", most.len() == 65_528);
    let text = String::from_utf8(bench_run(Some(&chart_a()), &most)).unwrap_or_default();
    b.check("longest trace, lines", text.lines().count() == 1 + 2 * 5460 + 1);
    b.check("longest trace, tally", text.ends_with("\npassed 0 failed 0 notrun 1\n"));
    let more = [most, cycle_record(0, 0)].concat();
    let text = String::from_utf8(bench_run(Some(&chart_a()), &more)).unwrap_or_default();
    let last = "\n5460 0000000000000001 00000000 0000000000000000\n31\nrefused trace 16\n";
    b.check("one record more", text.lines().count() == 10_922 && text.ends_with(last));
}
