//! The comparison: many inputs, many calls on each, all answers against this program's own.

use crate::driver::{self, escape, Answers, Call, Case, Difference, Head, Part, Tally};
use crate::each;
use crate::hits::{Hits, Mark, Walked};
use crate::inputs::{self, Input};
use crate::interchange::{check, close, open, survey, walk, Step};
use crate::kinds::Kind;
use crate::make::{self, extents};
use crate::make_advice;
use crate::make_hits;
use crate::message::{self, Lists};
use crate::random::Random;
use crate::report;
use crate::rewrite::{plain, plain_segment};
use crate::syntax::{self, has_una, service, MOST_BYTES};
use crate::tables::tables;
use std::collections::BTreeMap;

pub struct Options {
    pub driver: Vec<String>,
    pub payreport: Vec<String>,
    pub cases: usize,
    /// How many interchanges have messages hit (W-213).
    pub hits: usize,
    pub reports: usize,
    pub seed: u64,
    /// How many differences are shown in full.
    pub show: usize,
    /// Where inputs that differ are kept, if anywhere.
    pub keep: Option<String>,
    pub limits: bool,
}

/// Lists that are long enough for every message of the comparison that can be accepted.
pub const AMPLE: Lists = Lists { rows: 12_000, starts: 12_000, totals: 2_000 };

/// What a message needs of the lists: segments, segments, LIN tags; a debit advice none of the last (as far
/// as AMPLE goes: a message that needs more has too many segments).
fn need(message: &[u8], service: syntax::Service) -> Lists {
    let spans = syntax::spans(message, 0, false, service);
    let unh = spans.first().map(|s| syntax::elements(&message[s.start..s.end], service));
    let lins = match unh.and_then(|unh| message::kind(&unh)) {
        Some(Kind::Debmul) => 0,
        _ => spans.iter().filter(|s| syntax::tag(&message[s.start..s.end], service) == b"LIN").count(),
    };
    let segments = spans.len().min(AMPLE.rows);
    Lists { rows: segments, starts: segments, totals: lins.min(AMPLE.rows) }
}

/// Lists that suffice: exactly, or with more room.
fn enough(random: &mut Random, need: Lists) -> Lists {
    let mut more = |n: usize| n + random.pick(&[0, 0, 1, 2, 7]);
    Lists { rows: more(need.rows), starts: more(need.starts), totals: more(need.totals) }
}

/// Lists of which one is too short, by one entry or by all.
fn one_short(random: &mut Random, need: Lists) -> Lists {
    let mut lists = enough(random, need);
    let by_one = random.chance(80);
    let short = |needed: usize| if by_one { needed.saturating_sub(1) } else { 0 };
    match random.below(3) {
        0 => lists.rows = short(need.rows),
        1 => lists.starts = short(need.starts),
        _ => lists.totals = short(need.totals),
    }
    lists
}

/// Lists for a message: mostly enough.
pub fn some_lists(random: &mut Random, message: &[u8], service: syntax::Service) -> Lists {
    let need = need(message, service);
    if random.chance(80) {
        enough(random, need)
    } else {
        one_short(random, need)
    }
}

/// The calls to make on an input.
fn plan(random: &mut Random, input: &Input, every_position: bool) -> Case {
    let bytes = &input.bytes;
    let small = bytes.len() < 40_000;
    let mut calls: Vec<(u8, Call)> = Vec::new();
    let place = |random: &mut Random| random.pick(&[0u8, 0, 1, 1, 2, 3]);
    calls.push((0, Call::Open));
    calls.push((0, Call::Close));

    // the walk, from 0 to the end; each message also by itself
    let mut at = 0u64;
    let mut found = 0;
    let mut stops = Vec::new();
    loop {
        stops.push(at);
        let step = walk(bytes, at, AMPLE);
        let Step::Found(extent, _) = step else {
            calls.push((place(random), Call::Walk { at, lists: Lists { rows: 3, starts: 3, totals: 1 } }));
            break;
        };
        found += 1;
        let service = service(bytes).unwrap();
        let need = need(&bytes[extent.start..extent.end], service);
        let (offset, length) = (extent.start, extent.end - extent.start);
        calls.push((place(random), Call::Walk { at, lists: enough(random, need) }));
        if small || found <= 3 {
            if random.chance(20) {
                calls.push((place(random), Call::Walk { at, lists: one_short(random, need) }));
            }
            let head = match random.below(4) {
                0 => Head::Whole,
                1 => Head::Bytes(bytes[..bytes.len().min(9)].to_vec()),
                2 if !has_una(bytes) => Head::Bytes(Vec::new()),
                _ => Head::Bytes(bytes[..bytes.len().min(9 + random.below(20))].to_vec()),
            };
            let part = if random.chance(30) { Part::Inside(offset, length) } else { Part::Copied(offset, length) };
            calls.push((place(random), Call::Check { head: head.clone(), part: part.clone(), lists: need }));
            calls.push((
                place(random),
                Call::Check { head: head.clone(), part: part.clone(), lists: one_short(random, need) },
            ));
            if random.chance(25) {
                calls.push((place(random), Call::Check { head, part, lists: enough(random, need) }));
            }
        }
        at = extent.end as u64;
        if found >= 40 && !small {
            break;
        }
    }

    // several positions at once
    for (positions, room) in each::calls(random, bytes, &stops, every_position) {
        calls.push((place(random), Call::WalkEach { positions, room }));
    }

    // other positions
    let length = bytes.len();
    if every_position {
        let lists = random.pick(&[
            Lists { rows: 200, starts: 200, totals: 10 },
            Lists { rows: 20, starts: 20, totals: 2 },
            Lists { rows: 0, starts: 0, totals: 0 },
        ]);
        calls.push((place(random), Call::WalkAll { from: 0, to: length + 2, lists }));
    } else if small || random.chance(50) {
        for _ in 0..if small { 4 } else { 1 } {
            let at = random.below(length + 1) as u64;
            calls.push((place(random), Call::Walk { at, lists: Lists { rows: 60, starts: 60, totals: 5 } }));
        }
    }
    for at in [length as u64, length as u64 + 1, u64::MAX, (1 << 32) + random.below(length + 1) as u64, 1 << 63] {
        if random.chance(25) {
            calls.push((place(random), Call::Walk { at, lists: Lists { rows: 60, starts: 60, totals: 5 } }));
        }
    }

    // any bytes as a message, any bytes as a head
    if small {
        for _ in 0..2 {
            let from = random.below(length + 1);
            let to = random.between(from, length);
            let head =
                if random.chance(70) { Head::Whole } else { Head::Bytes(bytes[random.below(length + 1)..].to_vec()) };
            let part =
                if random.chance(30) { Part::Bytes(bytes[from..to].to_vec()) } else { Part::Copied(from, to - from) };
            calls.push((place(random), Call::Check { head, part, lists: Lists { rows: 60, starts: 60, totals: 5 } }));
        }
    } else {
        let lists = Lists { rows: 60, starts: 60, totals: 5 };
        calls.push((place(random), Call::Check { head: Head::Whole, part: Part::Copied(0, length), lists }));
        calls.push((place(random), Call::Check { head: Head::Whole, part: Part::Copied(0, 500), lists }));
        calls.push((
            place(random),
            Call::Check {
                head: Head::Bytes(b"UNA".to_vec()),
                part: Part::Copied(0, length),
                lists: Lists { rows: 0, starts: 0, totals: 0 },
            },
        ));
    }

    // rewriting, with rooms around what is needed
    let needed = plain(bytes).map(|p| p.len()).unwrap_or(length);
    let mut rooms = vec![needed];
    if small || random.chance(30) {
        rooms.extend([0, needed.saturating_sub(1), needed + 1, needed + random.below(100)]);
    }
    for room in rooms {
        calls.push((place(random), Call::Rewrite { room }));
    }
    let place = place(random);
    Case { label: input.label.clone(), bytes: bytes.clone(), place, calls }
}

/// What document 01 says of this program's own answers on an input; a sentence for each that fails.
fn own_laws(input: &Input) -> Vec<String> {
    let bytes = &input.bytes;
    let mut wrong = Vec::new();
    let Ok(opened) = open(bytes) else { return wrong };
    let result = plain(bytes).unwrap();
    if let Some(segments) = &input.segments {
        let written: Vec<u8> = segments.iter().flat_map(|s| plain_segment(&s.elements)).collect();
        if written != result {
            wrong.push("the plain bytes are not those of the values written".to_string());
        }
    }
    let (messages, _) = survey(bytes, &opened);
    let numbers = |bytes: &[u8]| -> Vec<(u32, u32)> {
        let (mut at, mut all) = (0, Vec::new());
        while let Step::Found(extent, report) = walk(bytes, at, AMPLE) {
            all.push((report.fault.0, report.fault.1));
            at = extent.end as u64;
            if all.len() == 200 {
                break;
            }
        }
        all
    };
    let before = numbers(bytes);
    if before.len() != messages.len().min(200) {
        wrong.push("the walk does not find the messages that closing counts".to_string());
    }
    // the segments were made for certain rows, and the charts leave no choice
    if let (true, Some(segments)) = (input.good, &input.segments) {
        let made: Vec<Vec<u16>> = extents(segments)
            .into_iter()
            .map(|(from, to)| segments[from..to].iter().map(|s| s.row).collect())
            .collect();
        let read: Vec<Vec<u16>> = messages.iter().map(|m| check(bytes, &bytes[m.start..m.end], AMPLE).rows).collect();
        if made != read {
            wrong.push("the rows are not those that the segments were made for".to_string());
        }
    }
    if input.good && (before.iter().any(|n| n.0 != 0) || close(bytes).number != 0) {
        wrong.push(format!("a good interchange is refused: {before:?} {:?}", close(bytes)));
    }
    if result.len() <= MOST_BYTES {
        if plain(&result).as_ref() != Ok(&result) {
            wrong.push("rewriting the plain bytes changes them".to_string());
        }
        if numbers(&result) != before {
            wrong.push("rewriting changes a message's number or segment".to_string());
        }
        if close(&result) != close(bytes) {
            wrong.push("rewriting changes the closing".to_string());
        }
    }
    wrong
}

/// What was counted of interchanges with messages hit.
#[derive(Default)]
struct HitCounts {
    interchanges: u64,
    near: u64,
    far: u64,
    /// Hit directly after another that is hit, and those of them where that one is hit far.
    neighbours: u64,
    after_far: u64,
    /// Whole messages found again: in this program's answers, and in the library's.
    own: u64,
    library: u64,
    /// The messages directly after one hit far.
    next_found: u64,
    next_lost: u64,
    /// Interchanges whose last message is hit far.
    refused: u64,
    opened: u64,
}

impl HitCounts {
    fn count(&mut self, hits: &Hits, after: &Walked<Step>) {
        self.interchanges += 1;
        let found = after.found();
        let hit = |mark: &Mark| mark.stretch().is_some();
        for (i, mark) in hits.marks.iter().enumerate() {
            match mark {
                Mark::Whole => {}
                Mark::Near(_) => self.near += 1,
                Mark::Far(_) => self.far += 1,
                Mark::Next if found.contains(&hits.moved(i)) => self.next_found += 1,
                Mark::Next => self.next_lost += 1,
            }
            self.neighbours += u64::from(i > 0 && hit(mark) && hit(&hits.marks[i - 1]));
            self.after_far += u64::from(i > 0 && hit(mark) && matches!(hits.marks[i - 1], Mark::Far(_)));
        }
        if hits.last_far() {
            match after.opening {
                0 => self.opened += 1,
                4 => self.refused += 1,
                _ => {}
            }
        }
    }

    /// Prints the counts; whether each of them was met.
    fn summary(&self, called: bool) -> bool {
        println!(
            "messages hit: in {} interchanges, before the UNT {}, up to its terminator {}, directly after another hit {}, one hit up to its terminator {}",
            self.interchanges, self.near, self.far, self.neighbours, self.after_far
        );
        println!(
            "  whole messages found again {}, by the library {}; next to one hit up to its terminator: found {}, lost {}",
            self.own, self.library, self.next_found, self.next_lost
        );
        println!("  the last one hit up to its terminator: refused by 4 {}, opened {}", self.refused, self.opened);
        let own = [self.interchanges, self.near, self.far, self.neighbours, self.after_far, self.own];
        let rest = [self.next_found, self.next_lost, self.refused, self.opened];
        own.iter().chain(&rest).all(|n| *n > 0) && (!called || self.library == self.own)
    }
}

/// Everything that was counted.
struct Run<'a> {
    options: &'a Options,
    tally: Tally,
    inputs: u64,
    reports: u64,
    differences: u64,
    kinds: BTreeMap<String, u64>,
    batch: Vec<Case>,
    batch_calls: usize,
    batch_bytes: usize,
    /// How often the driver stopped before its last answer.
    stops: u64,
    hits: HitCounts,
}

impl Run<'_> {
    fn add(&mut self, case: Case) {
        let calls: usize = case
            .calls
            .iter()
            .map(|(_, c)| match c {
                Call::WalkAll { from, to, .. } => to - from,
                Call::WalkEach { positions, .. } => positions.len().max(1),
                _ => 1,
            })
            .sum();
        self.batch_calls += calls;
        self.batch_bytes += case.bytes.len() * case.calls.len().min(20);
        self.batch.push(case);
        if self.batch_calls > 100_000 || self.batch_bytes > 60_000_000 {
            self.flush();
        }
    }

    /// Runs the driver on the cases gathered, and compares.
    fn flush(&mut self) {
        let mut cases = std::mem::take(&mut self.batch);
        self.batch_calls = 0;
        self.batch_bytes = 0;
        while !cases.is_empty() {
            let mut requests = Vec::new();
            cases.iter().for_each(|c| c.requests(&mut requests));
            let (output, errors, _) = driver::run(&self.options.driver, &requests);
            let mut answers = Answers::new(&output);
            let mut done = 0;
            for case in &cases {
                let mut differences = Vec::new();
                let before = self.tally.calls;
                let complete = driver::compare(case, &mut answers, &mut self.tally, &mut differences).is_some();
                done += 1;
                if !complete {
                    let call = self.tally.calls - before;
                    differences.push(Difference {
                        call: format!("call {call} (from 0) of this input"),
                        must: "an answer".to_string(),
                        is: format!("the driver stopped: {errors}"),
                    });
                }
                self.found(case, differences);
                if !complete {
                    self.stops += 1;
                    break;
                }
            }
            if done == cases.len() && !answers.all_read() {
                panic!("the driver gave more answers than were asked for");
            }
            // after a stop, go on with the cases behind it; but not for ever
            cases.drain(..done);
            if self.stops >= 40 {
                println!("the driver stopped {} times; the comparison ends here", self.stops);
                std::process::exit(1);
            }
        }
    }

    fn found(&mut self, case: &Case, differences: Vec<Difference>) {
        for (i, difference) in differences.into_iter().enumerate() {
            self.differences += 1;
            if self.differences > self.options.show as u64 || i >= 3 {
                continue;
            }
            println!("DIFFERENCE {} ({})", self.differences, case.label);
            println!("  input: \"{}\"", escape(&case.bytes, 3000));
            println!("  call:  {}", difference.call);
            println!("  must:  {}", difference.must);
            println!("  is:    {}", difference.is);
            if i == 0 {
                if let Some(folder) = &self.options.keep {
                    let path = format!("{folder}/difference-{}.edi", self.differences);
                    std::fs::write(&path, &case.bytes).unwrap();
                    println!("  kept:  {path}");
                }
                if case.bytes.len() < 20_000 {
                    let (smaller, shown) = self.minimised(case);
                    if let Some(shown) = shown {
                        println!("  smaller input: \"{}\"", escape(&smaller, 3000));
                        println!("    call: {}\n    must: {}\n    is:   {}", shown.call, shown.must, shown.is);
                    }
                }
            }
        }
    }

    /// Makes an input that shows a difference smaller, as long as some call of a fixed set still differs.
    fn minimised(&self, case: &Case) -> (Vec<u8>, Option<Difference>) {
        let ample = Lists { rows: 400, starts: 400, totals: 50 };
        let fixed = |bytes: &[u8]| -> Case {
            let mut calls = vec![(0, Call::Open), (0, Call::Close)];
            if bytes.len() <= 400 {
                calls.push((0, Call::WalkAll { from: 0, to: bytes.len() + 2, lists: ample }));
                let positions: Vec<u64> = (0..=bytes.len() as u64 + 2).collect();
                let room = positions.len();
                calls.push((0, Call::WalkEach { positions, room }));
            } else {
                let (mut at, mut count) = (0, 0);
                while let Step::Found(extent, _) = walk(bytes, at, ample) {
                    calls.push((0, Call::Walk { at, lists: ample }));
                    calls.push((
                        0,
                        Call::Check {
                            head: Head::Whole,
                            part: Part::Copied(extent.start, extent.end - extent.start),
                            lists: ample,
                        },
                    ));
                    at = extent.end as u64;
                    count += 1;
                    if count == 20 {
                        break;
                    }
                }
                calls.push((0, Call::Walk { at, lists: ample }));
            }
            let room = plain(bytes).map(|p| p.len()).unwrap_or(0);
            calls.push((0, Call::Rewrite { room }));
            Case { label: String::new(), bytes: bytes.to_vec(), place: 0, calls }
        };
        // which of these inputs differ, and the first difference of each
        let differing = |all: &[Vec<u8>]| -> Vec<Option<Difference>> {
            let cases: Vec<Case> = all.iter().map(|b| fixed(b)).collect();
            let mut requests = Vec::new();
            cases.iter().for_each(|c| c.requests(&mut requests));
            let (output, errors, _) = driver::run(&self.options.driver, &requests);
            let mut answers = Answers::new(&output);
            let mut stopped = false;
            cases
                .iter()
                .map(|case| {
                    let mut differences = Vec::new();
                    if !stopped
                        && driver::compare(case, &mut answers, &mut Tally::default(), &mut differences).is_none()
                    {
                        stopped = true;
                        differences.push(Difference {
                            call: "some call".to_string(),
                            must: "an answer".to_string(),
                            is: format!("the driver stopped: {errors}"),
                        });
                    }
                    differences.into_iter().next()
                })
                .collect()
        };
        let mut bytes = case.bytes.clone();
        let mut shown = differing(&[bytes.clone()]).remove(0);
        if shown.is_none() {
            return (bytes, None);
        }
        let mut piece = bytes.len().div_ceil(2);
        for _ in 0..200 {
            let candidates: Vec<Vec<u8>> = (0..bytes.len())
                .step_by(piece.max(1))
                .map(|from| [&bytes[..from], &bytes[(from + piece).min(bytes.len())..]].concat())
                .collect();
            let results = differing(&candidates);
            match results.into_iter().enumerate().find(|(_, r)| r.is_some()) {
                Some((i, result)) => {
                    bytes = candidates[i].clone();
                    shown = result;
                    piece = piece.min(bytes.len().max(1));
                }
                None if piece <= 1 => break,
                None => piece = piece.div_ceil(2),
            }
        }
        (bytes, shown)
    }

    fn input(&mut self, random: &mut Random, input: &Input, limit: bool) {
        self.inputs += 1;
        let kind = input.label.split(' ').next().unwrap_or("").to_string();
        *self.kinds.entry(if limit { "limits".to_string() } else { kind }).or_default() += 1;
        for wrong in own_laws(input) {
            self.differences += 1;
            println!(
                "THIS PROGRAM'S OWN ANSWERS ({}): {wrong}\n  input: \"{}\"",
                input.label,
                escape(&input.bytes, 3000)
            );
        }
        if self.options.driver.is_empty() {
            return;
        }
        let share = match input.bytes.len() {
            0..=130 => 100,
            131..=500 => 40,
            501..=1_500 => 10,
            1_501..=4_000 => 2,
            _ => 0,
        };
        let every_position = random.chance(share);
        let case = plan(random, input, every_position);
        self.add(case);
        // the rewritten bytes are an input too
        if random.chance(20) && input.bytes.len() < 100_000 {
            if let Ok(bytes) = plain(&input.bytes) {
                let again =
                    Input { label: format!("{} rewritten", input.label), bytes, segments: None, good: input.good };
                let case = plan(random, &again, false);
                self.add(case);
            }
        }
    }

    /// Interchanges with messages hit: inputs as any other, and W-213's claim on them, for this program's answers and
    /// for the library's.
    fn hits(&mut self, random: &mut Random) {
        let mut waiting = Vec::new();
        for i in 0..self.options.hits {
            let hits = make_hits::hits(random, i % 300 == 0);
            let input = Input { label: "hit".to_string(), bytes: hits.damaged.clone(), segments: None, good: false };
            self.input(random, &input, false);
            let [before, after] = hits.own_answers();
            self.hits.count(&hits, &after);
            match hits.opens_alike().and_then(|()| hits.claim(&before, &after)) {
                Ok(wholes) => self.hits.own += wholes as u64,
                Err(wrong) => self.harmed(&hits, "this program", &wrong),
            }
            waiting.push((hits, [before, after]));
            if waiting.len() == 200 {
                self.ask_library(random, &std::mem::take(&mut waiting));
            }
        }
        self.ask_library(random, &waiting);
    }

    /// The claim for the library: the same calls as for this program, its answers before the damage against its answers
    /// after.
    fn ask_library(&mut self, random: &mut Random, waiting: &[(Hits, [Walked<Step>; 2])]) {
        if self.options.driver.is_empty() {
            return;
        }
        let mut requests = Vec::new();
        for (hits, [before, after]) in waiting {
            before.case(&hits.bytes, random.below(2) as u8).requests(&mut requests);
            after.case(&hits.damaged, random.below(2) as u8).requests(&mut requests);
        }
        let (output, errors, _) = driver::run(&self.options.driver, &requests);
        let mut answers = Answers::new(&output);
        for (hits, [before, after]) in waiting {
            let (Some(before), Some(after)) = (before.answered(&mut answers), after.answered(&mut answers)) else {
                self.harmed(hits, "the library", &format!("the driver stopped: {errors}"));
                return;
            };
            match hits.claim(&before, &after) {
                Ok(wholes) => self.hits.library += wholes as u64,
                Err(wrong) => self.harmed(hits, "the library", &wrong),
            }
        }
        assert!(answers.all_read(), "the driver gave more answers than were asked for");
    }

    fn harmed(&mut self, hits: &Hits, whose: &str, wrong: &str) {
        self.differences += 1;
        if self.differences > self.options.show as u64 {
            return;
        }
        println!("DIFFERENCE {} (messages hit, answers of {whose}): {wrong}", self.differences);
        println!("  before: \"{}\"", escape(&hits.bytes, 3000));
        for stretch in hits.marks.iter().filter_map(Mark::stretch) {
            println!("  {}..{} becomes \"{}\"", stretch.from, stretch.upto, escape(&stretch.put, 500));
        }
        println!("  after:  \"{}\"", escape(&hits.damaged, 3000));
    }

    fn report(&mut self, input: &Input) {
        self.reports += 1;
        let must = report::report(&input.bytes);
        let (is, errors, ended) = driver::run(&self.options.payreport, &input.bytes);
        if is != must.as_bytes() || !ended {
            self.differences += 1;
            if self.differences <= self.options.show as u64 {
                println!("DIFFERENCE {} (payreport, {})", self.differences, input.label);
                println!("  input: \"{}\"", escape(&input.bytes, 3000));
                println!("  must print:\n{must}  prints:\n{}  {errors}", String::from_utf8_lossy(&is));
                if let Some(folder) = &self.options.keep {
                    std::fs::write(format!("{folder}/difference-{}.edi", self.differences), &input.bytes).unwrap();
                }
            }
        }
    }
}

/// Runs the comparison; true if nothing differs and every number was met.
pub fn run(options: &Options) -> bool {
    let mut random = Random::new(options.seed);
    let mut run = Run {
        options,
        tally: Tally::default(),
        inputs: 0,
        reports: 0,
        differences: 0,
        kinds: BTreeMap::new(),
        batch: Vec::new(),
        batch_calls: 0,
        batch_bytes: 0,
        stops: 0,
        hits: HitCounts::default(),
    };

    if options.limits {
        for input in inputs::limits(&mut random) {
            run.input(&mut random, &input, true);
            if !options.payreport.is_empty()
                && input.label.starts_with("report")
                && (!input.label.contains("cut") || random.chance(20))
            {
                run.report(&input);
            }
        }
    }
    if options.limits && !options.driver.is_empty() {
        for (name, messages) in tables(&mut random) {
            for some in messages.chunks(400) {
                let check = |message: &Vec<u8>| Call::Check {
                    head: Head::Whole,
                    part: Part::Bytes(message.clone()),
                    lists: need(message, syntax::PLAIN),
                };
                let calls = some.iter().enumerate().map(|(i, message)| ((i % 2) as u8, check(message))).collect();
                run.add(Case { label: format!("table of {name}"), bytes: Vec::new(), place: 2, calls });
            }
            *run.kinds.entry(format!("table of {name}")).or_default() += messages.len() as u64;
            run.inputs += messages.len() as u64;
        }
    }
    if options.limits && !options.driver.is_empty() {
        run.add(lent_lists(&mut random));
    }
    if options.limits && !options.driver.is_empty() {
        for bytes in inputs::envelopes() {
            let room = plain(&bytes).map_or(0, |p| p.len());
            let calls = vec![(0, Call::Open), (0, Call::Close), (1, Call::Rewrite { room })];
            run.add(Case { label: "envelopes".to_string(), bytes, place: (run.inputs % 2) as u8, calls });
            run.inputs += 1;
            *run.kinds.entry("envelopes".to_string()).or_default() += 1;
        }
    }
    let every = options.cases.checked_div(options.reports).unwrap_or(0).max(1);
    for i in 0..options.cases {
        let input = inputs::random_input(&mut random);
        run.input(&mut random, &input, false);
        if !options.payreport.is_empty() && options.reports > 0 && i % every == 0 {
            run.report(&input);
        }
    }
    run.hits(&mut Random::new(options.seed));
    run.flush();
    summary(&run)
}

/// An order message and an advice of three lines each, with lists of every length around what they need.
fn lent_lists(random: &mut Random) -> Case {
    let mut calls = Vec::new();
    for message in [make::many_orders(3), make_advice::many_lines(3)] {
        let message = make::write(random, &message, &make::PLAIN_STYLE);
        let segments = need(&message, syntax::PLAIN).rows;
        for rows in [0, segments - 1, segments, segments + 1] {
            for starts in [0, segments - 1, segments, segments + 1] {
                for totals in 0..=4 {
                    let lists = Lists { rows, starts, totals };
                    let place = random.below(4) as u8;
                    calls.push((place, Call::Check { head: Head::Whole, part: Part::Bytes(message.clone()), lists }));
                }
            }
        }
    }
    Case { label: "lent lists".to_string(), bytes: Vec::new(), place: 0, calls }
}

fn summary(run: &Run) -> bool {
    let tally = &run.tally;
    let mut missing = Vec::new();
    println!(
        "accepted messages {}, of these debit advices {}; opened {}, closed with 0 {}, rewritten {}, none left {}",
        tally.numbers[0], tally.advices, tally.opened, tally.closed, tally.rewritten, tally.none_left
    );
    println!("refusal  times");
    for number in (1..=31).filter(|n| *n != 15 && *n != 19) {
        println!("{number:>7}  {}", tally.numbers[number]);
        if tally.numbers[number] == 0 {
            missing.push(number);
        }
    }
    let kinds: Vec<String> = run.kinds.iter().map(|(kind, count)| format!("{kind} {count}")).collect();
    println!("inputs {} ({})", run.inputs, kinds.join(", "));
    println!("calls {}, payreport runs {}, differences {}", tally.calls, run.reports, run.differences);
    let called = !run.options.driver.is_empty();
    // of both types some must be accepted
    if tally.advices == 0 || tally.advices == tally.numbers[0] {
        missing.push(0);
    }
    if called && !missing.is_empty() {
        println!("never met: {missing:?}");
    }
    // without the inputs at the limits some numbers cannot be met
    let all_met = missing.is_empty();
    let each_met = !called || tally.each.summary();
    if !each_met {
        println!("several positions: some count is 0");
    }
    let hits_met = run.options.hits == 0 || run.hits.summary(called);
    if !hits_met {
        println!("messages hit: some count is 0, or the library's is another");
    }
    run.differences == 0 && each_met && hits_met && (!called || all_met || !run.options.limits)
}
