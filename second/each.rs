//! Several messages at once (W-203): lists of positions to ask for in one call, and the count of what was asked.

use crate::interchange::Step;
use crate::random::Random;
use crate::syntax::{has_una, service, spans};
use std::collections::BTreeSet;

/// Some position: one where the walk stopped, any within the bytes, or one above their length, of which the low 32
/// bits may be a position within.
fn some_position(random: &mut Random, stops: &[u64], length: usize) -> u64 {
    let within = random.below(length + 1) as u64;
    match random.below(10) {
        0..=4 if !stops.is_empty() => random.pick(stops),
        0..=7 => within,
        _ => random.pick(&[length as u64 + 1, u64::MAX, 1 << 63, (1 << 32) + within, u64::from(u32::MAX) + 1]),
    }
}

/// Some positions out of order, some of them named before.
fn some_positions(random: &mut Random, stops: &[u64], length: usize, most: usize) -> Vec<u64> {
    let mut positions: Vec<u64> = Vec::new();
    for _ in 0..random.below(most + 1) {
        let again = !positions.is_empty() && random.chance(25);
        let at = if again { random.pick(&positions) } else { some_position(random, stops, length) };
        positions.push(at);
    }
    random.shuffle(&mut positions);
    positions
}

/// How many answers there is room for: as many as positions, more, or one too few.
fn some_room(random: &mut Random, positions: usize) -> usize {
    match random.below(10) {
        0..=4 => positions,
        5..=7 => positions + random.pick(&[1, 2, 7]),
        8 => positions.saturating_sub(1),
        _ => random.below(positions + 1),
    }
}

/// The calls for several positions to make on an input: the positions of each, and the room for answers. `stops` are the
/// positions of the walk.
pub fn calls(random: &mut Random, bytes: &[u8], stops: &[u64], every_position: bool) -> Vec<(Vec<u64>, usize)> {
    let length = bytes.len();
    let small = length < 40_000;
    let mut calls = vec![(stops.to_vec(), stops.len()), (stops.to_vec(), stops.len().saturating_sub(1))];
    for _ in 0..if small { 2 } else { 1 } {
        let positions = some_positions(random, stops, length, if small { 9 } else { 2 });
        let room = some_room(random, positions.len());
        calls.push((positions, room));
    }
    if every_position {
        let mut positions: Vec<u64> = (0..=length as u64 + 2).collect();
        random.shuffle(&mut positions);
        let room = positions.len() + random.below(3);
        calls.push((positions, room));
    }
    calls
}

/// What was asked for.
#[derive(Default)]
pub struct Counts {
    calls: u64,
    /// Calls with no position, with more room than positions, and with less: 14.
    empty: u64,
    longer: u64,
    shorter: u64,
    /// Answers, and those of them by which a message is accepted or refused.
    answers: u64,
    accepted: u64,
    refused: u64,
    /// Positions named before in the same call, below the one before, inside a segment, above the length, and those of
    /// them that 32 bits do not hold.
    twice: u64,
    back: u64,
    inside: u64,
    above: u64,
    wide: u64,
}

impl Counts {
    pub fn call(&mut self, positions: &[u64], room: usize) {
        self.calls += 1;
        self.empty += u64::from(positions.is_empty());
        self.longer += u64::from(room > positions.len());
        self.shorter += u64::from(room < positions.len());
    }

    /// The answers of a call that was not refused.
    pub fn answers(&mut self, bytes: &[u8], positions: &[u64], steps: &[Step]) {
        self.answers += steps.len() as u64;
        for step in steps {
            if let Step::Found(_, report) = step {
                self.accepted += u64::from(report.fault.0 == 0);
                self.refused += u64::from(report.fault.0 != 0);
            }
        }
        let mut named = BTreeSet::new();
        self.twice += positions.iter().filter(|at| !named.insert(**at)).count() as u64;
        self.back += positions.windows(2).filter(|two| two[1] < two[0]).count() as u64;
        self.above += positions.iter().filter(|at| **at > bytes.len() as u64).count() as u64;
        self.wide += positions.iter().filter(|at| **at > u64::from(u32::MAX)).count() as u64;
        // a position inside a segment: behind its first byte and not behind its terminator
        if let (Some(service), true) = (service(bytes), bytes.len() < 2_000) {
            let from = if has_una(bytes) { 9 } else { 0 };
            let spans = spans(bytes, from, has_una(bytes), service);
            let inside = |at: &&u64| spans.iter().any(|s| (s.start as u64) < **at && **at < s.end as u64);
            self.inside += positions.iter().filter(inside).count() as u64;
        }
    }

    /// Prints the counts; whether each of them was met.
    pub fn summary(&self) -> bool {
        println!(
            "several positions: {} calls, with none {}, with longer lists {}, with shorter ones {}; answers {}, messages accepted {}, refused {}",
            self.calls, self.empty, self.longer, self.shorter, self.answers, self.accepted, self.refused
        );
        println!(
            "  positions named twice {}, out of order {}, inside a segment {}, above the length {}, of these above 32 bits {}",
            self.twice, self.back, self.inside, self.above, self.wide
        );
        let calls = [self.calls, self.empty, self.longer, self.shorter, self.answers, self.accepted, self.refused];
        let positions = [self.twice, self.back, self.inside, self.above, self.wide];
        calls.iter().chain(&positions).all(|n| *n > 0)
    }
}
