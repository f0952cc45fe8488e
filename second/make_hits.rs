//! Interchanges with odd things between their messages, and messages of them hit at random (see `hits.rs`).

use crate::compare::some_lists;
use crate::damage;
use crate::hits::{messages, Hits, Mark, Message, Stretch};
use crate::inputs;
use crate::interchange::open;
use crate::kinds::KINDS;
use crate::make::{self, Segment};
use crate::random::Random;
use crate::syntax::{Service, MOST_BYTES};

/// An interchange of which some message is hit; `longest`: as long after that as an interchange may be.
pub fn hits(random: &mut Random, longest: bool) -> Hits {
    loop {
        let bytes = if random.chance(25) { inputs::random_input(random).bytes } else { interchange(random) };
        let Ok(opened) = open(&bytes) else { continue };
        let all = messages(&bytes, &opened);
        let mut marks = marks(random, &bytes, opened.service, &all);
        if marks.iter().all(|m| m.stretch().is_none()) {
            continue;
        }
        let lists: Vec<_> =
            all.iter().map(|m| some_lists(random, &bytes[m.extent.start..m.extent.end], opened.service)).collect();
        if longest {
            let length = Hits::new(&bytes, marks.clone(), lists.clone()).damaged.len();
            fill(random, &mut marks, opened.service, MOST_BYTES - length);
        }
        let hits = Hits::new(&bytes, marks, lists);
        assert!(hits.allowed(), "marks against the premises");
        return hits;
    }
}

/// Puts so many bytes before what some stretch puts in: one long value, or many segments.
fn fill(random: &mut Random, marks: &mut [Mark], service: Service, more: usize) {
    let piece: &[u8] = random.pick(&[b"X" as &[u8], b"LIN+1'", b"'"]);
    let filling = with(piece, service).into_iter().cycle().take(more);
    let mut stretches: Vec<&mut Stretch> = marks
        .iter_mut()
        .filter_map(|m| match m {
            Mark::Near(stretch) | Mark::Far(stretch) => Some(stretch),
            Mark::Whole | Mark::Next => None,
        })
        .collect();
    let some = random.below(stretches.len());
    stretches[some].put.splice(0..0, filling);
}

/// A mark for each message, as the premises allow.
fn marks(random: &mut Random, bytes: &[u8], service: Service, messages: &[Message]) -> Vec<Mark> {
    let share = random.pick(&[20, 40, 75, 100]);
    let far = random.pick(&[0, 30, 60]);
    let mut marks = Vec::new();
    for (i, message) in messages.iter().enumerate() {
        let start = message.extent.start;
        let closed_before = i == 0 || messages[i - 1].trailer.is_some();
        let mark = match message.trailer {
            Some(trailer) if closed_before && random.chance(share) => {
                if random.chance(far) {
                    Mark::Far(stretch(random, bytes, service, start, trailer.unt))
                } else {
                    Mark::Near(stretch(random, bytes, service, start, trailer.before))
                }
            }
            _ if matches!(marks.last(), Some(Mark::Far(_))) => Mark::Next,
            _ => Mark::Whole,
        };
        marks.push(mark);
    }
    marks
}

/// A stretch between two places, often up to the last and often from the first.
fn stretch(random: &mut Random, bytes: &[u8], service: Service, start: usize, most: usize) -> Stretch {
    let near = |random: &mut Random, place: usize| place - random.below(6).min(place - start);
    let upto = match random.below(4) {
        0 | 1 => most,
        2 => near(random, most),
        _ => random.between(start, most),
    };
    let from = match random.below(4) {
        0 => start,
        1 => upto,
        2 => near(random, upto),
        _ => random.between(start, upto),
    };
    Stretch { from, upto, put: replacement(random, bytes, service) }
}

/// What may stand in a stretch, in the default characters.
const PIECES: [&[u8]; 26] = [
    b"?",
    b"'",
    b"?'",
    b"??'",
    b"''",
    b"+",
    b":",
    b"X",
    b"UNH",
    b"UNH'",
    b"U?NH'",
    b"'UNH+7+PAYMUL:D:96A:UN'",
    b"UNH+7+DEBMUL:D:96A:UN'",
    b"'UNT+2+7'",
    b"UNT'",
    b"UNT",
    b"'?UNT+2",
    b"'UNZ+1+R1'",
    b"UNZ'",
    b"UNB+UNOA:3+A+B+020107:1200+R1'",
    b"\r\n",
    b"'\r\n",
    b"'\n\r",
    b"?\r",
    b"LIN+1'",
    b"'UNH+7+PAYMUL:D:96A:UN'BGM'DTM'UNT+4+7'",
];

/// Bytes to put in: none, pieces, a part of the file, noise or many pieces; often with a release at the end.
fn replacement(random: &mut Random, bytes: &[u8], service: Service) -> Vec<u8> {
    let mut put = match random.below(20) {
        0..=3 => Vec::new(),
        4..=11 => pieces(random, service, 6),
        12..=14 => {
            let from = random.below(bytes.len());
            bytes[from..random.between(from, (from + 300).min(bytes.len()))].to_vec()
        }
        15 => b"UNA:+,? '".to_vec(),
        16 => b"UNA*|.! ~".to_vec(),
        17 => pieces(random, service, 200),
        _ => damage::noise(random),
    };
    if random.chance(45) {
        put.extend(service.release);
    }
    put
}

fn pieces(random: &mut Random, service: Service, most: usize) -> Vec<u8> {
    (0..random.between(1, most)).flat_map(|_| with(random.pick(&PIECES), service)).collect()
}

/// The same with these service characters for the default ones; a release that there is not is left out.
fn with(text: &[u8], service: Service) -> Vec<u8> {
    let one = |byte: &u8| match byte {
        b':' => Some(service.component),
        b'+' => Some(service.element),
        b'\'' => Some(service.terminator),
        b'?' => service.release,
        other => Some(*other),
    };
    text.iter().filter_map(one).collect()
}

/// An interchange of several messages: good ones and short ones, some unclosed, strays between them.
fn interchange(random: &mut Random) -> Vec<u8> {
    let mut parts: Vec<Vec<Segment>> = Vec::new();
    for _ in 0..random.between(1, 8) {
        if random.chance(25) {
            parts.push(strays(random));
        }
        let mut message = if random.chance(50) { good(random) } else { short(random) };
        match random.below(100) {
            0..=9 => drop(message.pop()),
            10..=14 => message.truncate(1),
            _ => {}
        }
        parts.push(message);
    }
    if random.chance(25) {
        parts.push(strays(random));
    }
    let mut segments = make::envelope(random, parts);
    for segment in segments.iter_mut().filter(|s| s.tag() == b"UNT") {
        if random.chance(15) {
            segment.elements.truncate(1);
        }
    }
    let style = make::style(random);
    make::write(random, &segments, &style)
}

fn good(random: &mut Random) -> Vec<Segment> {
    let kind = random.pick(&KINDS);
    let profile = random.pick(&[make::SMALL, make::SMALL, make::SMALL, make::MIDDLE]);
    make::message(random, kind, profile)
}

/// A message of few segments, its UNT last.
fn short(random: &mut Random) -> Vec<Segment> {
    let unh = random.pick(&["UNH", "UNH+1", "UNH+1+PAYMUL:D:96A:UN", "UNH+A+DEBMUL:D:96A:UN"]);
    let mut message = vec![Segment::of(0, unh)];
    for _ in 0..random.below(4) {
        let text =
            random.pick(&["", "A", "BGM", "DTM+137:20020107:102", "FTX+A'B?", "UNZ+1+R1", "UNA", "\r", "UN", "?"]);
        message.push(Segment::of(0, text));
    }
    message.push(Segment::of(0, "UNT+2+1"));
    message
}

/// Segments that belong to no message that is closed.
fn strays(random: &mut Random) -> Vec<Segment> {
    let texts = ["", "", "X", "UNT", "UNT+2+1", "UNZ", "UNZ+1+R1", "UNB+UNOA:3+A+B+020107:1200+R1", "\nX", "LIN+1"];
    (0..random.between(1, 3)).map(|_| Segment::of(0, random.pick(&texts))).collect()
}
