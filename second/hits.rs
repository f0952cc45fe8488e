//! Damage to messages that stops before the UNT or reaches up to the UNT's terminator (demand 3 as W-213 has
//! it): which bytes may be replaced, and what must be found after that.

use crate::driver::{Answers, Call, Case};
use crate::interchange::{open, survey, walk, Extent, Opened, Step};
use crate::message::Lists;
use crate::syntax::{is, Span, MOST_BYTES};

/// A message of an interchange that opens.
#[derive(Clone, Copy, PartialEq, Eq, Debug)]
pub struct Message {
    pub extent: Extent,
    /// Of a message that has its own UNT.
    pub trailer: Option<Trailer>,
}

/// The places of two terminators: of the segment before the UNT, and of the UNT.
#[derive(Clone, Copy, PartialEq, Eq, Debug)]
pub struct Trailer {
    pub before: usize,
    pub unt: usize,
}

/// The messages of an interchange that opens.
pub fn messages(bytes: &[u8], opened: &Opened) -> Vec<Message> {
    let message = |extent: Extent| {
        let inside = |s: &&Span| extent.start <= s.start && s.start < extent.end;
        let own: Vec<&Span> = opened.spans.iter().filter(inside).collect();
        let trailer = match own[..] {
            [.., before, unt] if is(bytes, unt, opened.service, b"UNT") => {
                Some(Trailer { before: before.end, unt: unt.end })
            }
            _ => None,
        };
        Message { extent, trailer }
    };
    survey(bytes, opened).0.into_iter().map(message).collect()
}

/// Bytes `from` up to but excluding `upto` are taken out, and others put in.
#[derive(Clone, Debug)]
pub struct Stretch {
    pub from: usize,
    pub upto: usize,
    pub put: Vec<u8>,
}

/// What becomes of a message.
#[derive(Clone, Debug)]
pub enum Mark {
    Whole,
    /// Hit before the terminator of the segment before the UNT.
    Near(Stretch),
    /// Hit before the UNT's own terminator.
    Far(Stretch),
    /// Not hit, but directly after one that is hit far: it may be lost.
    Next,
}

impl Mark {
    pub fn stretch(&self) -> Option<&Stretch> {
        match self {
            Mark::Near(stretch) | Mark::Far(stretch) => Some(stretch),
            Mark::Whole | Mark::Next => None,
        }
    }
}

/// An interchange that opens, a mark for each of its messages, and the bytes after all stretches are replaced.
pub struct Hits {
    pub bytes: Vec<u8>,
    pub messages: Vec<Message>,
    pub marks: Vec<Mark>,
    /// The lists that are lent for each message, before and after.
    pub lists: Vec<Lists>,
    pub damaged: Vec<u8>,
}

impl Hits {
    pub fn new(bytes: &[u8], marks: Vec<Mark>, lists: Vec<Lists>) -> Hits {
        let opened = open(bytes).unwrap_or_else(|number| panic!("refused by {number}"));
        let messages = messages(bytes, &opened);
        assert!(messages.len() == marks.len() && messages.len() == lists.len(), "one for each message");
        let mut damaged = Vec::new();
        let mut at = 0;
        for stretch in marks.iter().filter_map(Mark::stretch) {
            damaged.extend(&bytes[at..stretch.from]);
            damaged.extend(&stretch.put);
            at = stretch.upto;
        }
        damaged.extend(&bytes[at..]);
        Hits { bytes: bytes.to_vec(), messages, marks, lists, damaged }
    }

    /// Whether the premises hold. A last message may be hit far, and is then spoken of by the last sentence alone.
    pub fn allowed(&self) -> bool {
        let closed_before = |i: usize| i == 0 || self.messages[i - 1].trailer.is_some();
        let after_far = |i: usize| i > 0 && matches!(self.marks[i - 1], Mark::Far(_));
        let one = |i: usize| {
            let (start, trailer) = (self.messages[i].extent.start, self.messages[i].trailer);
            let within = |s: &Stretch, most: usize| start <= s.from && s.from <= s.upto && s.upto <= most;
            let hit = match (&self.marks[i], trailer) {
                (Mark::Near(stretch), Some(t)) => closed_before(i) && within(stretch, t.before),
                (Mark::Far(stretch), Some(t)) => closed_before(i) && within(stretch, t.unt),
                (Mark::Near(_) | Mark::Far(_), None) => false,
                (Mark::Whole | Mark::Next, _) => true,
            };
            let placed = match self.marks[i] {
                Mark::Whole => !after_far(i),
                Mark::Next => after_far(i),
                Mark::Near(_) | Mark::Far(_) => true,
            };
            hit && placed
        };
        self.damaged.len() <= MOST_BYTES && (0..self.marks.len()).all(one)
    }

    /// Whether the last message is hit far.
    pub fn last_far(&self) -> bool {
        matches!(self.marks.last(), Some(Mark::Far(_)))
    }

    /// Where a message that is not hit lies after the damage: moved by what was put in before it, less what was
    /// taken out.
    pub fn moved(&self, message: usize) -> Extent {
        let Extent { start, end } = self.messages[message].extent;
        let before = || self.marks[..message].iter().filter_map(Mark::stretch);
        let put: usize = before().map(|s| s.put.len()).sum();
        let taken: usize = before().map(|s| s.upto - s.from).sum();
        Extent { start: start + put - taken, end: end + put - taken }
    }

    fn wholes(&self) -> impl Iterator<Item = usize> + '_ {
        (0..self.marks.len()).filter(|i| matches!(self.marks[*i], Mark::Whole))
    }

    /// This program's answers before and after.
    pub fn own_answers(&self) -> [Walked<Step>; 2] {
        let before: Vec<_> = self.wholes().map(|i| (self.messages[i].extent, self.lists[i])).collect();
        let after: Vec<_> = self.wholes().map(|i| (self.moved(i), self.lists[i])).collect();
        [walked(&self.bytes, &before), walked(&self.damaged, &after)]
    }

    /// That the damaged interchange opens as it did, and that each whole message is closed or unclosed as it was.
    /// Only this program's own reading tells these.
    pub fn opens_alike(&self) -> Result<(), String> {
        let Ok(was) = open(&self.bytes) else { return Err("the interchange does not open".to_string()) };
        let now = match open(&self.damaged) {
            Ok(now) => now,
            Err(4) if self.last_far() => return Ok(()),
            Err(number) => return Err(format!("opening is refused by {number}")),
        };
        if now.service != was.service || now.spans[0].start != was.spans[0].start {
            return Err("it opens with other service characters or at another place".to_string());
        }
        let found = messages(&self.damaged, &now);
        for i in self.wholes() {
            let closed = self.messages[i].trailer.is_some();
            if !found.iter().any(|m| m.extent == self.moved(i) && m.trailer.is_some() == closed) {
                return Err(format!("message {} is not there, closed or unclosed as it was", i + 1));
            }
        }
        Ok(())
    }

    /// Tests the claim on answers before and after; gives the number of whole messages that were found again.
    pub fn claim<T: PartialEq>(&self, before: &Walked<T>, after: &Walked<T>) -> Result<usize, String> {
        if before.opening != 0 || !(after.opening == 0 || after.opening == 4 && self.last_far()) {
            return Err(format!("opening gives {}, and {} after the damage", before.opening, after.opening));
        }
        before.chained()?;
        after.chained()?;
        let extents: Vec<Extent> = self.messages.iter().map(|m| m.extent).collect();
        if before.found() != extents {
            return Err("the walk before the damage finds other messages".to_string());
        }
        let mut steps = after.chain.iter().peekable();
        // whether a message that is hit or lies next stood since the last whole one: only there may others be found
        let mut gap = false;
        let mut wholes = 0;
        for i in 0..self.marks.len() {
            if !matches!(self.marks[i], Mark::Whole) {
                gap = true;
                continue;
            }
            let (extent, moved) = (self.messages[i].extent, self.moved(i));
            while gap && steps.next_if(|s| s.found.is_some_and(|e| e.end <= moved.start)).is_some() {}
            let name = format!("message {}, now {}..{}", i + 1, moved.start, moved.end);
            let step = steps.next().ok_or(format!("{name}: the walk ends before it"))?;
            let was = &before.chain[i];
            for (how, is, place) in [
                ("the walk", step, moved),
                ("a walk from its start", &after.alone[wholes], moved),
                ("a walk from its start before the damage", &before.alone[wholes], extent),
            ] {
                if is.found != Some(place) {
                    return Err(format!("{name}: {how} finds {:?}", is.found));
                }
                if is.lists != was.lists || is.rest != was.rest {
                    return Err(format!("{name}: {how} answers otherwise than the walk before the damage"));
                }
            }
            if self.bytes[extent.start..extent.end] != self.damaged[moved.start..moved.end] {
                return Err(format!("{name}: its bytes are others"));
            }
            wholes += 1;
            gap = false;
        }
        while gap && steps.next_if(|s| s.found.is_some()).is_some() {}
        match (steps.next(), before.chain.last()) {
            (Some(is), Some(was)) if is.found.is_none() && is.rest == was.rest => Ok(wholes),
            _ => Err("the walk does not end as before".to_string()),
        }
    }
}

/// One answer of the walk: from where, with which lists, what was found, and all else that was given back.
pub struct Answer<T> {
    pub at: usize,
    pub lists: Lists,
    pub found: Option<Extent>,
    pub rest: T,
}

/// What was answered on an interchange: to opening, to the walk from 0 up to the answer that finds nothing, and to a
/// walk from the first byte of each whole message.
pub struct Walked<T> {
    pub opening: u32,
    pub chain: Vec<Answer<T>>,
    pub alone: Vec<Answer<T>>,
}

/// The lists lent where no whole message is to be found.
const OTHERS: Lists = Lists { rows: 60, starts: 60, totals: 5 };

fn step(bytes: &[u8], at: usize, lists: Lists) -> Answer<Step> {
    let (found, rest) = match walk(bytes, at as u64, lists) {
        Step::Found(extent, report) => (Some(extent), Step::Found(Extent { start: 0, end: 0 }, report)),
        other => (None, other),
    };
    Answer { at, lists, found, rest }
}

/// This program's answers; whole messages with the lists given.
fn walked(bytes: &[u8], wholes: &[(Extent, Lists)]) -> Walked<Step> {
    let mut chain = Vec::new();
    let mut at = 0;
    loop {
        let any = step(bytes, at, OTHERS);
        let Some(extent) = any.found else {
            chain.push(any);
            break;
        };
        chain.push(match wholes.iter().find(|(whole, _)| *whole == extent) {
            Some((_, lists)) => step(bytes, at, *lists),
            None => any,
        });
        at = extent.end;
    }
    let alone = wholes.iter().map(|(extent, lists)| step(bytes, extent.start, *lists)).collect();
    Walked { opening: open(bytes).err().unwrap_or(0), chain, alone }
}

impl<T> Walked<T> {
    /// The extents found by the walk from 0.
    pub fn found(&self) -> Vec<Extent> {
        self.chain.iter().filter_map(|a| a.found).collect()
    }

    /// Each call of the walk goes on where the answer before it ended, and the last one alone finds nothing.
    fn chained(&self) -> Result<(), String> {
        let mut at = Some(0);
        for answer in &self.chain {
            if at != Some(answer.at) {
                return Err(format!("the walk does not go on at {} but at {at:?}", answer.at));
            }
            at = answer.found.map(|e| e.end);
        }
        at.map_or(Ok(()), |at| Err(format!("the walk goes on at {at}")))
    }

    /// The same calls, for the driver.
    pub fn case(&self, bytes: &[u8], place: u8) -> Case {
        let walks = self.chain.iter().chain(&self.alone);
        let walks = walks.map(|a| (place, Call::Walk { at: a.at as u64, lists: a.lists }));
        let calls = std::iter::once((place, Call::Open)).chain(walks).collect();
        Case { label: "hits".to_string(), bytes: bytes.to_vec(), place, calls }
    }

    /// The driver's answers to these calls, as it gave them; None where they run out.
    pub fn answered(&self, answers: &mut Answers) -> Option<Walked<Vec<u8>>> {
        let opening = answers.opening()?;
        let mut all = |asked: &[Answer<T>]| -> Option<Vec<Answer<Vec<u8>>>> {
            let one = |a: &Answer<T>| {
                let (found, rest) = answers.step(&a.lists)?;
                Some(Answer { at: a.at, lists: a.lists, found, rest })
            };
            asked.iter().map(one).collect()
        };
        Some(Walked { opening, chain: all(&self.chain)?, alone: all(&self.alone)? })
    }
}
