//! The envelope: opening, messages, strays, closing, and the walk.

use crate::message::{self, Lists, Report};
use crate::syntax::*;

/// A message's extent: from its UNH's first byte up to but excluding `end`.
#[derive(Clone, Copy, PartialEq, Eq, Debug)]
pub struct Extent {
    pub start: usize,
    pub end: usize,
}

/// An interchange that opens.
pub struct Opened {
    pub service: Service,
    pub spans: Vec<Span>,
    pub unb: Elements,
    pub unz: Elements,
}

/// Opens an interchange, or gives the number 1 to 4.
pub fn open(bytes: &[u8]) -> Result<Opened, u32> {
    if bytes.len() > MOST_BYTES {
        return Err(1);
    }
    let service = service(bytes).ok_or(2u32)?;
    // CR and LF directly after UNA are passed over; without UNA they are data at the first byte.
    let spans = if has_una(bytes) { spans(bytes, 9, true, service) } else { spans(bytes, 0, false, service) };
    let read = |span: &Span| elements(&bytes[span.start..span.end], service);

    let unb = spans.first().map(read).ok_or(3u32)?;
    let reference = value(&unb, 5, 0).len();
    if value(&unb, 0, 0) != b"UNB" || value(&unb, 1, 1) != b"3" || !(1..=14).contains(&reference) {
        return Err(3);
    }
    let last = spans.last().unwrap();
    let unz = read(last);
    if !last.finished || value(&unz, 0, 0) != b"UNZ" {
        return Err(4);
    }
    Ok(Opened { service, spans, unb, unz })
}

/// Whether the last of these segments is the end UNZ: finished, and nothing but CR and LF follows it.
fn end_unz(bytes: &[u8], spans: &[Span], service: Service) -> Option<usize> {
    let last = spans.len().checked_sub(1)?;
    is(bytes, &spans[last], service, b"UNZ").then_some(last)
}

/// Where the message that begins at segment `unh` ends: after its UNT, or before the UNH or end UNZ that
/// comes first, or at the buffer's end. Beside it the number of segments in it. Err(()) where an
/// unfinished segment comes before any of these.
fn message_end(bytes: &[u8], spans: &[Span], unh: usize, service: Service) -> Result<(usize, usize), ()> {
    let end = end_unz(bytes, spans, service);
    for i in unh + 1..spans.len() {
        if is(bytes, &spans[i], service, b"UNT") {
            return Ok((spans[i].after(), i + 1 - unh));
        }
        if is(bytes, &spans[i], service, b"UNH") || Some(i) == end {
            return Ok((spans[i].start, i - unh));
        }
        if !spans[i].finished {
            return Err(());
        }
    }
    Ok((bytes.len(), spans.len() - unh))
}

/// What closing tells.
#[derive(Clone, Copy, PartialEq, Eq, Debug)]
pub struct Closing {
    pub number: u32,
    pub messages: u32,
    pub strays: u32,
}

/// The messages of an interchange that opens, and its number of strays.
pub fn survey(bytes: &[u8], opened: &Opened) -> (Vec<Extent>, usize) {
    let spans = &opened.spans;
    let (mut messages, mut strays) = (Vec::new(), 0);
    // between UNB, the first, and the end UNZ, the last
    let mut i = 1;
    while i + 1 < spans.len() {
        if is(bytes, &spans[i], opened.service, b"UNH") {
            let (end, count) = message_end(bytes, spans, i, opened.service).expect("every segment is finished");
            messages.push(Extent { start: spans[i].start, end });
            i += count;
        } else {
            strays += 1;
            i += 1;
        }
    }
    (messages, strays)
}

/// Counts messages and strays and gives the closing number.
pub fn close(bytes: &[u8]) -> Closing {
    let opened = match open(bytes) {
        Ok(opened) => opened,
        Err(number) => return Closing { number, messages: 0, strays: 0 },
    };
    let (messages, strays) = survey(bytes, &opened);
    let mut numbers = Vec::new();
    if !number_is(value(&opened.unz, 1, 0), messages.len()) {
        numbers.push(5);
    }
    if value(&opened.unz, 2, 0) != value(&opened.unb, 5, 0) {
        numbers.push(6);
    }
    if strays > 0 {
        numbers.push(7);
    }
    Closing { number: numbers.into_iter().min().unwrap_or(0), messages: messages.len() as u32, strays: strays as u32 }
}

/// A step of the walk.
#[derive(Clone, PartialEq, Eq, Debug)]
pub enum Step {
    /// The walk itself is refused: 1, 2, 8 or 4.
    Refused(u32),
    NoneLeft,
    Found(Extent, Report),
}

/// Finds the next message from position `at`, and its report.
pub fn walk(bytes: &[u8], at: u64, lists: Lists) -> Step {
    if bytes.len() > MOST_BYTES {
        return Step::Refused(1);
    }
    let Some(service) = service(bytes) else { return Step::Refused(2) };
    if at > bytes.len() as u64 {
        return Step::Refused(8);
    }
    let spans = spans(bytes, at as usize, true, service);
    let Some(unh) = spans.iter().position(|s| is(bytes, s, service, b"UNH")) else {
        return if spans.iter().all(|s| s.finished) { Step::NoneLeft } else { Step::Refused(4) };
    };
    match message_end(bytes, &spans, unh, service) {
        Err(()) => Step::Refused(4),
        Ok((end, _)) => {
            let start = spans[unh].start;
            Step::Found(Extent { start, end }, message::judge(&bytes[start..end], service, lists))
        }
    }
}

/// "As if they were long enough".
pub const LONG_ENOUGH: Lists = Lists { rows: usize::MAX, starts: usize::MAX, totals: usize::MAX };

/// The step from each of these positions, in the order listed; 14 where there is room for fewer answers.
pub fn walk_each(bytes: &[u8], positions: &[u64], room: usize) -> Result<Vec<Step>, u32> {
    if room < positions.len() {
        return Err(14);
    }
    Ok(positions.iter().map(|at| walk(bytes, *at, LONG_ENOUGH)).collect())
}

/// Checks one message's bytes with the service characters of `head`.
pub fn check(head: &[u8], bytes: &[u8], lists: Lists) -> Report {
    match service(head) {
        None => Report::refused(2, 0, 0),
        Some(_) if bytes.len() > MOST_BYTES => Report::refused(1, 0, 0),
        Some(service) => message::judge(bytes, service, lists),
    }
}
