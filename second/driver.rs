//! Talking to the C driver: requests, answers, and what the answers must be.

use crate::each;
use crate::interchange::{self, Extent, Step};
use crate::message::{Lists, Report};
use crate::rewrite;
use std::io::{Read, Write};
use std::process::{Command, Stdio};

#[derive(Clone, Debug)]
pub enum Head {
    /// The interchange itself.
    Whole,
    Bytes(Vec<u8>),
}

#[derive(Clone, Debug)]
pub enum Part {
    /// A part of the interchange (offset, length), where it lies.
    Inside(usize, usize),
    /// The same, copied to memory of its own.
    Copied(usize, usize),
    Bytes(Vec<u8>),
}

#[derive(Clone, Debug)]
pub enum Call {
    Open,
    Close,
    Walk {
        at: u64,
        lists: Lists,
    },
    /// From every position, both included.
    WalkAll {
        from: usize,
        to: usize,
        lists: Lists,
    },
    /// From each of these positions in one call, with room for so many answers.
    WalkEach {
        positions: Vec<u64>,
        room: usize,
    },
    Check {
        head: Head,
        part: Part,
        lists: Lists,
    },
    Rewrite {
        room: usize,
    },
}

/// One interchange and the calls to make on it. The numbers 0 to 3 are places as the driver knows them.
#[derive(Clone, Debug)]
pub struct Case {
    pub label: String,
    pub bytes: Vec<u8>,
    pub place: u8,
    pub calls: Vec<(u8, Call)>,
}

fn number(out: &mut Vec<u8>, number: usize) {
    out.extend((number as u32).to_le_bytes());
}

fn lengths(out: &mut Vec<u8>, lists: &Lists) {
    for length in [lists.rows, lists.starts, lists.totals] {
        number(out, length);
    }
}

impl Case {
    /// The requests, for the driver.
    pub fn requests(&self, out: &mut Vec<u8>) {
        out.extend([b'B', self.place]);
        number(out, self.bytes.len());
        out.extend(&self.bytes);
        for (place, call) in &self.calls {
            match call {
                Call::Open => out.push(b'o'),
                Call::Close => out.push(b'c'),
                Call::Walk { at, lists } => {
                    out.extend([b'w', *place]);
                    out.extend(at.to_le_bytes());
                    lengths(out, lists);
                }
                Call::WalkAll { from, to, lists } => {
                    out.extend([b'a', *place]);
                    number(out, *from);
                    number(out, *to);
                    lengths(out, lists);
                }
                Call::WalkEach { positions, room } => {
                    out.extend([b'e', *place]);
                    number(out, positions.len());
                    number(out, *room);
                    positions.iter().for_each(|at| out.extend(at.to_le_bytes()));
                }
                Call::Check { head, part, lists } => {
                    out.extend([b'k', *place]);
                    match head {
                        Head::Whole => out.push(1),
                        Head::Bytes(bytes) => {
                            out.push(0);
                            number(out, bytes.len());
                            out.extend(bytes);
                        }
                    }
                    match part {
                        Part::Inside(offset, length) => {
                            out.push(1);
                            number(out, *offset);
                            number(out, *length);
                        }
                        Part::Copied(offset, length) => {
                            out.push(2);
                            number(out, *offset);
                            number(out, *length);
                        }
                        Part::Bytes(bytes) => {
                            out.push(0);
                            number(out, bytes.len());
                            out.extend(bytes);
                        }
                    }
                    lengths(out, lists);
                }
                Call::Rewrite { room } => {
                    out.extend([b'r', *place]);
                    number(out, *room);
                }
            }
        }
    }
}

/// Runs a command with this input; gives its output, what it wrote to standard error, and whether it
/// ended well (by itself, with a status below 100).
pub fn run(command: &[String], input: &[u8]) -> (Vec<u8>, String, bool) {
    let mut child = Command::new(&command[0])
        .args(&command[1..])
        .stdin(Stdio::piped())
        .stdout(Stdio::piped())
        .stderr(Stdio::piped())
        .spawn()
        .unwrap_or_else(|e| panic!("cannot start {command:?}: {e}"));
    let mut stdin = child.stdin.take().unwrap();
    let mut stderr = child.stderr.take().unwrap();
    let mut output = Vec::new();
    let mut errors = Vec::new();
    std::thread::scope(|scope| {
        // the program may end before it has read everything
        scope.spawn(move || drop(stdin.write_all(input)));
        scope.spawn(|| drop(stderr.read_to_end(&mut errors)));
        child.stdout.take().unwrap().read_to_end(&mut output).unwrap();
    });
    let status = child.wait().unwrap();
    (output, String::from_utf8_lossy(&errors).trim().to_string(), status.code().is_some_and(|c| c < 100))
}

/// What the lists and rooms hold before each call.
fn row_pattern(i: usize) -> u16 {
    (0xA5C3 + 7 * i) as u16
}
fn start_pattern(i: usize) -> u32 {
    (0xFEED_0000u64 + 13 * i as u64) as u32
}
fn total_pattern(i: usize) -> u64 {
    0xC0FF_EE00_0000_0000 + 31 * i as u64
}
fn byte_pattern(i: usize) -> u8 {
    (0x5A + 3 * i) as u8
}
/// The nine numbers of the answer at a place.
fn answer_pattern(place: usize) -> Vec<u32> {
    (9 * place..9 * place + 9).map(|i| (0xD1CE_0000u64 + 19 * i as u64) as u32).collect()
}

/// The answers, read one after the other; None once they have run out.
pub struct Answers<'a> {
    bytes: &'a [u8],
}

impl<'a> Answers<'a> {
    pub fn new(bytes: &'a [u8]) -> Answers<'a> {
        Answers { bytes }
    }
    pub fn all_read(&self) -> bool {
        self.bytes.is_empty()
    }
    fn take(&mut self, length: usize) -> Option<&'a [u8]> {
        if self.bytes.len() < length {
            return None;
        }
        let (taken, rest) = self.bytes.split_at(length);
        self.bytes = rest;
        Some(taken)
    }
    fn letter(&mut self) -> Option<u8> {
        Some(self.take(1)?[0])
    }
    fn numbers(&mut self, count: usize) -> Option<Vec<u32>> {
        Some(self.take(4 * count)?.chunks(4).map(|c| u32::from_le_bytes(c.try_into().unwrap())).collect())
    }
    fn expect_letter(&mut self, wanted: u8) -> Option<()> {
        let letter = self.letter()?;
        assert_eq!(letter, wanted, "the driver's answers are out of step");
        Some(())
    }

    /// The answer to opening.
    pub fn opening(&mut self) -> Option<u32> {
        self.expect_letter(b'o')?;
        Some(self.numbers(1)?[0])
    }

    /// An answer to the walk as it was given: what was found, and the bytes of all else, the lists included.
    pub fn step(&mut self, lists: &Lists) -> Option<(Option<Extent>, Vec<u8>)> {
        self.expect_letter(b'w')?;
        let (head, mut rest) = (self.numbers(3)?, self.take(4 * 6)?.to_vec());
        let flag = self.letter()?;
        rest.push(flag);
        if flag & 1 != 0 {
            rest.extend(self.take(2 * lists.rows + 4 * lists.starts + 8 * lists.totals)?);
        }
        let found = match head[..] {
            [1, start, end] => Some(Extent { start: start as usize, end: end as usize }),
            _ => {
                rest.extend(head.iter().flat_map(|n| n.to_le_bytes()));
                None
            }
        };
        Some((found, rest))
    }

    /// The number that a call for several positions gives, and what is wrong with the answers, in words of which the
    /// first tells what must be there.
    fn each(&mut self, room: usize, expected: &[Vec<u32>]) -> Option<(u32, Vec<(String, String)>)> {
        self.expect_letter(b'e')?;
        let number = self.numbers(1)?[0];
        let flag = self.letter()?;
        let mut wrong = Vec::new();
        if flag & 2 != 0 {
            wrong.push(("nothing beside".to_string(), "bytes beside the answers were written".to_string()));
        }
        for i in 0..if flag & 1 != 0 { room } else { 0 } {
            let (must, is) = (expected.get(i).cloned().unwrap_or_else(|| answer_pattern(i)), self.numbers(9)?);
            if is != must && wrong.len() < 4 {
                let kept = if i < expected.len() { "" } else { " (as before)" };
                wrong.push((format!("[{i}] {}{kept}", show_numbers(&must, &STEP)), show_numbers(&is, &STEP)));
            }
        }
        if flag & 1 == 0 && !expected.is_empty() {
            wrong.push(("answers".to_string(), "no answer was written".to_string()));
        }
        Some((number, wrong))
    }

    /// The numbers of an answer with lists, and what is wrong with the lists.
    fn with_lists(
        &mut self,
        letter: u8,
        count: usize,
        lists: &Lists,
        expected: &Report,
    ) -> Option<(Vec<u32>, Vec<String>)> {
        self.expect_letter(letter)?;
        let numbers = self.numbers(count)?;
        let flag = self.letter()?;
        let mut wrong = Vec::new();
        if flag & 2 != 0 {
            wrong.push("bytes beside a lent list were written".to_string());
        }
        if flag & 1 == 0 {
            if expected.segments > 0 {
                wrong.push("no list was written".to_string());
            }
            return Some((numbers, wrong));
        }
        let rows: Vec<u16> =
            self.take(2 * lists.rows)?.chunks(2).map(|c| u16::from_le_bytes(c.try_into().unwrap())).collect();
        let starts: Vec<u32> =
            self.take(4 * lists.starts)?.chunks(4).map(|c| u32::from_le_bytes(c.try_into().unwrap())).collect();
        let totals: Vec<u64> =
            self.take(8 * lists.totals)?.chunks(8).map(|c| u64::from_le_bytes(c.try_into().unwrap())).collect();
        // new content over old
        let over = |i: usize, new: Option<u64>, old: u64, is: u64, name: &str, wrong: &mut Vec<String>| {
            let must = new.unwrap_or(old);
            if is != must && wrong.len() < 4 {
                wrong.push(format!(
                    "{name}[{i}] is {is}, must be {must}{}",
                    if new.is_none() { " (as before)" } else { "" }
                ));
            }
        };
        for (i, is) in rows.iter().enumerate() {
            over(
                i,
                expected.rows.get(i).map(|v| u64::from(*v)),
                u64::from(row_pattern(i)),
                u64::from(*is),
                "rows",
                &mut wrong,
            );
        }
        for (i, is) in starts.iter().enumerate() {
            over(
                i,
                expected.starts.get(i).map(|v| u64::from(*v)),
                u64::from(start_pattern(i)),
                u64::from(*is),
                "starts",
                &mut wrong,
            );
        }
        for (i, is) in totals.iter().enumerate() {
            over(i, expected.totals.get(i).copied(), total_pattern(i), *is, "totals", &mut wrong);
        }
        Some((numbers, wrong))
    }
}

/// How often each number was to be given (0: accepted), and the rest of the count.
#[derive(Default)]
pub struct Tally {
    pub numbers: [u64; 32],
    /// Of the accepted messages, those of which no total is given.
    pub advices: u64,
    pub none_left: u64,
    pub opened: u64,
    pub closed: u64,
    pub rewritten: u64,
    pub calls: u64,
    /// Of the calls for several positions.
    pub each: each::Counts,
}

impl Tally {
    fn report(&mut self, number: u32, report: &Report) {
        self.numbers[number as usize] += 1;
        self.advices += u64::from(number == 0 && report.totals.is_empty());
    }
}

/// A call whose answer is not what it must be.
pub struct Difference {
    pub call: String,
    pub must: String,
    pub is: String,
}

fn step_numbers(step: &Step) -> (Vec<u32>, Report) {
    match step {
        Step::Refused(number) => (vec![0, 0, 0, *number, 0, 0, 0, 0, 0], Report::refused(*number, 0, 0)),
        Step::NoneLeft => (vec![0; 9], Report::refused(0, 0, 0)),
        Step::Found(extent, r) => (
            vec![
                1,
                extent.start as u32,
                extent.end as u32,
                r.fault.0,
                r.fault.1,
                r.fault.2,
                r.segments,
                r.orders,
                r.payments,
            ],
            r.clone(),
        ),
    }
}

fn show_numbers(numbers: &[u32], names: &[&str]) -> String {
    names.iter().zip(numbers).map(|(name, n)| format!("{name} {n}")).collect::<Vec<_>>().join(", ")
}

const STEP: [&str; 9] = ["found", "start", "end", "number", "segment", "offset", "segments", "orders", "payments"];

/// Compares the answers to a case's calls with what they must be. None where the answers run out.
pub fn compare(case: &Case, answers: &mut Answers, tally: &mut Tally, differences: &mut Vec<Difference>) -> Option<()> {
    let bytes = &case.bytes;
    for (place, call) in &case.calls {
        let mut differ = |call: String, must: String, is: String| differences.push(Difference { call, must, is });
        match call {
            Call::Open => {
                answers.expect_letter(b'o')?;
                let is = answers.numbers(1)?[0];
                let must = interchange::open(bytes).err().unwrap_or(0);
                tally.calls += 1;
                if must == 0 {
                    tally.opened += 1
                } else {
                    tally.numbers[must as usize] += 1
                };
                if is != must {
                    differ("open".to_string(), must.to_string(), is.to_string());
                }
            }
            Call::Close => {
                answers.expect_letter(b'c')?;
                let is = answers.numbers(3)?;
                let closing = interchange::close(bytes);
                let must = vec![closing.number, closing.messages, closing.strays];
                tally.calls += 1;
                if must[0] == 0 {
                    tally.closed += 1
                } else {
                    tally.numbers[must[0] as usize] += 1
                };
                if is != must {
                    let names = ["number", "messages", "strays"];
                    differ("close".to_string(), show_numbers(&must, &names), show_numbers(&is, &names));
                }
            }
            Call::Walk { .. } | Call::WalkAll { .. } => {
                let (from, to, lists) = match call {
                    Call::Walk { at, lists } => (*at, *at, lists),
                    Call::WalkAll { from, to, lists } => (*from as u64, *to as u64, lists),
                    _ => unreachable!(),
                };
                for at in from..=to {
                    let step = interchange::walk(bytes, at, *lists);
                    let (must, report) = step_numbers(&step);
                    let (is, wrong) = answers.with_lists(b'w', 9, lists, &report)?;
                    tally.calls += 1;
                    match step {
                        Step::NoneLeft => tally.none_left += 1,
                        _ => tally.report(must[3], &report),
                    }
                    if is != must || !wrong.is_empty() {
                        differ(
                            format!("walk at {at}, {lists:?}, place {place}"),
                            show_numbers(&must, &STEP),
                            format!("{} {}", show_numbers(&is, &STEP), wrong.join("; ")),
                        );
                    }
                }
            }
            Call::WalkEach { positions, room } => {
                let result = interchange::walk_each(bytes, positions, *room);
                let must = result.as_ref().err().copied().unwrap_or(0);
                let steps = result.unwrap_or_default();
                let expected: Vec<Vec<u32>> = steps.iter().map(|step| step_numbers(step).0).collect();
                let (is, wrong) = answers.each(*room, &expected)?;
                tally.calls += 1;
                tally.each.call(positions, *room);
                tally.each.answers(bytes, if must == 0 { positions } else { &[] }, &steps);
                if is != must || !wrong.is_empty() {
                    let (right, found): (Vec<String>, Vec<String>) = wrong.into_iter().unzip();
                    differ(
                        format!("walk from each of {positions:?}, room for {room}, place {place}"),
                        format!("{must} {}", right.join("; ")),
                        format!("{is} {}", found.join("; ")),
                    );
                }
            }
            Call::Check { head, part, lists } => {
                let head = match head {
                    Head::Whole => bytes,
                    Head::Bytes(head) => head,
                };
                let message = match part {
                    Part::Inside(offset, length) | Part::Copied(offset, length) => &bytes[*offset..offset + length],
                    Part::Bytes(message) => message,
                };
                let r = interchange::check(head, message, *lists);
                let must = vec![r.fault.0, r.fault.1, r.fault.2, r.segments, r.orders, r.payments];
                let (is, wrong) = answers.with_lists(b'k', 6, lists, &r)?;
                tally.calls += 1;
                tally.report(must[0], &r);
                if is != must || !wrong.is_empty() {
                    let about = match part {
                        Part::Inside(offset, length) => format!("bytes {offset}..{} in place", offset + length),
                        Part::Copied(offset, length) => format!("bytes {offset}..{}", offset + length),
                        Part::Bytes(message) => format!("\"{}\"", escape(message, 2000)),
                    };
                    differ(
                        format!("check of {about}, head \"{}\", {lists:?}, place {place}", escape(head, 40)),
                        show_numbers(&must, &STEP[3..]),
                        format!("{} {}", show_numbers(&is, &STEP[3..]), wrong.join("; ")),
                    );
                }
            }
            Call::Rewrite { room } => {
                answers.expect_letter(b'r')?;
                let is = answers.numbers(2)?;
                let flag = answers.letter()?;
                let content: Option<&[u8]> = if flag & 1 != 0 { Some(answers.take(*room)?) } else { None };
                let result = rewrite::rewrite(bytes, *room);
                let must = match &result {
                    Ok(plain) => vec![0, plain.len() as u32],
                    Err(number) => vec![*number, 0],
                };
                tally.calls += 1;
                if must[0] == 0 {
                    tally.rewritten += 1
                } else {
                    tally.numbers[must[0] as usize] += 1
                };
                let plain = result.unwrap_or_default();
                let wanted: Vec<u8> = (0..*room).map(|i| plain.get(i).copied().unwrap_or(byte_pattern(i))).collect();
                let before: Vec<u8> = (0..*room).map(byte_pattern).collect();
                let mut wrong = String::new();
                if flag & 2 != 0 {
                    wrong += " bytes beside the room were written;";
                }
                let held = content.unwrap_or(&before);
                if held != wanted {
                    let at = (0..*room).find(|i| held[*i] != wanted[*i]).unwrap();
                    wrong += &format!(" room byte {at} is {:#04x}, must be {:#04x}", held[at], wanted[at]);
                }
                if is != must || !wrong.is_empty() {
                    let names = ["number", "length"];
                    differ(
                        format!("rewrite into {room} bytes, place {place}"),
                        show_numbers(&must, &names),
                        show_numbers(&is, &names) + &wrong,
                    );
                }
            }
        }
    }
    Some(())
}

/// Bytes as readable text: printable ones as they are, others as \xNN.
pub fn escape(bytes: &[u8], most: usize) -> String {
    let mut out = String::new();
    for byte in bytes.iter().take(most) {
        match byte {
            b'\\' => out += "\\\\",
            0x20..=0x7E => out.push(char::from(*byte)),
            b'\r' => out += "\\r",
            b'\n' => out += "\\n",
            other => out += &format!("\\x{other:02X}"),
        }
    }
    if bytes.len() > most {
        out += &format!("... ({} bytes)", bytes.len());
    }
    out
}
