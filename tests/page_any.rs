//! Inputs of any bytes for the program, made from the samples, and what its pages and checks say of them.

use crate::markup::{need, read, Checked};
use crate::random::Random;
use crate::{outline, Outline};
use std::io::Write;
use std::process::{Command, Output, Stdio};

/// Markup for values; the terminator is released in it.
const MARKUP: [&str; 14] = [
    "</code><script>alert(1)</script>",
    "&#0;",
    "&amp;lt;",
    "&",
    "\"",
    "?' onload=?'x",
    "<!-- ",
    "-->",
    "]]>",
    "</style>",
    "</mark></li></ol>",
    "\" onclick=\"x\"",
    "<img src=x>",
    "&nbsp",
];

/// Markup inside a text, which leaves most messages as good as they were.
fn mark_up(random: &mut Random, bytes: &mut Vec<u8>) {
    let names: Vec<usize> =
        (1..bytes.len()).filter(|&i| bytes[i] == b' ' && bytes[i - 1].is_ascii_uppercase()).collect();
    let at = if names.is_empty() { random.below(bytes.len() + 1) } else { random.pick(&names) };
    bytes.splice(at..at, random.pick(&MARKUP).bytes());
}

/// The same file in other service characters, markup's among them.
fn with_una(random: &mut Random, bytes: &mut Vec<u8>) {
    let mut pool = b"<>&\"';*~|!=#/^%@:+?".to_vec();
    let new: Vec<u8> = (0..4).map(|_| pool.remove(random.below(pool.len()))).collect();
    bytes.iter_mut().for_each(|b| *b = b":+?'".iter().position(|old| old == b).map_or(*b, |i| new[i]));
    bytes.splice(0..0, [b'U', b'N', b'A', new[0], new[1], b',', new[2], b' ', new[3]]);
}

fn damage(random: &mut Random, bytes: &mut Vec<u8>) {
    let (length, kind) = (bytes.len(), random.below(16));
    let from = random.below(length + 1);
    let part = from..(from + random.below(60)).min(length);
    match kind {
        0..=3 if length > 0 => bytes[random.below(length)] = random.byte(),
        4..=5 if length > 0 => bytes[random.below(length)] = random.pick(b"'+:?<>&\"\0\n\r\t\x7f\x80\x9f\xa0\xff09,."),
        6..=7 => drop(bytes.drain(part)),
        8..=9 => drop(bytes.splice(from..from, bytes[part].repeat(random.pick(&[1, 1, 2, 40])))),
        10..=11 if length > 0 => {
            let mut segments: Vec<Vec<u8>> = bytes.split_inclusive(|b| *b == b'\'').map(|s| s.to_vec()).collect();
            let (one, other) = (random.below(segments.len()), random.below(segments.len()));
            segments.swap(one, other);
            *bytes = segments.concat();
        }
        12..=13 => drop(bytes.splice(from..from, random.pick(&MARKUP).bytes())),
        14 => bytes.truncate(from),
        _ => drop(bytes.splice(0..0, b"UNA".iter().copied().chain((0..6).map(|_| 32 + random.below(95) as u8)))),
    }
}

/// A sample with markup and damage, or other bytes.
fn input(random: &mut Random, samples: &[Vec<u8>]) -> Vec<u8> {
    let mut bytes = random.pick(samples);
    match random.below(250) {
        0..=4 => return Vec::new(),
        5..=14 => return (0..random.below(600)).map(|_| random.byte()).collect(),
        15 => return bytes.repeat(1_048_576 / bytes.len().max(1) + 1),
        _ => (),
    }
    for _ in 0..random.below(4) {
        mark_up(random, &mut bytes);
    }
    if random.below(6) == 0 && !bytes.starts_with(b"UNA") {
        with_una(random, &mut bytes);
    }
    for _ in 0..random.pick(&[0, 0, 1, 1, 2, 5]) {
        damage(random, &mut bytes);
    }
    bytes
}

/// What a command answers to these bytes on its standard input.
fn answer(command: &[&str], bytes: &[u8]) -> Checked<Output> {
    let mut child = Command::new(command[0]);
    child.args(&command[1..]).stdin(Stdio::piped()).stdout(Stdio::piped()).stderr(Stdio::piped());
    let mut child = child.spawn().map_err(|error| format!("{}: {error}", command[0]))?;
    let (mut stdin, bytes) = (child.stdin.take().unwrap(), bytes.to_vec());
    let writer = std::thread::spawn(move || stdin.write_all(&bytes));
    let output = child.wait_with_output().map_err(|error| error.to_string())?;
    let _ = writer.join();
    need(output.stderr.is_empty(), || format!("standard error: {}", String::from_utf8_lossy(&output.stderr)))?;
    Ok(output)
}

/// What the program's page says of these bytes.
fn run(program: &[&str], bytes: &[u8]) -> Checked<Outline> {
    let output = answer(&[program, &["page", "-"]].concat(), bytes)?;
    let said = outline(&read(&output.stdout, false)?)?;
    let status = output.status;
    need(status.code() == Some(i32::from(said.refused)), || format!("{status}, and refused: {}", said.refused))?;
    Ok(said)
}

/// The refusals of a page's outline, each with its segment and offset if it has a segment.
fn refusals(said: &Outline) -> Vec<String> {
    let mut all = Vec::new();
    for line in &said.lines {
        match line.split(' ').collect::<Vec<&str>>()[..] {
            ["opening", number] => all.push(number.to_string()),
            ["MSG", _, "NO", number, "0", _] => all.push(number.to_string()),
            ["MSG", _, "NO", number, segment, offset] => all.push(format!("{number} {segment} {offset}")),
            ["END", _, _, number] if number != "0" => all.push(number.to_string()),
            _ => (),
        }
    }
    all
}

/// The check says the same of these bytes as the page, in its own words, and gives the same status.
fn checks(program: &[&str], bytes: &[u8], said: &Outline) -> Checked<()> {
    let output = answer(&[program, &["check", "-"]].concat(), bytes)?;
    let mut told: Vec<String> = Vec::new();
    for line in String::from_utf8_lossy(&output.stdout).lines() {
        if let Some((_, rest)) = line.split_once("refused, number ") {
            told.push(rest.split(':').next().unwrap_or("").to_string());
        }
        let place = line.split_once("segment ").and_then(|(_, rest)| rest.split_once(" of the message, "));
        if let (Some((place, _)), Some(last)) = (place, told.last_mut()) {
            *last = format!("{last} {}", place.replace(", at byte offset", ""));
        }
    }
    let (status, ours) = (output.status, refusals(said));
    need(told == ours, || format!("the check says {told:?}, the page {ours:?}"))?;
    need(status.code() == Some(i32::from(said.refused)), || format!("check: {status}, and refused: {}", said.refused))
}

/// A line of the second program's as far as a page says it.
fn line_of_page(line: &str) -> String {
    match line.split(' ').collect::<Vec<&str>>()[..] {
        ["OPEN", "NO", number] => format!("opening {number}"),
        ["MSG", place, "OK", _, orders, payments] => format!("MSG {place} OK {orders} {payments}"),
        ["END", messages, _, strays, number] => format!("END {messages} {strays} {number}"),
        _ => line.to_string(),
    }
}

/// The second program says the same of these bytes.
fn agrees(second: &str, bytes: &[u8], said: &Outline) -> Checked<()> {
    let output = answer(&[second, "lines"], bytes)?;
    let theirs: Vec<String> = String::from_utf8_lossy(&output.stdout).lines().map(line_of_page).collect();
    let lines = said.lines.iter().filter(|line| !line.starts_with(' '));
    let ours: Vec<String> = lines.map(|line| line.replace(" OK order", " OK").replace(" OK advice", " OK")).collect();
    need(ours == theirs, || format!("the page says {ours:?}, the second program {theirs:?}"))
}

/// The samples; those whose names do not tell that they are refused three times.
fn samples() -> Checked<Vec<Vec<u8>>> {
    let entries = std::fs::read_dir("samples").map_err(|error| format!("samples: {error}"))?;
    let mut names: Vec<String> = entries.map(|entry| entry.unwrap().path().display().to_string()).collect();
    names.retain(|name| name.ends_with(".edi"));
    names.sort();
    let plain = |name: &&String| !name.contains("/refused_") && !name.contains("/open_");
    let often = names.iter().chain(names.iter().filter(plain)).chain(names.iter().filter(plain));
    Ok(often.map(|name| std::fs::read(name).unwrap()).collect())
}

pub fn any(count: u64, seed: u64, second: Option<&str>, program: &[&str]) -> Checked<()> {
    let samples = samples()?;
    let (mut random, mut failures, mut told) = (Random::new(seed), 0, [0; 3]);
    let folder = if std::path::Path::new("target").is_dir() { "target".into() } else { std::env::temp_dir() };
    for index in 0..count {
        let bytes = input(&mut random, &samples);
        let said = run(program, &bytes).and_then(|said| checks(program, &bytes, &said).map(|()| said));
        let said = said.and_then(|said| match second {
            Some(second) => agrees(second, &bytes, &said).map(|()| said),
            None => Ok(said),
        });
        match said {
            Ok(said) => told[usize::from(said.refused) + usize::from(said.lines[0].starts_with("opening"))] += 1,
            Err(what) => {
                let name = folder.join(format!("page-any-{seed}-{index}.edi"));
                std::fs::write(&name, bytes).map_err(|error| error.to_string())?;
                println!("{}: {what}", name.display());
                failures += 1;
            }
        }
    }
    let [accepted, refused, unopened] = told;
    println!("{count} inputs, seed {seed}: {accepted} accepted, {refused} refused, {unopened} not opened");
    need(failures == 0, || format!("{failures} failures"))
}
