//! Damage of every kind: values against each rule, segments against the chart, the envelope, bytes.

use crate::damage_advice;
use crate::kinds::Kind;
use crate::make::{extents, Segment};
use crate::random::Random;

/// Values that some rule may take for a number, an amount, a code or a reference.
const VALUES: [&[u8]; 51] = [
    b"",
    b"0",
    b"1",
    b"2",
    b"3",
    b"9",
    b"57",
    b"8",
    b"10",
    b"11",
    b"12",
    b"01",
    b"00",
    b"-1",
    b"+1",
    b" 1",
    b"1 ",
    b"1,0",
    b"1.0",
    b"10000",
    b"9999",
    b"123456789012345678901234567890",
    b"18446744073709551617",
    b"4294967297",
    b"4294967296",
    b"EUR",
    b"eur",
    b"EU",
    b"EURO",
    b"USD",
    b"E R",
    b"OR",
    b"BF",
    b"PE",
    b"BE",
    b"PL",
    b"OY",
    b"or",
    b"PAYMUL",
    b"DEBMUL",
    b"106",
    b"107",
    b"342",
    b"455",
    b"202",
    b"209",
    b"\xFC",
    b"?",
    b"'",
    b"A:B",
    b"57 ",
];

/// Amounts that have not the form (and a few that have).
pub const AMOUNTS: [&[u8]; 46] = [
    b"",
    b",5",
    b".5",
    b",05",
    b".500",
    b",5000",
    b",,5",
    b",5,",
    b"-,5",
    b"2,",
    b"2.",
    b"007",
    b"00",
    b"00,5",
    b"1.234,5",
    b"1,234.5",
    b"1000000000000",
    b"9999999999999",
    b"1000000000000,1",
    b"12,3456",
    b"0,0000",
    b"-5",
    b"+5",
    b"5-",
    b"1 000",
    b"1'000",
    b"1,,5",
    b"1.,5",
    b"1e3",
    b"0x1",
    b" 5",
    b"5 ",
    b"5,5,",
    b",",
    b".",
    b"5,a",
    b"a",
    b"5:5",
    b"1234567890123",
    b"999999999999,9999",
    b"0,",
    b"01,5",
    b"0",
    b"0,0",
    b"0.000",
    b"999999999999,999",
];

const TAGS: [&str; 37] = [
    "UNH", "BGM", "DTM", "BUS", "RFF", "FII", "CTA", "COM", "NAD", "LIN", "FCA", "MOA", "CUX", "INP", "FTX", "GIS",
    "LOC", "RCS", "PRC", "SEQ", "PAI", "DOC", "AJT", "DLI", "PIA", "CNT", "AUT", "UNT", "UNZ", "UNB", "UNA", "XXX", "",
    "lin", "ALC", "PCD", "TAX",
];

/// The segments of one row of a type's chart.
pub fn of_row(segments: &[Segment], kind: Kind, row: u16) -> Vec<usize> {
    (0..segments.len()).filter(|i| segments[*i].is(kind, row)).collect()
}

pub fn any_of(random: &mut Random, segments: &[Segment], kind: Kind, rows: &[u16]) -> Option<usize> {
    let all: Vec<usize> = rows.iter().flat_map(|r| of_row(segments, kind, *r)).collect();
    (!all.is_empty()).then(|| all[random.below(all.len())])
}

/// Where the stretch that begins at `from` ends: before the next segment of one of these rows, or before
/// the first row after SG4.
pub fn stretch_end(segments: &[Segment], from: usize, rows: &[u16]) -> usize {
    let last = segments[from].kind.last_of_sg4();
    let mut end = from + 1;
    while end < segments.len()
        && !rows.contains(&segments[end].row)
        && segments[end].row <= last
        && segments[end].row > 0
    {
        end += 1;
    }
    end
}

/// The MOA of level B and that of level C: of PAYMUL in SG5 and SG11, of DEBMUL in SG4 and SG13.
fn moas(kind: Kind) -> [u16; 2] {
    match kind {
        Kind::Paymul => [23, 51],
        Kind::Debmul => [20, 54],
    }
}

/// Breaks (or nearly breaks) the rule of this number somewhere in the messages of this type; some rules are
/// the other type's, and break nothing here. Counts are left alone, save where the rule is about them.
/// Returns false where the messages hold nothing fit for it.
pub fn break_rule(random: &mut Random, segments: &mut Vec<Segment>, kind: Kind, rule: u32) -> bool {
    let moas = moas(kind);
    match rule {
        10 => {
            // a byte in some value
            let messages = extents(segments);
            if messages.is_empty() {
                return false;
            }
            let (from, to) = random.pick(&messages);
            let segment = &mut segments[random.between(from, to - 1)];
            let e = random.below(segment.elements.len());
            let c = random.below(segment.elements[e].len());
            let value = &mut segment.elements[e][c];
            let at = random.below(value.len() + 1);
            for _ in 0..random.between(1, 2) {
                value.insert(at, odd_byte(random));
            }
        }
        12 => {
            let Some(unh) = any_of(random, segments, kind, &[1]) else { return false };
            let (e, c, v) = random.pick(&[
                (1, 0, b"" as &[u8]),
                (1, 0, b"123456789012345"),
                (1, 0, b"12345678901234"),
                (1, 0, b"X"),
                (1, 1, b"X"),
                (2, 0, b"PAYMUX"),
                (2, 0, b"paymul"),
                (2, 0, b"INVOIC"),
                // one type's segments under the other's name, or under that of a type not read here
                (2, 0, b"PAYMUL"),
                (2, 0, b"DEBMUL"),
                (2, 0, b"DEBMUL "),
                (2, 0, b"debmul"),
                (2, 0, b"DEBMU"),
                (2, 0, b"DIRDEB"),
                (2, 0, b"CREMUL"),
                (2, 0, b""),
                (2, 1, b"S"),
                (2, 1, b""),
                (2, 2, b"96B"),
                (2, 2, b"96"),
                (2, 3, b"UNO"),
                (2, 3, b""),
                (2, 4, b"ANY"),
                (3, 0, b"ANY"),
            ]);
            segments[unh].set(e, c, v);
        }
        17 => {
            let Some(unt) = any_of(random, segments, kind, &[kind.unt()]) else { return false };
            let count: usize = String::from_utf8_lossy(segments[unt].value(1, 0)).parse().unwrap_or(0);
            let new = random.pick(&[
                (count + 1).to_string(),
                count.wrapping_sub(1).to_string(),
                format!("0{count}"),
                format!(" {count}"),
                format!("{count} "),
                String::new(),
                format!("{count}0"),
                (count as u64 + (1 << 32)).to_string(),
                (count as u128 + (1 << 64)).to_string(),
                "123456789012345678901234567890".to_string(),
            ]);
            segments[unt].set(1, 0, new.as_bytes());
            if random.chance(30) {
                let c = random.between(1, 2);
                segments[unt].set(1, c, b"X");
            }
        }
        18 => {
            let Some(unt) = any_of(random, segments, kind, &[kind.unt()]) else { return false };
            let mut value = segments[unt].value(2, 0).to_vec();
            match random.below(5) {
                0 => value.clear(),
                1 => value.push(b'X'),
                2 => drop(value.pop()),
                3 if !value.is_empty() => value[0] ^= 0x20,
                _ => value.insert(0, b'0'),
            }
            segments[unt].set(2, 0, &value);
        }
        20 | 21 => {
            let (row, element) = if rule == 20 { (kind.lin(), 1) } else { (kind.seq(), 2) };
            let Some(at) = any_of(random, segments, kind, &[row]) else { return false };
            let number: usize = String::from_utf8_lossy(segments[at].value(element, 0)).parse().unwrap_or(0);
            let new = random.pick(&[
                (number + 1).to_string(),
                number.saturating_sub(1).to_string(),
                format!("0{number}"),
                format!("+{number}"),
                String::new(),
                format!("{number}."),
                (number as u128 + (1 << 64)).to_string(),
                (number as u64 + (1 << 16)).to_string(),
                "000000000000000000000000000001".to_string(),
                "1".to_string(),
            ]);
            segments[at].set(element, 0, new.as_bytes());
            match random.below(8) {
                0 => segments[at].set(3 - element, 0, number.to_string().as_bytes()),
                1 => segments[at].set(element, 1, number.to_string().as_bytes()),
                2 if rule == 21 => {
                    // go on counting across LINs
                    for (k, seq) in of_row(segments, kind, kind.seq()).into_iter().enumerate() {
                        segments[seq].set(2, 0, (k + 1).to_string().as_bytes());
                    }
                }
                3 if rule == 20 => {
                    for lin in of_row(segments, kind, kind.lin()) {
                        segments[lin].set(1, 0, b"1");
                    }
                }
                _ => {}
            }
        }
        22 => {
            let Some(moa) = any_of(random, segments, kind, &moas) else { return false };
            let value = random.pick(&AMOUNTS);
            segments[moa].set(1, 1, value);
            // at times the whole order says the same, so that the total still holds
            if random.chance(20) {
                for other in of_row(segments, kind, moas[1]) {
                    segments[other].set(1, 1, value);
                }
            }
        }
        23 => {
            let Some(moa) = any_of(random, segments, kind, &moas) else { return false };
            let value =
                random.pick(&[b"9" as &[u8], b"57", b"", b"8", b"09", b"9 ", b"59", b"5", b"7", b"570", b"057"]);
            segments[moa].set(1, 0, value);
            if random.chance(30) {
                // the whole message says the same
                for other in moas.into_iter().flat_map(|row| of_row(segments, kind, row)).collect::<Vec<_>>() {
                    segments[other].set(1, 0, value);
                }
            }
        }
        24 => {
            let Some(moa) = any_of(random, segments, kind, &moas) else { return false };
            let value = random.pick(&[
                b"EUR" as &[u8],
                b"EU",
                b"EURO",
                b"eur",
                b"",
                b"E R",
                b"EU1",
                b"\xC0\xC1\xC2",
                b"AZ[",
                b"@AZ",
                b"USD",
            ]);
            segments[moa].set(1, 2, value);
            if random.chance(30) {
                for other in moas.into_iter().flat_map(|row| of_row(segments, kind, row)).collect::<Vec<_>>() {
                    segments[other].set(1, 2, value);
                }
            }
        }
        25..=28 if kind == Kind::Debmul && rule != 26 => return damage_advice::odd(random, segments, rule),
        25 => return break_exchange(random, segments),
        26 => {
            let Some(moa) = any_of(random, segments, kind, &moas) else { return false };
            let old = crate::syntax::amount(segments[moa].value(1, 1)).unwrap_or(5);
            let new = random
                .pick(&[
                    old + 1,
                    old.saturating_sub(1),
                    old + 1000,
                    old * 10,
                    old / 1000,
                    old * 1000,
                    999_999_999_999_999,
                    0,
                ])
                .min(999_999_999_999_999);
            let text = crate::make::amount_text(random, new, 50);
            segments[moa].set(1, 1, text.as_bytes());
            if random.chance(10) {
                for other in of_row(segments, kind, moas[1]) {
                    segments[other].set(1, 1, b"999999999999,999");
                }
            }
        }
        27 => return break_parties(random, segments),
        28 => return break_details(random, segments),
        29 => {
            let Some(cnt) = any_of(random, segments, kind, &[kind.cnt()]) else { return false };
            let count: usize = String::from_utf8_lossy(segments[cnt].value(1, 1)).parse().unwrap_or(0);
            let new = random.pick(&[
                (count + 1).to_string(),
                count.saturating_sub(1).to_string(),
                format!("0{count}"),
                String::new(),
                format!("{count},0"),
                (count as u128 + (1 << 64)).to_string(),
                (count as u64 + (1 << 32)).to_string(),
                "123456789012345678901234567890".to_string(),
            ]);
            segments[cnt].set(1, 1, new.as_bytes());
            let qualifier = random.pick(&[b"2" as &[u8], b"2", b"2", b"39", b"02", b"", b"2 "]);
            segments[cnt].set(1, 0, qualifier);
            if random.chance(30) {
                let copy = segments[cnt].clone();
                segments.insert(cnt, copy);
            }
        }
        30 | 31 if kind == Kind::Debmul => return damage_advice::break_rule(random, segments, rule),
        30 => {
            let Some(dtm) = any_of(random, segments, kind, &[18]) else { return false };
            segments[dtm].set(1, 0, random.pick(&[b"202" as &[u8], b"209", b"455", b"137", b""]));
        }
        31 => {
            let Some(lin) = any_of(random, segments, kind, &[17]) else { return false };
            segments[lin].set(2, 0, random.pick(&[b"106" as &[u8], b"107", b""]));
        }
        _ => return false,
    }
    true
}

fn break_exchange(random: &mut Random, segments: &mut Vec<Segment>) -> bool {
    let Some(moa) = any_of(random, segments, Kind::Paymul, &[23]) else { return false };
    let currency = segments[moa].value(1, 2).to_vec();
    let cux = (segments.get(moa + 1).is_some_and(|s| s.is(Kind::Paymul, 24))).then_some(moa + 1);
    let Some(cux) = cux else {
        // a CUX where none is wanted, or 57 with none
        if random.chance(50) {
            let mut segment = Segment::of(24, "CUX+2:EUR+3:USD");
            segment.set(1, 1, &currency);
            segments.insert(moa + 1, segment);
        } else {
            qualify(segments, moa, b"57");
        }
        return true;
    };
    let empty = b"" as &[u8];
    match random.below(13) {
        0 => drop(segments.remove(cux)),
        1 => qualify(segments, moa, b"9"),
        2 => segments[cux].set(1, 0, random.pick(&[b"3" as &[u8], b"", b"02", b"2 "])),
        3 => segments[cux].set(1, 1, random.pick(&[b"" as &[u8], b"XXX", b"eur", b"EURO"])),
        4 => segments[cux].set(2, 0, random.pick(&[b"2" as &[u8], b"", b"03", b"33"])),
        5 => segments[cux].set(2, 1, &currency),
        6 => segments[cux].set(2, 1, random.pick(&[b"" as &[u8], b"us", b"usd", b"USDX", b"U D", b"12A"])),
        7 | 8 => {
            // bases and rates in every combination
            let first = random.pick(&[empty, b"1", b"100", b"1000", b"10", b"01", b"1 ", b"10000", b"x"]);
            let second = random.pick(&[empty, empty, b"1", b"100", b"1000", b"0"]);
            let rate = random.pick(&[empty, b"0.9", b" ", b"x"]);
            let (first, second) = if random.chance(50) { (first, second) } else { (second, first) };
            segments[cux].set(1, 3, first);
            segments[cux].set(2, 3, second);
            segments[cux].set(3, 0, rate);
        }
        9 => {
            segments[cux].elements.truncate(2);
        }
        10 => {
            // what no rule reads
            segments[cux].set(1, 2, b"X");
            segments[cux].set(2, 2, b"X");
            segments[cux].set(4, 0, b"X");
        }
        11 => {
            // the rate in a second component is none
            segments[cux].set(1, 3, b"100");
            segments[cux].set(2, 3, empty);
            segments[cux].set(3, 0, empty);
            segments[cux].set(3, 1, b"0.9");
        }
        _ => segments[cux].elements.swap(1, 2),
    }
    true
}

/// Sets the qualifier of an order's amounts.
fn qualify(segments: &mut [Segment], moa: usize, qualifier: &[u8]) {
    let end = stretch_end(segments, moa, &[17]);
    for segment in &mut segments[moa..end] {
        if segment.row == 23 || segment.row == 51 {
            segment.set(1, 0, qualifier);
        }
    }
}

fn break_parties(random: &mut Random, segments: &mut Vec<Segment>) -> bool {
    let Some(at) = any_of(random, segments, Kind::Paymul, &[28, 32, 57, 61]) else { return false };
    let row = segments[at].row;
    let codes: &[&[u8]] = match row {
        28 => &[b"OR", b"BF", b"", b"OR ", b"or"],
        32 => &[b"PL", b"OY", b"BE", b""],
        57 => &[b"BF", b"BF", b"I1", b"", b"bf"],
        _ => &[b"PE", b"BE", b"PL", b""],
    };
    match random.below(5) {
        0 => {
            let code = random.pick(codes);
            segments[at].set(1, 0, code);
        }
        1 if row == 28 || row == 57 => {
            // a name comes or goes
            let component = random.between(1, 2);
            let name = random.pick(&[b"" as &[u8], b"", b"N", b" "]);
            segments[at].set(2, 1, b"");
            segments[at].set(2, 2, b"");
            segments[at].set(2, component, name);
            if random.chance(20) {
                // names in places that do not count
                segments[at].set(2, 1, b"");
                segments[at].set(2, 2, b"");
                segments[at].set(2, 3, b"EUR");
                segments[at].set(3, 1, b"NAME");
            }
        }
        2 => drop(segments.remove(at)),
        _ => {
            // one party more
            let new = random.pick(&[
                (28, "FII+OR+1:N"),
                (32, "NAD+PL"),
                (32, "NAD+OY"),
                (57, "FII+BF+1:N"),
                (57, "FII+BF+1"),
                (61, "NAD+PE"),
                (61, "NAD+BE"),
                (61, "NAD+RV"),
            ]);
            let same = [if row == 28 || row == 32 { 28 } else { 51 }, row];
            let new = if same.contains(&new.0) {
                new
            } else {
                (
                    row,
                    if row == 32 {
                        random.pick(&["NAD+PL", "NAD+OY"])
                    } else if row == 61 {
                        random.pick(&["NAD+PE", "NAD+BE"])
                    } else if row == 57 {
                        "FII+BF+2:N"
                    } else {
                        "FII+OR+2:N"
                    },
                )
            };
            let place = if new.0 >= row { at + 1 } else { at };
            segments.insert(place, Segment::of(new.0, new.1));
        }
    }
    true
}

fn break_details(random: &mut Random, segments: &mut Vec<Segment>) -> bool {
    if random.chance(15) {
        // SG10 beside SG16
        let Some(prc) = any_of(random, segments, Kind::Paymul, &[76]) else { return false };
        let Some(seq) =
            (0..prc).rev().find(|i| segments[*i].row == 17).and_then(|lin| (lin..prc).find(|i| segments[*i].row == 50))
        else {
            return false;
        };
        segments.insert(seq, Segment::of(48, "FTX+PMD+++TEXT"));
        segments.insert(seq, Segment::of(47, "PRC+11"));
        return true;
    }
    let Some(prc) = any_of(random, segments, Kind::Paymul, &[76]) else { return false };
    let end = stretch_end(segments, prc, &[17, 50]);
    match random.below(5) {
        0 | 1 => {
            let code = random.pick(&[b"8" as &[u8], b"9", b"10", b"11", b"", b"08", b"12", b"1", b"8 "]);
            segments[prc].set(1, 0, code);
        }
        2 => {
            let texts: Vec<usize> = (prc..end).filter(|i| segments[*i].row == 77).collect();
            texts.into_iter().rev().for_each(|i| drop(segments.remove(i)));
        }
        3 => {
            // all documents go
            let all: Vec<usize> = (prc..end).filter(|i| (79..=104).contains(&segments[*i].row)).collect();
            all.into_iter().rev().for_each(|i| drop(segments.remove(i)));
        }
        _ => {
            let new = random.pick(&[(77, "FTX+PMD+++MORE"), (79, "DOC+380+1")]);
            let place =
                if new.0 == 77 { prc + 1 } else { (prc + 1..end).find(|i| segments[*i].row >= 78).unwrap_or(end) };
            segments.insert(place, Segment::of(new.0, new.1));
        }
    }
    true
}

/// Segments against the chart: dropped, doubled, swapped, moved, put in, renamed, repeated past the limit.
pub fn break_chart(random: &mut Random, segments: &mut Vec<Segment>) {
    let messages = extents(segments);
    if messages.is_empty() {
        return;
    }
    let (from, to) = random.pick(&messages);
    let at = random.between(from, to - 1);
    match random.below(13) {
        0 | 1 => drop(segments.remove(at)),
        2 => {
            let copy = segments[at].clone();
            segments.insert(at, copy);
        }
        3 => {
            let other = (at + 1).min(to - 1);
            segments.swap(at, other);
        }
        4 => {
            let moved = segments.remove(at);
            let place = random.between(from, to - 1);
            segments.insert(place, moved);
        }
        5 | 6 => {
            let tag = random.pick(&TAGS);
            segments.insert(at + random.below(2), Segment::of(0, tag));
        }
        7 => {
            let tag = random.pick(&TAGS);
            segments[at].set(0, 0, tag.as_bytes());
        }
        8 | 9 => {
            // one row stands as often as it may, or once more
            let row = segments[at].row;
            if row == 0 {
                return;
            }
            let limit = segments[at].kind.chart().repeats(row);
            let standing = segments[at..to].iter().take_while(|s| s.row == row).count()
                + segments[from..at].iter().rev().take_while(|s| s.row == row).count();
            let wanted = if limit <= 10 { limit + random.below(2) } else { standing + 1 };
            for _ in standing..wanted {
                let copy = segments[at].clone();
                segments.insert(at, copy);
            }
        }
        10 => {
            // a whole group once more, or as often as it may, or once more than that
            let (row, chart) = (segments[at].row, segments[at].kind.chart());
            if row == 0 || chart.group_of(row) == 0 {
                return;
            }
            let group = chart.group_of(row);
            let limit = chart.repeats(group);
            let inside = |r: u16| {
                let mut up = r;
                while up != 0 && up != group {
                    up = chart.group_of(up);
                }
                up == group
            };
            let first = chart.held(group)[0];
            let Some(start) = (from..=at).rev().find(|i| segments[*i].row == first) else { return };
            let mut end = start + 1;
            while end < to && segments[end].row != 0 && inside(segments[end].row) && segments[end].row != first {
                end += 1;
            }
            let copy: Vec<Segment> = segments[start..end].to_vec();
            let times = if limit <= 10 { random.between(1, limit) } else { 1 };
            for _ in 0..times {
                segments.splice(end..end, copy.iter().cloned());
            }
        }
        11 => {
            // rows that never stand: a group's where its first segment does
            let kind = segments[from].kind;
            let chart = kind.chart();
            let never: Vec<u16> = chart.rows().iter().map(|r| r.0).filter(|r| chart.never(*r)).collect();
            let row = random.pick(&never);
            let before = if row == 4 { 3 } else { chart.held(chart.group_of(row))[0] };
            let Some(place) = any_of(random, &segments[from..to], kind, &[before]) else { return };
            segments.insert(from + place + 1, Segment::of(0, chart.tag_of(row)));
        }
        _ => {
            // a stretch goes
            let end = random.between(at, to - 1);
            segments.drain(at..end);
        }
    }
}

/// A value anywhere becomes another one.
pub fn change_value(random: &mut Random, segments: &mut [Segment]) {
    if segments.is_empty() {
        return;
    }
    let at = random.below(segments.len());
    let (e, c) = (random.below(5), random.pick(&[0, 0, 0, 1, 1, 2, 3, 4]));
    let value: &[u8] = if random.chance(30) { random.pick(&AMOUNTS) } else { random.pick(&VALUES) };
    segments[at].set(e, c, value);
}

/// The envelope: strays, unclosed messages, UNZ and UNB elsewhere, header and trailer values.
pub fn break_envelope(random: &mut Random, segments: &mut Vec<Segment>) {
    let last = segments.len().saturating_sub(1);
    match random.below(15) {
        0 | 1 => {
            // strays, most of them outside messages
            let outside: Vec<usize> =
                (1..segments.len()).filter(|i| segments[*i].tag() == b"UNH" || segments[*i].tag() == b"UNZ").collect();
            for _ in 0..random.between(1, 3) {
                let place = if outside.is_empty() { last } else { random.pick(&outside) };
                segments.insert(
                    place.min(segments.len()),
                    Segment::of(
                        0,
                        random.pick(&["UNT+2+1", "UNZ+0+R1", "UNG+X", "", "LIN+1", "UNB+UNOA:3+A+B+C+D", "XXX"]),
                    ),
                );
            }
        }
        2 | 3 => {
            // a message is left unclosed
            let unt: Vec<usize> = (0..segments.len()).filter(|i| segments[*i].tag() == b"UNT").collect();
            if !unt.is_empty() {
                segments.remove(random.pick(&unt));
            }
        }
        4 => segments.insert(random.between(1, last.max(1)).min(segments.len()), Segment::of(0, "UNZ+1+R1")),
        5 => {
            let unh = random.pick(&["UNH+1+PAYMUL:D:96A:UN", "UNH+1+DEBMUL:D:96A:UN"]);
            segments.insert(random.between(1, last.max(1)).min(segments.len()), Segment::of(0, unh))
        }
        6 | 7 => {
            let count: usize = String::from_utf8_lossy(segments[last].value(1, 0)).parse().unwrap_or(0);
            let new = random.pick(&[
                (count + 1).to_string(),
                count.wrapping_sub(1).to_string(),
                format!("0{count}"),
                String::new(),
                "x".to_string(),
                (count as u128 + (1 << 64)).to_string(),
                (count as u64 + (1 << 32)).to_string(),
            ]);
            segments[last].set(1, 0, new.as_bytes());
        }
        8 | 9 => {
            let mut value = segments[last].value(2, 0).to_vec();
            match random.below(4) {
                0 => value.clear(),
                1 => value.push(b'0'),
                2 => drop(value.pop()),
                _ => value.insert(0, b' '),
            }
            segments[last].set(2, 0, &value);
            if random.chance(30) {
                segments[last].set(2, 1, b"X");
            }
        }
        10 | 11 => {
            let (e, c, v) = random.pick(&[
                (1, 1, b"" as &[u8]),
                (1, 1, b"4"),
                (1, 1, b"03"),
                (1, 1, b"3 "),
                (1, 2, b"X"),
                (5, 0, b""),
                (5, 0, b"123456789012345"),
                (5, 0, b"12345678901234"),
                (5, 1, b"X"),
                (0, 0, b"UNC"),
                (0, 0, b"unb"),
                (0, 0, b""),
                (0, 1, b"X"),
            ]);
            segments[0].set(e, c, v);
        }
        12 => drop(segments.remove(0)),
        13 => {
            segments.pop();
        }
        _ => {
            let extra = random.pick(&["UNT+1+1", "UNZ+1+R1", "", "XXX", "UNH+1+PAYMUL:D:96A:UN"]);
            segments.push(Segment::of(0, extra));
        }
    }
}

/// Unfit service characters: the bytes 3 to 8 of UNA changed in one of the ways that break the rule.
pub fn break_una(random: &mut Random, bytes: &mut Vec<u8>) {
    if !bytes.starts_with(b"UNA") || bytes.len() < 9 {
        let una: &[u8] = b"UNA:+,? '";
        bytes.splice(0..0, una.iter().copied());
    }
    match random.below(9) {
        0 => bytes.truncate(random.between(0, 9)),
        1 => {
            let (a, b) = (random.pick(&[3, 4, 5, 6, 8]), random.pick(&[3, 4, 5, 6, 8]));
            bytes[a] = bytes[b];
        }
        2 => bytes[5] = random.byte(),
        3 => bytes[7] = random.pick(&[b'*', 0, b'\r', b'?', b'A', b'!', 0xA0]),
        4 | 5 => {
            bytes[random.pick(&[3, 4, 6, 8])] = random.pick(&[
                b'A', b'z', b'0', b'9', 0x20, 0x7F, 0x1F, b'\r', b'\n', 0x80, 0xFF, 0, b'@', b'[', b'`', b'{', b'/',
                b':', 0x21, 0x7E,
            ])
        }
        6 => bytes[random.between(3, 8)] = random.byte(),
        7 => {
            let at = random.between(0, 8);
            bytes.remove(at);
        }
        _ => {
            let at = random.between(0, 9);
            let byte = random.byte();
            bytes.insert(at, byte);
        }
    }
}

/// Bytes against number 10, in a value: outside 0x20..0x7E and 0xA0..0xFF, or at the edges.
pub fn odd_byte(random: &mut Random) -> u8 {
    random.pick(&[0x00, 0x01, 0x09, b'\n', b'\r', 0x1F, 0x20, 0x7E, 0x7F, 0x80, 0x8D, 0x9F, 0xA0, 0xFF, 0x1B, 0x0B])
}

/// Damage to bytes, knowing nothing of segments.
pub fn break_bytes(random: &mut Random, bytes: &mut Vec<u8>, special: &[u8]) {
    if bytes.is_empty() {
        return;
    }
    let at = random.below(bytes.len());
    let interesting = |random: &mut Random| match random.below(4) {
        0 => random.byte(),
        1 => odd_byte(random),
        _ => random.pick(special),
    };
    match random.below(12) {
        0 => bytes[at] = interesting(random),
        1 => bytes[at] ^= 1 << random.below(8),
        2 => drop(bytes.remove(at)),
        3 | 4 => {
            let byte = interesting(random);
            bytes.insert(at, byte);
        }
        5 => bytes.truncate(at),
        6 => {
            let end = random.between(at, (at + 40).min(bytes.len()));
            bytes.drain(at..end);
        }
        7 => {
            let end = random.between(at, (at + 60).min(bytes.len()));
            let copy = bytes[at..end].to_vec();
            let place = random.below(bytes.len() + 1);
            bytes.splice(place..place, copy);
        }
        8 => {
            let what = random.pick(&[
                b"??'" as &[u8],
                b"?",
                b"?'",
                b"???'",
                b"\r\n",
                b"?\r",
                b"?\n",
                b"''",
                b"'\r\n'",
                b"'UNT+1+1'",
                b"'UNH'",
                b"'UNZ+1+1'",
                b"+",
                b":",
                b"?U",
                b"'?UNT",
                b"'U?NH",
                b"'\r?\nX'",
            ]);
            bytes.splice(at..at, what.iter().copied());
        }
        9 => {
            // near the end
            let at = bytes.len() - 1 - random.below(bytes.len().min(12));
            bytes[at] = interesting(random);
        }
        10 => {
            let what =
                random.pick(&[b"\r\n" as &[u8], b"\n", b" ", b"'", b"?", b"X", b"\r\n\r\n'", b"?'", b"UNZ", b"\0"]);
            bytes.extend(what);
        }
        _ => {
            let count = random.between(1, 8);
            for _ in 0..count {
                let at = random.below(bytes.len());
                bytes[at] = interesting(random);
            }
        }
    }
}

/// Bytes with no plan: all random, or of separators only, or of service characters and tags.
pub fn noise(random: &mut Random) -> Vec<u8> {
    let length = random.pick(&[0, 1, 2, 3, 5, 8, 9, 10, 20, 60, 200]);
    let start: &[u8] = random.pick(&[
        b"" as &[u8],
        b"",
        b"UNA",
        b"UNA:+,? '",
        b"UNA:+. ? '",
        b"UNA:+,  '",
        b"UNA|*.! ~",
        b"UNB+A:3++++R'",
        b"UNB+A:3++++R'UNH+1+PAYMUL:D:96A:UN'",
        b"\r\n",
        b"UNH+1+PAYMUL:D:96A:UN'",
        b"UNH+1+DEBMUL:D:96A:UN'",
        b"UN",
    ]);
    let mut bytes = start.to_vec();
    let pieces: [&[u8]; 23] = [
        b"'",
        b"+",
        b":",
        b"?",
        b"?'",
        b"??",
        b"\r",
        b"\n",
        b"UNH",
        b"UNT",
        b"UNZ",
        b"UNB",
        b"LIN",
        b"A",
        b"1",
        b"|",
        b"*",
        b"~",
        b"!",
        b" ",
        b"UNH+1+PAYMUL:D:96A:UN'",
        b"UNH+1+DEBMUL:D:96A:UN'",
        b"UNT+2+1'",
    ];
    let kind = random.below(4);
    for _ in 0..length {
        match kind {
            0 => bytes.push(random.byte()),
            1 => bytes.push(random.pick(b"'+:?")),
            2 => bytes.push(random.pick(b"'?\r\nUNHTZ")),
            _ => bytes.extend(random.pick(&pieces)),
        }
    }
    if random.chance(30) {
        bytes.extend(random.pick(&[b"UNZ+0+R'" as &[u8], b"'UNZ+1+R'\r\n", b"UNZ'", b"'UNZ", b"UNT+2+1'UNZ+1+R'"]));
    }
    bytes
}
