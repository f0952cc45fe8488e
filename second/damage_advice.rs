//! Damage to debit advices: against the rules of W-201, and odd values where it has none.

use crate::damage::{any_of, of_row, stretch_end, AMOUNTS};
use crate::kinds::Kind::Debmul;
use crate::make::Segment;
use crate::random::Random;

/// Codes of dates, right and wrong ones.
const DATES: [&[u8]; 22] = [
    b"202", b"209", b"455", b"455", b"137", b"203", b"", b"2022", b"20", b"0202", b"202 ", b" 202", b"208", b"210",
    b"454", b"456", b"4555", b"45", b"2O2", b"022", b"902", b"\xB202",
];

/// Near 342, BGM's code of a pre-advice, and near 106, LIN's code of an order without details.
const NEAR_342: [&[u8]; 9] = [b"342", b"342", b"456", b"", b"0342", b"342 ", b"34", b"3422", b"243"];
const NEAR_106: [&[u8]; 12] =
    [b"106", b"106", b"107", b"", b"0106", b"106 ", b" 106", b"10", b"1060", b"601", b"1O6", b"06"];

/// Breaks (or nearly breaks) 30 or 31 somewhere. Returns false where no message holds anything fit for it.
pub fn break_rule(random: &mut Random, segments: &mut Vec<Segment>, rule: u32) -> bool {
    if rule == 30 {
        break_dates(random, segments)
    } else {
        break_references(random, segments)
    }
}

/// Puts the values of an element one place further: into the second component, or into the next element.
fn shift(random: &mut Random, segment: &mut Segment, element: usize) {
    if element >= segment.elements.len() {
        return;
    }
    if random.chance(50) {
        segment.elements[element].insert(0, Vec::new());
    } else {
        segment.elements.insert(element, vec![Vec::new()]);
    }
}

fn break_dates(random: &mut Random, segments: &mut Vec<Segment>) -> bool {
    let Some(dtm) = any_of(random, segments, Debmul, &[18]) else { return false };
    match random.below(10) {
        0..=2 => segments[dtm].set(1, 0, random.pick(&DATES)),
        3 => shift(random, &mut segments[dtm], 1),
        4 => segments[dtm].elements.truncate(1),
        5 | 6 => {
            // an expected date, and a BGM that allows it or not
            if random.chance(70) {
                segments[dtm].set(1, 0, b"455");
            }
            let Some(bgm) = any_of(random, segments, Debmul, &[2]) else { return false };
            match random.below(4) {
                0 => shift(random, &mut segments[bgm], 1),
                1 => segments[bgm].elements.truncate(1),
                _ => segments[bgm].set(1, 0, random.pick(&NEAR_342)),
            }
        }
        7 => {
            // one date more, of three at most
            let mut more = segments[dtm].clone();
            more.set(1, 0, random.pick(&DATES));
            segments.insert(dtm + random.below(2), more);
        }
        8 => {
            // dates elsewhere carry no rule: of the message, of references, charges, transactions and amounts
            if let Some(other) = any_of(random, segments, Debmul, &[3, 7, 23, 41, 44, 49, 56, 65, 86, 93]) {
                segments[other].set(1, 0, random.pick(&DATES));
            }
        }
        _ => {
            // a date after an RFF of the line or after a SEQ
            let (after, row) = random.pick(&[(22, 23), (43, 44), (43, 44)]);
            if let Some(place) = any_of(random, segments, Debmul, &[after]) {
                let mut date = Segment::typed(Debmul, row, "DTM");
                date.set(1, 0, random.pick(&DATES));
                segments.insert(place + 1, date);
            }
        }
    }
    true
}

/// Takes all SG11 out of a stretch.
fn without_references(segments: &mut Vec<Segment>, from: usize, to: usize) {
    let all: Vec<usize> = (from..to).filter(|i| [48, 49].contains(&segments[*i].row)).collect();
    all.into_iter().rev().for_each(|i| drop(segments.remove(i)));
}

/// Puts an RFF into SG13, behind the MOA at or after `from` with its CUX and DTM.
fn reference_of_amount(segments: &mut Vec<Segment>, from: usize) {
    let Some(moa) = (from..segments.len()).find(|i| segments[*i].is(Debmul, 54)) else { return };
    let place = (moa + 1..segments.len()).find(|i| ![55, 56].contains(&segments[*i].row)).unwrap_or(moa + 1);
    segments.insert(place, Segment::typed(Debmul, 57, "RFF+FX:407082"));
}

fn break_references(random: &mut Random, segments: &mut Vec<Segment>) -> bool {
    let Some(seq) = any_of(random, segments, Debmul, &[43]) else { return false };
    let Some(lin) = (0..seq).rev().find(|i| segments[*i].is(Debmul, 17)) else { return false };
    let end = stretch_end(segments, seq, &[17, 43]);
    match random.below(10) {
        0 | 1 => {
            segments[lin].set(2, 0, random.pick(&NEAR_106));
            match random.below(6) {
                0 => shift(random, &mut segments[lin], 2),
                1 => segments[lin].set(2, 1, b"106"),
                2 => segments[lin].set(3, 0, b"106"),
                _ => {}
            }
        }
        2..=5 if segments[lin].value(2, 0) == b"106" => {
            // a reference comes in, behind the last FII
            let last = (seq..end).rev().find(|i| segments[*i].is(Debmul, 46)).unwrap_or(seq);
            segments.insert(last + 1, Segment::typed(Debmul, 48, random.pick(&["RFF+AIK:423390", "RFF"])));
        }
        2..=5 => {
            // the references go; one of the amount is none of the transaction
            without_references(segments, seq, end);
            if random.chance(30) {
                reference_of_amount(segments, seq);
            }
            if random.chance(20) {
                segments[lin].set(2, 0, b"");
            }
        }
        6 => reference_of_amount(segments, seq),
        7 => {
            // a reference more, where there are some or none
            let last = (seq..end).rev().find(|i| [46, 48, 49].contains(&segments[*i].row)).unwrap_or(seq);
            segments.insert(last + 1, Segment::typed(Debmul, 48, "RFF+CR:7"));
        }
        _ => {
            // a whole line becomes one without details, in all but its first transactions at times
            segments[lin].set(2, 0, b"106");
            let from = if random.chance(70) { lin } else { end };
            let end = stretch_end(segments, lin, &[17]);
            without_references(segments, from, end.max(from));
        }
    }
    true
}

/// Odd exchange rates (25), parties (27) and details (28), of which PAYMUL has rules and DEBMUL none.
pub fn odd(random: &mut Random, segments: &mut Vec<Segment>, rule: u32) -> bool {
    match rule {
        25 => odd_exchange(random, segments),
        27 => odd_parties(random, segments),
        _ => odd_details(random, segments),
    }
}

fn odd_exchange(random: &mut Random, segments: &mut Vec<Segment>) -> bool {
    let Some(moa) = any_of(random, segments, Debmul, &[54]) else { return false };
    let cux = of_row(segments, Debmul, 55);
    if cux.is_empty() || random.chance(30) {
        let text = random.pick(&["CUX+2:USD+3:EUR::1+1,05", "CUX+2:EUR+3:EUR", "CUX+3:eur::7", "CUX"]);
        segments.insert(moa + 1, Segment::typed(Debmul, 55, text));
        return true;
    }
    let at = random.pick(&cux);
    let (element, component) = (random.between(1, 3), random.below(4));
    segments[at].set(element, component, random.pick(&[b"" as &[u8], b"2", b"3", b"EUR", b"usd", b"100", b"7"]));
    true
}

fn odd_parties(random: &mut Random, segments: &mut Vec<Segment>) -> bool {
    let Some(at) = any_of(random, segments, Debmul, &[25, 46, 59]) else { return false };
    match random.below(4) {
        0 | 1 => {
            let code = random.pick(&[b"OR" as &[u8], b"PH", b"BF", b"ZZZ", b"PL", b"PE", b"BE", b"", b"or"]);
            segments[at].set(1, 0, code);
        }
        2 => segments[at].set(2, random.between(1, 2), random.pick(&[b"" as &[u8], b"N", b" "])),
        _ => {
            let copy = segments[at].clone();
            segments.insert(at, copy);
        }
    }
    true
}

fn odd_details(random: &mut Random, segments: &mut Vec<Segment>) -> bool {
    let Some(prc) = any_of(random, segments, Debmul, &[88]) else {
        // none there: one comes in at a transaction's end
        let Some(seq) = any_of(random, segments, Debmul, &[43]) else { return false };
        let end = stretch_end(segments, seq, &[17, 43]);
        segments.insert(end, Segment::typed(Debmul, 88, random.pick(&["PRC+8", "PRC+11", "PRC+12", "PRC"])));
        return true;
    };
    let end = stretch_end(segments, prc, &[17, 43]);
    match random.below(4) {
        0 => segments[prc].set(1, 0, random.pick(&[b"8" as &[u8], b"11", b"", b"12", b"08"])),
        1 => {
            let rows = if random.chance(50) { 89..=89 } else { 90..=116 };
            let all: Vec<usize> = (prc..end).filter(|i| rows.contains(&segments[*i].row)).collect();
            all.into_iter().rev().for_each(|i| drop(segments.remove(i)));
        }
        2 => segments.insert(prc + 1, Segment::typed(Debmul, 89, "FTX+PMD+++MORE")),
        _ => {
            // amounts of documents, adjustments and charges have no form
            if let Some(moa) = any_of(random, segments, Debmul, &[30, 34, 39, 68, 75, 79, 92, 101, 106, 119]) {
                segments[moa].set(1, 1, random.pick(&AMOUNTS));
            }
        }
    }
    true
}
