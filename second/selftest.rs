//! Document 01's example and its cases 1 to 12, and a few other sentences of it, on this program itself. Those
//! of debit advices are in `selftest_advice.rs`, those of messages hit in `selftest_hits.rs`.

use crate::chart;
use crate::interchange::{check, close, open, walk, walk_each, Step};
use crate::kinds::{Kind, KINDS};
use crate::message::Lists;
use crate::random::Random;
use crate::report::report;
use crate::rewrite::rewrite;
use crate::selftest_advice;
use crate::selftest_hits;
use crate::syntax::*;

pub struct Tests {
    passed: usize,
    failed: usize,
}

impl Tests {
    pub fn hold(&mut self, what: &str, holds: bool) {
        if holds {
            self.passed += 1;
        } else {
            self.failed += 1;
            println!("FAILED: {what}");
        }
    }
}

pub const AMPLE: Lists = Lists { rows: 100, starts: 100, totals: 10 };

/// A good message around the segments of orders, from LIN on.
fn message(orders: &str) -> Vec<u8> {
    let lins = orders.matches("LIN+").count();
    let body = format!("UNH+1+PAYMUL:D:96A:UN'BGM+452+1+9'DTM+137:20020107:102'{orders}CNT+2:{lins}'");
    let count = body.matches('\'').count() + 1;
    format!("{body}UNT+{count}+1'").into_bytes()
}

fn number(orders: &str) -> u32 {
    check(b"", &message(orders), AMPLE).fault.0
}

/// One order; the parts that the cases change come in as text.
fn order(line: usize, moa: &str, cux: &str, parties: &str, payments: &str) -> String {
    format!("LIN+{line}'DTM+203:20020107:102'RFF+AEK:1'MOA+{moa}'{cux}{parties}{payments}")
}

fn payment(sequence: usize, moa: &str) -> String {
    format!("SEQ++{sequence}'MOA+{moa}'RFF+CR:1'NAD+BE'")
}

pub fn run() -> bool {
    let mut t = Tests { passed: 0, failed: 0 };
    let example =
        b"UNB+UNOA:3+A+B+020107:1200+R1'UNH+1+PAYMUL:D:96A:UN'UNT+2+1'UNH+2+INVOIC:D:96A:UN'UNT+2+2'UNZ+2+R1'";
    t.hold("the example", report(example) == "MSG 1 NO 16 2 22\nMSG 2 NO 12 1 0\nEND 2 0 0 0\n");

    // cases 1 to 12
    let first = |bytes: &[u8]| {
        let span = spans(bytes, 0, false, PLAIN)[0];
        (elements(&bytes[span.start..span.end], PLAIN), span.finished)
    };
    t.hold("1", first(b"A?'B'") == (vec![vec![b"A'B".to_vec()]], true));
    t.hold("2", first(b"??'") == (vec![vec![b"?".to_vec()]], true));
    t.hold("3", amount(b"23800,3") == Some(23_800_300));
    t.hold("4", amount(b"1500.5") == Some(1_500_500));
    t.hold("5", amount(b"1.500") == Some(1_500));
    t.hold("6", [b"1.234,5" as &[u8], b"2,", b"007"].iter().all(|a| amount(a).is_none()));
    t.hold("7", amount(b"999999999999,999") == Some(999_999_999_999_999) && amount(b"1000000000000").is_none());
    let named = "FII+OR+1:N'";
    let sums = payment(1, "9:0,1:EUR") + &payment(2, "9:0,2:EUR");
    t.hold("8", number(&order(1, "9:0,3:EUR", "", named, &sums)) == 0);
    t.hold("8, other total", number(&order(1, "9:0,31:EUR", "", named, &sums)) == 26);
    let cux = "CUX+2:EUR+3:USD'";
    t.hold("9", number(&order(1, "57:1:EUR", cux, named, &payment(1, "57:1:EUR"))) == 0);
    t.hold("9, under USD", number(&order(1, "57:1:USD", cux, named, &payment(1, "57:1:USD"))) == 25);
    t.hold("10", number(&order(1, "9:1:EUR", "", "FII+OR+1'NAD+PL'", &payment(1, "9:1:EUR"))) == 0);
    t.hold("10, OY", number(&order(1, "9:1:EUR", "", "FII+OR+1'NAD+OY'", &payment(1, "9:1:EUR"))) == 27);
    let two = order(1, "9:2:EUR", "", named, &(payment(1, "9:1:EUR") + &payment(2, "9:1:EUR")));
    t.hold("11", number(&(two.clone() + &order(2, "9:1:EUR", "", named, &payment(1, "9:1:EUR")))) == 0);
    t.hold("11, 3 there", number(&(two + &order(2, "9:1:EUR", "", named, &payment(3, "9:1:EUR")))) == 21);
    let twelve = b"UNB+UNOA:3+A+B+020107:1200+R1'DTM+137:20020107:102::'RFF++:'UNZ+0+R1'";
    t.hold(
        "12",
        rewrite(twelve, 1000) == Ok(b"UNB+UNOA:3+A+B+020107:1200+R1'DTM+137:20020107:102'RFF'UNZ+0+R1'".to_vec()),
    );

    // W-202
    t.hold("13", amount(b",5") == Some(500) && amount(b".5") == Some(500));
    t.hold(
        "13, refused",
        [b"," as &[u8], b".", b"5,", b"5.", b"", b",,5", b",5,", b",5000"].iter().all(|a| amount(a).is_none()),
    );
    t.hold("13, thousandths", amount(b",005") == Some(5) && amount(b".05") == Some(50) && amount(b",999") == Some(999));
    let halves = payment(1, "9:,5:EUR") + &payment(2, "9:.500:EUR");
    t.hold("13, two halves", number(&order(1, "9:1:EUR", "", named, &halves)) == 0);
    t.hold("13, other total", number(&order(1, "9:,5:EUR", "", named, &halves)) == 26);
    t.hold("13, a mark alone", number(&order(1, "9:,:EUR", "", named, &payment(1, "9:0:EUR"))) == 22);

    for kind in KINDS {
        t.hold(&format!("the chart of {}", kind.name()), in_order(kind));
        let same = as_published(kind);
        t.hold(&format!("the rows of {}", kind.name()), same);
    }
    selftest_advice::run(&mut t);
    selftest_hits::run(&mut t);
    samples(&mut t);

    // opening
    for (bytes, must) in [
        (b"" as &[u8], 3),
        (b"UNA", 2),
        (b"UNA:+,? ", 2),
        (b"UNA:+,? '", 3),
        (b"UNA:+,? 'UNB+:3++++R'UNZ'", 0),
        (b"UNA:+,  'UNB+:3++++R'UNZ'", 0),
        (b"UNA:+,?*'UNB+:3++++R'UNZ'", 2),
        (b"UNA:+:? 'UNB+:3++++R'UNZ'", 2),
        (b"UNA++,? 'UNB+:3++++R'UNZ'", 2),
        (b"UNA:+,+ 'UNB+:3++++R'UNZ'", 2),
        (b"UNAa+,? 'UNB+:3++++R'UNZ'", 2),
        (b"UNA:+,? '\r\nUNB+:3++++R'\r\nUNZ'\r\n", 0),
        (b"\r\nUNB+:3++++R'UNZ'", 3),
        (b"UNB+:3++++R'", 4),
        (b"UNB+:3++++R", 4),
        (b"UNB+:3++++R'UNZ", 4),
        (b"UNB+:3++++R'UNZ' ", 4),
        (b"UNB+:3++++R:X'UNZ'", 0),
        (b"UNB+:4++++R'UNZ'", 3),
        (b"UNB+:3++++123456789012345'UNZ'", 3),
        (b"?UNB+:3++++R'U?NZ'", 0),
    ] {
        t.hold(&format!("opening {}", crate::driver::escape(bytes, 80)), open(bytes).err().unwrap_or(0) == must);
    }

    // closing, walking
    let closing = close(b"UNB+:3++++R'X'UNH'UNZ'UNH'UNT'UNT'UNZ+2+R'");
    t.hold("closing", (closing.number, closing.messages, closing.strays) == (7, 2, 2));
    let steps = b"UNB+:3++++R'UNH'A'\r\nUNH'B'UNZ'\r\n";
    let extent = |at| match walk(steps, at, AMPLE) {
        Step::Found(extent, report) => Some((extent.start, extent.end, report.fault)),
        _ => None,
    };
    t.hold("walk, first", extent(0) == Some((12, 20, (11, 1, 0))));
    t.hold("walk, second", extent(20) == Some((20, 26, (11, 1, 0))));
    t.hold(
        "walk, none",
        walk(steps, 26, AMPLE) == Step::NoneLeft && walk(steps, steps.len() as u64, AMPLE) == Step::NoneLeft,
    );
    t.hold("walk, past", walk(steps, steps.len() as u64 + 1, AMPLE) == Step::Refused(8));
    t.hold(
        "walk, unfinished",
        walk(b"UNH'A", 0, AMPLE) == Step::Refused(4) && walk(b"A", 0, AMPLE) == Step::Refused(4),
    );
    t.hold("walk, unfinished after", matches!(walk(b"UNH'UNT'A", 0, AMPLE), Step::Found(..)));
    // W-203: the steps at 12..20, at 20..26, none left, and past the end
    let several = walk_each(steps, &[26, 0, u64::MAX, 20, 13, 0, (1 << 32) + 20], 9).unwrap();
    let places = several.iter().map(|step| match step {
        Step::Found(extent, report) => Ok((extent.start, extent.end, report.fault)),
        Step::NoneLeft => Err(0),
        Step::Refused(number) => Err(*number),
    });
    let (one, two) = (Ok((12, 20, (11, 1, 0))), Ok((20, 26, (11, 1, 0))));
    t.hold("several positions", places.eq([Err(0), one, Err(8), two, two, one, Err(8)]));
    let long = message(&order(1, "9:1:EUR", "", named, &payment(1, "9:1:EUR")));
    t.hold("a list of totals needed", check(b"", &long, Lists { totals: 0, ..AMPLE }).fault.0 == 14);
    let counts = match &walk_each(&long, &[0], 1).unwrap()[..] {
        [Step::Found(_, r)] if r.fault.0 == 0 => Some((r.segments, r.orders, r.payments)),
        _ => None,
    };
    t.hold("several positions, as if the lists were long enough", counts == Some((14, 1, 1)));
    t.hold("several positions, none", walk_each(b"UNA", &[], 0) == Ok(vec![]));
    t.hold("several positions, less room", walk_each(b"UNA", &[0, 1], 1) == Err(14));
    t.hold("several positions, unfit", walk_each(b"UNA", &[9, 1], 2) == Ok(vec![Step::Refused(2); 2]));

    t.hold("rewriting a CR", rewrite(b"UNB+:3++++R'?\rA+\r'UNZ'", 99) == Ok(b"UNB+:3++++R'?\rA+\r'UNZ'".to_vec()));
    t.hold("rewriting into less", rewrite(b"UNB+:3++++R'UNZ'", 15) == Err(9));

    // how many messages of a table are accepted, counted by hand from the rules
    let mut random = Random::new(7);
    for (name, messages) in crate::tables::tables(&mut random) {
        let accepted = messages.iter().filter(|m| check(b"", m, AMPLE).fault.0 == 0).count();
        let must = match name {
            // 4 forms with a name by 10 lists with no PL, 4 without by 14 lists with one
            "level B parties" => 4 * 10 + 4 * 14,
            // no BF: 4 by 6; one with a name: 12 by 10; one without: 6 by 14
            "level C parties" => 4 * 6 + 12 * 10 + 6 * 14,
            // with 9 no CUX; with 57: no base 2, first base 3, second base 1
            "CUX" => 1 + 2 + 3 + 1,
            // short ones 81 + 108, long ones 9 by 5, and 1,00 and 1.00 against 1; with no digit before the mark
            // 2 by 3 + 9 + 27, each against itself and, both ways, against the same with a 0
            "amounts" => 81 + 108 + 45 + 4 + 3 * 2 * (3 + 9 + 27),
            _ => match selftest_advice::accepted(name) {
                Some(must) => must,
                None => continue,
            },
        };
        t.hold(&format!("table of {name}: {accepted} accepted"), accepted == must);
    }

    t.hold("placing on small charts", (0..3_000).all(|_| small_chart(&mut random)));

    // the tag alone is the first value
    let agree = (0..2_000).all(|_| {
        let bytes = crate::damage::noise(&mut random);
        tag(&bytes, PLAIN) == value(&elements(&bytes, PLAIN), 0, 0)
    });
    t.hold("tags", agree);

    println!("{} passed, {} failed", t.passed, t.failed);
    t.failed == 0
}

/// The chart is a tree in order: groups before what they hold, each group opened by a segment; and the rows
/// that the rules name are those of their tags.
fn in_order(kind: Kind) -> bool {
    let chart = kind.chart();
    let in_order = chart.rows().iter().enumerate().all(|(i, r)| r.0 as usize == i + 1 && r.3 < r.0);
    let opened = chart.rows().iter().filter(|r| chart.is_group(r.0)).all(|r| {
        let first = chart.held(r.0)[0];
        first == r.0 + 1 && !chart.is_group(first) && chart.tag_of(first) == r.2 && chart.repeats(first) == 1
    });
    let named = [(kind.lin(), "LIN"), (kind.seq(), "SEQ"), (kind.cnt(), "CNT"), (kind.unt(), "UNT")];
    in_order && opened && named.iter().all(|(row, tag)| chart.tag_of(*row) == *tag)
}

/// Against the table in `charts/`, where that is at hand; otherwise the number of rows alone.
fn as_published(kind: Kind) -> bool {
    let rows = kind.chart().rows();
    match std::fs::read_to_string(format!("charts/{}.tsv", kind.name().to_lowercase())) {
        Ok(table) => {
            let line = |r: &chart::Row| format!("{}\t{}\t{}\t{}\t{}\t{}", r.0, r.1, r.2, r.3, r.4, r.5);
            let first_six = |line: &str| line.split('\t').take(6).collect::<Vec<_>>().join("\t");
            table.lines().map(first_six).eq(rows.iter().map(line))
        }
        Err(_) => rows.len() == if kind == Kind::Paymul { 112 } else { 124 },
    }
}

/// The report of each sample, where `samples/` is at hand.
fn samples(t: &mut Tests) {
    let Ok(folder) = std::fs::read_dir("samples") else { return };
    for path in folder.map(|entry| entry.unwrap().path()).filter(|path| path.extension().is_some_and(|e| e == "edi")) {
        let must = std::fs::read_to_string(path.with_extension("txt")).unwrap_or_default();
        let is = report(&std::fs::read(&path).unwrap());
        t.hold(&format!("{}: {is}", path.display()), is == must);
    }
}

/// All lists of rows that one occurrence of a group may have, by the definition: its first segment once,
/// then its other rows in chart order, each at most its number of times and, if required, at least once.
fn occurrences(rows: &[chart::Row], group: u16) -> Vec<Vec<u16>> {
    let held: Vec<&chart::Row> = rows.iter().filter(|r| r.3 == group).collect();
    let mut all = vec![vec![held[0].0]];
    for row in &held[1..] {
        let one = if rows.iter().any(|r| r.3 == row.0) { occurrences(rows, row.0) } else { vec![vec![row.0]] };
        let (least, most) = match row.4 {
            'N' => (0, 0),
            'M' | 'R' => (1, row.5),
            _ => (0, row.5),
        };
        let mut some = vec![Vec::new()];
        let mut longer = all.clone();
        if least > 0 {
            longer.clear();
        }
        for _ in 0..most {
            some = some.iter().flat_map(|s: &Vec<u16>| one.iter().map(move |o| [&s[..], o].concat())).collect();
            longer.extend(all.iter().flat_map(|a| some.iter().map(move |s| [&a[..], s].concat())));
            if longer.len() > 3_000 {
                return longer;
            }
        }
        all = longer;
    }
    all
}

/// A random small chart, often with several placements for the same tags: the reading of some tags against
/// a search through all messages that the chart allows.
fn small_chart(random: &mut Random) -> bool {
    let tags = ["A", "B", "C"];
    let mut rows: Vec<chart::Row> = vec![(1, "", "U", 0, 'M', 1)];
    // groups inside groups: each row goes into one of the groups that are still open
    let mut open = vec![0u16];
    for _ in 0..random.between(2, 5) {
        let number = rows.len() as u16 + 1;
        open.truncate(random.between(1, open.len()));
        let group = *open.last().unwrap();
        let (tag, status, repeats) =
            (random.pick(&tags), random.pick(&['M', 'O', 'O', 'R', 'D', 'N']), random.between(1, 2) as u32);
        rows.push((number, "", tag, group, status, repeats));
        if random.chance(40) && open.len() < 3 {
            rows.push((number + 1, "", tag, number, 'M', 1));
            open.push(number);
        }
    }
    let messages = occurrences(&rows, 0);
    if messages.len() > 3_000 {
        return true;
    }
    let tags_of = |message: &Vec<u16>| -> Vec<Vec<u8>> {
        message.iter().map(|r| rows[*r as usize - 1].2.as_bytes().to_vec()).collect()
    };
    let chart = chart::Chart::of(&rows);
    (0..20).all(|_| {
        let mut wanted = tags_of(&random.pick(&messages));
        for _ in 0..random.below(3) {
            let at = random.below(wanted.len() + 1);
            match random.below(3) {
                0 => wanted.insert(at, random.pick(&tags).as_bytes().to_vec()),
                1 => drop(wanted.drain(at.min(wanted.len())..(at + 1).min(wanted.len()))),
                _ => wanted.truncate(at),
            }
        }
        let reading = messages.iter().filter(|m| tags_of(m) == wanted).min().cloned();
        let begins = |length: usize| messages.iter().any(|m| tags_of(m).starts_with(&wanted[..length]));
        let must = reading.ok_or_else(|| (1..=wanted.len()).find(|k| !begins(*k)).unwrap_or(wanted.len() + 1));
        chart.reading(&wanted) == must
    })
}
