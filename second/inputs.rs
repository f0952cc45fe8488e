//! Inputs for the comparison: good and damaged interchanges of both types, and a few that lie at the limits.

use crate::damage;
use crate::kinds::{Kind, KINDS};
use crate::make::{self, Profile, Segment, Style};
use crate::make_advice;
use crate::random::Random;
use crate::syntax::{Service, MOST_BYTES};

pub struct Input {
    pub label: String,
    pub bytes: Vec<u8>,
    /// The segments that were written, where the bytes were not damaged after that and every byte could
    /// be written: then the values are known without reading the bytes.
    pub segments: Option<Vec<Segment>>,
    /// Good: every message must be accepted and the interchange must close with 0.
    pub good: bool,
}

/// Numbers whose rules the damage is aimed at, in messages of each type.
const PAYMUL_RULES: [u32; 16] = [10, 12, 17, 18, 20, 21, 22, 23, 24, 25, 26, 27, 28, 29, 30, 31];
const DEBMUL_RULES: [u32; 23] =
    [10, 12, 17, 18, 20, 20, 21, 22, 23, 24, 25, 26, 27, 28, 29, 30, 30, 30, 30, 31, 31, 31, 31];

fn any_rule(random: &mut Random, kind: Kind) -> u32 {
    match kind {
        Kind::Paymul => random.pick(&PAYMUL_RULES),
        Kind::Debmul => random.pick(&DEBMUL_RULES),
    }
}

/// A message of about 10,000 segments, damaged or not, so that 13 and what comes before it meet.
fn long_input(random: &mut Random) -> Input {
    let count = random.between(9_995, 10_004);
    let documents = random.chance(70);
    let kind = random.pick(&KINDS);
    let mut segments = make::envelope(random, Vec::new());
    let mut message = match kind {
        Kind::Paymul => make::long_message(random, count, documents),
        Kind::Debmul => make_advice::long_message(count, documents),
    };
    for _ in 0..random.below(3) {
        let rule = any_rule(random, kind);
        damage::break_rule(random, &mut message, kind, rule);
    }
    segments.splice(1..1, message);
    if random.chance(80) {
        make::recount(&mut segments);
    }
    let bytes = make::write(random, &segments, &make::PLAIN_STYLE);
    Input { label: "long".to_string(), bytes, segments: Some(segments), good: false }
}

/// The next random input.
pub fn random_input(random: &mut Random) -> Input {
    if random.below(1000) < 5 {
        return long_input(random);
    }
    let profile = match random.below(10) {
        0..=5 => make::SMALL,
        6..=8 => make::MIDDLE,
        _ => make::RICH,
    };
    let count = random.pick(&[0, 1, 1, 1, 1, 1, 1, 2, 2, 2, 3, 4, 5, 6]);
    // all of one type, or each of either
    let kinds: &[Kind] =
        random.pick(&[&KINDS[..1], &KINDS[..1], &KINDS[..1], &KINDS[1..], &KINDS[1..], &KINDS[1..], &KINDS]);
    let messages: Vec<Vec<Segment>> = (0..count)
        .map(|_| {
            let kind = random.pick(kinds);
            make::message(random, kind, profile)
        })
        .collect();
    let mut segments = make::envelope(random, messages);
    let style = make::style(random);
    let kind = random.below(100);
    let (mut label, mut good) = (String::new(), false);
    match kind {
        0..=17 => {
            label += "good";
            good = true;
        }
        18..=59 => {
            for _ in 0..random.pick(&[1, 1, 1, 2, 3]) {
                let kind = random.pick(kinds);
                let rule = any_rule(random, kind);
                let done = damage::break_rule(random, &mut segments, kind, rule);
                label += &format!("rule {rule}{} ", if done { "" } else { " (nothing to break)" });
                if rule != 17 && rule != 18 && random.chance(95) {
                    make::recount(&mut segments);
                }
            }
        }
        60..=74 => {
            for _ in 0..random.pick(&[1, 1, 1, 2]) {
                damage::break_chart(random, &mut segments);
            }
            if random.chance(85) {
                make::recount(&mut segments);
            }
            label += "chart ";
        }
        75..=82 => {
            for _ in 0..random.pick(&[1, 1, 2]) {
                damage::break_envelope(random, &mut segments);
                if segments.is_empty() {
                    break;
                }
            }
            if random.chance(20) {
                make::recount(&mut segments);
            }
            label += "envelope ";
        }
        83..=85 => {
            for _ in 0..random.pick(&[1, 2, 4]) {
                damage::change_value(random, &mut segments);
            }
            label += "values ";
        }
        _ => label += "bytes ",
    }
    // damage of two kinds at once
    if !good && random.chance(10) && !segments.is_empty() {
        damage::break_envelope(random, &mut segments);
        label += "and envelope ";
    }
    // where there is no release, a space before a terminator is the last byte of a value
    if style.service.release.is_none() && random.chance(60) {
        end_in_spaces(random, &mut segments, good);
        label += " and spaces";
    }
    let mut bytes = make::write(random, &segments, &style);
    let mut known = style.service.release.is_some().then_some(segments);
    let special = special(&style);
    match kind {
        86..=94 => {
            for _ in 0..random.pick(&[1, 1, 2, 3]) {
                damage::break_bytes(random, &mut bytes, &special);
            }
            known = None;
        }
        95..=96 => {
            damage::break_una(random, &mut bytes);
            label += "una ";
            known = None;
        }
        97..=99 => {
            bytes = damage::noise(random);
            label += "noise ";
            known = None;
        }
        _ => {}
    }
    Input { label, bytes, segments: known, good }
}

/// A space at the end of some segments; in a good interchange only where no rule speaks of the value.
fn end_in_spaces(random: &mut Random, segments: &mut [Segment], good: bool) {
    for segment in segments {
        let free = [&b"FTX"[..], b"NAD", b"FII", b"RFF"].contains(&segment.tag());
        if (free || !good) && random.chance(60) {
            if let Some(value) = segment.elements.last_mut().and_then(|components| components.last_mut()) {
                value.push(b' ');
            }
        }
    }
}

/// The bytes that mean something under these service characters.
fn special(style: &Style) -> Vec<u8> {
    let s = style.service;
    [s.component, s.element, s.terminator, s.release.unwrap_or(b'?'), s.mark, b'\r', b'\n', b':', b'+', b'?', b'\'']
        .to_vec()
}

fn plain_input(random: &mut Random, label: &str, messages: Vec<Vec<Segment>>, good: bool) -> Input {
    let mut segments = make::envelope(random, messages);
    if good {
        make::recount(&mut segments);
    }
    let bytes = make::write(random, &segments, &make::PLAIN_STYLE);
    Input { label: label.to_string(), bytes, segments: Some(segments), good }
}

/// A message with one DOC that holds so many AJT and so many DLI.
fn deep_message(adjustments: usize, lines: usize, line_adjustments: usize) -> Vec<Segment> {
    let mut all = make::many_orders(1);
    let at = all.len() - 2;
    let mut inner = vec![Segment::of(76, "PRC+8"), Segment::of(79, "DOC")];
    for _ in 0..adjustments {
        inner.extend([Segment::of(88, "AJT"), Segment::of(89, "MOA")]);
    }
    for _ in 0..lines {
        inner.extend([Segment::of(93, "DLI"), Segment::of(94, "MOA")]);
    }
    for _ in 0..line_adjustments {
        inner.extend([Segment::of(101, "AJT"), Segment::of(102, "MOA")]);
    }
    all.splice(at..at, inner);
    make::recount(&mut all);
    all
}

/// An interchange of exactly this many bytes: one message, then strays.
fn of_length(length: usize, una: &[u8], message: &[u8]) -> Vec<u8> {
    let mut bytes = una.to_vec();
    bytes.extend(b"UNB+UNOA:3++++R1'");
    bytes.extend(message);
    let end = b"UNZ+1+R1'";
    let room = length - bytes.len() - end.len();
    // one stray that fills the rest
    bytes.extend(b"FTX+");
    bytes.extend(std::iter::repeat(b'x').take(room - 5));
    bytes.push(b'\'');
    bytes.extend(end);
    bytes
}

/// An interchange whose plain bytes are exactly so many, though it is shorter itself: its data are the
/// plain service characters.
fn growing_to(length: usize) -> Vec<u8> {
    // with these characters : + ? ' are data
    let mut bytes = b"UNA|*,! ~UNB*UNOA|3****R1~FTX*".to_vec();
    let written = b"UNB+UNOA:3++++R1'FTX+'UNZ+0+R1'".len();
    let rest = length - written;
    bytes.extend(b":+?'".iter().cycle().take(rest / 2));
    bytes.extend(std::iter::repeat(b'x').take(rest % 2));
    bytes.extend(b"~UNZ*0*R1~");
    bytes
}

/// Inputs at the limits that document 01 names. Those whose label begins with "report" fit payreport.
pub fn limits(random: &mut Random) -> Vec<Input> {
    let mut all = Vec::new();
    let bytes_input =
        |label: &str, bytes: Vec<u8>| Input { label: label.to_string(), bytes, segments: None, good: false };
    let good_message = {
        let segments = make::many_orders(1);
        make::write(random, &segments, &make::PLAIN_STYLE)
    };

    // document 01's example
    all.push(bytes_input(
        "report example",
        b"UNB+UNOA:3+A+B+020107:1200+R1'UNH+1+PAYMUL:D:96A:UN'UNT+2+1'UNH+2+INVOIC:D:96A:UN'UNT+2+2'UNZ+2+R1'".to_vec(),
    ));
    all.push(bytes_input("report empty", Vec::new()));

    // segments: 9,999 and 10,000, of documents and of payments; 2,000 and 2,001 for payreport
    for (segments, documents) in [(9_999, true), (10_000, true), (9_999, false), (10_001, false), (9_998, true)] {
        let message = make::long_message(random, segments, documents);
        all.push(plain_input(random, &format!("{segments} segments"), vec![message], segments <= 9_999));
    }
    for segments in [1_999, 2_000, 2_001] {
        let message = make::long_message(random, segments, true);
        all.push(plain_input(random, &format!("report {segments} segments"), vec![message], segments <= 2_000));
    }
    // orders: 400 and 401 for payreport, and many
    for orders in [399, 400, 401] {
        all.push(plain_input(
            random,
            &format!("report {orders} orders"),
            vec![make::many_orders(orders)],
            orders <= 400,
        ));
    }
    all.push(plain_input(random, "1110 orders", vec![make::many_orders(1_110)], true));
    debmul_limits(random, &mut all);
    // a count of segments and of messages past every small number
    all.push(bytes_input(
        "report 14000 empty segments",
        [b"UNB+UNOA:3++++R1'UNH+1+PAYMUL:D:96A:UN'" as &[u8], &[b'\''; 14_000], b"UNT+1+1'UNZ+1+R1'"].concat(),
    ));
    let mut tiny = b"UNB+UNOA:3++++R1'".to_vec();
    for _ in 0..4_000 {
        tiny.extend(b"UNH'UNT'");
    }
    tiny.extend(b"UNZ+4000+R1'");
    all.push(bytes_input("4000 messages", tiny));

    // repeats: AJT 100, DLI 1000, AJT in DLI 10, each at the limit and above
    for (a, d, l) in [(100, 0, 0), (101, 0, 0), (1, 1_000, 0), (1, 1_001, 0), (100, 1_000, 10), (0, 1, 11), (0, 0, 0)] {
        let good = a <= 100 && d <= 1_000 && l <= 10;
        all.push(plain_input(random, &format!("AJT {a}, DLI {d}, AJT {l}"), vec![deep_message(a, d, l)], good));
    }

    // every row at its limit and one above, where the limit is small; groups both full and as bare as can be
    for (kind, sg10) in FULL {
        for row in kind.chart().rows() {
            for times in [row.5, row.5 + 1].map(|n| n as usize) {
                for bare in [false, true] {
                    if times <= 11 && (kind.chart().is_group(row.0) || !bare) {
                        if let Some(message) = row_at_limit(full_message(random, kind, sg10), row.0, times, bare) {
                            let label = format!("{} row {} {times} times", kind.name(), row.0);
                            all.push(plain_input(random, &label, vec![message], false));
                        }
                    }
                }
            }
        }
    }
    // each row left out, with an unknown tag, and doubled
    for (kind, sg10) in FULL {
        let full = full_message(random, kind, sg10);
        for row in kind.chart().rows() {
            let Some(at) = full.iter().position(|s| s.row == row.0) else { continue };
            let label = |what: &str| format!("{} row {} {what}", kind.name(), row.0);
            let mut less = full.clone();
            less.remove(at);
            make::recount(&mut less);
            all.push(plain_input(random, &label("left out"), vec![less], false));
            let mut tagged = full.clone();
            tagged[at].set(0, 0, b"XXX");
            all.push(plain_input(random, &label("with an unknown tag"), vec![tagged], false));
            let mut doubled = full.clone();
            doubled.insert(at, full[at].clone());
            make::recount(&mut doubled);
            all.push(plain_input(random, &label("doubled"), vec![doubled], false));
        }
    }

    // the greatest sums
    let mut great = make::long_message(random, 9_999, false);
    for segment in great.iter_mut().filter(|s| s.row == 23 || s.row == 51) {
        segment.set(1, 1, b"999999999999,999");
    }
    all.push(plain_input(random, "greatest sum", vec![great], false));
    // totals that are right only if a number wraps at 32 bits
    let mut wraps = make::many_orders(1);
    wraps[6].set(1, 1, b"0");
    for segment in wraps.iter_mut().filter(|s| s.row == 51) {
        segment.set(1, 1, b"4294967,296");
    }
    all.push(plain_input(random, "sum past 32 bits", vec![wraps], false));

    // lengths at the limit
    for length in [MOST_BYTES - 1, MOST_BYTES, MOST_BYTES + 1] {
        all.push(bytes_input(&format!("{length} bytes"), of_length(length, b"", &good_message)));
        all.push(bytes_input(&format!("{length} bytes with UNA"), of_length(length, b"UNA:+.? '\r\n", &good_message)));
    }
    for length in [crate::report::MOST_INPUT - 1, crate::report::MOST_INPUT, crate::report::MOST_INPUT + 1] {
        all.push(bytes_input(&format!("report {length} bytes"), of_length(length, b"", &good_message)));
    }
    for length in [MOST_BYTES, MOST_BYTES + 1, MOST_BYTES + 2] {
        all.push(bytes_input(&format!("plain bytes {length}"), growing_to(length)));
    }
    all.push(bytes_input("terminators only", vec![b'\''; MOST_BYTES]));
    all.push(bytes_input("releases only", vec![b'?'; MOST_BYTES]));
    all.push(bytes_input("an odd number of releases", vec![b'?'; MOST_BYTES - 1]));
    all.push(bytes_input("a long unclosed message", {
        let mut bytes = b"UNB+UNOA:3++++R1'UNH+1+PAYMUL:D:96A:UN'".to_vec();
        while bytes.len() + 9 < MOST_BYTES - 6 {
            bytes.extend(b"LIN+1'");
        }
        bytes.extend(b"UNZ+1+R1'");
        bytes
    }));
    all.push(bytes_input(
        "a long unfinished segment",
        [b"UNB+UNOA:3++++R1'UNH+1+PAYMUL:D:96A:UN'".to_vec(), vec![b'x'; 500_000]].concat(),
    ));

    // every cut of a short interchange, and every UNA byte
    let short = b"UNA:+.? '\r\nUNB+UNOA:3++++R1'\r\nUNH+1+PAYMUL:D:96A:UN'\r\nUNT+2+1'\r\nUNZ+1+R1'\r\n".to_vec();
    for cut in 0..=short.len() {
        all.push(bytes_input("report cut", short[..cut].to_vec()));
        all.push(bytes_input("report cut from the front", short[cut..].to_vec()));
    }
    for at in 0..9 {
        for byte in [
            0u8, b'\r', b'\n', 0x1F, b' ', b'!', b'0', b'9', b'A', b'Z', b'a', b'z', b'/', b':', b'@', b'[', b'`',
            b'{', b'~', 0x7F, 0x80, 0xA0, 0xFF, b',', b'.', b'+', b'?', b'\'',
        ] {
            let mut una = short.clone();
            una[at] = byte;
            all.push(bytes_input("una byte", una));
        }
    }
    // releases before every byte
    for byte in 0..=255u8 {
        let mut bytes = b"UNB+UNOA:3++++R1'UNH+1+PAYMUL:D:96A:UN'FTX+?".to_vec();
        bytes.push(byte);
        bytes.extend(b"'?");
        bytes.push(byte);
        bytes.extend(b"X+'UNT+4+1'UNZ+1+R1'");
        all.push(bytes_input("released byte", bytes));
        let mut bytes = b"UNB+UNOA:3++++R1'UNH+1+PAYMUL:D:96A:UN'FTX+".to_vec();
        bytes.push(byte);
        bytes.extend(b"'");
        bytes.push(byte);
        bytes.extend(b"'UNT+4+1'UNZ+1+R1'");
        all.push(bytes_input("bare byte", bytes));
    }
    all
}

/// Inputs at the limits that are a debit advice's own: it needs no totals, and 20 of SG18 and 9,999 of SG24
/// may stand where an order has less.
fn debmul_limits(random: &mut Random, all: &mut Vec<Input>) {
    for (segments, documents) in [(9_999, true), (10_000, true), (9_999, false), (10_001, false)] {
        let message = make_advice::long_message(segments, documents);
        all.push(plain_input(random, &format!("{segments} segments, DEBMUL"), vec![message], segments <= 9_999));
    }
    for segments in [1_999, 2_000, 2_001] {
        let message = make_advice::long_message(segments, true);
        all.push(plain_input(random, &format!("report {segments} segments, DEBMUL"), vec![message], segments <= 2_000));
    }
    all.push(plain_input(random, "1110 lines", vec![make_advice::many_lines(1_110)], true));
    // more lines than payreport has totals for: no 14, and no 16 before the CNT
    let mut lines = make_advice::many_lines(401);
    lines.retain(|s| ![43, 46, 48, 54].contains(&s.row));
    all.push(plain_input(random, "report 401 lines with no transaction", vec![lines.clone()], false));
    lines.retain(|s| ![18, 20, 22, 25].contains(&s.row));
    all.push(plain_input(random, "report 401 bare lines", vec![lines], false));
    for (allowances, adjustments, document_lines) in [(20, 100, 1_001), (21, 0, 0), (0, 101, 0), (1, 1, 9_000)] {
        let good = allowances <= 20 && adjustments <= 100;
        let label = format!("ALC {allowances}, AJT {adjustments}, DLI {document_lines}");
        let message = make_advice::deep_message(allowances, adjustments, document_lines);
        all.push(plain_input(random, &label, vec![message], good));
    }
}

/// The full messages that there are: of PAYMUL with SG16 or with SG10, which exclude each other.
const FULL: [(Kind, bool); 3] = [(Kind::Paymul, false), (Kind::Paymul, true), (Kind::Debmul, false)];

/// A message in which every row of the chart that may stand does so (of PAYMUL all but SG10 or SG16).
pub fn full_message(random: &mut Random, kind: Kind, sg10: bool) -> Vec<Segment> {
    let profile = Profile { optional: 100, at_limit: 0, orders: 1, payments: 1, odd_text: 0, no_whole: 0 };
    full_with(random, kind, sg10, profile)
}

/// The same, of a profile that has every optional row.
pub fn full_with(random: &mut Random, kind: Kind, sg10: bool, profile: Profile) -> Vec<Segment> {
    loop {
        let message = make::message(random, kind, profile);
        let has = |row: u16| message.iter().any(|s| s.row == row);
        let full = match kind {
            Kind::Paymul => has(24) && has(32) && has(57) && has(61) && if sg10 { has(47) } else { has(77) && has(79) },
            Kind::Debmul => has(48),
        };
        if full {
            return message;
        }
    }
}

/// A full message with one row (a segment or a group) so many times in one place. A bare group holds only
/// what it must.
fn row_at_limit(mut message: Vec<Segment>, row: u16, times: usize, bare: bool) -> Option<Vec<Segment>> {
    let chart = message[0].kind.chart();
    let first = if chart.is_group(row) { chart.held(row)[0] } else { row };
    let at = message.iter().position(|s| s.row == first)?;
    // the groups that a row lies in, itself included
    let within = |r: u16| -> Vec<u16> {
        let mut all = vec![r];
        while let Some(up) = all.last().map(|r| chart.group_of(*r)).filter(|up| *up != 0) {
            all.push(up);
        }
        all
    };
    let end = (at..message.len()).find(|i| !within(message[*i].row).contains(&row)).unwrap_or(message.len());
    let one_end = (at + 1..end).find(|i| message[*i].row == first).unwrap_or(end);
    let mut one: Vec<Segment> = message[at..one_end].to_vec();
    if bare {
        // a row stays if it and the groups between it and this one are required
        one.retain(|s| within(s.row).iter().take_while(|r| **r != row).all(|r| chart.required(*r)));
    }
    // what repeats already goes, and as many as wanted come in; LIN and SEQ numbers stay as they were, for
    // only the chart's limits are meant here
    let many: Vec<Segment> = std::iter::repeat(one).take(times).flatten().collect();
    message.splice(at..end, many);
    make::recount(&mut message);
    Some(message)
}

/// An interchange of good realistic messages of a type, just below so many bytes.
pub fn realistic(random: &mut Random, kind: Kind, bytes: usize) -> Vec<u8> {
    let service = Service { mark: b'.', ..crate::syntax::PLAIN };
    let style = Style { service, una: true, breaks: &[b"\r\n"], needless: 0, empties: 0 };
    let mut messages: Vec<Vec<Segment>> = Vec::new();
    let mut length = 200;
    loop {
        let message = make::message(random, kind, make::REAL);
        length += make::write(random, &message, &style).len();
        if length > bytes && !messages.is_empty() {
            break;
        }
        messages.push(message);
    }
    let segments = make::envelope(random, messages);
    make::write(random, &segments, &style)
}

/// An interchange of messages that are all alike, just below so many bytes: ten orders of ten payments each, no release, no breaks.
pub fn regular(bytes: usize) -> Vec<u8> {
    let payment = |order: usize, payment: usize| {
        format!(
            "SEQ++{payment}'MOA+9:125,5:EUR'RFF+CR:WELL-{order:02}-{payment:03}'FII+BF+DE00200300400500600700:DEEP BORE DRILLING:KASSEL'\
             NAD+BE+++DEEP BORE DRILLING+MILL LANE 4+KASSEL++34117+DE'PRC+11'FTX+PMD+++WORK AT WELL {payment:03} IN MARCH'"
        )
    };
    let order = |order: usize| {
        let payments: String = (1..=10).map(|number| payment(order, number)).collect();
        format!(
            "LIN+{order}'DTM+203:20240308:102'RFF+AEK:WELL-{order:02}'MOA+9:1255:EUR'\
             FII+OR+DE00100200300400500600:CLEAN WELLS FUND:BREMEN'{payments}"
        )
    };
    let orders: String = (1..=10).map(order).collect();
    let message = |number: usize| {
        let body = format!(
            "UNH+{number}+PAYMUL:D:96A:UN'BGM+452+WELLS{number:04}+9'DTM+137:20240306:102'FII+MR++WATRDEFF:25:5'\
             NAD+MS+4000000000013:160:9'{orders}CNT+2:10'"
        );
        let segments = body.bytes().filter(|&b| b == b'\'').count() + 1;
        format!("{body}UNT+{segments}+{number}'")
    };
    let mut text = "UNB+UNOC:3+CLEANWELLS+ORDERBANK+240306:0705+CWF0306'".to_string();
    let mut count = 0;
    loop {
        let next = message(count + 1);
        if text.len() + next.len() + 40 > bytes && count > 0 {
            break;
        }
        text.push_str(&next);
        count += 1;
    }
    text.push_str(&format!("UNZ+{count}+CWF0306'"));
    text.into_bytes()
}

/// Small envelopes in every combination: UNA and what may be wrong with it, UNB's version and reference,
/// how the end looks; then numbers of messages and strays against counts and references of UNZ.
pub fn envelopes() -> Vec<Vec<u8>> {
    let mut all = Vec::new();
    for una in ["", "UNA:+,? '", "UNA:+.? '\r\n", "UNA:+,  '", "\r\n", "UNA:+,?*'"] {
        for tag in ["UNB", "?UNB", "UNB:X", "UNZ", "", "unb", "UNBX"] {
            for version in ["3", "4", "", "03", "3:X", "3?"] {
                for end in [
                    "'UNZ+0+R'",
                    "'UNZ+0+R'\r\n",
                    "'UNZ+0+R' ",
                    "'UNZ+0+R",
                    "'",
                    "",
                    "'UNZ'",
                    "'UNZ'UNZ'UNZ'",
                    "'unz'",
                    "'UNZ+0+R'?",
                ] {
                    all.push(format!("{una}{tag}+UNOA:{version}++++R{end}").into_bytes());
                }
            }
        }
        for length in 0..=16 {
            for more in ["", ":X", "++X", "+X"] {
                let reference = "R".repeat(length);
                all.push(format!("{una}UNB+A:3++++{reference}{more}'UNZ+0+{reference}'").into_bytes());
                // released bytes count once
                let released = "?R".repeat(length);
                all.push(format!("{una}UNB+A:3++++{released}{more}'UNZ+0+{reference}'").into_bytes());
            }
        }
    }
    for messages in 0..=3 {
        for unclosed in [false, true] {
            for strays in 0..=2 {
                for count in [
                    "",
                    "0",
                    "1",
                    "2",
                    "3",
                    "4",
                    "00",
                    "01",
                    "03",
                    "3:X",
                    " 1",
                    "18446744073709551617",
                    "4294967298",
                    "1000000000000000000000000000000",
                ] {
                    for reference in ["R1", "R", "R11", "", "r1", "R1:X", "R?1"] {
                        // an unclosed message that holds a UNZ, or a closed one; strays stand before the first
                        let message = if unclosed { "UNH'LIN'UNZ+9+R1'" } else { "UNH+1'LIN'UNT'" };
                        let stray = ["LIN'", "'", "UNT'"][strays];
                        let inner = stray.repeat(strays) + &message.repeat(messages);
                        all.push(format!("UNB+UNOA:3++++R1'{inner}UNZ+{count}+{reference}'").into_bytes());
                    }
                }
            }
        }
    }
    all
}
