//! Good PAYMUL messages, made from the chart and the examples of 003, and interchanges of both types.

use crate::kinds::Kind;
use crate::make_advice;
use crate::random::Random;
use crate::syntax::{fit, Elements, Service, PLAIN};

/// A segment to be written: its row (0 outside messages), the type whose chart that is, and its values.
#[derive(Clone, Debug)]
pub struct Segment {
    pub kind: Kind,
    pub row: u16,
    pub elements: Elements,
}

impl Segment {
    /// A segment of PAYMUL, or one outside messages, from text in plain service characters, with no
    /// release: `MOA+9:23800,3:EUR`.
    pub fn of(row: u16, text: &str) -> Segment {
        Segment::typed(Kind::Paymul, row, text)
    }

    pub fn typed(kind: Kind, row: u16, text: &str) -> Segment {
        let elements = text.split('+').map(|e| e.split(':').map(|c| c.as_bytes().to_vec()).collect()).collect();
        Segment { kind, row, elements }
    }

    /// Whether it was made for this row of this type's chart.
    pub fn is(&self, kind: Kind, row: u16) -> bool {
        self.kind == kind && self.row == row
    }

    pub fn tag(&self) -> &[u8] {
        self.value(0, 0)
    }

    pub fn value(&self, element: usize, component: usize) -> &[u8] {
        crate::syntax::value(&self.elements, element, component)
    }

    pub fn set(&mut self, element: usize, component: usize, value: &[u8]) {
        while self.elements.len() <= element {
            self.elements.push(vec![Vec::new()]);
        }
        let components = &mut self.elements[element];
        while components.len() <= component {
            components.push(Vec::new());
        }
        components[component] = value.to_vec();
    }
}

/// How large and how full messages become.
#[derive(Clone, Copy, Debug)]
pub struct Profile {
    /// How often (of a hundred) an optional row stands.
    pub optional: usize,
    /// How often a row that may repeat stands as often as it may (up to 10 times).
    pub at_limit: usize,
    pub orders: usize,
    pub payments: usize,
    /// How often a text holds separators, releases or bytes above 0x7E.
    pub odd_text: usize,
    /// How often a whole part of 0 is left out before a mark.
    pub no_whole: usize,
}

pub const SMALL: Profile = Profile { optional: 8, at_limit: 2, orders: 1, payments: 2, odd_text: 8, no_whole: 50 };
pub const MIDDLE: Profile = Profile { optional: 25, at_limit: 5, orders: 3, payments: 3, odd_text: 10, no_whole: 50 };
pub const RICH: Profile = Profile { optional: 60, at_limit: 10, orders: 4, payments: 4, odd_text: 10, no_whole: 50 };
// The bench's files are made with this one: a change to it changes what the bench measures.
pub const REAL: Profile = Profile { optional: 30, at_limit: 0, orders: 12, payments: 20, odd_text: 3, no_whole: 0 };

pub const CURRENCIES: [&str; 8] = ["EUR", "CHF", "USD", "SEK", "GBP", "JPY", "AAA", "ZZZ"];

struct Maker<'a> {
    random: &'a mut Random,
    profile: Profile,
    out: Vec<Segment>,
    reference: String,
    line: usize,
    sequence: usize,
    orders: usize,
    qualifier: &'static str,
    currency: &'static str,
    amounts: Vec<u64>,
    sg10: bool,
    holder_b: bool,
    parties_b: Vec<&'static str>,
    institutions_c: Vec<(&'static str, bool)>,
    parties_c: Vec<&'static str>,
    process: &'static str,
}

/// One good message of a type, UNH to UNT.
pub fn message(random: &mut Random, kind: Kind, profile: Profile) -> Vec<Segment> {
    let mut message = match kind {
        Kind::Paymul => paymul(random, profile),
        Kind::Debmul => make_advice::debmul(random, profile),
    };
    recount(&mut message);
    message
}

fn paymul(random: &mut Random, profile: Profile) -> Vec<Segment> {
    let reference = reference(random);
    let orders = random.between(1, profile.orders);
    let mut maker = Maker {
        random,
        profile,
        out: Vec::new(),
        reference,
        line: 0,
        sequence: 0,
        orders,
        qualifier: "9",
        currency: "EUR",
        amounts: Vec::new(),
        sg10: false,
        holder_b: true,
        parties_b: Vec::new(),
        institutions_c: Vec::new(),
        parties_c: Vec::new(),
        process: "8",
    };
    maker.group(0);
    maker.out
}

/// A message's reference.
pub fn reference(random: &mut Random) -> String {
    let length = random.pick(&[1, 3, 8, 14]);
    (0..length).map(|_| random.pick(&['A', 'B', '7', '0', '-', 'x', '/'])).collect()
}

/// How often a row stands that stands at all.
pub fn some(random: &mut Random, profile: Profile, limit: usize) -> usize {
    if limit == 1 {
        1
    } else if limit <= 10 && random.chance(profile.at_limit) {
        limit
    } else if random.chance(70) {
        1
    } else {
        random.between(1, limit.min(3))
    }
}

pub fn text(random: &mut Random) -> &'static str {
    random.pick(&[
        "J SCHMIDT",
        "FRANKFURT",
        "SALARY DUE",
        "INVOICE 4711",
        "BENETTON",
        "MILANO",
        "GREEN FUND",
        "X",
        "Membership 2002",
    ])
}

pub fn digits(random: &mut Random, most: usize) -> String {
    let count = random.between(1, most);
    (0..count).map(|_| char::from(b'0' + random.below(10) as u8)).collect()
}

pub fn date(random: &mut Random) -> String {
    format!("20020{}{:02}", random.between(1, 9), random.between(1, 28))
}

/// A segment of this tag that no rule speaks of, as the examples of the guides have it.
pub fn usual(random: &mut Random, tag: &str, date: &str) -> String {
    match tag {
        "DTM" => format!("DTM+{}:{date}:102", random.pick(&["203", "171", "140", "137"])),
        "RFF" => format!("RFF+{}:{}", random.pick(&["AEK", "CR", "ACW", "FX", "PQ"]), digits(random, 10)),
        "BUS" => "BUS+1:SAL+IN".to_string(),
        "FCA" => format!("FCA+{}", random.pick(&["14", "13", "15"])),
        "FII" => "FII+MR++DRESDEFF:25:5".to_string(),
        "NAD" => format!("NAD+MS+{}:160:9", digits(random, 12)),
        "CTA" => "CTA+IC+:JIM JOHNSON".to_string(),
        "COM" => format!("COM+{}:TE", digits(random, 9)),
        "INP" => "INP+3:11+2:AP".to_string(),
        "FTX" => format!("FTX+PMD+++{}{}", text(random), random.pick(&["", ":second line", "+EN"])),
        "GIS" => format!("GIS+{}", random.pick(&["37", "38", "10"])),
        "LOC" => "LOC+57+DE".to_string(),
        "RCS" => "RCS+ZZZ+120".to_string(),
        "PAI" => "PAI+::8::5".to_string(),
        "DOC" => format!("DOC+380+{}", digits(random, 8)),
        "MOA" => format!("MOA+{}:{}:EUR", random.pick(&["12", "9", "77", "128"]), digits(random, 6)),
        "CUX" => "CUX+2:EUR+3:USD+0.9".to_string(),
        "AJT" => "AJT+12".to_string(),
        "DLI" => format!("DLI+O+{}", digits(random, 3)),
        "PIA" => "PIA+1+4711:SA".to_string(),
        "ALC" => "ALC+C+:55".to_string(),
        "PCD" => "PCD+3:0,4".to_string(),
        "TAX" => "TAX+7+VAT+++:::20++NVET0244".to_string(),
        "AUT" => format!("AUT+{}", digits(random, 6)),
        other => other.to_string(),
    }
}

/// Odd bytes in free text and in references that no rule reads.
pub fn odd_bytes(random: &mut Random, segment: &mut Segment) {
    let odd: &[u8] = random.pick(&[
        b"A'B" as &[u8],
        b"?",
        b"??'",
        b":+'?",
        b"\xFCber \xA0\xFF",
        b" ",
        b"1+1=2",
        b"?:",
        b"'",
        b"*.,~!",
    ]);
    let element = random.between(1, 4);
    let component = random.below(2);
    segment.set(element, component, odd);
}

impl Maker<'_> {
    /// One occurrence of a group: its rows in chart order, each some number of times.
    fn group(&mut self, group: u16) {
        let chart = Kind::Paymul.chart();
        for &row in chart.held(group) {
            let times = self.times(row);
            for k in 0..times {
                self.before(row, k);
                if chart.is_group(row) {
                    self.group(row);
                } else {
                    let segment = self.segment(row, k);
                    self.out.push(segment);
                }
            }
        }
    }

    /// Choices that are made as an order, a payment or its details begin.
    fn before(&mut self, row: u16, _k: usize) {
        match row {
            16 => {
                self.line += 1;
                self.sequence = 0;
                self.qualifier = if self.random.chance(30) { "57" } else { "9" };
                self.currency = self.random.pick(&CURRENCIES);
                self.sg10 = self.random.chance(20);
                let count = if self.profile.payments > 1 && self.random.chance(40) {
                    1
                } else {
                    self.random.between(1, self.profile.payments)
                };
                self.amounts = amounts(self.random, count);
                let (named, parties): (bool, &[&'static str]) = self.random.pick(&[
                    (true, &[] as &[&'static str]),
                    (true, &["OY"]),
                    (false, &["PL"]),
                    (false, &["PL", "OY"]),
                ]);
                self.holder_b = named;
                self.parties_b = parties.to_vec();
                while self.parties_b.len() < 3 && self.random.chance(15) {
                    let other = self.random.pick(&["HX", "RV", "PE", "BE", "", "MS"]);
                    self.parties_b.push(other);
                }
                self.random.shuffle(&mut self.parties_b);
            }
            49 => {
                self.sequence += 1;
                type Choice = (&'static [(&'static str, bool)], &'static [&'static str]);
                let choices: [Choice; 5] = [
                    (&[], &["BE"]),
                    (&[("BF", true)], &[]),
                    (&[("BF", true)], &["BE"]),
                    (&[("BF", false)], &["PE"]),
                    (&[("BF", false)], &["PE", "BE"]),
                ];
                let (institutions, parties) = self.random.pick(&choices);
                self.institutions_c = institutions.to_vec();
                self.parties_c = parties.to_vec();
                while self.institutions_c.len() < 3 && self.random.chance(20) {
                    let other = (self.random.pick(&["I1", "BQ", "OR", ""]), self.random.chance(50));
                    self.institutions_c.push(other);
                }
                while self.parties_c.len() < 3 && self.random.chance(15) {
                    let other = self.random.pick(&["RV", "PL", "OY", "HX"]);
                    self.parties_c.push(other);
                }
                self.random.shuffle(&mut self.institutions_c);
                self.random.shuffle(&mut self.parties_c);
            }
            75 => self.process = self.random.pick(&["8", "9", "10", "11"]),
            _ => {}
        }
    }

    /// How many times a row stands.
    fn times(&mut self, row: u16) -> usize {
        let chart = Kind::Paymul.chart();
        let limit = chart.repeats(row);
        match row {
            _ if chart.never(row) => 0,
            16 => self.orders,
            24 => usize::from(self.qualifier == "57"),
            31 => self.parties_b.len(),
            46 => usize::from(self.sg10),
            49 => self.amounts.len(),
            56 => self.institutions_c.len(),
            60 => self.parties_c.len(),
            75 if self.sg10 => 0,
            75 => usize::from(self.random.chance(self.profile.optional.max(30))),
            77 if self.process == "8" => 0,
            78 if self.process == "11" => 0,
            77 | 78 => some(self.random, self.profile, limit),
            _ if chart.required(row) || self.random.chance(self.profile.optional) => {
                some(self.random, self.profile, limit)
            }
            _ => 0,
        }
    }

    /// A segment for a row, as the examples of 003 have it.
    fn segment(&mut self, row: u16, k: usize) -> Segment {
        let tag = Kind::Paymul.chart().tag_of(row);
        let date = date(self.random);
        let text = match row {
            1 => format!("UNH+{}+PAYMUL:D:96A:UN{}", self.reference, self.random.pick(&["", ":FUN01G"])),
            2 => format!("BGM+452+{}+9", digits(self.random, 10)),
            3 => format!("DTM+137:{date}:102"),
            17 => format!("LIN+{}", self.line),
            23 => self.moa(self.amounts.iter().sum()),
            24 => self.exchange(),
            28 => {
                let holder = if self.holder_b {
                    self.random.pick(&[":J SCHMIDT", ":J SCHMIDT:FRANKFURT ", "::FRANKFURT", ": "])
                } else {
                    self.random.pick(&["", ":", "::", ":::EUR"])
                };
                format!("FII+OR+{}{holder}+:::50080000:25:131+DE", digits(self.random, 9))
            }
            32 => format!("NAD+{}+2729712345832::9", self.parties_b[0]),
            47 => format!("PRC+{}", self.random.pick(&["11", "8", "XX", ""])),
            50 => format!("SEQ+{}+{}", self.random.pick(&["", "", "YF3"]), self.sequence),
            51 => self.moa(self.amounts[self.sequence - 1]),
            57 => {
                let (qualifier, named) = self.institutions_c[0];
                let holder = if named {
                    self.random.pick(&[":J SCHMIDT:FRANKFURT", "::BERN", ":X"])
                } else {
                    self.random.pick(&["", "::"])
                };
                format!("FII+{qualifier}+{}{holder}+DRESDEFF:25:5+DE", digits(self.random, 9))
            }
            61 => {
                let name = text(self.random);
                format!("NAD+{}+++{name}++MILANO++IT", self.parties_c[0])
            }
            76 => format!("PRC+{}", self.process),
            108 if k == 0 || self.random.chance(20) => format!("CNT+2:{}", self.orders),
            108 => format!("CNT+{}:{}", self.random.pick(&["39", "1", "", "02"]), digits(self.random, 6)),
            112 => format!("UNT+0+{}", self.reference),
            _ => usual(self.random, tag, &date),
        };
        match row {
            32 => drop(self.parties_b.remove(0)),
            57 => drop(self.institutions_c.remove(0)),
            61 => drop(self.parties_c.remove(0)),
            _ => {}
        }
        let mut segment = Segment::of(row, &text);
        if matches!(tag, "FTX" | "RFF" | "DOC" | "COM" | "AUT" | "BGM" | "GIS")
            && self.random.chance(self.profile.odd_text)
        {
            odd_bytes(self.random, &mut segment);
        }
        segment
    }

    /// The MOA of an order or of one of its payments.
    fn moa(&mut self, thousandths: u64) -> String {
        let amount = amount_text(self.random, thousandths, self.profile.no_whole);
        format!("MOA+{}:{amount}:{}", self.qualifier, self.currency)
    }

    /// CUX of SG5: with and without a rate, with a base in none or one of its composites.
    fn exchange(&mut self) -> String {
        let source = self.currency;
        let mut target = self.random.pick(&CURRENCIES);
        while target == source {
            target = self.random.pick(&CURRENCIES);
        }
        let base = self.random.pick(&["1", "100", "1000"]);
        let rate = self.random.pick(&["6.9752", "0,9", "1", "abc"]);
        match self.random.below(5) {
            0 | 1 => format!("CUX+2:{source}+3:{target}"),
            2 => format!("CUX+2:{source}+3:{target}+{rate}"),
            3 => format!("CUX+2:{source}::{base}+3:{target}+{rate}"),
            _ => format!("CUX+2:{source}+3:{target}::{base}+{rate}"),
        }
    }
}

/// The amounts of an order's payments, in thousandths; their sum is below 10^15.
pub fn amounts(random: &mut Random, count: usize) -> Vec<u64> {
    const ALL: u64 = 999_999_999_999_999;
    match random.below(12) {
        0 => vec![0; count],
        1 => (0..count).map(|_| random.pick(&[0, 100, 200, 1, 10, 999])).collect(),
        2 => {
            // together the greatest amount that there is
            let part = ALL / count as u64;
            let mut all = vec![part; count];
            all[0] += ALL - part * count as u64;
            all
        }
        _ => (0..count)
            .map(|_| {
                let digits = random.between(3, 11) as u32;
                let step = random.pick(&[1, 10, 100, 1000, 10_000]);
                random.next() % 10u64.pow(digits) / step * step
            })
            .collect(),
    }
}

/// An amount's text: comma or dot, at times zeros after the last digit needed, and so often (of a hundred) no
/// whole part where that is 0 and a mark follows.
pub fn amount_text(random: &mut Random, thousandths: u64, no_whole: usize) -> String {
    let (whole, rest) = (thousandths / 1000, thousandths % 1000);
    let needed = match rest {
        0 => 0,
        r if r % 100 == 0 => 1,
        r if r % 10 == 0 => 2,
        _ => 3,
    };
    let digits = if random.chance(70) { needed } else { random.between(needed, 3) };
    let mark = random.pick(&[',', '.']);
    let fraction = format!("{rest:03}");
    if digits == 0 {
        whole.to_string()
    } else if whole == 0 && no_whole > 0 && random.chance(no_whole) {
        format!("{mark}{}", &fraction[..digits])
    } else {
        format!("{whole}{mark}{}", &fraction[..digits])
    }
}

/// Where messages lie in a list of segments: UNH up to and including the first UNT, or up to the next UNH.
pub fn extents(segments: &[Segment]) -> Vec<(usize, usize)> {
    let mut all = Vec::new();
    let mut i = 0;
    while i < segments.len() {
        if segments[i].tag() == b"UNH" {
            let mut end = i + 1;
            while end < segments.len() && segments[end].tag() != b"UNH" {
                end += 1;
                if segments[end - 1].tag() == b"UNT" {
                    break;
                }
            }
            all.push((i, end));
            i = end;
        } else {
            i += 1;
        }
    }
    all
}

/// Sets every UNT's count and reference, and UNZ's count, to what they should be.
pub fn recount(segments: &mut [Segment]) {
    let all = extents(segments);
    for (from, to) in &all {
        if segments[to - 1].tag() == b"UNT" {
            let reference = segments[*from].value(1, 0).to_vec();
            segments[to - 1].set(1, 0, (to - from).to_string().as_bytes());
            segments[to - 1].set(2, 0, &reference);
        }
    }
    if let Some(last) = segments.last_mut() {
        if last.tag() == b"UNZ" {
            last.set(1, 0, all.len().to_string().as_bytes());
        }
    }
}

/// Puts messages between UNB and UNZ.
pub fn envelope(random: &mut Random, messages: Vec<Vec<Segment>>) -> Vec<Segment> {
    let reference = random.pick(&["R1", "1", "12345678901234", "REF/7", "0"]);
    let mut all = vec![Segment::of(
        0,
        &format!(
            "UNB+UNO{}:3+SENDER:ZZ+{}+020107:1200+{reference}{}",
            random.pick(&["A", "C"]),
            random.pick(&["BANK", "B:14", ""]),
            random.pick(&["", "++PAYMUL", ":X"])
        ),
    )];
    all.extend(messages.into_iter().flatten());
    all.push(Segment::of(0, &format!("UNZ+0+{reference}")));
    recount(&mut all);
    all
}

/// How segments are written as bytes.
#[derive(Clone, Debug)]
pub struct Style {
    pub service: Service,
    pub una: bool,
    /// What stands after terminators and UNA: one of these each time.
    pub breaks: &'static [&'static [u8]],
    /// How often (of a thousand) a byte is released without need.
    pub needless: usize,
    /// How often (of a hundred) empty components and elements stand at the end.
    pub empties: usize,
}

pub const PLAIN_STYLE: Style = Style { service: PLAIN, una: false, breaks: &[b""], needless: 0, empties: 0 };

/// Any style: service characters of all kinds, breaks, needless releases.
pub fn style(random: &mut Random) -> Style {
    let una = random.chance(45);
    let service = if una && random.chance(75) { service(random) } else { PLAIN };
    let breaks: &[&[u8]] = match random.below(10) {
        0..=5 => &[b""],
        6..=7 => &[b"\r\n"],
        8 => &[b"\n"],
        _ => &[b"", b"\r\n", b"\n", b"\r", b"\r\n\r\n", b"\n\r"],
    };
    Style {
        service,
        una,
        breaks,
        needless: random.pick(&[0, 0, 0, 0, 5, 40]),
        empties: random.pick(&[0, 0, 0, 10, 40]),
    }
}

/// Fit service characters.
pub fn service(random: &mut Random) -> Service {
    let mut characters: Vec<u8> = (0x21..=0x7Eu8).filter(|b| fit(*b)).collect();
    random.shuffle(&mut characters);
    let mark = random.pick(b",.");
    characters.retain(|b| *b != mark);
    if random.chance(40) {
        // the usual ones, in other places
        let mut usual = vec![b':', b'+', b'?', b'\'', b'*', b'|', b'~'];
        random.shuffle(&mut usual);
        usual.extend(characters);
        characters = usual;
        characters.dedup();
    }
    let mut taken: Vec<u8> = Vec::new();
    for byte in characters {
        if !taken.contains(&byte) {
            taken.push(byte);
        }
    }
    let mut release = Some(taken[3]);
    if random.chance(25) {
        // no release: keep the decimal marks and the bytes of references apart from separators
        release = None;
        taken.retain(|b| !b",./- ".contains(b));
    }
    Service { component: taken[0], element: taken[1], mark, release, terminator: taken[2] }
}

/// Writes segments as bytes.
pub fn write(random: &mut Random, segments: &[Segment], style: &Style) -> Vec<u8> {
    let s = style.service;
    let mut out = Vec::new();
    if style.una {
        out.extend(b"UNA");
        out.extend([s.component, s.element, s.mark, s.release.unwrap_or(b' '), b' ', s.terminator]);
        out.extend(random.pick(style.breaks));
    }
    for segment in segments {
        let from = out.len();
        for (e, components) in segment.elements.iter().enumerate() {
            if e > 0 {
                out.push(s.element);
            }
            for (c, value) in components.iter().enumerate() {
                if c > 0 {
                    out.push(s.component);
                }
                for byte in value {
                    let begins = out.len() == from && (*byte == b'\r' || *byte == b'\n');
                    let special =
                        [s.component, s.element, s.terminator].contains(byte) || Some(*byte) == s.release || begins;
                    match s.release {
                        // with no release such a byte cannot be written and is left out
                        None if special => continue,
                        Some(release) if special || random.below(1000) < style.needless => out.push(release),
                        _ => {}
                    }
                    out.push(*byte);
                }
            }
            if random.chance(style.empties) {
                out.extend(std::iter::repeat(s.component).take(random.below(3)));
            }
        }
        if random.chance(style.empties) {
            out.extend(std::iter::repeat(s.element).take(random.below(3)));
        }
        out.push(s.terminator);
        out.extend(random.pick(style.breaks));
    }
    out
}

/// A message with about so many segments, made of many small payments or many documents, all good.
pub fn long_message(random: &mut Random, segments: usize, documents: bool) -> Vec<Segment> {
    let mut all: Vec<Segment> = [(1, "UNH+1+PAYMUL:D:96A:UN"), (2, "BGM+452+1+9"), (3, "DTM+137:20020107:102")]
        .iter()
        .map(|(r, t)| Segment::of(*r, t))
        .collect();
    all.extend(
        [(17, "LIN+1"), (18, "DTM"), (19, "RFF"), (23, "MOA+9:0:EUR"), (28, "FII+OR+1:N")]
            .iter()
            .map(|(r, t)| Segment::of(*r, t)),
    );
    let (mut total, mut k) = (0u64, 0);
    let ending = 2;
    while all.len() + ending + 4 <= segments && (!documents || k == 0) {
        k += 1;
        let thousandths = random.next() % 1_000_000_000;
        total += thousandths;
        all.push(Segment::of(50, &format!("SEQ++{k}")));
        all.push(Segment::of(51, &format!("MOA+9:{}:EUR", amount_text(random, thousandths, 0))));
        all.push(Segment::of(53, "RFF"));
        all.push(Segment::of(61, "NAD+BE"));
    }
    let total = amount_text(random, total, 0);
    all[6].set(1, 1, total.as_bytes());
    if documents && all.len() + ending + 2 <= segments {
        all.push(Segment::of(76, "PRC+8"));
    }
    while documents && all.len() + ending < segments {
        all.push(Segment::of(79, "DOC"));
    }
    while all.len() + ending < segments {
        // the last payment's optional texts: the SG14 and SG15 of the last payment
        all.push(Segment::of(69, "GIS"));
    }
    all.push(Segment::of(108, "CNT+2:1"));
    all.push(Segment::of(112, "UNT+0+1"));
    recount(&mut all);
    all
}

/// A message with so many orders, each as short as can be.
pub fn many_orders(orders: usize) -> Vec<Segment> {
    let mut all = vec![Segment::of(1, "UNH+1+PAYMUL:D:96A:UN"), Segment::of(2, "BGM"), Segment::of(3, "DTM")];
    for line in 1..=orders {
        all.push(Segment::of(17, &format!("LIN+{line}")));
        for (row, text) in [
            (18, "DTM"),
            (19, "RFF"),
            (23, "MOA+9:0,1:EUR"),
            (28, "FII+OR+:N"),
            (50, "SEQ++1"),
            (51, "MOA+9:0.1:EUR"),
            (53, "RFF"),
            (61, "NAD+BE"),
        ] {
            all.push(Segment::of(row, text));
        }
    }
    all.push(Segment::of(108, &format!("CNT+2:{orders}")));
    all.push(Segment::of(112, "UNT+0+1"));
    recount(&mut all);
    all
}
