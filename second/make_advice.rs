//! Good DEBMUL messages, made from the chart and the examples of 000 and 004. Where W-201 has no rule they
//! say anything: numbers of SEQ, amounts, currencies, parties, details and CNT.

use crate::kinds::Kind;
use crate::make::{amount_text, amounts, date, digits, odd_bytes, recount, reference, some, text, usual};
use crate::make::{Profile, Segment, CURRENCIES};
use crate::random::Random;

/// BGM's 1001 in a debit advice; none of these is 342, which a pre-advice has.
const NOT_342: [&str; 8] = ["456", "456", "456", "", "0342", "34", "3422", "342 "];

/// LIN's 1229 in an order with details: not 106.
const NOT_106: [&str; 10] = ["107", "107", "107", "", "", "0106", "10", "1060", "106 ", "106A"];

struct Maker<'a> {
    random: &'a mut Random,
    profile: Profile,
    out: Vec<Segment>,
    reference: String,
    line: usize,
    sequence: usize,
    lines: usize,
    /// BGM's 1001 is 342, so that a line may have an expected date.
    pre_advice: bool,
    /// LIN's 1229.
    details: &'static str,
    /// Only what must stand does so in this line: as 000 says of 106.
    bare: bool,
    currency: &'static str,
    amounts: Vec<u64>,
}

/// One good message; its UNT is not yet right.
pub fn debmul(random: &mut Random, profile: Profile) -> Vec<Segment> {
    let reference = reference(random);
    let lines = random.between(1, profile.orders);
    let pre_advice = random.chance(35);
    let mut maker = Maker {
        random,
        profile,
        out: Vec::new(),
        reference,
        line: 0,
        sequence: 0,
        lines,
        pre_advice,
        details: "",
        bare: false,
        currency: "EUR",
        amounts: Vec::new(),
    };
    maker.group(0);
    maker.out
}

impl Maker<'_> {
    /// One occurrence of a group: its rows in chart order, each some number of times.
    fn group(&mut self, group: u16) {
        let chart = Kind::Debmul.chart();
        for &row in chart.held(group) {
            for _ in 0..self.times(row) {
                self.before(row);
                if chart.is_group(row) {
                    self.group(row);
                } else {
                    let segment = self.segment(row);
                    self.out.push(segment);
                }
            }
        }
    }

    /// Choices that are made as a line or a transaction begins.
    fn before(&mut self, row: u16) {
        match row {
            16 => {
                self.line += 1;
                self.sequence = 0;
                self.details = if self.random.chance(35) { "106" } else { self.random.pick(&NOT_106) };
                self.bare = self.details == "106" && self.random.chance(50);
                self.currency = self.random.pick(&CURRENCIES);
                let one = self.random.chance(40);
                let count = if one { 1 } else { self.random.between(1, self.profile.payments) };
                self.amounts = amounts(self.random, count);
            }
            42 => self.sequence += 1,
            _ => {}
        }
    }

    /// How many times a row stands.
    fn times(&mut self, row: u16) -> usize {
        let chart = Kind::Debmul.chart();
        let limit = chart.repeats(row);
        match row {
            _ if chart.never(row) => 0,
            16 => self.lines,
            42 => self.amounts.len(),
            // SG11: "absent if LIN's 1229 is 106 and present in every SG10 otherwise"
            47 if self.details == "106" => 0,
            47 => some(self.random, self.profile, limit),
            _ if chart.required(row) => some(self.random, self.profile, limit),
            17..=119 if self.bare => 0,
            _ if self.random.chance(self.profile.optional) => some(self.random, self.profile, limit),
            _ => 0,
        }
    }

    /// A segment for a row, as the examples have it.
    fn segment(&mut self, row: u16) -> Segment {
        let tag = Kind::Debmul.chart().tag_of(row);
        let date = date(self.random);
        let text = match row {
            1 => format!("UNH+{}+DEBMUL:D:96A:UN{}", self.reference, self.random.pick(&["", ":FUN01G"])),
            2 => {
                let code = if self.pre_advice { "342" } else { self.random.pick(&NOT_342) };
                format!("BGM+{code}{}+{}+9", self.random.pick(&["", "", ":X"]), digits(self.random, 10))
            }
            3 => format!("DTM+137:{date}:102"),
            17 => format!("LIN+{}+{}", self.line, self.details),
            18 => {
                let code =
                    if self.pre_advice && self.random.chance(50) { "455" } else { self.random.pick(&["202", "209"]) };
                format!("DTM+{code}{}", self.random.pick(&[format!(":{date}:102"), format!(":{date}"), String::new()]))
            }
            20 => {
                let total = self.amounts.iter().sum();
                format!("MOA+{}:{}:{}", self.random.pick(&["60", "349"]), self.amount(total), self.currency)
            }
            25 => format!(
                "FII+{}+{}:J SMITH::USD+DRESDEFF:25:5+DE",
                self.random.pick(&["OR", "PH", ""]),
                digits(self.random, 9)
            ),
            43 => format!("SEQ++{}", self.sequence_number()),
            46 => {
                let party = self.random.pick(&["BF", "BF", "I1", "BE", "ZZZ", "NKV", ""]);
                format!("FII+{party}{}", self.random.pick(&["", "+4733016", "+27834895:J SCHMIDT:FRANKFURT"]))
            }
            54 => {
                let amount = self.amounts[self.sequence - 1];
                format!("MOA+{}:{}", self.random.pick(&["60", "98", "143", "36", "349", "ZZZ"]), self.amount(amount))
            }
            59 => format!("NAD+{}+++{}", self.random.pick(&["BE", "PE", "PL", "OY", "HX"]), text(self.random)),
            88 => format!("PRC+{}", self.random.pick(&["8", "9", "10", "11", "12", ""])),
            120 => format!("CNT+{}:{}", self.random.pick(&["2", "2", "39", ""]), self.count()),
            124 => format!("UNT+0+{}", self.reference),
            // no rule speaks of the other dates
            _ if tag == "DTM" => {
                let code = self.random.pick(&["202", "209", "455", "137", "203", "171", "134", "36", "193", ""]);
                format!("DTM+{code}:{date}:102")
            }
            _ => usual(self.random, tag, &date),
        };
        let mut segment = Segment::typed(Kind::Debmul, row, &text);
        if matches!(tag, "FTX" | "RFF" | "DOC" | "COM" | "AUT" | "GIS" | "CTA")
            && self.random.chance(self.profile.odd_text)
        {
            odd_bytes(self.random, &mut segment);
        }
        segment
    }

    fn amount(&mut self, thousandths: u64) -> String {
        if self.random.chance(85) {
            amount_text(self.random, thousandths, self.profile.no_whole)
        } else {
            self.random.pick(&["", "007", ",5", "1.234,5", "-5", "1234567890123", "12,3456", "x"]).to_string()
        }
    }

    fn sequence_number(&mut self) -> String {
        if self.random.chance(85) {
            self.sequence.to_string()
        } else {
            self.random.pick(&["", "0", "1", "7", "01", "A", "99999999999999999999"]).to_string()
        }
    }

    fn count(&mut self) -> String {
        if self.random.chance(60) {
            self.lines.to_string()
        } else {
            self.random.pick(&["", "0", "12", "01", "x", "99999999999999999999"]).to_string()
        }
    }
}

fn segments(texts: &[(u16, &str)]) -> Vec<Segment> {
    texts.iter().map(|(row, text)| Segment::typed(Kind::Debmul, *row, text)).collect()
}

/// A message with exactly so many segments, made of many small transactions or of many documents, all good.
pub fn long_message(segments_wanted: usize, documents: bool) -> Vec<Segment> {
    let mut all = segments(&[
        (1, "UNH+1+DEBMUL:D:96A:UN"),
        (2, "BGM+456+1+9"),
        (3, "DTM+137:20020107:102"),
        (17, "LIN+1+107"),
        (18, "DTM+202"),
        (20, "MOA"),
        (22, "RFF"),
        (25, "FII"),
    ]);
    let ending = segments(&[(120, "CNT+39:7"), (124, "UNT+0+1")]);
    let one = segments(&[(43, "SEQ++1"), (46, "FII"), (48, "RFF"), (54, "MOA")]);
    let mut transactions = 0;
    while all.len() + one.len() + ending.len() <= segments_wanted && (!documents || transactions == 0) {
        all.extend(one.clone());
        transactions += 1;
    }
    if documents && all.len() + ending.len() < segments_wanted {
        all.extend(segments(&[(88, "PRC+8")]));
    }
    while all.len() + ending.len() < segments_wanted {
        // documents, or what the last transaction takes besides: at most three of these
        all.extend(segments(&[if documents { (91, "DOC") } else { (67, "GIS") }]));
    }
    all.extend(ending);
    recount(&mut all);
    all
}

/// A message with so many lines, each as short as can be.
pub fn many_lines(lines: usize) -> Vec<Segment> {
    let mut all = segments(&[(1, "UNH+1+DEBMUL:D:96A:UN"), (2, "BGM"), (3, "DTM")]);
    for line in 1..=lines {
        all.extend(segments(&[(17, &format!("LIN+{line}"))]));
        all.extend(segments(&[(18, "DTM+209"), (20, "MOA"), (22, "RFF"), (25, "FII")]));
        all.extend(segments(&[(43, "SEQ"), (46, "FII"), (48, "RFF"), (54, "MOA")]));
    }
    all.extend(segments(&[(120, "CNT"), (124, "UNT+0+1")]));
    recount(&mut all);
    all
}

/// A message with one FCA that holds so many ALC, and one DOC that holds so many AJT and so many DLI.
pub fn deep_message(allowances: usize, adjustments: usize, document_lines: usize) -> Vec<Segment> {
    let mut all = many_lines(1);
    let at = all.len() - 2;
    let mut inner = segments(&[(74, "FCA")]);
    for _ in 0..allowances {
        inner.extend(segments(&[(77, "ALC"), (79, "MOA")]));
    }
    inner.extend(segments(&[(88, "PRC"), (91, "DOC")]));
    for _ in 0..adjustments {
        inner.extend(segments(&[(100, "AJT")]));
    }
    for _ in 0..document_lines {
        inner.extend(segments(&[(105, "DLI")]));
    }
    all.splice(at..at, inner);
    recount(&mut all);
    all
}
