//! One message judged, by the type that its UNH names: the faults 10 to 31, the least of them, and what an
//! accepted message gives.

use crate::kinds::{Kind, KINDS};
use crate::syntax::*;

/// The lengths of the lent lists: rows, starts, totals.
#[derive(Clone, Copy, PartialEq, Eq, Debug)]
pub struct Lists {
    pub rows: usize,
    pub starts: usize,
    pub totals: usize,
}

/// (number, segment, offset)
pub type Fault = (u32, u32, u32);

#[derive(Clone, PartialEq, Eq, Debug)]
pub struct Report {
    /// (0, 0, 0) where the message is accepted.
    pub fault: Fault,
    pub segments: u32,
    pub orders: u32,
    pub payments: u32,
    /// What the lists receive: as many rows and starts as segments; of PAYMUL as many totals as orders, of
    /// DEBMUL none.
    pub rows: Vec<u16>,
    pub starts: Vec<u32>,
    pub totals: Vec<u64>,
}

impl Report {
    pub fn refused(number: u32, segment: u32, offset: u32) -> Report {
        Report {
            fault: (number, segment, offset),
            segments: 0,
            orders: 0,
            payments: 0,
            rows: vec![],
            starts: vec![],
            totals: vec![],
        }
    }
}

pub const MOST_SEGMENTS: usize = 9_999;

/// A segment of a message: its number (UNH is 1), its first byte, its values and its row once placed.
struct Segment {
    number: u32,
    start: u32,
    elements: Elements,
    row: u16,
}

impl Segment {
    fn value(&self, element: usize, component: usize) -> &[u8] {
        value(&self.elements, element, component)
    }
    fn tag(&self) -> &[u8] {
        self.value(0, 0)
    }
    fn fault(&self, number: u32) -> Fault {
        (number, self.number, self.start)
    }
}

/// The least fault: the lowest number, and under it the first segment. (Under 10 the list holds each
/// segment's first such byte only.)
fn least(faults: Vec<Fault>) -> Option<Fault> {
    faults.into_iter().min()
}

/// The report on a message's bytes.
pub fn judge(bytes: &[u8], service: Service, lists: Lists) -> Report {
    let spans = spans(bytes, 0, false, service);
    let mut segments: Vec<Segment> = spans
        .iter()
        .enumerate()
        .map(|(i, s)| Segment {
            number: i as u32 + 1,
            start: s.start as u32,
            elements: elements(&bytes[s.start..s.end], service),
            row: 0,
        })
        .collect();

    let kind = segments.first().and_then(|first| kind(&first.elements));
    if let Some(fault) = least(faults_before_placing(bytes, &spans, &segments, kind, lists)) {
        return Report::refused(fault.0, fault.1, fault.2);
    }
    let kind = kind.expect("12 would have been given");
    let tags: Vec<Vec<u8>> = segments.iter().map(|s| s.tag().to_vec()).collect();
    match kind.chart().reading(&tags) {
        Err(place) => {
            let (number, segment, offset) = segments[place - 1].fault(16);
            return Report::refused(number, segment, offset);
        }
        Ok(rows) => segments.iter_mut().zip(rows).for_each(|(s, row)| s.row = row),
    }
    let orders = orders(kind, &segments);
    if let Some(fault) = least(faults_once_placed(kind, &segments, &orders)) {
        return Report::refused(fault.0, fault.1, fault.2);
    }
    Report {
        fault: (0, 0, 0),
        segments: segments.len() as u32,
        orders: orders.len() as u32,
        payments: of_row(&segments, kind.seq()).len() as u32,
        rows: segments.iter().map(|s| s.row).collect(),
        starts: segments.iter().map(|s| s.start).collect(),
        totals: match kind {
            Kind::Paymul => orders.iter().map(|o| order_amount(o).expect("22 would have been given")).collect(),
            Kind::Debmul => vec![],
        },
    }
}

/// The type that a UNH names: by message type, version, release and agency. None where it is neither, or
/// where this is no UNH.
pub fn kind(unh: &Elements) -> Option<Kind> {
    let d96a = value(unh, 2, 1) == b"D" && value(unh, 2, 2) == b"96A" && value(unh, 2, 3) == b"UN";
    let named = |kind: &Kind| value(unh, 2, 0) == kind.name().as_bytes();
    KINDS.into_iter().find(|kind| value(unh, 0, 0) == b"UNH" && d96a && named(kind))
}

/// Numbers 10 to 14.
fn faults_before_placing(
    bytes: &[u8],
    spans: &[Span],
    segments: &[Segment],
    kind: Option<Kind>,
    lists: Lists,
) -> Vec<Fault> {
    let mut faults = Vec::new();
    // 10: a byte outside 0x20..0x7E and 0xA0..0xFF. Separators and releases are inside.
    for (i, span) in spans.iter().enumerate() {
        let allowed = |b: &u8| (0x20..=0x7E).contains(b) || *b >= 0xA0;
        if let Some(at) = bytes[span.start..span.end].iter().position(|b| !allowed(b)) {
            faults.push((10, i as u32 + 1, (span.start + at) as u32));
        }
    }
    // 11: closed exactly if the first UNT is finished and ends the bytes
    let unt = segments.iter().position(|s| s.tag() == b"UNT");
    let closed = unt.is_some_and(|i| spans[i].finished && spans[i].after() == bytes.len());
    if !closed {
        faults.push((11, 1, 0));
    }
    // 12: neither type, or no such reference
    let referenced = segments.first().is_some_and(|unh| (1..=14).contains(&unh.value(1, 0).len()));
    if kind.is_none() || !referenced {
        faults.push((12, 1, 0));
    }
    // 13
    if let Some(beyond) = segments.get(MOST_SEGMENTS) {
        faults.push(beyond.fault(13));
    }
    // 14: of DEBMUL no totals are written, and none are asked for
    let totals = match kind {
        Some(Kind::Debmul) => 0,
        _ => segments.iter().filter(|s| s.tag() == b"LIN").count(),
    };
    if lists.rows < segments.len() || lists.starts < segments.len() || lists.totals < totals {
        faults.push((14, 0, 0));
    }
    faults
}

// Rows of PAYMUL's chart that its rules speak of.
const MOA_SG5: u16 = 23;
const CUX_SG5: u16 = 24;
const FII_SG6: u16 = 28;
const NAD_SG7: u16 = 32;
const PRC_SG10: u16 = 47;
const MOA_SG11: u16 = 51;
const FII_SG12: u16 = 57;
const NAD_SG13: u16 = 61;
const PRC_SG16: u16 = 76;
const FTX_SG16: u16 = 77;
const DOC_SG17: u16 = 79;

// Rows of DEBMUL's chart that its rules speak of.
const BGM: u16 = 2;
const DTM_SG4: u16 = 18;
const RFF_SG11: u16 = 48;

/// The stretches of segments that begin with this row and go on up to the next such row or up to the
/// first row after SG4.
fn stretches(kind: Kind, segments: &[Segment], first: u16) -> Vec<&[Segment]> {
    let starts: Vec<usize> = (0..segments.len()).filter(|i| segments[*i].row == first).collect();
    starts
        .iter()
        .map(|from| {
            let inside = |s: &&Segment| s.row != first && s.row <= kind.last_of_sg4();
            let length = segments[from + 1..].iter().take_while(inside).count();
            &segments[*from..from + 1 + length]
        })
        .collect()
}

/// From one LIN to the next.
fn orders(kind: Kind, segments: &[Segment]) -> Vec<&[Segment]> {
    stretches(kind, segments, kind.lin())
}

/// From one SEQ to the next, in one order.
fn payments(kind: Kind, order: &[Segment]) -> Vec<&[Segment]> {
    stretches(kind, order, kind.seq())
}

fn of_row(stretch: &[Segment], row: u16) -> Vec<&Segment> {
    stretch.iter().filter(|s| s.row == row).collect()
}

fn order_amount(order: &[Segment]) -> Option<u64> {
    amount(of_row(order, MOA_SG5)[0].value(1, 1))
}

/// Numbers 17 to 31, rule by rule: 17 to 20 for both types, then those of each.
fn faults_once_placed(kind: Kind, segments: &[Segment], orders: &[&[Segment]]) -> Vec<Fault> {
    let mut faults = Vec::new();
    let (unh, unt) = (&segments[0], segments.last().unwrap());

    if !number_is(unt.value(1, 0), segments.len()) {
        faults.push(unt.fault(17));
    }
    if unt.value(2, 0) != unh.value(1, 0) {
        faults.push(unt.fault(18));
    }
    for (i, order) in orders.iter().enumerate() {
        let lin = &order[0];
        if !number_is(lin.value(1, 0), i + 1) {
            faults.push(lin.fault(20));
        }
    }
    match kind {
        Kind::Paymul => paymul(segments, orders, &mut faults),
        Kind::Debmul => debmul(segments, orders, &mut faults),
    }
    faults
}

/// 21 to 29, in the order of document 01.
fn paymul(segments: &[Segment], orders: &[&[Segment]], faults: &mut Vec<Fault>) {
    for order in orders {
        for (k, payment) in payments(Kind::Paymul, order).iter().enumerate() {
            let seq = &payment[0];
            if !number_is(seq.value(2, 0), k + 1) {
                faults.push(seq.fault(21));
            }
        }
        amounts(order, faults);
        exchange(order, faults);
        parties(order, faults);
        details(order, faults);
    }
    for cnt in of_row(segments, Kind::Paymul.cnt()) {
        if cnt.value(1, 0) == b"2" && !number_is(cnt.value(1, 1), orders.len()) {
            faults.push(cnt.fault(29));
        }
    }
}

/// 30 and 31, as W-201 has them.
fn debmul(segments: &[Segment], orders: &[&[Segment]], faults: &mut Vec<Fault>) {
    // "LIN's DTM only 202, 209 or 455, and 455 only if BGM's 1001 is 342"
    let pre_advice = of_row(segments, BGM)[0].value(1, 0) == b"342";
    for dtm in of_row(segments, DTM_SG4) {
        let holds = match dtm.value(1, 0) {
            b"202" | b"209" => true,
            b"455" => pre_advice,
            _ => false,
        };
        if !holds {
            faults.push(dtm.fault(30));
        }
    }
    // "SG11 absent if LIN's 1229 is 106 and present in every SG10 otherwise"
    for order in orders {
        let without_details = order[0].value(2, 0) == b"106";
        for transaction in payments(Kind::Debmul, order) {
            let referenced = !of_row(transaction, RFF_SG11).is_empty();
            if referenced == without_details {
                faults.push(transaction[0].fault(31));
            }
        }
    }
}

/// 22 amounts, 23 qualifiers, 24 currencies, 26 totals.
fn amounts(order: &[Segment], faults: &mut Vec<Fault>) {
    let sg5 = of_row(order, MOA_SG5)[0];
    let sg11 = of_row(order, MOA_SG11);

    for moa in std::iter::once(&sg5).chain(&sg11) {
        if amount(moa.value(1, 1)).is_none() {
            faults.push(moa.fault(22));
        }
    }
    if sg5.value(1, 0) != b"9" && sg5.value(1, 0) != b"57" {
        faults.push(sg5.fault(23));
    }
    if !three_capitals(sg5.value(1, 2)) {
        faults.push(sg5.fault(24));
    }
    for moa in &sg11 {
        if moa.value(1, 0) != sg5.value(1, 0) {
            faults.push(moa.fault(23));
        }
        if moa.value(1, 2) != sg5.value(1, 2) {
            faults.push(moa.fault(24));
        }
    }
    // 26 has a meaning where all amounts have the form; where one has not, 22 is given anyway
    let payments: Option<Vec<u64>> = sg11.iter().map(|moa| amount(moa.value(1, 1))).collect();
    if let (Some(total), Some(payments)) = (amount(sg5.value(1, 1)), payments) {
        if u128::from(total) != payments.into_iter().map(u128::from).sum::<u128>() {
            faults.push(sg5.fault(26));
        }
    }
}

/// 25
fn exchange(order: &[Segment], faults: &mut Vec<Fault>) {
    let moa = of_row(order, MOA_SG5)[0];
    let wanted = moa.value(1, 0) == b"57";
    match of_row(order, CUX_SG5).first() {
        None if wanted => faults.push(moa.fault(25)),
        None => {}
        Some(cux) => {
            let source = cux.value(1, 0) == b"2" && cux.value(1, 1) == moa.value(1, 2);
            let target =
                cux.value(2, 0) == b"3" && three_capitals(cux.value(2, 1)) && cux.value(2, 1) != moa.value(1, 2);
            let given: Vec<&[u8]> = [cux.value(1, 3), cux.value(2, 3)].into_iter().filter(|b| !b.is_empty()).collect();
            let rate = !cux.value(3, 0).is_empty();
            let bases = given.len() <= 1
                && given.iter().all(|b| *b == b"1" || *b == b"100" || *b == b"1000")
                && (given.is_empty() || rate);
            if !(wanted && source && target && bases) {
                faults.push(cux.fault(25));
            }
        }
    }
}

/// 27
fn parties(order: &[Segment], faults: &mut Vec<Fault>) {
    let with = |stretch: &[Segment], row: u16, qualifier: &[u8]| -> Vec<bool> {
        // for each such party, whether a holder name is given (either 3192)
        of_row(stretch, row)
            .iter()
            .filter(|s| s.value(1, 0) == qualifier)
            .map(|s| !s.value(2, 1).is_empty() || !s.value(2, 2).is_empty())
            .collect()
    };
    let or = with(order, FII_SG6, b"OR");
    let pl = with(order, NAD_SG7, b"PL");
    let oy = with(order, NAD_SG7, b"OY");
    let holds = or.len() == 1 && pl.len() <= 1 && oy.len() <= 1 && or[0] == pl.is_empty();
    if !holds {
        faults.push(order[0].fault(27));
    }
    for payment in payments(Kind::Paymul, order) {
        let bf = with(payment, FII_SG12, b"BF");
        let pe = with(payment, NAD_SG13, b"PE");
        let be = with(payment, NAD_SG13, b"BE");
        let most_one_each = bf.len() <= 1 && pe.len() <= 1 && be.len() <= 1;
        let holds = match bf.first() {
            None => !be.is_empty() && pe.is_empty(),
            Some(named) => *named == pe.is_empty(),
        };
        if !(most_one_each && holds) {
            faults.push(payment[0].fault(27));
        }
    }
}

/// 28
fn details(order: &[Segment], faults: &mut Vec<Fault>) {
    let sg10 = !of_row(order, PRC_SG10).is_empty();
    for payment in payments(Kind::Paymul, order) {
        let text = !of_row(payment, FTX_SG16).is_empty();
        let documents = !of_row(payment, DOC_SG17).is_empty();
        for prc in of_row(payment, PRC_SG16) {
            let holds = match prc.value(1, 0) {
                b"8" => documents && !text,
                b"9" | b"10" => documents && text,
                b"11" => text && !documents,
                _ => false,
            };
            if sg10 || !holds {
                faults.push(prc.fault(28));
            }
        }
    }
}
