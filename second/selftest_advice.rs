//! W-201 on this program itself: the type, the dates, the references, what does not apply, and the lists.

use crate::interchange::check;
use crate::message::{Fault, Lists};
use crate::report::report;
use crate::selftest::{Tests, AMPLE};

/// An advice around these lines, with a BGM that says this.
fn message(bgm: &str, lines: &str) -> String {
    let body = format!("UNH+1+DEBMUL:D:96A:UN'BGM+{bgm}'DTM+137:20030602:102'{lines}CNT+39:9'");
    let count = body.matches('\'').count() + 1;
    format!("{body}UNT+{count}+1'")
}

/// LIN is segment 4, and its first DTM segment 5.
fn line(number: &str, dates: &str, transactions: &str) -> String {
    format!("LIN+{number}'{dates}MOA+60:45000:EUR'RFF+ACK:48204'FII+OR+78520739'{transactions}")
}

const DETAILED: &str = "SEQ++1'FII+BF'RFF+AIK:423390'MOA+60:41000:EUR'";
const BARE: &str = "SEQ++1'FII+ZZZ'MOA+ZZZ'";
/// SG13 has an RFF of its own, which is no SG11.
const EXCHANGED: &str = "SEQ++1'FII+BF'MOA+36:9:EUR'CUX+2:USD+3:EUR'RFF+FX:407082'";

fn fault(message: &str) -> Fault {
    check(b"", message.as_bytes(), AMPLE).fault
}

/// Number and segment, where the offset is that of the segment's first byte.
fn number_and_segment(message: &str) -> (u32, u32) {
    let (number, segment, offset) = fault(message);
    let start: usize = message.split_inclusive('\'').take((segment as usize).saturating_sub(1)).map(str::len).sum();
    assert_eq!(offset as usize, start);
    (number, segment)
}

pub fn run(t: &mut Tests) {
    types(t);
    dates(t);
    references(t);
    no_rules(t);
    lists(t);
}

fn types(t: &mut Tests) {
    let good = message("456", &line("1+107", "DTM+202'", DETAILED));
    for (named, must) in [
        ("DEBMUL:D:96A:UN", (0, 0, 0)),
        ("DEBMUL:D:96A:UN:FUN01G", (0, 0, 0)),
        ("DE?BMUL:D:96A:UN", (0, 0, 0)),
        ("DEBMUL:D:96B:UN", (12, 1, 0)),
        ("DEBMUL:S:96A:UN", (12, 1, 0)),
        ("DEBMUL:D:96A", (12, 1, 0)),
        ("DEBMUL ", (12, 1, 0)),
        ("debmul:D:96A:UN", (12, 1, 0)),
        ("CREMUL:D:96A:UN", (12, 1, 0)),
        ("DIRDEB:D:96A:UN", (12, 1, 0)),
        // LIN, DTM, MOA: an order has an RFF there
        ("PAYMUL:D:96A:UN", (16, 6, 69)),
    ] {
        t.hold(&format!("UNH {named}"), fault(&good.replace("DEBMUL:D:96A:UN", named)) == must);
    }
    t.hold("no reference", fault(&good.replace("UNH+1", "UNH+")) == (12, 1, 0));
    t.hold("UNT's count", number_and_segment(&good.replace("UNT+14", "UNT+15")) == (17, 14));
    t.hold("UNT's reference", number_and_segment(&good.replace("UNT+14+1", "UNT+14+2")) == (18, 14));
    // an order, an advice and another type in one file
    let file = "UNB+UNOA:3+A+B+030602:1200+R1'UNH+1+PAYMUL:D:96A:UN'UNT+2+1'".to_string()
        + &good
        + "UNH+2+DIRDEB:D:96A:UN'UNT+2+2'UNH+3+DEBMUL:D:96A:UN'UNT+2+3'UNZ+4+R1'";
    let must = "MSG 1 NO 16 2 22\nMSG 2 OK 14 1 1\nMSG 3 NO 12 1 0\nMSG 4 NO 16 2 22\nEND 4 1 0 0\n";
    t.hold("a file of both types", report(file.as_bytes()) == must);
}

fn dates(t: &mut Tests) {
    for (bgm, dates, must) in [
        ("456", "DTM+202:20030602:102'", (0, 0)),
        ("456", "DTM+209'", (0, 0)),
        ("456", "DTM+202'DTM+209'DTM+202'", (0, 0)),
        ("456", "DTM+202'DTM+209'DTM+202'DTM+209'", (16, 8)),
        ("456", "", (16, 5)),
        ("456", "DTM+455'", (30, 5)),
        ("342", "DTM+455'", (0, 0)),
        ("342:X+1+9", "DTM+202'DTM+455'DTM+209'", (0, 0)),
        ("3?42", "DTM+4?55'", (0, 0)),
        ("342", "DTM+455 '", (30, 5)),
        ("0342", "DTM+455'", (30, 5)),
        ("342 ", "DTM+455'", (30, 5)),
        ("34", "DTM+455'", (30, 5)),
        (":342", "DTM+455'", (30, 5)),
        ("+342", "DTM+455'", (30, 5)),
        ("", "DTM+455'", (30, 5)),
        ("342", "DTM+137'", (30, 5)),
        ("456", "DTM+203'", (30, 5)),
        ("456", "DTM+202'DTM+203'", (30, 6)),
        ("456", "DTM+202'DTM+209'DTM+455'", (30, 7)),
        ("456", "DTM+202'DTM+203'DTM+455'", (30, 6)),
        ("456", "DTM'", (30, 5)),
        ("456", "DTM+'", (30, 5)),
        ("456", "DTM+:202'", (30, 5)),
        ("456", "DTM++202'", (30, 5)),
        ("456", "DTM+2022'", (30, 5)),
        ("456", "DTM+20'", (30, 5)),
        ("456", "DTM+0202'", (30, 5)),
        ("456", "DTM+?202'", (0, 0)),
        ("456", "DTM+202:X+455'", (0, 0)),
    ] {
        let is = number_and_segment(&message(bgm, &line("1", dates, DETAILED)));
        t.hold(&format!("BGM+{bgm}, {dates}"), is == must);
    }
    // other dates: of SG5, SG9, SG10, SG11 and SG13
    let elsewhere =
        "LIN+1'DTM+202'MOA'RFF'DTM+137'FII'FCA'ALC'MOA'TAX'DTM+455'SEQ'DTM+455'DTM'FII'RFF'DTM+1'MOA'DTM+2'";
    t.hold("dates elsewhere", fault(&message("456", elsewhere)) == (0, 0, 0));
}

fn references(t: &mut Tests) {
    let six = format!("SEQ++1'FII+BF'{}MOA'", "RFF+CR:1'".repeat(6));
    let both = format!("{EXCHANGED}{DETAILED}");
    for (lin, transactions, must) in [
        ("1+106", BARE, (0, 0)),
        ("1+106", EXCHANGED, (0, 0)),
        ("1+106", DETAILED, (31, 9)),
        ("1+1?06", DETAILED, (31, 9)),
        ("1+106:107", DETAILED, (31, 9)),
        ("1+107", DETAILED, (0, 0)),
        ("1+107", BARE, (31, 9)),
        ("1+107", EXCHANGED, (31, 9)),
        ("1", DETAILED, (0, 0)),
        ("1", BARE, (31, 9)),
        ("1+", EXCHANGED, (31, 9)),
        ("1+0106", DETAILED, (0, 0)),
        ("1+0106", BARE, (31, 9)),
        ("1+106 ", DETAILED, (0, 0)),
        ("1+106 ", BARE, (31, 9)),
        ("1+1060", BARE, (31, 9)),
        ("1+:106", BARE, (31, 9)),
        ("1++106", BARE, (31, 9)),
        ("1+107", &six, (16, 16)),
        ("1+107", &both, (31, 9)),
        ("1+106", &both, (31, 14)),
    ] {
        let is = number_and_segment(&message("456", &line(lin, "DTM+202'", transactions)));
        t.hold(&format!("LIN+{lin}, {transactions}"), is == must);
    }
    // each line has its own code
    let lines = |a: &str, b: &str| line(a, "DTM+202'", BARE) + &line(b, "DTM+202'", DETAILED);
    t.hold("106 and 107", number_and_segment(&message("456", &lines("1+106", "2+107"))) == (0, 0));
    t.hold("107 and 106", number_and_segment(&message("456", &lines("1+107", "2+106"))) == (31, 9));
    t.hold("106 and 106", number_and_segment(&message("456", &lines("1+106", "2+106"))) == (31, 17));
    // the lowest number first, whatever comes first in the message
    let late = |number: &str, date: &str| line("1+107", "DTM+202'", BARE) + &line(number, date, DETAILED);
    t.hold("31 alone", number_and_segment(&message("456", &late("2", "DTM+209'"))) == (31, 9));
    t.hold("30 before 31", number_and_segment(&message("456", &late("2", "DTM+203'"))) == (30, 13));
    t.hold("20 before 30", number_and_segment(&message("456", &late("3", "DTM+203'"))) == (20, 12));
}

/// 21 to 29 do not apply.
fn no_rules(t: &mut Tests) {
    let odd = "SEQ+1+7'FII+OR'FII+OR'RFF'MOA+9:1.234,5:eur'CUX+3:EUR::7'NAD+PE'NAD+PE'PRC+12'DOC'";
    let lines = format!("{}{DETAILED}", line("1", "DTM+202'", odd));
    let message = message("456", &lines).replace("CNT+39:9'", "CNT+2:12'");
    let report = check(b"", message.as_bytes(), AMPLE);
    t.hold("no number 21 to 29", report.fault == (0, 0, 0));
    t.hold("counts", (report.segments, report.orders, report.payments) == (24, 1, 2));
}

/// Rows and starts are asked for and given; totals are neither.
fn lists(t: &mut Tests) {
    let message = message("456", &line("1", "DTM+202'", DETAILED));
    let with = |rows, starts, totals| check(b"", message.as_bytes(), Lists { rows, starts, totals });
    t.hold("no totals asked for", with(14, 14, 0).fault == (0, 0, 0));
    t.hold("rows asked for", with(13, 14, 9).fault == (14, 0, 0));
    t.hold("starts asked for", with(14, 13, 9).fault == (14, 0, 0));
    let report = with(14, 14, 9);
    t.hold("rows", report.rows == [1, 2, 3, 17, 18, 20, 22, 25, 43, 46, 48, 54, 120, 124]);
    t.hold("starts", report.starts[..4] == [0, 22, 30, 51] && report.starts.len() == 14);
    t.hold("no totals given", report.totals.is_empty());
}

/// How many messages of a table in `tables_advice.rs` are accepted, counted by hand from the rules.
pub fn accepted(table: &str) -> Option<usize> {
    Some(match table {
        // one to three dates: of 4 codes under the 3 BGM that are 342, of 2 codes under the 8 others
        "dates of an advice" => 3 * (4 + 16 + 64) + 8 * (2 + 4 + 8),
        // 4 codes are 202 after all, alone and after another; elsewhere all 25 pass; each with 2 BGM
        "odd dates of an advice" => 2 * (4 + 4 + 25),
        // one to three of 2 transactions under each of 12 codes; and 5 references under the 8 that are not 106
        "references of an advice" => 12 * (2 + 4 + 8) + 8,
        // for each of 4 pairs, one or two transactions of one kind in each line
        "lines of an advice" => 4 * 2 * 2,
        // 1 and 2 as LIN numbers, 1 as reference, and any of 170 for SEQ and for CNT
        "numbers of an advice" => 2 + 1 + 170 + 170,
        // written with and without a release, 3 endings; references of 1 to 14 bytes
        "UNH of an advice" => 2 * 3 + 14,
        "faults of an advice" => 1,
        _ => return None,
    })
}
