//! Debit advices in every combination: dates, references, numbers, UNH, several faults at once, and every
//! tag after every place of a full message.

use crate::inputs::full_message;
use crate::kinds::Kind;
use crate::random::Random;
use crate::tables::{lists, number_texts, tags, Table};

/// The segments of a line between its dates and its transactions.
const LINE: &str = "MOA+60:1:EUR'RFF+ACK:1'FII+OR+1'";

/// A transaction with a reference.
const TRANSACTION: &str = "SEQ++1'FII+BF'RFF+AIK:1'MOA+60:1'";

/// Puts lines between header and trailer.
fn whole(bgm: &str, lines: &str) -> Vec<u8> {
    let body = format!("UNH+1+DEBMUL:D:96A:UN'BGM+{bgm}'DTM+137:20020107:102'{lines}CNT+2:1'");
    let count = body.matches('\'').count() + 1;
    format!("{body}UNT+{count}+1'").into_bytes()
}

fn line(number: &str, dates: &str, transactions: &str) -> String {
    format!("LIN+{number}'{dates}{LINE}{transactions}")
}

fn good() -> String {
    String::from_utf8(whole("456", &line("1", "DTM+202'", TRANSACTION))).unwrap()
}

pub fn tables(random: &mut Random) -> Vec<Table> {
    let full = full_message(random, Kind::Debmul, false);
    vec![
        ("dates of an advice", dates()),
        ("odd dates of an advice", odd_dates()),
        ("references of an advice", references()),
        ("lines of an advice", two_lines()),
        ("numbers of an advice", numbers()),
        ("UNH of an advice", headers()),
        ("faults of an advice", several()),
        ("tags of an advice", tags(random, Kind::Debmul, &[full])),
    ]
}

/// What BGM's 1001 may look like. The first three are 342.
const BGMS: [&str; 11] = ["342", "342:X", "3?42", "456", "", "0342", "342 ", "34", "3422", ":342", "+342"];

/// Up to four dates at LIN under each BGM.
fn dates() -> Vec<Vec<u8>> {
    let codes = ["DTM+202:20020107:102'", "DTM+209'", "DTM+455'", "DTM+4?55+X'", "DTM+137'"];
    let mut all = Vec::new();
    for bgm in BGMS {
        for dates in lists(&codes, 3) {
            all.push(whole(bgm, &line("1", &dates, TRANSACTION)));
        }
        all.push(whole(bgm, &line("1", &codes[0].repeat(4), TRANSACTION)));
    }
    all
}

/// Codes near the right ones, alone and after a right one; and the same where no rule reads them.
fn odd_dates() -> Vec<Vec<u8>> {
    let mut all = Vec::new();
    for code in [
        "", "+202", "+:202", "++202", "+2022", "+20", "+0202", "+202 ", "+ 202", "+2?02", "+?202", "+208", "+210",
        "+36", "+454", "+4555", "+45", "+455 ", "+2O2", "+171", "+203", "+193", "+?+202", "+202:455", "+137:202",
    ] {
        let date = format!("DTM{code}'");
        for bgm in ["342", "456"] {
            all.push(whole(bgm, &line("1", &date, TRANSACTION)));
            all.push(whole(bgm, &line("1", &format!("DTM+209'{date}"), TRANSACTION)));
            // of SG5, SG9, SG10, SG11 and SG13
            let elsewhere = line("1", "DTM+202'", "").replace("RFF+ACK:1'", &format!("RFF+ACK:1'{date}"))
                + &format!("FCA+15'ALC+C'MOA'TAX+7'{date}SEQ++1'{date}FII+BF'RFF+AIK:1'{date}MOA'{date}");
            all.push(whole(bgm, &elsewhere));
        }
    }
    all
}

/// What LIN's 1229 may look like. The first four are 106.
const DETAILS: [&str; 12] =
    ["106", "1?06", "106:X", "106+107", "107", "", "0106", "106 ", "10", "1060", ":106", "+106"];

/// Up to three transactions under each of these, each with SG11 or not and with an RFF of SG13 or not; and as
/// many references as may stand, and one more.
fn references() -> Vec<Vec<u8>> {
    let transactions = [
        "SEQ++1'FII+BF'MOA+60:1'",
        TRANSACTION,
        "SEQ++1'FII+ZZZ'MOA+ZZZ'CUX'DTM'RFF+FX:1'",
        "SEQ++1'FII'FII'RFF'DTM'RFF'PAI'MOA'RFF'",
    ];
    let mut all = Vec::new();
    for details in DETAILS {
        let number = format!("1+{details}");
        for some in lists(&transactions, 3) {
            all.push(whole("456", &line(&number, "DTM+202'", &some)));
        }
        for count in [5, 6] {
            let some = format!("SEQ++1'FII+BF'{}MOA+60:1'", "RFF+AIK:1'".repeat(count));
            all.push(whole("456", &line(&number, "DTM+202'", &some)));
        }
    }
    all
}

/// Two lines, each with its own code and its own transactions.
fn two_lines() -> Vec<Vec<u8>> {
    let some = lists(&["SEQ++1'FII+ZZZ'MOA+ZZZ'", TRANSACTION], 2);
    let mut all = Vec::new();
    for (first, second) in [("106", "106"), ("106", "107"), ("107", "106"), ("", "107")] {
        for a in &some {
            for b in &some {
                let lines = line(&format!("1+{first}"), "DTM+202'", a) + &line(&format!("2+{second}"), "DTM+209'", b);
                all.push(whole("456", &lines));
            }
        }
    }
    all
}

/// LIN numbers, UNT's count and reference; SEQ numbers and counts of CNT, of which there is no rule.
fn numbers() -> Vec<Vec<u8>> {
    let mut all = Vec::new();
    for text in number_texts() {
        let one = |number: &str| line(number, "DTM+202'", TRANSACTION);
        all.push(whole("456", &one(&text)));
        all.push(whole("456", &(one("1") + &one(&text))));
        all.push(whole("456", &(one("1") + &one("2") + &one(&text))));
        all.push(good().replace("SEQ++1'", &format!("SEQ++{text}'")).into_bytes());
        all.push(good().replace("CNT+2:1'", &format!("CNT+2:{text}'")).into_bytes());
        all.push(good().replace("UNT+14+1'", &format!("UNT+{text}+1'")).into_bytes());
        all.push(good().replace("UNT+14+1'", &format!("UNT+14+{text}'")).into_bytes());
    }
    all
}

fn headers() -> Vec<Vec<u8>> {
    let mut all = Vec::new();
    for kind in ["DEBMUL", "PAYMUL", "DIRDEB", "CREMUL", "debmul", "", "DEBMULL", "DEBMU", "DEBMUL ", "DE?BMUL"] {
        for version in ["D", "d", ""] {
            for release in ["96A", "96B", ""] {
                for agency in ["UN", "", "UNO", "UN:FUN01G", "UN+X"] {
                    let named = format!("{kind}:{version}:{release}:{agency}");
                    all.push(good().replace("DEBMUL:D:96A:UN", &named).into_bytes());
                }
            }
        }
    }
    for length in 0..=16 {
        let reference = "R".repeat(length);
        let renamed = good().replace("UNH+1+", &format!("UNH+{reference}+"));
        all.push(renamed.replace("UNT+14+1'", &format!("UNT+14+{reference}'")).into_bytes());
    }
    all
}

/// Several faults at once, each in the first or the second line: 17, 18, 20, 30 and 31, and the numbers that do
/// not apply.
fn several() -> Vec<Vec<u8>> {
    let mut all = Vec::new();
    for faults in 0..256 {
        let has = |bit: u32| faults >> bit & 1 == 1;
        let one = |number: usize, lin: bool, date: bool, reference: bool| {
            let number = if lin { "7".to_string() } else { number.to_string() };
            let dates = if date { "DTM+202'DTM+203'" } else { "DTM+202'DTM+209'" };
            let rest = if reference { "SEQ++9'FII'MOA+9:x'" } else { TRANSACTION };
            line(&number, dates, &(TRANSACTION.to_string() + rest))
        };
        let lines = one(1, has(0), has(1), has(2)) + &one(2, has(3), has(4), has(5));
        let message = String::from_utf8(whole("456", &lines)).unwrap();
        let message = if has(6) { message.replace("UNT+", "UNT+0") } else { message };
        let unh = if has(7) { "UNH+2+" } else { "UNH+1+" };
        all.push(message.replace("UNH+1+", unh).into_bytes());
    }
    all
}
