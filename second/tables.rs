//! Messages for rules that are small enough to try in every combination: parties, CUX, PRC, amounts,
//! numbers, currencies, qualifiers, UNH, and every tag after every place of a full message. Those of debit
//! advices are in `tables_advice.rs`.

use crate::inputs::{full_message, full_with};
use crate::kinds::Kind;
use crate::make::{self, Profile, Segment};
use crate::random::Random;
use crate::tables_advice;

/// A name and its messages.
pub type Table = (&'static str, Vec<Vec<u8>>);

/// All lists of up to `most` of these.
pub fn lists(of: &[&str], most: usize) -> Vec<String> {
    let mut all = vec![String::new()];
    let mut last = all.clone();
    for _ in 0..most {
        last = last.iter().flat_map(|l| of.iter().map(move |o| format!("{l}{o}"))).collect();
        all.extend(last.clone());
    }
    all
}

/// A message with one order of one payment; the parts that the tables change come in as text.
struct Parts<'a> {
    moa: &'a str,
    cux: &'a str,
    level_b: &'a str,
    sg10: &'a str,
    payment_moa: &'a str,
    level_c: &'a str,
    details: &'a str,
}

const GOOD: Parts = Parts {
    moa: "9:1:EUR",
    cux: "",
    level_b: "FII+OR+1:N'",
    sg10: "",
    payment_moa: "9:1:EUR",
    level_c: "NAD+BE'",
    details: "",
};

fn with(parts: &Parts) -> Vec<u8> {
    let Parts { moa, cux, level_b, sg10, payment_moa, level_c, details } = parts;
    whole(
        &format!("LIN+1'DTM'RFF'MOA+{moa}'{cux}{level_b}{sg10}SEQ++1'MOA+{payment_moa}'RFF'{level_c}{details}"),
        "CNT+2:1'",
    )
}

/// Puts orders and CNT between header and trailer.
fn whole(orders: &str, cnt: &str) -> Vec<u8> {
    let body = format!("UNH+1+PAYMUL:D:96A:UN'BGM'DTM'{orders}{cnt}");
    let count = body.matches('\'').count() + 1;
    format!("{body}UNT+{count}+1'").into_bytes()
}

pub fn tables(random: &mut Random) -> Vec<Table> {
    let full = [full_message(random, Kind::Paymul, false), full_message(random, Kind::Paymul, true)];
    let mut all = vec![
        ("level B parties", level_b()),
        ("level C parties", level_c()),
        ("CUX", exchange()),
        ("PRC", details()),
        ("amounts", amounts()),
        ("currencies and qualifiers", codes()),
        ("numbers", numbers()),
        ("UNH", headers()),
        ("tags", tags(random, Kind::Paymul, &full)),
    ];
    all.extend(tables_advice::tables(random));
    all
}

fn level_b() -> Vec<Vec<u8>> {
    let mut all = Vec::new();
    for institution in ["FII+OR", "FII+BF", "FII", ""] {
        for holder in ["", "+1", "+1:N", "+1::N", "+:N:N", "+1:::N", "++:N", "+1: "] {
            for parties in lists(&["NAD+PL'", "NAD+OY'", "NAD+XX'"], 3) {
                let end = if institution.is_empty() { "" } else { "'" };
                let text = format!("{institution}{holder}{end}{parties}");
                if !institution.is_empty() || holder.is_empty() {
                    all.push(with(&Parts { level_b: &text, ..GOOD }));
                }
            }
        }
    }
    all
}

fn level_c() -> Vec<Vec<u8>> {
    let mut all = Vec::new();
    for institutions in lists(&["FII+BF+1:N'", "FII+BF+1'", "FII+BF+1::N'", "FII+I1+1:N'"], 3) {
        for parties in lists(&["NAD+PE'", "NAD+BE'", "NAD+RV'"], 3) {
            let text = format!("{institutions}{parties}");
            all.push(with(&Parts { level_c: &text, ..GOOD }));
        }
    }
    all
}

fn exchange() -> Vec<Vec<u8>> {
    let mut all = Vec::new();
    for qualifier in ["9", "57"] {
        let moa = format!("{qualifier}:1:EUR");
        let parts = Parts { moa: &moa, payment_moa: &moa, ..GOOD };
        all.push(with(&parts));
        for first in ["2", "3", ""] {
            for source in ["EUR", "USD", ""] {
                for first_base in ["", "1", "100", "1000", "10"] {
                    for second in ["3", "2"] {
                        for target in ["USD", "EUR", "usd", ""] {
                            for second_base in ["", "1", "7"] {
                                for rate in ["", "0.9"] {
                                    let cux = format!(
                                        "CUX+{first}:{source}::{first_base}+{second}:{target}::{second_base}+{rate}'"
                                    );
                                    all.push(with(&Parts { cux: &cux, ..parts }));
                                }
                            }
                        }
                    }
                }
            }
        }
    }
    all
}

fn details() -> Vec<Vec<u8>> {
    let mut all = Vec::new();
    for code in ["8", "9", "10", "11", "12", "", "08"] {
        for texts in [0, 1, 5, 6] {
            for documents in [0, 1, 2] {
                for deeper in ["", "FTX'", "AJT'MOA'FTX'"] {
                    for sg23 in ["", "GIS'", "GIS'MOA'"] {
                        for sg10 in ["", "PRC+11'FTX'"] {
                            let text = format!(
                                "PRC+{code}'{}{}{deeper}{sg23}",
                                "FTX'".repeat(texts),
                                "DOC'".repeat(documents)
                            );
                            all.push(with(&Parts { sg10, details: &text, ..GOOD }));
                        }
                    }
                }
            }
        }
    }
    all
}

fn amounts() -> Vec<Vec<u8>> {
    let mut texts = lists(&["0", "1", "9", ",", ".", "-"], 4);
    for whole in ["1", "0", "9", "10", "00"] {
        for length in 10..=14 {
            for fraction in ["", ",", ",0", ".9", ",99", ".999", ",9999", ".0000"] {
                texts.push(format!("{whole}{}{fraction}", "9".repeat(length - whole.len())));
            }
        }
    }
    texts.push("9".repeat(30));
    texts.push("0".repeat(30));
    texts.push(format!("1,{}", "0".repeat(30)));
    texts.extend([",9999", ".0000", ",5000", "-,50", "0,-5"].map(String::from));
    texts.push(format!(",{}", "0".repeat(30)));
    let mut all = Vec::new();
    for text in texts {
        let moa = format!("9:{text}:EUR");
        all.push(with(&Parts { moa: &moa, payment_moa: &moa, ..GOOD }));
        if text.len() > 3 {
            all.push(with(&Parts { moa: &moa, ..GOOD }));
            all.push(with(&Parts { payment_moa: &moa, ..GOOD }));
        }
        if text.starts_with([',', '.']) {
            // against the same with a 0 before the mark, and with a 1
            for digit in [0, 1] {
                let other = format!("9:{digit}{text}:EUR");
                all.push(with(&Parts { moa: &moa, payment_moa: &other, ..GOOD }));
                all.push(with(&Parts { moa: &other, payment_moa: &moa, ..GOOD }));
            }
        }
    }
    all
}

fn codes() -> Vec<Vec<u8>> {
    let mut all = Vec::new();
    let currencies = lists(&["A", "Z", "@", "[", "a", "1"], 4);
    for currency in &currencies {
        let moa = format!("9:1:{currency}");
        all.push(with(&Parts { moa: &moa, payment_moa: &moa, ..GOOD }));
    }
    let qualifiers = lists(&["9", "5", "7", "0"], 3);
    for qualifier in &qualifiers {
        let moa = format!("{qualifier}:1:EUR");
        all.push(with(&Parts { moa: &moa, payment_moa: &moa, ..GOOD }));
        all.push(with(&Parts { payment_moa: &moa, ..GOOD }));
        all.push(with(&Parts { moa: &moa, ..GOOD }));
    }
    for currency in ["EUR", "USD", "eur", "", "EURO", "EU", "EUR "] {
        let moa = format!("9:1:{currency}");
        all.push(with(&Parts { payment_moa: &moa, ..GOOD }));
        all.push(with(&Parts { moa: &moa, ..GOOD }));
    }
    all
}

/// Every short text of digits and others, and numbers beyond the machine's.
pub fn number_texts() -> Vec<String> {
    let mut texts = lists(&["0", "1", "2", " ", "a"], 3);
    for long in ["1", "2"] {
        texts.push(format!("{}{long}", "0".repeat(29)));
        texts.push(format!("{long}{}", "0".repeat(29)));
    }
    for power in [16, 31, 32, 63, 64] {
        for number in [1u128, 2] {
            texts.push(((1u128 << power) + number).to_string());
        }
    }
    texts
}

/// LIN and SEQ numbers, UNT's and CNT's counts.
fn numbers() -> Vec<Vec<u8>> {
    let payment = |n: &str| format!("SEQ++{n}'MOA+9:1:EUR'RFF'NAD+BE'");
    let order =
        |n: &str, total: usize, payments: &str| format!("LIN+{n}'DTM'RFF'MOA+9:{total}:EUR'FII+OR+1:N'{payments}");
    let mut all = Vec::new();
    for text in &number_texts() {
        let (one, two) = (payment("1"), payment("2"));
        let text = text.as_str();
        all.push(whole(&order(text, 1, &one), "CNT+2:1'"));
        all.push(whole(&(order("1", 1, &one) + &order(text, 1, &one)), "CNT+2:2'"));
        all.push(whole(&order("1", 1, &payment(text)), "CNT+2:1'"));
        all.push(whole(&order("1", 2, &(payment("1") + &payment(text))), "CNT+2:1'"));
        all.push(whole(&(order("1", 2, &(one.clone() + &two)) + &order("2", 1, &payment(text))), "CNT+2:2'"));
        all.push(whole(&order("1", 1, &one), &format!("CNT+2:{text}'")));
        all.push(whole(&order("1", 1, &one), &format!("CNT+39:{text}'CNT+2:{text}'")));
        all.push(whole(&order("1", 1, &one), &format!("CNT+{text}:1'")));
        all.push(whole(&(order("1", 1, &one) + &order("2", 1, &one)), &format!("CNT+2:2'CNT+{text}:{text}'")));
        // UNT: count, then reference
        let good = String::from_utf8(with(&GOOD)).unwrap();
        all.push(good.replace("UNT+14+1'", &format!("UNT+{text}+1'")).into_bytes());
        all.push(good.replace("UNT+14+1'", &format!("UNT+14+{text}'")).into_bytes());
        all.push(good.replace("UNT+14+1'", &format!("UNT+14:{text}+1:{text}+{text}'")).into_bytes());
    }
    all
}

fn headers() -> Vec<Vec<u8>> {
    let good = String::from_utf8(with(&GOOD)).unwrap();
    let mut all = Vec::new();
    for length in 0..=16 {
        let reference = "R".repeat(length);
        all.push(
            good.replace("UNH+1+", &format!("UNH+{reference}+"))
                .replace("UNT+14+1'", &format!("UNT+14+{reference}'"))
                .into_bytes(),
        );
    }
    for kind in ["PAYMUL", "PAYMUX", "paymul", "", "PAYMULL", "DEBMUL"] {
        for version in ["D", "d", "", "DD"] {
            for release in ["96A", "96B", "", "96"] {
                for agency in ["UN", "", "UNO"] {
                    for more in ["", ":FUN01G", "+X", ":X+X"] {
                        all.push(
                            good.replace("PAYMUL:D:96A:UN", &format!("{kind}:{version}:{release}:{agency}{more}"))
                                .into_bytes(),
                        );
                    }
                }
            }
        }
    }
    all
}

/// For full messages, a bare one and one with every row at its limit: each tag of the chart, and some others,
/// after each of its beginnings, then UNT.
pub fn tags(random: &mut Random, kind: Kind, full: &[Vec<Segment>]) -> Vec<Vec<u8>> {
    let chart = kind.chart();
    let mut known: Vec<&str> = chart.rows().iter().map(|r| r.2).collect();
    known.sort();
    known.dedup();
    known.retain(|t| *t != "UNT");
    known.extend(["", "XXX", "UNZ", "lin", "LINE", "LI"]);
    let one = Profile { optional: 0, at_limit: 0, orders: 1, payments: 1, odd_text: 0, no_whole: 0 };
    let bare = make::message(random, kind, one);
    let limits = full_with(random, kind, false, Profile { optional: 100, at_limit: 100, ..one });
    let mut all = Vec::new();
    for message in [&[bare, limits], full].concat() {
        let message: Vec<&str> = message.iter().map(|s| chart.tag_of(s.row)).collect();
        // of a long message, some of the beginnings
        let step = message.len() / 150 + 1;
        for length in (1..message.len()).filter(|l| l % step == 0 || *l < 60) {
            let beginning: String = message[1..length].iter().map(|t| format!("{t}'")).collect();
            let beginning = format!("UNH+1+{}:D:96A:UN'{beginning}", kind.name());
            for tag in &known {
                all.push(format!("{beginning}{tag}'UNT'").into_bytes());
            }
            all.push(format!("{beginning}UNT'").into_bytes());
        }
    }
    all
}
