//! What `payreport` must print.

use crate::interchange::{close, open, walk, Step};
use crate::message::Lists;

pub const MOST_INPUT: usize = 32_768;
pub const LISTS: Lists = Lists { rows: 2_000, starts: 2_000, totals: 400 };

/// The report on standard input's bytes.
pub fn report(bytes: &[u8]) -> String {
    if bytes.len() > MOST_INPUT {
        "OPEN NO 1\n".to_string()
    } else {
        lines(bytes, LISTS)
    }
}

/// The lines for an interchange of any size, with lists of any length.
pub fn lines(bytes: &[u8], lists: Lists) -> String {
    if let Err(number) = open(bytes) {
        return format!("OPEN NO {number}\n");
    }
    let mut out = String::new();
    let (mut at, mut place, mut accepted) = (0, 0, 0);
    while let Step::Found(extent, report) = walk(bytes, at, lists) {
        place += 1;
        at = extent.end as u64;
        match report.fault {
            (0, _, _) => {
                accepted += 1;
                out += &format!("MSG {place} OK {} {} {}\n", report.segments, report.orders, report.payments);
            }
            (number, segment, offset) => out += &format!("MSG {place} NO {number} {segment} {offset}\n"),
        }
    }
    let closing = close(bytes);
    assert_eq!(place, closing.messages);
    out + &format!("END {place} {accepted} {} {}\n", closing.strays, closing.number)
}
