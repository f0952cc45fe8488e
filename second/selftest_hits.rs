//! Messages that are hit (W-213), written out: what the damage leaves, what is then found, and whether the claim holds.

use crate::hits::{messages, Answer, Hits, Mark, Stretch, Walked};
use crate::interchange::{open, Extent};
use crate::message::Lists;
use crate::selftest::{Tests, AMPLE};
use crate::syntax::MOST_BYTES;
use Mark::{Next, Whole};

/// The messages are 12..24, 24..36, 36..48 and 48..60. Of the first, the segment before the UNT ends at 19 and the UNT
/// at 23; of the others 12, 24 and 36 further.
const FOUR: &str = "UNB+:3++++R'UNH+1'A'UNT'UNH+2'B'UNT'UNH+3'C'UNT'UNH+4'D'UNT'UNZ'";
/// The first message is unclosed: 12..18. Then 18..30, 30..42 and 42..54.
const BARE: &str = "UNB+:3++++R'UNH+1'UNH+2'B'UNT'UNH+3'C'UNT'UNH+4'D'UNT'UNZ'";

fn near(from: usize, upto: usize, put: &str) -> Mark {
    Mark::Near(Stretch { from, upto, put: put.into() })
}

fn far(from: usize, upto: usize, put: &str) -> Mark {
    Mark::Far(Stretch { from, upto, put: put.into() })
}

fn struck(before: &str, marks: &[Mark]) -> Hits {
    Hits::new(before.as_bytes(), marks.to_vec(), vec![AMPLE; marks.len()])
}

/// What must come of it: the bytes, the number that opening gives, the messages found from 0, and how many whole ones
/// are found again. None for these: the premises do not hold, and neither does the claim.
struct Must<'a> {
    after: &'a str,
    opening: u32,
    found: &'a [(usize, usize)],
    again: Option<usize>,
}

fn strike(t: &mut Tests, name: &str, before: &str, marks: &[Mark], must: Must) {
    let hits = struck(before, marks);
    let [was, now] = hits.own_answers();
    let found: Vec<(usize, usize)> = now.found().iter().map(|e| (e.start, e.end)).collect();
    t.hold(&format!("hit, {name}: bytes"), hits.damaged == must.after.as_bytes());
    t.hold(&format!("hit, {name}: opening"), now.opening == must.opening);
    t.hold(&format!("hit, {name}: found {found:?}"), found == must.found);
    t.hold(&format!("hit, {name}: premises"), hits.allowed() == must.again.is_some());
    let again = hits.opens_alike().and_then(|()| hits.claim(&was, &now));
    t.hold(&format!("hit, {name}: {again:?}"), again.ok() == must.again);
}

pub fn run(t: &mut Tests) {
    both_forms(t);
    last_message(t);
    other_interchanges(t);
    every_stretch(t);
    premises(t);
    length(t);
    answers(t);
}

fn both_forms(t: &mut Tests) {
    let must = Must {
        after: "UNB+:3++++R'UNH+1'A?'UNT'X'B'UNT'UNH+3'C'UNT'UNH+4'D'UNT'UNZ'",
        opening: 0,
        found: &[(12, 33), (33, 45), (45, 57)],
        again: Some(2),
    };
    strike(t, "neighbours melt into one", FOUR, &[near(19, 19, "?"), near(24, 30, "X'"), Whole, Whole], must);
    let must = Must {
        after: "UNB+:3++++R'UNH+1'A'UNT'UNT'UNH+9'UNH+2'B'UNT'UNH+3'C'UNT'UNT'UNH+4'D'UNT'UNZ'",
        opening: 0,
        found: &[(12, 24), (28, 34), (34, 46), (46, 58), (62, 74)],
        again: Some(2),
    };
    let marks = [Whole, near(24, 24, "UNT'UNH+9'"), near(43, 43, "'UNT"), Whole];
    strike(t, "one becomes two, and one closes early", FOUR, &marks, must);
    let must = Must {
        after: "UNB+:3++++R'UNH+1'A'UNT?'UNH+2'B'UNT'UNH+3'C'UNT'UNH+4'D'UNT'UNZ'",
        opening: 0,
        found: &[(12, 37), (37, 49), (49, 61)],
        again: Some(2),
    };
    strike(t, "far, the next is taken in", FOUR, &[far(23, 23, "?"), Next, Whole, Whole], must);
    let must = Must {
        after: "UNB+:3++++R'?'UNH+2'B'UNT'UNH+3'C'UNT'UNH+4'D'UNT'UNZ'",
        opening: 0,
        found: &[(26, 38), (38, 50)],
        again: Some(2),
    };
    strike(t, "far, the next is lost", FOUR, &[far(12, 23, "?"), Next, Whole, Whole], must);
    let must = Must {
        after: "UNB+:3++++R'UNH+1'A'X'UNH+2'B'UNT'UNH+3'C'UNT'UNH+4'D'UNT'UNZ'",
        opening: 0,
        found: &[(12, 22), (22, 34), (34, 46), (46, 58)],
        again: Some(2),
    };
    strike(t, "far, the next is found", FOUR, &[far(20, 23, "X"), Next, Whole, Whole], must);
    let must = Must {
        after: "UNB+:3++++R'UNH+1'A?'UNT'?'UNH+3'C'UNT'UNH+4'D'UNT'UNZ'",
        opening: 0,
        found: &[(12, 39), (39, 51)],
        again: Some(1),
    };
    strike(t, "near, then far", FOUR, &[near(19, 19, "?"), far(24, 35, "?"), Next, Whole], must);
    let must = Must {
        after: "UNB+:3++++R'UNH+1'A'UNT?'UNH+2'B'UNT'?'UNT'UNH+4'D'UNT'UNZ'",
        opening: 0,
        found: &[(12, 37), (43, 55)],
        again: Some(1),
    };
    strike(t, "far, next, then near", FOUR, &[far(23, 23, "?"), Next, near(36, 43, "?"), Whole], must);
    let must = Must {
        after: "UNB+:3++++R'?'?'UNT'UNH+3'C'UNT'UNH+4'D'UNT'UNZ'",
        opening: 0,
        found: &[(20, 32), (32, 44)],
        again: Some(2),
    };
    strike(t, "far, then near", FOUR, &[far(12, 23, "?"), near(24, 31, "?"), Whole, Whole], must);
    let must = Must {
        after: "UNB+:3++++R'?'?'UNH+3'C'UNT'UNH+4'D'UNT'UNZ'",
        opening: 0,
        found: &[(28, 40)],
        again: Some(1),
    };
    strike(t, "far, then far", FOUR, &[far(12, 23, "?"), far(24, 35, "?"), Next, Whole], must);
}

fn last_message(t: &mut Tests) {
    let must = Must {
        after: "UNB+:3++++R'UNH+1'A'UNT'UNH+2'B'UNT'UNH+3'C'UNT'UNH+4'D'UNT?'UNZ'",
        opening: 4,
        found: &[(12, 24), (24, 36), (36, 48), (48, 65)],
        again: Some(3),
    };
    strike(t, "last, far, refused", FOUR, &[Whole, Whole, Whole, far(59, 59, "?")], must);
    let must = Must {
        after: "UNB+:3++++R'UNH+1'A'UNT'UNH+2'B'UNT'UNH+3'C'UNT'UNH+4'D'X'UNZ'",
        opening: 0,
        found: &[(12, 24), (24, 36), (36, 48), (48, 58)],
        again: Some(3),
    };
    strike(t, "last, far, opens", FOUR, &[Whole, Whole, Whole, far(56, 59, "X")], must);
    let must = Must {
        after: "UNB+:3++++R'UNH+1'A'UNT'UNH+2'B'UNT'UNH+3'C'UNT'UNH+4'UNZ?'UNT'UNZ'",
        opening: 0,
        found: &[(12, 24), (24, 36), (36, 48), (48, 63)],
        again: Some(3),
    };
    strike(t, "last, near", FOUR, &[Whole, Whole, Whole, near(54, 55, "UNZ?")], must);
}

fn other_interchanges(t: &mut Tests) {
    // a stray and a UNZ that is not the end; the second message is unclosed: 12..24, 26..36, 36..48, 50..62
    let before = "UNB+:3++++R'UNH+1'A'UNT'X'UNH+2'UNZ'UNH+3'C'UNT'\r\nUNH+4'D'UNT'UNZ'";
    let must = Must {
        after: "UNB+:3++++R'UNZ''UNT'X'UNH+2'UNZ'UNH+3'C'UNT'\r\n'UNT'UNZ'",
        opening: 0,
        found: &[(23, 33), (33, 45)],
        again: Some(2),
    };
    strike(t, "strays", before, &[near(12, 19, "UNZ'"), Whole, Whole, near(50, 57, "")], must);
    // the stray alone is taken in
    let must = Must {
        after: "UNB+:3++++R'UNH+1'A'UNT?'X'UNH+2'UNZ'UNH+3'C'UNT'\r\nUNH+4'D'UNT'UNZ'",
        opening: 0,
        found: &[(12, 27), (27, 37), (37, 49), (51, 63)],
        again: Some(2),
    };
    strike(t, "far before a stray", before, &[far(23, 23, "?"), Next, Whole, Whole], must);
    // other characters: ! releases and ? is data; then no release at all
    let before = "UNA:+,! ~UNB+:3++++R~UNH~UNT~UNH~UNT~UNH~UNT~UNZ~";
    let must = Must {
        after: "UNA:+,! ~UNB+:3++++R~UNH~UNT!~UNH~UNT~UNH~UNT~UNZ~",
        opening: 0,
        found: &[(21, 38), (38, 46)],
        again: Some(1),
    };
    strike(t, "another release", before, &[far(28, 28, "!"), Next, Whole], must);
    let must = Must {
        after: "UNA:+,! ~UNB+:3++++R~UNH~UNT?~UNH~UNT~UNH~UNT~UNZ~",
        opening: 0,
        found: &[(21, 30), (30, 38), (38, 46)],
        again: Some(1),
    };
    strike(t, "no release of its own", before, &[far(28, 28, "?"), Next, Whole], must);
    let before = "UNA:+,  'UNB+:3++++R'UNH'UNT'UNH'UNT'UNZ'";
    let must =
        Must { after: "UNA:+,  'UNB+:3++++R'UNH?'UNT'UNH'UNT'UNZ'", opening: 0, found: &[(30, 38)], again: Some(1) };
    strike(t, "without release", before, &[near(24, 24, "?"), Whole], must);
}

/// Every stretch that may be hit of each message, near and far, with each of some bytes put in.
fn every_stretch(t: &mut Tests) {
    let puts =
        ["", "?", "'", "?'", "X", "UNH'", "'UNH+9'", "'UNH'?", "UNT'", "'UNT'", "UNT?", "'UNZ'", "'\r\n", "UNA:+,? '"];
    let released = "UNB+:3++++R'X'UNH+1'A?'??'U?NT+?''\r\nUNH'UNT'UNT'\nUNH+3'UNZ'UNT'UNZ'";
    for before in [FOUR, BARE, released] {
        let all = messages(before.as_bytes(), &open(before.as_bytes()).ok().unwrap());
        for (i, message) in all.iter().enumerate() {
            let Some(trailer) = message.trailer.filter(|_| i == 0 || all[i - 1].trailer.is_some()) else { continue };
            let holds = |mark: Mark| {
                let mut marks = vec![Whole; all.len()];
                if let (Mark::Far(_), Some(next)) = (&mark, marks.get_mut(i + 1)) {
                    *next = Next;
                }
                marks[i] = mark;
                let hits = struck(before, &marks);
                let [was, now] = hits.own_answers();
                hits.allowed() && hits.opens_alike().is_ok() && hits.claim(&was, &now).is_ok()
            };
            let start = message.extent.start;
            let stretches =
                |most: usize| (start..=most).flat_map(move |upto| (start..=upto).map(move |from| (from, upto)));
            for put in puts {
                let near = stretches(trailer.before).all(|(from, upto)| holds(near(from, upto, put)));
                let far = stretches(trailer.unt).all(|(from, upto)| holds(far(from, upto, put)));
                t.hold(
                    &format!("hit, every stretch of message {} of {before}, {put}: {near} {far}", i + 1),
                    near && far,
                );
            }
        }
    }
}

/// Each premise is needed: without it the claim fails.
fn premises(t: &mut Tests) {
    let must = Must {
        after: "UNB+:3++++R'UNH+1'X'B'UNT'UNH+3'C'UNT'UNH+4'D'UNT'UNZ'",
        opening: 0,
        found: &[(12, 26), (26, 38), (38, 50)],
        again: None,
    };
    strike(t, "near, unclosed before", BARE, &[Whole, near(18, 24, "X'"), Whole, Whole], must);
    let must = Must {
        after: "UNB+:3++++R'UNH+1'X'UNH+3'C'UNT'UNH+4'D'UNT'UNZ'",
        opening: 0,
        found: &[(12, 20), (20, 32), (32, 44)],
        again: None,
    };
    strike(t, "far, unclosed before", BARE, &[Whole, far(18, 29, "X"), Next, Whole], must);
    let must = Must {
        after: "UNB+:3++++R'UNH+1'A'UNT?'UNH+2'B'UNT'UNH+3'C'UNT'UNH+4'D'UNT'UNZ'",
        opening: 0,
        found: &[(12, 37), (37, 49), (49, 61)],
        again: None,
    };
    strike(t, "far, and the next is claimed", FOUR, &[far(23, 23, "?"), Whole, Whole, Whole], must);
    let must = Must {
        after: "UNB+:3++++R'?'?'UNH+3'C'UNT'UNH+4'D'UNT'UNZ'",
        opening: 0,
        found: &[(28, 40)],
        again: None,
    };
    strike(t, "far twice, and the next is claimed", FOUR, &[far(12, 23, "?"), far(24, 35, "?"), Whole, Whole], must);
    let must =
        Must { after: "UNB+:3++++R'?'UNH+3'C'UNT'UNH+4'D'UNT'UNZ'", opening: 0, found: &[(26, 38)], again: None };
    strike(t, "past the UNT, over the next", FOUR, &[far(12, 35, "?"), Next, Whole, Whole], must);
    // the hit message itself is unclosed: 12..20, 20..32
    let before = "UNB+:3++++R'UNH+1'A'UNH+2'B'UNT'UNZ'";
    let must = Must { after: "UNB+:3++++R'UNH+1'A?'UNH+2'B'UNT'UNZ'", opening: 0, found: &[(12, 33)], again: None };
    strike(t, "itself unclosed", before, &[near(19, 19, "?"), Whole], must);
}

/// As long as an interchange may be, and one byte more.
fn length(t: &mut Tests) {
    let most = MOST_BYTES - FOUR.len();
    for (put, opening) in [(most, 0), (most + 1, 1)] {
        let hits = struck(FOUR, &[near(18, 18, &"X".repeat(put)), Whole, Whole, Whole]);
        let [was, now] = hits.own_answers();
        let again = if opening == 0 { Some(3) } else { None };
        t.hold(&format!("hit, {} bytes", hits.damaged.len()), now.opening == opening);
        t.hold("hit, long: premises", hits.allowed() == again.is_some());
        t.hold("hit, long: claim", hits.claim(&was, &now).ok() == again);
    }
}

/// A walk with these answers: from where, what was found, and the rest.
fn given(opening: u32, chain: &[(usize, Option<(usize, usize)>, u32)]) -> Walked<u32> {
    let answer = |&(at, found, rest): &(usize, Option<(usize, usize)>, u32)| {
        let found = found.map(|(start, end)| Extent { start, end });
        Answer { at, lists: AMPLE, found, rest }
    };
    let whole = |a: &(usize, Option<(usize, usize)>, u32)| a.2 == 1 || a.2 == 2;
    let alone = chain.iter().filter(|a| whole(a)).map(|&(_, found, rest)| (found.map_or(0, |f| f.0), found, rest));
    Walked { opening, chain: chain.iter().map(answer).collect(), alone: alone.map(|a| answer(&a)).collect() }
}

/// The claim on answers that are written out: the rest is 1 and 2 for the whole messages, 7 for others.
fn answers(t: &mut Tests) {
    let before = "UNB+:3++++R'UNH+1'A'UNT'UNH+2'B'UNT'UNH+3'C'UNT'UNZ'";
    let hits = struck(before, &[near(18, 19, "AAA"), Whole, Whole]);
    let was = given(0, &[(0, Some((12, 24)), 7), (24, Some((24, 36)), 1), (36, Some((36, 48)), 2), (48, None, 0)]);
    let good = [(0, Some((12, 26)), 7), (26, Some((26, 38)), 1), (38, Some((38, 50)), 2), (50, None, 0)];
    let claim = |now: Walked<u32>| hits.claim(&was, &now).is_ok();
    t.hold("hit, answers: good", claim(given(0, &good)));
    t.hold("hit, answers: refused", !claim(given(4, &good)));
    t.hold("hit, answers: fewer", !claim(given(0, &good[..3])));
    let others = [
        ("none in the hit one's place", true, vec![(0, Some((26, 38)), 1), good[2], good[3]]),
        ("a message ends late", false, vec![good[0], (26, Some((26, 39)), 1), (39, Some((39, 50)), 2), good[3]]),
        (
            "not moved",
            false,
            vec![(0, Some((12, 24)), 7), (24, Some((24, 36)), 1), (36, Some((36, 48)), 2), (48, None, 0)],
        ),
        ("answers exchanged", false, vec![good[0], (26, Some((26, 38)), 2), (38, Some((38, 50)), 1), good[3]]),
        ("one left out", false, vec![good[0], (26, Some((38, 50)), 2), good[3]]),
        ("one more between", false, vec![good[0], good[1], (38, Some((38, 38)), 7), good[2], good[3]]),
        ("one more at the end", false, vec![good[0], good[1], good[2], (50, Some((50, 51)), 7), (51, None, 0)]),
        ("another end", false, vec![good[0], good[1], good[2], (50, None, 4)]),
        ("a step left out", false, vec![good[0], (27, Some((26, 38)), 1), good[2], good[3]]),
    ];
    for (name, holds, chain) in others {
        t.hold(&format!("hit, answers: {name}"), claim(given(0, &chain)) == holds);
    }
    let mut now = given(0, &good);
    now.alone[1].rest = 1;
    t.hold("hit, answers: other from its start", !claim(now));
    let mut now = given(0, &good);
    now.chain[1].lists = Lists { rows: 1, ..AMPLE };
    t.hold("hit, answers: other lists", !claim(now));
}
