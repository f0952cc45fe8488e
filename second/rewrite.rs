//! Rewriting in plain service characters.

use crate::interchange::open;
use crate::syntax::*;

/// A segment's values without trailing empty components and elements.
pub fn without_trailing_empties(elements: &Elements) -> Elements {
    let mut all: Elements = elements.clone();
    for components in &mut all {
        while components.last().is_some_and(|c| c.is_empty()) {
            components.pop();
        }
    }
    while all.last().is_some_and(|e| e.is_empty()) {
        all.pop();
    }
    all
}

/// The plain bytes of one segment.
pub fn plain_segment(elements: &Elements) -> Vec<u8> {
    let mut out: Vec<u8> = Vec::new();
    for (e, components) in without_trailing_empties(elements).iter().enumerate() {
        if e > 0 {
            out.push(b'+');
        }
        for (c, value) in components.iter().enumerate() {
            if c > 0 {
                out.push(b':');
            }
            for byte in value {
                let begins = out.is_empty() && (*byte == b'\r' || *byte == b'\n');
                if b":+?'".contains(byte) || begins {
                    out.push(b'?');
                }
                out.push(*byte);
            }
        }
    }
    out.push(b'\'');
    out
}

/// The plain bytes of an interchange that opens, however long; or 1 to 4.
pub fn plain(bytes: &[u8]) -> Result<Vec<u8>, u32> {
    let opened = open(bytes)?;
    Ok(opened.spans.iter().flat_map(|s| plain_segment(&elements(&bytes[s.start..s.end], opened.service))).collect())
}

/// Rewriting into a room of this length: 1 to 4 as opening, 9 where the result is longer than the room or
/// than an interchange may be.
pub fn rewrite(bytes: &[u8], room: usize) -> Result<Vec<u8>, u32> {
    let plain = plain(bytes)?;
    if plain.len() > room || plain.len() > MOST_BYTES {
        Err(9)
    } else {
        Ok(plain)
    }
}
