//! Bytes to segments: service characters, segments, elements, components, values.
//! Written from document 01, "Bytes to segments".

/// An interchange has at most so many bytes (number 1).
pub const MOST_BYTES: usize = 1_048_576;

/// The service characters. A release of None means that there is none (UNA names a space).
#[derive(Clone, Copy, PartialEq, Eq, Debug)]
pub struct Service {
    pub component: u8,
    pub element: u8,
    pub mark: u8,
    pub release: Option<u8>,
    pub terminator: u8,
}

/// The service characters where there is no UNA.
pub const PLAIN: Service =
    Service { component: b':', element: b'+', mark: b',', release: Some(b'?'), terminator: b'\'' };

/// Whether the bytes begin with UNA.
pub fn has_una(bytes: &[u8]) -> bool {
    bytes.starts_with(b"UNA")
}

/// "lie in 0x21 to 0x7E and are no letter or digit"
pub fn fit(byte: u8) -> bool {
    (0x21..=0x7E).contains(&byte) && !byte.is_ascii_alphanumeric()
}

/// The service characters of an interchange; None where they break the rule or are cut short (number 2).
pub fn service(bytes: &[u8]) -> Option<Service> {
    if !has_una(bytes) {
        return Some(PLAIN);
    }
    if bytes.len() < 9 {
        return None;
    }
    let (component, element, mark, release, space, terminator) =
        (bytes[3], bytes[4], bytes[5], bytes[6], bytes[7], bytes[8]);
    let release = if release == b' ' { None } else { Some(release) };
    if ![component, element, terminator].into_iter().chain(release).all(fit) {
        return None;
    }
    if (mark != b',' && mark != b'.') || space != b' ' {
        return None;
    }
    // "Those present all differ."
    let present: Vec<u8> = [component, element, mark, terminator].into_iter().chain(release).collect();
    for i in 0..present.len() {
        if present[i + 1..].contains(&present[i]) {
            return None;
        }
    }
    Some(Service { component, element, mark, release, terminator })
}

/// Where a segment lies: its first byte, and the byte after its last one (its terminator, if finished).
#[derive(Clone, Copy, PartialEq, Eq, Debug)]
pub struct Span {
    pub start: usize,
    pub end: usize,
    pub finished: bool,
}

impl Span {
    /// The position after the segment, its terminator included.
    pub fn after(&self) -> usize {
        if self.finished {
            self.end + 1
        } else {
            self.end
        }
    }
}

/// The segments from a position on. `after_terminator` says that the position is to be read as though a
/// terminator stood just before it, so that CR and LF there are passed over.
pub fn spans(bytes: &[u8], from: usize, after_terminator: bool, service: Service) -> Vec<Span> {
    let is_break = |i: usize| bytes[i] == b'\r' || bytes[i] == b'\n';
    let mut list = Vec::new();
    let mut at = from;
    let mut passing = after_terminator;
    loop {
        while passing && at < bytes.len() && is_break(at) {
            at += 1;
        }
        if at >= bytes.len() {
            return list;
        }
        let start = at;
        while at < bytes.len() && bytes[at] != service.terminator {
            // a release makes the next byte plain data
            at += if Some(bytes[at]) == service.release { 2 } else { 1 };
        }
        let end = at.min(bytes.len());
        let finished = at < bytes.len();
        list.push(Span { start, end, finished });
        at = end + 1;
        passing = true;
    }
}

/// A segment's values: elements of components. Element 0 is the tag's own.
pub type Elements = Vec<Vec<Vec<u8>>>;

/// Takes a segment's bytes (no terminator) apart. A last release with no byte after it adds nothing.
pub fn elements(segment: &[u8], service: Service) -> Elements {
    let mut all: Elements = vec![vec![Vec::new()]];
    let mut i = 0;
    while i < segment.len() {
        let byte = segment[i];
        if Some(byte) == service.release {
            i += 1;
            if i < segment.len() {
                all.last_mut().unwrap().last_mut().unwrap().push(segment[i]);
            }
        } else if byte == service.element {
            all.push(vec![Vec::new()]);
        } else if byte == service.component {
            all.last_mut().unwrap().push(Vec::new());
        } else {
            all.last_mut().unwrap().last_mut().unwrap().push(byte);
        }
        i += 1;
    }
    all
}

/// The value of an element's component; "empty and absent are the same". Elements and components are
/// counted from 0 here: element 0 is the tag's own, so element 1 is the first after it.
pub fn value(elements: &Elements, element: usize, component: usize) -> &[u8] {
    match elements.get(element).and_then(|e| e.get(component)) {
        Some(v) => v,
        None => b"",
    }
}

/// The tag alone: the value of the first component.
pub fn tag(segment: &[u8], service: Service) -> Vec<u8> {
    let mut tag = Vec::new();
    let mut i = 0;
    while i < segment.len() {
        let byte = segment[i];
        if Some(byte) == service.release {
            i += 1;
            tag.extend(segment.get(i));
        } else if byte == service.element || byte == service.component {
            break;
        } else {
            tag.push(byte);
        }
        i += 1;
    }
    tag
}

/// Whether the span is a finished segment of this tag.
pub fn is(bytes: &[u8], span: &Span, service: Service, wanted: &[u8]) -> bool {
    span.finished && tag(&bytes[span.start..span.end], service) == wanted
}

/// Digits without leading zeros that say this number; 0 alone is allowed.
pub fn number_is(value: &[u8], number: usize) -> bool {
    value == number.to_string().as_bytes()
}

/// Three capitals.
pub fn three_capitals(value: &[u8]) -> bool {
    value.len() == 3 && value.iter().all(u8::is_ascii_uppercase)
}

/// An amount in thousandths, if it has the form: 1 to 12 digits, no leading zero unless the whole part
/// is 0, then optionally a comma or a dot and 1 to 3 digits. W-202: an empty whole part before a mark and
/// digits is 0.
pub fn amount(value: &[u8]) -> Option<u64> {
    let (whole, rest) = match value.iter().position(|b| *b == b',' || *b == b'.') {
        Some(0) => (b"0" as &[u8], Some(&value[1..])),
        Some(mark) => (&value[..mark], Some(&value[mark + 1..])),
        None => (value, None),
    };
    let digits = |v: &[u8]| v.iter().all(u8::is_ascii_digit);
    if whole.is_empty() || whole.len() > 12 || !digits(whole) || (whole[0] == b'0' && whole.len() > 1) {
        return None;
    }
    let mut thousandths = Vec::from(whole);
    if let Some(rest) = rest {
        if rest.is_empty() || rest.len() > 3 || !digits(rest) {
            return None;
        }
        thousandths.extend_from_slice(rest);
    }
    let after_mark = rest.map_or(0, |r| r.len());
    thousandths.extend(std::iter::repeat(b'0').take(3 - after_mark));
    Some(thousandths.iter().fold(0, |n, d| n * 10 + u64::from(d - b'0')))
}
