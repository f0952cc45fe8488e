//! A chart of a message type, and placing a message's tags on it.

/// Row, name, tag (of a group: that of its first segment), row of the group that holds it (0 for the
/// message itself), status, number of repeats.
pub type Row = (u16, &'static str, &'static str, u16, char, u32);

/// A place on the chart: the open rows from the message's own down to the segment placed last, each with
/// the number of times that it stands so far in this occurrence of the group that holds it.
type Place = Vec<(u16, u32)>;

/// A chart to place tags on: that of a type, or another one (the tests try small ones).
pub struct Chart {
    rows: Vec<Row>,
    /// For each group, and 0 for the message, the rows that it holds.
    held: Vec<Vec<u16>>,
}

impl Chart {
    pub fn of(rows: &[Row]) -> Chart {
        let held = (0..=rows.len() as u16).map(|g| rows.iter().filter(|r| r.3 == g).map(|r| r.0).collect());
        Chart { rows: rows.to_vec(), held: held.collect() }
    }

    pub fn rows(&self) -> &[Row] {
        &self.rows
    }

    fn row(&self, number: u16) -> &Row {
        &self.rows[number as usize - 1]
    }

    /// The rows that a group holds, in chart order. 0 is the message.
    pub fn held(&self, group: u16) -> &[u16] {
        &self.held[group as usize]
    }

    pub fn is_group(&self, number: u16) -> bool {
        !self.held(number).is_empty()
    }

    /// The group that holds a row; 0 is the message.
    pub fn group_of(&self, number: u16) -> u16 {
        self.row(number).3
    }

    /// M and R.
    pub fn required(&self, number: u16) -> bool {
        matches!(self.row(number).4, 'M' | 'R')
    }

    /// N.
    pub fn never(&self, number: u16) -> bool {
        self.row(number).4 == 'N'
    }

    /// The number of times that a row may stand in one occurrence of the group that holds it.
    pub fn repeats(&self, number: u16) -> usize {
        self.row(number).5 as usize
    }

    pub fn tag_of(&self, number: u16) -> &'static str {
        self.row(number).2
    }

    /// The rows after this one in the group that holds it.
    fn later(&self, number: u16) -> &[u16] {
        let siblings = &self.held[self.row(number).3 as usize];
        let at = siblings.iter().position(|r| *r == number).unwrap();
        &siblings[at + 1..]
    }

    /// Opens a row, which now stands for the `count`th time, with a segment of this tag: the segment's
    /// row and its place below `outer`. A group is opened by its first segment.
    fn opened(&self, outer: &[(u16, u32)], number: u16, count: u32, tag: &[u8]) -> Option<(u16, Place)> {
        let (_, _, opening, _, status, repeats) = *self.row(number);
        if status == 'N' || count > repeats || opening.as_bytes() != tag {
            return None;
        }
        let mut place = outer.to_vec();
        place.push((number, count));
        let mut placed = number;
        if let Some(first) = self.held[number as usize].first() {
            placed = *first;
            place.push((placed, 1));
        }
        Some((placed, place))
    }

    /// Every row that the next segment, of this tag, may have, with the place that it then stands at.
    /// Nothing required is jumped over, and no row stands more often than it may; so from each place some
    /// message can be finished, by what is still required.
    fn next(&self, place: &Place, tag: &[u8]) -> Vec<(u16, Place)> {
        let mut all = Vec::new();
        for level in (0..place.len()).rev() {
            let (number, count) = place[level];
            let outer = &place[..level];
            // the same row again (a group's first segment stands once: its row has 1 repeat)
            all.extend(self.opened(outer, number, count + 1, tag));
            // or a later row of the same group
            for later in self.later(number) {
                all.extend(self.opened(outer, *later, 1, tag));
                if self.required(*later) {
                    return all;
                }
            }
            // or this occurrence of the group is over
        }
        all
    }

    /// Whether the message may end here: nothing required is missing in any group that is open.
    fn complete(&self, place: &Place) -> bool {
        place.iter().all(|(number, _)| !self.later(*number).iter().any(|r| self.required(*r)))
    }

    /// The reading of these tags: the placement whose list of rows comes first in dictionary order. Where
    /// there is none: the first segment (from 1) such that with the segments up to and including it no
    /// message allowed by the chart can begin.
    ///
    /// All possible placements of the segments so far are kept side by side, in the dictionary order of
    /// their lists of rows. (A list of rows says all of a placement, so no place is met twice.)
    pub fn reading(&self, tags: &[Vec<u8>]) -> Result<Vec<u16>, usize> {
        // for each segment: the rows that it may have, each with the index of the placement that it extends
        let mut steps: Vec<Vec<(u16, usize)>> = Vec::new();
        let mut places: Vec<Place> = Vec::new();
        for (i, tag) in tags.iter().enumerate() {
            let mut step = Vec::new();
            let mut new_places = Vec::new();
            if i == 0 {
                // the message is a group, opened by UNH
                if let Some((placed, place)) = self.opened(&[], self.held[0][0], 1, tag) {
                    step.push((placed, 0));
                    new_places.push(place);
                }
            }
            for (before, place) in places.iter().enumerate() {
                let mut next = self.next(place, tag);
                next.sort();
                for (placed, place) in next {
                    step.push((placed, before));
                    new_places.push(place);
                }
            }
            if new_places.is_empty() {
                return Err(i + 1);
            }
            steps.push(step);
            places = new_places;
        }
        let Some(mut at) = places.iter().position(|p| self.complete(p)) else {
            // cannot happen where the last tag is UNT: its row is the chart's last
            return Err(tags.len() + 1);
        };
        let mut rows = Vec::new();
        for step in steps.iter().rev() {
            let (placed, before) = step[at];
            rows.push(placed);
            at = before;
        }
        rows.reverse();
        Ok(rows)
    }
}
