//! Document 01's rules with document 02's changes, written from the documents alone, over sorted lists of
//! intervals. The comments are the documents' own words.

use crate::areas::Area;
use crate::ffi::Outcome;

/// The largest width, height and allowance.
pub const LIMIT: u64 = 64;
pub const FLASH_ROOM: usize = 256;
pub const MARK_ROOM: usize = 128;

/// An interval runs from a left line to a right line, and holds the columns between them. Intervals are
/// ordered by left line, then by right line.
#[derive(Clone, Copy, Debug, PartialEq, Eq, PartialOrd, Ord)]
pub struct Interval {
    pub left: usize,
    pub right: usize,
}

pub fn interval(left: usize, right: usize) -> Interval {
    Interval { left, right }
}

impl Interval {
    pub fn columns(self) -> std::ops::Range<usize> {
        self.left..self.right
    }

    pub fn holds(self, column: usize) -> bool {
        self.left <= column && column < self.right
    }

    pub fn contains(self, other: Interval) -> bool {
        self.left <= other.left && other.right <= self.right
    }

    /// From the greater left line to the lesser right line, if that is not empty.
    pub fn meet(self, other: Interval) -> Option<Interval> {
        let meet = interval(self.left.max(other.left), self.right.min(other.right));
        (meet.left < meet.right).then_some(meet)
    }
}

/// A set of intervals: sorted, each once.
pub type Set = Vec<Interval>;

fn as_set(mut intervals: Vec<Interval>) -> Set {
    intervals.sort();
    intervals.dedup();
    intervals
}

/// The slices of a row: runs of copper squares that cannot be made longer.
pub fn slices(area: &Area, row: usize) -> Vec<Interval> {
    let copper = |column: usize| column < area.width && area.copper(column, row);
    let mut found = Vec::new();
    let mut column = 0;
    while column < area.width {
        let end = (column..).find(|&c| !copper(c)).unwrap();
        if column < end {
            found.push(interval(column, end));
        }
        column = end + 1;
    }
    found
}

/// Each slice's interval once, however many rows show it.
pub fn starting_set(area: &Area) -> Set {
    as_set((0..area.height).flat_map(|row| slices(area, row)).collect())
}

/// Each of the bracket's columns lies in at least two of the set's intervals that lie wholly inside it.
pub fn dependent(set: &[Interval], bracket: Interval) -> bool {
    let inside = |i: &&Interval| bracket.contains(**i);
    bracket.columns().all(|column| set.iter().filter(inside).filter(|i| i.holds(column)).take(2).count() == 2)
}

/// The minimal bracket with the least right line, by nested search: of the dependent brackets with the
/// least right line that has any, the one with the greatest left line has no dependent one inside.
pub fn least_minimal(set: &[Interval], width: usize) -> Option<Interval> {
    (1..=width).find_map(|right| (0..right).rev().map(|left| interval(left, right)).find(|&b| dependent(set, b)))
}

/// The same by the definitions: of all dependent brackets those that contain no smaller one, and of
/// these the one with the least right line.
pub fn least_minimal_by_definition(set: &[Interval], width: usize) -> Option<Interval> {
    let brackets = (0..width).flat_map(|left| (left + 1..=width).map(move |right| interval(left, right)));
    let dependent: Vec<Interval> = brackets.filter(|&bracket| dependent(set, bracket)).collect();
    let minimal = |b: &Interval| !dependent.iter().any(|&d| d != *b && b.contains(d));
    dependent.iter().copied().filter(minimal).min_by_key(|bracket| bracket.right)
}

/// Take the set's intervals inside the bracket that no other one inside it properly contains, ordered
/// by left line. With one such interval, drop it. With several, drop them all and add the meet of each
/// neighbouring pair.
pub fn reduce(set: &[Interval], bracket: Interval) -> Set {
    let inside: Vec<Interval> = set.iter().copied().filter(|&i| bracket.contains(i)).collect();
    let outermost: Vec<Interval> =
        inside.iter().copied().filter(|&i| !inside.iter().any(|&j| j != i && j.contains(i))).collect();
    let kept = set.iter().copied().filter(|i| !outermost.contains(i));
    let meets = outermost.windows(2).filter_map(|pair| pair[0].meet(pair[1]));
    as_set(kept.chain(meets).collect())
}

/// While some bracket is dependent, reduce the minimal bracket with the least right line.
pub fn final_set(start: &[Interval], width: usize) -> Set {
    let mut set = start.to_vec();
    while let Some(bracket) = least_minimal(&set, width) {
        set = reduce(&set, bracket);
    }
    set
}

/// All rows that are copper in every column of the interval, as bottom and top.
pub fn heights(area: &Area, of: Interval) -> (usize, usize) {
    let full = |row: &usize| of.columns().all(|column| area.copper(column, *row));
    let rows: Vec<usize> = (0..area.height).filter(full).collect();
    let (bottom, top) = (rows[0], rows[rows.len() - 1]);
    assert_eq!(rows.len(), top - bottom + 1, "the rows of {of:?} are not one run");
    (bottom, top)
}

/// First column, last column, bottom row, top row.
pub type Flash = [usize; 4];

/// Each interval of the final set gives one flash, listed by first column, then by last column.
pub fn flashes(area: &Area) -> Vec<Flash> {
    let flash = |of: Interval| {
        let (bottom, top) = heights(area, of);
        [of.left, of.right - 1, bottom, top]
    };
    let mut list: Vec<Flash> = final_set(&starting_set(area), area.width).into_iter().map(flash).collect();
    list.sort();
    list
}

/// Marks use the lowest row that shows the interval.
fn mark_row(area: &Area, of: Interval) -> usize {
    (0..area.height).find(|&row| slices(area, row).contains(&of)).expect("some row shows an interval of S")
}

/// Column and row of each mark, listed by column.
pub fn marks(area: &Area) -> Vec<(usize, usize)> {
    let mut left = starting_set(area);
    let mut marks = Vec::new();
    while !left.is_empty() {
        let last = final_set(&left, area.width);
        let held_once = |column: &usize| last.iter().filter(|i| i.holds(*column)).count() == 1;
        let column = (0..area.width).find(held_once).expect("a set without dependence has such a column");
        // the least left line, then the least right line: the first in the set's order
        let shown = *left.iter().find(|i| i.holds(column)).expect("some interval holds a column of the final set");
        marks.push((column, mark_row(area, shown)));
        left.retain(|i| !i.holds(column));
    }
    marks.sort();
    marks
}

/// The copper number counts the raster's copper squares, each once.
pub fn copper_number(area: &Area) -> u64 {
    area.squares().filter(|&(column, row)| area.copper(column, row)).count() as u64
}

/// The flashed area: the sum of flash areas.
pub fn flashed_area(flashes: &[Flash]) -> u64 {
    flashes.iter().map(|[first, last, bottom, top]| ((last - first + 1) * (top - bottom + 1)) as u64).sum()
}

/// The cover's outcome, and what it writes at the beginning of the two rooms.
#[derive(Clone, Debug, PartialEq, Eq)]
pub struct Covered {
    pub outcome: Outcome,
    pub flashes: Vec<u8>,
    pub marks: Vec<u8>,
}

/// A place is named only for some answers.
pub type Refusal = (u64, u64, u64);

/// The refusals 1 and 2, and the area if neither applies.
pub fn sized(width: u64, height: u64, raster: &[u8]) -> Result<Area, Refusal> {
    let within = |n: u64| (1..=LIMIT).contains(&n);
    if !within(width) || !within(height) {
        return Err((1, 0, 0));
    }
    if raster.len() as u64 != width * height {
        return Err((2, 0, 0));
    }
    Ok(Area { width: width as usize, height: height as usize, raster: raster.to_vec() })
}

/// The refusal 7: a raster byte not 0 or 1; column, row of the first in raster order.
pub fn bytes_checked(area: &Area) -> Result<(), Refusal> {
    match area.raster.iter().position(|&byte| byte > 1) {
        Some(at) => Err((7, (at % area.width) as u64, (at / area.width) as u64)),
        None => Ok(()),
    }
}

/// The refusal 8: lowest such column; its lowest empty square with copper both below and above.
fn columns_checked(area: &Area) -> Result<(), Refusal> {
    for column in 0..area.width {
        let rows: Vec<usize> = (0..area.height).filter(|&row| area.copper(column, row)).collect();
        if let Some(pair) = rows.windows(2).find(|pair| pair[1] != pair[0] + 1) {
            return Err((8, column as u64, pair[0] as u64 + 1));
        }
    }
    Ok(())
}

/// The checks of the cover before 9: 1, 2, 3, 4, 6, 7, 8.
pub fn checked(numbers: (u64, u64, u64), raster: &[u8], flash_room: usize, mark_room: usize) -> Result<Area, Refusal> {
    let (width, height, allowance) = numbers;
    let area = sized(width, height, raster)?;
    if flash_room < FLASH_ROOM {
        return Err((3, 0, 0));
    }
    if mark_room < MARK_ROOM {
        return Err((4, 0, 0));
    }
    if allowance > LIMIT {
        return Err((6, 0, 0));
    }
    bytes_checked(&area)?;
    columns_checked(&area)?;
    Ok(area)
}

pub fn cover(numbers: (u64, u64, u64), raster: &[u8], flash_room: usize, mark_room: usize) -> Covered {
    let area = match checked(numbers, raster, flash_room, mark_room) {
        Ok(area) => area,
        Err((answer, place_x, place_y)) => {
            let outcome = Outcome { answer, place_x, place_y, ..Outcome::default() };
            return Covered { outcome, flashes: Vec::new(), marks: Vec::new() };
        }
    };
    let (flashes, marks) = (flashes(&area), marks(&area));
    let record = |mark: &(usize, usize)| [mark.0 as u8, mark.1 as u8];
    if flashes.len() as u64 > numbers.2 {
        let first = numbers.2 as usize + 1;
        let outcome = Outcome { answer: 9, marks: first as u64, ..Outcome::default() };
        return Covered { outcome, flashes: Vec::new(), marks: marks[..first].iter().flat_map(record).collect() };
    }
    let outcome = Outcome {
        flashes: flashes.len() as u64,
        marks: marks.len() as u64,
        copper: copper_number(&area),
        flashed: flashed_area(&flashes),
        ..Outcome::default()
    };
    Covered {
        outcome,
        flashes: flashes.iter().flatten().map(|&number| number as u8).collect(),
        marks: marks.iter().flat_map(record).collect(),
    }
}
