//! Cover, least number and independence over squares alone: no slices, no intervals, no rules.
//! The least number comes from an exhaustive search, so it is for areas of at most 64 squares.

use crate::areas::Area;

/// A rectangle of squares, all bounds included.
#[derive(Clone, Copy, Debug, PartialEq, Eq)]
pub struct Rectangle {
    pub first: usize,
    pub last: usize,
    pub bottom: usize,
    pub top: usize,
}

impl Rectangle {
    pub fn of_record(record: &[u8]) -> Rectangle {
        let at = |i: usize| record[i] as usize;
        Rectangle { first: at(0), last: at(1), bottom: at(2), top: at(3) }
    }

    pub fn holds(&self, (column, row): (usize, usize)) -> bool {
        self.first <= column && column <= self.last && self.bottom <= row && row <= self.top
    }

    pub fn squares(&self) -> impl Iterator<Item = (usize, usize)> + '_ {
        (self.bottom..=self.top).flat_map(move |row| (self.first..=self.last).map(move |column| (column, row)))
    }

    pub fn area(&self) -> usize {
        self.squares().count()
    }

    pub fn in_copper(&self, area: &Area) -> bool {
        self.last < area.width && self.top < area.height && self.squares().all(|(column, row)| area.copper(column, row))
    }
}

/// Every rectangle of the grid.
fn rectangles(area: &Area) -> impl Iterator<Item = Rectangle> {
    let (width, height) = (area.width, area.height);
    let pairs = |n: usize| (0..n).flat_map(move |a| (a..n).map(move |b| (a, b)));
    pairs(width)
        .flat_map(move |(first, last)| pairs(height).map(move |(bottom, top)| Rectangle { first, last, bottom, top }))
}

/// The copper squares, each once.
pub fn copper(area: &Area) -> impl Iterator<Item = (usize, usize)> + '_ {
    area.squares().filter(|&(column, row)| area.copper(column, row))
}

/// The longest run of copper in its row that holds a copper square: its first and last column.
pub fn slice_at(area: &Area, (column, row): (usize, usize)) -> (usize, usize) {
    let first = (0..=column).rev().take_while(|&c| area.copper(c, row)).last();
    let last = (column..area.width).take_while(|&c| area.copper(c, row)).last();
    (first.expect("copper"), last.expect("copper"))
}

/// Whether a row has this slice.
pub fn shows(area: &Area, row: usize, slice: (usize, usize)) -> bool {
    area.copper(slice.0, row) && slice_at(area, (slice.0, row)) == slice
}

/// The sum of the rectangles' areas.
pub fn flashed(list: &[Rectangle]) -> u64 {
    list.iter().map(|rectangle| rectangle.area() as u64).sum()
}

/// Whether some square lies in two rectangles of the list.
pub fn shares_a_square(list: &[Rectangle]) -> bool {
    list.iter().enumerate().any(|(i, a)| list[..i].iter().any(|b| b.squares().any(|square| a.holds(square))))
}

/// Whether the rectangles lie in the copper and together are the copper.
pub fn is_cover(area: &Area, list: &[Rectangle]) -> bool {
    list.iter().all(|rectangle| rectangle.in_copper(area))
        && copper(area).all(|square| list.iter().any(|rectangle| rectangle.holds(square)))
}

/// Whether no rectangle of copper squares holds both squares.
pub fn independent(area: &Area, a: (usize, usize), b: (usize, usize)) -> bool {
    // any rectangle that holds both holds the one that they span
    let spanned = Rectangle { first: a.0.min(b.0), last: a.0.max(b.0), bottom: a.1.min(b.1), top: a.1.max(b.1) };
    !spanned.in_copper(area)
}

/// The same by trying every rectangle.
pub fn independent_by_trying(area: &Area, a: (usize, usize), b: (usize, usize)) -> bool {
    !rectangles(area).any(|rectangle| rectangle.holds(a) && rectangle.holds(b) && rectangle.in_copper(area))
}

/// Whether the squares are copper and any two of them, by position in the list, are independent.
pub fn all_independent(area: &Area, squares: &[(usize, usize)]) -> bool {
    squares.iter().enumerate().all(|(i, &a)| {
        a.0 < area.width
            && a.1 < area.height
            && area.copper(a.0, a.1)
            && squares[..i].iter().all(|&b| independent(area, a, b))
    })
}

/// The lowest broken column and its lowest empty square with copper below and above.
pub fn broken_column(area: &Area) -> Option<(usize, usize)> {
    let between = |column: usize, row: usize| {
        !area.copper(column, row)
            && (0..row).any(|below| area.copper(column, below))
            && (row..area.height).any(|above| area.copper(column, above))
    };
    (0..area.width).find_map(|column| (0..area.height).find(|&row| between(column, row)).map(|row| (column, row)))
}

/// The least number of rectangles inside the copper whose union is the copper.
pub fn least_number(area: &Area) -> usize {
    assert!(area.raster.len() <= 64);
    let bit = |(column, row): (usize, usize)| 1u64 << (row * area.width + column);
    let mut masks: Vec<u64> = rectangles(area)
        .filter(|rectangle| rectangle.in_copper(area))
        .map(|rectangle| rectangle.squares().fold(0, |mask, square| mask | bit(square)))
        .collect();
    // a rectangle inside another one is never needed
    let all = masks.clone();
    masks.retain(|&small| !all.iter().any(|&large| large != small && large & small == small));
    let copper = masks.iter().fold(0, |mask, &rectangle| mask | rectangle);
    (0..).find(|&number| can_cover(&masks, copper, number)).unwrap()
}

/// Whether so many of the rectangles can cover what is left: some rectangle has to hold the square
/// that the fewest hold, and each of those is tried.
fn can_cover(masks: &[u64], left: u64, number: usize) -> bool {
    if left == 0 {
        return true;
    }
    if number == 0 {
        return false;
    }
    let squares = (0..64).map(|at| 1u64 << at).filter(|&square| left & square != 0);
    let holders = |square: u64| masks.iter().filter(move |&&mask| mask & square != 0);
    let rarest = squares.min_by_key(|&square| holders(square).count()).unwrap();
    masks.iter().any(|&mask| mask & rarest != 0 && can_cover(masks, left & !mask, number - 1))
}
