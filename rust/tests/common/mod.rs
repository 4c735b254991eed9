//! Document 01's table, 'Areas to hold the program to', and its plus, with document 02's changes; and what holds of the marks of
//! any area.
#![allow(dead_code)]

use keekaboor_tests::areas::{any_area, Area, Job, Random};
use keekaboor_tests::ffi::Outcome;
use keekaboor_tests::search;

/// What the table says of a row: a cover with its flashes and marks, or a refusal.
pub enum Wanted {
    Cover { copper: u64, flashed: u64, flashes: Vec<[u8; 4]>, marks: Vec<[u8; 2]> },
    Short { marks: Vec<[u8; 2]> },
    Refused { answer: u64, x: u64, y: u64 },
}

pub struct Row {
    pub name: &'static str,
    pub job: Job,
    pub wanted: Wanted,
}

pub const STAIR: [(usize, usize); 3] = [(0, 1), (1, 2), (2, 3)];

fn row(name: &'static str, area: Area, allowance: u64, wanted: Wanted) -> Row {
    Row { name, job: Job { area, allowance }, wanted }
}

fn cover((copper, flashed): (u64, u64), flashes: &[[u8; 4]], marks: &[[u8; 2]]) -> Wanted {
    Wanted::Cover { copper, flashed, flashes: flashes.to_vec(), marks: marks.to_vec() }
}

/// Every row of the table; the names are the document's. Before a cover's flashes stand its copper number, the squares
/// of copper counted, and its flashed area, the sum of the flashes' areas.
pub fn rows() -> Vec<Row> {
    let columns = Area::of_columns;
    let cup = [(0, 2), (0, 0), (0, 2)];
    let stair = [[0, 0, 0, 1], [1, 1, 1, 2], [2, 2, 2, 3]];
    let mut full = Area::empty(64, 64);
    full.raster.fill(1);
    vec![
        row("one square", columns(&[(0, 0)]), 64, cover((1, 1), &[[0, 0, 0, 0]], &[[0, 0]])),
        row("2 by 2, no copper, allowance 0", Area::empty(2, 2), 0, cover((0, 0), &[], &[])),
        row(
            "plus",
            Area::of_rows(&[".#.", "###", ".#."]),
            64,
            cover((5, 6), &[[0, 2, 1, 1], [1, 1, 0, 2]], &[[0, 1], [1, 0]]),
        ),
        row("step", columns(&[(0, 1), (1, 2)]), 64, cover((4, 4), &[[0, 0, 0, 1], [1, 1, 1, 2]], &[[0, 0], [1, 2]])),
        row("stair", columns(&STAIR), 64, cover((6, 6), &stair, &[[0, 0], [1, 2], [2, 3]])),
        row(
            "double step",
            columns(&[(0, 1), (1, 2), (3, 4), (4, 5)]),
            64,
            cover((8, 8), &[[0, 0, 0, 1], [1, 1, 1, 2], [2, 2, 3, 4], [3, 3, 4, 5]], &[[0, 0], [1, 2], [2, 3], [3, 5]]),
        ),
        row(
            "cup",
            columns(&cup),
            64,
            cover((7, 9), &[[0, 0, 0, 2], [0, 2, 0, 0], [2, 2, 0, 2]], &[[0, 1], [1, 0], [2, 1]]),
        ),
        row("corner", columns(&[(0, 0), (1, 1)]), 64, cover((2, 2), &[[0, 0, 0, 0], [1, 1, 1, 1]], &[[0, 0], [1, 1]])),
        row("stair, allowance 2", columns(&STAIR), 2, Wanted::Short { marks: vec![[0, 0], [1, 2], [2, 3]] }),
        row("cup, allowance 1", columns(&cup), 1, Wanted::Short { marks: vec![[0, 1], [1, 0]] }),
        row(
            "ring of 3 by 3, centre empty",
            Area::of_rows(&["###", "#.#", "###"]),
            64,
            Wanted::Refused { answer: 8, x: 1, y: 1 },
        ),
        row("full 64 by 64", full, 64, cover((4096, 4096), &[[0, 63, 0, 63]], &[[0, 0]])),
        row("stair at allowance 3", columns(&STAIR), 3, cover((6, 6), &stair, &[[0, 0], [1, 2], [2, 3]])),
    ]
}

impl Wanted {
    /// The outcome, and the bytes of the two lists.
    pub fn outcome(&self) -> (Outcome, Vec<u8>, Vec<u8>) {
        let none = Outcome::default();
        match self {
            Wanted::Cover { copper, flashed, flashes, marks } => {
                let (copper, flashed, count) = (*copper, *flashed, marks.len() as u64);
                let outcome = Outcome { flashes: flashes.len() as u64, marks: count, copper, flashed, ..none };
                (outcome, flashes.concat(), marks.concat())
            }
            Wanted::Short { marks } => {
                (Outcome { answer: 9, marks: marks.len() as u64, ..none }, Vec::new(), marks.concat())
            }
            Wanted::Refused { answer, x, y } => {
                (Outcome { answer: *answer, place_x: *x, place_y: *y, ..none }, Vec::new(), Vec::new())
            }
        }
    }
}

/// Each mark stands on the lowest row that shows its slice, also where rows between that row and the highest such one do not
/// show it, since a neighbour bulges there: many marks of the areas that are tried are of that kind.
pub fn marks_stand_on_the_lowest_row(seed: u64, marks: impl Fn(&Area) -> Vec<(usize, usize)>) {
    let mut random = Random::new(seed);
    let mut bulges = 0;
    for _ in 0..10_000 {
        let area = any_area(&mut random, 9, 12);
        for (column, row) in marks(&area) {
            let slice = search::slice_at(&area, (column, row));
            let (showing, others): (Vec<usize>, Vec<usize>) =
                (row..area.height).partition(|&above| search::shows(&area, above, slice));
            assert!(!(0..row).any(|below| search::shows(&area, below, slice)), "{area:?} ({column}, {row})");
            let between: Vec<usize> = others.into_iter().filter(|other| other < showing.last().unwrap()).collect();
            for &other in &between {
                let (first, last) = search::slice_at(&area, (column, other));
                assert!(first <= slice.0 && slice.1 <= last, "{area:?} ({column}, {other})");
            }
            bulges += !between.is_empty() as usize;
        }
    }
    assert!(bulges > 1000, "{bulges} such marks");
}
