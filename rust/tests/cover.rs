//! The exported cover, held against document 01's table, against an exhaustive search over squares
//! alone, and byte for byte against an independent implementation of the rules.

mod common;

use keekaboor_tests::areas::*;
use keekaboor_tests::ffi::{self, Outcome};
use keekaboor_tests::search::{self, Rectangle};
use keekaboor_tests::{rules, rules::FLASH_ROOM, rules::MARK_ROOM};
use std::sync::atomic::{AtomicUsize, Ordering::Relaxed};

/// One call: its numbers, its raster, and the sizes of the two rooms.
#[derive(Clone, Debug)]
struct Call {
    numbers: (u64, u64, u64),
    raster: Vec<u8>,
    flash_room: usize,
    mark_room: usize,
}

impl Call {
    fn of(area: &Area, allowance: u64) -> Call {
        Call {
            numbers: (area.width as u64, area.height as u64, allowance),
            raster: area.raster.clone(),
            flash_room: FLASH_ROOM,
            mark_room: MARK_ROOM,
        }
    }

    /// Makes the call in rooms full of noise. Gives its outcome and what the rooms begin with, and sees
    /// that the rest of each room is as it was. (The wrapper sees to the bytes before and behind.)
    fn make(&self) -> (Outcome, Vec<u8>, Vec<u8>) {
        let mut random = Random::new(self.raster.len() as u64);
        let (flash_noise, mark_noise) = (random.bytes(self.flash_room), random.bytes(self.mark_room));
        let (mut flash_room, mut mark_room) = (flash_noise.clone(), mark_noise.clone());
        let outcome = ffi::cover(self.numbers, &self.raster, &mut flash_room, &mut mark_room);
        let (flashes, marks) = (4 * outcome.flashes as usize, 2 * outcome.marks as usize);
        assert_eq!(flash_room[flashes..], flash_noise[flashes..], "the flash room past the records, {self:?}");
        assert_eq!(mark_room[marks..], mark_noise[marks..], "the mark room past the records, {self:?}");
        flash_room.truncate(flashes);
        mark_room.truncate(marks);
        (outcome, flash_room, mark_room)
    }

    fn outcome(&self) -> Outcome {
        self.make().0
    }

    fn is_refused(&self, answer: u64, place_x: u64, place_y: u64) {
        let wanted = Outcome { answer, place_x, place_y, ..Outcome::default() };
        assert_eq!(self.outcome(), wanted, "{self:?}");
    }

    fn agrees_with_the_rules(&self) -> Outcome {
        let (outcome, flashes, marks) = self.make();
        let wanted = rules::cover(self.numbers, &self.raster, self.flash_room, self.mark_room);
        assert_eq!((outcome, flashes, marks), (wanted.outcome, wanted.flashes, wanted.marks), "{self:?}");
        outcome
    }
}

fn stair() -> Area {
    Area::of_columns(&common::STAIR)
}

#[test]
fn document_01s_rows() {
    for row in common::rows() {
        assert_eq!(Call::of(&row.job.area, row.job.allowance).make(), row.wanted.outcome(), "{}", row.name);
    }
}

#[test]
fn marks_stand_on_the_lowest_row() {
    common::marks_stand_on_the_lowest_row(13, |area| {
        let (_, _, marks) = Call::of(area, 64).make();
        marks.chunks(2).map(|mark| (mark[0] as usize, mark[1] as usize)).collect()
    });
}

/// A full area of any size, also one out of range.
fn full(width: u64, height: u64) -> Call {
    Call { numbers: (width, height, 64), raster: vec![1; (width * height) as usize], flash_room: 256, mark_room: 128 }
}

#[test]
fn both_sides_of_the_limits_of_width_and_height() {
    for n in [1, 2, 63, 64] {
        for (width, height) in [(n, 1), (1, n), (n, 64), (64, n)] {
            let outcome = full(width, height).outcome();
            assert_eq!((outcome.copper, outcome.flashed), (width * height, width * height));
        }
    }
    for n in [0, 65, 66, 255, 256, 257] {
        for (width, height) in [(n, 1), (1, n), (n, 64), (64, n), (n, n)] {
            full(width, height).is_refused(1, 0, 0);
        }
    }
    // numbers that are within the limits once they are cut to 8, 16 or 32 bits
    for n in [1 << 8 | 3, 1 << 16 | 3, 1 << 32 | 3, 1 << 63 | 3, u64::MAX] {
        Call { numbers: (n, 3, 64), ..full(3, 3) }.is_refused(1, 0, 0);
        Call { numbers: (3, n, 64), ..full(3, 3) }.is_refused(1, 0, 0);
    }
    // a product of 0 once it is cut to 64 bits, as the raster's length is
    Call { numbers: (1 << 32, 1 << 32, 64), raster: Vec::new(), ..full(3, 3) }.is_refused(1, 0, 0);
}

#[test]
fn both_sides_of_the_raster_length() {
    for len in [0, 1, 11, 13, 24, 4096] {
        Call { raster: vec![1; len], ..full(3, 4) }.is_refused(2, 0, 0);
    }
    assert_eq!(Call { raster: vec![1; 12], ..full(3, 4) }.outcome().answer, 0);
    for len in [4095, 4097] {
        Call { raster: vec![1; len], ..full(64, 64) }.is_refused(2, 0, 0);
    }
}

#[test]
fn both_sides_of_the_rooms() {
    let call = Call::of(&stair(), 64);
    for room in [256, 257, 300, 1000] {
        assert_eq!(Call { flash_room: room, ..call.clone() }.agrees_with_the_rules().answer, 0);
    }
    for room in [0, 12, 255] {
        Call { flash_room: room, ..call.clone() }.is_refused(3, 0, 0);
    }
    for room in [128, 129, 200, 1000] {
        assert_eq!(Call { mark_room: room, ..call.clone() }.agrees_with_the_rules().answer, 0);
    }
    for room in [0, 6, 127] {
        Call { mark_room: room, ..call.clone() }.is_refused(4, 0, 0);
    }
}

#[test]
fn both_sides_of_the_allowance() {
    assert_eq!(Call::of(&stair(), 64).outcome().answer, 0);
    for allowance in [65, 66, 255, 256, 256 + 3, 65536 + 3, (1 << 32) + 3, (1 << 63) + 3, u64::MAX] {
        Call::of(&stair(), allowance).is_refused(6, 0, 0);
    }
    assert_eq!(Call::of(&stair(), 3).agrees_with_the_rules().answer, 0);
    for allowance in [0, 1, 2] {
        let outcome = Call::of(&stair(), allowance).agrees_with_the_rules();
        assert_eq!((outcome.answer, outcome.flashes, outcome.marks), (9, 0, allowance + 1));
    }
}

#[test]
fn sixty_four_flashes_fill_the_rooms() {
    let corners: Vec<_> = (0..64).map(|n| (n, n)).collect();
    let area = Area::of_columns(&corners);
    let outcome = Call::of(&area, 64).agrees_with_the_rules();
    let wanted = Outcome { flashes: 64, marks: 64, copper: 64, flashed: 64, ..Outcome::default() };
    assert_eq!(outcome, wanted);
    let outcome = Call::of(&area, 63).agrees_with_the_rules();
    assert_eq!(outcome, Outcome { answer: 9, marks: 64, ..Outcome::default() });
}

#[test]
fn a_bad_byte_is_named_by_column_and_row() {
    let area = Area::from_spans(5, &[Some((0, 4)); 7]);
    for at in 0..area.raster.len() {
        for byte in [2, 3, 128, 254, 255] {
            let mut call = Call::of(&area, 64);
            call.raster[at] = byte;
            call.is_refused(7, at as u64 % 7, at as u64 / 7);
            // of two, the first in raster order
            call.raster[34] = 9;
            call.is_refused(7, at as u64 % 7, at as u64 / 7);
        }
    }
}

#[test]
fn a_broken_column_is_named_by_its_lowest_gap() {
    let solid = Area::from_spans(6, &[Some((0, 5)); 4]);
    for (column, row) in solid.squares().filter(|&(_, row)| 0 < row && row < 5) {
        let mut area = solid.clone();
        area.set(column, row, 0);
        Call::of(&area, 64).is_refused(8, column as u64, row as u64);
        // a second gap above, and one in a column to the right, change nothing
        area.set(column, 4, 0);
        area.set(3, 1, 0);
        let (x, y) = if column == 3 { (3, 1) } else { (column, row) };
        Call::of(&area, 64).is_refused(8, x as u64, y as u64);
    }
}

/// Each refusal of the cover as a fault that can be put into a sound call, in document 01's order:
/// 'Cover: 1, 2, 3, 4, 6, 7, 8, 9'.
const ORDER: [u64; 8] = [1, 2, 3, 4, 6, 7, 8, 9];

/// A sound call into which the faults of the bits of `which` were put; `variant` says how.
fn faulty(which: usize, variant: usize) -> Call {
    let has = |answer: u64| which >> ORDER.iter().position(|&n| n == answer).unwrap() & 1 == 1;
    let mut area = Area::from_spans(5, &[Some((0, 2)), Some((1, 4)), Some((0, 4)), Some((2, 3))]);
    if has(7) {
        area.set(2, 3, [2, 255][variant % 2]);
    }
    if has(8) {
        area.set(1, 2, 0);
    }
    let mut call = Call::of(&area, if has(6) { [65, u64::MAX][variant % 2] } else { 64 });
    if has(9) {
        call.numbers.2 = 0;
    }
    if has(1) {
        let numbers = &mut call.numbers;
        let side = if variant < 2 { &mut numbers.0 } else { &mut numbers.1 };
        *side = [0, 65][variant % 2];
        call.raster.resize((numbers.0 * numbers.1) as usize, 1);
    }
    if has(2) {
        let len = call.raster.len();
        call.raster.resize(if variant % 2 == 0 { len + 1 } else { len - 1 }, 1);
    }
    if has(3) {
        call.flash_room = [255, 0][variant % 2];
    }
    if has(4) {
        call.mark_room = [127, 0][variant % 2];
    }
    call
}

#[test]
fn of_several_refusals_the_first_in_order_is_given() {
    let mut pairs = 0;
    for which in 1..1usize << ORDER.len() {
        // an allowance above 64 is never short
        let above_and_short = 1 << 4 | 1 << 7;
        if which & above_and_short == above_and_short {
            continue;
        }
        pairs += (which.count_ones() == 2) as usize;
        for variant in 0..4 {
            let call = faulty(which, variant);
            let answer = ORDER[which.trailing_zeros() as usize];
            let (outcome, _, marks) = call.make();
            let (x, y) = match answer {
                7 => (2, 3),
                8 => (1, 2),
                _ => (0, 0),
            };
            let wanted = Outcome { answer, place_x: x, place_y: y, marks: (answer == 9) as u64, ..Outcome::default() };
            assert_eq!(outcome, wanted, "{which:b} {variant} {call:?}");
            assert_eq!(marks, if answer == 9 { vec![0, 0] } else { vec![] });
        }
    }
    assert_eq!(pairs, 8 * 7 / 2 - 1);
}

/// Demands 2 and 3, over squares alone, for one area of few squares and allowances around the least number.
fn meets_the_demands(area: &Area) {
    let least = search::least_number(area) as u64;
    let mut allowances = vec![64, least, least.saturating_sub(1), 0];
    allowances.dedup();
    for allowance in allowances {
        let (outcome, flashes, marks) = Call::of(area, allowance).make();
        let marks: Vec<_> = marks.chunks(2).map(|mark| (mark[0] as usize, mark[1] as usize)).collect();
        assert!(search::all_independent(area, &marks), "{area:?} {marks:?}");
        if allowance < least {
            let wanted = Outcome { answer: 9, marks: allowance + 1, ..Outcome::default() };
            assert_eq!(outcome, wanted, "{area:?} {allowance}");
            continue;
        }
        let list: Vec<_> = flashes.chunks(4).map(Rectangle::of_record).collect();
        assert!(search::is_cover(area, &list), "{area:?} {list:?}");
        let (copper, flashed) = (search::copper(area).count() as u64, search::flashed(&list));
        let wanted = Outcome { flashes: least, marks: least, copper, flashed, ..Outcome::default() };
        assert_eq!(outcome, wanted, "{area:?} {allowance}");
        assert!(copper <= flashed, "{area:?}");
        assert_eq!(copper == flashed, !search::shares_a_square(&list), "{area:?} {list:?}");
    }
}

#[test]
fn every_area_up_to_4_by_4() {
    let mut tried = 0;
    for (width, height) in (1..=4).flat_map(|w| (1..=4).map(move |h| (w, h))) {
        for area in every_area(width, height) {
            match search::broken_column(&area) {
                Some((column, row)) => Call::of(&area, 64).is_refused(8, column as u64, row as u64),
                None => meets_the_demands(&area),
            }
            tried += 1;
        }
    }
    assert_eq!(tried, (1..=4).flat_map(|w| (1..=4).map(move |h| 1 << (w * h))).sum::<u64>());
}

#[test]
fn some_thousands_of_areas_up_to_6_by_6() {
    let mut random = Random::new(11);
    for _ in 0..4000 {
        let area = any_area(&mut random, 6, 6);
        meets_the_demands(&area);
    }
}

/// How many random areas of which size. The plain method's time grows with the fourth power of the width
/// and with the number of slices, so most of the wide areas have little more than 32 columns, in runs of
/// like ones, and a few are as rough as any.
struct Part {
    count: usize,
    columns: (usize, usize),
    rows: (usize, usize),
    plateau: usize,
}

const PARTS: [Part; 8] = [
    Part { count: 60_000, columns: (1, 8), rows: (1, 10), plateau: 1 },
    Part { count: 34_800, columns: (1, 12), rows: (1, 64), plateau: 3 },
    Part { count: 3000, columns: (13, 32), rows: (1, 64), plateau: 5 },
    Part { count: 1950, columns: (33, 40), rows: (2, 64), plateau: 8 },
    Part { count: 100, columns: (41, 63), rows: (2, 64), plateau: 12 },
    Part { count: 110, columns: (64, 64), rows: (2, 64), plateau: 16 },
    Part { count: 30, columns: (20, 32), rows: (5, 64), plateau: 1 },
    Part { count: 10, columns: (33, 64), rows: (16, 64), plateau: 2 },
];

/// The allowance is ample, or just enough, or short, or any.
fn some_allowance(random: &mut Random, area: &Area) -> u64 {
    let least = || rules::final_set(&rules::starting_set(area), area.width).len() as u64;
    match random.below(5) {
        0 => least(),
        1 => least().saturating_sub(1 + random.below(2) as u64),
        2 => random.below(65) as u64,
        _ => 64,
    }
}

#[test]
fn a_hundred_thousand_random_areas_agree_with_the_rules() {
    const THREADS: usize = 2;
    let (tried, over_32, with_64) = (AtomicUsize::new(0), AtomicUsize::new(0), AtomicUsize::new(0));
    let (covered, short) = (AtomicUsize::new(0), AtomicUsize::new(0));
    let share = |thread: usize| {
        for (which, part) in PARTS.iter().enumerate() {
            let mut random = Random::new((100 + 10 * which + thread) as u64);
            for index in (thread..part.count).step_by(THREADS) {
                let (columns, rows) = (part.columns, part.rows);
                let (width, height) = (random.from_to(columns.0, columns.1), random.from_to(rows.0, rows.1));
                let family = FAMILIES[index / THREADS % FAMILIES.len()];
                let gap = [0, 0, 5, 10][random.below(4)];
                let area = area(&mut random, family, width, height, part.plateau, gap);
                let outcome = Call::of(&area, some_allowance(&mut random, &area)).agrees_with_the_rules();
                tried.fetch_add(1, Relaxed);
                over_32.fetch_add((width > 32) as usize, Relaxed);
                with_64.fetch_add((width == 64) as usize, Relaxed);
                covered.fetch_add((outcome.answer == 0) as usize, Relaxed);
                short.fetch_add((outcome.answer == 9) as usize, Relaxed);
            }
        }
    };
    std::thread::scope(|scope| (0..THREADS).for_each(|thread| drop(scope.spawn(move || share(thread)))));
    assert_eq!(tried.into_inner(), 100_000);
    assert!(over_32.into_inner() >= 2000);
    assert!(with_64.into_inner() >= 100);
    assert!(covered.into_inner() > 50_000 && short.into_inner() > 10_000);
}

#[test]
fn damaged_rasters_agree_with_the_rules() {
    let mut random = Random::new(12);
    let mut answers = [0; 10];
    for _ in 0..10_000 {
        let mut area = any_area(&mut random, 9, 12);
        damage_raster(&mut random, &mut area);
        answers[Call::of(&area, random.below(9) as u64).agrees_with_the_rules().answer as usize] += 1;
    }
    assert!([0, 7, 8, 9].iter().all(|&answer| answers[answer] > 100), "{answers:?}");
}
