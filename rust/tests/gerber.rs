//! Gerber files: the exported writer and reader against the independent ones, byte for byte, refusals and each lent room included.

use keekaboor_tests::areas::{Area, Random};
use keekaboor_tests::ffi;
use keekaboor_tests::gerber::{self, Flash, Frame, FILE_ROOM};
use keekaboor_tests::rules::{FLASH_ROOM, MARK_ROOM};
use std::collections::BTreeMap;

mod damage;

const FILL: u8 = 0xc7;

fn lent(length: usize, begins: &[u8]) -> Vec<u8> {
    let mut room = vec![FILL; length];
    room[..begins.len()].copy_from_slice(begins);
    room
}

/// One call of the writer against the independent one: the outcome, and each byte of the three rooms.
fn compare(numbers: (u64, u64, u64), raster: &[u8], frame: Frame, rooms: (usize, usize, usize)) -> gerber::Written {
    let (mut flashes, mut marks, mut file) = (lent(rooms.0, &[]), lent(rooms.1, &[]), lent(rooms.2, &[]));
    let o = ffi::write_gerber(numbers, raster, (&mut flashes, &mut marks), frame, &mut file);
    let wanted = gerber::write(numbers, raster, frame, rooms);
    let w = &wanted.covered;
    let covered = ffi::Outcome {
        answer: o.answer,
        place_x: o.place_x,
        place_y: o.place_y,
        flashes: o.flashes,
        marks: o.marks,
        copper: o.copper,
        flashed: o.flashed,
    };
    assert_eq!((covered, o.length), (w.outcome, wanted.file.len() as u64), "{numbers:?} {frame:?} {rooms:?}");
    assert_eq!(flashes, lent(rooms.0, &w.flashes), "the flash room of {numbers:?} {frame:?}");
    assert_eq!(marks, lent(rooms.1, &w.marks), "the mark room of {numbers:?} {frame:?}");
    assert_eq!(file, lent(rooms.2, wanted.file.as_bytes()), "the file room of {numbers:?} {frame:?}");
    wanted
}

/// One call of the reader against the independent one: the outcome, and each byte of the flash room.
fn compare_read(text: &[u8], frame: Frame, flash_room: usize) -> Result<Vec<Flash>, (u64, u64, u64)> {
    let mut flashes = lent(flash_room, &[]);
    let o = ffi::read_gerber(text, frame, &mut flashes);
    let wanted = gerber::read(text, frame, flash_room);
    let shown = String::from_utf8_lossy(text);
    match &wanted {
        Ok(records) => {
            assert_eq!(
                (o.answer, o.place_x, o.place_y, o.flashes),
                (0, 0, 0, records.len() as u64),
                "{frame:?}\n{shown}"
            );
            assert_eq!(flashes, lent(flash_room, &records.concat()), "the flash room of {frame:?}\n{shown}");
        }
        &Err((answer, x, y)) => {
            assert_eq!((o.answer, o.place_x, o.place_y, o.flashes), (answer, x, y, 0), "{frame:?}\n{shown}");
            assert_eq!(flashes, lent(flash_room, &[]), "the flash room of {frame:?}\n{shown}");
        }
    }
    wanted
}

const ROOMS: (usize, usize, usize) = (FLASH_ROOM, MARK_ROOM, FILE_ROOM);

fn plus() -> Area {
    Area::of_rows(&[".#.", "###", ".#."])
}

#[test]
fn the_plus_has_document_02s_three_lines() {
    let frame = Frame { version: 2, pitch: 1_000_000, x: 0, y: 0 };
    let written = compare((3, 3, 64), &plus().raster, frame, ROOMS);
    for line in ["%ADD10R,3.000000X1.000000*%\n", "\nD10*\n", "\nX1500000Y1500000D03*\n"] {
        assert!(written.file.contains(line), "{line:?}");
    }
    assert_eq!(compare_read(written.file.as_bytes(), frame, FLASH_ROOM), Ok(vec![[0, 2, 1, 1], [1, 1, 0, 2]]));
}

#[test]
fn the_versions_differ_in_their_first_line() {
    let mut random = Random::new(0x6730_34);
    for _ in 0..2_000 {
        let (width, height) = (random.from_to(1, 64), random.from_to(1, 64));
        let (area, frame) = (spans(&mut random, width, height), good_frame(&mut random));
        let [comment, attribute] = [1, 2].map(|version| {
            let written = compare((width as u64, height as u64, 64), &area.raster, Frame { version, ..frame }, ROOMS);
            assert_eq!(written.covered.outcome.answer, 0);
            written.file
        });
        let (first, rest) = comment.split_once('\n').unwrap();
        assert_eq!(first, "G04 #@! TF.FileFunction,Copper,L1,Top*");
        assert_eq!(attribute.split_once('\n'), Some(("%TF.FileFunction,Copper,L1,Top*%", rest)));
    }
}

/// A version, a pitch and an origin: common ones, the ends, and beside them.
fn any_frame(random: &mut Random) -> Frame {
    let version = match random.below(8) {
        0 => [0, 1, 2, 3, 21, u64::MAX][random.below(6)],
        _ => known_version(random),
    };
    let pitch = match random.below(8) {
        0 => [0, 1, 2, 3, 1_000_000, 1_000_001, 1_000_002, u64::MAX][random.below(8)],
        1 => random.number() % 2_000_000,
        _ => 2 * (1 + random.number() % 500_000),
    };
    let mut origin = || match random.below(6) {
        0 => [i64::MIN, i64::MAX, i64::MAX - 1, -1, 0, 1][random.below(6)],
        1 => 9_999_999_999 - (random.number() % 100_000_000) as i64,
        2 => -9_999_999_999 - (random.number() % 100_000_000) as i64 + 50_000_000,
        3 => random.number() as i64,
        _ => (random.number() % 20_000_000_000) as i64 - 10_000_000_000,
    };
    let (x, y) = (origin(), origin());
    Frame { version, pitch, x, y }
}

fn known_version(random: &mut Random) -> u64 {
    1 + random.below(2) as u64
}

/// One with which every file can be written.
fn good_frame(random: &mut Random) -> Frame {
    let version = known_version(random);
    let pitch = match random.below(4) {
        0 => [2, 4, 1_000_000, 999_998][random.below(4)],
        _ => 2 * (1 + random.number() % 500_000),
    };
    let mut origin = || (random.number() % 19_900_000_000) as i64 - 9_999_999_999;
    let (x, y) = (origin(), origin());
    Frame { version, pitch, x, y }
}

fn spans(random: &mut Random, width: usize, height: usize) -> Area {
    let mut column = || {
        let (a, b) = (random.below(height), random.below(height));
        (!random.one_in(12)).then_some((a.min(b), a.max(b)))
    };
    let spans: Vec<_> = (0..width).map(|_| column()).collect();
    Area::from_spans(height, &spans)
}

#[test]
fn areas_written_and_read_back() {
    let mut random = Random::new(0x6765_7262);
    let mut answers = BTreeMap::new();
    for _ in 0..100_000 {
        let (width, height) = (random.from_to(1, 12), random.from_to(1, 12));
        let area = spans(&mut random, width, height);
        let frame = any_frame(&mut random);
        let mut room = |least: usize| if random.one_in(16) { random.below(least + 2) } else { least };
        let rooms = (room(FLASH_ROOM), room(MARK_ROOM), room(FILE_ROOM));
        let allowance = if random.one_in(8) { random.below(66) as u64 } else { 64 };
        let written = compare((width as u64, height as u64, allowance), &area.raster, frame, rooms);
        *answers.entry(written.covered.outcome.answer).or_insert(0) += 1;
        if written.covered.outcome.answer == 0 {
            let flashes: Vec<Flash> = written.covered.flashes.chunks(4).map(|r| r.try_into().unwrap()).collect();
            for version in [1, 2] {
                let read = compare_read(written.file.as_bytes(), Frame { version, ..frame }, FLASH_ROOM);
                assert_eq!(read, Ok(flashes.clone()));
            }
        }
    }
    for answer in [0, 3, 4, 6, 9, 13, 14, 15, 21] {
        assert!(answers.get(&answer).copied().unwrap_or(0) > 20, "{answer}: {answers:?}");
    }
}

/// Flashes in any order, of few sizes or of many.
fn any_flashes(random: &mut Random) -> Vec<Flash> {
    let (count, side) = (random.below(65), random.from_to(1, 64));
    let mut span = || {
        let (a, b) = (random.below(side) as u8, random.below(side) as u8);
        (a.min(b), a.max(b))
    };
    (0..count).map(|_| (span(), span())).map(|((a, b), (c, d))| [a, b, c, d]).collect()
}

#[test]
fn files_sound_and_damaged() {
    let mut random = Random::new(0x6461_6d61_6765);
    let mut told = BTreeMap::new();
    for k in 0..100_000 {
        let frame = good_frame(&mut random);
        let sound = gerber::written(frame, &any_flashes(&mut random));
        let (name, text) = damage::damaged(&mut random, k, frame.pitch, &sound);
        let (sound, refused) = told.entry(name).or_insert((0, 0));
        match compare_read(&text, Frame { version: known_version(&mut random), ..frame }, FLASH_ROOM) {
            Ok(_) => *sound += 1,
            Err(_) => *refused += 1,
        }
    }
    for (name, counts) in &told {
        println!("{name}: {} read, {} refused", counts.0, counts.1);
    }
    assert_eq!(told.len(), damage::KINDS.len());
    assert_eq!(told["none"].1, 0);
    assert!(told.iter().all(|(&name, counts)| name == "none" || counts.1 > 500), "{told:?}");
}

#[test]
fn refusals_of_reading_in_their_order() {
    let frame = Frame { version: 2, pitch: 1_000_000, x: 0, y: 0 };
    let mut random = Random::new(30);
    for _ in 0..2_000 {
        let text = gerber::written(good_frame(&mut random), &any_flashes(&mut random));
        let room = if random.one_in(2) { FLASH_ROOM } else { random.below(FLASH_ROOM) };
        let _ = compare_read(text.as_bytes(), any_frame(&mut random), room);
    }
    for text in ["", "M02*\n", "%TF.FileFunction,Copper,L1,Top*%\n", "G04 #@! TF.FileFunction,Copper,L1,Top*\n"] {
        for (room, pitch) in
            [(FLASH_ROOM, 1_000_000), (FLASH_ROOM - 1, 1), (FLASH_ROOM, 1), (FLASH_ROOM + 1, 2), (0, 2)]
        {
            for version in [0, 1, 2, 3] {
                let _ = compare_read(text.as_bytes(), Frame { version, pitch, ..frame }, room);
            }
        }
    }
}

#[test]
fn the_largest_areas() {
    let mut random = Random::new(64);
    for _ in 0..40 {
        let area = spans(&mut random, 64, 64);
        let pitch = 2 * (1 + random.number() % 500_000);
        let version = known_version(&mut random);
        let frame = Frame { version, pitch, x: -9_999_999_000, y: 9_900_000_000 };
        let written = compare((64, 64, 64), &area.raster, frame, ROOMS);
        assert!(written.file.len() <= 4162, "{}", written.file.len());
        assert!(compare_read(written.file.as_bytes(), frame, FLASH_ROOM).is_ok());
    }
}

#[test]
fn the_ten_digit_ends() {
    let one = [1u8];
    for (x, answer) in [
        (9_999_999_998, 0),
        (9_999_999_999, 14),
        (-10_000_000_000, 0),
        (-10_000_000_001, 14),
        (i64::MAX, 14),
        (i64::MIN, 14),
    ] {
        for frame in [Frame { version: 2, pitch: 2, x, y: 0 }, Frame { version: 1, pitch: 2, x: 0, y: x }] {
            let written = compare((1, 1, 64), &one, frame, ROOMS);
            assert_eq!(written.covered.outcome.answer, answer, "{x}");
        }
    }
    // an area without copper has no centre
    let written = compare((1, 1, 64), &[0], Frame { version: 2, pitch: 2, x: i64::MAX, y: i64::MIN }, ROOMS);
    assert_eq!(written.covered.outcome.answer, 0);
}

/// Files whose coordinates stand at the ten digits' ends, read with origins there and at those of i64.
#[test]
fn reading_at_the_ends() {
    let ends = [0, 1, -1, 9_999_999_999, -9_999_999_999, 10_000_000_000, -10_000_000_000, i64::MAX, i64::MIN];
    for pitch in [2, 1_000_000] {
        for x in ends.iter().flat_map(|&end| (-3..=3).map(move |step: i64| end.saturating_add(step))) {
            for z in [0, 1, -1, 9_999_999_999i64, -9_999_999_999, 9_999_999_998, -9_999_999_998, 500_000] {
                for line in [format!("X{z}Y1D03*\n"), format!("X1Y{z}D03*\n"), format!("X{z}Y{z}D03*\n")] {
                    let size = if pitch == 2 { "0.000002" } else { "1.000000" };
                    let text = format!("{}%ADD10R,{size}X{size}*%\nD10*\n{line}M02*\n", gerber::head(2));
                    for (x, y) in [(x, 0), (0, x), (x, x)] {
                        let _ = compare_read(text.as_bytes(), Frame { version: 2, pitch, x, y }, FLASH_ROOM);
                    }
                }
            }
        }
    }
}
