//! The covers written by hand in C, `hand/quick.c`, `hand/bytes.c` and `hand/plain.c`, and the exported one by the plain search, byte for byte
//! against the exported one: what the benchmark sets side by side gives the same outcomes and writes the same rooms.

use keekaboor_tests::areas::*;
use keekaboor_tests::ffi::{cover_by, Engine, Outcome};
use keekaboor_tests::rules::{FLASH_ROOM, MARK_ROOM};

/// One call in rooms full of noise: its outcome and all bytes of both rooms.
fn called(
    engine: Engine,
    numbers: (u64, u64, u64),
    raster: &[u8],
    rooms: (usize, usize),
) -> (Outcome, Vec<u8>, Vec<u8>) {
    let mut random = Random::new(raster.len() as u64);
    let (mut flashes, mut marks) = (random.bytes(rooms.0), random.bytes(rooms.1));
    let outcome = cover_by(engine, numbers, raster, &mut flashes, &mut marks);
    (outcome, flashes, marks)
}

fn alike(engines: &[Engine], numbers: (u64, u64, u64), raster: &[u8], rooms: (usize, usize)) -> u64 {
    let wanted = called(Engine::Exported, numbers, raster, rooms);
    for &engine in engines {
        assert_eq!(called(engine, numbers, raster, rooms), wanted, "{engine:?} {numbers:?} {raster:?} {rooms:?}");
    }
    wanted.0.answer
}

const ALL: [Engine; 4] = [Engine::ExportedPlain, Engine::Quick, Engine::Bytes, Engine::Plain];

/// Without the one that takes long at 64 columns.
const QUICKER: [Engine; 3] = [Engine::ExportedPlain, Engine::Quick, Engine::Bytes];

fn of_area(engines: &[Engine], area: &Area, allowance: u64) -> u64 {
    alike(engines, (area.width as u64, area.height as u64, allowance), &area.raster, (FLASH_ROOM, MARK_ROOM))
}

#[test]
fn every_area_up_to_4_by_4() {
    for (width, height) in (1..=4).flat_map(|w| (1..=4).map(move |h| (w, h))) {
        for (index, area) in every_area(width, height).enumerate() {
            of_area(&ALL, &area, 64);
            of_area(&ALL, &area, index as u64 % 5);
        }
    }
}

#[test]
fn random_areas_of_every_family() {
    let mut random = Random::new(31);
    let mut answers = [0; 10];
    for (count, most, engines) in [(60_000, 10, &ALL[..]), (6000, 24, &ALL), (400, 64, &QUICKER)] {
        for _ in 0..count {
            let area = any_area(&mut random, most, most);
            let allowance = if random.one_in(3) { random.below(most) as u64 } else { 64 };
            answers[of_area(engines, &area, allowance) as usize] += 1;
        }
    }
    assert!(answers[0] > 40_000 && answers[9] > 5000, "{answers:?}");
}

/// The benchmark's own areas, and more like them.
#[test]
fn rough_areas_of_64_columns() {
    for family in FAMILIES {
        let mut random = Random::new(64);
        for _ in 0..20 {
            of_area(&QUICKER, &area(&mut random, family, 64, 64, 1, 0), 64);
        }
    }
}

#[test]
fn damaged_rasters() {
    let mut random = Random::new(32);
    let mut answers = [0; 10];
    for index in 0..20_000 {
        let most = if index % 10 == 0 { 64 } else { 12 };
        let mut area = any_area(&mut random, most, most);
        damage_raster(&mut random, &mut area);
        let engines = if most == 12 { &ALL[..] } else { &QUICKER };
        answers[of_area(engines, &area, random.below(12) as u64) as usize] += 1;
    }
    assert!([0, 7, 8, 9].iter().all(|&answer| answers[answer] > 200), "{answers:?}");
}

#[test]
fn refusals_in_their_order() {
    let numbers = [0, 1, 3, 64, 65, 256 + 3, (1 << 32) + 3, u64::MAX];
    for (width, height) in numbers.iter().flat_map(|&w| numbers.map(|h| (w, h))) {
        for (allowance, flash_room, mark_room) in [(64, 256, 128), (64, 255, 127), (65, 300, 127), (65, 256, 128)] {
            let right = width.checked_mul(height).filter(|&n| n <= 4096).unwrap_or(9) as usize;
            for length in [right, right + 1, 0] {
                for byte in [0, 1, 2] {
                    alike(&ALL, (width, height, allowance), &vec![byte; length], (flash_room, mark_room));
                }
            }
        }
    }
}
