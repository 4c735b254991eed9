//! The exported check of lists, byte for byte against an independent one, and on the cases that document 02 names.

use keekaboor_tests::areas::*;
use keekaboor_tests::ffi::{self, CheckOutcome};
use keekaboor_tests::listcheck::{self, line, Said, BAD, BARE, LIST_LIMIT, SOUND};
use keekaboor_tests::old;
use keekaboor_tests::rules::{self, MARK_ROOM};
use keekaboor_tests::search;
use keekaboor_tests::text;

/// One call in a room full of noise, held against the independent check: the outcome and every byte of the room.
fn checked_in(numbers: (u64, u64, u64), raster: &[u8], list: &[u8], mark_room: usize) -> CheckOutcome {
    let noise = Random::new(list.len() as u64).bytes(mark_room);
    let mut room = noise.clone();
    let outcome = ffi::check(numbers, raster, list, &mut room);
    let (wanted, marks) = listcheck::check(numbers, raster, list, mark_room);
    let shown = String::from_utf8_lossy(list);
    assert_eq!(outcome, wanted, "{numbers:?} {raster:?} {shown}");
    assert_eq!(room[..marks.len()], marks[..], "the marks of {numbers:?} {raster:?} {shown}");
    assert_eq!(room[marks.len()..], noise[marks.len()..], "the room past the marks of {numbers:?} {raster:?} {shown}");
    outcome
}

fn checked(area: &Area, list: &[u8]) -> CheckOutcome {
    checked_in((area.width as u64, area.height as u64, 64), &area.raster, list, MARK_ROOM)
}

fn lines(flashes: &[Said]) -> Vec<u8> {
    flashes.iter().map(|&flash| line(flash)).collect::<String>().into_bytes()
}

fn said([first, last, bottom, top]: [usize; 4]) -> Said {
    [first as u64, last as u64, bottom as u64, top as u64]
}

fn ours(area: &Area) -> Vec<Said> {
    rules::flashes(area).into_iter().map(said).collect()
}

fn sound(flashes: u64, above: u64, marks: u64) -> CheckOutcome {
    CheckOutcome { verdict: SOUND, flashes, above, marks, ..CheckOutcome::default() }
}

fn refusal(answer: u64, line: u64) -> CheckOutcome {
    CheckOutcome { answer, place_x: line, ..CheckOutcome::default() }
}

fn plus() -> Area {
    Area::of_rows(&[".#.", "###", ".#."])
}

/// A rectangle of the grid, or now and then one beyond it.
fn any_flash(random: &mut Random, area: &Area) -> Said {
    let mut pair = |n: usize| {
        let (a, b) = (random.below(n), random.below(n));
        (a.min(b), a.max(b))
    };
    let ((first, last), (bottom, top)) = (pair(area.width), pair(area.height));
    said([first, last, bottom, top])
}

fn shuffle(random: &mut Random, flashes: &mut [Said]) {
    for i in (1..flashes.len()).rev() {
        flashes.swap(i, random.below(i + 1));
    }
}

/// Damages a list in one of the ways that the check must tell.
fn damage(random: &mut Random, area: &Area, flashes: &mut Vec<Said>) {
    let at = random.below(flashes.len() + 1);
    match random.below(6) {
        0 => flashes.insert(at, any_flash(random, area)),
        _ if flashes.is_empty() => {}
        1 => drop(flashes.remove(random.below(flashes.len()))),
        2 => {
            let at = random.below(flashes.len());
            let side = 2 * random.below(2);
            flashes[at].swap(side, side + 1);
        }
        3 => {
            let at = random.below(flashes.len());
            let beyond = [64, 65, 255, 256, 9999][random.below(5)];
            flashes[at][random.below(4)] = beyond;
        }
        4 => {
            let at = random.below(flashes.len());
            let bound = &mut flashes[at][random.below(4)];
            *bound = if random.one_in(2) { *bound + 1 } else { bound.saturating_sub(1) };
        }
        _ => {
            let again = flashes[random.below(flashes.len())];
            flashes.insert(at, again);
        }
    }
}

#[test]
fn lists_of_every_kind() {
    let mut random = Random::new(5);
    let (mut verdicts, mut refusals) = ([0; 4], 0);
    for round in 0..110_000 {
        let most = if round % 100 == 0 { 64 } else { 12 };
        let area = any_area(&mut random, most, most);
        let mut flashes = ours(&area);
        if random.one_in(2) {
            shuffle(&mut random, &mut flashes);
        }
        for _ in 0..random.below(4) {
            damage(&mut random, &area, &mut flashes);
        }
        let mut list = lines(&flashes);
        if random.one_in(5) && !list.is_empty() {
            damage_text(&mut random, &mut list);
        }
        let outcome = checked(&area, &list);
        verdicts[outcome.verdict as usize] += 1;
        refusals += u64::from(outcome.answer == 16);
    }
    assert!(verdicts.iter().all(|&n| n > 3_000) && refusals > 10_000, "{verdicts:?} {refusals}");
}

/// The verdict sound, and how many are above the least, against squares alone and an exhaustive search.
#[test]
fn sound_means_a_cover() {
    let mut random = Random::new(7);
    let mut covers = 0;
    for _ in 0..20_000 {
        let area = any_area(&mut random, 4, 4);
        let count = random.below(6);
        let mut flashes: Vec<Said> = (0..count).map(|_| any_flash(&mut random, &area)).collect();
        if random.one_in(2) {
            flashes.extend(ours(&area));
        }
        let squares: Vec<_> = flashes
            .iter()
            .map(|&[first, last, bottom, top]| search::Rectangle {
                first: first as usize,
                last: last as usize,
                bottom: bottom as usize,
                top: top as usize,
            })
            .collect();
        let outcome = checked(&area, &lines(&flashes));
        assert_eq!(outcome.verdict == SOUND, search::is_cover(&area, &squares));
        if outcome.verdict == SOUND {
            assert_eq!(outcome.above as usize, flashes.len() - search::least_number(&area));
            covers += 1;
        }
    }
    assert!(covers > 2_000, "{covers}");
}

#[test]
fn our_own_lists_are_sound_with_none_above() {
    let mut random = Random::new(9);
    for _ in 0..5_000 {
        let area = any_area(&mut random, 64, 64);
        let mut flashes = ours(&area);
        let least = flashes.len() as u64;
        shuffle(&mut random, &mut flashes);
        assert_eq!(checked(&area, &lines(&flashes)), sound(least, 0, least));
    }
}

#[test]
fn verdicts_of_the_plus() {
    let area = plus();
    let both = b"flash\t0\t2\t1\t1\nflash\t1\t1\t0\t2\n";
    assert_eq!(checked(&area, both), sound(2, 0, 2));
    assert_eq!(checked(&area, &[&both[..], b"flash\t1\t1\t1\t1\n"].concat()), sound(3, 1, 2));
    let bad = |line, flashes| CheckOutcome { verdict: BAD, place_x: line, flashes, ..CheckOutcome::default() };
    assert_eq!(checked(&area, b"flash\t1\t1\t0\t2\nflash\t0\t1\t1\t2\n"), bad(2, 2));
    assert_eq!(checked(&area, b"flash\t2\t0\t1\t1\n"), bad(1, 1), "reversed columns");
    assert_eq!(checked(&area, b"flash\t1\t1\t2\t0\n"), bad(1, 1), "reversed rows");
    assert_eq!(checked(&area, b"flash\t0\t3\t1\t1\n"), bad(1, 1), "off the grid");
    assert_eq!(checked(&area, b"flash\t1\t1\t0\t9999\n"), bad(1, 1), "far off the grid");
    let bare = |place_x, place_y, flashes| CheckOutcome {
        verdict: BARE,
        place_x,
        place_y,
        flashes,
        ..CheckOutcome::default()
    };
    assert_eq!(checked(&area, b""), bare(1, 0, 0));
    assert_eq!(checked(&area, b"flash\t1\t1\t0\t2\n"), bare(0, 1, 1));
    assert_eq!(checked(&Area::empty(2, 2), b""), sound(0, 0, 0));
}

#[test]
fn lines_not_as_ruled() {
    let area = plus();
    let good = "flash\t0\t2\t1\t1\n";
    for line in [
        "flash\t0\t2\t1\t1",
        "flash\t0\t2\t1\n",
        "flash\t0\t2\t1\t1\t1\n",
        "flash 0 2 1 1\n",
        "flash\t0\t2\t1\t01\n",
        "flash\t0\t2\t1\t+1\n",
        "flash\t0\t2\t1\t-1\n",
        "flash\t0\t2\t1\t10000\n",
        "flash\t0\t2\t1\t\n",
        "flash\t0\t2\t1\t1\r\n",
        "flash\t0\t2\t1\t1 \n",
        "Flash\t0\t2\t1\t1\n",
        "mark\t0\t1\n",
        "\n",
        " ",
    ] {
        assert_eq!(checked(&area, line.as_bytes()), refusal(16, 1), "{line:?}");
        let third = [good, good, line].concat();
        assert_eq!(checked(&area, third.as_bytes()), refusal(16, 3), "{line:?}");
    }
}

#[test]
fn the_longest_list() {
    let mut full = Area::empty(64, 64);
    full.raster.fill(1);
    let flash = line([0, 63, 0, 63]);
    let most = flash.repeat(LIST_LIMIT);
    assert_eq!(checked(&full, most.as_bytes()), sound(1024, 1023, 1));
    assert_eq!(checked(&full, flash.repeat(LIST_LIMIT + 1).as_bytes()), refusal(17, 0));
    let then_bad = flash.repeat(LIST_LIMIT + 1) + "flash\n";
    assert_eq!(checked(&full, then_bad.as_bytes()), refusal(16, 1026), "16 goes before 17");
    let wide = line([9999, 9999, 9999, 9999]).repeat(LIST_LIMIT);
    assert_eq!(wide.len(), 26_624);
    assert_eq!(checked(&full, wide.as_bytes()).verdict, BAD);
}

/// Every set of refusals that can be had together: the first in the order is given.
#[test]
fn refusals_in_their_order() {
    let list = b"flash\t0\t2\t1\t1\nflash\t1\t1\t0\t2\n";
    let long = line([1, 1, 1, 1]).repeat(LIST_LIMIT + 1);
    let ring = Area::of_rows(&["###", "#.#", "###"]);
    for choice in 0..64 {
        let has = |bit: usize| choice >> bit & 1 == 1;
        let mut raster = if has(3) { ring.raster.clone() } else { plus().raster };
        if has(2) {
            raster[4] = 2;
        }
        let numbers = (3, 3, if has(1) { 65 } else { 64 });
        let mut lines = if has(5) { long.clone().into_bytes() } else { list.to_vec() };
        if has(4) {
            lines.extend(b"flash\n");
        }
        let outcome = checked_in(numbers, &raster, &lines, if has(0) { MARK_ROOM - 1 } else { MARK_ROOM });
        let wanted =
            [(0, 4), (1, 6), (2, 7), (3, 8), (4, 16), (5, 17)].iter().find(|(bit, _)| has(*bit)).map_or(0, |w| w.1);
        assert_eq!(outcome.answer, wanted, "{choice:b}");
    }
    checked_in((0, 3, 64), &plus().raster, list, 0);
    checked_in((3, 2, 64), &plus().raster, list, 0);
    checked_in((65, u64::MAX, u64::MAX), &plus().raster, b"", 0);
}

/// The list of the old program, which lost a part of the neck, is told from a cover.
#[test]
fn the_old_list_of_the_neck() {
    let area = text::read(include_bytes!("../../examples/neck.job"), text::RASTER_ROOM).unwrap().area;
    let list: Vec<Said> = old::flashes(&area).into_iter().map(said).collect();
    assert_ne!(checked(&area, &lines(&list)).verdict, SOUND);
    assert_eq!(checked(&area, &lines(&ours(&area))).above, 0);
}

/// The allowance has no other effect: 9 is never given.
#[test]
fn no_allowance_is_short() {
    let area = plus();
    let list = b"flash\t0\t2\t1\t1\nflash\t1\t1\t0\t2\n";
    for allowance in 0..=64 {
        assert_eq!(checked_in((3, 3, allowance), &area.raster, list, MARK_ROOM), sound(2, 0, 2));
    }
}
