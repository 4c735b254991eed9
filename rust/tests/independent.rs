//! The independent parts held against each other and against the documents' examples, so that what the
//! proved functions are compared with is itself tried. Needs no static library.

mod common;

use keekaboor_tests::areas::*;
use keekaboor_tests::rules::{self, interval, Interval};
use keekaboor_tests::search::{self, Rectangle};
use keekaboor_tests::text;
use std::path::Path;

fn set(pairs: &[(usize, usize)]) -> Vec<Interval> {
    pairs.iter().map(|&(left, right)| interval(left, right)).collect()
}

#[test]
fn the_rules_give_document_01s_rows() {
    for row in common::rows() {
        let covered = rules::cover(row.job.numbers(), &row.job.area.raster, 256, 128);
        assert_eq!((covered.outcome, covered.flashes, covered.marks), row.wanted.outcome(), "{}", row.name);
    }
}

#[test]
fn the_rules_give_the_examples() {
    let folder = Path::new(env!("CARGO_MANIFEST_DIR")).parent().unwrap().join("examples");
    let mut tried = 0;
    for entry in std::fs::read_dir(folder).unwrap() {
        let job = entry.unwrap().path();
        if job.extension().map_or(false, |ending| ending == "job") {
            let wanted = std::fs::read_to_string(job.with_extension("out")).unwrap();
            assert_eq!(text::program(&std::fs::read(&job).unwrap()), wanted, "{}", job.display());
            tried += 1;
        }
    }
    assert!(tried >= 14, "{tried} examples");
}

#[test]
fn the_rules_marks_stand_on_the_lowest_row() {
    common::marks_stand_on_the_lowest_row(8, rules::marks);
}

#[test]
fn the_rules_give_the_papers_examples() {
    // document 000, example 3.2: the dependent brackets
    let s = set(&[(0, 3), (1, 3), (1, 4), (2, 4), (2, 5), (3, 5)]);
    let dependent: Vec<_> = (0..5)
        .flat_map(|l| (l + 1..=5).map(move |r| interval(l, r)))
        .filter(|&bracket| rules::dependent(&s, bracket))
        .collect();
    assert_eq!(dependent, set(&[(1, 4), (1, 5), (2, 5)]));
    // example 3.6: (0, 3) and (1, 4) are minimal, and (0, 4) is once (1, 3) is gone
    let s = set(&[(0, 1), (0, 3), (0, 4), (1, 3), (1, 4), (3, 4)]);
    assert_eq!(rules::least_minimal(&s, 4), Some(interval(0, 3)));
    let without: Vec<_> = s.into_iter().filter(|&i| i != interval(1, 3)).collect();
    assert_eq!(rules::least_minimal(&without, 4), Some(interval(0, 4)));
    // example 3.9, case 2
    let s = set(&[(0, 2), (0, 5), (1, 7), (3, 7), (4, 6), (4, 9), (5, 10), (8, 10)]);
    assert_eq!(rules::final_set(&s, 10), set(&[(0, 2), (1, 5), (3, 7), (4, 6), (5, 9), (8, 10)]));
}

/// What demand 3 says, over squares alone.
fn meets_demand_3(area: &Area) {
    let least = search::least_number(area);
    let list: Vec<_> =
        rules::flashes(area).iter().map(|&[first, last, bottom, top]| Rectangle { first, last, bottom, top }).collect();
    let marks = rules::marks(area);
    assert_eq!((list.len(), marks.len()), (least, least), "{area:?}");
    assert!(search::is_cover(area, &list), "{area:?} is not covered by {list:?}");
    assert!(search::all_independent(area, &marks), "{area:?} has dependent marks {marks:?}");
    let (copper, flashed) = (rules::copper_number(area), rules::flashed_area(&rules::flashes(area)));
    assert_eq!((copper, flashed), (search::copper(area).count() as u64, search::flashed(&list)), "{area:?}");
    assert!(copper <= flashed, "{area:?}");
    assert_eq!(copper == flashed, !search::shares_a_square(&list), "{area:?} {list:?}");
}

#[test]
fn the_rules_agree_with_the_search_on_every_area_up_to_4_by_4() {
    let mut tried = 0;
    for (width, height) in (1..=4).flat_map(|w| (1..=4).map(move |h| (w, h))) {
        for area in every_area(width, height) {
            let covered = rules::cover((width as u64, height as u64, 64), &area.raster, 256, 128);
            match search::broken_column(&area) {
                Some((column, row)) => {
                    let o = covered.outcome;
                    assert_eq!((o.answer, o.place_x, o.place_y), (8, column as u64, row as u64), "{area:?}");
                }
                None => {
                    assert_eq!(covered.outcome.answer, 0);
                    meets_demand_3(&area);
                    tried += 1;
                }
            }
        }
    }
    // a column of h rows has 1 + h (h + 1) / 2 unbroken forms
    let forms = |h: u64| 1 + h * (h + 1) / 2;
    assert_eq!(tried, (1..=4).flat_map(|w| (1..=4).map(move |h| forms(h).pow(w))).sum::<u64>());
}

#[test]
fn the_rules_agree_with_the_search_on_areas_up_to_6_by_6() {
    let mut random = Random::new(1);
    for _ in 0..4000 {
        meets_demand_3(&any_area(&mut random, 6, 6));
    }
}

#[test]
fn the_nested_search_finds_what_the_definitions_name() {
    let mut random = Random::new(2);
    for _ in 0..4000 {
        let width = random.from_to(1, 9);
        let mut s = Vec::new();
        for _ in 0..random.below(14) {
            let left = random.below(width);
            s.push(interval(left, random.from_to(left + 1, width)));
        }
        s.sort();
        s.dedup();
        while let Some(bracket) = rules::least_minimal(&s, width) {
            assert_eq!(rules::least_minimal_by_definition(&s, width), Some(bracket), "{s:?}");
            let reduced = rules::reduce(&s, bracket);
            assert_eq!(reduced.len() + 1, s.len(), "{s:?}");
            s = reduced;
        }
        assert_eq!(rules::least_minimal_by_definition(&s, width), None, "{s:?}");
    }
}

#[test]
fn two_squares_are_independent_if_no_rectangle_holds_both() {
    let mut random = Random::new(3);
    for _ in 0..300 {
        let area = any_area(&mut random, 6, 6);
        for (i, a) in area.squares().enumerate() {
            for b in area.squares().take(i + 1) {
                assert_eq!(search::independent(&area, a, b), search::independent_by_trying(&area, a, b));
            }
        }
    }
}

#[test]
fn the_generator_makes_unbroken_columns_and_every_kind_of_damage() {
    let mut random = Random::new(4);
    let mut answers = [0; 13];
    for _ in 0..5000 {
        let mut area = any_area(&mut random, 64, 64);
        assert_eq!(search::broken_column(&area), None);
        damage_raster(&mut random, &mut area);
        answers[rules::cover((area.width as u64, area.height as u64, 64), &area.raster, 255, 128).outcome.answer
            as usize] += 1;
        let small = any_area(&mut random, 8, 8);
        let mut damaged = small.clone();
        damage_raster(&mut random, &mut damaged);
        let covered = rules::cover((small.width as u64, small.height as u64, 64), &damaged.raster, 256, 128);
        answers[covered.outcome.answer as usize] += 1;
        let mut text = text::written(&Job { area, allowance: random.below(65) as u64 }).into_bytes();
        damage_text(&mut random, &mut text);
        answers[text::read_job(&text, 4096).0.answer as usize] += 1;
    }
    for answer in [0, 1, 3, 6, 7, 8, 10, 11] {
        assert!(answers[answer] > 20, "answer {answer} was seen {} times", answers[answer]);
    }
}

#[test]
fn the_rules_refuse_with_number_and_place() {
    let refused = |numbers, raster: &[u8], flash_room, mark_room| {
        let o = rules::cover(numbers, raster, flash_room, mark_room).outcome;
        assert_eq!((o.flashes, o.marks, o.copper, o.flashed), (0, 0, 0, 0));
        (o.answer, o.place_x, o.place_y)
    };
    let solid = vec![1; 12];
    let spoiled = |at: usize, byte: u8| {
        let mut raster = solid.clone();
        raster[at] = byte;
        raster
    };
    assert_eq!(refused((0, 3, 64), &[], 256, 128), (1, 0, 0));
    assert_eq!(refused((4, 65, 64), &solid, 256, 128), (1, 0, 0));
    assert_eq!(refused((4, 3, 65), &solid[1..], 255, 127), (2, 0, 0));
    assert_eq!(refused((4, 3, 65), &solid, 255, 127), (3, 0, 0));
    assert_eq!(refused((4, 3, 65), &solid, 256, 127), (4, 0, 0));
    assert_eq!(refused((4, 3, 65), &spoiled(6, 2), 256, 128), (6, 0, 0));
    assert_eq!(refused((4, 3, 64), &spoiled(6, 2), 256, 128), (7, 2, 1));
    assert_eq!(refused((4, 3, 0), &spoiled(6, 0), 256, 128), (8, 2, 1));
}

#[test]
fn the_reader_refuses_with_number_and_place() {
    let refused = |text: &str, room| text::read(text.as_bytes(), room).unwrap_err();
    let long = "x".repeat(4614);
    assert_eq!(refused(&long, 4095), (12, 0, 0));
    assert_eq!(refused(&long, 4096), (10, 0, 0));
    assert_eq!(refused(&long[1..], 4096), (11, 1, 0));
    for line in
        ["", "shape\t1\t1\t1", "shape\t01\t1\t1\n", "shape\t1\t10000\t1\n", "shape\t1\t1\t1\r\n", "shape\t1\t1\n"]
    {
        assert_eq!(refused(line, 4096), (11, 1, 0), "{line:?}");
    }
    assert_eq!(refused("shape\t9999\t1\t65\n", 4096), (1, 0, 0));
    assert_eq!(refused("shape\t1\t0\t65\n", 4096), (1, 0, 0));
    assert_eq!(refused("shape\t1\t1\t65\n", 4096), (6, 0, 0));
    assert_eq!(refused("shape\t1\t1\t9999\n", 4096), (6, 0, 0));
    assert_eq!(refused("shape\t1\t2\t3\n", 4096), (11, 2, 0));
    assert_eq!(refused("shape\t1\t2\t3\nrow\t1\t#\nrow\t00\t#\n", 4096), (11, 3, 0));
    assert_eq!(refused("shape\t1\t2\t3\nrow\t1\t#\nrow\t0\t#", 4096), (11, 3, 0));
    assert_eq!(refused("shape\t1\t2\t3\nrow\t1\t#\nrow\t0\t#\n\n", 4096), (11, 4, 0));
    assert_eq!(refused("shape\t1\t2\t3\nrow\t0\t#\nrow\t1\t#\n", 4096), (11, 2, 0));
}

/// The example of document 01, and what it prints.
const PLUS: &str = "shape\t3\t3\t64\nrow\t2\t.#.\nrow\t1\t###\nrow\t0\t.#.\n";
const PLUS_PRINTED: &str = "cover\t2\t5\t6\nflash\t0\t2\t1\t1\nflash\t1\t1\t0\t2\nmark\t0\t1\nmark\t1\t0\n";

#[test]
fn the_plus_prints_as_document_01_says() {
    assert_eq!(text::program(PLUS.as_bytes()), PLUS_PRINTED);
    assert_eq!(text::program(b""), "refused\t11\t1\t0\n");
    assert_eq!(text::program(&PLUS.replace("64", "1").into_bytes()), "refused\t9\t0\t0\nmark\t0\t1\nmark\t1\t0\n");
}

fn any_job(random: &mut Random) -> Job {
    let mut area = any_area(random, 64, 64);
    for _ in 0..random.below(3) {
        let at = random.below(area.raster.len());
        area.raster[at] ^= 1;
    }
    Job { area, allowance: random.below(65) as u64 }
}

#[test]
fn reader_and_writer_undo_each_other() {
    let mut random = Random::new(5);
    for _ in 0..3000 {
        let job = any_job(&mut random);
        let (outcome, bytes) = text::write_job(job.numbers(), &job.area.raster, 4613);
        assert_eq!(outcome.length as usize, bytes.len());
        assert_eq!(text::read(&bytes, 4096), Ok(job));
    }
    let mut full = Area::empty(64, 64);
    full.raster.fill(1);
    assert_eq!(text::written(&Job { area: full, allowance: 64 }).len(), 4613);
}

#[test]
fn a_text_is_accepted_only_in_its_one_form() {
    let mut accepted = 0;
    let mut one_form = |text: &[u8]| {
        if let Ok(job) = text::read(text, 4096) {
            assert_eq!(text::written(&job).as_bytes(), text);
            accepted += 1;
        }
    };
    for at in 0..PLUS.len() {
        for byte in 0..=255 {
            let mut text = PLUS.as_bytes().to_vec();
            text[at] = byte;
            one_form(&text);
        }
    }
    let mut random = Random::new(6);
    for _ in 0..20000 {
        let area = any_area(&mut random, 8, 8);
        let mut text = text::written(&Job { area, allowance: random.below(65) as u64 }).into_bytes();
        damage_text(&mut random, &mut text);
        one_form(&text);
    }
    assert!(accepted > 500, "{accepted} were accepted");
}

#[test]
fn what_is_printed_can_be_read_back() {
    assert_eq!(text::printed(&text::parse_printed(PLUS_PRINTED).unwrap()), PLUS_PRINTED);
    let mut random = Random::new(7);
    for _ in 0..1000 {
        let mut area = any_area(&mut random, 12, 12);
        if random.one_in(4) {
            damage_raster(&mut random, &mut area);
        }
        let numbers = (area.width as u64, area.height as u64, random.below(9) as u64);
        let covered = rules::cover(numbers, &area.raster, 256, 128);
        assert_eq!(text::parse_printed(&text::printed(&covered)), Some(covered));
    }
}
