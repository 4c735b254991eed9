//! The neck: the area that the old program lost. It merged the slices' spans and then fetched the rows
//! under the index that each span had before the merge: the rows of the interval that a span came from.
//! Rule 6 takes them for the interval itself. Needs no static library.

use keekaboor_tests::areas::Area;
use keekaboor_tests::old;
use keekaboor_tests::rules::{self, Flash};
use keekaboor_tests::search::{is_cover, Rectangle};
use keekaboor_tests::text;

const JOB: &str = include_str!("../../examples/neck.job");
const PRINTED: &str = include_str!("../../examples/neck.out");

fn neck() -> Area {
    text::read(JOB.as_bytes(), text::RASTER_ROOM).unwrap().area
}

fn covers(area: &Area, list: &[Flash]) -> bool {
    let rectangle = |&[first, last, bottom, top]: &Flash| Rectangle { first, last, bottom, top };
    is_cover(area, &list.iter().map(rectangle).collect::<Vec<_>>())
}

#[test]
fn the_example_prints_the_whole_neck() {
    assert_eq!(text::program(JOB.as_bytes()), PRINTED);
    let area = neck();
    assert!(covers(&area, &rules::flashes(&area)));
}

#[test]
fn rows_of_the_interval_before_the_merge_give_one_flash_two_rows_short() {
    let area = neck();
    let (right, old) = (rules::flashes(&area), old::flashes(&area));
    assert_eq!(right.len(), old.len());
    let differing: Vec<_> = right.iter().zip(&old).filter(|(new, old)| new != old).collect();
    assert_eq!(differing.len(), 1, "{differing:?}");
    let (&[first, last, bottom, top], &[old_first, old_last, old_bottom, old_top]) = differing[0];
    assert_eq!((first, last), (old_first, old_last));
    assert_eq!((top - bottom + 1) - (old_top - old_bottom + 1), 2);
    assert!(!covers(&area, &old));
}

#[test]
fn where_nothing_merges_the_old_program_was_right() {
    let area = Area::of_rows(&["#..", "##.", "###"]);
    assert_eq!(old::flashes(&area), rules::flashes(&area));
}
