//! An independent check of flash lists from outside (02, R-5): over whole lines, with a table of the covered squares.

use crate::areas::Area;
use crate::ffi::CheckOutcome;
use crate::rules::{self, Refusal, FLASH_ROOM};
use crate::text;

/// The most flashes of a list.
pub const LIST_LIMIT: usize = 1024;

pub const SOUND: u64 = 1;
pub const BAD: u64 = 2;
pub const BARE: u64 = 3;

/// A flash as its line has it, which need be none of the area's: first column, last column, bottom row, top row.
pub type Said = [u64; 4];

pub fn line([first, last, bottom, top]: Said) -> String {
    format!("flash\t{first}\t{last}\t{bottom}\t{top}\n")
}

/// The list that a text says: 16 with its line, then 17.
pub fn read(list: &[u8]) -> Result<Vec<Said>, Refusal> {
    let mut flashes = Vec::new();
    for (index, line) in list.split_inclusive(|&byte| byte == b'\n').enumerate() {
        flashes.push(text::flash_line(line).ok_or((16, index as u64 + 1, 0))?);
    }
    if flashes.len() > LIST_LIMIT {
        return Err((17, 0, 0));
    }
    Ok(flashes)
}

fn in_copper(area: &Area, [first, last, bottom, top]: Said) -> bool {
    let on_the_grid = last < area.width as u64 && top < area.height as u64;
    first <= last
        && bottom <= top
        && on_the_grid
        && (bottom..=top).all(|row| (first..=last).all(|column| area.copper(column as usize, row as usize)))
}

/// The first copper square in raster order that no flash holds. The flashes lie in the copper.
fn bare_square(area: &Area, flashes: &[Said]) -> Option<(u64, u64)> {
    let mut covered = vec![false; area.width * area.height];
    for &[first, last, bottom, top] in flashes {
        for row in bottom..=top {
            for column in first..=last {
                covered[row as usize * area.width + column as usize] = true;
            }
        }
    }
    let at = (0..covered.len()).find(|&at| area.raster[at] == 1 && !covered[at])?;
    Some(((at % area.width) as u64, (at / area.width) as u64))
}

fn judged(
    numbers: (u64, u64, u64),
    raster: &[u8],
    list: &[u8],
    mark_room: usize,
) -> Result<(CheckOutcome, Vec<u8>), Refusal> {
    let area = rules::checked(numbers, raster, FLASH_ROOM, mark_room)?;
    let flashes = read(list)?;
    let counted = CheckOutcome { flashes: flashes.len() as u64, ..CheckOutcome::default() };
    if let Some(index) = flashes.iter().position(|&flash| !in_copper(&area, flash)) {
        return Ok((CheckOutcome { verdict: BAD, place_x: index as u64 + 1, ..counted }, Vec::new()));
    }
    if let Some((place_x, place_y)) = bare_square(&area, &flashes) {
        return Ok((CheckOutcome { verdict: BARE, place_x, place_y, ..counted }, Vec::new()));
    }
    let ours = rules::cover((numbers.0, numbers.1, rules::LIMIT), raster, FLASH_ROOM, mark_room);
    let above = counted.flashes - ours.outcome.flashes;
    Ok((CheckOutcome { verdict: SOUND, above, marks: ours.outcome.marks, ..counted }, ours.marks))
}

/// The outcome of the check, and what it writes at the beginning of the mark room.
pub fn check(numbers: (u64, u64, u64), raster: &[u8], list: &[u8], mark_room: usize) -> (CheckOutcome, Vec<u8>) {
    judged(numbers, raster, list, mark_room).unwrap_or_else(|(answer, place_x, place_y)| {
        (CheckOutcome { answer, place_x, place_y, ..CheckOutcome::default() }, Vec::new())
    })
}
