//! An independent reader and writer of the job text, and of what the program prints: document 01's
//! 'Job text', over whole lines.

use crate::areas::{Area, Job};
use crate::ffi::{Outcome, ReadOutcome, WriteOutcome};
use crate::rules::{self, Covered, Refusal, LIMIT};

pub const RASTER_ROOM: usize = 4096;
/// The longest text of a job, and the least room to write one.
pub const TEXT_LIMIT: usize = 4613;

/// The one text of a job.
pub fn written(job: &Job) -> String {
    let area = &job.area;
    let mut text = format!("shape\t{}\t{}\t{}\n", area.width, area.height, job.allowance);
    for row in (0..area.height).rev() {
        let squares = (0..area.width).map(|column| if area.copper(column, row) { '#' } else { '.' });
        text += &format!("row\t{row}\t{}\n", squares.collect::<String>());
    }
    text
}

/// Writing a job: 1, 2, 5, 6, 7. With it goes the text, empty on a refusal.
pub fn write_job(numbers: (u64, u64, u64), raster: &[u8], text_room: usize) -> (WriteOutcome, Vec<u8>) {
    let checked = || {
        let (width, height, allowance) = numbers;
        let area = rules::sized(width, height, raster)?;
        if text_room < TEXT_LIMIT {
            return Err((5, 0, 0));
        }
        if allowance > LIMIT {
            return Err((6, 0, 0));
        }
        rules::bytes_checked(&area)?;
        Ok(Job { area, allowance })
    };
    match checked() {
        Ok(job) => {
            let text = written(&job).into_bytes();
            (WriteOutcome { length: text.len() as u64, ..WriteOutcome::default() }, text)
        }
        Err((answer, place_x, place_y)) => (WriteOutcome { answer, place_x, place_y, length: 0 }, Vec::new()),
    }
}

/// A decimal number of one to four digits, no leading zero, no sign.
fn number(field: &[u8]) -> Option<u64> {
    let digits = field.iter().all(u8::is_ascii_digit) && (1..=4).contains(&field.len());
    let plain = digits && (field.len() == 1 || field[0] != b'0');
    plain.then(|| field.iter().fold(0, |n, digit| 10 * n + (digit - b'0') as u64))
}

/// A line's fields, if it ends with a line feed.
fn fields(line: &[u8]) -> Option<Vec<&[u8]>> {
    let (last, body) = line.split_last()?;
    (*last == b'\n').then(|| body.split(|&byte| byte == b'\t').collect())
}

fn shape_line(line: &[u8]) -> Option<(u64, u64, u64)> {
    match fields(line)?[..] {
        [b"shape", width, height, allowance] => Some((number(width)?, number(height)?, number(allowance)?)),
        _ => None,
    }
}

fn row_line(line: &[u8], row: usize, width: usize) -> Option<Vec<u8>> {
    let square = |byte: &u8| match byte {
        b'#' => Some(1),
        b'.' => Some(0),
        _ => None,
    };
    match fields(line)?[..] {
        [b"row", at, body] if number(at) == Some(row as u64) && body.len() == width => {
            body.iter().map(square).collect()
        }
        _ => None,
    }
}

/// The four numbers of a flash line from outside.
pub fn flash_line(line: &[u8]) -> Option<[u64; 4]> {
    match fields(line)?[..] {
        [b"flash", first, last, bottom, top] => Some([number(first)?, number(last)?, number(bottom)?, number(top)?]),
        _ => None,
    }
}

/// Reading a job: 12, 10, 11 for line 1, 1, 6, 11 for the rest in line order.
pub fn read(text: &[u8], raster_room: usize) -> Result<Job, Refusal> {
    if raster_room < RASTER_ROOM {
        return Err((12, 0, 0));
    }
    if text.len() > TEXT_LIMIT {
        return Err((10, 0, 0));
    }
    // a missing line is an empty one, which no line of a job is
    let mut lines = text.split_inclusive(|&byte| byte == b'\n');
    let mut next = move || lines.next().unwrap_or(b"");
    let (width, height, allowance) = shape_line(next()).ok_or((11, 1, 0))?;
    if ![width, height].iter().all(|n| (1..=LIMIT).contains(n)) {
        return Err((1, 0, 0));
    }
    if allowance > LIMIT {
        return Err((6, 0, 0));
    }
    let mut area = Area::empty(width as usize, height as usize);
    for (index, row) in (0..area.height).rev().enumerate() {
        let squares = row_line(next(), row, area.width).ok_or((11, index as u64 + 2, 0))?;
        area.raster[row * area.width..][..area.width].copy_from_slice(&squares);
    }
    if !next().is_empty() {
        return Err((11, height + 2, 0));
    }
    Ok(Job { area, allowance })
}

/// The outcome of reading, and what it writes at the beginning of the room.
pub fn read_job(text: &[u8], raster_room: usize) -> (ReadOutcome, Vec<u8>) {
    match read(text, raster_room) {
        Ok(job) => {
            let (width, height, allowance) = job.numbers();
            (ReadOutcome { width, height, allowance, ..ReadOutcome::default() }, job.area.raster)
        }
        Err((answer, place_x, place_y)) => {
            (ReadOutcome { answer, place_x, place_y, ..ReadOutcome::default() }, Vec::new())
        }
    }
}

fn line(word: &str, numbers: &[u64]) -> String {
    let fields: String = numbers.iter().map(|number| format!("\t{number}")).collect();
    format!("{word}{fields}\n")
}

/// An outcome as the program prints it.
pub fn printed(covered: &Covered) -> String {
    let o = &covered.outcome;
    let first = match o.answer {
        0 => line("cover", &[o.flashes, o.copper, o.flashed]),
        answer => line("refused", &[answer, o.place_x, o.place_y]),
    };
    let records = |word: &'static str, bytes: &[u8], size: usize| -> String {
        bytes.chunks(size).map(|record| line(word, &record.iter().map(|&b| b as u64).collect::<Vec<_>>())).collect()
    };
    first + &records("flash", &covered.flashes, 4) + &records("mark", &covered.marks, 2)
}

/// What was printed, read back.
pub fn parse_printed(text: &str) -> Option<Covered> {
    let mut covered = Covered { outcome: Outcome::default(), flashes: Vec::new(), marks: Vec::new() };
    for (at, line) in text.strip_suffix('\n')?.split('\n').enumerate() {
        let mut fields = line.split('\t');
        let word = fields.next()?;
        let numbers: Vec<u64> = fields.map(|field| field.parse().ok()).collect::<Option<_>>()?;
        let bytes = || numbers.iter().map(|&number| number as u8);
        match (at, word, &numbers[..]) {
            (0, "cover", [flashes, copper, flashed]) => {
                let (flashes, copper, flashed) = (*flashes, *copper, *flashed);
                covered.outcome = Outcome { flashes, copper, flashed, ..Outcome::default() }
            }
            (0, "refused", [answer, x, y]) => {
                covered.outcome = Outcome { answer: *answer, place_x: *x, place_y: *y, ..Outcome::default() }
            }
            (1.., "flash", [_, _, _, _]) => covered.flashes.extend(bytes()),
            (1.., "mark", [_, _]) => covered.marks.extend(bytes()),
            _ => return None,
        }
    }
    covered.outcome.marks = covered.marks.len() as u64 / 2;
    Some(covered)
}

/// What the cover program prints for a text: it reads first, then covers.
pub fn program(text: &[u8]) -> String {
    let covered = match read(text, RASTER_ROOM) {
        Ok(job) => rules::cover(job.numbers(), &job.area.raster, rules::FLASH_ROOM, rules::MARK_ROOM),
        Err((answer, place_x, place_y)) => Covered {
            outcome: Outcome { answer, place_x, place_y, ..Outcome::default() },
            flashes: Vec::new(),
            marks: Vec::new(),
        },
    };
    printed(&covered)
}
