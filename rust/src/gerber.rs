//! An independent writer and reader of Gerber files: document 02's, over whole lines.
//! Coordinates are 128 bit, so that nothing has to be said about overflow.

use crate::ffi::Outcome;
use crate::rules::{self, Covered, Refusal};

pub const FILE_ROOM: usize = 8192;
const GRID: usize = 64;
const MOST_FLASHES: usize = 64;
const TEN_DIGITS: i128 = 9_999_999_999;

/// First column, last column, bottom row, top row.
pub type Flash = [u8; 4];

/// The version, the pitch, and the origin: the bottom left corner of square (0, 0).
#[derive(Clone, Copy, Debug)]
pub struct Frame {
    pub version: u64,
    pub pitch: u64,
    pub x: i64,
    pub y: i64,
}

impl Frame {
    fn checked(self) -> Result<Frame, Refusal> {
        if !matches!(self.version, 1 | 2) {
            return Err((21, 0, 0));
        }
        let good = (2..=1_000_000).contains(&self.pitch) && self.pitch % 2 == 0;
        good.then_some(self).ok_or((13, 0, 0))
    }

    /// Twice the centre is the sum of the two edges.
    fn centre(self, origin: i64, first: u8, last: u8) -> i128 {
        let edge = |line: i128| origin as i128 + line * self.pitch as i128;
        let twice = edge(first as i128) + edge(last as i128 + 1);
        assert_eq!(twice % 2, 0);
        twice / 2
    }

    fn centres(self, flash: Flash) -> (i128, i128) {
        (self.centre(self.x, flash[0], flash[1]), self.centre(self.y, flash[2], flash[3]))
    }
}

fn size(flash: Flash) -> (u8, u8) {
    (flash[1] - flash[0] + 1, flash[3] - flash[2] + 1)
}

fn aperture_line(pitch: u64, number: usize, (wide, high): (u8, u8)) -> String {
    let length = |squares: u8| {
        let nanometres = squares as u64 * pitch;
        format!("{}.{:06}", nanometres / 1_000_000, nanometres % 1_000_000)
    };
    format!("%ADD{number}R,{}X{}*%\n", length(wide), length(high))
}

fn head_lines(version: u64) -> [&'static str; 3] {
    let first = match version {
        1 => "G04 #@! TF.FileFunction,Copper,L1,Top*\n",
        _ => "%TF.FileFunction,Copper,L1,Top*%\n",
    };
    [first, "%FSLAX46Y46*%\n", "%MOMM*%\n"]
}

/// The lines before the apertures.
pub fn head(version: u64) -> String {
    head_lines(version).concat()
}

/// The file of a list of flashes.
pub fn written(frame: Frame, flashes: &[Flash]) -> String {
    let mut sizes = Vec::new();
    for &flash in flashes {
        if !sizes.contains(&size(flash)) {
            sizes.push(size(flash));
        }
    }
    let mut text = head(frame.version);
    for (k, &of) in sizes.iter().enumerate() {
        text += &aperture_line(frame.pitch, 10 + k, of);
    }
    let mut current = None;
    for &flash in flashes {
        if current != Some(size(flash)) {
            text += &format!("D{}*\n", 10 + sizes.iter().position(|&of| of == size(flash)).unwrap());
            current = Some(size(flash));
        }
        let (x, y) = frame.centres(flash);
        text += &format!("X{x}Y{y}D03*\n");
    }
    text + "M02*\n"
}

/// What writing a file gives: the cover's outcome and records, and the file.
pub struct Written {
    pub covered: Covered,
    pub file: String,
}

/// All that the cover does, then 21, 13, 14, 15.
pub fn write(
    numbers: (u64, u64, u64),
    raster: &[u8],
    frame: Frame,
    (flash_room, mark_room, file_room): (usize, usize, usize),
) -> Written {
    let covered = rules::cover(numbers, raster, flash_room, mark_room);
    if covered.outcome.answer != 0 {
        return Written { covered, file: String::new() };
    }
    let flashes: Vec<Flash> = covered.flashes.chunks(4).map(|record| record.try_into().unwrap()).collect();
    let checked = || {
        let frame = frame.checked()?;
        let long = |z: i128| z.abs() > TEN_DIGITS;
        if flashes.iter().map(|&flash| frame.centres(flash)).any(|(x, y)| long(x) || long(y)) {
            return Err((14, 0, 0));
        }
        if file_room < FILE_ROOM {
            return Err((15, 0, 0));
        }
        Ok(written(frame, &flashes))
    };
    match checked() {
        Ok(file) => Written { covered, file },
        Err((answer, place_x, place_y)) => Written {
            covered: Covered {
                outcome: Outcome { answer, place_x, place_y, ..Outcome::default() },
                flashes: Vec::new(),
                marks: Vec::new(),
            },
            file: String::new(),
        },
    }
}

/// A decimal number of at most so many digits, with no leading zero.
fn number(text: &str, digits: usize) -> Option<i128> {
    let plain = !text.is_empty() && text.len() <= digits && text.bytes().all(|byte| byte.is_ascii_digit());
    (plain && (text.len() == 1 || !text.starts_with('0'))).then(|| text.parse().unwrap())
}

/// The same with a minus before it; never before 0.
fn signed(text: &str) -> Option<i128> {
    match text.strip_prefix('-') {
        Some(digits) => number(digits, 10).filter(|&z| z != 0).map(|z| -z),
        None => number(text, 10),
    }
}

/// A length in squares, 1 to 64, from millimetres with six decimals.
fn squares(text: &str, pitch: u64) -> Option<u8> {
    let (whole, decimals) = text.split_once('.')?;
    let six = decimals.len() == 6 && decimals.bytes().all(|byte| byte.is_ascii_digit());
    let nanometres = number(whole, 9)? * 1_000_000 + six.then(|| decimals.parse::<i128>().unwrap())?;
    let squares = nanometres / pitch as i128;
    (nanometres % pitch as i128 == 0 && (1..=GRID as i128).contains(&squares)).then_some(squares as u8)
}

/// What the lines before have said.
#[derive(Default)]
struct Before {
    heads: usize,
    sizes: Vec<(u8, u8)>,
    used: usize,
    current: Option<usize>,
    selected: bool,
    flashes: Vec<Flash>,
    over: bool,
}

impl Before {
    /// Whether a line is as ruled; if it is, it counts among those before the next.
    fn accepts(&mut self, line: &str, frame: Frame) -> bool {
        let Some(text) = line.strip_suffix('\n') else { return false };
        if self.over {
            return false;
        }
        if self.heads < 3 {
            self.heads += 1;
            // under either version the first line may be that of either
            return [1, 2].iter().any(|&version| line == head_lines(version)[self.heads - 1]);
        }
        self.aperture(text, frame)
            .or_else(|| self.select(text))
            .or_else(|| self.flash(text, frame))
            .or_else(|| self.end(text))
            .is_some()
    }

    fn aperture(&mut self, text: &str, frame: Frame) -> Option<()> {
        let (number, form) = text.strip_prefix("%ADD")?.strip_suffix("*%")?.split_once("R,")?;
        let (wide, high) = form.split_once('X')?;
        let of = (squares(wide, frame.pitch)?, squares(high, frame.pitch)?);
        let next = self::number(number, 3)? == 10 + self.sizes.len() as i128;
        let room = self.sizes.len() < MOST_FLASHES;
        (next && room && self.current.is_none() && !self.sizes.contains(&of)).then(|| self.sizes.push(of))
    }

    fn select(&mut self, text: &str) -> Option<()> {
        let k = number(text.strip_prefix('D')?.strip_suffix('*')?, 3)?.checked_sub(10)?;
        let k = usize::try_from(k).ok()?;
        let known = k < self.sizes.len() && k <= self.used;
        if !known || self.selected || self.current == Some(k) {
            return None;
        }
        self.used = self.used.max(k + 1);
        self.current = Some(k);
        self.selected = true;
        Some(())
    }

    fn flash(&mut self, text: &str, frame: Frame) -> Option<()> {
        let (x, y) = text.strip_prefix('X')?.strip_suffix("D03*")?.split_once('Y')?;
        let (wide, high) = self.sizes[self.current?];
        let (first, last) = edges(signed(x)?, frame.x, wide, frame.pitch)?;
        let (bottom, top) = edges(signed(y)?, frame.y, high, frame.pitch)?;
        if self.flashes.len() == MOST_FLASHES {
            return None;
        }
        self.flashes.push([first, last, bottom, top]);
        self.selected = false;
        Some(())
    }

    fn end(&mut self, text: &str) -> Option<()> {
        let good = text == "M02*" && self.used == self.sizes.len() && !self.selected;
        good.then(|| self.over = true)
    }
}

/// The first and the last square of a flash along one axis, if its edges are grid lines.
fn edges(centre: i128, origin: i64, squares: u8, pitch: u64) -> Option<(u8, u8)> {
    let twice = 2 * (centre - origin as i128) - squares as i128 * pitch as i128;
    let step = 2 * pitch as i128;
    let (first, last) = (twice / step, twice / step + squares as i128 - 1);
    (twice >= 0 && twice % step == 0 && last < GRID as i128).then_some((first as u8, last as u8))
}

/// Reading a file back: 3, 21, 13, then 30 with its line.
pub fn read(text: &[u8], frame: Frame, flash_room: usize) -> Result<Vec<Flash>, Refusal> {
    if flash_room < rules::FLASH_ROOM {
        return Err((3, 0, 0));
    }
    let frame = frame.checked()?;
    let mut before = Before::default();
    let mut count = 0;
    for line in text.split_inclusive(|&byte| byte == b'\n') {
        count += 1;
        let good = std::str::from_utf8(line).map_or(false, |line| before.accepts(line, frame));
        if !good {
            return Err((30, count, 0));
        }
    }
    if !before.over {
        return Err((30, count + 1, 0));
    }
    Ok(before.flashes)
}
