//! Areas, jobs and texts to try: a seeded generator of areas whose columns are unbroken, in five
//! families, and of damaged rasters and texts.

/// Random numbers that are the same on every machine: splitmix64.
pub struct Random(u64);

impl Random {
    pub fn new(seed: u64) -> Random {
        Random(seed)
    }

    pub fn number(&mut self) -> u64 {
        self.0 = self.0.wrapping_add(0x9e37_79b9_7f4a_7c15);
        let mut z = self.0;
        z = (z ^ (z >> 30)).wrapping_mul(0xbf58_476d_1ce4_e5b9);
        z = (z ^ (z >> 27)).wrapping_mul(0x94d0_49bb_1331_11eb);
        z ^ (z >> 31)
    }

    /// A number below n.
    pub fn below(&mut self, n: usize) -> usize {
        (self.number() % n as u64) as usize
    }

    /// A number from a to b, both included.
    pub fn from_to(&mut self, a: usize, b: usize) -> usize {
        a + self.below(b - a + 1)
    }

    pub fn one_in(&mut self, n: usize) -> bool {
        self.below(n) == 0
    }

    pub fn bytes(&mut self, count: usize) -> Vec<u8> {
        (0..count).map(|_| self.number() as u8).collect()
    }
}

/// A grid of squares with copper on some of them.
#[derive(Clone, Debug, PartialEq, Eq)]
pub struct Area {
    pub width: usize,
    pub height: usize,
    pub raster: Vec<u8>,
}

/// The rows of copper in a column, bottom and top, or none.
pub type Span = Option<(usize, usize)>;

impl Area {
    pub fn empty(width: usize, height: usize) -> Area {
        Area { width, height, raster: vec![0; width * height] }
    }

    pub fn from_spans(height: usize, spans: &[Span]) -> Area {
        let mut area = Area::empty(spans.len(), height);
        for (column, span) in spans.iter().enumerate() {
            if let Some((bottom, top)) = *span {
                (bottom..=top).for_each(|row| area.set(column, row, 1));
            }
        }
        area
    }

    /// As document 01 gives areas: each column's bottom and top, in the smallest grid.
    pub fn of_columns(columns: &[(usize, usize)]) -> Area {
        let height = columns.iter().map(|&(_, top)| top + 1).max().unwrap();
        Area::from_spans(height, &columns.iter().map(|&span| Some(span)).collect::<Vec<_>>())
    }

    /// As the job text shows areas: rows from the top down, `#` for copper.
    pub fn of_rows(rows: &[&str]) -> Area {
        let mut area = Area::empty(rows[0].len(), rows.len());
        for (row, line) in rows.iter().rev().enumerate() {
            for (column, square) in line.bytes().enumerate() {
                area.set(column, row, (square == b'#') as u8);
            }
        }
        area
    }

    pub fn copper(&self, column: usize, row: usize) -> bool {
        self.raster[row * self.width + column] == 1
    }

    pub fn set(&mut self, column: usize, row: usize, byte: u8) {
        self.raster[row * self.width + column] = byte;
    }

    /// Every square, in raster order.
    pub fn squares(&self) -> impl Iterator<Item = (usize, usize)> + '_ {
        (0..self.height).flat_map(move |row| (0..self.width).map(move |column| (column, row)))
    }
}

#[derive(Clone, Debug, PartialEq, Eq)]
pub struct Job {
    pub area: Area,
    pub allowance: u64,
}

impl Job {
    /// Width, height and allowance, as the exported functions take them.
    pub fn numbers(&self) -> (u64, u64, u64) {
        (self.area.width as u64, self.area.height as u64, self.allowance)
    }
}

#[derive(Clone, Copy, Debug, PartialEq, Eq)]
pub enum Family {
    /// Each column's ends stand near those of the one before.
    Walk,
    /// Each column by itself.
    Columns,
    /// All columns stand on row 0.
    Histogram,
    /// Columns of like length that climb or fall.
    Stair,
    /// Long teeth and short gaps in turn, on a common bar.
    Comb,
}

pub const FAMILIES: [Family; 5] = [Family::Walk, Family::Columns, Family::Histogram, Family::Stair, Family::Comb];

/// An area of a family. Up to `plateau` neighbouring columns are alike, which keeps the number of
/// slices of a wide area small; about one run of columns in `gap` is empty (0: none).
pub fn area(random: &mut Random, family: Family, width: usize, height: usize, plateau: usize, gap: usize) -> Area {
    let mut spans: Vec<Span> = Vec::new();
    let mut shape = Shape::new(random, family, height);
    while spans.len() < width {
        let span = shape.next(random);
        let span = if gap > 0 && random.one_in(gap) { None } else { Some(span) };
        let run = random.from_to(1, plateau).min(width - spans.len());
        spans.extend(std::iter::repeat(span).take(run));
    }
    Area::from_spans(height, &spans)
}

/// The next column of a family, from the one before.
struct Shape {
    family: Family,
    height: usize,
    bottom: usize,
    top: usize,
    rising: bool,
    tooth: bool,
}

impl Shape {
    fn new(random: &mut Random, family: Family, height: usize) -> Shape {
        let (bottom, top) = any_span(random, height);
        Shape { family, height, bottom, top, rising: random.one_in(2), tooth: false }
    }

    fn next(&mut self, random: &mut Random) -> (usize, usize) {
        let highest = self.height - 1;
        match self.family {
            Family::Walk => {
                let a = near(random, self.bottom, highest);
                let b = near(random, self.top, highest);
                self.bottom = a.min(b);
                self.top = a.max(b);
            }
            Family::Columns => (self.bottom, self.top) = any_span(random, self.height),
            Family::Histogram => (self.bottom, self.top) = (0, random.below(self.height)),
            Family::Stair => self.climb(random),
            Family::Comb => {
                self.tooth = !self.tooth;
                let bar = self.height / 2;
                self.bottom = if self.tooth { random.from_to(0, bar) } else { bar };
                self.top = if self.tooth { random.from_to(bar, highest) } else { bar };
            }
        }
        (self.bottom, self.top)
    }

    fn climb(&mut self, random: &mut Random) {
        let highest = self.height - 1;
        let length = (self.top - self.bottom).min(highest / 2);
        let step = random.below(2 + length.min(2));
        self.bottom = if self.rising { self.bottom + step } else { self.bottom.saturating_sub(step) };
        if self.bottom + length > highest {
            self.bottom = highest - length;
            self.rising = false;
        } else if self.bottom == 0 {
            self.rising = true;
        }
        self.top = self.bottom + length;
    }
}

fn any_span(random: &mut Random, height: usize) -> (usize, usize) {
    let (a, b) = (random.below(height), random.below(height));
    (a.min(b), a.max(b))
}

fn near(random: &mut Random, at: usize, highest: usize) -> usize {
    (at + random.below(5)).saturating_sub(2).min(highest)
}

/// An area of any family, of any size up to the given one.
pub fn any_area(random: &mut Random, most_columns: usize, most_rows: usize) -> Area {
    let family = FAMILIES[random.below(FAMILIES.len())];
    let (width, height) = (random.from_to(1, most_columns), random.from_to(1, most_rows));
    let plateau = random.from_to(1, 4);
    let gap = [0, 0, 6, 12][random.below(4)];
    area(random, family, width, height, plateau, gap)
}

/// Every raster of a grid of few squares, broken columns included.
pub fn every_area(width: usize, height: usize) -> impl Iterator<Item = Area> {
    let squares = width * height;
    (0u64..1 << squares).map(move |bits| {
        let raster = (0..squares).map(|at| (bits >> at & 1) as u8).collect();
        Area { width, height, raster }
    })
}

/// Spoils a raster: some bytes that are neither 0 nor 1, or squares set and cleared so that columns break.
pub fn damage_raster(random: &mut Random, area: &mut Area) {
    for _ in 0..random.from_to(1, 3) {
        let at = random.below(area.raster.len());
        area.raster[at] = match random.below(3) {
            0 => random.from_to(2, 255) as u8,
            _ => 1 - area.raster[at].min(1),
        };
    }
}

/// Spoils a text in one of the ways in which files go bad.
pub fn damage_text(random: &mut Random, text: &mut Vec<u8>) {
    let marks: &[u8] = b"\t\n\r #.0123456789-+shaperow\0\xff";
    let at = random.below(text.len() + 1);
    let mark = marks[random.below(marks.len())];
    match random.below(11) {
        0 => text.insert(at, mark),
        1 => drop(text.get_mut(at).map(|byte| *byte = mark)),
        2 => drop(text.get_mut(at).map(|byte| *byte = random.number() as u8)),
        3 if at < text.len() => drop(text.remove(at)),
        4 => text.truncate(at),
        5 => text.push(mark),
        6 => swap_lines(random, text),
        7 => drop_or_double_line(random, text),
        8 => change_number(random, text),
        9 => grow(random, text),
        _ => *text = text.iter().flat_map(|&byte| if byte == b'\n' { b"\r\n".to_vec() } else { vec![byte] }).collect(),
    }
}

fn lines(text: &[u8]) -> Vec<Vec<u8>> {
    text.split_inclusive(|&byte| byte == b'\n').map(<[u8]>::to_vec).collect()
}

fn swap_lines(random: &mut Random, text: &mut Vec<u8>) {
    let mut lines = lines(text);
    if !lines.is_empty() {
        let (a, b) = (random.below(lines.len()), random.below(lines.len()));
        lines.swap(a, b);
    }
    *text = lines.concat();
}

fn drop_or_double_line(random: &mut Random, text: &mut Vec<u8>) {
    let mut lines = lines(text);
    if !lines.is_empty() {
        let at = random.below(lines.len());
        let line = lines.remove(at);
        if random.one_in(2) {
            lines.insert(at, line.clone());
            lines.insert(at, line);
        }
    }
    *text = lines.concat();
}

/// Makes a text about as long as the longest job, or longer.
fn grow(random: &mut Random, text: &mut Vec<u8>) {
    let lines = lines(text);
    let wanted = random.from_to(4600, 4630);
    while text.len() < wanted && !lines.is_empty() {
        text.extend(&lines[random.below(lines.len())]);
    }
    if random.one_in(2) {
        text.truncate(wanted);
    }
}

/// Puts another number in the place of one of the numbers.
fn change_number(random: &mut Random, text: &mut Vec<u8>) {
    const NUMBERS: [&str; 16] =
        ["0", "1", "00", "01", "63", "64", "65", "100", "999", "1000", "9999", "10000", "99999", "-1", "+1", ""];
    let is_start = |at: usize| text[at].is_ascii_digit() && (at == 0 || !text[at - 1].is_ascii_digit());
    let starts: Vec<usize> = (0..text.len()).filter(|&at| is_start(at)).collect();
    if starts.is_empty() {
        return;
    }
    // the numbers of line 1 decide more than those of the rows
    let at = starts[if random.one_in(2) { random.below(starts.len()) } else { random.below(starts.len().min(3)) }];
    let end = (at..text.len()).find(|&i| !text[i].is_ascii_digit()).unwrap_or(text.len());
    let number = NUMBERS[random.below(NUMBERS.len())].bytes();
    text.splice(at..end, number);
}
