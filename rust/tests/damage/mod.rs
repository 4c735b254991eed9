//! Damaged Gerber files: each rule of reading broken in turn, and bytes and lines changed at random.

use keekaboor_tests::areas::Random;

/// A file as lines without line feeds, with the places of its parts.
pub struct File {
    lines: Vec<String>,
    pitch: u64,
}

/// What is broken, and how; a file that has nothing to break stays as it is.
type Damage = fn(&mut File, &mut Random);

pub const KINDS: [(&str, Damage); 33] = [
    ("none", |_, _| ()),
    ("a head line changed", |file, random| change_byte(&mut file.lines[random.below(3)], random)),
    ("a head line missing", |file, random| drop(file.lines.remove(random.below(3)))),
    ("a first line that is half a comment", |file, random| {
        let attribute = "TF.FileFunction,Copper,L1,Top*";
        let line = [
            format!("{attribute}%"),
            format!("G04 {attribute}"),
            format!("G04 #@! %{attribute}%"),
            format!("%G04 #@! {attribute}%"),
        ];
        file.lines[0] = line[random.below(4)].clone();
    }),
    ("an aperture repeated", |file, random| {
        let sizes = file.places("%ADD");
        if sizes.len() > 1 {
            let (from, to) = (random.below(sizes.len() - 1), sizes.len() - 1);
            let size = file.lines[sizes[from]].split_once("R,").unwrap().1.to_string();
            let number = file.lines[sizes[to]].split_once("R,").unwrap().0.to_string();
            file.lines[sizes[to]] = format!("{number}R,{size}");
        }
    }),
    ("an aperture larger than the grid", |file, random| {
        let squares = 65 + random.number() % 3;
        file.new_size(random, |_, pitch| squares * pitch);
    }),
    ("an aperture of size 0", |file, random| file.new_size(random, |_, _| 0)),
    ("no whole number of squares", |file, random| {
        let odd = 1 + random.number() % (file.pitch - 1);
        file.new_size(random, |size, _| size + odd);
    }),
    ("an aperture out of number", |file, random| {
        let number = random.number() % 80;
        file.change(random, "%ADD", |line| format!("%ADD{number}R,{}", line.split_once("R,").unwrap().1));
    }),
    ("an aperture too many", |file, _| {
        let at = 3 + file.places("%ADD").len();
        let line = format!("%ADD{}R,{}X{}*%", 7 + at, millimetres(61 * file.pitch), millimetres(59 * file.pitch));
        file.lines.insert(at, line);
    }),
    ("65 apertures", |file, _| {
        file.lines.retain(|line| !line.starts_with("%ADD"));
        for k in 0..65 {
            let (wide, high) = (millimetres((k + 1).min(64) * file.pitch), millimetres((k / 64 + 1) * file.pitch));
            file.lines.insert(3 + k as usize, format!("%ADD{}R,{wide}X{high}*%", 10 + k));
        }
    }),
    ("decimals left out", |file, random| {
        file.change(random, "%ADD", |line| line.replacen("0*%", "*%", 1).replacen("0X", "X", 1))
    }),
    ("a size with a leading zero", |file, random| file.change(random, "%ADD", |line| line.replacen("R,", "R,0", 1))),
    ("an aperture after the first select", |file, random| {
        if let Some(&select) = file.places("D").first() {
            let line = file.lines.remove(random.from_to(3, select - 1));
            let at = random.from_to(select, file.lines.len() - 1);
            file.lines.insert(at, line);
        }
    }),
    ("selected again while current", |file, random| {
        let flashes = file.places("X");
        if !flashes.is_empty() {
            let at = flashes[random.below(flashes.len())];
            let select = file.lines[..at].iter().rev().find(|line| line.starts_with('D')).unwrap().clone();
            file.lines.insert(at + random.below(2), select);
        }
    }),
    ("a select straight after a select", |file, random| {
        let selects = file.places("D");
        if !selects.is_empty() {
            let (at, from) = (selects[random.below(selects.len())], selects[random.below(selects.len())]);
            let line = file.lines[from].clone();
            file.lines.insert(at + random.below(2), line);
        }
    }),
    ("an undefined aperture", |file, random| {
        let number = [0, 3, 9, 10 + file.places("%ADD").len() as u64, 74, 99, 100, 1 << 40][random.below(8)];
        file.change(random, "D", |_| format!("D{number}*"));
    }),
    ("out of first-use order", |file, random| {
        let number = 10 + random.below(file.places("%ADD").len() + 1);
        file.change(random, "D", |_| format!("D{number}*"));
    }),
    ("the end straight after a select", |file, random| {
        let end = file.lines.len() - 1;
        let number = 10 + random.below(file.places("%ADD").len() + 1);
        file.lines.insert(end, format!("D{number}*"));
    }),
    ("a flash before any select", |file, random| {
        let flashes = file.places("X");
        if !flashes.is_empty() {
            let line = file.lines[flashes[random.below(flashes.len())]].clone();
            file.lines.insert(random.from_to(3, flashes[0] - 1), line);
        }
    }),
    ("more than 64 flashes", |file, random| {
        let flashes = file.places("X");
        if let Some(&at) = flashes.last() {
            let line = file.lines[at].clone();
            let more = 65 - flashes.len() + random.below(2);
            (0..more).for_each(|_| file.lines.insert(at, line.clone()));
        }
    }),
    ("minus 0", |file, random| file.coordinate(random, |_, _| "-0".to_string())),
    ("a leading zero", |file, random| {
        file.coordinate(random, |z, _| if z < 0 { format!("-0{}", -z) } else { format!("0{z}") });
    }),
    ("a plus sign", |file, random| file.coordinate(random, |z, _| format!("+{z}"))),
    ("eleven digits", |file, random| {
        let tail = random.number() % 10_000_000_000;
        file.coordinate(random, |z, _| format!("{}1{tail:010}", if z < 0 { "-" } else { "" }));
    }),
    ("edges off the grid lines", |file, random| {
        let step = 1 + (random.number() % (file.pitch - 1)) as i64;
        file.coordinate(random, |z, _| (z + step).to_string());
    }),
    ("off the grid", |file, random| {
        let squares = [1, -1, 2, 60, 64, -64][random.below(6)];
        file.coordinate(random, |z, pitch| (z + squares * pitch as i64).to_string());
    }),
    ("another command", |file, random| {
        let command = ["D01*", "D02*", "D3*", "D03", "D03**", "D03* "][random.below(6)];
        file.change(random, "X", |line| line.replacen("D03*", command, 1));
    }),
    ("a missing end", |file, _| drop(file.lines.pop())),
    ("text past the end", |file, random| {
        let line = ["", "M02*", "D10*", "X0Y0D03*", "%MOMM*%"][random.below(5)];
        file.lines.push(line.to_string());
    }),
    ("a line doubled", |file, random| {
        let at = random.below(file.lines.len());
        let line = file.lines[at].clone();
        file.lines.insert(at, line);
    }),
    ("two lines exchanged", |file, random| {
        let (a, b) = (random.below(file.lines.len()), random.below(file.lines.len()));
        file.lines.swap(a, b);
    }),
    ("a byte changed", |file, random| {
        let at = random.below(file.lines.len());
        change_byte(&mut file.lines[at], random);
    }),
];

fn millimetres(nanometres: u64) -> String {
    format!("{}.{:06}", nanometres / 1_000_000, nanometres % 1_000_000)
}

/// Another byte for one of a line's, or one more, or one less.
fn change_byte(line: &mut String, random: &mut Random) {
    let mut bytes = std::mem::take(line).into_bytes();
    let at = random.below(bytes.len());
    let byte = b"0123456789.-+*%DXYR,\r \t\n"[random.below(24)];
    match random.below(3) {
        0 => bytes[at] = byte,
        1 => bytes.insert(at, byte),
        _ => drop(bytes.remove(at)),
    }
    *line = String::from_utf8(bytes).unwrap();
}

impl File {
    fn places(&self, begins: &str) -> Vec<usize> {
        (0..self.lines.len()).filter(|&at| self.lines[at].starts_with(begins)).collect()
    }

    /// One of the lines that begin so.
    fn change(&mut self, random: &mut Random, begins: &str, new: impl Fn(&str) -> String) {
        let places = self.places(begins);
        if !places.is_empty() {
            let at = places[random.below(places.len())];
            self.lines[at] = new(&self.lines[at]);
        }
    }

    /// One of an aperture's two sizes, in nanometres.
    fn new_size(&mut self, random: &mut Random, new: impl Fn(u64, u64) -> u64) {
        let (pitch, first) = (self.pitch, random.one_in(2));
        self.change(random, "%ADD", |line| {
            let (number, form) = line.strip_suffix("*%").unwrap().split_once("R,").unwrap();
            let (wide, high) = form.split_once('X').unwrap();
            let changed = |size: &str| millimetres(new(size.replace('.', "").parse().unwrap(), pitch));
            let (wide, high) =
                if first { (changed(wide), high.to_string()) } else { (wide.to_string(), changed(high)) };
            format!("{number}R,{wide}X{high}*%")
        });
    }

    /// One of a flash's two coordinates.
    fn coordinate(&mut self, random: &mut Random, new: impl Fn(i64, u64) -> String) {
        let (pitch, first) = (self.pitch, random.one_in(2));
        self.change(random, "X", |line| {
            let (x, y) = line[1..].strip_suffix("D03*").unwrap().split_once('Y').unwrap();
            let changed = |z: &str| new(z.parse().unwrap(), pitch);
            let (x, y) = if first { (changed(x), y.to_string()) } else { (x.to_string(), changed(y)) };
            format!("X{x}Y{y}D03*")
        });
    }
}

/// The k-th of a row of files made from sound ones: what was broken, and the file's bytes. Now and then its line feeds are damaged too.
pub fn damaged(random: &mut Random, k: usize, pitch: u64, sound: &str) -> (&'static str, Vec<u8>) {
    let (name, damage) = KINDS[k % KINDS.len()];
    let mut file = File { lines: sound.lines().map(str::to_string).collect(), pitch };
    damage(&mut file, random);
    let mut text: String = file.lines.iter().flat_map(|line| [line.as_str(), "\n"]).collect();
    if name != "none" {
        match random.below(40) {
            0 => drop(text.pop()),
            1 => text.truncate(random.below(text.len() + 1)),
            2 => text = text.replacen('\n', "\r\n", 1 + random.below(3)),
            _ => (),
        }
    }
    (name, text.into_bytes())
}
