//! Writes Gerber files by the exported function into a folder, for a viewer: of each area NAME.gbr, and NAME.txt with its squares
//! from the top row down, NAME being its number, the version and the pitch. Origins lie left of, below and right of panel zero.

use keekaboor_tests::areas::{Area, Random};
use keekaboor_tests::ffi;
use keekaboor_tests::gerber::{Frame, FILE_ROOM};
use keekaboor_tests::rules::{FLASH_ROOM, MARK_ROOM};
use std::path::Path;

const AREAS: usize = 24;

fn squares(area: &Area) -> String {
    let square = |column, row| if area.copper(column, row) { '#' } else { '.' };
    let row = |row| (0..area.width).map(|column| square(column, row)).collect::<String>() + "\n";
    (0..area.height).rev().map(row).collect()
}

fn main() {
    let folder = std::env::args().nth(1).expect("the folder to write into");
    let mut random = Random::new(0x6765_7262_76);
    for k in 0..AREAS {
        let (width, height) = if k == 0 { (3, 3) } else { (random.from_to(2, 24), random.from_to(2, 24)) };
        let mut column = |c: usize| {
            let (a, b) = if k == 0 {
                (usize::from(c != 1), 1 + usize::from(c == 1))
            } else {
                (random.below(height), random.below(height))
            };
            Some((a.min(b), a.max(b)))
        };
        let spans: Vec<_> = (0..width).map(&mut column).collect();
        let area = Area::from_spans(height, &spans);
        let pitch = [1_000_000, 5_000][k % 2];
        let origin = |n: usize| [0, -3_000_000_000, 1_234_567_891, -77][n % 4];
        for version in [1, 2] {
            let frame = Frame { version, pitch, x: origin(k), y: origin(k / 2 + 1) };
            let (mut flashes, mut marks, mut file) = ([0; FLASH_ROOM], [0; MARK_ROOM], vec![0; FILE_ROOM]);
            let numbers = (width as u64, height as u64, 64);
            let o = ffi::write_gerber(numbers, &area.raster, (&mut flashes, &mut marks), frame, &mut file);
            assert_eq!(o.answer, 0, "area {k}");
            let name = Path::new(&folder).join(format!("{k:02}-{version}-{pitch}"));
            std::fs::write(name.with_extension("gbr"), &file[..o.length as usize]).unwrap();
            std::fs::write(name.with_extension("txt"), squares(&area)).unwrap();
        }
    }
}
