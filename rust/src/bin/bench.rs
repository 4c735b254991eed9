//! The exported cover beside the exported one by the plain search, beside the independent implementation of the same plain
//! method, beside two forms written by hand, over bytes and as quick as could be over words, and beside plain row slices; the exported reader beside the independent one. All in one run and as code for one
//! processor: where the exported functions run under an emulator, so do the others, and the plain method is then in C.
//! Prints tables in Markdown.

use keekaboor_tests::areas::{area, Area, Family, Job, Random, FAMILIES};
use keekaboor_tests::ffi::{self, Engine, NATIVE};
use keekaboor_tests::{clock, rules, text};
use std::sync::atomic::{AtomicUsize, Ordering::Relaxed};
use std::time::Duration;

/// What the timed calls give ends here, so that none is left out.
static SINK: AtomicUsize = AtomicUsize::new(0);

/// Areas of each family and width, each covered so often that the clock can tell.
const AREAS: usize = 4;
const WIDTHS: [usize; 4] = [8, 16, 32, 64];
const ENOUGH: Duration = Duration::from_millis(3);
const PASSES: usize = 6;

/// The times of a line.
const COLUMNS: usize = 5;

/// The processor's time of one call: doubles the number of calls until they take long enough.
fn per_call(mut run: impl FnMut(u64) -> Duration) -> f64 {
    let mut times = 1;
    loop {
        let time = run(times);
        if time >= ENOUGH {
            return time.as_secs_f64() / times as f64;
        }
        times *= 2;
    }
}

fn timed(mut call: impl FnMut() -> usize) -> impl FnMut(u64) -> Duration {
    move |times| {
        let start = clock::now();
        for _ in 0..times {
            SINK.fetch_add(call(), Relaxed);
        }
        clock::now() - start
    }
}

fn of_plain(numbers: (u64, u64, u64), raster: &[u8]) -> f64 {
    if NATIVE {
        per_call(timed(|| rules::cover(numbers, raster, rules::FLASH_ROOM, rules::MARK_ROOM).flashes.len()))
    } else {
        of_engine(Engine::Plain, numbers, raster)
    }
}

fn of_engine(engine: Engine, numbers: (u64, u64, u64), raster: &[u8]) -> f64 {
    per_call(|times| ffi::time_cover(engine, times, numbers, raster))
}

/// One line of the table: its areas, and for each the best time yet of the cover, the cover by the plain search, the plain method and the forms by hand.
struct Line {
    family: Family,
    areas: Vec<(Area, [f64; COLUMNS])>,
}

impl Line {
    fn new(family: Family, width: usize) -> Line {
        let mut random = Random::new(width as u64);
        let areas =
            (0..AREAS).map(|_| (area(&mut random, family, width, width, 1, 0), [f64::INFINITY; COLUMNS])).collect();
        Line { family, areas }
    }

    fn measure(&mut self) {
        for (area, best) in &mut self.areas {
            let numbers = (area.width as u64, area.height as u64, 64);
            let now = [
                of_engine(Engine::Exported, numbers, &area.raster),
                of_engine(Engine::ExportedPlain, numbers, &area.raster),
                of_plain(numbers, &area.raster),
                of_engine(Engine::Bytes, numbers, &area.raster),
                of_engine(Engine::Quick, numbers, &area.raster),
            ];
            *best = [0, 1, 2, 3, 4].map(|column| best[column].min(now[column]));
        }
    }

    /// Prints the line; gives the ratios of the cover to the plain method and to the forms by hand.
    fn print(&self) -> [f64; 3] {
        let [cover, searched, plain, bytes, quick] = [0, 1, 2, 3, 4]
            .map(|column| 1e6 / AREAS as f64 * self.areas.iter().map(|(_, best)| best[column]).sum::<f64>());
        let over_rows = |area: &Area| (0..area.height).map(|row| rules::slices(area, row).len()).sum::<usize>();
        let slices: usize = self.areas.iter().map(|(area, _)| over_rows(area)).sum();
        let least: usize = self.areas.iter().map(|(area, _)| rules::flashes(area).len()).sum();
        println!(
            "| {} | {} | {cover:.2} | {searched:.2} | {plain:.2} | {bytes:.2} | {quick:.2} | {:.2} | {:.2} | {:.1} | {slices} | {least} | {:.0}% |",
            format!("{:?}", self.family).to_lowercase(),
            self.areas[0].0.width,
            cover / plain,
            cover / bytes,
            cover / quick,
            100.0 * (slices - least) as f64 / slices as f64
        );
        [cover / plain, cover / bytes, cover / quick]
    }
}

fn covers() {
    let mut lines: Vec<Line> =
        FAMILIES.iter().flat_map(|&family| WIDTHS.map(|width| Line::new(family, width))).collect();
    (0..PASSES).for_each(|_| lines.iter_mut().for_each(Line::measure));
    let plain = if NATIVE { "plain, Rust" } else { "plain, C" };
    println!("| family | columns | cover, µs | cover by the plain search, µs | {plain}, µs | bytes by hand, C, µs | words by hand, C, µs | cover / plain | cover / bytes | cover / words | row slices | least | saved |");
    println!("|---|--:|--:|--:|--:|--:|--:|--:|--:|--:|--:|--:|--:|");
    let mut largest = [0.0f64; 3];
    for line in &lines {
        let ratios = line.print();
        largest = [0, 1, 2].map(|column| largest[column].max(ratios[column]));
    }
    println!();
    let [to_plain, to_bytes, to_words] = largest;
    println!("Largest ratio of cover to plain: {to_plain:.2}; to bytes by hand: {to_bytes:.2}; to words by hand: {to_words:.1}.");
}

/// The widths at which one final set is measured, each twice the one before.
const DOUBLED: [usize; 3] = [16, 32, 64];
const FINAL_AREAS: usize = 16;

/// The time of one final set by a search, the mean over a family's areas of a width, from the best of the passes.
fn one_final_set(plain: bool, family: Family, width: usize) -> f64 {
    let mut random = Random::new(width as u64);
    let of_area = |area: Area| {
        let numbers = (area.width as u64, area.height as u64);
        // The starting set is made once in each call: what twice as many final sets take longer is theirs alone.
        let run = |times| ffi::time_final_sets(plain, times, numbers, &area.raster).0.as_secs_f64();
        let mut times = 1;
        while run(times) < ENOUGH.as_secs_f64() {
            times *= 2;
        }
        let best = |times| (0..PASSES).map(|_| run(times)).fold(f64::INFINITY, f64::min);
        (best(2 * times) - best(times)) / times as f64
    };
    let total: f64 = (0..FINAL_AREAS).map(|_| of_area(area(&mut random, family, width, width, 1, 0))).sum();
    1e6 / FINAL_AREAS as f64 * total
}

/// One final set of both searches, and how it grows where the width is doubled, and doubled again: 4 and 16 are quadratic.
fn final_sets() {
    println!("One final set by itself, the mean of {FINAL_AREAS} areas; quadratic growth is 4.0 for twice the width and 16.0 for four times.");
    println!();
    println!("| family | search | 16 columns, µs | 32 columns, µs | 64 columns, µs | 16 to 32 | 32 to 64 | 16 to 64 |");
    println!("|---|---|--:|--:|--:|--:|--:|--:|");
    for family in FAMILIES {
        for (name, plain) in [("swept", false), ("plain", true)] {
            let [a, b, c] = DOUBLED.map(|width| one_final_set(plain, family, width));
            let family = format!("{family:?}").to_lowercase();
            println!("| {family} | {name} | {a:.2} | {b:.2} | {c:.2} | {:.1} | {:.1} | {:.1} |", b / a, c / b, c / a);
        }
    }
}

fn readers() {
    println!("| job of | exported reader, MB/s | independent, Rust, MB/s | ratio of times |");
    println!("|--:|--:|--:|--:|");
    for width in [8, 64] {
        let job = Job { area: area(&mut Random::new(1), FAMILIES[0], width, width, 1, 0), allowance: 64 };
        let text = text::written(&job).into_bytes();
        let exported = per_call(|times| ffi::time_read_job(times, &text));
        let independent = per_call(timed(|| text::read_job(&text, text::RASTER_ROOM).1.len()));
        let speed = |time: f64| text.len() as f64 / time / 1e6;
        println!(
            "| {} bytes | {:.0} | {:.0} | {:.2} |",
            text.len(),
            speed(exported),
            speed(independent),
            exported / independent
        );
    }
}

/// The processor as the system names it.
fn processor() -> String {
    let all = std::fs::read_to_string("/proc/cpuinfo").unwrap_or_default();
    let name = all.lines().find(|line| line.starts_with("model name")).and_then(|line| line.split(':').nth(1));
    let count = all.lines().filter(|line| line.starts_with("processor")).count();
    format!("{}, {count} processors, {}", name.map_or("unnamed processor", str::trim), std::env::consts::ARCH)
}

fn main() {
    let how = if NATIVE {
        "natively"
    } else {
        "all columns as x86-64 code under the kit's emulator: ratios say something, times little"
    };
    println!("Ran on: {}; {how}. The C code was compiled with -O2.", processor());
    println!("Each line: the mean of {AREAS} areas as high as wide, the best of {PASSES} passes of each, since what else the machine does");
    println!("can only add to the processor's time. Rooms were cleared once and not between calls.");
    println!("Row slices: each row's runs by themselves; least: the flashes that suffice (sums over the areas).");
    println!();
    covers();
    println!();
    final_sets();
    if NATIVE {
        println!();
        readers();
    }
}
