//! 10,000 random and damaged jobs through the program; what it prints is held against the independent
//! implementation. Ends with the line 'N passed, M failed', a line above it for each kind of job.
//!
//!     jobs PROGRAM FOLDER     FOLDER is for temporary files

use keekaboor_tests::areas::*;
use keekaboor_tests::program::{Program, Runner};
use keekaboor_tests::text;
use std::path::{Path, PathBuf};

struct Kind {
    name: &'static str,
    count: usize,
    make: fn(&mut Random) -> Vec<u8>,
}

const KINDS: [Kind; 9] = [
    Kind { name: "small areas", count: 3000, make: |random| written(any_area(random, 10, 10), 64) },
    Kind {
        name: "any allowance, often short",
        count: 1500,
        make: |random| {
            let area = any_area(random, 8, 12);
            written(area, random.below(8) as u64)
        },
    },
    Kind {
        name: "broken columns",
        count: 500,
        make: |random| {
            let mut area = any_area(random, 12, 12);
            (0..3).for_each(|_| {
                let at = random.below(area.raster.len());
                area.raster[at] ^= 1;
            });
            written(area, 64)
        },
    },
    Kind {
        name: "wide areas",
        count: 40,
        make: |random| {
            let (family, width) = (FAMILIES[random.below(5)], random.from_to(33, 64));
            let height = random.from_to(8, 64);
            written(area(random, family, width, height, 24, 0), 64)
        },
    },
    Kind {
        name: "damaged jobs",
        count: 2960,
        make: |random| {
            let mut text = any_text(random);
            (0..random.from_to(1, 3)).for_each(|_| damage_text(random, &mut text));
            text
        },
    },
    Kind {
        name: "cut off jobs",
        count: 500,
        make: |random| {
            let mut text = any_text(random);
            text.truncate(random.below(text.len()));
            text
        },
    },
    Kind {
        name: "any bytes",
        count: 500,
        make: |random| {
            let count = random.below(200);
            random.bytes(count)
        },
    },
    Kind {
        name: "a job's letters in any order",
        count: 500,
        make: |random| {
            let letters = b"shape\trow0123#.\n\t\n";
            (0..random.below(80)).map(|_| letters[random.below(letters.len())]).collect()
        },
    },
    Kind {
        name: "about as long as the longest job, and longer",
        count: 500,
        make: |random| {
            let mut text = any_text(random);
            let size = if random.one_in(2) { random.from_to(4605, 4620) } else { random.from_to(4600, 20_000) };
            let byte = [b'\n', b'#', 0][random.below(3)];
            text.resize(size, byte);
            text
        },
    },
];

fn written(area: Area, allowance: u64) -> Vec<u8> {
    text::written(&Job { area, allowance }).into_bytes()
}

fn any_text(random: &mut Random) -> Vec<u8> {
    let most = if random.one_in(20) { 64 } else { 9 };
    let area = any_area(random, most, most);
    written(area, random.below(65) as u64)
}

fn agrees(job: &[u8], runner: &mut Runner) -> bool {
    let wanted = text::program(job);
    let ran = runner.run(job).expect("the program runs");
    let good = ran.printed == wanted.as_bytes() && ran.status == 0;
    if !good {
        println!("for {:?}", String::from_utf8_lossy(job));
        println!("printed {:?}, status {}", String::from_utf8_lossy(&ran.printed), ran.status);
        println!("wanted  {wanted:?}");
    }
    good
}

/// How many jobs of a kind do not agree. A few go through a process of their own, as a user's do.
fn failures(kind: &Kind, seed: u64, program: &Program, library: &Path) -> usize {
    const THREADS: usize = 2;
    let share = |thread: usize| {
        let mut random = Random::new(seed + 1000 * thread as u64);
        let mut runner = program.runner(library).expect("the program starts");
        let jobs = (thread..kind.count).step_by(THREADS).map(|index| (index, (kind.make)(&mut random)));
        let mut failed = 0;
        for (index, job) in jobs {
            let alone = index >= 10
                || program.run(&job).expect("the program runs") == runner.run(&job).expect("the program runs");
            failed += !(agrees(&job, &mut runner) && alone) as usize;
            if failed > 3 {
                break;
            }
        }
        failed
    };
    std::thread::scope(|scope| {
        let threads: Vec<_> = (0..THREADS).map(|thread| scope.spawn(move || share(thread))).collect();
        threads.into_iter().map(|thread| thread.join().unwrap_or(1)).sum()
    })
}

fn main() {
    let words: Vec<PathBuf> = std::env::args_os().skip(1).map(PathBuf::from).collect();
    let (path, folder) = match &words[..] {
        [path, folder] => (path.clone(), folder),
        _ => panic!("usage: jobs PROGRAM FOLDER"),
    };
    let program = Program::at(path);
    let library = folder.join("serve.so");
    program.build_server(&library).expect("tools/x86-64 runs");
    assert_eq!(KINDS.iter().map(|kind| kind.count).sum::<usize>(), 10_000);
    let (mut passed, mut failed) = (0, 0);
    for (index, kind) in KINDS.iter().enumerate() {
        let failures = failures(kind, index as u64, &program, &library);
        println!("{} jobs, {}: {}", kind.count, kind.name, if failures == 0 { "agree" } else { "DIFFER" });
        if failures == 0 {
            passed += 1;
        } else {
            failed += 1;
        }
    }
    println!("{passed} passed, {failed} failed");
    std::process::exit((failed > 0) as i32);
}
