//! The exported reader and writer of the job text, held against document 01's rules for each refusal,
//! and against an independent reader and writer.

mod common;

use keekaboor_tests::areas::*;
use keekaboor_tests::ffi::{self, ReadOutcome, WriteOutcome};
use keekaboor_tests::text::{self, RASTER_ROOM, TEXT_LIMIT};

const PLUS: &[u8] = b"shape\t3\t3\t64\nrow\t2\t.#.\nrow\t1\t###\nrow\t0\t.#.\n";

/// Reads into a room full of noise. Gives the outcome and what the room begins with, and sees that the
/// rest of it is as it was. (The wrapper sees to the bytes before and behind.)
fn read_into(text: &[u8], raster_room: usize) -> (ReadOutcome, Vec<u8>) {
    let noise = Random::new(text.len() as u64).bytes(raster_room);
    let mut room = noise.clone();
    let outcome = ffi::read_job(text, &mut room);
    let squares = (outcome.width * outcome.height) as usize;
    assert_eq!(room[squares..], noise[squares..], "the raster room past the raster");
    room.truncate(squares);
    (outcome, room)
}

fn read(text: &[u8]) -> (ReadOutcome, Vec<u8>) {
    read_into(text, RASTER_ROOM)
}

fn write_into(numbers: (u64, u64, u64), raster: &[u8], text_room: usize) -> (WriteOutcome, Vec<u8>) {
    let noise = Random::new(raster.len() as u64).bytes(text_room);
    let mut room = noise.clone();
    let outcome = ffi::write_job(numbers, raster, &mut room);
    let length = outcome.length as usize;
    assert_eq!(room[length..], noise[length..], "the text room past the text");
    room.truncate(length);
    (outcome, room)
}

fn write(job: &Job) -> (WriteOutcome, Vec<u8>) {
    write_into(job.numbers(), &job.area.raster, TEXT_LIMIT)
}

fn read_refusal(answer: u64, line: u64) -> (ReadOutcome, Vec<u8>) {
    (ReadOutcome { answer, place_x: line, ..ReadOutcome::default() }, Vec::new())
}

fn shown(text: &[u8]) -> String {
    String::from_utf8_lossy(text).into_owned()
}

fn is_refused(text: &[u8], answer: u64, line: u64) {
    assert_eq!(read(text), read_refusal(answer, line), "{:?}", shown(text));
}

fn agrees(text: &[u8]) -> ReadOutcome {
    let (outcome, raster) = read(text);
    assert_eq!((outcome, raster), text::read_job(text, RASTER_ROOM), "{:?}", shown(text));
    outcome
}

fn full_job() -> Job {
    let mut area = Area::empty(64, 64);
    area.raster.fill(1);
    Job { area, allowance: 64 }
}

/// A job of any size, broken columns included.
fn any_job(random: &mut Random, most: usize) -> Job {
    let mut area = any_area(random, most, most);
    for _ in 0..random.below(3) {
        let at = random.below(area.raster.len());
        area.raster[at] ^= 1;
    }
    Job { area, allowance: random.below(65) as u64 }
}

#[test]
fn the_plus_both_ways() {
    let (outcome, raster) = read(PLUS);
    assert_eq!(outcome, ReadOutcome { width: 3, height: 3, allowance: 64, ..ReadOutcome::default() });
    assert_eq!(raster, [0, 1, 0, 1, 1, 1, 0, 1, 0]);
    let (outcome, text) = write_into((3, 3, 64), &raster, TEXT_LIMIT);
    assert_eq!(outcome, WriteOutcome { length: PLUS.len() as u64, ..WriteOutcome::default() });
    assert_eq!(text, PLUS);
}

#[test]
fn the_top_row_stands_first() {
    let (outcome, raster) = read(b"shape\t2\t3\t0\nrow\t2\t##\nrow\t1\t.#\nrow\t0\t#.\n");
    assert_eq!((outcome.answer, outcome.width, outcome.height, outcome.allowance), (0, 2, 3, 0));
    assert_eq!(raster, [1, 0, 0, 1, 1, 1]);
}

#[test]
fn a_first_line_not_as_ruled() {
    let rest = "row\t0\t#\n";
    let lines = [
        "",
        "\n",
        "shape",
        "shape\n",
        "shape\t1\t1\n",
        "shape\t1\t1\t1\t1\n",
        "shape\t1\t1\t1\t\n",
        "shape\t1\t1\t\n",
        "shape\t\t1\t1\n",
        "shape\t1\t\t1\n",
        "shape 1 1 1\n",
        "shape\t1 1\t1\n",
        " shape\t1\t1\t1\n",
        "\tshape\t1\t1\t1\n",
        "Shape\t1\t1\t1\n",
        "shap\t1\t1\t1\n",
        "shapes\t1\t1\t1\n",
        "shape\t\t1\t1\t1\n",
        "shape\t1\t1\t1 \n",
        "shape\t1\t1\t1\r\n",
        "shape\t01\t1\t1\n",
        "shape\t1\t01\t1\n",
        "shape\t1\t1\t01\n",
        "shape\t00\t1\t1\n",
        "shape\t+1\t1\t1\n",
        "shape\t1\t-1\t1\n",
        "shape\t1\t1\t-0\n",
        "shape\t1.0\t1\t1\n",
        "shape\t0x1\t1\t1\n",
        "shape\t10000\t1\t1\n",
        "shape\t1\t10000\t1\n",
        "shape\t1\t1\t10000\n",
        "shape\t99999999999999999999\t1\t1\n",
        "shape\t18446744073709551617\t1\t1\n",
        "shape\t4294967297\t1\t1\n",
        "shape\t65537\t1\t1\n",
        "shape\t0000\t1\t1\n",
        "row\t0\t#\n",
        "\u{feff}shape\t1\t1\t1\n",
        "shape\0\t1\t1\t1\n",
        "shape\t1\t1\t1\0\n",
        "shape\t1\u{b}1\t1\n",
    ];
    for line in lines {
        is_refused(format!("{line}{rest}").as_bytes(), 11, 1);
        is_refused(line.as_bytes(), 11, 1);
    }
    is_refused(b"shape\t1\t1\t1", 11, 1);
}

#[test]
fn a_row_line_not_as_ruled() {
    let lines = [
        "row\t1\t.#",
        "\n",
        "",
        "row\t1\t.#\r\n",
        "row\t1\t.# \n",
        "row\t1\t.#.\n",
        "row\t1\t.\n",
        "row\t1\t\n",
        "row\t1\n",
        "row\t1\t.#\t\n",
        "row\t1\t.#\t#\n",
        "row\t\t.#\n",
        "row\t01\t.#\n",
        "row\t+1\t.#\n",
        "row\t2\t.#\n",
        "row\t0\t.#\n",
        "row\t10\t.#\n",
        "row\t11\t.#\n",
        "row\t257\t.#\n",
        "row\t65537\t.#\n",
        "row 1\t.#\n",
        "row\t1 .#\n",
        "row\t\t1\t.#\n",
        "Row\t1\t.#\n",
        "ro\t1\t.#\n",
        "rows\t1\t.#\n",
        " row\t1\t.#\n",
        "row\t1\t.x\n",
        "row\t1\t01\n",
        "row\t1\t. \n",
        "row\t1\t.\t\n",
        "row\t1\t.\0\n",
        "row\t1\t\n.#\n",
        "shape\t2\t3\t4\n",
    ];
    for line in lines {
        let text = format!("shape\t2\t3\t64\nrow\t2\t##\n{line}row\t0\t##\n");
        is_refused(text.as_bytes(), 11, 3);
        let text = format!("shape\t2\t3\t64\nrow\t2\t##\n{line}");
        is_refused(text.as_bytes(), 11, 3);
    }
}

#[test]
fn a_missing_line_text_past_the_end_and_a_missing_line_feed() {
    is_refused(b"", 11, 1);
    is_refused(b"shape\t3\t3\t64\n", 11, 2);
    is_refused(b"shape\t3\t3\t64\nrow\t2\t.#.\n", 11, 3);
    is_refused(b"shape\t3\t3\t64\nrow\t2\t.#.\nrow\t1\t###\n", 11, 4);
    is_refused(&PLUS[..PLUS.len() - 1], 11, 4);
    for past in ["\n", "x", " ", "\t", "\0", "row\t0\t.#.\n", "shape\t3\t3\t64\n", "\r\n", "#"] {
        is_refused(&[PLUS, past.as_bytes()].concat(), 11, 5);
    }
}

#[test]
fn numbers_out_of_range() {
    let text =
        |width: u64, height: u64, allowance: u64| format!("shape\t{width}\t{height}\t{allowance}\n").into_bytes();
    for n in [0, 65, 66, 99, 100, 640, 999, 1000, 9999] {
        is_refused(&text(n, 1, 1), 1, 0);
        is_refused(&text(1, n, 1), 1, 0);
        is_refused(&text(n, n, 9999), 1, 0);
    }
    for n in [65, 66, 99, 100, 640, 999, 1000, 9999] {
        is_refused(&text(1, 1, n), 6, 0);
        is_refused(&text(64, 64, n), 6, 0);
    }
    for n in [1, 2, 9, 10, 11, 63, 64] {
        for (width, height) in [(n, 1), (1, n), (n, 64), (64, n)] {
            let job = Job { area: Area::empty(width, height), allowance: n as u64 };
            assert_eq!(agrees(text::written(&job).as_bytes()).answer, 0);
        }
    }
    for n in 0..=64 {
        let job = Job { area: Area::empty(1, 1), allowance: n };
        assert_eq!(agrees(text::written(&job).as_bytes()).allowance, n);
    }
}

#[test]
fn both_sides_of_the_room_and_the_length_for_reading() {
    let full = text::written(&full_job()).into_bytes();
    assert_eq!(full.len(), 4613);
    for room in [4096, 4097, 5000] {
        assert_eq!(read_into(&full, room).1, vec![1; 4096]);
        assert_eq!(read_into(PLUS, room), text::read_job(PLUS, room));
    }
    for room in [0, 9, 4095] {
        assert_eq!(read_into(&full, room), read_refusal(12, 0));
        assert_eq!(read_into(PLUS, room), read_refusal(12, 0));
    }
    // one byte more is too long, whatever it says
    for text in [[&full[..], b"\n"].concat(), vec![b'x'; 4614], vec![b'\n'; 4614], vec![0; 100_000]] {
        is_refused(&text, 10, 0);
    }
    is_refused(&vec![b'x'; 4613], 11, 1);
    is_refused(&[PLUS, &vec![b'\n'; 4613 - PLUS.len()]].concat(), 11, 5);
    is_refused(&[PLUS, &vec![b'\n'; 4614 - PLUS.len()]].concat(), 10, 0);
}

/// Document 01: 'Reading a job: 12, 10, 11 for line 1, 1, 6, 11 for the rest in line order.' Each as a
/// fault that can be put into a sound job, in this order.
#[test]
fn of_several_refusals_of_reading_the_first_in_order_is_given() {
    for which in 1..1usize << 6 {
        let has = |fault: usize| which >> fault & 1 == 1;
        for variant in 0..4 {
            let word = if has(2) { ["shap", "shape\t"][variant % 2] } else { "shape" };
            let (good_width, good_height) = ("2", "3");
            let bad = ["0", "65"][variant % 2];
            let (width, height) = match (has(3), variant < 2) {
                (false, _) => (good_width, good_height),
                (true, true) => (bad, good_height),
                (true, false) => (good_width, bad),
            };
            let allowance = if has(4) { ["65", "9999"][variant % 2] } else { "64" };
            let middle = if has(5) { ["row\t1\t#x\n", "row\t7\t##\n"][variant % 2] } else { "row\t1\t##\n" };
            let mut text =
                format!("{word}\t{width}\t{height}\t{allowance}\nrow\t2\t##\n{middle}row\t0\t##\n").into_bytes();
            if has(5) && variant >= 2 {
                // a second bad line below does not matter
                text.extend(b"row\t9\t##\n");
            }
            if has(1) {
                text.resize([4614, 5000][variant % 2], b'\n');
            }
            let room = if has(0) { [4095, 0][variant % 2] } else { 4096 };
            let (answer, line) = [(12, 0), (10, 0), (11, 1), (1, 0), (6, 0), (11, 3)][which.trailing_zeros() as usize];
            assert_eq!(read_into(&text, room), read_refusal(answer, line), "{which:b} {:?}", shown(&text));
        }
    }
}

#[test]
fn of_several_bad_lines_the_first_is_given() {
    let lines: Vec<&[u8]> = PLUS.split_inclusive(|&byte| byte == b'\n').collect();
    for first in 0..4 {
        for second in first..4 {
            let mut text = Vec::new();
            for (at, line) in lines.iter().enumerate() {
                text.extend(if at == first || at == second { b"x\n" } else { *line });
            }
            is_refused(&text, 11, first as u64 + 1);
        }
    }
}

/// Document 01: 'Writing a job: 1, 2, 5, 6, 7 (a broken column can be written).' Each as a fault, in this order.
#[test]
fn of_several_refusals_of_writing_the_first_in_order_is_given() {
    for which in 1..1usize << 5 {
        let has = |fault: usize| which >> fault & 1 == 1;
        for variant in 0..4 {
            let mut numbers = (4, 3, if has(3) { [65, u64::MAX][variant % 2] } else { 64 });
            let mut raster = vec![1; 12];
            if has(4) {
                raster[6] = [2, 255][variant % 2];
            }
            if has(0) {
                let side = if variant < 2 { &mut numbers.0 } else { &mut numbers.1 };
                *side = [0, 65][variant % 2];
                raster.resize((numbers.0 * numbers.1) as usize, 1);
            }
            if has(1) {
                let len = raster.len();
                raster.resize(if variant % 2 == 0 { len + 1 } else { len - 1 }, 1);
            }
            let room = if has(2) { [4612, 0][variant % 2] } else { 4613 };
            let answer = [1, 2, 5, 6, 7][which.trailing_zeros() as usize];
            let (place_x, place_y) = if answer == 7 { (2, 1) } else { (0, 0) };
            let wanted = WriteOutcome { answer, place_x, place_y, length: 0 };
            assert_eq!(write_into(numbers, &raster, room), (wanted, Vec::new()), "{which:b} {variant}");
        }
    }
}

#[test]
fn both_sides_of_the_limits_for_writing() {
    let job = full_job();
    for room in [4613, 4614, 6000] {
        let (outcome, text) = write_into((64, 64, 64), &job.area.raster, room);
        assert_eq!((outcome.answer, outcome.length), (0, 4613));
        assert_eq!(text, text::written(&job).as_bytes());
        assert_eq!(write_into((1, 1, 0), &[1], room).1, b"shape\t1\t1\t0\nrow\t0\t#\n");
    }
    for room in [0, 22, 4612] {
        let wanted = WriteOutcome { answer: 5, ..WriteOutcome::default() };
        assert_eq!(write_into((64, 64, 64), &job.area.raster, room), (wanted, Vec::new()));
        assert_eq!(write_into((1, 1, 0), &[1], room), (wanted, Vec::new()));
    }
    let answer = |numbers, raster: &[u8]| write_into(numbers, raster, 4613).0.answer;
    for n in [0, 65, 66, 257, 65537, (1 << 32) + 1, u64::MAX] {
        assert_eq!(answer((n, 1, 64), &[1]), 1);
        assert_eq!(answer((1, n, 64), &[1]), 1);
    }
    for n in [65, 256, 65536, 1 << 32, u64::MAX] {
        assert_eq!(answer((1, 1, n), &[1]), 6);
    }
    for len in [0, 11, 13] {
        assert_eq!(answer((4, 3, 64), &vec![1; len]), 2);
    }
    // a broken column can be written
    assert_eq!(write_into((1, 3, 5), &[1, 0, 1], 4613).1, b"shape\t1\t3\t5\nrow\t2\t#\nrow\t1\t.\nrow\t0\t#\n");
    for at in 0..12u64 {
        let mut raster = vec![1; 12];
        raster[at as usize] = 2;
        raster[11] = 3;
        let wanted = WriteOutcome { answer: 7, place_x: at % 4, place_y: at / 4, length: 0 };
        assert_eq!(write_into((4, 3, 64), &raster, 4613), (wanted, Vec::new()));
    }
}

#[test]
fn every_prefix_of_a_job_ends_in_the_line_that_it_lacks() {
    let jobs = [PLUS.to_vec(), b"shape\t1\t1\t0\nrow\t0\t.\n".to_vec(), text::written(&full_job()).into_bytes()];
    for job in jobs {
        for end in 0..job.len() {
            let line = 1 + job[..end].iter().filter(|&&byte| byte == b'\n').count() as u64;
            is_refused(&job[..end], 11, line);
        }
        assert_eq!(agrees(&job).answer, 0);
    }
}

#[test]
fn every_single_byte_change_of_a_small_job() {
    let mut accepted = 0;
    for at in 0..PLUS.len() {
        for byte in 0..=255 {
            let mut text = PLUS.to_vec();
            text[at] = byte;
            let outcome = agrees(&text);
            accepted += (outcome.answer == 0) as usize;
        }
        let mut text = PLUS.to_vec();
        text.remove(at);
        agrees(&text);
        for byte in 0..=255 {
            let mut text = PLUS.to_vec();
            text.insert(at, byte);
            agrees(&text);
        }
    }
    // each square as '#' or '.', the allowance's first digit 1 to 6, its last 0 to 4; PLUS itself at each other byte
    let others = PLUS.len() - 9 - 2;
    assert_eq!(accepted, others + 9 * 2 + 6 + 5);
}

#[test]
fn a_hundred_thousand_random_and_damaged_texts() {
    let mut random = Random::new(21);
    let mut answers = [0; 13];
    for index in 0..100_000 {
        let mut text = match index % 20 {
            0 => {
                let len = random.below(60);
                random.bytes(len)
            }
            1 => {
                let letters = b"shape\trow0123#.\n\t\n";
                (0..random.below(80)).map(|_| letters[random.below(letters.len())]).collect()
            }
            2 => text::written(&any_job(&mut random, 64)).into_bytes(),
            _ => text::written(&any_job(&mut random, 8)).into_bytes(),
        };
        if index % 20 > 1 {
            (0..random.from_to(1, 3)).for_each(|_| damage_text(&mut random, &mut text));
        }
        answers[agrees(&text).answer as usize] += 1;
    }
    assert!([0, 1, 6, 10, 11].iter().all(|&answer| answers[answer] > 500), "{answers:?}");
}

#[test]
fn a_hundred_thousand_round_trips() {
    let mut random = Random::new(22);
    for index in 0..100_000 {
        let job = any_job(&mut random, if index % 20 == 0 { 64 } else { 10 });
        let (written, text) = write(&job);
        assert_eq!(
            (written, &text[..]),
            (text::write_job(job.numbers(), &job.area.raster, TEXT_LIMIT).0, text::written(&job).as_bytes())
        );
        let (outcome, raster) = read(&text);
        assert_eq!((outcome.answer, (outcome.width, outcome.height, outcome.allowance)), (0, job.numbers()));
        assert_eq!(raster, job.area.raster);
        // and what was read is written as the same text
        let again = write_into((outcome.width, outcome.height, outcome.allowance), &raster, TEXT_LIMIT);
        assert_eq!((again.0.answer, again.1), (0, text));
    }
}
