//! The boundary with the proved functions, as `include/keekaboor.h` has it, behind safe wrappers.
//!
//! Each wrapper lends copies that stand between guard bytes, and after the call sees that no guard and
//! nothing that was only to be read has changed: every call of every test has canaries.

/// What `keekaboor_cover` returns.
#[repr(C)]
#[derive(Clone, Copy, Debug, Default, PartialEq, Eq)]
pub struct Outcome {
    pub answer: u64,
    pub place_x: u64,
    pub place_y: u64,
    pub flashes: u64,
    pub marks: u64,
    pub copper: u64,
    pub flashed: u64,
}

/// What `keekaboor_read_job` returns.
#[repr(C)]
#[derive(Clone, Copy, Debug, Default, PartialEq, Eq)]
pub struct ReadOutcome {
    pub answer: u64,
    pub place_x: u64,
    pub place_y: u64,
    pub width: u64,
    pub height: u64,
    pub allowance: u64,
}

/// What `keekaboor_write_job` returns.
#[repr(C)]
#[derive(Clone, Copy, Debug, Default, PartialEq, Eq)]
pub struct WriteOutcome {
    pub answer: u64,
    pub place_x: u64,
    pub place_y: u64,
    pub length: u64,
}

/// What `keekaboor_check` returns.
#[repr(C)]
#[derive(Clone, Copy, Debug, Default, PartialEq, Eq)]
pub struct CheckOutcome {
    pub answer: u64,
    pub place_x: u64,
    pub place_y: u64,
    pub verdict: u64,
    pub flashes: u64,
    pub above: u64,
    pub marks: u64,
}

/// What `keekaboor_write_gerber` returns: the cover's numbers and the file's length.
#[repr(C)]
#[derive(Clone, Copy, Debug, Default, PartialEq, Eq)]
pub struct GerberOutcome {
    pub answer: u64,
    pub place_x: u64,
    pub place_y: u64,
    pub flashes: u64,
    pub marks: u64,
    pub copper: u64,
    pub flashed: u64,
    pub length: u64,
}

/// What `keekaboor_read_gerber` returns.
#[repr(C)]
#[derive(Clone, Copy, Debug, Default, PartialEq, Eq)]
pub struct GerberReadOutcome {
    pub answer: u64,
    pub place_x: u64,
    pub place_y: u64,
    pub flashes: u64,
}

#[cfg(feature = "linked")]
pub use linked::*;

#[cfg(feature = "linked")]
mod linked {
    use super::{CheckOutcome, GerberOutcome, GerberReadOutcome, Outcome, ReadOutcome, WriteOutcome};
    use crate::gerber::Frame;
    use std::time::Duration;

    #[cfg(all(target_arch = "x86_64", not(feature = "far")))]
    use super::direct::call;
    #[cfg(any(feature = "far", not(target_arch = "x86_64")))]
    use super::far::call;

    /// Whether the proved functions run on this machine's processor, and not under an emulator.
    pub const NATIVE: bool = cfg!(target_arch = "x86_64");

    /// The covers that are called alike: the exported ones, and those written by hand in C.
    #[derive(Clone, Copy, Debug, PartialEq, Eq)]
    pub enum Engine {
        Exported,
        ExportedPlain,
        Quick,
        Bytes,
        Plain,
    }

    /// The exported cover; the one by the plain search is called beside it, and gives the same outcome and the same bytes.
    pub fn cover(numbers: (u64, u64, u64), raster: &[u8], flash_room: &mut [u8], mark_room: &mut [u8]) -> Outcome {
        let (mut flashes, mut marks) = (flash_room.to_vec(), mark_room.to_vec());
        let plain = cover_by(Engine::ExportedPlain, numbers, raster, &mut flashes, &mut marks);
        let outcome = cover_by(Engine::Exported, numbers, raster, flash_room, mark_room);
        assert_eq!(plain, outcome, "the two searches' outcomes differ: {numbers:?} {raster:?}");
        assert_eq!(flashes, flash_room, "the two searches' flash rooms differ: {numbers:?} {raster:?}");
        assert_eq!(marks, mark_room, "the two searches' mark rooms differ: {numbers:?} {raster:?}");
        outcome
    }

    pub fn cover_by(
        engine: Engine,
        (width, height, allowance): (u64, u64, u64),
        raster: &[u8],
        flash_room: &mut [u8],
        mark_room: &mut [u8],
    ) -> Outcome {
        let mut lent = lend(&[raster, flash_room, mark_room]);
        let request =
            Request { function: Function::Cover(engine), numbers: padded(&[width, height, allowance]), times: 1 };
        let reply = call(&request, &mut lent);
        lent[0].unchanged("the raster", raster);
        lent[1].copy_back("the flash room", flash_room);
        lent[2].copy_back("the mark room", mark_room);
        reply.outcome()
    }

    pub fn read_job(text: &[u8], raster_room: &mut [u8]) -> ReadOutcome {
        let mut lent = lend(&[text, raster_room]);
        let request = Request { function: Function::ReadJob, numbers: padded(&[]), times: 1 };
        let reply = call(&request, &mut lent);
        lent[0].unchanged("the text", text);
        lent[1].copy_back("the raster room", raster_room);
        reply.read_outcome()
    }

    pub fn write_job((width, height, allowance): (u64, u64, u64), raster: &[u8], text_room: &mut [u8]) -> WriteOutcome {
        let mut lent = lend(&[raster, text_room]);
        let request = Request { function: Function::WriteJob, numbers: padded(&[width, height, allowance]), times: 1 };
        let reply = call(&request, &mut lent);
        lent[0].unchanged("the raster", raster);
        lent[1].copy_back("the text room", text_room);
        reply.write_outcome()
    }

    pub fn check(
        (width, height, allowance): (u64, u64, u64),
        raster: &[u8],
        list: &[u8],
        mark_room: &mut [u8],
    ) -> CheckOutcome {
        let mut lent = lend(&[raster, list, mark_room]);
        let request = Request { function: Function::Check, numbers: padded(&[width, height, allowance]), times: 1 };
        let reply = call(&request, &mut lent);
        lent[0].unchanged("the raster", raster);
        lent[1].unchanged("the list", list);
        lent[2].copy_back("the mark room", mark_room);
        reply.check_outcome()
    }

    /// A cover written as a Gerber file.
    pub fn write_gerber(
        (width, height, allowance): (u64, u64, u64),
        raster: &[u8],
        (flash_room, mark_room): (&mut [u8], &mut [u8]),
        frame: Frame,
        file_room: &mut [u8],
    ) -> GerberOutcome {
        let mut lent = lend(&[raster, flash_room, mark_room, file_room]);
        let numbers = padded(&[width, height, allowance, frame.version, frame.pitch, frame.x as u64, frame.y as u64]);
        let reply = call(&Request { function: Function::WriteGerber, numbers, times: 1 }, &mut lent);
        lent[0].unchanged("the raster", raster);
        lent[1].copy_back("the flash room", flash_room);
        lent[2].copy_back("the mark room", mark_room);
        lent[3].copy_back("the file room", file_room);
        reply.gerber_outcome()
    }

    /// A Gerber file read back.
    pub fn read_gerber(text: &[u8], frame: Frame, flash_room: &mut [u8]) -> GerberReadOutcome {
        let mut lent = lend(&[text, flash_room]);
        let numbers = padded(&[0, 0, 0, frame.version, frame.pitch, frame.x as u64, frame.y as u64]);
        let reply = call(&Request { function: Function::ReadGerber, numbers, times: 1 }, &mut lent);
        lent[0].unchanged("the file", text);
        lent[1].copy_back("the flash room", flash_room);
        reply.gerber_read_outcome()
    }

    /// How long so many calls of a cover take, one after the other, in the same rooms.
    pub fn time_cover(engine: Engine, times: u64, numbers: (u64, u64, u64), raster: &[u8]) -> Duration {
        let mut lent = lend(&[raster, &[0; 256], &[0; 128]]);
        let numbers = padded(&[numbers.0, numbers.1, numbers.2]);
        call(&Request { function: Function::Cover(engine), numbers, times }, &mut lent).time
    }

    /// How long so many calls of the reader take, one after the other, in the same room.
    pub fn time_read_job(times: u64, text: &[u8]) -> Duration {
        let mut lent = lend(&[text, &[0; 4096]]);
        call(&Request { function: Function::ReadJob, numbers: padded(&[]), times }, &mut lent).time
    }

    /// How long so many final sets of an area's starting set take, by themselves; and how many intervals they have.
    pub fn time_final_sets(plain: bool, times: u64, (width, height): (u64, u64), raster: &[u8]) -> (Duration, u64) {
        let mut lent = lend(&[raster]);
        let numbers = padded(&[width, height, times - 1]);
        let request = Request { function: Function::FinalSets { plain }, numbers, times: 1 };
        let reply = call(&request, &mut lent);
        (reply.time, reply.numbers[0])
    }

    #[derive(Clone, Copy)]
    pub(super) enum Function {
        Cover(Engine),
        ReadJob,
        WriteJob,
        Check,
        WriteGerber,
        ReadGerber,
        FinalSets { plain: bool },
    }

    /// How many numbers and how many buffers the call with the most of them takes.
    pub(super) const ARGUMENTS: usize = 7;
    pub(super) const BUFFERS: usize = 4;

    pub(super) struct Request {
        pub function: Function,
        pub numbers: [u64; ARGUMENTS],
        pub times: u64,
    }

    /// How many fields the longest outcome has.
    pub(super) const NUMBERS: usize = 8;

    /// Numbers, and 0 behind them.
    pub(super) fn padded<const N: usize>(numbers: &[u64]) -> [u64; N] {
        std::array::from_fn(|i| numbers.get(i).copied().unwrap_or(0))
    }

    /// An outcome's numbers in the order of its fields, and the processor's time that the calls took.
    pub(super) struct Reply {
        pub numbers: [u64; NUMBERS],
        pub time: Duration,
    }

    impl Reply {
        fn outcome(&self) -> Outcome {
            let [answer, place_x, place_y, flashes, marks, copper, flashed, ..] = self.numbers;
            Outcome { answer, place_x, place_y, flashes, marks, copper, flashed }
        }

        fn read_outcome(&self) -> ReadOutcome {
            let [answer, place_x, place_y, width, height, allowance, ..] = self.numbers;
            ReadOutcome { answer, place_x, place_y, width, height, allowance }
        }

        fn write_outcome(&self) -> WriteOutcome {
            let [answer, place_x, place_y, length, ..] = self.numbers;
            WriteOutcome { answer, place_x, place_y, length }
        }

        fn check_outcome(&self) -> CheckOutcome {
            let [answer, place_x, place_y, verdict, flashes, above, marks, ..] = self.numbers;
            CheckOutcome { answer, place_x, place_y, verdict, flashes, above, marks }
        }

        fn gerber_outcome(&self) -> GerberOutcome {
            let [answer, place_x, place_y, flashes, marks, copper, flashed, length] = self.numbers;
            GerberOutcome { answer, place_x, place_y, flashes, marks, copper, flashed, length }
        }

        fn gerber_read_outcome(&self) -> GerberReadOutcome {
            let [answer, place_x, place_y, flashes, ..] = self.numbers;
            GerberReadOutcome { answer, place_x, place_y, flashes }
        }
    }

    pub(super) const GUARD: usize = 64;

    fn guard_byte(at: usize) -> u8 {
        (at as u8).wrapping_mul(37) ^ 0xa5
    }

    /// A buffer that is lent: its bytes between two rows of guard bytes.
    pub(super) struct Lent {
        pub whole: Vec<u8>,
    }

    fn lend(parts: &[&[u8]]) -> [Lent; BUFFERS] {
        std::array::from_fn(|i| Lent::new(parts.get(i).copied().unwrap_or(&[])))
    }

    impl Lent {
        fn new(bytes: &[u8]) -> Lent {
            let guard = (0..GUARD).map(guard_byte);
            Lent { whole: guard.clone().chain(bytes.iter().copied()).chain(guard).collect() }
        }

        pub fn len(&self) -> usize {
            self.whole.len() - 2 * GUARD
        }

        fn bytes(&self, name: &str) -> &[u8] {
            let end = GUARD + self.len();
            for at in 0..GUARD {
                assert_eq!(self.whole[at], guard_byte(at), "a byte before {name} was changed");
                assert_eq!(self.whole[end + at], guard_byte(at), "a byte behind {name} was changed");
            }
            &self.whole[GUARD..end]
        }

        fn unchanged(&self, name: &str, before: &[u8]) {
            assert_eq!(self.bytes(name), before, "{name} was changed");
        }

        fn copy_back(&self, name: &str, room: &mut [u8]) {
            room.copy_from_slice(self.bytes(name));
        }
    }
}

/// On x86-64 the functions are linked in.
#[cfg(all(feature = "linked", target_arch = "x86_64", not(feature = "far")))]
mod direct {
    use super::linked::{padded, Engine, Function, Lent, Reply, Request, BUFFERS, GUARD, NUMBERS};
    use super::{CheckOutcome, GerberOutcome, GerberReadOutcome, Outcome, ReadOutcome, WriteOutcome};
    use crate::clock;

    macro_rules! covers {
        ($($name:ident)*) => {
            extern "C" {
                $(fn $name(
                    width: u64,
                    height: u64,
                    allowance: u64,
                    raster: *const u8,
                    raster_len: usize,
                    flash_room: *mut u8,
                    flash_len: usize,
                    mark_room: *mut u8,
                    mark_len: usize,
                ) -> Outcome;)*
            }
        };
    }

    covers!(keekaboor_cover keekaboor_cover_plain quick_cover bytes_cover plain_cover);

    extern "C" {
        fn keekaboor_read_job(text: *const u8, text_len: usize, raster_room: *mut u8, raster_len: usize)
            -> ReadOutcome;
        fn keekaboor_write_job(
            width: u64,
            height: u64,
            allowance: u64,
            raster: *const u8,
            raster_len: usize,
            text_room: *mut u8,
            text_len: usize,
        ) -> WriteOutcome;
        fn keekaboor_check(
            width: u64,
            height: u64,
            allowance: u64,
            raster: *const u8,
            raster_len: usize,
            list: *const u8,
            list_len: usize,
            mark_room: *mut u8,
            mark_len: usize,
        ) -> CheckOutcome;
        fn keekaboor_write_gerber(
            width: u64,
            height: u64,
            allowance: u64,
            raster: *const u8,
            raster_len: usize,
            flash_room: *mut u8,
            flash_len: usize,
            mark_room: *mut u8,
            mark_len: usize,
            version: u64,
            pitch: u64,
            x: i64,
            y: i64,
            file_room: *mut u8,
            file_len: usize,
        ) -> GerberOutcome;
        fn keekaboor_read_gerber(
            text: *const u8,
            text_len: usize,
            version: u64,
            pitch: u64,
            x: i64,
            y: i64,
            flash_room: *mut u8,
            flash_len: usize,
        ) -> GerberReadOutcome;
        fn timed_final_sets(
            width: u64,
            height: u64,
            raster: *const u8,
            raster_len: usize,
            plain: u64,
            more: u64,
        ) -> u64;
    }

    pub(super) fn call(request: &Request, lent: &mut [Lent; BUFFERS]) -> Reply {
        let len: [usize; BUFFERS] = std::array::from_fn(|i| lent[i].len());
        let [a, b, c, d] = lent;
        // The four are separate allocations, so they do not overlap, and each has GUARD bytes before the lent part.
        let (a, b) = (a.whole[GUARD..].as_ptr(), b.whole[GUARD..].as_mut_ptr());
        let (c, d) = (c.whole[GUARD..].as_mut_ptr(), d.whole[GUARD..].as_mut_ptr());
        let [x, y, z, version, pitch, east, north] = request.numbers;
        let (east, north) = (east as i64, north as i64);
        let mut numbers: [u64; NUMBERS] = padded(&[]);
        let start = clock::now();
        for _ in 0..request.times {
            numbers = unsafe {
                match request.function {
                    Function::Cover(engine) => {
                        let cover = match engine {
                            Engine::Exported => keekaboor_cover,
                            Engine::ExportedPlain => keekaboor_cover_plain,
                            Engine::Quick => quick_cover,
                            Engine::Bytes => bytes_cover,
                            Engine::Plain => plain_cover,
                        };
                        let o = cover(x, y, z, a, len[0], b, len[1], c, len[2]);
                        padded(&[o.answer, o.place_x, o.place_y, o.flashes, o.marks, o.copper, o.flashed])
                    }
                    Function::ReadJob => {
                        let o = keekaboor_read_job(a, len[0], b, len[1]);
                        padded(&[o.answer, o.place_x, o.place_y, o.width, o.height, o.allowance])
                    }
                    Function::WriteJob => {
                        let o = keekaboor_write_job(x, y, z, a, len[0], b, len[1]);
                        padded(&[o.answer, o.place_x, o.place_y, o.length])
                    }
                    Function::Check => {
                        let o = keekaboor_check(x, y, z, a, len[0], b, len[1], c, len[2]);
                        padded(&[o.answer, o.place_x, o.place_y, o.verdict, o.flashes, o.above, o.marks])
                    }
                    Function::WriteGerber => {
                        let o = keekaboor_write_gerber(
                            x, y, z, a, len[0], b, len[1], c, len[2], version, pitch, east, north, d, len[3],
                        );
                        [o.answer, o.place_x, o.place_y, o.flashes, o.marks, o.copper, o.flashed, o.length]
                    }
                    Function::ReadGerber => {
                        let o = keekaboor_read_gerber(a, len[0], version, pitch, east, north, b, len[1]);
                        padded(&[o.answer, o.place_x, o.place_y, o.flashes])
                    }
                    Function::FinalSets { plain } => padded(&[timed_final_sets(x, y, a, len[0], plain.into(), z)]),
                }
            };
        }
        Reply { numbers, time: clock::now() - start }
    }
}

/// On another machine they are linked into the program `far/far.c`, which runs under the kit's emulator:
/// one for each thread, spoken to over its standard input and output.
#[cfg(all(feature = "linked", any(feature = "far", not(target_arch = "x86_64"))))]
mod far {
    use super::linked::{Engine, Function, Lent, Reply, Request, BUFFERS, GUARD, NUMBERS};
    use std::cell::RefCell;
    use std::io::{Read, Write};
    use std::process::{Child, Command, Stdio};
    use std::time::Duration;

    struct Far(Child);

    /// A function's number in `far/far.c`.
    fn number(function: Function) -> u64 {
        match function {
            Function::ReadJob => 0,
            Function::WriteJob => 1,
            Function::Check => 2,
            Function::WriteGerber => 3,
            Function::ReadGerber => 4,
            Function::FinalSets { plain: false } => 5,
            Function::FinalSets { plain: true } => 6,
            Function::Cover(Engine::Exported) => 7,
            Function::Cover(Engine::ExportedPlain) => 8,
            Function::Cover(Engine::Quick) => 9,
            Function::Cover(Engine::Bytes) => 10,
            Function::Cover(Engine::Plain) => 11,
        }
    }

    impl Far {
        fn start() -> Far {
            let mut words = env!("FAR_WORDS").split('\u{1f}').filter(|word| !word.is_empty());
            let mut command = Command::new(words.next().unwrap());
            command.args(words).stdin(Stdio::piped()).stdout(Stdio::piped());
            Far(command.spawn().expect("the far side starts"))
        }

        fn call(&mut self, request: &Request, lent: &mut [Lent; BUFFERS]) -> Reply {
            let mut message = Vec::new();
            let mut head = vec![number(request.function), request.times];
            head.extend(request.numbers);
            head.extend(lent.iter().map(|part| part.len() as u64));
            head.push(GUARD as u64);
            head.iter().for_each(|number| message.extend(number.to_le_bytes()));
            lent.iter().for_each(|part| message.extend(&part.whole));
            self.0.stdin.as_mut().unwrap().write_all(&message).expect("the far side listens");
            let heads = (NUMBERS + 1) * 8;
            message.resize(heads + lent.iter().map(|part| part.whole.len()).sum::<usize>(), 0);
            self.0.stdout.as_mut().unwrap().read_exact(&mut message).expect("the far side answers");
            let (head, mut rest) = message.split_at(heads);
            let number = |i: usize| u64::from_le_bytes(head[8 * i..8 * i + 8].try_into().unwrap());
            let numbers = std::array::from_fn(number);
            let time = Duration::from_nanos(number(NUMBERS));
            for part in lent {
                let (bytes, after) = rest.split_at(part.whole.len());
                part.whole.copy_from_slice(bytes);
                rest = after;
            }
            Reply { numbers, time }
        }
    }

    impl Drop for Far {
        fn drop(&mut self) {
            drop(self.0.stdin.take());
            let _ = self.0.wait();
        }
    }

    thread_local!(static FAR: RefCell<Far> = RefCell::new(Far::start()));

    pub(super) fn call(request: &Request, lent: &mut [Lent; BUFFERS]) -> Reply {
        FAR.with(|far| far.borrow_mut().call(request, lent))
    }
}
