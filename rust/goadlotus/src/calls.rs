//! The calls in memory that the caller lends.

mod raw {
    extern "C" {
        pub fn goadlotus_judge(
            file: *const u8,
            file_len: usize,
            report: *mut u8,
            report_len: usize,
            witness: *mut u8,
            witness_len: usize,
            first: *mut u64,
            second: *mut u64,
            third: *mut u64,
        ) -> u64;

        pub fn goadlotus_play(
            domain: *const u8,
            domain_len: usize,
            run: *const u8,
            run_len: usize,
            work: *mut u8,
            work_len: usize,
            place: *mut u64,
            steps: *mut u64,
            weight: *mut u64,
            part_file: *mut u64,
            part_at: *mut u64,
        ) -> u64;

        pub fn goadlotus_track(
            domain: *const u8,
            domain_len: usize,
            run: *const u8,
            run_len: usize,
            instance: *const u8,
            instance_len: usize,
            work: *mut u8,
            work_len: usize,
            place: *mut u64,
            steps: *mut u64,
            weight: *mut u64,
            total: *mut u64,
            part_file: *mut u64,
            part_at: *mut u64,
        ) -> u64;

        pub fn goadlotus_templates(
            file: *const u8,
            file_len: usize,
            list: *mut u8,
            list_len: usize,
            first: *mut u64,
        ) -> u64;

        pub fn goadlotus_try(
            file: *const u8,
            file_len: usize,
            tried: *mut u8,
            tried_len: usize,
            first: *mut u64,
        ) -> u64;

        pub fn goadlotus_totals(
            files: *const u8,
            files_len: usize,
            totals: *mut u8,
            totals_len: usize,
            first: *mut u64,
        ) -> u64;
    }
}

/// The answer of judging: the number with its three places.
#[derive(Clone, Copy, PartialEq, Eq, Debug)]
pub struct Judgement {
    /// 0, 1, 9 to 27, 30, 31, or 40 to 43.
    pub number: u64,
    pub first: u64,
    pub second: u64,
    pub third: u64,
}

/// Judges a domain file.
///
/// 0, 1 and 43 write the report, 40 to 42 the report and the witness, both from their first byte on. (No witness is
/// written for an end whose class has an over-all literal.)
/// All other bytes stay as they were; 9 to 31 write nothing. Every length will do, 0 too.
pub fn judge(file: &[u8], report: &mut [u8], witness: &mut [u8]) -> Judgement {
    // The call writes every place, an unused one as 0. One that it left alone wouldn't look unused.
    let (mut first, mut second, mut third) = (u64::MAX, u64::MAX, u64::MAX);
    // SAFETY: each slice is passed with its own length, which the call never exceeds; no pointer is
    // null; what is written is borrowed mutably, so nothing overlaps.
    let number = unsafe {
        raw::goadlotus_judge(
            file.as_ptr(),
            file.len(),
            report.as_mut_ptr(),
            report.len(),
            witness.as_mut_ptr(),
            witness.len(),
            &mut first,
            &mut second,
            &mut third,
        )
    };
    Judgement { number, first, second, third }
}

/// The answer of playing.
#[derive(Clone, Copy, PartialEq, Eq, Debug)]
pub struct Played<'a> {
    /// 2, 9 to 27, or 50 to 58.
    pub number: u64,
    /// The offset of the faulty record; 0 for 2, 9 and 58.
    pub place: u64,
    /// The steps made.
    pub steps: u64,
    /// The highest weight of any instance in any state reached.
    pub weight: u64,
    pub part: Part<'a>,
}

/// From the faulty record to the end of its file; the empty end of the run file if there is none, the whole domain
/// file for 9.
#[derive(Clone, Copy, PartialEq, Eq, Debug)]
pub enum Part<'a> {
    Domain(&'a [u8]),
    Run(&'a [u8]),
}

/// Plays a run file on a domain file.
///
/// 2 and 50 to 57 write the first 8,192 bytes of work memory: the facts held, 8 bytes each, then zeros. All other
/// bytes stay as they were; 9 to 27 and 58 write nothing. Every length will do, 0 too.
pub fn play<'a>(domain: &'a [u8], run: &'a [u8], work: &mut [u8]) -> Played<'a> {
    // As in `judge`: what the call left alone wouldn't look like an answer.
    let (mut place, mut steps, mut weight) = (u64::MAX, u64::MAX, u64::MAX);
    let (mut part_file, mut part_at) = (u64::MAX, u64::MAX);
    // SAFETY: each slice is passed with its own length, which the call never exceeds; no pointer is null; what is
    // written is borrowed mutably, so it overlaps nothing. The two files are only read.
    let number = unsafe {
        raw::goadlotus_play(
            domain.as_ptr(),
            domain.len(),
            run.as_ptr(),
            run.len(),
            work.as_mut_ptr(),
            work.len(),
            &mut place,
            &mut steps,
            &mut weight,
            &mut part_file,
            &mut part_at,
        )
    };
    Played { number, place, steps, weight, part: part_of(domain, run, part_file, part_at) }
}

fn part_of<'a>(domain: &'a [u8], run: &'a [u8], file: u64, at: u64) -> Part<'a> {
    match file {
        0 => Part::Domain(&domain[at as usize..]),
        1 => Part::Run(&run[at as usize..]),
        other => panic!("the library answers file {other}, which is neither 0 nor 1"),
    }
}

/// The answer of playing with an instance.
#[derive(Clone, Copy, PartialEq, Eq, Debug)]
pub struct Tracked<'a> {
    pub played: Played<'a>,
    /// The instance's weight plus its open journeys, after the last step made; 0 while the start doesn't count yet.
    pub total: u64,
}

/// Plays a run file on a domain file, and follows an instance: an object for each key of the template, a byte each. Objects
/// may repeat in it.
///
/// A wrong count or object is told by 51 at the record of kind 16, after that record's own numbers. All else is answered
/// and written as by [`play`].
pub fn track<'a>(domain: &'a [u8], run: &'a [u8], instance: &[u8], work: &mut [u8]) -> Tracked<'a> {
    // As in `judge`: what the call left alone wouldn't look like an answer.
    let (mut place, mut steps, mut weight, mut total) = (u64::MAX, u64::MAX, u64::MAX, u64::MAX);
    let (mut part_file, mut part_at) = (u64::MAX, u64::MAX);
    // SAFETY: each slice is passed with its own length, which the call never exceeds; no pointer is null; what is
    // written is borrowed mutably, so it overlaps nothing. The two files and the instance are only read.
    let number = unsafe {
        raw::goadlotus_track(
            domain.as_ptr(),
            domain.len(),
            run.as_ptr(),
            run.len(),
            instance.as_ptr(),
            instance.len(),
            work.as_mut_ptr(),
            work.len(),
            &mut place,
            &mut steps,
            &mut weight,
            &mut total,
            &mut part_file,
            &mut part_at,
        )
    };
    let part = part_of(domain, run, part_file, part_at);
    Tracked { played: Played { number, place, steps, weight, part }, total }
}

/// The answer of a service: the number with its first place.
#[derive(Clone, Copy, PartialEq, Eq, Debug)]
pub struct Served {
    pub number: u64,
    /// With 0 the bytes written.
    pub first: u64,
}

/// A call that reads one slice and writes one.
type Service = unsafe extern "C" fn(*const u8, usize, *mut u8, usize, *mut u64) -> u64;

fn serve(service: Service, read: &[u8], memory: &mut [u8]) -> Served {
    // As in `judge`: what the call left alone wouldn't look like an answer.
    let mut first = u64::MAX;
    // SAFETY: each slice is passed with its own length, which the call never exceeds; no pointer is null; what is
    // written is borrowed mutably, so nothing overlaps.
    let number = unsafe { service(read.as_ptr(), read.len(), memory.as_mut_ptr(), memory.len(), &mut first) };
    Served { number, first }
}

/// Lists every template of a single component that a domain file could have, its own left aside: relation, counted place
/// (`FF` for none) and verdict, a byte each.
///
/// 9 to 27 refuse the file as judging does, with the place; 30 a list that is too short for the whole; both write nothing.
/// Every length will do, 0 too; bytes behind the list stay as they were.
pub fn templates(file: &[u8], list: &mut [u8]) -> Served {
    serve(raw::goadlotus_templates, file, list)
}

/// Tries the facts themselves: for each class of each action at once, in the order of the report, a byte that says whether
/// some set of facts shows harm, 1 yes, 0 no. A set is the action's true conditions with at most one further fact of the
/// class's instance; it shows harm where the instance weighs at most one in it, the action alone is an allowed step, and the
/// instance weighs two or more afterwards. That is so exactly for heavy, unbalanced and unbounded.
///
/// 9 to 27 refuse the file as judging does, with the place; 30 a memory that is too short; both write nothing. Every length
/// will do, 0 too; bytes behind the answers stay as they were.
pub fn try_facts(file: &[u8], tried: &mut [u8]) -> Served {
    serve(raw::goadlotus_try, file, tried)
}

/// Counts a box of domain files, each behind its length in 4 bytes, little-endian: how many met each number from 0 to
/// 63, then how many moments had each of the seven names, 8 bytes each, little-endian.
///
/// 33 tells a box that is cut inside a length or a file, with the offset of that length; 30 totals of under 568 bytes;
/// both write nothing. Every length will do, 0 too; bytes behind the totals stay as they were.
pub fn totals(files: &[u8], totals: &mut [u8]) -> Served {
    serve(raw::goadlotus_totals, files, totals)
}
