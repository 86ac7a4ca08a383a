//! Every literal of two arguments, alone and behind every right one, gets the number of a second reading of P4, which can
//! misread it.

use generate::domains::{all_literals, Literate, FF};
use model::read;

#[derive(Clone, Copy, PartialEq, Eq, Debug)]
enum Misread {
    /// A variable out of range is told before FF.
    VariableFirst,
    /// FF is told by 18 in the roles that may not have it.
    NoVariable,
    /// A contradiction is told by equality alone.
    ByEquality,
    /// A literal that is covered is told as repeated.
    RepeatedByCovering,
    /// A contradiction is told across the roles of start and end.
    AnyTime,
}

const MISREADINGS: [Misread; 5] =
    [Misread::VariableFirst, Misread::NoVariable, Misread::ByEquality, Misread::RepeatedByCovering, Misread::AnyTime];

const IS_TRUE: [u8; 3] = [0, 4, 6];
const IS_FALSE: [u8; 3] = [1, 5, 7];
const MAY_HAVE_FF: [u8; 5] = [1, 3, 5, 7, 9];

fn expected(file: &Literate, misread: Option<Misread>) -> Option<u8> {
    let misreads = |which| misread == Some(which);
    let (role, arguments) = file.literal;
    if role > 9 || (role > 3 && !file.lasting) {
        return Some(16);
    }
    let every = arguments.iter().filter(|&&argument| argument == FF).count();
    let number = if misreads(Misread::NoVariable) && every == 1 { 18 } else { 26 };
    let wrong_every = (every > 1 || (every == 1 && !MAY_HAVE_FF.contains(&role))).then_some(number);
    let no_variable = arguments.iter().any(|&argument| argument != FF && argument >= 2).then_some(18);
    let (first, second) = match misreads(Misread::VariableFirst) {
        true => (no_variable, wrong_every),
        false => (wrong_every, no_variable),
    };
    if let Some(number) = first.or(second) {
        return Some(number);
    }
    let (other, earlier) = file.earlier?;
    let covers = |some: [u8; 2], others: [u8; 2]| (0..2).all(|at| some[at] == others[at] || some[at] == FF);
    let either = covers(arguments, earlier) || covers(earlier, arguments);
    let same = arguments == earlier;
    if role == other && (same || (either && misreads(Misread::RepeatedByCovering))) {
        return Some(19);
    }
    let opposite = (IS_TRUE.contains(&role) && IS_FALSE.contains(&other))
        || (IS_FALSE.contains(&role) && IS_TRUE.contains(&other));
    let together = (role < 2) == (other < 2) || misreads(Misread::AnyTime);
    let meets = if misreads(Misread::ByEquality) { same } else { either };
    (opposite && together && meets).then_some(20)
}

#[test]
fn every_literal() {
    let files = all_literals();
    let mut met = [0; 28];
    let mut told = MISREADINGS.map(|_| 0);
    for file in &files {
        let stop = read(&file.file).err();
        let got = stop.map(|stop| stop.number);
        assert_eq!(got, expected(file, None), "{:?} behind {:?}", file.literal, file.earlier);
        assert!(stop.is_none_or(|stop| stop.place == file.record && stop.record == file.record));
        met[got.unwrap_or(0) as usize] += 1;
        for (misread, count) in MISREADINGS.into_iter().zip(&mut told) {
            *count += (expected(file, Some(misread)) != got) as usize;
        }
    }
    let numbers = [0, 16, 18, 19, 20, 26].map(|number| (number, met[number]));
    println!("{} files, {numbers:?}; {MISREADINGS:?} told by {told:?}", files.len());
    assert!(numbers.iter().all(|&(_, count)| count >= 10) && told.iter().all(|&count| count >= 10));
}
