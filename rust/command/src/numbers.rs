//! What the library's numbers say.

/// What is wrong with a domain file or a run file, by the number, told of the record at fault.
pub fn says(number: u64) -> &'static str {
    match number {
        9 => "the file is longer than 65,535 bytes",
        10 => "a record is cut short, or the closing record is missing",
        11 => "there is no such kind of record in a domain file",
        12 => "the record is too long or too short",
        13 => "this comes too late: relations stand before actions, actions before the template, nothing behind the close",
        14 => "one too many: a file has at most 64 relations, 64 actions, 64 literals in an action, 16 components",
        15 => "out of range: a relation has at most 6 arguments, an action at most 16 variables",
        16 => "the action is at once, so its literals have no time: all and end are for lasting actions",
        17 => "there is no such relation above",
        18 => "there is no such variable in the action",
        19 => "this literal stands in its action already, in the same role",
        20 => "a condition that is both true and false",
        21 => "a key too high or missing: each component has the keys 0, 1, .. of the first one, each once",
        22 => "the relation has a component already",
        23 => "the template is missing",
        24 => "a key that stands twice in its component",
        25 => "a second `_` in a component: at most one argument is counted",
        26 => "`*`, every object, stands in a false or a delete alone, and once at most",
        27 => "a key in a place where a literal of the relation has `*`",
        30 => "too little memory for the report",
        31 => "too little memory for the witness",
        50 => "this is out of order, or too long or short, or the run isn't closed as it should be",
        51 => "out of range: no such relation, action or object, more than 64 objects or none, or an end of an action at once",
        52 => "more than the player holds: 1,024 facts, 16 events in a step, 32 actions open",
        53 => "two variables get the same object",
        54 => "the step has this event already",
        55 => "a condition does not hold",
        56 => "two events of the step interfere",
        57 => "the step ends something that isn't open",
        58 => "too little work memory",
        _ => "an answer that this command doesn't know",
    }
}

/// The same of a place in a file, where more is known.
pub fn says_at(number: u64, file: &[u8], offset: usize) -> &'static str {
    match number {
        10 if offset == file.len() => "the closing record is missing",
        10 => "a record is cut short",
        number => says(number),
    }
}
