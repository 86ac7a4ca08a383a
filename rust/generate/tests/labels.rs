//! Every component of up to four labels out of 0, 1, 2, 3 and FF, as first and as second one, gets the number and the
//! place of a second reading of P1, which can misread it; and, with P4, where a literal clears one of its places.

use generate::domains::{all_labels, Labelled, FF};
use model::read;

#[derive(Clone, Copy, PartialEq, Eq, Debug)]
enum Mislabel {
    /// A key that stands twice is told before a second FF.
    KeyFirst,
    /// The first FF is named for the second.
    FirstFF,
    /// The place is the record's.
    PlaceOfRecord,
    /// A key that is only missing is told at the last label.
    MissingAtLabel,
    /// Only a key below n can stand twice.
    BelowNOnly,
    /// A key in a place that is cleared is told first.
    ClearedFirst,
    /// It is told at its label.
    ClearedAtLabel,
}

const MISLABELS: [Mislabel; 7] = [
    Mislabel::KeyFirst,
    Mislabel::FirstFF,
    Mislabel::PlaceOfRecord,
    Mislabel::MissingAtLabel,
    Mislabel::BelowNOnly,
    Mislabel::ClearedFirst,
    Mislabel::ClearedAtLabel,
];

/// The number, and its place.
fn expected(file: &Labelled, misread: Option<Mislabel>) -> Option<(u8, usize)> {
    let misreads = |which| misread == Some(which);
    let keys = |labels: &[u8]| labels.iter().filter(|&&label| label != FF).count();
    let n = keys(file.first.as_ref().unwrap_or(&file.labels));
    let mut counted: Vec<usize> = Vec::new();
    let mut twice: Vec<usize> = Vec::new();
    let mut beyond: Vec<usize> = Vec::new();
    for (at, &label) in file.labels.iter().enumerate() {
        let looked_at = !misreads(Mislabel::BelowNOnly) || (label as usize) < n;
        match label {
            FF => counted.push(at),
            _ if file.labels[..at].contains(&label) && looked_at => twice.push(at),
            _ => {}
        }
        if label != FF && label as usize >= n {
            beyond.push(at);
        }
    }
    let label = |at: usize| if misreads(Mislabel::PlaceOfRecord) { file.record } else { file.record + 4 + 1 + at };
    let mut order = Vec::new();
    if counted.len() > 1 {
        order.push((25, label(counted[if misreads(Mislabel::FirstFF) { 0 } else { 1 }])));
    }
    order.extend(twice.first().map(|&at| (24, label(at))));
    if misreads(Mislabel::KeyFirst) {
        order.reverse();
    }
    order.extend(beyond.first().map(|&at| (21, label(at))));
    if keys(&file.labels) < n {
        let last = file.labels.len().max(1) - 1;
        order.push((21, if misreads(Mislabel::MissingAtLabel) { label(last) } else { file.record }));
    }
    let cleared = file.cleared.filter(|&place| file.labels[place] != FF);
    let told = cleared.map(|at| (27, if misreads(Mislabel::ClearedAtLabel) { label(at) } else { file.record }));
    order.extend(told);
    if misreads(Mislabel::ClearedFirst) {
        order.rotate_right(told.is_some() as usize);
    }
    order.first().copied()
}

#[test]
fn every_row_of_labels() {
    let files = all_labels();
    assert_eq!(files.len(), 9 * (1 + 5 * 2 + 25 * 3 + 125 * 4 + 625));
    let mut met = [0; 5];
    let mut told = MISLABELS.map(|_| 0);
    for file in &files {
        let stop = read(&file.file).err();
        let got = stop.map(|stop| (stop.number, stop.place));
        assert_eq!(got, expected(file, None), "{:?} behind {:?}", file.labels, file.first);
        assert!(stop.is_none_or(|stop| stop.record == file.record), "the part begins at the record");
        match got {
            None => met[0] += 1,
            Some((21, at)) => met[1 + (at > file.record) as usize] += 1,
            Some((24..=25, _)) => met[3] += 1,
            Some(_) => met[4] += 1,
        }
        for (misread, count) in MISLABELS.into_iter().zip(&mut told) {
            *count += (expected(file, Some(misread)) != got) as usize;
        }
    }
    println!("right, 21 at the record, 21 at a label, 24 or 25, 27: {met:?}; {MISLABELS:?} told by {told:?}");
    assert!(met.iter().chain(&told).all(|&count| count >= 10));
}
