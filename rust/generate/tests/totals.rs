//! P11 over generated boxes: every total is a count over the list of files, each judged by itself; the totals add up; the totals of
//! two boxes joined are the sums; every cut of a box is told with the offset of the length it is in.

use generate::boxes::{any_file, any_files, packed, small};
use generate::rng::Rng;
use model::listing::{REPORT, WITNESS};
use model::totals::{files, TOTALS_BYTES};
use model::{judge, totals};

/// The totals of a box, in memory that is just enough.
fn counted(of: &[u8]) -> Vec<u64> {
    let mut memory = vec![0xA5; TOTALS_BYTES];
    let served = totals(of, &mut memory);
    assert_eq!((served.number, served.first), (0, TOTALS_BYTES));
    memory.chunks_exact(8).map(|total| u64::from_le_bytes(total.try_into().unwrap())).collect()
}

/// The same from what judging says of each file.
fn by_judging(files: &[Vec<u8>]) -> Vec<u64> {
    let mut totals = vec![0; 71];
    for file in files {
        let mut report = vec![0; REPORT];
        let number = judge(file, &mut report, &mut [0; WITNESS]).number;
        totals[number as usize] += 1;
        if !(9..=27).contains(&number) {
            // a name number is never 0, so the rows end at the first 0
            for row in report.chunks_exact(4).take_while(|row| row[3] != 0) {
                totals[63 + row[3] as usize] += 1;
            }
        }
    }
    totals
}

#[test]
fn totals_are_counts() {
    assert_eq!(counted(&[]), vec![0; 71]);
    let mut met = vec![0; 71];
    for seed in 0..400 {
        let rng = &mut Rng::new(0x1111_0000 + seed);
        let most = if seed == 0 { 3_000 } else { 30 };
        let (some, others) = (any_files(rng, most), any_files(rng, 5));
        let (first, second) = (packed(&some), packed(&others));
        let (of_first, of_second) = (counted(&first), counted(&second));
        assert_eq!(of_first, by_judging(&some), "seed {seed}");
        assert_eq!(of_first[..64].iter().sum::<u64>(), some.len() as u64, "seed {seed}");
        let sums: Vec<u64> = of_first.iter().zip(&of_second).map(|(a, b)| a + b).collect();
        assert_eq!(counted(&[first, second].concat()), sums, "seed {seed}: joined");
        met.iter_mut().zip(&sums).for_each(|(met, total)| *met += total);
    }
    let occurring: Vec<usize> = (0..64).filter(|&number| met[number] > 0).collect();
    println!("{} files, of numbers {occurring:?}, moments by name {:?}", met[..64].iter().sum::<u64>(), &met[64..]);
    let all: Vec<usize> = [0, 1].into_iter().chain(9..=27).chain(40..=43).collect();
    assert_eq!(occurring, all);
    assert!(met[64..].iter().all(|&count| count >= 100));
}

/// A thousand files, and lengths of memory around the one needed.
#[test]
fn a_large_box() {
    let rng = &mut Rng::new(11);
    let all: Vec<Vec<u8>> = (0..1_000).map(|_| any_file(rng)).collect();
    let of = packed(&all);
    assert_eq!(counted(&of), by_judging(&all));
    for lent in [0, TOTALS_BYTES - 1, TOTALS_BYTES, TOTALS_BYTES + 1] {
        let mut memory = vec![0xA5; lent];
        let served = totals(&of, &mut memory);
        if lent < TOTALS_BYTES {
            assert_eq!((served.number, served.first), (30, 0));
            assert!(memory.iter().all(|&byte| byte == 0xA5));
        } else {
            assert_eq!((served.number, served.first), (0, TOTALS_BYTES));
            assert!(memory[TOTALS_BYTES..].iter().all(|&byte| byte == 0xA5));
        }
    }
}

/// Every cut of a small box, and lengths that go beyond it: 33 at the length, before 30, untouched.
#[test]
fn cut_boxes() {
    let rng = &mut Rng::new(33);
    let all: Vec<Vec<u8>> = (0..4).map(|_| small(rng).file()).chain([Vec::new()]).collect();
    let of = packed(&all);
    let mut lengths = vec![0];
    for file in &all {
        lengths.push(lengths.last().unwrap() + 4 + file.len());
    }
    for cut in 0..of.len() {
        for lent in [0, TOTALS_BYTES] {
            let mut memory = vec![0xA5; lent];
            let served = totals(&of[..cut], &mut memory);
            if lengths.contains(&cut) {
                assert_eq!(served.number, if lent == 0 { 30 } else { 0 });
                continue;
            }
            let length = lengths.iter().copied().filter(|&length| length < cut).max().unwrap();
            assert_eq!((served.number, served.first), (33, length), "cut at {cut}");
            assert!(memory.iter().all(|&byte| byte == 0xA5));
        }
    }
    for length in [1, 4, 0x7FFF_FFFF, 0x8000_0000, u32::MAX - 4, u32::MAX] {
        let longer = [&of[..], &length.to_le_bytes()].concat();
        assert_eq!((totals(&longer, &mut []).number, totals(&longer, &mut []).first), (33, of.len()));
    }
    assert_eq!(files(&of).unwrap().len(), 5);
}
