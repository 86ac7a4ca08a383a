//! Prints the verdict of the domain file that its argument names, with its three places, then its rows.
use std::{env, fs, process};

fn main() {
    let name = env::args().nth(1).expect("usage: judge FILE");
    let file = fs::read(&name).unwrap_or_else(|why| {
        eprintln!("{name}: {why}");
        process::exit(1)
    });
    let judged = goadlotus::judge_file(&file);
    let answer = judged.answer;
    println!("verdict {} {} {} {}", answer.number, answer.first, answer.second, answer.third);
    for row in judged.rows() {
        println!("row {} {} {} {}", row.action, row.class, row.moment as u8, row.name);
    }
}
