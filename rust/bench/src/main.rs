//! The library against the model, timed in one run: `cargo run --offline --release -p bench`.
//!
//! Each time is the median of many rounds, in which library and model take turns. Both lend ready
//! buffers, which aren't cleared in between.

mod files;
mod judging;
mod playing;
mod runs;
mod timing;

use std::time::Instant;

fn main() {
    let begin = Instant::now();
    judging::print();
    playing::print();
    println!("\n{:.1} s in all", begin.elapsed().as_secs_f64());
}
