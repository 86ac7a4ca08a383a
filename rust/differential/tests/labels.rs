//! Every component of up to four labels out of 0, 1, 2, 3 and FF, as first and as second one, those of up to three also with
//! a literal that clears one of their places, judged and played by library and model.

use differential::{judging, playing};
use generate::domains::all_labels;
use generate::room;

#[test]
fn every_row_of_labels() {
    let run = [1, 0, 16, 0, 1, 0, 0, 20, 0];
    for (salt, file) in all_labels().iter().enumerate() {
        let judged = judging::compare(goadlotus::judge, &file.file, room(&file.file), salt);
        let judged = judged.unwrap_or_else(|text| panic!("{:?} behind {:?}\n{text}", file.labels, file.first));
        let played = playing::compare(playing::library, &file.file, &run, playing::WORK, salt);
        let played = played.unwrap_or_else(|text| panic!("{:?} behind {:?}\n{text}", file.labels, file.first));
        if judged.number != 0 {
            assert_eq!((played.number, played.place, played.at), (judged.number, judged.first, file.record));
        }
    }
}
