//! Every literal of two arguments out of 0, 1, FF and one that is no variable, in every role, alone and behind every right one,
//! judged by library and model.

use differential::judging::compare;
use generate::domains::all_literals;
use generate::room;

#[test]
fn every_literal() {
    for (salt, file) in all_literals().iter().enumerate() {
        if let Err(text) = compare(goadlotus::judge, &file.file, room(&file.file), salt) {
            panic!("{:?} behind {:?}\n{text}", file.literal, file.earlier);
        }
    }
}
