//! Decodes the chunk in a file so many times with decode.rs, for counting instructions: shipped keep|free FILE TURNS. `keep` leaves what was
//! decoded where it is, so that decoding alone is counted; `free` gives it back after each turn.
use crate::shex::decode::decode_with_fourcc;
use std::hint::black_box;

pub fn main() {
    let words: Vec<String> = std::env::args().collect();
    let chunk = std::fs::read(&words[2]).expect("the file is read");
    for _ in 0..words[3].parse().expect("a number") {
        let Ok(program) = black_box(decode_with_fourcc(black_box(&chunk), *b"SHEX")) else { panic!("refused") };
        if words[1] == "keep" {
            std::mem::forget(program);
        }
    }
}
