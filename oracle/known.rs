//! Tries the differences that are known: oracle/known.txt says how they are written.

use crate::compare::{Bench, Oracle, Verdict};
use crate::generate::SHEX;
use told::{Decode, Told};

/// The bytes of a chunk that is written as dwords.
pub fn chunk_of(text: &str) -> Vec<u8> {
    let words: Vec<&str> = text.split_whitespace().collect();
    let mut bytes = Vec::new();
    let mut at = 0;
    while at < words.len() {
        let dword = u32::from_str_radix(words[at], 16).expect("a dword in hexadecimal").to_le_bytes();
        let mut times = 1;
        if words.get(at + 1) == Some(&"x") {
            times = words[at + 2].parse().expect("a number of times");
            at += 2;
        }
        bytes.extend(dword.repeat(times));
        at += 1;
    }
    bytes
}

/// An answer of the Rust as known.txt writes it.
fn answer(told: &Told, verdict: &Verdict) -> String {
    match (told, verdict) {
        (Told::Refused { number, place }, _) => format!("{number} {place}"),
        (Told::Strange(what), _) => what.clone(),
        (Told::Accepted { lost: Some(_), .. }, _) => "accepted*".to_string(),
        (Told::Accepted { .. }, Verdict::Different(why)) if why.contains("row") || why.contains("word") => {
            "accepted*".to_string()
        }
        (Told::Accepted { .. }, _) => "accepted".to_string(),
    }
}

/// Tries each line with one or both builds of decode.rs. How many are as they should be, and how many are not, which are printed.
pub fn check(text: &str, decode: Decode, oracles: &[Oracle]) -> (u32, u32) {
    let (mut right, mut wrong) = (0, 0);
    for line in text.lines().filter(|line| !line.is_empty() && !line.starts_with('#')) {
        let parts: Vec<&str> = line.split('|').map(str::trim).collect();
        let chunk = chunk_of(parts[0]);
        let mut seen = Vec::new();
        for &oracle in oracles {
            let (told, ours, verdict) = Bench::new(oracle, decode).run(&chunk, SHEX);
            if seen.is_empty() {
                let ours = ours.expect("no panic");
                seen.push(if ours.number == 0 { "accepted".to_string() } else { format!("{} {}", ours.number, ours.place) });
            }
            seen.push(answer(&told, &verdict));
        }
        if seen == parts[1..2 + oracles.len()] {
            right += 1;
        } else {
            wrong += 1;
            println!("{line}: it is {}", seen.join(" | "));
        }
    }
    (right, wrong)
}
