//! The command line of the oracle. Where a seed or a count is not given, it is 1 and 10,000.
//!
//!   compare [--seed N] [--count N] [--published]   compares so many chunks, encodes those accepted, prints figures; exit status 1 if any
//!                                                  differs
//!   editions [--seed N] [--count N]                compares our side with oracle/paper.rs, at every edition
//!   published [--seed N] [--count N]               lists where the published counts and lists part from document 01's
//!   known FILE                                     tries the differences that oracle/known.txt lists
//!   sample OUT [--seed N] [--count N] [--bytes N]  writes so many chunks of up to so many bytes with the Rust's answers
//!   replay FILE                                    replays such a file with our side alone
//!   records [--seed N] [--count N] [--ours]        prints a record of each chunk, a line each: the Rust's, or ours
//!   read FILE..                                    prints the Rust's record of each file, and ours
//!   print HEX..                                    the same for a chunk of these dwords

use std::process::ExitCode;

use driver::compare::{Oracle, Pools};
use driver::generate::SHEX;
use driver::{Run, chunks, compare_all, option};
use told::{Printed, Rows, Told};

/// Our side's answer in the form of the Rust's.
fn told_by_us(chunk: &[u8], four: u32) -> (Told, Rows) {
    let mut pools = Pools::default();
    let ours = pools.read(ours::decode, chunk, four, 3).expect("no panic");
    if ours.number != 0 {
        return (Told::Refused { number: ours.number, place: ours.place }, Rows::default());
    }
    let seen = pools.seen(&ours).expect("the pools are in order");
    let rows = Rows { instructions: seen.instructions.to_vec(), operands: seen.operands.to_vec(), words: seen.words.to_vec() };
    (Told::Accepted { version: ours.version, lost: None }, rows)
}

/// Prints both sides' records of a chunk.
fn print(oracle: Oracle, chunk: &[u8]) {
    let mut rows = Rows::default();
    let told = oracle(chunk, SHEX, &mut rows);
    print!("the Rust: {}", Printed(&told, &rows));
    let (told, rows) = told_by_us(chunk, SHEX);
    print!("ours: {}", Printed(&told, &rows));
}

/// Prints a line for each chunk of a run.
fn records(run: &Run, oracle: Oracle, ours: bool) {
    let mut rows = Rows::default();
    chunks(run, &mut |family, inner, chunk| {
        let (told, rows) =
            if ours { told_by_us(&chunk.bytes, chunk.four) } else { (oracle(&chunk.bytes, chunk.four, &mut rows), rows.clone()) };
        println!("{family}.{inner} {}", Printed(&told, &rows).to_string().trim_end().replace('\n', "; "));
    });
}

/// Whether the published ir.rs and opcodes.rs were there to build with; otherwise the stand-ins are there twice.
fn is_published() -> bool {
    shipped_paper::records::counts() != shipped_published::records::counts()
}

/// Prints where the published counts and lists differ from the stand-ins, each number tried.
fn list_differences() {
    for ((name, paper), (_, published)) in shipped_paper::records::lists().into_iter().zip(shipped_published::records::lists()) {
        let numbers = paper.iter().zip(&published).filter(|(a, b)| a != b).map(|(a, b)| format!("{a} is {b}"));
        println!("{name}, {} numbers tried, differing: {}", paper.len(), numbers.collect::<Vec<_>>().join(", "));
    }
    let counts = shipped_paper::records::counts().into_iter().zip(shipped_published::records::counts()).enumerate();
    let (declared, others): (Vec<_>, Vec<_>) =
        counts.filter(|(_, (a, b))| a != b).partition(|(code, _)| matches!(code, 88..=106 | 113..=116 | 120 | 144..=162 | 206));
    let text = |list: Vec<(usize, (Option<usize>, Option<usize>))>| {
        let texts = list.into_iter().map(|(code, (a, b))| match (a, b) {
            (None, Some(b)) => format!("{code} {b}"),
            (a, b) => format!("{code} {a:?} {b:?}"),
        });
        texts.collect::<Vec<_>>().join(", ")
    };
    println!("published counts of codes that have none in document 01: {}", text(others));
    println!("published counts that decode.rs does not ask for, as the code has a layout of its own: {}", text(declared));
}

fn main() -> ExitCode {
    let words: Vec<String> = std::env::args().skip(1).collect();
    let has = |name: &str| words.iter().any(|w| w == name);
    let oracle: Oracle = if has("--published") { shipped_published::records::read } else { shipped_paper::records::read };
    let run =
        Run { seed: option(&words, "--seed", 1), count: option(&words, "--count", 10_000), shown: option(&words, "--shown", 20) };
    let file = || std::fs::read(words.get(1).expect("a file")).expect("the file is read");
    // A panic of either side is counted, not shown.
    if has("compare") || has("editions") {
        std::panic::set_hook(Box::new(|_| {}));
    }
    let wrong = match words.first().map(String::as_str) {
        Some("compare") => {
            let (figures, differences) = compare_all(&run, oracle, ours::decode, ours::encode);
            println!("seed {}\n{figures}", run.seed);
            differences
        }
        Some("editions") => driver::editions::compare(&run, ours::decode, ours::encode),
        Some("published") if !is_published() => {
            println!("no ir.rs and opcodes.rs were beside decode.rs");
            0
        }
        Some("published") => {
            list_differences();
            driver::published::compare(&run, shipped_paper::records::read, shipped_published::records::read);
            0
        }
        Some("known") => {
            let text = String::from_utf8(file()).expect("a text");
            let oracles: [Oracle; 2] = [shipped_paper::records::read, shipped_published::records::read];
            let count = if is_published() { 2 } else { 1 };
            let (right, wrong) = driver::known::check(&text, ours::decode, &oracles[..count]);
            println!("{right} known answers are as they are listed, {wrong} are not");
            u64::from(wrong)
        }
        Some("sample") => {
            let (file, classes) = driver::sample::make(&run, option(&words, "--bytes", 96) as usize, oracle);
            std::fs::write(&words[1], &file).expect("the sample is written");
            let count = classes.values().sum::<u64>();
            println!("seed {}, {} bytes, {count} chunks by refusal (0: accepted): {classes:?}", run.seed, file.len());
            0
        }
        Some("replay") => {
            let (right, wrong) = driver::sample::replay(&file(), ours::decode);
            println!("{right} right, {wrong} wrong");
            u64::from(wrong)
        }
        Some("records") => {
            records(&run, oracle, has("--ours"));
            0
        }
        Some("read") => {
            for name in &words[1..] {
                println!("{name}");
                print(oracle, &std::fs::read(name).expect("the file is read"));
            }
            0
        }
        Some("print") => {
            print(oracle, &driver::known::chunk_of(&words[1..].join(" ")));
            0
        }
        _ => {
            eprintln!("oracle/main.rs lists the commands");
            return ExitCode::from(2);
        }
    };
    ExitCode::from(u8::from(wrong > 0))
}
