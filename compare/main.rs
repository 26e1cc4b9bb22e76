//! Compares the proved programs and calls with an implementation of its own, of which nothing is proved.
//!
//! `compare PROGRAM SEED VOLUMES CASES FILES..` compares what the program prints of the files and of so many volumes, and
//! what the calls of the static library answer in so many cases. `compare volume SEED INDEX` writes one of the volumes.

mod atoms;
mod cases;
mod linked;
mod listing;
mod random;
mod relations;
mod sources;
mod tally;
mod volume;
mod volumes;

use std::io::Write;
use std::process::{Command, Stdio};
use std::sync::atomic::{AtomicU64, Ordering::Relaxed};
use std::sync::Mutex;
use tally::Tally;

/// How many run at a time.
const WORKERS: usize = 2;

/// What the program prints for the bytes on its standard input, and its status.
fn printed(program: &str, bytes: &[u8]) -> std::io::Result<(Vec<u8>, Option<i32>)> {
    let mut child = Command::new(program).stdin(Stdio::piped()).stdout(Stdio::piped()).spawn()?;
    let mut input = child.stdin.take().expect("standard input is piped");
    // A program that reads no further closes its input; what is left does not matter then.
    let _ = input.write_all(bytes);
    drop(input);
    let output = child.wait_with_output()?;
    Ok((output.stdout, output.status.code()))
}

fn hex(bytes: &[u8]) -> String {
    bytes.iter().map(|b| format!("{b:02X}")).collect()
}

/// Compares what is printed of the bytes.
fn compare_bytes(program: &str, name: &str, bytes: &[u8], tally: &mut Tally) {
    let expected = listing::listing(bytes);
    let (text, status) = printed(program, bytes).expect("the program runs");
    for line in expected.lines() {
        let words: Vec<&str> = line.split(' ').collect();
        match words[0] {
            "X" => tally.add("refusals", &format!("{:0>2}", words[1])),
            "G" if words[1] == "-" => tally.add("lines", "G -"),
            letter => tally.add("lines", letter),
        }
    }
    tally.add("volumes", if expected.starts_with('X') { "declined" } else { "accepted" });
    if text != expected.as_bytes() || status != Some(0) {
        tally.differences += 1;
        println!("DIFFERENCE in {name}, status {status:?}: {}", hex(bytes));
        println!("expected:\n{expected}printed:\n{}", String::from_utf8_lossy(&text));
    }
}

fn compare_volume(program: &str, seed: u64, index: u64, tally: &mut Tally) {
    let (kind, bytes) = volumes::volume(seed, index);
    tally.add("volumes by kind", kind);
    compare_bytes(program, &format!("volume {index} of seed {seed}, {kind}"), &bytes, tally);
}

/// Does so many of them, a few at a time, with a line of progress now and then.
fn all(count: u64, what: &str, each: impl Fn(u64, &mut Tally) + Sync) -> Tally {
    let next = AtomicU64::new(0);
    let whole = Mutex::new(Tally::default());
    std::thread::scope(|scope| {
        for _ in 0..WORKERS {
            scope.spawn(|| {
                let mut tally = Tally::default();
                loop {
                    let index = next.fetch_add(1, Relaxed);
                    if index >= count {
                        break;
                    }
                    each(index, &mut tally);
                    if (index + 1) % 10_000 == 0 {
                        eprintln!("{} of {count} {what}", index + 1);
                    }
                }
                whole.lock().expect("no worker panics").join(tally);
            });
        }
    });
    whole.into_inner().expect("no worker panics")
}

fn number(word: &str) -> u64 {
    word.parse().expect("a number")
}

/// Compares the files, volumes and cases.
fn compare(program: &str, seed: u64, volume_count: u64, case_count: u64, files: &[&str]) -> bool {
    let mut tally = Tally::default();
    for file in files {
        tally.add("volumes by kind", "sample");
        compare_bytes(program, file, &std::fs::read(file).expect("the file can be read"), &mut tally);
    }
    tally.join(all(volume_count, "volumes", |index, tally| compare_volume(program, seed, index, tally)));
    tally.join(all(case_count, "cases", |index, tally| cases::compare(seed, index, tally)));
    tally.print();
    tally.differences == 0
}

fn main() {
    let words: Vec<String> = std::env::args().skip(1).collect();
    let words: Vec<&str> = words.iter().map(String::as_str).collect();
    match words[..] {
        ["volume", seed, index] => {
            let bytes = volumes::volume(number(seed), number(index)).1;
            std::io::stdout().write_all(&bytes).expect("standard output is open");
        }
        [program, seed, volume_count, case_count, ref files @ ..] => {
            if !compare(program, number(seed), number(volume_count), number(case_count), files) {
                std::process::exit(1);
            }
        }
        _ => panic!("compare PROGRAM SEED VOLUMES CASES FILES.. | compare volume SEED INDEX"),
    }
}
