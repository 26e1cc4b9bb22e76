//! Decides positive reliance and restraint for the rules of a volume, and times it. Nothing of it is proved.
//! What each mode does is told in README.md beside this file.

mod brute;
mod check;
mod classes;
mod draft;
mod generate;
mod hand;
mod hom;
mod literal;
mod numbering;
mod reliance;
mod restraint;
mod rule;
mod shelf;

use literal::Witness;
use rule::Rule;
use shelf::{calls_for, run, Answer, Kind, Shelf};
use std::fmt::Write as _;
use std::hint::black_box;
use std::io::{Read, Write};
use std::time::Instant;

type Decide = fn(&Rule, &Rule, &mut Witness) -> bool;

fn main() {
    let words: Vec<String> = std::env::args().skip(1).collect();
    let words: Vec<&str> = words.iter().map(String::as_str).collect();
    let done = match words[..] {
        ["generate", style, seed] => generate(style, seed),
        ["hard"] => put(&draft::volume(&hand::rules())),
        ["answers"] => volume().and_then(|rules| put(answers(&rules).as_bytes())),
        ["times", rounds] => times(rounds),
        ["shelf", rounds] => shelf_times(rounds),
        ["listing"] => input().and_then(|bytes| put(shelf::listing(&bytes)?.as_bytes())),
        ["exhaust", count, seed] => exhaust(count, seed, brute::compare),
        ["exhaust-sets", count, seed] => exhaust(count, seed, brute::compare_over_two),
        ["marked"] => brute::marked(),
        _ => Err("bench-rust generate STYLE SEED | hard | answers | times ROUNDS | shelf ROUNDS | listing | exhaust COUNT SEED | exhaust-sets COUNT SEED | marked".into()),
    };
    if let Err(fault) = done {
        eprintln!("{fault}");
        std::process::exit(2);
    }
}

fn put(bytes: &[u8]) -> Result<(), String> {
    std::io::stdout().write_all(bytes).map_err(|e| e.to_string())
}

fn number<T: std::str::FromStr>(text: &str) -> Result<T, String> {
    text.parse().map_err(|_| format!("{text} is no number here"))
}

fn input() -> Result<Vec<u8>, String> {
    let mut bytes = Vec::new();
    std::io::stdin().read_to_end(&mut bytes).map_err(|e| e.to_string())?;
    Ok(bytes)
}

fn volume() -> Result<Vec<Rule>, String> {
    rule::read_volume(&input()?)
}

fn generate(style: &str, seed: &str) -> Result<(), String> {
    let (style, count) = generate::sized(style).ok_or("a style is small, large, hard, sparse or full, or as large:6:4:64")?;
    put(&draft::volume(&generate::rules(&style, number(seed)?, count)))
}

fn answers(rules: &[Rule]) -> String {
    let mut text = String::new();
    let mut witness = Witness::default();
    for first in rules {
        for second in rules {
            let p = reliance::relies(first, second, &mut witness) as u8;
            let r = restraint::restrains(first, second, &mut witness) as u8;
            let _ = writeln!(text, "{} {} {p} {r}", first.number, second.number);
        }
    }
    text
}

fn times(rounds: &str) -> Result<(), String> {
    let rounds: u32 = number(rounds)?;
    let rules = volume()?;
    let mut text = String::new();
    for first in &rules {
        for second in &rules {
            for (kind, decide) in [("P", reliance::relies as Decide), ("R", restraint::restrains as Decide)] {
                let (answer, nanoseconds) = time(rounds.max(1), first, second, decide);
                let _ = writeln!(text, "{} {} {kind} {} {nanoseconds}", first.number, second.number, answer as u8);
            }
        }
    }
    put(text.as_bytes())
}

fn time(rounds: u32, first: &Rule, second: &Rule, decide: Decide) -> (bool, u128) {
    let mut witness = Witness::default();
    let mut answer = false;
    let start = Instant::now();
    for _ in 0..rounds {
        answer = black_box(decide(black_box(first), black_box(second), black_box(&mut witness)));
    }
    (answer, start.elapsed().as_nanos() / rounds as u128)
}

/// the last answer, and how long one took
fn repeat<T>(rounds: u32, work: impl Fn() -> T) -> (T, u128) {
    let start = Instant::now();
    let mut answer = black_box(work());
    for _ in 1..rounds {
        answer = black_box(work());
    }
    (answer, start.elapsed().as_nanos() / rounds as u128)
}

/// the lines that the program shelf_times prints
fn shelf_times(rounds: &str) -> Result<(), String> {
    let rounds = number::<u32>(rounds)?.max(1);
    let bytes = input()?;
    let (checked, time) = repeat(rounds, || check::check(black_box(&bytes)));
    let count = checked.map_err(|fault| format!("a volume with the fault {}", fault.number))?;
    let mut text = format!("check {count} {time}\n");
    if bytes[0] == 1 {
        put_rules(rounds, &bytes, &mut text)?;
    }
    put(text.as_bytes())
}

fn put_rules(rounds: u32, bytes: &[u8], text: &mut String) -> Result<(), String> {
    let rules = rule::read_volume(bytes)?;
    for (name, kind) in [("reliances", Kind::Positive), ("restraints", Kind::Restraint)] {
        let calls = calls_for(&rules, &[kind]);
        // the proved shelf reads each rule from the bytes when it is admitted
        let (answers, time) = repeat(rounds, || Ok::<_, String>(run(&rule::read_volume(black_box(bytes))?, black_box(&calls))));
        let yeses = answers?.iter().filter(|answer| matches!(answer, Answer::Yes(_))).count();
        let _ = writeln!(text, "{name} {yeses} {time}");
    }
    let mut shelf = Shelf::new();
    for rule in &rules {
        shelf.admit(rule.clone());
    }
    let (graded, time) = repeat(rounds, || black_box(&shelf).grade());
    let _ = match graded {
        Some((reliances, restraints, _)) => writeln!(text, "grade {reliances} {restraints} {time}"),
        None => writeln!(text, "grade none {time}"),
    };
    for (name, up) in [("up", true), ("down", false)] {
        let (held, less_than) = numbering::chain(rules.len(), up);
        let (numbers, time) = repeat(rounds, || numbering::least_numbering(black_box(held), &[0; 64], black_box(&less_than)));
        let _ = writeln!(text, "{name} {} {time}", numbers.map_or(0, |numbers| numbers.into_iter().max().unwrap_or(0)));
    }
    Ok(())
}

fn exhaust(count: &str, seed: &str, compare: fn(usize, u64) -> Result<(), String>) -> Result<(), String> {
    compare(number(count)?, number(seed)?)
}
