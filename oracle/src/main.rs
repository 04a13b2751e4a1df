//! Runs the original driver over the answers of many cases and prints what it
//! did, for a port to compare itself with. See README.md for the line format.

mod answers;
mod bench;
mod case;
mod driver;
mod fresh;
mod images;
mod level;
mod light;
mod lines;
mod list;
mod page;
mod rules;
mod script;

use std::collections::BTreeMap;
use std::io::{self, BufWriter, Write};
use std::process::ExitCode;

use case::Case;
use fresh::Fresh;

const USAGE: &str =
    "usage: oracle list | fresh SEED COUNT | replay FILE | trace FILE LINE | count FILE | bench SEED COUNT | images DIR \
     | lights DIR | records FILE DIR | words SEED COUNT DIR";
/// Differing lines that `replay` shows.
const SHOWN: usize = 10;

fn main() -> ExitCode {
    let words: Vec<String> = std::env::args().skip(1).collect();
    let words: Vec<&str> = words.iter().map(String::as_str).collect();
    let done = match words[..] {
        ["list"] => print(list::cases().into_iter()),
        ["fresh", seed, count] => fresh(seed, count),
        ["replay", file] => replay(file),
        ["trace", file, line] => trace(file, line),
        ["count", file] => count(file),
        ["bench", seed, count] => bench(seed, count),
        ["images", folder] => images::write(folder),
        ["lights", folder] => images::lights(folder),
        ["records", file, folder] => text(file).and_then(|list| bench::record::records(&list, folder)),
        ["words", seed, count, folder] => {
            numbers(seed, count).and_then(|(seed, count)| bench::record::words(seed, count, folder))
        }
        _ => Err(USAGE.into()),
    };
    match done {
        Ok(()) => ExitCode::SUCCESS,
        Err(why) => {
            eprintln!("oracle: {why}");
            ExitCode::FAILURE
        }
    }
}

fn print(cases: impl Iterator<Item = Case>) -> Result<(), String> {
    let mut out = BufWriter::new(io::stdout().lock());
    for case in cases {
        writeln!(out, "{}", case.line(&case.run())).map_err(|e| e.to_string())?;
    }
    out.flush().map_err(|e| e.to_string())
}

fn numbers(seed: &str, count: &str) -> Result<(u64, usize), String> {
    let seed = seed.parse().map_err(|_| "SEED is a number below 2^64")?;
    let count = count.parse().map_err(|_| "COUNT is a number")?;
    Ok((seed, count))
}

fn fresh(seed: &str, count: &str) -> Result<(), String> {
    let (seed, count) = numbers(seed, count)?;
    let mut fresh = Fresh::new(seed);
    print((0..count).map(|_| fresh.next()))
}

fn text(file: &str) -> Result<String, String> {
    std::fs::read_to_string(file).map_err(|e| format!("{file}: {e}"))
}

/// Runs every line again and compares all of it.
fn replay(file: &str) -> Result<(), String> {
    let text = text(file)?;
    let (mut agree, mut differ) = (0, 0);
    for (i, line) in text.lines().enumerate() {
        let (case, _) = Case::parse(line).map_err(|e| format!("line {}: {e}", i + 1))?;
        let again = case.line(&case.run());
        if again == line {
            agree += 1;
            continue;
        }
        differ += 1;
        if differ <= SHOWN {
            eprintln!("line {}:\n  file {line}\n  here {again}", i + 1);
        }
    }
    println!("{agree} agree, {differ} differ");
    if differ == 0 {
        Ok(())
    } else {
        Err("the file is not what the original does".into())
    }
}

/// Every access of one line's case with its answer (hexadecimal, waits in
/// decimal microseconds), to find where a port differs.
fn trace(file: &str, line: &str) -> Result<(), String> {
    let number: usize = line.parse().map_err(|_| "LINE is a number from 1")?;
    let text = text(file)?;
    let line = text.lines().nth(number.wrapping_sub(1)).ok_or("no such line")?;
    let (case, _) = Case::parse(line)?;
    let mut player = case.player().logged();
    let outcome = case.run_with(&mut player);
    let mut out = BufWriter::new(io::stdout().lock());
    for (i, access) in player.log().iter().enumerate() {
        writeln!(out, "{i} {access}").map_err(|e| e.to_string())?;
    }
    let [code, v1, v2, v3] = outcome.result;
    writeln!(out, "ends with {code}: {v1:x} {v2:x} {v3:x}").map_err(|e| e.to_string())?;
    out.flush().map_err(|e| e.to_string())
}

/// By function: the lines, their accesses, the most in one, and how often
/// each code is the result (0 is success).
fn count(file: &str) -> Result<(), String> {
    #[derive(Default)]
    struct Counts {
        lines: u32,
        accesses: u64,
        most: u32,
        codes: BTreeMap<u32, u32>,
    }
    let mut all: BTreeMap<u32, Counts> = BTreeMap::new();
    for (i, line) in text(file)?.lines().enumerate() {
        let (case, outcome) = Case::parse(line).map_err(|e| format!("line {}: {e}", i + 1))?;
        let counts = all.entry(case.number()).or_default();
        counts.lines += 1;
        counts.accesses += u64::from(outcome.accesses);
        counts.most = counts.most.max(outcome.accesses);
        *counts.codes.entry(outcome.result[0]).or_default() += 1;
    }
    for (function, counts) in all {
        let Counts { lines, accesses, most, codes } = counts;
        let codes: Vec<String> = codes.iter().map(|(code, count)| format!("{code}: {count}")).collect();
        let codes = codes.join(", ");
        println!("function {function}: {lines} lines, {accesses} accesses, at most {most}; {codes}");
    }
    Ok(())
}

/// The original's `identify` with the bench module, against the claim.
fn bench(seed: &str, count: &str) -> Result<(), String> {
    let (seed, count) = numbers(seed, count)?;
    let tally = bench::starts(seed, count);
    println!("{tally}");
    if tally.disagree == 0 {
        Ok(())
    } else {
        Err("the original does not do what is claimed".into())
    }
}
