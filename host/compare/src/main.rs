//! Compares the port's calls with the original's, in one process over the same `Registers`; see `README.md`.

/// The exports by numbers, for made-up states.
#[allow(dead_code)]
#[rustfmt::skip]
#[path = "../../src/abi.rs"]
mod abi;
mod answers;
mod bus;
mod case;
mod choice;
mod driver;
/// A module on the lines that acknowledges every byte, as the oracle has it.
#[allow(dead_code)]
#[rustfmt::skip]
#[path = "../../../oracle/src/lines.rs"]
mod lines;
mod locks;
mod made;
/// The bench module, as the oracle has it.
#[allow(dead_code)]
#[rustfmt::skip]
#[path = "../../../oracle/src/bench/module.rs"]
mod module;
mod plain;
mod port;
mod reference;
mod runs;
mod trace;

fn main() {
    let words: Vec<String> = std::env::args().skip(1).collect();
    let words: Vec<&str> = words.iter().map(String::as_str).collect();
    let number = |word: &str| word.parse::<u64>().unwrap_or_else(|_| usage());
    let differences = match words[..] {
        [seed, count] => plain::compared() + runs::compared(number(seed), number(count)),
        ["made", seed, count] => made::tried(number(seed), number(count)),
        _ => usage(),
    };
    if differences > 0 {
        std::process::exit(1);
    }
}

fn usage() -> ! {
    eprintln!("usage: compare SEED COUNT        COUNT random calls made from SEED");
    eprintln!("       compare made SEED COUNT   COUNT made-up states");
    std::process::exit(2);
}
