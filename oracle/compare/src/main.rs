//! Ticks our effects and the Rust's side by side and compares them bit for bit. The Rust knows no ages and no counts: the ages that our
//! ticks answer, and the counts that our states keep, are held against readings of their own (ages.rs, counts.rs).
//!
//!     compare EFFECT --ticks N [--seed S]        compare N accepted ticks, and refused calls between them; the delay's rows are
//!                                                delay, linear_delay and long_delay; a tape_delay's ticks are pairs of halves
//!     compare whole_part --ticks N [--seed S]    compare the whole parts of at least N floats
//!     compare EFFECT --record FILE --ticks N     write the Rust's answers to N ticks, for the program that replays them
//!
//! Exit status: 0 all agree; 1 a difference, which is printed; 2 bad usage.

mod ages;
mod bits;
mod chorus;
mod counts;
mod delay;
mod flanger;
mod frames;
mod lines;
mod memory;
mod phaser;
mod random;
mod reverb;
mod run;
mod table;
mod tally;
mod tape;
mod tick;
mod tremolo;
mod unlined;
mod vibrato;
mod whole_part;

use std::process::exit;
use std::{env, fs};
use unlined::Unlined;

/// One effect of this program, or a leaf, whose ticks are its calls.
struct Effect {
    name: &'static str,
    run: fn(ticks: u64, seed: u64) -> Result<String, String>,
    record: fn(ticks: u64, seed: u64) -> Result<Vec<u64>, String>,
}

const EFFECTS: [Effect; 11] = [
    Effect {
        name: "tremolo",
        run: run::run::<Unlined<tremolo::Tremolo, 0>>,
        record: tremolo::record,
    },
    Effect {
        name: "vibrato",
        run: lines::run::<vibrato::Vibrato>,
        record: lines::record::<vibrato::Vibrato>,
    },
    Effect {
        name: "chorus",
        run: lines::run::<chorus::Chorus>,
        record: lines::record::<chorus::Chorus>,
    },
    Effect {
        name: "flanger",
        run: flanger::run,
        record: lines::record::<flanger::Flanger>,
    },
    Effect {
        name: "delay",
        run: delay::run::<false>,
        record: delay::record::<false>,
    },
    Effect {
        name: "linear_delay",
        run: delay::run::<true>,
        record: delay::record::<true>,
    },
    Effect {
        name: "long_delay",
        run: delay::run_long,
        record: |_, _| Err("the long line has no list of answers".into()),
    },
    Effect {
        name: "reverb",
        run: reverb::run,
        record: reverb::record,
    },
    Effect {
        name: "phaser",
        run: phaser::run,
        record: phaser::record,
    },
    Effect {
        name: "tape_delay",
        run: tape::run,
        record: tape::record,
    },
    Effect {
        name: "whole_part",
        run: whole_part::run,
        record: |_, _| Err("the whole part has no list of answers".into()),
    },
];

struct Options {
    ticks: u64,
    seed: u64,
    record: Option<String>,
}

fn main() {
    let mut words = env::args().skip(1);
    let name = words.next().unwrap_or_default();
    let Some(effect) = EFFECTS.iter().find(|effect| effect.name == name) else {
        usage(&format!("no effect '{name}'"));
    };
    let options = options(words);
    let done = match &options.record {
        Some(file) => record(effect, file, &options),
        None => (effect.run)(options.ticks, options.seed),
    };
    match done {
        Ok(said) => println!("{said}; seed {}\n1 passed, 0 failed", options.seed),
        Err(message) => {
            println!(
                "{name}, seed {}: {message}\n0 passed, 1 failed",
                options.seed
            );
            exit(1);
        }
    }
}

fn options(mut words: impl Iterator<Item = String>) -> Options {
    let mut options = Options {
        ticks: 0,
        seed: 1,
        record: None,
    };
    while let Some(word) = words.next() {
        let Some(value) = words.next() else {
            usage(&format!("{word} wants a value"))
        };
        let number = || {
            value
                .parse()
                .unwrap_or_else(|_| usage(&format!("{word} wants a number")))
        };
        match word.as_str() {
            "--ticks" => options.ticks = number(),
            "--seed" => options.seed = number(),
            "--record" => options.record = Some(value.clone()),
            _ => usage(&format!("no option '{word}'")),
        }
    }
    if options.ticks == 0 {
        usage("--ticks is missing");
    }
    options
}

fn usage(what: &str) -> ! {
    eprintln!("compare: {what}\ncompare EFFECT --ticks N [--seed S] [--record FILE]");
    exit(2);
}

fn record(effect: &Effect, file: &str, options: &Options) -> Result<String, String> {
    let words = (effect.record)(options.ticks, options.seed)?;
    let bytes: Vec<u8> = words.iter().flat_map(|word| word.to_le_bytes()).collect();
    fs::write(file, bytes).map_err(|e| format!("{file}: {e}"))?;
    Ok(format!(
        "{}: the Rust's answers to {} ticks are in {file}",
        effect.name, options.ticks
    ))
}
