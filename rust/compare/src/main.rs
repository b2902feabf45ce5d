//! Compares the library with the Rust original. docs/COMPARISON.md says what is compared.

use compare::families::{families, Extent, Family, Sort};
use compare::guarded::Memory;
use compare::judge::Operation;
use compare::shrink::shrink;
use compare::trial::{check, Tally};
use std::io::{Read, Write};
use std::process::ExitCode;
use std::sync::atomic::{AtomicU64, Ordering};
use std::sync::Mutex;
use std::thread;
use std::time::Instant;

const USAGE: &str = "\
compare gate [SEED [THREADS]]    a few minutes
compare long [SEED [THREADS]]    the long run
compare one OPERATION [SEED]     one text from standard input: post, marks, quotes, lists, attribution or day
compare cases                    writes the cases of the program `replay` to standard output
";

/// The seed where none is given.
const SEED: u64 = 20_261_115;
/// So many differences are enough.
const ENOUGH: usize = 5;
/// The model goes down a tree of marks as deep as the text has them.
const STACK: usize = 1 << 30;

/// A text on which an operation differs, and how.
struct Difference {
    operation: Operation,
    text: String,
    words: String,
}

fn main() -> ExitCode {
    let words: Vec<String> = std::env::args().skip(1).collect();
    let words: Vec<&str> = words.iter().map(String::as_str).collect();
    let number = |word: Option<&&str>, otherwise: u64| word.map_or(Some(otherwise), |word| word.parse().ok());
    let (seed_at, extent) = match words.first() {
        Some(&"gate") => (1, Extent::Gate),
        Some(&"long") => (1, Extent::Long),
        _ => (2, Extent::Gate),
    };
    let operation = words.get(1).and_then(|word| Operation::ALL.into_iter().find(|operation| operation.name() == *word));
    let threads = thread::available_parallelism().map_or(1, |threads| threads.get() as u64);
    match (words.first(), operation, number(words.get(seed_at), SEED), number(words.get(seed_at + 1), threads)) {
        (Some(&("gate" | "long")), _, Some(seed), Some(threads)) => run(extent, seed, threads.max(1)),
        (Some(&"one"), Some(operation), Some(seed), _) => one(operation, seed),
        (Some(&"cases"), None, Some(_), _) if words.len() == 1 => cases(),
        _ => {
            eprint!("{USAGE}");
            ExitCode::from(2)
        }
    }
}

/// A thread of its own for what needs a deep stack.
fn deep<T: Send>(work: impl FnOnce() -> T + Send) -> T {
    thread::scope(|scope| thread::Builder::new().stack_size(STACK).spawn_scoped(scope, work).expect("a thread").join().expect("no panic"))
}

fn one(operation: Operation, seed: u64) -> ExitCode {
    let mut text = String::new();
    if std::io::stdin().read_to_string(&mut text).is_err() {
        eprintln!("compare: standard input is not UTF-8");
        return ExitCode::from(2);
    }
    let checked = deep(|| check(operation, &text, &mut Memory::default(), seed, &mut Tally::default()));
    match checked {
        Ok(()) => {
            println!("no difference");
            ExitCode::SUCCESS
        }
        Err(words) => {
            println!("{words}");
            ExitCode::FAILURE
        }
    }
}

fn cases() -> ExitCode {
    oracle::keep_patterns();
    match std::io::stdout().write_all(&compare::cases::file().1) {
        Ok(()) => ExitCode::SUCCESS,
        Err(error) => {
            eprintln!("compare: {error}");
            ExitCode::from(2)
        }
    }
}

fn run(extent: Extent, seed: u64, threads: u64) -> ExitCode {
    println!("compare {extent:?}, seed {seed}, {threads} threads");
    let begun = Instant::now();
    let mut all = Tally::default();
    let mut texts = [0; 3];
    let mut differences = Vec::new();
    for family in families(extent, seed) {
        let from = Instant::now();
        let (tally, found) = compare(&family, seed, threads);
        println!(
            "{}: {} texts in {} calls, {} of them done, {} differences, {:.1} s",
            family.name,
            family.count,
            tally.calls,
            tally.numbers[0],
            found.len(),
            from.elapsed().as_secs_f64()
        );
        texts[family.sort as usize] += family.count;
        all.add(&tally);
        differences.extend(found);
        if !differences.is_empty() {
            break;
        }
    }
    for difference in differences.iter().take(ENOUGH) {
        show(difference, seed);
    }
    println!("answers by number: {}", all.numbers.iter().enumerate().map(|(i, n)| format!("{i}: {n}")).collect::<Vec<_>>().join(", "));
    println!("marks compared: {}, losses compared: {}", all.marks, all.losses);
    println!(
        "attributions in {} trials; in {} of them, with {} calls, the model stood in for the original",
        all.attributed, all.stood_in, all.stood_in_calls
    );
    println!(
        "compare: {} short, {} random and {} long texts in {} trials and {} calls, seed {seed}: {} differences, {:.0} s",
        texts[Sort::Short as usize],
        texts[Sort::Random as usize],
        texts[Sort::Long as usize],
        all.trials,
        all.calls,
        differences.len(),
        begun.elapsed().as_secs_f64()
    );
    if differences.is_empty() {
        ExitCode::SUCCESS
    } else {
        ExitCode::FAILURE
    }
}

/// Tries a family's texts, by as many threads. Which thread takes a text makes no difference to it.
fn compare(family: &Family, seed: u64, threads: u64) -> (Tally, Vec<Difference>) {
    let next = AtomicU64::new(0);
    let sum = Mutex::new(Tally::default());
    let found = Mutex::new(Vec::new());
    let chunk = if family.sort == Sort::Long { 1 } else { 64 };
    let work = || {
        oracle::keep_patterns();
        let mut memory = Memory::default();
        let mut tally = Tally::default();
        loop {
            let from = next.fetch_add(chunk, Ordering::Relaxed);
            if from >= family.count || found.lock().expect("no panic").len() >= ENOUGH {
                break;
            }
            for number in from..(from + chunk).min(family.count) {
                let (operations, text) = (family.make)(number);
                for operation in operations {
                    if let Err(words) = check(operation, &text, &mut memory, seed, &mut tally) {
                        found.lock().expect("no panic").push(Difference { operation, text: text.clone(), words });
                    }
                }
            }
        }
        sum.lock().expect("no panic").add(&tally);
    };
    thread::scope(|scope| {
        for _ in 0..threads {
            thread::Builder::new().stack_size(STACK).spawn_scoped(scope, work).expect("a thread");
        }
    });
    (sum.into_inner().expect("no panic"), found.into_inner().expect("no panic"))
}

/// Shrinks a difference and prints it whole.
fn show(difference: &Difference, seed: u64) {
    let operation = difference.operation;
    let tried = |text: &str| check(operation, text, &mut Memory::default(), seed, &mut Tally::default());
    let shrunk = deep(|| {
        oracle::keep_patterns();
        shrink(&difference.text, |text| tried(text).is_err())
    });
    println!("DIFFERENCE in {}:", operation.name());
    println!("  text    {:?}", difference.text);
    println!("          {}", difference.words);
    println!("  shrunk  {shrunk:?}");
    println!("          {}", deep(|| tried(&shrunk)).err().unwrap_or_else(|| "no difference any more".to_string()));
}
