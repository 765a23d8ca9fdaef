//! Compares every call of the header with the independent implementation, on random
//! inputs with every refusal among them: 100,000,000 comparisons of single calls and
//! 10,000,000 of calls on lists, nine in ten of which have at most 8 records.
//!
//! Progress and what differs go to standard error; a line on each call and the sums
//! to standard output. The status is 1 if anything differed, 130 after an interrupt.

use host::long::calls::{Call, CALLS};
use host::long::run::{grouped, run, time, Count, Plan, Said};
use std::collections::hash_map::RandomState;
use std::ffi::OsString;
use std::hash::{BuildHasher, Hasher};
use std::ops::RangeInclusive;
use std::process::ExitCode;
use std::sync::atomic::{AtomicBool, Ordering};
use std::time::Instant;

const USAGE: &str = "\
usage: long [--seed S] [--single N] [--lists M] [--threads T] [--only CALL [--from INDEX]]";

const HELP: &str = "\
Compares every call of include/taa1.h with the independent implementation, on
random inputs with every refusal among them. Nine lists in ten have at most 8
records. The status is 1 if anything differed, 130 after an interrupt.

--seed S      the same inputs again; otherwise a seed is drawn. It is printed.
--single N    comparisons of calls without a list, 100000000 if not given
--lists M     comparisons of calls on lists, 10000000 if not given
--threads T   2 if not given
--only CALL   this call alone
--from INDEX  its cases from this one on, as after a difference";

/// What the command line says.
struct Options {
    plan: Plan,
    only: Option<&'static Call>,
}

fn main() -> ExitCode {
    let arguments: Vec<OsString> = std::env::args_os().skip(1).collect();
    if arguments
        .iter()
        .any(|word| word == "--help" || word == "-h")
    {
        println!("{USAGE}\n\n{HELP}");
        return ExitCode::SUCCESS;
    }
    let Options { plan, only } = match options(&arguments) {
        Ok(options) => options,
        Err(fault) => {
            eprintln!("long: {fault}");
            return ExitCode::from(2);
        }
    };
    let calls: Vec<&Call> = match only {
        Some(call) => vec![call],
        None => CALLS.iter().collect(),
    };
    let stop = stopped_by_signals();
    println!("seed {}", plan.seed);
    let start = Instant::now();
    let counts = run(&calls, &plan, stop, |said| match said {
        Said::Difference(text) | Said::Progress(text) => eprintln!("{text}"),
    });
    for (call, count) in calls.iter().zip(&counts) {
        println!("{}", line(call, count));
    }
    let sum = |single: bool, of: fn(&Count) -> u64| -> u64 {
        let of_sort = calls
            .iter()
            .zip(&counts)
            .filter(|(call, _)| call.is_single() == single);
        of_sort.map(|(_, count)| of(count)).sum()
    };
    println!(
        "in all: {} comparisons of single calls; {} of calls on lists, {} of them with at most 8 \
         records; in {}",
        grouped(sum(true, |count| count.made)),
        grouped(sum(false, |count| count.made)),
        grouped(sum(false, |count| count.short)),
        time(start.elapsed().as_secs_f64()),
    );
    let interrupted = stop.load(Ordering::Relaxed);
    if interrupted {
        eprintln!("long: interrupted; these are the counts so far");
    }
    let made = counts.iter().filter(|count| count.made > 0).count();
    let failed = counts.iter().filter(|count| count.differ > 0).count();
    println!("{} passed, {failed} failed", made - failed);
    ExitCode::from(match (failed, interrupted) {
        (0, false) => 0,
        (0, true) => 130,
        _ => 1,
    })
}

/// What a call's comparisons gave.
fn line(call: &Call, count: &Count) -> String {
    let mut text = format!("{}: {} comparisons", call.name, count.made);
    if count.differ > 0 {
        text.push_str(&format!(", {} DIFFER", count.differ));
    }
    let refused: Vec<String> = count
        .refused()
        .map(|(refusal, times)| format!("{refusal}: {times}"))
        .collect();
    if !refused.is_empty() {
        text.push_str(&format!("; refused {}", refused.join(", ")));
    }
    text
}

fn options(arguments: &[OsString]) -> Result<Options, String> {
    let mut plan = Plan {
        seed: RandomState::new().build_hasher().finish(),
        single: 100_000_000,
        lists: 10_000_000,
        threads: 2,
        from: 0,
    };
    let (mut only, mut from) = (None, false);
    let mut words = arguments.iter().map(|word| word.to_string_lossy());
    while let Some(option) = words.next() {
        let mut value = |wanted: &str| match words.next() {
            Some(value) => Ok(value),
            None => Err(format!("{option} wants {wanted} after it")),
        };
        let mut number = |range: RangeInclusive<u64>| {
            let wanted = match *range.end() {
                u64::MAX => format!("a number from {} on", range.start()),
                end => format!("a number from {} to {end}", range.start()),
            };
            let value = value(&wanted)?;
            match value.parse() {
                Ok(number) if range.contains(&number) => Ok(number),
                _ => Err(format!("{option} wants {wanted}, not '{value}'")),
            }
        };
        let any = 0..=u64::MAX;
        match &*option {
            "--seed" => plan.seed = number(any)?,
            "--single" => plan.single = number(any)?,
            "--lists" => plan.lists = number(any)?,
            "--threads" => plan.threads = number(1..=1024)? as usize,
            "--from" => (plan.from, from) = (number(any)?, true),
            "--only" => {
                let name = value("the name of a call")?;
                let call = CALLS
                    .iter()
                    .find(|call| call.name == name.trim_start_matches("taa1_"));
                only = Some(call.ok_or_else(|| no_call(&name))?);
            }
            _ => return Err(format!("'{option}' is no option; {USAGE}")),
        }
    }
    if from && only.is_none() {
        return Err("--from counts the cases of one call: name it with --only".to_string());
    }
    let all = match only {
        Some(call) if call.is_single() => plan.single,
        Some(_) => plan.lists,
        None => plan.single.saturating_add(plan.lists),
    };
    if all == 0 {
        return Err("there is nothing to compare: --single and --lists say how much".to_string());
    }
    Ok(Options { plan, only })
}

fn no_call(name: &str) -> String {
    let names: Vec<&str> = CALLS.iter().map(|call| call.name).collect();
    format!(
        "there is no call '{name}'; the calls are {}",
        names.join(", ")
    )
}

static STOP: AtomicBool = AtomicBool::new(false);

/// Set when somebody wants the run to end: by the keyboard, or by SIGTERM.
fn stopped_by_signals() -> &'static AtomicBool {
    extern "C" fn stop(_: i32) {
        STOP.store(true, Ordering::Relaxed);
    }
    extern "C" {
        fn signal(number: i32, handler: extern "C" fn(i32)) -> usize;
    }
    for number in [1, 2, 15] {
        // SAFETY: the handler does nothing but store a flag.
        unsafe { signal(number, stop) };
    }
    &STOP
}
