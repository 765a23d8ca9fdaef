//! What the runners say to what they cannot read: one line on standard error. How the
//! long run takes its options, and an interrupt.

use std::ffi::OsStr;
use std::io::{BufRead, BufReader, Read};
use std::os::unix::ffi::OsStrExt;
use std::process::{Command, Output, Stdio};
use std::thread::sleep;
use std::time::Duration;

/// The program ends at once with status 2 and this line.
fn refuses(command: &mut Command, line: &str) {
    let output = command.output().unwrap();
    let said = String::from_utf8(output.stderr).unwrap();
    let wanted = (Some(2), format!("{line}\n"));
    assert_eq!((output.status.code(), said), wanted, "{command:?}");
}

fn fuzz() -> Command {
    Command::new(env!("CARGO_BIN_EXE_fuzz"))
}

fn long(options: &str) -> Command {
    let mut command = Command::new(env!("CARGO_BIN_EXE_long"));
    command.args(options.split_whitespace());
    command
}

fn lines(output: &Output) -> Vec<&str> {
    std::str::from_utf8(&output.stdout)
        .unwrap()
        .lines()
        .collect()
}

#[test]
fn wrong_arguments_are_refused() {
    let usage = "usage: fuzz [SECONDS]";
    for text in ["abc", "", "-1", "1.5", "99999999999999999999"] {
        refuses(fuzz().arg(text), usage);
    }
    refuses(fuzz().arg(OsStr::from_bytes(b"\xff")), usage);
    refuses(fuzz().args(["1", "2"]), usage);
}

#[test]
fn wrong_options_are_refused() {
    for text in ["abc", "-1", "1.5", "99999999999999999999"] {
        for option in ["--seed", "--single", "--lists", "--from"] {
            let line = format!("long: {option} wants a number from 0 on, not '{text}'");
            refuses(&mut long(&format!("{option} {text}")), &line);
        }
    }
    for text in ["0", "1025"] {
        let line = format!("long: --threads wants a number from 1 to 1024, not '{text}'");
        refuses(&mut long(&format!("--threads {text}")), &line);
    }
    refuses(
        &mut long("--seed"),
        "long: --seed wants a number from 0 on after it",
    );
    refuses(
        &mut long("--only"),
        "long: --only wants the name of a call after it",
    );
    refuses(
        &mut long("--from 3"),
        "long: --from counts the cases of one call: name it with --only",
    );
    let nothing = "long: there is nothing to compare: --single and --lists say how much";
    refuses(&mut long("--single 0 --lists 0"), nothing);
    refuses(&mut long("--only encrypt --single 0"), nothing);
    let output = long("--only abc").output().unwrap();
    let said = String::from_utf8(output.stderr).unwrap();
    assert!(said.starts_with("long: there is no call 'abc'; the calls are encrypt, decrypt,"));
    assert_eq!((output.status.code(), said.lines().count()), (Some(2), 1));
    let output = long("10000000").output().unwrap();
    let said = String::from_utf8(output.stderr).unwrap();
    assert!(said.starts_with("long: '10000000' is no option; usage: long [--seed S] "));
    assert_eq!(output.status.code(), Some(2));
}

#[test]
fn a_seed_is_drawn_or_given() {
    let seed = |options: &str| {
        let output = long(&format!("--single 35 --lists 10 {options}"))
            .output()
            .unwrap();
        assert_eq!(output.status.code(), Some(0));
        assert_eq!(*lines(&output).last().unwrap(), "45 passed, 0 failed");
        lines(&output)[0].to_string()
    };
    assert_eq!(seed("--seed 7"), "seed 7");
    assert_ne!(seed(""), seed(""));
}

#[test]
fn one_call_alone() {
    let output = long("--seed 1 --only taa1_open_book --from 9 --lists 3")
        .output()
        .unwrap();
    let lines = lines(&output);
    assert!(
        lines[1].starts_with("open_book: 3 comparisons"),
        "{lines:?}"
    );
    assert!(lines[2].starts_with("in all: 0 comparisons of single calls; 3 of calls on lists, "));
    assert_eq!(lines[3..], ["1 passed, 0 failed"]);
}

/// It ends with the counts so far. Whoever reads the seed finds it ready for that.
#[test]
fn an_interrupt_ends_the_long_run() {
    let mut run = long("--seed 1 --threads 1")
        .stdout(Stdio::piped())
        .stderr(Stdio::piped())
        .spawn()
        .unwrap();
    let mut output = BufReader::new(run.stdout.take().unwrap());
    let mut said = String::new();
    output.read_line(&mut said).unwrap();
    assert_eq!(said, "seed 1\n");
    sleep(Duration::from_millis(500));
    let kill = format!("kill -INT {}", run.id()); // the shell's own: there may be no program
    let killed = Command::new("sh").args(["-c", &kill]).status().unwrap();
    assert!(killed.success());
    output.read_to_string(&mut said).unwrap();
    let last = said.lines().last().unwrap();
    assert!(last.ends_with(" passed, 0 failed"), "{last}");
    let output = run.wait_with_output().unwrap();
    assert_eq!(output.status.code(), Some(130));
    let error = String::from_utf8(output.stderr).unwrap();
    let wanted = "long: interrupted; these are the counts so far\n";
    assert!(error.ends_with(wanted), "{error}");
}

#[test]
fn wrong_variables_are_refused() {
    let host = || Command::new(env!("CARGO_BIN_EXE_host"));
    for text in ["abc", "", "-1"] {
        refuses(host().env("TAA1_SEED", text), "TAA1_SEED must be a number");
    }
    for text in ["abc", "", "0"] {
        let line = "TAA1_EVERY must be a number above 0";
        refuses(host().env("TAA1_EVERY", text), line);
    }
}
