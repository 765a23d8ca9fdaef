//! What a runner is told, on its command line and in its environment. What
//! cannot be read ends the program with a line that says what it should be.

use std::env;
use std::ffi::OsStr;
use std::process::exit;
use std::str::FromStr;

/// The only argument, or `default` where there is none.
pub fn argument<T: FromStr>(usage: &str, default: T) -> T {
    let given: Vec<_> = env::args_os().skip(1).collect();
    match &given[..] {
        [] => default,
        [text] => read(text).unwrap_or_else(|| refuse(usage)),
        _ => refuse(usage),
    }
}

/// What a variable says, or `default` where it is not set.
pub fn variable<T: FromStr>(name: &str, wanted: &str, default: T) -> T {
    match env::var_os(name) {
        None => default,
        Some(text) => read(&text).unwrap_or_else(|| refuse(&format!("{name} must be {wanted}"))),
    }
}

fn read<T: FromStr>(text: &OsStr) -> Option<T> {
    text.to_str()?.parse().ok()
}

fn refuse(line: &str) -> ! {
    eprintln!("{line}");
    exit(2)
}
