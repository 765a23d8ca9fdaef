//! Counts comparisons in named groups, and the groups.

use crate::settings;
use std::fmt::Debug;
use std::num::NonZeroUsize;
use std::process::ExitCode;

/// How many failed comparisons of a group are shown.
const SHOWN: usize = 5;

pub struct Tally {
    every: usize,
    made: usize,
    passed: usize,
    failed: usize,
}

/// The comparisons of one group.
pub struct Group {
    every: usize,
    asked: usize,
    made: usize,
    wrong: usize,
}

impl Tally {
    /// With `TAA1_EVERY` in the environment only every so many-th comparison of
    /// a group is made, for slow machines such as valgrind.
    pub fn from_environment() -> Self {
        let all = NonZeroUsize::new(1).expect("1 is not 0");
        let every = settings::variable("TAA1_EVERY", "a number above 0", all);
        Tally {
            every: every.get(),
            made: 0,
            passed: 0,
            failed: 0,
        }
    }

    /// Runs a group and prints a line about it. A group that compared nothing
    /// says nothing, so it has failed.
    pub fn group(&mut self, name: &str, run: impl FnOnce(&mut Group)) {
        let mut group = Group {
            every: self.every,
            asked: 0,
            made: 0,
            wrong: 0,
        };
        run(&mut group);
        let Group { made, wrong, .. } = group;
        self.made += made;
        if made > 0 && wrong == 0 {
            self.passed += 1;
            println!("{name}: {made} comparisons");
        } else {
            self.failed += 1;
            println!("{name}: {made} comparisons, {wrong} FAILED");
        }
    }

    /// Prints the last lines; the status is 1 if any group failed.
    pub fn finish(self) -> ExitCode {
        println!("in all: {} comparisons", self.made);
        println!("{} passed, {} failed", self.passed, self.failed);
        ExitCode::from(u8::from(self.failed > 0))
    }
}

impl Group {
    /// Whether the next comparison is to be made; the first of a group always.
    pub fn turn(&mut self) -> bool {
        self.asked += 1;
        self.asked % self.every == 1 % self.every
    }

    /// How many comparisons there were so far.
    pub fn made(&self) -> usize {
        self.made
    }

    /// One comparison of what `call` answered to `inputs`.
    pub fn same<T: PartialEq + Debug>(
        &mut self,
        call: &str,
        inputs: &[(&str, &dyn Debug)],
        got: T,
        wanted: impl Into<T>,
    ) {
        let wanted = wanted.into();
        self.made += 1;
        if got == wanted {
            return;
        }
        self.wrong += 1;
        if self.wrong <= SHOWN {
            eprint!("{call}, in hexadecimal:");
            for (name, input) in inputs {
                eprint!(" {name} {input:02x?}");
            }
            eprintln!("\n  got    {got:02x?}\n  wanted {wanted:02x?}");
        }
    }
}

/// Compares the engine's call with what is wanted, or else with the same call of
/// the independent implementation. `[name]` is a byte string, as in the engine's calls.
#[macro_export]
macro_rules! compare {
    ($group:ident, $call:ident($($([$bytes:ident])? $($number:ident)?),*), $wanted:expr) => {
        if $group.turn() {
            $group.same(
                stringify!($call),
                &[$(
                    $((stringify!($bytes), &&$bytes[..]))?
                    $((stringify!($number), &$number))?
                ),*],
                $crate::engine::$call($($(&$bytes[..])? $($number.into())?),*),
                $wanted,
            )
        }
    };
    ($group:ident, $call:ident($($([$bytes:ident])? $($number:ident)?),*)) => {
        $crate::compare!(
            $group,
            $call($($([$bytes])? $($number)?),*),
            $crate::other::$call($($(&$bytes[..])? $($number)?),*)
        )
    };
}
