//! A run over many cases in several threads: its plan, its counts and its progress.

use super::calls::Call;
use std::ops::Range;
use std::sync::atomic::{AtomicBool, AtomicU64, Ordering};
use std::sync::mpsc::{channel, RecvTimeoutError, Sender};
use std::sync::Mutex;
use std::thread;
use std::time::{Duration, Instant};

/// How many differences of a call are shown.
const SHOWN: u64 = 5;
/// A list of at most so many records is short.
const SHORT: usize = 8;
/// Refusals are numbered below this.
const NUMBERS: usize = 20;
/// Each thread takes a part at a time, which has some cases of every call.
const PARTS: u64 = 4096;
const PROGRESS: Duration = Duration::from_secs(10);

/// What a run compares.
pub struct Plan {
    pub seed: u64,
    /// Comparisons of single calls and of calls on lists.
    pub single: u64,
    pub lists: u64,
    pub threads: usize,
    /// The index of each call's first case.
    pub from: u64,
}

/// The comparisons of one call.
#[derive(Clone, Copy, Debug, Default, PartialEq)]
pub struct Count {
    pub made: u64,
    pub differ: u64,
    /// How many of the lists were short.
    pub short: u64,
    /// By the refusal that was due; 0 is none.
    pub refusals: [u64; NUMBERS],
}

impl Count {
    fn add(&mut self, other: &Count) {
        self.made += other.made;
        self.differ += other.differ;
        self.short += other.short;
        for (sum, more) in self.refusals.iter_mut().zip(other.refusals) {
            *sum += more;
        }
    }

    /// The refusals with how often each was due, without those that never were.
    pub fn refused(&self) -> impl Iterator<Item = (usize, u64)> + '_ {
        let all = self.refusals.into_iter().enumerate().skip(1);
        all.filter(|(_, times)| *times > 0)
    }
}

/// How many cases each call has: as many as every other of its sort, or one more.
pub fn shares(calls: &[&Call], plan: &Plan) -> Vec<u64> {
    let of_sort = |single: bool| {
        calls
            .iter()
            .filter(|call| call.is_single() == single)
            .count() as u64
    };
    let sorts = [(plan.lists, of_sort(false)), (plan.single, of_sort(true))];
    let mut before = [0; 2];
    let share = |call: &&Call| {
        let sort = usize::from(call.is_single());
        let ((all, calls), place) = (sorts[sort], before[sort]);
        before[sort] += 1;
        all / calls + u64::from(place < all % calls)
    };
    calls.iter().map(share).collect()
}

/// The cases of a part, counted from 0.
fn part(share: u64, part: u64) -> Range<u64> {
    let before = |part: u64| (u128::from(share) * u128::from(part) / u128::from(PARTS)) as u64;
    before(part)..before(part + 1)
}

/// What the threads of a run share.
struct Shared<'a> {
    calls: &'a [&'a Call],
    shares: &'a [u64],
    plan: &'a Plan,
    stop: &'a AtomicBool,
    next: AtomicU64,
    made: AtomicU64,
    /// The differences of each call so far.
    differ: Vec<AtomicU64>,
    counts: Mutex<Vec<Count>>,
}

impl Shared<'_> {
    fn work(&self, said: &Sender<String>) {
        loop {
            let number = self.next.fetch_add(1, Ordering::Relaxed);
            if number >= PARTS {
                return;
            }
            for (at, (call, share)) in self.calls.iter().zip(self.shares).enumerate() {
                let mut count = Count::default();
                for case in part(*share, number) {
                    if self.stop.load(Ordering::Relaxed) {
                        break;
                    }
                    if let Some(text) = self.compare(call, case, &mut count) {
                        if self.differ[at].fetch_add(1, Ordering::Relaxed) < SHOWN {
                            said.send(text()).expect("the run waits for its threads");
                        }
                    }
                }
                self.made.fetch_add(count.made, Ordering::Relaxed);
                self.counts.lock().expect("no thread has failed")[at].add(&count);
            }
        }
    }

    /// One case. What is said of it if it differs is put together on demand.
    fn compare<'a>(
        &'a self,
        call: &'a Call,
        case: u64,
        count: &mut Count,
    ) -> Option<impl FnOnce() -> String + 'a> {
        let index = self.plan.from.wrapping_add(case);
        let inputs = call.inputs(self.plan.seed, index);
        let compared = (call.compare)(&inputs);
        count.made += 1;
        count.short += u64::from(
            call.records(&inputs)
                .map_or(false, |records| records <= SHORT),
        );
        if let Some(times) = count.refusals.get_mut(compared.refusal as usize) {
            *times += 1;
        }
        let difference = compared.difference?;
        count.differ += 1;
        Some(move || {
            let (name, seed) = (call.name, self.plan.seed);
            let option = if call.is_single() { "single" } else { "lists" };
            let inputs = call.shown(&inputs);
            format!(
                "{name}: case {index} differs, in hexadecimal:\n{inputs}{difference}  \
                 again: long --seed {seed} --only {name} --from {index} --{option} 1"
            )
        })
    }
}

/// What a run says on its way: what differs, in some lines, or how far it has come.
#[derive(Debug, PartialEq)]
pub enum Said {
    Difference(String),
    Progress(String),
}

/// Compares what the plan says, until `stop` is set. The answer has the counts of the
/// calls in their order.
pub fn run(
    calls: &[&Call],
    plan: &Plan,
    stop: &AtomicBool,
    mut say: impl FnMut(Said),
) -> Vec<Count> {
    let shares = shares(calls, plan);
    let all: u64 = shares.iter().sum();
    let shared = Shared {
        calls,
        shares: &shares,
        plan,
        stop,
        next: AtomicU64::new(0),
        made: AtomicU64::new(0),
        differ: calls.iter().map(|_| AtomicU64::new(0)).collect(),
        counts: Mutex::new(vec![Count::default(); calls.len()]),
    };
    let start = Instant::now();
    thread::scope(|scope| {
        let (sender, said) = channel();
        for _ in 0..plan.threads {
            let (shared, sender) = (&shared, sender.clone());
            scope.spawn(move || shared.work(&sender));
        }
        drop(sender);
        let mut due = start + PROGRESS;
        loop {
            match said.recv_timeout(due.saturating_duration_since(Instant::now())) {
                Ok(text) => say(Said::Difference(text)),
                Err(RecvTimeoutError::Disconnected) => break,
                Err(RecvTimeoutError::Timeout) => {
                    due += PROGRESS;
                    let made = shared.made.load(Ordering::Relaxed);
                    say(Said::Progress(progress(made, all, start.elapsed())));
                }
            }
        }
    });
    shared.counts.into_inner().expect("no thread has failed")
}

/// A line on how far a run has come.
fn progress(made: u64, all: u64, taken: Duration) -> String {
    let seconds = taken.as_secs_f64();
    let rate = made as f64 / seconds;
    let left = match made {
        0 => "no end in sight yet".to_string(),
        _ => time((all - made) as f64 / rate) + " left",
    };
    format!(
        "{} of {} comparisons ({} %), {} a second, {left}",
        grouped(made),
        grouped(all),
        u128::from(made) * 100 / u128::from(all.max(1)),
        grouped(rate as u64),
    )
}

/// Seconds as minutes and seconds.
pub fn time(seconds: f64) -> String {
    let seconds = seconds.round() as u64;
    match seconds / 60 {
        0 => format!("{seconds} s"),
        minutes => format!("{minutes} min {} s", seconds % 60),
    }
}

/// A number with commas between thousands.
pub fn grouped(number: u64) -> String {
    let mut text = number.to_string();
    let mut place = text.len();
    while place > 3 {
        place -= 3;
        text.insert(place, ',');
    }
    text
}

#[cfg(test)]
mod tests {
    use super::super::calls::{compared, Argument, CALLS};
    use super::*;
    use crate::{engine, other};
    use std::collections::HashMap;

    fn plan(single: u64, lists: u64, threads: usize) -> Plan {
        Plan {
            seed: 5,
            single,
            lists,
            threads,
            from: 0,
        }
    }

    fn runs(calls: &[&Call], plan: &Plan) -> (Vec<Count>, Vec<String>) {
        let mut said = Vec::new();
        let stop = AtomicBool::new(false);
        let counts = run(calls, plan, &stop, |text| {
            if let Said::Difference(text) = text {
                said.push(text);
            }
        });
        (counts, said)
    }

    #[test]
    fn every_case_is_in_one_part() {
        for share in [0, 1, 5, PARTS - 1, PARTS, PARTS + 1, 2_857_143, u64::MAX] {
            let mut next = 0;
            for number in 0..PARTS {
                let Range { start, end } = part(share, number);
                assert_eq!(start, next);
                next = end;
            }
            assert_eq!(next, share);
        }
    }

    #[test]
    fn calls_have_like_shares() {
        let calls: Vec<&Call> = CALLS.iter().collect();
        for (single, lists) in [(0, 7), (100, 10), (100_000_000, 10_000_000)] {
            let shares = shares(&calls, &plan(single, lists, 1));
            for (sort, all) in [(true, single), (false, lists)] {
                let of_sort: Vec<u64> = calls
                    .iter()
                    .zip(&shares)
                    .filter(|(call, _)| call.is_single() == sort)
                    .map(|(_, share)| *share)
                    .collect();
                assert_eq!(of_sort.iter().sum::<u64>(), all);
                let (least, most) = (of_sort.iter().min(), of_sort.iter().max());
                assert!(most.unwrap() - least.unwrap() <= 1);
            }
        }
    }

    /// The refusals of each call that takes something, by the table for hosts.
    fn tabled() -> HashMap<&'static str, Vec<usize>> {
        let guide = include_str!(concat!(env!("CARGO_MANIFEST_DIR"), "/../../docs/hosts.md"));
        let row = |line: &'static str| {
            let cells: Vec<&str> = line.split('|').map(str::trim).collect();
            let name = cells.get(1)?.strip_prefix("`taa1_")?.strip_suffix('`')?;
            let words = cells.get(3)?.split([' ', ',', ';']);
            let mut refusals: Vec<usize> = words.filter_map(|word| word.parse().ok()).collect();
            refusals.sort_unstable();
            (name != "release").then_some((name, refusals))
        };
        let calls = guide.split("<!-- begin calls").nth(1).unwrap_or("");
        let calls = calls.split("<!-- end calls").next().unwrap_or("");
        calls.lines().filter_map(row).collect()
    }

    #[test]
    fn threads_change_nothing() {
        let calls: Vec<&Call> = CALLS.iter().collect();
        let [one, three] = [1, 3].map(|threads| runs(&calls, &plan(3_500, 1_000, threads)));
        assert_eq!(one, three);
    }

    /// The engine and the reference agree. Nine lists in ten are short, and every refusal
    /// of each call is met, and no other.
    #[test]
    fn a_short_run() {
        let calls: Vec<&Call> = CALLS.iter().collect();
        let (counts, said) = runs(&calls, &plan(35_000, 40_000, 2));
        assert_eq!(said, Vec::<String>::new());
        let lists = calls
            .iter()
            .zip(&counts)
            .filter(|(call, _)| !call.is_single());
        let short: u64 = lists.map(|(_, count)| count.short).sum();
        assert!((36_000..37_000).contains(&short), "{short}");
        let tabled = tabled();
        assert_eq!(tabled.len(), calls.len());
        for (call, count) in calls.iter().zip(&counts) {
            let met: Vec<usize> = count.refused().map(|(refusal, _)| refusal).collect();
            assert_eq!(met, tabled[call.name], "{}", call.name);
            assert!(count.refusals[0] > count.made / 3, "{}", call.name);
        }
    }

    /// An encryption with a bit wrong now and then.
    static PLANTED: Call = Call {
        name: "encrypt",
        arguments: &[Argument::Bytes("key"), Argument::Bytes("block")],
        compare: |inputs| {
            let (key, block) = (inputs.string(0), inputs.string(1));
            compared(
                inputs,
                |_| {
                    let mut answer = engine::encrypt(key, block);
                    answer.bytes[7] ^= u8::from(answer.bytes[0] == 0x77);
                    answer
                },
                |_| other::encrypt(key, block).into(),
                |answer| answer.refusal,
            )
        },
    };

    #[test]
    fn what_differs_is_shown_and_comes_again() {
        let (counts, said) = runs(&[&PLANTED], &plan(10_000, 0, 2));
        assert!((20..60).contains(&counts[0].differ), "{}", counts[0].differ);
        assert_eq!(said.len() as u64, SHOWN);
        let index = said[0].split_once("--from ").unwrap().1;
        let index: u64 = index.split(' ').next().unwrap().parse().unwrap();
        let again = Plan {
            from: index,
            ..plan(1, 0, 1)
        };
        assert_eq!(runs(&[&PLANTED], &again).1, said[..1]);
        let inputs = PLANTED.inputs(5, index);
        let hex = |bytes: &[u8]| -> String { bytes.iter().map(|b| format!("{b:02x}")).collect() };
        let (key, block) = (hex(&inputs.strings[0]), hex(&inputs.strings[1]));
        let right = other::encrypt(&inputs.strings[0], &inputs.strings[1]).bytes;
        let mut wrong = right;
        wrong[7] ^= 1;
        let wanted = [
            format!("encrypt: case {index} differs, in hexadecimal:"),
            format!("  key [16] {key}"),
            format!("  block [8] {block}"),
            format!("  engine     Bytes {{ refusal: 00, bytes: {wrong:02x?} }}"),
            format!("  reference  Bytes {{ refusal: 00, bytes: {right:02x?} }}"),
            format!("  again: long --seed 5 --only encrypt --from {index} --single 1"),
        ];
        let shown: Vec<&str> = said[0]
            .lines()
            .filter(|line| !line.contains("null"))
            .collect();
        assert_eq!(shown, wanted);
    }

    #[test]
    fn a_stopped_run_counts_what_it_made() {
        let stop = AtomicBool::new(true);
        let calls: Vec<&Call> = CALLS.iter().collect();
        let counts = run(&calls, &plan(u64::MAX, u64::MAX / 2, 2), &stop, |_| ());
        assert!(counts.iter().all(|count| *count == Count::default()));
    }

    #[test]
    fn progress_in_words() {
        assert_eq!(
            progress(11_000_000, 110_000_000, Duration::from_secs(30)),
            "11,000,000 of 110,000,000 comparisons (10 %), 366,666 a second, 4 min 30 s left"
        );
        assert_eq!([0, 999, 1_234].map(grouped), ["0", "999", "1,234"]);
        assert_eq!(time(59.6), "1 min 0 s");
    }
}
