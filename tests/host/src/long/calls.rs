//! The table of the calls, each with the comparison of one case.

use super::inputs::{draw, record_bytes, Inputs};
use crate::both::{lent, MARGIN};
use crate::engine::{self, null_out, *};
use crate::other;
use crate::random::Random;
use std::fmt::Debug;

/// An argument in a call's declaration.
pub enum Argument {
    Bytes(&'static str),
    Number(&'static str),
    Out(&'static str),
}

/// A call of the header, without the prefix of its name.
pub struct Call {
    pub name: &'static str,
    pub arguments: &'static [Argument],
    pub compare: fn(&Inputs) -> Compared,
}

/// What became of one case: the refusal that was due, or 0, and what differs.
pub struct Compared {
    pub refusal: u32,
    pub difference: Option<String>,
}

/// A number as the engine and as the independent implementation take it.
trait Number {
    type Plain;
    fn plain(number: u64) -> Self::Plain;
}

impl Number for u64 {
    type Plain = u64;
    fn plain(number: u64) -> u64 {
        number
    }
}

macro_rules! sixteen_bits {
    ($($type:ty)*) => {$(
        impl Number for $type {
            type Plain = u16;
            fn plain(number: u64) -> u16 {
                u16::try_from(number).expect("a number of sixteen bits")
            }
        }
    )*};
}

sixteen_bits!(u16 Version KeyNumber);

/// Hands the inputs over in their order.
struct Handed<'a> {
    inputs: &'a Inputs,
    strings: usize,
    numbers: usize,
}

impl<'a> Handed<'a> {
    fn new(inputs: &'a Inputs) -> Self {
        Handed {
            inputs,
            strings: 0,
            numbers: 0,
        }
    }

    fn bytes(&mut self) -> &'a [u8] {
        self.strings += 1;
        self.inputs.string(self.strings - 1)
    }

    fn number<N: Number>(&mut self) -> N::Plain {
        self.numbers += 1;
        N::plain(self.inputs.numbers[self.numbers - 1])
    }
}

macro_rules! handed_bytes {
    ($handed:ident, $bytes:ident) => {
        $handed.bytes()
    };
}

macro_rules! room {
    ($room:ident, $out:ident) => {
        $room
    };
}

macro_rules! table {
    ($($call:ident(
        $($([$bytes:ident])? $({$out:ident})? $($number:ident: $type:ty)?),*
    ) -> $answer:ty;)*) => {
        /// Every call, in the order of the header's declarations for Rust.
        pub static CALLS: &[Call] = &[$(Call {
            name: stringify!($call),
            arguments: &[$(
                $(Argument::Bytes(stringify!($bytes)))?
                $(Argument::Out(stringify!($out)))?
                $(Argument::Number(stringify!($number)))?
            ),*],
            compare: |inputs| compared(
                inputs,
                |_room| {
                    let mut handed = Handed::new(inputs);
                    engine::$call($(
                        $(handed_bytes!(handed, $bytes))?
                        $(room!(_room, $out))?
                        $(handed.number::<$type>().into())?
                    ),*)
                },
                |_room| {
                    let mut handed = Handed::new(inputs);
                    <$answer>::from(other::$call($(
                        $(handed_bytes!(handed, $bytes))?
                        $(room!(_room, $out))?
                        $({
                            let _ = stringify!($number);
                            handed.number::<$type>()
                        })?
                    ),*))
                },
                |answer| answer.refusal,
            ),
        }),*];
    };
}

interface::calls!(table);

/// Compares what the engine makes of the inputs with what is wanted: the answers, and
/// the whole outputs with the bytes around them.
pub fn compared<A: PartialEq + Debug>(
    inputs: &Inputs,
    engine: impl FnOnce(&mut [u8]) -> A,
    wanted: impl FnOnce(&mut [u8]) -> A,
    refusal: fn(&A) -> u32,
) -> Compared {
    let (got, got_bytes) = match inputs.room {
        0 if inputs.null => (engine(null_out()), Vec::new()),
        room => lent(room, engine),
    };
    let (wanted, wanted_bytes) = match inputs.room {
        0 if inputs.null => (wanted(&mut []), Vec::new()),
        room => lent(room, wanted),
    };
    let same = got == wanted && got_bytes == wanted_bytes;
    Compared {
        refusal: refusal(&wanted),
        difference: (!same).then(|| {
            let answers = pair(format!("{got:02x?}"), format!("{wanted:02x?}"));
            let outputs = pair(shown(&got_bytes), shown(&wanted_bytes));
            match got_bytes == wanted_bytes {
                true => answers,
                false => format!("{answers}  output, and {MARGIN} bytes on either side\n{outputs}"),
            }
        }),
    }
}

fn pair(engine: String, reference: String) -> String {
    format!("  engine     {engine}\n  reference  {reference}\n")
}

fn shown(bytes: &[u8]) -> String {
    bytes.iter().map(|byte| format!("{byte:02x}")).collect()
}

impl Call {
    /// The inputs of a case, from the run's seed and the case's index alone.
    pub fn inputs(&self, seed: u64, index: u64) -> Inputs {
        let mixed = |state: u64, more: u64| Random::new(state ^ more).number();
        let of_call = self
            .name
            .bytes()
            .fold(seed, |state, byte| mixed(state, byte.into()));
        let draw = draw(self.name).expect("every call has its inputs");
        draw(&mut Random::new(mixed(mixed(of_call, 0), index)))
    }

    /// The records of the list that it gets; a single call has none.
    pub fn records(&self, inputs: &Inputs) -> Option<usize> {
        let list = inputs.strings.last()?;
        record_bytes(self.name).map(|bytes| list.len() / bytes)
    }

    pub fn is_single(&self) -> bool {
        record_bytes(self.name).is_none()
    }

    /// All inputs, a line for each.
    pub fn shown(&self, inputs: &Inputs) -> String {
        let mut handed = Handed::new(inputs);
        let line = |argument: &Argument| match argument {
            Argument::Bytes(name) => {
                let bytes = handed.bytes();
                format!("  {name} [{}] {}\n", bytes.len(), shown(bytes))
            }
            Argument::Number(name) => {
                let number = handed.number::<u64>();
                format!("  {name} {number} (0x{number:x})\n")
            }
            Argument::Out(name) => format!("  {name} [{}]\n", inputs.room),
        };
        let mut text: String = self.arguments.iter().map(line).collect();
        if inputs.null {
            text.push_str("  what has no bytes is a null pointer\n");
        }
        text
    }
}

#[cfg(test)]
mod tests {
    use super::*;
    use std::cell::Cell;
    use std::collections::HashSet;

    const HEADER: &str = include_str!(concat!(env!("CARGO_MANIFEST_DIR"), "/../../include/taa1.h"));

    /// The calls that the header declares, but for the release, which takes nothing. A
    /// function that it defines is in no archive.
    fn declared() -> HashSet<&'static str> {
        let code = HEADER
            .lines()
            .filter(|line| !line.starts_with("static ") && !line.contains("taa1_release(void)"));
        code.filter_map(|line| {
            let (_, rest) = line.split_once(" taa1_")?;
            let (name, _) = rest.split_once('(')?;
            (line.starts_with("taa1_") && !name.contains(' ')).then_some(name)
        })
        .collect()
    }

    #[test]
    fn every_call_of_the_header_is_compared() {
        let compared: HashSet<&str> = CALLS.iter().map(|call| call.name).collect();
        assert_eq!(compared, declared());
        assert_eq!(compared.len(), CALLS.len());
        assert!(CALLS.len() >= 45);
        for call in CALLS {
            assert!(draw(call.name).is_some(), "{}", call.name);
        }
        assert!(draw("taa1").is_none());
    }

    /// A case is the same again from its seed and index, and only from those.
    #[test]
    fn cases_come_again() {
        for call in CALLS {
            let inputs = call.inputs(7, 3);
            assert_eq!(inputs, call.inputs(7, 3));
            assert_ne!(inputs, call.inputs(8, 3));
            assert_ne!(inputs, call.inputs(7, 4));
        }
    }

    /// What is done to the answer, to the bytes written and to those after them.
    type Plant<'a> = &'a dyn Fn(&mut CountedAnswer, &mut [u8], &mut [u8]);

    /// Whether a comparison notices that this is done when a book is sealed.
    fn noticed(case: u64, plant: Plant) -> bool {
        let call = CALLS.iter().find(|call| call.name == "seal_book").unwrap();
        let inputs = call.inputs(1, case);
        let (ring, book) = (inputs.string(0), inputs.string(1));
        let planted = compared(
            &inputs,
            |out| {
                let mut answer = engine::seal_book(ring, book, out);
                let (made, after) = out.split_at_mut(answer.written);
                plant(&mut answer, made, after);
                answer
            },
            |out| other::seal_book(ring, book, out).into(),
            |answer| answer.refusal,
        );
        planted.difference.is_some()
    }

    #[test]
    fn a_changed_byte_is_noticed() {
        let flipped = Cell::new(false);
        let flip = |bytes: &mut [u8]| {
            flipped.set(!bytes.is_empty());
            bytes.iter_mut().rev().take(1).for_each(|byte| *byte ^= 1);
        };
        let (mut written, mut after) = (0, 0);
        for case in 0..500 {
            assert!(!noticed(case, &|_, _, _| ()));
            assert!(noticed(case, &|answer, _, _| answer.refusal ^= 1));
            assert!(noticed(case, &|answer, _, _| answer.index += 1));
            assert!(noticed(case, &|answer, _, _| answer.written += 1));
            assert!(noticed(case, &|answer, _, _| answer.runs ^= 2));
            assert_eq!(noticed(case, &|_, made, _| flip(made)), flipped.get());
            written += usize::from(flipped.get());
            assert_eq!(noticed(case, &|_, _, rest| flip(rest)), flipped.get());
            after += usize::from(flipped.get());
        }
        assert!(written > 100 && after > 100, "{written} {after}");
    }

    /// Also in the bytes around an output.
    #[test]
    fn a_byte_outside_the_output_is_noticed() {
        let inputs = Inputs {
            strings: vec![],
            numbers: vec![],
            room: 5,
            null: false,
        };
        for offset in [-64, -1, 5, 68] {
            let planted = |out: &mut [u8]| {
                // SAFETY: there are 64 bytes on either side of an output.
                unsafe { *out.as_mut_ptr().offset(offset) ^= 0x80 };
            };
            let compared = compared(&inputs, planted, |_| (), |()| 0);
            assert!(compared.difference.is_some(), "{offset}");
        }
        assert!(compared(&inputs, |_| (), |_| (), |()| 0)
            .difference
            .is_none());
    }
}
