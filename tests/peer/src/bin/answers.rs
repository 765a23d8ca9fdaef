//! Makes the calls that it reads from standard input, a line each, by the independent
//! implementation or by osmo-tetra, and answers each with a line: for tests/vectors.
//!
//! A line is `other` or `osmo`, the call's name, and its values in the header's order: bytes
//! in hexadecimal with `x` in front, numbers in decimal, and of an output how long it is.
//! The answer has the refusal and the other fields, then what was written. osmo-tetra's has
//! `?` for a field that it has not got, `set` or `clear` for the failed checks, and is a lone
//! `?` where it has no such call or would end the program.

use host::engine::*;
use host::other;
use std::io::{self, BufRead, Write};
use std::str::SplitWhitespace;

/// What an output has in it before a call.
const FILLING: u8 = 0xa5;

/// The values of a line.
struct Words<'a>(SplitWhitespace<'a>);

impl Words<'_> {
    fn next(&mut self) -> &str {
        self.0.next().expect("a value is missing")
    }

    fn bytes(&mut self) -> Vec<u8> {
        let word = self.next().strip_prefix('x').expect("bytes begin with x");
        let byte = |at| u8::from_str_radix(&word[at..at + 2], 16).expect("hexadecimal");
        (0..word.len()).step_by(2).map(byte).collect()
    }

    fn number<N: TryFrom<u64>>(&mut self) -> N {
        let number: u64 = self.next().parse().expect("a number");
        N::try_from(number).unwrap_or_else(|_| panic!("{number} is too wide"))
    }

    fn room(&mut self) -> Vec<u8> {
        vec![FILLING; self.number::<u32>() as usize]
    }
}

/// A field of an answer as a word.
trait Word {
    fn word(&self) -> String;
}

impl Word for [u8] {
    fn word(&self) -> String {
        let digits: String = self.iter().map(|byte| format!("{byte:02x}")).collect();
        format!("x{digits}")
    }
}

impl<const N: usize> Word for [u8; N] {
    fn word(&self) -> String {
        self[..].word()
    }
}

macro_rules! decimal {
    ($($type:ty)*) => {$(
        impl Word for $type {
            fn word(&self) -> String {
                self.to_string()
            }
        }
    )*};
}

decimal!(u16 u32 usize);

/// An answer as words, the refusal first.
trait Answer {
    fn words(&self) -> Vec<String>;
}

macro_rules! worded {
    ($($name:ident$(<$n:ident>)? { $($field:ident),* })*) => {$(
        impl$(<const $n: usize>)? Answer for $name$(<$n>)? {
            fn words(&self) -> Vec<String> {
                vec![self.refusal.word(), $(self.$field.word()),*]
            }
        }
    )*};
}

host::answers!(worded);

/// What was written; the rest of an output has to be as it was.
fn written(out: &[u8], written: usize) -> String {
    let (bytes, rest) = out.split_at(written);
    assert!(rest.iter().all(|&byte| byte == FILLING), "more is written");
    bytes.word()
}

macro_rules! calls {
    ($($call:ident(
        $($([$bytes:ident])? $({$out:ident})? $($number:ident: $type:ty)?),*
    ) -> $answer:ty;)*) => {
        /// A call of the independent implementation.
        fn by_other(call: &str, values: &mut Words) -> Vec<String> {
            match call {
                $(stringify!($call) => {
                    $(
                        $(let $bytes = values.bytes();)?
                        $(let mut $out = values.room();)?
                        $(let $number = values.number();)?
                    )*
                    let answer = <$answer>::from(other::$call(
                        $($(&$bytes)? $(&mut $out)? $($number)?),*
                    ));
                    #[allow(unused_mut)] // where there is no output
                    let mut words = answer.words();
                    $($(words.push(written(&$out, answer.written));)?)*
                    words
                })*
                _ => panic!("no call {call}"),
            }
        }
    };
}

interface::calls!(calls);

#[cfg(not(peer))]
fn by_osmo(_: &str, _: &mut Words) -> Option<Vec<String>> {
    None
}

#[cfg(peer)]
use osmo_calls::by_osmo;

#[cfg(peer)]
mod osmo_calls {
    use super::{Word, Words};
    use peer::osmo;

    /// The bytes that osmo-tetra's key has: every one but B15, B12, B9, B6, B3 and B0. No mask
    /// gives its response.
    const KEY_MASK: u16 = 0x6db6;

    impl Words<'_> {
        fn exact<const N: usize>(&mut self) -> Option<[u8; N]> {
            self.bytes().try_into().ok()
        }

        fn short(&mut self) -> [u8; 2] {
            self.number::<u16>().to_be_bytes()
        }

        /// A number of so many bits.
        fn field<const N: usize>(&mut self, bits: u32) -> Option<[u8; N]> {
            let number: u64 = self.number();
            let bytes = number.to_be_bytes();
            (number >> bits == 0).then(|| std::array::from_fn(|i| bytes[8 - N + i]))
        }
    }

    fn flag([flag]: [u8; 1]) -> String {
        (if flag == 0 { "clear" } else { "set" }).to_string()
    }

    /// A call of osmo-tetra, where it has it.
    pub(super) fn by_osmo(call: &str, values: &mut Words) -> Option<Vec<String>> {
        let fields = match call {
            "encrypt" => vec![osmo::encrypt(&values.exact()?, &values.exact()?).word()],
            "decrypt" => vec![osmo::decrypt(&values.exact()?, &values.exact()?).word()],
            "ta11" | "ta41" => vec![osmo::ta11_ta41(&values.exact()?, &values.exact()?).word()],
            "ta21" => vec![osmo::ta21(&values.exact()?, &values.exact()?).word()],
            "ta12" | "ta22" => {
                let (_, key) = osmo::ta12_ta22(&values.exact()?, &values.exact()?);
                let (_, key_mask): (u16, u16) = (values.number(), values.number());
                (key_mask == KEY_MASK).then(|| vec!["?".to_string(), key.word()])?
            }
            "ta31" => {
                let (key, version) = (values.exact()?, values.number());
                let under = osmo::repaired(&values.exact()?, version);
                vec![osmo::ta31(&key, &version.to_be_bytes(), &under).word()]
            }
            "ta32" => {
                let (text, under, version) = (values.exact()?, values.exact()?, values.number());
                let under = osmo::repaired(&under, version);
                let (key, failed) = osmo::ta32(&text, &version.to_be_bytes(), &under);
                vec![key.word(), flag(failed)]
            }
            "ta51" => {
                let (key, version, under) = (values.exact()?, values.short(), values.exact()?);
                vec![osmo::ta51(&key, &version, &under, &values.field(5)?).word()]
            }
            "ta52" => {
                let (text, under, version) = (values.exact()?, values.exact()?, values.short());
                // It gives the whole number byte.
                let (key, failed, [byte]) = osmo::ta52(&text, &under, &version);
                vec![key.word(), u16::from(byte % 32).word(), flag(failed)]
            }
            "ta71" => vec![osmo::ta71(&values.exact()?, &values.exact()?).word()],
            "ta81" => {
                let (key, version, under) = (values.exact()?, values.short(), values.exact()?);
                vec![osmo::ta81(&key, &version, &values.short(), &under).word()]
            }
            "ta82" => {
                let (text, under, version) = (values.exact()?, values.exact()?, values.short());
                let (key, failed, number) = osmo::ta82(&text, &version, &under);
                vec![key.word(), u16::from_be_bytes(number).word(), flag(failed)]
            }
            "ta91" => {
                let (key, version, under) = (values.exact()?, values.short(), values.exact()?);
                vec![osmo::ta91(&key, &version, &under).word()]
            }
            "ta92" => {
                let (text, under, version) = (values.exact()?, values.exact()?, values.short());
                let (key, failed) = osmo::ta92(&text, &version, &under);
                vec![key.word(), flag(failed)]
            }
            "tb4" => vec![osmo::tb4(&values.exact()?, &values.exact()?).word()],
            "tb5" => {
                let (key, area) = (values.exact()?, values.field(14)?);
                let (carrier, colour) = (values.field(12)?, values.field(6)?);
                vec![osmo::tb5(&carrier, &area, &colour, &key).word()]
            }
            "tb6" => {
                let (key, carrier) = (values.exact()?, values.field(12)?);
                vec![osmo::tb6(&key, &carrier, &values.field(24)?).word()]
            }
            "tb7" => vec![osmo::tb7(&values.exact()?).word()],
            _ => return None,
        };
        let mut words = vec![0u32.word()];
        words.extend(fields);
        Some(words)
    }
}

fn main() -> io::Result<()> {
    let mut out = io::stdout().lock();
    for line in io::stdin().lock().lines() {
        let line = line?;
        let mut values = Words(line.split_whitespace());
        let osmo = match values.next() {
            "other" => false,
            "osmo" => true,
            who => panic!("nobody is called {who}"),
        };
        let call = values.next().to_string();
        let words = match osmo {
            true => by_osmo(&call, &mut values).unwrap_or_else(|| vec!["?".to_string()]),
            false => by_other(&call, &mut values),
        };
        writeln!(out, "{}", words.join(" "))?;
        out.flush()?;
    }
    Ok(())
}
