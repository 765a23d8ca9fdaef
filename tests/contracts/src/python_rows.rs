//! The header in Python: the answers and the calls of python/taa1/calls.py. Lengths and
//! widths are those that the definitions test.

use crate::definitions::Tests;
use crate::header::{Argument, Field, Header};
use crate::hosts::Described;

const WIDTH: usize = 100;
/// What has so many bits is written as an identity, in hexadecimal.
const IDENTITY_BITS: &str = "24";

/// A tuple; one of one entry has a comma after it.
fn tuple(entries: &[String]) -> String {
    let comma = if entries.len() == 1 { "," } else { "" };
    format!("({}{comma})", entries.join(", "))
}

fn field(header: &Header, field: &Field) -> String {
    let name = &field.name;
    match (&field.length, &field.kind[..]) {
        (Some(length), _) => format!("_text(\"{name}\", {})", header.bytes(length)),
        _ if name == "identity" => format!("_ssi(\"{name}\")"),
        (_, "size_t") => format!("_number(\"{name}\", _SIZE)"),
        (_, "uint32_t") => format!("_number(\"{name}\")"),
        (_, kind) => {
            let bits: String = kind.chars().filter(char::is_ascii_digit).collect();
            format!("_number(\"{name}\", {bits})")
        }
    }
}

/// The rows of `ANSWERS`, without the refusal.
pub fn answers(header: &Header) -> String {
    let mut text = String::new();
    for of in header.answers().filter(|of| of.fields[0].name == "refusal") {
        let name = of.name.trim_start_matches("taa1_");
        let fields = of.fields[1..].iter().map(|one| field(header, one));
        let fields: Vec<String> = fields.collect();
        let line = format!("    \"{name}\": {},\n", tuple(&fields));
        match line.len() <= WIDTH {
            true => text.push_str(&line),
            false => {
                text.push_str(&format!("    \"{name}\": (\n"));
                for field in fields {
                    text.push_str(&format!("        {field},\n"));
                }
                text.push_str("    ),\n");
            }
        }
    }
    text
}

fn parameter(argument: &Argument, tests: &Tests) -> String {
    match argument {
        Argument::Bytes(name) => match tests.lengths.get(name) {
            Some(length) => format!("_bytes(\"{name}\", {length})"),
            None => format!("_bytes(\"{name}\")"),
        },
        Argument::Output(_) => format!("_out({})", tests.written.unwrap_or(0)),
        Argument::Number(name, kind) => match &kind[..] {
            "taa1_version" => "_VERSION".to_string(),
            "taa1_key_number" => "_NUMBER".to_string(),
            "uint16_t" => format!("_mask(\"{name}\")"),
            _ => match tests.bits.get(name).map(String::as_str) {
                Some(IDENTITY_BITS) => format!("_identity(\"{name}\")"),
                _ => format!("_value(\"{name}\")"),
            },
        },
    }
}

/// The rows of the calls that take something.
pub fn calls(calls: &[Described]) -> String {
    let mut text = String::new();
    for Described { call, tests } in calls.iter().filter(|one| !one.call.arguments.is_empty()) {
        let short = |name: &str| name.trim_start_matches("taa1_").to_string();
        let (name, answer) = (short(&call.name), short(&call.answer));
        let parameters = call.arguments.iter().map(|one| parameter(one, tests));
        let parameters: Vec<String> = parameters.collect();
        let line = format!(
            "    Call(\"{name}\", \"{answer}\", {}),\n",
            tuple(&parameters)
        );
        let inner = format!("        {},\n", tuple(&parameters));
        if line.len() <= WIDTH {
            text.push_str(&line);
            continue;
        }
        text.push_str(&format!(
            "    Call(\n        \"{name}\",\n        \"{answer}\",\n"
        ));
        match inner.len() <= WIDTH {
            true => text.push_str(&inner),
            false => {
                text.push_str("        (\n");
                for one in parameters {
                    text.push_str(&format!("            {one},\n"));
                }
                text.push_str("        ),\n");
            }
        }
        text.push_str("    ),\n");
    }
    text
}

#[cfg(test)]
mod tests {
    use super::*;
    use std::collections::HashMap;

    #[test]
    fn rows() {
        let header = Header::read(
            "\
typedef struct {
    uint32_t refusal;
    uint32_t identity;
    uint16_t failed_checks;
    size_t index;
    uint8_t key[10];
} taa1_made;

taa1_made taa1_make(const uint8_t *key, size_t key_length, const uint8_t *list, size_t list_length,
                    taa1_version version, uint16_t mask, uint64_t mni, uint64_t steps,
                    uint8_t *TAA1_RESTRICT out, size_t out_length) TAA1_USE_ANSWER;
taa1_made taa1_one(uint64_t steps);
",
        );
        let wanted = "    \"made\": (
        _ssi(\"identity\"),
        _number(\"failed_checks\", 16),
        _number(\"index\", _SIZE),
        _text(\"key\", 10),
    ),
";
        assert_eq!(answers(&header), wanted);
        let tests = Tests {
            lengths: HashMap::from([("key".to_string(), 16)]),
            bits: HashMap::from([("mni".to_string(), "24".to_string())]),
            written: Some(14),
            ..Tests::default()
        };
        let described = [
            Described {
                call: &header.calls[0],
                tests,
            },
            Described {
                call: &header.calls[1],
                tests: Tests::default(),
            },
        ];
        let wanted = "    Call(
        \"make\",
        \"made\",
        (
            _bytes(\"key\", 16),
            _bytes(\"list\"),
            _VERSION,
            _mask(\"mask\"),
            _identity(\"mni\"),
            _value(\"steps\"),
            _out(14),
        ),
    ),
    Call(\"one\", \"made\", (_value(\"steps\"),)),
";
        assert_eq!(calls(&described), wanted);
    }
}
