//! The header: its constants, structs and calls.

use std::collections::HashMap;

#[derive(Default)]
pub struct Header {
    constants: HashMap<String, usize>,
    pub structs: Vec<Struct>,
    pub calls: Vec<Call>,
}

pub struct Struct {
    pub name: String,
    pub fields: Vec<Field>,
}

/// A field: a number, or an array of as many bytes as the header says.
#[derive(Clone, PartialEq)]
pub struct Field {
    pub name: String,
    pub kind: String,
    pub length: Option<String>,
}

/// A declaration.
pub struct Call {
    pub name: String,
    /// The struct that it answers.
    pub answer: String,
    /// The comment above it, in one line.
    pub comment: String,
    pub arguments: Vec<Argument>,
}

pub enum Argument {
    Bytes(String),
    Output(String),
    /// A number's name and its type.
    Number(String, String),
}

impl Argument {
    pub fn name(&self) -> &str {
        match self {
            Argument::Bytes(name) | Argument::Output(name) | Argument::Number(name, _) => name,
        }
    }
}

/// A byte string's length stands after it, and is no argument of its own.
fn argument(text: &str) -> Option<Argument> {
    let (kind, name) = text.trim().rsplit_once(' ')?;
    match (kind, name.strip_prefix('*')) {
        ("const uint8_t", Some(name)) => Some(Argument::Bytes(name.to_string())),
        ("uint8_t *TAA1_RESTRICT", None) => Some(Argument::Output(name.to_string())),
        ("size_t", None) => None,
        _ => Some(Argument::Number(name.to_string(), kind.to_string())),
    }
}

/// The comment that ends a text, without its signs.
fn comment(before: &str) -> String {
    let comment = before.trim_end().strip_suffix("*/");
    let comment = comment
        .and_then(|text| text.rsplit_once("/*"))
        .map_or("", |(_, text)| text);
    let words = comment.split_whitespace().filter(|word| *word != "*");
    words.collect::<Vec<_>>().join(" ")
}

/// The declaration at the start of a text, with what stands before it.
fn call(before: &str, text: &str) -> Option<Call> {
    let (head, rest) = text.lines().next()?.split_once('(')?;
    let (answer, name) = head.split_once(' ')?;
    let arguments = text.split_once('(')?.1.split(')').next()?;
    (text.starts_with("taa1_") && !rest.is_empty()).then(|| Call {
        name: name.to_string(),
        answer: answer.to_string(),
        comment: comment(before),
        arguments: arguments.split(',').filter_map(argument).collect(),
    })
}

fn field(line: &str) -> Option<Field> {
    let (kind, name) = line.trim().strip_suffix(';')?.split_once(' ')?;
    let (name, length) = match name.split_once('[') {
        Some((name, length)) => (name, Some(length.trim_end_matches(']').to_string())),
        None => (name, None),
    };
    Some(Field {
        name: name.to_string(),
        kind: kind.to_string(),
        length,
    })
}

impl Header {
    pub fn read(text: &str) -> Self {
        let mut header = Header::default();
        let mut fields = Vec::new();
        let mut at = 0;
        for line in text.split_inclusive('\n') {
            let end = line.trim_end().strip_prefix("} ");
            if let Some((name, number)) = line.trim().split_once(" = ") {
                let number = number.split([',', ' ']).next().unwrap_or("");
                let number = number.parse().unwrap_or(0);
                header.constants.insert(name.to_string(), number);
            } else if line.starts_with("typedef struct") {
                fields.clear();
            } else if let Some(name) = end.and_then(|line| line.strip_suffix(';')) {
                header.structs.push(Struct {
                    name: name.to_string(),
                    fields: std::mem::take(&mut fields),
                });
            } else if let Some(call) = call(&text[..at], &text[at..]) {
                header.calls.push(call);
            } else {
                fields.extend(field(line));
            }
            at += line.len();
        }
        header
    }

    /// The structs that calls answer, in the header's order.
    pub fn answers(&self) -> impl Iterator<Item = &Struct> {
        let answered = |of: &&Struct| self.calls.iter().any(|call| call.answer == of.name);
        self.structs.iter().filter(answered)
    }

    /// The calls that take something.
    pub fn taking(&self) -> impl Iterator<Item = &Call> {
        self.calls.iter().filter(|call| !call.arguments.is_empty())
    }

    /// How many bytes an array has.
    pub fn bytes(&self, length: &str) -> usize {
        let constant = self.constants.get(length).copied();
        length.parse().ok().or(constant).unwrap_or(0)
    }
}

#[cfg(test)]
mod tests {
    use super::*;

    #[test]
    fn structs_and_calls() {
        let header = Header::read(
            "\
enum {
    TAA1_RING_BYTES = 52, /* a ring */
};

typedef struct {
    uint32_t refusal;
    uint8_t ring[TAA1_RING_BYTES];
} taa1_made;

typedef struct {
    uint16_t value;
} taa1_version;

/*
 * It makes
 * one. Refuses 11.
 */
taa1_made taa1_make(const uint8_t *key, size_t key_length,
                    taa1_version version, uint8_t *TAA1_RESTRICT out, size_t out_length) TAA1_USE_ANSWER;
",
        );
        let names: Vec<&str> = header.answers().map(|of| &of.name[..]).collect();
        assert_eq!(names, ["taa1_made"]);
        let ring = &header.structs[0].fields[1];
        assert_eq!((&ring.name[..], &ring.kind[..]), ("ring", "uint8_t"));
        assert_eq!(header.bytes(ring.length.as_deref().unwrap()), 52);
        let call = &header.calls[0];
        assert_eq!(header.calls.len(), 1);
        assert_eq!(call.comment, "It makes one. Refuses 11.");
        let names: Vec<&str> = call.arguments.iter().map(Argument::name).collect();
        assert_eq!(names, ["key", "version", "out"]);
        assert!(matches!(&call.arguments[1], Argument::Number(_, kind) if kind == "taa1_version"));
    }
}
