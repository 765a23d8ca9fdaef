//! The header in Rust: the structs and the rows of `calls!` in rust/src/raw.rs, and what
//! tests/host compares of each answer.

use crate::header::{Argument, Call, Field, Header, Struct};
use crate::hosts::Described;
use std::collections::BTreeMap;

const WIDTH: usize = 100;

fn camel(name: &str) -> String {
    let words = name.trim_start_matches("taa1_").split('_');
    let capital = |word: &str| word[..1].to_uppercase() + &word[1..];
    words.map(capital).collect()
}

/// The fields without the lengths of arrays.
fn shape(of: &Struct) -> Vec<Field> {
    let bare = |field: &Field| Field {
        length: field.length.as_ref().map(|_| String::new()),
        ..field.clone()
    };
    of.fields.iter().map(bare).collect()
}

/// An answer's type. Structs that differ in the length of an array alone are one type
/// over that length, which has the name of the first of them.
struct Type<'a> {
    name: String,
    /// The length, if it is such a type.
    over: Option<&'a str>,
}

fn type_of<'a>(header: &Header, of: &'a Struct) -> Type<'a> {
    let alike: Vec<&Struct> = header.answers().filter(|s| shape(s) == shape(of)).collect();
    let name = match &alike[..] {
        [first, _, ..] => first.name.trim_end_matches(|c: char| c.is_ascii_digit()),
        _ => of.name.trim_end_matches("_numbers"), // of the release
    };
    let length = of.fields.iter().find_map(|field| field.length.as_deref());
    Type {
        name: camel(name),
        over: length.filter(|_| alike.len() > 1),
    }
}

fn rust_type(field: &Field, over: bool) -> String {
    let element = match &field.kind[..] {
        "size_t" => "usize".to_string(),
        kind => kind.replace("uint", "u").replace("_t", ""),
    };
    match &field.length {
        None => element,
        Some(_) if over => format!("[{element}; N]"),
        Some(length) => format!("[{element}; {}]", length.trim_start_matches("TAA1_")),
    }
}

/// What a field is, by its name.
fn meaning(field: &str) -> String {
    match field {
        "refusal" => "0, or the number of a refusal.".to_string(),
        "bytes" => "What the call makes.".to_string(),
        "failed_checks" => "A bit for each check of the text that fails.".to_string(),
        "index" => "How many records; of a refused list the first offending one, or 0.".to_string(),
        "written" => "The bytes written to the output.".to_string(),
        "runs" => "The runs of the block cipher.".to_string(),
        "flips" => "The flips tried.".to_string(),
        "total" => "The output bits that changed, in all.".to_string(),
        "least" | "greatest" => format!("The {field} change of one flip."),
        "response1" => "The response of TA12.".to_string(),
        "response2" => "The response of TA22.".to_string(),
        "major" | "minor" | "patch" => format!("The {field} number."),
        _ => format!("The {}.", field.replace('_', " ")),
    }
}

/// The structs of the answers, each type once.
pub fn structs(header: &Header) -> String {
    let mut text = String::new();
    let mut seen = Vec::new();
    for of in header.answers() {
        let Type { name, over } = type_of(header, of);
        if seen.contains(&name) {
            continue;
        }
        let over = over.is_some();
        let parameter = if over { "<const N: usize>" } else { "" };
        let between = if seen.is_empty() { "" } else { "\n" };
        text.push_str(between);
        let called = header
            .answers()
            .filter(|other| type_of(header, other).name == name);
        let called: Vec<String> = called.map(|of| format!("`{}`", of.name)).collect();
        text.push_str(&format!("/// {} of the header.\n", called.join(", ")));
        text.push_str("#[repr(C)]\n#[derive(Clone, Copy, Debug, PartialEq, Eq)]\n");
        text.push_str(&format!("pub struct {name}{parameter} {{\n"));
        for field in &of.fields {
            let kind = rust_type(field, over);
            let (name, meaning) = (&field.name, meaning(&field.name));
            text.push_str(&format!("    /// {meaning}\n    pub {name}: {kind},\n"));
        }
        text.push_str("}\n");
        seen.push(name);
    }
    text
}

fn argument(argument: &Argument) -> String {
    match argument {
        Argument::Bytes(name) => format!("[{name}]"),
        Argument::Output(name) => format!("{{{name}}}"),
        Argument::Number(name, kind) => match kind.strip_prefix("taa1_") {
            Some(kind) => format!("{name}: {}", camel(kind)),
            None => format!("{name}: {}", kind.replace("uint", "u").replace("_t", "")),
        },
    }
}

/// Words with commas between them, in lines of that indent.
fn filled(words: &[String], indent: &str) -> String {
    let mut lines = vec![String::new()];
    for (i, word) in words.iter().enumerate() {
        let comma = if i + 1 < words.len() { "," } else { "" };
        let line = lines.last_mut().expect("a line");
        if line.is_empty() {
            *line = format!("{indent}{word}{comma}");
        } else if line.len() + word.len() + comma.len() < WIDTH {
            *line = format!("{line} {word}{comma}");
        } else {
            lines.push(format!("{indent}{word}{comma}"));
        }
    }
    lines.join("\n")
}

fn row(header: &Header, call: &Call) -> String {
    let answer = header.answers().find(|of| of.name == call.answer);
    let answer = answer.map_or(String::new(), |of| match type_of(header, of) {
        Type { name, over: None } => name,
        Type {
            name,
            over: Some(length),
        } => format!("{name}<{length}>"),
    });
    let name = call.name.trim_start_matches("taa1_");
    let arguments: Vec<String> = call.arguments.iter().map(argument).collect();
    let indent = " ".repeat(12);
    let line = format!("{indent}{name}({}) -> {answer};", arguments.join(", "));
    if line.len() <= WIDTH {
        return line + "\n";
    }
    let inner = filled(&arguments, &" ".repeat(16));
    format!("{indent}{name}(\n{inner}\n{indent}) -> {answer};\n")
}

/// The rows of `calls!`.
pub fn calls(header: &Header) -> String {
    header.taking().map(|call| row(header, call)).collect()
}

/// The rows of `answers!` in tests/host/src/engine.rs: the fields after the refusal.
pub fn answers(header: &Header) -> String {
    let mut text = String::new();
    for of in header.answers().filter(|of| of.fields[0].name == "refusal") {
        let Type { name, over } = type_of(header, of);
        let fields = of.fields[1..].iter().map(|field| &field.name[..]);
        let fields = fields.collect::<Vec<_>>().join(", ");
        let parameter = if over.is_some() { "<N>" } else { "" };
        let row = format!("            {name}{parameter} {{ {fields} }}\n");
        if !text.contains(&row) {
            text.push_str(&row);
        }
    }
    text
}

/// The arms of `record_bytes` in tests/host/src/long/inputs.rs: the calls on lists by
/// the size of their records.
pub fn record_bytes(calls: &[Described]) -> String {
    let mut sizes: BTreeMap<u64, Vec<String>> = BTreeMap::new();
    for Described { call, tests } in calls {
        if let Some((_, size)) = tests.list {
            let name = call.name.trim_start_matches("taa1_");
            sizes.entry(size).or_default().push(format!("\"{name}\""));
        }
    }
    let arm = |(size, names): (&u64, &Vec<String>)| {
        let indent = " ".repeat(8);
        let line = format!("{indent}{} => Some({size}),\n", names.join(" | "));
        match line.len() <= WIDTH {
            true => line,
            false => {
                let between = format!("\n{indent}| ");
                format!("{indent}{} => Some({size}),\n", names.join(&between))
            }
        }
    };
    sizes.iter().map(arm).collect()
}

#[cfg(test)]
mod tests {
    use super::*;

    #[test]
    fn types_rows_and_answers() {
        let header = Header::read(
            "\
typedef struct {
    uint32_t refusal;
    uint8_t bytes[8];
} taa1_bytes8;

typedef struct {
    uint32_t refusal;
    uint8_t bytes[16];
} taa1_bytes16;

typedef struct {
    uint32_t refusal;
    size_t index;
    uint8_t ring[TAA1_RING_BYTES];
} taa1_ring_made;

typedef struct {
    uint32_t major;
} taa1_release_numbers;

taa1_release_numbers taa1_release(void);
taa1_bytes8 taa1_one(const uint8_t *key, size_t key_length, taa1_key_number number);
taa1_bytes16 taa1_two(const uint8_t *key, size_t key_length, uint8_t *TAA1_RESTRICT out, size_t out_length) TAA1_USE_ANSWER;
taa1_ring_made taa1_three(uint64_t of_many_steps_in_this_row, uint64_t of_other_steps_in_this_row,
                          uint16_t mask);
",
        );
        let calls_wanted = "            one([key], number: KeyNumber) -> Bytes<8>;
            two([key], {out}) -> Bytes<16>;
            three(
                of_many_steps_in_this_row: u64, of_other_steps_in_this_row: u64, mask: u16
            ) -> RingMade;
";
        assert_eq!(calls(&header), calls_wanted);
        let structs = structs(&header);
        let heads: Vec<&str> = structs.lines().filter(|l| l.starts_with("pub")).collect();
        assert_eq!(
            heads,
            [
                "pub struct Bytes<const N: usize> {",
                "pub struct RingMade {",
                "pub struct Release {"
            ]
        );
        assert!(structs.contains("/// `taa1_bytes8`, `taa1_bytes16` of the header.\n#[repr(C)]\n"));
        assert!(structs.contains("    /// What the call makes.\n    pub bytes: [u8; N],\n"));
        assert!(structs.contains("    /// The ring.\n    pub ring: [u8; RING_BYTES],\n"));
        assert_eq!(
            answers(&header),
            "            Bytes<N> { bytes }\n            RingMade { index, ring }\n"
        );
    }
}
