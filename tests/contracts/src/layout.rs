//! The layout of the header's structs, for tests/header.c and docs/hosts.md: on x86-64 Linux
//! a number stands at a multiple of its size, and a struct at that of its widest number.

use crate::header::{Field, Header, Struct};

fn size_of(kind: &str) -> usize {
    match kind {
        "uint8_t" => 1,
        "uint16_t" => 2,
        "uint32_t" => 4,
        _ => 8,
    }
}

fn up_to(multiple: usize, offset: usize) -> usize {
    (offset + multiple - 1) / multiple * multiple
}

/// A struct with the places of its fields.
struct Placed<'a> {
    of: &'a Struct,
    size: usize,
    alignment: usize,
    /// The offset and the size of each field.
    places: Vec<(usize, usize)>,
}

fn placed<'a>(header: &Header, of: &'a Struct) -> Placed<'a> {
    let mut places = Vec::new();
    let (mut end, mut alignment) = (0, 1);
    for field in &of.fields {
        let unit = size_of(&field.kind);
        let length = field.length.as_ref();
        let many = length.map_or(1, |length| header.bytes(length));
        let offset = up_to(unit, end);
        places.push((offset, unit * many));
        end = offset + unit * many;
        alignment = alignment.max(unit);
    }
    Placed {
        of,
        size: up_to(alignment, end),
        alignment,
        places,
    }
}

/// The assertions of tests/header.c.
pub fn layout(header: &Header) -> String {
    let mut text = String::new();
    for of in &header.structs {
        let Placed {
            size,
            alignment,
            places,
            ..
        } = placed(header, of);
        text.push_str(&format!("\nSTRUCT({}, {size}, {alignment});\n", of.name));
        for (field, (offset, size)) in of.fields.iter().zip(places) {
            let name = &field.name;
            text.push_str(&format!("FIELD({}, {name}, {offset}, {size});\n", of.name));
        }
    }
    text
}

/// The answers' table in docs/hosts.md.
pub fn table(header: &Header) -> String {
    let mut text = "| answer | bytes | fields, at their offsets |\n|---|---|---|\n".to_string();
    for Placed {
        of, size, places, ..
    } in header.answers().map(|of| placed(header, of))
    {
        let field = |(field, (offset, _)): (&Field, (usize, usize))| {
            let Field { name, kind, .. } = field;
            match &field.length {
                Some(length) => format!("{offset} `{kind} {name}[{}]`", header.bytes(length)),
                None => format!("{offset} `{kind} {name}`"),
            }
        };
        let fields: Vec<String> = of.fields.iter().zip(places).map(field).collect();
        text.push_str(&format!(
            "| `{}` | {size} | {} |\n",
            of.name,
            fields.join(", ")
        ));
    }
    text
}

#[cfg(test)]
mod tests {
    use super::*;

    #[test]
    fn fields_stand_at_multiples_of_their_size() {
        let header = Header::read(
            "typedef struct {\n    uint32_t refusal;\n    uint8_t key[10];\n    uint16_t number;\n    \
             size_t index;\n    uint8_t last;\n} taa1_made;\n\
             taa1_made taa1_make(uint64_t steps) TAA1_USE_ANSWER;\n",
        );
        let wanted = "
STRUCT(taa1_made, 32, 8);
FIELD(taa1_made, refusal, 0, 4);
FIELD(taa1_made, key, 4, 10);
FIELD(taa1_made, number, 14, 2);
FIELD(taa1_made, index, 16, 8);
FIELD(taa1_made, last, 24, 1);
";
        assert_eq!(layout(&header), wanted);
        let row = "| `taa1_made` | 32 | 0 `uint32_t refusal`, 4 `uint8_t key[10]`, \
                   14 `uint16_t number`, 16 `size_t index`, 24 `uint8_t last` |";
        assert_eq!(table(&header).lines().nth(2), Some(row));
    }
}
