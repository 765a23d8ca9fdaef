//! The part of TOML that crates/claims/argument.toml is written in: comments, `[[table]]`,
//! and under it `key = "text in one line"` and `key = number`.

/// A value: a text without escapes, or a number.
#[derive(Debug, PartialEq)]
pub enum Value {
    Text(String),
    Number(usize),
}

/// A table: its name, the line that it begins in, and its values.
pub struct Table {
    pub name: String,
    pub line: usize,
    pub values: Vec<(String, Value)>,
}

/// The keys that a table of a name has: texts, and numbers.
pub type Keys<'a> = (&'a str, &'a [&'a str], &'a [&'a str]);

impl Table {
    /// The text of a key; none, if it has no such text.
    pub fn text(&self, key: &str) -> &str {
        match self.values.iter().find(|(name, _)| name == key) {
            Some((_, Value::Text(text))) => text,
            _ => "",
        }
    }

    /// The number of a key; 0, if it has no such number.
    pub fn number(&self, key: &str) -> usize {
        match self.values.iter().find(|(name, _)| name == key) {
            Some((_, Value::Number(number))) => *number,
            _ => 0,
        }
    }

    /// What is wrong with its keys.
    fn faults(&self, known: &[Keys]) -> Vec<String> {
        let found = known.iter().find(|(name, _, _)| *name == self.name);
        let (_, texts, numbers) = match found {
            Some(keys) => keys,
            None => return vec![format!("no table is called '{}'", self.name)],
        };
        let mut faults = Vec::new();
        for key in texts.iter().chain(*numbers) {
            if self.values.iter().filter(|(name, _)| name == key).count() != 1 {
                faults.push(format!("'{key}' does not stand there once"));
            }
        }
        for (name, value) in &self.values {
            let (of, what) = match value {
                Value::Text(_) => (texts, "text"),
                Value::Number(_) => (numbers, "number"),
            };
            if !of.contains(&&name[..]) {
                faults.push(format!("no {what} is called '{name}'"));
            }
        }
        faults
    }
}

/// A value in one line: a text between its quotes, or digits.
fn value(said: &str) -> Option<Value> {
    match said.strip_prefix('"') {
        Some(rest) => {
            let text = rest.strip_suffix('"')?;
            let plain = !text.contains(['"', '\\']);
            plain.then(|| Value::Text(text.to_string()))
        }
        None => said.parse().ok().map(Value::Number),
    }
}

/// The tables of a text, and what is wrong with it, by lines.
pub fn read(text: &str, known: &[Keys]) -> (Vec<Table>, Vec<String>) {
    let mut tables: Vec<Table> = Vec::new();
    let mut faults = Vec::new();
    for (at, line) in text
        .lines()
        .enumerate()
        .map(|(at, line)| (at + 1, line.trim()))
    {
        let head = line
            .strip_prefix("[[")
            .and_then(|rest| rest.strip_suffix("]]"));
        if line.is_empty() || line.starts_with('#') {
            continue;
        } else if let Some(name) = head {
            let (name, values) = (name.to_string(), Vec::new());
            tables.push(Table {
                name,
                line: at,
                values,
            });
            continue;
        }
        let read = line
            .split_once(" = ")
            .and_then(|(key, said)| Some((key.to_string(), value(said)?)));
        match (tables.last_mut(), read) {
            (Some(table), Some(read)) => table.values.push(read),
            _ => faults.push(format!(
                "line {at}: neither a comment, [[table]], key = \"text\" without a quote or \
                 a backslash in it, nor key = number: {line}"
            )),
        }
    }
    for table in &tables {
        let of = |fault| format!("line {}, [[{}]]: {fault}", table.line, table.name);
        faults.extend(table.faults(known).into_iter().map(of));
    }
    (tables, faults)
}

#[cfg(test)]
mod tests {
    use super::*;

    const KNOWN: [Keys; 1] = [("part", &["name"], &["points"])];

    #[test]
    fn tables() {
        let text = "# a comment\n\n[[part]]\nname = \"one, # two\"\npoints = 12\n[[part]]\npoints = 0\nname = \"\"\n";
        let (tables, faults) = read(text, &KNOWN);
        assert_eq!(faults, Vec::<String>::new());
        let have: Vec<(&str, usize, usize)> = tables
            .iter()
            .map(|table| (table.text("name"), table.number("points"), table.line))
            .collect();
        assert_eq!(have, [("one, # two", 12, 3), ("", 0, 6)]);
        assert_eq!(
            (tables[0].text("points"), tables[0].number("name")),
            ("", 0)
        );
    }

    #[test]
    fn wrong() {
        let lines = [
            "name = one",
            "name = \"a\"b\"",
            "name = \"a\\n\"",
            "name = \"a",
            "name",
            "points = -1",
            "[part]",
        ];
        for line in lines {
            let (_, faults) = read(&format!("[[part]]\n{line}\n"), &KNOWN);
            let said = "line 2: neither a comment";
            assert!(faults[0].starts_with(said), "{line}: {faults:?}");
        }
        let (_, faults) = read("name = \"a\"\n", &KNOWN);
        assert!(faults[0].starts_with("line 1: neither"), "{faults:?}");
        let (_, faults) = read("[[part]]\nname = 3\nname = \"a\"\nname = \"b\"\n", &KNOWN);
        let wanted = [
            "line 1, [[part]]: 'name' does not stand there once",
            "line 1, [[part]]: 'points' does not stand there once",
            "line 1, [[part]]: no number is called 'name'",
        ];
        assert_eq!(faults, wanted);
        let (_, faults) = read("[[parts]]\n", &KNOWN);
        assert_eq!(faults, ["line 1, [[parts]]: no table is called 'parts'"]);
    }
}
