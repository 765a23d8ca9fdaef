//! The definitions of crates/standard/specs, read far enough to say which tests a call
//! makes of its inputs, and in which order. Applications are unfolded as far as they
//! lead to a refusal; `choose test this that` tests, and then refuses by `that`.

use std::cell::RefCell;
use std::collections::HashMap;
use std::rc::Rc;
use std::{mem, slice};

/// A term: words in a row, with groups in parentheses or braces among them.
type Term = Rc<Vec<Node>>;

#[derive(Clone)]
enum Node {
    Word(String),
    Parentheses(Term),
    Braces(Term),
    /// An argument with the names of the place where it was handed over.
    Closed(Closure),
}

/// A term with what its names stand for.
#[derive(Clone)]
struct Closure {
    term: Term,
    scope: Scope,
}

/// The file of a term, for the definitions that it cites, and what is bound by name.
#[derive(Clone)]
struct Scope {
    file: String,
    bound: Rc<HashMap<String, Closure>>,
}

/// The equations of a definition: parameters and what stands right of the sign.
type Clauses = Vec<(Vec<Node>, Term)>;

#[derive(Default)]
struct File {
    /// Names of other files, and the files.
    imports: HashMap<String, String>,
    definitions: HashMap<String, Clauses>,
}

/// The tests that say what one argument must be.
const NOTED: [&str; 3] = ["has_length", "fits", "valid_width"];
/// The field with the refusal of a record or a body.
const FAULT: &str = "fault";

/// What a term comes to, where that is seen.
enum Value {
    Number(u64),
    /// An argument of the call, its length, or how many ones it has.
    Argument(String),
    LengthOf(String),
    OnesOf(String),
    Record(Vec<(String, Closure)>),
    Tuple(Vec<Closure>),
    /// One of these, by cases.
    Cases(Vec<Value>),
    Other,
}

/// What a call tests.
#[derive(Debug, Default, PartialEq)]
pub struct Tests {
    /// Refusals in the order of their tests: of the call, and then of each record.
    pub refusals: Vec<u64>,
    pub of_records: Vec<u64>,
    /// The bytes that an argument must have.
    pub lengths: HashMap<String, u64>,
    /// The argument that is a list, and the bytes of a record.
    pub list: Option<(String, u64)>,
    /// The bytes written for each record.
    pub written: Option<u64>,
    /// The bits that a number must fit: as many, or as another argument says.
    pub bits: HashMap<String, String>,
    /// The least and the greatest number that an argument may be.
    pub least: HashMap<String, u64>,
    pub greatest: HashMap<String, u64>,
    /// The ones that a mask must have.
    pub ones: HashMap<String, u64>,
}

/// The way through a term, along which its tests are noted.
struct Walk<'a> {
    definitions: &'a Definitions,
    /// What is being unfolded, so that no definition is within itself.
    unfolding: Vec<String>,
    /// Whether the way leads through the fault of a record.
    in_records: bool,
    tests: Tests,
}

pub struct Definitions {
    files: HashMap<String, File>,
    /// Whether a definition leads to a refusal, as far as that was asked.
    leads: RefCell<HashMap<(String, String), bool>>,
}

impl Value {
    /// Whether it is a record with a field `fault`. Of such a one that is handed over,
    /// the refusals are those of whoever takes that field.
    fn has_fault(&self) -> bool {
        match self {
            Value::Record(fields) => fields.iter().any(|(name, _)| name == FAULT),
            Value::Cases(values) => values.iter().all(Value::has_fault),
            _ => false,
        }
    }
}

impl Scope {
    fn of(file: &str) -> Self {
        Scope {
            file: file.to_string(),
            bound: Rc::default(),
        }
    }

    fn closure(&self, row: &[Node]) -> Closure {
        Closure {
            term: Rc::new(row.to_vec()),
            scope: self.clone(),
        }
    }
}

impl Node {
    fn word(&self) -> &str {
        match self {
            Node::Word(word) => word,
            _ => "",
        }
    }

    fn is_field(&self) -> bool {
        self.word().len() > 1 && self.word().starts_with('.')
    }

    /// Whether a term begins after it: after an operator, a binder or a word such as `in`.
    fn ends_a_head(&self) -> bool {
        let word = self.word();
        self.is_operator() || ["in", "λ"].contains(&word) || (word.len() > 1 && word.ends_with('.'))
    }

    fn is_operator(&self) -> bool {
        let word = self.word();
        let is_letter = |c: char| c.is_alphanumeric() || c == '@';
        !word.is_empty() && word != "[]" && !self.is_field() && !word.contains(is_letter)
    }
}

/// The value and the fields of a word such as `conversion.size` or `a.0.refusal`. A name
/// that a `λ` binds, as `i.`, has none.
fn fields(word: &str) -> Vec<Node> {
    let inner = |&(at, c): &(usize, char)| c == '.' && at > 0 && at + 1 < word.len();
    let starts = word.char_indices().filter(inner).map(|(at, _)| at);
    let starts: Vec<usize> = [0].into_iter().chain(starts).chain([word.len()]).collect();
    let part = |ends: &[usize]| Node::Word(word[ends[0]..ends[1]].to_string());
    starts.windows(2).map(part).collect()
}

/// The nodes of a text, up to its end or a closing bracket. A field is written tight. It
/// stays beside its value where these two are applied, as in `form.fault b`; else both are
/// in parentheses, so that each argument is one node.
fn nodes(words: &mut impl Iterator<Item = String>) -> Vec<Node> {
    let mut found: Vec<Node> = Vec::new();
    while let Some(word) = words.next() {
        let mut row = match &word[..] {
            "(" => vec![Node::Parentheses(Rc::new(nodes(words)))],
            "{" => vec![Node::Braces(Rc::new(nodes(words)))],
            ")" | "}" => break,
            _ => fields(&word),
        };
        if row[0].is_field() {
            row.splice(..0, found.pop());
        }
        match found.last() {
            Some(before) if row.len() > 1 && !before.ends_a_head() => {
                found.push(Node::Parentheses(Rc::new(row)));
            }
            _ => found.extend(row),
        }
    }
    found
}

fn parsed(text: &str) -> Vec<Node> {
    let mut spaced = String::new();
    for c in text.chars() {
        match c {
            '(' | ')' | '{' | '}' | ',' | ';' => spaced.extend([' ', c, ' ']),
            _ => spaced.push(c),
        }
    }
    nodes(&mut spaced.split_whitespace().map(str::to_string))
}

/// The parts of a row between its operators.
fn parts(row: &[Node]) -> impl Iterator<Item = &[Node]> {
    row.split(Node::is_operator).filter(|part| !part.is_empty())
}

/// The names that a file takes from other files of definitions.
fn imports(source: &str) -> HashMap<String, String> {
    let mut found = HashMap::new();
    for line in source.lines() {
        let place = line
            .split_once(".specs.")
            .and_then(|(_, rest)| rest.split_once(".{"));
        if let (true, Some((file, names))) = (line.contains("use Rattle"), place) {
            for name in names.trim_end_matches([';', '}']).split(',') {
                found.insert(name.trim().to_string(), file.to_string());
            }
        }
    }
    found
}

/// The equations of a file: each begins with its name at the start of a line.
fn definitions(source: &str) -> HashMap<String, Clauses> {
    let mut found: HashMap<String, Clauses> = HashMap::new();
    let mut name = String::new();
    let mut clause = String::new();
    let mut keep = |name: &str, clause: &mut String| {
        let text = mem::take(clause);
        if let Some((left, right)) = text.split_once(" =") {
            let parameters = parsed(left).split_off(1);
            let of_name = found.entry(name.to_string()).or_default();
            of_name.push((parameters, Rc::new(parsed(right))));
        }
    };
    for line in source
        .lines()
        .filter(|line| !line.trim_start().starts_with("--"))
    {
        let declared = ["abbrev pub ", "unfoldable pub "];
        let declared = declared.iter().find_map(|before| line.strip_prefix(before));
        if let Some(rest) = declared {
            keep(&name, &mut clause);
            name = rest.split(' ').next().unwrap_or("").to_string();
        } else if !name.is_empty() && line.split(' ').next() == Some(&name) {
            keep(&name, &mut clause);
            clause = line.to_string();
        } else if line.starts_with(' ') || line.starts_with('}') {
            if !clause.is_empty() {
                clause.push_str(line);
                clause.push(' ');
            }
        } else {
            keep(&name, &mut clause);
        }
    }
    keep(&name, &mut clause);
    found
}

impl Definitions {
    /// Files by name and text, one of which cites the definitions of the others.
    pub fn read<'a>(sources: impl Iterator<Item = (&'a str, &'a str)>) -> Self {
        let read = |(name, text): (&str, &str)| {
            let file = File {
                imports: imports(text),
                definitions: definitions(text),
            };
            (name.to_string(), file)
        };
        Definitions {
            files: sources.map(read).collect(),
            leads: RefCell::default(),
        }
    }

    /// What a term in a file tests, of arguments with these names: in the term, and in
    /// what comes out.
    pub fn tests(&self, file: &str, term: &str, arguments: &[(&str, &str)]) -> Tests {
        let mut scope = Scope::of(file);
        let mark = |(name, shown): &(&str, &str)| {
            let marked = [Node::Word(format!("@{shown}"))];
            (name.to_string(), Scope::of(file).closure(&marked))
        };
        scope.bound = Rc::new(arguments.iter().map(mark).collect());
        let mut walk = Walk {
            definitions: self,
            unfolding: Vec::new(),
            in_records: false,
            tests: Tests::default(),
        };
        walk.row(&parsed(term), &scope);
        walk.tests
    }

    /// The file and the equations of a definition that a file has or imports.
    fn find(&self, file: &str, name: &str) -> Option<(&str, &Clauses)> {
        let owner = match self.files.get(file)?.definitions.contains_key(name) {
            true => file,
            false => self.files[file].imports.get(name)?,
        };
        let (owner, found) = self.files.get_key_value(owner)?;
        Some((owner, found.definitions.get(name)?))
    }

    /// Whether there is a refusal or a test of an argument in what it unfolds to.
    fn leads_to_refusal(&self, file: &str, name: &str) -> bool {
        let (owner, clauses) = match self.find(file, name) {
            Some(found) => found,
            None => return false,
        };
        let key = (owner.to_string(), name.to_string());
        if let Some(&known) = self.leads.borrow().get(&key) {
            return known;
        }
        self.leads.borrow_mut().insert(key.clone(), false);
        let leads = NOTED.contains(&name)
            || refusal(owner, clauses).is_some()
            || clauses.iter().any(|(_, body)| self.mentions(owner, body));
        self.leads.borrow_mut().insert(key, leads);
        leads
    }

    fn mentions(&self, file: &str, term: &Term) -> bool {
        term.iter().any(|node| match node {
            Node::Word(word) if node.is_field() => &word[1..] == FAULT,
            Node::Word(word) => self.leads_to_refusal(file, word),
            Node::Parentheses(term) | Node::Braces(term) => self.mentions(file, term),
            Node::Closed(_) => false,
        })
    }

    /// What a row comes to.
    fn value(&self, row: &[Node], scope: &Scope) -> Value {
        if let Some((rest, scope)) = without_let(row, scope) {
            return self.value(rest, &scope);
        }
        match row {
            [Node::Parentheses(term)] => return self.value(term, scope),
            [Node::Closed(closure)] => return self.value(&closure.term, &closure.scope),
            _ => {}
        }
        if row.iter().any(|node| node.word() == ",") {
            let parts = row.split(|node| node.word() == ",");
            return Value::Tuple(parts.map(|part| scope.closure(part)).collect());
        }
        if row.is_empty() || row.iter().any(Node::is_operator) {
            return Value::Other;
        }
        if let Some(at) = row.iter().position(Node::is_field) {
            let (field, rest) = (&row[at].word()[1..], &row[at + 1..]);
            let fields = match self.value(&row[..at], scope) {
                Value::Record(fields) if rest.is_empty() => fields,
                // the number in a version or a key number
                Value::Argument(of) if field == "0" => return Value::Argument(of),
                _ => return Value::Other,
            };
            let found = fields.into_iter().find(|(name, _)| name == field);
            return found.map_or(Value::Other, |(_, c)| self.value(&c.term, &c.scope));
        }
        let (name, arguments) = (row[0].word(), &row[1..]);
        if let Some(argument) = name.strip_prefix('@') {
            return Value::Argument(argument.to_string());
        }
        if let (Ok(number), []) = (name.parse(), arguments) {
            return Value::Number(number);
        }
        match (name, arguments) {
            ("record", [Node::Braces(fields)]) => {
                let field = |field: &[Node]| {
                    let closure = scope.closure(field.get(2..).unwrap_or(&[]));
                    (field.first().map_or("", Node::word).to_string(), closure)
                };
                let fields = fields.split(|node| node.word() == ";");
                return Value::Record(fields.map(field).collect());
            }
            ("length" | "ones", [node]) => {
                return match self.value(slice::from_ref(node), scope) {
                    Value::Argument(of) if name == "ones" => Value::OnesOf(of),
                    Value::Argument(of) => Value::LengthOf(of),
                    _ => Value::Other,
                };
            }
            _ => {}
        }
        if let Some(closure) = scope.bound.get(name) {
            let mut row = closure.term.to_vec();
            row.extend(closed(arguments, scope));
            return self.value(&row, &closure.scope);
        }
        let (owner, clauses) = match self.find(&scope.file, name) {
            Some(found) => found,
            None => return Value::Other,
        };
        let one = |clause| match unfolded(owner, clause, arguments, scope) {
            Some((term, scope)) => self.value(&term, &scope),
            None => Value::Other,
        };
        match (&clauses[..], of_constructor(clauses, arguments, scope)) {
            ([clause], _) | (_, Some(clause)) => one(clause),
            (clauses, None) if arguments.len() == 1 => {
                Value::Cases(clauses.iter().map(one).collect())
            }
            _ => Value::Other,
        }
    }
}

impl Walk<'_> {
    /// Notes the tests of a row, in its order.
    fn row(&mut self, row: &[Node], scope: &Scope) {
        if let Some((rest, scope)) = without_let(row, scope) {
            return self.row(rest, &scope);
        }
        if row.first().map(Node::word) == Some("λ") {
            let (rest, scope) = applied(row, &[], scope);
            return self.row(rest, &scope);
        }
        for part in parts(row) {
            match part.iter().position(Node::is_field) {
                Some(at) => {
                    let value = self.definitions.value(&part[..at], scope);
                    self.field(value, part, at, scope);
                }
                None => self.application(part, scope),
            }
        }
    }

    /// Notes the tests of arguments, in their order.
    fn each<'b>(&mut self, arguments: impl IntoIterator<Item = &'b Node>, scope: &Scope) {
        for argument in arguments {
            let row = slice::from_ref(argument);
            if !self.definitions.value(row, scope).has_fault() {
                self.row(row, scope);
            }
        }
    }

    fn application(&mut self, part: &[Node], scope: &Scope) {
        let (head, arguments) = (&part[0], &part[1..]);
        let name = match head {
            Node::Word(name) => &name[..],
            Node::Closed(closure) => return self.closure(closure, closed(arguments, scope)),
            Node::Parentheses(term) | Node::Braces(term) => {
                self.row(term, scope);
                return self.each(arguments, scope);
            }
        };
        self.note(name, arguments, scope);
        if let Some(closure) = scope.bound.get(name) {
            return self.closure(closure, closed(arguments, scope));
        }
        match (name, arguments) {
            ("record", [Node::Braces(fields)]) => {
                for field in fields.split(|node| node.word() == ";") {
                    self.row(field.get(2..).unwrap_or(&[]), scope);
                }
            }
            ("choose", [test, this, that]) => self.each([test, that, this], scope),
            ("answer", [head, _, fault, _]) | ("records_call", [head, _, fault, _, _, _]) => {
                self.each([head], scope);
                let before = mem::replace(&mut self.in_records, true);
                self.each([fault], scope);
                self.in_records = before;
            }
            _ => self.definition(name, arguments, scope),
        }
    }

    fn closure(&mut self, Closure { term, scope }: &Closure, arguments: Vec<Node>) {
        if term.first().map(Node::word) == Some("λ") {
            let (rest, scope) = applied(term, &arguments, scope);
            return self.row(rest, &scope);
        }
        let mut row = term.to_vec();
        row.extend(arguments);
        self.row(&row, scope);
    }

    /// Unfolds a definition that leads to a refusal; of any other only the arguments can.
    fn definition(&mut self, name: &str, arguments: &[Node], scope: &Scope) {
        let definitions = self.definitions;
        let (owner, clauses) = match definitions.find(&scope.file, name) {
            Some(found) if definitions.leads_to_refusal(&scope.file, name) => found,
            _ => return self.each(arguments, scope),
        };
        if let Some(number) = refusal(owner, clauses) {
            return self.refusal(number);
        }
        if self.unfolding.iter().any(|unfolded| unfolded == name) {
            return self.each(arguments, scope);
        }
        self.unfolding.push(name.to_string());
        let clauses = match of_constructor(clauses, arguments, scope) {
            Some(clause) => slice::from_ref(clause),
            None => clauses,
        };
        for clause in clauses {
            match unfolded(owner, clause, arguments, scope) {
                Some((term, scope)) => self.row(&term, &scope),
                None => {
                    self.each(arguments, scope);
                    self.row(&clause.1, &Scope::of(owner));
                }
            }
        }
        self.unfolding.pop();
    }

    /// Notes the tests of a part with a field, which is that of the value before it.
    fn field(&mut self, value: Value, part: &[Node], at: usize, scope: &Scope) {
        let field = &part[at].word()[1..];
        let found = match value {
            Value::Cases(values) => {
                for value in values {
                    self.field(value, part, at, scope);
                }
                return;
            }
            Value::Record(fields) => fields.into_iter().find(|(name, _)| name == field),
            Value::Tuple(parts) => {
                let place: Option<usize> = field.parse().ok();
                let found = place.and_then(|place| parts.into_iter().nth(place));
                found.map(|closure| (field.to_string(), closure))
            }
            _ => None,
        };
        match found {
            Some((_, closure)) => {
                let mut row = vec![Node::Closed(closure)];
                row.extend(closed(&part[at + 1..], scope));
                self.row(&row, scope);
            }
            None => self.row(&part[..at], scope),
        }
    }

    fn refusal(&mut self, number: u64) {
        let Tests {
            refusals,
            of_records,
            ..
        } = &mut self.tests;
        if !refusals.contains(&number) && !of_records.contains(&number) {
            match self.in_records {
                true => of_records.push(number),
                false => refusals.push(number),
            }
        }
    }

    /// Notes what one of the tests of `Refusals` and `Lists` asks of an argument.
    fn note(&mut self, name: &str, arguments: &[Node], scope: &Scope) {
        use Value::{Argument, LengthOf, Number, OnesOf};
        let value = |i: usize| match arguments.get(i) {
            Some(node) => self.definitions.value(slice::from_ref(node), scope),
            None => Value::Other,
        };
        let (first, second, tests) = (value(0), value(1), &mut self.tests);
        match (name, first, second) {
            ("has_length", Number(bytes), Argument(of)) => drop(tests.lengths.insert(of, bytes)),
            ("length_tests", Number(bytes), LengthOf(of)) => tests.list = Some((of, bytes)),
            ("list_tests", _, Number(bytes)) => tests.written = Some(bytes),
            ("fits", Number(bits), Argument(of)) => drop(tests.bits.insert(of, bits.to_string())),
            ("fits", Argument(bits), Argument(of)) => drop(tests.bits.insert(of, bits)),
            ("leb", Number(least), Argument(of)) => drop(tests.least.insert(of, least)),
            ("leb", Argument(of), Number(most)) => drop(tests.greatest.insert(of, most)),
            ("eqb", OnesOf(of), Number(ones)) => drop(tests.ones.insert(of, ones)),
            _ => {}
        }
    }
}

/// The number of a refusal.
fn refusal(owner: &str, clauses: &Clauses) -> Option<u64> {
    match &clauses[..] {
        [(parameters, body)] if owner == "Refusals" && parameters.is_empty() => {
            body.first()?.word().parse().ok()
        }
        _ => None,
    }
}

/// What follows a `let`, with its name bound.
fn without_let<'a>(row: &'a [Node], scope: &Scope) -> Option<(&'a [Node], Scope)> {
    if row.first()?.word() != "let" {
        return None;
    }
    let sign = row.iter().position(|node| node.word() == "=")?;
    let mut open = 0;
    let end = row.iter().position(|node| {
        match node.word() {
            "let" => open += 1,
            "in" => open -= 1,
            _ => {}
        }
        open == 0
    })?;
    let closure = scope.closure(&row[sign + 1..end]);
    let mut scope = scope.clone();
    Rc::make_mut(&mut scope.bound).insert(row[1].word().to_string(), closure);
    Some((&row[end + 1..], scope))
}

/// Arguments with the names of where they stand.
fn closed(arguments: &[Node], scope: &Scope) -> Vec<Node> {
    let close = |node: &Node| match node {
        Node::Closed(_) => node.clone(),
        node => Node::Closed(scope.closure(slice::from_ref(node))),
    };
    arguments.iter().map(close).collect()
}

fn bind(scope: &mut Scope, names: &[Node], arguments: &[Node]) {
    for (place, name) in names.iter().enumerate() {
        let argument = match arguments.get(place) {
            Some(Node::Closed(closure)) => closure.clone(),
            _ => scope.closure(&[]),
        };
        let name = name.word().trim_end_matches('.').to_string();
        Rc::make_mut(&mut scope.bound).insert(name, argument);
    }
}

/// What stands after `λ x.`, with x bound to an argument, or to nothing.
fn applied<'a>(row: &'a [Node], arguments: &[Node], scope: &Scope) -> (&'a [Node], Scope) {
    let dot = row.iter().position(|node| node.word().ends_with('.'));
    let start = dot.map_or(row.len(), |dot| dot + 1);
    let mut scope = scope.clone();
    bind(&mut scope, &row[1..start], arguments);
    (&row[start..], scope)
}

/// An equation's right side with its parameters bound, if they are names or
/// constructors alone and all are there.
fn unfolded(
    owner: &str,
    (parameters, body): &(Vec<Node>, Term),
    arguments: &[Node],
    scope: &Scope,
) -> Option<(Term, Scope)> {
    let named = parameters
        .iter()
        .all(|node| matches!(node, Node::Word(word) if word != "[]"));
    if !named || arguments.len() < parameters.len() {
        return None;
    }
    let mut inner = Scope::of(owner);
    bind(&mut inner, parameters, &closed(arguments, scope));
    Some((body.clone(), inner))
}

/// The constructor that a node is, seen through the names that stand for it.
fn constructor(node: &Node, scope: &Scope) -> Option<String> {
    let closure = match node {
        Node::Word(word) => match scope.bound.get(word) {
            Some(closure) => closure.clone(),
            None => return word.starts_with(char::is_uppercase).then(|| word.clone()),
        },
        Node::Parentheses(term) => scope.closure(term),
        Node::Closed(closure) => closure.clone(),
        Node::Braces(_) => return None,
    };
    match &closure.term[..] {
        [node] => constructor(node, &closure.scope),
        _ => None,
    }
}

/// The equation for the constructor that the first argument is.
fn of_constructor<'a>(
    clauses: &'a Clauses,
    arguments: &[Node],
    scope: &Scope,
) -> Option<&'a (Vec<Node>, Term)> {
    let name = constructor(arguments.first()?, scope)?;
    let is_its = |(parameters, _): &&(Vec<Node>, Term)| {
        parameters.first().map(Node::word) == Some(name.as_str())
    };
    clauses.iter().find(is_its)
}

#[cfg(test)]
mod tests {
    use super::*;

    const REFUSALS: &str = "\
-- the numbers
abbrev pub wrong_length : ℕ
wrong_length = 11

abbrev pub too_long : ℕ
too_long = 1

abbrev pub not_whole : ℕ
not_whole = 2

abbrev pub output_short : ℕ
output_short = 12

abbrev pub wrong_kind : ℕ
wrong_kind = 3

abbrev pub not_zero : ℕ
not_zero = 4

abbrev pub has_length : ℕ → List ℕ → Bool
has_length n xs = eqb (length xs) n

abbrev pub fits : ℕ → ℕ → Bool
fits w v = ltb v (2 ^ w)

abbrev pub first : List (Bool × ℕ) → ℕ
first [] = 0
first (t ∷ ts) = choose t.0 (first ts) t.1

abbrev pub answer8 : ℕ → List ℕ → Bytes8
answer8 r b = record { refusal = r; bytes = choose (eqb r 0) b (zeros 8) }
";

    const BOOKS: &str = "\
use Rattle.standard.specs.Refusals.{wrong_length, too_long, not_whole, output_short, wrong_kind, not_zero, has_length, fits, first, answer8}

abbrev pub size : ℕ
size = 18

abbrev pub length_tests : (w size : ℕ) → List (Bool × ℕ)
length_tests w size = (leb size (w * 1024), too_long) ∷ (eqb (size % w) 0, not_whole) ∷ []

abbrev pub list_tests : (w v size room : ℕ) → List (Bool × ℕ)
list_tests w v size room = length_tests w size ++ (leb (v * (size / w)) room, output_short) ∷ []

-- a form whose fault counts only if it is asked for
abbrev pub form1 : Form
form1 = record {
  input = λ b. 0 ∷ b;
  fault = λ b. first ((eqb (b ! 10) 0, not_zero) ∷ []);
}

abbrev pub form_of : Algorithm → Form
form_of One = form1
form_of Two = form1

abbrev pub fault : List ℕ → ℕ
fault p = choose (is_known p) ((form_of p.kind).fault p) wrong_kind

abbrev pub book_call : Way → List ℕ → List ℕ → List ℕ → Answer
book_call W r xs out =
    let n = length xs / W.size in
    let head = first ((has_length 52 r, wrong_length) ∷ list_tests W.size 21 (length xs) (length out)) in
    let g : ℕ → ℕ = λ i. W.fault (record_at W.size xs i) in
    counted (answer head n g (21 * n)) (runs head n g)

unfoldable pub seal_book : List ℕ → List ℕ → List ℕ → Answer
seal_book r p out = book_call (record { size = size; fault = fault }) r p out

unfoldable pub single_call : List ℕ → ℕ → ℕ → Bytes8
single_call k n w =
    answer8 (first ((has_length 16 k, wrong_length) ∷ (fits w n, too_long) ∷ (leb 1 w && leb w 3, not_zero) ∷ [])) (seal form1 k)
";

    const ENGINE: &str = "ghost use Rattle.standard.specs.Books.{seal_book, single_call};\n";

    fn tests(term: &str, arguments: &[&str]) -> Tests {
        let sources = [("Refusals", REFUSALS), ("Books", BOOKS), ("engine", ENGINE)];
        let arguments: Vec<(&str, &str)> = arguments.iter().map(|name| (*name, *name)).collect();
        Definitions::read(sources.into_iter()).tests("engine", term, &arguments)
    }

    fn said<T>(name: &str, value: T) -> HashMap<String, T> {
        HashMap::from([(name.to_string(), value)])
    }

    #[test]
    fn a_single_call() {
        let wanted = Tests {
            refusals: vec![11, 1, 4],
            lengths: said("key", 16),
            bits: said("number", "width".to_string()),
            least: said("width", 1),
            greatest: said("width", 3),
            ..Tests::default()
        };
        let arguments = ["key", "number", "width"];
        assert_eq!(tests("single_call key number width", &arguments), wanted);
    }

    /// The list's refusals come first, then those of a record, the kind before the body.
    #[test]
    fn a_call_on_a_list() {
        let wanted = Tests {
            refusals: vec![11, 1, 2, 12],
            of_records: vec![3, 4],
            lengths: said("ring", 52),
            list: Some(("plain".to_string(), 18)),
            written: Some(21),
            ..Tests::default()
        };
        let arguments = ["ring", "plain", "out"];
        assert_eq!(tests("seal_book ring plain out", &arguments), wanted);
    }

    #[test]
    fn what_is_not_known_tests_nothing() {
        assert_eq!(tests("other key", &["key"]), Tests::default());
    }
}
