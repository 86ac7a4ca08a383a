//! The cases that crates/cases proves of the definitions, read from its texts: what is called, and what it leaves. So
//! compiled programs can be tried on the very files of the proved equations, and samples/ can hold them.
//!
//! A text has one declaration from each line that isn't indented. Read are definitions of one clause with plain
//! parameters, and the fields of records; a field `NAME : CALL ≡ RESULT` is a case. Functions by several clauses, and
//! those of the toolchain's library, stand in [`Value::complete`].

use std::collections::BTreeMap;
use std::rc::Rc;

const WRITTEN: &str = include_str!("../../../crates/cases/specs/Written.antt");
const SAMPLES: &str = include_str!("../../../crates/cases/specs/Samples.antt");
const FURTHER: &str = include_str!("../../../crates/cases/specs/Further.antt");
const FURTHER_RUNS: &str = include_str!("../../../crates/cases/specs/FurtherRuns.antt");
const CLEARING: &str = include_str!("../../../crates/cases/specs/Clearing.antt");
const TRIED: &str = include_str!("../../../crates/cases/specs/Tried.antt");

/// A call, with the memory lent to it.
#[derive(Clone, PartialEq, Eq, Debug)]
pub enum Call {
    Judge { file: Vec<u8>, report: Vec<u8>, witness: Vec<u8> },
    Play { domain: Vec<u8>, run: Vec<u8>, work: Vec<u8> },
    Try { file: Vec<u8>, memory: Vec<u8> },
}

/// All that a call answers and leaves.
#[derive(Clone, PartialEq, Eq, Debug)]
pub enum Left {
    Judged { number: u64, places: [u64; 3], report: Vec<u8>, witness: Vec<u8> },
    Played { number: u64, places: [u64; 3], steps: u64, weight: u64, work: Vec<u8>, part: Part },
    Tried { number: u64, first: u64, memory: Vec<u8> },
}

/// The part that comes back: of which file, from which offset, and its bytes.
#[derive(Clone, PartialEq, Eq, Debug)]
pub struct Part {
    pub of_domain: bool,
    pub at: u64,
    pub bytes: Vec<u8>,
}

/// A proved equation about a call.
#[derive(Clone, Debug)]
pub struct Case {
    /// The record it is a field of: `Names`, `Steps`.
    pub group: String,
    pub name: String,
    pub call: Call,
    pub left: Left,
}

/// The equations, and how many fields speak of something else than a call.
pub struct Cases {
    pub cases: Vec<Case>,
    pub others: Vec<String>,
    /// The files that the texts name, as `lamps`.
    files: BTreeMap<String, Vec<u8>>,
}

impl Cases {
    /// All of them, in the order of the texts. Panics where a text has another form: the texts are ours.
    pub fn read() -> Cases {
        let mut all = Cases { cases: Vec::new(), others: Vec::new(), files: BTreeMap::new() };
        let mut shared = Definitions::default();
        shared.add(WRITTEN);
        shared.add(SAMPLES);
        for text in [SAMPLES, FURTHER, FURTHER_RUNS, CLEARING, TRIED] {
            let mut own = shared.clone();
            own.add(text);
            all.add(&Rc::new(own), text);
        }
        all
    }

    fn add(&mut self, definitions: &Rc<Definitions>, text: &str) {
        for (name, definition) in &definitions.0 {
            if definition.parameters.is_empty() {
                if let Some(Value::Bytes(bytes)) = evaluate(&definition.body, &Scope::of(definitions)) {
                    self.files.insert(name.clone(), bytes);
                }
            }
        }
        for (group, name, equation) in fields(text) {
            let Some((call, left)) = equation.split_once('≡') else { continue };
            let value = |text: &str| evaluate(&Parser::all(text), &Scope::of(definitions));
            match (value(call).and_then(Value::call), value(left)) {
                (Some(call), Some(left)) => self.cases.push(Case { left: left.left(), group, name, call }),
                _ => self.others.push(name),
            }
        }
    }

    /// The case of this name in this group.
    pub fn case(&self, group: &str, name: &str) -> &Case {
        let found = self.cases.iter().find(|case| case.group == group && case.name == name);
        found.unwrap_or_else(|| panic!("{group} has no case {name}"))
    }

    /// The file of this name.
    pub fn file(&self, name: &str) -> &[u8] {
        self.files.get(name).unwrap_or_else(|| panic!("there is no file {name}"))
    }
}

// ---- texts

/// The declarations of a text: each line that isn't indented, with the indented ones behind it. Comments are left out.
fn declarations(text: &str) -> Vec<String> {
    let mut found: Vec<String> = Vec::new();
    for line in text.lines().filter(|line| !line.trim_start().starts_with("--") && !line.is_empty()) {
        match found.last_mut() {
            Some(last) if line.starts_with(' ') => *last += &format!("\n{line}"),
            _ => found.push(line.to_string()),
        }
    }
    found
}

/// The fields of the records: group, name, type.
fn fields(text: &str) -> Vec<(String, String, String)> {
    let mut found = Vec::new();
    for declaration in declarations(text) {
        let Some(record) = declaration.strip_prefix("pub record ") else { continue };
        let group = record.split(' ').next().unwrap_or_default();
        for field in record.split("\n  pub ").skip(1) {
            let (name, of) = field.split_once(" : ").expect("a field has a type");
            found.push((group.to_string(), name.to_string(), of.to_string()));
        }
    }
    found
}

#[derive(Clone)]
struct Definition {
    parameters: Vec<String>,
    body: Rc<Expression>,
}

#[derive(Clone, Default)]
struct Definitions(BTreeMap<String, Definition>);

impl Definitions {
    /// The definitions of a text whose only clause has plain parameters.
    fn add(&mut self, text: &str) {
        for declaration in declarations(text) {
            let Some((head, body)) = declaration.split_once('=') else { continue };
            let words: Vec<&str> = head.split_whitespace().collect();
            let is_name = |word: &str| word.chars().all(|c| c.is_alphanumeric() || c == '_');
            let is_plain = |word: &&str| is_name(word) && !["zero", "suc"].contains(word);
            let is_proof = body.trim_start().starts_with("record") && words.len() == 1;
            if words.is_empty() || head.contains(':') || is_proof || !words.iter().all(is_plain) {
                continue;
            }
            let parameters = words[1..].iter().map(|word| word.to_string()).collect();
            self.0.insert(words[0].to_string(), Definition { parameters, body: Parser::all(body) });
        }
    }
}

// ---- expressions

#[derive(Debug)]
enum Expression {
    Number(u64),
    Name(String),
    Apply(Rc<Expression>, Rc<Expression>),
    /// `++`, `∷` or `-`.
    Join(char, Rc<Expression>, Rc<Expression>),
    Lambda(String, Rc<Expression>),
    Record(Vec<(String, Rc<Expression>)>),
}

/// The words of an expression; brackets, `;` and the dot of a λ stand alone.
fn words(text: &str) -> Vec<String> {
    let mut spaced = String::new();
    for c in text.chars() {
        match c {
            '(' | ')' | '{' | '}' | ';' | '.' | 'λ' => spaced += &format!(" {c} "),
            _ => spaced.push(c),
        }
    }
    spaced.split_whitespace().map(String::from).collect()
}

struct Parser {
    words: Vec<String>,
    at: usize,
}

impl Parser {
    fn all(text: &str) -> Rc<Expression> {
        let mut parser = Parser { words: words(text), at: 0 };
        let expression = parser.joined();
        assert_eq!(parser.at, parser.words.len(), "{text}");
        expression
    }

    fn next(&mut self) -> Option<&str> {
        self.words.get(self.at).map(String::as_str)
    }

    fn take(&mut self, word: &str) -> bool {
        let found = self.next() == Some(word);
        self.at += found as usize;
        found
    }

    fn name(&mut self) -> String {
        self.at += 1;
        self.words[self.at - 1].clone()
    }

    /// `a ++ b`, `a ∷ b`, to the right; and `a - b`.
    fn joined(&mut self) -> Rc<Expression> {
        let first = self.applied();
        for (word, sign) in [("++", '+'), ("∷", ':'), ("-", '-')] {
            if self.take(word) {
                return Rc::new(Expression::Join(sign, first, self.joined()));
            }
        }
        first
    }

    fn applied(&mut self) -> Rc<Expression> {
        let mut expression = self.single().unwrap_or_else(|| panic!("{:?} at {}", self.words, self.at));
        while let Some(argument) = self.single() {
            expression = Rc::new(Expression::Apply(expression, argument));
        }
        expression
    }

    fn single(&mut self) -> Option<Rc<Expression>> {
        if self.take("(") {
            let expression = self.joined();
            assert!(self.take(")"), "{:?} at {}", self.words, self.at);
            return Some(expression);
        }
        if self.take("λ") {
            let parameter = self.name();
            assert!(self.take("."), "{:?} at {}", self.words, self.at);
            return Some(Rc::new(Expression::Lambda(parameter, self.joined())));
        }
        if self.take("record") {
            return Some(self.record());
        }
        let word = self.next().filter(|word| ![")", "}", ";", "{", "++", "∷", "-"].contains(word))?.to_string();
        self.at += 1;
        let number = word.strip_prefix("0x").map_or(word.parse().ok(), |hex| u64::from_str_radix(hex, 16).ok());
        Some(Rc::new(number.map_or(Expression::Name(word), Expression::Number)))
    }

    fn record(&mut self) -> Rc<Expression> {
        assert!(self.take("{"), "{:?} at {}", self.words, self.at);
        let mut fields = Vec::new();
        while !self.take("}") {
            let name = self.name();
            assert!(self.take("="), "{:?} at {}", self.words, self.at);
            fields.push((name, self.joined()));
            self.take(";");
        }
        Rc::new(Expression::Record(fields))
    }
}

// ---- values

#[derive(Clone)]
enum Value {
    Number(u64),
    Bytes(Vec<u8>),
    Call(Box<Call>),
    Record(BTreeMap<String, Value>),
    /// A function, or a constructor, with its arguments so far.
    Partial(String, Vec<Value>),
    Lambda(String, Rc<Expression>, Scope),
}

/// What the names stand for: definitions, and the parameters of the function that is evaluated.
#[derive(Clone)]
struct Scope {
    definitions: Rc<Definitions>,
    locals: BTreeMap<String, Value>,
}

impl Scope {
    fn of(definitions: &Rc<Definitions>) -> Scope {
        Scope { definitions: definitions.clone(), locals: BTreeMap::new() }
    }

    fn with(&self, parameter: &str, value: Value) -> Scope {
        let mut scope = self.clone();
        scope.locals.insert(parameter.to_string(), value);
        scope
    }
}

/// None where a name is unknown: the field then speaks of something else than a call.
fn evaluate(expression: &Expression, scope: &Scope) -> Option<Value> {
    match expression {
        Expression::Number(number) => Some(Value::Number(*number)),
        Expression::Name(name) => match scope.locals.get(name) {
            Some(value) => Some(value.clone()),
            None => Value::Partial(name.clone(), Vec::new()).complete(scope),
        },
        Expression::Apply(function, argument) => evaluate(function, scope)?.apply(evaluate(argument, scope)?, scope),
        Expression::Join(sign, left, right) => {
            let (left, right) = (evaluate(left, scope)?, evaluate(right, scope)?);
            Some(match sign {
                '-' => Value::Number(left.number().saturating_sub(right.number())),
                ':' => Value::Bytes([&[left.byte()], &right.bytes()[..]].concat()),
                _ => Value::Bytes([left.bytes(), right.bytes()].concat()),
            })
        }
        Expression::Lambda(parameter, body) => Some(Value::Lambda(parameter.clone(), body.clone(), scope.clone())),
        Expression::Record(fields) => {
            let fields = fields.iter().map(|(name, value)| Some((name.clone(), evaluate(value, scope)?)));
            Some(Value::Record(fields.collect::<Option<_>>()?))
        }
    }
}

impl Value {
    fn apply(self, argument: Value, scope: &Scope) -> Option<Value> {
        match self {
            Value::Partial(name, mut arguments) => {
                arguments.push(argument);
                Value::Partial(name, arguments).complete(scope)
            }
            Value::Lambda(parameter, body, scope) => evaluate(&body, &scope.with(&parameter, argument)),
            _ => panic!("no function"),
        }
    }

    /// The value of a function that has all its arguments; a function that has not stays as it is.
    fn complete(self, scope: &Scope) -> Option<Value> {
        let Value::Partial(name, arguments) = &self else { return Some(self) };
        let bytes = |at: usize| arguments[at].bytes();
        let value = match (name.as_str(), arguments.len()) {
            ("[]", 0) => Value::Bytes(Vec::new()),
            ("length", 1) => Value::Number(bytes(0).len() as u64),
            ("replicate", 2) => Value::Bytes(vec![arguments[1].byte(); arguments[0].number() as usize]),
            ("over", 2) => Value::Bytes([&bytes(0), &bytes(1)[bytes(0).len()..]].concat()),
            ("zeroed", 2) => {
                let mut zeroed = bytes(1);
                zeroed.resize(arguments[0].number() as usize, 0);
                Value::Bytes(zeroed)
            }
            ("held", 1) => {
                let (relation, objects) = (bytes(0)[0], &bytes(0)[1..]);
                let mut held = [&[relation, objects.len() as u8], objects].concat();
                held.resize(8, 0xFF);
                Value::Bytes(held)
            }
            ("each", 2) => {
                let rows = (0..arguments[0].number()).map(|row| arguments[1].clone().apply(Value::Number(row), scope));
                let rows: Vec<Value> = rows.collect::<Option<_>>()?;
                Value::Bytes(rows.iter().flat_map(Value::bytes).collect())
            }
            ("judging", 3) => {
                Value::Call(Box::new(Call::Judge { file: bytes(0), report: bytes(1), witness: bytes(2) }))
            }
            ("playing", 3) => Value::Call(Box::new(Call::Play { domain: bytes(0), run: bytes(1), work: bytes(2) })),
            ("tried_file" | "tried_after", 2) => Value::Call(Box::new(Call::Try { file: bytes(0), memory: bytes(1) })),
            ("answer_at", 2) => {
                let fields = [("number", &arguments[0]), ("first", &arguments[1])];
                Value::Record(fields.map(|(name, value)| (name.to_string(), value.clone())).into())
            }
            ("length" | "held" | "of_run" | "of_domain", 0) | ("of_run" | "of_domain", 1) => self,
            ("replicate" | "over" | "zeroed" | "each", 0 | 1) | ("judging" | "playing", 0..=2) => self,
            ("tried_file" | "tried_after" | "answer_at", 0 | 1) => self,
            _ => {
                let definition = scope.definitions.0.get(name)?;
                if arguments.len() < definition.parameters.len() {
                    return Some(self);
                }
                let mut own = Scope::of(&scope.definitions);
                for (parameter, argument) in definition.parameters.iter().zip(arguments) {
                    own = own.with(parameter, argument.clone());
                }
                let mut value = evaluate(&definition.body, &own)?;
                for argument in &arguments[definition.parameters.len()..] {
                    value = value.apply(argument.clone(), scope)?;
                }
                value
            }
        };
        Some(value)
    }

    /// The call that a value is about. `try` is a record: what a call answers, and the memory that the same call leaves.
    fn call(self) -> Option<Call> {
        match self {
            Value::Call(call) if !matches!(*call, Call::Try { .. }) => Some(*call),
            Value::Record(fields) => match (fields.get("answer")?, fields.get("memory")?) {
                (Value::Call(call), Value::Call(same)) if call == same => Some(*call.clone()),
                _ => None,
            },
            _ => None,
        }
    }

    fn number(&self) -> u64 {
        match self {
            Value::Number(number) => *number,
            _ => panic!("no number"),
        }
    }

    fn byte(&self) -> u8 {
        self.number().try_into().expect("a byte")
    }

    fn bytes(&self) -> Vec<u8> {
        match self {
            Value::Bytes(bytes) => bytes.clone(),
            _ => panic!("no bytes"),
        }
    }

    fn field(&self, name: &str) -> &Value {
        match self {
            Value::Record(fields) => &fields[name],
            _ => panic!("no record"),
        }
    }

    /// What the records of a result, `AfterJudging`, `AfterPlaying` and `Tried`, say.
    fn left(&self) -> Left {
        let Value::Record(answer) = self.field("answer") else { panic!("no record") };
        // Playing answers the first place alone: the others are always 0.
        let place = |name| answer.get(name).map_or(0, Value::number);
        let (number, places) = (answer["number"].number(), ["first", "second", "third"].map(place));
        let Value::Record(fields) = self else { panic!("no record") };
        if fields.contains_key("report") {
            let (report, witness) = (self.field("report").bytes(), self.field("witness").bytes());
            return Left::Judged { number, places, report, witness };
        }
        if !fields.contains_key("part") {
            return Left::Tried { number, first: places[0], memory: self.field("memory").bytes() };
        }
        let Value::Partial(file, at) = self.field("part") else { panic!("no part") };
        let part = Part { of_domain: file == "of_domain", at: at[0].number(), bytes: self.field("bytes").bytes() };
        Left::Played {
            number,
            places,
            steps: answer["steps"].number(),
            weight: answer["weight"].number(),
            work: self.field("memory").bytes(),
            part,
        }
    }
}

#[cfg(test)]
mod tests {
    use super::*;

    /// Every field of the texts is a case, but for those that speak of a definition alone.
    #[test]
    fn every_case_is_read() {
        let all = Cases::read();
        let count = |group| all.cases.iter().filter(|case| case.group == group).count();
        let groups = ["Samples", "Names", "Room", "Refusals", "Refused", "Steps", "RunFiles", "Parts", "TriedCases"];
        assert_eq!(groups.map(count), [12, 62, 12, 74, 30, 76, 54, 7, 16]);
        let limits = ["facts_1024", "facts_1025", "start_1024", "start_1025", "start_repeated", "start_outside"]
            .map(String::from);
        let others = [
            "m1_is_listed",
            "roles",
            "lamps_accepted",
            "jobs_accepted",
            "moves_refused",
            "fillings_refused",
            "counted_refused",
        ]
        .map(String::from);
        let over_objects = ["one_each", "no_object", "apart", "together"].map(String::from);
        // half of what a call leaves, each
        let of_trying = ["short_tried", "short_untouched"].map(String::from);
        assert_eq!(all.others, [&others[..], &limits, &over_objects, &of_trying].concat());
    }

    /// M1 is the paper's, on its bytes.
    #[test]
    fn m1_is_listed() {
        let all = Cases::read();
        assert_eq!(all.file("m1"), all.file("m1_bytes"));
        assert_eq!(all.file("m1"), include_bytes!("../../../crates/list_samples/data/m1"));
    }

    /// A case written out by hand.
    #[test]
    fn a_case_in_bytes() {
        let case = Cases::read().case("Refusals", "payload_cut").clone();
        let file = vec![1, 0, 1, 0, 1, 1, 0, 1, 0];
        assert_eq!(case.call, Call::Judge { file, report: vec![9; 24], witness: vec![9; 24] });
        let left = Left::Judged { number: 10, places: [5, 0, 0], report: vec![9; 24], witness: vec![9; 24] };
        assert_eq!(case.left, left);
    }
}
