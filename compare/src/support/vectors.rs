//! Reading the vector files: one flat JSON object a line.

use std::collections::HashMap;
use std::fs;
use std::path::{Path, PathBuf};

use super::byte_states::packed;
use super::cases::Call;
use super::{hex, questions, tried};
use crate::held::Held;
use crate::instant::admitted;
use crate::{table, Closed, Known, Refusal};

pub struct ListingVector {
    pub table: Vec<u8>,
    pub listing: String,
}

pub struct InstantVector {
    pub call: Call,
    pub table: Vec<u8>,
    pub answers: Vec<u8>,
    pub state: Vec<u8>,
    pub outcome: Result<VectorClosed, Refusal>,
}

/// The call and what is lent to it: table, answers, state.
pub type Lent = (Call, Vec<u8>, Vec<u8>, Vec<u8>);

impl InstantVector {
    pub fn lent(&self) -> Lent {
        let (table, answers) = (self.table.clone(), self.answers.clone());
        (self.call, table, answers, self.state.clone())
    }

    /// A case from before F-11 as one of today: its states packed.
    pub fn packed(self) -> InstantVector {
        let nodes = self.nodes();
        let outcome = self.outcome.map(|closed| VectorClosed {
            after: packed(nodes, &closed.after),
            ..closed
        });
        InstantVector {
            state: packed(nodes, &self.state),
            outcome,
            ..self
        }
    }

    /// Whether a case from before F-11 was refused by 12 for a byte above 1 at a pause alone:
    /// packed, its state is admitted.
    pub fn loses_its_refusal(&self) -> bool {
        let by_12 = matches!(self.outcome, Err(Refusal { number: 12, .. }));
        let held = || Held::read(&packed(self.nodes(), &self.state));
        by_12 && table::read(&self.table).is_ok_and(|tree| admitted(&tree, &held()))
    }

    pub fn nodes(&self) -> usize {
        self.table.len() / 2
    }
}

/// What a vector says of an instant that closes.
pub struct VectorClosed {
    pub closed: Closed,
    pub after: Vec<u8>,
    pub emits: Vec<u8>,
}

pub struct TextVector {
    pub text: Vec<u8>,
    /// The table's bytes and the number of signals.
    pub outcome: Result<(Vec<u8>, usize), Refusal>,
}

/// A table and what a program prints for it.
pub struct LineVector {
    pub table: Vec<u8>,
    pub line: String,
}

/// A call on a file of blocks.
pub struct BlockVector {
    pub file: Vec<u8>,
    pub program: u16,
    pub outcome: BlockOutcome,
}

pub enum BlockOutcome {
    Table(Result<Vec<u8>, Refusal>),
    /// What is asked for, and what is got.
    Part {
        edition: u16,
        part: u8,
        content: Vec<u8>,
    },
}

pub struct TiedVector {
    pub table: Vec<u8>,
    pub ties: Vec<u8>,
    /// The narrowed start sets.
    pub outcome: Result<Vec<u64>, Refusal>,
}

pub struct QuestionVector {
    pub case: questions::Case,
    pub outcome: Result<Known, Refusal>,
}

pub struct TriedVector {
    pub case: tried::Case,
    /// The start set; the number of presents is not told.
    pub outcome: Result<u64, Refusal>,
}

/// A run from the fresh start.
pub struct RunVector {
    pub table: Vec<u8>,
    pub marks: Vec<u8>,
    /// The answers of each instant.
    pub steps: Vec<Vec<u8>>,
    /// The nodes that are entered twice in each.
    pub twice: Vec<Vec<usize>>,
}

/// Where the vector files are: BAVZHRONO_VECTORS, else beside the repository.
pub fn directory() -> PathBuf {
    match std::env::var_os("BAVZHRONO_VECTORS") {
        Some(directory) => PathBuf::from(directory),
        None => Path::new(env!("CARGO_MANIFEST_DIR")).join("../../shared/vectors"),
    }
}

pub fn read_listings(file: &Path) -> Vec<ListingVector> {
    read_objects(file)
        .iter()
        .map(|object| ListingVector {
            table: bytes(object, "table"),
            listing: text(object, "listing").to_string(),
        })
        .collect()
}

/// Without `packed`, the states are as the file has them.
pub fn read_instants(file: &Path) -> Vec<InstantVector> {
    read_objects(file)
        .iter()
        .map(|object| InstantVector {
            call: match text(object, "call") {
                "start" => Call::Start,
                "resume" => Call::Resume,
                other => panic!("unknown call {other}"),
            },
            table: bytes(object, "table"),
            answers: bytes(object, "answers"),
            state: bytes(object, "state"),
            outcome: or_refusal(object, closed),
        })
        .collect()
}

pub fn read_texts(file: &Path) -> Vec<TextVector> {
    read_objects(file)
        .iter()
        .map(|object| TextVector {
            text: bytes(object, "text"),
            outcome: or_refusal(object, table_and_signals),
        })
        .collect()
}

pub fn read_lines(file: &Path) -> Vec<LineVector> {
    read_objects(file)
        .iter()
        .map(|object| LineVector {
            table: bytes(object, "table"),
            line: text(object, "line").to_string(),
        })
        .collect()
}

pub fn read_blocks(file: &Path) -> Vec<BlockVector> {
    read_objects(file)
        .iter()
        .map(|object| BlockVector {
            file: bytes(object, "file"),
            program: number(object, "program") as u16,
            outcome: match object.contains_key("part") {
                true => BlockOutcome::Part {
                    edition: number(object, "edition") as u16,
                    part: number(object, "part") as u8,
                    content: bytes(object, "content"),
                },
                false => BlockOutcome::Table(or_refusal(object, |object| bytes(object, "table"))),
            },
        })
        .collect()
}

pub fn read_runs(file: &Path) -> Vec<RunVector> {
    read_objects(file)
        .iter()
        .map(|object| RunVector {
            table: bytes(object, "table"),
            marks: bytes(object, "marks"),
            steps: list(object, "steps")
                .iter()
                .map(|answers| hex::decode(answers.text()))
                .collect(),
            twice: list(object, "twice").iter().map(nodes).collect(),
        })
        .collect()
}

pub fn read_ties(file: &Path) -> Vec<TiedVector> {
    read_objects(file)
        .iter()
        .map(|object| TiedVector {
            table: bytes(object, "table"),
            ties: bytes(object, "ties"),
            outcome: or_refusal(object, sets),
        })
        .collect()
}

/// The node of a case is the one asked about; that of a refusal is "at".
pub fn read_questions(file: &Path) -> Vec<QuestionVector> {
    read_objects(file)
        .iter()
        .map(|object| QuestionVector {
            case: questions::Case {
                table: bytes(object, "table"),
                node: number(object, "node"),
                code: number(object, "code"),
            },
            outcome: or_refusal_at("at", object, known),
        })
        .collect()
}

fn known(object: &Object) -> Known {
    Known {
        is_in: match number(object, "answer") {
            0 => false,
            1 => true,
            other => panic!("this should be 0 or 1: {other}"),
        },
        count: number(object, "count") as usize,
    }
}

/// The node of a case is the one that is tried; that of a refusal is "at".
pub fn read_tried(file: &Path) -> Vec<TriedVector> {
    read_objects(file)
        .iter()
        .map(|object| TriedVector {
            case: tried::Case {
                table: bytes(object, "table"),
                node: number(object, "node"),
            },
            outcome: or_refusal_at("at", object, |object| set(value(object, "set"))),
        })
        .collect()
}

fn sets(object: &Object) -> Vec<u64> {
    list(object, "sets").iter().map(set).collect()
}

fn set(value: &Value) -> u64 {
    u64::from_str_radix(value.text(), 16).expect("a hexadecimal set")
}

fn nodes(list: &Value) -> Vec<usize> {
    let nodes = list.list().iter();
    nodes.map(|node| node.number() as usize).collect()
}

/// Signals are numbered from 0, so that the highest one tells how many there are.
fn table_and_signals(object: &Object) -> (Vec<u8>, usize) {
    let table = bytes(object, "table");
    let named = table
        .chunks_exact(2)
        .filter(|node| [3, 5, 6, 7].contains(&node[0]));
    let highest = named.map(|node| usize::from(node[1])).max();
    (table, highest.map_or(0, |signal| signal + 1))
}

fn closed(object: &Object) -> VectorClosed {
    VectorClosed {
        closed: Closed {
            code: number(object, "code") as u32,
            taken: number(object, "taken") as usize,
            entries: number(object, "entries") as usize,
        },
        after: bytes(object, "after"),
        emits: list(object, "emits")
            .iter()
            .map(|signal| signal.number() as u8)
            .collect(),
    }
}

fn or_refusal<T>(object: &Object, outcome: impl FnOnce(&Object) -> T) -> Result<T, Refusal> {
    or_refusal_at("node", object, outcome)
}

/// The outcome, or the refusal with its node under this key.
fn or_refusal_at<T>(
    node: &str,
    object: &Object,
    outcome: impl FnOnce(&Object) -> T,
) -> Result<T, Refusal> {
    if !object.contains_key("refused") {
        return Ok(outcome(object));
    }
    Err(Refusal {
        number: number(object, "refused") as u32,
        node: number(object, node) as usize,
    })
}

type Object = HashMap<String, Value>;

#[derive(Debug)]
enum Value {
    Text(String),
    Number(u64),
    List(Vec<Value>),
}

impl Value {
    fn text(&self) -> &str {
        match self {
            Value::Text(text) => text,
            other => panic!("this should be a text: {other:?}"),
        }
    }

    fn number(&self) -> u64 {
        match self {
            Value::Number(number) => *number,
            other => panic!("this should be a number: {other:?}"),
        }
    }

    fn list(&self) -> &[Value] {
        match self {
            Value::List(list) => list,
            other => panic!("this should be a list: {other:?}"),
        }
    }
}

fn value<'a>(object: &'a Object, key: &str) -> &'a Value {
    object
        .get(key)
        .unwrap_or_else(|| panic!("there is no {key}: {object:?}"))
}

fn text<'a>(object: &'a Object, key: &str) -> &'a str {
    value(object, key).text()
}

fn bytes(object: &Object, key: &str) -> Vec<u8> {
    hex::decode(text(object, key))
}

fn number(object: &Object, key: &str) -> u64 {
    value(object, key).number()
}

fn list<'a>(object: &'a Object, key: &str) -> &'a [Value] {
    value(object, key).list()
}

fn read_objects(file: &Path) -> Vec<Object> {
    let content = fs::read_to_string(file)
        .unwrap_or_else(|error| panic!("cannot read {}: {error}", file.display()));
    content
        .lines()
        .map(|line| Reader { rest: line }.object())
        .collect()
}

/// Reads the small part of JSON that the files use, and panics at any other.
struct Reader<'a> {
    rest: &'a str,
}

impl Reader<'_> {
    fn object(&mut self) -> Object {
        let mut object = Object::new();
        self.expect('{');
        loop {
            let key = self.text();
            self.expect(':');
            let value = self.value();
            object.insert(key, value);
            if !self.accept(',') {
                break;
            }
        }
        self.expect('}');
        assert!(self.rest.trim().is_empty(), "left over: {}", self.rest);
        object
    }

    fn value(&mut self) -> Value {
        match self.peek() {
            Some('"') => Value::Text(self.text()),
            Some('[') => Value::List(self.list()),
            _ => Value::Number(self.number()),
        }
    }

    fn list(&mut self) -> Vec<Value> {
        let mut list = Vec::new();
        self.expect('[');
        if self.accept(']') {
            return list;
        }
        loop {
            list.push(self.value());
            if !self.accept(',') {
                break;
            }
        }
        self.expect(']');
        list
    }

    fn number(&mut self) -> u64 {
        self.peek();
        let end = self
            .rest
            .find(|c: char| !c.is_ascii_digit())
            .unwrap_or(self.rest.len());
        let (digits, rest) = self.rest.split_at(end);
        self.rest = rest;
        digits.parse().expect("a number")
    }

    fn text(&mut self) -> String {
        self.expect('"');
        let mut text = String::new();
        let mut letters = self.rest.char_indices();
        while let Some((at, letter)) = letters.next() {
            match letter {
                '"' => {
                    self.rest = &self.rest[at + 1..];
                    return text;
                }
                '\\' => match letters.next() {
                    Some((_, 'n')) => text.push('\n'),
                    Some((_, letter @ ('"' | '\\' | '/'))) => text.push(letter),
                    other => panic!("unknown escape {other:?}"),
                },
                letter => text.push(letter),
            }
        }
        panic!("a text without an end");
    }

    /// The next character that is not a blank.
    fn peek(&mut self) -> Option<char> {
        self.rest = self.rest.trim_start();
        self.rest.chars().next()
    }

    fn accept(&mut self, wanted: char) -> bool {
        let found = self.peek() == Some(wanted);
        if found {
            self.rest = &self.rest[wanted.len_utf8()..];
        }
        found
    }

    fn expect(&mut self, wanted: char) {
        assert!(self.accept(wanted), "expected {wanted} at: {}", self.rest);
    }
}
