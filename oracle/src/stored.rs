//! The stored lists, `oracle/stored/CALL`: a line for each call that was made, with what it was given and what the oracle answered.
//! README.md has the layout. A list is written, replayed and checked by one function, `line`: a stored answer holds where the line
//! made anew is the line that is stored.
use crate::calls::{Call, Function, Kind, Value};
use crate::leaf::bits;

/// What a lent slice is filled with before the call, so that what is left alone shows; as a float it is finite.
pub const LEFT: u32 = 0xA5A5_A5A5;
const LEFT_BYTE: u8 = 0xA5;

/// A lent slice longer than this is stored as its digest.
const LONGEST: usize = 256;

/// The repository's root.
pub const ROOT: &str = concat!(env!("CARGO_MANIFEST_DIR"), "/../");

/// A call's list, below the root.
pub fn place(call: &Call) -> String {
    format!("oracle/stored/{}", call.name)
}

/// Elements with a space between them; four or more equal ones in turn are one with its number of times.
fn apart(elements: impl Iterator<Item = String>) -> String {
    let elements: Vec<String> = elements.collect();
    let runs = elements.chunk_by(|a, b| a == b).map(|run| match run.len() {
        0..=3 => run.join(" "),
        times => format!("{}*{times}", run[0]),
    });
    runs.collect::<Vec<_>>().join(" ")
}

/// The elements that `apart` wrote, each read by `one`.
fn elements<T: Clone>(field: &str, one: impl Fn(&str) -> Option<T>) -> Option<Vec<T>> {
    let run = |word: &str| {
        let (element, times) = word.split_once('*').unwrap_or((word, "1"));
        Some(vec![one(element)?; times.parse().ok()?])
    };
    Some(field.split_whitespace().map(run).collect::<Option<Vec<_>>>()?.concat())
}

fn word(text: &str) -> Option<u32> {
    u32::from_str_radix(text, 16).ok()
}

fn hexadecimal(words: &[u32]) -> String {
    apart(words.iter().map(|x| format!("{x:X}")))
}

/// The shortest decimal that reads back as the float.
fn decimal(x: f32) -> String {
    format!("{x:?}").trim_end_matches(".0").to_string()
}

fn hex(bytes: &[u8]) -> String {
    bytes.iter().map(|b| format!("{b:02X}")).collect()
}

impl Value {
    /// As it is given: of a lent slice only the length.
    fn given(&self) -> String {
        match self {
            Value::Word(x) => format!("{x:X}"),
            Value::Float(x) => decimal(*x),
            Value::Words(xs) => hexadecimal(xs),
            Value::Floats(xs) => apart(xs.iter().map(|x| decimal(*x))),
            Value::Bytes(xs) => hex(xs),
            Value::LentWords(xs) => xs.len().to_string(),
            Value::LentFloats(xs) => xs.len().to_string(),
            Value::LentBytes(xs) => xs.len().to_string(),
        }
    }

    /// The words of a lent slice; a NaN's bits are 7FC00000.
    fn lent(&self) -> Option<Lent> {
        match self {
            Value::LentWords(xs) => Some(Lent { words: xs.clone(), left: LEFT }),
            Value::LentFloats(xs) => Some(Lent { words: xs.iter().map(|x| bits(*x)).collect(), left: LEFT }),
            Value::LentBytes(xs) => Some(Lent { words: xs.iter().map(|x| u32::from(*x)).collect(), left: LEFT_BYTE.into() }),
            _ => None,
        }
    }
}

impl Kind {
    /// A value from its field. Lent slices come filled.
    fn read(self, field: &str) -> Option<Value> {
        let pair = |k: usize| field.get(2 * k..2 * k + 2).and_then(|two| u8::from_str_radix(two, 16).ok());
        Some(match self {
            Kind::Word => Value::Word(word(field)?),
            Kind::Float => Value::Float(field.parse().ok()?),
            Kind::Words => Value::Words(elements(field, word)?),
            Kind::Floats => Value::Floats(elements(field, |x| x.parse().ok())?),
            Kind::Bytes => Value::Bytes((0..field.len().div_ceil(2)).map(pair).collect::<Option<_>>()?),
            Kind::LentWords => lent_words(field.parse().ok()?),
            Kind::LentFloats => lent_floats(field.parse().ok()?),
            Kind::LentBytes => lent_bytes(field.parse().ok()?),
        })
    }
}

pub fn lent_words(length: usize) -> Value {
    Value::LentWords(vec![LEFT; length])
}

pub fn lent_floats(length: usize) -> Value {
    Value::LentFloats(vec![f32::from_bits(LEFT); length])
}

pub fn lent_bytes(length: usize) -> Value {
    Value::LentBytes(vec![LEFT_BYTE; length])
}

/// A lent slice after the call, and what filled it before.
struct Lent {
    words: Vec<u32>,
    left: u32,
}

impl Lent {
    /// Its elements; `left` where all are as they were; a number that any single change changes, where they are too many to store.
    fn written(&self) -> String {
        if !self.words.is_empty() && self.words.iter().all(|word| *word == self.left) {
            "left".into()
        } else if self.words.len() > LONGEST {
            format!("digest {:X}", self.words.iter().fold(0, |digest: u32, word| digest.wrapping_mul(31).wrapping_add(*word)))
        } else if self.left == LEFT_BYTE.into() {
            self.words.iter().map(|byte| format!("{byte:02X}")).collect()
        } else {
            hexadecimal(&self.words)
        }
    }

    /// Where a bit is turned.
    fn places(&self) -> Vec<usize> {
        let length = self.words.len();
        if length > LONGEST {
            vec![0, length / 2, length - 1]
        } else {
            (0..length).collect()
        }
    }
}

/// What a call answered: its number, and the lent slices.
pub struct Outcome {
    answer: u64,
    lent: Vec<Lent>,
}

/// A call that was made: a name or a number, and what was given.
#[derive(Clone)]
pub struct Record {
    pub name: String,
    pub given: Vec<Value>,
}

impl Record {
    /// From a line; what was answered isn't read.
    pub fn read(call: &Call, line: &str) -> Option<Record> {
        let (given, _) = line.split_once('=')?;
        let mut fields = given.split('|').map(str::trim);
        let name = fields.next()?.to_string();
        let given: Vec<Value> = call.given.iter().map(|(_, kind)| kind.read(fields.next()?)).collect::<Option<_>>()?;
        fields.next().is_none().then_some(Record { name, given })
    }

    pub fn outcome(&self, function: Function) -> Outcome {
        let mut values = self.given.clone();
        let answer = function(&mut values);
        Outcome { answer, lent: values.iter().filter_map(Value::lent).collect() }
    }

    pub fn line(&self, outcome: &Outcome) -> String {
        let given: Vec<String> = self.given.iter().map(Value::given).collect();
        let lent: String = outcome.lent.iter().map(|lent| format!(" | {}", lent.written())).collect();
        format!("{} | {} = {:X}{lent}", self.name, given.join(" | "), outcome.answer)
    }

    /// The line with a bit turned: of the answer's low and high word, and of each word that is lent; of a slice that is stored as its
    /// digest the first, the middle and the last.
    pub fn turned(&self, mut outcome: Outcome) -> Vec<String> {
        let mut lines = Vec::new();
        for bit in [1, 1 << 32] {
            outcome.answer ^= bit;
            lines.push(self.line(&outcome));
            outcome.answer ^= bit;
        }
        for slice in 0..outcome.lent.len() {
            for place in outcome.lent[slice].places() {
                outcome.lent[slice].words[place] ^= 1;
                lines.push(self.line(&outcome));
                outcome.lent[slice].words[place] ^= 1;
            }
        }
        lines
    }
}

/// A list's first line: what each field is.
pub fn head(call: &Call) -> String {
    let kind = |kind: &Kind| match kind {
        Kind::Word => "word",
        Kind::Float => "float",
        Kind::Words => "words",
        Kind::Floats => "floats",
        Kind::Bytes => "bytes",
        Kind::LentWords => "lent words",
        Kind::LentFloats => "lent floats",
        Kind::LentBytes => "lent bytes",
    };
    let given: String = call.given.iter().map(|(name, k)| format!(" | {name}: {}", kind(k))).collect();
    let lent = call.given.iter().filter(|(_, k)| kind(k).starts_with("lent"));
    let lent: String = lent.map(|(name, _)| format!(" | {name}")).collect();
    format!("hf_{}{given} = answer{lent}", call.name)
}
