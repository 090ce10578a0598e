//! A card that people type, issue 26: a text of named fields becomes a station, or its first mistake is told by line and field. Written
//! from the card's rules alone, by the plainest means: every line as its words, every field looked up in one table.
use crate::record;

/// The curtain's number in slot 1, VOACAP's.
pub const CURTAIN: u32 = 12;
/// A station's floats: slots 0 to 19, `gainmax` 20 to 25, `gainmaxb` 26 to 55, MHz, design MHz, elevation.
pub const PLACES: usize = 59;
/// The bytes that `plate` reads: the record of the mode and 56 floats, then three.
pub const STATION: usize = record::BYTES + 12;

/// In a curtain's `gainmaxb`: there is no factor in the file.
const INTEGRATE: f32 = -99_999.0;

// ---- the fields

/// A field's name, and who has it: the types, and the places that its numbers go to.
pub struct Field {
    pub name: &'static str,
    homes: &'static [(&'static [u32], &'static [usize])],
}

const fn field(name: &'static str, homes: &'static [(&'static [u32], &'static [usize])]) -> Field {
    Field { name, homes }
}

/// So many places from the first on.
const fn places<const N: usize>(first: usize) -> [usize; N] {
    let (mut places, mut k) = ([0; N], 0);
    while k < N {
        places[k] = first + k;
        k += 1;
    }
    places
}

const ALL: &[u32] = &[1, 2, 3, 4, 5, 6, 7, 8, 9, CURTAIN];
const CCIR: &[u32] = &[1, 2, 3, 4, 5, 6, 7, 8, 9];
const ARRAYS: &[u32] = &[1, 2, 3, 4];
const LOG_PERIODIC: &[u32] = &[5, 6];

/// In the order in which a missing one is told; a mistake names them by their place here, from 1. `mhz` and `design` also stand behind
/// the record.
pub const FIELDS: [Field; 26] = [
    field("type", &[(ALL, &[1])]),
    field("ground", &[(CCIR, &[2, 3])]),
    field("dipoles", &[(ARRAYS, &[5, 6])]),
    field("height", &[(ARRAYS, &[8]), (&[7, 8, 9], &[6]), (&[CURTAIN], &[9])]),
    field("slew", &[(ARRAYS, &[9]), (&[CURTAIN], &[14])]),
    field("screen", &[(&[1], &[10, 11, 12]), (&[CURTAIN], &[12])]),
    field("reflector", &[(&[2, 3], &[10])]),
    field("start", &[(&[1], &[13, 14]), (&[2, 3], &[11, 12]), (&[4, 8, 9], &[10, 11])]),
    field("elements", &[(LOG_PERIODIC, &[5])]),
    field("lengths", &[(LOG_PERIODIC, &[6, 7])]),
    field("boom", &[(LOG_PERIODIC, &[8])]),
    field("heights", &[(LOG_PERIODIC, &[9, 10])]),
    field("feeder", &[(LOG_PERIODIC, &[11])]),
    field("leg", &[(&[7], &[5])]),
    field("angle", &[(&[7], &[7])]),
    field("bays", &[(&[CURTAIN], &[5])]),
    field("stacks", &[(&[CURTAIN], &[6])]),
    field("dipole", &[(&[CURTAIN], &[8])]),
    field("spacing", &[(&[CURTAIN], &[10, 11])]),
    field("excitation", &[(&[CURTAIN], &[13])]),
    field("gain", &[(CCIR, &[0])]),
    field("gain-ratio", &[(&[1, 2, 3, 4, 8, 9], &places::<6>(20))]),
    field("gain-mhz", &[(CCIR, &places::<30>(26))]),
    field("mhz", &[(ALL, &[4])]),
    field("design", &[(&[1, 2, 3, 4, CURTAIN], &[7]), (&[8, 9], &[5])]),
    field("elevation", &[(ALL, &[58])]),
];

/// The maximum gain's three fields: which of them a card has is its mode.
pub const GAINS: [&str; 3] = ["gain", "gain-ratio", "gain-mhz"];

impl Field {
    /// Where this type has its numbers, if it has the field.
    pub fn places(&self, jant: u32) -> Option<&'static [usize]> {
        self.homes.iter().find(|(types, _)| types.contains(&jant)).map(|(_, places)| *places)
    }
}

pub fn named(name: &[u8]) -> Option<&'static Field> {
    FIELDS.iter().find(|field| field.name.as_bytes() == name)
}

/// The place of a field in the table, from 1.
fn number_of(name: &str) -> usize {
    1 + FIELDS.iter().position(|field| field.name == name).expect("a field")
}

// ---- the text

/// A line without its remark, as words: runs of bytes that aren't blank.
fn words(line: &[u8]) -> Vec<&[u8]> {
    let said = line.split(|byte| *byte == b'#').next().unwrap_or(line);
    said.split(|byte| b" \t\r".contains(byte)).filter(|word| !word.is_empty()).collect()
}

/// The lines of a text as their words; a byte-order mark at its very start doesn't count.
pub fn lines(text: &[u8]) -> Vec<Vec<&[u8]>> {
    let text = text.strip_prefix(b"\xef\xbb\xbf").unwrap_or(text);
    text.split(|byte| *byte == b'\n').map(words).collect()
}

/// The number, from 1, of the first line that begins with this word.
pub fn line_of(lines: &[Vec<&[u8]>], name: &[u8]) -> Option<usize> {
    lines.iter().position(|words| words.first() == Some(&name)).map(|k| k + 1)
}

/// A word as a number: a sign or none, digits with at most one point among them, a digit at least. Rust reads such a word to the
/// nearest float, a tie to the even one.
pub fn number(word: &[u8]) -> Result<f32, What> {
    let unsigned = word.strip_prefix(b"+").or(word.strip_prefix(b"-")).unwrap_or(word);
    let digits = unsigned.iter().filter(|byte| byte.is_ascii_digit()).count();
    let points = unsigned.iter().filter(|byte| **byte == b'.').count();
    if digits == 0 || points > 1 || digits + points != unsigned.len() {
        return Err(What::NotANumber);
    }
    let x: f32 = std::str::from_utf8(word).expect("ASCII").parse().expect("a number");
    if x.is_finite() {
        Ok(x)
    } else {
        Err(What::TooLarge)
    }
}

// ---- mistakes

#[derive(Clone, Copy, Debug, PartialEq)]
pub enum What {
    Unknown = 1,
    Twice,
    Foreign,
    SecondGain,
    TooFew,
    TooMany,
    NotANumber,
    TooLarge,
    Limit,
    Missing,
}

/// The first mistake of a card. Line, field and number count from 1; 0 is none of them.
#[derive(Clone, Debug, PartialEq)]
pub struct Mistake {
    pub what: What,
    pub line: usize,
    pub field: usize,
    pub number: usize,
    /// The line that has this field already, or another maximum gain.
    pub earlier: usize,
    /// Of a limit: the refusal's number, and which end is broken, in words.
    pub limit: Option<Limit>,
}

pub type Limit = (u32, &'static str);

const TYPE: u32 = 3;
const BAND: u32 = 5;
const COUNT: u32 = 6;
const AIM: u32 = 7;

impl Mistake {
    fn new(what: What, line: usize, field: usize) -> Mistake {
        Mistake { what, line, field, number: 0, earlier: 0, limit: None }
    }

    /// As `hf_card` tells it.
    pub fn words(&self) -> [u32; 6] {
        let refusal = self.limit.map_or(0, |limit| limit.0);
        [self.what as u32, self.line as u32, self.field as u32, self.number as u32, self.earlier as u32, refusal]
    }
}

// ---- the card

/// A mode and the floats.
#[derive(Clone, Debug)]
pub struct Station {
    pub mode: u32,
    pub places: [f32; PLACES],
}

/// The lines of a card and its kind. Without a maximum gain it has no mode yet.
pub struct Card<'a> {
    pub lines: Vec<Vec<&'a [u8]>>,
    pub jant: u32,
    pub mode: Option<u32>,
}

/// The type, which is looked at before all else.
fn type_of(lines: &[Vec<&[u8]>]) -> Result<u32, Mistake> {
    let Some(line) = line_of(lines, b"type") else {
        return Err(Mistake::new(What::Missing, 1, 1));
    };
    let about = |what| Mistake::new(what, line, 1);
    let word = match lines[line - 1][1..] {
        [] => return Err(about(What::TooFew)),
        [word] => word,
        _ => return Err(about(What::TooMany)),
    };
    if word == b"curtain" {
        return Ok(CURTAIN);
    }
    let x = number(word).map_err(|what| Mistake { number: 1, ..about(what) })?;
    let no_type = Mistake { number: 1, limit: Some((TYPE, "is not a type, 1 to 9 or curtain")), ..about(What::Limit) };
    (1..=9).find(|jant| *jant as f32 == x).ok_or(no_type)
}

/// The first line with a maximum gain that this type has decides, whatever its numbers are. The curtain has none.
fn mode_of(lines: &[Vec<&[u8]>], jant: u32) -> Option<u32> {
    let has = |name: &str| named(name.as_bytes()).is_some_and(|field| field.places(jant).is_some());
    let mode = |words: &Vec<&[u8]>| GAINS.iter().position(|name| words.first() == Some(&name.as_bytes()) && has(name));
    if jant == CURTAIN {
        return Some(3);
    }
    lines.iter().find_map(mode).map(|mode| mode as u32)
}

impl<'a> Card<'a> {
    pub fn of(text: &'a [u8]) -> Result<Card<'a>, Mistake> {
        let lines = lines(text);
        let jant = type_of(&lines)?;
        let mode = mode_of(&lines, jant);
        Ok(Card { lines, jant, mode })
    }

    /// The end of a limit that the k-th number of a field is beyond; k counts from 0.
    fn broken(&self, field: &str, k: usize, x: f32) -> Option<Limit> {
        let by_ratio = self.mode == Some(1);
        match (field, k) {
            ("mhz", _) if by_ratio => None,
            ("design", _) if by_ratio && self.jant != 9 => None,
            ("mhz" | "design", _) if x < 1.0 => Some((BAND, "is under 1")),
            ("mhz" | "design", _) if x >= 31.0 => Some((BAND, "is not below 31")),
            ("dipoles", _) if x < 0.0 => Some((COUNT, "is under 0")),
            ("dipoles", _) if x > 64.0 => Some((COUNT, "is over 64")),
            ("elements", _) if x < 2.0 => Some((COUNT, "is under 2")),
            ("elements", _) if x >= 31.0 => Some((COUNT, "is not below 31")),
            ("slew", _) if x < -90.0 => Some((AIM, "is under -90")),
            ("slew", _) if x > 90.0 => Some((AIM, "is over 90")),
            ("start" | "elevation", _) if x < 0.0 => Some((AIM, "is under 0")),
            ("start" | "elevation", 0) if x > 90.0 => Some((AIM, "is over 90")),
            ("start", 1) if x > 360.0 => Some((AIM, "is over 360")),
            ("elevation", _) if x.fract() != 0.0 => Some((AIM, "is not a whole number")),
            _ => None,
        }
    }

    /// What is wrong with a line's numbers: their count, then the first that isn't one, is too large or breaks a limit.
    fn number_mistake(&self, line: usize, field: usize, count: usize) -> Option<Mistake> {
        let (name, words) = (FIELDS[field - 1].name, &self.lines[line - 1][1..]);
        let about = |what| Mistake::new(what, line, field);
        if words.len() != count {
            return Some(about(if words.len() < count { What::TooFew } else { What::TooMany }));
        }
        if name == "type" {
            return None;
        }
        (0..count).find_map(|k| match number(words[k]) {
            Err(what) => Some(Mistake { number: k + 1, ..about(what) }),
            Ok(x) => self.broken(name, k, x).map(|limit| Mistake { number: k + 1, limit: Some(limit), ..about(What::Limit) }),
        })
    }

    /// The first mistake of a line.
    fn line_mistake(&self, line: usize) -> Option<Mistake> {
        let name = *self.lines[line - 1].first()?;
        let Some(known) = named(name) else {
            return Some(Mistake::new(What::Unknown, line, 0));
        };
        let field = number_of(known.name);
        let about = |what| Mistake::new(what, line, field);
        let earlier = line_of(&self.lines, name).filter(|earlier| *earlier < line);
        if let Some(earlier) = earlier {
            return Some(Mistake { earlier, ..about(What::Twice) });
        }
        let Some(places) = known.places(self.jant) else {
            return Some(about(What::Foreign));
        };
        let first_gain = self.mode.and_then(|mode| GAINS.get(mode as usize)).filter(|_| GAINS.contains(&known.name));
        if let Some(first) = first_gain.filter(|first| **first != known.name) {
            let earlier = line_of(&self.lines, first.as_bytes()).expect("it decided the mode");
            return Some(Mistake { earlier, ..about(What::SecondGain) });
        }
        self.number_mistake(line, field, places.len())
    }

    /// The first field of the kind that no line has, told at the line of the type.
    fn missing(&self) -> Option<Mistake> {
        let line = line_of(&self.lines, b"type").expect("a card has a type");
        let absent = |field: &&Field| match field.name {
            "gain" => self.mode.is_none(),
            "gain-ratio" | "gain-mhz" => false,
            name => field.places(self.jant).is_some() && line_of(&self.lines, name.as_bytes()).is_none(),
        };
        FIELDS.iter().find(absent).map(|field| Mistake::new(What::Missing, line, number_of(field.name)))
    }

    pub fn mistake(&self) -> Option<Mistake> {
        (1..=self.lines.len()).find_map(|line| self.line_mistake(line)).or_else(|| self.missing())
    }

    /// The numbers of a field, of a card without a mistake.
    pub fn numbers(&self, name: &str) -> Vec<f32> {
        let line = line_of(&self.lines, name.as_bytes()).map(|line| &self.lines[line - 1][1..]);
        line.unwrap_or_default().iter().filter_map(|word| number(word).ok()).collect()
    }

    /// The station of a card without a mistake.
    fn station(&self) -> Station {
        let mut places = [0.0; PLACES];
        if self.jant == CURTAIN {
            places[26..56].fill(INTEGRATE);
        }
        for field in FIELDS.iter().filter(|field| field.name != "type") {
            let homes = field.places(self.jant).unwrap_or_default();
            for (place, x) in homes.iter().zip(self.numbers(field.name)) {
                places[*place] = x;
            }
        }
        places[1] = self.jant as f32;
        for (place, name) in [(56, "mhz"), (57, "design")] {
            places[place] = self.numbers(name).first().copied().unwrap_or_default();
        }
        Station { mode: self.mode.expect("no mistake"), places }
    }
}

pub fn read(text: &[u8]) -> Result<Station, Mistake> {
    let card = Card::of(text)?;
    card.mistake().map_or_else(|| Ok(card.station()), Err)
}

// ---- the station's bytes

impl Station {
    fn bits(&self) -> [u32; PLACES] {
        self.places.map(f32::to_bits)
    }

    /// The record in an edition, then MHz, design MHz and elevation.
    pub fn in_edition(&self, edition: u32) -> Vec<u8> {
        let bits = self.bits();
        let words = std::array::from_fn(|k| if k == 0 { self.mode } else { bits[k - 1] });
        let mut bytes = vec![0; record::BYTES];
        record::write(edition, &words, &mut bytes).expect("finite floats, a mode, and a type for edition 1");
        bytes.extend(bits[56..].iter().flat_map(|word| word.to_be_bytes()));
        bytes
    }

    /// What `plate` reads: a card makes records of edition 0.
    pub fn bytes(&self) -> Vec<u8> {
        self.in_edition(0)
    }

    /// From bytes of either edition; none where they are no station.
    pub fn of(bytes: &[u8]) -> Option<Station> {
        if bytes.len() != STATION {
            return None;
        }
        let words = record::read(&bytes[..record::BYTES]).ok()?;
        let behind = |k: usize| u32::from_be_bytes(bytes[4 * k + 1..4 * k + 5].try_into().expect("four bytes"));
        let places = std::array::from_fn(|k| f32::from_bits(if k < 56 { words[1 + k] } else { behind(k) }));
        Some(Station { mode: words[0], places })
    }
}
