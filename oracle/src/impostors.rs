//! Plausible and false: the wrong programs that document 01 names ("Plausible and false", "Before a test is written"), its logarithm
//! of normal numbers alone, which document 02's card 3 replaces, and some of document 02's cards; each an edit of the source's text or
//! of the oracle's over it. Stored cases named after an impostor show it; `compare impostors` holds that each of them does. build.rs
//! mounts this file too and puts a switch at each place.

pub struct Impostor {
    pub name: &'static str,
    /// The call in whose list its cases are.
    pub call: &'static str,
    pub file: &'static str,
    /// What is wrong: the first `old` after this text becomes `new`. A statement (it ends in `;`) or an expression.
    pub after: &'static str,
    pub old: &'static str,
    pub new: &'static str,
}

/// Of the antennas' module, seen in the answers of `hf_gains`.
const SOURCE: Impostor = Impostor { name: "", call: "gains", file: "ccir.rs", after: "", old: "", new: "" };
/// Of the table's sum, document 02's card 9.
const SUM: Impostor = Impostor { name: "", call: "gain", file: "expected.rs", after: "fn table_sum", old: "TABLE", new: "" };
const CURTAIN: Impostor = Impostor { call: "curtain", after: "pub mod curtain", ..SOURCE };
/// Of the text for coverage planners, document 02's card 14.
const PLANET: Impostor = Impostor { name: "", call: "planet", file: "planet.rs", after: "", old: "", new: "" };
/// Of its hundredths.
const HUNDREDTHS: Impostor = Impostor { after: "pub fn hundredths", old: "(200 * m + (1 << k)) / (1 << (k + 1))", ..PLANET };

/// Of the plate that people see.
const SHOWN: Impostor = Impostor { name: "", call: "dbi", file: "shown.rs", after: "", old: "", new: "" };
/// Of two masts, in words.
const MASTS: Impostor = Impostor { call: "compare", file: "masts.rs", ..SHOWN };
/// Of pictures.
const PICTURE: Impostor = Impostor { call: "svg", file: "pictures.rs", ..SHOWN };
const PAIR: Impostor = Impostor { call: "svg_two", ..PICTURE };

/// Of the card that people type.
const CARD: Impostor = Impostor { name: "", call: "card", file: "cards.rs", after: "", old: "", new: "" };
/// Of the card that is written back.
const WRITTEN: Impostor = Impostor { call: "card_of", file: "card_text.rs", ..CARD };

pub const IMPOSTORS: &[Impostor] = &[
    Impostor { name: "a(90) mended", after: "fn trigfun", old: "a[90] = (90.05 * Q1).rule_sin();", new: "", ..SOURCE },
    Impostor { name: "b(90) mended", after: "fn trigfun", old: "b[90] = (90.105 * Q1).rule_cos();", new: "", ..SOURCE },
    Impostor { name: "b(0) mended", after: "fn trigfun", old: "b[0] = (0.005 as R).rule_cos();", new: "", ..SOURCE },
    Impostor { name: "90 folded onto 270", after: "v > 180.0", old: "v <= 270.0", new: "v < 270.0", ..SOURCE },
    Impostor {
        name: "type 7 mirrored",
        after: "// Horizontal rhombic.",
        old: "1.0 - d3 - d2 + d4",
        new: "1.0 - (d3 + d2) + d4",
        ..SOURCE
    },
    // Two of them: where there is silence every elevation is an equal peak, so the last one must show without it too.
    Impostor { name: "first of equal peaks", after: "fn gainorm", old: "z9 >= wmx", new: "z9 > wmx", ..SOURCE },
    Impostor {
        name: "first of equal peaks above 0",
        after: "fn gainorm",
        old: "z9 >= wmx",
        new: "z9 > wmx || z9 == 0.0 && wmx == 0.0",
        ..SOURCE
    },
    Impostor { name: "a new peak clears j", after: "fn azmax", old: "vmax = v;", new: "vmax = v; j = 0;", ..SOURCE },
    Impostor {
        name: "elevation 1 repeated",
        after: "for iu in 1..=90",
        old: "self.gainrel(u, v)",
        new: "self.gainrel(1.0, v)",
        ..SOURCE
    },
    Impostor { name: "-30 throughout", after: "fn ccirgain", old: "self.z6 == 0.0", new: "true", ..SOURCE },
    Impostor { name: "silence before any reading", after: "fn antinit2", old: "ant.gainorm();", new: "", ..SOURCE },
    Impostor { name: "90 readings", file: "source.rs", after: "fn met", old: "r.count += 1;", new: "r.count = 90;", ..SOURCE },
    Impostor {
        name: "every card turned away",
        file: "expected.rs",
        after: "let peak_finite",
        old: "!readings.finite || !peak_finite",
        new: "true",
        ..SOURCE
    },
    Impostor { name: "table blank", after: "else if iant == 5 || iant == 6", old: "1..=ant.nat", new: "1..=0", ..SOURCE },
    Impostor {
        name: "lent table blank",
        call: "setup",
        file: "expected.rs",
        after: "fn copy_table",
        old: "self.record.copy_table(table);",
        new: "table[..TABLE].fill(0.0);",
    },
    Impostor { name: "a sum that skips the last float", new: "11_283", ..SUM },
    Impostor { name: "ww1 and ww2 alone summed", new: "5_642", ..SUM },
    Impostor { name: "a NaN summed by its own bits", old: "x.is_nan()", new: "false", ..SUM },
    Impostor { name: "type 0.49999997 is 0", file: "source.rs", after: "fn jant", old: "v + 0.5", new: "v.round()", ..SOURCE },
    Impostor { name: "nint(0.49999997) is 0", old: "(v + 0.5) as i32", new: "v.round() as i32", ..CURTAIN },
    Impostor {
        name: "slew 27 is step 7",
        old: "islew.abs() / 4",
        new: "(islew.abs() + i32::from(islew.abs() == 27)) / 4",
        ..CURTAIN
    },
    Impostor {
        name: "slew 28 is step 6",
        old: "islew.abs() / 4",
        new: "(islew.abs() - i32::from(islew.abs() == 28)) / 4",
        ..CURTAIN
    },
    Impostor { name: "sines left to right", old: "fzphr * cof", new: "fzphr * stheta * sphi", ..CURTAIN },
    Impostor {
        name: "no log10 of a subnormal number",
        file: "source.rs",
        after: "fn rule_log10(self) -> f32 {",
        old: "plain::log10(self)",
        new: "if self < f32::MIN_POSITIVE { f32::NAN } else { plain::log10(self) }",
        ..CURTAIN
    },
    Impostor {
        name: "no ln of a subnormal number",
        call: "setup",
        file: "source.rs",
        after: "fn rule_ln(self) -> f32 {",
        old: "plain::ln(self)",
        new: "if self < f32::MIN_POSITIVE { f32::NAN } else { plain::ln(self) }",
    },
    Impostor {
        name: "halves to even",
        new: "(200 * m + (1 << k) - 1 + (200 * m / (1 << (k + 1)) & 1)) / (1 << (k + 1))",
        ..HUNDREDTHS
    },
    Impostor { name: "halves towards zero", new: "(200 * m + (1 << k) - 1) / (1 << (k + 1))", ..HUNDREDTHS },
    Impostor { name: "hundredths by a float's product", new: "(100.0 * x.abs()).round() as u128", ..HUNDREDTHS },
    Impostor {
        name: "loss rounded once",
        after: "fn lines",
        old: "greatest - hundredths(*x)",
        new: "hundredths(part.iter().copied().fold(f32::MIN, f32::max) - *x)",
        ..PLANET
    },
    Impostor {
        name: "greatest of both parts",
        after: "fn text(&self)",
        old: "greatest(vertical)",
        new: "gain.max(greatest(vertical))",
        ..PLANET
    },
    Impostor {
        name: "a sign on zero",
        after: "fn text(&self)",
        old: "two_decimals(gain)",
        new: "if gain == 0 && horizontal.iter().all(|x| *x < 0.0) { \"-0.00\".into() } else { two_decimals(gain) }",
        ..PLANET
    },
    Impostor {
        name: "99.99 the most",
        after: "fn lines",
        old: "loss(x)",
        new: "if loss(x).len() > 5 { \"99.99\".into() } else { loss(x) }",
        ..PLANET
    },
    Impostor { name: "angle 91 at elevation 91", after: "fn direction", old: "angle <= 90", new: "true", ..PLANET },
    Impostor { name: "MHz rounded", after: "fn text(&self)", old: "mhz.trunc()", new: "mhz.round()", ..PLANET },
    Impostor {
        name: "the input's MHz",
        after: "Ok(Numbers",
        old: "steps.parm[4]",
        new: "f32::from_bits(u32::from_be_bytes(input[225..229].try_into().unwrap()))",
        ..PLANET
    },
    Impostor { name: "1,000 itself refused", after: "fn in_span", old: "x.abs() <= 1000.0", new: "x.abs() < 1000.0", ..PLANET },
    // A number that could not be printed is refused all the same.
    Impostor {
        name: "the span of the plate alone",
        after: "pub fn numbers",
        old: "!in_span(&vertical)",
        new: "vertical.iter().any(|x| x.abs() > 1e6)",
        ..PLANET
    },
    Impostor {
        name: "8 before the numbers",
        file: "reference.rs",
        after: "fn try_planet",
        old: "planet::text(input)?",
        new: "if text.len() < 8192 { return Err(SPACE) } else { planet::text(input)? }",
        ..PLANET
    },
    Impostor {
        name: "CR is part of a word",
        after: "fn words",
        old: "b\" \\t\\r\".contains(byte)",
        new: "b\" \\t\".contains(byte)",
        ..CARD
    },
    Impostor {
        name: "a remark only at a line's start",
        after: "fn words",
        old: "line.split(|byte| *byte == b'#').next().unwrap_or(line)",
        new: "if line.first() == Some(&b'#') { &line[..0] } else { line }",
        ..CARD
    },
    Impostor {
        name: "a byte-order mark is a word",
        after: "pub fn lines",
        old: "text.strip_prefix(b\"\\xef\\xbb\\xbf\").unwrap_or(text)",
        new: "text",
        ..CARD
    },
    Impostor {
        name: "a number too many accepted",
        after: "fn number_mistake",
        old: "words.len() != count",
        new: "words.len() < count",
        ..CARD
    },
    Impostor {
        name: "a field given twice accepted",
        after: "fn line_mistake",
        old: "line_of(&self.lines, name).filter(|earlier| *earlier < line)",
        new: "None::<usize>",
        ..CARD
    },
    Impostor {
        name: "a missing field is 0",
        after: "pub fn mistake",
        old: "self.missing()",
        new: "self.missing().filter(|_| self.mode.is_none())",
        ..CARD
    },
    Impostor { name: "65 dipoles accepted", after: "fn broken", old: "x > 64.0", new: "x > 65.0", ..CARD },
    Impostor { name: "64 dipoles refused", after: "fn broken", old: "x > 64.0", new: "x >= 64.0", ..CARD },
    Impostor { name: "the band in mode 1 too", after: "fn broken", old: "self.mode == Some(1)", new: "false", ..CARD },
    Impostor {
        name: "mode by the last maximum gain",
        after: "fn mode_of",
        old: "lines.iter().find_map(mode)",
        new: "lines.iter().rev().find_map(mode)",
        ..CARD
    },
    Impostor { name: "a type rounded", after: "fn type_of", old: "*jant as f32 == x", new: "*jant as f32 == x.round()", ..CARD },
    Impostor {
        name: "41 bytes shown",
        call: "card_sentence",
        file: "card_text.rs",
        after: "fn shown",
        old: "word.len() > SHOWN",
        new: "word.len() > SHOWN + 1",
    },
    Impostor { name: "three decimals at least", after: "pub fn typed", old: "(0..=149)", new: "(3..=149)", ..WRITTEN },
    Impostor { name: "decimals cut off", after: "fn rounded", old: "*next >= b'5'", new: "false", ..WRITTEN },
    Impostor { name: "a curtain as `plate` has it", after: "pub fn shown", old: "given.mode == 3", new: "false", ..SHOWN },
    Impostor { name: "the listed factor ignored", after: "fn factor", old: "listed == -99_999.0", new: "true", ..SHOWN },
    Impostor { name: "a floor leads", after: "fn leads_at", old: "row[v].kind == Kind::Level", new: "true", ..MASTS },
    Impostor {
        name: "side lobes in the beam",
        after: "pub fn beam",
        old: "(0..=*n).all(within) || (*n..360).all(within)",
        new: "within(*n)",
        ..MASTS
    },
    Impostor { name: "a beam that ends at 0", after: "pub fn beam", old: "(*n..360).all(within)", new: "false", ..MASTS },
    Impostor { name: "behind from the peak", after: "pub fn front_to_back", old: "row[0]", new: "row[peak(row)]", ..MASTS },
    Impostor {
        name: "counter-clockwise",
        after: "fn point",
        old: "4000 + part(azimuth, size)",
        new: "4000 - part(azimuth, size)",
        ..PICTURE
    },
    Impostor { name: "floors as levels", after: "fn curve", old: "row[v].kind == kind", new: "kind == Kind::Level", ..PICTURE },
    Impostor {
        name: "folded without the mirror law",
        after: "pub fn svg",
        old: "fold && shown.heading.mirrored",
        new: "fold",
        ..PICTURE
    },
    Impostor { name: "rings from the peak down", after: "fn top", old: "*ring >= peak", new: "*ring > peak", ..PICTURE },
    Impostor { name: "the first mast's scale", after: "fn pair", old: "first.max(second)", new: "first", ..PAIR },
    Impostor {
        name: "leads counted of the other",
        after: "fn column",
        old: "masts::leads(row, &other.entries)",
        new: "masts::leads(&other.entries, row)",
        ..PAIR
    },
    Impostor { name: "an unnamed slot forgotten", after: "pub fn written", old: "back.bytes() == bytes", new: "true", ..WRITTEN },
];
