//! Issue 27, the plate as a picture: SVG text on a square of 8,000, north up, azimuths clockwise; two masts on one plate. Coordinates are
//! whole, by document 01's whole-number sine.
use super::expected::Refusal;
use super::masts;
use super::planet::two_decimals;
use super::shown::{shown, Entry, Heading, Kind, Shown};
use crate::rules;

/// A gain's numbers are hundredths of dBi: 10 dB are 1,000.
const FLOOR: i64 = -3000;

fn top(peak: i64) -> i64 {
    (-2000..).step_by(1000).find(|ring| *ring >= peak).expect("a ring above")
}

/// The floor's ring, but no more than 60 dB below the top.
fn bottom(peak: i64) -> i64 {
    FLOOR.max(top(peak) - 6000)
}

/// 400 at the bottom and below it, 3,100 at the top.
fn radius(peak: i64, gain: i64) -> i64 {
    let (bottom, top) = (bottom(peak), top(peak));
    400 + (gain.clamp(bottom, top) - bottom) * 2700 / (top - bottom)
}

/// size × sin(degrees), rounded to the nearest, the sine in units of 2^-30.
fn part(degrees: i64, size: i64) -> i64 {
    let folded = if degrees % 180 > 90 { 180 - degrees % 180 } else { degrees % 180 };
    let part = (size * rules::whole_sine(folded) + (1 << 29)) >> 30;
    if degrees % 360 < 180 {
        part
    } else {
        -part
    }
}

/// A point at a distance from the centre.
fn point(azimuth: i64, size: i64) -> (i64, i64) {
    (4000 + part(azimuth, size), 4000 - part(azimuth + 90, size))
}

fn rings(peak: i64) -> impl Iterator<Item = (i64, i64)> {
    (bottom(peak) + 1000..=top(peak)).step_by(1000).map(move |gain| (gain, radius(peak, gain)))
}

fn scale(peak: i64) -> String {
    let axes = "<path d='M 4000 900 V 3600 M 4000 4400 V 7100 M 900 4000 H 3600 M 4400 4000 H 7100'/>";
    let circle = |r: i64| format!("<circle cx='4000' cy='4000' r='{r}'/>\n");
    let circles: String = rings(peak).map(|(_, r)| circle(r)).collect();
    format!("<g fill='none' stroke='#888' stroke-width='14'>\n{axes}\n{}{circles}</g>\n", circle(400))
}

/// Labels stand within their rings where the curve at 175 degrees is less than 5 dB beyond a ring.
fn labels(row: &[Entry], peak: i64) -> String {
    let height = if row[175].number.rem_euclid(1000) < 500 { 3955 } else { 4215 };
    let label = |(gain, r): (i64, i64)| format!("<text x='4060' y='{}'>{}</text>\n", height + r, gain / 100);
    let middle = |y: i64, text: &str| format!("<text x='4000' y='{y}' text-anchor='middle'>{text}</text>\n");
    let lowest = middle(3980, &(bottom(peak) / 100).to_string()) + &middle(4230, "dBi");
    let others: String = rings(peak).map(label).collect();
    format!("<g fill='#333' stroke='#fff' stroke-width='80' paint-order='stroke'>\n{lowest}{others}</g>\n")
}

/// A line through the azimuths that are drawn, 360 being 0 again; it moves to the first of each piece, and goes to each.
fn path(opening: &str, row: &[Entry], peak: i64, drawn: impl Fn(usize) -> bool) -> String {
    let spot = |v: usize| point(v as i64, radius(peak, row[v % 360].number));
    let here = |v: usize| drawn(v % 360);
    let piece = |v: usize| {
        let (x, y) = spot(v);
        let start = if v == 0 || !here(v - 1) { format!(" M {x} {y}") } else { String::new() };
        format!("{start} L {x} {y}")
    };
    let pieces: String = (0..=360).filter(|v| here(*v)).map(piece).collect();
    format!("<path {opening}d='{pieces}'/>\n")
}

fn group(colour: &str, width: u32, paths: &[String]) -> String {
    let ends = "stroke-linecap='round' stroke-linejoin='round'";
    format!("<g fill='none' stroke='{colour}' stroke-width='{width}' {ends}>\n{}</g>\n", paths.concat())
}

/// The levels, those that are folded over apart where that is asked for, and the floors.
fn curve(row: &[Entry], fold: bool, peak: i64) -> String {
    let folded = |v: usize| fold && v > 180 && v != 270;
    let is = |kind: Kind| move |v: usize| row[v].kind == kind;
    let level = is(Kind::Level);
    let paths = [
        path("", row, peak, |v| level(v) && !folded(v)),
        path("stroke='#999' ", row, peak, |v| level(v) && folded(v)),
        path("stroke-dasharray='50 90' ", row, peak, is(Kind::Floor)),
    ];
    group("#000", 40, &paths)
}

const WINDS: &str = "<text x='4000' y='800' text-anchor='middle'>0&#176;</text>\n<text x='7180' y='4085'>90&#176;</text>\n\
<text x='3880' y='7370' text-anchor='end'>180&#176;</text>\n<text x='820' y='4085' text-anchor='end'>270&#176;</text>\n";

fn name(antenna: i32) -> &'static str {
    match antenna {
        1 => "multiband aperiodic reflector dipole array",
        2 => "dual-band centre-fed tuned reflector dipole array",
        3 => "dual-band end-fed tuned reflector dipole array",
        4 => "tropical antenna",
        5 => "horizontal log-periodic",
        6 => "vertical log-periodic",
        7 => "horizontal rhombic",
        8 => "quadrant antenna",
        9 => "cross-dipole antenna",
        _ => "NTIA curtain array",
    }
}

fn left(y: u32, text: &str) -> String {
    format!("<text x='150' y='{y}'>{text}</text>\n")
}

fn right(y: u32, text: &str) -> String {
    format!("<text x='7850' y='{y}' text-anchor='end'>{text}</text>\n")
}

fn head(heading: &Heading) -> String {
    let Heading { antenna, mhz, elevation, .. } = *heading;
    let title = format!("<text x='150' y='330' font-size='290'>{}</text>\n", name(antenna));
    title + &left(680, &format!("{} MHz", two_decimals(mhz))) + &right(680, &format!("elevation {elevation}&#176;"))
}

/// The peak with its dot, and front-to-back; of a row of floors a sentence.
fn foot(row: &[Entry], peak: i64) -> String {
    if masts::all_floor(row) {
        return left(7820, "floor all round: -30 dBi or less");
    }
    let azimuth = masts::peak(row);
    let (x, y) = point(azimuth as i64, radius(peak, peak));
    let dashed = if row.iter().any(|entry| entry.kind == Kind::Floor) { left(7480, "dashed: floor") } else { String::new() };
    let dot = format!("<circle cx='{x}' cy='{y}' r='90'/>\n");
    let told = left(7820, &format!("peak {} dBi at {azimuth}&#176;", two_decimals(peak)));
    dashed + &dot + &told + &right(7820, &format!("front-to-back {} dB", two_decimals(masts::front_to_back(row))))
}

fn square(corner: (i64, i64), size: u32, font: u32, body: &str) -> String {
    let (x, y) = corner;
    let place = [("x", x), ("y", y)].into_iter().filter(|(_, at)| *at != 0).map(|(name, at)| format!("{name}='{at}' "));
    let view = format!("width='800' height='800' viewBox='{x} {y} {size} {size}' font-family='sans-serif' font-size='{font}'");
    let paper = format!("<rect {}width='{size}' height='{size}' fill='#fff'/>", place.collect::<String>());
    format!("<svg xmlns='http://www.w3.org/2000/svg' {view}>\n{paper}\n{body}</svg>\n")
}

fn plate(Shown { heading, entries: row }: &Shown, fold: bool) -> String {
    let peak = row[masts::peak(row)].number;
    let around = labels(row, peak) + WINDS + &head(heading);
    let body = if masts::silent(row) {
        let rim = "font-size='600' text-anchor='middle' stroke='#fff' stroke-width='160' paint-order='stroke'";
        around + &format!("<text x='4000' y='2800' {rim}>silence</text>\n")
    } else {
        let key = if fold { right(7480, "grey: folded over") } else { String::new() };
        curve(row, fold, peak) + &around + &key + &foot(row, peak)
    };
    square((0, 0), 8000, 240, &(scale(peak) + &body))
}

fn sentence(number: Refusal) -> &'static str {
    match number {
        1 => "this is no station of 237 bytes, and no good card",
        2 => "a number of the station isn't finite",
        3 => "the type is not 1 to 9, nor is this a curtain",
        4 => "there is no such mode of the maximum gain",
        5 => "the MHz or the design MHz is under 1, or 31 or more",
        6 => "dipoles are not 0 to 64, or elements not 2 to 30",
        7 => "elevation not a whole 0 to 90, or wrong slew or start",
        9 => "a gain in the search isn't finite: is a size 0?",
        10 => "a gain isn't finite",
        18 => "a gain is beyond 1,000 dBi or -1,000 dBi",
        _ => unreachable!("no refusal of a plate"),
    }
}

fn refusal(mast: &str, number: Refusal) -> String {
    let line =
        |y: u32, size: u32, text: &str| format!("<text x='4000' y='{y}' font-size='{size}' text-anchor='middle'>{text}</text>\n");
    square((0, 0), 8000, 240, &(line(3700, 600, &format!("{mast}refused {number}")) + &line(4300, 280, sentence(number))))
}

/// `--svg`: the picture of a plate; what is folded over is shown apart where that is asked for and the mirror law holds.
pub fn svg(input: &[u8], fold: bool) -> String {
    shown(input).map_or_else(|number| refusal("", number), |shown| plate(&shown, fold && shown.heading.mirrored))
}

/// A mast's column of the table.
fn column(x: u32, Shown { heading, entries: row }: &Shown, other: &Shown) -> String {
    let Heading { mhz, elevation, .. } = *heading;
    let azimuth = masts::peak(row);
    let [peak, beam, back] = if masts::silent(row) {
        ["silence".into(), "-".into(), "-".into()]
    } else if masts::all_floor(row) {
        ["floor all round".into(), "-".into(), "-".into()]
    } else {
        let peak = format!("{} dBi at {azimuth}&#176;", two_decimals(row[azimuth].number));
        [peak, format!("{}&#176;", masts::beam(row)), format!("{} dB", two_decimals(masts::front_to_back(row)))]
    };
    let set = format!("{} MHz, {elevation}&#176;", two_decimals(mhz));
    let leads = format!("{} azimuths", masts::leads(row, &other.entries));
    rows(&x.to_string(), &[&set, &peak, &beam, &back, &leads])
}

fn rows(x: &str, texts: &[&str; 5]) -> String {
    texts.iter().zip(0..).map(|(text, k)| format!("<text x='{x}' y='{}'>{text}</text>\n", 8060 + 310 * k)).collect()
}

fn legend(a: &Shown, b: &Shown) -> String {
    let strokes = "<path d='M -850 -300 H -150' stroke='#000' stroke-width='36'/>\n<path d='M -850 80 H -150' stroke='#aaa' stroke-width='100'/>\n";
    let line =
        |y: i64, letter: &str, mast: &Shown| format!("<text x='0' y='{y}'>{letter}: {}</text>\n", name(mast.heading.antenna));
    strokes.to_string() + &line(-210, "A", a) + &line(170, "B", b)
}

fn pair(a: &Shown, b: &Shown) -> String {
    let [first, second] = [a, b].map(|mast| mast.entries[masts::peak(&mast.entries)].number);
    let peak = first.max(second);
    let levels = |mast: &Shown| path("", &mast.entries, peak, |v| mast.entries[v].kind == Kind::Level);
    let floors = |opening: &str, mast: &Shown| path(opening, &mast.entries, peak, |v| mast.entries[v].kind == Kind::Floor);
    let second = group("#aaa", 100, &[levels(b), floors("stroke-dasharray='20 190' ", b)]);
    let first = group("#000", 36, &[levels(a), floors("stroke-dasharray='50 160' stroke-dashoffset='-85' ", a)]);
    let dashed = if [a, b].iter().any(|mast| mast.entries.iter().any(|entry| entry.kind == Kind::Floor)) {
        "<text x='8850' y='7370' text-anchor='end'>dashed: floor</text>\n"
    } else {
        ""
    };
    let table = "<path d='M -850 7780 H 8850' stroke='#888' stroke-width='14'/>\n<text x='2600' y='7700'>A</text>\n<text x='6000' y='7700'>B</text>\n";
    let names = rows("-850", &["set at", "peak", "beam at 3 dB", "front-to-back", "leads in"]);
    let columns = column(2600, a, b) + &column(6000, b, a);
    let around = labels(&a.entries, peak) + WINDS + &legend(a, b) + dashed;
    let body = [&scale(peak), &second, &first, &around, table, &names, &columns].concat();
    square((-1000, -600), 10000, 270, &body)
}

/// Two masts on one plate, or the first refusal among them.
pub fn svg_two(first: &[u8], second: &[u8]) -> String {
    match (shown(first), shown(second)) {
        (Ok(a), Ok(b)) => pair(&a, &b),
        (Err(number), _) => refusal("A: ", number),
        (_, Err(number)) => refusal("B: ", number),
    }
}
