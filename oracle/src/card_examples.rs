//! The cards of `examples/`, which are typed by hand: the stations that they make, written beside them, what `./plate` prints of the
//! cards with a usual mistake, and the remarks on all.
use crate::cards;
use crate::stored::ROOT;
#[cfg(source)]
use crate::{card_text, plate, remarks};

/// The cards of a folder below the root: their names, and their texts.
fn cards(folder: &str) -> Vec<(String, Vec<u8>)> {
    let files = std::fs::read_dir(format!("{ROOT}{folder}")).expect("a folder of cards");
    let names = files.flatten().filter_map(|file| file.file_name().into_string().ok()?.strip_suffix(".card").map(String::from));
    let mut names: Vec<String> = names.collect();
    names.sort();
    let text = |name: &String| std::fs::read(format!("{ROOT}{folder}/{name}.card")).expect("a card");
    names.into_iter().map(|name| (name.clone(), text(&name))).collect()
}

/// The station of each type and of the curtain.
pub fn stations() -> Vec<(String, cards::Station)> {
    let station = |(name, text): (String, Vec<u8>)| {
        let found = cards::read(&text).unwrap_or_else(|mistake| panic!("examples/{name}.card: {mistake:?}"));
        (name, found)
    };
    cards("examples").into_iter().map(station).collect()
}

/// The station of a card of `examples/mistakes/` that is no mistake.
#[cfg(source)]
pub fn mistake(name: &str) -> Vec<u8> {
    let (_, text) = cards("examples/mistakes").into_iter().find(|(card, _)| card == name).expect("a card");
    cards::read(&text).expect("no mistake").bytes()
}

/// What `./plate` says of a card, each on a line with the file's name: its mistake or its own remark, then the remarks on its plate.
#[cfg(source)]
fn said_of(place: &str, text: &[u8]) -> Vec<u8> {
    let sentence = card_text::sentence(text);
    let own = (!sentence.is_empty()).then(|| [format!("{place}.card:").as_bytes(), &sentence, b"\n"].concat());
    let plates = cards::read(text).map_or(Vec::new(), |station| remarks::remarks(&station.bytes()));
    let plates = plates.iter().map(|remark| format!("{place}.card: {remark}\n").into_bytes());
    own.into_iter().chain(plates).flatten().collect()
}

/// Beside a card with a usual mistake the sentence that it gets, or the plate where it is no mistake.
#[cfg(source)]
fn text_of((place, text): &(String, Vec<u8>)) -> (String, Vec<u8>) {
    let plate = |station: cards::Station| plate::output(&station.bytes()).into_bytes();
    (format!("{place}.txt"), cards::read(text).map_or_else(|_| said_of(place, text), plate))
}

/// Beside a card without a mistake the remarks, where there are any.
#[cfg(source)]
fn remark_of((place, text): &(String, Vec<u8>)) -> Option<(String, Vec<u8>)> {
    let said = said_of(place, text);
    (cards::read(text).is_ok() && !said.is_empty()).then(|| (format!("{place}.remark"), said))
}

/// The texts beside the cards with a usual mistake, and the remarks beside all.
#[cfg(source)]
pub fn said() -> Vec<(String, Vec<u8>)> {
    let placed =
        |folder: &str| -> Vec<_> { cards(folder).into_iter().map(|(name, text)| (format!("{folder}/{name}"), text)).collect() };
    let (types, mistakes) = (placed("examples"), placed("examples/mistakes"));
    mistakes.iter().map(text_of).chain(types.iter().chain(&mistakes).filter_map(remark_of)).collect()
}
