//! The stored stations, texts and lists of answers against those that the oracle makes now. `write_stored` writes
//! them.
use oracle::examples;
#[cfg(source)]
use oracle::lists;
use oracle::report::Comparison;
use oracle::stored::ROOT;

fn held(name: &str, files: Vec<(String, Vec<u8>)>) -> Comparison {
    let mut found = Comparison::new(name);
    for (path, bytes) in files {
        let stored = std::fs::read(format!("{ROOT}{path}")).ok();
        found.hold(&stored, &Some(bytes), || format!("{path} is missing or another: run write_stored"));
    }
    found
}

/// The cards of `examples/` beside the same antennas slot by slot: the same plates.
#[cfg(source)]
fn beside_cards() -> Comparison {
    let mut found = Comparison::new("cards beside their slots");
    for (name, [slots, card]) in examples::beside_cards() {
        found.hold(&card, &slots, || format!("examples/{name}.card has another plate than the slots of src/examples.rs"));
    }
    found
}

pub fn compare(_: u64) -> Vec<Comparison> {
    vec![
        held("stored stations", examples::inputs()),
        #[cfg(source)]
        held("stored texts", examples::texts()),
        #[cfg(source)]
        beside_cards(),
        #[cfg(source)]
        held("stored answers", lists::files()),
    ]
}
