//! The oracle once more, with a switch at each place of `impostors.rs`: build.rs writes these modules from the files of the same
//! names. With all switches off it answers as the oracle does.
#![allow(unused_parens, clippy::all)]
use std::cell::Cell;

pub mod source {
    include!(concat!(env!("OUT_DIR"), "/impostor/source.rs"));
}
pub mod expected {
    include!(concat!(env!("OUT_DIR"), "/impostor/expected.rs"));
}
pub mod cards {
    include!(concat!(env!("OUT_DIR"), "/impostor/cards.rs"));
}
pub mod card_text {
    include!(concat!(env!("OUT_DIR"), "/impostor/card_text.rs"));
}
pub mod masts {
    include!(concat!(env!("OUT_DIR"), "/impostor/masts.rs"));
}
pub mod pictures {
    include!(concat!(env!("OUT_DIR"), "/impostor/pictures.rs"));
}
pub mod planet {
    include!(concat!(env!("OUT_DIR"), "/impostor/planet.rs"));
}
pub mod plate {
    include!(concat!(env!("OUT_DIR"), "/impostor/plate.rs"));
}
pub mod reference {
    include!(concat!(env!("OUT_DIR"), "/impostor/reference.rs"));
}
pub mod shown {
    include!(concat!(env!("OUT_DIR"), "/impostor/shown.rs"));
}

thread_local! {
    static ON: Cell<Option<usize>> = const { Cell::new(None) };
}

/// Whether the impostor of this number is on.
pub fn is(k: usize) -> bool {
    ON.get() == Some(k)
}

/// What `run` gives while this impostor is on, or none.
pub fn with<T>(k: Option<usize>, run: impl FnOnce() -> T) -> T {
    ON.set(k);
    let result = run();
    ON.set(None);
    result
}
