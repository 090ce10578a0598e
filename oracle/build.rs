//! Links the proved static library `service`, which `tools/staticlib` writes from the repository's root, and takes the Rust
//! module of the antennas from the source tree: the folder that HFCAST_SRC names, or ../shared/docs/src beside the repository.
//! None of the source's text is committed. Where it isn't at hand, the crate builds without the comparisons that need it.
#[path = "src/impostors.rs"]
#[allow(dead_code)]
mod impostors;

use std::path::{Path, PathBuf};

fn main() {
    let root = PathBuf::from(std::env::var("CARGO_MANIFEST_DIR").unwrap()).join("..");
    link_service(&root.join("target/staticlib"));
    println!("cargo:rustc-check-cfg=cfg(source)");
    println!("cargo:rerun-if-env-changed=HFCAST_SRC");
    if let Some(file) = source_file(&root) {
        println!("cargo:rustc-cfg=source");
        println!("cargo:rerun-if-changed={}", file.display());
        let text = edited(std::fs::read_to_string(&file).unwrap());
        let out = PathBuf::from(std::env::var("OUT_DIR").unwrap());
        std::fs::write(out.join("ccir.rs"), &text).unwrap();
        write_impostors(text, &root.join("oracle/src"), &out.join("impostor"));
    }
}

fn link_service(folder: &Path) {
    let archive = folder.join("libservice.a");
    assert!(archive.exists(), "{} is missing: run `tools/staticlib` in the repository's root", archive.display());
    println!("cargo:rerun-if-changed={}", archive.display());
    println!("cargo:rustc-link-search=native={}", folder.display());
    println!("cargo:rustc-link-lib=static=service");
}

/// The module, as published or as the papers' folder names it.
fn source_file(root: &Path) -> Option<PathBuf> {
    let folder = std::env::var("HFCAST_SRC").map_or(root.join("../shared/docs/src"), PathBuf::from);
    let names = ["src--src--voacap--ccir.rs.txt", "src/voacap/ccir.rs"];
    names.iter().map(|name| folder.join(name)).find(|file| file.exists())
}

/// All that is changed: the elementary methods become document 01's rules, the search's readings are told to `met`, the curtain's
/// factor to `integrated`, each reading of its pattern to `read`, and the file's inner attributes, which an included file can't have, go.
fn edited(text: String) -> String {
    let mut text = text.replace("//!", "//");
    text = replaced(text, "#![allow(", "#[allow(", 1);
    text = replaced(text, "use super::con::R;", "use super::con::R;\nuse super::elementary::Elementary;", 1);
    text = replaced(text, "use super::super::con::R;", "use super::super::con::R;\nuse super::super::elementary::Elementary;", 1);
    let methods = [("sin", 29), ("cos", 46), ("ln", 1), ("log10", 2), ("powf", 1), ("powi", 2), ("atan", 2), ("sqrt", 25)];
    for (name, times) in methods {
        text = replaced(text, &format!(".{name}("), &format!(".rule_{name}("), times);
    }
    text = replaced(text, "4.0 * PI / dbltrap(&ant)", "super::super::integrated(4.0 * PI / dbltrap(&ant))", 1);
    let f2 = "fn f2(ant: &Curtain, theta: R, phi: R) -> R {";
    text = replaced(text, f2, &format!("{f2}\n        super::super::read();"), 1);
    let (search, end) = (text.find("fn azmax(").unwrap(), text.find("pub fn ccirgain(").unwrap());
    let told = replaced(text[search..end].to_string(), "self.gainrel(u, v)", "super::met(u, v, self.gainrel(u, v))", 3);
    format!("{}{told}{}", &text[..search], &text[end..])
}

/// A text that isn't the one these edits were written for is noticed.
fn replaced(text: String, old: &str, new: &str, times: usize) -> String {
    assert_eq!(text.matches(old).count(), times, "the source has {old} another number of times");
    text.replace(old, new)
}

/// The source and the oracle over it once more, each with its impostors' switches: `src/impostor.rs` includes them.
fn write_impostors(ccir: String, src: &Path, out: &Path) {
    std::fs::create_dir_all(out).unwrap();
    std::fs::write(out.join("ccir.rs"), switched(ccir, "ccir.rs")).unwrap();
    for name in [
        "source.rs",
        "expected.rs",
        "plate.rs",
        "planet.rs",
        "shown.rs",
        "masts.rs",
        "pictures.rs",
        "cards.rs",
        "card_text.rs",
        "reference.rs",
    ] {
        println!("cargo:rerun-if-changed={}", src.join(name).display());
        let text = std::fs::read_to_string(src.join(name)).unwrap().replace("//!", "//").replace("/ccir.rs", "/impostor/ccir.rs");
        std::fs::write(out.join(name), switched(text, name)).unwrap();
    }
}

/// Puts a switch at the place of each impostor of this file.
fn switched(mut text: String, file: &str) -> String {
    for (k, impostor) in impostors::IMPOSTORS.iter().enumerate().filter(|(_, impostor)| impostor.file == file) {
        let impostors::Impostor { name, after, old, new, .. } = impostor;
        let from = text.find(after).unwrap_or_else(|| panic!("{name}: {file} has no {after}"));
        let at = from + text[from..].find(old).unwrap_or_else(|| panic!("{name}: {file} has no {old} after {after}"));
        let either = format!("if crate::impostor::is({k}) {{ {new} }} else {{ {old} }}");
        let either = if old.ends_with(';') { either } else { format!("({either})") };
        text.replace_range(at..at + old.len(), &either);
    }
    text
}
