//! Writes the stored stations, their texts and the lists of answers, as the oracle makes them, into the repository.
//! usage: write_stored     from the repository's root

#[cfg(source)]
fn main() -> std::io::Result<()> {
    use oracle::{examples, lists};
    for (path, bytes) in examples::inputs().into_iter().chain(examples::texts()).chain(lists::files()) {
        std::fs::create_dir_all(std::path::Path::new(&path).parent().unwrap())?;
        std::fs::write(&path, &bytes)?;
        println!("{path}: {} bytes", bytes.len());
    }
    Ok(())
}

#[cfg(not(source))]
fn main() {
    eprintln!("the answers need the source's Rust, which isn't in ../shared/docs/src; HFCAST_SRC may name its folder");
    std::process::exit(1);
}
