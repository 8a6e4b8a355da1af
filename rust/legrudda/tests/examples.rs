//! Every public item has an example, which `cargo test` runs with the others.
use std::fs;

/// What begins a public type, function, method or constant.
const BEGIN: [&str; 4] = ["pub fn ", "pub struct ", "pub enum ", "pub const "];

#[test]
fn every_public_item_has_one() {
    let mut items = 0;
    for file in fs::read_dir(concat!(env!("CARGO_MANIFEST_DIR"), "/src")).unwrap() {
        let path = file.unwrap().path();
        // The library's functions as they are declared, which the crate keeps to itself.
        if path.ends_with("ffi.rs") {
            continue;
        }
        let text = fs::read_to_string(&path).unwrap();
        let lines: Vec<_> = text.lines().map(str::trim_start).collect();
        for (at, item) in lines.iter().enumerate() {
            if BEGIN.iter().any(|begin| item.starts_with(begin)) {
                let above = lines[..at].iter().rev();
                let mut doc = above.take_while(|line| line.starts_with(['/', '#']));
                assert!(doc.any(|line| *line == "/// ```"), "{path:?}: {item}");
                items += 1;
            }
        }
    }
    assert!(items > 0);
}
