//! Writes the stored answers into a folder, by default the one that is committed:
//! vectors [FOLDER]
use std::{env, fs, io, path::Path};

use oracle::vectors::{plan_texts, sessions};

fn main() -> io::Result<()> {
    let folder = env::args()
        .nth(1)
        .unwrap_or_else(|| concat!(env!("CARGO_MANIFEST_DIR"), "/../vectors").into());
    let folder = Path::new(&folder);
    fs::create_dir_all(folder)?;
    for session in sessions() {
        fs::write(
            folder.join(session.name).with_extension("in"),
            &session.input,
        )?;
        fs::write(
            folder.join(session.name).with_extension("out"),
            &session.output,
        )?;
        println!("{}: {} commands", session.name, session.commands);
    }
    let texts = plan_texts();
    fs::write(folder.join("plan.texts"), &texts.text)?;
    println!("plan.texts: {} cases", texts.cases);
    Ok(())
}
