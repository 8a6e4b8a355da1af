//! Links `liblegrudda.a` from the folder that LEGRUDDA_LIB names, by default crates/legrudda/out of this repository. A
//! relative folder is one below this crate's.
use std::{env, path::PathBuf};

fn main() {
    println!("cargo:rerun-if-env-changed=LEGRUDDA_LIB");
    let crate_folder = PathBuf::from(env::var_os("CARGO_MANIFEST_DIR").expect("cargo sets it"));
    let folder = env::var_os("LEGRUDDA_LIB").unwrap_or_else(|| "../../crates/legrudda/out".into());
    let folder = crate_folder.join(folder);
    let library = folder.join("liblegrudda.a");
    println!("cargo:rerun-if-changed={}", library.display());
    println!("cargo:rustc-link-search=native={}", folder.display());
    // Not bundled with this crate, the library is looked for only where a program is linked: check and doc need none.
    println!("cargo:rustc-link-lib=static:-bundle=legrudda");
    if !library.is_file() {
        println!(
            "cargo:warning=there is no {}, so no program can be linked: run `rt lib --cpu x86-64` in crates/legrudda of the \
             repository, or set LEGRUDDA_LIB to the folder that has liblegrudda.a",
            library.display()
        );
    }
}
