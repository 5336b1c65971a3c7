//! Writes the module tree that points to argmin's own files. They stay where they are: the
//! environment variable ARGMIN_SRC names the folder that holds argmin's `solver/`.

use std::path::{Path, PathBuf};
use std::{env, fs, process};

/// What has to be there. The first four are reached through the fifth.
const FILES: [&str; 6] = [
    "solver/trustregion/cauchypoint.rs",
    "solver/trustregion/dogleg.rs",
    "solver/trustregion/steihaug.rs",
    "solver/trustregion/trustregion_method.rs",
    "solver/trustregion/mod.rs",
    "solver/quasinewton/sr1_trustregion.rs",
];

fn main() {
    println!("cargo::rerun-if-env-changed=ARGMIN_SRC");
    println!("cargo::rerun-if-changed=build.rs");
    let source = match env::var_os("ARGMIN_SRC") {
        Some(folder) => PathBuf::from(folder),
        None => fail("ARGMIN_SRC is not set"),
    };
    // A relative path would be taken from the folder of the generated file.
    let Ok(source) = source.canonicalize() else {
        fail(&format!("there is no folder {}", source.display()));
    };
    for file in FILES {
        let path = source.join(file);
        if !path.is_file() {
            fail(&format!("there is no file {}", path.display()));
        }
        println!("cargo::rerun-if-changed={}", path.display());
    }
    let tree = format!(
        "{}pub mod quasinewton {{\n{}pub use self::sr1_trustregion::*;\n}}\n",
        module(&source, "trustregion", FILES[4]),
        module(&source, "sr1_trustregion", FILES[5]),
    );
    let out = PathBuf::from(env::var_os("OUT_DIR").expect("cargo names a folder for output"));
    fs::write(out.join("solver.rs"), tree).expect("the folder for output can be written");
}

/// Their style is not ours to judge, so clippy leaves it alone.
fn module(source: &Path, name: &str, file: &str) -> String {
    let path = source.join(file);
    let path = path
        .to_str()
        .unwrap_or_else(|| fail("the path is not UTF-8"));
    format!("#[allow(clippy::all)]\n#[path = {path:?}]\npub mod {name};\n")
}

fn fail(what: &str) -> ! {
    println!(
        "cargo::error={what}: set ARGMIN_SRC to the folder that holds argmin's solver/ (see README.md)"
    );
    process::exit(1);
}
