//! Links libpost.a and the archive of each feature: `tools/staticlib` makes them under the repository's target/, or POST_LIBRARY names the first, beside
//! which the others are to lie.

use std::env;
use std::fs;
use std::path::{Path, PathBuf};
use std::process::exit;

/// Each feature that has an archive, as cargo writes it, and the archive's name.
const FEATURES: [(&str, &str); 3] = [("FILTERS", "post_filters"), ("RECORDING", "post_recording"), ("LOAD", "post_load")];

fn main() {
    println!("cargo::rerun-if-env-changed=POST_LIBRARY");
    let library = library();
    link("post", &library);
    for (feature, name) in FEATURES {
        if env::var_os(format!("CARGO_FEATURE_{feature}")).is_some() {
            link(name, &library.with_file_name(format!("lib{name}.a")));
        }
    }
}

fn link(name: &str, library: &Path) {
    println!("cargo::rerun-if-changed={}", library.display());
    if !library.is_file() {
        fail(&format!(
            "{}: there is no such file. `tools/staticlib {name}` makes the library, and POST_LIBRARY may name libpost.a.",
            library.display()
        ));
    }
    // The linker finds a library by name, so this one gets the name in a folder of its own.
    let folder = PathBuf::from(env::var_os("OUT_DIR").expect("cargo sets OUT_DIR"));
    if let Err(why) = fs::copy(library, folder.join(format!("lib{name}.a"))) {
        fail(&format!("{}: {why}", library.display()));
    }
    println!("cargo::rustc-link-search=native={}", folder.display());
    println!("cargo::rustc-link-lib=static={name}");
}

/// The first library's file. A relative POST_LIBRARY starts in the folder in which cargo was started, which PWD names.
fn library() -> PathBuf {
    let Some(named) = env::var_os("POST_LIBRARY").filter(|named| !named.is_empty()) else {
        let here = PathBuf::from(env::var_os("CARGO_MANIFEST_DIR").expect("cargo sets CARGO_MANIFEST_DIR"));
        return here.ancestors().nth(2).unwrap_or(&here).join("target/staticlib/libpost.a");
    };
    println!("cargo::rerun-if-env-changed=PWD");
    match env::var_os("PWD") {
        _ if Path::new(&named).is_absolute() => named.into(),
        Some(started) => Path::new(&started).join(named),
        None => fail("POST_LIBRARY is relative, and PWD, from which it would start, is not set."),
    }
}

fn fail(why: &str) -> ! {
    println!("cargo::error={why}");
    exit(1)
}
