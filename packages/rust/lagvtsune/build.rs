//! Links the archive of the proved library. It is in `native/TARGET`, or in the directory that the
//! variable `LAGVTSUNE_DIR` names.

use std::path::{Path, PathBuf};
use std::{env, process};

const ARCHIVE: &str = "libcomplgen_c.a";

/// The option with which the package is compiled as itself, and not as `clap_complete`.
const OWN: &str = "lagvtsune_own";

fn main() {
    println!("cargo:rerun-if-env-changed=LAGVTSUNE_DIR");
    println!("cargo:rerun-if-env-changed=DOCS_RS");
    println!("cargo:rustc-check-cfg=cfg({OWN})");
    let target = variable("TARGET");
    let native = Path::new(&variable("CARGO_MANIFEST_DIR")).join("native").join(&target);
    let folder = env::var_os("LAGVTSUNE_DIR").map_or(native, PathBuf::from);
    let archive = folder.join(ARCHIVE);
    println!("cargo:rerun-if-changed={}", archive.display());
    if archive.is_file() {
        println!("cargo:rustc-cfg={OWN}");
        println!("cargo:rustc-link-search=native={}", folder.display());
        println!("cargo:rustc-link-lib=static=complgen_c");
    } else if env::var_os("DOCS_RS").is_some() {
        // Documentation is not linked.
        println!("cargo:rustc-cfg={OWN}");
    } else if env::var_os("CARGO_FEATURE_ORIGINAL").is_none() {
        refuse(&archive, &target);
    }
}

/// Returns a variable that cargo sets.
fn variable(name: &str) -> String {
    env::var(name).unwrap_or_else(|error| panic!("{name}: {error}"))
}

/// Explains what to do if there is no archive, and fails.
fn refuse(archive: &Path, target: &str) -> ! {
    eprintln!(
        "lagvtsune: {} does not exist (target: {target}).\n\
         On x86-64 Linux with glibc, run `rt lib` in crates/complgen_c of the repository, and copy\n\
         out/{ARCHIVE} there. If it is in another directory, set LAGVTSUNE_DIR to that directory.\n\
         On other targets, turn on the feature `original`: then the package is clap_complete.",
        archive.display()
    );
    process::exit(1)
}
