//! Finds libboardid.a and has it linked.
//!
//! The environment variable BOARDID_LIB names its folder. A path that does not begin with a slash
//! counts from this crate, and so does the default, ../../target/staticlib.

use std::env;
use std::path::Path;
use std::process::exit;

fn main() {
    let crate_folder = env::var("CARGO_MANIFEST_DIR").expect("cargo gives the crate's folder");
    let given = env::var("BOARDID_LIB").unwrap_or_else(|_| "../../target/staticlib".to_string());
    let folder = Path::new(&crate_folder).join(given);
    let archive = folder.join("libboardid.a");

    println!("cargo:rerun-if-env-changed=BOARDID_LIB");
    println!("cargo:rerun-if-changed={}", archive.display());
    if !archive.is_file() {
        eprintln!("there is no {}", archive.display());
        eprintln!("run `library/build`, or set BOARDID_LIB to the folder of the archive");
        exit(1);
    }
    println!("cargo:rustc-link-search=native={}", folder.display());
    println!("cargo:rustc-link-lib=static=boardid");
}
