//! Says where the module's archive is: in the folder that DDLP_ARCHIVE names,
//! or where tools/archive puts it.

use std::env;
use std::path::PathBuf;

fn main() {
    println!("cargo:rerun-if-env-changed=DDLP_ARCHIVE");
    let here = PathBuf::from(env::var("CARGO_MANIFEST_DIR").unwrap_or_default());
    let usual = here.join("../target/staticlib");
    let folder = env::var("DDLP_ARCHIVE").map_or(usual, PathBuf::from);
    println!("cargo:rustc-link-search=native={}", folder.display());
    println!("cargo:rerun-if-changed={}", folder.join("libddlp.a").display());
}
