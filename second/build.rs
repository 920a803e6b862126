use std::env;
use std::path::PathBuf;

const DIRECTORY: &str = "NIOS2_ARCHIVE_DIR";

fn main() {
    let base = PathBuf::from(env::var_os("CARGO_MANIFEST_DIR").expect("set by cargo"));
    let given = env::var_os(DIRECTORY).unwrap_or_else(|| "../crates/nios2c/out".into());
    let directory = base.join(given);
    println!("cargo:rerun-if-env-changed={DIRECTORY}");
    println!(
        "cargo:rerun-if-changed={}",
        directory.join("libnios2c.a").display()
    );
    println!("cargo:rustc-link-search=native={}", directory.display());
    println!("cargo:rustc-link-lib=static=nios2c");
}
