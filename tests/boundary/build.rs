//! Links the static library that KAWSARPA_LIB names.

use std::path::Path;

fn main() {
    println!("cargo:rerun-if-env-changed=KAWSARPA_LIB");
    let Some(library) = std::env::var_os("KAWSARPA_LIB") else {
        fail("set KAWSARPA_LIB to the path of libkawsarpa.a");
    };
    match Path::new(&library).canonicalize() {
        Ok(path) if path.is_file() => {
            println!("cargo:rerun-if-changed={}", path.display());
            println!("cargo:rustc-link-arg={}", path.display());
        }
        _ => fail(&format!(
            "KAWSARPA_LIB: {} is no file",
            library.to_string_lossy()
        )),
    }
}

fn fail(why: &str) -> ! {
    eprintln!("{why}");
    std::process::exit(1);
}
