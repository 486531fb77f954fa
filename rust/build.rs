//! Links the kernel, libspanwhistle.a, from the folder that SPANWHISTLE_LIB names, or from where `tools/build spanwhistle` puts it. Where
//! it is not there this only warns, so that `cargo doc` and `cargo check` do without it; what links then fails, after the warning.
use std::env;
use std::path::PathBuf;

fn main() {
    println!("cargo:rerun-if-env-changed=SPANWHISTLE_LIB");
    let folder = match env::var_os("SPANWHISTLE_LIB") {
        Some(folder) => PathBuf::from(folder),
        None => PathBuf::from(env::var_os("CARGO_MANIFEST_DIR").expect("cargo sets it"))
            .join("../target/staticlib"),
    };
    let archive = folder.join("libspanwhistle.a");
    println!("cargo:rerun-if-changed={}", archive.display());
    if !archive.exists() {
        println!(
            "cargo:warning={} is not there: run `tools/build spanwhistle`, or set SPANWHISTLE_LIB to its folder",
            archive.display()
        );
    }
    println!("cargo:rustc-link-search=native={}", folder.display());
    println!("cargo:rustc-link-lib=static=spanwhistle");
}
