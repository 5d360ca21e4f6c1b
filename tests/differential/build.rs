//! Says where the proved static library lies.

fn main() {
    println!("cargo:rerun-if-env-changed=BURNISHPEG_LIB");
    println!("cargo:rerun-if-changed=build.rs");
    if std::env::var_os("CARGO_FEATURE_LIBRARY").is_none() {
        return;
    }
    let Ok(folder) = std::env::var("BURNISHPEG_LIB") else {
        eprintln!("Set BURNISHPEG_LIB to the folder that holds libburnishpeg.a (absolute path).");
        eprintln!("Without the library, build with --no-default-features: the harness is then compared with itself.");
        std::process::exit(1);
    };
    let archive = std::path::Path::new(&folder).join("libburnishpeg.a");
    if !archive.is_file() {
        eprintln!("BURNISHPEG_LIB is {folder}, and that folder holds no libburnishpeg.a.");
        std::process::exit(1);
    }
    println!("cargo:rerun-if-changed={}", archive.display());
    println!("cargo:rustc-link-search=native={folder}");
    println!("cargo:rustc-link-lib=static=burnishpeg");
}
