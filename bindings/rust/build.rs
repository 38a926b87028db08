// Says where libhost.a and libfast.a are: in the folder that MIRAVOLY_ARCHIVE names, else where `tools/build host fast` writes them.
use std::env;
use std::path::PathBuf;
use std::process;

fn main() {
    println!("cargo:rerun-if-env-changed=MIRAVOLY_ARCHIVE");
    let folder = match env::var_os("MIRAVOLY_ARCHIVE") {
        Some(folder) => PathBuf::from(folder),
        None => PathBuf::from(env!("CARGO_MANIFEST_DIR")).join("../../target/staticlib"),
    };
    let mut missing = false;
    for name in ["host", "fast"] {
        let archive = folder.join(format!("lib{name}.a"));
        println!("cargo:rerun-if-changed={}", archive.display());
        if !archive.is_file() {
            eprintln!(
                "{} is missing: `tools/build {name}` writes it",
                archive.display()
            );
            missing = true;
        }
    }
    if missing {
        process::exit(1);
    }
    println!("cargo:rustc-link-search=native={}", folder.display());
}
