//! Links the static library of the repository that this crate stands in, and has it proved and built where it is missing or older than
//! its sources.
use std::fs;
use std::path::{Path, PathBuf};
use std::process::Command;
use std::time::SystemTime;

/// When a file, or the newest one in a folder, was changed.
fn changed(path: &Path) -> Option<SystemTime> {
    match fs::read_dir(path) {
        Ok(entries) => entries.flatten().filter_map(|entry| changed(&entry.path())).max(),
        Err(_) => fs::metadata(path).and_then(|file| file.modified()).ok(),
    }
}

/// What the library is proved and built from. Beside these folders a crate has what was made of it.
fn sources(root: &Path) -> Vec<PathBuf> {
    let crates = fs::read_dir(root.join("crates")).expect("the repository has its crates");
    let folders = crates.flatten().flat_map(|one| {
        let one = one.path();
        ["src", "specs", "proofs"].map(|part| one.join(part))
    });
    folders.filter(|folder| folder.exists()).chain([root.join("crates.txt")]).collect()
}

fn main() {
    let root = Path::new(env!("CARGO_MANIFEST_DIR")).join("../..");
    let folder = root.join("target/staticlib");
    let archive = folder.join("libcogsplice_c.a");
    let sources = sources(&root);
    let newest = sources.iter().filter_map(|one| changed(one)).max();
    if changed(&archive) < newest {
        let build = root.join("bin/build");
        let built = Command::new(build).arg("cogsplice_c").status();
        let built = built.expect("bin/build cannot be run");
        assert!(built.success(), "the library could not be proved and built");
    }
    for one in &sources {
        println!("cargo:rerun-if-changed={}", one.display());
    }
    println!("cargo:rerun-if-changed={}", archive.display());
    println!("cargo:rustc-link-search=native={}", folder.display());
    println!("cargo:rustc-link-lib=static=cogsplice_c");
}
