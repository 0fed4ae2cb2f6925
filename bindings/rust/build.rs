// Names the engine's static library, which `rt lib` writes in crates/stringmoss, and says so where there is none. STRINGMOSS_ARCHIVE is the folder that
// has it, if it is another. Takes the Rust of README out of it, for the doc test that compiles it.
use std::path::{Path, PathBuf};

fn variable(name: &str) -> String {
    std::env::var(name).unwrap_or_default()
}

/// Ends the build with a line that says why.
fn refuse(why: &str) -> ! {
    eprintln!("stringmoss: {why}");
    std::process::exit(1);
}

/// The blocks of Rust in a text of Markdown.
fn rust_of(text: &str) -> String {
    let mut inside = false;
    let mut blocks = String::new();
    for line in text.lines() {
        let opens = line == "```rust";
        if inside || opens {
            blocks += &format!("{line}\n");
        }
        inside = opens || (inside && line != "```");
    }
    blocks
}

fn name_archive(here: &Path) {
    let (arch, os) = (variable("CARGO_CFG_TARGET_ARCH"), variable("CARGO_CFG_TARGET_OS"));
    if arch != "x86_64" || os != "linux" {
        refuse(&format!(
            "the engine's archive is for x86-64 Linux alone, and the target is {}",
            variable("TARGET")
        ));
    }
    let folder = match std::env::var_os("STRINGMOSS_ARCHIVE") {
        Some(folder) => PathBuf::from(folder),
        None => here.join("../../crates/stringmoss/out"),
    };
    let archive = folder.join("libstringmoss.a");
    println!("cargo:rerun-if-changed={}", archive.display());
    if !archive.is_file() {
        refuse(&format!(
            "the engine's archive is missing: there is no {}. `rt lib`, in crates/stringmoss of the engine's folder, writes it to out/ there; \
             STRINGMOSS_ARCHIVE names another folder that has it",
            archive.display()
        ));
    }
    println!("cargo:rustc-link-search=native={}", folder.display());
    println!("cargo:rustc-link-lib=static=stringmoss");
}

fn main() {
    println!("cargo:rerun-if-env-changed=STRINGMOSS_ARCHIVE");
    println!("cargo:rerun-if-changed=build.rs");
    let here = PathBuf::from(variable("CARGO_MANIFEST_DIR"));
    name_archive(&here);
    let readme = here.join("../../README.md");
    println!("cargo:rerun-if-changed={}", readme.display());
    let blocks = rust_of(&std::fs::read_to_string(readme).unwrap_or_default());
    if let Err(why) = std::fs::write(Path::new(&variable("OUT_DIR")).join("readme.md"), blocks) {
        refuse(&format!("the Rust of README could not be written: {why}"));
    }
}
