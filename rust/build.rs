//! Links the proved functions, for which it asks `tools/archives`: that script builds the library anew wherever the crates
//! have changed, so none that is stale is ever linked. Beside them stand the cover written by hand in C
//! (`hand/`) and the crate `timed`, which only the benchmark calls.
//! All of this is code for x86-64: there it is linked in; on another machine it is linked into a small program of its own,
//! `far/far.c`, that the wrappers of `src/ffi.rs` talk to. The feature `far` has that program on x86-64 too, to try it.

use std::path::{Path, PathBuf};
use std::process::{Command, Stdio};

const BY_HAND: [&str; 3] = ["hand/quick.c", "hand/bytes.c", "hand/plain.c"];
const STRICT: [&str; 5] = ["-O2", "-std=c11", "-Wall", "-Wextra", "-Werror"];

fn main() {
    println!("cargo:rerun-if-changed=build.rs");
    if std::env::var_os("CARGO_FEATURE_LINKED").is_none() {
        return;
    }
    let here = PathBuf::from(std::env::var_os("CARGO_MANIFEST_DIR").unwrap());
    let root = here.parent().unwrap();
    let out = PathBuf::from(std::env::var_os("OUT_DIR").unwrap());
    for part in ["crates.txt", "tools/archives", "tools/x86-64", "include", "rust/hand", "rust/far"] {
        rerun_when_changed(&root.join(part));
    }
    // a crate's out/ is what rt makes, and no source
    for entry in std::fs::read_dir(root.join("crates")).unwrap() {
        let folder = entry.unwrap().path();
        for part in ["src", "specs", "proofs"].map(|part| folder.join(part)).iter().filter(|part| part.is_dir()) {
            rerun_when_changed(part);
        }
    }
    let library = PathBuf::from(said(&mut Command::new(root.join("tools/archives"))).trim_end());
    let timed = PathBuf::from(said(Command::new(root.join("tools/archives")).arg("timed")).trim_end());
    rerun_when_changed(&library);
    rerun_when_changed(&timed);
    let compiler = root.join("tools/x86-64");
    let far =
        std::env::var_os("CARGO_FEATURE_FAR").is_some() || std::env::var("CARGO_CFG_TARGET_ARCH").unwrap() != "x86_64";
    if far {
        let program = out.join("far");
        let sources = BY_HAND.iter().chain(&["far/far.c"]).map(|file| here.join(file));
        said(
            Command::new(&compiler)
                .arg("cc")
                .args(STRICT)
                .args(sources)
                .args([&library, &timed])
                .arg("-o")
                .arg(&program),
        );
        let prefix = said(Command::new(&compiler).arg("prefix"));
        println!("cargo:rustc-env=FAR_WORDS={}\u{1f}{}", prefix.replace('\n', "\u{1f}"), program.display());
        return;
    }
    for file in BY_HAND {
        let object = out.join(Path::new(file).file_name().unwrap()).with_extension("o");
        said(Command::new(&compiler).arg("cc").args(STRICT).arg("-c").arg(here.join(file)).arg("-o").arg(&object));
        println!("cargo:rustc-link-arg={}", object.display());
    }
    println!("cargo:rustc-link-arg={}", timed.display());
    println!("cargo:rustc-link-search=native={}", library.parent().unwrap().display());
    println!("cargo:rustc-link-lib=static=keekaboor");
}

/// What a command that must succeed printed.
fn said(command: &mut Command) -> String {
    let output = command.stderr(Stdio::inherit()).output().unwrap_or_else(|error| panic!("{command:?}: {error}"));
    assert!(output.status.success(), "{command:?} failed; cargo with --no-default-features needs none of this");
    String::from_utf8(output.stdout).unwrap()
}

fn rerun_when_changed(path: &Path) {
    println!("cargo:rerun-if-changed={}", path.display());
}
