//! Makes the static library of the crate `entryreader_c` with `rt`, which proves it first, and links a copy of it under the name `libentryreader.a`; that
//! of `test_calls_c`, as `libtest_calls.a`, too where the feature `test-calls` asks for it. Libraries made before are taken, under these names, from the
//! folder that the variable `ENTRYREADER_LIBRARIES` names.
use std::env;
use std::fs::{self, File, OpenOptions};
use std::io::{self, Write};
use std::os::unix::fs::FileTypeExt;
use std::path::{Path, PathBuf};
use std::process::Command;

/// The folder with libraries that were made before.
const LIBRARIES: &str = "ENTRYREADER_LIBRARIES";

fn main() {
    println!("cargo::rerun-if-env-changed={LIBRARIES}");
    println!("cargo::rerun-if-changed=../crates.txt");
    watch_crates();
    // Cargo ends with the sentence, and shows nothing else of this script.
    if let Err(sentence) = link() {
        println!("cargo::error={}", sentence.replace('\n', " "));
    }
}

/// Links the libraries, or says in a sentence why it cannot be.
fn link() -> Result<(), String> {
    let (system, machine) = (
        variable("CARGO_CFG_TARGET_OS"),
        variable("CARGO_CFG_TARGET_ARCH"),
    );
    if (system.as_str(), machine.as_str()) != ("linux", "x86_64") {
        return Err(format!(
            "the entry reader is made for x86-64 Linux only, not for {machine} {system}"
        ));
    }
    let out = PathBuf::from(variable("OUT_DIR"));
    let names: &[&str] = match env::var_os("CARGO_FEATURE_TEST_CALLS") {
        Some(_) => &["entryreader", "test_calls"],
        None => &["entryreader"],
    };
    match env::var_os(LIBRARIES) {
        Some(folder) => names
            .iter()
            .try_for_each(|name| take(Path::new(&folder), &out, name))?,
        None => make_all(names, &out)?,
    }
    println!("cargo::rustc-link-search=native={}", out.display());
    for name in names {
        println!("cargo::rustc-link-lib=static={name}");
    }
    // Where the tests find the library for programs in C.
    println!(
        "cargo::rustc-env=ENTRYREADER_LIBRARY={}",
        out.join("libentryreader.a").display()
    );
    Ok(())
}

fn variable(name: &str) -> String {
    env::var(name).unwrap_or_default()
}

/// Has cargo look at the files of each crate, but not at `out/`, where `rt` writes.
fn watch_crates() {
    for folder in fs::read_dir("../crates").into_iter().flatten().flatten() {
        for part in ["src", "specs", "proofs"] {
            let part = folder.path().join(part);
            if part.is_dir() {
                println!("cargo::rerun-if-changed={}", part.display());
            }
        }
    }
}

/// Makes the libraries in the repository around this folder. One at a time: a second cargo waits at the lock, and then finds the proofs done.
fn make_all(names: &[&str], out: &Path) -> Result<(), String> {
    let root = PathBuf::from(variable("CARGO_MANIFEST_DIR")).join("..");
    let list = root.join("crates.txt");
    let lock = File::open(&list).map_err(|error| format!("{}: {error}", list.display()))?;
    if lock.try_lock().is_err() {
        announce("waiting for another cargo, which is proving the same libraries");
        lock.lock()
            .map_err(|error| format!("{}: {error}", list.display()))?;
    }
    announce(&format!(
        "proving and compiling {} with `rt`: some minutes the first time, seconds later",
        names.join(" and ")
    ));
    names.iter().try_for_each(|name| make(&root, out, name))
}

/// Proves the crate of exports over a library, and makes its static library.
fn make(root: &Path, out: &Path, name: &str) -> Result<(), String> {
    let folder = root.join(format!("crates/{name}_c"));
    let made = Command::new("rt").arg("lib").current_dir(&folder).output();
    let made = made.map_err(|error| match error.kind() {
        io::ErrorKind::NotFound if folder.is_dir() => format!(
            "`rt`, the Rattle toolchain, is not on the PATH: install it, or let {LIBRARIES} name a folder with lib{name}.a"
        ),
        _ => format!("`rt lib` cannot be run in {}: {error}", folder.display()),
    })?;
    if made.status.success() {
        return copy(&folder.join(format!("out/lib{name}_c.a")), out, name);
    }
    let log = out.join(format!("{name}.log"));
    let written = fs::write(&log, [made.stdout, made.stderr].concat());
    written.map_err(|error| format!("{}: {error}", log.display()))?;
    Err(format!(
        "`rt lib` failed in {}: {} has what it printed",
        folder.display(),
        log.display()
    ))
}

/// Takes a library that was made before, and again when it changes.
fn take(folder: &Path, out: &Path, name: &str) -> Result<(), String> {
    let library = folder.join(format!("lib{name}.a"));
    println!("cargo::rerun-if-changed={}", library.display());
    copy(&library, out, name)
}

/// Copies a library to where it is linked from.
fn copy(library: &Path, out: &Path, name: &str) -> Result<(), String> {
    fs::copy(library, out.join(format!("lib{name}.a")))
        .map_err(|error| format!("{}: {error}", library.display()))?;
    Ok(())
}

/// A word to who waits. Cargo shows what a build script prints only when it is done, so it goes to the terminal, or, where there is none, to cargo's
/// own standard error.
fn announce(sentence: &str) {
    let line = format!("\r\x1b[K   entryreader: {sentence}\n");
    if let Ok(mut terminal) = OpenOptions::new().write(true).open("/dev/tty") {
        let _ = terminal.write_all(line.as_bytes());
        return;
    }
    let errors = format!("/proc/{}/fd/2", std::os::unix::process::parent_id());
    // A file is left alone: cargo would write over the line.
    let pipe = fs::metadata(&errors).is_ok_and(|about| about.file_type().is_fifo());
    if pipe && let Ok(mut errors) = OpenOptions::new().write(true).open(&errors) {
        let _ = writeln!(errors, "   entryreader: {sentence}");
    }
}
