//! Finds the archive of the proved library and links it, or says in words what
//! to run.
//!
//! The archive is `libexports.a`, as `tools/library` builds it, or
//! `libbravolith.a`, as `tools/install PREFIX` installs it. The variable
//! BRAVOLITH_ARCHIVE_DIR names the folder that has it. Where that is not set, it
//! is looked for in `target/staticlib` of the repository, then where pkg-config
//! says that it is installed, and then in `/usr/local/lib` and `/usr/lib`. It is
//! for x86-64, unless BRAVOLITH_ARCHIVE_ARCH names another processor, as
//! `tools/bench` does of what `tools/native` makes to be measured.

use std::env;
use std::path::{Path, PathBuf};
use std::process::{exit, Command};

/// The names that the archive may have, as the linker says them.
const NAMES: [&str; 2] = ["bravolith", "exports"];

fn main() {
    println!("cargo:rerun-if-changed=build.rs");
    println!("cargo:rerun-if-env-changed=BRAVOLITH_ARCHIVE_ARCH");
    println!("cargo:rerun-if-env-changed=BRAVOLITH_ARCHIVE_DIR");
    println!("cargo:rerun-if-env-changed=PKG_CONFIG_PATH");
    let target = variable("TARGET");
    let processor = env::var("BRAVOLITH_ARCHIVE_ARCH").unwrap_or_else(|_| "x86_64".into());
    if variable("CARGO_CFG_TARGET_ARCH") != processor || variable("CARGO_CFG_TARGET_OS") != "linux"
    {
        stop(&format!(
            "the proved library is compiled for x86-64 Linux, and this build is for {target}.\n\
             Build with --target x86_64-unknown-linux-gnu."
        ));
    }
    let named = env::var_os("BRAVOLITH_ARCHIVE_DIR").map(PathBuf::from);
    let folders = match &named {
        Some(folder) => vec![folder.clone()],
        None => usual(),
    };
    let found = folders
        .iter()
        .find_map(|folder| Some((folder, name_in(folder)?)));
    match found {
        Some((folder, name)) => {
            println!("cargo:rerun-if-changed={}", archive(folder, name).display());
            println!("cargo:rustc-link-search=native={}", folder.display());
            println!("cargo:rustc-link-lib=static={name}");
        }
        None => stop(&missing(named.is_some(), &folders)),
    }
}

fn variable(name: &str) -> String {
    env::var(name).expect("cargo tells a build script its target")
}

fn archive(folder: &Path, name: &str) -> PathBuf {
    folder.join(format!("lib{name}.a"))
}

/// Under which of its names the archive is in a folder.
fn name_in(folder: &Path) -> Option<&'static str> {
    NAMES
        .into_iter()
        .find(|name| archive(folder, name).is_file())
}

/// Where the archive usually is.
fn usual() -> Vec<PathBuf> {
    let package = PathBuf::from(variable("CARGO_MANIFEST_DIR"));
    let mut folders = vec![package.join("../../target/staticlib")];
    let asked = Command::new("pkg-config")
        .args(["--variable=libdir", "bravolith"])
        .output();
    if let Ok(told) = asked {
        let folder = String::from_utf8_lossy(&told.stdout).trim().to_owned();
        if told.status.success() && !folder.is_empty() {
            folders.push(PathBuf::from(folder));
        }
    }
    folders.extend(["/usr/local/lib", "/usr/lib"].map(PathBuf::from));
    folders
}

fn missing(named: bool, folders: &[PathBuf]) -> String {
    let mut words = String::from(
        "the proved library is not there. Neither libbravolith.a nor libexports.a is in\n",
    );
    for folder in folders {
        words += &format!("  {}\n", folder.display());
    }
    if named {
        words += "which BRAVOLITH_ARCHIVE_DIR names.\n";
    }
    words += "Prove and build it in the Bravolith repository:\n  \
              tools/library\n\
              or install it from there:\n  \
              tools/install PREFIX\n\
              and set BRAVOLITH_ARCHIVE_DIR to the whole path of the folder that has it:\n\
              target/staticlib of that repository, or PREFIX/lib.";
    words
}

/// Ends the build with these words.
fn stop(words: &str) -> ! {
    eprintln!("\nbravolith: {words}\n");
    exit(1);
}
