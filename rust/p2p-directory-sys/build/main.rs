//! Chooses which `libp2p_session.a` is linked, from the first of these that the environment sets.
//!
//! 1. `P2P_SESSION_LIB`: a folder with one.
//! 2. `P2P_SESSION_PROVE=1`: what `tools/archive.sh` of the repository proves and builds.
//! 3. `P2P_SESSION_PKG_CONFIG=1`: the package `p2p_session` that pkg-config finds.
//! 4. The archive within this package, for the target that it was built for.
//!
//! With `DOCS_RS` set nothing is linked, which is enough for the documentation. The script writes
//! to `OUT_DIR` alone, and the prover to `crates/*/out` of the repository.

mod package;
mod proved;
mod sha256;

use std::env;
use std::fs;
use std::io;
use std::path::{Path, PathBuf};
use std::process::{Command, Stdio};

/// The name of the library.
const LIBRARY: &str = "p2p_session";

/// Its file, which has the heap in C, too.
const ARCHIVE: &str = "libp2p_session.a";

/// The variables that decide which library is linked.
const ASKED: [&str; 7] = [
    "P2P_SESSION_LIB",
    "P2P_SESSION_PROVE",
    "P2P_SESSION_PKG_CONFIG",
    "DOCS_RS",
    "PKG_CONFIG",
    "PKG_CONFIG_PATH",
    "PKG_CONFIG_LIBDIR",
];

fn main() {
    println!("cargo::rerun-if-changed=build");
    for name in ASKED {
        println!("cargo::rerun-if-env-changed={name}");
    }
    if env::var_os("DOCS_RS").is_some() {
        return;
    }
    let linked = if let Some(folder) = env::var_os("P2P_SESSION_LIB") {
        link_and_track(Path::new(&folder))
    } else if is_on("P2P_SESSION_PROVE") {
        proved()
    } else if is_on("P2P_SESSION_PKG_CONFIG") {
        installed()
    } else {
        packaged()
    };
    if let Err(why) = linked {
        println!("cargo::error={why}");
    }
}

fn is_on(name: &str) -> bool {
    env::var_os(name).is_some_and(|value| value == "1")
}

/// Links the archive of a folder, and returns its path.
fn link(folder: &Path) -> Result<PathBuf, String> {
    let archive = folder.join(ARCHIVE);
    if !archive.is_file() {
        return Err(format!("{} has no {ARCHIVE}", folder.display()));
    }
    let bytes = fs::read(&archive).map_err(|error| format!("{}: {error}", archive.display()))?;
    println!(
        "cargo::rustc-env=P2P_SESSION_ARCHIVE={}",
        sha256::hex(&bytes)
    );
    println!("cargo::rustc-link-search=native={}", folder.display());
    println!("cargo::rustc-link-lib=static={LIBRARY}");
    Ok(archive)
}

/// Links the archive of a folder, and again whenever it changes.
fn link_and_track(folder: &Path) -> Result<(), String> {
    println!("cargo::rerun-if-changed={}", link(folder)?.display());
    Ok(())
}

/// Proves and builds the library of the repository that contains this package, and links it.
fn proved() -> Result<(), String> {
    let repository = repository().ok_or(
        "P2P_SESSION_PROVE=1 proves the sources of a clone of the repository, and there are none beside this package",
    )?;
    track_sources(&repository);
    let target = env::var("TARGET").expect("cargo sets it");
    let target = built_for(&target);
    let ended = Command::new(repository.join("tools/archive.sh"))
        .arg(target)
        .stdout(Stdio::from(io::stderr()))
        .status();
    if !ended.is_ok_and(|status| status.success()) {
        return Err(
            "tools/archive.sh failed: it needs Rattle's toolchain, rt, on the path. Without P2P_SESSION_PROVE=1 the \
             archive of this package is linked"
                .to_owned(),
        );
    }
    let out = PathBuf::from(env::var_os("OUT_DIR").expect("cargo sets it"));
    let built = repository.join("crates/p2p_session_c/out").join(target);
    let built = built.join(ARCHIVE);
    fs::copy(&built, out.join(ARCHIVE)).map_err(|error| format!("{}: {error}", built.display()))?;
    // Not tracked: cargo treats files that a build script writes as changed, and would prove again
    // each time.
    link(&out).map(drop)
}

/// Links the library that pkg-config finds, in the version of this package.
fn installed() -> Result<(), String> {
    let program = env::var_os("PKG_CONFIG").unwrap_or_else(|| "pkg-config".into());
    let version = env!("CARGO_PKG_VERSION");
    let asked = Command::new(program)
        .args(["--variable=libdir", &format!("{LIBRARY} = {version}")])
        .output()
        .map_err(|error| format!("pkg-config, which P2P_SESSION_PKG_CONFIG=1 asks: {error}"))?;
    if !asked.status.success() {
        let said = String::from_utf8_lossy(&asked.stderr);
        return Err(format!(
            "pkg-config finds no {LIBRARY} {version}: {}. Set PKG_CONFIG_PATH to the folder of {LIBRARY}.pc",
            said.trim().replace('\n', " ")
        ));
    }
    link_and_track(Path::new(String::from_utf8_lossy(&asked.stdout).trim()))
}

/// Links the archive within this package, if there is one for the target and it is the one that was
/// proved.
fn packaged() -> Result<(), String> {
    let target = env::var("TARGET").expect("cargo sets it");
    let folder = manifest().join("prebuilt").join(built_for(&target));
    if !folder.is_dir() {
        return Err(format!(
            "there is no archive for {target} in this package, only for {}. Set P2P_SESSION_LIB to a folder with one, \
             or DOCS_RS=1 to build the documentation alone",
            package::targets(&manifest().join("prebuilt"))
        ));
    }
    let proved = folder.join("PROVED");
    println!("cargo::rerun-if-changed={}", proved.display());
    let text =
        fs::read_to_string(&proved).map_err(|error| format!("{}: {error}", proved.display()))?;
    package::check_archive(&text, &folder)?;
    if let Some(repository) = repository() {
        track_sources(&repository);
        if !proved::fits(&text, &repository).unwrap_or(false) {
            println!(
                "cargo::warning=the sources of the archive have changed since it was proved, and it is linked all the \
                 same; P2P_SESSION_PROVE=1 proves and links them as they stand"
            );
        }
    }
    link_and_track(&folder)
}

/// The target whose archive serves a target. It calls `malloc`, `realloc`, `free`, `memcpy`, `memmove`
/// and `memset` of the C library and nothing else, so that of glibc serves musl.
fn built_for(target: &str) -> &str {
    match target {
        "x86_64-unknown-linux-musl" => "x86_64-unknown-linux-gnu",
        "aarch64-unknown-linux-musl" => "aarch64-unknown-linux-gnu",
        other => other,
    }
}

/// The repository, if this package is in a clone of it.
fn repository() -> Option<PathBuf> {
    let root = manifest().join("../..");
    (root.join("crates.txt").is_file() && root.join("tools/archive.sh").is_file()).then_some(root)
}

fn track_sources(repository: &Path) {
    let files = ["crates.txt", proved::HEAP].map(str::to_owned);
    for path in files.into_iter().chain(proved::folders()) {
        println!(
            "cargo::rerun-if-changed={}",
            repository.join(path).display()
        );
    }
}

fn manifest() -> PathBuf {
    PathBuf::from(env::var_os("CARGO_MANIFEST_DIR").expect("cargo sets it"))
}
