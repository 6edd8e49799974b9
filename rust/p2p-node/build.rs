//! Links libsodium where pkg-config finds it.

use std::process::{Command, ExitCode};

const ABSENT: &str = "libsodium is missing: install it with its headers (on Debian the package \
                      `libsodium-dev`), and pkg-config";

fn flags() -> Result<String, String> {
    let found = Command::new("pkg-config")
        .args(["--libs", "--cflags", "libsodium"])
        .output()
        .map_err(|error| format!("{ABSENT}: pkg-config: {error}"))?;
    if !found.status.success() {
        let why = String::from_utf8_lossy(&found.stderr);
        return Err(format!("{ABSENT}: {}", why.trim()));
    }
    String::from_utf8(found.stdout).map_err(|error| format!("pkg-config: {error}"))
}

fn main() -> ExitCode {
    println!("cargo::rerun-if-changed=build.rs");
    println!("cargo::rerun-if-env-changed=PKG_CONFIG_PATH");
    match flags() {
        Ok(flags) => {
            for flag in flags.split_whitespace() {
                if let Some(folder) = flag.strip_prefix("-L") {
                    println!("cargo::rustc-link-search=native={folder}");
                } else if let Some(library) = flag.strip_prefix("-l") {
                    println!("cargo::rustc-link-lib={library}");
                }
            }
            ExitCode::SUCCESS
        }
        Err(why) => {
            println!("cargo::error={why}");
            ExitCode::FAILURE
        }
    }
}
