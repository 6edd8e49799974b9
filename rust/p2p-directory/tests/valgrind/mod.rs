//! Tests of the running program, under valgrind.

use p2p_directory::sized::Pair;
use std::env;
use std::process::Command;

/// Runs these tests of a pair of sizes under valgrind, if it is installed. Panics if it finds a leak
/// or an invalid access.
pub fn finds_nothing<P: Pair>(names: &[&str]) {
    if Command::new("valgrind").arg("--version").output().is_err() {
        println!("valgrind is not installed");
        return;
    }
    let test = env::current_exe().unwrap();
    for name in names {
        let name = format!("keys{}_{}::{name}", P::KEY_SIZE, P::SIGNATURE_SIZE);
        let done = Command::new("valgrind")
            .args(["--quiet", "--error-exitcode=9", "--leak-check=full"])
            .args(["--errors-for-leak-kinds=definite,indirect"])
            .arg(&test)
            .args(["--exact", &name, "--test-threads=1"])
            .output()
            .unwrap();
        let told = String::from_utf8_lossy(&done.stderr);
        assert!(done.status.success(), "{name}: {told}");
        let ran = String::from_utf8_lossy(&done.stdout);
        assert!(ran.contains("1 passed"), "no test is called {name}: {ran}");
    }
}
