//! `p2p-node simulate` as a program: its words, its files and its pictures.

use std::fs;
use std::path::{Path, PathBuf};
use std::process::{Command, Output};

fn run(words: &[&str]) -> Output {
    let program = env!("CARGO_BIN_EXE_p2p-node");
    let mut command = Command::new(program);
    let command = command.arg("simulate").args(words);
    command.output().expect("the program starts")
}

fn folder(name: &str) -> PathBuf {
    let folder = Path::new(env!("CARGO_TARGET_TMPDIR")).join(name);
    // It may be there from an earlier test run.
    let _ = fs::remove_dir_all(&folder);
    fs::create_dir_all(&folder).expect("a folder for the test");
    folder
}

/// Runs a small network with all kinds of trouble, and returns the bytes of all its files.
fn files(name: &str, seed: &str) -> Vec<Vec<u8>> {
    let folder = folder(name);
    let names = ["csv", "cells", "details", "html"];
    let paths = names.map(|name| folder.join(name).to_string_lossy().into_owned());
    let flags = "--nodes 40 --connections 6 --ticks 15 --lifetime 4 --churn 0.02 --loss 0.05 \
                 --liars-true 0.05 --liars-empty 0.05 --liars-oldest 0.05 --liars-silent 0.05 \
                 --liars-forged 0.05";
    let mut words: Vec<&str> = flags.split_whitespace().collect();
    words.extend(["--seed", seed]);
    let flags = names.map(|name| format!("--{name}"));
    for (flag, path) in flags.iter().zip(&paths) {
        words.extend([flag, path.as_str()]);
    }
    let output = run(&words);
    assert!(output.status.success(), "{output:?}");
    let files = paths.map(|path| fs::read(path).expect("the file was written"));
    files.to_vec()
}

#[test]
fn the_same_seed_gives_the_same_bytes() {
    let first = files("same-1", "7");
    assert!(first.iter().all(|file| file.len() > 1000));
    assert_eq!(first, files("same-2", "7"));
    let other = files("same-3", "8");
    for (one, other) in first.iter().zip(&other) {
        assert_ne!(one, other);
    }
}

#[test]
fn stored_runs_are_those_of_their_parameters() {
    // The runs of the documentation. If one differs, tools/simulate.sh has to be run again.
    let runs = Path::new(env!("CARGO_MANIFEST_DIR")).join("../../docs/simulation/runs");
    for name in ["share-100-30", "connections-16-10", "churn-0.05-30"] {
        let path = runs.join(format!("{name}.csv"));
        let stored = fs::read_to_string(&path).expect("a stored run");
        let flags = stored
            .lines()
            .next()
            .and_then(|line| line.strip_prefix("# "));
        let words: Vec<&str> = flags.expect("parameters").split_whitespace().collect();
        let output = run(&words);
        assert!(output.status.success(), "{output:?}");
        assert!(output.stdout == stored.as_bytes(), "{name} differs");
    }
}

#[test]
fn parameters_out_of_range_are_errors_that_name_them() {
    let cases = [
        ("--nodes 1", "--nodes is 1, and not from 2 to 20000"),
        ("--nodes 20001", "--nodes is 20001, and not from 2 to 20000"),
        ("--nodes many", "--nodes is many, and not from 2 to 20000"),
        ("--ticks 0", "--ticks is 0, and not from 1 to 100000"),
        (
            "--connections 0",
            "--connections is 0, and not from 1 to 20000",
        ),
        ("--sets 17", "--sets is 17, and not from 1 to 16"),
        (
            "--set-size 1",
            "--set-size is 1: a set needs two peers, or 0 for all",
        ),
        (
            "--seed -1",
            "--seed is -1, and not from 0 to 18446744073709551615",
        ),
        ("--loss 1.5", "--loss is 1.5, and not from 0 to 1"),
        ("--loss NaN", "--loss is NaN, and not from 0 to 1"),
        ("--churn -0.1", "--churn is -0.1, and not from 0 to 1"),
        ("--tick 0", "--tick is 0, and not from 0.001 to 1000000"),
        (
            "--latency inf",
            "--latency is inf, and not from 0 to 1000000",
        ),
        (
            "--dial-fail-limit 0",
            "--dial-fail-limit is 0, and not from 1 to 1000000",
        ),
        (
            "--bootstrappers 0",
            "--bootstrappers is 0, and not from 1 to 1000",
        ),
        ("--liars-true 2", "--liars-true is 2, and not from 0 to 1"),
        (
            "--liars-true 0.6 --liars-silent 0.6",
            "the shares of liars are more than 1 together",
        ),
        (
            "--nodes 10000",
            "10000 nodes with up to 10000 peers each need memory for 100000000 records; at most \
             6000000 are allowed: choose a smaller --set-size",
        ),
        (
            "--nodes 101 --html page",
            "--cells, --details and --html are for up to 100 nodes, not 101",
        ),
        ("--nodes", "--nodes has no value"),
        ("nodes 5", "nodes is no flag: see p2p-node simulate --help"),
        (
            "--node 5",
            "unknown flag --node: see p2p-node simulate --help",
        ),
        (
            "draw",
            "draw takes one folder: see p2p-node simulate --help",
        ),
    ];
    for (flags, error) in cases {
        let words: Vec<&str> = flags.split_whitespace().collect();
        let output = run(&words);
        assert!(!output.status.success(), "{flags}");
        let printed = String::from_utf8_lossy(&output.stderr);
        assert_eq!(printed, format!("p2p-node: {error}\n"), "{flags}");
        assert!(output.stdout.is_empty(), "{flags}");
    }
}

#[test]
fn the_ends_of_the_ranges_work() {
    let longest = "--nodes 3 --ticks 9 --tick 1000000 --latency 1000000 --cooldown 1000000 \
                   --lifetime 10000";
    let shortest = "--nodes 2 --ticks 9 --tick 0.001 --latency 0 --cooldown 0 --lifetime 1";
    let most = "--nodes 9 --ticks 9 --connections 20000 --bootstrappers 1000 --sets 16 \
                --dial-fail-limit 1000000 --loss 0 --churn 1 --liars-forged 1";
    for flags in [longest, shortest, most] {
        let words: Vec<&str> = flags.split_whitespace().collect();
        let output = run(&words);
        assert!(output.status.success(), "{flags}: {output:?}");
        let lines = String::from_utf8_lossy(&output.stdout).lines().count();
        assert_eq!(lines, 11, "{flags}");
    }
}

#[test]
fn a_file_that_cannot_be_written_is_named() {
    let output = run(&["--nodes", "2", "--ticks", "1", "--csv", "/nowhere/run.csv"]);
    let printed = String::from_utf8_lossy(&output.stderr);
    assert!(!output.status.success());
    assert!(
        printed.starts_with("p2p-node: /nowhere/run.csv: "),
        "{printed}"
    );
}

#[test]
fn the_cost_of_a_run_is_printed() {
    let output = run(&["--nodes", "300", "--ticks", "6", "--cost"]);
    let printed = String::from_utf8_lossy(&output.stderr);
    let (seconds, megabytes) = printed.trim().split_once(',').expect("two fields");
    let seconds: f64 = seconds.parse().expect("seconds");
    let megabytes: u64 = megabytes.parse().expect("megabytes");
    assert!(seconds < 60.0, "{printed}");
    // 300 nodes with 300 peers each, of 763 to 911 bytes, and what nodes and the program need.
    assert!((68..400).contains(&megabytes), "{printed}");
}

#[test]
fn help_lists_each_flag() {
    let output = run(&["--help"]);
    let printed = String::from_utf8_lossy(&output.stdout);
    assert!(output.status.success());
    let flags = "nodes seed ticks connections sets set-size tick latency loss churn lifetime \
                 cooldown dial-fail-limit bootstrappers liars-true liars-empty liars-oldest \
                 liars-silent liars-forged csv cells details html cost";
    for flag in flags.split_whitespace() {
        assert!(printed.contains(&format!("\n  --{flag} ")), "{flag}");
    }
}

/// Stores a run whose rows are written here, not by the simulation.
fn store(folder: &Path, name: &str, flags: &str, rows: &str) {
    let columns = "tick,seconds,newest_known,two_hops,bytes_of_node";
    let runs = folder.join("runs");
    fs::create_dir_all(&runs).expect("a folder for runs");
    let text = format!("# {flags}\n{columns}\n{rows}");
    fs::write(runs.join(format!("{name}.csv")), text).expect("a stored run");
}

fn store_all(folder: &Path) {
    let rows = "1,30.000,0.25,0.5,100\n2,60.000,0.99,0.75,50\n";
    store(folder, "share-1", "--nodes 100 --lifetime 10", rows);
    let flags = "--nodes 100 --lifetime 10 --liars-empty 0.1";
    store(folder, "share-2", flags, rows);
    store(folder, "connections-1", "--nodes 300 --connections 4", rows);
    let flags = "--nodes 300 --connections 8 --lifetime 10";
    store(folder, "connections-2", flags, rows);
    store(folder, "bytes-1", "--nodes 40 --lifetime 10", rows);
    store(folder, "churn-1", "--nodes 300 --churn 0.01", rows);
}

#[test]
fn pictures_have_axes_lines_and_a_legend() {
    let folder = folder("pictures");
    store_all(&folder);
    let output = run(&["draw", &folder.to_string_lossy()]);
    assert!(output.status.success(), "{output:?}");
    let picture = |name: &str| fs::read_to_string(folder.join(name)).expect("a picture");
    let share = picture("share.svg");
    assert!(share.contains(">minutes since the start</text>"), "{share}");
    assert!(share.contains(">share of infos known, each the newest</text>"));
    assert!(share.contains(">100 nodes, connections end after 10 ticks</text>"));
    // Half of a minute is in the middle of the axis, from 76 to 740, and a quarter of the share a
    // quarter up, from 330 to 44. One minute is at the end, and 0.99 nearly on top.
    assert!(
        share.contains("points=\"408.0,258.5 740.0,46.9\""),
        "{share}"
    );
    assert_eq!(share.matches("<polyline").count(), 1);
    assert_eq!(picture("liars-share.svg").matches("<polyline").count(), 2);
    let connections = picture("connections.svg");
    assert!(connections.contains(">most connections of a node</text>"));
    // The plateaus of both lifetimes, two lines of two hops, and the ticks of both.
    assert_eq!(connections.matches("<polyline").count(), 6);
    let bytes = picture("bytes.svg");
    assert!(bytes.contains(">the greatest tick, dial fail limit 2</text>"));
    assert_eq!(bytes.matches("<polyline").count(), 2);
    assert!(picture("churn.svg").contains(", 1 % of nodes restart a tick</text>"));
}

#[test]
fn a_stored_run_that_is_none_is_named_with_its_line() {
    let folder = folder("broken");
    store_all(&folder);
    let path = folder.to_string_lossy().into_owned();
    let cases = [
        (
            "# --nodes 5\ntick,seconds\n1,2\n",
            "line 3: there is no newest_known",
        ),
        ("tick\n", "line 1: the parameters are missing"),
        (
            "# --nodes 1\n",
            "line 1: --nodes is 1, and not from 2 to 20000",
        ),
        (
            "# --nodes 5\ntick,seconds,newest_known,two_hops,bytes_of_node\n1,2,x,3,4\n",
            "line 3: newest_known is x, and no number",
        ),
    ];
    for (text, error) in cases {
        fs::write(folder.join("runs/share-9.csv"), text).expect("a stored run");
        let output = run(&["draw", &path]);
        let printed = String::from_utf8_lossy(&output.stderr);
        assert!(!output.status.success(), "{text}");
        assert!(
            printed.ends_with(&format!("share-9.csv: {error}\n")),
            "{printed}"
        );
    }
    let _ = fs::remove_dir_all(folder.join("runs"));
    fs::create_dir(folder.join("runs")).expect("an empty folder");
    let printed = run(&["draw", &path]).stderr;
    let printed = String::from_utf8_lossy(&printed);
    assert!(printed.ends_with("no run is for share.svg\n"), "{printed}");
}
