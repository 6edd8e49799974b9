//! The page of a run, in Chromium without a window, compared with the CSV of the same run.

use std::collections::BTreeMap;
use std::env;
use std::fs;
use std::path::{Path, PathBuf};
use std::process::Command;

const NODES: usize = 30;
const TICKS: usize = 20;

/// The age of what a row knows of a column.
type Cells = BTreeMap<(usize, usize), String>;

/// The files of a run.
struct Files {
    page: PathBuf,
    cells: Vec<Vec<String>>,
    details: Vec<Vec<String>>,
}

fn lines_of(path: &Path) -> Vec<Vec<String>> {
    let text = fs::read_to_string(path).expect("the file was written");
    let lines = text.lines().skip(1);
    let fields = |line: &str| line.split(',').map(str::to_owned).collect();
    lines.map(fields).collect()
}

/// Runs a network. Tests run at the same time, so each has a folder of its own.
fn simulated(name: &str) -> Files {
    let folder = Path::new(env!("CARGO_TARGET_TMPDIR")).join(name);
    fs::create_dir_all(&folder).expect("a folder for the test");
    let paths = ["page.html", "cells.csv", "details.csv"].map(|name| folder.join(name));
    let [page, cells, details] = &paths;
    let flags = "--sets 2 --set-size 15 --connections 6 --lifetime 4 --churn 0.05 \
                 --liars-forged 0.1 --liars-silent 0.1";
    let status = Command::new(env!("CARGO_BIN_EXE_p2p-node"))
        .arg("simulate")
        .args(["--nodes", &NODES.to_string(), "--ticks", &TICKS.to_string()])
        .args(flags.split_whitespace())
        .args([Path::new("--html"), page, Path::new("--cells"), cells])
        .args([Path::new("--details"), details])
        .args([Path::new("--csv"), &folder.join("run.csv")])
        .status();
    assert!(status.expect("the program starts").success());
    Files {
        page: page.clone(),
        cells: lines_of(cells),
        details: lines_of(details),
    }
}

/// The document that the page has made of itself at this address. `None` if the tests of the host
/// are left out by `SKIP_HOST=1`.
fn document(page: &Path, fragment: &str) -> Option<String> {
    let address = format!("file://{}#{fragment}", page.display());
    let flags = "--no-sandbox --headless --disable-gpu --virtual-time-budget=2000 --dump-dom";
    let mut browser = Command::new("chromium");
    let output = browser.args(flags.split(' ')).arg(address).output();
    match output {
        Ok(output) => Some(String::from_utf8(output.stdout).expect("a document in UTF-8")),
        Err(_) if env::var_os("SKIP_HOST").is_some_and(|skip| skip == "1") => None,
        Err(why) => panic!(
            "chromium doesn't start: {why}. Install Debian's package `chromium`, or set SKIP_HOST=1"
        ),
    }
}

/// The value of an attribute in a tag.
fn attribute<'a>(tag: &'a str, name: &str) -> Option<&'a str> {
    let (_, rest) = tag.split_once(&format!(" {name}=\""))?;
    rest.split_once('"').map(|(value, _)| value)
}

fn tags<'a>(document: &'a str, name: &str) -> impl Iterator<Item = &'a str> {
    let parts = document.split('<').filter_map(|part| part.split_once('>'));
    let prefix = format!("{name} ");
    parts
        .map(|(tag, _)| tag)
        .filter(move |tag| tag.starts_with(&prefix))
}

fn cells_of(document: &str) -> Cells {
    let mut cells = Cells::new();
    for tag in tags(document, "rect") {
        let number = |name| attribute(tag, name)?.parse::<usize>().ok();
        let (Some(row), Some(column)) = (number("data-row"), number("data-column")) else {
            continue;
        };
        let age = attribute(tag, "data-age").expect("an age");
        let before = cells.insert((row, column), age.to_owned());
        assert_eq!(before, None, "the cell {row}, {column} is there twice");
    }
    cells
}

/// Compares each cell of a document with the lines of the CSV for a tick.
fn compare(document: &Cells, lines: &[Vec<String>], tick: usize) -> Result<(), String> {
    let tick = tick.to_string();
    let of_tick: Vec<&Vec<String>> = lines.iter().filter(|line| line[0] == tick).collect();
    if (document.len(), of_tick.len()) != (NODES * NODES, NODES * NODES) {
        return Err(format!("{} cells, {} lines", document.len(), of_tick.len()));
    }
    for line in of_tick {
        let place = (line[1].parse(), line[2].parse());
        let (Ok(row), Ok(column)) = place else {
            return Err(format!("{line:?}"));
        };
        let shown = document.get(&(row, column));
        if shown != Some(&line[3]) {
            return Err(format!(
                "row {row}, column {column}: {shown:?}, {}",
                line[3]
            ));
        }
    }
    Ok(())
}

/// What the CSV says of a node: all of its items of a kind at a tick. Grants are those until then.
fn items(lines: &[Vec<String>], tick: usize, node: usize, item: &str) -> Vec<String> {
    let is_its = |line: &&Vec<String>| {
        let at: usize = line[0].parse().expect("a tick");
        let is_then = at == tick || item == "grant" && at < tick;
        is_then && line[1] == node.to_string() && line[2] == item
    };
    let lines = lines.iter().filter(is_its);
    lines.map(|line| line[3].clone()).collect()
}

fn shown(document: &str, tag: &str, name: &str) -> Vec<String> {
    let values = tags(document, tag).filter_map(|tag| attribute(tag, name));
    values.map(str::to_owned).collect()
}

#[test]
fn the_page_shows_the_cells_and_the_node_of_the_csv() {
    let files = simulated("page-shows");
    let blocked = files.details.iter().find(|line| line[2] == "block");
    let blocked = blocked.expect("a node that blocks a liar");
    let tick: usize = blocked[0].parse().expect("a tick");
    let blocker: usize = blocked[1].parse().expect("a node");
    for (tick, node) in [(1, 0), (tick, blocker), (TICKS, 3)] {
        let Some(document) = document(&files.page, &format!("tick={tick}&node={node}")) else {
            return;
        };
        let cells = cells_of(&document);
        assert_eq!(compare(&cells, &files.cells, tick), Ok(()), "tick {tick}");
        for item in ["set", "connection", "block"] {
            let shown = shown(&document, "li", &format!("data-{item}"));
            let expected = items(&files.details, tick, node, item);
            assert_eq!(shown, expected, "{item}s of node {node} at tick {tick}");
        }
        let mut grants = shown(&document, "li", "data-grant");
        grants.reverse();
        assert_eq!(grants, items(&files.details, tick, node, "grant"));
        let state = items(&files.details, tick, node, "state");
        assert_eq!(shown(&document, "span", "data-state"), state);
    }
}

#[test]
fn each_changed_cell_makes_the_comparison_fail() {
    let files = simulated("page-changed");
    let Some(document) = document(&files.page, "tick=7") else {
        return;
    };
    let cells = cells_of(&document);
    assert_eq!(compare(&cells, &files.cells, 7), Ok(()));
    // The ages of this tick differ from those of others, and all kinds are there.
    assert!(compare(&cells, &files.cells, 8).is_err());
    let of_tick = |line: &&Vec<String>| line[0] == "7";
    let ages: Vec<&String> = files
        .cells
        .iter()
        .filter(of_tick)
        .map(|line| &line[3])
        .collect();
    for age in ["0", "1", "none"] {
        assert!(ages.iter().any(|other| *other == age), "{age}");
    }
    for place in (0..NODES * NODES).step_by(101) {
        let mut changed = files.cells.clone();
        let line = &mut changed[6 * NODES * NODES + place];
        assert_eq!(line[0], "7");
        line[3] = if line[3] == "none" { "0" } else { "none" }.to_owned();
        let (row, column) = (line[1].clone(), line[2].clone());
        let why = compare(&cells, &changed, 7).expect_err("a changed cell");
        assert!(
            why.starts_with(&format!("row {row}, column {column}: ")),
            "{why}"
        );
    }
}

#[test]
fn a_page_needs_nothing_else() {
    let page = fs::read_to_string(simulated("page-alone").page).expect("a page");
    for other in [
        "src=", "href=", "http://", "https://", "url(", "@import", "fetch(",
    ] {
        // The name of the namespace of SVG is no address that is loaded.
        let page = page.replace("'http://www.w3.org/2000/svg'", "");
        assert!(!page.contains(other), "{other}");
    }
    assert!(!page.contains("{{"));
}
