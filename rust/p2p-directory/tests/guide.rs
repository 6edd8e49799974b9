//! `docs/GUIDE.md`: its excerpts are lines of the example `tracker`.

use std::fs;
use std::io::{self, Write};
use std::path::{Path, PathBuf};

const SOURCES: &str = "examples/tracker/";

/// The path of the guide, or `None` in a package without the repository.
fn guide() -> Option<PathBuf> {
    let guide = Path::new(env!("CARGO_MANIFEST_DIR")).join("../../docs/GUIDE.md");
    guide.is_file().then_some(guide)
}

/// The file of the example that a line of prose links last, or `None`.
fn linked(line: &str) -> Option<&str> {
    let (_, behind) = line.rsplit_once(SOURCES)?;
    let (file, _) = behind.split_once(')')?;
    Some(file)
}

/// The excerpts of the guide, each with the file that was linked last before it.
fn excerpts(guide: &str) -> Vec<(String, Vec<String>)> {
    let mut excerpts = Vec::new();
    let mut file = None;
    let mut lines = guide.lines();
    while let Some(line) = lines.next() {
        file = linked(line).or(file);
        if line == "```rust" {
            let excerpt = lines.by_ref().take_while(|line| *line != "```");
            let excerpt = excerpt.map(str::to_owned).collect();
            excerpts.push((file.expect("a file is linked before").to_owned(), excerpt));
        }
    }
    excerpts
}

/// These lines without their common indentation.
fn outdented(lines: &[&str]) -> Vec<String> {
    let filled = lines.iter().filter(|line| !line.trim().is_empty());
    let indent = filled.map(|line| line.len() - line.trim_start().len());
    let indent = indent.min().unwrap_or(0);
    let cut = lines.iter().map(|line| line.get(indent..).unwrap_or(""));
    cut.map(str::to_owned).collect()
}

fn is_excerpt(source: &str, excerpt: &[String]) -> bool {
    let lines: Vec<&str> = source.lines().collect();
    let mut windows = lines.windows(excerpt.len());
    windows.any(|window| outdented(window) == excerpt)
}

#[test]
fn excerpts_of_the_guide_are_lines_of_the_example() {
    let Some(guide) = guide() else {
        let said = "the guide's excerpts are left out: this reads a file of the repository";
        writeln!(io::stderr(), "{said}").expect("standard error");
        return;
    };
    let guide = fs::read_to_string(guide).expect("it is read");
    let excerpts = excerpts(&guide);
    assert_eq!(excerpts.len(), guide.matches("```rust").count());
    assert!(excerpts.len() >= 10, "only {}", excerpts.len());
    for (file, excerpt) in &excerpts {
        assert!(!excerpt.is_empty(), "an excerpt of {file} is empty");
        let source = Path::new(env!("CARGO_MANIFEST_DIR")).join(SOURCES);
        let source = fs::read_to_string(source.join(file)).expect(file);
        let excerpt_text = excerpt.join("\n");
        assert!(
            is_excerpt(&source, excerpt),
            "not lines of {file}:\n{excerpt_text}"
        );
    }
}

#[test]
fn other_lines_are_no_excerpt() {
    let source = "fn one() {\n    two();\n    three();\n}\n";
    let is_excerpt = |lines: &[&str]| {
        let lines: Vec<String> = lines.iter().map(|line| (*line).to_owned()).collect();
        is_excerpt(source, &lines)
    };
    assert!(is_excerpt(&["two();", "three();"]));
    assert!(is_excerpt(&["fn one() {", "    two();"]));
    assert!(!is_excerpt(&["two();", "}"]));
    assert!(!is_excerpt(&["three();", "two();"]));
    assert!(!is_excerpt(&["two();", " three();"]));
}
