//! The calls of `tools/exports/session.table` of the repository.

use std::fs;
use std::io::{self, Write};
use std::path::Path;

/// A call of the table.
pub struct Call {
    pub number: u64,
    pub name: String,
    /// The name and the type of each parameter.
    pub parameters: Vec<(String, String)>,
}

impl Call {
    /// The names and types of the numbers and bools that it takes.
    #[allow(dead_code)]
    pub fn numbers(&self) -> impl Iterator<Item = &(String, String)> {
        let is_number = |type_: &str| matches!(type_, "u64" | "u32" | "bool");
        let all = self.parameters.iter();
        all.filter(move |(_, type_)| is_number(type_))
    }

    /// The names of the slices that it reads.
    #[allow(dead_code)]
    pub fn slices(&self) -> impl Iterator<Item = &String> {
        let all = self.parameters.iter();
        all.filter_map(|(name, type_)| (type_ == "&[u8]").then_some(name))
    }
}

/// The calls of the table, or `None` in a package without the repository.
pub fn calls() -> Option<Vec<Call>> {
    let table = Path::new(env!("CARGO_MANIFEST_DIR")).join("../../tools/exports/session.table");
    if !table.is_file() {
        let said = "the calls of the table are left out: this reads a file of the repository";
        writeln!(io::stderr(), "{said}").expect("standard error");
        return None;
    }
    let table = fs::read_to_string(table).expect("it is read");
    let calls: Vec<Call> = table.lines().filter_map(call).collect();
    assert!(!calls.is_empty());
    Some(calls)
}

// The call of a line such as `7 connect(&mut self, peer: &[u8], dialer: bool)`.
fn call(line: &str) -> Option<Call> {
    let (number, rest) = line.split_once(' ')?;
    let number = number.parse().ok()?;
    let (name, parameters) = rest.strip_suffix(')')?.split_once('(')?;
    let parameters = parameters.split(", ").skip(1).map(|parameter| {
        let (name, type_) = parameter.split_once(": ").expect("a name and a type");
        (name.to_owned(), type_.to_owned())
    });
    Some(Call {
        number,
        name: name.to_owned(),
        parameters: parameters.collect(),
    })
}
