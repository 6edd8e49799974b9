//! A page to look at a run, which needs nothing else.

use super::behaviour::Lie;
use super::chart::escaped;
use super::parameters::Parameters;
use super::record::{Age, NodeState, Record};
use super::rows::Row;
use std::fmt::{Display, Write};

const HTML: &str = include_str!("page/page.html");
const STYLE: &str = include_str!("page/page.css");
const SCRIPT: &str = include_str!("page/page.js");

/// The page of a run. It has its style, its script and its data inside.
///
/// `#tick=17&node=3` after its address shows a tick and a node.
#[must_use]
pub fn page(
    parameters: &Parameters,
    lies: &[Option<Lie>],
    rows: &[Row],
    record: &Record,
) -> String {
    let data = data(parameters, lies, rows, record);
    HTML.replace("{{style}}", STYLE)
        .replace("{{script}}", SCRIPT)
        .replace("{{data}}", &data)
}

// The data as JSON. No text in it has a quotation mark, a backslash or a tag.
fn data(parameters: &Parameters, lies: &[Option<Lie>], rows: &[Row], record: &Record) -> String {
    let lies = lies.iter().map(|lie| text(lie.map_or("honest", Lie::name)));
    let ticks = rows
        .iter()
        .zip(&record.ticks)
        .map(|(row, nodes)| tick(row, nodes));
    let grants = record.grants.iter().map(|grant| {
        let shown = text(&grant.to_string());
        format!("[{},{},{shown}]", grant.tick, grant.node)
    });
    format!(
        "{{\"parameters\":{},\"lies\":{},\"ticks\":{},\"grants\":{}}}",
        text(&parameters.to_string()),
        list(lies),
        list(ticks),
        list(grants)
    )
}

fn tick(row: &Row, nodes: &[NodeState]) -> String {
    let ages = nodes.iter().flat_map(|node| node.ages.iter());
    let ages: String = ages.map(|age| digit(*age)).collect();
    let sets = nodes.iter().map(|node| {
        let sets = node.sets.iter();
        list(sets.map(|(index, peers, known)| format!("[{index},{known},{peers}]")))
    });
    let mut json = format!(
        "{{\"seconds\":{:.3},\"share\":{:.6}",
        row.seconds, row.newest_known
    );
    // Writing to a `String` can't fail.
    let _ = write!(json, ",\"meanConnections\":{:.3}", row.connections);
    let _ = write!(
        json,
        ",\"bytes\":{:.1},\"ages\":\"{ages}\"",
        row.bytes_of_node
    );
    let _ = write!(
        json,
        ",\"running\":{}",
        list(nodes.iter().map(|node| node.is_running))
    );
    let _ = write!(
        json,
        ",\"connections\":{},\"blocked\":{},\"sets\":{}}}",
        list(nodes.iter().map(|node| list(&node.connections))),
        list(nodes.iter().map(|node| list(&node.blocked))),
        list(sets)
    );
    json
}

// An age as a digit of base 36, which has one for the oldest, too.
fn digit(age: Option<Age>) -> char {
    let digit = age.and_then(|age| char::from_digit(u32::from(age), 36));
    digit.unwrap_or('.')
}

fn list(items: impl IntoIterator<Item = impl Display>) -> String {
    let items: Vec<String> = items.into_iter().map(|item| item.to_string()).collect();
    format!("[{}]", items.join(","))
}

fn text(text: &str) -> String {
    format!("\"{}\"", escaped(text))
}
