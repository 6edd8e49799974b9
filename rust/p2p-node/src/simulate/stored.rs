//! Runs that were stored as CSV.

use super::parameters::Parameters;
use std::fs;
use std::path::Path;

/// A run that was stored.
#[derive(Clone, Debug, PartialEq)]
pub struct Stored {
    /// The name of its file, without the extension.
    pub name: String,
    /// Its parameters.
    pub parameters: Parameters,
    /// Its rows.
    pub rows: Vec<StoredRow>,
}

/// What a picture shows of a row.
#[derive(Clone, Copy, Debug, Default, PartialEq)]
pub struct StoredRow {
    /// The number of the tick.
    pub tick: f64,
    /// The seconds since the start.
    pub seconds: f64,
    /// The share of infos known, each the newest of its peer.
    pub newest_known: f64,
    /// The share of peers within two connections.
    pub two_hops: f64,
    /// The bytes that were sent in the tick, for each node.
    pub bytes_of_node: f64,
}

/// Reads all runs of a folder, in the order of their names.
///
/// # Errors
///
/// Says which file can't be read, or which line of it isn't that of a run.
pub fn read_runs(folder: &Path) -> Result<Vec<Stored>, String> {
    let failed = |error| format!("{}: {error}", folder.display());
    let mut runs = Vec::new();
    for entry in fs::read_dir(folder).map_err(failed)? {
        let path = entry.map_err(failed)?.path();
        if path.extension().is_none_or(|extension| extension != "csv") {
            continue;
        }
        let name = path.file_stem().unwrap_or_default().to_string_lossy();
        let text = fs::read_to_string(&path);
        let text = text.map_err(|error| format!("{}: {error}", path.display()))?;
        let run = read_run(&name, &text);
        runs.push(run.map_err(|why| format!("{}: {why}", path.display()))?);
    }
    runs.sort_by(|one, other| one.name.cmp(&other.name));
    Ok(runs)
}

/// Reads the CSV of a run.
///
/// # Errors
///
/// Says which line isn't that of a run.
pub fn read_run(name: &str, text: &str) -> Result<Stored, String> {
    let mut lines = text.lines();
    let flags = lines.next().and_then(|line| line.strip_prefix("# "));
    let flags = flags.ok_or("line 1: the parameters are missing")?;
    let words: Vec<String> = flags.split_whitespace().map(str::to_owned).collect();
    let (parameters, _) = Parameters::read(&words).map_err(|why| format!("line 1: {why}"))?;
    let columns = lines.next().ok_or("line 2: the columns are missing")?;
    let columns: Vec<&str> = columns.split(',').collect();
    let rows = (3..).zip(lines).map(|(number, line)| {
        read_row(&columns, line).map_err(|why| format!("line {number}: {why}"))
    });
    Ok(Stored {
        name: name.to_owned(),
        parameters,
        rows: rows.collect::<Result<_, _>>()?,
    })
}

fn read_row(columns: &[&str], line: &str) -> Result<StoredRow, String> {
    let values: Vec<&str> = line.split(',').collect();
    let value = |name: &str| -> Result<f64, String> {
        let place = columns.iter().position(|column| *column == name);
        let value = place.and_then(|place| values.get(place));
        let value = value.ok_or_else(|| format!("there is no {name}"))?;
        value
            .parse()
            .map_err(|_| format!("{name} is {value}, and no number"))
    };
    Ok(StoredRow {
        tick: value("tick")?,
        seconds: value("seconds")?,
        newest_known: value("newest_known")?,
        two_hops: value("two_hops")?,
        bytes_of_node: value("bytes_of_node")?,
    })
}

impl Stored {
    /// The share of infos known at the end.
    #[must_use]
    pub fn plateau(&self) -> f64 {
        self.rows.last().map_or(0.0, |row| row.newest_known)
    }

    /// The share of peers within two connections at the end.
    #[must_use]
    pub fn two_hops(&self) -> f64 {
        self.rows.last().map_or(0.0, |row| row.two_hops)
    }

    /// The first tick at whose end this share of infos is known, if there is one.
    #[must_use]
    pub fn tick_of(&self, share: f64) -> Option<f64> {
        let mut rows = self.rows.iter();
        rows.find(|row| row.newest_known >= share)
            .map(|row| row.tick)
    }

    /// The greatest bytes of a node in a tick.
    #[must_use]
    pub fn greatest_bytes(&self) -> f64 {
        let bytes = self.rows.iter().map(|row| row.bytes_of_node);
        bytes.fold(0.0, f64::max)
    }

    /// The mean bytes of a node in a tick, in the second half of the run.
    #[must_use]
    pub fn later_bytes(&self) -> f64 {
        let later = &self.rows[self.rows.len() / 2..];
        let sum: f64 = later.iter().map(|row| row.bytes_of_node).sum();
        sum / (later.len().max(1)) as f64
    }
}
