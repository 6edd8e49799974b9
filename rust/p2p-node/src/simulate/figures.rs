//! The pictures of stored runs.
//!
//! The name of a run begins with the picture that it is for. Its parameters say which line it
//! belongs to.

use super::chart::{Axis, Chart, Scale, Series, svg};
use super::stored::{Stored, read_runs};
use std::collections::BTreeSet;
use std::fs;
use std::path::Path;

/// The share of infos at which a network counts as complete.
const NEARLY_ALL: f64 = 0.99;

/// The shares of liars of the pictures, each with the pattern of its lines.
const LIARS: [f64; 3] = [0.0, 0.1, 0.3];

/// Draws the pictures of the runs in `folder/runs` into the folder.
///
/// # Errors
///
/// Says which run can't be read, which picture has none, or which can't be written.
pub fn draw(folder: &Path) -> Result<(), String> {
    let runs = read_runs(&folder.join("runs"))?;
    let honest = |run: &Stored| is_near(run.parameters.share_of_liars(), 0.0);
    let of_honest: Vec<Stored> = runs.iter().filter(|run| honest(run)).cloned().collect();
    let pictures = [
        ("share.svg", vec![share_by_time(&of_honest, "share-")]),
        (
            "connections.svg",
            vec![plateaus(&of_honest), ticks(&of_honest)],
        ),
        ("bytes.svg", vec![bytes(&of_honest)]),
        (
            "liars-share.svg",
            vec![share_by_time(&lasting(&runs), "share-")],
        ),
        ("liars-connections.svg", vec![plateaus(&runs), ticks(&runs)]),
        ("liars-bytes.svg", vec![bytes(&runs)]),
        ("churn.svg", vec![share_by_time(&runs, "churn-")]),
    ];
    for (name, charts) in pictures {
        if charts.iter().any(|chart| chart.series.is_empty()) {
            return Err(format!("{}: no run is for {name}", folder.display()));
        }
        let path = folder.join(name);
        fs::write(&path, svg(&charts)).map_err(|error| format!("{}: {error}", path.display()))?;
    }
    Ok(())
}

fn is_near(one: f64, other: f64) -> bool {
    (one - other).abs() < 1e-6
}

// The runs whose connections end after some ticks.
fn lasting(runs: &[Stored]) -> Vec<Stored> {
    let ends = |run: &&Stored| run.parameters.lifetime > 0;
    runs.iter().filter(ends).cloned().collect()
}

fn pattern_of(liars: f64) -> usize {
    let place = LIARS.iter().position(|share| is_near(*share, liars));
    place.unwrap_or(LIARS.len())
}

fn percent(share: f64) -> String {
    format!("{} %", (share * 1e4).round() / 1e2)
}

// What a legend says of how long connections last.
fn lasting_text(lifetime: u64) -> String {
    match lifetime {
        0 => "connections last".to_owned(),
        ticks => format!("connections end after {ticks} ticks"),
    }
}

// What a legend says of how many peers a node knows of, unless it is all.
fn peers_text(run: &Stored) -> String {
    match run.parameters.groups() {
        1 => String::new(),
        _ => format!(", {} peers each", run.parameters.peers()),
    }
}

fn liars_text(liars: f64) -> String {
    if liars == 0.0 {
        String::new()
    } else {
        format!(", {} of liars", percent(liars))
    }
}

fn share_axis(label: &str) -> Axis {
    Axis {
        label: label.to_owned(),
        scale: Scale::Linear,
        range: (0.0, 1.0),
    }
}

// A line for each run whose name begins in this way. Runs that differ in the number of nodes or in
// churn have different colours, and those that differ in liars or lifetime different patterns.
fn share_by_time(runs: &[Stored], prefix: &str) -> Chart {
    let runs = runs.iter().filter(|run| run.name.starts_with(prefix));
    let mut runs: Vec<&Stored> = runs.collect();
    let colour_of = |run: &Stored| (run.parameters.nodes, millionths(run.parameters.churn));
    let liars_of = |run: &Stored| millionths(run.parameters.share_of_liars());
    runs.sort_by_key(|run| (colour_of(run), liars_of(run)));
    let mut colours: Vec<(usize, u64)> = runs.iter().map(|run| colour_of(run)).collect();
    colours.dedup();
    let series = runs.iter().map(|run| {
        let colour = colours.iter().position(|other| *other == colour_of(run));
        line_by_time(run, colour.unwrap_or(0))
    });
    let series: Vec<Series> = series.collect();
    let ends = runs.iter().filter_map(|run| run.rows.last());
    let end = ends.map(|row| row.seconds / 60.0).fold(1.0, f64::max);
    let connections = runs.first().map_or(0, |run| run.parameters.connections);
    Chart {
        title: format!("Infos known, with at most {connections} connections a node"),
        x: Axis {
            label: "minutes since the start".to_owned(),
            scale: Scale::Linear,
            range: (0.0, end),
        },
        y: share_axis("share of infos known, each the newest"),
        series,
    }
}

fn millionths(share: f64) -> u64 {
    (share * 1e6).round() as u64
}

fn line_by_time(run: &Stored, colour: usize) -> Series {
    let parameters = &run.parameters;
    let liars = parameters.share_of_liars();
    let churn = match parameters.churn {
        0.0 => String::new(),
        churn => format!(", {} of nodes restart a tick", percent(churn)),
    };
    let (nodes, lasting) = (parameters.nodes, lasting_text(parameters.lifetime));
    let peers = peers_text(run);
    let points = run
        .rows
        .iter()
        .map(|row| (row.seconds / 60.0, row.newest_known));
    Series {
        label: format!(
            "{nodes} nodes{peers}, {lasting}{churn}{}",
            liars_text(liars)
        ),
        points: points.collect(),
        colour,
        pattern: match parameters.lifetime {
            0 => LIARS.len(),
            _ => pattern_of(liars),
        },
        is_marked: false,
    }
}

// The runs of this picture by lifetime and liars, each group in the order of connections.
fn by_connections(runs: &[Stored]) -> Vec<(u64, f64, Vec<&Stored>)> {
    let runs = runs
        .iter()
        .filter(|run| run.name.starts_with("connections-"));
    let mut runs: Vec<&Stored> = runs.collect();
    runs.sort_by_key(|run| run.parameters.connections);
    let mut groups: Vec<(u64, f64, Vec<&Stored>)> = Vec::new();
    for run in runs {
        let (lifetime, liars) = (run.parameters.lifetime, run.parameters.share_of_liars());
        let is_its =
            |group: &&mut (u64, f64, Vec<&Stored>)| group.0 == lifetime && is_near(group.1, liars);
        match groups.iter_mut().find(is_its) {
            Some((_, _, group)) => group.push(run),
            None => groups.push((lifetime, liars, vec![run])),
        }
    }
    groups.sort_by(|one, other| {
        (one.0, one.1)
            .partial_cmp(&(other.0, other.1))
            .unwrap_or(std::cmp::Ordering::Equal)
    });
    groups
}

fn connections_axis(runs: &[Stored]) -> Axis {
    let runs = runs
        .iter()
        .filter(|run| run.name.starts_with("connections-"));
    let most = runs.map(|run| run.parameters.connections).max();
    Axis {
        label: "most connections of a node".to_owned(),
        scale: Scale::Logarithmic,
        range: (1.0, most.unwrap_or(2).max(2) as f64),
    }
}

// The share that is known at the end, next to what two hops reach.
fn plateaus(runs: &[Stored]) -> Chart {
    let line = |label: String, points, colour, pattern| Series {
        label,
        points,
        colour,
        pattern,
        is_marked: true,
    };
    let mut series = Vec::new();
    for (lifetime, liars, group) in by_connections(runs) {
        let of_all = |share: fn(&Stored) -> f64| -> Vec<(f64, f64)> {
            let points = group
                .iter()
                .map(|run| (run.parameters.connections as f64, share(run)));
            points.collect()
        };
        let (pattern, colour) = (pattern_of(liars), usize::from(lifetime > 0));
        let ticks = group.iter().map(|run| run.rows.len()).max().unwrap_or(0);
        let label = format!(
            "known after {ticks} ticks, {}{}",
            lasting_text(lifetime),
            liars_text(liars)
        );
        series.push(line(label, of_all(Stored::plateau), colour, pattern));
        if lifetime == 0 && liars == 0.0 {
            let label = "within two hops at the end, connections last".to_owned();
            series.push(line(label, of_all(Stored::two_hops), 2, 1));
            let label = "two hops at most: k + k(k - 1) of n - 1 peers".to_owned();
            series.push(line(label, of_all(two_hops_at_most), 5, 2));
        }
    }
    let nodes = runs.iter().find(|run| run.name.starts_with("connections-"));
    let nodes = nodes.map_or(0, |run| run.parameters.nodes);
    Chart {
        title: format!("Infos known at the end, {nodes} nodes"),
        x: connections_axis(runs),
        y: share_axis("share of infos known"),
        series,
    }
}

fn two_hops_at_most(run: &Stored) -> f64 {
    let (connections, peers) = (
        run.parameters.connections as f64,
        run.parameters.nodes as f64 - 1.0,
    );
    (connections * connections / peers).min(1.0)
}

// The ticks until nearly all is known, where that is reached.
fn ticks(runs: &[Stored]) -> Chart {
    let mut series = Vec::new();
    for (lifetime, liars, group) in by_connections(runs) {
        let points = group
            .iter()
            .filter_map(|run| Some((run.parameters.connections as f64, run.tick_of(NEARLY_ALL)?)));
        let points: Vec<(f64, f64)> = points.collect();
        if !points.is_empty() {
            series.push(Series {
                label: format!("{}{}", lasting_text(lifetime), liars_text(liars)),
                points,
                colour: usize::from(lifetime > 0),
                pattern: pattern_of(liars),
                is_marked: true,
            });
        }
    }
    let points = series.iter().flat_map(|series| series.points.iter());
    let most = points.map(|(_, ticks)| *ticks).fold(1.0, f64::max);
    Chart {
        title: "Ticks until 99 % of infos are known, where that is reached".to_owned(),
        x: connections_axis(runs),
        y: Axis {
            label: "ticks".to_owned(),
            scale: Scale::Linear,
            range: (0.0, most * 1.1),
        },
        series,
    }
}

// The bytes of a node in a tick by the number of nodes, of runs whose connections end.
fn bytes(runs: &[Stored]) -> Chart {
    let series = series_of_bytes(runs);
    Chart {
        title: "Bytes that a node sends in a tick".to_owned(),
        x: Axis {
            label: "nodes".to_owned(),
            scale: Scale::Logarithmic,
            range: range(&series, |point| point.0, 1.0),
        },
        y: Axis {
            label: "bytes of frames".to_owned(),
            scale: Scale::Logarithmic,
            range: range(&series, |point| point.1, 0.8),
        },
        series,
    }
}

// Two lines for each limit of failed dials, each number of peers and each share of liars.
fn series_of_bytes(runs: &[Stored]) -> Vec<Series> {
    let of_bytes = |run: &&Stored| run.name.starts_with("share-") || run.name.starts_with("bytes-");
    let runs = lasting(runs);
    let runs: Vec<&Stored> = runs.iter().filter(of_bytes).collect();
    let limit_of = |run: &Stored| run.parameters.dial_fail_limit;
    let kind_of = |run: &Stored| {
        let liars = millionths(run.parameters.share_of_liars());
        (limit_of(run), peers_text(run), liars)
    };
    let kinds: BTreeSet<_> = runs.iter().map(|run| kind_of(run)).collect();
    let limits: BTreeSet<usize> = runs.iter().map(|run| limit_of(run)).collect();
    let lines = kinds.into_iter().flat_map(|kind| {
        let of_kind = runs.iter().filter(|run| kind_of(run) == kind);
        let of_kind: Vec<&Stored> = of_kind.copied().collect();
        let number = limits.iter().position(|limit| *limit == kind.0);
        lines_of_bytes(of_kind, number.unwrap_or(0))
    });
    lines.collect()
}

// The lines of runs that differ in the number of nodes alone.
fn lines_of_bytes(mut runs: Vec<&Stored>, number: usize) -> Vec<Series> {
    runs.sort_by_key(|run| run.parameters.nodes);
    let Some(first) = runs.first() else {
        return Vec::new();
    };
    let (limit, peers) = (first.parameters.dial_fail_limit, peers_text(first));
    let liars = first.parameters.share_of_liars();
    let line = |label: &str, bytes: fn(&Stored) -> f64, colour| {
        let points = runs
            .iter()
            .map(|run| (run.parameters.nodes as f64, bytes(run)));
        Series {
            label: format!(
                "{label}{peers}, dial fail limit {limit}{}",
                liars_text(liars)
            ),
            points: points.collect(),
            colour: colour + 2 * number,
            pattern: pattern_of(liars),
            is_marked: true,
        }
    };
    vec![
        line("the greatest tick", Stored::greatest_bytes, 1),
        line("mean of the second half", Stored::later_bytes, 0),
    ]
}

// The least and the greatest value of all points on an axis, and a margin.
fn range(series: &[Series], axis: fn(&(f64, f64)) -> f64, margin: f64) -> (f64, f64) {
    let points = series.iter().flat_map(|series| series.points.iter());
    let values: Vec<f64> = points.map(axis).collect();
    let least = values.iter().copied().fold(1e9, f64::min);
    let greatest = values.iter().copied().fold(1.0, f64::max);
    (least * margin, greatest / margin)
}
