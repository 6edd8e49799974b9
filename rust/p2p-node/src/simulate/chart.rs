//! Charts of lines, written as SVG.

use std::fmt::Write;

/// How an axis maps values to places.
#[derive(Clone, Copy, Debug, PartialEq, Eq)]
pub enum Scale {
    /// Equal distances are equal differences.
    Linear,
    /// Equal distances are equal ratios.
    Logarithmic,
}

/// An axis of a chart.
#[derive(Clone, Debug, PartialEq)]
pub struct Axis {
    /// What the values are, with their unit.
    pub label: String,
    /// How values map to places.
    pub scale: Scale,
    /// The least and the greatest value.
    pub range: (f64, f64),
}

/// A line of a chart.
#[derive(Clone, Debug, PartialEq)]
pub struct Series {
    /// What the legend says.
    pub label: String,
    /// The points, from left to right.
    pub points: Vec<(f64, f64)>,
    /// The number of its colour.
    pub colour: usize,
    /// The number of its pattern: 0 is solid.
    pub pattern: usize,
    /// Whether each point is marked.
    pub is_marked: bool,
}

/// A chart of lines.
#[derive(Clone, Debug, PartialEq)]
pub struct Chart {
    /// What it shows.
    pub title: String,
    /// The horizontal axis.
    pub x: Axis,
    /// The vertical axis.
    pub y: Axis,
    /// The lines.
    pub series: Vec<Series>,
}

/// Colours that are told apart with colour blindness, too.
const COLOURS: [&str; 6] = [
    "#0072b2", "#d55e00", "#009e73", "#cc79a7", "#6b4c9a", "#555555",
];

const PATTERNS: [&str; 4] = ["none", "8 4", "2 3", "10 3 2 3"];

// The area of the lines, within a chart of this size.
const WIDTH: f64 = 760.0;
const LEFT: f64 = 76.0;
const RIGHT: f64 = 740.0;
const TOP: f64 = 44.0;
const BOTTOM: f64 = 330.0;
const LEGEND: f64 = 398.0;
const LEGEND_LINE: f64 = 20.0;

impl Axis {
    /// The values that are marked on the axis.
    fn marks(&self) -> Vec<f64> {
        let (least, greatest) = self.range;
        match self.scale {
            Scale::Linear => {
                let step = step(greatest - least);
                let first = (least / step).ceil() as i64;
                let last = (greatest / step + 1e-9).floor() as i64;
                (first..=last).map(|mark| mark as f64 * step).collect()
            }
            Scale::Logarithmic => {
                let decades = least.log10().floor() as i32..=greatest.log10().ceil() as i32;
                let marks = decades.flat_map(|decade| {
                    let decade = 10_f64.powi(decade);
                    [1.0, 2.0, 5.0].map(|digit| digit * decade)
                });
                let within = |mark: &f64| *mark >= least * 0.999 && *mark <= greatest * 1.001;
                marks.filter(within).collect()
            }
        }
    }

    // Where a value lies on the axis: from 0 to 1.
    fn place(&self, value: f64) -> f64 {
        let (least, greatest) = self.range;
        match self.scale {
            Scale::Linear => (value - least) / (greatest - least),
            Scale::Logarithmic => (value / least).ln() / (greatest / least).ln(),
        }
    }
}

// The distance of marks, of which there are some five: 1, 2 or 5 times a power of ten.
fn step(range: f64) -> f64 {
    let rough = (range / 6.0).max(f64::MIN_POSITIVE);
    let decade = 10_f64.powf(rough.log10().floor());
    let digits = [1.0, 2.0, 5.0];
    let fits = digits.into_iter().find(|digit| digit * decade >= rough);
    fits.unwrap_or(10.0) * decade
}

fn text_of(mark: f64) -> String {
    match mark {
        mark if mark >= 1e6 => format!("{} M", mark / 1e6),
        mark if mark >= 1e3 => format!("{} k", mark / 1e3),
        // Sums of steps such as 0.1 aren't exact.
        mark => format!("{}", (mark * 1e6).round() / 1e6),
    }
}

impl Chart {
    fn height(&self) -> f64 {
        LEGEND + LEGEND_LINE * self.series.len() as f64
    }

    fn place(&self, (x, y): (f64, f64)) -> (f64, f64) {
        let across = self.x.place(x).clamp(0.0, 1.0);
        let up = self.y.place(y).clamp(0.0, 1.0);
        let x = LEFT + across * (RIGHT - LEFT);
        (x, BOTTOM - up * (BOTTOM - TOP))
    }

    fn write(&self, svg: &mut String, offset: f64) {
        let title = escaped(&self.title);
        // Writing to a `String` can't fail.
        let _ = writeln!(svg, "<g transform=\"translate(0 {offset})\">");
        let _ = writeln!(
            svg,
            "<text x=\"{LEFT}\" y=\"26\" class=\"title\">{title}</text>"
        );
        self.write_axes(svg);
        for series in &self.series {
            self.write_line(svg, series);
        }
        self.write_legend(svg);
        svg.push_str("</g>\n");
    }

    fn write_axes(&self, svg: &mut String) {
        let (least_x, least_y) = (self.x.range.0, self.y.range.0);
        for mark in self.x.marks() {
            let (x, _) = self.place((mark, least_y));
            let (text, below) = (text_of(mark), BOTTOM + 18.0);
            let _ = writeln!(
                svg,
                "<path class=\"grid\" d=\"M{x:.1} {TOP}V{BOTTOM}\"/>\
                 <text x=\"{x:.1}\" y=\"{below}\" class=\"middle\">{text}</text>"
            );
        }
        for mark in self.y.marks() {
            let (_, y) = self.place((least_x, mark));
            let (text, beside, lower) = (text_of(mark), LEFT - 8.0, y + 4.0);
            let _ = writeln!(
                svg,
                "<path class=\"grid\" d=\"M{LEFT} {y:.1}H{RIGHT}\"/>\
                 <text x=\"{beside}\" y=\"{lower:.1}\" class=\"end\">{text}</text>"
            );
        }
        let (x, y) = ((LEFT + RIGHT) / 2.0, (TOP + BOTTOM) / 2.0);
        let (below, across, upward) = (
            BOTTOM + 40.0,
            escaped(&self.x.label),
            escaped(&self.y.label),
        );
        let _ = writeln!(
            svg,
            "<path class=\"axis\" d=\"M{LEFT} {TOP}V{BOTTOM}H{RIGHT}\"/>\
             <text x=\"{x}\" y=\"{below}\" class=\"middle\">{across}</text>\
             <text transform=\"translate(18 {y}) rotate(-90)\" class=\"middle\">{upward}</text>"
        );
    }

    fn write_line(&self, svg: &mut String, series: &Series) {
        let colour = COLOURS[series.colour % COLOURS.len()];
        let pattern = PATTERNS[series.pattern % PATTERNS.len()];
        let places = series.points.iter().map(|point| self.place(*point));
        let places: Vec<(f64, f64)> = places.collect();
        let points: Vec<String> = places
            .iter()
            .map(|(x, y)| format!("{x:.1},{y:.1}"))
            .collect();
        let _ = writeln!(
            svg,
            "<polyline stroke=\"{colour}\" stroke-dasharray=\"{pattern}\" points=\"{}\"/>",
            points.join(" ")
        );
        for (x, y) in places.iter().filter(|_| series.is_marked) {
            let _ = writeln!(
                svg,
                "<circle cx=\"{x:.1}\" cy=\"{y:.1}\" r=\"3\" fill=\"{colour}\"/>"
            );
        }
    }

    fn write_legend(&self, svg: &mut String) {
        for (number, series) in self.series.iter().enumerate() {
            let colour = COLOURS[series.colour % COLOURS.len()];
            let pattern = PATTERNS[series.pattern % PATTERNS.len()];
            let y = LEGEND + LEGEND_LINE * number as f64 - 8.0;
            let (end, beside, lower) = (LEFT + 40.0, LEFT + 50.0, y + 4.0);
            let label = escaped(&series.label);
            let _ = writeln!(
                svg,
                "<path fill=\"none\" stroke=\"{colour}\" stroke-width=\"2\" \
                 stroke-dasharray=\"{pattern}\" d=\"M{LEFT} {y}H{end}\"/>\
                 <text x=\"{beside}\" y=\"{lower}\">{label}</text>"
            );
        }
    }
}

/// The SVG of charts, one below the other.
#[must_use]
pub fn svg(charts: &[Chart]) -> String {
    let height: f64 = charts.iter().map(|chart| chart.height() + 16.0).sum();
    let mut svg = format!(
        "<svg xmlns=\"http://www.w3.org/2000/svg\" viewBox=\"0 0 {WIDTH} {height}\" \
         width=\"{WIDTH}\" height=\"{height}\">\n\
         <style>text{{font:13px sans-serif;fill:#222}}.title{{font-weight:bold;font-size:15px}}\
         .middle{{text-anchor:middle}}.end{{text-anchor:end}}.grid{{stroke:#e4e4e4}}\
         .axis{{stroke:#222;fill:none}}polyline{{fill:none;stroke-width:2}}</style>\n\
         <rect width=\"{WIDTH}\" height=\"{height}\" fill=\"#fff\"/>\n"
    );
    let mut offset = 0.0;
    for chart in charts {
        chart.write(&mut svg, offset);
        offset += chart.height() + 16.0;
    }
    svg.push_str("</svg>\n");
    svg
}

/// A text in which the characters of markup are escaped.
#[must_use]
pub fn escaped(text: &str) -> String {
    let text = text.replace('&', "&amp;").replace('<', "&lt;");
    text.replace('>', "&gt;").replace('"', "&quot;")
}
