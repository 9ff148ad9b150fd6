//! The charts as one SVG picture, both axes logarithmic, readable on light and on dark ground.

use super::chart::{Chart, Curve};
use std::fmt::Write;

/// A chart's place, and the part of it inside the axes.
const WIDTH: f64 = 560.0;
const HEIGHT: f64 = 330.0;
const LEFT: f64 = 62.0;
const TOP: f64 = 36.0;
const INNER_WIDTH: f64 = 330.0;
const INNER_HEIGHT: f64 = 240.0;
/// Charts side by side.
const COLUMNS: usize = 2;
/// Between two names at the right end.
const LINE: f64 = 14.0;

const STYLE: &str = "<style>\
text{font:11px sans-serif;fill:#222}.title{font-size:13px;font-weight:bold}\
.ground{fill:#fff}.grid{stroke:#ccc;stroke-width:.5}.curve{fill:none;stroke-width:1.6}.lead{fill:none;stroke-width:.5}\
@media(prefers-color-scheme:dark){text{fill:#ddd}.ground{fill:#181818}.grid{stroke:#444}}\
</style>";

/// Of middle lightness, so that each stands out on both grounds.
const COLOURS: [&str; 12] = [
    "#3b82c4", "#d9662b", "#2f9e63", "#c04b8a", "#9a7d1e", "#7b68c8", "#c94040", "#4f9aa0",
    "#8a8f8f", "#5b6fd1", "#7fa03a", "#b07a5a",
];

pub fn drawn(charts: &[Chart]) -> String {
    let rows = charts.len().div_ceil(COLUMNS);
    let (width, height) = (COLUMNS as f64 * WIDTH, rows as f64 * HEIGHT);
    let head = "<svg xmlns=\"http://www.w3.org/2000/svg\"";
    let mut svg = format!("{head} viewBox=\"0 0 {width} {height}\" role=\"img\">\n");
    svg += "<title>Milliseconds of one call over the size, both logarithmic; behind each name the exponent that fits</title>\n";
    let ground = "<rect class=\"ground\" width=\"100%\" height=\"100%\"/>";
    writeln!(svg, "{STYLE}\n{ground}").expect("text");
    for (number, chart) in charts.iter().enumerate() {
        let (x, y) = (
            (number % COLUMNS) as f64 * WIDTH,
            (number / COLUMNS) as f64 * HEIGHT,
        );
        writeln!(svg, "<g transform=\"translate({x} {y})\">").expect("text");
        svg += &framed(chart);
        svg += "</g>\n";
    }
    svg + "</svg>\n"
}

/// From sizes and seconds to places; each axis has whole powers, of 2 and of 10.
struct Scale {
    size: [f64; 2],
    seconds: [f64; 2],
}

impl Scale {
    fn of(chart: &Chart) -> Scale {
        let points = || chart.curves.iter().flat_map(|curve| &curve.points);
        let bounds = |values: Vec<f64>| {
            let least = values.iter().copied().fold(f64::MAX, f64::min);
            let most = values.iter().copied().fold(f64::MIN, f64::max);
            [least.floor(), most.ceil()]
        };
        Scale {
            size: bounds(points().map(|point| (point.0 as f64).log2()).collect()),
            seconds: bounds(points().map(|point| point.1.log10()).collect()),
        }
    }

    fn x(&self, log: f64) -> f64 {
        LEFT + INNER_WIDTH * (log - self.size[0]) / (self.size[1] - self.size[0])
    }

    fn y(&self, log: f64) -> f64 {
        TOP + INNER_HEIGHT * (self.seconds[1] - log) / (self.seconds[1] - self.seconds[0])
    }

    fn place(&self, &(size, seconds): &(usize, f64)) -> (f64, f64) {
        (self.x((size as f64).log2()), self.y(seconds.log10()))
    }
}

/// The title, the grid with its numbers, and the curves.
fn framed(chart: &Chart) -> String {
    let scale = Scale::of(chart);
    let (right, bottom) = (LEFT + INNER_WIDTH, TOP + INNER_HEIGHT);
    let mut svg = format!(
        "<text class=\"title\" x=\"{LEFT}\" y=\"20\">{}</text>\n",
        chart.title
    );
    for power in scale.size[0] as i32..=scale.size[1] as i32 {
        let x = scale.x(power.into());
        svg += &format!("<path class=\"grid\" d=\"M{x:.1} {TOP}V{bottom}\"/>");
        let shown = format!(
            "<text x=\"{x:.1}\" y=\"{}\" text-anchor=\"middle\">{}</text>",
            bottom + 15.0,
            1_u64 << power
        );
        svg += if power % 2 == 0 || scale.size[1] - scale.size[0] < 8.0 {
            &shown
        } else {
            ""
        };
    }
    for power in scale.seconds[0] as i32..=scale.seconds[1] as i32 {
        let y = scale.y(power.into());
        let milliseconds = 10_f64.powi(power + 3);
        svg += &format!("<path class=\"grid\" d=\"M{LEFT} {y:.1}H{right}\"/>");
        svg += &format!(
            "<text x=\"{}\" y=\"{:.1}\" text-anchor=\"end\">{milliseconds} ms</text>",
            LEFT - 5.0,
            y + 4.0
        );
    }
    svg += &format!(
        "<text x=\"{right}\" y=\"{}\" text-anchor=\"end\">{}</text>\n",
        bottom + 30.0,
        chart.unit
    );
    svg + &curves(chart, &scale)
}

/// Each curve, and its name and exponent at the right, moved down where names would lie on each other.
fn curves(chart: &Chart, scale: &Scale) -> String {
    let coloured = chart.curves.iter().zip(COLOURS.iter().cycle());
    let mut ends: Vec<(f64, &Curve, &str)> = coloured
        .map(|(curve, colour)| {
            (
                scale.place(&curve.points[curve.points.len() - 1]).1,
                curve,
                *colour,
            )
        })
        .collect();
    ends.sort_by(|a, b| a.0.total_cmp(&b.0));
    let room = (ends.len() - 1) as f64 * LINE;
    let mut free = TOP;
    let mut svg = String::new();
    for (number, (end, curve, colour)) in ends.iter().enumerate() {
        let left = room - number as f64 * LINE;
        let y = end.max(free).min((TOP + INNER_HEIGHT - left).max(free));
        free = y + LINE;
        let places = curve.points.iter().map(|point| scale.place(point));
        let line: Vec<String> = places.map(|(x, y)| format!("{x:.1},{y:.1}")).collect();
        svg += &format!(
            "<polyline class=\"curve\" stroke=\"{colour}\" points=\"{}\"/>",
            line.join(" ")
        );
        let x = LEFT + INNER_WIDTH;
        let (from, _) = scale.place(&curve.points[curve.points.len() - 1]);
        svg += &format!(
            "<path class=\"lead\" stroke=\"{colour}\" d=\"M{from:.1} {end:.1}L{} {y:.1}\"/>",
            x + 16.0
        );
        svg += &format!(
            "<text x=\"{}\" y=\"{:.1}\" style=\"fill:{colour}\">{} {:.2}</text>\n",
            x + 20.0,
            y + 4.0,
            curve.name,
            curve.exponent()
        );
    }
    svg
}
