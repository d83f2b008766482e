//! The chart: time a step against letters, both on logarithmic axes, as an SVG picture.

use crate::reducing::{at_size, Timed};
use crate::terms::{LARGE, NESTED, SIZES};

const WIDTH: f64 = 960.0;
const HEIGHT: f64 = 600.0;
/// The plot's edges: left, right, top and bottom.
const LEFT: f64 = 96.0;
const RIGHT: f64 = 740.0;
const TOP: f64 = 96.0;
const BOTTOM: f64 = 520.0;
/// Letters at the left and right edges, nanoseconds at the bottom.
const LETTERS: [f64; 2] = [50.0, 20_000.0];
const LOWEST: f64 = 10.0;

const INK: &str = "#1f2933";
const FAINT: &str = "#5f6c7b";
const GRID: &str = "#e3e8ee";

/// One of the three that are timed: its name, its colour and its time.
struct Series {
    name: &'static str,
    note: &'static str,
    colour: &'static str,
    time: fn(&Timed) -> f64,
}

const SERIES: [Series; 3] = [
    Series { name: "Rust, tree", note: "searches from the root", colour: "#c05621", time: |timed| timed.tree },
    Series { name: "engine", note: "bytes in place, proved", colour: "#0b7a53", time: |timed| timed.engine },
    Series { name: "Rust, arena", note: "keeps its place", colour: "#2b5fab", time: |timed| timed.arena },
];

/// How far a value lies between two others, on a logarithmic scale.
fn share(value: f64, [low, high]: [f64; 2]) -> f64 {
    (value / low).ln() / (high / low).ln()
}

fn x(letters: f64) -> f64 {
    LEFT + (RIGHT - LEFT) * share(letters, LETTERS)
}

fn words(x: f64, y: f64, style: &str, words: &str) -> String {
    format!("<text x=\"{x:.1}\" y=\"{y:.1}\" {style}>{words}</text>\n")
}

fn line(from: [f64; 2], to: [f64; 2], style: &str) -> String {
    format!(
        "<line x1=\"{:.1}\" y1=\"{:.1}\" x2=\"{:.1}\" y2=\"{:.1}\" {style}/>\n",
        from[0], from[1], to[0], to[1]
    )
}

fn path(points: &[(f64, f64)], style: &str) -> String {
    let points: Vec<String> = points.iter().map(|(x, y)| format!("{x:.1},{y:.1}")).collect();
    format!("<polyline points=\"{}\" fill=\"none\" stroke-linejoin=\"round\" {style}/>\n", points.join(" "))
}

/// A time in the unit that suits it.
fn in_units(time: f64) -> String {
    match time {
        _ if time < 1e3 => format!("{time:.0} ns"),
        _ => format!("{:.0} µs", time / 1e3),
    }
}

fn with_commas(letters: usize) -> String {
    if letters < 1_000 {
        letters.to_string()
    } else {
        format!("{},{:03}", letters / 1_000, letters % 1_000)
    }
}

/// The plot of what was timed, up to a time that lies above all of them.
struct Plot<'a> {
    nested: &'a [Timed],
    highest: f64,
}

impl<'a> Plot<'a> {
    fn new(nested: &'a [Timed]) -> Self {
        let times = nested.iter().flat_map(|timed| SERIES.iter().map(|series| (series.time)(timed)));
        Plot { nested, highest: times.fold(1e5, f64::max) * 1.2 }
    }

    fn y(&self, time: f64) -> f64 {
        BOTTOM - (BOTTOM - TOP) * share(time, [LOWEST, self.highest])
    }

    /// The grid with what stands at its lines.
    fn axes(&self) -> String {
        let grid = format!("stroke=\"{GRID}\"");
        let label = format!("fill=\"{FAINT}\" font-size=\"14\"");
        let mut drawn = String::new();
        for time in [10.0, 100.0, 1e3, 1e4, 1e5] {
            let at = self.y(time);
            drawn += &line([LEFT, at], [RIGHT, at], &grid);
            drawn += &words(LEFT - 12.0, at + 5.0, &format!("{label} text-anchor=\"end\""), &in_units(time));
        }
        for letters in SIZES {
            let at = x(letters as f64);
            drawn += &line([at, TOP], [at, BOTTOM], &grid);
            drawn += &words(at, BOTTOM + 22.0, &format!("{label} text-anchor=\"middle\""), &with_commas(letters));
        }
        drawn += &line([LEFT, BOTTOM], [RIGHT, BOTTOM], &format!("stroke=\"{FAINT}\""));
        let middle = (LEFT + RIGHT) / 2.0;
        drawn + &words(middle, BOTTOM + 48.0, &format!("{label} text-anchor=\"middle\""), "letters of the term")
    }

    /// The geometric mean of the six shapes at a size.
    fn mean(&self, series: &Series, letters: usize) -> f64 {
        let logs = NESTED.iter().map(|(name, _)| (series.time)(at_size(self.nested, name, letters)).ln());
        (logs.sum::<f64>() / NESTED.len() as f64).exp()
    }

    fn thin_lines(&self, series: &Series) -> String {
        let style = format!("stroke=\"{}\" stroke-width=\"1.2\" stroke-opacity=\"0.32\"", series.colour);
        let of_shape = |name: &str| {
            let time = |letters: usize| (series.time)(at_size(self.nested, name, letters));
            path(&SIZES.map(|letters| (x(letters as f64), self.y(time(letters)))), &style)
        };
        NESTED.iter().map(|(name, _)| of_shape(name)).collect()
    }

    fn thick_line(&self, series: &Series) -> String {
        let colour = series.colour;
        let points = SIZES.map(|letters| (x(letters as f64), self.y(self.mean(series, letters))));
        let dot =
            |(x, y): &(f64, f64)| format!("<circle cx=\"{x:.1}\" cy=\"{y:.1}\" r=\"4\" fill=\"{colour}\"/>\n");
        path(&points, &format!("stroke=\"{colour}\" stroke-width=\"3\""))
            + &points.iter().map(dot).collect::<String>()
    }

    /// The name beside the end of each thick line, moved apart where two would touch.
    fn labels(&self) -> String {
        const APART: f64 = 62.0;
        let times = SERIES.iter().map(|series| (self.mean(series, LARGE), series));
        let mut ends: Vec<(f64, &Series)> = times.collect();
        ends.sort_by(|one, two| two.0.total_cmp(&one.0));
        let mut drawn = String::new();
        let mut free = f64::NEG_INFINITY;
        for (time, series) in ends {
            let at = self.y(time).max(free);
            free = at + APART;
            let (left, colour) = (RIGHT + 18.0, series.colour);
            let name = format!("{}: {}", series.name, in_units(time));
            drawn += &words(left, at, &format!("fill=\"{colour}\" font-size=\"17\" font-weight=\"bold\""), &name);
            drawn += &words(left, at + 19.0, &format!("fill=\"{FAINT}\" font-size=\"13\""), series.note);
        }
        drawn
    }
}

fn titles() -> String {
    let title = format!("fill=\"{INK}\" font-size=\"21\" font-weight=\"bold\"");
    let below = format!("fill=\"{FAINT}\" font-size=\"14\"");
    words(LEFT - 60.0, 38.0, &title, "Time a step, by the size of the term")
        + &words(
            LEFT - 60.0,
            64.0,
            &below,
            "Whole runs of six nested terms (thin lines) and their geometric mean (thick, with its time at 16,000 letters)",
        )
}

pub fn svg(nested: &[Timed]) -> String {
    let plot = Plot::new(nested);
    let thin: String = SERIES.iter().map(|series| plot.thin_lines(series)).collect();
    let thick: String = SERIES.iter().map(|series| plot.thick_line(series)).collect();
    format!(
        "<svg xmlns=\"http://www.w3.org/2000/svg\" viewBox=\"0 0 {WIDTH} {HEIGHT}\" width=\"{WIDTH}\" height=\"{HEIGHT}\" \
         font-family=\"Helvetica, Arial, DejaVu Sans, sans-serif\">\n\
         <rect width=\"100%\" height=\"100%\" fill=\"white\"/>\n{}{}{thin}{thick}{}</svg>\n",
        titles(),
        plot.axes(),
        plot.labels()
    )
}
