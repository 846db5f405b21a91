//! A plot of time against pairs as SVG, both axes logarithmic.

use crate::measure::Call;
use crate::ratios::Measured;

const WIDTH: f64 = 860.0;
const HEIGHT: f64 = 560.0;
const LEFT: f64 = 80.0;
const RIGHT: f64 = 210.0;
const TOP: f64 = 40.0;
const BOTTOM: f64 = 60.0;
const COLOURS: [&str; 8] =
    ["#1b6ca8", "#c0392b", "#1e8449", "#8e44ad", "#b9770e", "#34495e", "#7f8c8d", "#d98880"];

/// One implementation's points for one search: pairs and microseconds.
struct Series {
    name: String,
    points: Vec<(f64, f64)>,
}

/// The whole picture. Pairs are the reached ones of a sweep, the settled ones of a guided search.
pub fn svg(all: &[Measured], planners: &[&str]) -> String {
    let series: Vec<Series> = planners
        .iter()
        .flat_map(|planner| Call::SEARCHES.map(|search| series(all, planner, search)))
        .collect();
    let points = || series.iter().flat_map(|s| s.points.iter());
    let across = Axis::over(points().map(|p| p.0), LEFT, WIDTH - RIGHT);
    let up = Axis::over(points().map(|p| p.1), HEIGHT - BOTTOM, TOP);
    let mut text = format!(
        "<svg xmlns=\"http://www.w3.org/2000/svg\" width=\"{WIDTH}\" height=\"{HEIGHT}\" \
         font-family=\"sans-serif\" font-size=\"12\">\n\
         <rect width=\"100%\" height=\"100%\" fill=\"white\"/>\n"
    );
    text += &grid(&across, &up);
    // The first implementation last, so that it lies on top.
    for (at, series) in series.iter().enumerate().rev() {
        text += &marks(series, at, &across, &up);
    }
    text + "</svg>\n"
}

fn series(all: &[Measured], planner: &str, search: Call) -> Series {
    let timings = all.iter().filter_map(|measured| measured.timing(planner, search));
    let points = timings
        .filter(|timing| timing.count > 0)
        .map(|timing| (f64::from(timing.count), timing.nanoseconds / 1_000.0))
        .collect();
    Series { name: format!("{planner}, {}", search.name()), points }
}

/// A logarithmic axis over whole decades.
struct Axis {
    first: i32,
    last: i32,
    from: f64,
    to: f64,
}

impl Axis {
    fn over(values: impl Iterator<Item = f64>, from: f64, to: f64) -> Axis {
        let (mut least, mut most) = (f64::INFINITY, 0.0_f64);
        for value in values.filter(|value| *value > 0.0) {
            least = least.min(value);
            most = most.max(value);
        }
        if most == 0.0 {
            (least, most) = (1.0, 10.0);
        }
        let first = least.log10().floor() as i32;
        let last = (most.log10().ceil() as i32).max(first + 1);
        Axis { first, last, from, to }
    }

    fn at(&self, value: f64) -> f64 {
        let part = (value.log10() - f64::from(self.first)) / f64::from(self.last - self.first);
        self.from + part * (self.to - self.from)
    }

    fn decades(&self) -> impl Iterator<Item = (f64, f64)> + '_ {
        (self.first..=self.last).map(|power| {
            let value = 10_f64.powi(power);
            (value, self.at(value))
        })
    }
}

fn grid(across: &Axis, up: &Axis) -> String {
    let (top, bottom, left, right) = (up.to, up.from, across.from, across.to);
    let mut text = String::new();
    for (value, x) in across.decades() {
        text += &format!(
            "<path d=\"M{x:.1} {top}V{bottom}\" stroke=\"#ddd\"/>\
             <text x=\"{x:.1}\" y=\"{:.1}\" text-anchor=\"middle\">{value}</text>\n",
            bottom + 18.0
        );
    }
    for (value, y) in up.decades() {
        text += &format!(
            "<path d=\"M{left} {y:.1}H{right}\" stroke=\"#ddd\"/>\
             <text x=\"{:.1}\" y=\"{:.1}\" text-anchor=\"end\">{value}</text>\n",
            left - 8.0,
            y + 4.0
        );
    }
    let (middle, centre, below) = ((left + right) / 2.0, (top + bottom) / 2.0, bottom + 42.0);
    text + &format!(
        "<text x=\"{middle:.1}\" y=\"24\" text-anchor=\"middle\">Time of a call on every load, \
         both axes logarithmic</text>\n<text x=\"{middle:.1}\" y=\"{below:.1}\" \
         text-anchor=\"middle\">pairs reached (sweep) or settled (guided)</text>\n<text x=\"20\" \
         y=\"{centre:.1}\" text-anchor=\"middle\" transform=\"rotate(-90 20 {centre:.1})\">time of a call, µs</text>\n"
    )
}

/// The points and the line of the legend. Sweeps are circles, guided searches squares.
fn marks(series: &Series, at: usize, across: &Axis, up: &Axis) -> String {
    let colour = COLOURS[at % COLOURS.len()];
    let mark = |x: f64, y: f64| {
        if at % 2 == 0 {
            format!("<circle cx=\"{x:.1}\" cy=\"{y:.1}\" r=\"3.5\" fill=\"{colour}\"/>\n")
        } else {
            let (x, y) = (x - 3.5, y - 3.5);
            format!(
                "<rect x=\"{x:.1}\" y=\"{y:.1}\" width=\"7\" height=\"7\" fill=\"{colour}\"/>\n"
            )
        }
    };
    let mut text: String =
        series.points.iter().map(|(pairs, time)| mark(across.at(*pairs), up.at(*time))).collect();
    let (x, y) = (WIDTH - RIGHT + 24.0, TOP + 20.0 * at as f64 + 10.0);
    text += &mark(x, y - 4.0);
    text + &format!("<text x=\"{:.1}\" y=\"{y:.1}\">{}</text>\n", x + 12.0, series.name)
}
