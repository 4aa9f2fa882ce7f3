//! The picture: time against P, both by powers of ten.

use crate::input::Letters;
use crate::measure::Measured;
use std::fmt::Write;

/// The drawing, and the frame of the plot in it.
const WIDTH: f64 = 760.0;
const HEIGHT: f64 = 560.0;
const LEFT: f64 = 84.0;
const RIGHT: f64 = 736.0;
const TOP: f64 = 64.0;
const BOTTOM: f64 = 494.0;

struct Series {
    name: &'static str,
    colour: &'static str,
    mark: fn(f64, f64, &str) -> String,
    time: fn(&Measured) -> Option<f64>,
}

/// Ours is the smallest mark and is drawn last, so that it shows inside the ring of the same algorithm in Rust where the two agree.
const SERIES: [Series; 7] = [
    Series { name: "listing of all logs", colour: "#7a5195", mark: cross, time: |m| m.times.listing },
    Series { name: "hash map", colour: "#c0392b", mark: square, time: |m| Some(m.times.hashed) },
    Series { name: "hash map of ranks, memory kept", colour: "#e377c2", mark: square, time: |m| Some(m.times.ranked) },
    Series { name: "dense array", colour: "#2e8b57", mark: cross, time: |m| m.times.dense },
    Series { name: "merge without removable letters, in Rust", colour: "#8c8c8c", mark: ring, time: |m| Some(m.times.merge) },
    Series { name: "the same algorithm in Rust", colour: "#e08a00", mark: ring, time: |m| Some(m.times.marked) },
    Series { name: "Fumarehi", colour: "#1f5fa8", mark: dot, time: |m| Some(m.times.ours) },
];

fn dot(x: f64, y: f64, colour: &str) -> String {
    format!(r#"<circle cx="{x:.1}" cy="{y:.1}" r="2.6" fill="{colour}"/>"#)
}

fn ring(x: f64, y: f64, colour: &str) -> String {
    format!(r#"<circle cx="{x:.1}" cy="{y:.1}" r="5" fill="none" stroke="{colour}" stroke-width="1.5"/>"#)
}

fn square(x: f64, y: f64, colour: &str) -> String {
    format!(r#"<rect x="{:.1}" y="{:.1}" width="7" height="7" fill="none" stroke="{colour}" stroke-width="1.5"/>"#, x - 3.5, y - 3.5)
}

fn cross(x: f64, y: f64, colour: &str) -> String {
    let (l, r, t, b) = (x - 4.0, x + 4.0, y - 4.0, y + 4.0);
    format!(r#"<path d="M{l:.1} {t:.1}L{r:.1} {b:.1}M{l:.1} {b:.1}L{r:.1} {t:.1}" stroke="{colour}" stroke-width="1.5"/>"#)
}

/// An axis: whole powers of ten from `low` to `high`, drawn from `from` to `to`.
struct Axis {
    low: i32,
    high: i32,
    from: f64,
    to: f64,
}

impl Axis {
    fn over(values: impl Iterator<Item = f64>, from: f64, to: f64) -> Axis {
        let (least, most) = values.fold((f64::MAX, 0.0), |(l, m): (f64, f64), v| (l.min(v), m.max(v)));
        Axis { low: least.log10().floor() as i32, high: most.log10().ceil() as i32, from, to }
    }

    fn at(&self, value: f64) -> f64 {
        let part = (value.log10() - f64::from(self.low)) / f64::from(self.high - self.low);
        self.from + part * (self.to - self.from)
    }

    fn powers(&self) -> impl Iterator<Item = (i32, f64)> + '_ {
        (self.low..=self.high).map(|e| (e, self.at(10f64.powi(e))))
    }
}

fn milliseconds(m: &Measured, series: &Series) -> Option<f64> {
    (series.time)(m).map(|seconds| seconds * 1e3)
}

/// Powers of ten in figures as long as they are short.
fn power(e: i32) -> String {
    match e {
        -3..=-1 => format!("{:.*}", -e as usize, 10f64.powi(e)),
        0..=3 => format!("{}", 10i32.pow(e as u32)),
        _ => format!(r#"10<tspan dy="-5" font-size="10">{e}</tspan>"#),
    }
}

fn frame(svg: &mut String, x: &Axis, y: &Axis) {
    for (e, at) in x.powers() {
        let _ = writeln!(svg, r##"<path d="M{at:.1} {TOP}V{BOTTOM}" stroke="#ddd"/>"##);
        let _ = writeln!(svg, r#"<text x="{at:.1}" y="{:.1}" text-anchor="middle">{}</text>"#, BOTTOM + 20.0, power(e));
    }
    for (e, at) in y.powers() {
        let _ = writeln!(svg, r##"<path d="M{LEFT} {at:.1}H{RIGHT}" stroke="#ddd"/>"##);
        let _ = writeln!(svg, r#"<text x="{:.1}" y="{:.1}" text-anchor="end">{}</text>"#, LEFT - 8.0, at + 4.0, power(e));
    }
    let _ = writeln!(svg, r##"<rect x="{LEFT}" y="{TOP}" width="{}" height="{}" fill="none" stroke="#555"/>"##, RIGHT - LEFT, BOTTOM - TOP);
    let middle = (LEFT + RIGHT) / 2.0;
    let _ = writeln!(svg, r#"<text x="{middle}" y="{}" text-anchor="middle">P, the number of prefixes of the log</text>"#, BOTTOM + 46.0);
    let middle = (TOP + BOTTOM) / 2.0;
    let _ = writeln!(svg, r#"<text x="22" y="{middle}" text-anchor="middle" transform="rotate(-90 22 {middle})">time of one log (ms)</text>"#);
}

/// The line of a series joins the rows of four independent letters and eight states, by growing P.
fn on_line(m: &Measured) -> bool {
    m.row.k == 4 && m.row.s == 8 && m.row.letters == Letters::Independent && m.row.verdict
}

fn draw(svg: &mut String, all: &[Measured], series: &Series, x: &Axis, y: &Axis) {
    let places: Vec<_> = all.iter().filter_map(|m| Some((m, x.at(m.prefixes as f64), y.at(milliseconds(m, series)?)))).collect();
    let line: Vec<_> = places.iter().filter(|(m, ..)| on_line(m)).map(|(_, x, y)| format!("{x:.1},{y:.1}")).collect();
    let _ = writeln!(svg, r#"<polyline points="{}" fill="none" stroke="{}" stroke-opacity="0.6"/>"#, line.join(" "), series.colour);
    for (_, x, y) in places {
        let _ = writeln!(svg, "{}", (series.mark)(x, y, series.colour));
    }
}

fn legend(svg: &mut String) {
    for (i, series) in SERIES.iter().rev().enumerate() {
        let at = TOP + 20.0 + 20.0 * i as f64;
        let _ = writeln!(svg, "{}", (series.mark)(LEFT + 20.0, at, series.colour));
        let _ = writeln!(svg, r#"<text x="{}" y="{}">{}</text>"#, LEFT + 34.0, at + 4.5, series.name);
    }
}

pub fn svg(all: &[Measured]) -> String {
    let x = Axis::over(all.iter().map(|m| m.prefixes as f64), LEFT, RIGHT);
    let times = SERIES.iter().flat_map(|series| all.iter().filter_map(move |m| milliseconds(m, series)));
    let y = Axis::over(times, BOTTOM, TOP);
    let mut svg = String::new();
    let _ = writeln!(svg, r#"<svg xmlns="http://www.w3.org/2000/svg" viewBox="0 0 {WIDTH} {HEIGHT}" font-family="sans-serif" font-size="13">"#);
    let _ = writeln!(svg, r#"<rect width="{WIDTH}" height="{HEIGHT}" fill="white"/>"#);
    let _ = writeln!(svg, r#"<text x="{LEFT}" y="26" font-size="16">Time of the judge against P</text>"#);
    let _ = writeln!(svg, r##"<text x="{LEFT}" y="47" fill="#555">a mark for each input; the lines join those of 4 independent letters and 8 states</text>"##);
    frame(&mut svg, &x, &y);
    for series in &SERIES {
        draw(&mut svg, all, series, &x, &y);
    }
    legend(&mut svg);
    svg + "</svg>\n"
}
