//! Pictures of the tables, as SVG text: lines by size, and pairs of bars. They are readable on light and dark pages.

use std::fmt::Write;

const WIDTH: f64 = 860.0;
const HEIGHT: f64 = 420.0;
const LEFT: f64 = 84.0;
const TOP: f64 = 50.0;
const RIGHT: f64 = 580.0;
const BOTTOM: f64 = 360.0;
const LEGEND: f64 = 600.0;

/// Background and ink change together, so that either is readable on any page.
const STYLE: &str = "<style>\n\
    svg { --page: #ffffff; --ink: #1f2328; --grid: #d0d7de; --a: #0a58ca; --b: #b35900; --c: #1a7f37; }\n\
    @media (prefers-color-scheme: dark) {\n\
    svg { --page: #0d1117; --ink: #e6edf3; --grid: #3d444d; --a: #6cb6ff; --b: #f0a050; --c: #57d073; }\n\
    }\n\
    text { font: 13px sans-serif; fill: #1f2328; fill: var(--ink); }\n\
    .title { font-size: 16px; font-weight: bold; }\n\
    .page { fill: #ffffff; fill: var(--page); }\n\
    .grid { stroke: #d0d7de; stroke: var(--grid); }\n\
    .line { fill: none; stroke-width: 2; }\n\
    .reference { stroke-dasharray: 6 4; }\n\
    .a { stroke: #0a58ca; stroke: var(--a); }\n\
    .b { stroke: #b35900; stroke: var(--b); }\n\
    .c { stroke: #1a7f37; stroke: var(--c); }\n\
    .fill-a { fill: #0a58ca; fill: var(--a); }\n\
    .fill-b { fill: #b35900; fill: var(--b); }\n\
    .fill-c { fill: #1a7f37; fill: var(--c); }\n\
    </style>\n";

const COLOURS: [&str; 3] = ["a", "b", "c"];

/// Size, library, reference.
pub type Point = (f64, f64, f64);

/// What is measured at some sizes.
pub struct Series {
    pub name: &'static str,
    pub points: Vec<Point>,
}

/// What is measured once: its name, library, reference.
pub struct Pair {
    pub name: &'static str,
    pub ours: f64,
    pub theirs: f64,
}

/// A scale from 0, with its steps.
pub struct Scale {
    pub most: f64,
    pub step: f64,
}

impl Scale {
    /// To a round number, by at most six steps of 1, 2 or 5 times a power of ten.
    fn to(largest: f64) -> Scale {
        let power = 10f64.powf((largest / 6.0).log10().floor());
        let steps = [1.0, 2.0, 5.0, 10.0].map(|factor| factor * power);
        let fits = |step: &f64| largest / step <= 6.0;
        let step = steps.into_iter().find(fits).unwrap_or(largest);
        let most = (largest / step).ceil() * step;
        Scale { most, step }
    }

    /// How far along the axis, from 0 to 1.
    fn part(&self, value: f64) -> f64 {
        value / self.most
    }

    fn values(&self) -> Vec<f64> {
        let count = (self.most / self.step).round() as usize;
        (0..=count).map(|i| i as f64 * self.step).collect()
    }
}

fn across(part: f64) -> f64 {
    LEFT + part * (RIGHT - LEFT)
}

fn up(part: f64) -> f64 {
    BOTTOM - part * (BOTTOM - TOP)
}

/// A number with a comma before its last three digits.
fn grouped(value: f64) -> String {
    let number = value.round() as u64;
    match number / 1000 {
        0 => format!("{number}"),
        thousands => format!("{thousands},{:03}", number % 1000),
    }
}

/// An SVG text that grows.
struct Picture {
    text: String,
}

impl Picture {
    fn begin(title: &str, bottom: &str) -> Picture {
        let text = format!(
            "<svg xmlns=\"http://www.w3.org/2000/svg\" viewBox=\"0 0 {WIDTH} {HEIGHT}\" width=\"{WIDTH}\" height=\"{HEIGHT}\" role=\"img\">\n<title>{title}</title>\n{STYLE}"
        );
        let mut picture = Picture { text };
        picture.add(format!(
            "<rect class=\"page\" width=\"{WIDTH}\" height=\"{HEIGHT}\"/>"
        ));
        picture.write("title", LEFT, 28.0, "start", title);
        picture.write("", (LEFT + RIGHT) / 2.0, BOTTOM + 42.0, "middle", bottom);
        let middle = (TOP + BOTTOM) / 2.0;
        picture.add(format!(
            "<text transform=\"translate(20 {middle}) rotate(-90)\" text-anchor=\"middle\">nanoseconds, median</text>"
        ));
        picture
    }

    fn add(&mut self, element: String) {
        self.text.push_str(&element);
        self.text.push('\n');
    }

    fn write(&mut self, class: &str, x: f64, y: f64, anchor: &str, words: &str) {
        self.add(format!(
            "<text class=\"{class}\" x=\"{x:.1}\" y=\"{y:.1}\" text-anchor=\"{anchor}\">{words}</text>"
        ));
    }

    fn stroke(&mut self, class: &str, from: (f64, f64), to: (f64, f64)) {
        self.add(format!(
            "<line class=\"{class}\" x1=\"{:.1}\" y1=\"{:.1}\" x2=\"{:.1}\" y2=\"{:.1}\"/>",
            from.0, from.1, to.0, to.1
        ));
    }

    fn upright(&mut self, scale: &Scale) {
        for value in scale.values() {
            let y = up(scale.part(value));
            self.stroke("grid", (LEFT, y), (RIGHT, y));
            self.write("", LEFT - 8.0, y + 4.0, "end", &grouped(value));
        }
    }

    fn level(&mut self, scale: &Scale) {
        for value in scale.values() {
            let x = across(scale.part(value));
            self.stroke("grid", (x, TOP), (x, BOTTOM));
            self.write("", x, BOTTOM + 18.0, "middle", &grouped(value));
        }
    }

    /// A line through points, each with a dot.
    fn curve(&mut self, colour: &str, side: &str, points: &[(f64, f64)]) {
        let mut places = String::new();
        for (x, y) in points {
            write!(places, "{x:.1},{y:.1} ").expect("a string takes all");
            self.add(format!(
                "<circle class=\"fill-{colour}\" cx=\"{x:.1}\" cy=\"{y:.1}\" r=\"3\"/>"
            ));
        }
        self.add(format!(
            "<polyline class=\"line {colour} {side}\" points=\"{}\"/>",
            places.trim_end()
        ));
    }

    fn bar(&mut self, class: &str, x: f64, part: f64, value: f64) {
        let height = BOTTOM - up(part);
        self.add(format!(
            "<rect class=\"{class}\" x=\"{x:.1}\" y=\"{:.1}\" width=\"50\" height=\"{height:.1}\"/>",
            up(part)
        ));
        self.write("", x + 25.0, up(part) - 6.0, "middle", &grouped(value));
    }

    fn end(mut self) -> String {
        self.text.push_str("</svg>\n");
        self.text
    }
}

/// Lines: the library's are whole, the reference's broken.
pub fn lines(title: &str, bottom: &str, x: Scale, series: &[Series]) -> String {
    let points = series.iter().flat_map(|s| &s.points);
    let y = Scale::to(points.fold(0.0, |most, p| p.1.max(p.2).max(most)));
    let mut picture = Picture::begin(title, bottom);
    picture.upright(&y);
    picture.level(&x);
    for (place, s) in series.iter().enumerate() {
        let colour = COLOURS[place];
        let mut at = TOP + 76.0 * place as f64 + 10.0;
        picture.write("", LEGEND, at, "start", s.name);
        for (side, name) in ["library", "reference"].into_iter().enumerate() {
            let on = |p: &Point| (across(x.part(p.0)), up(y.part([p.1, p.2][side])));
            picture.curve(colour, name, &s.points.iter().map(on).collect::<Vec<_>>());
            at += 20.0;
            let class = format!("line {colour} {name}");
            picture.stroke(&class, (LEGEND, at - 4.0), (LEGEND + 40.0, at - 4.0));
            picture.write("", LEGEND + 50.0, at, "start", name);
        }
    }
    picture.end()
}

/// Pairs of bars: the library's, then the reference's.
pub fn bars(title: &str, bottom: &str, pairs: &[Pair]) -> String {
    let most = pairs
        .iter()
        .fold(0.0, |m: f64, p| p.ours.max(p.theirs).max(m));
    let y = Scale::to(most);
    let mut picture = Picture::begin(title, bottom);
    picture.upright(&y);
    for (place, pair) in pairs.iter().enumerate() {
        let middle = across((place as f64 + 0.5) / pairs.len() as f64);
        picture.bar("fill-a", middle - 54.0, y.part(pair.ours), pair.ours);
        picture.bar("fill-b", middle + 4.0, y.part(pair.theirs), pair.theirs);
        picture.write("", middle, BOTTOM + 18.0, "middle", pair.name);
    }
    for (place, (class, name)) in [("fill-a", "library"), ("fill-b", "reference")]
        .iter()
        .enumerate()
    {
        let at = TOP + 24.0 * place as f64;
        picture.add(format!(
            "<rect class=\"{class}\" x=\"{LEGEND}\" y=\"{at}\" width=\"16\" height=\"16\"/>"
        ));
        picture.write("", LEGEND + 26.0, at + 13.0, "start", name);
    }
    picture.end()
}
