//! Draws one path at orders 3, 5 and 7 as SVG, the three over each other: its positions, its curvature and how fast the
//! curvature changes, all from the library's own queries. `examples/pictures` makes docs/orders.svg with it.
//!
//!   picture   the picture on standard output
use tezvorup::{BoundaryState, PathError, SplineConfig, SplinePath};

/// Points in millimetres, x and y.
const POINTS: [[f64; 2]; 6] = [[0.0, 0.0], [18.0, 26.0], [44.0, 14.0], [62.0, 34.0], [92.0, 30.0], [110.0, 0.0]];
/// How far to the right of each point its number stands, in pixels, so that no line runs through it.
const ASIDE: [f64; 6] = [-12.0, -11.0, 0.0, -12.0, 12.0, 12.0];
const SEGMENTS: usize = POINTS.len() - 1;
/// Places asked for in each segment.
const STEPS: usize = 96;

/// How an order is drawn. The colours are such as a colour-blind reader can tell apart, and width and dashes differ too.
struct Style {
    order: usize,
    stroke: &'static str,
    width: f64,
    dashes: &'static str,
}

const STYLES: [Style; 3] = [
    Style { order: 3, stroke: "#d55e00", width: 3.6, dashes: "none" },
    Style { order: 5, stroke: "#0072b2", width: 2.4, dashes: "9 4" },
    Style { order: 7, stroke: "#000000", width: 1.3, dashes: "none" },
];

/// What is drawn of one place on the path.
struct Sample {
    s: f64,
    x: f64,
    y: f64,
    curvature: f64,
    change: f64,
}

fn path(order: usize) -> Result<SplinePath, PathError> {
    // It leaves and arrives in the direction of its first and last points, and not at rest: there it would have no curvature.
    let columns = (order - 1) / 2;
    let (mut start, mut end) = (vec![0.0; 2 * columns], vec![0.0; 2 * columns]);
    start[..2].copy_from_slice(&[18.0, 26.0]);
    end[..2].copy_from_slice(&[18.0, -30.0]);
    let state = |numbers| BoundaryState::Given { rows: 2, columns, per_unit_of_s: false, numbers };
    let config =
        SplineConfig { order, s_max: SEGMENTS as f64, start_state: state(&start), end_state: state(&end), ..SplineConfig::default() };
    SplinePath::from_points(&config, &POINTS)
}

fn sample(path: &SplinePath, s: f64) -> Result<Sample, PathError> {
    let (mut q, mut d, mut dd, mut ddd) = ([0.0; 2], [0.0; 2], [0.0; 2], [0.0; 2]);
    path.eval_into(s, &mut [&mut q, &mut d, &mut dd, &mut ddd])?;
    let speed = (d[0] * d[0] + d[1] * d[1]).sqrt();
    let cross = |a: [f64; 2], b: [f64; 2]| a[0] * b[1] - a[1] * b[0];
    let curvature = cross(d, dd) / (speed * speed * speed);
    let along = (d[0] * dd[0] + d[1] * dd[1]) / (speed * speed);
    let change = cross(d, ddd) / (speed * speed * speed) - 3.0 * curvature * along;
    Ok(Sample { s, x: q[0], y: q[1], curvature, change })
}

/// Each segment from its first place to the last one before the next segment's, so that a jump at a joint is seen.
fn samples(path: &SplinePath) -> Result<Vec<Vec<Sample>>, PathError> {
    let place = |segment: usize, step: usize| {
        let s = segment as f64 + step as f64 / STEPS as f64;
        if step == STEPS && segment + 1 < SEGMENTS {
            // the float before
            f64::from_bits(s.to_bits() - 1)
        } else {
            s
        }
    };
    (0..SEGMENTS).map(|segment| (0..=STEPS).map(|step| sample(path, place(segment, step))).collect()).collect()
}

/// The numbers at the two ends of an axis, the pixels where they stand, its ticks and how many decimals those have.
struct Axis {
    ends: [f64; 2],
    pixels: [f64; 2],
    ticks: &'static [f64],
    decimals: usize,
}

impl Axis {
    /// Where a number stands. Nothing is cut off: with a number beyond the ends there is no picture.
    fn place(&self, number: f64) -> f64 {
        let ([low, high], [from, to]) = (self.ends, self.pixels);
        assert!(low <= number && number <= high, "{number} is not between {low} and {high}");
        from + (to - from) * (number - low) / (high - low)
    }

    /// Each tick's place and its number as text.
    fn marks(&self) -> impl Iterator<Item = (f64, String)> + '_ {
        self.ticks.iter().map(move |&tick| (self.place(tick), format!("{tick:.*}", self.decimals).replace('-', "\u{2212}")))
    }
}

/// The three orders in the order they are drawn, and each one's places, segment by segment.
type Orders = [(&'static Style, Vec<Vec<Sample>>)];

const WIDTH: f64 = 860.0;
const HEIGHT: f64 = 1000.0;
/// Where every panel begins and ends across.
const LEFT: f64 = 62.0;
const RIGHT: f64 = 842.0;

fn text(x: f64, y: f64, anchor: &str, words: &str) {
    println!(r#"<text x="{x:.2}" y="{y:.2}" text-anchor="{anchor}">{words}</text>"#);
}

fn rule(from: [f64; 2], to: [f64; 2], look: &str) {
    println!(r#"<line x1="{:.2}" y1="{:.2}" x2="{:.2}" y2="{:.2}" {look}/>"#, from[0], from[1], to[0], to[1]);
}

fn polyline(style: &Style, places: &[[f64; 2]]) {
    let points: Vec<String> = places.iter().map(|[x, y]| format!("{x:.2},{y:.2}")).collect();
    let Style { stroke, width, dashes, .. } = style;
    let look = format!(r#"fill="none" stroke="{stroke}" stroke-width="{width}" stroke-dasharray="{dashes}""#);
    println!(r#"<polyline {look} points="{}"/>"#, points.join(" "));
}

fn dot(style: &Style, [x, y]: [f64; 2]) {
    println!(r#"<circle cx="{x:.2}" cy="{y:.2}" r="4" fill="{}"/>"#, style.stroke);
}

/// The segments as lines: one that begins where the one before it ends, to half a pixel, goes on with that one's line.
fn lines(segments: Vec<Vec<[f64; 2]>>) -> Vec<Vec<[f64; 2]>> {
    let mut lines: Vec<Vec<[f64; 2]>> = Vec::new();
    for segment in segments {
        match lines.last_mut() {
            Some(line) if (line[line.len() - 1][1] - segment[0][1]).abs() < 0.5 => line.extend(&segment[1..]),
            _ => lines.push(segment),
        }
    }
    lines
}

/// A part of the picture, with what stands above it and below.
struct Panel {
    name: &'static str,
    up_is: &'static str,
    up: Axis,
    across_is: &'static str,
    across: Axis,
}

impl Panel {
    fn frame(&self) {
        let [bottom, top] = self.up.pixels;
        text(LEFT, top - 10.0, "start", &format!(r#"<tspan font-weight="bold">{}</tspan> {}"#, self.name, self.up_is));
        text((LEFT + RIGHT) / 2.0, bottom + 42.0, "middle", self.across_is);
        for (y, number) in self.up.marks() {
            rule([LEFT, y], [RIGHT, y], r##"stroke="#dddddd""##);
            text(LEFT - 8.0, y + 5.0, "end", &number);
        }
        for (x, number) in self.across.marks() {
            rule([x, bottom], [x, bottom + 5.0], r##"stroke="#777777""##);
            text(x, bottom + 21.0, "middle", &number);
        }
        let (width, height) = (RIGHT - LEFT, bottom - top);
        println!(r##"<rect x="{LEFT}" y="{top}" width="{width}" height="{height}" fill="none" stroke="#777777"/>"##);
    }

    /// A dashed line at each joint: the points but the first and the last.
    fn joints(&self) {
        let [bottom, top] = self.up.pixels;
        for joint in 1..SEGMENTS {
            let x = self.across.place(joint as f64);
            rule([x, top], [x, bottom], r##"stroke="#999999" stroke-dasharray="4 4""##);
        }
    }

    /// Each order's line, with a gap where it jumps and a dot at either side of the gap.
    fn curves(&self, orders: &Orders, numbers: impl Fn(&Sample) -> (f64, f64)) {
        let place = |sample: &Sample| {
            let (across, up) = numbers(sample);
            [self.across.place(across), self.up.place(up)]
        };
        for (style, segments) in orders {
            let lines = lines(segments.iter().map(|segment| segment.iter().map(place).collect()).collect());
            lines.iter().for_each(|line| polyline(style, line));
            for sides in lines.windows(2) {
                dot(style, sides[0][sides[0].len() - 1]);
                dot(style, sides[1][0]);
            }
        }
    }
}

fn head() {
    let size = format!(r#"width="{WIDTH}" height="{HEIGHT}""#);
    println!(r#"<svg xmlns="http://www.w3.org/2000/svg" {size} viewBox="0 0 {WIDTH} {HEIGHT}" font-family="sans-serif" font-size="15">"#);
    println!("<title>One path at orders 3, 5 and 7: where it runs, its curvature, and the change of that</title>");
    println!(r#"<rect {size} fill="white"/>"#);
    println!(r#"<g font-size="17" font-weight="bold">"#);
    text(LEFT, 28.0, "start", "Order 3: at points 1 to 4 the curvature has a corner and its change jumps.");
    text(LEFT, 52.0, "start", "Orders 5 and 7: both are smooth.");
    println!("</g>");
}

fn legend() {
    let y = 80.0;
    for (i, style) in STYLES.iter().enumerate() {
        let x = LEFT + 165.0 * i as f64;
        polyline(style, &[[x, y], [x + 61.0, y]]);
        text(x + 71.0, y + 5.0, "start", &format!("order {}", style.order));
    }
}

/// The points, each with its number.
fn points(panel: &Panel) {
    for (i, (point, aside)) in POINTS.iter().zip(ASIDE).enumerate() {
        let (x, y) = (panel.across.place(point[0]), panel.up.place(point[1]));
        println!(r#"<circle cx="{x:.2}" cy="{y:.2}" r="5" fill="white" stroke="black" stroke-width="2"/>"#);
        text(x + aside, y - 10.0, "middle", &i.to_string());
    }
}

fn position(orders: &Orders) {
    // one millimetre is as long up as across
    let (x, y) = ([-5.0, 115.0], [-3.0, 43.0]);
    let (top, scale) = (130.0, (RIGHT - LEFT) / (x[1] - x[0]));
    let panel = Panel {
        name: "The path:",
        up_is: "y in mm",
        up: Axis { ends: y, pixels: [top + scale * (y[1] - y[0]), top], ticks: &[0.0, 10.0, 20.0, 30.0, 40.0], decimals: 0 },
        across_is: "x in mm",
        across: Axis { ends: x, pixels: [LEFT, RIGHT], ticks: &[0.0, 20.0, 40.0, 60.0, 80.0, 100.0], decimals: 0 },
    };
    panel.frame();
    panel.curves(orders, |sample| (sample.x, sample.y));
    points(&panel);
}

/// A panel over s.
fn by_s(name: &'static str, up_is: &'static str, up: Axis, orders: &Orders, number: impl Fn(&Sample) -> f64) {
    let across = Axis { ends: [0.0, SEGMENTS as f64], pixels: [LEFT, RIGHT], ticks: &[0.0, 1.0, 2.0, 3.0, 4.0, 5.0], decimals: 0 };
    let panel = Panel { name, up_is, up, across_is: "s, one unit from point to point: point 2 is at s = 2", across };
    panel.frame();
    panel.joints();
    panel.curves(orders, |sample| (sample.s, number(sample)));
}

fn main() -> Result<(), PathError> {
    let mut orders = Vec::new();
    for style in &STYLES {
        orders.push((style, samples(&path(style.order)?)?));
    }
    head();
    legend();
    position(&orders);
    let up = Axis { ends: [-0.22, 0.28], pixels: [677.0, 517.0], ticks: &[-0.2, -0.1, 0.0, 0.1, 0.2], decimals: 1 };
    by_s("Curvature", "in 1/mm", up, &orders, |sample| sample.curvature);
    let up = Axis { ends: [-1.2, 1.2], pixels: [945.0, 765.0], ticks: &[-1.0, -0.5, 0.0, 0.5, 1.0], decimals: 1 };
    by_s("Change of the curvature", "in 1/mm per unit of s; the dots are the two sides of a jump", up, &orders, |sample| sample.change);
    println!("</svg>");
    Ok(())
}
