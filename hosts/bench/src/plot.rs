//! The plot of cost against elements, as an SVG.
use crate::rows::Growth;
use std::fmt::Write;

/// The drawing's width and height.
const SIZE: (f64, f64) = (760.0, 440.0);
/// The frame's left, top, right and bottom.
const FRAME: (f64, f64, f64, f64) = (70.0, 50.0, 560.0, 380.0);
/// What the plot shows.
const TITLE: &str = "Cost of a call by 31 against the store's elements (both axes logarithmic)";
/// The least and the greatest number of elements, as powers of two.
const ELEMENTS: (f64, f64) = (0.0, 10.0);

/// A line of the plot: its name, colour and dashes, and its points of elements and nanoseconds.
struct Line {
    name: &'static str,
    colour: &'static str,
    dashes: &'static str,
    points: Vec<(f64, f64)>,
}

/// The axis of costs: its least and greatest power of ten.
type Costs = (f64, f64);

/// The plot of a growth and the floor.
pub fn svg(growth: &[Growth], floor: f64) -> String {
    let lines = lines(growth, floor);
    let costs = costs(&lines);
    let mut svg = frame(costs);
    let mut last = f64::NEG_INFINITY;
    for (line, wished) in by_end(&lines, costs) {
        last = wished.max(last + 17.0);
        draw(&mut svg, line, costs, last);
    }
    svg + "</svg>\n"
}

/// The lines that are drawn.
fn lines(growth: &[Growth], floor: f64) -> [Line; 5] {
    let line = |name, colour, dashes, cost: &dyn Fn(&Growth) -> f64| {
        let points = growth.iter().map(|at| (at.elements as f64, cost(at))).collect();
        Line { name, colour, dashes, points }
    };
    [
        line("View by 31, product", "#0b5cad", "none", &|at| at.view.product),
        line("View by 31, Rust program", "#c2500a", "none", &|at| at.view.reference),
        line("Test, product", "#0b5cad", "6 4", &|at| at.test.product),
        line("Test, Rust program", "#c2500a", "6 4", &|at| at.test.reference),
        line("Reading the store once", "#666666", "2 3", &|_| floor),
    ]
}

/// The powers of ten that hold every cost.
fn costs(lines: &[Line]) -> Costs {
    let all = || lines.iter().flat_map(|line| &line.points).map(|(_, cost)| cost.log10());
    (all().fold(f64::INFINITY, f64::min).floor(), all().fold(0.0, f64::max).ceil())
}

/// Where a number of elements stands.
fn across(elements: f64) -> f64 {
    FRAME.0 + (elements.log2() - ELEMENTS.0) / (ELEMENTS.1 - ELEMENTS.0) * (FRAME.2 - FRAME.0)
}

/// Where a cost stands.
fn up(cost: f64, costs: Costs) -> f64 {
    FRAME.3 - (cost.log10() - costs.0) / (costs.1 - costs.0) * (FRAME.3 - FRAME.1)
}

/// The title, the axes and their numbers.
fn frame(costs: Costs) -> String {
    let (left, top, right, bottom) = FRAME;
    let mut svg = format!(
        "<svg xmlns=\"http://www.w3.org/2000/svg\" viewBox=\"0 0 {0} {1}\" width=\"{0}\" height=\"{1}\" \
         font-family=\"sans-serif\" font-size=\"13\" fill=\"#222222\">\n\
         <rect width=\"100%\" height=\"100%\" fill=\"#ffffff\"/>\n\
         <text x=\"{left}\" y=\"26\" font-size=\"15\">{TITLE}</text>\n\
         <text x=\"{2}\" y=\"{3}\" text-anchor=\"middle\">elements in the store</text>\n",
        SIZE.0,
        SIZE.1,
        (left + right) / 2.0,
        bottom + 44.0,
    );
    for power in (0..=10).step_by(2) {
        let x = across(f64::from(1 << power));
        rule(&mut svg, (x, top), (x, bottom));
        let _ =
            writeln!(svg, "<text x=\"{x:.1}\" y=\"{}\" text-anchor=\"middle\">{}</text>", bottom + 20.0, 1 << power);
    }
    for power in costs.0 as i32..=costs.1 as i32 {
        let y = up(10_f64.powi(power), costs);
        rule(&mut svg, (left, y), (right, y));
        let _ =
            writeln!(svg, "<text x=\"{}\" y=\"{:.1}\" text-anchor=\"end\">{}</text>", left - 8.0, y + 4.0, unit(power));
    }
    svg
}

/// A thin rule between two points.
fn rule(svg: &mut String, from: (f64, f64), to: (f64, f64)) {
    let _ = writeln!(
        svg,
        "<line x1=\"{:.1}\" y1=\"{:.1}\" x2=\"{:.1}\" y2=\"{:.1}\" stroke=\"#dddddd\"/>",
        from.0, from.1, to.0, to.1,
    );
}

/// A power of ten nanoseconds with its unit.
fn unit(power: i32) -> String {
    match power {
        0..3 => format!("{} ns", 10_i32.pow(power as u32)),
        3..6 => format!("{} µs", 10_i32.pow(power as u32 - 3)),
        _ => format!("{} ms", 10_i32.pow(power as u32 - 6)),
    }
}

/// The lines from the highest end to the lowest, each with where its name is wished.
fn by_end(lines: &[Line], costs: Costs) -> Vec<(&Line, f64)> {
    let end = |line: &Line| line.points.last().map_or(FRAME.3, |(_, cost)| up(*cost, costs));
    let mut ends: Vec<(&Line, f64)> = lines.iter().map(|line| (line, end(line))).collect();
    ends.sort_by(|one, two| one.1.total_cmp(&two.1));
    ends
}

/// Draws a line with its points, and its name at this height.
fn draw(svg: &mut String, line: &Line, costs: Costs, height: f64) {
    let Line { name, colour, dashes, points } = line;
    let points: Vec<String> =
        points.iter().map(|(elements, cost)| format!("{:.1},{:.1}", across(*elements), up(*cost, costs))).collect();
    let _ = writeln!(
        svg,
        "<polyline points=\"{}\" fill=\"none\" stroke=\"{colour}\" stroke-width=\"2\" stroke-dasharray=\"{dashes}\"/>\n\
         <text x=\"{}\" y=\"{:.1}\" fill=\"{colour}\">{name}</text>",
        points.join(" "),
        FRAME.2 + 10.0,
        height + 4.0,
    );
}
