//! The picture of orders done by the number of shuttles, a panel for each hall and a line for each rule.

use crate::rules::Rule;
use crate::throughput::{Line, SHUTTLES};
use std::fmt::Write;

const WIDE: f64 = 300.0;
const HIGH: f64 = 260.0;
const TOP: f64 = 40.0;
const PANELS: [f64; 2] = [60.0, 410.0];

const COLOURS: [&str; Rule::ALL.len()] = ["#0b6e4f", "#8a8a8a", "#b5651d", "#c0392b", "#2c5fa8"];

pub fn svg(lines: &[Line]) -> String {
    let halls: Vec<&[Line]> = lines.chunk_by(|one, other| one.hall == other.hall).collect();
    let top = lines.iter().flat_map(|line| line.done).map(|done| done.orders).fold(0.0, f64::max);
    let top = (top / 50.0).ceil() * 50.0;
    let mut svg = String::from(
        "<svg xmlns=\"http://www.w3.org/2000/svg\" viewBox=\"0 0 740 400\" font-family=\"sans-serif\" \
         font-size=\"12\">\n<rect width=\"740\" height=\"400\" fill=\"white\"/>\n",
    );
    for (panel, hall) in PANELS.into_iter().zip(halls) {
        axes(&mut svg, panel, hall[0].hall, top);
        for (rule, colour) in COLOURS.into_iter().enumerate() {
            curve(&mut svg, panel, hall, rule, colour, top);
        }
    }
    legend(&mut svg);
    svg.push_str("</svg>\n");
    svg
}

fn x(panel: f64, shuttles: usize) -> f64 {
    let (first, last) = (SHUTTLES[0] as f64, SHUTTLES[SHUTTLES.len() - 1] as f64);
    panel + WIDE * (shuttles as f64 - first) / (last - first)
}

fn y(orders: f64, top: f64) -> f64 {
    TOP + HIGH * (1.0 - orders / top)
}

/// Writing to a string can't fail.
fn add(svg: &mut String, text: std::fmt::Arguments) {
    svg.write_fmt(text).expect("a string takes all that is written");
    svg.push('\n');
}

fn axes(svg: &mut String, panel: f64, name: &str, top: f64) {
    let right = panel + WIDE;
    add(svg, format_args!("<text x=\"{panel}\" y=\"{}\" font-weight=\"bold\">{name}</text>", TOP - 16.0));
    for step in 0..=5 {
        let orders = top * f64::from(step) / 5.0;
        let y = y(orders, top);
        add(svg, format_args!("<line x1=\"{panel}\" y1=\"{y:.1}\" x2=\"{right}\" y2=\"{y:.1}\" stroke=\"#dddddd\"/>"));
        let (x, y) = (panel - 6.0, y + 4.0);
        add(svg, format_args!("<text x=\"{x}\" y=\"{y:.1}\" text-anchor=\"end\">{orders:.0}</text>"));
    }
    for shuttles in SHUTTLES {
        let (x, y) = (x(panel, shuttles), TOP + HIGH + 18.0);
        add(svg, format_args!("<text x=\"{x:.1}\" y=\"{y}\" text-anchor=\"middle\">{shuttles}</text>"));
    }
    let (middle, below) = (panel + WIDE / 2.0, TOP + HIGH + 36.0);
    add(svg, format_args!("<text x=\"{middle}\" y=\"{below}\" text-anchor=\"middle\">shuttles</text>"));
    let beside = panel - 40.0;
    let half = TOP + HIGH / 2.0;
    add(
        svg,
        format_args!(
            "<text x=\"{beside}\" y=\"{half}\" text-anchor=\"middle\" transform=\"rotate(-90 {beside} {half})\">orders \
             done</text>"
        ),
    );
}

fn curve(svg: &mut String, panel: f64, hall: &[Line], rule: usize, colour: &str, top: f64) {
    let points: Vec<(f64, f64)> =
        hall.iter().map(|line| (x(panel, line.shuttles), y(line.done[rule].orders, top))).collect();
    let joined: Vec<String> = points.iter().map(|(x, y)| format!("{x:.1},{y:.1}")).collect();
    let joined = joined.join(" ");
    add(svg, format_args!("<polyline points=\"{joined}\" fill=\"none\" stroke=\"{colour}\" stroke-width=\"2\"/>"));
    for (x, y) in points {
        add(svg, format_args!("<circle cx=\"{x:.1}\" cy=\"{y:.1}\" r=\"3\" fill=\"{colour}\"/>"));
    }
}

fn legend(svg: &mut String) {
    let mut x = PANELS[0];
    let y = TOP + HIGH + 70.0;
    for (rule, colour) in Rule::ALL.into_iter().zip(COLOURS) {
        let (end, beside, middle) = (x + 20.0, x + 26.0, y - 4.0);
        add(
            svg,
            format_args!(
                "<line x1=\"{x}\" y1=\"{middle}\" x2=\"{end}\" y2=\"{middle}\" stroke=\"{colour}\" stroke-width=\"2\"/>\n\
                 <text x=\"{beside}\" y=\"{y}\">{}</text>",
                rule.name()
            ),
        );
        x += 50.0 + 7.0 * rule.name().len() as f64;
    }
}
