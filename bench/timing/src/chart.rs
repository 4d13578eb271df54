//! The table of ratios as a bar chart, in SVG.

use crate::ratios::{times_as_long, Measured};
use crate::ways::Tool;
use std::fmt::Write;

const WIDTH: f64 = 900.0;
const HEIGHT: f64 = 460.0;
/// The frame of the plot within the picture.
const LEFT: f64 = 90.0;
const RIGHT: f64 = 880.0;
const TOP: f64 = 70.0;
const BOTTOM: f64 = 400.0;
const COLOURS: [&str; 4] = ["#1b6ca8", "#8a8d91", "#d98324", "#9c3848"];

/// A scale on which each power of ten takes the same height.
struct Scale {
    least: i32,
    most: i32,
}

impl Scale {
    fn new(ratios: impl Iterator<Item = f64>) -> Self {
        let mut scale = Scale { least: -1, most: 1 };
        for ratio in ratios {
            scale.least = scale.least.min(ratio.log10().floor() as i32);
            scale.most = scale.most.max(ratio.log10().ceil() as i32);
        }
        scale
    }

    fn height(&self, ratio: f64) -> f64 {
        let share = (ratio.log10() - f64::from(self.least)) / f64::from(self.most - self.least);
        BOTTOM - share * (BOTTOM - TOP)
    }
}

/// Bars go up from 1 for what takes longer than the plain design, and down for what takes less.
pub fn draw(measured: &[Measured], tools: &[Tool]) -> String {
    let ratios = |kernel: &Measured| {
        let tools = kernel.tools.iter().map(|tool| tool.ratio());
        std::iter::once(kernel.proved_ratio()).chain(tools).collect::<Vec<_>>()
    };
    let scale = Scale::new(measured.iter().flat_map(ratios));
    let mut svg = format!(
        "<svg xmlns=\"http://www.w3.org/2000/svg\" width=\"{WIDTH}\" height=\"{HEIGHT}\" \
         viewBox=\"0 0 {WIDTH} {HEIGHT}\" font-family=\"sans-serif\" font-size=\"13\">\n\
         <rect width=\"100%\" height=\"100%\" fill=\"white\"/>\n"
    );
    svg += &text(LEFT, 24.0, "start", "Time, as a multiple of the plain design's (logarithmic; less is faster)");
    svg += &legend(tools);
    svg += &grid(&scale);
    let group = (RIGHT - LEFT) / measured.len() as f64;
    for (index, kernel) in measured.iter().enumerate() {
        let left = LEFT + group * index as f64;
        svg += &bars(left, group, &ratios(kernel), &scale);
        svg += &text(left + group / 2.0, BOTTOM + 24.0, "middle", kernel.name);
    }
    svg += &text((LEFT + RIGHT) / 2.0, BOTTOM + 48.0, "middle", "kernel");
    svg + "</svg>\n"
}

fn legend(tools: &[Tool]) -> String {
    let names = std::iter::once("proved").chain(tools.iter().map(|tool| tool.name()));
    let entry = |(index, name): (usize, &str)| {
        let left = LEFT + 130.0 * index as f64;
        rect(left, 38.0, 12.0, 12.0, COLOURS[index]) + &text(left + 18.0, 49.0, "start", name)
    };
    names.enumerate().map(entry).collect()
}

fn grid(scale: &Scale) -> String {
    let mut lines = String::new();
    for power in scale.least..=scale.most {
        let ratio = 10f64.powi(power);
        let y = scale.height(ratio);
        let (colour, width) = if power == 0 { ("#222", 1.5) } else { ("#ccc", 1.0) };
        let _ = writeln!(
            lines,
            "<line x1=\"{LEFT}\" x2=\"{RIGHT}\" y1=\"{y:.1}\" y2=\"{y:.1}\" stroke=\"{colour}\" stroke-width=\"{width}\"/>"
        );
        lines += &text(LEFT - 8.0, y + 4.0, "end", &ratio.to_string());
    }
    lines
}

fn bars(left: f64, group: f64, ratios: &[f64], scale: &Scale) -> String {
    let width = group / (ratios.len() as f64 + 1.0);
    let one = scale.height(1.0);
    let bar = |(index, &ratio): (usize, &f64)| {
        let x = left + width * (index as f64 + 0.5);
        let y = scale.height(ratio);
        let label = if ratio < 1.0 { y + 13.0 } else { y - 4.0 };
        rect(x + 1.0, y.min(one), width - 2.0, (y - one).abs().max(1.0), COLOURS[index])
            + &text(x + width / 2.0, label, "middle", &times_as_long(ratio))
    };
    ratios.iter().enumerate().map(bar).collect()
}

fn rect(x: f64, y: f64, width: f64, height: f64, colour: &str) -> String {
    format!("<rect x=\"{x:.1}\" y=\"{y:.1}\" width=\"{width:.1}\" height=\"{height:.1}\" fill=\"{colour}\"/>\n")
}

fn text(x: f64, y: f64, anchor: &str, words: &str) -> String {
    format!("<text x=\"{x:.1}\" y=\"{y:.1}\" text-anchor=\"{anchor}\">{words}</text>\n")
}
