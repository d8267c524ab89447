//! The figures as bars, in SVG. The two colours can be told apart by colour-blind people, and by their lightness.

use crate::table::{figure, thousands, Row};
use std::fmt::Write;

const OURS: &str = "#0072b2";
const RUST: &str = "#e69f00";

const WIDTH: f64 = 900.0;
const LEFT: f64 = 260.0; // the bars start here, and their names end before it
const RIGHT: f64 = 70.0; // room for the figure behind the longest bar
const TOP: f64 = 84.0;
const BAR: f64 = 9.0;
const ROW: f64 = 26.0;
const TITLE: f64 = 30.0; // the line with a group's name

pub fn plot(rows: &[Row]) -> String {
    let groups: Vec<&[Row]> = rows.chunk_by(|a, b| a.group == b.group).collect();
    let bottom = TOP + groups.len() as f64 * TITLE + rows.len() as f64 * ROW;
    let axis = Axis::over(rows);
    let mut svg = head(bottom + 48.0);
    axis.draw(&mut svg, bottom);
    let mut y = TOP;
    for group in groups {
        text(&mut svg, 16.0, y + 20.0, "start", "font-weight=\"bold\"", group[0].group);
        y += TITLE;
        for row in group {
            text(&mut svg, LEFT - 8.0, y + 13.0, "end", "", &row.name);
            axis.bar(&mut svg, y, OURS, row.times.ours.median);
            axis.bar(&mut svg, y + BAR, RUST, row.times.rust.median);
            y += ROW;
        }
    }
    svg + "</svg>\n"
}

fn head(height: f64) -> String {
    let mut svg = format!(
        "<svg xmlns=\"http://www.w3.org/2000/svg\" viewBox=\"0 0 {WIDTH} {height}\" width=\"{WIDTH}\" height=\"{height}\" \
         font-family=\"DejaVu Sans, Verdana, sans-serif\" font-size=\"12\" fill=\"#222222\">\n\
         <rect width=\"{WIDTH}\" height=\"{height}\" fill=\"#ffffff\"/>\n"
    );
    text(&mut svg, 16.0, 28.0, "start", "font-size=\"17\" font-weight=\"bold\"", "Time of one step: the proved session and the Rust");
    for (x, colour, name) in [(16.0, OURS, "ours, proved"), (140.0, RUST, "the Rust")] {
        rect(&mut svg, x, 44.0, 14.0, 12.0, colour);
        text(&mut svg, x + 20.0, 54.0, "start", "", name);
    }
    text(&mut svg, 240.0, 54.0, "start", "fill=\"#555555\"", "median of all rounds; a shorter bar is faster; the axis is logarithmic");
    svg
}

/// Powers of ten, from one below every figure to one above. What is below a tenth is drawn as a tenth.
struct Axis {
    from: i32,
    to: i32,
}

impl Axis {
    fn over(rows: &[Row]) -> Axis {
        let figures = || rows.iter().flat_map(|row| [row.times.ours.median, row.times.rust.median]).map(|ns| ns.max(0.1).log10());
        let from = figures().fold(f64::INFINITY, f64::min).floor() as i32;
        let to = figures().fold(f64::NEG_INFINITY, f64::max).ceil() as i32;
        Axis { from, to: to.max(from + 1) }
    }

    fn x(&self, ns: f64) -> f64 {
        let share = (ns.max(0.1).log10() - f64::from(self.from)) / f64::from(self.to - self.from);
        LEFT + share * (WIDTH - LEFT - RIGHT)
    }

    fn draw(&self, svg: &mut String, bottom: f64) {
        for power in self.from..=self.to {
            let x = self.x(10f64.powi(power));
            writeln!(svg, "<line x1=\"{x:.1}\" y1=\"{TOP}\" x2=\"{x:.1}\" y2=\"{bottom}\" stroke=\"#cccccc\"/>").unwrap();
            let name = if power < 0 { "0.1".to_string() } else { thousands(10u64.pow(power as u32)) };
            text(svg, x, bottom + 16.0, "middle", "", &name);
        }
        text(svg, (LEFT + WIDTH - RIGHT) / 2.0, bottom + 36.0, "middle", "", "nanoseconds a step");
    }

    fn bar(&self, svg: &mut String, y: f64, colour: &str, ns: f64) {
        let end = self.x(ns);
        rect(svg, LEFT, y + 1.0, end - LEFT, BAR, colour);
        text(svg, end + 4.0, y + BAR, "start", "font-size=\"9\"", &figure(ns));
    }
}

fn rect(svg: &mut String, x: f64, y: f64, width: f64, height: f64, colour: &str) {
    writeln!(svg, "<rect x=\"{x}\" y=\"{y}\" width=\"{width:.1}\" height=\"{height}\" fill=\"{colour}\"/>").unwrap();
}

/// No text here holds a sign that XML would read.
fn text(svg: &mut String, x: f64, y: f64, anchor: &str, more: &str, words: &str) {
    writeln!(svg, "<text x=\"{x:.1}\" y=\"{y}\" text-anchor=\"{anchor}\" {more}>{words}</text>").unwrap();
}
