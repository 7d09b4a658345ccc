//! docs/scaling.svg: time against tips on logarithmic axes, one panel for each pair of shapes, one line for each method.

use std::fmt::Write;

use crate::timing::{Measured, METHODS, PAIRINGS, TIPS};

const PANEL: (f64, f64) = (290.0, 230.0);
const GAP: (f64, f64) = (30.0, 62.0);
const CORNER: (f64, f64) = (86.0, 112.0);
const COLUMNS: usize = 3;

/// Powers of ten of the time axis, in microseconds.
const DECADES: std::ops::RangeInclusive<i32> = 0..=6;
const COLOURS: [&str; 4] = ["#0b5fa5", "#e08a00", "#2a8c4a", "#b3261e"];

/// One panel's place, and the scales of both axes within it.
struct Panel {
    left: f64,
    top: f64,
}

impl Panel {
    fn at(index: usize) -> Panel {
        let (column, row) = (index % COLUMNS, index / COLUMNS);
        Panel { left: CORNER.0 + column as f64 * (PANEL.0 + GAP.0), top: CORNER.1 + row as f64 * (PANEL.1 + GAP.1) }
    }

    fn x(&self, tips: f64) -> f64 {
        let (low, high) = (12f64.ln(), 340f64.ln());
        self.left + PANEL.0 * (tips.ln() - low) / (high - low)
    }

    fn y(&self, micros: f64) -> f64 {
        let (low, high) = (f64::from(*DECADES.start()), f64::from(*DECADES.end()));
        self.top + PANEL.1 * (high - micros.log10()) / (high - low)
    }
}

fn time_name(decade: i32) -> String {
    match decade {
        0..=2 => format!("{} µs", 10i32.pow(decade as u32)),
        3..=5 => format!("{} ms", 10i32.pow(decade as u32 - 3)),
        _ => format!("{} s", 10i32.pow(decade as u32 - 6)),
    }
}

fn axes(svg: &mut String, panel: &Panel, index: usize, name: &str) {
    let (right, bottom) = (panel.left + PANEL.0, panel.top + PANEL.1);
    let mut put = |line: String| writeln!(svg, "{line}").expect("a string takes all");
    put(format!(
        r##"<rect x="{:.1}" y="{:.1}" width="{:.1}" height="{:.1}" fill="#ffffff" stroke="#555555"/>"##,
        panel.left, panel.top, PANEL.0, PANEL.1
    ));
    put(format!(r#"<text x="{:.1}" y="{:.1}" font-weight="bold">{name}</text>"#, panel.left, panel.top - 9.0));
    for decade in DECADES {
        let y = panel.y(10f64.powi(decade));
        put(format!(r##"<line x1="{:.1}" y1="{y:.1}" x2="{right:.1}" y2="{y:.1}" stroke="#dddddd"/>"##, panel.left));
        let column = index % COLUMNS;
        if column == 0 {
            let x = panel.left - 8.0;
            put(format!(r#"<text x="{x:.1}" y="{:.1}" text-anchor="end">{}</text>"#, y + 4.0, time_name(decade)));
        }
    }
    for tips in TIPS {
        let x = panel.x(tips as f64);
        put(format!(r##"<line x1="{x:.1}" y1="{:.1}" x2="{x:.1}" y2="{bottom:.1}" stroke="#eeeeee"/>"##, panel.top));
        put(format!(r#"<text x="{x:.1}" y="{:.1}" text-anchor="middle">{tips}</text>"#, bottom + 17.0));
    }
}

fn lines(svg: &mut String, panel: &Panel, points: &[&Measured]) {
    for (method, colour) in COLOURS.iter().enumerate() {
        let places: Vec<(f64, f64)> =
            points.iter().map(|at| (panel.x(at.tips as f64), panel.y(at.micros[method]))).collect();
        let path: Vec<String> = places.iter().map(|(x, y)| format!("{x:.1},{y:.1}")).collect();
        let dashes = if method == 1 { r#" stroke-dasharray="6 4""# } else { "" };
        writeln!(
            svg,
            r#"<polyline points="{}" fill="none" stroke="{colour}" stroke-width="2"{dashes}/>"#,
            path.join(" ")
        )
        .expect("a string takes all");
        for ((x, y), at) in places.iter().zip(points) {
            writeln!(
                svg,
                r#"<circle cx="{x:.1}" cy="{y:.1}" r="3" fill="{colour}"><title>{}, {} tips: {:.1} µs</title></circle>"#,
                METHODS[method], at.tips, at.micros[method]
            )
            .expect("a string takes all");
        }
    }
}

fn legend(svg: &mut String) {
    for (method, (name, colour)) in METHODS.iter().zip(COLOURS).enumerate() {
        let x = CORNER.0 + 160.0 * method as f64;
        let dashes = if method == 1 { r#" stroke-dasharray="6 4""# } else { "" };
        writeln!(
            svg,
            r#"<line x1="{x:.1}" y1="66" x2="{:.1}" y2="66" stroke="{colour}" stroke-width="2"{dashes}/>"#,
            x + 30.0
        )
        .expect("a string takes all");
        writeln!(svg, r#"<text x="{:.1}" y="70">{name}</text>"#, x + 38.0).expect("a string takes all");
    }
}

/// The whole drawing.
pub fn drawn(measured: &[Measured]) -> String {
    let rows = PAIRINGS.len().div_ceil(COLUMNS);
    let width = CORNER.0 + COLUMNS as f64 * (PANEL.0 + GAP.0);
    let height = CORNER.1 + rows as f64 * (PANEL.1 + GAP.1) + 4.0;
    let mut svg = format!(
        r##"<svg xmlns="http://www.w3.org/2000/svg" viewBox="0 0 {width:.0} {height:.0}" width="{width:.0}" height="{height:.0}" font-family="sans-serif" font-size="12" fill="#222222">
<title>Time of one comparison against the number of tips</title>
<rect width="100%" height="100%" fill="#fafafa"/>
<text x="{left:.0}" y="34" font-size="18" font-weight="bold">Time of one comparison against the number of tips</text>
<text x="{middle:.0}" y="{low:.0}" text-anchor="middle">tips n (logarithmic)</text>
<text transform="translate(20 {centre:.0}) rotate(-90)" text-anchor="middle">time of one comparison (logarithmic)</text>
"##,
        left = CORNER.0,
        middle = width / 2.0,
        low = height - 12.0,
        centre = height / 2.0,
    );
    legend(&mut svg);
    for (index, pairing) in PAIRINGS.iter().enumerate() {
        let panel = Panel::at(index);
        let points: Vec<&Measured> = measured.iter().filter(|at| at.name == pairing.name).collect();
        axes(&mut svg, &panel, index, pairing.name);
        lines(&mut svg, &panel, &points);
    }
    svg.push_str("</svg>\n");
    svg
}
