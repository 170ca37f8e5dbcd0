//! Ratios over sizes, as SVG.

use std::fmt::Write;

/// The ratio port/crate at each size.
pub struct Curve {
    pub name: &'static str,
    pub ratios: [f64; 6],
}

const LEFT: f64 = 60.0;
const TOP: f64 = 70.0;
const WIDTH: f64 = 500.0;
const HEIGHT: f64 = 320.0;

/// Told apart by those who see no red or green, too: Okabe and Ito's colours.
const COLOURS: [&str; 6] = ["#000000", "#0072b2", "#d55e00", "#009e73", "#cc79a7", "#e69f00"];

/// The plot of ratios at the sizes, one curve to a colour.
pub fn plot(sizes: &[usize; 6], curves: &[Curve], caption: &str) -> String {
    let greatest = curves.iter().flat_map(|curve| curve.ratios).fold(1.0, f64::max);
    let step = if greatest < 2.0 { 0.2 } else { (greatest / 10.0).ceil() };
    let top = (greatest / step).ceil() * step;
    let x = |i: usize| LEFT + WIDTH * i as f64 / 5.0;
    let y = |ratio: f64| TOP + HEIGHT * (1.0 - ratio / top);

    let mut svg = String::new();
    frame(&mut svg, caption);
    for line in 0..=(top / step).round() as usize {
        let ratio = step * line as f64;
        grid_line(&mut svg, y(ratio), ratio);
    }
    for (i, &size) in sizes.iter().enumerate() {
        let (x, y) = (x(i), TOP + HEIGHT + 20.0);
        put(&mut svg, &format!("<text x='{x}' y='{y}' text-anchor='middle'>{}</text>", unit(size)));
    }
    for (i, (curve, colour)) in curves.iter().zip(COLOURS).enumerate() {
        let points = curve.ratios.iter().enumerate().map(|(i, &ratio)| (x(i), y(ratio)));
        draw(&mut svg, colour, &points.collect::<Vec<_>>());
        legend(&mut svg, colour, curve.name, TOP + 16.0 + 24.0 * i as f64);
    }
    put(&mut svg, "</svg>");
    svg
}

fn put(svg: &mut String, line: &str) {
    writeln!(svg, "{line}").expect("a string takes all");
}

fn frame(svg: &mut String, caption: &str) {
    put(
        svg,
        "<svg xmlns='http://www.w3.org/2000/svg' viewBox='0 0 760 440' \
         font-family='sans-serif' font-size='13'>",
    );
    put(svg, "<rect width='760' height='440' fill='white'/>");
    let title = "Time of the port over time of the crate zuc 0.4.1";
    put(svg, &format!("<text x='{LEFT}' y='28' font-size='17'>{title}</text>"));
    let caption = caption.replace('&', "&amp;").replace('<', "&lt;");
    put(svg, &format!("<text x='{LEFT}' y='50' fill='#555'>{caption}</text>"));
    let (x, y) = (LEFT + WIDTH / 2.0, TOP + HEIGHT + 42.0);
    put(svg, &format!("<text x='{x}' y='{y}' text-anchor='middle'>bytes in one call</text>"));
}

/// A line across, at the crate's own time heavier than elsewhere.
fn grid_line(svg: &mut String, y: f64, ratio: f64) {
    let (right, label) = (LEFT + WIDTH, LEFT - 8.0);
    let at_crate = (ratio - 1.0).abs() < 0.01;
    let (colour, width) = if at_crate { ("#555", 1.5) } else { ("#ddd", 1.0) };
    put(
        svg,
        &format!(
            "<line x1='{LEFT}' y1='{y:.1}' x2='{right}' y2='{y:.1}' stroke='{colour}' \
             stroke-width='{width}'/>"
        ),
    );
    let y = y + 4.0;
    put(svg, &format!("<text x='{label}' y='{y:.1}' text-anchor='end'>{ratio:.1}</text>"));
}

fn draw(svg: &mut String, colour: &str, points: &[(f64, f64)]) {
    let list: Vec<String> = points.iter().map(|(x, y)| format!("{x:.1},{y:.1}")).collect();
    let list = list.join(" ");
    put(
        svg,
        &format!("<polyline points='{list}' fill='none' stroke='{colour}' stroke-width='2'/>"),
    );
    for (x, y) in points {
        put(svg, &format!("<circle cx='{x:.1}' cy='{y:.1}' r='3.5' fill='{colour}'/>"));
    }
}

fn legend(svg: &mut String, colour: &str, name: &str, y: f64) {
    let (from, to, text) = (LEFT + WIDTH + 15.0, LEFT + WIDTH + 40.0, LEFT + WIDTH + 47.0);
    put(
        svg,
        &format!(
            "<line x1='{from}' y1='{y}' x2='{to}' y2='{y}' stroke='{colour}' stroke-width='2'/>"
        ),
    );
    let y = y + 4.0;
    put(svg, &format!("<text x='{text}' y='{y}'>{name}</text>"));
}

fn unit(size: usize) -> String {
    match size {
        0..1024 => format!("{size} B"),
        1024..1_048_576 => format!("{} KiB", size / 1024),
        _ => format!("{} MiB", size / 1_048_576),
    }
}
