//! A plot as SVG: panels with logarithmic axes, ours and bpaf's lines in each.

use std::fmt::Write;

pub struct Panel {
    pub quantity: &'static str,
    /// the first is drawn with whole lines, the others dashed
    pub works: Vec<Work>,
}

/// The same work by both sides: sizes and nanoseconds.
pub struct Work {
    pub name: &'static str,
    pub ours: Vec<(f64, f64)>,
    pub bpaf: Vec<(f64, f64)>,
}

const OURS: &str = "#0072b2";
const BPAF: &str = "#d55e00";

const WIDTH: f64 = 460.0;
const HEIGHT: f64 = 340.0;
const LEFT: f64 = 62.0;
const RIGHT: f64 = 16.0;
const TOP: f64 = 30.0;
const BOTTOM: f64 = 84.0;

/// Nanoseconds at the lower and upper end of every panel, so that panels can be compared.
const LOWEST: f64 = 100.0;
const HIGHEST: f64 = 1_000_000.0;

/// The panels, two in a row.
pub fn svg(panels: &[Panel]) -> String {
    let (width, height) = (2.0 * WIDTH, HEIGHT * panels.len().div_ceil(2) as f64);
    let mut out = format!(
        "<svg xmlns=\"http://www.w3.org/2000/svg\" viewBox=\"0 0 {width} {height}\" width=\"{width}\" height=\"{height}\" \
         font-family=\"sans-serif\" font-size=\"12\">\n<rect width=\"100%\" height=\"100%\" fill=\"white\"/>\n"
    );
    for (k, panel) in panels.iter().enumerate() {
        let (x, y) = ((k % 2) as f64 * WIDTH, (k / 2) as f64 * HEIGHT);
        let _ = writeln!(out, "<g transform=\"translate({x} {y})\">");
        draw(panel, &mut out);
        out.push_str("</g>\n");
    }
    out.push_str("</svg>\n");
    out
}

/// Where sizes and nanoseconds of a panel stand.
struct Axes {
    largest: f64,
}

impl Axes {
    fn x(&self, size: f64) -> f64 {
        LEFT + (WIDTH - LEFT - RIGHT) * size.ln() / self.largest.ln()
    }

    fn y(&self, nanoseconds: f64) -> f64 {
        let share = (nanoseconds.clamp(LOWEST, HIGHEST) / LOWEST).ln() / (HIGHEST / LOWEST).ln();
        HEIGHT - BOTTOM - (HEIGHT - TOP - BOTTOM) * share
    }
}

fn draw(panel: &Panel, out: &mut String) {
    let sizes = panel.works.iter().flat_map(|work| &work.ours).map(|point| point.0);
    let axes = Axes { largest: sizes.fold(2.0, f64::max) };
    let _ = writeln!(out, "<text x=\"{LEFT}\" y=\"18\" font-weight=\"bold\">time over {}</text>", panel.quantity);
    for (from_right, name, colour) in [(50.0, "ours", OURS), (0.0, "bpaf", BPAF)] {
        let x = WIDTH - RIGHT - from_right;
        let _ = writeln!(out, "<text x=\"{x}\" y=\"18\" text-anchor=\"end\" fill=\"{colour}\">{name}</text>");
    }
    draw_grid(&axes, out);
    for (k, work) in panel.works.iter().enumerate() {
        let dashes = if k > 0 { " stroke-dasharray=\"6 4\"" } else { "" };
        draw_line(&axes, &work.ours, OURS, dashes, out);
        draw_line(&axes, &work.bpaf, BPAF, dashes, out);
        let y = HEIGHT - BOTTOM + 38.0 + 18.0 * k as f64;
        let _ = writeln!(out, "<path d=\"M{LEFT} {}h30\" stroke=\"#555\" stroke-width=\"2\"{dashes}/>", y - 4.0);
        let _ = writeln!(out, "<text x=\"{}\" y=\"{y}\">{}</text>", LEFT + 38.0, work.name.replace('`', ""));
    }
}

fn draw_grid(axes: &Axes, out: &mut String) {
    let (bottom, right) = (HEIGHT - BOTTOM, WIDTH - RIGHT);
    for (nanoseconds, label) in [(1e2, "100 ns"), (1e3, "1 µs"), (1e4, "10 µs"), (1e5, "100 µs"), (1e6, "1 ms")] {
        let y = axes.y(nanoseconds);
        let _ = writeln!(out, "<path d=\"M{LEFT} {y:.1}H{right}\" stroke=\"#ddd\"/>");
        let _ = writeln!(out, "<text x=\"{}\" y=\"{:.1}\" text-anchor=\"end\">{label}</text>", LEFT - 6.0, y + 4.0);
    }
    let step = if axes.largest > 1000.0 { 8.0 } else { 4.0 };
    let mut size = 1.0;
    while size <= axes.largest {
        let x = axes.x(size);
        let _ = writeln!(out, "<path d=\"M{x:.1} {TOP}V{bottom}\" stroke=\"#eee\"/>");
        let _ = writeln!(out, "<text x=\"{x:.1}\" y=\"{}\" text-anchor=\"middle\">{size}</text>", bottom + 16.0);
        size *= step;
    }
}

fn draw_line(axes: &Axes, line: &[(f64, f64)], colour: &str, dashes: &str, out: &mut String) {
    let points: Vec<(f64, f64)> = line.iter().map(|point| (axes.x(point.0), axes.y(point.1))).collect();
    let joined: Vec<String> = points.iter().map(|(x, y)| format!("{x:.1},{y:.1}")).collect();
    let style = format!("fill=\"none\" stroke=\"{colour}\" stroke-width=\"2\"{dashes}");
    let _ = writeln!(out, "<polyline points=\"{}\" {style}/>", joined.join(" "));
    for (x, y) in points {
        let _ = writeln!(out, "<circle cx=\"{x:.1}\" cy=\"{y:.1}\" r=\"2.5\" fill=\"{colour}\"/>");
    }
}
