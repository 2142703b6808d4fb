//! The growth as a picture: both axes by powers of ten, ours in full lines, the published in broken ones.
use std::fmt::Write;

const COLOURS: [&str; 5] = ["#1b6ca8", "#c0392b", "#27825a", "#8e44ad", "#b9770e"];
const LEFT: f64 = 70.0;
const TOP: f64 = 20.0;
const WIDE: f64 = 520.0;
const HIGH: f64 = 380.0;

pub fn growth(points: &[(&'static str, u32, f64, f64)]) -> String {
    let x = |h: u32| LEFT + ((h as f64).log10() - 2.0) / 2.0 * WIDE;
    let y = |s: f64| TOP + HIGH - (s.log10() + 8.0) / 6.0 * HIGH;
    let mut out = String::from("<svg xmlns=\"http://www.w3.org/2000/svg\" viewBox=\"0 0 760 450\" font-family=\"sans-serif\" font-size=\"12\">\n<rect width=\"760\" height=\"450\" fill=\"white\"/>\n");
    for (power, label) in (-8..=-2).zip(["10 ns", "100 ns", "1 us", "10 us", "100 us", "1 ms", "10 ms"]) {
        let at = y(10f64.powi(power));
        writeln!(out, "<line x1=\"{LEFT}\" x2=\"{}\" y1=\"{at:.1}\" y2=\"{at:.1}\" stroke=\"#ddd\"/><text x=\"{}\" y=\"{:.1}\" text-anchor=\"end\">{label}</text>", LEFT + WIDE, LEFT - 8.0, at + 4.0).unwrap();
    }
    for h in [100, 1_000, 10_000] {
        writeln!(
            out,
            "<text x=\"{:.1}\" y=\"{}\" text-anchor=\"middle\">{h} rows</text>",
            x(h),
            TOP + HIGH + 20.0
        )
        .unwrap();
    }
    let mut names: Vec<&str> = vec![];
    for (name, ..) in points {
        if !names.contains(name) {
            names.push(name);
        }
    }
    for (k, name) in names.iter().enumerate() {
        let line = |pick: fn(&(&'static str, u32, f64, f64)) -> f64| {
            points
                .iter()
                .filter(|p| p.0 == *name)
                .map(|p| format!("{:.1},{:.1}", x(p.1), y(pick(p))))
                .collect::<Vec<_>>()
                .join(" ")
        };
        let colour = COLOURS[k % COLOURS.len()];
        writeln!(
            out,
            "<polyline points=\"{}\" fill=\"none\" stroke=\"{colour}\" stroke-width=\"2\"/>",
            line(|p| p.2)
        )
        .unwrap();
        writeln!(
            out,
            "<polyline points=\"{}\" fill=\"none\" stroke=\"{colour}\" stroke-width=\"2\" stroke-dasharray=\"5 4\"/>",
            line(|p| p.3)
        )
        .unwrap();
        let at = TOP + 20.0 + 22.0 * k as f64;
        writeln!(out, "<line x1=\"610\" x2=\"640\" y1=\"{at}\" y2=\"{at}\" stroke=\"{colour}\" stroke-width=\"2\"/><text x=\"648\" y=\"{}\">{name}</text>", at + 4.0).unwrap();
    }
    out.push_str("<text x=\"610\" y=\"165\">full: ours</text><text x=\"610\" y=\"183\">broken: published</text>\n</svg>\n");
    out
}
