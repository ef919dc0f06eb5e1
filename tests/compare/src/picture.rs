//! The picture of docs/SPECTRUM.md: the spectra of use 2 of its site on each ground, drawn from the proved library's numbers.
use llunareth::{spectrum, Motion};
use std::fmt::Write;
use std::path::{Path, PathBuf};

/// The site of docs/SPECTRUM.md.
pub const DD1: Motion = Motion { ss: 160, s1: 45 };
pub const DD2: Motion = Motion { ss: 90, s1: 25 };

/// Name, code and colour of each ground drawn; ZF is ZE.
const GROUNDS: [(&str, u64, &str); 5] =
    [("ZA", 1, "#1b6ca8"), ("ZB", 2, "#2a9d8f"), ("ZC", 3, "#8a8d2b"), ("ZD", 4, "#d98324"), ("ZE, ZF", 5, "#b23a48")];

/// The last period drawn, milliseconds; a point is drawn at each step.
const LAST: u64 = 8_000;
const STEP: usize = 20;

fn x(period: u64) -> f64 {
    60.0 + period as f64 * 0.08
}

fn y(value: u64) -> f64 {
    360.0 - value as f64 * 0.0032
}

fn line(svg: &mut String, ground: (&str, u64, &str), place: u64) {
    let (name, class, colour) = ground;
    let point = |t: u64| format!("{:.1},{:.1}", x(t), y(spectrum(class, 2, DD1, DD2, t).expect("accepted")));
    let points: Vec<String> = (0..=LAST).step_by(STEP).map(point).collect();
    let label = 40 + 20 * place;
    writeln!(svg, "<polyline fill=\"none\" stroke=\"{colour}\" stroke-width=\"1.5\" points=\"{}\"/>", points.join(" ")).expect("text");
    writeln!(svg, "<text x=\"640\" y=\"{label}\" fill=\"{colour}\">{name}</text>").expect("text");
}

fn axes(svg: &mut String) {
    for second in 0..=8 {
        let at = x(second * 1_000);
        writeln!(svg, "<path stroke=\"#ddd\" d=\"M{at:.1} 40V360\"/><text x=\"{at:.1}\" y=\"380\" text-anchor=\"middle\">{second}</text>").expect("text");
    }
    for tenths in (0..=10).step_by(2) {
        let at = y(tenths * 10_000);
        let figure = tenths as f64 / 10.0;
        writeln!(svg, "<path stroke=\"#ddd\" d=\"M60 {at:.1}H700\"/><text x=\"50\" y=\"{:.1}\" text-anchor=\"end\">{figure:.1}</text>", at + 4.0).expect("text");
    }
    svg.push_str("<text x=\"380\" y=\"400\" text-anchor=\"middle\">period, s</text>\n<text x=\"20\" y=\"25\">spectrum of use 2, g</text>\n");
}

/// The picture as it is now.
pub fn picture() -> String {
    let mut svg = String::from("<svg xmlns=\"http://www.w3.org/2000/svg\" viewBox=\"0 0 720 410\" font-family=\"sans-serif\" font-size=\"13\">\n");
    svg.push_str("<rect width=\"720\" height=\"410\" fill=\"#fff\"/>\n");
    axes(&mut svg);
    for (place, ground) in (1..).zip(GROUNDS) {
        line(&mut svg, ground, place);
    }
    svg.push_str("</svg>\n");
    svg
}

/// Where it stands.
pub fn file() -> PathBuf {
    Path::new(env!("CARGO_MANIFEST_DIR")).join("../../docs/spectrum.svg")
}
