//! The time of reading and parsing over the size of a delivery of rules, as an SVG with two log scales.

use crate::measure::Measured;

const WIDTH: f64 = 760.0;
const HEIGHT: f64 = 460.0;
const LEFT: f64 = 80.0;
const RIGHT: f64 = 170.0;
const TOP: f64 = 50.0;
const BOTTOM: f64 = 60.0;

struct Line {
    name: &'static str,
    colour: &'static str,
    /// How far below its last point the name stands, so that names keep apart.
    below: f64,
    points: Vec<(f64, f64)>,
}

/// Deliveries of rules only; None where nothing was timed.
pub fn svg(measured: &[Measured]) -> Option<String> {
    let measured: Vec<&Measured> = measured.iter().filter(|m| m.name == "rules").collect();
    let line = |name, colour, below, time: fn(&Measured) -> Option<f64>| Line {
        name,
        colour,
        below,
        points: measured
            .iter()
            .filter_map(|input| Some((input.bytes as f64 / 1024.0, 1e3 * time(input)?)))
            .collect(),
    };
    let lines = [
        line("original", "#b3402a", 4.0, |m| {
            m.reading.plus(m.parsing).original
        }),
        line("proved", "#1f6f5c", 0.0, |m| m.reading.plus(m.parsing).ours),
        line("mark", "#7a7a7a", 15.0, |m| m.reading.plus(m.parsing).mark),
    ];
    let all = || lines.iter().flat_map(|line| line.points.iter());
    let low_x = all().map(|point| point.0).reduce(f64::min)?;
    let high_x = all().map(|point| point.0).reduce(f64::max)?;
    let low_y = decade(all().map(|point| point.1).reduce(f64::min)?, f64::floor);
    let high_y = decade(all().map(|point| point.1).reduce(f64::max)?, f64::ceil);
    let x =
        |value: f64| LEFT + (value / low_x).ln() / (high_x / low_x).ln() * (WIDTH - LEFT - RIGHT);
    let y = |value: f64| {
        HEIGHT - BOTTOM - (value / low_y).ln() / (high_y / low_y).ln() * (HEIGHT - TOP - BOTTOM)
    };
    let mut body = String::new();
    let mut mark = low_y;
    while mark <= high_y * 1.001 {
        let at = y(mark);
        body.push_str(&format!(
            "<line x1=\"{LEFT}\" y1=\"{at:.1}\" x2=\"{:.1}\" y2=\"{at:.1}\" stroke=\"#ddd\"/>\
             <text x=\"{:.1}\" y=\"{:.1}\" text-anchor=\"end\">{mark} ms</text>\n",
            WIDTH - RIGHT,
            LEFT - 8.0,
            at + 4.0
        ));
        mark *= 10.0;
    }
    for input in &measured {
        let size = input.bytes as f64 / 1024.0;
        let label = crate::table::size(input.bytes);
        body.push_str(&format!(
            "<text x=\"{:.1}\" y=\"{:.1}\" text-anchor=\"middle\">{label}</text>\n",
            x(size),
            HEIGHT - BOTTOM + 22.0
        ));
    }
    for line in &lines {
        body.push_str(&drawn(line, x, y));
    }
    Some(format!(
        "<svg xmlns=\"http://www.w3.org/2000/svg\" viewBox=\"0 0 {WIDTH} {HEIGHT}\" \
         font-family=\"sans-serif\" font-size=\"13\">\n\
         <rect width=\"100%\" height=\"100%\" fill=\"white\"/>\n\
         <text x=\"{LEFT}\" y=\"26\" font-size=\"16\">Reading and parsing a delivery of rules: time over size</text>\n\
         {body}</svg>\n"
    ))
}

fn decade(value: f64, round: fn(f64) -> f64) -> f64 {
    10f64.powf(round(value.log10()))
}

fn drawn(line: &Line, x: impl Fn(f64) -> f64, y: impl Fn(f64) -> f64) -> String {
    let Line {
        name,
        colour,
        below,
        points,
    } = line;
    let Some(&(last_x, last_y)) = points.last() else {
        return String::new();
    };
    let places: Vec<String> = points
        .iter()
        .map(|&(a, b)| format!("{:.1},{:.1}", x(a), y(b)))
        .collect();
    let mut text = format!(
        "<polyline points=\"{}\" fill=\"none\" stroke=\"{colour}\" stroke-width=\"2\"/>\n",
        places.join(" ")
    );
    for &(a, b) in points {
        text.push_str(&format!(
            "<circle cx=\"{:.1}\" cy=\"{:.1}\" r=\"3.5\" fill=\"{colour}\"/>\n",
            x(a),
            y(b)
        ));
    }
    text.push_str(&format!(
        "<text x=\"{:.1}\" y=\"{:.1}\" fill=\"{colour}\">{name}: {last_y:.0} ms</text>\n",
        x(last_x) + 10.0,
        y(last_y) + below
    ));
    text
}
