// A chart of the times in place beside the crate's, as SVG: a bar for each call, to the right where the port is faster.

use crate::bench::{shown, Row};
use crate::bench_cases::Aim;

const WIDTH: f64 = 900.0;
// where the bars' part of a line begins and ends
const LEFT: f64 = 330.0;
const RIGHT: f64 = 760.0;
const TOP: f64 = 84.0;
const LINE: f64 = 19.0;
// how many times as fast as the crate, at both ends
const LEAST: f64 = 0.1;
const MOST: f64 = 30.0;
const MARKS: [f64; 8] = [0.1, 0.2, 0.5, 1.0, 2.0, 5.0, 10.0, 20.0];

const STYLE: &str = "
  text { font: 12px system-ui, sans-serif; fill: #1f2328 }
  .title { font-size: 15px; font-weight: 600 }
  .group { font-weight: 600 }
  .quiet { fill: #59636e }
  .page { fill: #ffffff }
  .grid { stroke: #d1d9e0 }
  .crate { stroke: #59636e }
  .aim { stroke: #1f2328; stroke-width: 2 }
  .faster { fill: #2da44e }
  .slower { fill: #d4572a }
  @media (prefers-color-scheme: dark) {
    text { fill: #f0f6fc }
    .quiet { fill: #9198a1 }
    .page { fill: #0d1117 }
    .grid { stroke: #3d444d }
    .crate { stroke: #9198a1 }
    .aim { stroke: #f0f6fc }
    .faster { fill: #3fb950 }
    .slower { fill: #f0883e }
  }
";

pub fn write(path: &str, rows: &[Row]) -> std::io::Result<()> {
    std::fs::write(path, chart(rows))
}

// Where so many times as fast stands on the logarithmic scale.
fn place(times: f64) -> f64 {
    let share = (times.clamp(LEAST, MOST) / LEAST).ln() / (MOST / LEAST).ln();
    LEFT + share * (RIGHT - LEFT)
}

fn chart(rows: &[Row]) -> String {
    let mut body = String::new();
    let (mut y, mut group) = (TOP, "");
    for row in rows.iter().filter(|row| row.on_crate.is_some()) {
        if row.group != group {
            y += LINE / 2.0;
            text(&mut body, "group", "start", 16.0, y, row.group);
            y += LINE;
            group = row.group;
        }
        bar(&mut body, row, y);
        y += LINE;
    }
    let height = y + 8.0;
    let head = format!(
        "<svg xmlns=\"http://www.w3.org/2000/svg\" width=\"{0}\" height=\"{1}\" viewBox=\"0 0 {0} {1}\" role=\"img\" \
         aria-label=\"Times of each call in place beside the Rust crate\">\n<style>{2}</style>\n\
         <rect class=\"page\" width=\"{0}\" height=\"{1}\"/>\n",
        WIDTH, height, STYLE
    );
    head + &scale(height) + &body + "</svg>\n"
}

// The title, and a line for each mark of the scale.
fn scale(height: f64) -> String {
    let mut out = String::new();
    text(&mut out, "title", "start", 16.0, 26.0, "Each call in place: how many times as fast as the Rust crate");
    let note = "on a logarithmic scale; a tick is the aim of half the crate's time; at the right the port's time / the crate's";
    text(&mut out, "quiet", "start", 16.0, 46.0, note);
    for times in MARKS {
        let (class, x) = (if times == 1.0 { "crate" } else { "grid" }, place(times));
        line(&mut out, class, x, TOP - 14.0, height - 12.0);
        text(&mut out, "quiet", "middle", x, TOP - 18.0, &format!("{}\u{d7}", times));
    }
    out
}

fn bar(out: &mut String, row: &Row, y: f64) {
    let times = row.ratio().map_or(1.0, |ratio| 1.0 / ratio);
    let (from, to) = (place(times.min(1.0)), place(times.max(1.0)));
    let class = if times >= 1.0 { "faster" } else { "slower" };
    text(out, "", "end", LEFT - 10.0, y, row.name.split(';').next().unwrap_or(row.name));
    let (top, height) = (y - 11.0, LINE - 5.0);
    *out += &format!(
        "<rect class=\"{}\" x=\"{:.1}\" y=\"{:.1}\" width=\"{:.1}\" height=\"{:.1}\"/>\n",
        class,
        from,
        top,
        to - from,
        height
    );
    if let Aim::Half = row.aim {
        line(out, "aim", place(2.0), top, top + height);
    }
    let [on_port, on_crate] = [Some(row.on_port), row.on_crate].map(|time| shown(time, 1));
    text(out, "quiet", "start", RIGHT + 10.0, y, &format!("{} / {} ns", on_port, on_crate));
}

fn text(out: &mut String, class: &str, anchor: &str, x: f64, y: f64, words: &str) {
    let look = format!("class=\"{}\" text-anchor=\"{}\"", class, anchor);
    *out += &format!("<text {} x=\"{:.1}\" y=\"{:.1}\">{}</text>\n", look, x, y, words);
}

fn line(out: &mut String, class: &str, x: f64, from: f64, to: f64) {
    *out +=
        &format!("<line class=\"{}\" x1=\"{:.1}\" x2=\"{:.1}\" y1=\"{:.1}\" y2=\"{:.1}\"/>\n", class, x, x, from, to);
}
