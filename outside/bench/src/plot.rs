//! A plot as SVG text: panels side by side, each with its axes from 0 and lines through points.

use std::fmt::Write;

pub struct Series {
    pub name: &'static str,
    pub points: Vec<(f64, f64)>,
}

/// A panel: its title, the name of its horizontal axis, and its lines.
pub type Panel<'a> = (&'a str, &'a str, &'a [Series]);

const WIDTH: f64 = 420.0;
const HEIGHT: f64 = 300.0;
const MARGIN: f64 = 50.0;
const COLOURS: [&str; 2] = ["#1f5fa8", "#d07020"];

pub fn plot(panels: &[Panel]) -> String {
    let total = WIDTH * panels.len() as f64;
    let mut text = format!("<svg xmlns=\"http://www.w3.org/2000/svg\" width=\"{total}\" height=\"{HEIGHT}\" font-family=\"sans-serif\" font-size=\"11\">\n<rect width=\"100%\" height=\"100%\" fill=\"white\"/>\n");
    for (index, panel) in panels.iter().enumerate() {
        draw(&mut text, WIDTH * index as f64, *panel).expect("text takes all");
    }
    text + "</svg>\n"
}

fn draw(text: &mut String, offset: f64, (title, axis, lines): Panel) -> std::fmt::Result {
    let most = |of: fn(&(f64, f64)) -> f64| {
        lines.iter().flat_map(|line| line.points.iter().map(of)).fold(1.0, f64::max)
    };
    let (right, top) = (most(|point| point.0), most(|point| point.1));
    let (inner_width, inner_height) = (WIDTH - 2.0 * MARGIN, HEIGHT - 2.0 * MARGIN);
    let x = |v: f64| offset + MARGIN + v / right * inner_width;
    let y = |v: f64| HEIGHT - MARGIN - v / top * inner_height;
    writeln!(text, "<text x=\"{}\" y=\"20\" font-size=\"13\">{title}</text>", offset + MARGIN)?;
    writeln!(
        text,
        "<path d=\"M{} {} V{} H{}\" fill=\"none\" stroke=\"black\"/>",
        x(0.0),
        y(top),
        y(0.0),
        x(right)
    )?;
    for share in [0.0, 0.25, 0.5, 0.75, 1.0] {
        writeln!(
            text,
            "<text x=\"{:.1}\" y=\"{:.1}\" text-anchor=\"middle\">{:.0}</text>",
            x(right * share),
            y(0.0) + 15.0,
            right * share
        )?;
        writeln!(
            text,
            "<text x=\"{:.1}\" y=\"{:.1}\" text-anchor=\"end\">{:.0}</text>",
            x(0.0) - 4.0,
            y(top * share) + 4.0,
            top * share
        )?;
    }
    writeln!(
        text,
        "<text x=\"{:.1}\" y=\"{:.1}\" text-anchor=\"middle\">{axis}</text>",
        x(right / 2.0),
        y(0.0) + 32.0
    )?;
    for (index, line) in lines.iter().enumerate() {
        let colour = COLOURS[index % COLOURS.len()];
        let points: Vec<String> =
            line.points.iter().map(|&(a, b)| format!("{:.1},{:.1}", x(a), y(b))).collect();
        writeln!(
            text,
            "<polyline points=\"{}\" fill=\"none\" stroke=\"{colour}\" stroke-width=\"1.5\"/>",
            points.join(" ")
        )?;
        for point in &points {
            let (cx, cy) = point.split_once(',').expect("two numbers");
            writeln!(text, "<circle cx=\"{cx}\" cy=\"{cy}\" r=\"2.5\" fill=\"{colour}\"/>")?;
        }
        writeln!(
            text,
            "<text x=\"{:.1}\" y=\"{:.1}\" fill=\"{colour}\">{}</text>",
            x(0.0) + 10.0,
            y(top) + 14.0 * (index + 1) as f64,
            line.name
        )?;
    }
    Ok(())
}
