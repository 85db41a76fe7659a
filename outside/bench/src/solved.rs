//! A plot as SVG text of how many problems are solved over time, a line for each solver; time is on a logarithmic axis.

use std::fmt::Write;

const WIDTH: f64 = 640.0;
const HEIGHT: f64 = 360.0;
const MARGIN: f64 = 50.0;
/// From a millisecond to ten seconds.
const DECADES: f64 = 4.0;
const COLOURS: [&str; 5] = ["#1f5fa8", "#d07020", "#a0a0a0", "#2a8f4f", "#8a3fa0"];

fn x(seconds: f64) -> f64 {
    let share = (seconds.clamp(1e-3, 10.0) * 1e3).log10() / DECADES;
    MARGIN + share * (WIDTH - 2.0 * MARGIN)
}

/// The plot of solvers, each with the times at which problems were solved, out of so many problems.
pub fn plot(lines: &[(&str, Vec<f64>)], problems: usize) -> String {
    let mut text = format!("<svg xmlns=\"http://www.w3.org/2000/svg\" width=\"{WIDTH}\" height=\"{HEIGHT}\" font-family=\"sans-serif\" font-size=\"11\">\n<rect width=\"100%\" height=\"100%\" fill=\"white\"/>\n");
    draw(&mut text, lines, problems).expect("text takes all");
    text + "</svg>\n"
}

fn draw(text: &mut String, lines: &[(&str, Vec<f64>)], problems: usize) -> std::fmt::Result {
    let y = |count: f64| HEIGHT - MARGIN - count / problems.max(1) as f64 * (HEIGHT - 2.0 * MARGIN);
    writeln!(text, "<text x=\"{MARGIN}\" y=\"25\" font-size=\"13\">Problems solved, of {problems} (measured half)</text>")?;
    writeln!(
        text,
        "<path d=\"M{MARGIN} {:.1} V{:.1} H{:.1}\" fill=\"none\" stroke=\"black\"/>",
        y(problems as f64),
        y(0.0),
        x(10.0)
    )?;
    for (seconds, name) in [(1e-3, "1 ms"), (1e-2, "10 ms"), (0.1, "100 ms"), (1.0, "1 s"), (10.0, "10 s")] {
        let (at, below) = (x(seconds), y(0.0) + 15.0);
        writeln!(text, "<text x=\"{at:.1}\" y=\"{below:.1}\" text-anchor=\"middle\">{name}</text>")?;
    }
    for count in (0..=problems).step_by(problems.div_ceil(5).max(1)) {
        let (at, left) = (y(count as f64) + 4.0, MARGIN - 6.0);
        writeln!(text, "<text x=\"{left}\" y=\"{at:.1}\" text-anchor=\"end\">{count}</text>")?;
    }
    for (index, (name, times)) in lines.iter().enumerate() {
        let (colour, mut sorted) = (COLOURS[index % COLOURS.len()], times.clone());
        sorted.sort_by(f64::total_cmp);
        let mut path = format!("M{:.1} {:.1}", x(0.0), y(0.0));
        for (count, &time) in sorted.iter().enumerate() {
            write!(path, " H{:.1} V{:.1}", x(time), y(count as f64 + 1.0))?;
        }
        write!(path, " H{:.1}", x(10.0))?;
        writeln!(text, "<path d=\"{path}\" fill=\"none\" stroke=\"{colour}\" stroke-width=\"2\"/>")?;
        let below = y(problems as f64) + 14.0 * (index + 1) as f64;
        writeln!(text, "<text x=\"{:.1}\" y=\"{below:.1}\" fill=\"{colour}\">{name}</text>", MARGIN + 10.0)?;
    }
    Ok(())
}
