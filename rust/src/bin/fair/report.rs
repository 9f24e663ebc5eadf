//! What a fair prints: lines, a picture, and a bar while it runs.

use crate::draw::{Draw, Opinion};
use crate::rehearse::Outcome;
use std::fmt::Write;

/// A number of juries out of all: their share, and its standard error.
fn share(count: u64, juries: u64) -> (f64, f64) {
    let share = count as f64 / juries as f64;
    (share, (share * (1.0 - share) / juries as f64).sqrt())
}

/// What is counted, by name: each blend's wins, shared wins, and with true levels how often a truly best blend wins.
fn counts(draw: &Draw, outcome: &Outcome) -> Vec<(String, u64)> {
    let mut counts: Vec<_> =
        outcome.won.iter().enumerate().map(|(blend, &won)| (format!("blend {blend}"), won)).collect();
    counts.push(("shared".into(), outcome.shared));
    if draw.opinion != Opinion::Uniform {
        counts.push(("best".into(), outcome.best));
    }
    counts
}

/// The lines; `seconds` is all processor time.
pub fn lines(draw: &Draw, seed: &str, outcome: &Outcome, seconds: f64) -> String {
    let mut text = format!("fair {}\njuries {}\nseed {seed}\n", draw.shape, outcome.juries);
    for (name, count) in counts(draw, outcome) {
        let (share, error) = share(count, outcome.juries);
        let won = if name.starts_with("blend") { " won" } else { "" };
        writeln!(text, "{name}{won} {count} share {share:.4} error {error:.4}").expect("a string takes any text");
    }
    writeln!(text, "seconds {seconds:.4} core {:.4}", outcome.core).expect("a string takes any text");
    text
}

/// A number with commas between thousands.
fn grouped(number: u64) -> String {
    let digits = number.to_string();
    let mut text = String::new();
    for (i, digit) in digits.chars().enumerate() {
        if i > 0 && (digits.len() - i).is_multiple_of(3) {
            text.push(',');
        }
        text.push(digit);
    }
    text
}

/// Text with the characters that SVG reserves escaped.
fn escaped(text: &str) -> String {
    text.replace('&', "&amp;").replace('<', "&lt;").replace('>', "&gt;")
}

const LEFT: f64 = 60.0;
const TOP: f64 = 50.0;
const HEIGHT: f64 = 240.0;
const STEP: f64 = 64.0;
const BAR: f64 = 40.0;

/// The vertical scale of a picture: a line at each tick up to the top.
struct Scale {
    tick: f64,
    ticks: usize,
}

impl Scale {
    /// A scale that reaches up to this share, with up to six lines.
    fn up_to(most: f64) -> Scale {
        let tick = [0.01, 0.02, 0.05, 0.1, 0.2].into_iter().find(|tick| most / tick <= 6.0).unwrap_or(0.2);
        Scale { tick, ticks: (most / tick).ceil().max(1.0) as usize }
    }

    fn y(&self, share: f64) -> f64 {
        TOP + HEIGHT * (1.0 - share / (self.tick * self.ticks as f64))
    }

    fn lines(&self, right: f64) -> String {
        let line = |i: usize| {
            let (share, colour) = (self.tick * i as f64, if i == 0 { "#333" } else { "#ddd" });
            let (at, percent) = (self.y(share), (100.0 * share).round());
            format!(
                "<line x1=\"{LEFT}\" x2=\"{right}\" y1=\"{at:.1}\" y2=\"{at:.1}\" stroke=\"{colour}\"/>\n\
                 <text x=\"{}\" y=\"{:.1}\" text-anchor=\"end\">{percent}%</text>\n",
                LEFT - 8.0,
                at + 4.0
            )
        };
        (0..=self.ticks).map(line).collect()
    }
}

/// One bar with its mark, name, share and count, centred at a place.
fn column(scale: &Scale, middle: f64, name: &str, count: u64, (share, error): (f64, f64)) -> String {
    let (foot, top) = (scale.y(0.0), scale.y(share));
    let (high, low) = (scale.y(share + 2.0 * error), scale.y((share - 2.0 * error).max(0.0)));
    let colour = if name.starts_with("blend") { "#3182bd" } else { "#969696" };
    let (x, end) = (middle - BAR / 2.0, middle - 5.0);
    let mut svg = format!(
        "<rect x=\"{x:.1}\" y=\"{top:.1}\" width=\"{BAR}\" height=\"{:.1}\" fill=\"{colour}\"/>\n\
         <path d=\"M{middle:.1} {high:.1}V{low:.1}M{end:.1} {high:.1}h10M{end:.1} {low:.1}h10\" stroke=\"#222\"/>\n",
        foot - top
    );
    let below = [(name.to_string(), "#000"), (format!("{:.1}%", 100.0 * share), "#000"), (grouped(count), "#777")];
    for (line, (text, colour)) in below.iter().enumerate() {
        let at = foot + 16.0 + 15.0 * line as f64;
        let put = writeln!(
            svg,
            "<text x=\"{middle:.1}\" y=\"{at:.1}\" text-anchor=\"middle\" fill=\"{colour}\">{text}</text>"
        );
        put.expect("a string takes any text");
    }
    svg
}

/// What a picture shows, in a line.
fn title(draw: &Draw) -> String {
    let shape = draw.shape;
    match shape.is_ranked() {
        true => format!("{} blends ranked by {} jurors", shape.candidates, shape.ballots),
        false => format!("{} blends, {} grades, {} jurors", shape.candidates, shape.grades, shape.ballots),
    }
}

/// A picture of the shares: a bar each, with a mark at two standard errors on either side.
pub fn picture(draw: &Draw, seed: &str, outcome: &Outcome) -> String {
    let of = |(name, count): (String, u64)| (name, count, share(count, outcome.juries));
    let bars: Vec<_> = counts(draw, outcome).into_iter().map(of).collect();
    let scale = Scale::up_to(bars.iter().fold(0.0, |most: f64, (_, _, (share, error))| most.max(share + 2.0 * error)));
    let right = LEFT + STEP * bars.len() as f64;
    let (width, height) = ((right + 20.0).max(660.0), TOP + HEIGHT + 90.0);
    let (ways, best) = match draw.opinion {
        Opinion::Uniform => ("all levels equally likely".to_string(), ""),
        Opinion::Spread(steps) => (format!("spread {steps}"), "; best: a truly best blend wins"),
    };
    let mut svg = format!(
        "<svg xmlns=\"http://www.w3.org/2000/svg\" width=\"{width:.0}\" height=\"{height:.0}\" \
         font-family=\"sans-serif\" font-size=\"12\">\n<rect width=\"100%\" height=\"100%\" fill=\"white\"/>\n\
         <text x=\"{LEFT}\" y=\"20\" font-size=\"14\">{}</text>\n\
         <text x=\"{LEFT}\" y=\"37\" fill=\"#555\">{} juries, {ways}, seed {}</text>\n",
        title(draw),
        grouped(outcome.juries),
        escaped(seed)
    );
    svg += &scale.lines(right);
    for (i, (name, count, share)) in bars.iter().enumerate() {
        svg += &column(&scale, LEFT + STEP * (i as f64 + 0.5), name, *count, *share);
    }
    let caption = format!("Share of juries won, give or take two standard errors; shared: more than one winner{best}");
    svg + &format!(
        "<text x=\"{LEFT}\" y=\"{}\" font-size=\"10\" fill=\"#555\">{caption}</text>\n</svg>\n",
        height - 12.0
    )
}

/// How much of a fair is done, and how long the rest will take at this speed.
pub fn bar(done: u64, all: u64, seconds: f64) -> String {
    const WIDTH: u64 = 40;
    let full = (WIDTH * done / all) as usize;
    let left =
        if done == 0 { String::new() } else { format!(", {} left", span(seconds * (all - done) as f64 / done as f64)) };
    let filled = "#".repeat(full) + &".".repeat(WIDTH as usize - full);
    format!("[{filled}] {} of {} juries{left}", grouped(64 * done), grouped(64 * all))
}

fn span(seconds: f64) -> String {
    let whole = seconds.ceil() as u64;
    match whole {
        0..=99 => format!("{whole} s"),
        100..=5999 => format!("{} min {} s", whole / 60, whole % 60),
        _ => format!("{} h {} min", whole / 3600, whole / 60 % 60),
    }
}

#[cfg(test)]
mod tests {
    use super::*;
    use jugyvaros::Shape;

    fn small() -> (Draw, Outcome) {
        let draw = Draw { shape: Shape::graded(2, 3, 3), levels: 3, opinion: Opinion::Spread(1) };
        (draw, Outcome { juries: 6400, won: vec![4800, 3200], shared: 1600, best: 6400, core: 0.25 })
    }

    #[test]
    fn lines_have_shares_and_errors() {
        let (draw, outcome) = small();
        let expected = "fair 2 3 3\njuries 6400\nseed s\n\
            blend 0 won 4800 share 0.7500 error 0.0054\nblend 1 won 3200 share 0.5000 error 0.0063\n\
            shared 1600 share 0.2500 error 0.0054\nbest 6400 share 1.0000 error 0.0000\nseconds 1.5000 core 0.2500\n";
        assert_eq!(lines(&draw, "s", &outcome, 1.5), expected);
        let uniform = Draw { opinion: Opinion::Uniform, ..draw };
        assert!(!lines(&uniform, "s", &outcome, 1.5).contains("best"));
    }

    #[test]
    fn a_picture_has_a_bar_each_and_holds_all_it_needs() {
        let (draw, outcome) = small();
        let svg = picture(&draw, "<&>", &outcome);
        assert!(svg.starts_with("<svg ") && svg.ends_with("</svg>\n"));
        assert_eq!(svg.matches("<rect x=").count(), 4);
        assert!(svg.contains("seed &lt;&amp;&gt;") && svg.contains("6,400 juries"));
        assert_eq!(svg.matches("http").count(), 1);
    }

    #[test]
    fn a_bar_says_how_long() {
        assert_eq!(bar(0, 4, 1.0), format!("[{}] 0 of 256 juries", ".".repeat(40)));
        assert_eq!(bar(1, 4, 2.0), format!("[{}{}] 64 of 256 juries, 6 s left", "#".repeat(10), ".".repeat(30)));
        assert_eq!((span(99.0), span(100.5), span(7300.0)), ("99 s".into(), "1 min 41 s".into(), "2 h 1 min".into()));
        assert_eq!((grouped(12), grouped(123), grouped(1234567)), ("12".into(), "123".into(), "1,234,567".into()));
    }
}
