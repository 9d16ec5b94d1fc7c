//! A picture of the ratios: a bar for each operation, over a dashed line where both sides take equally long.
//!
//! Names stand left of the plot and numbers right of it, so no line runs through a label.
use crate::drawing::{dashed, label, line, opening, Point, BLUE, DARK, FAINT, ORANGE};

pub struct Bar<'a> {
    pub operation: &'a str,
    pub ratio: f64,
    pub peer: &'a str,
}

/// The greatest ratio of the axis; a bar that passes it ends in an arrow head, and its number tells.
const GREATEST: f64 = 2.0;
const TICKS: [f64; 5] = [0.0, 0.5, 1.0, 1.5, GREATEST];

const MARGIN: usize = 12;
const TOP: usize = 84;
const LEFT: usize = 160;
const WIDTH: usize = 440;
const RIGHT: usize = LEFT + WIDTH;
const OPERATION_END: usize = LEFT - 10;
const RATIO_END: usize = RIGHT + 62;
const PEER: usize = RATIO_END + 16;
const PICTURE_WIDTH: usize = PEER + 104;
const AXIS_HEIGHT: usize = 32;

const ROW: usize = 22;
const THICKNESS: usize = 14;
const HEAD_LENGTH: usize = 12;

const SHORTER: &str = BLUE;
const LONGER: &str = ORANGE;

pub fn of(bars: &[Bar]) -> String {
    let bottom = TOP + ROW * bars.len();
    let mut lines = opening(PICTURE_WIDTH, bottom + AXIS_HEIGHT);
    lines.extend(heading());
    lines.extend(legend());
    lines.extend(stripes(bottom));
    lines.extend(axis(bottom));
    lines.extend(bars.iter().zip((TOP..).step_by(ROW)).flat_map(|(bar, top)| row(top, bar)));
    lines.push("</svg>\n".to_owned());
    lines.join("\n")
}

fn heading() -> Vec<String> {
    let baseline = TOP - 8;
    vec![
        r#"<g font-weight="bold">"#.to_owned(),
        r#"<g font-size="14">"#.to_owned(),
        label((MARGIN, 24), "start", "Time of Tolkzin as a share of the time of Rust's own collection"),
        "</g>".to_owned(),
        label((OPERATION_END, baseline), "end", "operation"),
        label((RATIO_END, baseline), "end", "ratio"),
        label((PEER, baseline), "start", "Rust's side"),
        "</g>".to_owned(),
    ]
}

fn legend() -> Vec<String> {
    let [less, longer, even, past] = [MARGIN, 176, 352, 546];
    let (top, length) = (37, 24);
    let middle = top + THICKNESS / 2;
    let words = |sample, words: &str| label((sample + length + 6, top + 11), "start", words);
    vec![
        thick((less, top), length, SHORTER),
        words(less, "Tolkzin takes less"),
        thick((longer, top), length, LONGER),
        words(longer, "Tolkzin takes longer"),
        dashed((even, middle), (even + length, middle)),
        words(even, "both take equally long"),
        thick((past, top), length - HEAD_LENGTH, LONGER),
        arrow_head((past + length - HEAD_LENGTH, top), LONGER),
        words(past, &format!("past {GREATEST}: see the ratio")),
    ]
}

/// Every other row is shaded, to lead the eye from a short bar to its number.
fn stripes(bottom: usize) -> Vec<String> {
    let stripe = |top| format!(r##"<rect y="{top}" width="100%" height="{ROW}" fill="#f4f4f4"/>"##);
    (TOP..bottom).step_by(2 * ROW).map(stripe).collect()
}

/// Drawn before the bars, so its lines lie behind them.
fn axis(bottom: usize) -> Vec<String> {
    let mut lines = Vec::new();
    for tick in TICKS {
        let x = LEFT + length_of(tick);
        lines.push(if tick == 1.0 { dashed((x, TOP), (x, bottom)) } else { line((x, TOP), (x, bottom), FAINT) });
        lines.push(line((x, bottom), (x, bottom + 5), DARK));
        lines.push(label((x, bottom + 19), "middle", &tick.to_string()));
    }
    lines.push(line((LEFT, bottom), (RIGHT, bottom), DARK));
    lines
}

fn row(top: usize, bar: &Bar) -> Vec<String> {
    let (baseline, bar_top) = (top + 15, top + (ROW - THICKNESS) / 2);
    let colour = if bar.ratio <= 1.0 { SHORTER } else { LONGER };
    let mut lines = vec![
        label((OPERATION_END, baseline), "end", bar.operation),
        thick((LEFT, bar_top), length_of(bar.ratio), colour),
        label((RATIO_END, baseline), "end", &format!("{:.2}", bar.ratio)),
        label((PEER, baseline), "start", bar.peer),
    ];
    if bar.ratio > GREATEST {
        lines.push(arrow_head((RIGHT, bar_top), colour));
    }
    lines
}

fn length_of(ratio: f64) -> usize {
    (ratio.min(GREATEST) / GREATEST * WIDTH as f64).round() as usize
}

fn thick((x, top): Point, length: usize, colour: &str) -> String {
    format!(r#"<rect x="{x}" y="{top}" width="{length}" height="{THICKNESS}" fill="{colour}"/>"#)
}

/// The mark of a bar that is cut at `x`.
fn arrow_head((x, bar_top): Point, colour: &str) -> String {
    let (above, below) = (bar_top - 3, bar_top + THICKNESS + 3);
    let (tip, middle) = (x + HEAD_LENGTH, bar_top + THICKNESS / 2);
    format!(r#"<polygon points="{x},{above} {tip},{middle} {x},{below}" fill="{colour}"/>"#)
}

#[cfg(test)]
mod tests {
    use super::*;

    #[test]
    fn a_picture_escapes_what_it_is_given() {
        let picture = of(&[Bar { operation: "a<b", ratio: 1.0, peer: "&str" }]);
        assert!(picture.contains(">a&lt;b<") && picture.contains(">&amp;str<"));
    }

    #[test]
    fn only_a_bar_past_the_greatest_ratio_ends_in_an_arrow_head() {
        let heads = |ratio| of(&[Bar { operation: "", ratio, peer: "" }]).matches("<polygon").count();
        let in_legend = heads(0.0);
        assert_eq!(heads(GREATEST), in_legend);
        assert_eq!(heads(GREATEST + 0.01), in_legend + 1);
    }
}
