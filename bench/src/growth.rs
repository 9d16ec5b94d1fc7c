//! A picture of what grows with the capacity: a curve for each operation, over logarithms of the capacity and of the time.
//!
//! Each curve has its name at its right end. Names that would touch are moved apart, and a thin line leads to each.
use crate::capacities::{Growth, CAPACITIES};
use crate::drawing::{dashed, label, line, opening, Point, BLUE, DARK, FAINT, ORANGE};

const FIRST_CAPACITY: u64 = CAPACITIES[0];
const LAST_CAPACITY: u64 = CAPACITIES[CAPACITIES.len() - 1];

/// An operation whose time at the last capacity is more than so many times that at the first one grows.
const FLAT: f64 = 10.0;
const STAYING: &str = BLUE;
const GROWING: &str = ORANGE;

const TOP: usize = 76;
const LEFT: usize = 84;
const WIDTH: usize = 460;
const RIGHT: usize = LEFT + WIDTH;
const DECADE: usize = 92;
const NAME: usize = RIGHT + 34;
const NAME_HEIGHT: f64 = 16.0;
const PICTURE_WIDTH: usize = NAME + 206;
const AXIS_HEIGHT: usize = 52;

/// The decades of the axis of times.
struct Decades {
    first: i32,
    last: i32,
}

impl Decades {
    fn of(curves: &[Growth]) -> Self {
        let times = || curves.iter().flat_map(|curve| curve.times);
        let (least, greatest) = (times().fold(f64::INFINITY, f64::min), times().fold(0.0, f64::max));
        Decades { first: least.log10().floor() as i32, last: greatest.log10().ceil() as i32 }
    }

    fn bottom(&self) -> usize {
        TOP + DECADE * (self.last - self.first) as usize
    }

    fn y(&self, nanoseconds: f64) -> f64 {
        TOP as f64 + DECADE as f64 * (f64::from(self.last) - nanoseconds.log10())
    }
}

pub fn of(curves: &[Growth]) -> String {
    let decades = Decades::of(curves);
    let mut lines = opening(PICTURE_WIDTH, decades.bottom() + AXIS_HEIGHT);
    lines.extend(heading());
    lines.extend(axis_of_capacities(decades.bottom()));
    lines.extend(axis_of_times(&decades));
    lines.push(in_proportion(&decades));
    lines.extend(curves.iter().flat_map(|curve| drawn(&decades, curve)));
    lines.extend(names(&decades, curves));
    lines.push("</svg>\n".to_owned());
    lines.join("\n")
}

fn heading() -> Vec<String> {
    let baseline = 48;
    let [flat, growing, proportion] = [12, 342, 448];
    let sample = |x, colour| format!(r#"<rect x="{x}" y="{}" width="24" height="4" fill="{colour}"/>"#, baseline - 6);
    let words = |sample, words: &str| label((sample + 30, baseline), "start", words);
    let flat_words = format!("flat: at {} at most {FLAT} times the time at {FIRST_CAPACITY}", with_commas(LAST_CAPACITY));
    vec![
        r#"<g font-weight="bold" font-size="14">"#.to_owned(),
        label((12, 24), "start", "Nanoseconds of an operation, by the capacity of its container"),
        "</g>".to_owned(),
        sample(flat, STAYING),
        words(flat, &flat_words),
        sample(growing, GROWING),
        words(growing, "growing"),
        dashed((proportion, baseline - 4), (proportion + 24, baseline - 4)),
        words(proportion, "in proportion to the capacity"),
    ]
}

/// The slope of what takes twice as long at twice the capacity.
fn in_proportion(decades: &Decades) -> String {
    let greatest = 10f64.powi(decades.last);
    let least = greatest * FIRST_CAPACITY as f64 / LAST_CAPACITY as f64;
    dashed((LEFT, decades.y(least).round() as usize), (RIGHT, TOP))
}

fn axis_of_capacities(bottom: usize) -> Vec<String> {
    let mut lines = Vec::new();
    for capacity in CAPACITIES {
        let x = x_of(capacity);
        lines.push(line((x, TOP), (x, bottom + 5), FAINT));
        lines.push(label((x, bottom + 19), "middle", &with_commas(capacity)));
    }
    lines.push(label((LEFT + WIDTH / 2, bottom + 41), "middle", "capacity"));
    lines
}

fn axis_of_times(decades: &Decades) -> Vec<String> {
    let mut lines = Vec::new();
    for decade in decades.first..=decades.last {
        let y = TOP + DECADE * (decades.last - decade) as usize;
        let colour = if decade == decades.first { DARK } else { FAINT };
        lines.push(line((LEFT - 5, y), (RIGHT, y), colour));
        let tick = if decade < 0 { format!("{}", 10f64.powi(decade)) } else { with_commas(10u64.pow(decade as u32)) };
        lines.push(label((LEFT - 9, y + 4), "end", &tick));
    }
    lines
}

fn drawn(decades: &Decades, curve: &Growth) -> Vec<String> {
    let point = |(&capacity, time)| (x_of(capacity), decades.y(time).round() as usize);
    let points: Vec<Point> = CAPACITIES.iter().zip(curve.times).map(point).collect();
    let colour = colour_of(curve);
    let path: Vec<String> = points.iter().map(|(x, y)| format!("{x},{y}")).collect();
    let mut lines = vec![format!(r#"<polyline points="{}" fill="none" stroke="{colour}" stroke-width="1.5"/>"#, path.join(" "))];
    lines.extend(points.iter().map(|(x, y)| format!(r#"<circle cx="{x}" cy="{y}" r="2.5" fill="{colour}"/>"#)));
    lines
}

fn names(decades: &Decades, curves: &[Growth]) -> Vec<String> {
    let mut ends: Vec<(f64, &Growth)> = curves.iter().map(|curve| (decades.y(last_time(curve)), curve)).collect();
    ends.sort_by(|one, other| one.0.total_cmp(&other.0));
    let wanted: Vec<f64> = ends.iter().map(|(y, _)| *y).collect();
    let mut lines = Vec::new();
    for ((end, curve), y) in ends.iter().zip(apart(&wanted, NAME_HEIGHT)) {
        let (end, y) = (end.round() as usize, y.round() as usize);
        lines.push(line((RIGHT + 4, end), (NAME - 4, y), colour_of(curve)));
        lines.push(label((NAME, y + 4), "start", curve.operation));
    }
    lines
}

/// Returns the heights that are nearest to those `wanted`, which rise, and at least `gap` apart.
fn apart(wanted: &[f64], gap: f64) -> Vec<f64> {
    // groups of names that touch: the sum of what is wanted for their first names, and how many they are
    let mut groups: Vec<(f64, usize)> = Vec::new();
    for (index, height) in wanted.iter().enumerate() {
        let mut group = (height - index as f64 * gap, 1);
        while let Some(before) = groups.pop_if(|before| before.0 / before.1 as f64 > group.0 / group.1 as f64) {
            group = (before.0 + group.0, before.1 + group.1);
        }
        groups.push(group);
    }
    let firsts = groups.iter().flat_map(|&(sum, count)| std::iter::repeat(sum / count as f64).take(count));
    firsts.enumerate().map(|(index, first)| first + index as f64 * gap).collect()
}

fn colour_of(curve: &Growth) -> &'static str {
    if last_time(curve) > FLAT * curve.times[0] { GROWING } else { STAYING }
}

fn last_time(curve: &Growth) -> f64 {
    curve.times[CAPACITIES.len() - 1]
}

fn x_of(capacity: u64) -> usize {
    let doublings = |capacity: u64| (capacity as f64 / FIRST_CAPACITY as f64).log2();
    LEFT + (WIDTH as f64 * doublings(capacity) / doublings(LAST_CAPACITY)).round() as usize
}

pub fn with_commas(number: u64) -> String {
    if number < 1000 { number.to_string() } else { format!("{},{:03}", with_commas(number / 1000), number % 1000) }
}

#[cfg(test)]
mod tests {
    use super::*;

    fn curve(operation: &'static str, last: f64) -> Growth {
        Growth { operation, times: [1.0, 1.0, 1.0, 1.0, last] }
    }

    #[test]
    fn a_picture_escapes_what_it_is_given() {
        assert!(of(&[curve("a<b", 20.0)]).contains(">a&lt;b<"));
    }

    #[test]
    fn only_a_curve_that_grows_has_its_colour() {
        let growing = |last| of(&[curve("", last)]).matches(GROWING).count();
        let in_heading = growing(1.0);
        assert_eq!(growing(FLAT), in_heading);
        assert!(growing(FLAT + 0.1) > in_heading);
    }

    #[test]
    fn names_that_touch_are_moved_apart_evenly() {
        assert_eq!(apart(&[10.0, 40.0], 16.0), [10.0, 40.0]);
        assert_eq!(apart(&[10.0, 10.0, 100.0], 16.0), [2.0, 18.0, 100.0]);
        assert_eq!(apart(&[10.0, 30.0, 32.0], 16.0), [8.0, 24.0, 40.0]);
    }

    #[test]
    fn the_outer_capacities_lie_at_the_edges() {
        assert_eq!((x_of(FIRST_CAPACITY), x_of(LAST_CAPACITY)), (LEFT, RIGHT));
        assert!(x_of(CAPACITIES[1]) < x_of(CAPACITIES[2]));
    }

    #[test]
    fn thousands_have_commas() {
        assert_eq!([8, 4096, 1_000_000].map(with_commas), ["8", "4,096", "1,000,000"]);
    }
}
