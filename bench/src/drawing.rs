//! The parts that the pictures share.

/// Pixels from the left, and from the top.
pub type Point = (usize, usize);

pub const BLUE: &str = "#2f6f9f";
pub const ORANGE: &str = "#c8701a";
pub const DARK: &str = "#222222";
pub const FAINT: &str = "#d0d0d0";

pub fn opening(width: usize, height: usize) -> Vec<String> {
    let size = format!(r#"width="{width}" height="{height}" viewBox="0 0 {width} {height}""#);
    let font = format!(r#"font-family="sans-serif" font-size="12" fill="{DARK}""#);
    vec![
        format!(r#"<svg xmlns="http://www.w3.org/2000/svg" {size} {font}>"#),
        r##"<rect width="100%" height="100%" fill="#ffffff"/>"##.to_owned(),
    ]
}

pub fn line((x1, y1): Point, (x2, y2): Point, colour: &str) -> String {
    format!(r#"<line x1="{x1}" y1="{y1}" x2="{x2}" y2="{y2}" stroke="{colour}"/>"#)
}

pub fn dashed((x1, y1): Point, (x2, y2): Point) -> String {
    format!(r#"<line x1="{x1}" y1="{y1}" x2="{x2}" y2="{y2}" stroke="{DARK}" stroke-dasharray="4 3"/>"#)
}

/// All words of a picture are written here, so none goes unescaped.
pub fn label((x, baseline): Point, anchor: &str, words: &str) -> String {
    format!(r#"<text x="{x}" y="{baseline}" text-anchor="{anchor}">{}</text>"#, escaped(words))
}

fn escaped(words: &str) -> String {
    // `&` goes first, for the others put new ones in
    words.replace('&', "&amp;").replace('<', "&lt;").replace('>', "&gt;").replace('"', "&quot;")
}

#[cfg(test)]
mod tests {
    use super::*;

    #[test]
    fn words_are_escaped() {
        assert_eq!(escaped("&str"), "&amp;str");
        assert_eq!(escaped("Vec<\"&lt;\">"), "Vec&lt;&quot;&amp;lt;&quot;&gt;");
    }
}
