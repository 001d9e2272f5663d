//! Text and numbers as SVG and HTML have them.

/// The text with everything escaped that means something in markup: for the inside of an element, and of an attribute in double quotes. A character
/// that XML has no place for becomes U+FFFD.
pub fn escaped(text: &str) -> String {
    let mut out = String::with_capacity(text.len());
    for c in text.chars() {
        match c {
            '&' => out.push_str("&amp;"),
            '<' => out.push_str("&lt;"),
            '>' => out.push_str("&gt;"),
            '"' => out.push_str("&quot;"),
            '\'' => out.push_str("&#39;"),
            c if in_xml(c) => out.push(c),
            _ => out.push('\u{FFFD}'),
        }
    }
    out
}

/// XML 1.0, production 2, without the control characters that HTML does not allow.
fn in_xml(c: char) -> bool {
    matches!(c, '\t' | '\n' | ' '..='~' | '\u{A0}'..='\u{D7FF}' | '\u{E000}'..='\u{FFFD}' | '\u{10000}'..)
}

/// A finite number with two decimals at most: the same digits every time, and no -0.
pub fn number(x: f64) -> String {
    debug_assert!(x.is_finite(), "a drawing has finite numbers only");
    let digits = format!("{x:.2}");
    match digits.trim_end_matches('0').trim_end_matches('.') {
        "-0" => "0".into(),
        short => short.into(),
    }
}

#[cfg(test)]
mod tests {
    use super::{escaped, number};

    #[test]
    fn what_means_something_is_escaped() {
        assert_eq!(escaped("a<b> & \"c\" 'd'"), "a&lt;b&gt; &amp; &quot;c&quot; &#39;d&#39;");
        assert_eq!(escaped("\u{0}\u{1b}\u{7f}\u{85}\u{fffe}\u{ffff}"), "\u{fffd}".repeat(6));
        assert_eq!(escaped("Straße, 道路, \u{1F6A6}\n"), "Straße, 道路, \u{1F6A6}\n");
    }

    #[test]
    fn numbers_are_short_and_have_no_minus_zero() {
        let cases = [(0.0, "0"), (-0.0, "0"), (-0.004, "0"), (1.5, "1.5"), (100.0, "100"), (-2.126, "-2.13")];
        for (x, digits) in cases {
            assert_eq!(number(x), digits);
        }
    }
}
