//! The numbers of the text form: whole numbers within their range, floats of 32 and 64 bits, each exact to the bit.

use std::ops::RangeInclusive;
use std::str::FromStr;

/// A float of the file.
pub trait Float: Copy + FromStr {
    /// The hexadecimal digits of its bits.
    const DIGITS: usize;
    /// What its decimal numbers lie between.
    const MOST: &'static str;
    /// The float with these bits.
    fn of_bits(bits: u64) -> Self;
    /// Whether it is neither a NaN nor infinite.
    fn finite(self) -> bool;
}

impl Float for f32 {
    const DIGITS: usize = 8;
    const MOST: &'static str = "3.4028235e38";

    fn of_bits(bits: u64) -> Self {
        f32::from_bits(bits as u32)
    }

    fn finite(self) -> bool {
        self.is_finite()
    }
}

impl Float for f64 {
    const DIGITS: usize = 16;
    const MOST: &'static str = "1.7976931348623157e308";

    fn of_bits(bits: u64) -> Self {
        f64::from_bits(bits)
    }

    fn finite(self) -> bool {
        self.is_finite()
    }
}

/// What a float of the text form has to look like.
const A_NUMBER: &str = "a number, as 12, -3.5 or 1e-3";

/// The float that a word stands for, or what was expected in its place.
pub fn float<F: Float>(word: &str) -> Result<F, String> {
    if let Some(bits) = word.strip_prefix("bits:") {
        return of_bits(bits).ok_or_else(|| format!("bits: and {} hexadecimal digits", F::DIGITS));
    }
    let read = |word: &str| word.parse::<F>().map_err(|_| A_NUMBER.to_string());
    match word {
        "inf" | "+inf" | "-inf" | "nan" => read(word),
        _ if !word.bytes().all(|b| b.is_ascii_digit() || b"+-.eE".contains(&b)) => Err(no_number(word)),
        _ => read(word).and_then(|x| if x.finite() { Ok(x) } else { Err(too_large::<F>()) }),
    }
}

fn of_bits<F: Float>(digits: &str) -> Option<F> {
    let fits = digits.len() == F::DIGITS && digits.bytes().all(|b| b.is_ascii_hexdigit());
    fits.then(|| u64::from_str_radix(digits, 16).ok().map(F::of_bits)).flatten()
}

fn too_large<F: Float>() -> String {
    format!("a number from -{0} to {0}, which is what its {1} bits hold", F::MOST, 4 * F::DIGITS)
}

fn no_number(word: &str) -> String {
    let comma = word.contains(',') && word.bytes().all(|b| b.is_ascii_digit() || b"+-.,".contains(&b));
    format!("{A_NUMBER}{}", if comma { " (with a point, not a comma)" } else { "" })
}

/// The whole number that a word stands for, or what was expected in its place.
pub fn whole<N: TryFrom<i64>>(word: &str, range: RangeInclusive<i64>) -> Result<N, String> {
    let found = word.parse::<i64>().ok().filter(|n| range.contains(n)).and_then(|n| N::try_from(n).ok());
    found.ok_or_else(|| format!("a whole number from {} to {}", range.start(), range.end()))
}

#[cfg(test)]
mod tests {
    use super::{float, whole};

    #[test]
    fn floats_are_read_to_the_bit() {
        for (word, bits) in [
            ("0", 0),
            ("-0", 0x8000_0000),
            ("0.1", 0x3DCC_CCCD),
            ("1e-45", 1),
            ("inf", 0x7F80_0000),
            ("-inf", 0xFF80_0000),
            ("nan", 0x7FC0_0000),
            ("bits:FFC00001", 0xFFC0_0001),
            ("bits:3f800000", 0x3F80_0000),
        ] {
            assert_eq!(float::<f32>(word).map(f32::to_bits), Ok(bits), "{word}");
        }
        assert_eq!(float::<f64>("bits:7FF8000000000001").map(f64::to_bits), Ok(0x7FF8_0000_0000_0001));
    }

    #[test]
    fn what_is_no_float_is_told() {
        let told = |word| float::<f32>(word).unwrap_err();
        assert!(told("1e40").starts_with("a number from -3.4028235e38 to"));
        assert!(told("3,5").ends_with("(with a point, not a comma)"));
        for word in ["x", "", "1e", "--1", "infinity", "NaN", "0x10", "1_000", "é", "1.2.3"] {
            assert!(told(word).starts_with("a number, as 12"), "{word}");
        }
        for word in ["bits:", "bits:7FC0000", "bits:7FC000000", "bits:+FC00000", "bits:7FC0000G"] {
            assert_eq!(told(word), "bits: and 8 hexadecimal digits");
        }
    }

    #[test]
    fn whole_numbers_keep_their_range() {
        let number = |word| whole::<u16>(word, 0..=65535);
        assert_eq!((number("0"), number("65535")), (Ok(0), Ok(65535)));
        for word in ["65536", "-1", "1.0", "", "x", "99999999999999999999"] {
            assert_eq!(number(word), Err("a whole number from 0 to 65535".into()), "{word}");
        }
    }
}
