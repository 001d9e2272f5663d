//! The text form of a plan, a record a line: read by `make` and printed by `show`, each the other's inverse.

mod numbers;
mod parse;
mod print;

pub use parse::{parse, Fault};
pub use print::{double, print, single};

/// The text form in words, for `make --help`.
pub const FORM: &str = "  lane N TYPE DIRECTION  X Y Z  X Y Z ..  [ends  X Y Z  X Y Z]
  link FROM successor|predecessor|neighbour TO
  section ROAD INDEX START END STATION STATION ..
  place LANE ROAD INDEX NUMBER
  route X Y Z  X Y Z
  advance LANE S OFFSET DISTANCE
  beside LANE S left|right

A `#` starts a comment. DIRECTION is forward, backward or both, as the traffic
goes along the points. TYPE is a name or its number; routes start and end on
driving lanes alone:

   0 none             7 exit            14 restricted      21 roadWorks
   1 driving          8 onRamp          15 biking          22 tram
   2 bidirectional    9 offRamp         16 sidewalk        23 rail
   3 bus             10 connectingRamp  17 shoulder        24 special1
   4 taxi            11 slipLane        18 border          25 special2
   5 HOV             12 parking         19 curb            26 special3
   6 entry           13 stop            20 median          27 unknown

Metres are decimal numbers, as 12, -3.5 or 1e-3. A question and a tangent may
also have inf, -inf and nan, and every float may stand as its bits:
bits:7FC00001 where it has 32, bits:7FF8000000000001 where it has 64 (stations,
offsets and distances).
";

#[cfg(test)]
mod tests {
    use super::FORM;
    use kartsodi::records::LaneType;

    #[test]
    fn the_form_names_every_type() {
        let words: Vec<&str> = FORM.split(|c: char| !c.is_alphanumeric()).filter(|word| !word.is_empty()).collect();
        for kind in LaneType::ALL {
            let number = kind.number().to_string();
            assert!(words.windows(2).any(|pair| pair == [number.as_str(), kind.name()]), "{number} {kind}");
        }
    }
}
