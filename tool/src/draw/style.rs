//! What the surface of each type of lane looks like: a colour, and stripes on it by which types differ in a grey print as well. A lane of another
//! type than Driving has its type beside its number besides.

use crate::markup::number;
use kartsodi::records::LaneType;

/// A stripe along a lane: how wide, in which colour, and broken into pieces and gaps. All in parts of the lane's width.
struct Stripe {
    width: f64,
    colour: &'static str,
    broken: &'static [f64],
}

/// Stripes across the whole lane.
const fn across(colour: &'static str, broken: &'static [f64]) -> Stripe {
    Stripe { width: 1.0, colour, broken }
}

/// A stripe along the middle.
const fn along(width: f64, colour: &'static str, broken: &'static [f64]) -> Stripe {
    Stripe { width, colour, broken }
}

/// The colour of a type's surface, and its stripes from the lowest to the uppermost.
fn look(kind: LaneType) -> (&'static str, &'static [Stripe]) {
    use LaneType::*;
    match kind {
        Driving => ("#dde1e5", &[]),
        None => ("#f6f6f4", &[]),
        Bidirectional => ("#dde1e5", const { &[along(0.5, "#f6f6f4", &[1.2, 0.6])] }),
        Bus => ("#f3c1b2", const { &[across("#d98670", &[0.16, 0.84])] }),
        Taxi => ("#f7e08f", const { &[along(0.34, "#8a7420", &[0.34, 0.34])] }),
        Hov => ("#d8c9ec", const { &[along(0.3, "#7d5fa8", &[0.9, 0.5])] }),
        Entry => ("#cfe3f5", const { &[along(0.2, "#ffffff", &[0.6, 0.3])] }),
        Exit => ("#b5d2ee", const { &[along(0.2, "#ffffff", &[0.6, 0.3])] }),
        OnRamp => ("#cfe3f5", const { &[across("#7fa9d1", &[0.1, 1.3])] }),
        OffRamp => ("#b5d2ee", const { &[across("#5c88b3", &[0.1, 0.9])] }),
        ConnectingRamp => ("#c2daf2", const { &[across("#5c88b3", &[0.1, 0.2, 0.1, 1.1])] }),
        SlipLane => ("#dceaf0", const { &[along(0.12, "#47707f", &[0.5, 0.5])] }),
        Parking => ("#c7d3e6", const { &[across("#ffffff", &[0.12, 0.58])] }),
        Stop => ("#e3cfc8", const { &[along(0.5, "#ffffff", &[0.12, 0.3])] }),
        Restricted => ("#f4f4f4", const { &[across("#9a9a9a", &[0.2, 0.3])] }),
        Biking => ("#bfe3c3", const { &[along(0.3, "#2f7d3b", &[0.15, 0.45])] }),
        Sidewalk => ("#ece3cf", const { &[across("#cbbd9c", &[0.05, 0.35])] }),
        Shoulder => ("#c9c5bd", &[]),
        Border => ("#e6e1d8", const { &[along(0.7, "#f8f6f2", &[])] }),
        Curb => ("#a9a9a9", const { &[along(0.4, "#d9d9d9", &[])] }),
        Median => ("#cfdcb6", const { &[along(0.45, "#a6bd7d", &[])] }),
        RoadWorks => ("#f8d3a0", const { &[across("#d07a1a", &[0.3, 0.5])] }),
        Tram => ("#dcdcdc", const { &[along(0.5, "#444444", &[]), along(0.4, "#dcdcdc", &[])] }),
        Rail => (
            "#e9e4dc",
            const { &[along(0.8, "#8d7f6c", &[0.14, 0.3]), along(0.5, "#333333", &[]), along(0.4, "#e9e4dc", &[])] },
        ),
        Special1 => ("#e8d7e6", const { &[along(0.16, "#8f5f8a", &[])] }),
        Special2 => ("#e8d7e6", const { &[along(0.4, "#8f5f8a", &[]), along(0.24, "#e8d7e6", &[])] }),
        Special3 => (
            "#e8d7e6",
            const { &[along(0.6, "#8f5f8a", &[]), along(0.44, "#e8d7e6", &[]), along(0.16, "#8f5f8a", &[])] },
        ),
        Unknown => ("#ffffff", const { &[across("#777777", &[0.05, 0.6])] }),
    }
}

/// The edge of every lane.
pub const EDGE: &str = "#8b9096";

/// The surface of a lane along a path, this wide in units: the colour, then its stripes.
pub fn surface(kind: LaneType, path: &str, width: f64) -> String {
    let (colour, stripes) = look(kind);
    let mut out = stroke(path, colour, width, &[]);
    for stripe in stripes {
        let broken: Vec<f64> = stripe.broken.iter().map(|part| part * width).collect();
        out.push_str(&stroke(path, stripe.colour, stripe.width * width, &broken));
    }
    out
}

fn stroke(path: &str, colour: &str, width: f64, broken: &[f64]) -> String {
    let dashes = match broken {
        [] => String::new(),
        parts => {
            format!(" stroke-dasharray=\"{}\"", parts.iter().map(|part| number(*part)).collect::<Vec<_>>().join(" "))
        }
    };
    format!("<path d=\"{path}\" stroke=\"{colour}\" stroke-width=\"{}\"{dashes}/>\n", number(width))
}

#[cfg(test)]
mod tests {
    use super::surface;
    use kartsodi::records::LaneType;

    #[test]
    fn no_two_types_look_alike() {
        let looks: Vec<String> = LaneType::ALL.iter().map(|kind| surface(*kind, "M0 0H9", 10.0)).collect();
        for (i, look) in looks.iter().enumerate() {
            assert!(!looks[..i].contains(look), "{}", LaneType::ALL[i]);
        }
    }
}
