//! Sizes, colours and words of the picture.

use yurdelmiz::{Shade, Side};

pub const WIDTH: f64 = 1200.0;
pub const HEIGHT: f64 = 680.0;
pub const LEFT: f64 = 84.0;
pub const RIGHT: f64 = 1172.0;

/// A panel from top to bottom.
#[derive(Clone, Copy)]
pub struct Panel {
    pub top: f64,
    pub bottom: f64,
}

pub const UPPER: Panel = Panel { top: 128.0, bottom: 428.0 };
pub const LOWER: Panel = Panel { top: 484.0, bottom: 608.0 };

/// What is left free at the upper panel's edges for readings without watts.
pub const MARGIN: f64 = 20.0;

pub const INK: &str = "#22262b";
pub const QUIET: &str = "#6b7280";
pub const MISSING: &str = "#111111";
pub const SATURATED: &str = "#b3005e";

/// The sides in the order of the legend.
pub const SIDES: [Side; 3] = [Side::Training, Side::Test, Side::Withheld];

pub fn colour(side: Side) -> &'static str {
    match side {
        Side::Training => "#0072b2",
        Side::Test => "#d55e00",
        Side::Withheld => "#8a8f98",
    }
}

/// A shade that is drawn as a band behind the panels.
pub struct Band {
    pub shade: Shade,
    pub name: &'static str,
    pub fill: &'static str,
}

/// Every shade but sunlight, the darkest first.
pub const BANDS: [Band; 2] = [
    Band { shade: Shade::Dark, name: "umbra", fill: "#c3ccda" },
    Band { shade: Shade::Part, name: "penumbra", fill: "#e0e6ee" },
];
