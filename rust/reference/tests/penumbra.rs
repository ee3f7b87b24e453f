//! Umbra and penumbra beyond the worked cases: each edge at the unit, with the radii worked out by hand.

use reference::eclipse::{penumbra_radius, shade, umbra_radius, Shade};
use reference::orbit::Position;
use reference::sun::Direction;
use reference::Refusal;

const ONE: i64 = 1 << 30;

/// The greatest depth that refusal 14 leaves: three components of 200,000,000, each times one.
const DEEPEST: i64 = 600_000_000;

/// A depth, the umbra's radius there and the penumbra's. A quotient reaches 1 at 213 (penumbra) and
/// 217 (umbra), and 2 at 426 and 434. From 199,987,216 to 199,999,665 a numerator one more or one less
/// would give another radius.
const RADII: [(i64, i64, i64); 19] = [
    (1, 6_378_000, 6_378_000),
    (107, 6_378_000, 6_378_000),
    (212, 6_378_000, 6_378_000),
    (213, 6_378_000, 6_378_001),
    (216, 6_378_000, 6_378_001),
    (217, 6_377_999, 6_378_001),
    (425, 6_377_999, 6_378_001),
    (426, 6_377_999, 6_378_002),
    (433, 6_377_999, 6_378_002),
    (434, 6_377_998, 6_378_002),
    (1_000_001, 6_373_391, 6_382_695),
    (6_378_000, 6_348_599, 6_407_944),
    (42_164_000, 6_183_634, 6_575_961),
    (199_987_216, 5_456_105, 7_316_947),
    (199_993_606, 5_456_075, 7_316_978),
    (199_998_797, 5_456_052, 7_317_002),
    (199_999_000, 5_456_051, 7_317_003),
    (199_999_665, 5_456_047, 7_317_006),
    (200_000_000, 5_456_046, 7_317_008),
];

fn shade_at([x, y, z]: [i64; 3], sun: [i64; 3]) -> Result<Shade, Refusal> {
    let sun = Direction { x: sun[0], y: sun[1], z: sun[2] };
    shade(Position { x, y, z }, sun)
}

#[test]
fn quotients_are_cut() {
    for (depth, umbra, penumbra) in RADII {
        assert_eq!((umbra_radius(depth), penumbra_radius(depth)), (umbra, penumbra), "{depth}");
    }
    assert_eq!((umbra_radius(0), penumbra_radius(0)), (6_378_000, 6_378_000));
    assert_eq!((umbra_radius(DEEPEST), penumbra_radius(DEEPEST)), (3_612_137, 9_195_024));
}

/// On both edges, a metre inside and a metre outside, with the Sun along each axis and against it.
#[test]
fn edges_at_a_metre() {
    for (depth, umbra, penumbra) in RADII {
        for side in [umbra, penumbra].into_iter().flat_map(|radius| radius - 1..=radius + 1) {
            let expected = if side < umbra {
                Shade::Dark
            } else if side < penumbra {
                Shade::Part
            } else {
                Shade::Lit
            };
            for axis in 0..3 {
                for (one, across) in [(ONE, [side, 0]), (-ONE, [0, -side])] {
                    let mut sun = [one, 0, 0];
                    let mut position = [-depth * one.signum(), across[0], across[1]];
                    sun.rotate_right(axis);
                    position.rotate_right(axis);
                    let found = shade_at(position, sun);
                    assert_eq!(found, Ok(expected), "{position:?}, depth {depth}, side {side}");
                }
            }
        }
    }
}

/// Positions whose side² is the square of a radius less 1: the depth, the Sun's x, the position, the
/// radius, and the shade. Where both quotients are 0 the two edges are one.
const ONE_BELOW: [(i64, i64, [i64; 3], i64, Shade); 12] = [
    (1, 3_355_444, [-320, 6_376_576, 134_768], 6_378_000, Shade::Dark),
    (211, 678_321_931, [-334, 6_375_850, 165_592], 6_378_000, Shade::Dark),
    (213, 1_049_114_718, [-218, 6_375_588, 175_390], 6_378_000, Shade::Dark),
    (213, 666_784_282, [-343, 6_377_818, 48_314], 6_378_001, Shade::Part),
    (217, 1_021_938_491, [-228, 6_376_711, 128_172], 6_377_999, Shade::Dark),
    (217, 958_855_868, [-243, 6_377_974, 18_558], 6_378_001, Shade::Part),
    (1_000_001, 1_073_695_656, [-1_000_044, 6_372_404, 111_777], 6_373_391, Shade::Dark),
    (1_000_001, 1_073_522_826, [-1_000_205, 6_381_362, 128_866], 6_382_695, Shade::Part),
    (42_164_001, 1_073_740_424, [-42_164_056, 6_180_848, 172_654], 6_183_634, Shade::Dark),
    (42_164_001, 1_073_741_111, [-42_164_029, 6_573_614, 168_822], 6_575_961, Shade::Part),
    (199_999_000, 1_073_741_341, [-199_999_090, 5_452_440, 58_230], 5_456_051, Shade::Dark),
    (199_999_000, 1_073_741_642, [-199_999_034, 7_314_686, 142_484], 7_317_003, Shade::Part),
];

/// side² one below the square of a radius, equal to it, and one above.
#[test]
fn edges_at_a_unit_of_side_squared() {
    for (depth, sun_x, below, radius, inside) in ONE_BELOW {
        let sun = [sun_x, 0, 0];
        let side_squared = |[x, y, z]: [i64; 3], sun_x: i64| {
            let p = x * sun_x / ONE;
            assert_eq!(p, -depth);
            x * x + y * y + z * z - p * p
        };
        assert_eq!(side_squared(below, sun_x), radius * radius - 1);
        assert_eq!(shade_at(below, sun), Ok(inside), "{below:?}");

        let outside = match inside {
            Shade::Dark if depth > 212 => Shade::Part,
            _ => Shade::Lit,
        };
        for off in [0, 1] {
            let position = [-depth, radius, off];
            assert_eq!(side_squared(position, ONE), radius * radius + off);
            assert_eq!(shade_at(position, [ONE, 0, 0]), Ok(outside), "{position:?}");
        }
    }
}

/// p at 0 or above is lit at any side, down to the Earth's centre; so is a p that is cut to 0.
#[test]
fn noon_is_lit() {
    for side in [0, 1, 5_000_000, 6_377_999, 6_378_000, 6_500_000, 7_000_000, 200_000_000] {
        for x in [0, 1, 212, 213, 6_378_000, 42_164_000, 200_000_000] {
            assert_eq!(shade_at([x, side, 0], [ONE, 0, 0]), Ok(Shade::Lit), "{x}, {side}");
            assert_eq!(shade_at([-x, 0, side], [-ONE, 0, 0]), Ok(Shade::Lit), "{x}, {side}");
        }
        assert_eq!(shade_at([-1, side, 0], [ONE - 1, 0, 0]), Ok(Shade::Lit), "{side}");
        assert_eq!(shade_at([-200_000_000, side, 0], [0, 0, ONE]), Ok(Shade::Lit), "{side}");
    }
    assert_eq!(shade_at([-1, 0, 0], [ONE, 0, 0]), Ok(Shade::Dark));
    assert_eq!(shade_at([-1, 6_377_999, 0], [ONE, 0, 0]), Ok(Shade::Dark));
    assert_eq!(shade_at([-1, 6_378_000, 0], [ONE, 0, 0]), Ok(Shade::Lit));
}

/// With the depth the umbra never widens nor the penumbra narrows, and the umbra has no end within
/// the depths that refusal 14 leaves.
#[test]
fn radii_over_the_depths() {
    let fine = 0..=100_000;
    let coarse = (0..=DEEPEST).step_by(9_973).chain([DEEPEST]);
    for depths in [fine.collect::<Vec<i64>>(), coarse.collect()] {
        let mut before = (6_378_000, 6_378_000);
        for depth in depths {
            let (umbra, penumbra) = (umbra_radius(depth), penumbra_radius(depth));
            assert!(0 < umbra && umbra <= before.0, "{depth}");
            assert!(before.1 <= penumbra && umbra <= penumbra, "{depth}");
            // From 213 m on there is room for a part shade.
            assert_eq!(umbra < penumbra, depth > 212, "{depth}");
            before = (umbra, penumbra);
        }
    }
}

/// The Sun's components may be longer together than one, and then side² may be below 0.
#[test]
fn the_limits_of_refusal_14() {
    let far = [-200_000_000; 3];
    assert_eq!(shade_at(far, [ONE; 3]), Ok(Shade::Dark));
    assert_eq!(shade_at(far, [-ONE; 3]), Ok(Shade::Lit));
    for at in 0..3 {
        let (mut beyond, mut long) = (far, [ONE; 3]);
        beyond[at] -= 1;
        assert_eq!(shade_at(beyond, [ONE; 3]), Err(Refusal::Component));
        long[at] += 1;
        assert_eq!(shade_at(far, long), Err(Refusal::Component));
    }
}
