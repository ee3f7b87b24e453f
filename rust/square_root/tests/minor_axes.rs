//! Every number that position takes the root of.

use square_root::square_root;

/// 2^60 − e30², for each accepted eccentricity.
#[test]
fn minor_axis_of_every_eccentricity() {
    for eccentricity in 0..=9_000_000_u64 {
        let e30 = (eccentricity << 30) / 10_000_000;
        let n = (1 << 60) - e30 * e30;
        assert_eq!(square_root(n), n.isqrt(), "eccentricity {eccentricity}");
    }
}
