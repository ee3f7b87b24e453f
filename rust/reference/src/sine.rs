//! Angles and the sine S ("The sheet sine").

/// An angle, of which 2^32 make a turn; sums wrap.
pub type Angle = u32;

/// The unit of sines, cosines and direction components.
pub const ONE: i64 = 1 << 30;

pub const QUARTER_TURN: u32 = 1 << 30;
pub const HALF_TURN: u32 = 1 << 31;

/// The angle of `d` ten-thousandths of a degree.
pub const fn angle(d: u64) -> Angle {
    (((d as u128) << 32) / 3_600_000) as u32
}

/// s(r) for r from 0 to a quarter turn.
fn first_quarter(r: u64) -> i64 {
    const ONE: u64 = 1 << 30;
    let x = r * 1_686_629_713 / ONE;
    let z = x * x / ONE;
    let mut v = ONE;
    for divisor in [210, 156, 110, 72, 42, 20, 6] {
        v = ONE - z * v / ONE / divisor;
    }
    (x * v / ONE).min(ONE) as i64
}

/// S, in units of 2^-30.
pub fn sine(angle: Angle) -> i64 {
    let rest = u64::from(angle % QUARTER_TURN);
    let mirrored = u64::from(QUARTER_TURN) - rest;
    match angle / QUARTER_TURN {
        0 => first_quarter(rest),
        1 => first_quarter(mirrored),
        2 => -first_quarter(rest),
        _ => -first_quarter(mirrored),
    }
}

/// C, in units of 2^-30.
pub fn cosine(angle: Angle) -> i64 {
    sine(angle.wrapping_add(QUARTER_TURN))
}
