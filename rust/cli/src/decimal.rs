//! Numbers in decimals.

/// A whole number with a comma at each thousand.
pub fn grouped(number: impl Into<i128>) -> String {
    let number = number.into();
    let digits = number.unsigned_abs().to_string();
    let mut text = String::new();
    for (at, digit) in digits.chars().enumerate() {
        if at > 0 && (digits.len() - at) % 3 == 0 {
            text.push(',');
        }
        text.push(digit);
    }
    if number < 0 {
        text.insert(0, '-');
    }
    text
}

/// A number of units of 10^-`places`.
pub fn fixed(number: i64, places: u32) -> String {
    let sign = if number < 0 { "-" } else { "" };
    let (size, unit) = (number.unsigned_abs(), 10u64.pow(places));
    format!("{sign}{}.{:0width$}", size / unit, size % unit, width = places as usize)
}

/// An angle of 2^-32 turn in degrees, rounded to ten-thousandths.
pub fn degrees(angle: u32) -> String {
    fixed(((u64::from(angle) * 3_600_000 + (1 << 31)) >> 32) as i64, 4)
}

/// The shortest decimal that reads back as the same bits. A zero below zero keeps its sign where a reader
/// takes a number without a point for a whole one.
pub fn shortest(number: f32) -> String {
    if number == 0.0 {
        return if number.is_sign_negative() { "-0.0" } else { "0" }.to_owned();
    }
    shorter(format!("{number}"), format!("{number:e}"))
}

/// The same of a binary64 that is not below zero.
pub fn shortest_64(number: f64) -> String {
    shorter(format!("{number}"), format!("{number:e}"))
}

/// A number with a power of ten where that is shorter.
fn shorter(plain: String, power: String) -> String {
    if power.len() < plain.len() {
        power
    } else {
        plain
    }
}

#[cfg(test)]
mod tests {
    use super::*;

    #[test]
    fn grouping() {
        for (number, text) in [(0, "0"), (999, "999"), (1_000, "1,000"), (-1_234_567, "-1,234,567")]
        {
            assert_eq!(grouped(number), text);
        }
    }

    #[test]
    fn fixed_places() {
        assert_eq!(fixed(6_100_000, 7), "0.6100000");
        assert_eq!(fixed(-1_724, 4), "-0.1724");
        assert_eq!(fixed(i64::from(i32::MIN), 4), "-214748.3648");
        assert_eq!(degrees(305_419_896), "25.6000");
        assert_eq!(degrees(u32::MAX), "360.0000");
    }

    #[test]
    fn shortest_reads_back() {
        for (number, text) in [
            (10.0, "10"),
            (0.1, "0.1"),
            (-0.0, "-0.0"),
            (0.0, "0"),
            (1e30, "1e30"),
            (f32::MAX, "3.4028235e38"),
            (f32::from_bits(1), "1e-45"),
            (16_777_216.0, "16777216"),
            (5.7645993, "5.7645993"),
        ] {
            assert_eq!(shortest(number), text);
        }
        let mut bits: u32 = 12_345;
        for _ in 0..200_000 {
            bits = bits.wrapping_mul(1_664_525).wrapping_add(1_013_904_223);
            let number = f32::from_bits(bits);
            if number.is_finite() {
                assert_eq!(shortest(number).parse::<f32>().unwrap().to_bits(), bits);
            }
        }
    }
}
