//! What each column of a field may hold, by which a message says what is wrong with one. Whether it is refused is
//! the proved reader's question.

use yurdelmiz::TwoLineField;

/// How a field is laid out.
#[derive(Clone, Copy, Debug, PartialEq, Eq)]
pub enum Layout {
    Number,
    Year,
    Day,
    Derivative,
    Angle,
    Eccentricity,
    MeanMotion,
}

impl Layout {
    pub fn of(field: &TwoLineField) -> Layout {
        match (field.line, field.first) {
            (1 | 2, 3) | (2, 64) => Layout::Number,
            (1, 19) => Layout::Year,
            (1, 21) => Layout::Day,
            (1, 34) => Layout::Derivative,
            (2, 9 | 18 | 35 | 44) => Layout::Angle,
            (2, 27) => Layout::Eccentricity,
            (2, 53) => Layout::MeanMotion,
            (line, first) => unreachable!("no field of line {line} begins in column {first}"),
        }
    }

    /// A mark a column: `_` a digit or a leading blank, `0` a digit, `.` the point, `+` the sign.
    fn picture(self) -> &'static [u8] {
        match self {
            Layout::Number => b"_____",
            Layout::Year => b"00",
            Layout::Day => b"000.00000000",
            Layout::Derivative => b"+.00000000",
            Layout::Angle => b"___.0000",
            Layout::Eccentricity => b"0000000",
            Layout::MeanMotion => b"__.00000000",
        }
    }

    /// The same in words, and in which range.
    pub fn words(self) -> &'static str {
        match self {
            Layout::Number => "five digits, leading blanks allowed",
            Layout::Year => "the last two digits of the year",
            Layout::Day => "three digits ahead of the point and eight behind it, none of them blank",
            Layout::Derivative => "a blank, plus or minus, the point, and eight digits",
            Layout::Angle => {
                "three columns ahead of the point, leading blanks allowed, and four digits behind it, in degrees \
                 below 360"
            }
            Layout::Eccentricity => "seven digits, the point ahead of them implied",
            Layout::MeanMotion => {
                "two columns ahead of the point, leading blanks allowed, and eight digits behind it"
            }
        }
    }

    /// The first column of a text, from 0, that does not hold what is due there, and what that is.
    pub fn misfit(self, text: &[u8]) -> Option<(usize, &'static str)> {
        let mut leading = true;
        for (at, (mark, byte)) in self.picture().iter().zip(text).enumerate() {
            let (fits, due) = match mark {
                b'_' if leading => {
                    (*byte == b' ' || byte.is_ascii_digit(), "a digit or a leading blank")
                }
                b'.' => (*byte == b'.', "the point"),
                b'+' => (matches!(byte, b' ' | b'+' | b'-'), "a blank, plus or minus"),
                _ => (byte.is_ascii_digit(), "a digit"),
            };
            if !fits {
                return Some((at, due));
            }
            leading = *byte == b' ';
        }
        None
    }

    /// Where the point stands, counted from 0.
    pub fn point(self) -> Option<usize> {
        self.picture().iter().position(|mark| *mark == b'.')
    }
}

#[cfg(test)]
mod tests {
    use super::*;

    #[test]
    fn a_mark_for_each_column() {
        for field in TwoLineField::ALL {
            let columns = field.last + 1 - field.first;
            assert_eq!(Layout::of(&field).picture().len(), columns, "{}", field.name);
        }
    }
}
