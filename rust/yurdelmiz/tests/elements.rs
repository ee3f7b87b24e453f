//! Elements files: what is read, and each fault with its line and the element that was due.

mod common;

use common::OSCAR_10;
use yurdelmiz::{parse_elements, Element, Elements, Fault, Malformed};

const TEXT: &str = "\
eccentricity 6100000
semi_major_axis 26100000
inclination 305419896
node 1445972322
argument_of_perigee 478411634
mean_anomaly 1542609087
mean_motion 205890000
node_rate -1724
perigee_rate 2834
epoch_revolution 1627
epoch -138406500
half_mean_motion_derivative -35
";

fn fault(text: &str) -> (Fault, u32, Option<Element>) {
    let Malformed { fault, line, element } = parse_elements(text.as_bytes()).unwrap_err();
    (fault, line, element)
}

#[test]
fn elements_are_those_of_the_file() {
    let elements = Elements { half_mean_motion_derivative: -35, ..OSCAR_10 };
    assert_eq!(parse_elements(TEXT.as_bytes()), Ok(elements));
    let spaced = format!("# a remark\n\n{}\n# the end\n", TEXT.replace('\n', "\n\n"));
    assert_eq!(parse_elements(spaced.as_bytes()), Ok(elements));
}

/// The names are those that the reader waits for.
#[test]
fn names_are_those_of_the_file() {
    for (number, element) in Element::ALL.into_iter().enumerate() {
        let without: String = TEXT
            .lines()
            .filter(|line| !line.starts_with(&format!("{} ", element.name())))
            .map(|line| format!("{line}\n"))
            .collect();
        assert_eq!(without.lines().count(), 11);
        let last = element == Element::HalfMeanMotionDerivative;
        let expected = if last { Fault::Missing } else { Fault::Name };
        assert_eq!(fault(&without), (expected, number as u32 + 1, Some(element)));
    }
}

#[test]
fn faults() {
    let changed = |from: &str, to: &str| {
        assert!(TEXT.contains(from));
        fault(&TEXT.replace(from, to))
    };
    let axis = Some(Element::SemiMajorAxis);
    assert_eq!(changed("26100000", "26.1"), (Fault::DecimalPoint, 2, axis));
    assert_eq!(changed("26100000", "261e5"), (Fault::NotWhole, 2, axis));
    assert_eq!(changed("26100000", ""), (Fault::NotWhole, 2, axis));
    assert_eq!(changed("26100000", "4294967296"), (Fault::TooLarge, 2, axis));
    assert_eq!(changed("semi_major_axis ", "axis "), (Fault::Name, 2, axis));
    assert_eq!(changed("semi_major_axis ", "semi_major_axis\t"), (Fault::ControlByte, 2, axis));
    let last = Some(Element::HalfMeanMotionDerivative);
    assert_eq!(changed("-35", "2147483648"), (Fault::TooLarge, 12, last));
    assert_eq!(changed("-35", "-.00000035"), (Fault::DecimalPoint, 12, last));
    assert_eq!(fault(TEXT.trim_end()), (Fault::Unended, 12, last));
    assert_eq!(fault(&format!("{TEXT}epoch 0\n")), (Fault::Extra, 13, None));
    assert_eq!(fault(""), (Fault::Missing, 1, Some(Element::Eccentricity)));
    let long = format!("{TEXT}#{:65535}\n", "");
    assert_eq!(fault(&long), (Fault::TooLong, 1, Some(Element::Eccentricity)));
}

#[test]
fn a_fault_is_told_with_its_line() {
    let text = TEXT.replace("26100000", "26.1");
    let told = parse_elements(text.as_bytes()).unwrap_err().to_string();
    assert_eq!(
        told,
        "malformed line 2: semi_major_axis has a decimal point: write a whole number, in metres"
    );
}
