//! Elements as they were written, by which a message sends a person to the one to be mended.

use yurdelmiz::Element;

/// Elements in an elements file, in two lines with options beside them, or in a row of a table.
pub trait Written {
    /// Where they stand, one or several.
    fn place(&self, elements: &[Element]) -> String;

    /// What stands there.
    fn text(&self, element: Element) -> String;

    /// The number of an elements file for it; none where it is written in another unit.
    fn number(&self, element: Element) -> Option<i64>;

    /// What it stands for, in decimals.
    fn value(&self, element: Element) -> String;

    /// What its digits count.
    fn unit(&self, element: Element) -> &'static str;
}
