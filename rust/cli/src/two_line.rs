//! Two-line elements, with the axis and the rates that they do not have. They are read by the proved reader alone:
//! here are the lines of a file, the options beside them, and what is said where they are refused.

mod beside;
mod layout;
mod lines;
mod refused;
mod set;

pub use beside::{AxisAndRates, AXIS_FLAG, NAMES as OPTIONS, NODE_RATE_FLAG, PERIGEE_RATE_FLAG};
pub use lines::looks_like_two_lines;
pub use set::TwoLineSet;
