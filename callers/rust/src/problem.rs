//! Why a body is not valid.
use std::error::Error;
use std::fmt::{self, Display, Formatter};

/// Why a body is not valid. A text is the problem details (RFC 9457) of the media type
/// `application/problem+json`, or the lines of [`Checker::list`](crate::Checker::list).
#[derive(Clone, Debug, PartialEq, Eq)]
pub enum Problem {
    /// There are faults of form or of the rules. The member `errors` has them, each with `pointer`,
    /// `detail`, `code` and `params`. Where there are more than were asked for, the member `detail`
    /// is "there are more".
    Faults(String),
    /// The bytes are no JSON text. The member `detail` has the reason with line and column.
    NoJson(String),
    /// Memory ran out.
    OutOfMemory,
}

impl Problem {
    /// The status of HTTP: 422 of faults, 400 of what is no JSON text, 500 where memory ran out.
    pub fn http_status(&self) -> u16 {
        match self {
            Problem::Faults(_) => 422,
            Problem::NoJson(_) => 400,
            Problem::OutOfMemory => 500,
        }
    }

    /// The problem details, or the lines, which are empty where memory ran out.
    pub fn details(&self) -> &str {
        match self {
            Problem::Faults(details) | Problem::NoJson(details) => details,
            Problem::OutOfMemory => "",
        }
    }
}

impl Display for Problem {
    fn fmt(&self, f: &mut Formatter<'_>) -> fmt::Result {
        match self {
            Problem::Faults(details) => write!(f, "the body has faults: {details}"),
            Problem::NoJson(details) => write!(f, "the body is no JSON text: {details}"),
            Problem::OutOfMemory => OutOfMemory.fmt(f),
        }
    }
}

impl Error for Problem {}

/// Memory ran out.
#[derive(Clone, Copy, Debug, PartialEq, Eq)]
pub struct OutOfMemory;

impl Display for OutOfMemory {
    fn fmt(&self, f: &mut Formatter<'_>) -> fmt::Result {
        f.write_str("out of memory")
    }
}

impl Error for OutOfMemory {}

impl From<OutOfMemory> for Problem {
    fn from(_: OutOfMemory) -> Problem {
        Problem::OutOfMemory
    }
}
