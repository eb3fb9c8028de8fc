//! The faults of a body, one by one.
use std::error::Error;
use std::fmt::{self, Debug, Display, Formatter};
// begin: of a schema
use std::sync::Arc;
// end: of a schema

use crate::checker::Checker;
use crate::options::Options;
use crate::problem::Problem;
use crate::raw::{self, Place};
use crate::value::{Part, Parts};

/// A fault of a body: where it is, and what is wrong there.
#[derive(Clone, Debug, PartialEq, Eq)]
pub struct Fault<'f> {
    /// The JSON Pointer (RFC 6901) of the value with the fault; of a member that is missing, where it
    /// would be.
    pub pointer: &'f str,
    /// A sentence in the language that was asked for.
    pub message: &'f str,
    /// The kind of the fault, the same in each language.
    pub code: &'f str,
    /// What the sentence says of the rule, by name, as `("min", "1")`.
    pub parameters: Vec<(&'f str, &'f str)>,
    /// Where it is in the body, if places were asked for.
    pub place: Option<Place>,
}

/// Why a body has no value. Bytes that are no JSON text have one fault, of the whole.
///
/// It owns what it says, and a copy of the body, of which `Display` makes the lines.
#[derive(Clone)]
pub struct Faults {
    pub(crate) status: u8,
    pub(crate) details: String,
    pub(crate) texts: Vec<u8>,
    pub(crate) nodes: Vec<raw::Node>,
    pub(crate) places: Vec<Place>,
    pub(crate) body: Vec<u8>,
    pub(crate) language: String,
    pub(crate) most: std::num::NonZeroUsize,
    // begin: of a schema
    pub(crate) schema: Arc<[u8]>,
    // end: of a schema
}

impl Faults {
    /// Memory ran out.
    pub(crate) fn out_of_memory() -> Faults {
        Faults::of(raw::MEMORY, String::new())
    }

    pub(crate) fn of(status: u8, details: String) -> Faults {
        Faults {
            status,
            details,
            texts: Vec::new(),
            nodes: Vec::new(),
            places: Vec::new(),
            body: Vec::new(),
            language: String::new(),
            most: std::num::NonZeroUsize::MAX,
            // begin: of a schema
            schema: Arc::default(),
            // end: of a schema
        }
    }

    /// A valid body whose value is none of the caller's type, for this reason. That is an error of the
    /// program, and no fault of the body.
    pub fn misfit(reason: String) -> Faults {
        Faults::of(raw::MISFIT, reason)
    }

    /// The status of HTTP: 422 of faults, 400 of what is no JSON text, 500 where memory ran out or the
    /// type does not fit.
    pub fn http_status(&self) -> u16 {
        match self.status {
            raw::FAULTS => 422,
            raw::NO_JSON => 400,
            _ => 500,
        }
    }

    /// The problem details (RFC 9457), of the media type `application/problem+json`. There are none of
    /// status 500.
    pub fn details(&self) -> &str {
        if self.status == raw::MISFIT {
            ""
        } else {
            &self.details
        }
    }

    /// Whether the body has more faults than were asked for.
    pub fn more(&self) -> bool {
        self.status == raw::FAULTS && self.member("detail").is_some()
    }

    /// The faults, as the form has them one after the other.
    pub fn iter(&self) -> FaultsIter<'_> {
        let errors = self.member("errors").filter(|_| self.status == raw::FAULTS);
        let left = match errors.clone().and_then(|mut parts| parts.next()) {
            Some(Part::List(count)) => count,
            _ => 0,
        };
        let mut parts = errors.unwrap_or_else(|| self.parts());
        parts.next();
        let whole = (self.status != raw::FAULTS).then(|| self.whole());
        FaultsIter {
            whole,
            parts,
            places: self.places.iter(),
            left,
        }
    }

    /// The fault of bytes that were not judged.
    fn whole(&self) -> Fault<'_> {
        let (code, message) = match self.status {
            raw::NO_JSON => (
                "no_json",
                self.member("detail").as_mut().map(text).unwrap_or_default(),
            ),
            raw::MISFIT => ("misfit", self.details.as_str()),
            _ => ("out_of_memory", "out of memory"),
        };
        Fault {
            pointer: "",
            message,
            code,
            parameters: Vec::new(),
            place: None,
        }
    }

    fn parts(&self) -> Parts<'_, '_> {
        Parts::new(&self.nodes, b"", &self.texts)
    }

    /// The parts from the value of a member of the details on. All members but the last one, `errors`,
    /// have one part.
    fn member(&self, wanted: &str) -> Option<Parts<'_, '_>> {
        let mut parts = self.parts();
        let Some(Part::Object(count)) = parts.next() else {
            return None;
        };
        for _ in 0..count {
            if text(&mut parts) == wanted {
                return Some(parts);
            }
            parts.next();
        }
        None
    }
}

/// The text that comes next.
fn text<'f>(parts: &mut Parts<'f, 'f>) -> &'f str {
    match parts.next() {
        Some(Part::Text(text)) => text.as_str(),
        _ => "",
    }
}

impl<'f> IntoIterator for &'f Faults {
    type Item = Fault<'f>;
    type IntoIter = FaultsIter<'f>;

    fn into_iter(self) -> FaultsIter<'f> {
        self.iter()
    }
}

/// The faults of a body, one by one.
#[derive(Clone, Debug)]
pub struct FaultsIter<'f> {
    whole: Option<Fault<'f>>,
    parts: Parts<'f, 'f>,
    places: std::slice::Iter<'f, Place>,
    left: usize,
}

impl<'f> FaultsIter<'f> {
    /// What is said of a fault, member by member. A member that is not known here is passed over.
    fn fault(&mut self) -> Fault<'f> {
        let mut made = Fault {
            pointer: "",
            message: "",
            code: "",
            parameters: Vec::new(),
            place: self.places.next().copied(),
        };
        let Some(Part::Object(count)) = self.parts.next() else {
            return made;
        };
        for _ in 0..count {
            match text(&mut self.parts) {
                "pointer" => made.pointer = text(&mut self.parts),
                "detail" => made.message = text(&mut self.parts),
                "code" => made.code = text(&mut self.parts),
                "params" => made.parameters = self.parameters(),
                _ => drop(self.parts.next()),
            }
        }
        made
    }

    fn parameters(&mut self) -> Vec<(&'f str, &'f str)> {
        let Some(Part::Object(count)) = self.parts.next() else {
            return Vec::new();
        };
        let parts = &mut self.parts;
        (0..count).map(|_| (text(parts), text(parts))).collect()
    }
}

impl<'f> Iterator for FaultsIter<'f> {
    type Item = Fault<'f>;

    fn next(&mut self) -> Option<Fault<'f>> {
        if self.left == 0 {
            return self.whole.take();
        }
        self.left -= 1;
        Some(self.fault())
    }
}

/// A line `path: message` for each fault, as [`Checker::list`] has them.
impl Display for Faults {
    fn fmt(&self, f: &mut Formatter<'_>) -> fmt::Result {
        let options = Options::new().most(self.most).language(&self.language);
        let mut checker = Checker::new();
        // begin: of a schema
        checker.schema = self.schema.clone();
        // end: of a schema
        match self.status {
            raw::FAULTS | raw::NO_JSON => match checker.list_with(&self.body, options) {
                Err(Problem::Faults(lines) | Problem::NoJson(lines)) => f.write_str(&lines),
                _ => Err(fmt::Error),
            },
            _ => f.write_str(self.whole().message),
        }
    }
}

impl Debug for Faults {
    fn fmt(&self, f: &mut Formatter<'_>) -> fmt::Result {
        f.debug_list().entries(self).finish()
    }
}

impl Error for Faults {}
