//! The value of a valid body, as the library hands it over.
use crate::raw;

/// A text of a value: it lies in the body, or in the room of the checker, where the body has it with
/// an escape. It can be kept for as long as what it lies in.
#[derive(Clone, Copy, Debug, PartialEq, Eq)]
pub enum Text<'b, 'r> {
    /// In the body.
    Lent(&'b str),
    /// In the room.
    Kept(&'r str),
}

impl<'r> Text<'_, 'r> {
    /// The text, for as long as the room.
    #[inline]
    pub fn as_str(self) -> &'r str
    where
        Self: 'r,
    {
        match self {
            Text::Lent(text) => text,
            Text::Kept(text) => text,
        }
    }
}

/// A part of a value. The parts of a list or an object come right behind it.
#[derive(Clone, Copy, Debug, PartialEq)]
pub enum Part<'b, 'r> {
    /// `null`.
    Null,
    /// `true` or `false`.
    Bool(bool),
    /// A whole number of at most 64 bits and no sign.
    Whole(u64),
    /// A whole number below zero, of at most 64 bits with its sign.
    Negative(i64),
    /// Any other number, as it is written.
    Number(Text<'b, 'r>),
    /// A text, or the name of a member.
    Text(Text<'b, 'r>),
    /// A list of so many items.
    List(usize),
    /// An object of so many members, each a name and a value.
    Object(usize),
}

/// The parts of a value, one after the other as its text has them.
#[derive(Clone, Debug)]
pub struct Parts<'b, 'r> {
    nodes: std::slice::Iter<'r, raw::Node>,
    body: &'b str,
    texts: Text<'b, 'r>,
}

impl<'b, 'r> Parts<'b, 'r> {
    /// Both are UTF-8, which the library has found.
    pub(crate) fn new(nodes: &'r [raw::Node], body: &'b [u8], texts: &'r [u8]) -> Self {
        Parts {
            nodes: nodes.iter(),
            body: std::str::from_utf8(body).expect("a valid body is UTF-8"),
            texts: Text::Kept(std::str::from_utf8(texts).expect("the library writes UTF-8")),
        }
    }

    #[inline]
    fn text(&self, node: &raw::Node) -> Text<'b, 'r> {
        let at = node.value as usize;
        let range = at..at + node.len as usize;
        match self.texts {
            _ if !node.in_texts => Text::Lent(&self.body[range]),
            Text::Lent(texts) => Text::Lent(&texts[range]),
            Text::Kept(texts) => Text::Kept(&texts[range]),
        }
    }

    /// The next part, which stays the next one.
    #[inline]
    pub fn peek(&self) -> Option<Part<'b, 'r>> {
        self.clone().next()
    }
}

impl<'b> Parts<'b, 'b> {
    /// The same, where the texts lie in a room that lives as long as the body.
    pub(crate) fn lent<'r>(
        nodes: &'r [raw::Node],
        body: &'b [u8],
        texts: &'b [u8],
    ) -> Parts<'b, 'r> {
        let texts = std::str::from_utf8(texts).expect("the library writes UTF-8");
        Parts {
            texts: Text::Lent(texts),
            ..Parts::new(nodes, body, &[])
        }
    }
}

impl<'b, 'r> Iterator for Parts<'b, 'r> {
    type Item = Part<'b, 'r>;

    #[inline]
    fn next(&mut self) -> Option<Part<'b, 'r>> {
        let node = self.nodes.next()?;
        Some(match node.kind {
            raw::NULL => Part::Null,
            raw::FALSE => Part::Bool(false),
            raw::TRUE => Part::Bool(true),
            raw::WHOLE => Part::Whole(node.value),
            raw::NEGATIVE => Part::Negative((node.value as i64).wrapping_neg()),
            raw::NUMBER => Part::Number(self.text(node)),
            raw::TEXT => Part::Text(self.text(node)),
            raw::LIST => Part::List(node.value as usize),
            raw::OBJECT => Part::Object(node.value as usize),
            other => unreachable!("the library has no kind {other}"),
        })
    }
}
