//! Reads a type of serde from the parts of a value.
use std::error::Error;
use std::fmt::{self, Display, Formatter};

use order_check::{Part, Parts, Text};
use serde::de::value::StrDeserializer;
use serde::de::{
    self, DeserializeSeed, Deserializer, EnumAccess, IntoDeserializer, MapAccess, SeqAccess,
    VariantAccess, Visitor,
};
use serde::forward_to_deserialize_any;

/// Why a value is none of a type.
#[derive(Clone, Debug, PartialEq, Eq)]
pub struct Misfit(String);

impl Display for Misfit {
    fn fmt(&self, f: &mut Formatter<'_>) -> fmt::Result {
        f.write_str(&self.0)
    }
}

impl Error for Misfit {}

impl de::Error for Misfit {
    fn custom<T: Display>(message: T) -> Misfit {
        Misfit(message.to_string())
    }
}

pub(crate) struct Reader<'b, 'r>(Parts<'b, 'r>);

impl<'b, 'r> Reader<'b, 'r> {
    pub(crate) fn new(parts: Parts<'b, 'r>) -> Self {
        Reader(parts)
    }

    #[inline]
    fn next(&mut self) -> Result<Part<'b, 'r>, Misfit> {
        self.0
            .next()
            .ok_or_else(|| Misfit("a value has too few parts".to_owned()))
    }

    fn text(&mut self) -> Result<Text<'b, 'r>, Misfit> {
        match self.next()? {
            Part::Text(text) => Ok(text),
            other => Err(Misfit(format!("invalid type: {other:?}, expected a text"))),
        }
    }
}

fn visit_text<'b, V: Visitor<'b>>(text: Text<'b, '_>, visitor: V) -> Result<V::Value, Misfit> {
    match text {
        Text::Lent(text) => visitor.visit_borrowed_str(text),
        Text::Kept(text) => visitor.visit_str(text),
    }
}

/// A number that is no whole one of 64 bits.
fn visit_number<'b, V: Visitor<'b>>(text: &str, visitor: V) -> Result<V::Value, Misfit> {
    match text.parse::<f64>() {
        Ok(number) => visitor.visit_f64(number),
        Err(_) => Err(Misfit(format!("invalid number: {text}"))),
    }
}

impl<'b> Deserializer<'b> for &mut Reader<'b, '_> {
    type Error = Misfit;

    fn deserialize_any<V: Visitor<'b>>(self, visitor: V) -> Result<V::Value, Misfit> {
        match self.next()? {
            Part::Null => visitor.visit_unit(),
            Part::Bool(flag) => visitor.visit_bool(flag),
            Part::Whole(number) => visitor.visit_u64(number),
            Part::Negative(number) => visitor.visit_i64(number),
            Part::Number(text) => visit_number(text.as_str(), visitor),
            Part::Text(text) => visit_text(text, visitor),
            Part::List(left) => visitor.visit_seq(Counted { reader: self, left }),
            Part::Object(left) => visitor.visit_map(Counted { reader: self, left }),
        }
    }

    fn deserialize_option<V: Visitor<'b>>(self, visitor: V) -> Result<V::Value, Misfit> {
        if self.0.peek() != Some(Part::Null) {
            return visitor.visit_some(self);
        }
        self.next()?;
        visitor.visit_none()
    }

    fn deserialize_newtype_struct<V: Visitor<'b>>(
        self,
        _: &'static str,
        visitor: V,
    ) -> Result<V::Value, Misfit> {
        visitor.visit_newtype_struct(self)
    }

    fn deserialize_enum<V: Visitor<'b>>(
        self,
        _: &'static str,
        _: &'static [&'static str],
        visitor: V,
    ) -> Result<V::Value, Misfit> {
        if self.0.peek() == Some(Part::Object(1)) {
            self.next()?;
            return visitor.visit_enum(Counted {
                reader: self,
                left: 1,
            });
        }
        let name: StrDeserializer<'_, Misfit> = self.text()?.as_str().into_deserializer();
        visitor.visit_enum(name)
    }

    forward_to_deserialize_any! {
        <V: Visitor<'b>>
        bool i8 i16 i32 i64 i128 u8 u16 u32 u64 u128 f32 f64 char str string bytes byte_buf unit unit_struct
        seq tuple tuple_struct map struct identifier ignored_any
    }
}

/// The items of a list, or the members of an object, so many of which are left.
struct Counted<'a, 'b, 'r> {
    reader: &'a mut Reader<'b, 'r>,
    left: usize,
}

impl<'b> SeqAccess<'b> for Counted<'_, 'b, '_> {
    type Error = Misfit;

    fn next_element_seed<T: DeserializeSeed<'b>>(
        &mut self,
        seed: T,
    ) -> Result<Option<T::Value>, Misfit> {
        if self.left == 0 {
            return Ok(None);
        }
        self.left -= 1;
        seed.deserialize(&mut *self.reader).map(Some)
    }

    fn size_hint(&self) -> Option<usize> {
        Some(self.left)
    }
}

impl<'b> MapAccess<'b> for Counted<'_, 'b, '_> {
    type Error = Misfit;

    fn next_key_seed<K: DeserializeSeed<'b>>(
        &mut self,
        seed: K,
    ) -> Result<Option<K::Value>, Misfit> {
        self.next_element_seed(seed)
    }

    fn next_value_seed<V: DeserializeSeed<'b>>(&mut self, seed: V) -> Result<V::Value, Misfit> {
        seed.deserialize(&mut *self.reader)
    }

    fn size_hint(&self) -> Option<usize> {
        Some(self.left)
    }
}

/// An enum of one member: the name of the variant, and what it holds.
impl<'a, 'b, 'r> EnumAccess<'b> for Counted<'a, 'b, 'r> {
    type Error = Misfit;
    type Variant = Self;

    fn variant_seed<V: DeserializeSeed<'b>>(self, seed: V) -> Result<(V::Value, Self), Misfit> {
        Ok((seed.deserialize(&mut *self.reader)?, self))
    }
}

impl<'b> VariantAccess<'b> for Counted<'_, 'b, '_> {
    type Error = Misfit;

    fn unit_variant(self) -> Result<(), Misfit> {
        serde::Deserialize::deserialize(self.reader)
    }

    fn newtype_variant_seed<T: DeserializeSeed<'b>>(self, seed: T) -> Result<T::Value, Misfit> {
        seed.deserialize(self.reader)
    }

    fn tuple_variant<V: Visitor<'b>>(self, _: usize, visitor: V) -> Result<V::Value, Misfit> {
        self.reader.deserialize_any(visitor)
    }

    fn struct_variant<V: Visitor<'b>>(
        self,
        _: &'static [&'static str],
        visitor: V,
    ) -> Result<V::Value, Misfit> {
        self.reader.deserialize_any(visitor)
    }
}
