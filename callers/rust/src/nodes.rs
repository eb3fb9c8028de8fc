//! The calls of the library that hand over nodes.
use crate::checker::{Checker, grow, text_of};
use crate::faults::Faults;
use crate::options::Options;
use crate::problem::OutOfMemory;
use crate::raw;
use crate::value::Parts;

impl Checker {
    /// The value of a valid body, or its faults in English.
    pub fn value<'b>(&mut self, body: &'b [u8]) -> Result<Parts<'b, '_>, Faults> {
        self.value_with(body, Options::new())
    }

    /// The value of a valid body, or the faults that the options ask for. The value is that which was
    /// judged. It lies in the body and in the room of this checker.
    pub fn value_with<'b>(
        &mut self,
        body: &'b [u8],
        options: Options,
    ) -> Result<Parts<'b, '_>, Faults> {
        let mut texts = std::mem::take(&mut self.texts);
        let found = self.read(body, &mut texts);
        self.texts = texts;
        match found.map_err(|_| Faults::out_of_memory())? {
            Some((nodes, texts)) => {
                Ok(Parts::new(&self.nodes[..nodes], body, &self.texts[..texts]))
            }
            None => Err(self.faults(body, options)),
        }
    }

    /// Does what `value_with` does, with the texts that the body has with an escape in a room of the
    /// caller's: they can be kept for as long as the body.
    pub fn value_in<'b>(
        &mut self,
        body: &'b [u8],
        options: Options,
        texts: &'b mut Vec<u8>,
    ) -> Result<Parts<'b, '_>, Faults> {
        match self
            .read(body, texts)
            .map_err(|_| Faults::out_of_memory())?
        {
            Some((nodes, used)) => Ok(Parts::lent(&self.nodes[..nodes], body, &texts[..used])),
            None => Err(self.faults(body, options)),
        }
    }

    /// How many nodes and bytes of texts the value of a body has, which are in the rooms, or `None` where
    /// it is not valid.
    fn read(
        &mut self,
        body: &[u8],
        texts: &mut Vec<u8>,
    ) -> Result<Option<(usize, usize)>, OutOfMemory> {
        // A value has a node for every two bytes at most, but most often for every four.
        let (mut wanted, mut kept) = (body.len() / 4 + 8, 0);
        loop {
            grow(&mut self.nodes, wanted, raw::Node::NULL)?;
            grow(texts, kept, 0)?;
            match self.call_value(body, texts, &mut wanted, &mut kept) {
                raw::VALID if wanted > self.nodes.len() || kept > texts.len() => {}
                raw::VALID => return Ok(Some((wanted, kept))),
                raw::MEMORY => return Err(OutOfMemory),
                _ => return Ok(None),
            }
        }
    }

    fn call_value(
        &mut self,
        body: &[u8],
        texts: &mut [u8],
        nodes_used: &mut usize,
        texts_used: &mut usize,
    ) -> u8 {
        // SAFETY: 1: each pointer comes from a slice, with the length of that slice, or from a
        // reference; none is NULL. 2: what is written is behind five different `&mut`, and what is
        // read behind `&`. 3: `raw` began as EMPTY, is private and is never copied, and `&mut self`
        // is held by one thread. 4: see the head of checker.rs.
        unsafe {
            raw::order_value_with(
                &mut self.raw,
                // begin: of a schema
                self.schema.as_ptr(),
                self.schema.len(),
                // end: of a schema
                body.as_ptr(),
                body.len(),
                self.nodes.as_mut_ptr(),
                self.nodes.len(),
                nodes_used,
                texts.as_mut_ptr(),
                texts.len(),
                texts_used,
            )
        }
    }

    /// The faults of a body that has some.
    fn faults(&mut self, body: &[u8], options: Options) -> Faults {
        self.try_faults(body, options)
            .unwrap_or_else(|_| Faults::out_of_memory())
    }

    fn try_faults(&mut self, body: &[u8], options: Options) -> Result<Faults, OutOfMemory> {
        let mut used = Used::FIRST;
        let status = loop {
            grow(&mut self.details, used.details, 0)?;
            grow(&mut self.nodes, used.nodes, raw::Node::NULL)?;
            grow(&mut self.texts, used.texts, 0)?;
            grow(&mut self.places, used.places, raw::Place::NONE)?;
            let status = self.call_faults(body, options, &mut used);
            if self.holds(&used) {
                break status;
            }
        };
        if status == raw::MEMORY {
            return Err(OutOfMemory);
        }
        let mut found = Faults::of(status, text_of(&self.details[..used.details])?);
        found.nodes = self.nodes[..used.nodes].to_vec();
        found.texts = self.texts[..used.texts].to_vec();
        found.places = self.places[..used.places].to_vec();
        found.body = body.to_vec();
        found.language = options.language.to_owned();
        found.most = options.most;
        // begin: of a schema
        found.schema = self.schema.clone();
        // end: of a schema
        Ok(found)
    }

    fn holds(&self, used: &Used) -> bool {
        used.details <= self.details.len()
            && used.nodes <= self.nodes.len()
            && used.texts <= self.texts.len()
            && used.places <= self.places.len()
    }

    fn call_faults(&mut self, body: &[u8], options: Options, used: &mut Used) -> u8 {
        let language = options.language.as_bytes();
        let places = if options.places {
            self.places.len()
        } else {
            0
        };
        // SAFETY: as of `call_value`, with nine different `&mut`.
        unsafe {
            raw::order_faults_with(
                &mut self.raw,
                // begin: of a schema
                self.schema.as_ptr(),
                self.schema.len(),
                // end: of a schema
                body.as_ptr(),
                body.len(),
                options.most.get(),
                language.as_ptr(),
                language.len(),
                self.details.as_mut_ptr(),
                self.details.len(),
                &mut used.details,
                self.nodes.as_mut_ptr(),
                self.nodes.len(),
                &mut used.nodes,
                self.texts.as_mut_ptr(),
                self.texts.len(),
                &mut used.texts,
                self.places.as_mut_ptr(),
                places,
                &mut used.places,
            )
        }
    }
}

/// How much of each thing the faults of a body have.
struct Used {
    details: usize,
    nodes: usize,
    texts: usize,
    places: usize,
}

impl Used {
    /// What there is room for at first.
    const FIRST: Used = Used {
        details: 4096,
        nodes: 512,
        texts: 4096,
        places: 64,
    };
}
