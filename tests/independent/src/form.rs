//! Refusal 2: the written form, read by recursive descent.
//!
//! Every step of the cursor either takes a byte that some text of the form can
//! have there or fails at it, so the place of the first failure is the first
//! impossible byte, or the length when the bytes ran out.

pub const DECLARATION: &[u8] = br#"<?xml version="1.0" encoding="UTF-8"?>"#;
pub const ROOT_TAG: &[u8] = br#"<Document xmlns="urn:iso:std:iso:20022:tech:xsd:pain.001.001.09">"#;

const ROOT_NAME: &[u8] = b"Document";
const AMOUNT_NAME: &[u8] = b"InstdAmt";
const LONGEST_NAME: usize = 32;
const DEEPEST: usize = 12;

/// A part of the message: where it starts and how long it is.
#[derive(Clone, Copy, Debug, Default, PartialEq, Eq)]
pub struct Part {
    pub start: usize,
    pub len: usize,
}

impl Part {
    pub const EMPTY: Part = Part { start: 0, len: 0 };

    pub fn between(start: usize, end: usize) -> Part {
        Part { start, len: end.saturating_sub(start) }
    }

    pub fn end(self) -> usize {
        self.start + self.len
    }

    pub fn of(self, message: &[u8]) -> &[u8] {
        message.get(self.start..self.end()).unwrap_or(&[])
    }
}

#[derive(Clone, Debug, PartialEq, Eq)]
pub struct Element {
    /// Where its start tag's `<` stands.
    pub offset: usize,
    pub name: Part,
    /// The three capitals of `Ccy`, on `InstdAmt` alone.
    pub currency: Option<Part>,
    /// All bytes between its tags; the end tag's `<` stands at its end.
    pub content: Part,
    pub children: Vec<Element>,
}

#[derive(Clone, Debug, PartialEq, Eq)]
pub struct Tree {
    pub root: Element,
}

/// The tree of a message of the form, or the offset of its refusal 2.
pub fn form(message: &[u8]) -> Result<Tree, usize> {
    let mut cursor = Cursor { message, at: 0 };
    cursor.declaration()?;
    cursor.white_space();
    let root = cursor.root()?;
    cursor.white_space();
    cursor.end()?;
    Ok(Tree { root })
}

pub fn is_white(byte: u8) -> bool {
    matches!(byte, b' ' | b'\t' | b'\n' | b'\r')
}

fn is_text(byte: u8) -> bool {
    (byte >= 32 || is_white(byte)) && byte != b'<' && byte != b'&'
}

struct Cursor<'m> {
    message: &'m [u8],
    at: usize,
}

impl Cursor<'_> {
    fn sees(&self, ahead: usize, wanted: impl Fn(u8) -> bool) -> bool {
        self.message.get(self.at + ahead).is_some_and(|byte| wanted(*byte))
    }

    fn take(&mut self, wanted: impl Fn(u8) -> bool) -> Result<(), usize> {
        if !self.sees(0, wanted) {
            return Err(self.at);
        }
        self.at += 1;
        Ok(())
    }

    fn take_all(&mut self, bytes: &[u8]) -> Result<(), usize> {
        bytes.iter().try_for_each(|byte| self.take(|seen| seen == *byte))
    }

    fn skip(&mut self, wanted: impl Fn(u8) -> bool) {
        while self.sees(0, &wanted) {
            self.at += 1;
        }
    }

    fn white_space(&mut self) {
        self.skip(is_white);
    }

    fn end(&self) -> Result<(), usize> {
        if self.at == self.message.len() {
            Ok(())
        } else {
            Err(self.at)
        }
    }

    /// Only here, at offset 0, may `?` follow a `<`.
    fn declaration(&mut self) -> Result<(), usize> {
        if self.message.starts_with(b"<?") {
            self.take_all(DECLARATION)?;
        }
        Ok(())
    }

    fn root(&mut self) -> Result<Element, usize> {
        let offset = self.at;
        self.take_all(ROOT_TAG)?;
        let name = Part { start: offset + 1, len: ROOT_NAME.len() };
        self.content_and_end_tag(offset, name, None, 1)
    }

    fn element(&mut self, depth: usize) -> Result<Element, usize> {
        let offset = self.at;
        self.take_all(b"<")?;
        let name = self.name()?;
        let currency = self.currency(name)?;
        self.take_all(b">")?;
        self.content_and_end_tag(offset, name, currency, depth)
    }

    fn name(&mut self) -> Result<Part, usize> {
        let start = self.at;
        self.take(|byte| byte.is_ascii_alphabetic())?;
        while self.at < start + LONGEST_NAME && self.sees(0, |byte| byte.is_ascii_alphanumeric()) {
            self.at += 1;
        }
        Ok(Part::between(start, self.at))
    }

    fn currency(&mut self, name: Part) -> Result<Option<Part>, usize> {
        if name.of(self.message) != AMOUNT_NAME {
            return Ok(None);
        }
        self.take_all(b" Ccy=\"")?;
        let start = self.at;
        for _ in 0..3 {
            self.take(|byte| byte.is_ascii_uppercase())?;
        }
        self.take_all(b"\"")?;
        Ok(Some(Part { start, len: 3 }))
    }

    fn content_and_end_tag(
        &mut self,
        offset: usize,
        name: Part,
        currency: Option<Part>,
        depth: usize,
    ) -> Result<Element, usize> {
        let start = self.at;
        let children = self.content(depth)?;
        let content = Part::between(start, self.at);
        self.end_tag(name)?;
        Ok(Element { offset, name, currency, content, children })
    }

    /// What cannot stand here is left for the end tag to fail at.
    fn content(&mut self, depth: usize) -> Result<Vec<Element>, usize> {
        self.white_space();
        if depth < DEEPEST && self.sees_start_tag() {
            return self.children(depth + 1);
        }
        self.skip(is_text);
        Ok(Vec::new())
    }

    fn children(&mut self, depth: usize) -> Result<Vec<Element>, usize> {
        let mut children = Vec::new();
        while self.sees_start_tag() {
            children.push(self.element(depth)?);
            self.white_space();
        }
        Ok(children)
    }

    fn sees_start_tag(&self) -> bool {
        self.sees(0, |byte| byte == b'<') && self.sees(1, |byte| byte.is_ascii_alphabetic())
    }

    fn end_tag(&mut self, name: Part) -> Result<(), usize> {
        self.take_all(b"</")?;
        self.take_all(name.of(self.message))?;
        self.take_all(b">")
    }
}
