//! Elements still to be written, and how they are laid out.

use super::random::Random;
use crate::form::{DECLARATION, ROOT_TAG};

/// An element holding its children, or its text where it has none.
#[derive(Clone, Debug)]
pub struct Draft {
    pub name: String,
    /// Between the name and `>` of the start tag.
    pub attribute: String,
    pub text: Vec<u8>,
    pub children: Vec<Draft>,
}

impl Draft {
    pub fn leaf(name: &str, text: &str) -> Self {
        Draft {
            name: name.to_string(),
            attribute: String::new(),
            text: text.as_bytes().to_vec(),
            children: Vec::new(),
        }
    }

    pub fn group(name: &str, children: Vec<Draft>) -> Self {
        Draft { children, ..Draft::leaf(name, "") }
    }

    /// One element inside the other, the last one a leaf.
    pub fn nested(names: &[&str], text: &str) -> Self {
        match names {
            [] => Draft::leaf("Nm", text),
            [name] => Draft::leaf(name, text),
            [name, inner @ ..] => Draft::group(name, vec![Draft::nested(inner, text)]),
        }
    }

    pub fn amount(currency: &str, text: &str) -> Self {
        Draft { attribute: format!(" Ccy=\"{currency}\""), ..Draft::leaf("InstdAmt", text) }
    }

    pub fn is_leaf(&self) -> bool {
        self.children.is_empty()
    }

    pub fn child(&mut self, name: &str) -> Option<&mut Draft> {
        self.children.iter_mut().find(|child| child.name == name)
    }

    pub fn remove(&mut self, name: &str) {
        self.children.retain(|child| child.name != name);
    }

    /// Puts a child before the first of those named.
    pub fn put_before(&mut self, names: &[&str], child: Draft) {
        let found = self.children.iter().position(|sibling| names.contains(&&*sibling.name));
        self.children.insert(found.unwrap_or(self.children.len()), child);
    }

    /// One of the elements that are wanted; every name among them is as likely.
    pub fn any(&mut self, random: &mut Random, wanted: fn(&Draft) -> bool) -> Option<&mut Draft> {
        let mut names = Vec::new();
        self.names(wanted, &mut names);
        let mut different = names.clone();
        different.sort_unstable();
        different.dedup();
        if different.is_empty() {
            return None;
        }
        let name = random.pick(&different).clone();
        let mut left = random.below(names.iter().filter(|other| **other == name).count());
        self.nth(&mut left, &|element| wanted(element) && element.name == name)
    }

    fn names(&self, wanted: fn(&Draft) -> bool, names: &mut Vec<String>) {
        if wanted(self) {
            names.push(self.name.clone());
        }
        self.children.iter().for_each(|child| child.names(wanted, names));
    }

    fn nth(&mut self, left: &mut usize, wanted: &dyn Fn(&Draft) -> bool) -> Option<&mut Draft> {
        if wanted(self) {
            if *left == 0 {
                return Some(self);
            }
            *left -= 1;
        }
        self.children.iter_mut().find_map(|child| child.nth(left, wanted))
    }
}

#[derive(Clone, Copy)]
enum White {
    None,
    Lines,
    Indented,
    Tabs,
    Any,
}

pub struct Layout {
    declaration: bool,
    white: White,
}

impl Layout {
    pub fn tight(random: &mut Random) -> Self {
        Layout { declaration: random.percent(50), white: White::None }
    }

    pub fn any(random: &mut Random) -> Self {
        let all = [White::None, White::Lines, White::Indented, White::Tabs, White::Any];
        Layout { declaration: random.percent(50), white: *random.pick(&all) }
    }

    pub fn write(&self, root: &Draft, random: &mut Random) -> Vec<u8> {
        let mut out = Vec::new();
        if self.declaration {
            out.extend(DECLARATION);
        }
        self.gap(0, &mut out, random);
        self.element(root, 0, &mut out, random);
        self.gap(0, &mut out, random);
        out
    }

    fn element(&self, draft: &Draft, depth: usize, out: &mut Vec<u8>, random: &mut Random) {
        if depth == 0 && draft.name == "Document" && draft.attribute.is_empty() {
            out.extend(ROOT_TAG);
        } else {
            for piece in ["<", &draft.name, &draft.attribute, ">"] {
                out.extend_from_slice(piece.as_bytes());
            }
        }
        out.extend(&draft.text);
        for child in &draft.children {
            self.gap(depth + 1, out, random);
            self.element(child, depth + 1, out, random);
        }
        if !draft.is_leaf() {
            self.gap(depth, out, random);
        }
        for piece in ["</", &draft.name, ">"] {
            out.extend_from_slice(piece.as_bytes());
        }
    }

    fn gap(&self, depth: usize, out: &mut Vec<u8>, random: &mut Random) {
        match self.white {
            White::None => {}
            White::Lines => out.push(b'\n'),
            White::Indented => out.extend(format!("\n{:1$}", "", 2 * depth).bytes()),
            White::Tabs => out.extend(format!("\r\n{}", "\t".repeat(depth)).bytes()),
            White::Any => {
                for _ in 0..random.below(4) {
                    out.push(*random.pick(b" \t\n\r"));
                }
            }
        }
    }
}
