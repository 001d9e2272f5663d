//! A small strict reader of XML, for the pages and pictures under test: tags that match, attributes once each and in double quotes, the five known
//! escapes, one root, and a doctype of HTML at most. What it does not know is a fault.

// Each test program takes what it needs of this.
#![allow(dead_code)]

/// An element with what stands in it.
#[derive(Debug)]
pub struct Element {
    pub name: String,
    pub attributes: Vec<(String, String)>,
    pub children: Vec<Node>,
}

#[derive(Debug)]
pub enum Node {
    Element(Element),
    Text(String),
}

impl Node {
    pub fn element(&self) -> Option<&Element> {
        match self {
            Node::Element(element) => Some(element),
            Node::Text(_) => None,
        }
    }
}

impl Element {
    pub fn attribute(&self, name: &str) -> Option<&str> {
        self.attributes.iter().find(|(key, _)| key == name).map(|(_, value)| value.as_str())
    }

    /// An attribute that is a number.
    pub fn number(&self, name: &str) -> f64 {
        let value = self.attribute(name).unwrap_or_else(|| panic!("{} has no {name}", self.name));
        value.parse().unwrap_or_else(|_| panic!("{name} is {value}"))
    }

    /// It and all elements in it, in order.
    pub fn all(&self) -> Vec<&Element> {
        let inside = self.children.iter().filter_map(Node::element).flat_map(Element::all);
        std::iter::once(self).chain(inside).collect()
    }

    pub fn named<'a>(&'a self, name: &'a str) -> impl Iterator<Item = &'a Element> {
        self.all().into_iter().filter(move |element| element.name == name)
    }

    /// All text in it.
    pub fn text(&self) -> String {
        let parts = self.children.iter().map(|node| match node {
            Node::Element(element) => element.text(),
            Node::Text(text) => text.clone(),
        });
        parts.collect()
    }
}

/// The root of a document. Panics where it is not well formed.
pub fn parse(document: &str) -> Element {
    let mut reader = Reader { rest: document };
    reader.skip("<!DOCTYPE html>\n");
    let root = reader.element();
    assert_eq!(reader.rest, "\n", "after the root");
    root
}

struct Reader<'a> {
    rest: &'a str,
}

impl<'a> Reader<'a> {
    fn skip(&mut self, what: &str) -> bool {
        let after = self.rest.strip_prefix(what);
        self.rest = after.unwrap_or(self.rest);
        after.is_some()
    }

    fn expect(&mut self, what: &str) {
        assert!(self.skip(what), "{what:?} is missing at {:?}", self.rest.chars().take(60).collect::<String>());
    }

    fn until(&mut self, stop: impl Fn(char) -> bool) -> &'a str {
        let end = self.rest.find(stop).expect("the document goes on");
        let (part, rest) = self.rest.split_at(end);
        self.rest = rest;
        part
    }

    fn name(&mut self) -> String {
        let name = self.until(|c| !(c.is_ascii_alphanumeric() || "-:_".contains(c)));
        assert!(name.starts_with(|c: char| c.is_ascii_alphabetic()), "no name: {name:?}");
        name.into()
    }

    fn element(&mut self) -> Element {
        self.expect("<");
        let name = self.name();
        let mut attributes: Vec<(String, String)> = Vec::new();
        while self.skip(" ") {
            let key = self.name();
            self.expect("=\"");
            let value = unescaped(self.until(|c| c == '"'));
            self.expect("\"");
            assert!(attributes.iter().all(|(other, _)| *other != key), "{key} stands twice in {name}");
            attributes.push((key, value));
        }
        let mut element = Element { name, attributes, children: Vec::new() };
        if !self.skip("/>") {
            self.expect(">");
            self.content(&mut element);
        }
        element
    }

    fn content(&mut self, element: &mut Element) {
        loop {
            let text = unescaped(self.until(|c| c == '<'));
            if !text.is_empty() {
                element.children.push(Node::Text(text));
            }
            if self.skip("</") {
                self.expect(&element.name);
                return self.expect(">");
            }
            let child = self.element();
            element.children.push(Node::Element(child));
        }
    }
}

/// Text or the value of an attribute, as it is meant.
fn unescaped(raw: &str) -> String {
    let odd = |c: char| (c.is_control() && c != '\n') || ['<', '\u{FFFE}', '\u{FFFF}'].contains(&c);
    assert!(!raw.contains(odd), "{raw:?}");
    let mut parts = raw.split('&');
    let mut text: String = parts.next().unwrap_or_default().into();
    for part in parts {
        let (name, rest) = part.split_once(';').unwrap_or_else(|| panic!("a bare & in {raw:?}"));
        text.push(match name {
            "amp" => '&',
            "lt" => '<',
            "gt" => '>',
            "quot" => '"',
            "#39" => '\'',
            _ => panic!("&{name}; is not known"),
        });
        text.push_str(rest);
    }
    text
}
