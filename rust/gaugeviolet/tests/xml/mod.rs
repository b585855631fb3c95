//! Whether a text is well-formed XML, and its elements. What no picture needs is refused: comments,
//! sections of characters, declarations other than the first line's.

use std::collections::BTreeMap;

/// An element of a well-formed text.
#[derive(Debug, PartialEq, Eq)]
pub struct Element {
    pub name: String,
    pub attributes: BTreeMap<String, String>,
    /// The characters that stand in it but not in an element inside.
    pub text: String,
    pub inside: Vec<Element>,
}

impl Element {
    /// This element and all inside it, in the order of the text.
    pub fn all(&self) -> Vec<&Element> {
        let inside = self.inside.iter().flat_map(Element::all);
        [self].into_iter().chain(inside).collect()
    }

    /// The value of an attribute that it must have.
    pub fn value(&self, name: &str) -> &str {
        let value = self.attributes.get(name);
        value.unwrap_or_else(|| panic!("{} has no attribute {name}", self.name))
    }

    /// The value of an attribute that must be a number.
    pub fn number(&self, name: &str) -> i64 {
        let value = self.value(name);
        value
            .parse()
            .unwrap_or_else(|_| panic!("{name} of {} is {value}", self.name))
    }

    pub fn has_class(&self, class: &str) -> bool {
        self.attributes.get("class").is_some_and(|has| has == class)
    }
}

/// The one element that a well-formed text has, or what is wrong.
pub fn well_formed(text: &str) -> Result<Element, String> {
    let mut rest = Rest { text };
    if rest.skips("<?xml ") {
        rest.until("?>")?;
    }
    rest.spaces();
    let element = rest.element()?;
    rest.spaces();
    match rest.text {
        "" => Ok(element),
        _ => rest.fault("something after the element"),
    }
}

/// What has not been read yet.
struct Rest<'a> {
    text: &'a str,
}

impl<'a> Rest<'a> {
    fn fault<T>(&self, what: &str) -> Result<T, String> {
        let shown: String = self.text.chars().take(60).collect();
        Err(format!("{what} at: {shown}"))
    }

    fn skips(&mut self, start: &str) -> bool {
        let rest = self.text.strip_prefix(start);
        self.text = rest.unwrap_or(self.text);
        rest.is_some()
    }

    fn needs(&mut self, start: &str) -> Result<(), String> {
        if self.skips(start) {
            return Ok(());
        }
        self.fault(&format!("no {start}"))
    }

    fn spaces(&mut self) -> bool {
        let before = self.text.len();
        self.text = self.text.trim_start_matches([' ', '\n', '\t', '\r']);
        self.text.len() < before
    }

    fn until(&mut self, end: &str) -> Result<&'a str, String> {
        match self.text.split_once(end) {
            Some((before, rest)) => {
                self.text = rest;
                Ok(before)
            }
            None => self.fault(&format!("no {end}")),
        }
    }

    fn name(&mut self) -> Result<String, String> {
        let part = |at: char| at.is_ascii_alphanumeric() || at == '-' || at == ':';
        let end = self.text.find(|at| !part(at)).unwrap_or(self.text.len());
        let (name, rest) = self.text.split_at(end);
        if !name.starts_with(|first: char| first.is_ascii_alphabetic()) {
            return self.fault("no name");
        }
        self.text = rest;
        Ok(name.to_string())
    }

    fn element(&mut self) -> Result<Element, String> {
        self.needs("<")?;
        let mut element = Element {
            name: self.name()?,
            attributes: self.attributes()?,
            text: String::new(),
            inside: Vec::new(),
        };
        if self.skips("/>") {
            return Ok(element);
        }
        self.needs(">")?;
        self.content(&mut element)?;
        let name = self.name()?;
        if name != element.name {
            return self.fault(&format!("{name} ends {}", element.name));
        }
        self.spaces();
        self.needs(">")?;
        Ok(element)
    }

    fn attributes(&mut self) -> Result<BTreeMap<String, String>, String> {
        let mut attributes = BTreeMap::new();
        while self.spaces() && !self.text.starts_with(['/', '>']) {
            let name = self.name()?;
            self.needs("=\"")?;
            let value = self.until("\"")?.to_string();
            if value.contains('<') || !references_are_good(&value) {
                return self.fault("a wrong character in a value");
            }
            if attributes.insert(name, value).is_some() {
                return self.fault("an attribute given twice");
            }
        }
        Ok(attributes)
    }

    /// Reads what stands in the element, up to the name in its closing mark.
    fn content(&mut self, element: &mut Element) -> Result<(), String> {
        loop {
            let end = self.text.find('<').unwrap_or(self.text.len());
            let (text, rest) = self.text.split_at(end);
            if text.contains("]]>") || !references_are_good(text) {
                return self.fault("a wrong character in a text");
            }
            element.text += text;
            self.text = rest;
            if self.skips("</") {
                return Ok(());
            }
            element.inside.push(self.element()?);
        }
    }
}

/// Whether each `&` begins one of the five characters that XML names.
fn references_are_good(text: &str) -> bool {
    let named = ["amp;", "lt;", "gt;", "quot;", "apos;"];
    let mut after = text.split('&').skip(1);
    after.all(|after| named.iter().any(|name| after.starts_with(name)))
}
