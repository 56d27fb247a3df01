//! As much of XML as a picture needs, read strictly: what is not well-formed is refused.

use std::collections::BTreeMap;

#[derive(Debug)]
pub struct Element {
    pub name: String,
    pub attributes: BTreeMap<String, String>,
    pub children: Vec<Element>,
    /// The text right inside it.
    pub text: String,
}

impl Element {
    pub fn get(&self, attribute: &str) -> &str {
        let value = self.attributes.get(attribute);
        value.unwrap_or_else(|| panic!("{} without {attribute}", self.name))
    }

    pub fn number(&self, attribute: &str) -> f64 {
        self.get(attribute).parse().expect("a number")
    }

    pub fn id(&self) -> &str {
        self.attributes.get("id").map_or("", String::as_str)
    }

    pub fn has_class(&self, class: &str) -> bool {
        let classes = self.attributes.get("class").map_or("", String::as_str);
        classes.split(' ').any(|one| one == class)
    }

    pub fn named<'e>(&'e self, name: &'e str) -> impl Iterator<Item = &'e Element> {
        self.children.iter().filter(move |child| child.name == name)
    }

    /// This element and all below it.
    pub fn all(&self) -> Vec<&Element> {
        let below = self.children.iter().flat_map(Element::all);
        [self].into_iter().chain(below).collect()
    }
}

/// The one element that the text is.
pub fn parse(text: &str) -> Result<Element, String> {
    if let Some(letter) = text.chars().find(|&letter| !is_xml(letter)) {
        return Err(format!("{letter:?} is no letter of XML"));
    }
    let mut reader = Reader { rest: text };
    let element = reader.element()?;
    if !reader.rest.trim().is_empty() {
        return Err(format!("after the end: {}", reader.rest));
    }
    Ok(element)
}

fn is_xml(letter: char) -> bool {
    matches!(letter, '\t' | '\n' | '\r' | ' '..='\u{d7ff}' | '\u{e000}'..='\u{fffd}' | '\u{10000}'..)
}

struct Reader<'t> {
    rest: &'t str,
}

impl<'t> Reader<'t> {
    fn take(&mut self, expected: &str) -> Result<(), String> {
        let rest = self.rest.strip_prefix(expected);
        let start: String = self.rest.chars().take(40).collect();
        self.rest = rest.ok_or(format!("{expected} expected at {start}"))?;
        Ok(())
    }

    fn until(&mut self, ends: &[char]) -> Result<&'t str, String> {
        let end = self.rest.find(ends).ok_or("the text ends too early")?;
        let (part, rest) = self.rest.split_at(end);
        self.rest = rest;
        Ok(part)
    }

    fn element(&mut self) -> Result<Element, String> {
        self.take("<")?;
        let name = self.name()?;
        let attributes = self.attributes()?;
        let mut element = Element {
            name,
            attributes,
            children: Vec::new(),
            text: String::new(),
        };
        if self.rest.starts_with("/>") {
            self.take("/>")?;
            return Ok(element);
        }
        self.take(">")?;
        loop {
            element.text += &plain(self.until(&['<'])?)?;
            if self.rest.starts_with("</") {
                self.take(&format!("</{}>", element.name))?;
                return Ok(element);
            }
            element.children.push(self.element()?);
        }
    }

    fn name(&mut self) -> Result<String, String> {
        let name = self.until(&[' ', '=', '/', '>'])?;
        let is_name = name.starts_with(|letter: char| letter.is_ascii_alphabetic())
            && name
                .chars()
                .all(|letter| letter.is_ascii_alphanumeric() || letter == '-');
        is_name
            .then(|| name.into())
            .ok_or(format!("{name:?} is no name"))
    }

    fn attributes(&mut self) -> Result<BTreeMap<String, String>, String> {
        let mut attributes = BTreeMap::new();
        while self.rest.starts_with(' ') {
            self.take(" ")?;
            let name = self.name()?;
            self.take("=\"")?;
            let value = self.until(&['"', '<'])?;
            self.take("\"")?;
            if attributes.insert(name.clone(), plain(value)?).is_some() {
                return Err(format!("{name} comes twice"));
            }
        }
        Ok(attributes)
    }
}

/// What a text with escapes means.
fn plain(text: &str) -> Result<String, String> {
    let escapes = [
        ("amp;", '&'),
        ("lt;", '<'),
        ("gt;", '>'),
        ("quot;", '"'),
        ("apos;", '\''),
    ];
    let mut parts = text.split('&');
    let mut plain = String::from(parts.next().unwrap_or(""));
    for part in parts {
        let escape = escapes.iter().find(|(escape, _)| part.starts_with(escape));
        let (escape, letter) = escape.ok_or(format!("&{part} is no escape"))?;
        plain.push(*letter);
        plain += &part[escape.len()..];
    }
    Ok(plain)
}
