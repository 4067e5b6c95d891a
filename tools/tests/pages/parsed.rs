//! A page read as strictly as any browser may read it: every tag closed in its order, every attribute quoted, every
//! text escaped, every id once, and nothing fetched from elsewhere.

use std::collections::{BTreeMap, HashMap};

/// Elements without content.
const VOID: [&str; 2] = ["meta", "input"];
/// Elements whose content is no text of the page.
const RAW: [&str; 2] = ["style", "script"];

/// An element: its own attributes, and all text in it.
#[derive(Debug, Default)]
pub struct Element {
    pub name: String,
    pub attributes: BTreeMap<String, String>,
    pub text: String,
    /// The place of the element that it stands in, and of how many it does in all.
    pub parent: Option<usize>,
    pub depth: usize,
}

impl Element {
    pub fn attribute(&self, name: &str) -> &str {
        self.attributes.get(name).map_or("", String::as_str)
    }

    pub fn has_class(&self, class: &str) -> bool {
        self.attribute("class").split(' ').any(|own| own == class)
    }
}

/// The elements of a page, in the order of their beginnings.
pub struct Page {
    pub elements: Vec<Element>,
    /// The places of those that have an id.
    ids: HashMap<String, usize>,
}

impl Page {
    /// The page, if nothing is wrong with it; else this panics.
    pub fn read(html: &str) -> Page {
        let rest = html.strip_prefix("<!DOCTYPE html>\n").expect("a document type");
        let elements = Reader { rest, elements: Vec::new(), open: Vec::new() }.read();
        let page = Page { ids: ids(&elements), elements };
        page.check_links();
        page.check_alone(html);
        page
    }

    /// The element of that id.
    pub fn by_id(&self, id: &str) -> Option<&Element> {
        self.ids.get(id).map(|&place| &self.elements[place])
    }

    /// The elements of that class.
    pub fn by_class(&self, class: &str) -> Vec<&Element> {
        self.elements.iter().filter(|element| element.has_class(class)).collect()
    }

    /// What the element stands in, the innermost first.
    pub fn around(&self, inner: &Element) -> Vec<&Element> {
        let places = std::iter::successors(inner.parent, |&place| self.elements[place].parent);
        places.map(|place| &self.elements[place]).collect()
    }

    /// Whether nothing folded hides the element.
    pub fn shows(&self, element: &Element) -> bool {
        let around = self.around(element);
        around.iter().all(|outer| outer.name != "details" || outer.attributes.contains_key("open"))
    }

    /// All text of the page.
    pub fn text(&self) -> &str {
        &self.elements.iter().find(|element| element.name == "body").expect("a body").text
    }

    /// Links stay within the page, and lead somewhere.
    fn check_links(&self) {
        for element in &self.elements {
            let link =
                element.attributes.get("href").map(|link| link.strip_prefix('#').expect("a link within"));
            let others =
                ["data-p", "data-q", "for"].map(|name| element.attributes.get(name).map(String::as_str));
            for id in others.into_iter().chain([link]).flatten() {
                assert!(self.ids.contains_key(id), "{id} isn't there");
            }
        }
    }

    /// Nothing is fetched, and no attribute has code.
    fn check_alone(&self, html: &str) {
        for element in &self.elements {
            assert!(!["link", "img", "iframe", "object", "embed", "base"].contains(&element.name.as_str()));
            for attribute in element.attributes.keys() {
                assert!(!attribute.starts_with("on") && attribute != "src", "{attribute}");
            }
        }
        for raw in RAW {
            let (_, code) = html.split_once(&format!("<{raw}>")).expect("a style and a script");
            let (code, _) = code.split_once(&format!("</{raw}>")).expect("its end");
            for fetched in ["http", "://", "@import", "import(", "fetch", "XMLHttp"] {
                assert!(!code.contains(fetched), "{raw} has {fetched}");
            }
            assert!(!code.contains("url(") || code.split("url(").skip(1).all(|link| link.starts_with('#')));
        }
    }
}

/// The places of the elements that have an id, which no two have.
fn ids(elements: &[Element]) -> HashMap<String, usize> {
    let mut ids = HashMap::new();
    for (place, element) in elements.iter().enumerate() {
        if let Some(id) = element.attributes.get("id") {
            assert!(ids.insert(id.clone(), place).is_none(), "{id} is an id twice");
        }
    }
    ids
}

/// The rest of a page that is being read.
struct Reader<'a> {
    rest: &'a str,
    elements: Vec<Element>,
    /// The elements that have begun and not ended.
    open: Vec<usize>,
}

impl<'a> Reader<'a> {
    fn read(mut self) -> Vec<Element> {
        while let Some(place) = self.rest.find('<') {
            let text = unescaped(self.take(place));
            self.open.iter().for_each(|&open| self.elements[open].text += &text);
            match self.rest.strip_prefix("</") {
                Some(_) => self.end(),
                None => self.begin(),
            }
        }
        assert_eq!((self.rest, self.open.len()), ("\n", 0), "the page has an end");
        self.elements
    }

    /// So many bytes of the rest.
    fn take(&mut self, length: usize) -> &'a str {
        let (taken, rest) = self.rest.split_at(length);
        self.rest = rest;
        taken
    }

    /// The inside of a tag.
    fn take_tag(&mut self) -> &'a str {
        let end = self.rest.find('>').expect("the end of a tag");
        &self.take(end + 1)[1..end]
    }

    fn end(&mut self) {
        let tag = self.take_tag();
        let open = self.open.pop().expect("an element that has begun");
        assert_eq!(tag.strip_prefix('/'), Some(self.elements[open].name.as_str()));
    }

    fn begin(&mut self) {
        let tag = self.take_tag();
        let (name, attributes) = tag.split_once(' ').unwrap_or((tag, ""));
        assert!(!name.is_empty() && name.chars().all(|letter| letter.is_ascii_alphanumeric()), "{tag:?}");
        let attributes = attributes_of(attributes);
        let (name, text) = (name.to_string(), String::new());
        let (parent, depth) = (self.open.last().copied(), self.open.len());
        self.elements.push(Element { name: name.clone(), attributes, text, parent, depth });
        let name = name.as_str();
        if RAW.contains(&name) {
            let end = self.rest.find("</").expect("the end of a style or script");
            self.take(end);
        }
        if !VOID.contains(&name) {
            self.open.push(self.elements.len() - 1);
        }
    }
}

/// `a="b" c="d"`, each name once.
fn attributes_of(mut rest: &str) -> BTreeMap<String, String> {
    let mut attributes = BTreeMap::new();
    while !rest.is_empty() {
        let (name, value) = rest.split_once("=\"").expect("an attribute");
        let (value, behind) = value.split_once('"').expect("the end of an attribute");
        assert!(name.chars().all(|letter| letter.is_ascii_alphanumeric() || letter == '-'), "{name:?}");
        assert!(attributes.insert(name.to_string(), unescaped(value)).is_none(), "{name} comes twice");
        rest = behind.strip_prefix(' ').unwrap_or(behind);
    }
    attributes
}

/// A text without its escapes. Panics where a sign stands bare that must be escaped.
fn unescaped(text: &str) -> String {
    assert!(!text.contains(['<', '>', '"']), "{text:?}");
    let mut parts = text.split('&');
    let mut plain = parts.next().unwrap_or_default().to_string();
    for part in parts {
        let (name, behind) = part.split_once(';').expect("the end of an escape");
        plain.push(match name {
            "amp" => '&',
            "lt" => '<',
            "gt" => '>',
            "quot" => '"',
            _ => panic!("&{name}; is no escape"),
        });
        plain += behind;
    }
    plain
}
