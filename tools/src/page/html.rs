//! Pieces of a page, well-formed as they are made: every element is closed, every text escaped.

use std::fmt::Display;

/// A piece of a page.
#[derive(Clone, Debug, Default, PartialEq, Eq)]
pub struct Html(String);

/// The attributes of an element.
pub type Attributes<'a> = &'a [(&'static str, &'a str)];

/// Elements without content, which have no end tag.
const VOID: [&str; 2] = ["meta", "input"];

/// Words, escaped.
pub fn text(words: impl Display) -> Html {
    Html(escaped(&words.to_string()))
}

/// An element with what is in it.
pub fn element(name: &'static str, attributes: Attributes, content: impl IntoIterator<Item = Html>) -> Html {
    let mut html = String::from("<");
    html += name;
    for (attribute, value) in attributes {
        html += &format!(" {attribute}=\"{}\"", escaped(value));
    }
    html += ">";
    if !VOID.contains(&name) {
        content.into_iter().for_each(|piece| html += &piece.0);
        html += &format!("</{name}>");
    }
    Html(html)
}

/// An element with words in it.
pub fn words(name: &'static str, attributes: Attributes, words: impl Display) -> Html {
    element(name, attributes, [text(words)])
}

/// A part of the page under a heading.
pub fn section(id: Option<&str>, heading: &str, content: impl IntoIterator<Item = Html>) -> Html {
    let id = id.map(|id| ("id", id));
    element("section", id.as_slice(), [words("h2", &[], heading)].into_iter().chain(content))
}

/// A table of these rows under its headings.
pub fn table(class: &str, headings: &[&str], rows: impl IntoIterator<Item = Html>) -> Html {
    let head = element("tr", &[], headings.iter().map(|heading| words("th", &[], heading)));
    let body = element("tbody", &[], [head].into_iter().chain(rows));
    element("table", &[("class", class)], [body])
}

/// Something that can be folded up to its summary.
pub fn details(
    attributes: Attributes,
    open: bool,
    summary: impl IntoIterator<Item = Html>,
    content: Vec<Html>,
) -> Html {
    let open = open.then_some(("open", ""));
    let attributes: Vec<_> = attributes.iter().copied().chain(open).collect();
    element("details", &attributes, [element("summary", &[], summary)].into_iter().chain(content))
}

/// A link to something on the page.
pub fn link(id: &str, said: &str) -> Html {
    words("a", &[("href", &format!("#{id}"))], said)
}

/// A list in words.
pub fn or_none(list: String) -> String {
    if list.is_empty() { "none".to_string() } else { list }
}

/// What points at the place of a refusal.
pub fn here() -> Html {
    words("strong", &[], "here: ")
}

/// A style or script of the page's own, which stands there as it is: it must not have the end tag in it.
fn own(name: &'static str, code: &str) -> Html {
    Html(format!("<{name}>\n{code}</{name}>"))
}

/// The whole page.
pub fn document(title: &str, style: &str, script: &str, body: Vec<Html>) -> String {
    let head = [
        element("meta", &[("charset", "utf-8")], []),
        element("meta", &[("name", "viewport"), ("content", "width=device-width, initial-scale=1")], []),
        element("meta", &[("name", "color-scheme"), ("content", "light dark")], []),
        words("title", &[], title),
        own("style", style),
    ];
    let body = body.into_iter().chain([own("script", script)]);
    let html = element("html", &[("lang", "en")], [element("head", &[], head), element("body", &[], body)]);
    format!("<!DOCTYPE html>\n{}\n", html.0)
}

/// The text as it must stand in a page, in an attribute too. What no page may have, such as a zero byte, is replaced.
fn escaped(text: &str) -> String {
    let mut escaped = String::with_capacity(text.len());
    for letter in text.chars() {
        match letter {
            '&' => escaped += "&amp;",
            '<' => escaped += "&lt;",
            '>' => escaped += "&gt;",
            '"' => escaped += "&quot;",
            '\n' => escaped.push(letter),
            _ if letter.is_control() => escaped.push('\u{fffd}'),
            _ => escaped.push(letter),
        }
    }
    escaped
}
