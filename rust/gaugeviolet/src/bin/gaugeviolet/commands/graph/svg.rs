//! Elements of an SVG file. What is written are numbers and words of this program alone, so nothing
//! has to be escaped.

use std::fmt::Display;

/// A name and its value.
pub type Attribute<'a> = (&'a str, &'a dyn Display);

/// A place in the picture, in pixels from its upper left corner.
#[derive(Clone, Copy)]
pub struct Point {
    pub x: u32,
    pub y: u32,
}

/// Where a text stands beside its point.
#[derive(Clone, Copy)]
pub enum Anchor {
    Start,
    Middle,
    End,
}

/// An element with what stands inside it.
pub fn element(name: &str, attributes: &[Attribute], inside: &str) -> String {
    let written: String = attributes
        .iter()
        .map(|(name, value)| format!(" {name}=\"{value}\""))
        .collect();
    match inside {
        "" => format!("<{name}{written}/>\n"),
        _ => format!("<{name}{written}>{inside}</{name}>\n"),
    }
}

/// Elements under each other, with attributes that hold for all of them.
pub fn group(attributes: &[Attribute], elements: &str) -> String {
    element("g", attributes, &format!("\n{elements}"))
}

/// What a reader sees who points at the element around it.
pub fn title(words: &str) -> String {
    element("title", &[], words)
}

/// A straight line.
pub fn line(class: &str, from: Point, to: Point) -> String {
    let attributes: [Attribute; 5] = [
        ("class", &class),
        ("x1", &from.x),
        ("y1", &from.y),
        ("x2", &to.x),
        ("y2", &to.y),
    ];
    element("line", &attributes, "")
}

/// One line of text; `at` is on its base line.
pub fn text(class: &str, at: Point, anchor: Anchor, words: &str) -> String {
    let anchor = match anchor {
        Anchor::Start => "start",
        Anchor::Middle => "middle",
        Anchor::End => "end",
    };
    let attributes: [Attribute; 4] = [
        ("class", &class),
        ("x", &at.x),
        ("y", &at.y),
        ("text-anchor", &anchor),
    ];
    element("text", &attributes, words)
}

/// The whole file: a white page of this size with the elements on it.
pub fn page(width: u32, height: u32, name: &str, elements: &str) -> String {
    let view = format!("0 0 {width} {height}");
    let attributes: [Attribute; 7] = [
        ("xmlns", &"http://www.w3.org/2000/svg"),
        ("width", &width),
        ("height", &height),
        ("viewBox", &view),
        ("role", &"img"),
        ("font-family", &"sans-serif"),
        ("font-size", &12),
    ];
    let white: [Attribute; 3] = [("width", &width), ("height", &height), ("fill", &"#ffffff")];
    let page = title(name) + &element("rect", &white, "") + elements;
    element("svg", &attributes, &format!("\n{page}"))
}
