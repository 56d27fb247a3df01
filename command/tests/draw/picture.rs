//! A picture read back: its boxes, texts and lines, from the elements that a viewer draws.

use super::xml::Element;

/// An area, by its edges.
#[derive(Clone, Copy, Debug, PartialEq)]
pub struct Area {
    pub left: f64,
    pub top: f64,
    pub right: f64,
    pub bottom: f64,
}

impl Area {
    pub fn middle(&self) -> f64 {
        (self.top + self.bottom) / 2.0
    }

    pub fn height(&self) -> f64 {
        self.bottom - self.top
    }

    pub fn holds(&self, inner: &Area) -> bool {
        self.left <= inner.left
            && self.top <= inner.top
            && inner.right <= self.right
            && inner.bottom <= self.bottom
    }

    /// Whether they share more than an edge.
    pub fn overlaps(&self, other: &Area) -> bool {
        self.left < other.right
            && other.left < self.right
            && self.top < other.bottom
            && other.top < self.bottom
    }

    fn of_rectangle(element: &Element) -> Self {
        let (left, top) = (element.number("x"), element.number("y"));
        Area {
            left,
            top,
            right: left + element.number("width"),
            bottom: top + element.number("height"),
        }
    }

    fn of_polygon(element: &Element) -> Self {
        let points = element.get("points").split(' ').map(|point| {
            let (x, y) = point.split_once(',').expect("a point");
            (number(x), number(y))
        });
        around(&points.collect::<Vec<_>>())
    }
}

fn number(text: &str) -> f64 {
    text.parse().expect("a number")
}

fn around(points: &[(f64, f64)]) -> Area {
    let fold = |numbers: fn(&(f64, f64)) -> f64, pick: fn(f64, f64) -> f64| {
        points.iter().map(numbers).reduce(pick).expect("a point")
    };
    Area {
        left: fold(|point| point.0, f64::min),
        top: fold(|point| point.1, f64::min),
        right: fold(|point| point.0, f64::max),
        bottom: fold(|point| point.1, f64::max),
    }
}

pub struct Text {
    pub content: String,
    pub area: Area,
}

pub struct Node {
    pub area: Area,
    pub shape: String,
    pub classes: String,
    pub marked: bool,
    pub texts: Vec<Text>,
}

impl Node {
    /// All its words. Where its lines are broken does not matter.
    pub fn label(&self) -> String {
        let lines = self.texts.iter().map(|text| text.content.as_str());
        squeezed(&lines.collect::<String>())
    }
}

/// The text without spaces.
pub fn squeezed(text: &str) -> String {
    text.split_whitespace().collect()
}

pub struct Link {
    pub points: Vec<(f64, f64)>,
    pub classes: String,
    pub marked: bool,
}

impl Link {
    pub fn segments(&self) -> impl Iterator<Item = Area> + '_ {
        self.points.windows(2).map(around)
    }
}

pub struct Picture {
    pub page: Area,
    pub title: String,
    /// The title as it is drawn.
    pub heading: String,
    /// In the order of the records.
    pub nodes: Vec<Node>,
    /// To each record but the first.
    pub links: Vec<Link>,
    pub samples: Vec<Area>,
    /// All texts that stand in no box of the tree.
    pub loose: Vec<Text>,
    pub band: Option<Area>,
    /// Whether each line is marked, in the order in which they are drawn.
    pub drawn_marks: Vec<bool>,
}

impl Picture {
    pub fn read(svg: &Element) -> Self {
        assert_eq!(svg.name, "svg");
        let sizes = Sizes::read(&only(svg.named("style")).text);
        let legend = only(svg.named("g").filter(|group| group.id() == "legend"));
        let texts = legend.all().into_iter().filter(|one| one.name == "text");
        let loose = svg.named("text").chain(texts);
        let heading = svg.named("text").filter(|text| text.has_class("heading"));
        let nodes = numbered(svg, "g", "record-", 0);
        let drawn_marks = svg.named("path").map(|path| path.has_class("marked"));
        let mut bands = svg.named("rect").filter(|rect| rect.has_class("band"));
        Picture {
            page: page(svg),
            title: only(svg.named("title")).text.clone(),
            heading: heading.map(|line| line.text.as_str()).collect(),
            nodes: nodes.map(|group| node(group, &sizes)).collect(),
            links: numbered(svg, "path", "to-", 1).map(link).collect(),
            samples: legend.named("g").map(|group| shape(group).1).collect(),
            loose: loose.map(|element| text(element, &sizes)).collect(),
            band: bands.next().map(Area::of_rectangle),
            drawn_marks: drawn_marks.collect(),
        }
    }

    /// The texts that stand in no box at all.
    pub fn outside(&self) -> impl Iterator<Item = &Text> {
        let in_sample = |text: &Text| {
            let mut samples = self.samples.iter();
            samples.any(|sample| sample.holds(&text.area))
        };
        self.loose.iter().filter(move |text| !in_sample(text))
    }

    /// The texts on a link to that record.
    pub fn words_before(&self, record: usize) -> Vec<&str> {
        let area = self.nodes[record].area;
        let on = |text: &&Text| {
            let side = area.left - 50.0..area.left;
            let height = area.middle() - 16.0..area.middle();
            side.contains(&text.area.left) && height.contains(&text.area.middle())
        };
        let words = self.loose.iter().filter(on);
        words.map(|text| text.content.as_str()).collect()
    }
}

/// The one element of these.
fn only<'e>(mut elements: impl Iterator<Item = &'e Element>) -> &'e Element {
    let element = elements.next().expect("one");
    assert!(elements.next().is_none(), "no more than one");
    element
}

/// The whole page, which is white.
fn page(svg: &Element) -> Area {
    let size = |attribute| svg.number(attribute);
    let view = format!("0 0 {} {}", size("width"), size("height"));
    assert_eq!(svg.get("viewBox"), view);
    let ground = svg.named("rect").next().expect("a ground");
    assert_eq!(ground.get("fill"), "#ffffff");
    assert_eq!(ground.number("width"), size("width"));
    assert_eq!(ground.number("height"), size("height"));
    Area {
        left: 0.0,
        top: 0.0,
        right: size("width"),
        bottom: size("height"),
    }
}

/// The elements whose ids are numbered so, each number once, in their order from that one on.
fn numbered<'e>(
    svg: &'e Element,
    name: &'e str,
    id: &'e str,
    first: usize,
) -> impl Iterator<Item = &'e Element> {
    let number =
        move |element: &&Element| -> Option<usize> { element.id().strip_prefix(id)?.parse().ok() };
    let mut elements: Vec<_> = svg
        .named(name)
        .filter(|element| number(element).is_some())
        .collect();
    elements.sort_by_key(number);
    for (place, element) in elements.iter().enumerate() {
        assert_eq!(number(element), Some(place + first), "each once");
    }
    elements.into_iter()
}

fn node(group: &Element, sizes: &Sizes) -> Node {
    let (shape, area) = shape(group);
    let texts = group.named("text").map(|element| text(element, sizes));
    Node {
        area,
        shape,
        classes: group.get("class").into(),
        marked: group.has_class("marked"),
        texts: texts.collect(),
    }
}

/// The one shape of a group: what it looks like, and its area.
fn shape(group: &Element) -> (String, Area) {
    let shape = only(group.named("rect").chain(group.named("polygon")));
    match shape.name.as_str() {
        "rect" => {
            let look = format!("corners of {}", shape.get("rx"));
            (look, Area::of_rectangle(shape))
        }
        _ => ("points".into(), Area::of_polygon(shape)),
    }
}

fn link(path: &Element) -> Link {
    let mut points: Vec<(f64, f64)> = Vec::new();
    let data = path.get("d");
    let commands = data.chars().filter(char::is_ascii_alphabetic);
    let steps = data
        .split(|letter: char| letter.is_ascii_alphabetic())
        .skip(1);
    for (command, numbers) in commands.zip(steps) {
        let numbers: Vec<f64> = numbers.split(' ').map(number).collect();
        let last = points.last().copied();
        match (command, numbers.as_slice(), last) {
            ('M', &[x, y], None) => points.push((x, y)),
            ('H', &[x], Some((_, y))) => points.push((x, y)),
            ('V', &[y], Some((x, _))) => points.push((x, y)),
            // A bend lies inside its corner.
            ('Q', &[x, y, end_x, end_y], Some(_)) => points.extend([(x, y), (end_x, end_y)]),
            _ => panic!("{command} {numbers:?} in a path"),
        }
    }
    Link {
        points,
        classes: path.get("class").into(),
        marked: path.has_class("marked"),
    }
}

/// The heights of the picture's fonts.
struct Sizes {
    label: f64,
    small: f64,
    heading: f64,
}

impl Sizes {
    fn read(style: &str) -> Self {
        let size = |rule: &str| {
            let lines = style.lines().map(str::trim);
            let rule = lines
                .filter_map(|line| line.strip_prefix(rule))
                .next()
                .expect("a rule");
            let (_, size) = rule.split_once("font-size:").expect("a size");
            number(size.split_once("px").expect("pixels").0)
        };
        assert!(style.contains("monospace"));
        Sizes {
            label: size("text{"),
            small: size(".small{"),
            heading: size(".heading{"),
        }
    }
}

/// A text and the area that its letters may take.
fn text(element: &Element, sizes: &Sizes) -> Text {
    let size = if element.has_class("heading") {
        sizes.heading
    } else if element.has_class("small") {
        sizes.small
    } else {
        sizes.label
    };
    let (left, base) = (element.number("x"), element.number("y"));
    let width: f64 = element.text.chars().map(letter_width).sum();
    Text {
        content: element.text.clone(),
        area: Area {
            left,
            top: base - 0.8 * size,
            right: left + width * size,
            bottom: base + 0.25 * size,
        },
    }
}

/// How wide a letter is for its font's height: those of monospace fonts 0.602 at most, of others as wide as they are high, and East Asian
/// ones twice what the monospace ones are.
fn letter_width(letter: char) -> f64 {
    match letter {
        ..='\u{52f}' => 0.602,
        '\u{1100}'..='\u{115f}'
        | '\u{2e80}'..='\u{a4cf}'
        | '\u{ac00}'..='\u{d7a3}'
        | '\u{f900}'..='\u{faff}'
        | '\u{ff00}'..='\u{ff60}' => 1.204,
        _ => 1.0,
    }
}
