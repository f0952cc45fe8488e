//! Markup read by strict rules: a document of a short list of elements and attributes, each where HTML lets it stand.

use std::collections::BTreeSet;

pub type Checked<T> = Result<T, String>;

pub struct Element {
    pub name: String,
    attributes: Vec<(String, String)>,
    children: Vec<Node>,
    at: usize,
}

enum Node {
    Text(String),
    Element(Element),
}

impl Element {
    pub fn need(&self, well: bool, what: &str) -> Checked<()> {
        need(well, || format!("byte {}: {}: {what}", self.at, self.name))
    }
    pub fn get(&self, name: &str) -> Option<&str> {
        self.attributes.iter().find(|(n, _)| n == name).map(|(_, value)| value.as_str())
    }
    pub fn number(&self, name: &str) -> Checked<u64> {
        let found = self.get(name).and_then(number);
        self.need(found.is_some(), &format!("no number {name}")).map(|()| found.unwrap())
    }
    pub fn elements(&self) -> impl Iterator<Item = &Element> {
        self.children.iter().filter_map(|node| if let Node::Element(element) = node { Some(element) } else { None })
    }
    pub fn text(&self) -> String {
        let one = |node: &Node| match node {
            Node::Text(text) => text.clone(),
            Node::Element(element) => element.text(),
        };
        self.children.iter().map(one).collect()
    }
    pub fn is(&self, name: &str, class: &str) -> bool {
        let classes = self.get("class").unwrap_or("");
        self.name == name && (class.is_empty() || classes.split(' ').any(|c| c == class))
    }
    /// Everything under this element, in order.
    pub fn under(&self) -> Vec<&Element> {
        self.elements().flat_map(|element| std::iter::once(element).chain(element.under())).collect()
    }
    pub fn all(&self, name: &str, class: &str) -> Vec<&Element> {
        self.under().into_iter().filter(|element| element.is(name, class)).collect()
    }
    pub fn one(&self, name: &str, class: &str) -> Checked<&Element> {
        let all = self.all(name, class);
        self.need(all.len() == 1, &format!("{} of {name}.{class} and not 1", all.len())).map(|()| all[0])
    }
}

pub fn need(well: bool, what: impl FnOnce() -> String) -> Checked<()> {
    well.then_some(()).ok_or_else(what)
}

/// A number without a sign and without zeros in front.
pub fn number(text: &str) -> Option<u64> {
    let plain = text.bytes().all(|b| b.is_ascii_digit()) && (text == "0" || !text.starts_with('0'));
    text.parse().ok().filter(|_| plain)
}

// ---- Reading ----

const PHRASING: [&str; 8] = ["span", "code", "mark", "strong", "em", "small", "a", "br"];
const FLOW: [&str; 16] = [
    "header", "main", "section", "footer", "h1", "h2", "h3", "h4", "p", "dl", "div", "ol", "ul", "details", "table",
    "pre",
];
const PARTS: [&str; 16] = [
    "html", "head", "meta", "title", "style", "body", "li", "dt", "dd", "summary", "caption", "thead", "tbody", "tr",
    "th", "td",
];
const VOID: [&str; 3] = ["meta", "br", "hr"];
const DEEPEST: usize = 40;
const WINDOW: &str = "width=device-width, initial-scale=1";
/// What a style may not hold: the first would end it, the others could ask for something outside.
const OUTWARD: [&str; 8] = ["<", "url", "@import", "@font-face", "src(", "image(", "image-set", "expression"];

struct Reader<'a> {
    text: &'a str,
    at: usize,
    dom: bool,
}

impl<'a> Reader<'a> {
    fn need(&self, well: bool, what: &str) -> Checked<()> {
        need(well, || format!("byte {}: {what}: {:?}", self.at, self.rest().chars().take(40).collect::<String>()))
    }
    fn rest(&self) -> &'a str {
        &self.text[self.at..]
    }
    fn take(&mut self, word: &str) -> bool {
        let found = self.rest().starts_with(word);
        self.at += if found { word.len() } else { 0 };
        found
    }
    fn run(&mut self, fits: impl Fn(char) -> bool) -> &'a str {
        let rest = self.rest();
        let run = &rest[..rest.find(|c| !fits(c)).unwrap_or(rest.len())];
        self.at += run.len();
        run
    }
    fn document(&mut self) -> Checked<Element> {
        let doctype = self.take("<!DOCTYPE html>");
        self.need(doctype, "another doctype")?;
        self.run(|c| c == '\n');
        let root = self.element(0)?;
        self.run(|c| c == '\n');
        self.need(self.rest().is_empty(), "something after the end").map(|()| root)
    }
    fn element(&mut self, depth: usize) -> Checked<Element> {
        let at = self.at;
        let begins = self.take("<") && depth < DEEPEST;
        self.need(begins, "no element, or too deep")?;
        let name = self.run(|c| c.is_ascii_lowercase() || c.is_ascii_digit());
        let known = [&PHRASING[..], &FLOW, &PARTS, &VOID].iter().any(|list| list.contains(&name));
        self.need(known, &format!("an element '{name}'"))?;
        let mut element = Element { name: name.to_string(), attributes: Vec::new(), children: Vec::new(), at };
        while !self.take(">") {
            let (attribute, value) = self.attribute()?;
            let fits = element.get(&attribute).is_none() && attribute_fits(name, &attribute, &value);
            self.need(fits, &format!("{name}: {attribute}=\"{value}\" doubled or not allowed"))?;
            element.attributes.push((attribute, value));
        }
        if name == "style" {
            element.children.push(Node::Text(self.run(|c| c != '<').to_string()));
        }
        while !VOID.contains(&name) && !self.take("</") {
            let child = match self.rest().starts_with('<') {
                true => Node::Element(self.element(depth + 1)?),
                false => Node::Text(self.characters('<')?),
            };
            element.children.push(child);
        }
        let closed = VOID.contains(&name) || (self.take(name) && self.take(">"));
        self.need(closed, &format!("{name} is not closed here")).map(|()| element)
    }
    fn attribute(&mut self) -> Checked<(String, String)> {
        let apart = self.take(" ");
        self.need(apart, "a tag is not ended")?;
        let name = self.run(|c| c.is_ascii_lowercase() || c == '-').to_string();
        if name == "open" && !self.rest().starts_with('=') {
            return Ok((name, String::new()));
        }
        let quoted = self.take("=\"");
        self.need(quoted, "an attribute without its value in double quotes")?;
        let value = self.characters('"')?;
        self.at += 1;
        Ok((name, value))
    }
    /// Characters up to but excluding `end`, which must come.
    fn characters(&mut self, end: char) -> Checked<String> {
        let mut out = String::new();
        while !self.rest().starts_with(end) {
            let next = self.rest().chars().next().unwrap_or('<');
            self.need(next != '<' && next != '>', "a raw < or >, or the file ends too early")?;
            out.push(if next == '&' { self.reference()? } else { next });
            self.at += next.len_utf8();
        }
        Ok(out)
    }
    /// A reference; the last byte of it is left.
    fn reference(&mut self) -> Checked<char> {
        let name = self.rest().split_once(';').map_or("", |(name, _)| name);
        let found = match name {
            "&amp" => Some('&'),
            "&lt" => Some('<'),
            "&gt" => Some('>'),
            "&quot" => Some('"'),
            "&#39" => Some('\''),
            "&nbsp" if self.dom => Some('\u{a0}'),
            _ => name.strip_prefix("&#").and_then(number).and_then(|n| u32::try_from(n).ok()).and_then(numbered),
        };
        self.need(found.is_some(), "a raw & or a reference that may not be used")?;
        self.at += name.len();
        Ok(found.unwrap())
    }
}

/// The character of a numeric reference: no control, no surrogate, no noncharacter.
fn numbered(n: u32) -> Option<char> {
    char::from_u32(n).filter(|_| n >= 160 && n & 0xfffe != 0xfffe && !(0xfdd0..=0xfdef).contains(&n))
}

fn attribute_fits(element: &str, name: &str, value: &str) -> bool {
    let plain =
        |text: &str| !text.is_empty() && text.bytes().all(|b| b.is_ascii_alphanumeric() || b == b'-' || b == b'_');
    match name {
        "class" => value.split(' ').all(plain),
        "id" => plain(value),
        "lang" => value == "en",
        "charset" => element == "meta" && value == "utf-8",
        "name" | "content" => element == "meta",
        "start" => element == "ol" && number(value).is_some(),
        "value" => element == "li" && number(value).is_some(),
        "href" => element == "a" && value.strip_prefix('#').is_some_and(plain),
        "open" => element == "details" && value.is_empty(),
        "scope" => element == "th" && ["row", "col", "rowgroup", "colgroup"].contains(&value),
        _ => name.strip_prefix("data-").is_some_and(plain),
    }
}

// ---- What may stand where ----

fn may_hold(parent: &str, grouped: bool, child: &str) -> bool {
    let phrasing = PHRASING.contains(&child);
    match parent {
        "html" => ["head", "body"].contains(&child),
        "head" => ["meta", "title", "style"].contains(&child),
        "dl" => ["div", "dt", "dd"].contains(&child),
        "div" if grouped => ["dt", "dd"].contains(&child),
        "ol" | "ul" => child == "li",
        "table" => ["caption", "thead", "tbody"].contains(&child),
        "thead" | "tbody" => child == "tr",
        "tr" => ["th", "td"].contains(&child),
        "title" | "style" => false,
        "body" | "header" | "main" | "section" | "footer" | "div" | "li" | "dd" | "td" => {
            phrasing || child == "hr" || (FLOW.contains(&child) && (child != "main" || parent == "body"))
        }
        "details" => phrasing || child == "summary" || (FLOW.contains(&child) && child != "main"),
        _ => phrasing,
    }
}

/// Only blanks between the parts of these.
fn is_frame(name: &str, grouped: bool) -> bool {
    ["html", "head", "dl", "ol", "ul", "table", "thead", "tbody", "tr"].contains(&name) || (name == "div" && grouped)
}

fn content(element: &Element, above: &mut Vec<String>) -> Checked<()> {
    let grouped = element.name == "div" && above.last().is_some_and(|name| name == "dl");
    above.push(element.name.clone());
    for child in element.elements() {
        let twice = match child.name.as_str() {
            "header" | "footer" => above.iter().any(|name| name == "header" || name == "footer"),
            "a" => above.contains(&child.name),
            _ => child.get("value").is_some() && element.name == "ul",
        };
        let fits = !twice && may_hold(&element.name, grouped, &child.name);
        child.need(fits, &format!("may not stand in {}", above.join(" ")))?;
        content(child, above)?;
    }
    above.pop();
    let blank = |node: &Node| !matches!(node, Node::Text(text) if text.contains(|c| c != ' ' && c != '\n'));
    let blank = !is_frame(&element.name, grouped) || element.children.iter().all(blank);
    element.need(blank, "text between its parts")?;
    element.need(in_order(element, grouped), "its parts are not in the order they must have")
}

fn in_order(element: &Element, grouped: bool) -> bool {
    let names: Vec<&str> = element.elements().map(|child| child.name.as_str()).collect();
    let first_only = |name: &str| !names.iter().skip(1).any(|n| *n == name);
    let groups = |names: &[&str]| names.is_empty() || (names[0] == "dt" && names[names.len() - 1] == "dd");
    match element.name.as_str() {
        "html" => names == ["head", "body"],
        "dl" => names.iter().all(|name| *name == "div") || (!names.contains(&"div") && groups(&names)),
        "div" if grouped => !names.is_empty() && groups(&names) && !names.windows(2).any(|two| two == ["dd", "dt"]),
        "details" => names.first() == Some(&"summary") && first_only("summary"),
        "table" => first_only("caption") && names.iter().filter(|name| **name == "thead").count() <= 1,
        _ => true,
    }
}

/// The head, the style, the names of places and the references to them.
fn whole(root: &Element) -> Checked<()> {
    let (head, metas) = (root.one("head", "")?, root.all("meta", ""));
    let pair = |m: &&Element| m.attributes.len() == 2 && m.get("name").is_some() && m.get("content").is_some();
    let window = |m: &&&Element| m.get("name") == Some("viewport") && m.get("content") == Some(WINDOW);
    let first = head.elements().next().and_then(|m| m.get("charset")).is_some() && metas[0].attributes.len() == 1;
    let rest = first && metas[1..].iter().all(pair) && metas.iter().filter(window).count() == 1;
    head.need(rest && root.get("lang").is_some(), "language, character set or viewport are not as they must be")?;
    let named = |element: &Element| !element.text().trim().is_empty();
    head.need(named(head.one("title", "")?) && named(root.one("h1", "")?), "no title, or no heading")?;
    let style = head.one("style", "")?;
    let css = unescaped(&style.text()).to_lowercase();
    style.need(!OUTWARD.iter().any(|word| css.contains(word)), "holds something that may not stand there")?;
    let (mut ids, all) = (BTreeSet::new(), root.under());
    for element in all.iter().filter(|element| element.get("id").is_some()) {
        element.need(ids.insert(element.get("id").unwrap()), "its id is there twice")?;
    }
    let lost = all.iter().find(|a| a.name == "a" && !a.get("href").is_some_and(|to| ids.contains(&to[1..])));
    lost.map_or(Ok(()), |a| a.need(false, "leads nowhere"))
}

/// A style with its escapes resolved, so that none hides a word.
fn unescaped(css: &str) -> String {
    let (mut out, mut rest) = (String::new(), css);
    while let Some((before, after)) = rest.split_once('\\') {
        let digits = after.bytes().take(6).take_while(u8::is_ascii_hexdigit).count();
        let code = u32::from_str_radix(&after[..digits], 16).ok().and_then(char::from_u32);
        out = out + before + &code.map_or(String::new(), |c| c.to_string());
        rest = after[digits..].strip_prefix([' ', '\n']).filter(|_| digits > 0).unwrap_or(&after[digits..]);
    }
    out + rest
}

pub fn read(bytes: &[u8], dom: bool) -> Checked<Element> {
    let fits = |c: char| c == '\n' || c == ' ' || c.is_ascii_graphic() || (dom && !c.is_control());
    let text = std::str::from_utf8(bytes).map_err(|error| format!("byte {}: not ASCII", error.valid_up_to()))?;
    need(text.chars().all(fits), || format!("byte {}: not printable ASCII", text.find(|c| !fits(c)).unwrap()))?;
    let root = Reader { text, at: 0, dom }.document()?;
    root.need(root.name == "html", "and not html")?;
    content(&root, &mut Vec::new())?;
    whole(&root).map(|()| root)
}
