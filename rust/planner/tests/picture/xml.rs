//! Reads the part of XML that a picture may use, and refuses everything else.

#[derive(Debug, Default)]
pub struct Element {
    pub name: String,
    pub attributes: Vec<(String, String)>,
    pub children: Vec<Element>,
    /// The text directly in it.
    pub text: String,
}

impl Element {
    pub fn attribute(&self, name: &str) -> Option<&str> {
        let mut attributes = self.attributes.iter();
        let found = attributes.find(|(known, _)| known == name);
        found.map(|(_, value)| value.as_str())
    }

    pub fn number(&self, name: &str) -> f64 {
        let value = self.attribute(name);
        let number = value.and_then(|value| value.parse().ok());
        number.unwrap_or_else(|| panic!("{name} of {self:?}"))
    }

    /// It and all that is in it.
    pub fn all(&self) -> Vec<&Element> {
        let inside = self.children.iter().flat_map(Element::all);
        [self].into_iter().chain(inside).collect()
    }

    pub fn named<'a>(&'a self, name: &str) -> Vec<&'a Element> {
        let all = self.all().into_iter();
        all.filter(|element| element.name == name).collect()
    }
}

/// The one element that a text consists of.
pub fn read(text: &str) -> Result<Element, String> {
    let allowed = |character: char| !character.is_control() || character == '\n';
    if let Some(character) = text
        .chars()
        .find(|&character| !allowed(character) || matches!(character, '\u{fffe}' | '\u{ffff}'))
    {
        return Err(format!("the character {character:?}"));
    }
    let mut rest = text;
    let root = element(&mut rest)?;
    match rest.trim() {
        "" => Ok(root),
        behind => Err(format!("behind the root: {behind:.40}")),
    }
}

fn element(rest: &mut &str) -> Result<Element, String> {
    let tag = take(rest, "<", ">")?;
    let (tag, ended) = match tag.strip_suffix('/') {
        Some(tag) => (tag, true),
        None => (tag, false),
    };
    let mut element = Element::default();
    let (name, mut attributes) = tag.split_at(tag.find(' ').unwrap_or(tag.len()));
    element.name = self::name(name)?;
    while !attributes.is_empty() {
        let name = self::name(take(&mut attributes, " ", "=")?)?;
        let value = unescaped(take(&mut attributes, "\"", "\"")?)?;
        if element.attribute(&name).is_some() {
            return Err(format!("{name} twice in {tag}"));
        }
        element.attributes.push((name, value));
    }
    if !ended {
        content(&mut element, rest)?;
    }
    Ok(element)
}

/// What is in an element, to its end.
fn content(element: &mut Element, rest: &mut &str) -> Result<(), String> {
    loop {
        let start = rest.find('<').ok_or("no end")?;
        element.text += &unescaped(&rest[..start])?;
        *rest = &rest[start..];
        if rest.starts_with("</") {
            let end = take(rest, "</", ">")?;
            let same = end == element.name;
            return same.then_some(()).ok_or(format!("</{end}>"));
        }
        element.children.push(self::element(rest)?);
    }
}

/// What stands between a beginning and an end.
fn take<'a>(rest: &mut &'a str, begin: &str, end: &str) -> Result<&'a str, String> {
    let wrong = || format!("no {begin}..{end} at {rest:.40}");
    let inside = rest.strip_prefix(begin).ok_or_else(wrong)?;
    let (inside, behind) = inside.split_once(end).ok_or_else(wrong)?;
    *rest = behind;
    Ok(inside)
}

fn name(text: &str) -> Result<String, String> {
    let part = |part: char| part.is_ascii_alphanumeric() || part == '-';
    let is_name = text.starts_with(|first: char| first.is_ascii_alphabetic());
    if is_name && text.chars().all(part) {
        Ok(text.into())
    } else {
        Err(format!("the name {text:?}"))
    }
}

fn unescaped(text: &str) -> Result<String, String> {
    let mut plain = String::new();
    let mut rest = text;
    while let Some(next) = rest.chars().next() {
        let (character, size) = match next {
            '<' | '>' | '"' => return Err(format!("{next} in {text:?}")),
            '&' => entity(rest)?,
            _ => (next, next.len_utf8()),
        };
        plain.push(character);
        rest = &rest[size..];
    }
    Ok(plain)
}

fn entity(text: &str) -> Result<(char, usize), String> {
    let known = [
        ("&lt;", '<'),
        ("&gt;", '>'),
        ("&amp;", '&'),
        ("&quot;", '"'),
    ];
    let found = known.iter().find(|(entity, _)| text.starts_with(entity));
    let (entity, character) = found.ok_or(format!("an & in {text:?}"))?;
    Ok((*character, entity.len()))
}
