//! A strict reader of the little XML that a picture needs: elements, quoted attributes, plain text.

use std::collections::BTreeMap;

#[derive(Debug)]
pub struct Element {
    pub name: String,
    pub attributes: BTreeMap<String, String>,
    pub children: Vec<Element>,
    pub text: String,
}

pub fn parse(svg: &str) -> Result<Element, String> {
    let mut reader = Reader { rest: svg };
    let root = reader.element()?;
    ensure!(reader.rest.trim().is_empty(), "text after the last tag");
    Ok(root)
}

struct Reader<'a> {
    rest: &'a str,
}

impl<'a> Reader<'a> {
    fn eat(&mut self, piece: &str) -> bool {
        match self.rest.strip_prefix(piece) {
            Some(rest) => {
                self.rest = rest;
                true
            }
            None => false,
        }
    }

    /// What stands before the first of these signs.
    fn until(&mut self, signs: &[char]) -> Result<&'a str, String> {
        let end = self.rest.find(signs).ok_or("the text ends too early")?;
        let (before, rest) = self.rest.split_at(end);
        self.rest = rest;
        Ok(before)
    }

    fn name(&mut self) -> Result<String, String> {
        let name = self.until(&[' ', '=', '/', '>', '\n'])?;
        let plain = |sign: char| sign.is_ascii_alphanumeric() || sign == '-';
        ensure!(
            !name.is_empty() && name.chars().all(plain),
            "the name '{name}'"
        );
        Ok(name.to_string())
    }

    fn attributes(&mut self) -> Result<BTreeMap<String, String>, String> {
        let mut attributes = BTreeMap::new();
        while self.eat(" ") {
            let name = self.name()?;
            ensure!(self.eat("=\""), "attribute {name} is not quoted");
            let value = self.until(&['"'])?;
            ensure!(!value.contains(['<', '>', '&']), "a bare sign in '{value}'");
            let twice = attributes.insert(name.clone(), value.to_string());
            ensure!(self.eat("\"") && twice.is_none(), "attribute {name} twice");
        }
        Ok(attributes)
    }

    fn element(&mut self) -> Result<Element, String> {
        ensure!(self.eat("<"), "no tag where one is due");
        let mut element = Element {
            name: self.name()?,
            attributes: self.attributes()?,
            children: Vec::new(),
            text: String::new(),
        };
        if self.eat("/>") {
            return Ok(element);
        }
        ensure!(self.eat(">"), "the tag of {} has no end", element.name);
        loop {
            let text = self.until(&['<'])?;
            ensure!(!text.contains(['>', '&']), "a bare sign in '{text}'");
            element.text += text.trim();
            if self.eat("</") {
                let name = self.name()?;
                ensure!(
                    name == element.name && self.eat(">"),
                    "{} is closed by {name}",
                    element.name
                );
                return Ok(element);
            }
            element.children.push(self.element()?);
        }
    }
}
