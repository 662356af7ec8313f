//! Documents of version 1: numbers for names, and the method lists. A class reference is twice a class's number, and one more for its metaclass.
use crate::json::{Json, Result, SHAPE};
use std::collections::HashMap;
use std::hash::{BuildHasherDefault, Hasher};

#[derive(Clone, Copy, PartialEq)]
pub enum Value {
    Number(i64),
    Object(u32),
    Class(u32),
    Selector(u32),
    Nil,
}

pub enum Expr {
    Const(Value),
    Me,
    Arg(u8),
    Add(Box<[Expr; 2]>),
    Sub(Box<[Expr; 2]>),
    Mul(Box<[Expr; 2]>),
    Eq(Box<[Expr; 2]>),
    Lt(Box<[Expr; 2]>),
    If(Box<[Expr; 3]>),
    Send(Box<Expr>, u32, Vec<Expr>),
    Super(u32, Vec<Expr>),
}

pub struct Imp {
    pub home: u32,
    pub args: u8,
    pub body: Expr,
}

pub enum Item {
    Send(Value, u32, [Value; 4]),
    Add(u32, u32, u32),
    Replace(u32, u32, u32),
    Set(u32, u32, u32),
    Exchange(u32, u32, u32, u32),
    Attach(u32, Vec<(u32, u32)>, Vec<(u32, u32)>),
}

/// The hash that rustc uses: quick, and not safe from hostile keys.
#[derive(Default, Clone, Copy)]
pub struct Quick(u64);

impl Hasher for Quick {
    fn finish(&self) -> u64 {
        self.0
    }
    fn write(&mut self, bytes: &[u8]) {
        for part in bytes.chunks(8) {
            let mut word = [0; 8];
            word[..part.len()].copy_from_slice(part);
            self.write_u64(u64::from_le_bytes(word));
        }
    }
    fn write_u8(&mut self, it: u8) {
        self.write_u64(it as u64);
    }
    fn write_u32(&mut self, it: u32) {
        self.write_u64(it as u64);
    }
    fn write_u64(&mut self, it: u64) {
        self.0 = (self.0.rotate_left(5) ^ it).wrapping_mul(0x517c_c1b7_2722_0a95);
    }
}

pub type QuickMap<K, V> = HashMap<K, V, BuildHasherDefault<Quick>>;

/// Names with numbers from 0.
#[derive(Default)]
pub struct Names<'j> {
    number: QuickMap<&'j str, u32>,
    pub list: Vec<&'j str>,
}

impl<'j> Names<'j> {
    fn find(&self, name: &str, fault: u32) -> Result<u32> {
        self.number.get(name).copied().ok_or(fault)
    }
    fn add(&mut self, name: &'j str, fault: u32) -> Result<()> {
        let number = self.list.len() as u32;
        self.list.push(name);
        if self.number.insert(name, number).is_some() {
            Err(fault)
        } else {
            Ok(())
        }
    }
}

#[derive(Default)]
pub struct Image<'j> {
    pub selectors: Names<'j>,
    pub classes: Names<'j>,
    pub objects: Names<'j>,
    pub class_of: Vec<u32>,
    pub imps: Vec<Imp>,
    pub items: Vec<Item>,
    imp_names: Names<'j>,
    superclass: Vec<Option<u32>>,
    /// of each class reference the methods, the oldest first
    pub rows: Vec<Vec<(u32, u32)>>,
    pub row_count: usize,
}

/// `forwardingTargetForSelector:` is the first of the selectors.
pub const FORWARDING: u32 = 0;
pub const MOST_ROWS: usize = 16_384;

pub fn colons(name: &str) -> usize {
    name.bytes().filter(|it| *it == b':').count()
}

fn is_selector(name: &str) -> bool {
    let (bytes, count) = (name.as_bytes(), colons(name));
    let is_word = bytes
        .iter()
        .all(|it| it.is_ascii_alphanumeric() || *it == b'_' || *it == b':');
    (1..=64).contains(&bytes.len())
        && !bytes[0].is_ascii_digit()
        && is_word
        && count <= 4
        && (count == 0 || name.ends_with(':'))
}

impl<'j> Image<'j> {
    pub fn read(tree: &'j Json<'j>) -> Result<Image<'j>> {
        let mut image = Image::default();
        if !matches!(tree.get("version")?, Json::Whole(1)) {
            return Err(3);
        }
        image.selector("forwardingTargetForSelector:")?;
        let list = |name: &str, most: usize| {
            tree.get(name)?
                .list()
                .and_then(|it| if it.len() > most { Err(4) } else { Ok(it) })
        };
        let (classes, objects, imps) = (
            list("classes", 1024)?,
            list("objects", 4096)?,
            list("imps", 4096)?,
        );
        image.read_names(classes, objects, imps)?;
        image.read_methods(classes, list("categories", 1024)?, imps)?;
        image.read_bodies(imps)?;
        for item in list("items", 65_536)? {
            let item = image.item(item)?;
            image.items.push(item);
        }
        Ok(image)
    }

    fn read_names(
        &mut self,
        classes: &'j [Json<'j>],
        objects: &'j [Json<'j>],
        imps: &'j [Json<'j>],
    ) -> Result<()> {
        for class in classes {
            let above = match class.get("super")? {
                Json::Null => None,
                name => Some(self.classes.find(name.text()?, 6)?),
            };
            self.classes.add(class.get("name")?.text()?, 5)?;
            self.superclass.push(above);
        }
        for object in objects {
            self.class_of.push(self.class(object.get("class")?)?);
            self.objects.add(object.get("name")?.text()?, 8)?;
        }
        for imp in imps {
            self.imp_names.add(imp.get("name")?.text()?, 10)?;
        }
        Ok(())
    }

    fn read_methods(
        &mut self,
        classes: &'j [Json<'j>],
        categories: &'j [Json<'j>],
        imps: &'j [Json<'j>],
    ) -> Result<()> {
        let args: Vec<usize> = imps.iter().map(args_of).collect::<Result<_>>()?;
        for class in classes {
            for kind in ["methods", "class_methods"] {
                let list = self.methods(class.get(kind)?)?;
                self.rows.push(self.fitting(list, &args)?);
            }
        }
        for category in categories {
            let class = self.class(category.get("class")?)? as usize;
            for (meta, kind) in ["methods", "class_methods"].into_iter().enumerate() {
                let list = self.methods(category.get(kind)?)?;
                let list = self.fitting(list, &args)?;
                self.rows[2 * class + meta].extend(list.into_iter().rev());
            }
        }
        self.row_count = self.rows.iter().map(Vec::len).sum();
        if self.row_count > MOST_ROWS {
            Err(4)
        } else {
            Ok(())
        }
    }

    fn read_bodies(&mut self, imps: &'j [Json<'j>]) -> Result<()> {
        for imp in imps {
            let args = args_of(imp)? as u8;
            let home = 2 * self.class(imp.get("class")?)? + imp.get("meta")?.truth()? as u32;
            let body = self.expr(imp.get("body")?, args, 1, &mut 0)?;
            self.imps.push(Imp { home, args, body });
        }
        Ok(())
    }

    fn selector(&mut self, name: &'j str) -> Result<u32> {
        if let Some(number) = self.selectors.number.get(name) {
            return Ok(*number);
        }
        if !is_selector(name) {
            return Err(12);
        }
        self.selectors.add(name, 12)?;
        if self.selectors.list.len() > 4096 {
            Err(4)
        } else {
            Ok(self.selectors.list.len() as u32 - 1)
        }
    }

    fn class(&self, name: &Json) -> Result<u32> {
        self.classes.find(name.text()?, 7)
    }

    /// An implementation's number is one more than its place: 0 is forwarding.
    fn imp(&self, name: &Json) -> Result<u32> {
        Ok(self.imp_names.find(name.text()?, 11)? + 1)
    }

    pub fn takes(&self, selector: u32) -> usize {
        colons(self.selectors.list[selector as usize])
    }

    fn methods(&mut self, list: &'j Json<'j>) -> Result<Vec<(u32, u32)>> {
        let mut found = vec![];
        for pair in list.list()? {
            match pair.list()? {
                [selector, imp] => found.push((self.selector(selector.text()?)?, self.imp(imp)?)),
                _ => return Err(SHAPE),
            }
        }
        Ok(found)
    }

    fn fitting(&self, list: Vec<(u32, u32)>, args: &[usize]) -> Result<Vec<(u32, u32)>> {
        if list
            .iter()
            .all(|it| self.takes(it.0) == args[it.1 as usize - 1])
        {
            Ok(list)
        } else {
            Err(14)
        }
    }

    fn constant(&mut self, it: &'j Json<'j>) -> Result<Value> {
        match it {
            Json::Null => Ok(Value::Nil),
            Json::Whole(number) => Ok(Value::Number(*number)),
            Json::List(parts) if parts.len() == 2 => match (parts[0].text()?, parts[1].text()?) {
                ("obj", name) => self.objects.find(name, 9).map(Value::Object),
                ("class", name) => self.classes.find(name, 7).map(Value::Class),
                ("sel", name) => self.selector(name).map(Value::Selector),
                _ => Err(SHAPE),
            },
            _ => Err(SHAPE),
        }
    }

    fn expr(&mut self, it: &'j Json<'j>, args: u8, depth: u32, count: &mut u32) -> Result<Expr> {
        *count += 1;
        if depth > 32 || *count > 256 {
            return Err(16);
        }
        let parts = match it {
            Json::List(parts) => parts,
            _ => return self.constant(it).map(Expr::Const),
        };
        let mut below =
            |image: &mut Self, at: usize| image.expr(&parts[at], args, depth + 1, &mut *count);
        let make = match parts.first().ok_or(SHAPE)?.text()? {
            "add" => Expr::Add,
            "sub" => Expr::Sub,
            "mul" => Expr::Mul,
            "eq" => Expr::Eq,
            "lt" => Expr::Lt,
            "self" => return Ok(Expr::Me),
            "arg" => return argument(parts, args),
            "if" if parts.len() == 4 => {
                return Ok(Expr::If(Box::new([
                    below(self, 1)?,
                    below(self, 2)?,
                    below(self, 3)?,
                ])))
            }
            "send" if parts.len() >= 3 => {
                let receiver = Box::new(below(self, 1)?);
                let selector = self.selector(parts[2].text()?)?;
                return Ok(Expr::Send(
                    receiver,
                    selector,
                    self.exprs(&parts[3..], selector, args, depth, count)?,
                ));
            }
            "super" if parts.len() >= 2 => {
                let selector = self.selector(parts[1].text()?)?;
                return Ok(Expr::Super(
                    selector,
                    self.exprs(&parts[2..], selector, args, depth, count)?,
                ));
            }
            _ => return self.constant(it).map(Expr::Const),
        };
        if parts.len() != 3 {
            return Err(SHAPE);
        }
        Ok(make(Box::new([below(self, 1)?, below(self, 2)?])))
    }

    fn exprs(
        &mut self,
        list: &'j [Json<'j>],
        selector: u32,
        args: u8,
        depth: u32,
        count: &mut u32,
    ) -> Result<Vec<Expr>> {
        if self.takes(selector) != list.len() {
            return Err(14);
        }
        list.iter()
            .map(|it| self.expr(it, args, depth + 1, count))
            .collect()
    }

    fn item(&mut self, it: &'j Json<'j>) -> Result<Item> {
        if let Ok(send) = it.get("send") {
            return self.send(send.list()?);
        }
        let parts = it.get("change")?.list()?;
        let part = |at: usize| parts.get(at).ok_or(SHAPE);
        let class = 2 * self.class(part(1)?)?;
        if part(0)?.text()? == "attach" {
            return Ok(Item::Attach(
                class,
                self.methods(part(2)?)?,
                self.methods(part(3)?)?,
            ));
        }
        let (class, selector) = (
            class + part(2)?.truth()? as u32,
            self.selector(part(3)?.text()?)?,
        );
        if part(0)?.text()? == "exchange" {
            let other = 2 * self.class(part(4)?)? + part(5)?.truth()? as u32;
            return Ok(Item::Exchange(
                class,
                selector,
                other,
                self.selector(part(6)?.text()?)?,
            ));
        }
        let imp = self.imp(part(4)?)?;
        match part(0)?.text()? {
            "add" => Ok(Item::Add(class, selector, imp)),
            "replace" => Ok(Item::Replace(class, selector, imp)),
            "set" => Ok(Item::Set(class, selector, imp)),
            _ => Err(SHAPE),
        }
    }

    fn send(&mut self, parts: &'j [Json<'j>]) -> Result<Item> {
        if parts.len() < 2 {
            return Err(SHAPE);
        }
        let (receiver, selector) = (self.constant(&parts[0])?, self.selector(parts[1].text()?)?);
        if self.takes(selector) != parts.len() - 2 {
            return Err(14);
        }
        let mut values = [Value::Nil; 4];
        for (value, part) in values.iter_mut().zip(&parts[2..]) {
            *value = self.constant(part)?;
        }
        Ok(Item::Send(receiver, selector, values))
    }

    /// What stands above a class reference.
    pub fn above(&self, class: u32) -> Option<u32> {
        match self.superclass[class as usize / 2] {
            Some(above) => Some(2 * above + (class & 1)),
            None if class & 1 == 1 => Some(class - 1),
            None => None,
        }
    }

    /// Where the method stands that a class reference finds: the class reference, and the place in its list.
    pub fn method(&self, mut class: u32, selector: u32) -> Option<(u32, usize)> {
        loop {
            if let Some(place) = self.rows[class as usize]
                .iter()
                .rposition(|row| row.0 == selector)
            {
                return Some((class, place));
            }
            class = self.above(class)?;
        }
    }
}

fn args_of(imp: &Json) -> Result<usize> {
    match imp.get("args")? {
        Json::Whole(count @ 0..=4) => Ok(*count as usize),
        _ => Err(SHAPE),
    }
}

fn argument(parts: &[Json], args: u8) -> Result<Expr> {
    match parts.get(1) {
        Some(Json::Whole(place)) if *place >= 0 => {
            if *place < args as i64 {
                Ok(Expr::Arg(*place as u8))
            } else {
                Err(15)
            }
        }
        _ => Err(SHAPE),
    }
}
