//! The walk over a body's tree, and what changes do.
use crate::image::{Expr, Image, Item, QuickMap, Value, FORWARDING, MOST_ROWS};

const MOST_LOOKUPS: u32 = 10_000;
const MOST_BODIES: u32 = 32;
const MOST_CHANGES: u32 = 65_536;

pub enum Fault {
    Unrecognized(u32, u32),
    NotAnObject,
    NotANumber,
    Overflow,
    TargetNotAnObject,
    Budget,
    Depth,
}

/// How a class reference is asked for a selector's implementation; 0 is forwarding.
pub trait Finder {
    fn find(&mut self, image: &Image, class: u32, selector: u32) -> u32;
    /// A change was made.
    fn forget(&mut self) {}
}

#[inline(never)]
fn walk(image: &Image, class: u32, selector: u32) -> u32 {
    image
        .method(class, selector)
        .map_or(0, |(at, place)| image.rows[at as usize][place].1)
}

/// Walks the chain each time.
pub struct Walking;

impl Finder for Walking {
    #[inline]
    fn find(&mut self, image: &Image, class: u32, selector: u32) -> u32 {
        walk(image, class, selector)
    }
}

/// Keeps what each class reference has answered in a hash map of its own.
pub struct Caching(pub Vec<QuickMap<u32, u32>>);

impl Finder for Caching {
    #[inline]
    fn find(&mut self, image: &Image, class: u32, selector: u32) -> u32 {
        if let Some(found) = self.0[class as usize].get(&selector) {
            return *found;
        }
        let found = walk(image, class, selector);
        self.0[class as usize].insert(selector, found);
        found
    }
    fn forget(&mut self) {
        self.0
            .iter_mut()
            .filter(|it| !it.is_empty())
            .for_each(|it| it.clear());
    }
}

/// One send under way.
pub struct Send<'a, 'j, F: Finder> {
    image: &'a Image<'j>,
    finder: &'a mut F,
    lookups: u32,
    bodies: u32,
}

type Answer<T = Value> = Result<T, Fault>;

impl<'a, 'j, F: Finder> Send<'a, 'j, F> {
    pub fn reply(
        image: &'a Image<'j>,
        finder: &'a mut F,
        receiver: Value,
        selector: u32,
        values: &[Value; 4],
    ) -> Answer {
        Send {
            image,
            finder,
            lookups: 0,
            bodies: 0,
        }
        .send(receiver, selector, values, None)
    }

    #[inline]
    fn find(&mut self, class: u32, selector: u32) -> Answer<u32> {
        if self.lookups == MOST_LOOKUPS {
            return Err(Fault::Budget);
        }
        self.lookups += 1;
        Ok(self.finder.find(self.image, class, selector))
    }

    fn enter(&mut self, imp: u32, me: Value, values: &[Value; 4]) -> Answer {
        if self.bodies == MOST_BODIES {
            return Err(Fault::Depth);
        }
        self.bodies += 1;
        let imp = &self.image.imps[imp as usize - 1];
        let value = self.eval(&imp.body, me, values, imp.home)?;
        self.bodies -= 1;
        Ok(value)
    }

    fn send(
        &mut self,
        mut me: Value,
        selector: u32,
        values: &[Value; 4],
        mut begin: Option<u32>,
    ) -> Answer {
        loop {
            let class = match me {
                Value::Nil => return Ok(Value::Nil),
                Value::Object(it) => 2 * self.image.class_of[it as usize],
                Value::Class(it) => 2 * it + 1,
                _ => return Err(Fault::NotAnObject),
            };
            let imp = self.find(begin.take().unwrap_or(class), selector)?;
            if imp != 0 {
                return self.enter(imp, me, values);
            }
            let imp = self.find(class, FORWARDING)?;
            if imp == 0 {
                return Err(Fault::Unrecognized(class, selector));
            }
            match self.enter(
                imp,
                me,
                &[
                    Value::Selector(selector),
                    Value::Nil,
                    Value::Nil,
                    Value::Nil,
                ],
            )? {
                Value::Nil => return Err(Fault::Unrecognized(class, selector)),
                target if target == me => return Err(Fault::Unrecognized(class, selector)),
                Value::Number(_) | Value::Selector(_) => return Err(Fault::TargetNotAnObject),
                target => me = target,
            }
        }
    }

    fn values(
        &mut self,
        list: &[Expr],
        me: Value,
        values: &[Value; 4],
        home: u32,
    ) -> Answer<[Value; 4]> {
        let mut found = [Value::Nil; 4];
        for (value, it) in found.iter_mut().zip(list) {
            *value = self.eval(it, me, values, home)?;
        }
        Ok(found)
    }

    #[inline]
    fn number(
        &mut self,
        both: &[Expr; 2],
        me: Value,
        values: &[Value; 4],
        home: u32,
        made: impl Fn(i64, i64) -> Option<i64>,
    ) -> Answer {
        let number = |it| match it {
            Value::Number(it) => Ok(it),
            Value::Nil => Ok(0),
            _ => Err(Fault::NotANumber),
        };
        let one = self.eval(&both[0], me, values, home)?;
        let other = self.eval(&both[1], me, values, home)?;
        made(number(one)?, number(other)?)
            .map(Value::Number)
            .ok_or(Fault::Overflow)
    }

    fn eval(&mut self, it: &Expr, me: Value, values: &[Value; 4], home: u32) -> Answer {
        Ok(match it {
            Expr::Const(value) => *value,
            Expr::Me => me,
            Expr::Arg(place) => values[*place as usize],
            Expr::Add(both) => self.number(both, me, values, home, i64::checked_add)?,
            Expr::Sub(both) => self.number(both, me, values, home, i64::checked_sub)?,
            Expr::Mul(both) => self.number(both, me, values, home, i64::checked_mul)?,
            Expr::Lt(both) => self.number(both, me, values, home, |one, other| {
                Some((one < other) as i64)
            })?,
            Expr::Eq(both) => {
                let number = |it| {
                    if it == Value::Nil {
                        Value::Number(0)
                    } else {
                        it
                    }
                };
                let one = self.eval(&both[0], me, values, home)?;
                Value::Number(
                    (number(one) == number(self.eval(&both[1], me, values, home)?)) as i64,
                )
            }
            Expr::If(parts) => match self.eval(&parts[0], me, values, home)? {
                Value::Nil | Value::Number(0) => self.eval(&parts[2], me, values, home)?,
                _ => self.eval(&parts[1], me, values, home)?,
            },
            Expr::Send(receiver, selector, list) => {
                let receiver = self.eval(receiver, me, values, home)?;
                let found = self.values(list, me, values, home)?;
                self.send(receiver, *selector, &found, None)?
            }
            Expr::Super(selector, list) => {
                let found = self.values(list, me, values, home)?;
                self.send(me, *selector, &found, self.image.above(home))?
            }
        })
    }
}

/// Makes a change, or says why it is refused.
pub fn change(image: &mut Image, item: &Item, accepted: &mut u32) -> Result<(), &'static str> {
    let is_full = |image: &Image, more: usize| {
        *accepted >= MOST_CHANGES || image.row_count + more > MOST_ROWS
    };
    let misfits = |image: &Image, selector: u32, imp: u32| {
        image.takes(selector) != image.imps[imp as usize - 1].args as usize
    };
    match item {
        Item::Add(class, selector, imp) | Item::Replace(class, selector, imp) => {
            let own = image.rows[*class as usize]
                .iter()
                .rposition(|row| row.0 == *selector);
            if misfits(image, *selector, *imp) {
                return Err("argument count");
            }
            if own.is_some() && matches!(item, Item::Add(..)) {
                return Err("method present");
            }
            if is_full(image, own.is_none() as usize) {
                return Err("limit");
            }
            match own {
                Some(place) => image.rows[*class as usize][place].1 = *imp,
                None => append(image, *class, &[(*selector, *imp)]),
            }
        }
        Item::Set(class, selector, imp) => {
            if misfits(image, *selector, *imp) {
                return Err("argument count");
            }
            let (at, place) = image.method(*class, *selector).ok_or("no method")?;
            if is_full(image, 0) {
                return Err("limit");
            }
            image.rows[at as usize][place].1 = *imp;
        }
        Item::Exchange(class, selector, other, other_selector) => {
            if image.takes(*selector) != image.takes(*other_selector) {
                return Err("argument count");
            }
            let one = image.method(*class, *selector).ok_or("no method")?;
            let two = image.method(*other, *other_selector).ok_or("no method")?;
            if is_full(image, 0) {
                return Err("limit");
            }
            let kept = image.rows[one.0 as usize][one.1].1;
            image.rows[one.0 as usize][one.1].1 = image.rows[two.0 as usize][two.1].1;
            image.rows[two.0 as usize][two.1].1 = kept;
        }
        Item::Attach(class, methods, class_methods) => {
            if methods
                .iter()
                .chain(class_methods)
                .any(|it| misfits(image, it.0, it.1))
            {
                return Err("argument count");
            }
            if is_full(image, methods.len() + class_methods.len()) {
                return Err("limit");
            }
            append(image, *class, methods);
            append(image, *class + 1, class_methods);
        }
        Item::Send(..) => unreachable!("a send is no change"),
    }
    *accepted += 1;
    Ok(())
}

/// Of one list the first is found, so it is put last.
fn append(image: &mut Image, class: u32, methods: &[(u32, u32)]) {
    image.rows[class as usize].extend(methods.iter().rev());
    image.row_count += methods.len();
}
