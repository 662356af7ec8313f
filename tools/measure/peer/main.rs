//! The peer of `tools/measure/program`: answers documents of version 1 as `msgrun` does, on one thread, and nothing of it is proved. It is for documents without a fault: of
//! others it says a fault, perhaps not the least, and ends with status 2.
//!
//!     peer [walking | caching] < DOCUMENT      `caching` keeps what each class has answered, `walking` walks the chain each time
mod eval;
mod image;
mod json;

use eval::{change, Caching, Fault, Finder, Send, Walking};
use image::{Image, Item, QuickMap, Value};
use std::fmt::Write as _;
use std::io::{Read, Write};

fn refuse(fault: u32) -> ! {
    eprintln!("peer: document fault {fault}");
    std::process::exit(2)
}

fn push_reply(text: &mut String, image: &Image, reply: Result<Value, Fault>) {
    let said = match reply {
        Ok(Value::Number(it)) => writeln!(text, "{it}"),
        Ok(Value::Nil) => writeln!(text, "nil"),
        Ok(Value::Object(it)) => writeln!(text, "object {}", image.objects.list[it as usize]),
        Ok(Value::Class(it)) => writeln!(text, "class {}", image.classes.list[it as usize]),
        Ok(Value::Selector(it)) => writeln!(text, "selector {}", image.selectors.list[it as usize]),
        Err(Fault::Unrecognized(class, selector)) => {
            let sign = if class & 1 == 1 { '+' } else { '-' };
            let (class, selector) = (
                image.classes.list[class as usize / 2],
                image.selectors.list[selector as usize],
            );
            writeln!(text, "fault: unrecognized {sign}[{class} {selector}]")
        }
        Err(Fault::NotAnObject) => writeln!(text, "fault: not an object"),
        Err(Fault::NotANumber) => writeln!(text, "fault: not a number"),
        Err(Fault::Overflow) => writeln!(text, "fault: overflow"),
        Err(Fault::TargetNotAnObject) => writeln!(text, "fault: target not an object"),
        Err(Fault::Budget) => writeln!(text, "fault: budget"),
        Err(Fault::Depth) => writeln!(text, "fault: depth"),
    };
    said.expect("a string takes all");
}

fn answer<F: Finder>(image: &mut Image, finder: &mut F) -> String {
    let (mut text, mut accepted) = (String::new(), 0);
    for item in std::mem::take(&mut image.items) {
        if let Item::Send(receiver, selector, values) = item {
            let reply = Send::reply(image, finder, receiver, selector, &values);
            push_reply(&mut text, image, reply);
            continue;
        }
        match change(image, &item, &mut accepted) {
            Ok(()) => {
                finder.forget();
                text.push_str("ok\n");
            }
            Err(why) => writeln!(text, "refused: {why}").expect("a string takes all"),
        }
    }
    text
}

fn main() {
    let is_caching = match std::env::args().nth(1).as_deref() {
        None | Some("caching") => true,
        Some("walking") => false,
        _ => {
            eprintln!("usage: peer [walking | caching] < DOCUMENT");
            std::process::exit(2)
        }
    };
    let mut bytes = vec![];
    if std::io::stdin().lock().read_to_end(&mut bytes).is_err() {
        std::process::exit(1)
    }
    if bytes.len() > 16_777_216 {
        refuse(4)
    }
    let tree = json::read(&bytes).unwrap_or_else(|fault| refuse(fault));
    let mut image = Image::read(&tree).unwrap_or_else(|fault| refuse(fault));
    let text = if is_caching {
        let count = image.rows.len();
        answer(&mut image, &mut Caching(vec![QuickMap::default(); count]))
    } else {
        answer(&mut image, &mut Walking)
    };
    let is_written = std::io::stdout().write_all(text.as_bytes()).is_ok();
    // nothing is freed, as `main` would after writing
    std::process::exit(if is_written { 0 } else { 1 })
}
