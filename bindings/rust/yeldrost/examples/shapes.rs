//! Two classes, two threads that send, and a method that is swapped beside them.
use std::sync::atomic::{AtomicBool, Ordering};
use yeldrost::{ClassRef, Config, Fault, Imp, Runtime, Selector, Sender};

const SHAPE: u32 = 0;
const SQUARE: u32 = 1;
const SQUARES: ClassRef = ClassRef::instances_of(SQUARE);

type Body = fn(i32) -> i32;
/// My implementations, from 1; the first is what is called where nobody has the method.
const BODIES: [Body; 4] = [|_| -1, |_| 4, |side| side * side, |side| 2 * side * side];

fn selector(number: u32) -> Selector {
    Selector::new(number).expect("selectors are numbered from 1")
}

fn imp(number: u32) -> Imp {
    Imp::new(number).expect("implementations are numbered from 1")
}

fn send(sender: &mut Sender, selector: Selector, side: i32) -> Result<i32, Fault> {
    let found = sender.find(SQUARES, selector)?;
    Ok(BODIES[found.map_or(0, |it| it.get() as usize)](side))
}

fn main() -> Result<(), Fault> {
    let (area, sides) = (selector(1), selector(2));
    let runtime = Runtime::open(Config::default())?;
    runtime
        .lock()
        .make_root_class(SHAPE)?
        .make_class(SQUARE, SHAPE)?
        .add(ClassRef::instances_of(SHAPE), sides, imp(1))?
        .add(SQUARES, area, imp(2))?;
    let mut sender = runtime.sender()?;
    println!(
        "area {}, sides {}",
        send(&mut sender, area, 3)?,
        send(&mut sender, sides, 3)?
    );

    let swapped = AtomicBool::new(false);
    std::thread::scope(|threads| {
        for _ in 0..2 {
            let mut own = runtime.sender().expect("there is room for a sender");
            let swapped = &swapped;
            threads.spawn(move || {
                while !swapped.load(Ordering::SeqCst) {
                    assert!([Ok(9), Ok(18)].contains(&send(&mut own, area, 3)));
                }
                assert_eq!(Ok(18), send(&mut own, area, 3));
            });
        }
        runtime
            .lock()
            .replace(SQUARES, area, imp(3))
            .expect("the class is made");
        swapped.store(true, Ordering::SeqCst);
    });
    println!(
        "area {} after the swap, in each thread",
        send(&mut sender, area, 3)?
    );
    let made = runtime.lock().make_root_class(SQUARE).map(|_| ()); // the lock is given back here
    if let Err(fault) = made {
        println!("fault: {fault}");
    }
    Ok(())
}
