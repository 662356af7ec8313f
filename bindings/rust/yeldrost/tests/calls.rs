//! Each call of the header through the safe crate, each kind of fault, and threads beside changes.
use std::sync::{
    atomic::{AtomicBool, Ordering},
    Barrier,
};
use yeldrost::{
    Change, ClassRef, Config, Fault, Imp, Method, Probed, Refused, Runtime, Selector, Sender, Texts,
};

const ROOT: u32 = 0;
const CHILD: u32 = 1;
const OTHER: u32 = 2;
const LATER: u32 = 3;
const ROOTS: ClassRef = ClassRef::instances_of(ROOT);
const CHILDREN: ClassRef = ClassRef::instances_of(CHILD);
const CHILD_ITSELF: ClassRef = ClassRef::class_itself(CHILD);

fn s(number: u32) -> Selector {
    Selector::new(number).unwrap()
}

fn i(number: u32) -> Imp {
    Imp::new(number).unwrap()
}

fn method(selector: u32, imp: u32) -> Method {
    Method {
        selector: s(selector),
        imp: i(imp),
    }
}

const VALUE: u32 = 1;
const NAME: u32 = 2;
const NEW: u32 = 3;
const TAKE: u32 = 4;

fn opened() -> Runtime {
    let runtime = Runtime::open(Config::default()).unwrap();
    runtime
        .lock()
        .make_root_class(ROOT)
        .and_then(|it| it.make_class(CHILD, ROOT))
        .and_then(|it| {
            it.attach(
                ROOT,
                &[method(VALUE, 1), method(NAME, 2)],
                &[method(NEW, 4)],
            )
        })
        .and_then(|it| it.add(CHILDREN, s(NAME), i(3)))
        .unwrap();
    runtime
}

#[test]
fn questions() {
    let runtime = opened();
    let mut now = runtime.lock();
    assert_eq!((Ok(16384), Ok(4)), (now.class_count(), now.change_count()));
    for (of, selector, found) in [
        (CHILDREN, VALUE, 1),
        (CHILDREN, NAME, 3),
        (ROOTS, NAME, 2),
        (CHILD_ITSELF, NEW, 4),
        (CHILD_ITSELF, VALUE, 1),
        (CHILDREN, TAKE, 0),
        (ClassRef::instances_of(OTHER), VALUE, 0),
    ] {
        assert_eq!(Ok(Imp::new(found)), now.lookup(of, s(selector)));
    }
    assert_eq!(Ok(Some(ROOTS)), now.superclass(CHILDREN));
    assert_eq!(Ok(None), now.superclass(ROOTS));
    assert_eq!(
        Ok(Some(ROOTS)),
        now.superclass(ClassRef::class_itself(ROOT))
    );
    assert_eq!(Ok(Some(ROOTS)), now.holder(CHILDREN, s(VALUE)));
    assert_eq!(Ok(None), now.holder(CHILDREN, s(TAKE)));
    assert_eq!(
        Err(Fault::NoClass),
        now.lookup(ClassRef::instances_of(16384), s(VALUE))
    );
    assert_eq!(Ok(vec![method(NAME, 3)]), now.methods(CHILDREN));
    assert_eq!(Ok(vec![]), now.methods(CHILD_ITSELF));
    assert_eq!(Ok(vec![ROOT, CHILD]), now.classes());
    assert_eq!(Ok(vec![CHILD]), now.classes_below(ROOT));
    assert_eq!(
        Err(Fault::NoClass),
        now.methods(ClassRef::instances_of(16384))
    );
    let report = now.report().unwrap();
    assert_eq!(
        (0, [0; 9], 0),
        (report.fills, report.no_array, report.refused_senders)
    );
}

#[test]
fn changes() {
    let runtime = opened();
    let mut now = runtime.lock();
    now.replace(CHILDREN, s(VALUE), i(5))
        .unwrap()
        .set_imp(CHILDREN, s(NAME), i(6))
        .unwrap();
    now.exchange(CHILDREN, s(VALUE), ROOTS, s(NAME)).unwrap();
    assert_eq!(Ok(Some(i(2))), now.lookup(CHILDREN, s(VALUE)));
    assert_eq!(Ok(Some(i(5))), now.lookup(ROOTS, s(NAME)));
    now.attach(CHILD, &[], &[])
        .unwrap()
        .attach(CHILD, &[], &[method(TAKE, 7)])
        .unwrap();
    assert_eq!(Ok(Some(i(7))), now.lookup(CHILD_ITSELF, s(TAKE)));
    let count = now.change_count().unwrap();
    let refused = [
        now.add(ClassRef::instances_of(OTHER), s(VALUE), i(1)).err(),
        now.make_class(OTHER, LATER).err(),
        now.add(CHILDREN, s(NAME), i(1)).err(),
        now.set_imp(CHILDREN, s(99), i(1)).err(),
        now.make_root_class(ROOT).err(),
    ];
    let faults = [
        Fault::NoSuchClass,
        Fault::NoSuchClass,
        Fault::MethodPresent,
        Fault::NoMethod,
        Fault::DuplicateClass,
    ];
    assert_eq!(faults.map(Some), refused);
    assert_eq!([1, 1, 4, 5, 8], faults.map(Fault::number));
    assert_eq!(Ok(count), now.change_count());
}

fn replace(of: ClassRef, selector: u32, imp: u32) -> Change {
    Change::Replace {
        of,
        selector: s(selector),
        imp: i(imp),
    }
}

#[test]
fn lists_of_changes() {
    let runtime = opened();
    let mut sender = runtime.sender().unwrap();
    let others = ClassRef::instances_of(OTHER);
    let changes = [
        Change::MakeClass {
            number: OTHER,
            superclass: CHILD,
        },
        Change::Add {
            of: others,
            selector: s(TAKE),
            imp: i(7),
        },
        replace(CHILDREN, VALUE, 5),
        Change::SetImp {
            of: ROOTS,
            selector: s(NAME),
            imp: i(6),
        },
        Change::Exchange {
            of: CHILDREN,
            selector: s(NAME),
            other: CHILD_ITSELF,
            other_selector: s(NEW),
        },
        Change::MakeRootClass { number: LATER },
    ];
    assert_eq!(Ok(Some(i(1))), sender.find(CHILDREN, s(VALUE)));
    runtime.lock().change_all(&changes).unwrap();
    for (of, selector, found) in [
        (others, TAKE, 7),
        (CHILDREN, VALUE, 5),
        (ROOTS, NAME, 6),
        (CHILDREN, NAME, 4),
        (CHILD_ITSELF, NEW, 3),
    ] {
        assert_eq!(Ok(Imp::new(found)), sender.find(of, s(selector)));
    }
    runtime.lock().change_all(&[]).unwrap();
    assert_eq!(Ok(5), runtime.lock().change_count());
    assert_eq!(Ok(Some(i(5))), sender.find(CHILDREN, s(VALUE)));
    assert_eq!(Some(i(5)), sender.recall(CHILDREN, s(VALUE)));
}

#[test]
fn the_way_back_and_what_is_reached() {
    let runtime = opened();
    let mut sender = runtime.sender().unwrap();
    let changes = [replace(CHILDREN, NAME, 5)];
    assert_eq!(Ok(vec![CHILDREN]), runtime.lock().reach(&changes));
    assert_eq!(Ok(Some(i(3))), sender.find(CHILDREN, s(NAME)));
    let undo = runtime.lock().change_all_with_undo(&changes);
    assert_eq!(Ok(vec![replace(CHILDREN, NAME, 3)]), undo);
    assert_eq!(Ok(Some(i(5))), sender.find(CHILDREN, s(NAME)));
    runtime.lock().change_all(&undo.unwrap()).unwrap();
    assert_eq!(Ok(Some(i(3))), sender.find(CHILDREN, s(NAME)));
    let made = [Change::MakeClass {
        number: OTHER,
        superclass: CHILD,
    }];
    let undo = runtime.lock().change_all_with_undo(&made);
    assert_eq!(Ok(vec![Change::DisposeClass { number: OTHER }]), undo);
    assert_eq!(Ok(vec![]), runtime.lock().change_all_with_undo(&[]));
}

#[test]
fn a_class_that_comes_and_goes() {
    let runtime = opened();
    let mut sender = runtime.sender().unwrap();
    let others = ClassRef::instances_of(OTHER);
    let mut now = runtime.lock();
    now.make_class(OTHER, CHILD).unwrap();
    for selector in 90..99 {
        now.add(others, s(selector), i(7)).unwrap();
    }
    assert_eq!(Some(Fault::ClassInUse), now.dispose_class(CHILD).err());
    let gone = [Change::DisposeClass { number: OTHER }];
    let undo = now.change_all_with_undo(&gone).unwrap();
    assert_eq!(10, undo.len());
    let made = Change::MakeClass {
        number: OTHER,
        superclass: CHILD,
    };
    assert_eq!(made, undo[0]);
    assert_eq!(Ok(None), now.lookup(others, s(95)));
    now.change_all(&undo).unwrap();
    assert_eq!(Ok(Some(i(7))), now.lookup(others, s(95)));
    now.attach(OTHER, &[method(95, 8)], &[]).unwrap();
    assert_eq!(Ok(Some(i(8))), now.lookup(others, s(95)));
    now.remove(others, s(95)).unwrap();
    drop(now);
    assert_eq!(Ok(Some(i(7))), sender.find(others, s(95)));
}

#[test]
fn a_refused_list_changes_nothing() {
    let runtime = opened();
    let changes = [
        replace(CHILDREN, VALUE, 5),
        replace(ClassRef::instances_of(LATER), NAME, 5),
    ];
    let refused = |fault, place| Some(Refused { fault, place });
    let answer = runtime.lock().change_all(&changes).err();
    assert_eq!(refused(Fault::NoSuchClass, Some(1)), answer);
    assert_eq!(
        "place 1: no such class, or it isn't made",
        answer.unwrap().to_string()
    );
    assert_eq!(Ok(4), runtime.lock().change_count());
    assert_eq!(Ok(Some(i(1))), runtime.lookup(CHILDREN, s(VALUE)));
    assert_eq!(Ok(Some(ROOTS)), runtime.superclass(CHILDREN));
    assert_eq!(Ok(Some(ROOTS)), runtime.holder(CHILDREN, s(VALUE)));
    runtime.close().unwrap();
    for list in [&changes[..1], &[]] {
        let answer = runtime.lock().change_all(list).err();
        assert_eq!(refused(Fault::Closed, None), answer);
    }
}

#[test]
fn configs() {
    let config = Config {
        classes: 10,
        senders: 2,
        ..Config::default()
    };
    let runtime = Runtime::open(config).unwrap();
    assert_eq!(Ok(10), runtime.lock().class_count());
    let (_one, two) = (runtime.sender().unwrap(), runtime.sender().unwrap());
    assert_eq!(Some(Fault::NoSender), runtime.sender().err());
    assert_eq!(1, runtime.lock().report().unwrap().refused_senders);
    drop(two);
    runtime.sender().unwrap();
    assert_eq!(
        Some(Fault::BadConfig),
        Runtime::open(Config {
            classes: 2_000_000,
            ..config
        })
        .err()
    );
}

#[test]
fn senders() {
    let (runtime, other) = (opened(), opened());
    let mut sender = runtime.sender().unwrap();
    assert_eq!(size_of::<yeldrost_sys::msg_sender>(), unsafe {
        yeldrost_sys::msg_sender_size()
    });
    assert_eq!(1_000, unsafe { yeldrost_sys::msg_version() });
    assert_eq!(
        (Ok(Probed::Missed), None),
        (
            sender.probe(ROOTS, s(VALUE)),
            sender.recall(CHILDREN, s(VALUE))
        )
    );
    assert_eq!(
        Ok(Some(i(1))),
        runtime.lock().fill(&mut sender, CHILDREN, s(VALUE))
    );
    assert_eq!(Ok(Probed::Found(i(1))), sender.probe(CHILDREN, s(VALUE)));
    assert_eq!(Some(i(1)), sender.recall(CHILDREN, s(VALUE)));
    assert_eq!(Some(i(1)), sender.recall_since(CHILDREN, s(VALUE), 4));
    assert_eq!(Ok(Some(i(4))), sender.find(CHILD_ITSELF, s(NEW)));
    assert_eq!(Ok(None), sender.find(CHILDREN, s(TAKE)));
    assert_eq!(Ok(Probed::NoMethod), sender.probe(CHILDREN, s(TAKE)));
    assert!(sender.recalls_none(CHILDREN, s(TAKE)));
    assert!(sender.stamp(CHILDREN).unwrap() <= 4);
    runtime.lock().replace(CHILDREN, s(VALUE), i(5)).unwrap();
    assert_eq!(None, sender.recall(CHILDREN, s(VALUE)));
    assert!(!sender.recalls_none(CHILDREN, s(TAKE)));
    assert_eq!(Ok(u64::MAX), sender.stamp(CHILDREN));
    assert_eq!(Ok(Some(i(5))), sender.find(CHILDREN, s(VALUE)));
    runtime.lock().replace(CHILDREN, s(VALUE), i(6)).unwrap();
    assert_eq!(Ok(6), sender.refresh());
    assert_eq!(Ok(Some(i(6))), sender.find_called(CHILDREN, s(VALUE)));
    runtime.lock().meet(&mut sender).unwrap();
    assert_eq!(Ok(4), runtime.lock().seen_by_all(), "a meeting is no rest");
    runtime.lock().rest(&mut sender).unwrap();
    assert_eq!(Ok(6), runtime.lock().seen_by_all());
    assert_eq!(
        Err(Fault::NoClass),
        sender.find(ClassRef::instances_of(u32::MAX), s(VALUE))
    );
    assert_eq!(
        None,
        sender.recall(ClassRef::instances_of(1 << 31 | CHILD), s(VALUE))
    );
    assert_eq!(
        Err(Fault::OtherRuntime),
        other.lock().fill(&mut sender, CHILDREN, s(VALUE))
    );
    assert_eq!(Err(Fault::OtherRuntime), other.lock().meet(&mut sender));
}

#[test]
fn several_as_one() {
    let runtime = opened();
    let mut sender = runtime.sender().unwrap();
    let three = [
        (CHILDREN, s(NAME)),
        (CHILD_ITSELF, s(NEW)),
        (CHILDREN, s(TAKE)),
    ];
    let found = |imp| Ok(vec![Some(i(imp)), Some(i(4)), None]);
    assert_eq!(found(3), sender.find_all(&three));
    assert_eq!(found(3), sender.find_all(&three));
    runtime.lock().replace(CHILDREN, s(NAME), i(8)).unwrap();
    assert_eq!(found(8), sender.find_all(&three));
    assert_eq!(Ok(vec![]), sender.find_all(&[]));
    let beyond = [
        (CHILDREN, s(NAME)),
        (ClassRef::instances_of(u32::MAX), s(NAME)),
    ];
    let refused = Refused {
        fault: Fault::NoClass,
        place: Some(1),
    };
    assert_eq!(Err(refused), sender.find_all(&beyond));
}

#[test]
fn a_refused_change_is_no_change() {
    let runtime = opened();
    let mut sender = runtime.sender().unwrap();
    sender.find(CHILDREN, s(VALUE)).unwrap();
    runtime.lock().make_root_class(ROOT).unwrap_err();
    assert_eq!(Some(i(1)), sender.recall(CHILDREN, s(VALUE)));
    assert_eq!(Ok(Some(i(1))), sender.find(CHILDREN, s(VALUE)));
}

#[test]
fn a_closed_runtime() {
    let runtime = opened();
    let mut sender = runtime.sender().unwrap();
    sender.find(CHILDREN, s(VALUE)).unwrap();
    runtime.clone().close().unwrap();
    assert_eq!(Err(Fault::Closed), runtime.close());
    assert_eq!(Err(Fault::Closed), runtime.lookup(CHILDREN, s(VALUE)));
    assert_eq!(Some(Fault::Closed), runtime.sender().err());
    assert_eq!(Ok(Some(i(1))), sender.find(CHILDREN, s(VALUE)));
    assert_eq!(Err(Fault::Closed), sender.find(CHILDREN, s(TAKE)));
}

#[test]
fn threads_beside_changes() {
    fn is_send<T: Send>(_: &T) {}
    let runtime = opened();
    let over = AtomicBool::new(false);
    let all_began = Barrier::new(4);
    std::thread::scope(|threads| {
        for _ in 0..3 {
            let mut sender: Sender = runtime.sender().unwrap();
            is_send(&sender);
            let (over, all_began) = (&over, &all_began);
            threads.spawn(move || {
                all_began.wait();
                while !over.load(Ordering::SeqCst) {
                    let found = sender.find(CHILDREN, s(NAME)).unwrap().unwrap().get();
                    assert!([3, 8].contains(&found));
                }
                assert_eq!(Ok(Some(i(8))), sender.find(CHILDREN, s(NAME)));
            });
        }
        all_began.wait();
        for at in 0..1001 {
            runtime
                .lock()
                .replace(CHILDREN, s(NAME), i(if at % 2 == 0 { 8 } else { 3 }))
                .unwrap();
        }
        over.store(true, Ordering::SeqCst);
    });
}

#[test]
fn texts() {
    let mut texts = Texts::open().unwrap();
    for (text, number) in [("value", 1), ("setValue:forKey:", 2), ("", 3), ("value", 1)] {
        assert_eq!(
            Ok(s(number)),
            texts.intern(text.as_bytes()).map(Selector::from)
        );
        let found = texts.find(text.as_bytes()).unwrap();
        assert_eq!(Some(s(number)), found.map(Selector::from));
        assert_eq!(Ok(Some(text.as_bytes().to_vec())), texts.text(number));
    }
    assert_eq!(Ok(None), texts.find(b"valu"));
    assert_eq!((Ok(None), Ok(None)), (texts.text(0), texts.text(4)));
    let mut texts = std::thread::spawn(|| texts).join().unwrap();
    assert_eq!(
        (Ok(Some(0)), Ok(Some(2))),
        (texts.colons(1), texts.colons(2))
    );
    assert_eq!(Ok(None), texts.colons(4));
}

#[test]
fn types_are_read() {
    let type_ = yeldrost::first_type(b"{inner=cs}8@0");
    assert_eq!((4, 2, 10), (type_.size, type_.align, type_.end));
    assert_eq!(0, yeldrost::first_type(b"").end);
    let member = yeldrost::next_member(b"\"s\"s}", 8).unwrap();
    assert_eq!((3, 4), (member.begin, member.end));
    assert_eq!((16, 32, 2), (member.first, member.last, member.align));
    assert_eq!(None, yeldrost::next_member(b"}", 8));
}

#[test]
fn the_library_is_of_the_version_of_the_crates() {
    let version = yeldrost_sys::MSG_VERSION_NUMBER;
    assert_eq!(version, unsafe { yeldrost_sys::msg_version() });
}
