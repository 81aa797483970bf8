//! The crate on the library of fake_library.c: errors, replies in their parts, gates that are dropped.

use gate::{check, version, Changes, Check, Error, Event, Gate, Keys, NotAReply, Reply, Rule, Then, Txid};

extern "C" {
    fn fake_open_handles() -> usize;
}

fn open_handles() -> usize {
    unsafe { fake_open_handles() }
}

fn open_gate() -> Gate {
    Gate::open(Keys::random(), "").expect("an opening")
}

fn moves() {
    let one = open_gate();
    assert_eq!(open_handles(), 1);
    let many: Vec<Gate> = (0..20).map(|_| open_gate()).chain([one]).collect();
    assert_eq!(open_handles(), 21);
    // a gate may go to another thread
    std::thread::spawn(move || drop(many)).join().expect("no panic");
    assert_eq!(open_handles(), 0);
}

fn faults() {
    let mut gate = open_gate();
    assert_eq!(gate.answer(""), Ok(String::new()));
    assert_eq!(gate.ask("# a comment"), Ok(None));
    assert_eq!(gate.answer(b"set"), Ok("set\n".to_string()));
    assert_eq!(gate.answer("end 3"), Err(Error::OutOfMemory));
    assert_eq!(gate.answer("end 7"), Err(Error::LineTooLong));
    assert_eq!(gate.answer("end 77"), Err(Error::UnknownStatus(77)));
    assert_eq!(gate.answer("end 5"), Err(Error::UnknownStatus(5)));
    assert_eq!(gate.reply().as_deref(), Ok("set\n"));
    assert_eq!(gate.answer("keep left"), Err(Error::ReplyKept));
    assert_eq!(gate.reply().as_deref(), Ok("left\n"));
    assert_eq!(gate.ask("no such reply"), Err(Error::UnknownReply(NotAReply("no such reply".to_string()))));
    for text in ["", "\n", "set\n\n", "set\nset", "denied A1 keep two\nlines", "rpc 200 {\n}"] {
        assert!(text.parse::<Reply>().is_err(), "{:?}", text);
    }
    let longest = "x".repeat(1000);
    assert_eq!(gate.answer(&longest), Ok(longest.clone() + "\n"));
    assert_eq!(gate.reply(), Ok(longest + "\n"));
    let keys = Keys { first: 1, second: 2 };
    assert_eq!(format!("{:?} {:?}", gate, keys), "Gate { .. } Keys { .. }");
    let refused = Gate::open(keys, "refuse").unwrap_err();
    assert_eq!(refused, Error::OpeningRefused { line: 1, token: "bad-line".to_string() });
    assert_eq!(refused.to_string(), "opening 1 bad-line");
    assert_eq!(Gate::open(Keys::random(), "end 3").err(), Some(Error::OutOfMemory));
    assert_eq!(open_handles(), 1);
}

fn events() {
    let mut gate = open_gate();
    // lines are read by other threads
    let lines = ["set", "left", "# a comment"];
    let readers = lines.map(|line| std::thread::spawn(move || Event::read(line).expect("an event")));
    let mut events = readers.map(|reader| reader.join().expect("no panic"));
    assert_eq!(open_handles(), 4);
    assert_eq!(format!("{:?}", events[0]), "Event { .. }");
    for _ in 0..2 {
        assert_eq!(gate.answer_event(&mut events[0]).as_deref(), Ok("set\n"));
    }
    assert_eq!(gate.ask_event(&mut events[2]), Ok(None));
    assert_eq!(gate.ask_event(&mut events[1]), Ok(Some(Reply::Left)));
    assert_eq!(Event::read("fail 7").err(), Some(Error::LineTooLong));
    assert_eq!(Event::read("fail 3").err(), Some(Error::OutOfMemory));
    let mut copy = gate.copy().expect("a copy");
    assert_eq!(copy.reply().as_deref(), Ok("left\n"));
    assert_eq!(copy.answer_event(&mut events[0]).as_deref(), Ok("set\n"));
    assert_eq!(gate.reply().as_deref(), Ok("left\n"));
    assert_eq!(gate.answer("fail 3").as_deref(), Ok("fail 3\n"));
    assert_eq!(gate.copy().err(), Some(Error::OutOfMemory));
    assert_eq!(open_handles(), 5);
}

fn changes() {
    let [one, other, third] = ["a", "b", "c"].map(|digit| digit.repeat(64));
    let ids = |texts: &[&String]| texts.iter().map(|text| text.parse().expect("a txid")).collect::<Vec<Txid>>();
    let mut gate = open_gate();
    assert_eq!(gate.changes(), Ok(Changes::default()));
    gate.answer(format!("- {one};- {other};+ {third}")).expect("a reply");
    let moved = Changes { departed: ids(&[&one, &other]), arrived: ids(&[&third]) };
    for _ in 0..2 {
        assert_eq!(gate.changes().as_ref(), Ok(&moved));
    }
    assert_eq!(moved.to_string(), format!("- {one}\n- {other}\n+ {third}\n"));
    assert_eq!(gate.copy().expect("a copy").changes(), Ok(Changes::default()));
    assert_eq!(gate.changes(), Ok(moved));
    assert_eq!(gate.answer("end 7"), Err(Error::LineTooLong));
    assert_eq!(gate.changes(), Ok(Changes::default()));
    gate.answer(format!("+ {one}")).expect("a reply");
    assert_eq!(gate.changes(), Ok(Changes { departed: vec![], arrived: ids(&[&one]) }));
    gate.answer("# a comment").expect("no reply");
    assert_eq!(gate.changes(), Ok(Changes::default()));
    let short = &one[1..];
    for text in [
        format!("+ {one}"),
        format!("+ {one}\n- {one}\n"),
        format!("* {one}\n"),
        format!("+{one}\n"),
        format!("+ {one} \n"),
        format!("+ {short}\n"),
        format!("+ {one}\n\n"),
        "\n".to_string(),
        "set\n".to_string(),
    ] {
        assert!(text.parse::<Changes>().is_err(), "{:?}", text);
    }
    gate.answer("set").expect("a reply");
    assert_eq!(gate.changes(), Err(Error::UnknownReply(NotAReply("set\n".to_string()))));
    gate.answer("fail 3").expect("a reply");
    assert_eq!(gate.changes(), Err(Error::OutOfMemory));
}

fn explanations() {
    let mut gate = open_gate();
    assert_eq!(gate.answer("denied").as_deref(), Ok("denied\n"));
    assert_eq!(gate.explanation().as_deref(), Ok(""));
    gate.explain(7).expect("an open gate");
    assert_eq!(gate.explanation().as_deref(), Ok(""));
    gate.answer("set").expect("a reply");
    assert_eq!(gate.explanation().as_deref(), Ok(""));
    gate.answer("denied A1 keep tx-decode").expect("a reply");
    let told = gate.explanation().expect("what is said");
    assert!(told.starts_with("{\"line\":8,\"size\":25,") && told.len() > 500 && told.ends_with("}\n"), "{}", told);
    assert_eq!(gate.explanation(), Ok(told));
    let mut copy = gate.copy().expect("a copy");
    assert_eq!(copy.explanation().as_deref(), Ok(""));
    copy.answer("denied").expect("a reply");
    assert!(copy.explanation().expect("what is said").starts_with("{\"line\":9,"));
    assert_eq!(gate.answer("end 7"), Err(Error::LineTooLong));
    assert_eq!(gate.explanation().as_deref(), Ok(""));
    gate.explain(0).expect("an open gate");
    gate.answer("denied").expect("a reply");
    assert_eq!(gate.explanation().as_deref(), Ok(""));
    gate.answer("fail 3").expect("a reply");
    assert_eq!(gate.explanation(), Err(Error::OutOfMemory));
}

fn calls() {
    let reply = open_gate().ask("denied A7 close bad-txns-txouttotal-toolarge").expect("a reply").expect("a reply");
    let rule = Rule { letter: 'A', number: 7 };
    assert_eq!(reply, Reply::Denied { rule, then: Then::Close, token: "bad-txns-txouttotal-toolarge".to_string() });
    let long = "00".to_string() + &"x".repeat(1000);
    assert_eq!(check(&long), Ok(Check { is_standard: true, lines: long }));
    assert_eq!(check("zz"), Ok(Check { is_standard: false, lines: "denied A1 tx-decode\n".to_string() }));
    assert_eq!(check("end 3"), Err(Error::OutOfMemory));
    assert_eq!(version().as_deref(), Ok("0.0.0"));
}

fn main() {
    moves();
    faults();
    events();
    changes();
    explanations();
    calls();
    assert_eq!(open_handles(), 0);
}
