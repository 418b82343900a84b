//! node COSTS: deploys a contract on a node, calls it, reads its events, and catches refusals.
use lumpitseha::{answer, text, wire, Call, Costs, Error, Node, Status, Verdict, Version};

const SENDER: &str = "SP000000000000000000002Q6VF78";
const SOURCE: &str =
    "(define-data-var n uint u0)(define-public (add (x uint)) (begin (print x) (var-set n (+ (var-get n) x)) (ok (var-get n))))";

fn file(entry: &str) -> Vec<u8> {
    format!("{{\"version\": 1, \"genesis\": [], \"entries\": [{entry}]}}").into_bytes()
}

fn main() -> Result<(), Error> {
    let costs = std::fs::read(std::env::args().nth(1).expect("a cost file")).expect("the cost file");
    let broken: &[u8] = b"(define-read-only (f) (unwrap-panic none))";
    let (status, said) = answer(&["check", "costs", SENDER, "f.clar"], &[("costs", &costs), ("f.clar", broken)]);
    assert_eq!(status, Status::Refused);
    assert_eq!(said, format!("contract '{SENDER}.f refused C7 Undetermined 22..41\n").as_bytes());

    assert_eq!(Costs::read(b"{}").err(), Some(Error::File(String::new())));
    let mut costs = Costs::read(&costs)?;
    assert_eq!(Node::open(&mut costs, b"{}").err(), Some(Error::File(String::new())));
    let (mut node, mut other) = (Node::open(&mut costs, &file(""))?, Node::open(&mut costs, b"")?);
    drop(costs);
    node.run(&file(&format!("{{\"deploy\": {{\"sender\": \"{SENDER}\", \"name\": \"n\", \"source\": \"{SOURCE}\"}}}}")))?;
    let (sender, contract, five) = (wire(&format!("'{SENDER}"))?, wire(&format!("'{SENDER}.n"))?, wire("u5")?);
    assert_eq!(text(&wire("{b: 0x01, a: -7}")?)?, "{a: -7, b: 0x01}");
    assert_eq!((wire("u"), text(&[1])), (Err(Error::Value), Err(Error::Value)));
    let call = Call { sender: &sender, contract: &contract, function: "add", args: &[&five], limits: Some([11, 2, 34, 1, 17]) };
    assert_eq!(node.peek(&call)?, node.peek(&call)?);
    let lines = node.call(&call)?;
    let events: Vec<&str> = lines.lines().filter(|line| line.starts_with("  event ")).collect();
    assert_eq!(events, [format!("  event print '{SENDER}.n u5")]);
    assert!(node.call(&Call { limits: Some([10, 2, 34, 1, 17]), ..call })?.contains(" aborted A8 CostLimit runtime 11 10\n"));
    assert_eq!(node.state()?, format!("var '{SENDER}.n n u5\n"));
    assert_eq!(other.state()?, "");
    let checked = wire(&format!("'{SENDER}.f"))?;
    assert_eq!(node.check(&checked, Version::One, broken)?, Verdict::Refused(vec!["C7 Undetermined".into()], 22..41));
    let accepted = node.check(&checked, Version::Two, b"(define-read-only (one) 1)")?;
    assert_eq!(accepted, Verdict::Accepted(vec![2, 0, 0, 2, 26], vec![("one".into(), vec![2, 0, 0, 0, 0])]));
    node.run(&file("{\"block\": {\"height\": 9}}"))?;
    assert_eq!(node.height(), 9);
    assert_eq!(node.run(&file("{\"block\": {\"height\": 8}}")), Err(Error::Falls));
    assert_eq!(node.run(b"{"), Err(Error::File("bad file transactions NotJson\n".into())));
    let short: &[u8] = &five[..3];
    let sender: &[u8] = &sender;
    let parts = Call { sender, contract: &contract, function: "add", args: &[short], limits: None };
    assert_eq!(node.call(&parts), Err(Error::Parts));
    println!("each call did what it is to do");
    Ok(())
}
