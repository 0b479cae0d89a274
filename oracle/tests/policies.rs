//! Policy texts: document 01's cases, offsets, how signs bind, the order of creation and meanings.

use oracle::answer::{Answer, Fault, Refusal};
use oracle::call::Call;
use oracle::check::text_relation;
use oracle::draw::{texts, Draw, Part};
use oracle::policy::judge;
use oracle::random::Random;
use oracle::store::Store;

/// The answer to a text in the replay format, in a store of so many fields.
fn answer(fields: u32, text: &str) -> String {
    let mut store = Store::new(fields, 4096, 4096).unwrap();
    store.policy(text.as_bytes()).to_string()
}

#[test]
fn document_01s_texts_at_one_field() {
    let cases = [
        ("", "r 7 0"),
        ("x00=1", "r 7 2"),
        ("!x0:=1", "r 8 0"),
        ("x0=0+x0=1", "h 3"),
        ("1", "h 3"),
        ("x0=5", "r 7 3"),
    ];
    for (text, expected) in cases {
        assert_eq!(answer(1, text), expected, "{text:?}");
    }
}

#[test]
fn a_text_is_wrong_at_the_first_byte_that_cannot_stand_there() {
    let cases = [
        ("x", "r 7 1"),
        ("x1", "r 7 2"),
        ("x1:", "r 7 3"),
        ("x1:0", "r 7 3"),
        ("x1=", "r 7 3"),
        ("x1=2", "r 7 3"),
        ("x01=0", "r 7 2"),
        ("x123=0", "r 7 3"),
        ("1+", "r 7 2"),
        ("1;+1", "r 7 2"),
        ("(1", "r 7 2"),
        ("1)", "r 7 1"),
        ("()", "r 7 1"),
        ("!*", "r 7 1"),
        ("1 ", "r 7 1"),
        ("t", "r 7 0"),
        ("T=", "r 7 1"),
        ("T1", "r 7 1"),
        ("-1", "r 7 0"),
        ("1&-1", "r 7 2"),
        ("1^^1", "r 7 2"),
        ("x1=1&", "r 7 5"),
        ("(T-", "r 7 3"),
        ("(T&1", "r 7 4"),
        ("1+x2=0", "r 5 2"),
        ("!T-x2=0", "r 5 3"),
        ("!x1:=0+x2=0", "r 5 7"),
        ("1;!!(x1=1;1*)", "r 8 2"),
        ("!(1&T)", "r 8 0"),
        ("!x0=1&!T", "r 8 6"),
        ("!(x0=1-x1=1)^!(1-!T)", "r 8 13"),
    ];
    for (text, expected) in cases {
        assert_eq!(answer(2, text), expected, "{text:?}");
    }
}

/// A store of two fields, as `new` leaves it or without a node.
fn stores() -> [Store; 2] {
    [Store::new(2, 999, 9).unwrap(), Store::with_nodes(2, 999, 9, &[], &[]).ok().unwrap()]
}

#[test]
fn the_three_signs_bind_between_plus_and_the_semicolon_from_the_left() {
    let cases = [
        ("1+T-1", "1+(T-1)", "(1+T)-1"),
        ("T-1+1", "(T-1)+1", "T-(1+1)"),
        ("0;T^T", "(0;T)^T", "0;(T^T)"),
        ("T-x0=1;T", "T-(x0=1;T)", "(T-x0=1);T"),
        ("T-1-1", "(T-1)-1", "T-(1-1)"),
        ("T-1&1", "(T-1)&1", "T-(1&1)"),
        ("T^1&1", "(T^1)&1", "T^(1&1)"),
        ("1&T^T", "(1&T)^T", "1&(T^T)"),
        ("!x0=1&x1=1", "(!x0=1)&x1=1", "!(x0=1&x1=1)"),
        ("T-x0:=1*", "T-(x0:=1)*", "(T-x0:=1)*"),
    ];
    for (text, same, other) in cases {
        for mut store in stores() {
            let [text, same, other] = [text, same, other].map(|text| store.policy(text.as_bytes()));
            assert_eq!(text.refusal(), None, "{same}: {text}");
            assert_eq!(text, same);
            assert_ne!(text, other);
        }
    }
}

#[test]
fn an_atom_nests_32_deep() {
    let nested = |open: &str, deep| {
        format!("{}1{}", open.repeat(deep), ")".repeat(open.matches('(').count() * deep))
    };
    for (open, most) in [("(", 32), ("!", 32), ("!(", 16)] {
        assert!(answer(1, &nested(open, most)).starts_with('h'));
        assert_eq!(answer(1, &nested(open, most + 1)), "r 9 32");
    }
    assert_eq!(answer(1, &"(".repeat(32)), "r 7 32");
    assert_eq!(answer(1, &"(".repeat(33)), "r 9 32");
    assert_eq!(answer(1, &format!("){}", "(".repeat(33))), "r 7 0");
    // The signs do not nest.
    assert!(answer(1, &nested("T-(", 32)).starts_with('h'));
    assert_eq!(answer(1, &nested("T-(", 33)), "r 9 98");
}

#[test]
fn a_text_has_4096_bytes_at_most() {
    let long = format!("1{}", "*".repeat(4095));
    assert_eq!(answer(0, &long), "h 1");
    assert_eq!(answer(0, &format!("{long}*")), "r 10");
}

#[test]
fn a_policy_that_does_not_fit_leaves_the_store() {
    let mut store = Store::new(1, 4, 1).unwrap();
    assert_eq!(store.policy(b"x0=1"), Answer::Handle(5));
    assert_eq!(store.policy(b"x0=1+x0:=0"), Answer::Refused(Refusal::UsedUp));
    assert_eq!(store.counts(), (4, 1));
    assert_eq!(store.policy(b"x1=0"), Answer::RefusedAt(Fault::NoField, 0));
}

#[test]
fn operands_are_built_first_and_left_before_right() {
    let mut text = Store::new(2, 99, 9).unwrap();
    let mut calls = Store::new(2, 99, 9).unwrap();
    let mut ask = |name: &str, numbers: &[u32]| match calls.ask(name, numbers) {
        Answer::Handle(handle) => handle,
        other => panic!("{name}: {other}"),
    };
    let test = ask("rel.test", &[1, 0]);
    let one = ask("rel.one", &[]);
    let not = ask("rel.difference", &[one, test]);
    let assign = ask("assign", &[0, 1]);
    let star = ask("star", &[assign]);
    let product = ask("sequence", &[not, star]);
    let zero = ask("rel.zero", &[]);
    let sum = ask("rel.union", &[product, zero]);
    assert_eq!(text.policy(b"!x1=0;x0:=1*+0"), Answer::Handle(sum));
    assert!(text.relation_nodes().eq(calls.relation_nodes()));
}

#[test]
fn a_sign_builds_the_left_operand_the_right_one_and_its_operation() {
    for (sign, name) in [("&", "rel.intersect"), ("-", "rel.difference"), ("^", "rel.xor")] {
        for (mut text, mut calls) in stores().into_iter().zip(stores()) {
            let mut ask = |name: &str, numbers: &[u32]| match calls.ask(name, numbers) {
                Answer::Handle(handle) => handle,
                other => panic!("{name}: {other}"),
            };
            let left = ask("rel.test", &[1, 0]);
            let top = ask("top", &[]);
            let assign = ask("assign", &[0, 1]);
            let right = ask("rel.difference", &[top, assign]);
            let both = ask(name, &[left, right]);
            let policy = format!("x1=0{sign}(T-x0:=1)");
            assert_eq!(text.policy(policy.as_bytes()), Answer::Handle(both), "{policy}");
            assert!(text.relation_nodes().eq(calls.relation_nodes()), "{policy}");
        }
    }
}

#[test]
fn the_full_relation_is_made_where_it_is_not_held() {
    let [mut begun, mut bare] = stores();
    let counts = begun.counts();
    assert_eq!(begun.policy(b"T"), Answer::Handle(7));
    assert_eq!(begun.counts(), counts);
    assert_eq!(bare.policy(b"T"), Answer::Handle(3));
    assert!(bare.relation_nodes().eq([[1; 4], [2; 4]]));
}

#[test]
fn drawn_texts_have_every_answer_and_mean_their_handles_pairs() {
    let mut random = Random::new(1);
    let mut answers = std::collections::BTreeSet::new();
    for number in 0..4000 {
        let fields = number % 4;
        let places = if number % 3 == 0 { 3 * fields + 2 } else { 4096 };
        let mut store = Store::new(fields, places, 8).unwrap();
        let text = texts::text(fields, &mut random);
        let answer = store.policy(&text);
        answers.insert(answer.refusal());
        let Answer::Handle(handle) = answer else { continue };
        let relation = text_relation(&judge(&text, fields).unwrap(), fields);
        for (input, output) in (0..1 << fields).flat_map(|p| (0..1 << fields).map(move |q| (p, q)))
        {
            let related = store.ask("relates", &[handle, input, output]);
            assert_eq!(
                related,
                Answer::YesNo(relation.has(input, output)),
                "{:?}",
                text.escape_ascii()
            );
        }
    }
    let expected = [None, Some(5), Some(6), Some(7), Some(8), Some(9), Some(10)];
    assert_eq!(answers.into_iter().collect::<Vec<_>>(), expected);
}

#[test]
fn a_drawn_policy_is_a_line() {
    for call in Draw::new(5, Part::Policies).take(3000) {
        let line = call.to_string();
        assert_eq!(line.parse::<Call>().unwrap().to_string(), line);
        if let (Call::Policy(text), Call::Policy(again)) = (&call, line.parse().unwrap()) {
            assert_eq!(*text, again);
        }
    }
}
