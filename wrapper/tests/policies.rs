//! Policy texts: the cases of documents 01 and 02, each refusal, and tables that are equal or not.

mod bench;

use bench::Bench;
use packet_store::*;
use Fault::{NoField, NotPolicy, NotPredicate, TooDeep};
use PolicyRefusal::{At, Store};
use Refusal::{NotStore, TooLong, UsedUp};

#[test]
fn document_01s_texts_at_one_field() {
    let mut bench = Bench::new(1, 64, 8);
    assert_eq!(bench.judge(""), Err(At(NotPolicy, 0)));
    assert_eq!(bench.judge("x00=1"), Err(At(NotPolicy, 2)));
    assert_eq!(bench.judge("!x0:=1"), Err(At(NotPredicate, 0)));
    // The lister's lines.
    assert_eq!(bench.judge("x0=0+x0=1"), Ok(3));
    assert_eq!(bench.judge("1"), Ok(3));
    assert_eq!(bench.judge("x0=5"), Err(At(NotPolicy, 3)));
    assert_eq!((bench.relations[RELATION_COUNT], bench.sets[SET_COUNT]), (5, 1));
}

#[test]
fn document_02s_signs_at_one_field() {
    let mut bench = Bench::new(1, 64, 8);
    for (text, handle) in [("T", 4), ("T-1", 5), ("T-1&1", 2), ("T-(1&1)", 5), ("0;T^T", 4)] {
        assert_eq!(bench.judge(text), Ok(handle), "{text}");
    }
    assert_eq!(bench.judge("!(1&T)"), Err(At(NotPredicate, 0)));
    assert_eq!(bench.judge("!x0=1&!T"), Err(At(NotPredicate, 6)));
    assert_eq!(bench.judge("x0=1&"), Err(At(NotPolicy, 5)));
    assert_eq!(bench.judge("1&-1"), Err(At(NotPolicy, 2)));
    assert_eq!(bench.judge("-1"), Err(At(NotPolicy, 0)));
    assert_eq!(bench.judge("T="), Err(At(NotPolicy, 1)));
    assert_eq!(bench.judge("x1=1-!T"), Err(At(NoField, 0)));
    assert_eq!(bench.judge("!x0=1&T"), Ok(7));
    assert_eq!((bench.relations[RELATION_COUNT], bench.sets[SET_COUNT]), (6, 1));
    assert_eq!(Bench::new(0, 0, 0).judge("T"), Ok(1));
}

#[test]
fn signs_make_what_the_store_does_not_hold() {
    // `T` makes the full relations of levels 1 and 2, `T^T` the empty ones, `T-1` the identities and their complements.
    let mut bench = Bench::bare(2, 64, 8);
    assert_eq!(bench.judge("T"), Ok(3));
    assert_eq!(bench.relations[RELATION_HEAD..][..8], [1, 1, 1, 1, 2, 2, 2, 2]);
    assert_eq!(bench.judge("T^T"), Ok(5));
    assert_eq!(bench.judge("T-1"), Ok(9));
    // Of two places `T` takes both, and the empty relation would need two more.
    let mut bench = Bench::bare(2, 2, 8);
    assert_eq!(bench.judge("T-T"), Err(Store(UsedUp)));
    assert_eq!(bench.judge("T&T"), Ok(3));
}

#[test]
fn each_form_has_its_handle() {
    // The handles of P1 to P14, in the order in which these texts make their nodes.
    let mut bench = Bench::new(1, 64, 8);
    for (text, handle) in [("0", 2), ("1", 3), ("x0=1", 5), ("x0=0", 6), ("x0:=1", 7), ("x0:=0", 8)]
    {
        assert_eq!(bench.judge(text), Ok(handle), "{text}");
    }
    assert_eq!(bench.judge("x0=1;x0:=0"), Ok(9));
    assert_eq!(bench.judge("(x0=1;x0:=0)*"), Ok(10));
    assert_eq!(bench.read(|r, s, w| relation_get(r, s, w, 10)), Ok([1, 0, 1, 1]));
    assert_eq!(bench.judge("!x0=1"), Ok(6));
    assert_eq!(bench.judge("!!x0=1"), Ok(5));
    assert_eq!(bench.judge("0*"), Ok(3));
    assert_eq!(bench.judge("(x0:=0+x0:=1)**"), Ok(4));
}

#[test]
fn faults_are_found_in_order() {
    let mut bench = Bench::new(2, 64, 8);
    // 7 and 9 before 5, 5 before 8, whatever their offsets.
    assert_eq!(bench.judge("!x7:=1+"), Err(At(NotPolicy, 7)));
    assert_eq!(bench.judge("!x0:=1;x2=0"), Err(At(NoField, 7)));
    assert_eq!(bench.judge("!x1=0;!x1=0;!(x0=1+1*)"), Err(At(NotPredicate, 12)));
    assert_eq!(bench.judge("x99:=1"), Err(At(NoField, 0)));
    assert_eq!(bench.judge("x100:=1"), Err(At(NotPolicy, 3)));
    assert_eq!(bench.judge("(1"), Err(At(NotPolicy, 2)));
    assert_eq!(bench.judge("1)"), Err(At(NotPolicy, 1)));
    assert_eq!(bench.judge("1 "), Err(At(NotPolicy, 1)));
    assert_eq!(bench.judge([255]), Err(At(NotPolicy, 0)));
    assert_eq!(bench.judge("*"), Err(At(NotPolicy, 0)));
}

#[test]
fn an_atom_nests_32_deep() {
    let mut bench = Bench::new(1, 64, 8);
    let nested = |open: &str, deep: usize, close: &str| {
        format!("{}x0=1{}", open.repeat(deep), close.repeat(deep))
    };
    assert_eq!(bench.judge(nested("(", 32, ")")), Ok(5));
    assert_eq!(bench.judge(nested("!", 32, "")), Ok(5));
    assert_eq!(bench.judge(nested("!(", 16, ")")), Ok(5));
    assert_eq!(bench.judge(nested("(", 33, ")")), Err(At(TooDeep, 32)));
    assert_eq!(bench.judge(nested("!", 33, "")), Err(At(TooDeep, 32)));
    assert_eq!(bench.judge(nested("!(", 17, ")")), Err(At(TooDeep, 32)));
    // Whichever offset is lower, of 7 and 9.
    assert_eq!(bench.judge("(".repeat(32)), Err(At(NotPolicy, 32)));
    assert_eq!(bench.judge("(".repeat(40)), Err(At(TooDeep, 32)));
    assert_eq!(bench.judge(format!(")+{}1", "!".repeat(33))), Err(At(NotPolicy, 0)));
}

#[test]
fn a_text_has_4096_bytes_at_most() {
    let mut bench = Bench::new(0, 0, 0);
    let long = format!("1{}", "+1".repeat(2047));
    assert_eq!(bench.judge(&long), Ok(1));
    assert_eq!(bench.judge(format!("{long}*")), Ok(1));
    assert_eq!(bench.judge(format!("{long}+1")), Err(Store(TooLong)));
    assert_eq!(bench.judge(vec![b' '; 4096]), Err(At(NotPolicy, 0)));
    assert_eq!(bench.judge(vec![b' '; 4097]), Err(Store(TooLong)));
}

#[test]
fn the_stores_own_refusals() {
    let mut bench = Bench::new(1, 3, 1);
    assert_eq!(bench.judge("1"), Ok(3));
    assert_eq!(bench.judge("x0=1"), Err(Store(UsedUp)));
    assert_eq!(bench.judge("x1=1"), Err(At(NoField, 0)));
    bench.relations[RELATION_COUNT] = 4;
    assert_eq!(bench.judge("1"), Err(Store(NotStore)));
    assert_eq!(bench.judge(vec![b'1'; 5000]), Err(Store(NotStore)));
    assert_eq!([NotStore, UsedUp, TooLong].map(|r| Store(r).number()), [1, 6, 10]);
    assert_eq!(Fault::ALL.map(|fault| At(fault, 0).number()), [5, 7, 8, 9]);
    assert_eq!(At(TooDeep, 32).to_string(), "nested too deep at 32");
}

#[test]
fn equal_tables_have_one_handle_and_others_two() {
    let mut bench = Bench::new(3, 512, 8);
    let mut same = |a: &str, b: &str| bench.judge(a).unwrap() == bench.judge(b).unwrap();
    assert!(same("x0=0;x1:=1+x0=1;x1:=0", "x0=1;x1:=0+x0=0;x1:=1"));
    assert!(same("(x0=0+x1=1);x2:=1", "x0=0;x2:=1+x1=1;x2:=1"));
    assert!(same("!(x0=0+x1=1)", "!x0=0;!x1=1"));
    assert!(same("x2:=0;x2=0", "x2:=0"));
    assert!(same("(x0:=0+x1:=0)*", "1+x0:=0+x1:=0+x0:=0;x1:=0"));
    // All but the test frames, which have 1 in fields 1 and 2.
    assert!(same("1-x1=1;x2=1", "!x1=1+!x2=1"));
    assert!(same("x0:=1-x1=1;x2=1;T", "(!x1=1+!x2=1);x0:=1"));
    assert!(same("x0=0;x1:=1^x0=1;x1:=0", "x0=0;x1:=1+x0=1;x1:=0"));
    assert!(same("x0=1&x1:=1", "x0=1;x1=1"));
    assert!(!same("x0:=1-x1=1;x2=1", "x0:=1-x1=1;x2=1;T"));
    assert!(!same("x0=0;x1:=1+x0=1;x1:=0", "x0=0;x1:=1+x0=1;x2:=0"));
    assert!(!same("x0:=0;x0=1", "1"));
    assert!(!same("!x0=0", "x0=1;x1=0"));
}
