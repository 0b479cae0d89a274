//! Jobs that are refused: each cause of 11, and 12 before 11 before the call's own; and what is no cause: spare operands, answers that are lent.

mod bench;

use bench::jobs::{answers, at, job, last, lent, of, ran, refused, run, ALL, NOISE};
use bench::Bench;
use packet_store::jobs::{Answer, Job, Operand, OPERATIONS};
use packet_store::*;
use Answer::{NotRun, Refused, Relation, Set, Truth};
use JobRefusal::{NoAnswer, UnknownOperation};
use Refusal::{LevelsDiffer, NoChildren, NotHeld, OutOfRange, UsedUp};

/// A list with jobs at three places: a set's, a relation's and one that answers yes or no; the last is refused.
fn four() -> Vec<Job> {
    vec![
        job("set_one", &[]),
        job("relation_one", &[]),
        job("relation_is_zero", &[at(3)]),
        job("set_union", &[at(99), at(99)]),
    ]
}

#[test]
fn each_cause_of_11() {
    let union = |a, b| job("relation_union", &[a, b]);
    let cases = [
        // Itself, a later one, one past the end, far past it.
        union(of(4), at(3)),
        union(at(3), of(4)),
        union(at(3), of(5)),
        union(of(6), at(3)),
        union(at(3), of(256)),
        union(of(u32::MAX), of(1)),
        // A set, yes or no, a refusal in place of a relation.
        union(of(0), at(3)),
        union(of(1), of(2)),
        union(of(3), of(1)),
        // And a relation in place of a set, in each operand.
        job("relation_push", &[of(1), of(1)]),
        job("relation_push", &[of(0), of(0)]),
        job("relation_pull", &[of(0), of(1)]),
        job("relation_has_path", &[of(1), of(1), of(0)]),
        job("relation_has_path", &[of(0), of(0), of(0)]),
        job("relation_has_path", &[of(0), of(1), of(1)]),
        job("set_ifelse", &[at(0), of(1), of(0)]),
        job("set_ifelse", &[at(0), of(0), of(3)]),
        // Any job for a field, a packet or a value.
        job("relation_test", &[of(0), at(1)]),
        job("relation_test", &[at(0), of(2)]),
        job("relation_assign", &[of(9), at(1)]),
        job("set_test", &[at(0), of(1)]),
        job("set_ifelse", &[of(2), of(0), of(0)]),
        job("relation_relates", &[of(1), of(1), at(0)]),
        job("relation_relates", &[of(1), at(0), of(2)]),
    ];
    for case in cases {
        let jobs = [four(), vec![case, job("set_one", &[])]].concat();
        let answers = answers(&mut Bench::new(1, 64, 16), jobs);
        assert_eq!(answers[4..], [Refused(NoAnswer), Set(3)], "{case:?}");
    }
    let taken = [
        (union(of(1), of(1)), Relation(3)),
        (job("relation_push", &[of(0), of(1)]), Set(3)),
        (job("relation_pull", &[of(1), of(0)]), Set(3)),
        (job("relation_has_path", &[of(0), of(1), of(0)]), Truth(true)),
        (job("set_ifelse", &[at(0), of(0), of(0)]), Set(3)),
        (job("relation_relates", &[of(1), at(1), at(1)]), Truth(true)),
        (job("relation_relates", &[of(1), at(1), at(0)]), Truth(false)),
    ];
    for (case, answer) in taken {
        let jobs = [four(), vec![case]].concat();
        assert_eq!(last(&mut Bench::new(1, 64, 16), jobs), answer, "{case:?}");
    }
}

#[test]
fn a_later_answer_is_not_taken_though_it_is_there() {
    let jobs = vec![job("relation_flip", &[of(1)]), lent(2, 3), job("relation_flip", &[of(1)])];
    let mut list = jobs.clone();
    assert_eq!(run(&mut Bench::new(1, 64, 16), &mut list, ALL), ran(2, 0, 0));
    let answers: Vec<Answer> = list.iter().map(Job::answer).collect();
    assert_eq!(answers, [Refused(NoAnswer), Relation(3), Relation(3)]);
}

#[test]
fn any_mark_but_0_names_a_job() {
    for mark in [1, 2, 256, 1 << 31, u32::MAX] {
        let named = Operand { job: mark, number: 0 };
        let jobs = vec![job("relation_one", &[]), job("relation_union", &[named, at(4)])];
        assert_eq!(answers(&mut Bench::new(1, 64, 16), jobs), [Relation(3), Relation(4)]);
        let itself = Operand { job: mark, number: 0 };
        assert_eq!(
            last(&mut Bench::new(1, 9, 9), vec![job("relation_flip", &[itself])]),
            Refused(NoAnswer)
        );
    }
}

#[test]
fn twelve_comes_before_11() {
    for operation in [0, 39, 40, 255, 1 << 31, u32::MAX] {
        for operands in [[of(0), of(9), at(99)], [at(0); 3], [NOISE[1]; 3]] {
            let jobs = vec![Job::new(operation, operands)];
            assert_eq!(last(&mut Bench::new(1, 9, 9), jobs), Refused(UnknownOperation));
        }
    }
}

#[test]
fn eleven_comes_before_2_to_6() {
    // Two fields, no place left: sets 2 and 3 have level 1, 4 and 5 level 2, relations 2, 4 and 6 level 1, 3, 5 and 7 level 2.
    let cases = [
        (job("relation_union", &[at(99), of(0)]), job("relation_union", &[at(99), at(7)]), NotHeld),
        (
            job("relation_union", &[at(2), of(9)]),
            job("relation_union", &[at(2), at(7)]),
            LevelsDiffer,
        ),
        (
            job("set_ifelse", &[at(1), at(2), of(0)]),
            job("set_ifelse", &[at(1), at(2), at(3)]),
            NoChildren,
        ),
        (
            job("set_ifelse", &[at(2), of(0), at(99)]),
            job("set_ifelse", &[at(2), at(99), at(0)]),
            OutOfRange,
        ),
        (job("relation_test", &[at(2), of(0)]), job("relation_test", &[at(2), at(0)]), OutOfRange),
        (job("relation_test", &[of(0), at(2)]), job("relation_test", &[at(0), at(2)]), OutOfRange),
        (job("set_mk", &[at(4), of(0)]), job("set_mk", &[at(4), at(5)]), OutOfRange),
        (
            job("relation_relates", &[at(7), at(4), of(0)]),
            job("relation_relates", &[at(7), at(4), at(0)]),
            OutOfRange,
        ),
        (
            job("relation_relates", &[at(99), of(0), at(0)]),
            job("relation_relates", &[at(99), at(4), at(0)]),
            NotHeld,
        ),
        (job("relation_diagonal", &[of(0)]), job("relation_test", &[at(0), at(1)]), UsedUp),
        (job("relation_pull", &[at(7), of(0)]), job("set_test", &[at(0), at(1)]), UsedUp),
    ];
    for (no_answer, own, refusal) in cases {
        let mut bench = Bench::new(2, 6, 2);
        assert_eq!(last(&mut bench, vec![no_answer]), Refused(NoAnswer), "{no_answer:?}");
        assert_eq!(last(&mut bench, vec![own]), refused(refusal), "{own:?}");
    }
}

#[test]
fn a_jobs_own_refusals_come_in_its_calls_order() {
    let mut bench = Bench::new(2, 6, 2);
    let cases = [
        // A handle that is not held before levels that differ, and levels before what is used up.
        (job("relation_push", &[at(99), at(2)]), NotHeld),
        (job("relation_has_path", &[at(2), at(7), at(99)]), NotHeld),
        (job("relation_has_path", &[at(2), at(7), at(5)]), LevelsDiffer),
        // 5 for the field before 2.
        (job("set_ifelse", &[at(2), at(99), at(99)]), OutOfRange),
        (job("set_ifelse", &[at(1), at(99), at(2)]), NotHeld),
        (job("relation_assign", &[at(u32::MAX), at(0)]), OutOfRange),
        (job("set_test", &[at(0), at(u32::MAX)]), OutOfRange),
    ];
    for (case, refusal) in cases {
        assert_eq!(last(&mut bench, vec![case]), refused(refusal), "{case:?}");
    }
}

#[test]
fn spare_operands_are_ignored_and_stay() {
    for &(name, operation) in OPERATIONS {
        // As many as each takes, all within the rules: set 3, relation 3, field, value and packet 0.
        let taken = match operation {
            1..=5 => 0,
            6..=18 => 1,
            19..=35 => 2,
            _ => 3,
        };
        let numbers = match operation {
            33..=35 => [0, 0, 0],
            36 => [0, 3, 3],
            37 => [3, 0, 0],
            _ => [3, 3, 3],
        };
        let mut clean = [Job::new(operation, numbers.map(at))];
        let mut noisy = [job(name, &numbers.map(at)[..taken])];
        let (mut one, mut other) = (Bench::new(1, 64, 16), Bench::new(1, 64, 16));
        assert_eq!(run(&mut one, &mut clean, 1), run(&mut other, &mut noisy, 1));
        assert_eq!(clean[0].answer(), noisy[0].answer(), "{name}");
        let left = (noisy[0].operation, noisy[0].a, noisy[0].b, noisy[0].c);
        let before = job(name, &numbers.map(at)[..taken]);
        assert_eq!(left, (before.operation, before.a, before.b, before.c));
        assert_eq!((one.relations, one.sets), (other.relations, other.sets));
        // `mk` alone refuses children at level k.
        let refusal = (name == "set_mk").then_some(refused(OutOfRange));
        assert!(
            !matches!(clean[0].answer(), Refused(_)) || refusal == Some(clean[0].answer()),
            "{name}"
        );
    }
}

#[test]
fn a_lent_answer_is_taken_as_it_stands() {
    let flip = |named| vec![named, job("relation_flip", &[of(0)])];
    let is_zero = |named| vec![named, job("set_is_zero", &[of(0)])];
    let mut bench = Bench::new(1, 64, 16);
    let cases = [
        (flip(lent(2, 4)), Relation(4)),
        // Not held: the call's own 2.
        (flip(lent(2, 77)), refused(NotHeld)),
        (flip(lent(2, u32::MAX)), refused(NotHeld)),
        (is_zero(lent(1, 2)), Truth(true)),
        (is_zero(lent(1, 9)), refused(NotHeld)),
        // The kind is the record's, whatever its operation.
        (flip(Job { kind: 2, value: 4, ..job("set_one", &[]) }), Relation(4)),
        (flip(Job { kind: 2, value: 4, ..Job::new(77, [at(0); 3]) }), Relation(4)),
        (flip(Job { kind: 1, value: 3, ..job("relation_one", &[]) }), Refused(NoAnswer)),
        (is_zero(Job { kind: 2, value: 3, ..job("set_one", &[]) }), Refused(NoAnswer)),
        // Yes, a refusal, and kinds that no run leaves.
        (flip(lent(3, 1)), Refused(NoAnswer)),
        (flip(lent(4, 2)), Refused(NoAnswer)),
        (flip(lent(5, 3)), Refused(NoAnswer)),
        (is_zero(lent(5, 3)), Refused(NoAnswer)),
        (flip(lent(258, 3)), Refused(NoAnswer)),
        (is_zero(lent(u32::MAX, 3)), Refused(NoAnswer)),
    ];
    for (jobs, answer) in cases {
        let (named, mut list) = (jobs[0], jobs);
        assert_eq!(run(&mut bench, &mut list, ALL).unwrap().jobs, 1, "{named:?}");
        assert_eq!((list[0], list[1].answer()), (named, answer));
    }
}

#[test]
fn answers_are_read_by_kind() {
    let of = |kind, value| lent(kind, value).answer();
    let others = [(3, 2), (4, 0), (4, 7), (4, 13), (5, 0), (u32::MAX, 1)];
    for (kind, value) in others {
        assert_eq!(of(kind, value), Answer::Other { kind, value });
    }
    assert_eq!([of(0, 9), of(1, 9), of(2, 9)], [NotRun, Set(9), Relation(9)]);
    assert_eq!([of(3, 0), of(3, 1)], [Truth(false), Truth(true)]);
    assert_eq!([of(4, 11), of(4, 12)], [Refused(NoAnswer), Refused(UnknownOperation)]);
    assert_eq!([of(4, 2), of(4, 6)], [refused(NotHeld), refused(UsedUp)]);
}
