//! Lists of jobs: worked lists, every operation beside its call, limits and splits, jobs whose nodes do not fit, 256 jobs and one more, and what a
//! declined list leaves.

mod bench;

use bench::jobs::{answers, at, job, last, lent, number, of, ran, refused, run, ALL, NOISE};
use bench::{Bench, DAMAGES};
use packet_store::jobs::{Answer, Job, JobList, MOST_JOBS, OPERATIONS};
use packet_store::*;
use Answer::{NotRun, Refused, Relation, Set, Truth};
use JobRefusal::{NoAnswer, UnknownOperation};
use Refusal::{NotStore, OutOfRange, UsedUp};

/// The first worked list: k = 1.
fn worked() -> Vec<Job> {
    vec![
        job("relation_test", &[at(0), at(1)]),
        job("relation_test", &[at(0), at(0)]),
        job("relation_union", &[of(0), of(1)]),
        job("relation_sequence", &[of(0), at(4)]),
        job("relation_fwd", &[of(3)]),
        job("relation_is_zero", &[of(4)]),
        job("set_is_zero", &[of(4)]),
        job("relation_union", &[of(6), at(99)]),
        job("relation_test", &[of(0), at(1)]),
        Job::new(39, [of(99), NOISE[0], NOISE[1]]),
        job("relation_test", &[at(0), at(2)]),
    ]
}

const WORKED: [Answer; 11] = [
    Relation(5),
    Relation(6),
    Relation(3),
    Relation(7),
    Set(3),
    Refused(NoAnswer),
    Truth(false),
    Refused(NoAnswer),
    Refused(NoAnswer),
    Refused(UnknownOperation),
    Refused(JobRefusal::Store(OutOfRange)),
];

#[test]
fn the_worked_list() {
    let mut bench = Bench::new(1, 64, 16);
    assert_eq!(answers(&mut bench, worked()), WORKED);
    // By three jobs first.
    let (mut bench, mut jobs) = (Bench::new(1, 64, 16), worked());
    assert_eq!(run(&mut bench, &mut jobs, 3), ran(3, 2, 0));
    assert!(jobs.iter().map(Job::answer).eq(WORKED[..3].iter().copied().chain([NotRun; 8])));
    assert_eq!(run(&mut bench, &mut jobs, ALL), ran(8, 1, 0));
    assert!(jobs.iter().map(Job::answer).eq(WORKED));
}

#[test]
fn a_job_whose_nodes_do_not_fit_takes_none() {
    // One relation place is left and no set place.
    let mut bench = Bench::new(1, 4, 1);
    let jobs = vec![
        job("relation_complement", &[at(3)]),
        job("relation_test", &[at(0), at(1)]),
        job("relation_star", &[of(1)]),
        job("relation_complement", &[of(0)]),
        job("set_test", &[at(0), at(1)]),
    ];
    let expected = [Relation(5), refused(UsedUp), Refused(NoAnswer), Relation(3), refused(UsedUp)];
    assert_eq!(answers(&mut bench, jobs), expected);
    assert_eq!(bench.held(), Added { relations: 4, sets: 1 });
}

/// Of two fields two relation places and four set places are left.
#[test]
fn the_job_after_one_that_did_not_fit_finds_the_store_as_it_was() {
    let mut bench = Bench::new(2, 8, 6);
    let mut list = JobList::new();
    let first = list.set_test(0, 1);
    let low = list.relation_test(0, 0);
    // A test of field 1 is two nodes, where one place is left.
    let full = list.relation_test(1, 1);
    let gone = list.relation_sequence(low, full);
    let after = list.relation_assign(0, 1);
    let flipped = list.relation_flip(low);
    let other = list.set_test(1, 1);
    let Bench { relations, sets, work } = &mut bench;
    assert_eq!(list.run(relations, sets, work, ALL), ran(7, 2, 3));
    assert_eq!(list.answer(first), Set(6));
    assert_eq!(list.answer(low), Relation(8));
    assert_eq!(list.answer(full), refused(UsedUp));
    assert_eq!(list.answer(gone), Refused(NoAnswer));
    assert_eq!(list.answer(after), Relation(9));
    assert_eq!(list.answer(flipped), Relation(8));
    // The accepted calls alone.
    let mut alone = Bench::new(2, 8, 6);
    alone.add_set(|r, s, w| set_test(r, s, w, 0, 1)).unwrap();
    alone.add_relation(|r, s, w| relation_test(r, s, w, 0, 0)).unwrap();
    alone.add_relation(|r, s, w| relation_assign(r, s, w, 0, 1)).unwrap();
    let set = alone.add_set(|r, s, w| set_test(r, s, w, 1, 1)).unwrap();
    assert_eq!(list.answer(other), Set(set));
    assert_eq!((bench.relations, bench.sets), (alone.relations, alone.sets));
}

#[test]
fn limits_count_the_jobs_run() {
    // Three records that were run stand before, between and after five that were not.
    let jobs = || {
        let mut jobs = vec![lent(2, 3)];
        jobs.extend([job("relation_test", &[at(0), at(1)]), Job::new(99, [at(0); 3])]);
        jobs.push(lent(4, 2));
        jobs.extend([job("relation_flip", &[of(1)]), job("set_union", &[at(77), at(0)])]);
        jobs.extend([lent(9, 9), job("relation_star", &[of(4)])]);
        jobs
    };
    let kinds = |jobs: &[Job]| jobs.iter().map(|job| job.kind).collect::<Vec<u32>>();
    let (mut bench, mut list) = (Bench::new(1, 64, 16), jobs());
    assert_eq!(run(&mut bench, &mut list, 0), ran(0, 0, 0));
    assert_eq!(list, jobs());
    assert_eq!(run(&mut bench, &mut list, 1), ran(1, 1, 0));
    assert_eq!(kinds(&list), [2, 2, 0, 4, 0, 0, 9, 0]);
    assert_eq!(run(&mut bench, &mut list, 2), ran(2, 0, 0));
    assert_eq!(kinds(&list), [2, 2, 4, 4, 2, 0, 9, 0]);
    assert_eq!(run(&mut bench, &mut list, 2), ran(2, 0, 0));
    assert_eq!(kinds(&list), [2, 2, 4, 4, 2, 4, 9, 2]);
    let done = list.clone();
    for limit in [0, 1, ALL] {
        assert_eq!(run(&mut bench, &mut list, limit), ran(0, 0, 0));
        assert_eq!(list, done);
    }
    for limit in [5, 6, 8, 256, ALL] {
        let (mut bench, mut list) = (Bench::new(1, 64, 16), jobs());
        assert_eq!(run(&mut bench, &mut list, limit), ran(5, 1, 0));
        assert_eq!(list, done);
    }
    for limit in [0, 1, ALL] {
        assert_eq!(run(&mut bench, &mut [], limit), ran(0, 0, 0));
    }
}

#[test]
fn a_refused_job_is_not_run_again() {
    let mut bench = Bench::new(1, 3, 1);
    let mut jobs = [job("relation_test", &[at(0), at(1)]), job("relation_flip", &[of(0)])];
    assert_eq!(run(&mut bench, &mut jobs, ALL), ran(2, 0, 0));
    assert_eq!(jobs.map(|job| job.answer()), [refused(UsedUp), Refused(NoAnswer)]);
    // There is room now.
    bench.relations.extend([0; 40]);
    assert_eq!(run(&mut bench, &mut jobs, ALL), ran(0, 0, 0));
    assert_eq!(jobs.map(|job| job.answer()), [refused(UsedUp), Refused(NoAnswer)]);
}

/// A list of all operations, each on answers of earlier jobs where it can be.
fn every_operation() -> Vec<Job> {
    let mut jobs = vec![job("set_test", &[at(0), at(1)]), job("relation_assign", &[at(1), at(0)])];
    for &(name, operation) in OPERATIONS {
        let (set, relation) = (of(0), of(1));
        jobs.push(match operation {
            1..=5 => job(name, &[]),
            6..=10 => job(name, &[set]),
            11..=18 => job(name, &[relation]),
            19 => job(name, &[at(2), at(3)]),
            20..=24 => job(name, &[set, of(3)]),
            25..=29 => job(name, &[relation, of(5)]),
            30..=31 => job(name, &[set, relation]),
            32 => job(name, &[relation, set]),
            33..=35 => job(name, &[at(0), at(0)]),
            36 => job(name, &[at(1), set, of(3)]),
            37 => job(name, &[relation, at(3), at(1)]),
            _ => job(name, &[set, relation, set]),
        });
    }
    jobs
}

#[test]
fn every_operation_is_its_call() {
    let mut bench = Bench::new(2, 200, 60);
    let jobs = every_operation();
    let mut alone = Bench::new(2, 200, 60);
    let set = alone.add_set(|r, s, w| set_test(r, s, w, 0, 1)).unwrap();
    let relation = alone.add_relation(|r, s, w| relation_assign(r, s, w, 1, 0)).unwrap();
    // The full set of level 2 is 5, and so is the identity.
    assert_eq!((set, relation), (6, 9));
    macro_rules! sets {
        ($($name:ident($($x:expr),*);)*) => {
            vec![$((number(stringify!($name)), Set(alone.add_set(|r, s, w| $name(r, s, w $(, $x)*)).unwrap()))),*]
        };
    }
    macro_rules! relations {
        ($($name:ident($($x:expr),*);)*) => {
            vec![$((number(stringify!($name)), Relation(alone.add_relation(|r, s, w| $name(r, s, w $(, $x)*)).unwrap()))),*]
        };
    }
    macro_rules! truths {
        ($($name:ident($($x:expr),*);)*) => {
            vec![$((number(stringify!($name)), Truth(alone.read(|r, s, w| $name(r, s, w $(, $x)*)).unwrap()))),*]
        };
    }
    // The same calls singly, in the order of their numbers.
    let mut expected = sets! { set_zero(); set_one(); };
    expected.extend(relations! { relation_zero(); relation_one(); relation_top(); });
    let complement = alone.read(|r, s, w| set_complement(r, s, w, 6)).unwrap();
    expected.push((number("set_complement"), Set(complement)));
    expected.extend(truths! { set_is_zero(6); });
    expected.extend(relations! {
        relation_diagonal(6); relation_ifwd(6); relation_ibwd(6);
        relation_complement(9); relation_star(9); relation_flip(9); relation_naive_forward(9); relation_backward(9);
    });
    expected.extend(sets! { relation_fwd(9); relation_bwd(9); });
    expected.extend(truths! { relation_is_zero(9); });
    expected.extend(
        sets! { set_mk(2, 3); set_union(6, 5); set_intersect(6, 5); set_xor(6, 5); set_difference(6, 5); },
    );
    expected.extend(truths! { set_intersects(6, 5); });
    expected.extend(relations! {
        relation_union(9, 5); relation_intersect(9, 5); relation_xor(9, 5); relation_difference(9, 5); relation_sequence(9, 5);
    });
    expected.extend(sets! { relation_push(6, 9); });
    expected.extend(truths! { relation_has_image(6, 9); });
    expected.extend(sets! { relation_pull(9, 6); set_test(0, 0); });
    expected.extend(relations! { relation_test(0, 0); relation_assign(0, 0); });
    expected.extend(sets! { set_ifelse(1, 6, 5); });
    expected.extend(truths! { relation_relates(9, 3, 1); relation_has_path(6, 9, 6); });
    assert!(expected.iter().map(|&(number, _)| number).eq(1..=38));
    let answers = answers(&mut bench, jobs);
    assert_eq!(answers[..2], [Set(6), Relation(9)]);
    for (answer, (number, expected)) in answers[2..].iter().zip(expected) {
        assert_eq!(*answer, expected, "operation {number}");
    }
    assert_eq!((bench.relations, bench.sets), (alone.relations, alone.sets));
}

#[test]
fn several_calls_leave_what_one_leaves() {
    // With room for all nodes, and with less and less of it.
    for (relation_places, set_places) in [(200, 60), (30, 60), (12, 8), (8, 4), (6, 2)] {
        let begin = || (Bench::new(2, relation_places, set_places), every_operation());
        let (mut whole, mut list) = begin();
        let count = list.len() as u32;
        assert_eq!(run(&mut whole, &mut list, ALL).unwrap().jobs, count);
        for part in 1..count {
            let (mut bench, mut jobs) = begin();
            let mut left = count;
            while left > 0 {
                assert_eq!(run(&mut bench, &mut jobs, part).unwrap().jobs, part.min(left));
                left = left.saturating_sub(part);
            }
            assert_eq!(jobs, list);
            assert_eq!((&bench.relations, &bench.sets), (&whole.relations, &whole.sets));
        }
    }
}

#[test]
fn there_are_at_most_256_jobs() {
    let jobs = |count| vec![job("relation_is_zero", &[at(3)]); count];
    for limit in [0, 1, 256, 257, ALL] {
        let mut bench = Bench::new(1, 3, 1);
        let most = u32::min(limit, 256);
        assert_eq!(run(&mut bench, &mut jobs(MOST_JOBS), limit), ran(most, 0, 0));
        // Too many is too many, also where all are run.
        assert_eq!(run(&mut bench, &mut jobs(MOST_JOBS + 1), limit), Err(OutOfRange));
        assert_eq!(run(&mut bench, &mut vec![lent(2, 3); 257], limit), Err(OutOfRange));
        assert_eq!(run(&mut bench, &mut jobs(1000), limit), Err(OutOfRange));
    }
    // The last of 256 may name the one before it.
    let mut named = jobs(MOST_JOBS);
    named[254] = job("relation_one", &[]);
    named[255] = job("relation_flip", &[of(254)]);
    assert_eq!(last(&mut Bench::new(1, 3, 1), named.clone()), Relation(3));
    named[255] = job("relation_flip", &[of(255)]);
    assert_eq!(last(&mut Bench::new(1, 3, 1), named), Refused(NoAnswer));
}

#[test]
fn memory_that_is_no_store_declines_the_whole() {
    for damage in DAMAGES {
        let mut bench = Bench::new(2, 6, 4);
        damage(&mut bench);
        for count in [0, 1, 3, MOST_JOBS, MOST_JOBS + 1, 500] {
            for limit in [0, 1, ALL] {
                let mut jobs = worked().into_iter().cycle().take(count).collect::<Vec<Job>>();
                assert_eq!(run(&mut bench, &mut jobs, limit), Err(NotStore));
            }
        }
    }
}

#[test]
fn no_working_memory_is_needed() {
    let (mut bench, mut jobs) = (Bench::new(1, 64, 16), worked());
    bench.work.clear();
    assert_eq!(run(&mut bench, &mut jobs, ALL), ran(11, 3, 0));
    assert!(jobs.iter().map(Job::answer).eq(WORKED));
}

#[test]
fn a_list_is_made_by_names() {
    let mut list = JobList::new();
    let (one, zero) = (list.relation_test(0, 1), list.relation_test(0, 0));
    let either = list.relation_union(one, zero);
    let table = list.relation_sequence(one, 4);
    let range = list.relation_fwd(table);
    let empty = list.set_is_zero(range);
    // What the names do not allow is added as a record.
    list.push(job("relation_is_zero", &[of(4)]));
    let out_of_range = list.relation_test(0, 2);
    let path = list.relation_has_path(3, table, range);
    let mut bench = Bench::new(1, 64, 16);
    let Bench { relations, sets, work } = &mut bench;
    assert_eq!(list.run(relations, sets, work, ALL), ran(9, 3, 0));
    assert_eq!(list.answer(one), Relation(5));
    assert_eq!(list.answer(either), Relation(3));
    assert_eq!(list.answer(range), Set(3));
    assert_eq!(list.answer(empty), Truth(false));
    assert_eq!(list.answer(6usize), Refused(NoAnswer));
    assert_eq!(list.answer(out_of_range), refused(OutOfRange));
    assert_eq!(list.answer(path), Truth(true));
    assert!(list.answers().eq(list.jobs.iter().map(Job::answer)));
}
