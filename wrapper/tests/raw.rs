//! What only C sees: null pointers of no length, children, a cursor and jobs that stay as they are, and the struct of a pair.

use packet_store::jobs::Job;
use packet_store::raw::{self, Pair, Reply};
use packet_store::{new, relation_mk, relations_len, set_zero, sets_len, Cursor};
use std::ptr::{null, null_mut};

/// The function `get` of a kind.
type Get = unsafe extern "C" fn(
    *const u32,
    usize,
    *const u32,
    usize,
    *mut u32,
    usize,
    u32,
    *mut u32,
) -> u64;

/// The answer and the numbers lent for the children, which begin as these; guard words beside them stay.
fn ask<const N: usize>(
    get: Get,
    relations: &[u32],
    sets: &[u32],
    a: u32,
    children: [u32; N],
) -> (u64, [u32; N]) {
    let guard = [0xfeed; 4];
    let mut lent = [&guard[..], &children, &guard].concat();
    let (r, s, c) = (relations.as_ptr(), sets.as_ptr(), lent[4..].as_mut_ptr());
    // SAFETY: the pointers are those of slices, work has no numbers, and N is as many as the function writes.
    let answer = unsafe { get(r, relations.len(), s, sets.len(), null_mut(), 0, a, c) };
    assert_eq!((&lent[..4], &lent[4 + N..]), (&guard[..], &guard[..]));
    (answer, lent[4..4 + N].try_into().unwrap())
}

#[test]
fn get_writes_the_children_of_an_accepted_call_only() {
    let (mut relations, mut sets) = ([0; relations_len(3)], [0; sets_len(1)]);
    new(&mut relations, &mut sets, &mut [], 1).unwrap();
    let set = |sets: &[u32], a| ask(raw::set_get, &relations, sets, a, [70, 80]);
    assert_eq!(set(&sets, 3), (1, [1, 1]));
    assert_eq!(set(&sets, 2), (0, [0, 0]));
    assert_eq!(set(&sets, 4), (2 << 32, [70, 80]));
    assert_eq!(set(&sets, 1), (4 << 32, [70, 80]));
    assert_eq!(set(&sets[..2], 3), (1 << 32, [70, 80]));
    let kept = [70, 80, 90, 100];
    let relation = |sets: &[u32], a| ask(raw::relation_get, &relations, sets, a, kept);
    assert_eq!(relation(&sets, 3), (1, [1, 0, 0, 1]));
    assert_eq!(relation(&sets, 2), (0, [0, 0, 0, 0]));
    assert_eq!(relation(&sets, 5), (2 << 32, kept));
    assert_eq!(relation(&sets, 1), (4 << 32, kept));
    assert_eq!(relation(&sets[..2], 3), (1 << 32, kept));
    assert_eq!(set_zero(&relations, &mut sets, &mut []).unwrap().handle, 2);
}

#[test]
fn a_pair_stands_beside_its_answer() {
    let (mut relations, mut sets) = ([0; relations_len(4)], [0; sets_len(1)]);
    new(&mut relations, &mut sets, &mut [], 1).unwrap();
    // Relation 5 sends 1 to 0.
    assert_eq!(relation_mk(&mut relations, &sets, &mut [], 0, 0, 1, 0).unwrap().handle, 5);
    let first = |len, p, a, q| {
        let (r, s) = (relations.as_ptr(), sets.as_ptr());
        // SAFETY: the pointers are those of slices that have these lengths, and work has no numbers.
        unsafe { raw::relation_first_path(r, relations.len(), s, len, null_mut(), 0, p, a, q) }
    };
    let given = |answer, input, output| Pair { answer, input, output };
    assert_eq!(first(sets.len(), 3, 5, 3), given(1, 1, 0));
    assert_eq!(first(sets.len(), 3, 3, 3), given(1, 0, 0));
    assert_eq!(first(sets.len(), 2, 5, 3), given(0, 0, 0));
    assert_eq!(first(sets.len(), 3, 1, 3), given(3 << 32, 0, 0));
    assert_eq!(first(sets.len(), 3, 6, 1), given(2 << 32, 0, 0));
    assert_eq!(first(sets.len() - 1, 9, 6, 1), given(1 << 32, 0, 0));
}

#[test]
fn a_cursor_is_moved_on_and_nothing_beside_it() {
    let (mut relations, mut sets) = ([0; relations_len(3)], [0; sets_len(1)]);
    new(&mut relations, &mut sets, &mut [], 1).unwrap();
    // The answer, and the four numbers after the call; guard words stand beside them.
    let next = |len, numbers: [u32; 4]| {
        let guard = [0xfeed; 4];
        let mut lent = [guard, numbers, guard];
        let (r, s, cursor) = (relations.as_ptr(), sets.as_ptr(), lent[1].as_mut_ptr());
        // SAFETY: the pointers are those of arrays that have these lengths, a cursor is four numbers, and work has none.
        let answer = unsafe {
            raw::set_next(r, relations.len(), s, len, null_mut(), 0, cursor.cast::<Cursor>())
        };
        assert_eq!((lent[0], lent[2]), (guard, guard));
        (answer, lent[1])
    };
    assert_eq!(next(sets.len(), [3, 0, 0, 0]), (1, [3, 0, 1, 0]));
    assert_eq!(next(sets.len(), [3, 0, 9, 0]), (1, [3, 1, 1, 0]));
    assert_eq!(next(sets.len(), [3, 1, 9, 0]), (0, [3, 1, 9, 1]));
    assert_eq!(next(sets.len(), [2, 70, 0, 0]), (0, [2, 70, 0, 1]));
    assert_eq!(next(sets.len(), [3, 0, 0, 80]), (0, [3, 0, 0, 80]));
    assert_eq!(next(sets.len(), [3, 2, 9, 80]), (5 << 32, [3, 2, 9, 80]));
    assert_eq!(next(sets.len(), [4, 2, 9, 80]), (2 << 32, [4, 2, 9, 80]));
    assert_eq!(next(sets.len() - 1, [4, 2, 9, 80]), (1 << 32, [4, 2, 9, 80]));
}

#[test]
fn jobs_get_their_answers_and_nothing_beside_them() {
    // The reply, and the numbers of the jobs after the call; guard words stand beside them.
    let run = |len, jobs: &[[u32; 9]], limit| {
        let (mut relations, mut sets) = ([0; relations_len(4)], [0; sets_len(1)]);
        new(&mut relations, &mut sets, &mut [], 1).unwrap();
        let guard = [[0xfeed; 9]];
        let mut lent = [&guard, jobs, &guard].concat();
        let (r, s, j) = (relations.as_mut_ptr(), sets.as_mut_ptr(), lent[1..].as_mut_ptr());
        let r_len = relations.len();
        // SAFETY: the pointers are those of arrays that have these lengths, a job is nine numbers, and work has none.
        let reply = unsafe {
            raw::run_jobs(r, r_len, s, len, null_mut(), 0, j.cast::<Job>(), jobs.len(), limit)
        };
        assert_eq!((lent[0], lent[jobs.len() + 1]), (guard[0], guard[0]));
        (reply, lent[1..=jobs.len()].to_vec())
    };
    let given = |answer, relations| Reply { answer, relations, sets: 0 };
    // `relation_test` of field 0 and value 1, and its `relation_flip`.
    let (test, flip) = ([34, 0, 0, 0, 1, 7, 8, 0, 9], [13, 5, 0, 6, 7, 8, 9, 0, 10]);
    let (tested, flipped) = ([34, 0, 0, 0, 1, 7, 8, 2, 5], [13, 5, 0, 6, 7, 8, 9, 2, 5]);
    assert_eq!(run(3, &[test, flip], 9), (given(2, 1), vec![tested, flipped]));
    assert_eq!(run(3, &[test, flip], 1), (given(1, 1), vec![tested, flip]));
    let out_of_range = [34, 0, 1, 0, 1, 7, 8, 0, 9];
    let refused = [34, 0, 1, 0, 1, 7, 8, 4, 5];
    assert_eq!(run(3, &[out_of_range], 9), (given(1, 0), vec![refused]));
    assert_eq!(run(2, &[test, flip], 9), (given(1 << 32, 0), vec![test, flip]));
    assert_eq!(run(3, &[test; 257], 1), (given(5 << 32, 0), vec![test; 257]));
    assert_eq!(run(2, &[test; 257], 1), (given(1 << 32, 0), vec![test; 257]));
    // A list of no jobs may have a null pointer.
    let (mut relations, mut sets) = ([0; relations_len(3)], [0; sets_len(1)]);
    new(&mut relations, &mut sets, &mut [], 1).unwrap();
    let (r, s) = (relations.as_mut_ptr(), sets.as_mut_ptr());
    // SAFETY: the pointers are those of arrays that have these lengths, and there are neither jobs nor work.
    let reply = unsafe {
        raw::run_jobs(r, relations.len(), s, sets.len(), null_mut(), 0, null_mut(), 0, 9)
    };
    assert_eq!(reply, given(0, 0));
}

#[test]
fn a_policys_answer_has_two_halves() {
    let (mut relations, mut sets) = ([0; relations_len(3)], [0; sets_len(1)]);
    new(&mut relations, &mut sets, &mut [], 1).unwrap();
    let mut judge = |text: *const u8, len| {
        let (r, r_len, s, s_len) =
            (relations.as_mut_ptr(), relations.len(), sets.as_ptr(), sets.len());
        // SAFETY: the pointers are those of slices, work has no numbers, and a text of no bytes is not read.
        unsafe { raw::policy(r, r_len, s, s_len, null_mut(), 0, text, len) }
    };
    let given = |answer| Reply { answer, relations: 0, sets: 0 };
    assert_eq!(judge(null(), 0), given(7 << 32));
    let text = b"1+x0=5";
    assert_eq!(judge(text.as_ptr(), text.len()), given(7 << 32 | 5));
    assert_eq!(judge(text.as_ptr(), 1), given(3));
    assert_eq!(judge(text[2..].as_ptr(), 3), given(7 << 32 | 3));
    assert_eq!(judge(b"x0=1".as_ptr(), 4), given(6 << 32));
    assert_eq!(judge([b'1'; 4097].as_ptr(), 4097), given(10 << 32));
}
