//! Replaying, drawing and checking.

use oracle::call::Call;
use oracle::check::{check, Effort};
use oracle::draw::{Draw, Part};
use oracle::operations::{self, BETWEEN};
use oracle::replay::replay;
use std::collections::HashSet;

fn replayed(list: &str) -> String {
    let mut output = vec![];
    replay(list.as_bytes(), &mut output).unwrap();
    String::from_utf8(output).unwrap()
}

fn drawn(seed: u64, count: usize, part: Part) -> Vec<String> {
    Draw::new(seed, part).take(count).map(|call| call.to_string()).collect()
}

#[test]
fn a_replay_gives_the_answer_and_both_counts() {
    let list = "rel.one\nnew 1 5 2\nrel.test 0 1\nrel.get 5\nset.is_zero 2\nassign 0 1\n\
                assign 0 0\nnew 33 9 9\nset.test 0 1\nnew 0 0 0\n";
    let answers = "h 1 0 0\no 3 1\nh 5 4 1\nc 0 0 0 1 4 1\nb 1 4 1\nh 6 5 1\n\
                   r 6 5 1\nr 5 5 1\nh 4 5 2\no 0 0\n";
    assert_eq!(replayed(list), answers);
}

#[test]
fn a_line_that_is_no_call_stops_the_replay() {
    let faults =
        ["", "rel.top", "top 1", "top ", "flip x", "flip 4294967296", "new 1 1", "flip  2"];
    for fault in faults {
        assert!(replay(format!("{fault}\n").as_bytes(), vec![]).is_err(), "{fault:?}");
    }
}

#[test]
fn there_are_44_calls_with_new() {
    let names: HashSet<_> = operations::all().map(|operation| operation.name).collect();
    assert_eq!(names.len() + 1, 44);
}

#[test]
fn a_seed_draws_one_list() {
    assert_eq!(drawn(1, 2000, Part::All), drawn(1, 2000, Part::All));
    assert_ne!(drawn(1, 2000, Part::All), drawn(2, 2000, Part::All));
}

#[test]
fn a_drawn_list_has_every_call_and_answer() {
    let list = drawn(3, 20_000, Part::All);
    assert!(list.iter().all(|line| line.parse::<Call>().unwrap().to_string() == *line));
    let first_word = |line: &String| line.split(' ').next().map(String::from);
    assert_eq!(list.iter().filter_map(first_word).collect::<HashSet<_>>().len(), 44);
    let answers = replayed(&list.join("\n"));
    assert!(answers.starts_with('o'));
    for start in
        ["h ", "b 0 ", "b 1 ", "c ", "p ", "m ", "n ", "r 2 ", "r 3 ", "r 4 ", "r 5 ", "r 6 "]
    {
        assert!(answers.lines().any(|line| line.starts_with(start)), "{start}");
    }
}

#[test]
fn a_part_draws_its_own_operations_only() {
    let own = |part, operations: &[operations::Operation]| {
        drawn(4, 2000, part).iter().all(|line| {
            let name = line.split(' ').next().unwrap();
            name == "new" || operations.iter().any(|operation| operation.name == name)
        })
    };
    assert!(own(Part::Sets, &operations::SETS));
    assert!(own(Part::Relations, &operations::RELATIONS));
    assert!(!own(Part::Both, &operations::SETS) && !own(Part::Both, &operations::RELATIONS));
    assert!(drawn(4, 2000, Part::Both)
        .iter()
        .all(|line| !BETWEEN.iter().any(|x| line.starts_with(x.name))));
}

#[test]
fn the_reference_means_what_document_01_says() {
    let mut table = vec![];
    let effort = Effort { all_up_to: 256, random_lists: 50, all_pairs_to: 1, all_members_to: 2 };
    let agreed = check(&effort, &mut table).unwrap();
    assert!(agreed, "{}", String::from_utf8(table).unwrap());
}

#[test]
fn a_pair_is_given_or_none() {
    let list = "new 2 99 99\nrel.mk 2 4 2 2\nset.mk 3 2\nrel.mk 2 2 0 0\nfirst_path 5 3 5\nfirst_path 5 5 5\n\
                first_path 7 5 5\nfirst_path 6 7 5\nfirst_path 0 1 1\nfirst_path 1 1 1\nfirst_path 99 1 5\n\
                first_path 5 1 5\n";
    let answers =
        "o 6 2\nh 8 7 2\nh 7 7 3\nr 3 7 3\nn 7 3\np 0 0 7 3\np 0 0 7 3\np 1 0 7 3\nn 7 3\n\
                   p 0 0 7 3\nr 2 7 3\nr 3 7 3\n";
    assert_eq!(replayed(list), answers);
}

/// Document 02's order takes the whole input first: 00 to 10 comes before 01 to 00, field 0 first.
#[test]
fn the_whole_input_comes_before_the_output() {
    let list =
        "new 2 99 99\npolicy x0=0;x1=0;x0:=1+x0=0;x1=1;x1:=0\nset.test 0 0\nfirst_path 5 21 5\n\
                first_path 5 21 7\nfirst_path 4 21 5\n";
    let answers: Vec<String> = replayed(list).lines().map(String::from).collect();
    assert!(answers[1].starts_with("h 21 ") && answers[2].starts_with("h 7 "));
    assert!(answers[3].starts_with("p 0 1 "), "{}", answers[3]);
    assert!(answers[4].starts_with("p 2 0 "), "{}", answers[4]);
    assert!(answers[5].starts_with("n "), "{}", answers[5]);
}

/// Set 9 of level 2 has the packets 0, 1 and 3, set 8 the packet 2, set 4 none; packet 2 comes before 1.
#[test]
fn a_packet_of_a_set_is_given_or_the_end() {
    let list = "new 2 99 99\nset.mk 0 1\nset.mk 7 3\nset.next 9 0 0 0\nset.next 9 0 1 0\nset.next 9 2 7 0\n\
                set.next 9 1 1 0\nset.next 9 3 1 0\nset.next 9 0 1 5\nset.next 8 0 1 0\nset.next 8 2 1 0\n\
                set.next 4 77 0 0\nset.next 5 4 1 1\nset.next 5 4 0 1\nset.next 10 4 1 1\nset.next 1 9 0 0\n\
                set.next 1 0 1 0\nset.next 0 0 0 0\nset.next 1 1 1 0\n";
    let answers = "o 6 2\nh 6 6 3\nh 9 6 4\nm 0 6 4\nm 1 6 4\nm 1 6 4\n\
                   m 3 6 4\nn 6 4\nn 6 4\nm 2 6 4\nn 6 4\n\
                   n 6 4\nr 5 6 4\nn 6 4\nr 2 6 4\nm 0 6 4\n\
                   n 6 4\nn 6 4\nr 5 6 4\n";
    assert_eq!(replayed(list), answers);
}
