//! The table of the calls: all but [`policy`](crate::policy), which takes a text, and [`set_next`](crate::set_next) and
//! [`run_jobs`](crate::run_jobs), which are lent a cursor and a list of jobs.

use crate::table::calls;
use crate::{Made, Node};

calls! {
    // The call that begins a store.

    /// Begins a store of `k` fields in both memories, whatever they held.
    ///
    /// Gives the full relation of level `k`, and the nodes that the store holds, 3 `k` and `k`. Refuses with `OutOfRange` if `k` is above 32; `NotStore` if
    /// `relations` or `sets` has fewer numbers than its head; `UsedUp` if `relations` has fewer than 3 `k` places
    /// or `sets` fewer than `k`. Memory of zeros is a valid store of no fields, so calls after a refusal that is
    /// overlooked may be accepted.
    new(relations: &mut [u32], sets: &mut [u32], k) -> Made;

    // Sets: calls that may add nodes.

    /// The set with these children: `x0` where field 0 is 0, `x1` where it is 1; and whether its node was appended.
    ///
    /// Refuses with `NotStore`; `NotHeld`; `LevelsDiffer`; `OutOfRange` if the children are at level k; `UsedUp`.
    set_mk(relations: &[u32], sets: &mut [u32], x0, x1) -> Node;

    /// The empty set of level k.
    ///
    /// Refuses with `NotStore`; `UsedUp`.
    set_zero(relations: &[u32], sets: &mut [u32]) -> Made;

    /// The full set of level k.
    ///
    /// Refuses with `NotStore`; `UsedUp`.
    set_one(relations: &[u32], sets: &mut [u32]) -> Made;

    /// The packets in `a` or in `b`.
    ///
    /// Refuses with `NotStore`; `NotHeld`; `LevelsDiffer`; `UsedUp`.
    set_union(relations: &[u32], sets: &mut [u32], a, b) -> Made;

    /// The packets in `a` and in `b`.
    ///
    /// Refuses as [`set_union`].
    set_intersect(relations: &[u32], sets: &mut [u32], a, b) -> Made;

    /// The packets in exactly one of `a` and `b`.
    ///
    /// Refuses as [`set_union`].
    set_xor(relations: &[u32], sets: &mut [u32], a, b) -> Made;

    /// The packets in `a` and not in `b`.
    ///
    /// Refuses as [`set_union`].
    set_difference(relations: &[u32], sets: &mut [u32], a, b) -> Made;

    /// The packets of level k whose field `var` has this value, 0 or 1.
    ///
    /// Refuses with `NotStore`; `OutOfRange` if `var` is k or more or `value` is above 1; `UsedUp`.
    set_test(relations: &[u32], sets: &mut [u32], var, value) -> Made;

    /// The packets of `then_branch` whose field `var` is 1 and those of `else_branch` whose field `var` is 0.
    ///
    /// Refuses with `NotStore`; `OutOfRange` if `var` is k or more; `NotHeld`; `LevelsDiffer`; `NoChildren` if the branches' level
    /// is not above `var`; `UsedUp`.
    set_ifelse(relations: &[u32], sets: &mut [u32], var, then_branch, else_branch) -> Made;

    // Sets: calls that add nothing.

    /// The children of `a`: the one where field 0 is 0, then the one where it is 1.
    ///
    /// Refuses with `NotStore`; `NotHeld`; `NoChildren` if `a` is 0 or 1.
    set_get(relations: &[u32], sets: &[u32], a) -> [u32; 2];

    /// The packets of `a`'s level that are not in `a`.
    ///
    /// Refuses with `NotStore`; `NotHeld`.
    set_complement(relations: &[u32], sets: &[u32], a) -> u32;

    /// Whether `a` has no packet.
    ///
    /// Refuses with `NotStore`; `NotHeld`.
    set_is_zero(relations: &[u32], sets: &[u32], a) -> bool;

    /// Whether some packet is in `a` and in `b`.
    ///
    /// Refuses with `NotStore`; `NotHeld`; `LevelsDiffer`.
    set_intersects(relations: &[u32], sets: &[u32], a, b) -> bool;

    // Relations: calls that may add nodes.

    /// The relation with these children, and whether its node was appended; the first digit is the input's field 0, the second the
    /// output's.
    ///
    /// Refuses with `NotStore`; `NotHeld`; `LevelsDiffer`; `OutOfRange` if the children are at level k; `UsedUp`.
    relation_mk(relations: &mut [u32], sets: &[u32], x00, x01, x10, x11) -> Node;

    /// The empty relation of level k.
    ///
    /// Refuses with `NotStore`; `UsedUp`.
    relation_zero(relations: &mut [u32], sets: &[u32]) -> Made;

    /// The identity of level k: each packet related to itself alone.
    ///
    /// Refuses with `NotStore`; `UsedUp`.
    relation_one(relations: &mut [u32], sets: &[u32]) -> Made;

    /// The full relation of level k.
    ///
    /// Refuses with `NotStore`; `UsedUp`.
    relation_top(relations: &mut [u32], sets: &[u32]) -> Made;

    /// The pairs in `a` or in `b`.
    ///
    /// Refuses with `NotStore`; `NotHeld`; `LevelsDiffer`; `UsedUp`.
    relation_union(relations: &mut [u32], sets: &[u32], a, b) -> Made;

    /// The pairs in `a` and in `b`.
    ///
    /// Refuses as [`relation_union`].
    relation_intersect(relations: &mut [u32], sets: &[u32], a, b) -> Made;

    /// The pairs in exactly one of `a` and `b`.
    ///
    /// Refuses as [`relation_union`].
    relation_xor(relations: &mut [u32], sets: &[u32], a, b) -> Made;

    /// The pairs in `a` and not in `b`.
    ///
    /// Refuses as [`relation_union`].
    relation_difference(relations: &mut [u32], sets: &[u32], a, b) -> Made;

    /// The pairs of `a`'s level that are not in `a`.
    ///
    /// Refuses with `NotStore`; `NotHeld`; `UsedUp`.
    relation_complement(relations: &mut [u32], sets: &[u32], a) -> Made;

    /// The pairs of an input of `a` and an output of `b` with a packet between them.
    ///
    /// Refuses as [`relation_union`].
    relation_sequence(relations: &mut [u32], sets: &[u32], a, b) -> Made;

    /// The pairs that any finite number of steps of `a` relates, none included.
    ///
    /// Refuses as [`relation_complement`].
    relation_star(relations: &mut [u32], sets: &[u32], a) -> Made;

    /// The pairs of `a` with input and output exchanged.
    ///
    /// Refuses as [`relation_complement`].
    relation_flip(relations: &mut [u32], sets: &[u32], a) -> Made;

    /// Each packet of level k whose field `var` has this value, 0 or 1, related to itself.
    ///
    /// Refuses with `NotStore`; `OutOfRange` if `var` is k or more or `value` is above 1; `UsedUp`.
    relation_test(relations: &mut [u32], sets: &[u32], var, value) -> Made;

    /// Each packet of level k related to itself with this value in field `var`.
    ///
    /// Refuses as [`relation_test`].
    relation_assign(relations: &mut [u32], sets: &[u32], var, value) -> Made;

    /// Every packet related to each output of `a`.
    ///
    /// Refuses as [`relation_complement`].
    relation_naive_forward(relations: &mut [u32], sets: &[u32], a) -> Made;

    /// Each input of `a` related to every packet.
    ///
    /// Refuses as [`relation_complement`].
    relation_backward(relations: &mut [u32], sets: &[u32], a) -> Made;

    // Relations: calls that add nothing.

    /// The children of `a`: x00, x01, x10 and x11.
    ///
    /// Refuses with `NotStore`; `NotHeld`; `NoChildren` if `a` is 0 or 1.
    relation_get(relations: &[u32], sets: &[u32], a) -> [u32; 4];

    /// Whether `a` relates nothing.
    ///
    /// Refuses with `NotStore`; `NotHeld`.
    relation_is_zero(relations: &[u32], sets: &[u32], a) -> bool;

    /// Whether `a` relates this input to this output. A packet is a number whose bit f is field f of `a`: field 0 is its least
    /// significant bit.
    ///
    /// Refuses with `NotStore`; `NotHeld`; `OutOfRange` if a packet is 2^level or more.
    relation_relates(relations: &[u32], sets: &[u32], a, input, output) -> bool;

    // Calls that read relations and may add sets.

    /// The packets that the relation `a` relates some packet to: its range.
    ///
    /// Refuses with `NotStore`; `NotHeld`; `UsedUp`.
    relation_fwd(relations: &[u32], sets: &mut [u32], a) -> Made;

    /// The packets that the relation `a` relates to some packet: its domain.
    ///
    /// Refuses as [`relation_fwd`].
    relation_bwd(relations: &[u32], sets: &mut [u32], a) -> Made;

    /// The packets that the relation `a` relates some packet of the set `p` to.
    ///
    /// Refuses with `NotStore`; `NotHeld`; `LevelsDiffer`; `UsedUp`.
    relation_push(relations: &[u32], sets: &mut [u32], p, a) -> Made;

    /// The packets that the relation `a` relates to some packet of the set `p`.
    ///
    /// Refuses as [`relation_push`].
    relation_pull(relations: &[u32], sets: &mut [u32], a, p) -> Made;

    // Calls that read sets and may add relations.

    /// Each packet of the set `p` related to itself.
    ///
    /// Refuses with `NotStore`; `NotHeld`; `UsedUp`.
    relation_diagonal(relations: &mut [u32], sets: &[u32], p) -> Made;

    /// Every packet of the level of the set `p` related to each packet of `p`.
    ///
    /// Refuses as [`relation_diagonal`].
    relation_ifwd(relations: &mut [u32], sets: &[u32], p) -> Made;

    /// Each packet of the set `p` related to every packet of its level. [`relation_bwd`] of the answer, where it
    /// is accepted, is `p` again.
    ///
    /// Refuses as [`relation_diagonal`].
    relation_ibwd(relations: &mut [u32], sets: &[u32], p) -> Made;

    // Calls on relations and sets that add nothing.

    /// Whether the relation `a` relates some packet of the set `p` to any.
    ///
    /// Refuses with `NotStore`; `NotHeld`; `LevelsDiffer`.
    relation_has_image(relations: &[u32], sets: &[u32], p, a) -> bool;

    /// Whether the relation `a` relates some packet of the set `p` to some packet of the set `q`.
    ///
    /// Refuses as [`relation_has_image`].
    relation_has_path(relations: &[u32], sets: &[u32], p, a, q) -> bool;

    /// The first pair that the relation `a` relates from a packet of the set `p` to a packet of the set `q`: input and output.
    ///
    /// It is the first input that has such an output, inputs being compared field by field from field 0 on, 0 before 1, and not by
    /// number (with two fields 0, 2, 1, 3); and of its outputs in `q` the first in the same order. Packets are numbers as in
    /// [`relation_relates`]. There is none exactly where [`relation_has_path`] gives `false`; at level 0 a pair is `(0, 0)`.
    ///
    /// Refuses as [`relation_has_image`].
    ///
    /// ```
    /// use packet_store::{new, policy, relation_first_path, relations_len, set_one, set_test, sets_len, WORK_LEN};
    /// let (relations, sets) = (&mut [0; relations_len(64)], &mut [0; sets_len(16)]);
    /// let work = &mut vec![0; WORK_LEN];
    /// new(relations, sets, work, 2)?;
    /// // Packets with 0 in both fields get 1 in field 0, those with 1 in field 1 alone get 0 there.
    /// let a = policy(relations, sets, work, b"x0=0;x1=0;x0:=1+x0=0;x1=1;x1:=0")?.handle;
    /// let all = set_one(relations, sets, work)?.handle;
    /// assert_eq!(relation_first_path(relations, sets, work, all, a, all)?, Some((0b00, 0b01)));
    /// let low = set_test(relations, sets, work, 0, 0)?.handle;
    /// assert_eq!(relation_first_path(relations, sets, work, all, a, low)?, Some((0b10, 0b00)));
    /// let high = set_test(relations, sets, work, 0, 1)?.handle;
    /// assert_eq!(relation_first_path(relations, sets, work, high, a, all)?, None);
    /// # Ok::<(), packet_store::PolicyRefusal>(())
    /// ```
    relation_first_path(relations: &[u32], sets: &[u32], p, a, q) -> Option<(u32, u32)>;
}
