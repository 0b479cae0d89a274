//! How long the memories are and where their numbers stand: a head first, then four numbers or two for each place.

/// How many numbers `relations` has before its nodes.
pub const RELATION_HEAD: usize = 2;
/// The place of the number of fields in it.
pub const FIELDS: usize = 0;
/// The place of its node count.
pub const RELATION_COUNT: usize = 1;

/// How many numbers `sets` has before its nodes.
pub const SET_HEAD: usize = 1;
/// The place of its node count.
pub const SET_COUNT: usize = 0;

/// The recommended working memory, for any store: 256 KiB. Lend four times as much where strangers write the
/// texts.
pub const WORK_LEN: usize = 65_536;

/// How many numbers `relations` needs for this many places; the next node begins there.
pub const fn relations_len(places: usize) -> usize {
    RELATION_HEAD + 4 * places
}

/// How many numbers `sets` needs for this many places; the next node begins there.
pub const fn sets_len(places: usize) -> usize {
    SET_HEAD + 2 * places
}
