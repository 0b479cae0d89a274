//! The call that gives the packets of a set in turn, and an iterator over it.

use crate::given::unpack;
use crate::lend::ask;
use crate::Refusal;
use std::iter::FusedIterator;

/// The library's function.
pub(crate) mod declared {
    use crate::Cursor;
    extern "C" {
        crate::lend::exported! {
            set_next(relations: &[u32], sets: &[u32], cursor: *mut Cursor) -> u64
        }
    }
}

/// The place reached in a set whose packets are taken in turn: `packet_store_cursor`.
///
/// Of the two marks 0 is no and any other number yes, so any four numbers are a cursor.
#[repr(C)]
#[derive(Clone, Copy, Debug, Default, PartialEq, Eq, Hash)]
pub struct Cursor {
    /// The set.
    pub handle: u32,
    /// The last packet given, or any other of the set's level, from which to go on.
    pub last: u32,
    /// Whether a packet was given; if not, `last` is not looked at.
    pub given: u32,
    /// Whether the end was met.
    pub ended: u32,
}

impl Cursor {
    /// The beginning of a set.
    pub fn new(handle: u32) -> Cursor {
        Cursor { handle, ..Cursor::default() }
    }
}

/// The next packet of the cursor's set, or none at the end: the first that comes after `last`, or the first of all where none was given.
///
/// Packets are numbers as in [`relation_relates`](crate::relation_relates), and come in field order, compared field by field from field
/// 0 on, 0 before 1, and not by number: with two fields 0, 2, 1, 3. `last` need not be in the set. From [`Cursor::new`] on each packet
/// of the set is given exactly once, then the end; calls other than [`new`](crate::new) between two of these alter nothing of it. Where
/// there is a packet, it is then the cursor's `last` and `given` is 1; at the end `ended` is 1 if it was 0. All else in the cursor
/// stays, and with the end met nothing changes any more.
///
/// Refuses with `NotStore`; `NotHeld`; `OutOfRange` if a packet was given and `last` is 2^level or more. All three are found before the
/// end, also where it was met. A refusal leaves the cursor as it is.
///
/// ```
/// use packet_store::{new, relations_len, set_next, set_test, sets_len, Cursor, WORK_LEN};
/// let (relations, sets) = (&mut [0; relations_len(6)], &mut [0; sets_len(4)]);
/// let work = &mut vec![0; WORK_LEN];
/// new(relations, sets, work, 2)?;
/// // Field 0 is the least significant bit.
/// let mut cursor = Cursor::new(set_test(relations, sets, work, 0, 1)?.handle);
/// assert_eq!(set_next(relations, sets, work, &mut cursor)?, Some(0b01));
/// assert_eq!(set_next(relations, sets, work, &mut cursor)?, Some(0b11));
/// assert_eq!(set_next(relations, sets, work, &mut cursor)?, None);
/// // It may go on from any packet.
/// cursor = Cursor { last: 0b10, given: 1, ..Cursor::new(cursor.handle) };
/// assert_eq!(set_next(relations, sets, work, &mut cursor)?, Some(0b01));
/// # Ok::<(), packet_store::Refusal>(())
/// ```
pub fn set_next(
    relations: &[u32],
    sets: &[u32],
    work: &mut [u32],
    cursor: &mut Cursor,
) -> Result<Option<u32>, Refusal> {
    let found = unpack(ask!(set_next(relations, sets, work, &mut *cursor)))?;
    Ok((found == 1).then_some(cursor.last))
}

/// The packets of a set in turn, in field order: [`set_next`] from the set's beginning on.
///
/// A refusal is given once, and nothing after it. Every step checks both memories, as every call does, which is linear in the nodes held;
/// so n packets take n + 1 such checks.
///
/// ```
/// use packet_store::{members, new, relations_len, sets_len, Refusal};
/// let (relations, sets) = (&mut [0; relations_len(6)], &mut [0; sets_len(2)]);
/// new(relations, sets, &mut [], 2)?;
/// // The full set of level 2.
/// let packets: Result<Vec<u32>, Refusal> = members(relations, sets, &mut [], 5).collect();
/// assert_eq!(packets?, [0b00, 0b10, 0b01, 0b11]);
/// # Ok::<(), Refusal>(())
/// ```
pub fn members<'a>(
    relations: &'a [u32],
    sets: &'a [u32],
    work: &'a mut [u32],
    handle: u32,
) -> Members<'a> {
    Members { relations, sets, work, cursor: Some(Cursor::new(handle)) }
}

/// The packets of a set in turn, which [`members`] gives.
#[derive(Debug)]
pub struct Members<'a> {
    relations: &'a [u32],
    sets: &'a [u32],
    work: &'a mut [u32],
    /// The place reached; none after the end and after a refusal.
    cursor: Option<Cursor>,
}

impl Iterator for Members<'_> {
    type Item = Result<u32, Refusal>;

    fn next(&mut self) -> Option<Result<u32, Refusal>> {
        let mut cursor = self.cursor?;
        let step = set_next(self.relations, self.sets, self.work, &mut cursor).transpose();
        self.cursor = matches!(step, Some(Ok(_))).then_some(cursor);
        step
    }
}

impl FusedIterator for Members<'_> {}
