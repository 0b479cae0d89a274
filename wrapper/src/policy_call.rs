//! The call on a policy text.

use crate::lend::ask;
use crate::{Made, PolicyRefusal};

/// The library's function.
pub(crate) mod declared {
    use crate::raw::Reply;
    extern "C" {
        crate::lend::exported! {
            policy(relations: &mut [u32], sets: &[u32], text: *const u8, text_len: usize) -> Reply
        }
    }
}

/// The relation of level k that a policy text relates.
///
/// A sum is terms joined by `+`; a term products joined by `&` (intersection), `-` (difference) and `^` (exclusive or), on
/// one level and from the left; a product starred items joined by `;`; a starred item an atom and any number of `*`; an atom
/// `0`, `1`, `T` (every packet to every packet), `xN=b`, `xN:=b`, `!` and an atom, or `(` sum `)`.
///
/// Two texts that one store accepted, since one [`new`](crate::new), have one handle exactly when they relate the same pairs.
///
/// Refuses with `NotStore`; `TooLong` if `text` has more than 4,096 bytes; `NotPolicy` at the first byte that
/// cannot stand there, or the length where the text ends too soon, or `TooDeep` at the first `(` or `!` inside
/// 32 others, whichever comes first; `NoField` at the first `x` whose field is k or more; `NotPredicate` at the
/// first `!` over `:=`, `*` or `T`; `UsedUp`.
///
/// ```
/// use packet_store::{new, policy, relations_len, sets_len, Fault, Made, PolicyRefusal, WORK_LEN};
/// let (relations, sets) = (&mut [0; relations_len(64)], &mut [0; sets_len(4)]);
/// let mut work = vec![0; WORK_LEN];
/// new(relations, sets, &mut work, 1)?;
/// let mut judge = |text| policy(relations, sets, &mut work, text);
/// // The sum is the identity, which `new` made; its two tests are two new nodes.
/// let Made { handle, added } = judge(b"x0=0+x0=1")?;
/// assert_eq!((added.relations, added.sets), (2, 0));
/// assert_eq!(judge(b"1")?.handle, handle);
/// // All but the packets whose field 0 is 1.
/// assert_eq!(judge(b"1-x0=1")?.handle, judge(b"!x0=1")?.handle);
/// assert_eq!(judge(b"x0=5"), Err(PolicyRefusal::At(Fault::NotPolicy, 3)));
/// # Ok::<(), PolicyRefusal>(())
/// ```
pub fn policy(
    relations: &mut [u32],
    sets: &[u32],
    work: &mut [u32],
    text: &[u8],
) -> Result<Made, PolicyRefusal> {
    ask!(policy(relations, sets, work, text.as_ptr(), text.len())).policy()
}
