//! Safe functions over the proved packet store: sets of packets and relations on packets, in memory that
//! the caller lends.
//!
//! Every function is lent `relations`, `sets` and `work`, slices of `u32` of any length. The first two hold
//! the store, each node in a place; document 01 and include/packet_store.h give their layout. `work` is
//! working memory, and no answer depends on it. It saves time, of which no bound is proved: without it a
//! call may take time exponential in the level. [`WORK_LEN`] numbers are recommended for any store, and
//! four times as many where strangers write the texts.
//!
//! A call that may add nodes gives its handle and the nodes that it added, [`Made`]; `mk` also whether it
//! appended its node, [`Node`]. The handle does not say it: an old one may stand beside new nodes. [`raw`]
//! has the C functions themselves, whose numbers beside a refusal are 0.
//!
//! [`set_next`] gives the packets of a set in turn and moves on a [`Cursor`] that it is lent; [`members`] is an
//! iterator over it.
//!
//! [`run_jobs`] makes many calls in one, those of a list of job records, each with its answer in its record; [`jobs`] has the records and a
//! list that is made by the operations' names.
//!
//! A refused call changes neither `relations` nor `sets`; every call leaves `work` all zeros. Where several
//! refusals apply, the first in the function's list is given.
//!
//! ```
//! use packet_store::{relations_len, sets_len, WORK_LEN};
//! let (mut relations, mut sets) = ([0; relations_len(16)], [0; sets_len(16)]);
//! let mut work = vec![0; WORK_LEN];
//! packet_store::new(&mut relations, &mut sets, &mut work, 2)?;
//! let a = packet_store::set_test(&relations, &mut sets, &mut work, 0, 1)?.handle;
//! let b = packet_store::set_complement(&relations, &sets, &mut work, a)?;
//! let all = packet_store::set_union(&relations, &mut sets, &mut work, a, b)?;
//! // All packets are a set that `new` made, so neither call added a node.
//! assert_eq!(packet_store::set_one(&relations, &mut sets, &mut work)?, all);
//! assert_eq!(all.added, packet_store::Added { relations: 0, sets: 0 });
//! # Ok::<(), packet_store::Refusal>(())
//! ```

mod calls;
mod given;
mod head;
pub mod jobs;
mod lend;
mod members;
mod policy_call;
pub mod raw;
mod refusal;
mod table;

pub use calls::*;
pub use given::{Added, Made, Node};
pub use head::*;
pub use jobs::run_jobs;
pub use members::{members, set_next, Cursor, Members};
pub use policy_call::policy;
pub use refusal::{Fault, JobRefusal, PolicyRefusal, Refusal};
