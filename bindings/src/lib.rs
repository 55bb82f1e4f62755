//! The proved rope log, safe to call from Rust.
//!
//! A *replica* is a cabinet with its memory card, or a witness; a *cluster* is all of them. The card of a
//! replica holds an *image*: a header, then a record for each *slot* of the log, then an entry for each.
//! A record says that its slot is used, and in which *epoch*; an entry holds the *payload*. Slots and
//! replicas are numbered from 1.
//!
//! In *edition* 1 slot k has index k in its record and its entry. In edition 2 the header names the
//! *first index*, and slot k has index first + k − 1: a log whose old slots were dropped once a checkpoint
//! stood. [`Geometry::new`] is for edition 1 and [`Geometry::edition_2`] for the other. Every call counts
//! slots from 1 in both.
//!
//! A *witness* is a box that stores records only: its image is a header and a record for each slot.
//! [`Geometry::with_witnesses`] names them, and says what to know before a cluster gets witnesses. Asked
//! about a faulty slot of the leader, a witness with a good record of that epoch speaks against a cut;
//! nothing is fetched from it, it never leads, and a recovery only blanks and adds its records. A bad
//! record makes it unreadable: it counts as away and keeps every byte, and no recovery mends it. Recover
//! the others without it; then format it anew, with the first index of their logs, and the next recovery
//! fills it. Until it is filled it answers as a fresh card does, that it never had anything.
//!
//! [`format()`] and [`format_from`] make the image of a card or of a witness. [`append`], [`read`],
//! [`payload`] and [`has_payload`] are calls for one card, [`witness_append`] and [`witness_read`] for one
//! witness: the other kind of replica is refused by [`Refusal::BufferLength`], whatever the length of its
//! image. [`plan`], [`step`] and [`run`] are about a cluster, which is one buffer with all images end to
//! end.
//!
//! A call that is refused ([`Refusal`]) has changed nothing. The functions behind the calls are
//! proved for every buffer and every number, so nothing has to be checked before a call.
//!
//! ```
//! use ropelog::{append, format, payload, plan, Epoch, Geometry, PlanAnswer};
//!
//! let geometry = Geometry::new(3, 2)?;
//! let mut cluster = vec![0; geometry.cluster_len()];
//! for replica in geometry.replicas() {
//!     let image = &mut cluster[geometry.image_range(replica)];
//!     format(image, geometry, replica)?;
//!     append(image, geometry, replica, Epoch::FIRST, b"metre 1204, wire broken")?;
//! }
//! let leader = geometry.replica(1)?;
//! let plan = plan(&cluster, geometry, leader, geometry.all_present())?;
//! assert_eq!(plan.answer(), PlanAnswer::Ready { length: 1 });
//! let image = &cluster[geometry.image_range(leader)];
//! assert_eq!(payload(image, geometry, leader, 1), b"metre 1204, wire broken");
//! # Ok::<(), ropelog::Refusal>(())
//! ```
//!
//! A log that goes on at index 1205:
//!
//! ```
//! use ropelog::{append, format_from, read, Epoch, Geometry};
//!
//! let geometry = Geometry::edition_2(3, 2)?;
//! let replica = geometry.replica(1)?;
//! let mut image = vec![0; geometry.image_len(replica)];
//! format_from(&mut image, geometry, replica, 1205)?;
//! let slot = append(&mut image, geometry, replica, Epoch::FIRST, b"metre 1207, no signal")?;
//! let log = read(&image, geometry, replica)?;
//! assert_eq!((slot, log.first(), log.index(slot)), (1, 1205, Some(1205)));
//! # Ok::<(), ropelog::Refusal>(())
//! ```
//!
//! Two cards and a witness:
//!
//! ```
//! use ropelog::{append, format, plan, witness_append, witness_read};
//! use ropelog::{Epoch, Geometry, PlanAnswer, ReplicaSet};
//!
//! let cards = Geometry::new(3, 2)?;
//! let witness = cards.replica(3)?;
//! let geometry = cards.with_witnesses(ReplicaSet::EMPTY.with(witness));
//! let mut cluster = vec![0; geometry.cluster_len()];
//! for replica in geometry.replicas() {
//!     let image = &mut cluster[geometry.image_range(replica)];
//!     format(image, geometry, replica)?;
//!     if geometry.is_witness(replica) {
//!         witness_append(image, geometry, replica, Epoch::FIRST)?;
//!     } else {
//!         append(image, geometry, replica, Epoch::FIRST, b"metre 1204, wire broken")?;
//!     }
//! }
//! let log = witness_read(&cluster[geometry.image_range(witness)], geometry, witness)?;
//! assert_eq!(log.epochs(), [Some(Epoch::FIRST), None]);
//! let plan = plan(&cluster, geometry, geometry.replica(1)?, geometry.all_present())?;
//! assert_eq!(plan.answer(), PlanAnswer::Ready { length: 1 });
//! # Ok::<(), ropelog::Refusal>(())
//! ```
//!
//! # Linking
//!
//! The functions stand in `libropelog.a`, for x86-64 Linux, which `.ci/build` writes to
//! `target/staticlib` of the repository. If it lies elsewhere, the environment variable
//! `ROPELOG_ARCHIVE_DIR` names its folder when this crate is built: an absolute path, or one that
//! begins at the folder of this crate.

#![warn(missing_docs)]
#![warn(clippy::missing_errors_doc, clippy::undocumented_unsafe_blocks)]

mod cluster;
mod exported;
mod geometry;
mod image;
pub mod pieces;
mod refusal;
mod witness;

pub use cluster::{
    plan, run, step, Plan, PlanAction, PlanAnswer, ReplicaRow, RunAnswer, StepAnswer, Store,
    StoreKind,
};
pub use geometry::{Edition, Epoch, Geometry, Replica, ReplicaSet};
pub use image::{append, format, format_from, has_payload, payload, read, Log, SlotState, Verdict};
pub use refusal::Refusal;
pub use witness::{witness_append, witness_read, WitnessLog};

/// Bytes of a header in edition 1.
pub const HEADER_LEN: usize = 28;
/// Bytes of a header in edition 2, which has the first index.
pub const HEADER_LEN_2: usize = 39;
/// Bytes of a record.
pub const RECORD_LEN: usize = 34;
/// Bytes of an entry.
pub const ENTRY_LEN: usize = 240;
/// The most bytes that a payload has.
pub const MAX_PAYLOAD: usize = 200;
/// The most slots that an image has.
pub const MAX_SLOTS: usize = 64;
/// The fewest replicas that a cluster has.
pub const MIN_REPLICAS: usize = 3;
/// The most replicas that a cluster has.
pub const MAX_REPLICAS: usize = 7;
