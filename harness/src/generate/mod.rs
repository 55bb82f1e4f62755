//! Generated inputs: agreeing histories with damage, arbitrary clusters, and noise.

pub mod arbitrary;
pub mod build;
pub mod calls;
pub mod damage;
pub mod example;
pub mod history;
pub mod images;
pub mod noise;
pub mod piece_calls;
pub mod pieces;
pub mod recovery;
pub mod rng;
pub mod shapes;
pub mod small;

pub use arbitrary::arbitrary_case;
pub use build::Cluster;
pub use calls::{one_of_each, plan_call};
pub use example::{example_input, misdirected};
pub use history::{agreed_case, AgreedCase, Committed};
pub use images::{image_calls, ImageCalls};
pub use noise::{noise_cluster, noise_image, noise_report_input, ImageCase};
pub use pieces::{entry_piece, header_piece, record_piece, HeaderPiece, Piece};
pub use recovery::{recovery_case, recovery_case_of};
pub use rng::Rng;
pub use shapes::{some_first, some_shape, some_shape_of, some_witnesses};
pub use small::{Small, FOUR, FROM_THREE, ONE_WITNESS, THREE, TWO_WITNESSES};

use crate::model::Shape;

/// A cluster with the numbers a call names beside it.
#[derive(Clone, Debug, PartialEq, Eq)]
pub struct Case {
    pub shape: Shape,
    pub leader: usize,
    pub present: u32,
    pub cluster: Vec<u8>,
}
