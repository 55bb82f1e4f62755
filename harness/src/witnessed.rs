//! What witnesses decide in a cluster, so that it can be counted.

use crate::model::planner::{reply, Reply};
use crate::model::{image_offset, Shape, Survey};

/// Whether a slot that waits would be cut if the witnesses with its record had said don't-have.
pub fn kept_by_witnesses(survey: &Survey, slot: usize) -> bool {
    is_cut_if(survey, |replica| match reply(survey, replica, slot) {
        Some(Reply::DontHave) => true,
        Some(Reply::HaveFaulty) => survey.shape.is_witness(replica),
        Some(Reply::Have) | None => false,
    })
}

/// Whether a slot that is cut would wait if no witness had said don't-have.
pub fn cut_by_witnesses(survey: &Survey, slot: usize) -> bool {
    !is_cut_if(survey, |replica| {
        let lacks = reply(survey, replica, slot) == Some(Reply::DontHave);
        lacks && !survey.shape.is_witness(replica)
    })
}

/// Whether those that lack a slot of which there is no copy are enough to cut it.
fn is_cut_if(survey: &Survey, lacks: impl Fn(usize) -> bool) -> bool {
    let n = survey.shape.n;
    let may_hold_it = (1..=n).filter(|&replica| !lacks(replica)).count();
    2 * may_hold_it <= n
}

/// Whether the set names a replica a witness whose image is a card's, or the other way round. The images
/// before the first such one stand where they should.
pub fn is_wrong_set(cluster: &[u8], shape: Shape) -> bool {
    (1..=shape.n).any(|replica| {
        let word = &cluster[image_offset(shape, replica)..][..4];
        word == if shape.is_witness(replica) {
            b"rope"
        } else {
            b"wits"
        }
    })
}
