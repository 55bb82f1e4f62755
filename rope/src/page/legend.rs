//! The legend: every mark, and the signs of the plan.

use ropelog::{Plan, PlanAction};

use super::kind::Kind;
use super::signs;
use crate::cluster::Cluster;
use crate::seat::Seat;

/// The legend.
pub fn legend(cluster: &Cluster, plan: &Plan) -> String {
    let marks: String = Kind::ALL.into_iter().map(mark).collect();
    format!(
        "<section class=\"legend\">\n<h2>The marks</h2>\n<ul>\n{marks}{}</ul>\n</section>\n",
        drawn(cluster, plan)
    )
}

fn mark(kind: Kind) -> String {
    format!(
        "<li><span class=\"swatch {}\"><span class=\"mark\">{}</span></span><span><b>{}</b>: {}</span></li>\n",
        kind.class(),
        kind.mark(),
        kind.word(),
        kind.meaning()
    )
}

/// The signs that this plan has, each once.
fn drawn(cluster: &Cluster, plan: &Plan) -> String {
    let any_away = !cluster.numbers(|seat: &Seat| !seat.answers()).is_empty();
    let mut items: Vec<String> = Vec::new();
    for &action in plan.actions() {
        let Some(words) = explained(action, any_away) else {
            continue;
        };
        let sign = signs::of(action);
        let item = format!("<li><span class=\"swatch\">{sign}</span><span>{words}</span></li>\n");
        if !items.contains(&item) {
            items.push(item);
        }
    }
    items.concat()
}

/// What a sign means. Frames are dashed where a cabinet does not answer.
fn explained(action: PlanAction, any_away: bool) -> Option<&'static str> {
    match action {
        PlanAction::Fetch(_) => {
            Some("<b>fetch</b>: the arrow leads from the cabinet that has the reading to the lead")
        }
        PlanAction::RewriteRecord => {
            Some("<b>line anew</b>: the line is written again from its cell")
        }
        PlanAction::Wait if any_away => {
            Some("<b>wait</b>: nothing is written. A dashed frame: this one may end the wait")
        }
        PlanAction::Wait => Some("<b>wait</b>: nothing is written"),
        PlanAction::Truncate => Some("<b>cut</b>: what is struck through goes from every cabinet"),
        _ => None,
    }
}
