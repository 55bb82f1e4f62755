//! The grid: a row for each place, a column for each cabinet, and the plan drawn in.

use ropelog::{Plan, PlanAction, Replica};

use super::kind::Kind;
use super::signs;
use crate::cluster::Cluster;
use crate::plan::leaders_log;
use crate::seat::Seat;

/// The grid as a table.
pub fn grid(cluster: &Cluster, plan: &Plan) -> String {
    let n = cluster.geometry.replica_count();
    let log = leaders_log(cluster);
    let later = if log.first() == 1 { "" } else { " later" };
    let shown = shown(cluster);
    let rows: String = (1..=shown).map(|slot| row(cluster, plan, slot)).collect();
    format!(
        "<table class=\"grid{later}\" style=\"--n:{n}\">\n<caption>A row for each place, a column for \
         each cabinet. The number with a mark is its epoch.</caption>\n\
         <colgroup><col class=\"place\"><col span=\"{n}\"><col class=\"plan\"></colgroup>\n\
         <thead>\n{}</thead>\n<tbody>\n{rows}{}</tbody>\n</table>\n",
        header(cluster),
        rest(cluster, shown),
    )
}

/// How many places have a row of their own: behind them several are unused everywhere.
fn shown(cluster: &Cluster) -> usize {
    let slots = cluster.geometry.slot_count();
    let is_shown = |slot: &usize| {
        let mut all = cluster.geometry.replicas();
        all.any(|replica| {
            let (kind, _) = Kind::at(cluster, replica, *slot);
            !matches!(kind, Kind::Unused | Kind::Away)
        })
    };
    let last = (1..=slots).rev().find(is_shown).unwrap_or(0);
    if last + 1 == slots {
        slots
    } else {
        last
    }
}

/// One row for all places behind those that are shown.
fn rest(cluster: &Cluster, shown: usize) -> String {
    let slots = cluster.geometry.slot_count();
    if shown == slots {
        return String::new();
    }
    let across = cluster.geometry.replica_count() + 1;
    format!(
        "<tr class=\"rest\"><th scope=\"row\">{} to {slots}</th><td colspan=\"{across}\">places {} to \
         {slots}: unused</td></tr>\n",
        shown + 1,
        shown + 1,
    )
}

fn header(cluster: &Cluster) -> String {
    let cabinet = |replica: Replica| {
        let (class, tag) = if replica == cluster.leader {
            (" class=\"lead\"", "lead")
        } else {
            ("", tag(cluster.seat(replica)))
        };
        format!(
            "<th scope=\"col\"{class}><span class=\"unit\">cabinet </span><b>{}</b> \
             <span class=\"tag\">{tag}</span></th>",
            replica.number()
        )
    };
    let cabinets: String = cluster.geometry.replicas().map(cabinet).collect();
    format!("<tr><th scope=\"col\">place</th>{cabinets}<th scope=\"col\">plan</th></tr>\n")
}

/// What a column is headed by. Long words may be broken where a column is narrow.
fn tag(seat: &Seat) -> &'static str {
    match seat {
        Seat::Off | Seat::NoCard => "off",
        Seat::Unreadable(_) => "un&shy;read&shy;able",
        Seat::Card(_) => "card",
        Seat::Witness(_) => "wit&shy;ness",
    }
}

fn row(cluster: &Cluster, plan: &Plan, slot: usize) -> String {
    let action = plan.action(slot).unwrap_or(PlanAction::Unused);
    let (class, words) = in_short(action, !crate::plan::beyond(cluster, plan, slot).is_empty());
    let cells: String = cluster
        .geometry
        .replicas()
        .map(|replica| cell(cluster, replica, slot, action))
        .collect();
    let log = leaders_log(cluster);
    let index = match log.index(slot) {
        Some(index) if log.first() != 1 => {
            format!("<span class=\"index\"><span class=\"unit\">reading </span>{index}</span>")
        }
        _ => String::new(),
    };
    format!(
        "{}<tr class=\"{class}\"><th scope=\"row\"><b>{slot}</b>{index}</th>{cells}<td class=\"plan\">\
         {}<span>{words}</span></td></tr>\n",
        cut_line(cluster, action),
        signs::of(action),
    )
}

/// The line along which the log is cut.
fn cut_line(cluster: &Cluster, action: PlanAction) -> String {
    if action != PlanAction::Truncate {
        return String::new();
    }
    let across = cluster.geometry.replica_count() + 2;
    format!(
        "<tr class=\"cut-line\"><td colspan=\"{across}\"><div>{}<span>cut: the log ends above this \
         line</span></div></td></tr>\n",
        signs::CUT
    )
}

/// The class of an action and its short words.
fn in_short(action: PlanAction, is_beyond: bool) -> (&'static str, String) {
    match action {
        PlanAction::Unused if is_beyond => ("nothing", "not at the lead".to_string()),
        PlanAction::Unused | PlanAction::Whole => ("nothing", "nothing".to_string()),
        PlanAction::RewriteRecord => ("anew", "line anew".to_string()),
        PlanAction::Wait => ("wait", "wait".to_string()),
        PlanAction::Truncate => ("cut", "cut here".to_string()),
        PlanAction::TruncatedAfter => ("cut with", "cut with it".to_string()),
        PlanAction::Fetch(from) => ("fetch", format!("fetch from {}", from.number())),
        _ => ("unknown", "not known".to_string()),
    }
}

fn cell(cluster: &Cluster, replica: Replica, slot: usize, action: PlanAction) -> String {
    let (kind, epoch) = Kind::at(cluster, replica, slot);
    let lead = if replica == cluster.leader {
        " lead"
    } else {
        ""
    };
    let drawn = match (kind, action) {
        (Kind::Away, PlanAction::Wait) => " awaited",
        (Kind::Unused | Kind::Unfinished | Kind::Away, _) => "",
        (_, PlanAction::Unused | PlanAction::Truncate | PlanAction::TruncatedAfter) => " goes",
        _ => "",
    };
    let epoch = epoch.map_or(String::new(), |epoch| {
        format!(
            " <span class=\"epoch\"><span class=\"unit\">epoch </span>{}</span>",
            epoch.number()
        )
    });
    format!(
        "<td class=\"cell {}{lead}{drawn}\"><div class=\"room\"><div class=\"chip\"><span class=\"mark\">{}</span> \
         <span class=\"what\"><span class=\"word\">{}</span>{epoch}</span></div></div>{}</td>",
        kind.class(),
        kind.mark(),
        word(cluster, replica, kind),
        arrow(cluster, replica, action),
    )
}

fn word(cluster: &Cluster, replica: Replica, kind: Kind) -> &'static str {
    match cluster.seat(replica) {
        Seat::Unreadable(_) => "unreadable",
        _ => kind.word(),
    }
}

/// The arrow of a fetch. It hangs in the right one of the two cells and reaches to the left, so that no
/// cell grows by it.
fn arrow(cluster: &Cluster, replica: Replica, action: PlanAction) -> String {
    let PlanAction::Fetch(donor) = action else {
        return String::new();
    };
    let (donor, leader) = (donor.number(), cluster.leader.number());
    if replica.number() != donor.max(leader) {
        return String::new();
    }
    let points = if leader < donor { "left" } else { "right" };
    format!(
        "<span class=\"arrow {points}\" style=\"--cells:{}\"></span>",
        donor.abs_diff(leader)
    )
}
