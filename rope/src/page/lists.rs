//! What stands below the grid: the reasons, the cabinets and the readings.

use ropelog::{payload, Epoch, Log, Plan, PlanAction, Replica, SlotState};

use super::html::escaped;
use crate::cluster::Cluster;
use crate::plan::{action_in_words, beyond, leaders_log, GOES};
use crate::seat::Seat;
use crate::words;

/// Why, for every place where something is done.
pub fn reasons(cluster: &Cluster, plan: &Plan) -> String {
    let log = leaders_log(cluster);
    let item = |slot: usize| {
        let (action, state) = (plan.action(slot)?, log.slot(slot)?);
        if matches!(action, PlanAction::Unused | PlanAction::Whole) {
            return None;
        }
        let (what, why) = action_in_words(cluster, slot, state, action);
        Some(format!(
            "<li><b>Place {slot}</b>{}{}: {}.</li>\n",
            reading(log, slot),
            epoch_of(state),
            escaped(&format!("{what}: {why}"))
        ))
    };
    let mut items: String = (1..=log.length()).filter_map(item).collect();
    for slot in log.length() + 1..=cluster.geometry.slot_count() {
        let having = beyond(cluster, plan, slot);
        if !having.is_empty() {
            items += &format!(
                "<li><b>Place {slot}</b>{}: {GOES} {}.</li>\n",
                reading(log, slot),
                words::cabinets(&having)
            );
        }
    }
    let body = if items.is_empty() {
        "<p>Nothing is to be done at any place of the lead.</p>\n".to_string()
    } else {
        format!("<ul class=\"reasons\">\n{items}</ul>\n")
    };
    format!("<section>\n<h2>What is done, and why</h2>\n{body}</section>\n")
}

/// The number of a reading, where it is not that of its place.
fn reading(log: &Log, slot: usize) -> String {
    match log.index(slot) {
        Some(index) if log.first() != 1 => format!(", reading {index}"),
        _ => String::new(),
    }
}

fn epoch_of(state: SlotState) -> String {
    let epoch = state.epoch.map(|epoch| format!(", {epoch}"));
    epoch.unwrap_or_default()
}

/// The table of cabinets.
pub fn cabinets(cluster: &Cluster) -> String {
    let rows: String = cluster
        .geometry
        .replicas()
        .map(|replica| cabinet(cluster, replica))
        .collect();
    format!(
        "<section>\n<h2>The cabinets</h2>\n<table class=\"list\">\n<thead><tr><th scope=\"col\">cabinet\
         </th><th scope=\"col\">is</th><th scope=\"col\">last epoch</th><th scope=\"col\">file</th></tr>\
         </thead>\n<tbody>\n{rows}</tbody>\n</table>\n</section>\n"
    )
}

fn cabinet(cluster: &Cluster, replica: Replica) -> String {
    let seat = cluster.seat(replica);
    let leads = if replica == cluster.leader {
        "leads; "
    } else {
        ""
    };
    let file = &cluster.cards[replica.number() - 1];
    let file = file
        .as_ref()
        .map_or(String::new(), |card| card.name().to_string());
    format!(
        "<tr><th scope=\"row\">{}</th><td>{leads}{}</td><td>{}</td><td><bdi>{}</bdi></td></tr>\n",
        replica.number(),
        escaped(&seat.to_string()),
        last_epoch(seat).map_or(String::new(), |epoch| epoch.number().to_string()),
        escaped(&file)
    )
}

fn last_epoch(seat: &Seat) -> Option<Epoch> {
    match seat {
        Seat::Card(log) => log.slot(log.length())?.epoch,
        Seat::Witness(log) => log.epoch(log.length()),
        _ => None,
    }
}

/// The readings that the lead has, and those that it fetches.
pub fn readings(cluster: &Cluster, plan: &Plan) -> String {
    let log = leaders_log(cluster);
    if log.length() == 0 {
        return String::new();
    }
    let rows: String = (1..=log.length())
        .filter_map(|slot| reading_row(cluster, slot, log.slot(slot)?, plan.action(slot)?))
        .collect();
    format!(
        "<section>\n<h2>The readings of the lead</h2>\n<table class=\"list readings\">\n<thead><tr>\
         <th scope=\"col\">place</th><th scope=\"col\">epoch</th><th scope=\"col\">bytes</th>\
         <th scope=\"col\">reading</th></tr></thead>\n<tbody>\n{rows}</tbody>\n</table>\n</section>\n"
    )
}

fn reading_row(
    cluster: &Cluster,
    slot: usize,
    state: SlotState,
    action: PlanAction,
) -> Option<String> {
    let epoch = state.epoch?.number();
    let (holder, before) = match action {
        PlanAction::Fetch(donor) => (donor, format!("from cabinet {}: ", donor.number())),
        _ => (cluster.leader, String::new()),
    };
    let (bytes, text) = if state.verdict.is_whole() || holder != cluster.leader {
        let image = &cluster.images[cluster.geometry.image_range(holder)];
        let payload = payload(image, cluster.geometry, holder, slot);
        let piece = escaped(&words::piece(payload));
        (
            payload.len().to_string(),
            format!("{before}<code><bdi>{piece}</bdi></code>"),
        )
    } else {
        (String::new(), "gone".to_string())
    };
    let class = match action {
        PlanAction::Truncate | PlanAction::TruncatedAfter => " class=\"gone\"",
        _ => "",
    };
    Some(format!(
        "<tr{class}><th scope=\"row\">{slot}{}</th><td>{epoch}</td><td>{bytes}</td><td>{text}</td></tr>\n",
        reading(leaders_log(cluster), slot)
    ))
}
