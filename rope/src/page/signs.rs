//! The signs of the plan, drawn: a font may lack them.

use ropelog::PlanAction;

/// An hourglass.
pub const WAIT: &str = "<svg class=\"sign\" viewBox=\"0 0 16 16\" aria-hidden=\"true\">\
    <path d=\"M3 1.5h10M3 14.5h10M4 1.5c0 4 8 9 8 13M12 1.5c0 4-8 9-8 13\"/>\
    <path class=\"full\" d=\"M5 13.5h6l-3-4z\"/></svg>";

/// A tick.
pub const READY: &str = "<svg class=\"sign\" viewBox=\"0 0 16 16\" aria-hidden=\"true\">\
    <path d=\"M2 9l4 4 8-11\"/></svg>";

/// Scissors.
pub const CUT: &str = "<svg class=\"sign\" viewBox=\"0 0 16 16\" aria-hidden=\"true\">\
    <circle cx=\"3.5\" cy=\"3.8\" r=\"2.3\"/><circle cx=\"3.5\" cy=\"12.2\" r=\"2.3\"/>\
    <path d=\"M5.4 5.2L15 12M5.4 10.8L15 4\"/></svg>";

/// An arrow to the left, from the others to the lead.
const FETCH: &str = "<svg class=\"sign\" viewBox=\"0 0 16 16\" aria-hidden=\"true\">\
    <path d=\"M15 8H3M7.5 3L2.5 8l5 5\"/></svg>";

/// A pencil.
const ANEW: &str = "<svg class=\"sign\" viewBox=\"0 0 16 16\" aria-hidden=\"true\">\
    <path d=\"M2 14l1-4 8-8 3 3-8 8zM9 4l3 3\"/></svg>";

/// The sign of an action; nothing to do has none.
pub fn of(action: PlanAction) -> &'static str {
    match action {
        PlanAction::Fetch(_) => FETCH,
        PlanAction::RewriteRecord => ANEW,
        PlanAction::Wait => WAIT,
        PlanAction::Truncate | PlanAction::TruncatedAfter => CUT,
        _ => "",
    }
}
