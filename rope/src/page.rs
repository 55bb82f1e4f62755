//! The plan as a page: one file with its style and its signs in it, and no script.

mod grid;
mod html;
mod kind;
mod legend;
mod lists;
mod signs;

use ropelog::{Plan, PlanAction, PlanAnswer};

use crate::cluster::Cluster;
use crate::plan::{leaders_log, print_warnings, waits};
use crate::words;
use html::escaped;

/// How every page begins.
pub const BEGINNING: &str = "<!doctype html>\n<!-- rope plan -->\n";

const STYLE: &str = include_str!("page/style.css");

/// The page.
pub fn page(cluster: &Cluster, plan: &Plan) -> String {
    let title = format!("Rope log, cabinet {} leads", cluster.leader.number());
    let answer = answer(plan);
    format!(
        "{BEGINNING}<html lang=\"en\">\n<head>\n<meta charset=\"utf-8\">\n\
         <meta name=\"viewport\" content=\"width=device-width, initial-scale=1\">\n\
         <title>{title}: {answer}</title>\n<style>\n{STYLE}</style>\n</head>\n<body>\n<main>\n\
         {}{}{}{}{}{}{}</main>\n</body>\n</html>\n",
        heading(cluster, plan, &answer),
        notes(cluster, plan),
        grid::grid(cluster, plan),
        legend::legend(cluster, plan),
        lists::reasons(cluster, plan),
        lists::cabinets(cluster),
        lists::readings(cluster, plan),
    )
}

/// The answer in a few words.
fn answer(plan: &Plan) -> String {
    match plan.answer() {
        PlanAnswer::Ready { length } => {
            format!(
                "Ready: the log will have {}",
                words::count(length, "reading")
            )
        }
        PlanAnswer::Waiting { slot } => format!("Waiting for place {slot}: nothing is written"),
    }
}

fn heading(cluster: &Cluster, plan: &Plan, answer: &str) -> String {
    let geometry = cluster.geometry;
    let log = leaders_log(cluster);
    let (class, sign) = match plan.answer() {
        PlanAnswer::Ready { .. } => ("ready", signs::READY),
        PlanAnswer::Waiting { .. } => ("waiting", signs::WAIT),
    };
    format!(
        "<header>\n<h1>Plan of the rope log</h1>\n<p>{} cabinets with {}, {}. Cabinet {} leads.</p>\n\
         <div class=\"answer {class}\">\n<p class=\"says\">{sign} {answer}.</p>\n{}</div>\n\
         </header>\n",
        geometry.replica_count(),
        words::count(geometry.slot_count(), "place"),
        words::edition(geometry.edition(), log.first()),
        cluster.leader.number(),
        below(cluster, plan),
    )
}

/// What stands below the answer: what would end each wait, or what is done.
fn below(cluster: &Cluster, plan: &Plan) -> String {
    let waits = waits(cluster, plan);
    let lines = match plan.answer() {
        PlanAnswer::Ready { .. } => vec![done(plan)],
        PlanAnswer::Waiting { .. } => waits
            .iter()
            .map(|(slot, end)| format!("Place {slot}: {}: {}.", end.who, end.how))
            .collect(),
    };
    let paragraph = |line: &String| format!("<p>{}</p>\n", escaped(line));
    lines.iter().map(paragraph).collect()
}

/// What a ready plan does, counted.
fn done(plan: &Plan) -> String {
    let count = |such: fn(&PlanAction) -> bool| plan.actions().iter().filter(|a| such(a)).count();
    let fetched = count(|action| matches!(action, PlanAction::Fetch(_)));
    let anew = count(|action| matches!(action, PlanAction::RewriteRecord));
    let cut = count(|a| matches!(a, PlanAction::Truncate | PlanAction::TruncatedAfter));
    let parts = [
        (fetched, "reading", "fetched"),
        (anew, "line", "written anew"),
        (cut, "place", "cut"),
    ];
    let parts: Vec<String> = parts
        .iter()
        .filter(|(number, ..)| *number > 0)
        .map(|(number, word, done)| format!("{} {done}", words::count(*number, word)))
        .collect();
    if parts.is_empty() {
        return "Nothing is to be done about the lead's copy.".to_string();
    }
    format!("At the lead: {}.", parts.join(", "))
}

/// What is to be told of single cards.
fn notes(cluster: &Cluster, plan: &Plan) -> String {
    let mut warnings = Vec::new();
    print_warnings(cluster, plan, &mut warnings).expect("memory takes every byte");
    let warnings = String::from_utf8_lossy(&warnings).trim().to_string();
    let all = cluster.notes.iter().chain([&warnings]);
    let lines = |note: &String| note.lines().map(escaped).collect::<Vec<_>>().join("<br>");
    all.filter(|note| !note.is_empty())
        .map(|note| format!("<p class=\"note\">{}</p>\n", lines(note)))
        .collect()
}
