//! The pages of `rope plan --html` as text: whole, safe, the same each time, and written over no card.

#[path = "page/examples.rs"]
mod examples;
#[path = "page/fleet.rs"]
mod fleet;

use std::fs;

use examples::Example;
use fleet::{rope, Fleet};

/// Elements that have no end tag.
const VOID: [&str; 3] = ["meta", "col", "br"];

fn text(example: &Example) -> String {
    fs::read_to_string(&example.page).expect("a page of text")
}

/// The tags of a page behind its first two lines, without their brackets.
fn tags(page: &str) -> Vec<&str> {
    let body = page.splitn(3, '\n').nth(2).expect("more than two lines");
    let opened = body.split('<').skip(1);
    opened
        .map(|tag| tag.split_once('>').expect("each tag is closed").0)
        .collect()
}

#[test]
fn every_page_begins_as_one_and_names_no_other_file() {
    for example in examples::all("text-begins") {
        let page = text(&example);
        assert!(page.starts_with("<!doctype html>\n<!-- rope plan -->\n<html lang=\"en\">"));
        assert!(page.contains("<meta charset=\"utf-8\">"));
        assert!(page.contains("content=\"width=device-width, initial-scale=1\""));
        for loading in ["url(", "@import", "<script", "<link", "http:", "https:"] {
            assert!(!page.contains(loading), "{}: {loading}", example.name);
        }
        let loads = |tag: &&str| tag.contains(" src=") || tag.contains(" href=");
        assert_eq!(tags(&page).into_iter().find(loads), None);
    }
}

#[test]
fn every_tag_is_ended_in_order() {
    for example in examples::all("text-tags") {
        let page = text(&example);
        let mut open: Vec<&str> = Vec::new();
        for tag in tags(&page) {
            let name = tag.split([' ', '/']).find(|name| !name.is_empty());
            let name = name.expect("a name");
            if tag.starts_with('/') {
                assert_eq!(open.pop(), Some(name), "{}: <{tag}>", example.name);
            } else if !tag.ends_with('/') && !VOID.contains(&name) {
                open.push(name);
            }
        }
        assert_eq!(open, Vec::<&str>::new(), "{}", example.name);
    }
}

/// What is printed of a place where something is done stands on the page too.
#[test]
fn every_printed_reason_stands_on_the_page() {
    let doing = [
        "  fetch from",
        "  write the line",
        "  wait",
        "  cut here",
        "  cut with it",
    ];
    for example in examples::all("text-reasons") {
        let page = text(&example);
        let mut found = 0;
        let lines: Vec<&str> = example.said.lines().collect();
        for (line, why) in lines.iter().zip(&lines[1..]) {
            let Some(at) = doing.iter().find_map(|doing| line.find(doing)) else {
                continue;
            };
            let reason = format!(": {}: {}.</li>", line[at..].trim(), why.trim());
            assert!(page.contains(&reason), "{reason}");
            found += 1;
        }
        let done = [
            example.fetches.len(),
            example.waits.len(),
            example.cuts.len(),
            example.anew.len(),
        ];
        assert_eq!(found, done.iter().sum::<usize>(), "{}", example.name);
        assert_eq!(
            page.matches("class=\"cell ").count(),
            example.rows * example.replicas
        );
        assert!(page.contains(&format!("Cabinet {} leads.", example.leader)));
    }
}

#[test]
fn readings_are_escaped() {
    let example = examples::payloads("text-escaped");
    let page = text(&example);
    assert!(page.contains("<bdi>&lt;script&gt;document.title=&#39;taken&#39;&lt;/script&gt;</bdi>"));
    assert!(page.contains("&lt;img src=x onerror=a"));
    assert!(page.contains("\\u{1b}[2J\\u{7}\\u{0}\\u{1} \\r\\n\\t"));
    assert!(page.contains("from cabinet 1: <code><bdi>\\x80\\x81"));
    assert!(page.contains("\\u{202e}turned"));
    let odd = |c: char| c.is_control() && c != '\n';
    assert!(!page.contains(odd), "a control character came through");
}

/// The name of a card file may be anything as well, in the table of cabinets and in a note.
#[test]
fn names_of_files_are_escaped() {
    let fleet = Fleet::new("text-names", 3, 2, &[]);
    fleet.append(&[1, 2, 3], 1, b"metre 1204");
    fleet.spoil_header(3);
    let [odd, unknown] = ["<b>&\"'\u{1b}.card", "<i>.card"].map(|name| fleet.dir.join(name));
    fs::rename(fleet.card(2), &odd).expect("another name");
    fs::rename(fleet.card(3), &unknown).expect("another name");
    let page = fleet.dir.join("plan.html");
    let [one, two, three, html] = [fleet.card(1), odd, unknown, page.clone()]
        .map(|path| path.to_str().expect("text").to_string());
    let line = ["plan", &one, &two, &three, "--lead", "1", "--html", &html].map(String::from);
    assert!(rope(&line).status.success());
    let page = fs::read_to_string(page).expect("a page");
    assert!(page.contains("&lt;b&gt;&amp;&quot;&#39;\\u{1b}.card</bdi>"));
    assert!(page.contains("&lt;i&gt;.card: refused by 4"));
    assert!(!page.contains("<b>&") && !page.contains("<i>"));
}

#[test]
fn the_same_cards_give_the_same_page() {
    let pages = ["text-same", "text-same"].map(|folder| {
        let all = examples::all(folder);
        all.iter().map(text).collect::<Vec<_>>()
    });
    assert_eq!(pages[0], pages[1]);
}

#[test]
fn a_page_is_written_over_a_page_and_over_nothing_else() {
    let fleet = Fleet::new("text-over", 3, 2, &[]);
    fleet.append(&[1, 2, 3], 1, b"metre 1204");
    let card = |replica| fleet.card(replica).to_str().expect("text").to_string();
    let plan = |html: &str, more: &[&str]| {
        let mut line = ["plan", &card(1), &card(2), "--lead", "1", "--html", html]
            .map(String::from)
            .to_vec();
        line.extend(more.iter().map(|word| word.to_string()));
        rope(&line)
    };
    let before = fs::read(fleet.card(3)).expect("a card");
    let refused = plan(&card(3), &[]);
    assert_eq!(refused.status.code(), Some(1), "{refused:?}");
    assert_eq!(fs::read(fleet.card(3)).expect("a card"), before);
    let page = fleet.dir.join("plan.html");
    let page = page.to_str().expect("text");
    for _ in 0..2 {
        assert!(plan(page, &[]).status.success());
    }
    fs::write(page, "<!doctype html>\n<p>another page</p>\n").expect("a file");
    assert_eq!(plan(page, &[]).status.code(), Some(1));
    assert!(plan(page, &["--over"]).status.success());
}

/// A plan that is refused has no page.
#[test]
fn a_refused_plan_writes_no_page() {
    let fleet = Fleet::new("text-refused", 3, 2, &[]);
    fleet.append(&[1, 2, 3], 1, b"metre 1204");
    fleet.spoil_header(1);
    let page = fleet.dir.join("plan.html");
    let html = page.to_str().expect("text").to_string();
    let cards: Vec<String> = (1..=3)
        .map(|replica| format!("{replica}={}", fleet.card(replica).display()))
        .collect();
    let mut line = vec!["plan".to_string()];
    line.extend(cards);
    line.extend(["--lead", "1", "--html", &html].map(String::from));
    assert_eq!(rope(&line).status.code(), Some(3));
    assert!(!page.exists());
}
