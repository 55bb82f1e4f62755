//! The pages of `rope plan --html` in a real browser: at phone and desk width, and for print.

#[path = "page/browser.rs"]
mod browser;
#[path = "page/examples.rs"]
mod examples;
#[path = "page/fleet.rs"]
mod fleet;

use std::fs;
use std::path::{Path, PathBuf};
use std::process::Command;

use browser::Browser;
use examples::Example;

/// Three phones, a tablet and a desk.
const WIDTHS: [usize; 5] = [320, 360, 390, 768, 1280];

/// A sheet of A4 less its margins.
const SHEET: usize = 702;

const CHECK: &str = include_str!("page/check.js");

/// Where the page of an example is looked at.
struct View<'a> {
    example: &'a Example,
    page: PathBuf,
    width: usize,
}

#[test]
fn every_page_is_clear_at_every_width() {
    let all = examples::all("widths");
    let at = |example| {
        WIDTHS.map(|width| View {
            example,
            page: example.page.clone(),
            width,
        })
    };
    let views: Vec<View> = all.iter().flat_map(at).collect();
    expect_clear("widths", &views);
}

/// The style for print, as it would stand on a sheet, is looked at like a screen.
#[test]
fn every_page_is_clear_on_paper() {
    let all = examples::all("paper");
    let mut views = Vec::new();
    for example in &all {
        let page = fs::read_to_string(&example.page).expect("the page");
        assert_eq!(page.matches("@media print").count(), 1);
        let sheet = example.page.with_file_name("sheet.html");
        fs::write(&sheet, page.replace("@media print", "@media all")).expect("a copy");
        views.push(View {
            example,
            page: sheet,
            width: SHEET,
        });
    }
    expect_clear("paper", &views);
}

#[test]
fn pages_can_be_printed() {
    let browser = Browser::find(&scratch("browser-print"));
    for example in [examples::fetch("print"), examples::full("print")] {
        let pdf = example.page.with_extension("pdf");
        browser.print(&example.page, &pdf);
        let bytes = fs::read(&pdf).expect("a PDF");
        assert!(bytes.starts_with(b"%PDF"), "{}", pdf.display());
    }
}

/// The picture in README.md, of the sample cards. `ROPE_WRITE_PICTURE=1` writes it to docs/plan.png.
#[test]
fn the_picture_of_the_sample_cards() {
    let package = Path::new(env!("CARGO_MANIFEST_DIR"));
    let page = scratch("picture.html");
    let cards = (1..=5).map(|number| format!("card{number}.img"));
    let output = Command::new(env!("CARGO_BIN_EXE_rope"))
        .arg("plan")
        .args(cards)
        .args(["--lead", "1", "--off", "5", "--html"])
        .arg(&page)
        .current_dir(package.join("cards"))
        .output()
        .expect("the program starts");
    assert!(output.status.success(), "{output:?}");
    let png = match std::env::var_os("ROPE_WRITE_PICTURE") {
        Some(_) => package.join("../docs/plan.png"),
        None => scratch("plan.png"),
    };
    let browser = Browser::find(&scratch("browser-picture"));
    browser.picture(&page, &png, 1000, 560);
    let bytes = fs::read(&png).expect("a picture");
    assert!(bytes.starts_with(b"\x89PNG"), "{}", png.display());
}

/// Shows pages in frames of their widths, and fails with all that is wrong with them.
fn expect_clear(name: &str, views: &[View]) {
    let browser = Browser::find(&scratch(&format!("browser-{name}")));
    let wrapper = scratch(&format!("frames-{name}.html"));
    fs::write(&wrapper, frames(views)).expect("a page with frames");
    let dom = browser.dump(&wrapper);
    let result = dom
        .split_once("<pre id=\"result\">")
        .and_then(|(_, rest)| rest.split_once("</pre>"))
        .map(|(result, _)| result.trim());
    let clear = format!("{} checked", views.len());
    assert_eq!(result, Some(clear.as_str()), "\n{}", result.unwrap_or(&dom));
}

/// A page that shows others in frames, since a window may not be as narrow as a phone, and checks them.
fn frames(views: &[View]) -> String {
    let frame = |view: &View| {
        format!(
            "<iframe src=\"file://{}\" data-view='{}' style=\"border:0;width:{}px;height:800px\"></iframe>\n",
            view.page.display(),
            expected(view),
            view.width
        )
    };
    let frames: String = views.iter().map(frame).collect();
    format!("<!doctype html>\n<meta charset=\"utf-8\">\n{frames}<script>\n{CHECK}</script>\n")
}

/// What a page has to show, for the check.
fn expected(view: &View) -> String {
    let example = view.example;
    let fetches = example.fetches.iter();
    let fetches: Vec<[usize; 2]> = fetches.map(|&(slot, donor)| [slot, donor]).collect();
    let is_answer = |line: &&str| line.starts_with("Ready") || line.starts_with("Waiting");
    let answer = example.said.lines().find(is_answer).expect("an answer");
    format!(
        "{{\"name\": {:?}, \"width\": {}, \"answer\": {answer:?}, \"replicas\": {}, \"rows\": {}, \
         \"leader\": {}, \"fetches\": {fetches:?}, \"waits\": {:?}, \"cuts\": {:?}, \"anew\": {:?}}}",
        example.name,
        view.width,
        example.replicas,
        example.rows,
        example.leader,
        example.waits,
        example.cuts,
        example.anew
    )
}

fn scratch(name: &str) -> PathBuf {
    Path::new(env!("CARGO_TARGET_TMPDIR")).join(name)
}
