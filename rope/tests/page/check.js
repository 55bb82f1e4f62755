// Looks at a page in a frame of the wanted width, and lists what is wrong with it.
"use strict";

function check(frame, expected) {
  const faults = [];
  const width = expected.width;
  const doc = frame.contentDocument;
  const win = frame.contentWindow;
  const expect = (holds, what) => { if (!holds) faults.push(what); };
  const style = (element, pseudo) => win.getComputedStyle(element, pseudo);
  const all = (selector, within) => [...(within || doc).querySelectorAll(selector)];

  // Every text that is shown, with its element and its boxes.
  const walker = doc.createTreeWalker(doc.body, NodeFilter.SHOW_TEXT);
  const texts = [];
  for (let node = walker.nextNode(); node; node = walker.nextNode()) {
    const element = node.parentElement;
    const hidden = style(element).clipPath !== "none" || (element.parentElement && style(element.parentElement).clipPath !== "none");
    if (!node.data.trim() || hidden || element.closest("svg")) continue;
    const range = doc.createRange();
    range.selectNodeContents(node);
    const boxes = [...range.getClientRects()].filter((box) => box.width > 0);
    if (boxes.length) texts.push({ element, boxes, data: node.data.trim() });
  }

  function page() {
    expect(win.innerWidth === width, `the frame is ${win.innerWidth} wide`);
    expect(doc.compatMode === "CSS1Compat", "quirks mode");
    expect(doc.documentElement.scrollWidth <= doc.documentElement.clientWidth, `scrolls sideways: ${doc.documentElement.scrollWidth}`);
    expect(doc.title.startsWith("Rope log"), `title ${doc.title}`);
    expect(all(".says").map((e) => e.textContent.trim()).join() === expected.answer, "the answer is not the one that was printed");
    expect(all("script, link, img, iframe, object, embed, [src], [href]").length === 0, "an element that loads or runs something");
    const known = "html head meta title style body main header section h1 h2 p br div span b table caption colgroup col thead tbody tr th td ul li bdi code svg path circle".split(" ");
    const strange = all("*").map((e) => e.localName).filter((name) => !known.includes(name));
    expect(strange.length === 0, `elements of other names: ${strange}`);
    expect(all("*").every((e) => [...e.attributes].every((a) => !a.name.startsWith("on"))), "an event attribute");
    expect(win.performance.getEntriesByType("resource").length === 0, "something was loaded");
    expect(!/url\(|@import/.test(all("style").map((e) => e.textContent).join()), "the style loads something");
  }

  const numbers = (css) => css.match(/[\d.]+/g).map(Number);
  const colours = (css) => css.match(/rgba?\([^)]*\)/g) || [];
  function luminance(css) {
    const linear = numbers(css).slice(0, 3).map((value) => {
      const part = value / 255;
      return part <= 0.04045 ? part / 12.92 : ((part + 0.055) / 1.055) ** 2.4;
    });
    return 0.2126 * linear[0] + 0.7152 * linear[1] + 0.0722 * linear[2];
  }
  const isSolid = (css) => { const n = numbers(css); return n.length < 4 || n[3] === 1; };
  // All colours that can lie behind a text, those of patterns too.
  function behind(element) {
    const found = [];
    for (let e = element; e; e = e.parentElement) {
      found.push(...colours(style(e).backgroundImage).filter(isSolid));
      if (isSolid(style(e).backgroundColor)) { found.push(style(e).backgroundColor); return found; }
    }
    return found.concat("rgb(255, 255, 255)");
  }
  function contrast(a, b) {
    const [low, high] = [luminance(a), luminance(b)].sort((x, y) => x - y);
    return (high + 0.05) / (low + 0.05);
  }

  function legible() {
    for (const { element, data, boxes } of texts) {
      expect(parseFloat(style(element).fontSize) >= 11, `${data}: ${style(element).fontSize}`);
      const worst = Math.min(...behind(element).map((colour) => contrast(style(element).color, colour)));
      expect(worst >= 4.5, `${data}: contrast ${worst}`);
      const cell = element.closest("td, th, li, p, caption, h1, h2").getBoundingClientRect();
      const inside = (box) => box.left >= cell.left - 0.5 && box.right <= cell.right + 0.5 && box.top >= cell.top - 0.5 && box.bottom <= cell.bottom + 0.5;
      expect(boxes.every(inside), `${data}: reaches out of its cell`);
      expect(boxes.every((box) => box.left >= 0 && box.right <= width), `${data}: reaches out of the page`);
    }
  }

  // A word in the grid is never broken; only the heads of narrow columns have hyphens.
  function unbroken() {
    for (const { element } of texts.filter(({ element }) => element.closest(".grid") && !element.closest(".tag"))) {
      for (const node of element.childNodes) {
        for (const word of (node.data || "").matchAll(/[a-z]+/gi)) {
          const range = doc.createRange();
          range.setStart(node, word.index);
          range.setEnd(node, word.index + word[0].length);
          expect(range.getClientRects().length === 1, `${word[0]} is broken`);
        }
      }
    }
  }

  const cut = (a, b) => Math.min(a.right, b.right) - Math.max(a.left, b.left) > 0.5 && Math.min(a.bottom, b.bottom) - Math.max(a.top, b.top) > 0.5;
  const rows = all(".grid tbody tr:not(.rest):not(.cut-line)");
  const cellsOf = (row) => all("td.cell", row);

  function shape() {
    expect(rows.length === expected.rows, `${rows.length} rows`);
    expect(all(".grid caption").length === 1, "no caption");
    expect(all("th").every((th) => ["row", "col"].includes(th.getAttribute("scope"))), "a header without a scope");
    const head = all(".grid thead th");
    expect(head.length === expected.replicas + 2, `${head.length} headers`);
    const leads = head.filter((th) => th.classList.contains("lead"));
    expect(leads.length === 1 && leads[0] === head[expected.leader] && /lead/.test(leads[0].textContent), "the lead's column is not marked");
    rows.forEach((row, at) => {
      expect(cellsOf(row).length === expected.replicas, `row ${at + 1}: ${cellsOf(row).length} cells`);
      expect(row.cells[0].querySelector("b").textContent === `${at + 1}`, `row ${at + 1} is not numbered`);
      expect(row.cells.length === expected.replicas + 2, `row ${at + 1}: ${row.cells.length} cells in all`);
    });
    const boxes = all(".grid th, .grid td").map((cell) => cell.getBoundingClientRect());
    boxes.forEach((box, at) => boxes.slice(at + 1, at + 2 * expected.replicas + 8).forEach((other) => expect(!cut(box, other), "two cells lie over one another")));
  }

  // Marks, patterns and colours: the same for one kind, and all three different for two.
  function kinds() {
    const known = new Map();
    const shown = [...all(".grid td.cell"), ...all(".legend .swatch")].filter((e) => e.querySelector(".mark"));
    for (const element of shown) {
      const kind = element.classList[1];
      const look = {
        mark: element.querySelector(".mark").textContent.trim(),
        pattern: style(element).backgroundImage.replace(/rgba?\([^)]*\)/g, "colour"),
        colour: style(element).backgroundColor,
      };
      expect(look.mark !== "", `${kind} has no mark`);
      const before = known.get(kind) || look;
      expect(JSON.stringify(before) === JSON.stringify(look), `${kind} looks in two ways`);
      known.set(kind, look);
    }
    expect(known.size === 9, `${known.size} kinds in the legend`);
    for (const part of ["mark", "pattern", "colour"]) {
      const looks = new Set([...known.values()].map((look) => look[part]));
      expect(looks.size === known.size, `two kinds have the same ${part}`);
    }
    const legend = new Set(all(".legend .swatch .mark").map((mark) => mark.textContent));
    expect(all(".grid .mark").every((mark) => legend.has(mark.textContent)), "a mark that the legend lacks");
    expect(all(".grid .word").every((word) => word.textContent.trim()), "a cell without a word");
  }

  function plan() {
    const named = (name) => rows.flatMap((row, at) => (row.classList.contains(name) ? [at + 1] : [])).join();
    expect(named("wait") === expected.waits.join(), `waits ${named("wait")}`);
    expect(named("cut") === expected.cuts.join(), `cuts ${named("cut")}`);
    expect(named("anew") === expected.anew.join(), `anew ${named("anew")}`);
    expect(named("fetch") === expected.fetches.map(([slot]) => slot).join(), `fetches ${named("fetch")}`);
    for (const row of rows) {
      const words = row.cells[row.cells.length - 1];
      expect(words.textContent.trim() !== "", "a row without a plan");
      expect(row.classList.contains("nothing") === !words.querySelector("svg"), "a sign is missing or too many");
      const lead = cellsOf(row)[expected.leader - 1];
      const sides = style(lead, "::before");
      expect(parseFloat(sides.borderLeftWidth) >= 3 && parseFloat(sides.borderRightWidth) >= 3, "the lead's rails");
      expect((parseFloat(sides.borderTopWidth) >= 3) === !row.classList.contains("nothing"), "the frame of a cell of the lead");
    }
  }

  function arrows() {
    expect(all(".arrow").length === expected.fetches.length, `${all(".arrow").length} arrows`);
    for (const [slot, donor] of expected.fetches) {
      const row = rows[slot - 1];
      const [arrow] = all(".arrow", row);
      if (!arrow) { faults.push(`no arrow in row ${slot}`); continue; }
      const box = arrow.getBoundingClientRect();
      const from = cellsOf(row)[donor - 1].getBoundingClientRect();
      const to = cellsOf(row)[expected.leader - 1].getBoundingClientRect();
      const [start, end] = donor > expected.leader ? [box.right, box.left] : [box.left, box.right];
      const within = (x, cell) => x > cell.left + 5 && x < cell.right - 5;
      expect(within(start, from), `the arrow of row ${slot} starts at ${start}, the donor is ${from.left} to ${from.right}`);
      expect(within(end, to), `the arrow of row ${slot} ends at ${end}, the lead is ${to.left} to ${to.right}`);
      expect(arrow.classList.contains(end < start ? "left" : "right"), `the arrow of row ${slot} points the wrong way`);
      const head = style(arrow, "::after");
      expect(parseFloat(end < start ? head.left : head.right) === 0, `the head of row ${slot} is not at the lead`);
      expect(box.top > to.top && box.bottom < to.bottom, `the arrow of row ${slot} leaves its row`);
      const room = { left: box.left, right: box.right, top: box.top - 5, bottom: box.bottom + 5 };
      const over = texts.filter(({ element, boxes }) => row.contains(element) && boxes.some((text) => cut(text, room)));
      expect(over.length === 0, `the arrow of row ${slot} lies over ${over.map(({ data }) => data)}`);
      expect(row.cells[row.cells.length - 1].textContent.trim() === `fetch from ${donor}`, `words of row ${slot}`);
    }
  }

  function cuts() {
    const lines = all(".cut-line");
    expect(lines.length === (expected.cuts.length ? 1 : 0), `${lines.length} cut lines`);
    if (!lines.length) return;
    expect(lines[0].nextElementSibling === rows[expected.cuts[0] - 1], "the cut line is elsewhere");
    const dashes = style(lines[0].querySelector("div"), "::after");
    expect(dashes.borderTopStyle === "dashed" && parseFloat(dashes.borderTopWidth) >= 3 && parseFloat(dashes.width) >= 12, "the cut line is not dashed");
    expect(lines[0].querySelector("svg").getBoundingClientRect().width >= 16, "no scissors");
    for (const slot of expected.cuts) {
      const cell = cellsOf(rows[slot - 1])[expected.leader - 1];
      const struck = (e) => style(e).textDecorationLine.includes("line-through");
      expect(struck(cell.querySelector(".mark")) && struck(cell.querySelector(".epoch")), `row ${slot} is not struck through`);
    }
  }

  [page, legible, unbroken, shape, kinds, plan, arrows, cuts].forEach((part) => part());
  return faults;
}

window.addEventListener("load", () => {
  const result = document.body.appendChild(document.createElement("pre"));
  result.id = "result";
  try {
    const frames = [...document.querySelectorAll("iframe")];
    const faults = frames.flatMap((frame) => {
      const view = JSON.parse(frame.dataset.view);
      return check(frame, view).map((fault) => `${view.name} at ${view.width}: ${fault}`);
    });
    result.textContent = [...faults, `${frames.length} checked`].join("\n");
  } catch (error) {
    result.textContent = error.stack;
  }
});
