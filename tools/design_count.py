#!/usr/bin/env python3
"""Counts the places of the eight points of docs/DESIGN-PASS.md in src/ of all crates, by searches of their text.

usage: python3 tools/design_count.py [--list] [COMMIT]        at the top of the repository; without COMMIT, the files as they stand

A line for each search: its number, how many places, how many of them in the calls for C (ropelog and call_*), and what it looks for. With
--list the places follow, by crate. A place may be in more than one search. Searches of bodies pass over a body that reads an input.
"""

import glob
import io
import itertools
import re
import subprocess
import sys
import tarfile
from collections import defaultdict
from difflib import SequenceMatcher

FUNCTION = re.compile(r"(?m)^ *(?:pub(?:\([a-z]+\))? )?(?:const )?(?:extern \"\" )?fn (\w+)(?:<[^{;]*?>)?\(")
CLAUSE = re.compile(r"[^{;]*\b(?:requires|ensures)(?: \w+)? (?=\{)")
TYPE = re.compile(r"(?ms)((?:^ *#\[[^\n]*\]\n)*)^( *)(?:pub(?:\([a-z]+\))? )?(enum|struct) (\w+)[^{;(\n]*\{\n(.*?)^\2\}$")
NOTE = re.compile(r"(?m)((?:^ *//[^\n]*\n)+)(?:^ *#[^\n]*\n)*^[^\n]*?(?:fn|struct|enum) (\w+)")
KEYWORDS = set("as break continue else false fn for if in let loop match mut ref return self true while u8 u16 u32 u64 usize bool".split())
# 1b, 1d: fields and parameters that hold a kind, a state or a refusal; 1j: that hold many.
FLAGS = {"refusal", "readable", "condition", "kind", "status", "verdict", "byte", "has", "number"}
MANY = re.compile(r"(?:conditions|verdicts|plan): .*\[u8|bytes: .*\[u8; MAX_SLOTS\]")
# 1g: a comment that says that one of the values stands for none.
SENTINEL = re.compile(r"if there is none|if none does|or the empty part|or an empty span|none if it|the set is empty")
# 2a: what was read, and differs only in a type, a size, a constant or what is called. What 2b lists was read too.
TWINS = """
append::append_entry append_witness::append_witness
call_images::append call_witnesses::witness_append
call_images::read call_witnesses::witness_read
call_pieces::read_column call_records::judge_entry call_records::judge_record
call_pieces::write_header call_records::write_entry call_records::write_record
call_records::write_blank_record call_records::write_fresh_entry
call_sizes::cluster_size call_sizes::entry_at call_sizes::image_at call_sizes::image_size call_sizes::record_at
copy::all_bytes copy::same_bytes
copy::copy_bytes copy::fill_bytes read::fill_epochs store::load_entry tabulate::fill_rows write::write_entry_bytes
decide_slots::first_waiting seek::first_fetched seek::first_with vet_scan::falls vet_scan::has_gap vet_scan::has_lost vet_scan::log_length
format::put_blanks format::put_freshes
locate::entry_in locate::record_in
read::read_image read_witness::read_witness
read_verdicts::is_fresh view_slot::entry_state view_slot::record_state
store::blank_record store::write_record
vet::is_edition vet::is_size
view_open::open_card view_open::open_witness
copy::put_bytes compose::put_slot spell::put_number write_header::put_header write_at::put_blank write_at::put_entry write_at::put_fresh write_at::put_record
"""
ALIKE, LEAST = 0.8, 12  # twins share this part of their bodies' words, of which each has at least so many
# 4a, 4b, 4d: by name.
EQUALITY = "same_bytes|all_bytes|is_outstanding|is_whole"
COPYING = "copy_bytes|fill_bytes|put_bytes|load_entry|write_entry_bytes|fill_epochs|copy_slots|with_slot|fill_rows"
PRINTING = "spell::write_number|put_number|holds_number|number_in|digit_step|write_refused|write_heading|write_slot|compose::put_slot|put_slots"
# 6: numbers that say how much of a buffer counts, beside it.
LENGTHS = {"count", "length", "size", "end", "used", "bound", "limit", "n", "m", "waiting"}


def texts(commit):
    """Each file of crates/ that counts, by path."""
    wanted = re.compile(r"crates/\w+/(src/.*\.rt|proofs/.*\.antt)$")
    if commit is None:
        return {p: open(p, encoding="utf-8").read() for p in sorted(glob.glob("crates/**/*", recursive=True)) if wanted.match(p)}
    data = subprocess.run(["git", "archive", "--format=tar", commit, "crates"], check=True, capture_output=True).stdout
    with tarfile.open(fileobj=io.BytesIO(data)) as tar:
        return {i.name: tar.extractfile(i).read().decode() for i in tar.getmembers() if wanted.match(i.name)}


def bare(text):
    """The text with comments left out, and strings and characters emptied."""
    empty = {"/": "", '"': '""', "'": "0"}
    return re.sub(r"//[^\n]*|b?\"(?:\\.|[^\"\\])*\"|b?'(?:\\.|[^'\\\n])'", lambda m: empty["/" if m[0][0] == "/" else m[0][-1]], text)


def end_of(text, at):
    """Where the bracket that opens at `at` is closed."""
    depth = 0
    while True:
        depth += (text[at] in "([{") - (text[at] in ")]}")
        at += 1
        if depth == 0:
            return at


def split(text, mark, brackets="([{", closing=")]}"):
    """The parts between marks that stand in no bracket."""
    parts, depth, last = [], 0, 0
    for at, c in enumerate(text):
        depth += (c in brackets) - (c in closing and text[at - 1 : at + 1] != "->")
        if c == mark and depth == 0:
            parts.append(text[last:at])
            last = at + 1
    return [p.strip() for p in parts + [text[last:]] if p.strip()]


class Function:
    def __init__(self, crate, text, found, comment):
        self.name, self.comment, self.exported = f"{crate}::{found[1]}", comment, 'extern ""' in found[0]
        at = end_of(text, found.end() - 1)
        params = split(text[found.end() : at - 1], ",", "([{<", ")]}>")
        self.params = {p.split(":", 1)[0].strip(): p.split(":", 1)[1].strip() for p in params if ":" in p}
        result = re.compile(r"(?: -> (.*?))?(?=\s*(?:requires\b|ensures\b|where\b|\{|\n|;$))", re.M).match(text, at)
        self.result, at = result[1] or "", result.end()
        self.clauses = []
        while clause := CLAUSE.match(text, at):
            at = end_of(text, clause.end())
            self.clauses.append(text[clause.end() + 1 : at - 1])
        opens = re.compile(r"[^{;]*").match(text, at).end()
        self.body = text[opens + 1 : end_of(text, opens) - 1] if text[opens] == "{" else ""

    def words(self):
        """The body's words, each name and each number alike."""
        out = re.findall(r"[A-Za-z_]\w*|\d\w*|[^\s\w]", re.sub(r"\b\w+(?:::\w+)+", "n", self.body))
        return ["0" if w[0].isdigit() else "n" if re.match(r"[A-Za-z_]", w) and w not in KEYWORDS else w for w in out]

    def facts(self):
        """Every part of a clause between × and →, `.old` and `.new` read as `.now`; no binder and no equation of the result."""
        parts, out = [re.sub(r"\s+", " ", p) for c in self.clauses for p in split(c.replace("→", "×"), "×")], set()
        while parts:
            p = parts.pop()
            while p.startswith("(") and end_of(p, 0) == len(p):
                p = p[1:-1].strip()
            inner = split(p, "×")
            if len(inner) > 1:
                parts += inner
            elif not re.match(r"\(?[\w ]+ : |(?:\w+ )?result(?:\.\w+)? ≡", p):
                out.add(re.sub(r"\.(old|new)\b", ".now", p))
        return out


def together(functions):
    """Groups of three or more parameters in three or more functions. First the group that one struct saves most with; none twice."""
    left = [(f.name, frozenset((n, re.sub(r"&(?:'\w+ )?(?:mut )?", "", t)) for n, t in f.params.items())) for f in functions]
    groups = []
    while True:
        shared = {a & b for (_, a), (_, b) in itertools.combinations(left, 2) if len(a & b) >= 3}
        found = [(s, [n for n, p in left if s <= p]) for s in shared]
        found = [((len(s) - 1) * len(names), sorted(s), names, s) for s, names in found if len(names) >= 3]
        if not found:
            return groups
        _, group, names, s = max(found, key=lambda f: f[:2])
        groups.append(f"{', '.join(n for n, _ in group)} [{len(names)}: {', '.join(names)}]")
        left = [(n, p - s if s <= p else p) for n, p in left]


def twins(functions):
    """The functions that are alike to another one of their group, and the pairs that are as alike and in no group."""
    words = [(f.name, w) for f in functions if not f.exported and len(w := f.words()) >= LEAST]
    matches = (({a[0], b[0]}, SequenceMatcher(None, a[1], b[1], False)) for a, b in itertools.combinations(sorted(words), 2))
    pairs = {frozenset(p) for p, m in matches if m.real_quick_ratio() >= ALIKE and m.quick_ratio() >= ALIKE and m.ratio() >= ALIKE}
    read = {frozenset(p): group for group in TWINS.split("\n") for p in itertools.combinations(group.split(), 2)}
    return sorted({n for p in pairs if p in read for n in p}), sorted(" ~ ".join(sorted(p)) for p in pairs if p not in read)


def is_option(body):
    empty = re.sub(r"\{[^}]*\}", "()", body)
    return re.search(r"\bRefused\b", body) or re.search(r"(?m)^ *\w+,$", empty) and re.search(r"(?m)^ *\w+ ?\(", empty)


def has_length(d):
    return any("[" in t for t in d.values()) and any(n in LENGTHS and t in ("usize", "u32") for n, t in d.items())


def is_parallel(d):
    sizes = [t.rsplit(";", 1)[1] for t in d.values() if "[" in t and ";" in t]
    return len(sizes) > len(set(sizes)) or {"epochs", "verdicts"} <= set(d)


def searches(files):
    functions, types, constants, proofs = [], [], [], defaultdict(int)
    for path, text in files.items():
        crate, code = path.split("/")[1], bare(text)
        if path.endswith(".antt"):
            proofs[crate, path.endswith(("/Answers.antt", "/Invariants.antt"))] += text.count("\n")
        else:
            place = crate if path.endswith(("lib.rt", "main.rt")) else crate + "::" + path.split("/")[-1][:-3]
            notes = {m[2]: re.sub(r"\n *// ?", " ", m[1]) for m in NOTE.finditer(text)}
            functions += [Function(crate, code, m, notes.get(m[1], "")) for m in FUNCTION.finditer(code)]
            types += [(m[3], f"{crate}::{m[4]}", m[1], m[5], notes.get(m[4], "")) for m in TYPE.finditer(code)]
            constants += [f"{place}::{name}" for name in re.findall(r"const (\w+): (?:u8 = \d+|usize = [012]);", code)]
    of_type = [(n, k, dict(re.findall(r"(\w+): ([^,}]+[^,\s}])", b))) for k, n, _, b, _ in types]
    structs, parameters = [(n, d) for n, k, d in of_type if k == "struct"], [(f.name, f.params) for f in functions]
    all_of = structs + parameters

    def in_bodies(pattern):
        return [f.name for f in functions if ".read(" not in f.body for _ in re.finditer(pattern, f.body)]

    def named(names):
        return [f.name for f in functions if re.search(f"::({names})$|^({names})$", f.name)]

    facts, (known, others) = defaultdict(list), twins(functions)
    for name, fact in ((f.name, fact) for f in functions for fact in f.facts()):
        facts[fact].append(name)
    facts = sorted(((k, v) for k, v in facts.items() if len(v) >= 3), key=lambda i: -len(i[1]))
    said = [f.name for f in functions if SENTINEL.search(f.comment) and f.result != "u8"] + [n for _, n, _, _, x in types if SENTINEL.search(x)]
    yield "1a", "enums with Refused, or with an empty variant beside one that is not", [n for k, n, _, b, _ in types if k == "enum" and is_option(b)]
    flags = [f"{n}.{x}" for n, _, d in of_type for x, t in d.items() if x in FLAGS - {"number"} and t in ("u8", "usize", "bool")]
    codes = [f.name for f in functions if f.result == "u8" and not re.search("::(?:last|high)_byte", f.name)]  # those are text
    yield "1b", "fields that are a flag, a kind or a refusal in a number, beside values", flags
    yield "1c", "functions that answer a refusal, a kind or a code as u8", codes
    yield "1d", "parameters that are one", [f"{f}({n})" for f, d in parameters for n, t in d.items() if n in FLAGS and t in ("u8", "&mut u8")]
    yield "1e", "constants that number a refusal, a kind or a state: of u8, or 0 to 2", constants
    yield "1f", "tests that a refusal is not 0", in_bodies(r"\bif (?:\w+\.)?\w+ != 0 \{")
    yield "1g", "functions and structs of which a comment says that a value stands for none", said
    yield "1h", "functions that make what stands beside a refusal", [f.name for f in functions if re.search("::(?:no_|refused)", f.name)]
    yield "1i", "enums that do not derive PartialEq", [n for k, n, a, _, _ in types if k == "enum" and "PartialEq" not in a]
    yield "1j", "arrays and slices of them", [f"{n}({x})" for n, d in all_of for x, t in d.items() if MANY.match(f"{x}: {t}")]
    yield "2a", f"functions alike to another of their group of twins, to {ALIKE}", known
    yield "2b", "pairs as alike and in no group", others
    yield "2c", "structs whose fields all stand in another struct", [n for n, d in structs if any(o != n and d.items() <= e.items() for o, e in structs)]
    yield "3", "while and loop", in_bodies(r"\b(?:while|loop)\b")
    yield "4a", "equality by hand, by name", named(EQUALITY)
    yield "4b", "copying by hand, by name", named(COPYING)
    yield "4c", "casts: as u8, u32, u64, usize", in_bodies(r" as (?:u8|u32|u64|usize)\b")
    yield "4d", "numbers and lines printed and read by hand, by name", named(PRINTING)
    yield "4e", "matches of an enum of the repository", in_bodies(r"\bmatch [^{]*\{\s*\w+::")
    yield "4f", "two ifs that are one range", in_bodies(r"if ([\w.]+) < [^\s{]+ \{\s*return ([^;]+);\s*\}\s*if [^\s{]+ < \1 \{\s*return \2;")
    yield "4g", "functions that only hand out a field", [f.name for f in functions if re.fullmatch(r"\s*\w+\.\w+(?:\[\w+\])?\s*", f.body)]
    yield "5a", "facts in the contracts of three or more functions", [f"{k} [{len(v)}: {', '.join(v)}]" for k, v in facts]
    yield "5b", "groups of three or more parameters in three or more functions", together(functions)
    yield "5c", "sets as bare words", [f"{n}({x})" for n, d in all_of for x, t in d.items() if t == "u32" and x in ("readable", "present", "witnesses", "set")]
    yield "6a", "structs with an array and a length beside it", [n for n, d in structs if has_length(d)]
    yield "6b", "functions with an array or a slice and a length beside it", [n for n, d in parameters if has_length(d)]
    yield "6c", "structs and functions with parallel arrays", [n for n, d in all_of if is_parallel(d)]
    yield "6d", "places that count into a flattened table: * MAX_SLOTS", in_bodies(r"\* MAX_SLOTS\b")
    yield "7a", "parameters of type bool", [f"{f}({n})" for f, d in parameters for n, t in d.items() if t == "bool"]
    yield "7b", "dyn, function pointers, matches of a number", in_bodies(r"\bdyn\b|\bfn\(|\bmatch [^{]*\{\s*\d+ =>")
    yield "8a", "lines of Answers and Invariants", [f"{c} {n}" for (c, own), n in sorted(proofs.items()) if own]
    yield "8b", "lines of own lemma files", [f"{c} {n}" for (c, own), n in sorted(proofs.items()) if not own]


def main():
    arguments = [a for a in sys.argv[1:] if a != "--list"]
    for number, what, places in searches(texts(arguments[0] if arguments else None)):
        for_c = sum(bool(re.match(r"ropelog::|call_\w+::", p)) for p in places)
        count = sum(int(p.split()[1]) for p in places) if number[0] == "8" else len(places)
        print(f"{number:3} {count:6} {for_c:4}  {what}")
        by_crate = defaultdict(list)
        for p in places:
            by_crate[p.split("::")[0] if re.fullmatch(r"[\w:.()]+", p) else ""].append(re.sub(r"^\w+::", "", p) if " " not in p else p)
        for crate, ps in sorted(by_crate.items()) if "--list" in sys.argv else []:
            once = [p + (f" ×{ps.count(p)}" if ps.count(p) > 1 else "") for p in dict.fromkeys(ps)]
            print("\n".join("      " + p for p in once) if not crate else f"      {crate}: {', '.join(once)}")


if __name__ == "__main__":
    main()
