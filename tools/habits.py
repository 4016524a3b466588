#!/usr/bin/env python3
"""Checks the habits of this repository that a machine can keep, and tells each place that departs from one.

- A line of a page or a script has at most 130 characters; a row of a table and an indented line, as what is typed, may be
  longer. (`rt fmt` lays code out.)
- A sentence of README.md, CONTRIBUTING.md, docs/ and the crates' READMEs has at most 30 words. A span of code is one word, a
  link's target none.
- A link of a page leads to a file of the repository, and to a heading of it where it names one. One that shows a name, as
  [`step`](FILE.antt), leads to the file of specs that defines it. A law and a file that a page shows is there.
- Each crate of crates.txt is named in CONTRIBUTING.md, and stands on crates that crates.txt lists or the kit has. The map
  there has no crate in a row above those that it stands on.
- A crate's row has those crates of the repository that its sources, specs and proofs name, and no others.
- CONTRIBUTING's table of words has each word once, and each is used on another page or in a docstring of something public. A
  word of this house (HOUSE) that a page uses stands in that table, or that page or the README explains it, where it shows
  it *so*.
- No page has a word of COINED, and none of its sentences begins with one of OPENERS, unless it is a question.
- Each public call of the client has a docstring. It begins with a capital, its first sentence ends on its first line, and it has
  no word of COINED nor of `docstrings.COINED`; no public parameter has a name of `docstrings.PARAMETERS`.
- No file's name, and no comment, docstring or text of code, has a phrase of WANTED, on one line or over several.
- Each crate has a README of fewer than 60 lines, whose list of calls is the one that `tools/docs --readmes` writes.
- docs/RATTLE.md shows each program that stands on `misteluk`: its row of crates.txt, and each of its files as it is, or a link
  to it.
- No definition, and no lemma with its name and type, stands twice in `specs/` and `proofs/`.
- The name of a definition of `specs/` stands in one crate, unless `statements.SEVERAL` says why in several.
- Each tool has a line of `tools/catalog.py`, which says truly whether `./check` runs it, and a name in the style of the others.
- Each page of lemmas begins with what they are about, and crates/LEMMAS.md lists it.
- A wrong body names files of its crate, and has pairs of an old line, which stands in its file once, and a new one. A line of
  python/survivors.txt is of a change that `tools/wrong-python` makes, and says why no test need fail it.
- README.md, CONTRIBUTING.md, docs/ and python/README.md have together at most 160,000 bytes: a page that gets longer has another
  get shorter. (CHANGELOG.md grows with each change that users see.)
- A script, and a file in a language that no prover reads, has at most 400 lines, besides the examples of docstrings. A function's
  body in Python (after its docstring) or Rust has at most 40 lines; in Python its blocks nest at most three deep, where `with`
  isn't counted.
- A commit's subject has at most 72 characters.

Its last line is 'N passed, M failed'.
"""
import pathlib
import re
import subprocess
import sys

import catalog
import changes
import crate_rows
import docstrings
import lemma_pages
import lengths
import statements
from crate_docs import readmes
from crate_docs.sources import section

TOP = pathlib.Path(__file__).resolve().parent.parent
WIDTH = 130
SUBJECT = 72
SENTENCE = 30
ROOM = 60
BYTES = 160_000
# Subjects of before this one were written without the rule.
SINCE = "cf1127e"
PAGES = {".md", ".py", ".rs", ""}
# What a page shows as a law, and as a file of this repository that nobody makes.
LAW = re.compile(r"`(?:\w+::)*(law_\w+)`")
PATH = re.compile(r"`((?:tools|tests|examples|bench|docs|python|include|share|crates)/(?!\w+/out/)[\w./-]+)[` ]")
DEFINED = re.compile(r"\[`([^`]+)`\]\(([^)\s]+\.antt)\)")
FENCED = re.compile(r"(?ms)^```.*?^```$")
LINK = re.compile(r"(?<!!)\[[^\]]*\]\(([^)\s]+)\)")
WORDS = TOP / "CONTRIBUTING.md"
# What a newcomer can't know: words that are this repository's, or mean something of its own in it.
HOUSE = """act birth board book desk drive floor gate grant journal label level opening pin receipt retirement seat shard shelf
    slot stamp told""".split()
# Words that a reader had to decode, and what to write in their place; and words that put a sentence's reason before its subject.
COINED = {
    r"want(?:s|ed|ing)? (?:of )?memory|want of it": "out of memory",
    r"for want of": "for lack of",
    r"behind": "after",
    r"beside": "next to, together with, besides",
    r"tells?|telling|(?:is|are|was|were|be) told": "report, say, show",
    r"anew": "again",
    r"dear(?:er|est)?": "expensive",
    r"in (?:100|a hundred)": "percent",
    r"some \d[\d,.]*": "about",
    r"lets? go|letting go|let its? .{1,20} go": "free, drop",
    r"(?:is|are|be) parted|parted by": "is separated",
    r"turned? round": "swapped",
    r"is had|be had": "available",
    r"handed on|hands? (?:it|them|this|a \w+) on": "re-exported, passed on",
    r"handed in": "given",
    r"begins? anew|begun anew": "start over",
    r"judges?|judged": "check",
    r"walls?": "limit",
}
OPENERS = ("Behind", "Beside", "Of", "That", "Where")
# What stands between two words of a comment, which may be wrapped there, or of a name; and phrases that say "out of memory" by a
# detour.
GAP = r"(?:\s|//[/!]?|--|#|_)+"
WANTED = re.compile(
    rf"(?<![a-z])(?:want(?:s|ed|ing)?{GAP}(?:of{GAP})?memory|memory{GAP}(?:(?:is|was|were|be){GAP})?(?:wanting|wanted)"
    rf"|(?:finds?|found){GAP}no{GAP}memory)(?![a-z])", re.I)
CODE = {".rt", ".antt", ".py", ".txt", ".c", ".h", ""}


def git(*words):
    return subprocess.run(["git", *words], cwd=TOP, capture_output=True, text=True, check=True).stdout.splitlines()


def files():
    """Returns the pages, scripts and wrong bodies that git knows, without licences, and what `tools/help-pages` and
    `tools/lemma-index` write of other texts."""
    names = [it for it in git("ls-files") if not it.startswith(("LICENSE", "share/", lemma_pages.PAGE))]
    known = (TOP / it for it in names)
    return [it for it in known if it.is_file() and it.suffix in PAGES | {".edit"}]


def wide_lines(path):
    for number, line in enumerate(path.read_text(encoding="utf-8").splitlines(), 1):
        is_as_it_is = path.suffix == ".md" and line.startswith(("|", "    "))
        if len(line) > WIDTH and not is_as_it_is:
            yield f"{path.relative_to(TOP)}:{number}: {len(line)} characters, of at most {WIDTH}"


def written(page):
    """Returns a page without what is made from docstrings, or typed."""
    text = re.sub(re.escape(readmes.FIRST) + ".*?" + re.escape(readmes.LAST), blank, page.read_text(encoding="utf-8"), flags=re.S)
    return FENCED.sub(blank, text)


def blank(found):
    return "\n" * found[0].count("\n")


def sentences(page):
    """Yields a page's sentences, but for those of tables, headings and what is typed; a span of code stands as one word."""
    lines = []
    for line in written(page).splitlines():
        is_apart = line.startswith(("|", "#", "    "))
        # What begins an item of a list begins a sentence.
        lines.append("" if is_apart else re.sub(r"^\s*(?:[-*]|\d+\.) ", "\n", line.removeprefix("> ")))
    for part in "\n".join(lines).split("\n\n"):
        plain = re.sub(r"`[^`]*`", "CODE", re.sub(r"\]\([^)]*\)", "]", " ".join(part.split())))
        # A full stop ends one, but not two as between `a` .. `b`, nor one before a small letter.
        yield from re.split(r"(?<=[^.][.?!])[)*\"]*\s+(?=[^a-z])", plain)


def long_sentences(page):
    for sentence in sentences(page):
        words = [it for it in sentence.split() if re.search(r"\w", it)]
        if len(words) > SENTENCE:
            yield f"{page.relative_to(TOP)}: {len(words)} words, of at most {SENTENCE}: {' '.join(words[:12])} .."


def anchors(page):
    """Returns the anchors of a page's headings, as they are made where pages are shown."""
    heads = re.findall(r"^#+ (.*)$", page.read_text(encoding="utf-8"), re.M)
    plain = (re.sub(r"[^\w\- ]", "", re.sub(r"[`*]", "", head).lower()) for head in heads)
    return {it.strip().replace(" ", "-") for it in plain}


def dead_links(page):
    for target in LINK.findall(page.read_text(encoding="utf-8")):
        if "://" in target:
            continue
        name, _, anchor = target.partition("#")
        to = (page.parent / name).resolve() if name else page
        if not to.exists():
            yield f"{page.relative_to(TOP)}: no {target}"
        elif anchor and to.suffix == ".md" and anchor not in anchors(to):
            yield f"{page.relative_to(TOP)}: no heading for {target}"


def of_ours(told):
    """Yields what is told of the store's crates: a program of a reader's own may call a lemma as it likes."""
    own = crate_rows.own_crates()
    return (it for it in told if not own & set(re.findall(r"\w+", it)))


def undefined_names(page):
    """Yields each name that a link shows and its file of specs doesn't define."""
    for name, target in DEFINED.findall(page.read_text(encoding="utf-8")):
        to = (page.parent / target).resolve()
        head = rf"^(?:abbrev|record|data) pub {re.escape(name)}\b|^pub (?:record|data) {re.escape(name)}\b"
        if to.exists() and not re.search(head, to.read_text(encoding="utf-8"), re.M):
            yield f"{page.relative_to(TOP)}: {target} doesn't define {name}"


def absent_things(pages):
    """Yields each law that pages show and no crate has, and each file: PROOF's reader is to look at both."""
    sources = (it.read_text(encoding="utf-8") for it in TOP.glob("crates/*/src/**/*.rt"))
    laws = {it for text in sources for it in re.findall(r"fn (law_\w+)", text)}
    for page in pages:
        text = page.read_text(encoding="utf-8")
        yield from (f"{page.relative_to(TOP)}: no crate has {it}" for it in LAW.findall(text) if it not in laws)
        for name in PATH.findall(text):
            is_there = any((top / name).exists() for top in (TOP, TOP / "python"))
            if not is_there and not re.search(r"NAME|\.\.", name):
                yield f"{page.relative_to(TOP)}: no {name}"


def table_of_words():
    """Returns the words that CONTRIBUTING's table explains, in its order; a row may have several."""
    part = section(WORDS.read_text(encoding="utf-8"), "Words")
    rows = [line for line in part.splitlines() if line.startswith("| ")][1:]
    return [word.strip() for row in rows for word in row.split("|")[1].split(",")]


def is_used(word, text):
    return re.search(rf"\b{re.escape(word)}s?\b", text, re.I) is not None


def public_docstrings():
    """Yields what stands before something public, and at a file's head."""
    for path in (TOP / "crates").glob("*/src/**/*.rt"):
        text = path.read_text(encoding="utf-8")
        yield from re.findall(r"((?:^ *///.*\n)+)(?:^ *#\[.*\n)*^ *pub (?!\()", text, re.M)
        yield from re.findall(r"^//!.*$", text, re.M)


def words_astray(pages):
    words, texts = table_of_words(), {it: written(it) for it in pages}
    first = (TOP / "README.md").read_text(encoding="utf-8")
    used = [text for page, text in texts.items() if page != WORDS] + list(public_docstrings())
    for word in dict.fromkeys(words):
        if words.count(word) > 1:
            yield f"CONTRIBUTING's table has {words.count(word)} rows for {word}"
        if not any(is_used(word, text) for text in used):
            yield f"CONTRIBUTING's table has {word}, which nothing else uses"
    for page, text in texts.items():
        for word in HOUSE:
            if word not in words and is_used(word, text) and not re.search(rf"\*{word}s?\*", first + text, re.I):
                yield f"{page.relative_to(TOP)} uses {word}, which neither it nor the README nor CONTRIBUTING's table explains"


def coined_words(page):
    """Yields what a plain page says in coined words, outside of code, what stands in quotes, headings and links' targets."""
    name = page.relative_to(TOP)
    for number, line in enumerate(written(page).splitlines(), 1):
        if not line.startswith(("#", "    ")):
            plain = re.sub(r"`[^`]*`|\"[^\"]*\"", "", re.sub(r"\]\([^)]*\)", "]", line))
            for words, better in COINED.items():
                yield from (f"{name}:{number}: {it[0]!r}: say {better}" for it in re.finditer(rf"\b(?:{words})\b", plain, re.I))
    for sentence in sentences(page):
        first = re.match(r"\W*(\w+)", sentence)
        if first and first[1] in OPENERS and not sentence.rstrip("*)").endswith("?"):
            yield f"{name}: a sentence begins with {first[1]}: {' '.join(sentence.split()[:8])} .."


def memory_detours():
    """Yields each phrase of WANTED in a file's name, and in what isn't a page."""
    for name in git("ls-files"):
        path = TOP / name
        if WANTED.search(name):
            yield f"{name}: its name: say out of memory"
        if path.suffix in CODE and path.is_file():
            text = path.read_text(encoding="utf-8")
            for found in WANTED.finditer(text):
                line = text.count("\n", 0, found.start()) + 1
                yield f"{name}:{line}: {' '.join(found[0].split())!r}: say out of memory"


def rooms():
    """Returns the crates' READMEs."""
    return sorted((TOP / "crates").glob("*/README.md"))


def long_rooms():
    for page in rooms():
        count = len(page.read_text(encoding="utf-8").splitlines())
        if count >= ROOM:
            yield f"{page.relative_to(TOP)} has {count} lines: a crate's README has fewer than {ROOM}"


def programs():
    """Returns each program over the library that others learn from: its row of crates.txt, and its files."""
    rows, own = crate_rows.rows(), crate_rows.own_crates()
    found = [row for row in rows if "misteluk" in row.partition(":")[2].split() and row.split()[0].rstrip(":") not in own]
    paths = {row: git("ls-files", f"crates/{row.partition(':')[0].split()[0]}") for row in found}
    return {row: [TOP / it for it in them if not it.endswith("README.md")] for row, them in paths.items()}


def unshown_programs():
    page = (TOP / "docs/RATTLE.md").read_text(encoding="utf-8")
    if not programs():
        yield "crates.txt has no program over misteluk"
    for row, paths in programs().items():
        if f"\n    {row}\n" not in page:
            yield f"docs/RATTLE.md doesn't show the row {row}"
        for path in paths:
            is_shown = f"\n{path.read_text(encoding='utf-8')}```\n" in page
            if not is_shown and f"](../{path.relative_to(TOP)})" not in page:
                yield f"docs/RATTLE.md neither shows {path.relative_to(TOP)} as it is nor leads to it"


def unnamed_exports():
    page = (TOP / "docs/RATTLE.md").read_text(encoding="utf-8")
    facade = (TOP / "crates/misteluk/src/lib.rt").read_text(encoding="utf-8")
    for names in re.findall(r"(?s)^pub use \w+::\{?([^;}]+)", facade, re.M):
        for name in re.findall(r"\w+", names):
            if not re.search(rf"`[^`]*\b{name}\b[^`]*`", page):
                yield f"docs/RATTLE.md doesn't name {name}, which misteluk hands on"


def lost_edits(path):
    """An edit of text that its file no longer has, or has twice, tries nothing."""
    name = path.relative_to(TOP)
    text, texts, old, olds, news = None, {}, "", 0, 0
    for line in path.read_text(encoding="utf-8").splitlines():
        word, _, rest = line.partition(": ")
        if word == "file":
            source = TOP / "crates" / name.parts[1] / rest
            if not source.is_file():
                yield f"{name}: no file that it names"
                return
            texts.setdefault(rest, source.read_text(encoding="utf-8"))
            text = rest
        elif text is None:
            yield f"{name}: no file that it names"
            return
        elif word == "old":
            olds, old = olds + 1, rest
            if texts[text].count(old) != 1:
                yield f"{name}: its old line stands {texts[text].count(old)} times in {text}"
        elif line.startswith("new:"):
            news += 1
            texts[text] = texts[text].replace(old, rest, 1)
    if not olds or olds != news:
        yield f"{name}: {olds} old lines and {news} new ones"


def plain_pages(known):
    """Returns the pages that users and contributors read: those at the top, in docs/, and the client's own."""
    tops = {TOP / it for it in ("README.md", "CONTRIBUTING.md", "python/README.md")}
    return [it for it in known if it in tops or it.suffix == ".md" and it.parent == TOP / "docs"]


def too_many_bytes(pages):
    total = sum(len(it.read_bytes()) for it in pages)
    if total > BYTES:
        yield (f"{total:,} bytes, {total - BYTES:,} too many: README.md, CONTRIBUTING.md, docs/, python/README.md have together "
               f"at most {BYTES:,}. Say a fact once, or move it to a crate's README; CHANGELOG.md isn't counted")


def long_subjects():
    is_known = subprocess.run(["git", "cat-file", "-e", SINCE], cwd=TOP, capture_output=True).returncode == 0
    for subject in git("log", "--format=%s", *([f"{SINCE}.."] if is_known else ["-1"])):
        if len(subject) > SUBJECT:
            yield f"a commit's subject has {len(subject)} characters, of at most {SUBJECT}: {subject}"


def main():
    known = files()
    pages = [it for it in known if it.suffix == ".md"]
    told = [it for it in pages if it.parent == TOP / "docs" or it.name in ("README.md", "CONTRIBUTING.md") and it.parent == TOP]
    edits = [it for it in known if it.suffix == ".edit"]
    habits = {
        "width of lines": [it for path in known if path.suffix in PAGES for it in wide_lines(path)],
        "length of sentences": [it for page in [*told, *rooms()] for it in long_sentences(page)],
        "links": [it for page in pages for it in dead_links(page)],
        "names of definitions": [*(it for page in pages for it in undefined_names(page)), *absent_things(pages)],
        "crates": [*crate_rows.unnamed(), *crate_rows.misplaced(), *crate_rows.misnamed()],
        "words": list(words_astray([*told, *rooms()])),
        "plain English": [*(it for page in pages for it in coined_words(page)), *memory_detours()],
        "docstrings": list(docstrings.astray(TOP, COINED, OPENERS)),
        "READMEs of crates": [*long_rooms(), *readmes.stale(TOP)],
        "programs over the library": [*unshown_programs(), *unnamed_exports()],
        "statements": list(of_ours(statements.told_twice(TOP))),
        "names of several crates": list(of_ours(statements.in_several(TOP))),
        "wrong bodies": [*(it for path in edits for it in lost_edits(path)), *changes.lost()],
        "bytes of pages": list(too_many_bytes(plain_pages(known))),
        "tools": list(catalog.astray(TOP)),
        "index of lemmas": list(lemma_pages.stale(TOP)),
        "lengths": list(lengths.too_long(TOP, git("ls-files"))),
        "subjects": list(long_subjects()),
    }
    for habit, places in habits.items():
        for place in places:
            print(f"{habit}: {place}")
    failed = sum(bool(places) for places in habits.values())
    print(f"{len(habits) - failed} passed, {failed} failed")
    return 1 if failed else 0


if __name__ == "__main__":
    sys.exit(main())
