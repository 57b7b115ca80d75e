#!/usr/bin/env python3
"""Reads each page (*.md) of the repository, and fails if one breaks a rule. It runs nothing. The rules:

  - Each relative link and anchor leads somewhere.
  - A path of this repository in backquotes leads somewhere.
  - No sentence has more than 30 words. A sentence ends at a full stop, a question mark or an exclamation mark; a list item, a heading
    and a cell of a table each begin anew. Blocks of code are no sentences, and inline code is one word.
  - 'if' comes at least 4 times in 1,000 words, and 'where' at most 2 times, on pages of 300 words and more: a condition is an 'if'.
  - None of the phrases of BANNED comes.
  - In the comments of the crates 'if' comes at least 3 times in 1,000 words.
  - The README has at most 700 words, with all that is in blocks and tables. It and the pages of docs/ have at most MOST_OF_DOCS together.

python3 tests/pages.py [--count] [PAGE..]: with --count it prints each page's figures too."""
from __future__ import annotations

import argparse
import re
import sys
from collections.abc import Iterator
from pathlib import Path
from typing import NamedTuple

ROOT = Path(__file__).resolve().parent.parent
MOST_WORDS = 30
LEAST_IFS = 4
LEAST_IFS_OF_COMMENTS = 3
LEAST_PAGE = 300
MOST_OF_README = 700
MOST_OF_DOCS = 24_400

# A list of what was done needs no conditions.
WITHOUT_IFS = ("CHANGELOG.md",)

BANNED = {
    "so many, so much": r"(?i)\bso (many|much)\b",
    "of which": r"(?i)\bof (which|whom)\b",
    "behind": r"(?i)\bbehind\b",
    "whence and its like": r"(?i)\b(whence|whither|thereof|wherein|whereby)\b",
    "what .. is": r"(?i)\bwhat (an?|the|each|every|all|no|any|its|their)( [\w'-]+){1,2} (is|are)\b",
    "Where .. for If": r"\bWhere (?![^.|]*\?)",
    "where .. for if": r"\bwhere (there|one|nothing|none|no|both|some|memory|nobody|all|any|either) ",
}
MOST_WHERES = 2

FENCE = re.compile(r"^\s*(```|~~~)")
HEADING = re.compile(r"^#{1,6} +(.*)$")
LINK = re.compile(r"\[([^\]]*)\]\(([^)\s]+)\)")
CODE = re.compile(r"(`+)(.+?)\1")
LIST_ITEM = re.compile(r"^\s*([-*]|\d+\.) +")
PATH = re.compile(r"^(?:docs|tests|crates|clients|examples|bench|\.ci)/[\w./-]*[\w/]$")
WORD = re.compile(r"[A-Za-z0-9][\w'.,:/+-]*|CODE")
END_OF_SENTENCE = re.compile(r"(?<=[.!?])[\"')*]* +(?=[A-Z0-9`\"'(*\[]|CODE|r\d)")


class Page(NamedTuple):
    """A page: its name from the top of the repository, its text, and its lines outside of blocks of code."""

    name: str
    text: str
    lines: list[str]

    @property
    def words(self) -> int:
        return len(self.text.split())


def kinds_of(lines: list[str]) -> Iterator[str]:
    """What each line is: `fence`, `fenced`, `indented` by four outside lists, or nothing of these."""
    fenced = in_list = False
    for line in lines:
        if FENCE.match(line):
            fenced, in_list = not fenced, in_list and line.startswith(" ")
            yield "fence"
        elif fenced:
            yield "fenced"
        else:
            in_list = bool(LIST_ITEM.match(line)) or (in_list and (not line or line.startswith(" ")))
            yield "indented" if line.startswith("    ") and not in_list else ""


def lines_outside_blocks(text: str) -> list[str]:
    """The lines of a text, with an empty one for each line of a block of code."""
    lines = text.splitlines()
    return ["" if kind else line for line, kind in zip(lines, kinds_of(lines))]


def pages() -> Iterator[Page]:
    """Each page, by name. Folders of builds are no part of the repository."""
    for path in sorted(ROOT.rglob("*.md")):
        name = path.relative_to(ROOT)
        if not any(part in ("out", ".git") for part in name.parts):
            text = path.read_text(encoding="utf-8")
            yield Page(name.as_posix(), text, lines_outside_blocks(text))


def prose_of(line: str) -> str:
    """A line as it is read: links as their text, inline code as one word, without marks of style."""
    line = CODE.sub("CODE", line)
    return LINK.sub(r"\1", line).replace("**", "").replace("*", "")


def pieces(page: Page) -> Iterator[str]:
    """Paragraphs, headings, list items and cells of tables, each as one line of prose."""
    paragraph: list[str] = []
    for line in [*page.lines, ""]:
        begins = not line.strip() or HEADING.match(line) or line.lstrip().startswith("|") or LIST_ITEM.match(line)
        if begins and paragraph:
            yield prose_of(" ".join(paragraph))
            paragraph = []
        if line.lstrip().startswith("|"):
            yield from (cell.strip() for cell in prose_of(line).strip().strip("|").split("|"))
        elif HEADING.match(line):
            yield prose_of(HEADING.match(line).group(1))
        elif line.strip():
            paragraph.append(LIST_ITEM.sub("", line).strip())


def sentences(page: Page) -> Iterator[str]:
    for piece in pieces(page):
        yield from (sentence for sentence in END_OF_SENTENCE.split(piece) if sentence)


def faults_of_style(page: Page) -> Iterator[str]:
    """What breaks the rules of plain English."""
    told = list(sentences(page))
    for sentence in told:
        count = len(WORD.findall(sentence))
        if count > MOST_WORDS:
            yield f"{count} words in a sentence: {sentence}"
        for phrase, pattern in BANNED.items():
            if re.search(pattern, sentence):
                yield f"'{phrase}': {sentence}"
    if page.words >= LEAST_PAGE and page.name not in WITHOUT_IFS:
        if often(page, "if") < LEAST_IFS:
            yield f"{often(page, 'if'):.1f} times 'if' in 1,000 words, and at least {LEAST_IFS} are wanted"
        if often(page, "where") > MOST_WHERES:
            yield f"{often(page, 'where'):.1f} times 'where' in 1,000 words, and at most {MOST_WHERES} are wanted"
    if page.name == "README.md" and page.words > MOST_OF_README:
        yield f"{page.words} words, and at most {MOST_OF_README} are wanted"


def faults_of_length(read: list[Page]) -> Iterator[str]:
    """Whether the README and the pages of docs/ have become too long together."""
    words = sum(page.words for page in read if page.name == "README.md" or page.name.startswith("docs/"))
    if words > MOST_OF_DOCS:
        yield f"README.md and docs/: {words} words, and at most {MOST_OF_DOCS} are wanted: what stands twice can go"


def faults_of_comments() -> Iterator[str]:
    """Whether the comments of the crates have too few conditions that say 'if'."""
    words: list[str] = []
    for path in sorted(ROOT.glob("crates/*/src/**/*.rt")):
        for line in path.read_text(encoding="utf-8").splitlines():
            if line.lstrip().startswith("//"):
                words += line.lstrip().lstrip("/!").split()
    ifs = 1000 * sum(word.strip(".,:;()").lower() == "if" for word in words) / max(1, len(words))
    if ifs < LEAST_IFS_OF_COMMENTS:
        yield f"crates/*/src: {ifs:.1f} times 'if' in 1,000 words of comments, and at least {LEAST_IFS_OF_COMMENTS} are wanted"


def often(page: Page, word: str) -> float:
    """How often a word comes in 1,000 words of prose."""
    prose = " ".join(pieces(page))
    return 1000 * len(re.findall(rf"\b{word}\b", prose, re.IGNORECASE)) / max(1, len(prose.split()))


def anchor_of(heading: str) -> str:
    """The anchor that a heading has on GitHub."""
    heading = LINK.sub(r"\1", heading).replace("`", "").strip().lower()
    return re.sub(r"[^\w\- ]", "", heading).replace(" ", "-")


def anchors_of(text: str) -> set[str]:
    headings = (HEADING.match(line) for line in lines_outside_blocks(text))
    return {anchor_of(heading.group(1)) for heading in headings if heading}


def faults_of_paths(page: Page) -> Iterator[str]:
    """Paths in backquotes that lead nowhere. What a build makes is in out/, and NAME is any crate's."""
    for path in (found.group(2) for line in page.lines for found in CODE.finditer(line)):
        if PATH.match(path) and "/out/" not in path and "NAME" not in path and not (ROOT / path).exists():
            yield f"a path leads nowhere: {path}"


def faults_of_links(page: Page) -> Iterator[str]:
    """Links that lead nowhere."""
    folder = (ROOT / page.name).parent
    for target in (found.group(2) for found in LINK.finditer(CODE.sub("CODE", "\n".join(page.lines)))):
        path, _, anchor = target.partition("#")
        linked = folder / path if path else ROOT / page.name
        if re.match(r"[a-z]+:", target):
            continue
        if not linked.exists():
            yield f"a link leads nowhere: {target}"
        elif anchor and anchor not in anchors_of(linked.read_text(encoding="utf-8")):
            yield f"a link's anchor is no heading: {target}"


def main() -> int:
    parser = argparse.ArgumentParser(description=__doc__.splitlines()[0])
    parser.add_argument("--count", action="store_true", help="print how many words each page has, and how often 'if' and 'where' come in 1,000")
    parser.add_argument("page", nargs="*", help="these pages alone")
    given = parser.parse_args()
    read = [page for page in pages() if not given.page or page.name in given.page]
    faults = 0
    for page in read:
        told = [*faults_of_links(page), *faults_of_paths(page), *faults_of_style(page)]
        faults += len(told)
        if given.count:
            figures = f"{page.words:6} words, {often(page, 'if'):5.1f} if, {often(page, 'where'):4.1f} where"
            print(f"{figures}: {page.name}")
        for fault in told:
            print(f"{page.name}: {fault}")
    for fault in [*faults_of_length(read), *faults_of_comments()]:
        faults += 1
        print(fault)
    print(f"pages: {len(read)} read, {faults} faults")
    return 1 if faults else 0


if __name__ == "__main__":
    sys.exit(main())
