#!/usr/bin/env python3
"""Tests the links of the documents: each relative one leads to a file that exists, each #anchor to a heading.

Lists those that do not and exits with 1; else says in one line how many it tested.
"""

import re
import sys
from functools import cache
from pathlib import Path
from urllib.parse import unquote

TOP = Path(__file__).resolve().parent.parent
FOLDERS = ("docs", "examples", "tests", "bench")
FENCE = re.compile(r"^ {0,3}(```|~~~).*?^ {0,3}\1[^\n]*$", re.M | re.S)
INDENTED = re.compile(r"(?<=\n\n)(?: {4}[^\n]*\n)+")
CODE = re.compile(r"(`+)(?!`).+?(?<!`)\1(?!`)")
LINK = re.compile(r"!?\[[^\]]*\]\(<?([^()\s>]*(?:\([^()\s]*\)[^()\s>]*)*)>?(?:\s+\"[^\"]*\")?\)")
ELSEWHERE = re.compile(r"^(?:[a-z][a-z0-9+.-]*:|//)", re.I)


def prose(text):
    """A document without its blocks of code."""
    return INDENTED.sub("", FENCE.sub("", text))


@cache
def anchors(path):
    """The names to which links into a document can lead: its headings', as GitHub makes them, and its own."""
    text = prose(path.read_text(encoding="utf-8"))
    names = set(re.findall(r"<a\s+(?:id|name)=\"([^\"]+)\"", text))
    seen = {}
    for heading in re.findall(r"^#{1,6}\s+(.*?)\s*#*$", text, re.M):
        shown = LINK.sub(lambda link: link.group(0).split("](")[0].lstrip("!["), heading)
        slug = re.sub(r"[^\w\- ]", "", shown.lower()).replace(" ", "-")
        count = seen.get(slug, 0)
        seen[slug] = count + 1
        names.add(f"{slug}-{count}" if count else slug)
    return names


def fault(page, target):
    """Why a link of a page leads nowhere, or None."""
    path, _, anchor = unquote(target).partition("#")
    place = (page.parent / path).resolve() if path else page
    if not place.exists():
        return "no such file"
    return "no such heading" if anchor and place.suffix == ".md" and anchor not in anchors(place) else None


pages = sorted(TOP.glob("*.md")) + [page for folder in FOLDERS for page in sorted((TOP / folder).rglob("*.md"))]
links = [
    (page, link) for page in pages for link in LINK.findall(CODE.sub("`", prose(page.read_text(encoding="utf-8"))))
]
links = [(page, link) for page, link in links if link and not ELSEWHERE.match(link)]
faults = [(page, link, why) for page, link in links if (why := fault(page, link))]
for page, link, why in faults:
    print(f"{page.relative_to(TOP)}: {link}: {why}")
print(f"links in {len(pages)} documents")
print(f"{len(links) - len(faults)} passed, {len(faults)} failed")
sys.exit(1 if faults else 0)
