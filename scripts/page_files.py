#!/usr/bin/env python3
"""page_files.py [--check]: writes the page's style and script, which lie in crates/tlchart_page/page, into the
constants of that crate.

The script is cut in two at a heading, so that no made file grows too long. With --check it writes nothing, and ends
with status 1 where a constant is not its file.
"""
import os
import sys

FOLDER = os.path.join(os.path.dirname(os.path.dirname(os.path.realpath(__file__))), "crates/tlchart_page")
# The script draws from here on; before it stands what the data says.
CUT = "// ---- The state beside the chart\n"
# A file of the page; which part of it, the file that is written, its constant, and what it is.
FILES = [
    ("page.css", 0, "style.rt", "STYLE", "style"),
    ("page.js", 0, "script.rt", "SCRIPT", "script, up to where it draws"),
    ("page.js", 1, "drawing.rt", "DRAWING", "script, from where it draws"),
]


def source(name, part, constant, word):
    with open(f"{FOLDER}/page/{name}", encoding="utf-8") as file:
        before, cut, after = file.read().partition(CUT)
    text = (before, cut + after)[part]
    if not text or '"##' in text or "</" in text:
        sys.exit(f'page_files.py: {name} has no part {part}, or "## or </ in it')
    return (
        f"//! The page's {word}: of page/{name}, as scripts/page_files.py writes it.\n\n/// The {word}.\n"
        f'pub(crate) const {constant}: &str = r##"{text}"##;\n'
    )


def main():
    status = 0
    for name, part, written, constant, word in FILES:
        path, text = f"{FOLDER}/src/{written}", source(name, part, constant, word)
        if sys.argv[1:] != ["--check"]:
            with open(path, "w", encoding="utf-8") as file:
                file.write(text)
            continue
        with open(path, encoding="utf-8") as file:
            if file.read() != text:
                print(f"crates/tlchart_page/src/{written} is not page/{name}: run scripts/page_files.py")
                status = 1
    return status


sys.exit(main())
