#!/usr/bin/env python3
"""links.py FOLDER ..: each link of each document (*.md) below a folder leads somewhere in it: to a file or folder that
is there and, behind a '#', to a heading of a document. Links to other hosts are not followed. It prints those that do
not, and how many there are; status 1 where there is one, or no link at all.
"""
import os
import re
import sys
import urllib.parse

LEFT_OUT = {".git", ".prove", "out", "__pycache__"}
FENCE = re.compile(r"^(```|~~~)")
HEADING = re.compile(r"^#{1,6}\s+(.*?)\s*#*\s*$")
# [text](target), ![text](target), [text](target "title"); the text may go on in the next line
LINK = re.compile(r"\]\(\s*<?([^)\s>]+)>?(?:\s+\"[^\"]*\")?\s*\)")
ELSEWHERE = re.compile(r"^[a-z][a-z0-9+.-]*:|^//")


def documents(top):
    """The documents below a folder."""
    for at, folders, names in os.walk(top):
        folders[:] = sorted(it for it in folders if it not in LEFT_OUT)
        yield from (os.path.join(at, it) for it in sorted(names) if it.endswith(".md"))


def prose(path):
    """The lines of a document, those of code blank, and code within a line left out."""
    in_fence, after_blank, in_code = False, True, False
    with open(path, encoding="utf-8") as it:
        for line in it:
            if FENCE.match(line):
                in_fence = not in_fence
                line = ""
            # a block of code begins behind a blank line, four spaces in; those of a list are no such block here
            in_code = line.startswith("    ") and (in_code or after_blank)
            after_blank = not line.strip()
            yield "" if in_fence or in_code else re.sub(r"`[^`]*`", "``", line.rstrip("\n"))


def anchors(path):
    """What a '#' may name in a document: its headings, in small letters, with hyphens for spaces."""
    found = {}
    with open(path, encoding="utf-8") as it:
        for line in it:
            heading = HEADING.match(line)
            if heading:
                text = re.sub(r"\[([^]]*)\]\([^)]*\)", r"\1", heading[1]).lower()
                slug = re.sub(r"[^\w\- ]", "", text).replace(" ", "-")
                found[slug] = found.get(slug, -1) + 1
    return {slug if not n else f"{slug}-{n}" for slug, most in found.items() for n in range(most + 1)}


def fault(top, path, target):
    """What is wrong with a link; or nothing."""
    name, _, anchor = urllib.parse.unquote(target).partition("#")
    where = os.path.normpath(os.path.join(os.path.dirname(path), name)) if name else path
    if os.path.relpath(where, top).startswith(".."):
        return "leads out of the folder"
    if not os.path.exists(where):
        return "there is no such file"
    if anchor and where.endswith(".md") and anchor not in anchors(where):
        return "there is no such heading"
    return ""


def look(top):
    """How many links the documents below a folder have, and how many of them lead nowhere, which are told."""
    count = lost = 0
    for path in documents(top):
        text = "\n".join(prose(path))
        for link in LINK.finditer(text):
            if ELSEWHERE.match(link[1]):
                continue
            count += 1
            why = fault(top, path, link[1])
            if why:
                lost += 1
                print(f"{os.path.relpath(path, top)}:{text.count(chr(10), 0, link.start()) + 1}: {link[1]}: {why}")
    print(f"{top}: {count} links, {lost} lead nowhere")
    return lost if count else 1


def main():
    if not sys.argv[1:] or any(it.startswith("-") for it in sys.argv[1:]):
        print(__doc__.strip())
        return 2
    return int(sum([look(os.path.abspath(it)) for it in sys.argv[1:]]) > 0)


if __name__ == "__main__":
    sys.exit(main())
