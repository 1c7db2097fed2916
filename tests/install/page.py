#!/usr/bin/env python3
"""What a page shows, compared with what a program answers.

page.py has PAGE                standard input stands in the page, as lines of one block; `..` in the page is any text
page.py code PAGE FROM TO       prints the blocks between the first line with the text FROM and the next one with TO
page.py steps PAGE SCRIPT       the page's table of steps and answers: standard input, the trace of the script, has them
page.py plants PAGE PLANTED BENCH   the page's table of plants, in the order of the file PLANTED: what BENCH tells of
                                    each, but for the last column

A block is lines that begin with four spaces. Status 1 where the page is otherwise, which is told.
"""
import re
import subprocess
import sys
import tomllib

SUMMARY = re.compile(r"(\d+) faults(?:, the first at (\d+))?; (\d+) by the scoreboard(?:, the first at (\d+))?;")
FAULT = re.compile(r"^cycle (\d+): client \d+(?:, block \d+)?: ([a-z ]+):", re.M)


def lines_of(path):
    with open(path, encoding="utf-8") as it:
        return it.read().splitlines()


def has(page):
    said = sys.stdin.read().splitlines()
    shown = [line[4:] if line.startswith("    ") else None for line in lines_of(page)]

    def fits(line, text):
        return line is not None and re.fullmatch(re.escape(line).replace(r"\.\.", ".*"), text)

    for at in range(len(shown) - len(said) + 1):
        if said and all(fits(line, text) for line, text in zip(shown[at:], said)):
            return 0
    print(f"{page} does not show these lines as a block:", *said, sep="\n    ")
    return 1


def code(page, begin, end):
    lines = lines_of(page)
    first = next(i for i, line in enumerate(lines) if begin in line)
    last = next(i for i, line in enumerate(lines) if i > first and end in line)
    for line in lines[first:last]:
        if line.startswith("    "):
            print(line[4:])
    return 0


def rows(page, cells):
    """The rows of the page's tables that have so many cells."""
    for line in lines_of(page):
        if line.startswith("|"):
            found = [it.strip() for it in line.strip().strip("|").split(" | ")]
            if len(found) == cells:
                yield found


def steps(page, script):
    with open(script, "rb") as it:
        asked = tomllib.load(it)["steps"]
    answers = [line.split(" ", 1)[1] for line in sys.stdin.read().splitlines()[:len(asked)]]
    shown = [(a.strip("`"), b.strip("`")) for a, b, _ in rows(page, 3) if a.strip("`") in asked]
    played = list(zip(asked, answers))
    if shown and any(played[at:at + len(shown)] == shown for at in range(len(played))):
        return 0
    print(f"{page}: these rows are not so in the trace of {script}:", *shown, sep="\n    ")
    return 1


def told(bench, plant, **words):
    """Of a run with a plant: the first fault's cycle and name, and the scoreboard's first cycle; or None."""
    command = [bench, "quiet=1", f"plant={plant}", *(f"{k}={v}" for k, v in words.items())]
    said = subprocess.run(command, stdout=subprocess.PIPE, text=True, check=False).stdout
    faults = [(int(cycle), name) for cycle, name in FAULT.findall(said) if name != "scoreboard"]
    end = SUMMARY.search(said)
    return faults[0] if faults else None, end and end[4] and int(end[4])


def cell(fault, wrong):
    if fault and (wrong is None or fault[0] <= wrong):
        return f"`{fault[1]}`, {fault[0]:,}"
    return f"scoreboard, {wrong:,}" if wrong else "nothing"


def plants(page, planted, bench):
    shown = [it for it in rows(page, 5) if re.fullmatch(r"(`[a-z ]+`|scoreboard), [\d,]+", it[1])]
    names = [line.split()[0] for line in lines_of(planted)]
    wrong = 0
    for row, plant in zip(shown, names):
        alone = told(bench, plant, plain=1)[1]
        got = [cell(*told(bench, plant)), cell(*told(bench, plant, taps=0)), f"{alone:,}" if alone else "never"]
        if got != row[1:4]:
            wrong += 1
            print(f"{plant}: the page has {row[1:4]}, the bench tells {got}")
    if not shown:
        print(f"{page} has no table of plants")
    return int(wrong > 0 or not shown)


if __name__ == "__main__":
    commands = {"has": (has, 1), "code": (code, 3), "steps": (steps, 2), "plants": (plants, 3)}
    if len(sys.argv) < 2 or sys.argv[1] not in commands or len(sys.argv) != 2 + commands[sys.argv[1]][1]:
        print(__doc__.strip())
        sys.exit(2)
    sys.exit(commands[sys.argv[1]][0](*sys.argv[2:]))
