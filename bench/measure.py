"""Runs programs on generated scripts, in turn, and prints accesses a second, times and pages. Called by accesses.sh."""
import math
import os
import statistics
import subprocess
import sys
import tempfile
import time

import generate

# How many commands all clients of a kind have together.
COMMANDS = {'hits': 32768, 'readers': 32768, 'contention': 4096, 'one-block': 4096, 'mixed': 8192, 'streams': 8192, 'idle': 0}


def run(program, path):
    """How long one run takes, how many pages it touches for the first time, and its fault line."""
    start = time.perf_counter()
    child = subprocess.Popen([program, 'run', path], stdin=subprocess.DEVNULL, stdout=subprocess.DEVNULL, stderr=subprocess.PIPE)
    fault = child.stderr.read().decode().strip()
    _, status, usage = os.wait4(child.pid, 0)
    child.returncode = os.waitstatus_to_exitcode(status)
    return time.perf_counter() - start, usage.ru_minflt, fault


def measured(programs, text, repeats):
    """The median time and pages of each program on a script, run in turn, and the fault lines."""
    with tempfile.NamedTemporaryFile('w', suffix='.toml') as file:
        file.write(text)
        file.flush()
        times, pages, faults = [[] for _ in programs], [[] for _ in programs], set()
        for repeat in range(repeats):
            order = range(len(programs)) if repeat % 2 == 0 else reversed(range(len(programs)))
            for number in order:
                took, touched, fault = run(programs[number], file.name)
                times[number].append(took)
                pages[number].append(touched)
                if fault:
                    faults.add(f'{"AB"[number]}: {fault}')
    return [statistics.median(each) for each in times], [statistics.median(each) for each in pages], faults


def main():
    repeats = int(os.environ.get('REPEATS', '5'))
    programs = sys.argv[1:]
    kinds = os.environ.get('KINDS', ' '.join(COMMANDS)).split()
    shapes = [(1, 1), (2, 1), (4, 1), (4, 4), (8, 4), (16, 8)]
    if 'SHAPES' in os.environ:
        shapes = [tuple(int(part) for part in shape.split('x')) for shape in os.environ['SHAPES'].split()]
    for letter, program in zip('AB', programs):
        print(f'{letter}: {program}')
    print(f'medians of {repeats} runs, reading and printing included; load average {os.getloadavg()[0]:.1f}')
    heads = ''.join(f'{letter + " accesses/s":>16}{letter + " ms":>10}{letter + " pages":>9}' for letter, _ in zip('AB', programs))
    print(f'{"kind":12}{"clients":>8}{"banks":>6}{"accesses":>10}{heads}' + (f'{"A/B":>8}' if len(programs) == 2 else ''))
    ratios = []
    for kind in kinds:
        for clients, banks in shapes:
            commands = 0 if kind == 'idle' else min(4096, max(64, COMMANDS[kind] // clients))
            times, pages, faults = measured(programs, generate.script(kind, clients, banks, commands), repeats)
            accesses = clients * commands
            line = f'{kind:12}{clients:>8}{banks:>6}{accesses:>10}' + ''.join(
                f'{accesses / took:>16.0f}{took * 1e3:>10.2f}{touched:>9.0f}' for took, touched in zip(times, pages))
            if len(times) == 2:
                ratios.append(times[1] / times[0])
                line += f'{ratios[-1]:>8.2f}'
            print(line + ''.join(f'  {fault}' for fault in sorted(faults)), flush=True)
    if ratios:
        print(f'geometric mean of A/B: {math.exp(sum(map(math.log, ratios)) / len(ratios)):.3f} (above 1: A is faster)')


main()
