"""Runs bench_bank's rows, in turn where two builds are given, and prints nanoseconds an event. Called by bank.sh."""
import math
import os
import subprocess
import sys

# name: work, cycles, clients, copies, ways, sets, registers, bytes of a block, blocks, copies held
ROWS = {
    'misses': ('misses', 3000, 16, 64, 4, 16, 8, 8, 4096, 0),
    'misses, 64 bytes': ('misses', 3000, 16, 64, 4, 16, 8, 64, 4096, 0),
    'misses, forgotten': ('forgetting', 3000, 16, 64, 4, 16, 8, 8, 4096, 0),
    'misses, the log grows': ('growing', 3000, 16, 64, 4, 16, 8, 8, 4096, 0),
    'loads, 1 copy': ('loads', 30000, 16, 64, 4, 16, 8, 8, 4096, 1),
    'loads, 16 copies': ('loads', 30000, 16, 64, 4, 16, 8, 64, 4096, 16),
    'loads, 64 copies': ('loads', 30000, 16, 64, 4, 16, 8, 64, 4096, 64),
    'loads, 16, forgotten': ('loads-forgotten', 30000, 16, 64, 4, 16, 8, 64, 4096, 16),
    'loads and stores, 16': ('mixed', 30000, 16, 64, 4, 16, 8, 64, 4096, 16),
    'stream, 64 bytes': ('stream', 3000, 16, 64, 4, 16, 8, 64, 4096, 0),
    'ping-pong': ('ping-pong', 3000, 16, 64, 4, 16, 8, 8, 4096, 0),
    'sharers and a taker': ('share', 300, 16, 64, 4, 16, 8, 8, 4096, 0),
}
GROWTH = {
    'misses, 1 client': ('misses', 3000, 1, 64, 4, 16, 8, 8, 4096, 0),
    'misses, 8 clients': ('misses', 3000, 8, 64, 4, 16, 8, 8, 4096, 0),
    'misses, 1 copy': ('misses', 3000, 16, 1, 4, 16, 8, 8, 4096, 0),
    'misses, 256 blocks': ('misses', 3000, 16, 64, 4, 16, 8, 8, 256, 0),
    'misses, 65,536 blocks': ('misses', 3000, 16, 64, 4, 16, 8, 8, 65536, 0),
    'misses, 8 ways, 1 set': ('misses', 3000, 16, 64, 8, 1, 8, 8, 4096, 0),
    'misses, 1 register': ('misses', 3000, 16, 64, 4, 16, 1, 8, 4096, 0),
}


def rounds_of(program, row, rounds):
    """The nanoseconds an event of each round, and what was done in it."""
    words = [program, *map(str, row), str(rounds)]
    lines = subprocess.run(words, capture_output=True, text=True, check=True).stdout.splitlines()
    times = [float(line.split()[1]) for line in lines]
    did = {(line.split()[3], line.split()[-1]) for line in lines}
    return times, did


def measured(programs, row, rounds):
    """The least time of each program, run in turn."""
    best, done = [math.inf for _ in programs], [set() for _ in programs]
    for turn in range(4):
        for number in range(len(programs)) if turn % 2 == 0 else reversed(range(len(programs))):
            times, did = rounds_of(programs[number], row, max(1, rounds // 4))
            best[number] = min(best[number], *times)
            done[number] |= did
    if any(did != done[0] for did in done):
        sys.exit(f'the programs did not do the same: {done}')
    return best


def table(programs, rows, rounds):
    ratios = []
    for name, row in rows.items():
        best = measured(programs, row, rounds)
        line = f'{name:24}' + ''.join(f'{time:>10.1f}' for time in best)
        if len(best) == 2:
            ratios.append(best[0] / best[1])
            line += f'{ratios[-1]:>8.2f}'
        print(line, flush=True)
    if ratios:
        mean = math.exp(sum(map(math.log, ratios)) / len(ratios))
        print(f'geometric mean of A/B: {mean:.2f}')


def main():
    programs = sys.argv[1:]
    rounds = int(os.environ.get('ROUNDS', '20'))
    for letter, program in zip('AB', programs):
        print(f'{letter}: {program}')
    print(f'nanoseconds an event, least of {rounds} rounds; load average {os.getloadavg()[0]:.1f}')
    table(programs, ROWS, rounds)
    print('growth')
    table(programs, GROWTH, rounds)


main()
