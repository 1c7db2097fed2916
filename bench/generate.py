#!/usr/bin/env python3
"""generate.py KIND CLIENTS BANKS [COMMANDS] [MEMORY_BLOCKS] [SEED]: prints a script for `tlcache run`.

Kinds:
  hits        each client loads and stores in blocks of its own, which all fit
  readers     all clients load from the same few blocks
  contention  all clients store into the same four blocks
  one-block   all clients store into one block
  mixed       loads and stores all over, few blocks often, more of them than the ways hold
  streams     each client walks over blocks of its own, more of them than the ways hold
  idle        no command: what the making and the end of a run take
"""
import random
import sys

BLOCK_BYTES = 64
KINDS = ['hits', 'readers', 'contention', 'one-block', 'mixed', 'streams', 'idle']


def script(kind, clients, banks, commands=1024, memory_blocks=4096, seed=1):
    rng = random.Random(f'{kind} {clients} {banks} {commands} {seed}')
    sets, ways = (16, 4) if kind in ('mixed', 'streams') else (64, 8)

    def load(block):
        return f'load 0x{block * BLOCK_BYTES + 8 * rng.randrange(BLOCK_BYTES // 8):x} 8'

    def store(block):
        return f'store 0x{block * BLOCK_BYTES + 8 * rng.randrange(BLOCK_BYTES // 8):x} {rng.getrandbits(64):016x}'

    def command(client, index):
        if kind == 'hits':
            own = max(1, min(16, memory_blocks // clients))
            block = (client * own + rng.randrange(own)) % memory_blocks
            return load(block) if rng.random() < 0.8 else store(block)
        if kind == 'readers':
            return load(rng.randrange(min(16, memory_blocks)))
        if kind == 'contention':
            return store(rng.randrange(min(4, memory_blocks)))
        if kind == 'one-block':
            return store(0)
        if kind == 'mixed':
            block = int(memory_blocks ** rng.random()) - 1
            return load(block) if rng.random() < 0.8 else store(block)
        block = (client * (memory_blocks // clients) + index) % memory_blocks
        return load(block) if index % 2 else store(block)

    lines = ['version = 2', f'clients = {clients}', f'banks = {banks}', f'block_bytes = {BLOCK_BYTES}', f'sets = {sets}',
             f'ways = {ways}', 'registers = 8', 'copies = 64', f'memory_blocks = {memory_blocks}', 'turns = 1000000', 'commands = [']
    for client in range(clients):
        count = 0 if kind == 'idle' else commands
        lines.append('    [' + ', '.join(f'"{command(client, index)}"' for index in range(count)) + '],')
    return '\n'.join(lines + [']', ''])


if __name__ == '__main__':
    if len(sys.argv) < 4 or sys.argv[1] not in KINDS:
        sys.exit(__doc__)
    sys.stdout.write(script(sys.argv[1], *(int(word) for word in sys.argv[2:])))
