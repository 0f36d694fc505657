#!/usr/bin/env python3
"""Writes a Promela model of a sheet under one channel, from the paper's step rules. usage: model.py CODE < SHEET

The sheet is one sheet of M, P and B rows, in the order `kind one two`. A message's phase is the whole state: 0 to be sent,
1 under way, 2 in its receiver's buffer, 3 consumed. One process takes any allowed step at a time, each in a d_step, so that
SPIN's states are the paper's and its partial order reduction, which leaves out orders of processes, is sound: there is one.
A stuck state is an invalid end state.
"""
import sys


def scenario(lines):
    """The messages' boards, and the events before each event."""
    messages, block_of, pairs, block, first = [], [], [], 0, 0
    for line in lines[2:]:
        kind, one, two = line.split()
        one, two = int(one), int(two)
        if kind == "M":
            messages.append((one, two))
            block_of.append(block)
        elif kind == "P":
            pairs.append((2 * first + one, 2 * first + two))
        elif kind == "B":
            block, first = block + 1, len(messages)
        else:
            sys.exit("model.py: a sheet with calls")
    events = range(2 * len(messages))
    before = [set() for _ in events]
    for x, y in pairs + [(2 * m, 2 * m + 1) for m in range(len(messages))]:
        before[y].add(x)
    board = [messages[x // 2][x % 2] for x in events]
    for x in events:
        before[x] |= {y for y in events if board[y] == board[x] and block_of[y // 2] < block_of[x // 2]}
    for k in events:
        for y in events:
            if k in before[y]:
                before[y] |= before[k]
    return messages, board, before


def guards(code, messages, board, before):
    """For each step: the message, its phase before it, and what must hold besides."""
    every = range(len(messages))
    eager = code not in (1, 3)

    def ready(x):
        earlier = [y for y in before[x] if board[y] == board[x]]
        return [f"p[{y // 2}] == 3" if y % 2 else f"p[{y // 2}] >= 1" for y in earlier]

    def empty(b):
        return [f"p[{k}] != 2" for k in every if eager and messages[k][1] == b]

    def none_under_way(those):
        return [f"p[{f}] != 1" for f in those]

    for m in every:
        source, target = messages[m]
        send, deliver = [], []
        if code in (2, 3):
            deliver = [f for f in every if f != m and messages[f][1] == target and 2 * f in before[2 * m]]
        if code == 4:
            send = [f for f in every if f != m and 2 * f in before[2 * m + 1]]
        if code == 5:
            send = deliver = [f for f in every if f != m]
        yield m, 0, ready(2 * m) + empty(source) + none_under_way(send)
        yield m, 1, empty(target) + none_under_way(deliver)
        yield m, 2, ready(2 * m + 1)


def main():
    messages, board, before = scenario(sys.stdin.read().splitlines())
    print(f"byte p[{len(messages)}];\nactive proctype boards() {{\n  do")
    for m, phase, conditions in guards(int(sys.argv[1]), messages, board, before):
        print(f"  :: d_step {{ {' && '.join([f'p[{m}] == {phase}'] + conditions)} -> p[{m}] = {phase + 1} }}")
    print(f"  :: {' && '.join(f'p[{m}] == 3' for m in range(len(messages)))} -> break\n  od\n}}")


main()
