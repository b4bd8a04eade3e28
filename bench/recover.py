"""Images with a log that has no more room than their recovery needs, for the benchmark.

    recover.py fresh BUCKETS BLOCKS FILE     a fresh region
    recover.py one BUCKETS BLOCKS FILE       one running transaction, whose updates take half of the log
    recover.py undone BUCKETS BLOCKS FILE    one running transaction that wants nothing but its end
    recover.py many BUCKETS BLOCKS FILE      as many running transactions as there is room for, an update each
    recover.py ended BUCKETS BLOCKS FILE     under no-force, committed transactions of one update each

Each bucket has 16 cells, and all of them are in the chain that have a record.
"""

import sys

FORMAT = 0x52574E4400000002
FORCE, NO_FORCE = 1, 2
CELLS = 16
BUCKET = 8 + 8 * CELLS
UPDATE, COMPENSATION, ROLLBACK, END = 1, 2, 3, 4


def heap_of(buckets):
    return 32 + buckets * BUCKET


def data_word(buckets, blocks, i):
    """Data word i of the blocks behind the root."""
    assert i < 15 * (blocks - 1)
    return heap_of(buckets) + 16 + 16 * (i // 15) + 1 + i % 15


def one(cells, word):
    """As many updates, then their compensations, a rollback record and an end fit into the log."""
    count = (cells - 2) // 2
    return [(1, UPDATE, word(i), 0, i + 1, i, 0) for i in range(count)]


def undone(cells, word):
    """The same behind the last compensation: only the end is missing."""
    updates = one(cells, word)
    back = [(1, COMPENSATION, a, after, before, link, 0) for _, _, a, before, after, link, _ in reversed(updates)]
    return updates + [(1, ROLLBACK, 0, 0, 0, 0, 0)] + back


def many(cells, word):
    """Each takes four cells in the end."""
    return [(t, UPDATE, word(t), 0, t, 0, 0) for t in range(1, cells // 4 + 1)]


def ended(cells, word):
    """Each takes two cells, and the checkpoint record one."""
    return [
        record
        for t in range(1, (cells - 1) // 2 + 1)
        for record in ((t, UPDATE, word(t), 0, t, 0, 0), (t, END, 0, 0, 0, 0, 1))
    ]


def fresh(_cells, _word):
    return []


LOGS = {"fresh": fresh, "one": one, "undone": undone, "many": many, "ended": ended}


def chained(words, count):
    """Puts so many buckets into the chain."""
    link, last = 8, 0
    for j in range(count):
        bucket = 32 + j * BUCKET
        words[link] = bucket
        words[bucket + 1] = last
        link = last = bucket
    words[9] = last


def image(kind, buckets, blocks):
    policy = NO_FORCE if kind == "ended" else FORCE
    heap = heap_of(buckets)
    words = {0: FORMAT, 1: policy, 2: CELLS, 3: buckets, 4: blocks, 5: 1, 6: 1, 13: 1, heap: 1}
    records = LOGS[kind](buckets * CELLS, lambda i: data_word(buckets, blocks, i))
    chained(words, -(-len(records) // CELLS))
    for i, record in enumerate(records):
        cell = 32 + i // CELLS * BUCKET + 8 + i % CELLS * 8
        for offset, value in enumerate((i + 1,) + record):
            words[cell + offset] = value
        if record[1] == UPDATE and kind in ("one", "many"):
            words[record[2]] = record[4]
    lines = ["image %d" % (heap + 16 * blocks), "map cells"]
    lines += ["%d %016x" % (a, words[a]) for a in sorted(words) if words[a] != 0]
    return "\n".join(lines + ["end", ""])


def main():
    kind, buckets, blocks, file = sys.argv[1:]
    with open(file, "w") as out:
        out.write(image(kind, int(buckets), int(blocks)))


main()
