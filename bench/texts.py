"""Texts of an exact length for the benchmark.

    texts.py nothing 0 FILE        nothing
    texts.py script LENGTH FILE    a script that is run: one lane with transactions of four puts on a map of cells
    texts.py wrong LENGTH FILE     the same, whose last line is no line of a script
    texts.py turns LENGTH FILE     a script with as many turns in one line
    texts.py savepoints LENGTH FILE    a script whose transactions set savepoints and roll back to them
    texts.py image LENGTH FILE     an image of about this length: a line for each word, up to that of the last word that there is
    texts.py overlong LENGTH FILE  the same, with a line behind its end
"""

import sys

# What a region's first words say: format 2, force, cells, buckets, blocks, structures, partitions.
FORMAT = 0x52574E4400000002
CELLS, BUCKETS = 16, 1024
HEAP = 32 + BUCKETS * (8 + 8 * CELLS)
MAX_BLOCKS = 65536


def nothing(_length):
    return b""


def script(length):
    """Transactions up to the length, and a comment that fills it. A long value in each put, so that its line has 30 bytes."""
    head = b"region force 4 16\nlog simple\nmap cells\nlane\n"
    parts = [head]
    size = len(head)
    number = 0
    while True:
        puts = b"".join(
            b"put 0 %d %d\n" % ((number + i) % 12, 2**64 - 1 - number * 4 - i) for i in range(4)
        )
        transaction = b"begin 0\n" + puts + b"commit\n"
        if size + len(transaction) + 2 > length:
            break
        parts.append(transaction)
        size += len(transaction)
        number += 1
    # the comment comes before the first transaction, so that the last line is a commit
    parts.insert(1, b"#" + b"-" * (length - size - 2) + b"\n")
    return b"".join(parts)


def wrong(length):
    """The last commit is misspelled."""
    return script(length)[: -len(b"commit\n")] + b"comnit\n"


HEAD = b"region force 4 16\nlog simple\nmap cells\n"


def turns(length):
    """Turns of lane 1 in one line, and blanks that fill it."""
    room = length - len(HEAD) - len(b"turns\n")
    count = min(room // 2 - 1, 900_000)
    text = HEAD + b"turns" + b" 1" * count
    return text + b" " * (length - len(text) - 1) + b"\n"


def savepoints(length):
    """In each transaction 127 savepoints, and then a roll back to each, the last one first."""
    commands = b"savepoint\n" * 127 + b"".join(b"rollback %d\n" % i for i in range(126, -1, -1))
    transaction = b"begin 0\n" + commands + b"commit\n"
    count = (length - len(HEAD) - len(b"lane\n") - 2) // len(transaction)
    text = HEAD + b"lane\n" + transaction * count
    return text + b"#" + b"-" * (length - len(text) - 2) + b"\n"


def image(length):
    """A fresh region of the greatest size, with a value in each data word. Each word has its line, up to the length."""
    header = {0: FORMAT, 1: 1, 2: CELLS, 3: BUCKETS, 4: MAX_BLOCKS, 5: 1, 6: 1, 13: 1, HEAP: 1}
    size = HEAP + 16 * MAX_BLOCKS
    lines = [b"image %d\n" % size, b"map cells\n"]
    room = length - sum(map(len, lines)) - len(b"end\n")
    for a in range(size):
        is_data = a > HEAP and (a - HEAP) % 16 != 0
        line = b"%d %016x\n" % (a, a * a if is_data else header.get(a, 0))
        if len(line) > room:
            break
        lines.append(line)
        room -= len(line)
    return b"".join(lines + [b"end\n"])


def overlong(length):
    """The longest image, and behind its end one line more, so that the text has this length."""
    text = image(length)
    return text + b"-" * (length - len(text) - 1) + b"\n"


KINDS = {
    "nothing": nothing,
    "script": script,
    "wrong": wrong,
    "turns": turns,
    "savepoints": savepoints,
    "image": image,
    "overlong": overlong,
}


def main():
    kind, length, file = sys.argv[1:]
    with open(file, "wb") as out:
        out.write(KINDS[kind](int(length)))


main()
