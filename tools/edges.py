#!/usr/bin/env python3
"""Documents at the edges of what the program takes, each with words, what it has to answer, and how much it may cost.

    tools/edges.py NUMBER      prints the document of this number
"""

import sys

COMMENT = "#" * 79 + "\n"
VERSION_3 = "version = 3\n"
SMALL = "bits = 1\n[[node]]\nsteps = []\n"
REPORT = "sja version 3 bits 0 end turns\n"
KEY = "sja: plan fault 4 Key\n"
BAD_TOML = "sja: plan fault 3 Toml\n"
TOML = BAD_TOML + "line 510962, column 1: no TOML: a key is expected here\n"
UNKNOWN_0 = KEY + 'line 2: no key is called "0"\n'
UNKNOWN_N = KEY + 'line 2: no key is called "N"\n'
UNKNOWN = KEY + 'line 2: no key is called "N0"\n'
UNTOLD = KEY + "a key is unknown, missing or of the wrong kind\n"
MISSING = KEY + 'the key "bits" is missing\n'
TABLE = KEY + "line 2: bits is a whole number, and here it is a table\n"
CROWDED = "sja: plan fault 7 NodeCount\n"
NODE_0 = 'line {}: node 0 has the key "a"'


class Edge:
    """A document, by the function that makes it, the words that it is given to, and the limits of the run: its status,
    how what it says begins, seconds of a processor, and bytes of memory for each of the document, beside 20 MB."""

    def __init__(self, name, words, document, status, begins, seconds, memory):
        self.name = name
        self.words = words
        self.document = document
        self.status = status
        self.begins = begins.encode()
        self.seconds = seconds
        self.memory = memory


def keys(count):
    """So many keys that no plan has."""
    return VERSION_3 + "".join(f"N{number}=1\n" for number in range(count))


def filled(line):
    """A document of 15 MB with the line that each number gives, counted from 0."""
    lines = [VERSION_3]
    size = 0
    while size < 15 << 20:
        lines.append(line(len(lines) - 1))
        size += len(lines[-1])
    return "".join(lines)


def deep(alike=1):
    """A document of 15 MB of keys with 12 parts, of which so many begin alike."""
    return filled(lambda n: f"{n // alike}.a.a.a.a.a.a.a.a.a.a.{n % alike}=1\n")


def below(key):
    """A document of 15 MB of keys with 9 parts below a key of a plan."""
    return filled(lambda n: f"{key}.a{n}.a.a.a.a.a.a.a=1\n")


def nodes(line):
    """A document of 15 MB of nodes with such a line each."""
    return filled(lambda n: f"[[node]]\n{line}\n")


def listed(item, key="N"):
    """A document of 15 MB with a list of such items behind this, of which the last is a key."""
    return f"{VERSION_3}{key}=[{item * (15000000 // len(item))}]\n"


def headed(line):
    """The same behind the number of bits."""
    return filled(lambda n: ("" if n else "bits=1\n") + f"[[node]]\n{line}\n")


def inline(node):
    """A document of 15 MB with a list of such nodes."""
    return f"{VERSION_3}bits=1\nnode=[{node * (15000000 // len(node))}]\n"


def refused(count):
    """A plan of eight nodes whose drivers are refused so many steps each."""
    turns = "".join(f'"node {node} {count}",' for node in range(8))
    steps = '"load 000000",' * count
    return f"{VERSION_3}bits = 1\nturns = [{turns}]\n" + f"[[node]]\nsteps = [{steps}]\n" * 8


def late(count):
    """A plan with so many strikes that come too late."""
    faults = '"0 9999",' * count
    return f"{VERSION_3}bits = 1\nfaults = [{faults}]\n[[node]]\nsteps = []\n"


def commented(before, behind):
    """A plan of version 3 with so many comment lines before that line, and so many behind the plan."""
    return COMMENT * before + VERSION_3 + SMALL + COMMENT * behind


def drawn(bits):
    """A plan of eight nodes that rest for so many bits."""
    return f'{VERSION_3}bits = {bits}\nturns = ["bus {bits}"]\n' + "[[node]]\nsteps = []\n" * 8


def polled(count, behind):
    """A plan of a node with so many steps, each with its comment, and with these lines behind it."""
    steps = "".join(f'  "read SR", # poll {it}\n' for it in range(count))
    return f"{VERSION_3}bits = 1\n[[node]]\nsteps = [\n{steps}{behind}"


# a driver that waits for a message that never comes, beside one that only starts
WAITING = f'{VERSION_3}bits = 500\n[[node]]\nsteps = ["start", "await 1"]\n[[node]]\nsteps = ["start"]\n'


EDGES = [
    Edge("40,000 unknown keys", ["check"], lambda: keys(40000), 1, UNKNOWN, 1, 20),
    Edge("160,000 unknown keys", ["check"], lambda: keys(160000), 1, UNKNOWN, 2, 20),
    Edge("15 MB of keys with 12 parts", ["run"], deep, 1, UNKNOWN_0, 3, 20),
    Edge("the same, two of each begin alike", ["run"], lambda: deep(2), 1, UNKNOWN_0, 4, 20),
    Edge("the same, with a line that is no TOML at its end", ["run"], lambda: deep() + "!\n", 1, TOML, 5, 20),
    Edge("15 MB of keys with 9 parts below bits", ["run"], lambda: below("bits"), 1, TABLE, 4, 20),
    Edge("15 MB of nodes with a key of 9 parts", ["run"], lambda: nodes("a.a.a.a.a.a.a.a.a=1"), 1, MISSING, 4, 20),
    Edge("15 MB of nodes with a header of 9 parts", ["run"], lambda: nodes("[node.a.a.a.a.a.a.a.a]"), 1, MISSING, 4, 20),
    Edge("15 MB of inline tables", ["run"], lambda: listed("{a.a=1,a.b=1},"), 1, UNKNOWN_N, 4, 20),
    Edge("the same at turns", ["run"], lambda: listed("{a.a=1,a.b=1},", "turns"), 1, UNTOLD, 4, 20),
    Edge("15 MB of inline tables, one in another", ["run"], lambda: listed("{a={a={a={a=1}}}},"), 1, UNKNOWN_N, 4, 20),
    Edge("15 MB of lists, one in another", ["run"], lambda: listed("[[[[[[[[]]]]]]]],", "turns"), 1, UNTOLD, 4, 20),
    Edge("15 MB of steps in lists", ["run"], lambda: listed("[1],", "[[node]]\nsteps"), 1, MISSING, 4, 20),
    Edge("15 MB of nodes in a list, of another key", ["run"], lambda: inline("{a=1},"), 1, KEY, 2, 20),
    Edge("the same, explained", ["check"], lambda: inline("{a=1},"), 1, KEY + NODE_0.format(3), 4, 20),
    Edge("15 MB of nodes with another key, explained", ["check"], lambda: headed("a.a.a.a=1"), 1,
         KEY + NODE_0.format(4), 4, 20),
    Edge("15 MB of keys with 9 parts below bits, explained", ["check"], lambda: below("bits"), 1, KEY + "line 2: bits",
         4, 20),
    Edge("15 MB of nodes with a key twice, explained", ["check"], lambda: headed("a=1\na=1"), 1, BAD_TOML + "line 5, ", 4,
         20),
    Edge("15 MB of too many nodes", ["run"], lambda: headed("steps=[]"), 1, CROWDED, 5, 64),
    Edge("the same, explained", ["check"], lambda: headed("steps=[]"), 1, CROWDED + "line 19: the", 5, 64),
    Edge("15 MB of too many nodes in a list", ["run"], lambda: inline("{steps=[]},"), 1, CROWDED, 9, 110),
    Edge("a wrong key behind 40,000 steps", ["run"], lambda: polled(40000, ']\n[[node]]\nstepz = ["start"]\n'), 1,
         KEY + 'line 40007: node 1 has the key "stepz"', 1, 20),
    Edge("a number behind 40,000 steps", ["check"], lambda: polled(40000, "  7\n]\n"), 1,
         KEY + 'line 4: node 0: steps is a list of texts, and item 40001 of it is a whole number\n', 1, 20),
    Edge("15 MB of texts and numbers", ["run"], lambda: listed('"a","a",1,', "turns"), 1, KEY, 4, 20),
    Edge("15 MB of keys with one part", ["run"], lambda: filled(lambda n: f"N{n}=1\n"), 1, UNKNOWN, 5, 20),
    Edge("15 MB of headers", ["run"], lambda: filled(lambda n: f"[N{n}]\n"), 1, UNKNOWN, 5, 20),
    Edge("160,000 refused steps", ["check"], lambda: refused(20000), 0, "line 4: node 0 is never started", 3, 64),
    Edge("60,000 late strikes", ["check"], lambda: late(60000), 0, "line 4: node 0 is never started", 2, 64),
    Edge("64,000 bytes of comments before version 3", ["run"], lambda: commented(800, 820), 0, REPORT, 1, 4),
    Edge("the same and 16 MB behind it", ["run"], lambda: commented(800, 208000), 0, REPORT, 1, 4),
    Edge("16 MB behind it alone", ["run"], lambda: commented(0, 208000), 0, REPORT, 1, 4),
    Edge("a key before version 3", ["check"], lambda: "turns = []\n" + commented(0, 820), 1, "sja: plan fault 1 TooLong\n"
         "the plan has more than 65536 bytes, the most that a plan may have\n"
         'one of version 3 may have 16777216 where "version = 3" stands before its other keys, to the byte\n', 1, 4),
    Edge("a name with escapes", ["run", "no\x1b[31m\tfile\x7f\u009b1m"], lambda: "", 1,
         "sja: can't read no\\u001b[31m\\u0009file\\u007f\\u009b1m\n", 1, 1),
    Edge("a drawing of too many levels", ["picture", "--svg"], lambda: drawn(2000000), 1,
         "sja: picture fault 1 TooMany: 16000000 levels, which --yes draws\n", 1, 64),
    Edge("a wait in threads that never comes", ["run", "--threads"], lambda: WAITING, 0,
         "sja version 3 bits 11 end rest\n", 0.1, 64),
]

if __name__ == "__main__":
    sys.stdout.write(EDGES[int(sys.argv[1])].document())
