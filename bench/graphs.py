"""Writes documents with random graphs, to measure with. A graph of E edges has E/4 vertices, no loops, and no two edges with
the same ends; its watches are the patterns `nothing`, `edge`, `triangle` and `path`. The size `large` is a graph of 500,000
vertices and 500,000 edges, with the watches `nothing` and `edge`. The same size and seed give the same bytes.
Usage: python3 bench/graphs.py SIZE.. [--seed N] [--folder FOLDER]
Without a folder there is one SIZE, and its document goes to standard output; else each goes to FOLDER/SIZE.json."""

import argparse
import json
import pathlib
import random
import sys

SCHEMA = {"objects": ["V", "E"], "arrows": [["src", "E", "V"], ["tgt", "E", "V"]]}

# Rows are the sources and the targets of the edges. The pattern without parts has one match, the empty tuple.
PATTERNS = {
    "nothing": {"parts": [0, 0], "rows": [[], []]},
    "edge": {"parts": [2, 1], "rows": [[0], [1]]},
    "triangle": {"parts": [3, 3], "rows": [[0, 1, 2], [1, 2, 0]]},
    "path": {"parts": [4, 3], "rows": [[0, 1, 2], [1, 2, 3]]},
}

LARGE = "large"
MOST_PARTS = 1_000_000
MOST_BYTES = 67_108_864


def random_edges(vertices, count, seed):
    """So many different pairs of two different vertices, in the order in which they are drawn."""
    chance = random.Random(seed)
    drawn = {}
    while len(drawn) < count:
        source, target = chance.randrange(vertices), chance.randrange(vertices)
        if source != target:
            drawn[source, target] = None
    return list(drawn)


def document(vertices, count, watches, seed):
    """The text of the document with a random graph and the patterns of these names."""
    edges = random_edges(vertices, count, seed)
    rows = [[source for source, _ in edges], [target for _, target in edges]]
    value = {
        "format": 1,
        "schema": SCHEMA,
        "instance": {"parts": [vertices, count], "rows": rows},
        "watches": [{"name": name, "pattern": PATTERNS[name]} for name in watches],
    }
    return json.dumps(value, separators=(",", ":")) + "\n"


def shape_of(size):
    """The numbers of vertices and of edges, and the names of the watches, of the document of a size."""
    if size == LARGE:
        return 500_000, 500_000, ["nothing", "edge"]
    return size // 4, size, list(PATTERNS)


def sized_document(size, seed):
    """The text of the document of a size."""
    text = document(*shape_of(size), seed)
    if len(text) > MOST_BYTES:
        sys.exit(f"the document of the size {size} has more than {MOST_BYTES} bytes")
    return text


def read_size(word):
    """A size from its word. A graph of fewer than 20 edges would have fewer pairs of different vertices than edges."""
    if word == LARGE:
        return word
    size = int(word)
    if not 20 <= size <= MOST_PARTS:
        raise argparse.ArgumentTypeError(f"a size is {LARGE}, or 20 to {MOST_PARTS} edges")
    return size


def main():
    parser = argparse.ArgumentParser(description="Writes documents with random graphs.")
    parser.add_argument("sizes", metavar="SIZE", nargs="+", type=read_size, help=f"a number of edges, or {LARGE}")
    parser.add_argument("--seed", type=int, default=1)
    parser.add_argument("--folder", type=pathlib.Path)
    words = parser.parse_args()
    if words.folder:
        words.folder.mkdir(parents=True, exist_ok=True)
        for size in words.sizes:
            (words.folder / f"{size}.json").write_text(sized_document(size, words.seed))
    elif len(words.sizes) == 1:
        sys.stdout.write(sized_document(words.sizes[0], words.seed))
    else:
        parser.error("several sizes want a folder")


if __name__ == "__main__":
    main()
