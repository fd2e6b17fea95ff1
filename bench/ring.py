"""Writes a ring of N vertices with chords as a graph file: each vertex has a random value and is joined both ways, by edges of
value 1, to the next one and to one at random. So there are 4 N edges. The same N gives the same file."""
import random
import sys


def ring(count, out):
    random.seed(1)
    for vertex in range(count):
        out.write(f"v {vertex} {random.randrange(1 << 40)}\n")
    for vertex in range(count):
        chord = random.randrange(count)
        while chord == vertex:
            chord = random.randrange(count)
        for other in ((vertex + 1) % count, chord):
            out.write(f"e {vertex} {other} 1\ne {other} {vertex} 1\n")


if __name__ == "__main__":
    ring(int(sys.argv[1]), sys.stdout)
