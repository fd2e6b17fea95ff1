"""A vertex during a call, with the host functions of docs/API.md and the inputs and outcomes of docs/MANUAL.md."""
import re
from dataclasses import dataclass, field
from module import I32, I64

LEAST, GREATEST = -(1 << 63), (1 << 63) - 1
# What each aggregator starts with.
STARTS = [0, 0, GREATEST, GREATEST, LEAST, LEAST, 0, 0]
# The lines of an input, with the least and the greatest number of each field.
ID, WORD, VALUE = (0, GREATEST), (0, (1 << 32) - 1), (LEAST, GREATEST)
LINES = {
    "id": [ID], "superstep": [WORD], "count": [WORD], "value": [VALUE], "message": [VALUE], "edge": [ID, VALUE],
    "aggregate": [(0, 7), VALUE],
}


class Trap(Exception):
    """An instruction traps (Core 1.0, 4.4)."""


class BadInput(Exception):
    """A text is no input. The argument is the number of its first bad line."""


@dataclass
class Vertex:
    """A vertex: what it sees, and what it does. Numbers are signed."""

    id: int = 0
    superstep: int = 0
    count: int = 1
    value: int = 0
    messages: list = field(default_factory=list)
    edges: list = field(default_factory=list)
    aggregated: list = field(default_factory=STARTS.copy)
    message: int = 0
    edge: tuple = (0, 0)
    is_active: bool = True
    sends: list = field(default_factory=list)
    gives: list = field(default_factory=list)

    def set_value(self, value):
        self.value = value

    def next_message(self):
        if not self.messages:
            return 0
        self.message, *self.messages = self.messages
        return 1

    def next_edge(self):
        if not self.edges:
            return 0
        self.edge, *self.edges = self.edges
        return 1

    def send(self, target, value):
        self.sends.append((target, value))

    def aggregate(self, number, value):
        if number >= len(STARTS):
            raise Trap
        self.gives.append((number, value))

    def read_aggregator(self, number):
        if number >= len(STARTS):
            raise Trap
        return self.aggregated[number]

    def vote_to_halt(self):
        self.is_active = False

    def lines(self, units):
        """Returns the lines of the outcome of a call that took these units."""
        return [
            f"value {self.value}", f"active {int(self.is_active)}", f"units {units}",
            *(f"send {target} {value}" for target, value in self.sends),
            *(f"give {number} {value}" for number, value in self.gives),
        ]


# The host functions: the types of their parameters and results, and what they do.
HOST = {
    "vertex_id": ([], [I64], lambda vertex: vertex.id),
    "superstep": ([], [I64], lambda vertex: vertex.superstep),
    "num_vertices": ([], [I64], lambda vertex: vertex.count),
    "get_value": ([], [I64], lambda vertex: vertex.value),
    "set_value": ([I64], [], Vertex.set_value),
    "next_message": ([], [I32], Vertex.next_message),
    "message_value": ([], [I64], lambda vertex: vertex.message),
    "next_edge": ([], [I32], Vertex.next_edge),
    "edge_target": ([], [I64], lambda vertex: vertex.edge[0]),
    "edge_value": ([], [I64], lambda vertex: vertex.edge[1]),
    "send": ([I64, I64], [], Vertex.send),
    "aggregate": ([I32, I64], [], Vertex.aggregate),
    "aggregated": ([I32], [I64], Vertex.read_aggregator),
    "vote_to_halt": ([], [], Vertex.vote_to_halt),
}


def number_in(field, least, greatest):
    """Returns the number of a field, or None if it is none of this range. Only values may have a sign."""
    if re.fullmatch("-?[0-9]+" if least == LEAST else "[0-9]+", field) and least <= int(field) <= greatest:
        return int(field)
    return None


def vertex_of(text):
    """Returns the vertex that an input describes."""
    vertex, single = Vertex(), set()
    for place, line in enumerate(re.split("\r?\n", text), 1):
        fields = re.findall("[^ \t]+", line)
        if line.startswith("#") or not fields:
            continue
        name, ranges = fields[0], LINES.get(fields[0], [])
        numbers = [number_in(field, *its) for field, its in zip(fields[1:], ranges)]
        if not ranges or len(fields) != 1 + len(ranges) or None in numbers or name in single:
            raise BadInput(place)
        if name == "message":
            vertex.messages.append(numbers[0])
        elif name == "edge":
            vertex.edges.append(tuple(numbers))
        elif name == "aggregate":
            vertex.aggregated[numbers[0]] = numbers[1]
        else:
            single.add(name)
            setattr(vertex, name, numbers[0])
    return vertex
