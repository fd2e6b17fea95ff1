"""Jobs on one machine (docs/API.md): in each superstep the called vertices, by their ids."""
import operator
from vertex import STARTS, Vertex

# How each aggregator combines two numbers.
COMBINED = [operator.add, operator.add, min, min, max, max, operator.or_, operator.or_]


def run_lines(instance, values, edges, limit, budget):
    """Returns the lines that `pregel run` prints for a module, over a graph of these values and edges by id."""
    values, active, inboxes, aggregated = dict(values), set(values), {}, STARTS
    superstep = units = dropped = 0
    while superstep < limit and (active or inboxes):
        called, received, gathered = sorted(active.union(inboxes)), inboxes, STARTS.copy()
        inboxes, active = {}, set()
        for one in called:
            vertex = Vertex(one, superstep, len(values), values[one], received.get(one, []), edges.get(one, []), aggregated)
            units += instance.call(vertex, budget)
            values[one] = vertex.value
            if vertex.is_active:
                active.add(one)
            for target, value in vertex.sends:
                if target in values:
                    inboxes.setdefault(target, []).append(value)
                else:
                    dropped += 1
            for number, value in vertex.gives:
                gathered[number] = wrapped(COMBINED[number](gathered[number], value))
        aggregated = gathered
        superstep += 1
    how = "limit" if active or inboxes else "finished"
    ends = f"end {how} supersteps {superstep} units {units} dropped {dropped}"
    return [*(f"v {one} {value}" for one, value in sorted(values.items())), ends]


def wrapped(number):
    """Returns the signed number of 64 bits."""
    return (number + (1 << 63)) % (1 << 64) - (1 << 63)
