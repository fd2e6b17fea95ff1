"""Writes modules from seeds. Each is valid and in the bounded profile (docs/PROFILE.md): the types of all operands are known at each
place, loops take an item first or last, and divisors, addresses and numbers of aggregators are constants."""
import random
from dataclasses import dataclass

I32, I64 = "i32", "i64"
# The most sequences that are open at a time.
DEEPEST = 6
# Numbers at which an operator may go wrong, and divisors for which no division traps.
EDGES = "0 1 -1 2 31 64 128 -129 65535 -32768 2147483647 -2147483648".split()
WIDE_EDGES = "4294967296 4294967295 9223372036854775807 -9223372036854775808".split()
DIVISORS = "1 2 3 -2 -7 10 65536 -65537 2147483647 -2147483648".split()
BINARY = "add sub mul and or xor shl shr_s shr_u rotl rotr".split()
COMPARISONS = "eq ne lt_s lt_u gt_s gt_u le_s le_u ge_s ge_u".split()
LOADS = "load load8_s load8_u load16_s load16_u".split()
STORES = "store store8 store16".split()
NEXT = ["call $next_message", "call $next_edge"]
HOST_VALUES = [f"call ${name}" for name in "vertex_id superstep num_vertices get_value message_value edge_target edge_value".split()]
IMPORTS = """
(import "pregel" "vertex_id" (func $vertex_id (result i64)))
(import "pregel" "superstep" (func $superstep (result i64)))
(import "pregel" "num_vertices" (func $num_vertices (result i64)))
(import "pregel" "get_value" (func $get_value (result i64)))
(import "pregel" "set_value" (func $set_value (param i64)))
(import "pregel" "next_message" (func $next_message (result i32)))
(import "pregel" "message_value" (func $message_value (result i64)))
(import "pregel" "next_edge" (func $next_edge (result i32)))
(import "pregel" "edge_target" (func $edge_target (result i64)))
(import "pregel" "edge_value" (func $edge_value (result i64)))
(import "pregel" "send" (func $send (param i64 i64)))
(import "pregel" "aggregate" (func $aggregate (param i32 i64)))
(import "pregel" "aggregated" (func $aggregated (param i32) (result i64)))
(import "pregel" "vote_to_halt" (func $vote_to_halt))
"""
# The functions: how they begin, their results, and their steps. In each, the locals with even numbers are i64 and the others i32.
FUNCTIONS = [
    ("(func $first (param i64 i32) (result i64) (local i64 i32)", I64, 10),
    ("(func $second (param i64) (result i32) (local i32 i64 i32)", I32, 10),
    ('(func (export "compute") (local i64 i32 i64 i32)', None, 40),
]
# The end of `compute` sends its variables, and parts of its memory.
SENDS = """local.get 0 local.get 2 call $send local.get 1 i64.extend_i32_u local.get 3 i64.extend_i32_u call $send
global.get $wide global.get $small i64.extend_i32_u call $send"""
MEMORY_SENDS = """i32.const 0 i64.load i32.const 8 i64.load call $send i32.const 65520 i64.load i32.const 65528 i64.load call $send"""


@dataclass
class Layer:
    """A sequence that has not ended: `function`, `block`, `then`, `else`, or a loop that takes its item `first` or `last`; how many
    operands are below its own; and its result's type, or None."""

    kind: str
    base: int
    result: str


def module_text(seed):
    """Writes the module of a seed, on one line."""
    writer = Writer(seed)
    writer.module()
    return " ".join(" ".join(writer.words).split())


class Writer:
    """A text of a module, of which a function is open: the types of its operands, its open sequences with the innermost last, and
    how many functions are written before it, which it may call."""

    def __init__(self, seed):
        self.random, self.words = random.Random(seed), []
        self.operands, self.layers, self.callees, self.has_memory = [], [], 0, seed % 4 == 0

    # ---- choices, and words

    def below(self, bound):
        return self.random.randrange(bound)

    def is_heads(self):
        return self.below(2) == 0

    def any_type(self):
        return self.random.choice([I32, I64])

    def choose(self, *weighted):
        """Calls one of the functions, each of which has a weight before it."""
        self.random.choices(weighted[1::2], weighted[::2])[0]()

    def word(self, *words):
        self.words.extend(map(str, words))

    def one_of(self, words):
        self.word(self.random.choice(words))

    def typed(self, kind, words):
        """Writes one of the instructions of a type."""
        self.word(f"{kind}.{self.random.choice(words)}")

    # ---- modules and functions

    def module(self):
        self.word("(module", IMPORTS)
        for head, kind in [("(global $wide (mut i64)", I64), ("(global $fixed i64", I64), ("(global $small (mut i32)", I32)]:
            self.word(head)
            self.constant(kind)
            self.word(")")
        if self.has_memory:
            self.word("(memory 1)")
            for place in (0, 65520):
                content = "".join(f"\\{self.below(256):02x}" for _ in range(16))
                self.word(f'(data (i32.const {place}) "{content}")')
        for head, result, steps in FUNCTIONS:
            self.function(head, result, steps)
            self.callees += 1
        self.word(")")

    def function(self, head, result, steps):
        self.word(head)
        self.constant(I64)
        self.word("local.set 2")
        self.constant(I32)
        self.word("local.set 3")
        self.operands, self.layers = [], [Layer("function", 0, result)]
        for _ in range(steps):
            self.choose(1, self.control_step, 3, self.straight_step)
        while len(self.layers) > 1:
            self.end()
        self.settle()
        if result is None:
            self.word(SENDS, MEMORY_SENDS if self.has_memory else "")
        self.word(")")

    # ---- operands

    def own(self):
        """Returns the operands that the innermost sequence may take."""
        return self.operands[self.layers[-1].base:]

    def pop(self, count):
        del self.operands[len(self.operands) - count:]

    def push(self, kind):
        if kind:
            self.operands.append(kind)

    def value(self, kind):
        """Yields a value of a type."""
        self.operand(kind)
        self.push(kind)

    def want(self, *kinds):
        """Yields values, unless the last operands are of these one or two types."""
        if self.own()[-len(kinds):] == list(kinds):
            return
        if len(kinds) == 2:
            self.want(kinds[0])
        self.value(kinds[-1])

    def wanted(self):
        """Yields a value if there is no operand, and returns the type of the last one."""
        if not self.own():
            self.value(self.any_type())
        return self.operands[-1]

    def take(self, *kinds):
        self.want(*kinds)
        self.pop(len(kinds))

    # ---- code that yields a value, and takes no operand: it is not noted

    def operand(self, kind):
        self.choose(
            2, lambda: self.constant(kind), 3, lambda: self.local("local.get", kind), 1, lambda: self.global_value(kind),
            1, lambda: self.load(kind) if self.has_memory else self.host_value(kind), 1, lambda: self.host_value(kind),
        )

    def condition(self):
        """Yields an i32 that is often 0."""
        self.operand(I32)
        self.word("" if self.is_heads() else "i32.eqz")

    def constant(self, kind):
        if self.is_heads():
            number = self.random.choice(EDGES)
        elif kind == I64 and self.is_heads():
            number = self.random.choice(WIDE_EDGES)
        else:
            number = self.random.getrandbits(32 if kind == I32 else 64)
        self.word(f"{kind}.const", number)

    def local(self, word, kind):
        self.word(word, self.random.choice([1, 3] if kind == I32 else [0, 2]))

    def global_value(self, kind):
        self.one_of(["global.get $small"] if kind == I32 else ["global.get $wide", "global.get $fixed"])

    def load(self, kind):
        self.address()
        self.typed(kind, ["load32_s", "load32_u"] if kind == I64 and self.below(3) == 0 else LOADS)
        self.offset()

    def address(self):
        """Yields an address in the first or the last 16 bytes of the page, from which eight bytes and one are in it."""
        self.word("i32.const", self.random.choice([0, 65520]) + self.below(8))

    def offset(self):
        self.one_of(["", "offset=1"])

    def host_value(self, kind):
        if kind == I64:
            self.choose(1, lambda: self.word("i32.const", self.below(8), "call $aggregated"), 3, lambda: self.one_of(HOST_VALUES))
        elif self.has_memory and self.is_heads():
            self.word("memory.size")
        else:
            self.choose(1, lambda: self.one_of(NEXT), 3, lambda: self.constant(I32))

    # ---- steps that neither branch nor begin a sequence

    def straight_step(self):
        self.choose(
            4, lambda: self.value(self.any_type()), 7, lambda: self.operation(2, BINARY),
            1, lambda: self.operation(1, ["clz", "ctz", "popcnt"]), 2, lambda: self.operation(2, COMPARISONS, I32),
            1, lambda: self.operation(1, ["eqz"], I32), 2, self.conversion, 2, self.division, 2, self.variable, 1, self.select,
            1, self.dropped, 2, self.store if self.has_memory else self.call, 2, self.host_step, 1, self.call,
        )

    def operation(self, operands, words, result=None):
        """Writes an instruction of a type that takes one or two operands of it."""
        kind = self.any_type()
        self.take(*[kind] * operands)
        self.typed(kind, words)
        self.push(result or kind)

    def conversion(self):
        taken, words, given = self.random.choice([
            (I64, ["i32.wrap_i64"], I32), (I32, ["i64.extend_i32_s", "i64.extend_i32_u"], I64),
        ])
        self.take(taken)
        self.one_of(words)
        self.push(given)

    def division(self):
        """Divides by a constant for which the division does not trap."""
        kind = self.any_type()
        self.want(kind)
        word = self.random.choice(["div_s", "div_u", "rem_s", "rem_u"])
        divisor = "-1" if word != "div_s" and self.below(8) == 0 else self.random.choice(DIVISORS)
        self.word(f"{kind}.const", divisor, f"{kind}.{word}")

    def variable(self):
        kind = self.wanted()
        if self.below(3) == 0:
            self.local("local.tee", kind)
        else:
            self.set_variable(kind)

    def set_variable(self, kind):
        self.pop(1)
        if self.is_heads():
            self.local("local.set", kind)
        else:
            self.word("global.set", "$small" if kind == I32 else "$wide")

    def select(self):
        kind = self.any_type()
        self.want(kind, kind)
        self.condition()
        self.pop(1)
        self.word("select")

    def dropped(self):
        self.wanted()
        self.pop(1)
        self.word("drop")

    def store(self):
        kind = self.any_type()
        self.address()
        self.operand(kind)
        self.typed(kind, ["store32"] if kind == I64 and self.below(4) == 0 else STORES)
        self.offset()

    def host_step(self):
        self.choose(3, self.set_value, 3, self.send, 1, self.aggregate, 1, lambda: self.word("call $vote_to_halt"))

    def set_value(self):
        self.take(I64)
        self.word("call $set_value")

    def send(self):
        self.take(I64, I64)
        self.word("call $send")

    def aggregate(self):
        self.word("i32.const", self.below(8))
        self.operand(I64)
        self.word("call $aggregate")

    def call(self):
        """Calls a function that is written before this one."""
        if self.callees == 0:
            return self.word("nop")
        self.take(I64)
        if self.below(self.callees) == 0:
            self.operand(I32)
            self.word("call $first")
            self.push(I64)
        else:
            self.word("call $second")
            self.push(I32)

    # ---- blocks, conditions, loops over items, and branches

    def control_step(self):
        self.choose(3, self.begin, 1, self.branch_if, 2, self.jump, 2, self.end)

    def begin(self):
        if len(self.layers) < DEEPEST:
            self.choose(2, lambda: self.open("block", "block"), 2, self.begin_condition, 1, self.begin_first,
                        1, lambda: self.open("loop", "last"))

    def open(self, word, kind):
        result = self.random.choice([None, None, I32, I64])
        self.word(word, f"(result {result})" if result else "")
        self.layers.append(Layer(kind, len(self.operands), result))

    def begin_condition(self):
        self.take(I32)
        self.open("if", "then")

    def begin_first(self):
        """Begins a loop that takes its item first, where a label around it takes no operand; else one that takes it last."""
        target = self.any_target()
        if target and target[1] is None:
            self.open("loop", "first")
            self.one_of(NEXT)
            self.word("i32.eqz br_if", target[0] + 1)
        else:
            self.open("loop", "last")

    def any_target(self):
        """Returns a label, and the operand that goes with a branch to it; or None where no branch may name it."""
        label = self.below(len(self.layers))
        layer = self.layers[-1 - label]
        if layer.kind == "last":
            return None
        return label, None if layer.kind == "first" else layer.result

    def branch_if(self):
        target = self.any_target()
        if target:
            self.want_result(target[1])
            self.condition()
            self.word("br_if", target[0])

    def want_result(self, result):
        if result:
            self.want(result)

    def jump(self):
        """Ends the innermost sequence by a jump, unless it ends the function or takes an item last."""
        if self.layers[-1].kind not in ("function", "last"):
            self.choose(1, self.return_from, 2, self.branch_by_table, 1, self.branch_to)

    def return_from(self):
        self.want_result(self.layers[0].result)
        self.word("return")
        self.end_layer()

    def branch_to(self):
        target = self.any_target()
        if target:
            self.want_result(target[1])
            self.word("br", target[0])
            self.end_layer()

    def branch_by_table(self):
        """Writes a table of up to four labels that take the same operand, mostly by a number below 4."""
        target = self.any_target()
        if target:
            self.want_result(target[1])
            self.operand(I32)
            self.one_of(["", "i32.const 3 i32.and", "i32.const 1 i32.and"])
            others = [self.any_target() or target for _ in range(self.below(4))]
            self.word("br_table", *(label for label, carried in others if carried == target[1]), target[0])
            self.end_layer()

    def end(self):
        """Ends the innermost sequence, unless it is the function's body."""
        kind = self.layers[-1].kind
        if kind == "function":
            return
        if kind == "first" and self.below(4) > 0:
            self.word("br 0")
        else:
            self.settle()
        if kind == "last":
            self.one_of(NEXT)
            self.word("br_if 0")
        self.end_layer()

    def settle(self):
        """Takes the operands of the innermost sequence, so that its result alone is left."""
        result = self.layers[-1].result
        is_first = result is not None and self.own()[:1] == [result]
        while len(self.own()) > is_first:
            self.consume()
        self.want_result(result)

    def consume(self):
        """Takes the last operand, mostly into the outcome."""
        kind = self.operands[-1]
        self.choose(1, lambda: self.set_variable(kind), 1, self.set_value if kind == I64 else self.sent, 4, self.sent)

    def sent(self):
        """Sends to the vertex that the last operand numbers."""
        self.word("i64.extend_i32_u" if self.operands[-1] == I32 else "", "call $vertex_id call $send")
        self.pop(1)

    def end_layer(self):
        """Ends the innermost sequence, where its operands are its result or it ends by a jump."""
        layer = self.layers.pop()
        del self.operands[layer.base:]
        if layer.kind == "then" and (layer.result or self.is_heads()):
            self.word("else")
            self.layers.append(Layer("else", layer.base, layer.result))
        else:
            self.word("end")
            self.push(layer.result)
