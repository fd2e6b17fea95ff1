"""The machine of WebAssembly (Core 1.0, section 4) over valid modules of integers. It runs `compute` for a vertex, and counts the
units of docs/PROFILE.md. Numbers are unsigned. It shares nothing with the engine, with which its answers are compared."""
from module import BLOCK, BR_TABLE, ELSE, END, FUNCTION, I32_CONST, I64, I64_CONST, IF, LOOP, Module
from vertex import HOST, Trap

PAGE, MOST_PAGES = 1 << 16, 16
UNREACHABLE, NOP, BR, BR_IF, RETURN, CALL, CALL_INDIRECT, DROP, SELECT = 0x00, 0x01, 0x0C, 0x0D, 0x0F, 0x10, 0x11, 0x1A, 0x1B
LOCAL_GET, LOCAL_SET, LOCAL_TEE, GLOBAL_GET, GLOBAL_SET, MEMORY_SIZE, MEMORY_GROW = 0x20, 0x21, 0x22, 0x23, 0x24, 0x3F, 0x40
NO_RESULT = 0x40


class Stuck(Exception):
    """The module has no `compute` that can be called, or there is no step for the instruction."""


class Budget(Exception):
    """The next instruction would pass the budget of units."""


# ---- numbers (4.3)


def signed(number, bits):
    return number - (1 << bits) if number >> bits - 1 else number


def quotient(first, second):
    """Divides signed numbers, towards 0."""
    return abs(first) // abs(second) * (1 if (first < 0) == (second < 0) else -1)


def operators(bits):
    """The operators of one type by their opcodes (5.4.5): those of one operand, and those of two."""
    test, arithmetic = (0x45, 0x67) if bits == 32 else (0x50, 0x79)

    def s(number):
        return signed(number, bits)

    def divisor(number):
        if number == 0:
            raise Trap
        return number

    def div_s(first, second):
        result = quotient(s(first), divisor(s(second)))
        if result == 1 << bits - 1:
            raise Trap
        return result

    def rem_s(first, second):
        return s(first) - quotient(s(first), divisor(s(second))) * s(second)

    def rotl(first, second):
        return first << second % bits | first >> bits - second % bits

    unary = {
        test: lambda a: a == 0,
        # clz, ctz, popcnt
        arithmetic: lambda a: bits - a.bit_length(),
        arithmetic + 1: lambda a: (a & -a).bit_length() - 1 if a else bits,
        arithmetic + 2: lambda a: bin(a).count("1"),
    }
    comparisons = [
        # eq, ne, lt_s, lt_u, gt_s, gt_u
        lambda a, b: a == b, lambda a, b: a != b,
        lambda a, b: s(a) < s(b), lambda a, b: a < b, lambda a, b: s(a) > s(b), lambda a, b: a > b,
        # le_s, le_u, ge_s, ge_u
        lambda a, b: s(a) <= s(b), lambda a, b: a <= b, lambda a, b: s(a) >= s(b), lambda a, b: a >= b,
    ]
    others = [
        # add, sub, mul, div_s, div_u, rem_s, rem_u
        lambda a, b: a + b, lambda a, b: a - b, lambda a, b: a * b,
        div_s, lambda a, b: a // divisor(b), rem_s, lambda a, b: a % divisor(b),
        # and, or, xor, shl, shr_s, shr_u, rotl, rotr
        lambda a, b: a & b, lambda a, b: a | b, lambda a, b: a ^ b,
        lambda a, b: a << b % bits, lambda a, b: s(a) >> b % bits, lambda a, b: a >> b % bits,
        rotl, lambda a, b: rotl(a, -b),
    ]
    binary = dict([*enumerate(comparisons, test + 1), *enumerate(others, arithmetic + 3)])
    # (results are taken modulo 2^bits)
    return ({opcode: lambda a, it=it: it(a) % (1 << bits) for opcode, it in unary.items()},
            {opcode: lambda a, b, it=it: it(a, b) % (1 << bits) for opcode, it in binary.items()})


# The operators of one operand and of two, and the conversions: i32.wrap_i64, i64.extend_i32_s, i64.extend_i32_u.
UNARY, BINARY = ({**small, **large} for small, large in zip(operators(32), operators(64)))
UNARY.update({0xA7: lambda a: a % (1 << 32), 0xAC: lambda a: signed(a, 32) % (1 << 64), 0xAD: lambda a: a})
# The bytes that a load reads, whether their sign is extended, and the bits of its result; and the bytes that a store writes.
LOADS = {
    0x28: (4, False, 32), 0x29: (8, False, 64),
    0x2C: (1, True, 32), 0x2D: (1, False, 32), 0x2E: (2, True, 32), 0x2F: (2, False, 32),
    0x30: (1, True, 64), 0x31: (1, False, 64), 0x32: (2, True, 64), 0x33: (2, False, 64), 0x34: (4, True, 64), 0x35: (4, False, 64),
}
STORES = {0x36: 4, 0x37: 8, 0x3A: 1, 0x3B: 2, 0x3C: 1, 0x3D: 2, 0x3E: 4}

MULTIPLICATIONS, DIVISIONS = [0x6C, 0x7E], [*range(0x6D, 0x71), *range(0x7F, 0x83)]
# The units of the instructions that do not have one (docs/PROFILE.md). A call of `send` or `aggregate` has eight.
UNITS = {
    ELSE: 0, END: 0, BR_TABLE: 2, CALL: 2, **dict.fromkeys([*LOADS, *STORES], 2),
    **dict.fromkeys(MULTIPLICATIONS, 3), **dict.fromkeys(DIVISIONS, 6),
}


# ---- modules (4.5)


class Instance:
    """A module with the first values of its globals, and the first bytes of its memory (4.5.4)."""

    def __init__(self, content):
        module = Module(content)
        if module.start is not None or module.elements:
            raise Stuck
        self.types, self.numbers, self.bodies = module.types, module.numbers, module.bodies
        self.imports = [self.host_function(*imported) for imported in module.imports]
        self.globals = []
        for code in module.globals:
            self.globals.append(self.constant(code))
        self.memory = self.first_memory(module)
        self.compute = self.number_of_compute(module.exports)

    def first_memory(self, module):
        pages = module.memories[0] if module.memories else 0
        if pages > MOST_PAGES:
            raise Stuck
        memory = bytearray(pages * PAGE)
        for code, content in module.data:
            place = self.constant(code)
            if place + len(content) > len(memory):
                raise Stuck
            memory[place:place + len(content)] = content
        return memory

    def number_of_compute(self, exports):
        """Returns the number of `compute` among the functions that the module defines."""
        kind, index = exports.get("compute", (FUNCTION, -1))
        number = index - len(self.imports)
        if kind != FUNCTION or number < 0 or self.types[self.numbers[number]] != ([], []):
            raise Stuck
        return number

    def host_function(self, module, name, kind, number):
        """Returns the name of an import, which has to be a host function with its type."""
        if module != "pregel" or kind != FUNCTION or name not in HOST or HOST[name][:2] != self.types[number]:
            raise Stuck
        return name

    def constant(self, code):
        """The value of a constant expression (3.3.7)."""
        opcode, argument = code[0]
        return self.globals[argument] if opcode == GLOBAL_GET else argument

    def call(self, vertex, budget):
        """Calls `compute` for a vertex, and returns the units."""
        call = Call(self, vertex, budget)
        call.run()
        return call.units


class Frame:
    """A function that runs: its code, the place of the next instruction, its locals, and its labels. A label is the place where
    a branch to it goes on, whether it keeps an operand, and how many operands are below (4.2.12)."""

    def __init__(self, code, local_values, has_result, below):
        self.code, self.place, self.locals = code, 0, local_values
        self.labels = [(len(code), has_result, below)]


class Call:
    """A call of `compute`, in fresh globals and memory. Its frames are in a list, so that recursion may be deep."""

    def __init__(self, instance, vertex, budget):
        self.instance, self.vertex, self.budget, self.units = instance, vertex, budget, 0
        self.globals, self.memory = list(instance.globals), bytearray(instance.memory)
        self.operands, self.frames = [], []

    def run(self):
        self.enter(self.instance.compute)
        while self.frames:
            frame = self.frames[-1]
            if frame.place == len(frame.code):
                self.frames.pop()
                continue
            opcode, argument = frame.code[frame.place]
            self.units += self.weight(opcode, argument)
            if self.units > self.budget:
                raise Budget
            frame.place += 1
            self.step(frame, opcode, argument)

    def weight(self, opcode, argument):
        imports = self.instance.imports
        if opcode == CALL and argument < len(imports) and imports[argument] in ("send", "aggregate"):
            return 8
        return UNITS.get(opcode, 1)

    def step(self, frame, opcode, argument):
        """Executes an instruction (4.4)."""
        operands = self.operands
        if opcode in BINARY:
            second = operands.pop()
            operands.append(BINARY[opcode](operands.pop(), second))
        elif opcode in UNARY:
            operands.append(UNARY[opcode](operands.pop()))
        elif opcode in (I32_CONST, I64_CONST):
            operands.append(argument)
        elif LOCAL_GET <= opcode <= GLOBAL_SET:
            self.step_variable(frame.locals if opcode <= LOCAL_TEE else self.globals, opcode, argument)
        elif opcode in LOADS or opcode in STORES:
            self.step_memory(opcode, argument)
        elif opcode == DROP:
            operands.pop()
        elif opcode == SELECT:
            condition, second = operands.pop(), operands.pop()
            operands[-1] = operands[-1] if condition else second
        elif opcode == MEMORY_SIZE:
            operands.append(len(self.memory) // PAGE)
        elif opcode == CALL:
            self.call(argument)
        elif opcode == UNREACHABLE:
            raise Trap
        elif opcode in (CALL_INDIRECT, MEMORY_GROW):
            raise Stuck
        elif opcode != NOP:
            self.step_control(frame, opcode, argument)

    def step_variable(self, values, opcode, number):
        if opcode in (LOCAL_GET, GLOBAL_GET):
            self.operands.append(values[number])
        else:
            values[number] = self.operands[-1] if opcode == LOCAL_TEE else self.operands.pop()

    def step_memory(self, opcode, argument):
        """Executes a load or a store (4.4.4). The place does not wrap."""
        stored = self.operands.pop() if opcode in STORES else None
        width = STORES[opcode] if opcode in STORES else LOADS[opcode][0]
        place = self.operands.pop() + argument[1]
        if place + width > len(self.memory):
            raise Trap
        if opcode in STORES:
            self.memory[place:place + width] = (stored % (1 << 8 * width)).to_bytes(width, "little")
        else:
            _, is_signed, bits = LOADS[opcode]
            number = int.from_bytes(self.memory[place:place + width], "little", signed=is_signed)
            self.operands.append(number % (1 << bits))

    def step_control(self, frame, opcode, argument):
        """Executes an instruction of blocks and branches (4.4.5)."""
        begin, labels, code = frame.place - 1, frame.labels, frame.code
        if opcode == BLOCK:
            self.open(frame, code.ends[begin] + 1, argument)
        elif opcode == LOOP:
            # (a branch to it begins the loop again)
            labels.append((begin, False, len(self.operands)))
        elif opcode == IF:
            condition = self.operands.pop()
            self.open(frame, code.ends[begin] + 1, argument)
            if not condition:
                frame.place = code.elses[begin] + 1 if begin in code.elses else code.ends[begin]
        elif opcode == ELSE:
            frame.place = labels.pop()[0]
        elif opcode == END:
            labels.pop()
        elif opcode == BR or opcode == BR_IF and self.operands.pop():
            self.branch(frame, argument)
        elif opcode == BR_TABLE:
            others, last = argument
            place = self.operands.pop()
            self.branch(frame, others[place] if place < len(others) else last)
        elif opcode == RETURN:
            self.branch(frame, len(labels) - 1)

    def open(self, frame, target, result):
        frame.labels.append((target, result != NO_RESULT, len(self.operands)))

    def branch(self, frame, label):
        target, keeps, below = frame.labels[-1 - label]
        del frame.labels[-1 - label:]
        del self.operands[below:len(self.operands) - keeps]
        frame.place = target

    def call(self, number):
        """Calls a function. Imports have the first numbers (4.4.7)."""
        imports = self.instance.imports
        if number >= len(imports):
            return self.enter(number - len(imports))
        parameters, results, effect = HOST[imports[number]]
        arguments = self.taken(len(parameters))
        result = effect(self.vertex, *(signed(it, 64) if kind == I64 else it for kind, it in zip(parameters, arguments)))
        if results:
            self.operands.append(result % (1 << 64))

    def taken(self, count):
        """Takes operands, and returns them in their order."""
        below = len(self.operands) - count
        taken = self.operands[below:]
        del self.operands[below:]
        return taken

    def enter(self, number):
        """Begins a function that the module defines. Its locals are its arguments, and then zeros (4.4.7)."""
        parameters, results = self.instance.types[self.instance.numbers[number]]
        others, code = self.instance.bodies[number]
        local_values = self.taken(len(parameters)) + [0] * others
        self.frames.append(Frame(code, local_values, bool(results), len(self.operands)))
