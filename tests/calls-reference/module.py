"""Decodes binary modules (Core 1.0, section 5) of integers. What the bytes have to be was checked before."""

I32, I64 = 0x7F, 0x7E
# The kinds of imports and exports.
FUNCTION, TABLE, MEMORY, GLOBAL = range(4)
BLOCK, LOOP, IF, ELSE, END = 0x02, 0x03, 0x04, 0x05, 0x0B
BR_TABLE, I32_CONST, I64_CONST = 0x0E, 0x41, 0x42
BLOCKS = (BLOCK, LOOP, IF)
# The instructions before one number, and before two (5.4). A zero byte that is reserved counts as one.
WITH_NUMBER = {0x0C, 0x0D, 0x10, *range(0x20, 0x25), 0x3F, 0x40}
WITH_TWO = {0x11, *range(0x28, 0x3F)}


class Bytes:
    """Bytes that are taken from the front."""

    def __init__(self, content):
        self.content, self.place = content, 0

    def take(self, count):
        self.place += count
        if self.place > len(self.content):
            raise IndexError("the bytes end too early")
        return self.content[self.place - count:self.place]

    def byte(self):
        self.place += 1
        return self.content[self.place - 1]

    def unsigned(self):
        """Takes a number in LEB128 (5.2.2)."""
        byte = self.byte()
        number, shift = byte & 0x7F, 7
        while byte >= 0x80:
            byte = self.byte()
            number |= (byte & 0x7F) << shift
            shift += 7
        return number

    def constant(self, bits):
        """Takes a signed number in LEB128, and returns the unsigned one of so many bits (5.2.2)."""
        start = self.place
        number = self.unsigned()
        if self.content[self.place - 1] & 0x40:
            number -= 1 << 7 * (self.place - start)
        return number % (1 << bits)

    def vector(self, item):
        return [item() for _ in range(self.unsigned())]

    def name(self):
        return self.take(self.unsigned()).decode()

    def limits(self):
        """Takes limits, and returns the least number (5.3.5)."""
        has_most = self.byte()
        least = self.unsigned()
        if has_most:
            self.unsigned()
        return least

    def instruction(self):
        """Takes an opcode with its argument (5.4). That of a block is the type of its result, or 0x40 for none."""
        opcode = self.byte()
        if opcode in BLOCKS:
            return opcode, self.byte()
        if opcode == BR_TABLE:
            return opcode, (self.vector(self.unsigned), self.unsigned())
        if opcode in (I32_CONST, I64_CONST):
            return opcode, self.constant(32 if opcode == I32_CONST else 64)
        if opcode in WITH_TWO:
            return opcode, (self.unsigned(), self.unsigned())
        return opcode, self.unsigned() if opcode in WITH_NUMBER else None

    def expression(self):
        """Takes instructions up to the `end` of them all (5.4.6)."""
        code, blocks = Code(), [-1]
        while blocks:
            opcode, argument = self.instruction()
            if opcode in BLOCKS:
                blocks.append(len(code))
            elif opcode == ELSE:
                code.elses[blocks[-1]] = len(code)
            elif opcode == END:
                code.ends[blocks.pop()] = len(code)
            code.append((opcode, argument))
        return code


class Code(list):
    """Instructions, and the places of `else` and `end` by the place where their block begins; that of the body is -1."""

    def __init__(self):
        self.elses, self.ends = {}, {}


class Module:
    """A module (2.5). A function has the number of its type in `numbers`, and in `bodies` how many locals it has beside its parameters,
    and its code. A memory is its least number of pages, and `elements` the number of segments of tables."""

    def __init__(self, content):
        self.types, self.imports, self.numbers, self.memories, self.globals = [], [], [], [], []
        self.exports, self.start, self.elements, self.bodies, self.data = {}, None, 0, [], []
        content = Bytes(content)
        assert content.take(8) == b"\0asm\1\0\0\0"
        while content.place < len(content.content):
            kind = content.byte()
            self.read(kind, Bytes(content.take(content.unsigned())))

    def read(self, kind, section):
        """Reads a section (5.5). Those of names and of tables say nothing about a call."""
        if kind == 1:
            self.types = section.vector(lambda: (section.byte(), section.vector(section.byte), section.vector(section.byte))[1:])
        elif kind == 2:
            self.imports = section.vector(lambda: (section.name(), section.name(), *self.description(section)))
        elif kind == 3:
            self.numbers = section.vector(section.unsigned)
        elif kind == 5:
            self.memories = section.vector(section.limits)
        elif kind == 6:
            self.globals = section.vector(lambda: (section.take(2), section.expression())[1])
        elif kind == 7:
            self.exports = dict(section.vector(lambda: (section.name(), (section.byte(), section.unsigned()))))
        elif kind == 8:
            self.start = section.unsigned()
        elif kind == 9:
            self.elements = section.unsigned()
        elif kind == 10:
            self.bodies = section.vector(lambda: self.body(section))
        elif kind == 11:
            self.data = section.vector(lambda: (section.unsigned(), section.expression(), section.take(section.unsigned()))[1:])

    def description(self, section):
        """Reads the kind of an import, and the number of its type if it is a function (5.5.5)."""
        kind = section.byte()
        if kind == FUNCTION:
            return kind, section.unsigned()
        if kind in (TABLE, GLOBAL):
            section.byte()
        return kind, section.byte() if kind == GLOBAL else section.limits()

    def body(self, section):
        """Reads the locals of a function, and its code (5.5.13)."""
        section.unsigned()
        groups = section.vector(lambda: (section.unsigned(), section.byte()))
        return sum(count for count, _ in groups), section.expression()
