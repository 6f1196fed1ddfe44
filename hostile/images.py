"""What reading an image has to answer, by docs/IMAGES.md alone: a second reader, apart from the proved one.

`answer(bytes)` is 0 for an image that is read, else its fault's number. The texts, images and edits that `run` tries stand here too.
"""

SIZES = {1: 1, 2: 1, 3: 1, 4: 1, 5: 2, 6: 2, 7: 4, 8: 4, 9: 4, 10: 8, 11: 8, 12: 8, 13: 8, 14: 8, 15: 8}
BOOL, CHAR, ENUM, STRUCT, ARRAY, STRING, SIZED = 3, 4, 0x10, 0x11, 0x12, 0x20, 0x21
SEND = {1: (1, 2, 4, 8), 2: range(1, 8), 3: (0,), 4: range(1, 4097), 5: range(1, 1025), 6: (0,), 7: (0,), 8: (0,)}
RECEIVE = {
    3: (0,), 5: range(1, 1025), 6: (0,), 7: (0,), 0x11: (1, 2, 4, 8), 0x12: (0,), 0x13: range(1, 65536),
    0x14: (0,), 0x15: range(1, 8), 0x16: range(1, 4097), 0x17: (0,), 0x18: (0,),
}
ALIGN, EACH, BACK, TIMES = 3, 6, 7, 5


class Refused(Exception):
    """A fault, by its number."""


class Reader:
    """Bytes that are read from front to back."""

    def __init__(self, data):
        self.data, self.at = data, 0

    def take(self, count):
        if self.at + count > len(self.data):
            raise Refused(82)
        self.at += count
        return self.data[self.at - count : self.at]

    def number(self, count):
        return int.from_bytes(self.take(count), "little")

    def number_within(self, count, low, high):
        number = self.number(count)
        if not low <= number <= high:
            raise Refused(83)
        return number

    def name(self):
        word = self.take(self.number_within(1, 1, 64))
        letters = b"_abcdefghijklmnopqrstuvwxyzABCDEFGHIJKLMNOPQRSTUVWXYZ"
        if word[0] not in letters or any(it not in letters + b"0123456789" for it in word):
            raise Refused(83)
        return word

    def type(self, inside):
        """A type inside so many others."""
        code = self.number(1)
        if inside > 17:
            raise Refused(83)
        if code in SIZES:
            return (code,)
        if code == ENUM:
            return (ENUM, self.number(2))
        if code == STRUCT:
            return (STRUCT, [self.type(inside + 1) for _ in range(self.number(1))])
        if code == ARRAY:
            count = self.number(2)
            return (ARRAY, count, self.type(inside + 1))
        raise Refused(83)

    def argument(self):
        code = self.number(1)
        if code == STRING:
            return (STRING, self.number(2))
        if code == SIZED:
            bound = self.number(2)
            return (SIZED, bound, self.type(1))
        self.at -= 1
        return self.type(0)

    def code(self, column):
        ops = []
        for _ in range(self.number(4)):
            op = self.number(1)
            if op not in column:
                raise Refused(83)
            operand = self.number(2)
            if operand not in column[op]:
                raise Refused(83)
            ops.append((op, operand))
        return ops


def up(place, alignment):
    return -(-place // alignment) * alignment


def alignment(type):
    if type[0] == STRUCT:
        return max(map(alignment, type[1]))
    return alignment(type[2]) if type[0] == ARRAY else 4 if type[0] == ENUM else SIZES[type[0]]


def size(type):
    if type[0] == STRUCT:
        end = 0
        for field in type[1]:
            end = up(end, alignment(field)) + size(field)
        return up(end, alignment(type))
    return type[1] * size(type[2]) if type[0] == ARRAY else 4 if type[0] == ENUM else SIZES[type[0]]


def depths(type):
    """How deep structs and arrays nest, and arrays alone."""
    if type[0] == ARRAY:
        deep, arrays = depths(type[2])
        return deep + 1, arrays + 1
    if type[0] == STRUCT:
        deep, arrays = zip(*map(depths, type[1]))
        return max(deep) + 1, max(arrays)
    return 0, 0


def is_within(type):
    if type[0] == ENUM:
        return type[1] > 0
    if type[0] == STRUCT:
        if not 1 <= len(type[1]) <= 32 or not all(map(is_within, type[1])):
            return False
    elif type[0] == ARRAY:
        if not 1 <= type[1] <= 1024 or not is_within(type[2]):
            return False
    deep, arrays = depths(type)
    return size(type) <= 4096 and deep <= 16 and arrays <= 7


def is_dynamic(argument):
    return argument[0] in (STRING, SIZED)


def is_argument_within(argument):
    if not is_dynamic(argument):
        return is_within(argument)
    return 1 <= argument[1] <= 4096 and (argument[0] == STRING or is_within(argument[2]))


def greatest(arguments):
    """The longest payload in the declared order."""
    end, behind = 0, False
    for it in arguments:
        if is_dynamic(it):
            end = up(end, 8) + 8 + it[1] * (1 if it[0] == STRING else size(it[2]))
        else:
            end = up(end, 8 if behind else alignment(it)) + size(it)
        behind = is_dynamic(it)
    return end


class Compiler:
    """A message's code: what is emitted for each scalar, and zeros."""

    def __init__(self, receives):
        self.receives, self.ops = receives, []

    def add(self, op, operand=0):
        self.ops.append((op, operand))

    def zeros(self, count):
        if count:
            self.add(0x15 if self.receives else 2, count)

    def type(self, type):
        if type[0] == ARRAY:
            self.add(TIMES, type[1])
            self.type(type[2])
            self.add(BACK)
        elif type[0] == STRUCT:
            end = 0
            for field in type[1]:
                self.zeros(up(end, alignment(field)) - end)
                self.type(field)
                end = up(end, alignment(field)) + size(field)
            self.zeros(up(end, alignment(type)) - end)
        elif not self.receives:
            self.add(1, size(type))
        elif type[0] in (BOOL, CHAR):
            self.add(0x12 if type[0] == BOOL else 0x14)
        elif type[0] == ENUM:
            self.add(0x13, type[1])
        else:
            self.add(0x11, size(type))

    def dynamic(self, argument):
        self.add(ALIGN)
        self.add(0x16 if self.receives else 4, argument[1])
        self.add(EACH)
        if argument[0] == SIZED:
            self.type(argument[2])
        elif self.receives:
            self.add(0x17)
        else:
            self.add(1, 1)
        self.add(BACK)

    def message(self, arguments, plan):
        if plan == 2:
            fixed = [it for it in arguments if not is_dynamic(it)]
            arguments = sorted(fixed, key=lambda it: -alignment(it)) + [it for it in arguments if is_dynamic(it)]
        end, behind = 0, False
        for it in arguments:
            if is_dynamic(it):
                self.dynamic(it)
                end, behind = 0, True
                continue
            if behind:
                self.add(ALIGN)
            else:
                self.zeros(up(end, alignment(it)) - end)
                end = up(end, alignment(it))
            self.type(it)
            end, behind = end + size(it), False
        self.add(0x18 if self.receives else 8)
        return self.ops


def read(data):
    """The interface's name, the plan and the messages of an image; or a fault is raised."""
    reader = Reader(data)
    if reader.take(4) != b"FLND":
        raise Refused(80)
    plan = reader.number(2)
    if plan not in (1, 2):
        raise Refused(81)
    name, messages = reader.name(), []
    for _ in range(reader.number_within(2, 0, 256)):
        word = reader.name()
        arguments = [reader.argument() for _ in range(reader.number_within(1, 0, 32))]
        if not all(map(is_argument_within, arguments)) or greatest(arguments) > 32768:
            raise Refused(83)
        if word in [it[0] for it in messages]:
            raise Refused(83)
        messages.append((word, arguments))
    codes = [(reader.code(SEND), reader.code(RECEIVE)) for _ in messages]
    if reader.at < len(data):
        raise Refused(85)
    for (_, arguments), (send, receive) in zip(messages, codes):
        if send != Compiler(False).message(arguments, plan) or receive != Compiler(True).message(arguments, plan):
            raise Refused(84)
    return name, plan, messages


def answer(data):
    try:
        read(data)
    except Refused as fault:
        return fault.args[0]
    return 0


def write(name, plan, messages):
    """The image of an interface under a plan."""

    def of(number, count):
        return number.to_bytes(count, "little")

    def word(name):
        return of(len(name), 1) + name

    def type(it):
        if it[0] == STRUCT:
            return of(STRUCT, 1) + of(len(it[1]), 1) + b"".join(map(type, it[1]))
        parts = [of(it[0], 1), *[of(number, 2) for number in it[1:2]], *map(type, it[2:3])]
        return b"".join(parts)

    def code(ops):
        return of(len(ops), 4) + b"".join(of(op, 1) + of(operand, 2) for op, operand in ops)

    image = b"FLND" + of(plan, 2) + word(name) + of(len(messages), 2)
    for name, arguments in messages:
        image += word(name) + of(len(arguments), 1) + b"".join(map(type, arguments))
    for _, arguments in messages:
        image += b"".join(code(Compiler(receives).message(arguments, plan)) for receives in (False, True))
    return image


PING = bytes.fromhex("464c4e440100016901000470696e6701070200000001040008000002000000110400180000")

# Messages of many arguments; types in types; strings and sized arrays.
TEXTS = [
    b"""interface wide {
    message all(uint8 a, int8 b, bool c, char d, uint16 e, int16 f, uint32 g, int32 h, iref i, uint64 j, int64 k, errval l);
    rpc ask(in uint32 x, in string s[40], out int64 y, out uint8 rest[n, 300]);
    message mixed(uint8 a, string s, uint16 b, string t[9], uint64 c);
    message nop();
}""",
    b"""interface deep {
    typedef enum { red, green, blue } colour;
    typedef struct { uint8 a; uint16 b; colour c; } pair;
    typedef pair row[4];
    typedef struct { row r; bool b; row s[2]; } table;
    typedef struct { table t[2]; size n; } tables;
    message one(tables t);
    message some(pair p[n, 12], colour c, row r);
}""",
    b"""interface names {
    message a(string s);
    message a_longer_name_for_a_message(string s[1]);
    message b(uint64 x[n, 4095]);
    message c(bool x[n], bool y[m], char z[k, 1]);
    rpc d(in uintptr p, out intptr q);
}""",
]


def edited(data, random):
    """The bytes with one to three edits: a bit turned, a byte set, taken out, put in; or the end cut off."""
    data = bytearray(data)
    for _ in range(random.randint(1, 3)):
        kind, at = random.randrange(16), random.randrange(len(data) or 1)
        if not data or kind == 0:
            data.insert(random.randint(0, len(data)), random.randrange(256))
        elif kind == 1:
            del data[at]
        elif kind == 2:
            del data[at:]
        elif kind < 6:
            data[at] ^= 1 << random.randrange(8)
        else:
            data[at] = random.randrange(256 if kind < 11 else 36)
    return bytes(data)
