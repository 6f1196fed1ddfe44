#!/usr/bin/env python3
"""Instructions of calls that are received: receiving-count.py FOLDER PROGRAM [PROGRAM]

PROGRAM is `flounder`, as bench/unproved/count builds it in three minutes. One script has all rows: an interface, a binding, two
calls, and then so many more behind an empty `idl` block, which is refused; valgrind writes what was counted whenever a text is
lexed, so each row's calls stand by themselves. Of each row it prints the instructions of a line's way in all and of
`Reassemblies::take` with what it calls, a call for all its fragments; of two programs both, and the second less the first.
Each call that was handled is compared with the one that was made.
"""

import os
import re
import subprocess
import sys

TAKE = "fl_machine::reassemblies::Reassemblies::take"
NUMBERS = {"uint8": 200, "uint16": 60000, "int16": -30000, "uint32": 4000000000, "int32": -2000000000,
           "uint64": 0x0123456789AB, "int64": -0x0123456789AB}
MIXED = ["uint8", "uint64", "int16", "uint64", "uint32", "int64", "bool", "uint16"]
SMALL = ["uint8", "int16", "uint32", "uint64", "bool", "uint16", "int32", "char"]
FOUR = "typedef struct { uint8 a; uint64 b; int32 c; uint16 d[2]; } s;"
TWO = "typedef struct { uint64 a; uint64 b; } s;"


def number(kind, k):
    return {"bool": "1", "char": "65"}.get(kind) or str(NUMBERS[kind] + k % 50)


def scalars(name, kinds, plan=1):
    args = ", ".join(f"{kind} a{k}" for k, kind in enumerate(kinds))
    values = ", ".join(number(kind, k) for k, kind in enumerate(kinds))
    return name, plan, f"message m({args});", f"m({values})", 8 * len(kinds)


def text(count):
    return f"text {count}", 1, f"message m(string s[{count}]);", 'm("' + "abcdefghij" * (count // 10) + '")', 8 + count


def sized(kind, count, width):
    values = ", ".join(number(kind, k) for k in range(count))
    return f"sized {kind} {count}", 1, f"message m({kind} a[n, {count}]);", f"m([{values}])", 8 + width * count


def structs(count, declared, one, size, name):
    values = ", ".join([one] * count)
    return f"{count} structs {name}", 1, f"{declared} message m(s a[n, {count}]);", f"m([{values}])", 8 + size * count


LETTERS = "abcdefghij" * 10
ROWS = [
    *(scalars(f"uint64 x{k}", ["uint64"] * k) for k in (8, 14, 15, 16, 24, 32)),
    *(scalars(f"int64 x{k}", ["int64"] * k) for k in (8, 16)), *(scalars(f"uint32 x{k}", ["uint32"] * k) for k in (16, 32)),
    scalars("int16 x32", ["int16"] * 32), *(scalars(f"uint8, uint64 x{k}", ["uint8", "uint64"] * k) for k in (4, 7, 10)),
    scalars("uint32, uint64 x4", ["uint32", "uint64"] * 4), scalars("uint64, uint8 x4", ["uint64", "uint8"] * 4),
    scalars("7 uint64, uint8", ["uint64"] * 7 + ["uint8"]), scalars("uint8, 7 uint64", ["uint8"] + ["uint64"] * 7),
    scalars("mixed x2", MIXED * 2), scalars("mixed x3", MIXED * 3), scalars("small x3", SMALL * 3), scalars("small x4", SMALL * 4),
    *(text(k) for k in (60, 100, 300, 1000)),
    ("uint32, text, uint64", 1, "message m(uint32 a, string s[100], uint64 b);", f'm(7, "{LETTERS}", 9)', 132),
    *(sized("uint64", k, 8) for k in (10, 64, 512)), sized("int32", 24, 4), sized("uint8", 300, 1),
    structs(5, FOUR, "{1, 2, -3, [4, 5]}", 32, "of four"), structs(100, FOUR, "{1, 2, -3, [4, 5]}", 32, "of four"),
    structs(100, TWO, "{1, 2}", 16, "of two uint64"),
    *(scalars(f"plan 2 uint64 x{k}", ["uint64"] * k, 2) for k in (8, 16)), scalars("plan 2 uint8, uint64 x7", ["uint8", "uint64"] * 7, 2),
    scalars("plan 2 uint32 x16", ["uint32"] * 16, 2), scalars("plan 2 mixed x2", MIXED * 2, 2),
    scalars("plan 2 7 uint64, 4 uint8", ["uint64"] * 7 + ["uint8"] * 4, 2),
    ("plan 2 text, uint64", 2, "message m(string s[100], uint64 b);", f'm("{LETTERS}", 9)', 124),
    scalars("one uint64", ["uint64"]), scalars("7 uint64", ["uint64"] * 7), scalars("plan 2 uint8, uint64", ["uint8", "uint64"], 2), text(20),
]


def script():
    """Returns the script, how many calls of each row are counted, and the calls that are to be handled."""
    parts, counts, calls = [], [], []
    for k, (_, plan, message, call, size) in enumerate(ROWS):
        frags = -(-size // 56)
        one = f"call p{k}.c {call}\n" + f"write p{k}.c\n" * frags + f"turn b{k}\n" * frags
        count = max(5, min(60, 60000 // len(one)))
        parts.append(f"idl{' 1' if plan == 1 else ''}\ninterface i{k} {{ {message} }}\n.\ndisp a{k} 0\ndisp b{k} 0\n")
        parts.append(f"export s{k} b{k} i{k}\nbind p{k} a{k} i{k} s{k} local 256\n" + one * 2 + "idl\n;\n.\n" + one * count)
        counts.append(count)
        calls += [f"handle p{k}.s {call}"] * (count + 2)
    return "".join(parts), counts, calls


def costs(path):
    """Returns what a file of valgrind counts: in all, and in TAKE with what it calls."""
    total, taken, function = 0, 0, None
    for line in open(path, encoding="utf-8", errors="replace"):
        if line.startswith("fn="):
            function = line[3:].strip()
        elif line.startswith(("totals:", "summary:")):
            total = int(line.split()[1])
        elif function == TAKE and re.match(r"[-+*\d]", line) and len(line.split()) > 1:
            taken += int(line.split()[1])
    return total, taken


def run(program, folder):
    """Returns the costs of each row's calls, a call."""
    asked, counts, calls = script()
    out = os.path.join(folder, "counted")
    words = ["valgrind", "--tool=callgrind", "--compress-strings=no", "--compress-pos=no", "--dump-before=fl_lex::lexer::lex"]
    for name in os.listdir(folder):
        if name.startswith("counted"):
            os.remove(os.path.join(folder, name))
    if os.environ.get("ANSWERS"):
        words = []
    else:
        words.append(f"--callgrind-out-file={out}")
    done = subprocess.run([*words, program, "exec"], input=asked, capture_output=True, text=True)
    handled = [line for line in done.stdout.split("\n") if line.startswith("handle ")]
    if handled != calls:
        wrong = next((k for k, (one, other) in enumerate(zip(handled, calls)) if one != other), min(len(handled), len(calls)))
        sys.exit(f"{program} handles other calls: {len(handled)} of {len(calls)}, the first at {wrong}: {calls[wrong : wrong + 1]}")
    if not words:
        return None
    # The first file is of what comes before the first text; then each row has two, the second of them that of its calls.
    paths = [f"{out}.{2 * k + 3}" for k in range(len(ROWS))]
    told = [costs(path if os.path.exists(path) else out) for path in paths]
    return [(total / count, taken / count) for (total, taken), count in zip(told, counts)]


def main(folder, *programs):
    os.makedirs(folder, exist_ok=True)
    found = [run(program, folder) for program in programs]
    if None in found:
        return
    for k, row in enumerate(ROWS):
        told = [one[k] for one in found]
        line = f"{row[0]:26}" + "".join(f"{total:12.0f}{taken:10.0f}" for total, taken in told)
        if len(told) == 2:
            line += f"{told[1][0] - told[0][0]:+10.0f}{told[1][1] - told[0][1]:+8.0f}"
        print(line)


if __name__ == "__main__":
    if len(sys.argv) < 3:
        sys.exit(__doc__)
    main(*sys.argv[1:])
