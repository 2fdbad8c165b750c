#!/usr/bin/env python3
"""The calls and the stack of a compiled archive: archive.py [-limit BYTES] ARCHIVE

Reads the disassembly and refuses the archive unless
  - no function reaches itself, by calls or by jumps to functions (a tail call is a jump);
  - every call and every jump to a function names its target: nothing is called through a register or memory;
  - a jump through a register goes by a jump table that leads back into its own function, behind its entry;
  - no function's address is taken, so that none can be called unseen;
  - the stack pointer moves only by amounts that stand in the code.
Then it adds up the frames along the deepest chain from each exported function and holds each sum to the limit: an upper
bound of the stack that a call can use. Every push and every sub counts once, though some exclude each other; a function that
calls none may also keep up to 128 bytes below the stack pointer, which count as well.
"""
import argparse
import collections
import re
import subprocess
import sys

# What libc's memset, memcpy, memmove and memcmp may take: they are leaves; glibc's push nothing.
OUTSIDE = {"memset": 64, "memcpy": 64, "memmove": 64, "memcmp": 64, "bcmp": 64}
RETURN = 8  # the return address that a call leaves

FUNCTION = re.compile(r"^([0-9a-f]+) <(.+)>:$")
LINE = re.compile(r"^ *([0-9a-f]+):\t(?:[0-9a-f]{2} )+ *\t?(.*)$")
RELOCATION = re.compile(r"^\t+([0-9a-f]+): (R_\w+)\t(.+?)(?:([+-])0x([0-9a-f]+))?$")
PREFIXES = re.compile(r"^(?:(?:notrack|bnd|data16|cs|ds|addr32|rex\.?\w*) +)*")
BELOW = re.compile(r"-0x([0-9a-f]+)\(%rsp[,)]")
SECTION = re.compile(r"^Disassembly of section (.+):$")


class Bad(Exception):
    """What the archive is refused for."""


Instruction = collections.namedtuple("Instruction", "at text relocation")


class Function:
    def __init__(self, name, section):
        self.name, self.section, self.code = name, section, []
        self.calls = set()
        self.frame = 0
        self.tables = set()  # (section, offset) of the jump tables whose address it loads


def run(*words):
    return subprocess.run(words, stdout=subprocess.PIPE, check=True, text=True).stdout


def disassemble(archive):
    """Functions by name, with their instructions and relocations."""
    functions, section, function = {}, None, None
    for line in run("objdump", "-dr", archive).splitlines():
        if found := SECTION.match(line):
            section, function = found.group(1), None
        elif found := FUNCTION.match(line):
            name = found.group(2)
            if name in functions:
                raise Bad(f"two functions are named {name}")
            function = functions[name] = Function(name, section)
        elif found := RELOCATION.match(line):
            last = function.code.pop()
            addend = int(found.group(5) or "0", 16) * (-1 if found.group(4) == "-" else 1)
            function.code.append(last._replace(relocation=(found.group(2), found.group(3), addend)))
        elif (found := LINE.match(line)) and found.group(2):
            function.code.append(Instruction(int(found.group(1), 16), found.group(2).strip(), None))
    if not functions:
        raise Bad("no function was found")
    return functions


def data_relocations(archive):
    """By data section: (offset, symbol, addend) of every word that the linker fills in."""
    found, section = collections.defaultdict(list), None
    for line in run("readelf", "-rW", archive).splitlines():
        if head := re.match(r"Relocation section '\.rela(\.[^']+)'", line):
            section = head.group(1)
        elif entry := re.match(r"([0-9a-f]{16})  [0-9a-f]{16} (R_\w+) +[0-9a-f]{16} (\S+)(?: ([+-]) ([0-9a-f]+))?$", line):
            addend = int(entry.group(5) or "0", 16) * (-1 if entry.group(4) == "-" else 1)
            found[section].append((int(entry.group(1), 16), entry.group(3), addend))
    return {name: words for name, words in found.items() if not name.startswith((".text", ".eh_frame", ".debug"))}


def target_of(function, instruction, functions):
    """The function that a call or jump leads to, or None for a place inside its own."""
    if instruction.relocation:
        kind, symbol, addend = instruction.relocation
        if kind not in ("R_X86_64_PLT32", "R_X86_64_PC32") or addend != -4:
            raise Bad(f"{function.name}: {instruction.text} with {kind} {symbol} {addend}")
        # A function of the archive's own may be named by its section, at whose front it stands.
        fronts = [f.name for f in functions.values() if f.section == symbol and f.code[0].at == 0]
        return fronts[0] if fronts else symbol
    place = re.search(r"<(.+?)(\+0x[0-9a-f]+)?>$", instruction.text)
    if not place:
        raise Bad(f"{function.name}: no target in {instruction.text}")
    name, inside = place.groups()
    if name == function.name and inside:
        return None
    if inside or name not in functions:
        raise Bad(f"{function.name}: {instruction.text} leads into another function")
    return name


def follow_table(function, index):
    """A jump through a register is allowed behind `movslq (table,i,4),reg` and `add table,reg`."""
    register = function.code[index].text.split("*")[1]
    before = [instruction.text for instruction in function.code[max(0, index - 12):index]]
    add = [re.fullmatch(rf"add +(%\w+),{register}", text) for text in before]
    table = next((found.group(1) for found in reversed(add) if found), None)
    if not table or not any(re.fullmatch(rf"movslq \({table},%\w+,4\),{register}", text) for text in before):
        raise Bad(f"{function.name}: indirect jump {function.code[index].text}")
    return True


def read_calls(functions, tables):
    for function in functions.values():
        indirect = False
        for index, instruction in enumerate(function.code):
            mnemonic = PREFIXES.sub("", instruction.text).split()[0]
            if mnemonic.startswith(("call", "jmp", "j", "loop")):
                if "*" in instruction.text:
                    if mnemonic.startswith("call"):
                        raise Bad(f"{function.name}: indirect call {instruction.text}")
                    indirect = follow_table(function, index)
                    continue
                called = target_of(function, instruction, functions)
                if called:
                    function.calls.add(called)
            elif instruction.relocation:
                _, symbol, addend = instruction.relocation
                if symbol in functions or symbol.startswith(".text"):
                    raise Bad(f"{function.name}: takes the address of {symbol}")
                if symbol in tables:
                    function.tables.add((symbol, addend + 4))
        if indirect and not function.tables:
            raise Bad(f"{function.name}: an indirect jump without a jump table")


def check_tables(functions, tables):
    """Each jump table is used by one function, and each of its entries leads behind that function's entry."""
    for section, words in tables.items():
        users = [f for f in functions.values() if any(name == section for name, _ in f.tables)]
        if len(users) != 1:
            raise Bad(f"the jump tables of {section} serve {len(users)} functions")
        user = users[0]
        starts = sorted(offset for name, offset in user.tables if name == section)
        places = {instruction.at for instruction in user.code}
        entry = user.code[0].at
        for offset, symbol, addend in words:
            # An entry holds target - table: the linker adds what lies between the table and the entry itself.
            table = max((start for start in starts if start <= offset), default=None)
            if symbol != user.section or table is None:
                raise Bad(f"{section}: an entry leads to {symbol}")
            target = addend - (offset - table)
            if target not in places or target == entry:
                raise Bad(f"{section}: an entry leads to {symbol}+{target:#x}, not into {user.name}")


def signed(digits):
    value = int(digits, 16)
    return value - 2**64 if value >= 2**63 else value


def frame_of(function):
    """Return address, pushes, subs and what lies below the stack pointer. A probed frame grows in a loop: `r11 = rsp - N`,
    then page by page down to it."""
    total, probed, below = RETURN, False, 0
    for index, instruction in enumerate(function.code):
        text = instruction.text
        words = text.split(None, 1)
        operands = words[1] if len(words) > 1 else ""
        below = max([below] + [int(digits, 16) for digits in BELOW.findall(operands)])
        if words[0].startswith("push"):
            total += 8
        elif found := re.fullmatch(r"sub +\$0x([0-9a-f]+),%r11", text):
            if function.code[index - 1].text.split() != ["mov", "%rsp,%r11"]:
                raise Bad(f"{function.name}: {text} without mov %rsp,%r11 before it")
            total += int(found.group(1), 16)
            probed = True
        elif found := re.fullmatch(r"(sub|add) +\$0x([0-9a-f]+),%rsp", text):
            loop = [i.text.split(None, 1) for i in function.code[index + 1:index + 4]]
            down = signed(found.group(2)) * (1 if found.group(1) == "sub" else -1)
            if probed and loop[1:2] == [["cmp", "%r11,%rsp"]]:
                probed = False  # counted with r11
            else:
                total += max(0, down)
        elif found := re.fullmatch(r"and +\$0x([0-9a-f]+),%rsp", text):
            total += -signed(found.group(1))
        elif operands.endswith("%rsp") and words[0] not in ("cmp", "test") or words[0] in ("enter", "leave"):
            raise Bad(f"{function.name}: {text} moves the stack pointer")
    return total + below


def deepest(name, functions, chain=()):
    """Bytes and names of the deepest chain from a function on."""
    if name in chain:
        raise Bad("reaches itself: " + " -> ".join([*chain[chain.index(name):], name]))
    if name not in functions:
        if name not in OUTSIDE:
            raise Bad(f"{chain[-1]} calls {name}, which is not in the archive")
        return OUTSIDE[name], (name,)
    below = [deepest(called, functions, (*chain, name)) for called in sorted(functions[name].calls)]
    bytes_below, names = max(below, default=(0, ()))
    return functions[name].frame + bytes_below, (name, *names)


def exported(archive):
    return [line.split()[2] for line in run("nm", "-g", "--defined-only", archive).splitlines() if " T " in line]


def judge(archive):
    """For each export its bound and chain [(function, frame)], and a line about the whole; Bad if the archive is refused."""
    functions = disassemble(archive)
    tables = data_relocations(archive)
    read_calls(functions, tables)
    check_tables(functions, tables)
    for function in functions.values():
        function.frame = frame_of(function)
    for name in functions:
        deepest(name, functions)  # also what no export reaches
    rows = {}
    for name in exported(archive):
        size, chain = deepest(name, functions)
        rows[name] = size, [(f, functions[f].frame if f in functions else OUTSIDE[f]) for f in chain]
    entries = sum(map(len, tables.values()))
    return rows, f"archive: {len(functions)} functions, none reaches itself; {entries} jump table entries stay inside"


def main():
    asked = argparse.ArgumentParser()
    asked.add_argument("-limit", type=int, default=60000)
    asked.add_argument("archive")
    asked = asked.parse_args()
    try:
        rows, about = judge(asked.archive)
    except Bad as bad:
        sys.exit(f"archive: {bad}")
    for name, (size, chain) in rows.items():
        print(f"{name} {size}: " + " -> ".join(f"{f} {frame}" for f, frame in chain))
        if size > asked.limit:
            sys.exit(f"archive: {name} is over the limit of {asked.limit} bytes")
    print(about)


if __name__ == "__main__":
    main()
