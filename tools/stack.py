#!/usr/bin/env python3
"""The most stack, in bytes, that each call of a libesfenruk.a takes, worked out from its machine code: tools/stack.py ARCHIVE.

A function's frame is all that it pushes, all that it takes off the stack pointer and what it uses below that pointer, wherever this stands in
it. A call in it takes the return address besides, and what the called function takes; a jump to another function counts as the same without the
address. What cannot be read so ends this with a message: recursion, a stack pointer that is set in another way, a call or a jump through a
pointer. The one jump through a pointer that can be read is by a function's own table: each table leads into its function alone, and nothing takes a
function's address.

A line is a call, its bytes, and the functions on the way to them; the last line is the most of all calls.
"""
import functools
import re
import subprocess
import sys

WORD = 8  # a return address, a register that is pushed
# What the C library's functions are taken to need beside their return address; glibc's and musl's need a few words at most.
OUTSIDE = {"memcpy": 128, "memset": 128}

SECTION = re.compile(r"Disassembly of section (\S+):$")
FUNCTION = re.compile(r"[0-9a-f]+ <(.*)>:$")
INSTRUCTION = re.compile(r" *[0-9a-f]+:\t(?:(?:notrack|bnd|repz?|data16|cs) )*([^\t#]*)")
RELOCATION = re.compile(r"\t\t\t[0-9a-f]+: \w+\t(.*?)(?:[+-]0x[0-9a-f]+)?$")
TABLE = re.compile(r"RELOCATION RECORDS FOR \[(.*)\]:$")
ENTRY = re.compile(r"[0-9a-f]+ +R_\w+ +(.*?)(?:[+-]0x[0-9a-f]+)?$")
CALL = re.compile(r"callq?\b")
JUMP = re.compile(r"j\w+")
JUMP_THROUGH_POINTER = re.compile(r"jmpq? +\*")
PUSH = re.compile(r"pushq? ")
MOVE = re.compile(r"(sub|add)q? +\$(-?0x[0-9a-f]+),%rsp$")
USED = re.compile(r"(leave|enter|pushf|popf)|xchg.*%[er]?sp\b|.*%[er]?sp$")
BELOW = re.compile(r"-0x([0-9a-f]+)\(%rsp")


def stop(why):
    sys.exit(f"stack.py: {why}")


def lines_of(archive, *flags):
    return subprocess.check_output(["objdump", *flags, archive], text=True).splitlines()


def code_in(archive):
    """Each function's instructions, each with the name that it is linked to, or None."""
    code, section = {}, None
    for line in lines_of(archive, "-dr", "--no-show-raw-insn"):
        if found := SECTION.match(line):
            section = found[1]
        elif found := FUNCTION.match(line):
            name = found[1]
            if section != f".text.{name}" or name in code:
                stop(f"{name} has no section of its own")
            code[name] = []
        elif found := RELOCATION.match(line):
            code[name][-1] = code[name][-1][0], found[1].removeprefix(".text.")
        elif found := INSTRUCTION.match(line):
            code[name].append((found[1].strip(), None))
    return code


def with_tables(archive, code):
    """The functions that have tables to jump by."""
    names, place = set(), None
    for line in lines_of(archive, "-r"):
        if found := TABLE.match(line):
            place = found[1]
        elif (found := ENTRY.match(line)) and not place.startswith(".text."):
            name = found[1].removeprefix(".text.")
            if name not in code or place != f".rodata.{name}":
                stop(f"{place} holds the address of {found[1]}")
            names.add(name)
    return names


def taken(instruction):
    """What an instruction takes of the stack; what it gives back counts as nothing."""
    if found := MOVE.match(instruction):
        number = (int(found[2], 16) + 2**63) % 2**64 - 2**63  # objdump writes -128 as 0xffffffffffffff80
        return max(number if found[1] == "sub" else -number, 0)
    if PUSH.match(instruction):
        return WORD
    if USED.match(instruction):
        stop(f"a stack pointer used by: {instruction}")
    return 0


def lead(instruction, linked, code):
    """The function that an instruction leads to and the bytes of a return address to it, or None."""
    called = bool(CALL.match(instruction))
    goes = called or JUMP.match(instruction)
    known = linked in code or linked in OUTSIDE
    if goes and known:
        return linked, WORD * called
    if called or (goes and linked):
        stop(f"a call of a function that is not known: {instruction} {linked or ''}")
    if known:
        stop(f"the address of {linked} taken by: {instruction}")
    return None


def frame(name, instructions, tables):
    """The bytes of a function's frame."""
    if name not in tables and any(JUMP_THROUGH_POINTER.match(instruction) for instruction, _ in instructions):
        stop(f"{name} jumps through a pointer and has no table")
    below = (int(offset, 16) for instruction, _ in instructions for offset in BELOW.findall(instruction))
    return sum(taken(instruction) for instruction, _ in instructions) + max(below, default=0)


def most_of(code, tables):
    """The function that gives, for a function's name, the most that it takes beside its return address, and the functions on the way."""

    @functools.cache
    def most(name, above=()):
        if name in above:
            stop(f"recursion: {' > '.join((*above, name))}")
        if name in OUTSIDE:
            return OUTSIDE[name], (name,)
        leads = {lead(instruction, linked, code) for instruction, linked in code[name]} - {None}
        ways = [(address + most(to, (*above, name))[0], most(to, (*above, name))[1]) for to, address in leads]
        depth, way = max(ways, default=(0, ()))
        return frame(name, code[name], tables) + depth, (name, *way)

    return most


def main():
    if len(sys.argv) != 2:
        stop("usage: tools/stack.py ARCHIVE")
    code = code_in(sys.argv[1])
    most = most_of(code, with_tables(sys.argv[1], code))
    calls = {name: most(name) for name in sorted(code) if name.startswith("esfenruk_")}
    if not calls:
        stop(f"there is no esfenruk_* in {sys.argv[1]}")
    for name, (depth, way) in calls.items():
        print(f"{name:<22} {depth + WORD:5}  {' > '.join(way[1:])}".rstrip())
    print(max(depth for depth, _ in calls.values()) + WORD)


main()
