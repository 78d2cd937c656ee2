#!/usr/bin/env python3
"""usage: bench/stack.py path/to/libpimlasut.a

Prints for each function for C how many bytes of stack a call can take at most, its return address with it: the deepest of all paths
through the code, whatever the input. Frames are of fixed size, and no function calls itself or one that is not known when it is
compiled; the script stops if that is ever otherwise. Of memcpy and memset, which are the C library's, the return address is counted.

OBJDUMP   another disassembler than x86_64-linux-gnu-objdump or, on x86-64, objdump
"""
import os
import re
import shutil
import subprocess
import sys

LIBC = {"memcpy", "memset", "memmove"}


def stop(why):
    sys.exit(f"bench/stack.py: {why}")


def disassembler():
    for name in (os.environ.get("OBJDUMP"), "x86_64-linux-gnu-objdump", "objdump"):
        if name and shutil.which(name):
            return name
    stop("needs x86_64-linux-gnu-objdump")


def functions(archive):
    """Each function's frame, and where it calls or jumps to: (name, whether the frame is still there)."""
    listing = subprocess.run([disassembler(), "-dr", "--no-show-raw-insn", archive], capture_output=True, text=True)
    if listing.returncode != 0:
        stop(listing.stderr.strip())
    frames, goes, name, last = {}, {}, None, ""
    for line in listing.stdout.splitlines():
        if head := re.match(r"[0-9a-f]+ <(.*)>:$", line):
            name = head[1]
            frames[name], goes[name] = 0, set()
        elif target := re.match(r"\s+[0-9a-f]+: R_X86_64_(PLT32|PC32)\s+(.*?)(-0x[0-9a-f]+)?$", line):
            word = last.split()[0] if last else ""
            if word == "call" or word == "jmp" or (word.startswith("j") and target[1] == "PLT32"):
                goes[name].add((target[2].removeprefix(".text."), word == "call"))
        elif code := re.match(r"\s+[0-9a-f]+:\s+(.*)$", line):
            last = code[1]
            if re.match(r"call\s+\*", last):
                stop(f"{name} calls a function that is not known: {last}")
            if re.match(r"push\s", last):
                frames[name] += 8
            elif size := re.match(r"sub\s+\$0x([0-9a-f]+),%rsp", last):
                frames[name] += int(size[1], 16)
            elif "%rsp" in last and re.match(r"(and|sub|lea)\s.*,%rsp$", last) and not re.match(r"lea\s+0x|lea\s+-0x\w+\(%rbp", last):
                stop(f"{name} moves the stack in another way: {last}")
    return frames, goes


def main():
    if len(sys.argv) != 2:
        sys.exit(__doc__.splitlines()[0])
    frames, goes = functions(sys.argv[1])
    deepest = {}

    def depth(name, within):
        """Of a call of it: the return address, its frame, and the deepest of what it calls."""
        if name in LIBC:
            return 8
        if name in within:
            stop(f"{name} calls itself")
        if name not in frames:
            stop(f"{name} is not in the archive")
        if name not in deepest:
            below = [depth(to, within | {name}) + (frames[name] if calls else -8) for to, calls in goes[name]]
            deepest[name] = 8 + max([frames[name]] + below)
        return deepest[name]

    for name in sorted(frames):
        if name.startswith("pim_"):
            print(f"{name:<18} {depth(name, frozenset())}")


main()
