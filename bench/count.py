#!/usr/bin/env python3
"""count.py LISTING TRACE-1 TRACE-2

What one call costs, from two traces of one program: TRACE-1 of a run with n
calls and TRACE-2 of a run with n + 1. A trace has a line for each executed
instruction (qemu-x86_64 -one-insn-per-tb -d exec,nochain), LISTING is what
objdump -d --no-show-raw-insn prints of the program, which must be static.

Prints two numbers: the executed instructions, and those of them that read
memory.
"""

import collections
import re
import sys

# Prefixes that objdump writes as words before the instruction.
PREFIXES = {
    'rep', 'repz', 'repnz', 'lock', 'bnd', 'notrack', 'data16', 'addr32',
    'cs', 'ds', 'es', 'ss', 'fs', 'gs', 'xacquire', 'xrelease',
}
# These read memory though none of their operands says so: the stack, (%rsi).
READS = re.compile(r'(ret|leave|pop|iret|popf)[a-z]*$')
STRINGS_THAT_READ = re.compile(r'(movs|lods|cmps|scas|outs)[bwlq]?$')
# These name an address and do not read what is there.
NO_READ = re.compile(r'(lea|nop|prefetch|clflush|clwb|endbr|invlpg|stos)')
# These only write to a memory operand if it is their last one. Everything else
# that writes to memory reads it before.
STORES = re.compile(
    r'(v?mov[a-z0-9]*|set[a-z]+|v?extract[a-z0-9]*|v?pextr[bdqw]|v?maskmov[a-z0-9]*'
    r'|v?pmov[a-z0-9]*|v?compress[a-z0-9]*|v?pcompress[a-z0-9]*|v?scatter[a-z0-9]*'
    r'|fn?st[a-z0-9]*|fist[a-z0-9]*|fn?save|fxsave[a-z0-9]*|xsave[a-z0-9]*|v?stmxcsr'
    r'|kmov[bwdq]|sgdt|sidt|sldt|str|smsw|pop[a-z]*)$')


def split(operands):
    """Operands at the commas that stand in no parentheses."""
    parts, depth, part = [], 0, ''
    for c in operands:
        if c == ',' and depth == 0:
            parts.append(part.strip())
            part = ''
            continue
        depth += (c == '(') - (c == ')')
        part += c
    if part.strip():
        parts.append(part.strip())
    return parts


def is_memory(operand):
    """Whether an operand in AT&T syntax is a place in memory."""
    operand = operand.split('{')[0].lstrip('*').strip()
    if operand.startswith('$'):
        return False
    if operand.startswith('%'):
        return ':' in operand  # %fs:0x28
    return True  # 8(%rax), (%rax,%rbx,8), 0x4b2000


def reads_memory(text):
    text = re.sub(r'\s*(#|<).*', '', text.strip())
    words = text.split(None, 1)
    while words and (words[0] in PREFIXES or words[0].startswith('rex')):
        words = words[1].split(None, 1) if len(words) > 1 else []
    if not words:
        return False
    name, operands = words[0], split(words[1]) if len(words) > 1 else []
    if READS.match(name):
        return True
    if STRINGS_THAT_READ.match(name) and any('(%rsi)' in o or '(%rdi)' in o for o in operands):
        return True
    if NO_READ.match(name):
        return False
    if re.match(r'(j|call|loop|xbegin)', name):
        # Only an indirect one through memory reads its target.
        return bool(operands) and operands[0].startswith('*') and is_memory(operands[0])
    places = [i for i, operand in enumerate(operands) if is_memory(operand)]
    if not places:
        return False
    last = len(operands) - 1
    if STORES.match(name) and places == [last] and (last > 0 or not name.startswith('v')):
        return False
    return True


def executed(trace):
    counts = collections.Counter()
    with open(trace, errors='replace') as lines:
        for line in lines:
            if line.startswith('Trace'):
                counts[int(line.split('/', 2)[1], 16)] += 1
    return counts


def main():
    listing, first, second = sys.argv[1:]
    before, after = executed(first), executed(second)
    more = {pc: after[pc] - before[pc] for pc in set(before) | set(after)}
    more = {pc: n for pc, n in more.items() if n != 0}
    instructions, reads, known = 0, 0, set()
    with open(listing) as lines:
        for line in lines:
            address, colon, text = line.partition(':\t')
            if not colon:
                continue
            pc = int(address, 16)
            if pc in more and pc not in known:
                known.add(pc)
                instructions += more[pc]
                if reads_memory(text):
                    reads += more[pc]
    if len(known) != len(more):
        sys.exit('count.py: executed, but not in the listing: %s'
                 % ' '.join('%x' % pc for pc in sorted(set(more) - known)[:8]))
    print(instructions, reads)


if __name__ == '__main__':
    main()
