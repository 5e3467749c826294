#!/usr/bin/env python3
"""Holds that decimal numbers are formed by doubling and adding: neither the code that forms them nor what it calls
multiplies or divides, as it was written and as it was compiled.

    sums_alone.py ARCHIVE OBJDUMP CODE..           CODE is a library's mir.json: its functions as the compiler gets them, the kit's core among them
    sums_alone.py --wrong ARCHIVE OBJDUMP CODE..   one thing wrong must be noticed, or this test shows nothing"""
import json
import re
import subprocess
import sys

# Where digits become a number, and where that becomes a length or a bare constant, as written. Compiled, the second is
# a part of what finds the item at the start of a text.
DIGITS = 'text_items::digits::decimal'
COUNTED = 'value_constants::counted'
ITEM = 'text_items::items::item_at'
# The function of the kit's core that adds limbs, which the digits reach.
LIMBS = 'core::int::checked::u64::overflowing_add'

# Shifts too are products and quotients, by powers of two. A function's or a type's name has `::`.
WRITTEN = re.compile(r'"(\w*(?:mul|div|rem|shl|shr)\w*)"', re.I)
# What is called, a function by its name or something else; and each name of a function.
CALLS = re.compile(r'"Call": \[')
NAMED = re.compile(r'"Fn": \["([^"]+)"')
CALLS_NAMED = re.compile(r'"Call": \[\{"Fn": \["')
# A shift by 32 is how the compiler multiplies or divides by half a limb.
COMPILED = re.compile(r'\s((?:v?p?i?mul|i?div|v?div)\w*\s|sh[lr][dx]?[bwlq]?\s+\$0x20,)')
# A call of another function, or by an address, of which nothing is known. A jump by an address is a `match`.
CALLED = re.compile(r'\sR_X86_64_PLT32\s+(?:\.text\.)?(\S+?)[-+]0x|\scall\w*\s+(\*\S+)')


def written(files):
    """The text of each function, by its name."""
    return {name: json.dumps(body) for file in files for name, body in json.load(open(file))}


def compiled(archive, objdump):
    """The instructions of each function of an archive."""
    command = [objdump, '-d', '-r', '--no-show-raw-insn', archive]
    listing = subprocess.run(command, capture_output=True, text=True, check=True).stdout
    parts = re.split(r'^[0-9a-f]+ <(.+)>:$', listing, flags=re.M)
    return dict(zip(parts[1::2], parts[2::2]))


def reached(functions, first, calls):
    """Those that a function calls, and these call, with itself; and what is called and is not there."""
    found, ahead, absent = {}, [first], set()
    while ahead:
        name = ahead.pop()
        if name not in functions:
            absent.add(name)
        elif name not in found:
            found[name] = functions[name]
            ahead += calls(functions[name])
    return found, absent


def faults(code, listing):
    """What is wrong, a sentence each."""
    for first in (DIGITS, COUNTED):
        found, absent = reached(code, first, NAMED.findall)
        yield from (f'{name} is called and was not written' for name in absent)
        for name, text in found.items():
            yield from (f'{name} has {sign}' for sign in WRITTEN.findall(text))
            if len(CALLS.findall(text)) != len(CALLS_NAMED.findall(text)):
                yield f'{name} calls what has no name'
    found, absent = reached(listing, ITEM, lambda text: [name or address for name, address in CALLED.findall(text)])
    yield from (f'{name} is called and is none of the archive' for name in absent)
    for name, text in found.items():
        yield from (f'{name} has the instruction {sign.strip()}' for sign in COMPILED.findall(text))


# A digit of one limb as it was compiled when it was multiplied by halves.
BY_HALVES = '''
  49:\tmov    %ebx,%r15d
  4c:\tlea    (%r15,%r15,4),%r15
  50:\tlea    (%r14,%r15,2),%r14
  54:\tshr    $0x20,%rbx
  58:\tlea    (%rbx,%rbx,4),%r15
  5c:\tmov    %r14d,%ebx
  5f:\tshr    $0x20,%r14
  63:\tlea    (%r14,%r15,2),%r14
  fc:\tshl    $0x20,%r14
 100:\tor     %r14,%rbx
'''


def wrong(code, listing):
    """The same with something wrong, each with its name."""
    sums = code[LIMBS]
    for sign in ('{"Mul": "Unsigned"}', '{"Div": "Unsigned"}', '{"Rem": "Unsigned"}', '"Shl"', '{"Shr": "Unsigned"}', '"WrapMul"'):
        yield f'{sign} as written', {**code, LIMBS: sums.replace('"WrapAdd"', sign, 1)}, listing
    call = '{"Fn": ["value_limbs::sums::sum"'
    other = {name: text.replace(call, '{"Fn": ["value_limbs::other"') for name, text in code.items()}
    yield 'a call of what was not written', other, listing
    unnamed = {name: text.replace(call, '{"Held": ["value_limbs::sums::sum"') for name, text in code.items()}
    yield 'a call of what has no name', unnamed, listing
    yield 'no such function as written', {name: text for name, text in code.items() if name != DIGITS}, listing
    yield 'no such function in the archive', code, {name: text for name, text in listing.items() if name != ITEM}
    lines = ['imul   $0xa,%rbx,%rbx', 'mulx   %rax,%rbx,%rcx', 'mul    %rbx', 'div    %rcx', 'idivl  0x8(%rsp)',
             'vpmuludq %ymm0,%ymm1,%ymm2', 'mulsd  %xmm0,%xmm1', 'shld   $0x20,%rax,%rbx', 'call   *%rax']
    called = ('__multi3', '.text.tenfold')
    lines += [f'call   5f <{ITEM}+0x5f>\n\t\t\t5b: R_X86_64_PLT32\t{name}-0x4' for name in called]
    tenfold = {'tenfold': '\n   0:\timul   $0xa,%rdi,%rax\n   4:\tret\n'}
    for line in lines:
        yield line, code, {**listing, **tenfold, ITEM: f'{listing[ITEM]}  5a:\t{line}\n'}
    yield 'products by halves', code, {**listing, ITEM: listing[ITEM] + BY_HALVES}


def main():
    mode = sys.argv[1:2] if sys.argv[1:2] == ['--wrong'] else []
    archive, objdump, *files = sys.argv[1 + len(mode):]
    code, listing = written(files), compiled(archive, objdump)
    said = list(faults(code, listing))
    if mode:
        said = [f'{name} is not noticed' for name, *given in wrong(code, listing) if not list(faults(*given))]
    if said:
        sys.exit('\n'.join(said))


main()
