"""The library's LLVM module as text, rewritten for wasm32. Rattle's compiler makes it for x86-64; that it means the same here is only tested, by web/test.

In memory two values of which the second is a pointer lie 8 bytes apart, also where a pointer has 4. Each rule has to find what it rewrites, and may leave
none of it: a module of another shape is refused, so that none is rewritten by half.
"""
import re

LAYOUT = 'e-m:e-p:32:32-p10:8:8-p20:8:8-i64:64-i128:128-n32:64-S128-ni:1:10:20'

# A load of two values of which the second is a pointer, as two loads.
PAIR = r'(?m)^  (%[\w.]+) = load \{ (i8|ptr), ptr \}, ptr (%[\w.]+), align 8$'
TWO_LOADS = '''  \\1.a = load \\2, ptr \\3, align 8
  \\1.p = getelementptr i8, ptr \\3, i64 8
  \\1.b = load ptr, ptr \\1.p, align 8
  \\1.c = insertvalue { \\2, ptr } poison, \\2 \\1.a, 0
  \\1 = insertvalue { \\2, ptr } \\1.c, ptr \\1.b, 1'''

# Each rule: what it rewrites, the text in its place, whether it stands there once alone, and what may not stand anywhere afterwards.
RULES = [
    (r'(?m)^target datalayout = .*', 'target datalayout = "%s"' % LAYOUT, True, None),
    (r'(?m)^target triple = .*', 'target triple = "wasm32-unknown-unknown"', True, None),
    (r', !noundef !\d+', '', False, '!noundef'),
    (r' noundef\b', '', False, 'noundef'),
    (r'= alloca ptr, align 8\b', '= alloca [8 x i8], align 8', False, 'alloca ptr'),
    (r'= ptrtoaddr ptr\b', '= ptrtoint ptr', False, 'ptrtoaddr'),
    (r' ?"probe-stack"="inline-asm"', '', False, '"probe-stack"'),
    (r' ?"stack-probe-size"="\d+"', '', False, '"stack-probe-size"'),
    (r' ?"target-cpu"="x86-64[-\w]*"', '', False, '"target-cpu"'),
    (PAIR, TWO_LOADS, False, None),
]

# A load, a store or an address of values together of which one is a pointer: they may lie otherwise where that has 4 bytes.
TOGETHER = re.compile(r'\b(?:alloca|load|store|getelementptr(?: \w+)*) ([<{\[][^%@\n]*?\bptr\b[^%@\n]*?[>}\]])[ ,]')
ALIKE = '{ ptr, i64 }'  # the number lies 8 bytes behind either way


class Refused(Exception):
    """A module that isn't of the shape which the rules know."""


def translate(text):
    """The text for wasm32 of a module's text."""
    for pattern, placed, once, gone in RULES:
        text, count = re.subn(pattern, placed, text)
        if count == 0:
            raise Refused('nothing in the module is as %s' % pattern)
        if once and count > 1:
            raise Refused('%d places in the module are as %s' % (count, pattern))
        if gone and gone in text:
            raise Refused('%s stands in the module where no rule rewrites it' % gone)
    for found in TOGETHER.finditer(text):
        if found[1] != ALIKE:
            raise Refused('a pointer lies in memory as no rule knows it: %s' % found[0])
    return text
