"""Random texts for the comparison: expressions, and expressions with a few characters changed."""
import random

NAMES = ["A", "B9", "$X", "_Q#", "ZED", "X", "L", "C", "&", "N", "a", "x1"]


def number(r):
    return r.choice(["0", "7", "42", "2147483647", "2147483648", "0000000001", "00000000001", "X'1F'", "x'ffffffff'", "B'101'", "C'A'",
                     "C''''", "C'&&'", "c'ab c'", "C'ABCDE'", "X'123456789'", "X''", "B'2'"])


def name(r):
    return r.choice(NAMES[:8] + ["N", "a", "x1"])


def term(r, grammar, depth):
    k = r.randrange(10)
    if k < 3:
        return number(r)
    if k < 5 and depth > 0:
        gap = gap_of(r, grammar)
        return "(" + gap + expression(r, grammar, depth - 1) + gap_of(r, grammar) + ")"
    if grammar == "ordinary":
        return r.choice([name(r), "*", "L'" + name(r), name(r)])
    if k < 8:
        text = "&" + name(r)
        if depth > 0 and r.randrange(3) == 0:
            text += "(" + ",".join(expression(r, grammar, depth - 1) for _ in range(r.choice([1, 1, 2]))) + ")"
        return r.choice(["", "", "", "K'", "N'", "l'", "D'"]) + text
    return r.choice(["L'", "D'", "T'", "K'"]) + name(r)


def gap_of(r, grammar):
    return r.choice(["", "", "", " ", "\t "]) if grammar == "arith" or r.randrange(20) == 0 else ""


def expression(r, grammar, depth):
    text = gap_of(r, grammar)
    for k in range(r.choice([1, 1, 2, 3])):
        if k:
            text += gap_of(r, grammar) + r.choice("+-*/") + gap_of(r, grammar)
        while r.randrange(6) == 0:
            text += r.choice("+-")
        text += term(r, grammar, depth)
    return text + gap_of(r, grammar)


def quoted(r, depth):
    text = "'"
    for _ in range(r.choice([0, 1, 1, 2, 3])):
        k = r.randrange(10)
        if k < 4:
            text += r.choice(["A", "b1", " ", "(", ")", ".", "é", "1", ",", "*"])
        elif k < 6:
            text += r.choice(["''", "&&", "&", "&&&"])
        else:
            text += "&" + name(r)
            if depth > 0 and r.randrange(3) == 0:
                text += "(" + ",".join(expression(r, "arith", depth - 1) for _ in range(r.choice([1, 1, 2]))) + ")"
            text += r.choice(["", "", ".", ".."])
    return text + "'"


def starred(r):
    """The `*` of a substring, often with blanks around it."""
    return r.choice(["", "", " ", "\t  "]) + "*" + r.choice(["", "", " ", " \t"])


def part(r, depth):
    if r.randrange(5) == 0:
        text = r.choice(["T'", "t'"]) + r.choice(["&", "&", ""]) + name(r)
        return text + ("(" + expression(r, "arith", 0) + ")" if r.randrange(4) == 0 else "")
    text = "(" + expression(r, "arith", depth) + ")" if r.randrange(4) == 0 else ""
    text += quoted(r, depth)
    if r.randrange(4) == 0:
        text += "(" + expression(r, "arith", depth) + "," + r.choice([starred(r), expression(r, "arith", 0), starred(r)]) + ")"
    return text


def character(r, depth):
    return ".".join(part(r, depth) for _ in range(r.choice([1, 1, 2, 3])))


def space(r):
    return r.choice([" ", " ", " ", "", "  "])


def relation(r, depth):
    if r.randrange(3) == 0:
        sides = [character(r, 0) if r.randrange(8) else expression(r, "arith", 0) for _ in range(2)]
    else:
        sides = [expression(r, "arith", max(depth - 1, 0)) if r.randrange(8) else quoted(r, 0) for _ in range(2)]
    return sides[0] + space(r) + r.choice(["EQ", "NE", "lt", "LE", "Gt", "GE"]) + space(r) + sides[1]


def truth(r, depth):
    text = r.choice(["", "", " "])
    for k in range(r.choice([1, 1, 2, 3])):
        if k:
            text += space(r) + r.choice(["AND", "OR", "XOR", "and", "Or"]) + space(r)
        while r.randrange(5) == 0:
            text += r.choice(["NOT", "not"]) + space(r)
        kind = r.randrange(6)
        if kind < 2:
            text += relation(r, depth)
        elif kind < 4 and depth > 0:
            text += "(" + truth(r, depth - 1) + ")"
        else:
            text += term(r, "arith", 0)
    return text + r.choice(["", "", " "])


def changed(r, text):
    for _ in range(r.choice([0, 1, 1, 2])):
        at = r.randrange(len(text) + 1)
        c = r.choice("()+-*/,'& 019AXBCKLNDTEOQzé.;$")
        kind = r.randrange(3)
        if kind == 0:
            text = text[:at] + c + text[at:]
        elif kind == 1:
            text = text[:at] + text[at + 1:]
        else:
            text = text[:at] + c + text[at + 1:]
    return text


def texts(count, seed, grammars=("arith", "ordinary", "char", "logic")):
    r = random.Random(seed)
    for _ in range(count):
        grammar = r.choice(grammars)
        depth = r.choice([0, 1, 1, 2])
        makers = {"char": character, "logic": truth}
        text = makers[grammar](r, depth) if grammar in makers else expression(r, grammar, depth)
        yield grammar, changed(r, text)[:48]
