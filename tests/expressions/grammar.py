"""An independent recognizer of expressions: Earley's algorithm over the BNF of docs/EXPRESSIONS.md.

It shares nothing with the product. Terminals are sets of characters. Every nonterminal has a text, so a prefix begins some
expression exactly where Earley's set behind it is not empty.
"""
import string

LETTERS = string.ascii_letters + "$_#@"
DIGITS = string.digits
BLANKS = " \t"


class Chars:
    """A terminal: one of some characters, or all but some."""

    def __init__(self, chars, negated=False):
        self.chars = frozenset(chars)
        self.negated = negated

    def has(self, c):
        return (c in self.chars) != self.negated


class Grammar:
    def __init__(self, start):
        self.start = start
        self.rules = {}

    def add(self, name, *bodies):
        self.rules.setdefault(name, []).extend(tuple(body) for body in bodies)

    def repeated(self, name, chars, least, most):
        """name is from `least` to `most` of the terminal."""
        for k in range(most + 1):
            bodies = []
            if k >= 1:
                bodies.append((chars, f"{name}{k - 1}"))
            if most - k >= least:
                bodies.append(())
            self.add(f"{name}{k}", *bodies)
        self.add(name, (f"{name}{most}",))


def only(text):
    return [Chars(c + c.lower() + c.upper()) for c in text]


def terms(g):
    digit = Chars(DIGITS)
    # decimal: at most ten digits, and at most 2147483647
    g.repeated("short", digit, 1, 9)
    g.add("number", ("short",))
    most = "2147483647"
    for k, top in enumerate(most):
        smaller = DIGITS[: int(top)]
        if smaller:
            g.add("number", [Chars(d) for d in most[:k]] + [Chars(smaller)] + [digit] * (9 - k))
    g.add("number", [Chars(d) for d in most])
    g.repeated("hex", Chars(string.hexdigits), 1, 8)
    g.add("number", only("X'") + ["hex"] + only("'"))
    g.repeated("bits", Chars("01"), 1, 32)
    g.add("number", only("B'") + ["bits"] + only("'"))
    g.add("char", (Chars("'&", negated=True),), [Chars("'"), Chars("'")], [Chars("&"), Chars("&")])
    for k in range(1, 5):
        g.add("number", only("C'") + ["char"] * k + only("'"))
    g.repeated("others", Chars(LETTERS + DIGITS), 0, 62)
    g.add("name", (Chars(LETTERS), "others"))


def precedence(g, gap):
    g.add("sum", ("sum", gap, Chars("+-"), gap, "product"), ("product",))
    g.add("product", ("product", gap, Chars("*/"), gap, "factor"), ("factor",))
    g.add("factor", (Chars("+-"), gap, "factor"), ("primary",))
    g.add("primary", ("number",), (Chars("("), gap, "sum", gap, Chars(")")))


def arithmetic():
    g = Grammar("expression")
    g.add("gap", (), (Chars(BLANKS), "gap"))
    g.add("expression", ("gap", "sum", "gap"))
    terms(g)
    precedence(g, "gap")
    g.add("primary", ("variable",))
    g.add("variable", (Chars("&"), "name"), (Chars("&"), "name", Chars("("), "list", Chars(")")))
    g.add("list", ("gap", "sum", "gap"), ("list", Chars(","), "gap", "sum", "gap"))
    for letter in "KNLD":
        g.add("primary", only(letter + "'") + ["variable"])
    for letter in "LD":
        g.add("primary", only(letter + "'") + ["name"])
    return g


def ordinary():
    g = Grammar("sum")
    g.add("gap", ())
    terms(g)
    precedence(g, "gap")
    g.add("primary", ("name",), (Chars("*"),), only("L'") + ["name"])
    return g


def character():
    """Its arithmetic expressions have gaps, and the `*` of a substring stands between two; it has no others."""
    g = arithmetic()
    g.start = "character"
    g.add("arithmetic", ("gap", "sum", "gap"))
    g.add("character", ("part",), ("character", Chars("."), "part"))
    g.add("part", ("text",), (Chars("("), "arithmetic", Chars(")"), "text"))
    g.add("part", only("T'") + ["variable"], only("T'") + ["name"])
    g.add("text", ("quoted",))
    g.add("text", ("quoted", Chars("("), "arithmetic", Chars(","), "arithmetic", Chars(")")))
    g.add("text", ("quoted", Chars("("), "arithmetic", Chars(","), "gap", Chars("*"), "gap", Chars(")")))
    # what stands within apostrophes, by what stands before: nothing of note, the name of a symbol, or its subscripts
    quote, ampersand = Chars("'"), Chars("&")
    g.add("quoted", (quote, "free", quote), (quote, "named", quote), (quote, "closed", quote), (quote, "lone", quote))
    g.add("lone", ("free", ampersand), ("named", ampersand), ("closed", ampersand))
    g.add("free", (), ("lone", ampersand), ("lone", Chars("'&" + LETTERS, negated=True)), ("lone", quote, quote))
    for before, taken in (("free", ""), ("named", ".(" + LETTERS + DIGITS), ("closed", ".")):
        g.add("free", (before, Chars("'&" + taken, negated=True)), (before, quote, quote))
    g.add("free", ("named", Chars(".")), ("closed", Chars(".")))
    g.add("named", ("lone", "name"))
    g.add("closed", ("lone", "name", Chars("("), "list", Chars(")")))
    return g


EDGES = [(first, last) for first in "yn" for last in "yn"]


def edged(name, first, last):
    """What begins (`first`) and ends (`last`) with a symbol character (y) or with none (n)."""
    return f"{name}_{first}{last}"


def joined(g, name, left, right, between, behind="gap"):
    """name is left, a gap, something between, a gap and right; blanks stand where a symbol character would touch a word."""
    for first, touching in EDGES:
        for touched, last in EDGES:
            gaps = [behind if edge == "y" else "gap" for edge in (touching, touched)]
            g.add(edged(name, first, last), [edged(left, first, touching), gaps[0]] + between + [gaps[1], edged(right, touched, last)])


def numbers_by_edges(g):
    """The arithmetic expressions again, by their edges."""
    quoted = [body for body in g.rules["number"] if len(body) > 1 and isinstance(body[1], Chars) and body[1].has("'")]
    g.add("primary_yy", *[body for body in g.rules["number"] if body not in quoted])
    g.add("primary_yn", *quoted)
    g.add("primary_nn", (Chars("("), "gap", "sum", "gap", Chars(")")))
    named, subscripted = [Chars("&"), "name"], [Chars("&"), "name", Chars("("), "list", Chars(")")]
    g.add("primary_ny", named)
    g.add("primary_nn", subscripted)
    for letter in "KNLD":
        g.add("primary_yy", only(letter + "'") + named)
        g.add("primary_yn", only(letter + "'") + subscripted)
    for letter in "LD":
        g.add("primary_yy", only(letter + "'") + ["name"])
    for first, last in EDGES:
        for name, one in (("factor", "primary"), ("product", "factor"), ("number", "product")):
            g.add(edged(name, first, last), (edged(one, first, last),))
        g.add(edged("factor", "n", last), (Chars("+-"), "gap", edged("factor", first, last)))
    joined(g, "product", "product", "factor", [Chars("*/")], "gap")
    joined(g, "number", "number", "product", [Chars("+-")], "gap")


def texts_by_edges(g):
    """The character expressions again, by their edges."""
    g.add("part_nn", ("text",), (Chars("("), "arithmetic", Chars(")"), "text"))
    g.add("part_yy", only("T'") + [Chars("&"), "name"], only("T'") + ["name"])
    g.add("part_yn", only("T'") + [Chars("&"), "name", Chars("("), "list", Chars(")")])
    for first, last in EDGES:
        g.add(edged("characters", first, last), (edged("part", first, last),))
        for middle, next_one in EDGES:
            g.add(edged("characters", first, last), (edged("characters", first, middle), Chars("."), edged("part", next_one, last)))


def with_texts_alone(g):
    """Drops what has no text: no expression begins with it."""
    live, grew = set(), True
    while grew:
        more = {name for name, bodies in g.rules.items() if any(all(not isinstance(s, str) or s in live for s in body) for body in bodies)}
        grew, live = more != live, more
    is_live = lambda body: all(not isinstance(s, str) or s in live for s in body)
    g.rules = {name: [body for body in bodies if is_live(body)] for name, bodies in g.rules.items() if name in live}
    return g


def logical():
    g = character()
    g.start = "logical"
    blank = Chars(BLANKS)
    g.add("blanks", (blank,), (blank, "blanks"))
    numbers_by_edges(g)
    texts_by_edges(g)
    for word in ("EQ", "NE", "LT", "LE", "GT", "GE"):
        for side in ("number", "characters"):
            joined(g, "comparison", side, side, only(word), "blanks")
    # an arithmetic expression in parentheses is a number, and no logical expression in parentheses
    g.add("single_nn", (Chars("("), "gap", "composed", "gap", Chars(")")))
    for first, last in EDGES:
        g.add(edged("single", first, last), (edged("comparison", first, last),))
        g.add("composed", (edged("single", first, last),))
    ranks = ["relation", "negation", "conjunction", "disjunction", "exclusion"]
    for first, last in EDGES:
        g.add(edged("relation", first, last), (edged("number", first, last),), (edged("single", first, last),))
        for low, high in zip(ranks[1:], ranks):
            g.add(edged(low, first, last), (edged(high, first, last),))
        g.add(edged("negation", "y", last), only("NOT") + ["blanks" if first == "y" else "gap", edged("negation", first, last)])
        g.add("composed", (edged("denied", first, last),), (edged("both", first, last),))
        g.add(edged("denied", "y", last), only("NOT") + ["blanks" if first == "y" else "gap", edged("negation", first, last)])
        g.add("logical", ("gap", edged("exclusion", first, last), "gap"))
    for name, high, word in (("conjunction", "negation", "AND"), ("disjunction", "conjunction", "OR"), ("exclusion", "disjunction", "XOR")):
        joined(g, name, name, high, only(word), "blanks")
        joined(g, "both", name, high, only(word), "blanks")
    return with_texts_alone(g)


class Recognizer:
    def __init__(self, grammar):
        self.rules = [(name, body) for name, bodies in grammar.rules.items() for body in bodies]
        self.by_name = {}
        for number, (name, _) in enumerate(self.rules):
            self.by_name.setdefault(name, []).append(number)
        self.start = grammar.start
        self.empty = set()
        grew = True
        while grew:
            grew = False
            for name, body in self.rules:
                if name not in self.empty and all(isinstance(s, str) and s in self.empty for s in body):
                    self.empty.add(name)
                    grew = True

    def close(self, sets, items, place):
        seen = set(items)
        work = list(seen)
        while work:
            rule, dot, origin = work.pop()
            name, body = self.rules[rule]
            new = []
            if dot == len(body):
                if origin != place:
                    for r, d, o in sets[origin]:
                        b = self.rules[r][1]
                        if d < len(b) and b[d] == name:
                            new.append((r, d + 1, o))
            elif isinstance(body[dot], str):
                new.extend((r, 0, place) for r in self.by_name[body[dot]])
                if body[dot] in self.empty:
                    new.append((rule, dot + 1, origin))
            for item in new:
                if item not in seen:
                    seen.add(item)
                    work.append(item)
        return seen

    def read(self, text):
        """None where the text is an expression, else the length of its longest prefix that one begins with."""
        sets = [self.close([], [(r, 0, 0) for r in self.by_name[self.start]], 0)]
        for place, c in enumerate(text):
            items = []
            for rule, dot, origin in sets[place]:
                body = self.rules[rule][1]
                if dot < len(body) and not isinstance(body[dot], str) and body[dot].has(c):
                    items.append((rule, dot + 1, origin))
            if not items:
                return place
            sets.append(self.close(sets, items, place + 1))
        whole = any(o == 0 and self.rules[r][0] == self.start and d == len(self.rules[r][1]) for r, d, o in sets[-1])
        return None if whole else len(text)


GRAMMARS = {
    "arith": Recognizer(arithmetic()), "ordinary": Recognizer(ordinary()), "char": Recognizer(character()),
    "logic": Recognizer(logical()),
}
