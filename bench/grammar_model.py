"""The grammar of the language, and a plain Earley recogniser of it, written from docs/LANGUAGE.md alone.

A grammar maps a name to its productions, each a tuple of names and kinds of tokens. `refused_at(kinds)` gives the index of
the first token through which no program begins, or None where the kinds are those of a program. Nesting has no limit here.
"""

WORDS = ("void", "char", "short", "int", "long", "signed", "unsigned")
KEYWORDS = (
    "auto break case char const continue default do double else enum extern float for goto if inline int long register "
    "restrict return short signed sizeof static struct switch typedef union unsigned void volatile while _Alignas "
    "_Alignof _Atomic _Bool _Complex _Generic _Imaginary _Noreturn _Static_assert _Thread_local NULL EOF"
).split()
PUNCTUATORS = (
    "( ) { } [ ] ; , : ? . -> ++ -- & * + - ~ ! / % << >> < > <= >= == != ^ | && || = *= /= %= += -= <<= >>= &= ^= |="
).split()
END = "end"
KINDS = ["name", "integer", "character", "literal", *KEYWORDS, *PUNCTUATORS]


def add_word(words, word):
    """The words of one integer type, or of void, with one more of them; None where no type has them."""
    more = tuple(sorted(words + (word,)))
    count = {each: more.count(each) for each in WORDS}
    if any(number > 1 for number in count.values()):
        return None
    if count["void"]:
        return more if len(more) == 1 else None
    if count["signed"] and count["unsigned"]:
        return None
    if count["char"] + count["short"] + count["long"] > 1:
        return None
    if count["char"] and count["int"]:
        return None
    return more


def grammar():
    rules = {}

    def rule(name, *productions):
        rules.setdefault(name, []).extend(productions)

    def optional(name):
        rule(name + "?", (), (name,))
        return name + "?"

    def many(name):
        rule(name + "*", (), (name, name + "*"))
        return name + "*"

    def separated(name):
        rule(name + ",", (name,), (name, ",", name + ","))
        return name + ","

    states = {()}
    todo = [()]
    while todo:
        words = todo.pop()
        name = "words" + "".join(" " + word for word in words)
        rule(name, ("const", name))
        if words:
            rule(name, ())
        for word in WORDS:
            more = add_word(words, word)
            if more is None:
                continue
            rule(name, (word, "words" + "".join(" " + each for each in more)))
            if more not in states:
                states.add(more)
                todo.append(more)
    rule("consts", (), ("const", "consts"))
    rule("words", ("struct", "name", "consts"))
    rule("base", ("words",))
    rule("struct", ("struct", "name", "{", "member", many("member"), "}"))
    rule("own", ("words",), ("const*", "struct", "consts"))
    rule("const*", (), ("const", "const*"))
    rule("sbase", ("struct", "name"), ("struct",))
    rules["sbase"] = [("struct", "name"), ("body",)]
    rules["body"] = rules.pop("struct")
    rules["own"] = [("words",), ("const*", "body", "consts")]

    rule("program", (many("item"), END))
    rule("item", ("static", "item"), ("extern", "item"), ("sbase", ";"), ("own", "inits", ";"), ("own", "declarator", "block"))
    rule("member", ("base", separated("declarator"), ";"))
    rule("inits", (separated("first"),))
    rule("first", ("declarator",), ("declarator", "=", "init"))
    rule("init", ("assign",), ("{", separated("init"), "}"), ("{", "init,", ",", "}"))
    rule("pointer", ("*", "consts"))
    rule("declarator", (many("pointer"), "direct", many("suffix")))
    rule("direct", ("name",), ("(", "declarator", ")"))
    rule("suffix", ("[", "]"), ("[", "cond", "]"), ("(", ")"), ("(", separated("param"), ")"))
    rule("param", ("base",), ("base", "inner named"))
    rule("type", ("base",), ("base", "inner"))
    for inner, names in (("inner", ()), ("inner named", (("name",),))):
        nested = (("(", inner, ")"),)
        rule(inner, ("pointer", "pointer*"), ("pointer*", inner + " direct", "suffix*"), ("pointer*", "suffix", "suffix*"))
        rule(inner + " direct", *names, *nested)
    rule("block", ("{", many("block item"), "}"))
    rule("block item", ("base", "inits", ";"), ("stmt",))
    rule("stmt", ("block",), (optional("expr"), ";"), ("if", "(", "expr", ")", "stmt"))
    rule("stmt", ("if", "(", "expr", ")", "stmt", "else", "stmt"), ("while", "(", "expr", ")", "stmt"))
    rule("stmt", ("do", "stmt", "while", "(", "expr", ")", ";"))
    rule("stmt", ("for", "(", "start", "expr?", ";", "expr?", ")", "stmt"))
    rule("start", ("base", "inits", ";"), ("expr?", ";"))
    rule("stmt", ("switch", "(", "expr", ")", "{", many("switch item"), "}"))
    rule("switch item", ("case", "cond", ":"), ("default", ":"), ("stmt",))
    rule("stmt", ("break", ";"), ("continue", ";"), ("return", "expr?", ";"))
    rule("expr", ("assign",))
    operators = [each for each in PUNCTUATORS if each.endswith("=") and each not in ("<=", ">=", "==", "!=")]
    rule("assign", ("cond",), *[("unary", each, "assign") for each in operators])
    rule("cond", ("level 10",), ("level 10", "?", "expr", ":", "cond"))
    levels = ["* / %", "+ -", "<< >>", "< > <= >=", "== !=", "&", "^", "|", "&&", "||"]
    rule("level 0", ("cast",))
    for number, joined in enumerate(levels, 1):
        below = f"level {number - 1}"
        rule(f"level {number}", (below,), *[(f"level {number}", each, below) for each in joined.split()])
    rule("cast", ("(", "type", ")", "cast"), ("unary",))
    rule("unary", ("postfix",), ("++", "unary"), ("--", "unary"), ("sizeof", "unary"), ("sizeof", "(", "type", ")"))
    rule("unary", *[(each, "cast") for each in ("&", "*", "+", "-", "~", "!")])
    rule("postfix", ("primary",), ("postfix", "[", "expr", "]"), ("postfix", "(", ")"), ("postfix", "(", separated("assign"), ")"))
    rule("postfix", ("postfix", ".", "name"), ("postfix", "->", "name"), ("postfix", "++"), ("postfix", "--"))
    rule("primary", ("name",), ("integer",), ("character",), ("literal", many("literal")), ("NULL",), ("EOF",), ("(", "expr", ")"))
    return rules


RULES = grammar()


def empty_names():
    """The names of which no token at all is a tree."""
    found = set()
    while True:
        more = {name for name, productions in RULES.items() if any(all(each in found for each in one) for one in productions)}
        if more == found:
            return found
        found = more


EMPTY = empty_names()


def closed(sets, new):
    """The Earley set of these items: (name, production, how much of it was passed, where it began)."""
    here = len(sets)
    items = set()
    todo = list(new)
    while todo:
        item = todo.pop()
        if item in items:
            continue
        items.add(item)
        name, production, passed, start = item
        if passed == len(production):
            for other in sets[start] if start < here else list(items):
                if other[2] < len(other[1]) and other[1][other[2]] == name:
                    todo.append((other[0], other[1], other[2] + 1, other[3]))
        elif production[passed] in RULES:
            wanted = production[passed]
            for each in RULES[wanted]:
                todo.append((wanted, each, 0, here))
            if wanted in EMPTY:
                todo.append((name, production, passed + 1, start))
    return items


def began():
    return [closed([], [("program", each, 0, 0) for each in RULES["program"]])]


def passed_one(sets, kind):
    """The next set, behind a token of a kind; empty where no program goes on so."""
    found = [(n, p, at + 1, s) for n, p, at, s in sets[-1] if at < len(p) and p[at] == kind and p[at] not in RULES]
    return closed(sets, found) if found else set()


def refused_at(kinds, sets=None):
    sets = list(sets) if sets else began()
    for index in range(len(sets) - 1, len(kinds)):
        more = passed_one(sets, kinds[index])
        if not more:
            return index
        sets.append(more)
    return None
