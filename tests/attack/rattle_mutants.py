"""Small wrong programs made from Rattle source: each is one change of the code that is run, never of a contract, a signature, a type or a comment."""
import re
from collections import Counter, namedtuple

Token = namedtuple("Token", "kind text start end")
# text[start:end] becomes `new`; `old_line` and `new_line` are the whole lines before and after, with single spaces
Mutant = namedtuple("Mutant", "function kind start end new line old_line new_line")
# a parsed file: its text, its tokens, for each opening bracket the closing one, the same for the bars around a closure's parameters, and the braces that
# open what an `if`, a loop or a `match` does
Source = namedtuple("Source", "text tokens match bars bodies")
# code that is run: a function's body or a constant's value with its name, from its first to its last token; the names that the function may write through,
# and the words of the type that it answers
Region = namedtuple("Region", "name first last lent answers")

TOKEN = re.compile(
    r"(?P<space>\s+)|(?P<comment>//[^\n]*)"
    r"|(?P<string>b?\"(?:\\.|[^\"\\])*\"|b'(?:\\.|[^'\\])+')"
    r"|(?P<number>0x[0-9a-fA-F_]+|\d[\d_]*(?:\.\d[\d_]*)?)"
    r"|(?P<name>[^\W\d]\w*)"
    r"|(?P<op>\.\.=|\.\.|::|->|=>|&&|\|\||<<|>>|<=|>=|==|!=|\+=|-=|.)", re.S)
OPEN, CLOSE = "([{", ")]}"
KEYWORDS = {"if", "else", "while", "loop", "for", "in", "match", "return", "let", "mut", "as", "break", "continue"}
# how tightly an operator binds
BINDS = {"as": 9, "*": 8, "/": 8, "%": 8, "+": 7, "-": 7, "<<": 6, ">>": 6, "&": 5, "|": 3,
         "<": 2, "<=": 2, ">": 2, ">=": 2, "==": 2, "!=": 2, "&&": 1, "||": 0}
OPERATORS = {"+": ["-"], "-": ["+"], "*": ["/"], "/": ["*"], "%": ["/"], "&": ["|"], "|": ["&"], "&&": ["||"], "||": ["&&"],
             "<<": [">>"], ">>": ["<<"], "+=": ["-="], "-=": ["+="]}
COMPARISONS = {"<": ["<=", ">"], "<=": ["<", ">="], ">": [">=", "<"], ">=": [">", "<="], "==": ["!="], "!=": ["=="]}
NOT_COMMUTATIVE = {"-", "/", "%", "<<", ">>"}
CASES = {"Refusal": ["SampleRate", "GlideCoefficient", "Memory", "State", "Control", "Curve", "Turn"], "Stages": ["Two", "Four", "Six"]}
# the words of the answer to "silent?"
SILENCE = "Result < bool , Refusal >".split()


def parse(text):
    tokens = [Token(m.lastgroup, m.group(), m.start(), m.end()) for m in TOKEN.finditer(text) if m.lastgroup not in ("space", "comment")]
    match, open_ones = {}, []
    for i, t in enumerate(tokens):
        if t.text in OPEN:
            open_ones.append(i)
        elif t.text in CLOSE:
            match[open_ones.pop()] = i
    return Source(text, tokens, match, closure_bars(tokens, match), control_bodies(tokens, match))


def closure_bars(tokens, match):
    """For each bar that opens a closure's parameters the one that closes them: it stands where a value would begin."""
    bars, k = {}, 1
    while k < len(tokens):
        before = tokens[k - 1].text
        if tokens[k].text == "|" and (before in OPEN or before in KEYWORDS or before in (",", "=", "=>", ";", "&&", "||")):
            first, k = k, k + 1
            while tokens[k].text != "|":
                k = match.get(k, k) + 1
            bars[first] = k
        k += 1
    return bars


def control_bodies(tokens, match):
    """The braces after the condition of an `if` or a `while`, and those of loops and matches: no condition has a struct's braces in it."""
    bodies = set()
    for i, t in enumerate(tokens):
        if t.text in ("if", "while", "for", "match", "loop"):
            k = i + 1
            while k < len(tokens) and tokens[k].text not in ("{", ";"):
                k = match.get(k, k) + 1
            bodies.add(k)
    return bodies


def skip_generics(src, at):
    """Behind the generics that may open at this token."""
    if src.tokens[at].text != "<":
        return at
    depth = 0
    while True:
        depth += {"<": 1, ">": -1, ">>": -2}.get(src.tokens[at].text, 0)
        at += 1
        if depth == 0:
            return at


def owners(src):
    """(first, last, name) of each impl and trait: its braces, and its type or its name; a type before a trait's and its arguments, as rattle names them:
    `U32FromRefusal`."""
    for i, t in enumerate(src.tokens):
        if t.text == "trait":
            opening = next(k for k in range(i, len(src.tokens)) if src.tokens[k].text == "{")
            yield opening, src.match[opening], src.tokens[i + 1].text
        if t.text == "impl" and (i == 0 or src.tokens[i - 1].text in ("}", ";", "]")):
            at = skip_generics(src, i + 1)
            opening = at
            while src.tokens[opening].text != "{":
                opening += 1
            words = [t.text for t in src.tokens[at:opening] if t.kind == "name"]
            if "for" in words:
                k = words.index("for")
                words[0] = words[k + 1][0].upper() + words[k + 1][1:] + "".join(words[:k])
            yield opening, src.match[opening], words[0]


def regions(src):
    """Each function's body, brackets included, each constant's value, and each number that an enum gives a case."""
    impls = list(owners(src))
    for i, t in enumerate(src.tokens):
        owner = next((name + "::" for first, last, name in impls if first < i < last), "")
        name = owner + src.tokens[min(i + 1, len(src.tokens) - 1)].text
        if t.text == "fn" and src.tokens[i + 1].kind == "name":
            region = function(src, name, i)
            if region:
                yield region
        elif t.text == "const" and src.tokens[i + 2].text == ":" and src.tokens[i - 1].text not in ("<", ","):
            at = next(k for k in range(i, len(src.tokens)) if src.tokens[k].text == "=")
            end = next(k for k in range(at, len(src.tokens)) if src.tokens[k].text == ";" and not inside_brackets(src, at, k))
            yield Region(name, at, end, set(), [])
        elif t.text == "enum" and src.tokens[i + 2].text == "{":
            for first, last in items(src, i + 2):
                if src.tokens[last - 1].text == "=":
                    yield Region(name + "::" + src.tokens[first].text, last - 1, last + 1, set(), [])


def function(src, name, at):
    """Its region; none where a trait's function has no body."""
    opening = skip_generics(src, at + 2)
    arrow = at = src.match[opening] + 1
    while src.tokens[at].text not in ("{", ";", "requires", "ensures"):
        at = src.match.get(at, at) + 1
    answers = [t.text for t in src.tokens[arrow + 1:at]]
    while src.tokens[at].text not in ("{", ";"):
        if src.tokens[at].text in ("requires", "ensures"):
            at = src.match[clause(src, at)]
        at += 1
    if src.tokens[at].text == ";":
        return None
    return Region(name, at, src.match[at], lent(src, opening), answers)


def clause(src, at):
    """Where the bracket of a clause opens, whose first word stands at this token: its name, if it has one, is between."""
    while src.tokens[at].text != "{":
        at += 1
    return at


def inside_brackets(src, first, at):
    return any(first < o < at < c for o, c in src.match.items())


def lent(src, opening):
    """The names of the parameters that a function may write through."""
    words = [t.text for t in src.tokens[opening + 1:src.match[opening]]]
    found = {words[k - 1] for k in range(1, len(words) - 2) if words[k] == ":" and words[k + 1:k + 3] == ["&", "mut"]}
    return found | ({"self"} if words[:3] == ["&", "mut", "self"] else set())


def is_binary(src, i):
    before = src.tokens[i - 1]
    if i in src.bars or i in src.bars.values() or i - 1 in src.bars.values():
        return False
    return before.kind == "number" or before.text in (")", "]", "?") or (before.kind == "name" and before.text not in KEYWORDS)


def operand_left(src, i):
    """The first token of what stands left of the operator at i."""
    closing = {c: o for o, c in src.match.items()}
    k = i
    while True:
        before = src.tokens[k - 1]
        if before.text in (")", "]"):
            k = closing[k - 1]
        elif before.text in BINDS and (before.text == "as" or is_binary(src, k - 1)):
            if BINDS[before.text] < BINDS[src.tokens[i].text]:
                return k
            k -= 1
        elif before.text in ("!", "-", "*", "&", ".", "::", "?") or before.kind in ("number", "name") and before.text not in KEYWORDS:
            k -= 1
        else:
            return k


def operand_right(src, i):
    """The last token of what stands right of the operator at i."""
    k = i + 1
    while src.tokens[k].text in ("!", "-", "*", "&"):
        k += 1
    while True:
        if src.tokens[k].text in ("(", "["):
            k = src.match[k]
        after = src.tokens[k + 1]
        if after.text in BINDS:
            if BINDS[after.text] <= BINDS[src.tokens[i].text]:
                return k
        elif not (after.text in ("(", "[", ".", "::", "?") or src.tokens[k].text in (".", "::") or src.tokens[k].text in BINDS):
            return k
        k += 1


def spelled(src, first, last):
    return src.text[src.tokens[first].start:src.tokens[last].end]


def change(src, first, last, new, kind):
    return kind, src.tokens[first].start, src.tokens[last].end, new


def operators(src, region):
    first, last = region.first, region.last
    for i in range(first + 1, last):
        t = src.tokens[i].text
        if t in OPERATORS and (t in ("+=", "-=") or is_binary(src, i)):
            for new in OPERATORS[t]:
                yield change(src, i, i, new, "operator")
        if t == "-" and not is_binary(src, i):
            yield change(src, i, i, "", "operator")
        if t in NOT_COMMUTATIVE and is_binary(src, i):
            a, b = operand_left(src, i), operand_right(src, i)
            left, right = spelled(src, a, i - 1), spelled(src, i + 1, b)
            if left != right:
                yield change(src, a, b, f"{wrapped(right)} {t} {wrapped(left)}", "operand")


def opens_a_struct(src, i):
    """Whether the brace at i opens the fields of a struct, whose name stands before."""
    before = src.tokens[i - 1]
    return src.tokens[i].text == "{" and i not in src.bodies and before.kind == "name" and before.text[0].isupper() and not before.text.isupper()


def is_pattern(src, i):
    """Whether the struct at i is taken apart there, and not made."""
    return src.tokens[i - 2].text == "let"


def wrapped(text):
    return text if re.fullmatch(r"[\w.:]+|[\w.:]+\([^()]*\)|\([^()]*\)", text) else f"({text})"


def comparisons(src, region):
    first, last = region.first, region.last
    for i in range(first + 1, last):
        t = src.tokens[i].text
        if t in COMPARISONS and is_binary(src, i):
            for new in COMPARISONS[t]:
                yield change(src, i, i, new, "comparison")
        if t == "!":
            yield change(src, i, i, "", "comparison")
        if t in ("if", "while") and src.tokens[i + 1].text not in ("let", "!"):
            end = i + 1
            while src.tokens[end + 1].text != "{":
                end = src.match[end + 1] if src.tokens[end + 1].text in "([" else end + 1
            yield from negated(src, i + 1, end)
        # what else a choice goes by: the value of an `Option`, and the answer to "silent?"
        if t == "then_some" and src.tokens[i - 1].text == ".":
            yield from negated(src, receiver(src, i - 1), i - 2)
        if t == "Ok" and region.answers == SILENCE and src.tokens[i + 2].text not in ("true", "false") and not is_arm(src, src.match[i + 1]):
            yield from negated(src, i + 2, src.match[i + 1] - 1)


def negated(src, first, last):
    """A condition turned; `==` and `!=` are turned by themselves, which is the same."""
    if not any(t.text in ("==", "!=") for t in src.tokens[first:last]):
        new = f"!({spelled(src, first, last)})"
        yield change(src, first, last, f"({new})" if src.tokens[last + 1].text == "." else new, "comparison")


def is_arm(src, closing):
    """Whether what this bracket closes is taken apart there, and not made."""
    return src.tokens[closing + 1].text in ("=>", "=")


def receiver(src, dot):
    """The first token of what stands before the dot of a method's call."""
    closing = {c: o for o, c in src.match.items()}
    k = dot
    while src.tokens[k - 1].text in (")", "]", ".", "::", "?") or src.tokens[k - 1].kind == "name" and src.tokens[k - 1].text not in KEYWORDS:
        k = closing.get(k - 1, k - 1)
    return k


def numbers(text):
    """The numbers that stand in for a number."""
    if "." in text:
        x = float(text)
        found = [1.0] if x == 0 else [x / 2] + ([x + 1] if x == int(x) else [])
        return [f"{int(y)}.0" if y == int(y) else repr(y) for y in found]
    n = int(text.replace("_", ""), 0)
    return [str(n - 1 if n == 2**64 - 1 else n + 1)]


def constants(src, region):
    first, last = region.first, region.last
    for i in range(first + 1, last):
        t = src.tokens[i]
        length_of_array = src.tokens[i - 1].text == ";" and src.tokens[i + 1].text == "]"
        if t.kind == "number" and src.tokens[i - 1].text != "." and not length_of_array:
            for new in numbers(t.text):
                yield change(src, i, i, new, "constant")
        if t.text in ("true", "false"):
            yield change(src, i, i, "false" if t.text == "true" else "true", "constant")
        if t.text in CASES and src.tokens[i + 1].text == "::" and src.tokens[i + 3].text not in ("(", "=>"):
            cases = CASES[t.text]
            new = cases[(cases.index(src.tokens[i + 2].text) + 1) % len(cases)]
            yield change(src, i + 2, i + 2, new, "constant")
        if [t.text for t in src.tokens[i:i + 4]] == ["Ok", "(", "(", ")"] and not is_arm(src, i + 4):
            yield change(src, i, i + 4, "Err(Refusal::State)", "constant")


def items(src, opening):
    """(first, last) of what stands between the commas of a bracket."""
    first, k = opening + 1, opening + 1
    while k <= src.match[opening]:
        if src.tokens[k].text == "," or k == src.match[opening]:
            if first < k:
                yield first, k - 1
            first = k + 1
        k = src.match.get(k, src.bars.get(k, k)) + 1


def neighbours(src, region):
    """Arguments, fields of a struct and entries of an array: one put for its neighbour, and two swapped."""
    for i in range(region.first + 1, region.last):
        t, before = src.tokens[i].text, src.tokens[i - 1]
        a_call = t == "(" and before.kind == "name" and before.text not in KEYWORDS
        a_struct = opens_a_struct(src, i)
        an_array = t == "[" and before.text in ("=", "(", ",", ":")
        if a_call or a_struct or an_array:
            parts = [field(src, p) if a_struct else ("", p, spelled(src, *p)) for p in values(src, i)]
            for (name, p, x), (other, q, y) in zip(parts, parts[1:]):
                if x != y:
                    between = src.text[src.tokens[p[1]].end:src.tokens[q[0]].start]
                    yield change(src, p[0], q[1], name + y + between + other + x, "order")
                    # a pattern can't bind a name twice
                    if not (a_struct and is_pattern(src, i)):
                        yield change(src, *p, name + y, "operand")
                        yield change(src, *q, other + x, "operand")


def values(src, opening):
    """The items of a bracket that are a value of their own: no closure, and not the struct that the other fields are taken from."""
    return [p for p in items(src, opening) if p[0] not in src.bars and src.tokens[p[0]].text not in ("..", "||")]


def field(src, part):
    """A field's name with its colon, where it stands, and its value."""
    if src.tokens[part[0] + 1].text == ":" and part[1] > part[0]:
        return src.tokens[part[0]].text + ": ", part, spelled(src, part[0] + 2, part[1])
    return src.tokens[part[0]].text + ": ", part, spelled(src, *part)


def branches(src, region):
    """What one branch gives put for what another gives: a field of two values of one struct."""
    found = {}
    for i in range(region.first + 1, region.last):
        if opens_a_struct(src, i) and not is_pattern(src, i):
            found.setdefault(src.tokens[i - 1].text, []).append([field(src, p) for p in values(src, i)])
    for given in found.values():
        for one, next_one in zip(given, given[1:]):
            others = {name: (q, y) for name, q, y in next_one}
            for name, p, x in one:
                q, y = others.get(name, (p, x))
                if x != y:
                    yield change(src, *p, name + y, "branch")
                    yield change(src, *q, name + x, "branch")


def blocks(src, region):
    """The opening brackets of the blocks of statements: not those of structs and matches."""
    matches = set()
    for i in range(region.first, region.last):
        if src.tokens[i].text == "match":
            matches.add(min(k for k in src.bodies if k > i))
        if src.tokens[i].text == "{" and i not in matches and not (i > region.first and opens_a_struct(src, i)):
            yield i


def statements(src, opening):
    """(first, last) of each statement of a block; what the block answers at its end is not one."""
    first = k = opening + 1
    while k < src.match[opening]:
        t = src.tokens[k].text
        ends = t == ";"
        if t in OPEN:
            k = src.match[k]
            control = src.tokens[first].text in ("if", "while", "for", "loop", "match")
            ends = t == "{" and control and src.tokens[k + 1].text not in ("else", ";", ".") and k + 1 < src.match[opening]
        if ends:
            yield first, k
            first = k + 1
        k += 1


def assigned(src, first, last):
    """Where the `=` or `+=` of an assignment stands, and None for another statement."""
    if src.tokens[first].text in KEYWORDS:
        return None
    return next((k for k in range(first, last) if src.tokens[k].text in ("=", "+=", "-=") and not inside_brackets(src, first - 1, k)), None)


def is_guard(src, first, last):
    """An `if` that returns, or a call whose refusal is handed on by `?`."""
    words = [t.text for t in src.tokens[first:last + 1]]
    return words[0] == "if" and "return" in words and "else" not in words or words[0] not in KEYWORDS and words[-3:] == [")", "?", ";"]


def dropped(src, region):
    for block in blocks(src, region):
        for a, b in statements(src, block):
            a_call = src.tokens[a].kind == "name" and src.tokens[a].text not in KEYWORDS and src.tokens[b - 1].text == ")"
            if assigned(src, a, b) is not None or a_call or is_guard(src, a, b):
                yield change(src, a, b, "", "dropped")


def effects(src, first, last, lent_names):
    """What a statement declares, what it writes, all names in it, and whether it can leave the function."""
    names = {path for k in range(first, last + 1) if (path := name_at(src, k))}
    declares = declared(src, first) if src.tokens[first].text == "let" else set()
    writes = declares | (names & lent_names) | (lent_fields(src, first, last) if "self" in lent_names else set())
    at = assigned(src, first, last)
    if at is not None:
        writes.add(next(path for k in range(first, at) if (path := name_at(src, k))))
    leaves = any(t.text in ("return", "?") for t in src.tokens[first:last + 1])
    return declares, writes, names, leaves


def name_at(src, k):
    """The name at this token, of `self` with the fields that follow; None where there is none or it is such a field."""
    tokens = src.tokens
    if tokens[k].text == "self":
        end = k + 1
        while tokens[end].text == "." and tokens[end + 1].kind == "name" and tokens[end + 2].text != "(":
            end += 2
        return "".join(t.text for t in tokens[k:end])
    return tokens[k].text if tokens[k].kind == "name" and tokens[k - 1].text != "." else None


def lent_fields(src, first, last):
    """What a call may write of a `self` that is lent: all of what has the method that is called, and a field that is handed on as it is."""
    found = set()
    for k in range(first, last + 1):
        if src.tokens[k].text == "self":
            path = name_at(src, k)
            after = src.tokens[k + 2 * path.count(".") + 1].text
            if after == "." or after in (",", ")") and src.tokens[k - 1].text in ("(", ","):
                found.add(path)
    return found


def meet(some, others):
    """Whether a name is among both, or one is a part of the other."""
    return any(a == b or a.startswith(b + ".") or b.startswith(a + ".") for a in some for b in others)


def declared(src, first):
    """The names that a `let` binds: one, or those in its pattern's brackets."""
    k = first + (2 if src.tokens[first + 1].text == "mut" else 1)
    opening = next((at for at in (k, k + 1) if src.tokens[at].text in OPEN), None)
    last = src.match[opening] if opening else k
    return {t.text for t in src.tokens[k:last + 1] if t.kind == "name" and t.text not in KEYWORDS}


def swaps(src, region):
    """Two neighbouring statements, where neither needs a name of the other and their order can be seen."""
    lent_names = region.lent
    for block in blocks(src, region):
        found = list(statements(src, block))
        for (a, b), (c, d) in zip(found, found[1:]):
            declares, writes, names, leaves = effects(src, a, b, lent_names)
            _, writes2, names2, leaves2 = effects(src, c, d, lent_names)
            seen = meet(writes, names2) or meet(writes2, names) or leaves and (leaves2 or meet(writes2, lent_names)) or leaves2 and meet(writes, lent_names)
            if seen and not declares & names2:
                between = src.text[src.tokens[b].end:src.tokens[c].start]
                yield change(src, a, d, spelled(src, c, d) + between + spelled(src, a, b), "order")


def lines(text, start, end):
    """The whole lines from start to end, as one with single spaces."""
    first = text.rfind("\n", 0, start) + 1
    last = text.find("\n", end)
    return " ".join(text[first:last if last >= 0 else len(text)].split())


def mutants(text):
    """Every wrong program that this file gives."""
    src = parse(text)
    found, seen, counted = [], {text}, Counter()
    for region in regions(src):
        name = region.name
        made = [m for make in (operators, comparisons, constants, neighbours, branches, dropped, swaps) for m in make(src, region)]
        for kind, start, end, new in sorted(made, key=lambda m: (m[1], m[2])):
            wrong = text[:start] + new + text[end:]
            if wrong in seen:
                continue
            seen.add(wrong)
            old_line, new_line = lines(text, start, end), lines(wrong, start, start + len(new))
            counted[name, kind, old_line, new_line] += 1
            if counted[name, kind, old_line, new_line] > 1:
                new_line += f" #{counted[name, kind, old_line, new_line]}"
            found.append(Mutant(name, kind, start, end, new, text.count("\n", 0, start) + 1, old_line, new_line))
    return found


def function_at(text, line):
    """The function or constant that a line of a file belongs to, with what stands above it: the first that ends there or below."""
    src = parse(text)
    return next((r.name for r in regions(src) if line <= text.count("\n", 0, src.tokens[r.last].start) + 1), "")
