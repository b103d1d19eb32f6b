# What the gate's checks read of code and proofs. The functions of a source, public or not, are read by
# tokens: white space, comments, texts and the line that asks for tactics don't count. What this can't
# read it refuses, by `fault(path, what)`.
import re

TOKEN = re.compile(
    r"""(?P<space>\s+|//[^\n]*|\#!\[tactic\(auto\)\])
    |(?P<text>b?"(?:\\.|[^"\\])*"|b?'(?:\\.[^'\n]{0,8}|[^'\\\n])')
    |(?P<life>'\w+)
    |(?P<word>\w+)
    |(?P<sign>->|::|.)""",
    re.X | re.S,
)
STATED = {"requires", "ensures", "measure"}
# A ghost member of a trait or of its instance, up to what it states; and what no such statement may hold,
# since code could hide behind it.
GHOST = re.compile(r"\s+\w+\s*[:=]")
HIDES = re.compile(r"""\bfn\b|"|--|\{-|//|'.?[{}]""")
CLAUSES = STATED | {"where", "{", ";"}
BEFORE_FN = {"pub", "crate", "super", "self", "in", "const", "unsafe", "async", "extern", "(", ")", "::"}


def stated(text, at):
    """Where what a clause states begins and ends, if its name and its opening brace stand at this place."""
    head = re.compile(r"(?:\s+[a-z]\w*)?\s*(?=\{)").match(text, at)
    depth, end = 0, head.end() if head else len(text)
    while end < len(text):
        depth += {"{": 1, "}": -1}.get(text[end], 0)
        end += 1
        if not depth:
            return head.end(), end
    return None


def tokens(path, fault):
    """The words and signs of a source; what a contract states counts as one, and holds no code."""
    text, out, at = path.read_text(), [], 0
    while at < len(text):
        m = TOKEN.match(text, at)
        kind, word, at = m.lastgroup, m.group(), m.end()
        rest = text[at : at + 1]
        if kind == "space":
            continue
        if word in "/#" and rest in ("*", "!") or word in ("r", "br") and rest in ('"', "#") or word in ('"', "macro_rules", "include"):
            fault(path, f"`{word}{rest}` is not read by this check")
        if word == "ghost" and not re.match(r"\s+use\b[^;]*;", text[at:]):
            member = GHOST.match(text, at)
            found = stated(text, member.end()) if member else None
            if not found or HIDES.search(text[found[0] : found[1]]):
                fault(path, f"`ghost{text[at : at + 20]}` is not read by this check")
            else:
                at = found[1]
        out.append(("text", word) if kind == "text" else (kind, word))
        if word in STATED:
            found = stated(text, at)
            if not found:
                fault(path, f"`{word}` is not followed by what it states")
                continue
            fact, at = text[found[0] : found[1]], found[1]
            if HIDES.search(fact):
                fault(path, f"a fact that can't be told from code: {fact[:60]}")
            out.append(("fact", fact))
    return out


class Function:
    def __init__(self, path, crate, scope, name, public, role=None):
        self.path, self.crate, self.scope, self.name, self.public = path, crate, scope, name, public
        self.role = role  # "trait" for a trait's own, the trait's name for an instance's
        self.muts, self.lends = [], False

    def called(self):
        return "::".join([self.crate, *self.scope, self.name])

    def compiled(self):
        """What the compiler calls it: in an instance the type's name is followed by the trait's and by
        those of its arguments, and a trait's own has no code."""
        if self.role == "trait":
            return None
        if not self.role:
            return re.escape(self.called())
        return re.escape("::".join([self.crate, *self.scope]) + self.role) + r"\w*::" + re.escape(self.name)

    def module(self, part):
        return ".".join(["Rattle", self.crate, "proofs", *self.scope, self.name, part])


def closing(words, at):
    """The place after the bracket that closes the one at `at`."""
    pairs, depth = {"(": ")", "[": "]", "{": "}", "<": ">"}, []
    while at < len(words):
        if words[at] in pairs:
            depth.append(pairs[words[at]])
        elif depth and words[at] == depth[-1]:
            depth.pop()
            if not depth:
                return at + 1
        at += 1
    return at


def is_mut(type_words):
    """Whether a type is itself a `&mut`; and the words after that."""
    m = re.match(r"& (?:'\w+ )?mut ", " ".join(type_words) + " ")
    return bool(m), (" ".join(type_words) + " ")[m.end() :] if m else " ".join(type_words) + " "


def holds_mut(words):
    return re.search(r"& (?:'\w+ )?mut ", " ".join(words) + " ")


def signature(f, words, at, fault):
    """Reads what follows a function's name: which parameters are `&mut`, and what is answered."""
    if words[at] == "<":
        end = closing(words, at)
        if any(re.match(r"\w", w) for w in words[at:end]):
            fault(f.path, f"{f.name}: generics are not read by this check")
        at = end
    if words[at] != "(":
        return fault(f.path, f"{f.name}: no list of parameters")
    end, parts, part, i = closing(words, at), [], [], at + 1
    while i < end - 1:
        stop = closing(words, i) if words[i] in ("(", "[", "{", "<") else i + 1
        if words[i] == ",":
            parts, part = parts + [part], []
        else:
            part += words[i:stop]
        i = stop
    for k, p in enumerate(parts + [part] if part else parts):
        is_lent, rest = is_mut(p[p.index(":") + 1 :] if ":" in p else p)
        f.muts += [k] if is_lent else []
        if holds_mut(rest.split()):
            fault(f.path, f"{f.name}: a `&mut` inside a type is not read by this check")
    result = []
    if words[end : end + 1] == ["->"]:
        i = end + 1
        while i < len(words) and words[i] not in CLAUSES:
            stop = closing(words, i) if words[i] in ("(", "[", "<") else i + 1
            result, i = result + words[i:stop], stop
    f.lends = "&" in result
    if holds_mut(result) or (not f.lends and any(w.startswith("'") for w in result)):
        fault(f.path, f"{f.name}: an answer that lends so is not read by this check")


def visible(words, at):
    """Whether what stands before `fn` at this place makes the function public."""
    start = at
    while start and words[start - 1] not in (";", "{", "}", "]"):
        start -= 1
    marks, attributes, end = words[start:at], [], start
    while end and words[end - 1] == "]":
        begin = end - 1
        while begin and words[begin] != "#":
            begin -= 1
        attributes, end = attributes + words[begin:end], begin
    known = all(w in BEFORE_FN or w.startswith('"') for w in marks)
    is_pub = any(w == "pub" and marks[i + 1 : i + 2] != ["("] for i, w in enumerate(marks))
    return known, is_pub or "extern" in marks or {"no_mangle", "export_name"} & set(attributes)


def inner_traits(src):
    """The traits of a crate that no other crate can name."""
    found, public = set(), set()
    for path in src.rglob("*.rt"):
        for m in re.finditer(r"^ *(pub(?:\([^)]*\))? +)?trait +(\w+)", path.read_text(), re.M):
            (public if (m[1] or "").strip() == "pub" else found).add(m[2])
    return found - public


def head_of(word, head, inner, marks):
    """The type or trait whose functions follow, and their role; nothing where it is not read."""
    arguments = r"(?: < [\w (),<>:+]* >)?"
    text = " ".join(head)
    if word == "trait":
        m = re.fullmatch(rf"(\w+){arguments}", text)
        return (m[1], "trait") if m and m[1] in inner and marks in ([], ["pub", "(", "crate", ")"]) else None
    if m := re.fullmatch(r"(\w+)", text):
        return m[1], None
    m = re.fullmatch(rf"(\w+){arguments} for (\w+)", text)
    return (m[2], m[1]) if m and m[1] in inner and not marks else None


def functions(path, src, crate, fault):
    """Every function of the file `path` in a crate's folder `src`."""
    inner, roles = inner_traits(src), {}
    kinds = tokens(path, fault)
    words = [w for _, w in kinds]
    file = list(path.relative_to(src).with_suffix("").parts)
    scope = [] if file in (["lib"], ["main"]) else file
    stack, inside, found = [], None, []
    for i, (kind, word) in enumerate(kinds):
        following = words[i + 1] if i + 1 < len(words) else ""
        if word == "{":
            stack.append(inside)
            inside = None
        elif word == "}" and stack:
            stack.pop()
        elif kind != "word":
            continue
        elif word == "impl" or word == "trait":
            head, start = words[i + 1 : words.index("{", i)], i
            while start and words[start - 1] not in (";", "{", "}", "]"):
                start -= 1
            read = head_of(word, head, inner, words[start:i])
            if not read:
                fault(path, f"`{word} {' '.join(head)}` is not read by this check")
            inside = read[0] if read else head[0]
            roles[len(stack)] = read[1] if read else None
        elif word == "mod" and words[i + 2 : i + 3] == ["{"]:
            inside = following
        elif word in ("struct", "enum", "type", "static"):
            end = i
            while end < len(words) and words[end] not in ("{", ";", "("):
                end += 1
            end = closing(words, end) if words[end : end + 1] in (["{"], ["("]) else words.index(";", i)
            if holds_mut(words[i:end]):
                fault(path, f"`{word} {following}` holds a `&mut`, which is not read by this check")
        elif word == "fn" and re.fullmatch(r"[A-Za-z_]\w*", following):
            known, public = visible(words, i)
            if not known:
                fault(path, f"{following}: what stands before its `fn` is not read by this check")
            role = roles.get(len(stack) - 1) if stack and stack[-1] else None
            f = Function(path, crate, scope + [s for s in stack if s], following, public, role)
            signature(f, words, i + 2, fault if public else lambda path, what: None)
            found.append(f)
    return found


def without_comments(text):
    """An antt text without its comments: `-- ..` to the line's end, and `{- .. -}`, which nest."""
    out, depth = [], 0
    for part in re.split(r"(\{-|-\}|(?:(?<=\s)|^)--[^\n]*)", text, flags=re.M):
        if part == "{-":
            depth += 1
        elif part == "-}" and depth:
            depth -= 1
        elif not depth and not part.startswith("--"):
            out.append(part)
    return "".join(out)
