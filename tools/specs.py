"""The definitions of specs/ and the types of src/, as text, and which words each of them mentions: for the tools beside this file.

A word counts where the file has it in scope, by a definition of its own or by `use`, and no variable of that name hides it: of a pattern,
a parameter, `λ`, `let`, `←` or an earlier field of the record. A name behind a dot is a field or a constructor, which comes with its type.
The kit's own words are told apart by their crate, and not followed."""
import re
from pathlib import Path

TOP = Path(__file__).resolve().parent.parent
CRATES = TOP / "crates"
HEAD = re.compile(r"( {0,2})(?:(?:abbrev|unfoldable)(?: pub)? (\S+)|(?:pub )?(record|data) (\S+)|pub (\S+) :)")
USE = re.compile(r"\s*(pub )?use ([\w.\-]+?)(?:\.\{(.*)\}|\.([\w◌>=]+))?(?: as (\S+))?;?$")
TOKEN = re.compile(r'"[^"]*"|[(){}\[\];,]|[^\s(){}\[\];,"]+')
OPENS, CLOSES = "({[", ")}]"
MARKS = set(": = → × ⊎ ≡ | ↦ ← λ where let in record data pub abbrev unfoldable if then else do elim".split())


class Definition:
    def __init__(self, module, name, kind, first, outer):
        self.module, self.name, self.kind, self.first, self.outer = module, name, kind, first, outer
        self.rows, self.inner, self.deep = [], [], 0

    @property
    def size(self):
        return sum(1 for it in self.rows if it.strip())


class Module:
    """One file of specs/ or proofs/."""

    def __init__(self, path, crate, name):
        self.path, self.crate, self.name = path, crate, name
        self.rows = [without_comment(it) for it in path.read_text(encoding="utf-8").split("\n")]
        self.uses, self.aliases, self.definitions, self.owners = {}, {}, {}, {}
        outer, held = "", None
        for number, row in enumerate(self.rows, 1):
            take_use(row, self.uses, self.aliases)
            if row.startswith("module"):
                outer, held = row, None
                continue
            head = HEAD.match(row)
            if head and head[5] and held and held.kind != "value" and len(head[1]) > held.deep:
                head = None
            if row and not row.startswith(" "):
                outer = outer if not head and held else ""
                held = held if not head else None
            if head:
                name = head[2] or head[4] or head[5]
                held = Definition(self, name.strip("(:"), head[3] or "value", number, outer if head[1] else "")
                held.deep = len(head[1])
                self.definitions.setdefault(held.name, held)
            elif USE.match(row) or re.match(r"(mutual|infix)", row):
                held = None
            if held:
                held.rows.append(row)
        for it in self.definitions.values():
            if it.kind != "value":
                it.inner = parts(it)[1]
            if it.kind == "data":
                for name, _ in it.inner:
                    self.owners.setdefault(name, it)

    @property
    def size(self):
        return sum(1 for it in self.rows if it.strip() and not USE.match(it))


def without_comment(row):
    return re.sub(r"\s*(?<![^\s])--.*$", "", row)


def take_use(row, uses, aliases):
    """Puts what a `use` brings into scope into these: each name with its module and its own name there, and each alias with its module."""
    match = USE.match(row.strip().removeprefix("ghost ")) if "use " in row else None
    if match:
        module = match[2]
        if match[5] and not match[3]:
            aliases[match[5]] = f"{module}.{match[4]}" if match[4] else module
            return
        for it in (match[3] or match[4] or "").split(","):
            own, _, name = it.strip().partition(" as ")
            if own:
                uses[(name or own).strip()] = module, own


def parts(definition):
    """The head of a record or of data, and its fields or constructors with their types."""
    rows = definition.rows
    end = next((k for k, it in enumerate(rows) if re.search(r"\bwhere$", it)), 0)
    deep = min((len(it) - len(it.lstrip()) for it in rows[end + 1:] if it.strip()), default=0)
    inner = []
    for row in rows[end + 1:]:
        match = re.match(r"(?:pub )?([^\s:(]+(?: [^\s:(]+)*) :(.*)", row.strip()) if len(row) - len(row.lstrip()) == deep else None
        if match:
            inner += [(name, match[2]) for name in match[1].split()]
        elif inner:
            inner[-1] = inner[-1][0], f"{inner[-1][1]}\n{row}"
    return "\n".join(rows[:end + 1]), inner


def clauses(definition):
    """The signature of a value, and its clauses: each the text before its sign of equality, and the one behind it."""
    deep = len(definition.rows[0]) - len(definition.rows[0].lstrip())
    texts = []
    for row in definition.rows:
        if row.strip() and len(row) - len(row.lstrip()) <= deep or not texts:
            texts.append(row)
        else:
            texts[-1] += f"\n{row}"
    cut = [re.split(r"(?<!\S)=(?!\S)", it, maxsplit=1) for it in texts[1:]]
    return texts[0], [(it[0], it[1] if len(it) > 1 else "") for it in cut]


def heads(text, hidden=(), is_known=lambda name: False):
    """The words that a text mentions, each its first part and its second, where it has one, but for what a variable hides.

    `is_known` tells of a name in a pattern whether it is a constructor; any other one is a variable."""
    tokens = TOKEN.findall(text)
    bound = [(it, -1) for it in hidden]
    found, depth = [], 0
    for at, token in enumerate(tokens):
        if token in OPENS:
            depth += 1
        elif token in CLOSES:
            depth -= 1
            bound = [it for it in bound if it[1] <= depth]
        elif token == "λ":
            bound += [(name, depth) for name in variables(tokens, at + 1, lambda it: it.endswith(".") or it == ".", is_known)]
        elif token == "let":
            bound += [(name, depth) for name in variables(tokens, at + 1, lambda it: it == "=", is_known)]
        elif token == ":" and at and tokens[at - 1] not in CLOSES:
            bound += [(name, depth - 1) for name in before(tokens, at, OPENS)]
        elif token in ("↦", "←"):
            bound += [(name, depth) for name in before(tokens, at, "[|;") if not is_known(name)]
        elif token[0] == '"' or token in MARKS or token in ";,":
            pass
        elif at + 1 < len(tokens) and tokens[at + 1] == "=" and tokens[at - 1] in "{;":
            pass
        else:
            name, _, behind = token.rstrip(".").partition(".")
            if name and name not in [it for it, _ in bound]:
                found.append((name, behind.partition(".")[0], token))
    return found


def variables(tokens, at, is_end, is_known):
    """The variables of a pattern that ends there; what stands behind a colon is its type."""
    names, typed = [], False
    while at < len(tokens):
        token = tokens[at]
        typed = (typed or token == ":") and token not in CLOSES
        name = token.rstrip(".")
        if not typed and name and name not in OPENS + CLOSES and not is_known(name):
            names.append(name)
        if is_end(token):
            break
        at += 1
    return names


def before(tokens, at, ends):
    names = []
    while at and tokens[at - 1] not in ends:
        at -= 1
        names += [] if tokens[at] in OPENS + CLOSES else [tokens[at].rstrip(".")]
    return names


class Code:
    """One file of src/, with the types and traits that it declares."""

    def __init__(self, path, crate):
        self.path, self.crate = path, crate
        text = re.sub(r"(?m)^\s*//.*$|\s//.*$|^\s*#!?\[.*\]$", "", path.read_text(encoding="utf-8"))
        self.text, self.uses, self.aliases, self.declared, self.models = text, {}, {}, {}, {}
        for match in re.finditer(r"(?m)^\s*(?:pub )?(?:ghost )?use ([^;]+);", text):
            self.take(" ".join(match[1].split()))
        for match in re.finditer(r"(?m)^(?:pub(?:\(crate\))? )?(?:safe )?(struct|enum|trait|type) (\w+)", text):
            self.declared[match[2]] = block(text, match.start())
        for match in re.finditer(r"(?m)^impl(?:<[^{]*?>)? Model for (\w+)", text):
            self.models[match[1]] = model(block(text, match.start()))

    def take(self, text):
        if text.startswith("Rattle."):
            take_use(f"use {text}", self.uses, self.aliases)
        else:
            head, _, inner = text.partition("::{")
            for it in (inner.rstrip("}") or head.rpartition("::")[2]).split(","):
                own, _, name = it.strip().partition(" as ")
                if own:
                    self.uses[(name or own).strip()] = head if inner else head.rpartition("::")[0], own


def block(text, at):
    """The text from there to the end of the item: its semicolon, or the brace that closes it."""
    depth = 0
    for end in range(at, len(text)):
        if text[end] == "{":
            depth += 1
        elif text[end] == "}":
            depth -= 1
        if depth == 0 and text[end] in ";}":
            return text[at:end + 1]
    return text[at:]


def model(text):
    """What a type's values are in specs/, and how a value is seen so: its invariant and its code are proved, and promise nothing."""
    uses = re.findall(r"ghost use [^;]+;", text)
    return "\n".join([*uses, *re.findall(r"ghost (?:Value|view) = [^;]+;", text)])


class House:
    def __init__(self, top=CRATES, folders=("specs",)):
        self.modules, self.code = {}, {}
        for crate in sorted(it.name for it in top.iterdir() if it.is_dir()):
            for folder in folders:
                for path in sorted((top / crate / folder).rglob("*.antt")):
                    name = ".".join(path.relative_to(top / crate / folder).with_suffix("").parts)
                    self.modules[f"{crate}.{folder}.{name}"] = Module(path, crate, f"{folder}.{name}")
            self.code[crate] = [Code(it, crate) for it in sorted((top / crate / "src").rglob("*.rt"))]

    def declared(self, crate, name, stem=None):
        """The file that declares a type or trait of a crate."""
        files = [it for it in self.code.get(crate, []) if name in it.declared]
        near = [it for it in files if stem in (None, it.path.stem, it.path.parent.name)]
        return (near or files or [None])[0]

    def at(self, module, name, seen=()):
        """What a name of a module is: a definition, the file and name of a type, or the kit's crate and word."""
        words = module.split(".")
        if words[0] == "Rattle":
            words = words[1:]
        if words[0] not in self.code:
            return "kit", words[0], f"{'.'.join(words)}.{name}"
        # what the kit makes of a type (`contracts`: how it is held, its codes) comes with the type
        if words[2:3] in (["declared"], ["contracts"]):
            types = [it for it in [*words[3:], name] if it[:1].isupper() and not re.match(r"The[A-Z]", it)]
            stem = next((a for a, b in zip(words[3:], [*words[4:], name]) if b == types[0]), None) if types else None
            file = self.declared(words[0], types[0], stem) if types else None
            return ("type", file, types[0]) if file else None
        for own in (self.modules.get(".".join(words)), self.modules.get(".".join(words[:-1]))):
            if own and (own, name) not in seen:
                word = name if own.name.split(".")[-1] == words[-1] else words[-1]
                found = self.word(own, word, seen=(*seen, (own, name)))
                if found:
                    return found
        return None

    def lost(self):
        """Each name that a file of specs/ imports from one of our crates and that was not found there: then the text was misread."""
        for module in self.modules.values():
            for where, name in module.uses.values():
                if where.startswith("Rattle.") and not self.at(where, name):
                    yield f"{module.path.relative_to(TOP)}: {where}.{name}"

    def word(self, module, name, behind="", seen=()):
        """What a word means in a file of specs/: its own definition or constructor, an import, or one behind an alias."""
        if name in module.definitions:
            return "definition", module.definitions[name], name
        if name in module.owners:
            return "definition", module.owners[name], name
        if name in module.uses:
            return self.at(*module.uses[name], seen=seen)
        if name in module.aliases and behind:
            return self.at(module.aliases[name], behind, seen=seen)
        return None

    def is_constructor(self, module):
        def is_known(name):
            if name in MARKS or not name:
                return True
            if name in module.definitions:
                return module.definitions[name].kind != "value"
            if name in module.owners or name in module.aliases:
                return True
            if name in module.uses:
                where, own = module.uses[name]
                found = self.at(where, own)
                return "TheVariants" in where or own[:1].isupper() or own in ("zero", "suc", "true", "false") \
                    or bool(found) and found[0] == "definition" and own in found[1].module.owners
            return False
        return is_known

    def mentions(self, definition):
        """What a definition mentions."""
        module, found = definition.module, []
        known = self.is_constructor(module)

        def add(text, hidden):
            for name, behind, token in heads(text, hidden, known):
                it = self.word(module, name, behind)
                if it:
                    found.append(it)
                else:
                    found.extend(self.operators(module, token))
        outer = before_where(definition.outer)
        given = bound_in(outer)
        add(outer, ())
        if definition.kind == "value":
            signature, rows = clauses(definition)
            add(signature.partition(":")[2], given)
            for left, right in rows:
                pattern = [it.rstrip(".") for it in TOKEN.findall(left)]
                add(left, [*given, *(it for it in pattern if not known(it.partition(".")[0]))])
                add(right, [*given, *(it for it in pattern if not known(it))])
        else:
            head, inner = parts(definition)
            hidden = [*given, *bound_in(head)]
            add(re.sub(r"^\s*(pub )?(record|data) \S+", "", head), given)
            for name, kind in inner:
                add(kind, hidden)
                hidden += [name] if definition.kind == "record" else []
        return [it for it in found if it[:2] != ("definition", definition)]

    def operators(self, module, token):
        for name in [*module.definitions, *module.uses]:
            if name.startswith("◌") and name.strip("◌") == token:
                it = self.word(module, name)
                if it:
                    yield it

    def named(self, file, text):
        """What a piece of code names: types and traits of our crates, and words of specs/ in its clauses."""
        uses, found = dict(file.uses), []
        for match in re.finditer(r"ghost use ([^;]+);", text):
            take_use(f"use {match[1]}", uses, {})
        text = re.sub(r"ghost use [^;]+;", "", text)
        for name in dict.fromkeys(re.findall(r"[^\W\d][\w']*", text)):
            where, own = uses.get(name, ("", name))
            if name in uses and where.startswith("Rattle"):
                found.append(self.at(where, own))
            elif name in file.declared:
                found.append(("type", file, name))
            elif name in uses:
                crate = file.crate if where.split("::")[0] == "crate" else where.split("::")[0]
                there = self.declared(crate, own, where.rpartition("::")[2])
                found.append(("type", there, own) if there else None)
        return [it for it in found if it]


def before_where(row):
    return re.sub(r"^module \S+|\bwhere\s*$", "", row)


def bound_in(text):
    """The parameters of a head: what stands before a colon in its brackets."""
    return [it for match in re.finditer(r"[({]([^(){}:]+) :", text) for it in match[1].split()]
