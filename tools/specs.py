"""Reads the definitions of specs/, and the types and traits of the code, and finds what each of them cites."""
import glob
import os
import re

TOP = os.path.dirname(os.path.dirname(os.path.abspath(__file__)))
# What the language itself has.
BUILT_IN = {*"→ : = λ ↦ | ; , . × ⊥ ¬ Type Unit elim let in where".split(),
            *"record data abbrev unfoldable pub mutual module".split()}
# Constructors of the kit that begin with a small letter, so that they are no variables in a pattern.
SMALL_CONSTRUCTORS = ("zero", "suc", "true", "false")
IDENTIFIER = r"[^\W\d][^\s(){}\[\],;.\"]*"
TOKEN = re.compile(r'"[^"]*"|\[\]|[(){}\[\],;]|(?<=\S)\.\w[^\s(){}\[\],;."]*|\.|[^\s(){}\[\],;."]+')
BEGINS = r"(?:pub |unfoldable |abbrev |record |data )"


def read(path):
    with open(os.path.join(TOP, path), encoding="utf-8") as file:
        return file.read()


def plain(comment):
    """The text of a comment, without lines that begin a section."""
    lines = [line.strip()[2:].strip() for line in comment.split("\n")]
    return " ".join(line for line in lines if line and not line.startswith("--"))


class Unit:
    """A definition in specs/: one word, or the words of a block that define each other."""

    def __init__(self, module, text, comment):
        self.module, self.path, self.crate = module, module.path, module.path.split("/")[1]
        self.text, self.comment = text, comment
        without_fields = re.sub(r"(?m)^( *)(pub record .*)\n(?:\1 +.*\n?)*", r"\1\2\n", text)
        words = re.findall(rf"(?m)^ *{BEGINS}+(?!mutual\b)({IDENTIFIER})", without_fields)
        self.words = words if re.match(r"mutual|abbrev mutual|module", text) else words[:1]
        is_data = re.search(r"(?m)^ *pub data ", text)
        self.constructors = re.findall(rf"(?m)^ +(?!{BEGINS})({IDENTIFIER}) : ", text) if is_data else []

    def cited(self, specs):
        reader = Reader(specs, self.module)
        reader.unit(self)
        return reader.found

    def comment_on(self, word):
        """The comment above a word, or, of the first one of a block, above the block."""
        block = r"(?:(?:mutual|abbrev mutual|module)\b[^\n]*\n)?"
        found = re.search(rf"((?: *--[^\n]*\n)*){block} *{BEGINS}+{re.escape(word)}(?=[\s:({{])", self.comment + self.text)
        return plain(found[1]) if found else ""


class Code:
    """A type or a trait of the code as contracts see it, or the contract of a function. Comments are left out."""

    def __init__(self, path, name, text):
        self.path, self.words, self.constructors, self.crate = path, [name], [], path.split("/")[1]
        self.text = re.sub(r"(?m)^(?: *//.*| *#\[.*| *ghost use .*|)\n", "", text).strip("\n")

    def cited(self, specs):
        """What its clauses cite, and the types that it names."""
        text, module = read(self.path), specs.module(self.path)
        clauses = re.findall(r"(?s)(?:\bensures|\bghost)\b.*?\{(.*?)\}(?=[;\s]*(?:ensures|fn|ghost|\}|$))", self.text)
        found = [specs.find(module, token) for clause in clauses for token in TOKEN.findall(clause)]
        for name in re.findall(r"\b[A-Z]\w+", self.text):
            home = re.search(rf"(?m)^use (\w+)(?:::\w+)*::(?:\{{[^;]*?\b)?{name}\b", text)
            crate = self.crate if home is None or home[1] == "crate" else home[1]
            files = sorted(glob.glob(os.path.join(TOP, "crates", crate, "src", "**", "*.rt"), recursive=True))
            paths = [os.path.relpath(path, TOP) for path in files] if home else [self.path]
            found.append(next(filter(None, (specs.code(path, name) for path in paths)), None))
        return found


class Module:
    """A file: its units by word and by constructor, and the names that it imports, each with its home and name there."""

    def __init__(self, path):
        text = read(path)
        self.path, self.imports, self.units = path, {}, {}
        self.aliases = {alias: home for home, alias in re.findall(r"\buse ([\w.]+) as (\w+)", text)}
        for home, names in re.findall(r"\buse ([\w.]+)\.\{([^}]*)\}", text):
            for name in filter(None, re.split(r",\s*", names.strip())):
                there, _, here = name.partition(" as ")
                self.imports[here or there] = (home, there)
        self.comment = plain(re.match(r"(?:--.*\n)*", text)[0])
        for item, comment in self.items(text) if path.endswith(".antt") else ():
            unit = Unit(self, item, comment)
            for name in (*unit.words, *unit.constructors):
                self.units[name] = unit

    @staticmethod
    def items(text):
        """The definitions, each from its first line on, and the comment above it."""
        begins = re.compile(rf"{BEGINS}*(?:mutual|module|use|mod)\b|{BEGINS}")
        item, comments, above = [], [], ""
        for line in (*text.split("\n"), "use"):
            if begins.match(line):
                if item and not re.match(r"(pub )?(use|mod)\b", item[0]):
                    yield "\n".join(item), above
                above = re.search(r"(?:--.*\n)*\Z", "".join(f"{comment}\n" for comment in comments))[0]
                item, comments = [line], []
            elif line.startswith("--") or not line.strip():
                comments.append(line)
            else:
                item += [*comments, line]
                comments = []


class Specs:
    """All definitions, read when they are needed."""

    def __init__(self):
        self.modules, self.types, self.unknown = {}, {}, set()

    def module(self, path):
        if path not in self.modules:
            self.modules[path] = Module(path) if os.path.exists(os.path.join(TOP, path)) else None
        return self.modules[path]

    def code(self, path, name):
        """A struct, enum or trait that a file of code declares, with what contracts see in place of its fields."""
        if (path, name) not in self.types and os.path.exists(os.path.join(TOP, path)):
            head, body = rf"^pub(?:\(crate\))? (?:struct|enum|trait) {name}\b[^\n]*", r"\{\n.*?^\}\n"
            text = "".join(re.findall(rf"(?ms){head}(?:;\n|{body})|^impl Model for {name} {body}", read(path)))
            self.types[path, name] = Code(path, name, text) if text else None
        return self.types.get((path, name))

    def find(self, module, name):
        """What a name means in a file: a unit, code, or the name of a word of the kit; None where it means nothing."""
        if name in module.units:
            return module.units[name]
        if name not in module.imports:
            mixfix = [full for full in module.imports if "◌" in full and name in full.split("◌")]
            return self.find(module, mixfix[0]) if mixfix else None
        return self.find_in(*module.imports[name])

    def find_in(self, home, name):
        """The same of a name in the file that an import names. Rattle.CRATE.specs.declared.FILE.TYPE is a type of code."""
        crate, *parts = home.split(".")[1:]
        if ".declared." in home:
            parts = home.replace(".TheVariants", "").split(".")[4:]
            return self.code(f"crates/{crate}/src/{'/'.join(parts[:-1]) or 'lib'}.rt", parts[-1]) or name
        module = self.module(f"crates/{crate}/{'/'.join(parts)}.antt")
        return self.find(module, name) if module else name


class Reader:
    """Finds what a definition cites: its names, but for those that it binds itself."""

    def __init__(self, specs, module):
        self.specs, self.module, self.found = specs, module, []

    def cite(self, name, home=None):
        found = self.specs.find_in(home, name) if home else self.specs.find(self.module, name)
        if found is not None:
            self.found.append(found)
        elif name not in BUILT_IN and not re.match(r"\.|[\d\"(){}\[\]]", name):
            self.specs.unknown.add(f"{self.module.path} cites {name}, which it doesn't import")

    def unit(self, unit):
        """Reads a unit in parts, one for each clause or constructor: what one binds is free in the next."""
        heads = "|".join(map(re.escape, (*unit.words, *unit.constructors)))
        margins = set(re.findall(rf"(?m)^( *){BEGINS}*(?:{heads})[^\n]* : ", unit.text))
        cut = rf"\n(?=(?:{'|'.join(margins)}){BEGINS}*(?:{heads})(?:[\s:({{]|$))"
        is_record, has_parameters = re.match("(pub )?record", unit.text), re.match("(pub data|module)", unit.text)
        kept = set()
        for part in [unit.text] if is_record else re.split(cut, unit.text):
            bound = self.scan(TOKEN.findall(re.sub(r"(?m)(^|\s)--.*", "", part)), kept)
            kept = bound if has_parameters and not kept else kept

    def pattern(self, token, scope):
        """A name in a pattern is a constructor, or a variable."""
        found = self.specs.find(self.module, token)
        if isinstance(found, Unit):
            is_variable = token not in found.constructors
        else:
            is_variable = found is None or token[0].islower() and token not in SMALL_CONSTRUCTORS
        if is_variable and re.fullmatch(IDENTIFIER, token):
            scope.add(token)
        else:
            self.cite(token)

    def scan(self, tokens, bound):
        """Cites all that is free. What is bound inside brackets is bound up to their end."""
        scopes, at = [{"_", *bound}], 0
        ends = [self.next_of(tokens, 0, (sign,)) for sign in "=:"]
        if ends[0] < ends[1]:  # a clause: patterns, and then their meaning
            for token in tokens[1 : ends[0]]:
                self.pattern(token, scopes[0])
            at = ends[0]
        while at < len(tokens):
            at = self.step(tokens, at, scopes)
        return scopes[0]

    @staticmethod
    def next_of(tokens, at, wanted):
        """The index of the first of some tokens from an index on, outside brackets that open after it."""
        depth = 0
        while at < len(tokens) and not (depth == 0 and tokens[at] in wanted):
            depth += (tokens[at] in "({[") - (tokens[at] in ")}]")
            at += 1
        return at

    def step(self, tokens, at, scopes):
        """Reads the token at an index, with what it binds, and returns the index to continue at."""
        token, after = tokens[at], tokens[at + 1] if at + 1 < len(tokens) else ""
        end = at + 1
        while end < len(tokens) and re.fullmatch(IDENTIFIER, tokens[end]):
            end += 1
        if token == "λ" or token in ("(", "{") and end > at + 1 and tokens[end : end + 1] == [":"]:  # λ x y. and (x y : T)
            scopes[-1].update(tokens[at + 1 : end])
        if token == "let" or token == "pub" and tokens[at + 2 : at + 3] == [":"]:  # let x = .. and a field
            scopes[-1].add(after)
        if token in ("(", "{", "["):
            scopes.append(set(scopes[-1]))
        elif token in (")", "}", "]"):
            scopes.pop()
        if token in ("[", "|"):  # perhaps a pattern and ↦
            end = self.next_of(tokens, at + 1, ("|", "]", "↦"))
            if tokens[end : end + 1] == ["↦"]:
                for name in tokens[at + 1 : end]:
                    self.pattern(name, scopes[-1])
                return end
        if token in self.module.aliases and after.startswith("."):
            self.cite(after[1:], self.module.aliases[token])
            return at + 2
        is_label = after == "=" and tokens[at - 1] in ("{", ";")
        if token not in scopes[-1] and not is_label:
            self.cite(token)
        return at + 1
