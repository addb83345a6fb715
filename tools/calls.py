"""Reads the sources so far that it can be told which function a call in a body is to. `.ci/walks` imports it.

Names are resolved by a file's own items and its `use` lines, also through what a crate's `lib.rt` hands on. The type of a receiver is told
by what a reader would look at: parameters, fields, what calls answer, and what patterns bind. A generic receiver is any type that its
trait is written for. What isn't told so is no call: so a step that isn't found may need a rule more here, and none is found by its
name alone.
"""
import glob
import os
import re

import wrong_bodies

OPENS, CLOSES = "([{<", ")]}>"
# What is as what it holds.
HOLDERS = {"Box", "MutexGuard", "RefMut", "Ref", "Rc", "Arc", "ManuallyDrop"}
# Calls of the library that answer what they are made on, or an option or a run of what it has.
SAME = {"as_slice", "as_mut_slice", "as_ref", "as_mut", "iter", "iter_mut", "into_iter", "by_ref", "clone", "expect", "rev", "take"}
INNER = {"lock", "unwrap", "unwrap_or", "borrow", "borrow_mut"}
MAYBE = {"get", "get_mut", "first", "last", "front", "front_mut", "back", "back_mut", "pop", "pop_front", "remove", "ok", "next"}


def closing(text, at):
    """The place of the bracket that closes the one at a place. Only of types `<` is one."""
    count = len(OPENS) if text[at] == "<" else len(OPENS) - 1
    depth = 0
    for place in range(at, len(text)):
        is_arrow = text[place] == ">" and text[place - 1] in "-="
        depth += (text[place] in OPENS[:count]) - (text[place] in CLOSES[:count] and not is_arrow)
        if depth == 0:
            return place
    return len(text) - 1


def parts_of(text, by=","):
    """A text's parts, which are parted outside of brackets."""
    parts, depth, start = [], 0, 0
    for place, letter in enumerate(text):
        arrow = letter == ">" and text[place - 1] in "-="
        depth += (letter in OPENS) - (letter in CLOSES and not arrow)
        if letter == by and depth == 0:
            parts.append(text[start:place])
            start = place + 1
    return [part.strip() for part in [*parts, text[start:]] if part.strip()]


class Function:
    """A function of the sources: where it stands, what it is passed and answers, and its body."""

    def __init__(self, source, block, text):
        self.source, self.block = source, block
        lines = text.split("\n")
        indent = re.match(" *", lines[0])[0]
        head, opened, body = text.partition(f"\n{indent}{{\n") if f"{indent}{{" in lines else text.partition("{\n")
        self.name = re.search(r"\bfn (\w+)", head)[1]
        self.body = re.sub(r"\s*\n\s*\.", ".", body) if opened else ""
        head = re.sub(r"\s+", " ", head)
        at = head.index("fn ") + 3 + len(self.name)
        self.bounds = {**(block.bounds if block else {})}
        if head[at] == "<":
            end = closing(head, at)
            self.bounds |= bounds_of(head[at + 1 : end])
            at = end + 1
        end = closing(head, at)
        self.passed = [part.split(":", 1) for part in parts_of(head[at + 1 : end]) if ":" in part]
        answer = re.match(r" -> (.*?)(?: requires\b| ensures\b| where\b|;|$)", head[end + 1 :])
        self.answer = answer[1].strip() if answer else "()"
        self.bounds |= bounds_of(head.partition(" where ")[2])


class Block:
    """An impl, or a trait: the type or trait that it is of, and the trait that an impl is for."""

    def __init__(self, source, head):
        head = re.sub(r"\s+", " ", head)
        words = re.match(r"(?:pub(?:\(\w+\))? )?(impl|trait) ?", head)
        rest, self.kind, self.bounds = head[words.end() :], words[1], {}
        if rest.startswith("<"):
            end = closing(rest, 0)
            self.bounds, rest = bounds_of(rest[1:end]), rest[end + 1 :].strip()
        rest = rest.partition(" where ")[0]
        of_trait, _, of = rest.partition(" for ")
        self.type = of or of_trait
        self.trait = source.resolve(of_trait.partition("<")[0]) if of else None
        self.of = source.resolve(re.match(r"[&\w:]+", self.type)[0].lstrip("&"))


def bounds_of(text):
    """The trait's names by which each generic name is bound."""
    bounds = {}
    for part in parts_of(text):
        name, _, traits = part.partition(":")
        if not name.startswith("'"):
            name = name.strip().removeprefix("const ")
            bounds[name] = [re.match(r"[\w:]*", it.strip())[0] for it in parts_of(traits, "+")]
    return bounds


class Source:
    """A module: what its names stand for, its types and its functions."""

    def __init__(self, sources, crate, module, text):
        self.sources, self.crate, self.module = sources, crate, module
        self.names, self.fields, self.variants, self.generics = {}, {}, {}, {}
        text = without_ghosts(text)
        self.text, self.functions, self.aliases = text, [], {}
        for match in re.finditer(r"^(?:pub(?:\(\w+\))? )?use ([^;]+);", text, flags=re.M):
            self.take_use(re.sub(r"\s+", " ", match[1]))
        for match in re.finditer(r"^(?:pub(?:\(\w+\))? )?(?:struct|enum|trait|fn|type) (\w+)", text, flags=re.M):
            self.names[match[1]] = f"{crate}::{module}::{match[1]}" if module else f"{crate}::{match[1]}"

    def take_use(self, text, before=""):
        text = text.strip()
        if "{" in text:
            head, _, rest = text.partition("{")
            for part in parts_of(rest.rstrip("} ")) if rest.count("{") == 0 else parts_of(rest[: closing("{" + rest, 0) - 1]):
                self.take_use(part, before + head)
            return
        path, _, name = (before + text).partition(" as ")
        if path.endswith("::self"):
            path = path[:-6]
        path = path.replace("crate::", f"{self.crate}::", 1) if path.startswith("crate::") else path
        path = self.up(path)
        self.names[name or path.rpartition("::")[2]] = path

    def up(self, path):
        """A path without `self` and `super`."""
        inside = self.module.split("::")
        if path.startswith("self::"):
            return f"{self.crate}::{self.module}::{path[6:]}"
        while path.startswith("super::"):
            path, inside = path[7:], inside[:-1]
            if not path.startswith("super::"):
                return "::".join([self.crate, *inside, path])
        return path

    def absolute(self, path):
        """A path that begins with the crate, if it is one of these sources."""
        ways = [f"{self.crate}::{self.module}::{path}", f"{self.crate}::{path}", path]
        return next(filter(self.sources.has, ways), path)

    def resolve(self, name):
        """What a name or a path stands for here: `crate::module::Name`, if it is of these sources."""
        first, _, rest = name.partition("::")
        path = f"{self.crate}::{rest}" if first == "crate" else self.up(name)
        if first in self.names:
            path = self.names[first] + ("::" + rest if rest else "")
        return self.sources.home_of(self.absolute(path))

    def read(self):
        """Finds its types and functions, once the names of all modules are known."""
        lines, at, block = self.text.split("\n"), 0, None
        while at < len(lines):
            line = lines[at]
            if block and line == "}":
                block = None
            elif re.match(r"(?:pub(?:\(\w+\))? )?(?:impl\b|trait )", line):
                end = next(it for it in range(at, len(lines)) if lines[it].rstrip().endswith(("{", "}", ";")))
                block = Block(self, "\n".join(lines[at : end + 1]).partition("{")[0])
                block = block if lines[end].rstrip().endswith("{") else None
                at = end
            elif re.match(r"(?:pub(?:\(\w+\))? )?(?:struct|enum) ", line):
                at = self.take_type(lines, at)
            elif re.match(r" *(?:pub(?:\(\w+\))? )?(?:const )?(?:unsafe )?fn \w", line):
                end = end_of_function(lines, at)
                self.functions.append(Function(self, block, "\n".join(lines[at : end + 1])))
                at = end
            elif found := re.match(r"(?:pub(?:\(\w+\))? )?type (\w+)(?:<.*>)? = (.*);", line):
                self.aliases[found[1]] = found[2]
            at += 1

    def take_type(self, lines, at):
        """A struct with its fields, or an enum with what its variants hold."""
        text = "\n".join(lines[at:])
        end = min(it for it in (text.find(";"), text.find("{")) if it >= 0)
        end = closing(text, end) if text[end] == "{" else end
        whole = text[: end + 1]
        head = re.match(r"(?:pub(?:\(\w+\))? )?(struct|enum) (\w+)", whole)
        rest = whole[head.end() :]
        self.generics[head[2]] = [*bounds_of(rest[1 : closing(rest, 0)])] if rest.startswith("<") else []
        inside = rest[rest.find("{") + 1 : rest.rfind("}")] if "{" in rest else ""
        inside = re.sub(r"#\[[^\]]*(?:\([^)]*\))?\]", "", inside)
        if head[1] == "struct":
            self.fields[head[2]] = fields_of(inside)
        else:
            self.variants[head[2]] = dict(map(held_by, parts_of(inside)))
        return at + whole.count("\n")


def without_ghosts(text):
    """A source without what is there for proofs alone."""
    while found := re.search(r"^ *ghost ", text, flags=re.M):
        text = text[: found.start()] + text[found.end() + len(until(text, found.end(), (";", ","))) + 1 :].removeprefix("\n")
    return text


def fields_of(text):
    pairs = [part.split(":", 1) for part in parts_of(text) if ":" in part and not part.startswith("ghost")]
    return {re.sub(r"^pub(?:\(\w+\))? ", "", name.strip()): of.strip() for name, of in pairs}


def held_by(variant):
    """A variant's name, and the types that it holds, by number or by name."""
    name = re.match(r"\w+", variant)[0]
    rest = variant[len(name) :].strip()
    if rest.startswith("("):
        return name, {str(number): of for number, of in enumerate(parts_of(rest[1 : closing(rest, 0)]))}
    return name, fields_of(rest[1:-1]) if rest.startswith("{") else {}


def end_of_function(lines, at):
    """The line with which a function ends that begins at a line."""
    indent, depth = re.match(" *", lines[at])[0], 0
    for end in range(at, len(lines)):
        line = re.sub(r'"(?:\\.|[^"\\])*"|\'(?:\\.|[^\'\\])\'', "", lines[end])
        depth += sum(line.count(it) for it in "([{") - sum(line.count(it) for it in ")]}")
        if depth == 0 and (line.rstrip().endswith(";") or line == f"{indent}}}" or end == at and line.endswith("}")):
            return end
    return len(lines) - 1


class Type:
    """A type: what its name stands for, and the types that it is of."""

    def __init__(self, name, args=()):
        self.name, self.args = name, list(args)

    def __repr__(self):
        return f"{self.name}{self.args or ''}"


class Sources:
    """All modules of all crates."""

    def __init__(self, top):
        self.modules, self.readers = {}, {}
        for path in glob.glob(f"{top}/crates/*/src/**/*.rt", recursive=True):
            crate, _, inside = os.path.relpath(path, f"{top}/crates").partition("/src/")
            module = inside[:-3].replace("/", "::").removesuffix("::mod")
            text = wrong_bodies.without_comments(path, wrong_bodies.text_of(path))
            module = "" if module in ("lib", "main") else module
            self.modules[f"{crate}::{module}" if module else crate] = Source(self, crate, module, text)
        for source in self.modules.values():
            source.read()

    def has(self, path):
        """Whether a path is that of a module, or of a name in one."""
        before, _, name = path.rpartition("::")
        return path in self.modules or before in self.modules and name in self.modules[before].names

    def home_of(self, path, seen=()):
        """Where what a path names is defined, through the modules that hand it on."""
        before, _, name = path.rpartition("::")
        module = self.modules.get(before)
        if not module or path in seen or path in self.modules or name not in module.names:
            return path
        onward = module.absolute(module.names[name])
        return path if onward == path else self.home_of(onward, (*seen, path))

    def reader_of(self, function):
        if id(function) not in self.readers:
            self.readers[id(function)] = Reader(self, function)
        return self.readers[id(function)]

    def named(self, step):
        """The functions that a step `crate::module::function` names."""
        before, _, name = step.rpartition("::")
        module = self.modules.get(before)
        return [it for it in module.functions if it.name == name and it.body] if module else []

    def type_of(self, text, function, types=None):
        """The type that a text stands for in a function, without what only lends or holds."""
        text = re.sub(r"^(?:&|'\w+ |mut |dyn |impl )+", "", text.strip())
        source, block = function.source, function.block
        if types and text in types:
            return types[text]
        if text == "Self":
            return self.type_of(block.type, function) if block.kind == "impl" else Type(block.of)
        if text.startswith("["):
            return Type("Slice", [self.type_of(parts_of(text[1:-1], ";")[0], function, types)])
        if text.startswith("("):
            return Type("Tuple", [self.type_of(it, function, types) for it in parts_of(text[1:-1])])
        head = re.match(r"[\w:]+", text)
        if not head:
            return Type(text)
        rest = text[head.end() :]
        args = [self.type_of(it, function, types) for it in parts_of(rest[1:-1]) if not it.startswith("'")] if rest.startswith("<") else []
        if head[0] in source.aliases and not args:
            return self.type_of(source.aliases[head[0]], function, types)
        if head[0] in HOLDERS and args:
            return args[0]
        if head[0] in function.bounds and not args:
            return Type("any of", [Type(source.resolve(it)) for it in function.bounds[head[0]]])
        return Type(source.resolve(head[0]), args)

    def methods_of(self, kind, name):
        """The functions of a name that are a type's own, or of the traits by which it is bound: there those of every type that has it."""
        wanted = [it.name for it in kind.args] if kind.name == "any of" else [kind.name]
        for module in self.modules.values():
            for function in module.functions:
                if function.name == name and function.block and (function.block.of in wanted or function.block.trait in wanted):
                    yield function

    def types_of(self, kind):
        """What a type's generic names stand for."""
        module, name = self.place_of(kind)
        names = module.generics.get(name, []) if module else []
        return dict(zip(names, kind.args))

    def place_of(self, kind):
        """The module of a type of these sources, and its name there."""
        before, _, name = kind.name.rpartition("::")
        return self.modules.get(before), name

    def part_of(self, kind, parts, part):
        """The type of a field, or of what a variant holds: `parts` has the texts."""
        module, _ = self.place_of(kind)
        return self.type_of(parts[part], Standing(module), self.types_of(kind)) if part in parts else None


class Standing:
    """Where a struct or an enum stands."""

    def __init__(self, source):
        self.source, self.bounds, self.block = source, {}, None


class Reader:
    """What a function's body calls."""

    def __init__(self, sources, function):
        self.sources, self.function = sources, function
        self.body = expanded(function.body, function.source.text)
        self.kinds = {}
        if function.block:
            self.put("self", sources.type_of("Self", function))
        for name, of in function.passed:
            self.bind(name, sources.type_of(of, function))
        for _ in range(3):
            for pattern, expression in bindings(self.body):
                for kind in self.kinds_of(expression) or [None]:
                    self.bind(pattern, kind)

    def put(self, name, kind):
        known = self.kinds.setdefault(name, [])
        if kind and repr(kind) not in map(repr, known):
            known.append(kind)

    def bind(self, pattern, kind):
        """What the names of a pattern are, which a value of this type is matched with."""
        pattern = re.sub(r"^(?:&|mut |ref )+", "", pattern.strip())
        if re.fullmatch(r"[a-z_]\w*", pattern):
            return self.put(pattern, kind)
        head = re.match(r"[\w:]*", pattern)[0]
        rest = pattern[len(head) :].strip()
        if not rest:
            return None
        inside = parts_of(rest[1 : closing(rest, 0)])
        if head in ("Some", "Ok", "Err"):
            args = kind.args if kind and kind.name in ("Option", "Result", "any") else []
            return self.bind(inside[0], args[head == "Err"] if len(args) > (head == "Err") else None) if inside else None
        if not head:
            args = kind.args if kind and kind.name == "Tuple" else []
            for part, of in zip(inside, args or [None] * len(inside)):
                self.bind(part, of)
            return None
        for number, part in enumerate(inside):
            field, _, deeper = part.partition(":") if rest[0] == "{" else (str(number), "", part)
            self.bind(deeper or field, self.held(head, field.strip(), kind))
        return None

    def held(self, head, field, kind):
        """The type of what a struct's or a variant's pattern has under a name or number."""
        of, _, variant = head.rpartition("::")
        name = self.sources.type_of(of or head, self.function).name
        kind = kind if kind and kind.name == name else Type(name)
        module, name = self.sources.place_of(kind)
        parts = module and (module.variants.get(name, {}).get(variant) if of else module.fields.get(name))
        return self.sources.part_of(kind, parts, field) if parts else None

    def kinds_of(self, text):
        """The types that an expression may have, as far as they can be told."""
        text = text.strip()
        text = re.sub(r"^(?:&|\*|mut )+", "", text)
        head = re.match(r"[\w:]+(?:::<[^()]*>)?", text)
        if text.startswith("("):
            end = closing(text, 0)
            kinds, text = self.kinds_of(text[1:end]), text[end + 1 :]
        elif head and head[0] == "match":
            on = until(text, 6, (" {",))
            start = 6 + len(on) + 1
            return [kind for _, value in arms_of(text[start + 1 : closing(text, start)]) for kind in self.kinds_of(value)]
        elif not head or head[0] == "if":
            return []
        else:
            text = text[head.end() :]
            if text.startswith("("):
                end = closing(text, 0)
                answers = [kind for it in self.called_by(head[0]) for kind in self.answers(it, None)]
                kinds, text = answers or self.made_by(head[0], text[1:end]), text[end + 1 :]
            elif text.startswith(" {"):
                return [self.sources.type_of(head[0], self.function)]
            else:
                kinds = self.kinds.get(head[0], [])
        while text := text.strip():
            step = re.match(r"\.(\w+)(?:::<[^()]*>)?(\()?|(\?)|(\[)", text)
            if not step:
                break
            end = closing(text, step.end() - 1) + 1 if step[2] or step[4] else step.end()
            kinds, text = [it for kind in kinds for it in self.after(kind, step)], text[end:]
        return kinds

    def made_by(self, path, inside):
        """What `Some(..)` and the like, or a library's constructor, make."""
        if path in ("Some", "Ok"):
            return [Type("Option", [it]) for it in self.kinds_of(inside)]
        if path.endswith("::new") and path.partition("::")[0] in HOLDERS:
            return [Type("Result", [it]) for it in self.kinds_of(parts_of(inside)[-1])]
        return []

    def after(self, kind, step):
        """The types of a field, a call, an inner value or a part of a value."""
        if step[3] or step[4]:
            return kind.args[-1:] if kind.name.endswith("Map") else kind.args[:1]
        name = step[1]
        if not step[2]:
            module, of = self.sources.place_of(kind)
            fields = module.fields.get(of, {}) if module else {}
            if kind.name == "Tuple" and name.isdigit():
                return kind.args[int(name) : int(name) + 1]
            found = self.sources.part_of(kind, fields, name)
            return [found] if found else []
        own = [it for found in self.sources.methods_of(kind, name) for it in self.answers(found, kind)]
        if own:
            return own
        if name in SAME:
            return [kind]
        if name in INNER and kind.args:
            return kind.args[:1]
        if name in MAYBE and kind.args:
            return [Type("Option", kind.args[-1:] if kind.name.endswith("Map") else kind.args[:1])]
        return []

    def answers(self, function, kind):
        """What a call of a function answers, which is made on this type."""
        types = self.sources.types_of(kind) if kind else {}
        return [] if function.answer == "()" else [self.sources.type_of(function.answer, function, types)]

    def called_by(self, path):
        """The functions that a path in front of its arguments names."""
        before, _, name = re.sub(r"::<.*>$|<.*?>", "", path).rpartition("::")
        if not before or self.function.source.resolve(before) in self.sources.modules:
            home, _, name = self.function.source.resolve(path).rpartition("::")
            module = self.sources.modules.get(home)
            return [it for it in module.functions if it.name == name and not it.block] if module else []
        return [*self.sources.methods_of(self.sources.type_of(before, self.function), name)]

    def calls(self, name):
        """The functions of this name that the body calls."""
        for found in re.finditer(rf"(?<![\w]){name}(?:::<[^()]*>)?\(", self.body):
            before = self.body[: found.start()]
            if before.endswith("."):
                for kind in self.kinds_of(chain_before(before[:-1])):
                    yield from self.sources.methods_of(kind, name)
            elif not before.endswith("fn "):
                yield from self.called_by(re.search(r"[\w:<>, ']*::$|$", before)[0].lstrip("<, ") + name)


def chain_before(text):
    """The expression with which a text ends: names, fields, calls and parts in a row."""
    at = len(text)
    while at > 0:
        letter = text[at - 1]
        if letter in ")]":
            at = opening(text, at - 1)
        elif letter.isalnum() or letter in "_.?:":
            at -= 1
        else:
            break
    return text[at:]


def opening(text, at):
    """The place of the bracket that opens what is closed at a place."""
    depth = 0
    for place in range(at, -1, -1):
        depth += (text[place] in ")]}") - (text[place] in "([{")
        if depth == 0:
            return place
    return 0


def until(text, at, ends):
    """The text from a place to the first of these, outside of brackets."""
    depth = 0
    for place in range(at, len(text)):
        if depth == 0 and text.startswith(ends, place):
            return text[at:place]
        depth += (text[place] in "([{") - (text[place] in ")]}")
        if depth < 0:
            return text[at:place]
    return text[at:]


def bindings(body):
    """The patterns of a body, each with the expression that it is matched with."""
    for found in re.finditer(r"\blet ([^=;]+?)(?:: [^=;]+)? = ", body):
        ends = (" {",) if re.search(r"\b(?:if|while) $", body[: found.start()]) else (";", " else {")
        yield found[1], until(body, found.end(), ends)
    for found in re.finditer(r"\bfor (.+?) in ", body):
        yield f"Some({found[1]})", f"{until(body, found.end(), (' {',))}.first()"
    for found in re.finditer(r"\bmatch ", body):
        on = until(body, found.end(), (" {",))
        start = found.end() + len(on) + 1
        for pattern, _ in arms_of(body[start + 1 : closing(body, start)]):
            for one in parts_of(pattern, "|"):
                yield re.sub(r",? \.\.", "", one), on


def arms_of(text):
    """The pattern and the value of each arm of a match."""
    while text.strip(" \n,"):
        text = text.lstrip(" \n,")
        pattern = until(text, 0, ("=>",))
        text = text[len(pattern) + 2 :].lstrip()
        value = text[: closing(text, 0) + 1] if text.startswith("{") else until(text, 0, (",",))
        yield re.sub(r"\s+", " ", pattern.partition(" if ")[0]), value
        text = text[len(value) :]


def expanded(body, text):
    """A body with each call of the module's own macros written out. A macro has one arm, whose parts are expressions and names."""
    for macro in re.finditer(r"^macro_rules! (\w+) \{\n *\((.*)\) => \{+\n(.*?)^ *\}+\n\}", text, flags=re.M | re.S):
        pattern = re.escape(macro[2]).replace(r"\ ", " ")
        pattern = re.sub(r"\\\$\\\(\\\$(\w+):expr\\\),\\\*", r"(?P<\1>.*)", pattern)
        pattern = re.sub(r"\\\$(\w+):(?:expr|ident)", r"(?P<\1>.+?)", pattern)
        for call in re.finditer(rf"\b{macro[1]}!\(", body):
            inside = body[call.end() : closing(body, call.end() - 1)]
            found = re.fullmatch(pattern, re.sub(r"\s+", " ", inside.strip()), flags=re.S)
            if found:
                whole = re.sub(r"\$\(\$(\w+)\),\*|\$(\w+)", lambda it: found[it[1] or it[2]], macro[3])
                body = body.replace(f"{macro[1]}!({inside})", whole)
    return body
