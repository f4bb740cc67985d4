#!/usr/bin/env python3
"""What a reader must believe: the definitions that the contracts of the entry points and the theorems cite, and what those cite in turn.

    tools/believed.py                           files in reading order, with the names needed from each and lines
    tools/believed.py --check docs/PROOFS.md    compares with the page's section 'Files to be believed'
    tools/believed.py --write docs/PROOFS.md    writes that section anew

Names are followed through `use` and `ghost use` lines to crates/*/specs, lemma files of crates/*/proofs and to the structs and enums of crates/*/src. Names of the kit (lib, mathlib,
Prim, denote, ..) are listed apart and not followed. Lines of a definition are counted without blank lines, comments, `use` and `unfolding`.
"""
import pathlib
import re
import sys

ROOT = pathlib.Path(__file__).resolve().parent.parent

# Where a reader starts: the contracts of functions (None: every public one of the crate's lib.rt), and the statements of theorems.
ENTRY_POINTS = {"vector": ["scan"], "bloom": ["unite"], "label": ["hash_label", "hash_name"], "curator": ["new", "add", "take_back", "withdraw"], "build": ["build"], "search": ["search_filtered", "search_both", "search"], "load": ["load_record"],
                "printer": None, "curator_c": None, "hit_records": None}
THEOREMS = {"bloom": ["pooling"], "label": ["carries_on"], "curator": ["names-alike", "adds_parted", "withdraws_only", "withdraws_again", "withdraws-walk", "searches-once", "searches-twice", "answers-twice"], "walk": ["twice-walk"], "search": ["filtered_parted", "both_parted", "searches_parted"], "build": ["build_pools"], "runs": ["demand3", "add_undone", "same_model", "whole-swapped", "same-swapped"], "load": ["prints"], "trial_table": ["table"]}

SECTION = "## Files to be believed"
# words of the two languages, names that need no `use` line, and levels of universes
BUILT_IN = set("module record data where let in as Type Unit tt ⊥ → × ⊎ = : λ | ↔ ¬ _ - result ℓ κ".split())


class Definition:
    """A definition, a Rattle type or a contract: its file, name, number of lines, constructors, and parts (see `cited`)."""

    def __init__(self, file, name, lines, parts, constructors=()):
        self.file, self.name, self.lines, self.parts, self.constructors = file, name, lines, parts, set(constructors)


# ---- words

def words_of(text):
    """Names and signs. A projection keeps its dot, and a qualified name is one word."""
    text = re.sub(r'"[^"]*"', " ", text).replace("«", "").replace("»", "")
    return re.findall(r"[(){};,@]|[^\s(){};,@]+", text)


def bound_in(words):
    """The names that the binder groups `(x y : ..)`, `λ x y.` and `let x` of some words bind."""
    bound = set()
    for i, word in enumerate(words):
        after = words[i + 1:]
        if word in "({":
            names = after[:after.index(":")] if ":" in after else []
            bound.update(names if all(re.match(r"[^(){};,]", name) for name in names) else [])
        elif word == "let":
            bound.add(after[0])
        elif word == "λ":
            end = next(k for k, name in enumerate(after) if name.endswith(".") or name in "({")
            bound.update(name.rstrip(".") for name in after[:end + 1])
    return bound


def cited(left, right, bound, is_constructor):
    """The names that a part of a definition cites. On the left of a clause whatever is no constructor is bound, as `bound` is; projections, numerals
    and the labels of a record are no names."""
    bound = bound | {word for word in left if not is_constructor(word)} | bound_in(right)
    for i, word in enumerate(left + right):
        if word[0] in "(){};,@.0123456789" or (left + right)[i + 1:i + 2] == ["="]:
            continue
        if word.rstrip(".") not in bound and word.partition(".")[0] not in bound | BUILT_IN:
            yield word.rstrip(".")


def uses_in(text):
    """What `use` lines bring: each name with its module and the name there; an alias of a module with None there."""
    brought = {}
    for path, names, alias in re.findall(r"^(?:pub |ghost )*use ([^\s{};]+?)\.?(?:\{([^}]*)\}| as (\S+?))?;?$", text, re.M):
        if alias:
            brought[alias] = (path, None)
        for name in filter(None, re.split(r",\s*", names.strip())):
            there, _, here = name.partition(" as ")
            brought[here or there] = (path, there)
    return with_signs(brought)


def with_signs(table):
    """An operator such as ◌≤◌ is also found by its sign."""
    for name in [name for name in table if "◌" in name]:
        for sign in filter(None, name.split("◌")):
            table.setdefault(sign, table[name])
    return table


# ---- definitions (antt)

def depth(line):
    return len(line) - len(line.lstrip())


def blocks(lines, indent):
    """Lines cut before each one at an indentation."""
    cut = []
    for line in lines:
        if depth(line) <= indent or not cut:
            cut.append([])
        cut[-1].append(line)
    return cut


def header(line):
    """The kind and name of the definition, field or constructor that begins in a line, if one does."""
    marks = r"\s*(?:unfoldable |abbrev |axiom |pub )*"
    found = re.match(marks + r"(record|data) (\S+)", line) or re.match(marks + r"()([^\s(){}]+)(?: \{[^}]*\})? :(?:\s|$)", line)
    return found and (found[1], found[2].strip("«»"))


def items_in(lines, indent=0, parameters=()):
    """The definitions among lines, each as its lines: a signature with its clauses, a record, a data type; those in `module` and `mutual` too. Each comes
    with the words of the modules that it stands in, whose parameters it has."""
    items = []
    for block in blocks(lines, indent):
        if re.match(r"\s*(module|mutual|unfoldable mutual)\b", block[0]):
            start = next(i for i, line in enumerate(block) if re.search(r"\b(where|mutual)$", line)) + 1
            words = words_of(" ".join(block[:start])) if "module" in block[0] else []
            items += items_in(block[start:], indent + 2, [*parameters, *words])
        elif header(block[0]):
            items.append((block, list(parameters)))
        elif items:
            items[-1][0].extend(block)
    return items


def sides(words):
    """The left and right sides of a clause: its `=` stands in no brackets."""
    inside = 0
    for i, word in enumerate(words):
        inside += (word in "({") - (word in ")}")
        if word == "=" and not inside:
            return words[:i], words[i + 1:]
    return words, []


class Module:
    """An antt file: its definitions by every name that they make, the statements of its functions, and what its `use` lines bring."""

    def __init__(self, file):
        self.file, self.uses, self.made, self.statements = file, uses_in(file.read_text()), {}, {}
        lines = [re.sub(r"(^|\s)--(\s.*|$)", "", line).rstrip() for line in file.read_text().splitlines()]
        for item, parameters in items_in([line for line in lines if line and not re.match(r"\s*(pub use|use|pub mod|mod|unfolding) ", line)]):
            kind, name = header(item[0])
            if kind:
                self.enter_type(kind, name, item, parameters)
            else:
                self.enter_function(name, item, parameters)
        with_signs(self.made)

    def enter_type(self, kind, name, item, parameters):
        """A record's fields are bound in the types of those that follow; a data type's constructors are names of the module."""
        start = next(i for i, line in enumerate(item) if line.endswith("where")) + 1
        head = parameters + words_of(" ".join(item[:start]))
        bound = bound_in(head) | {name, "pub"}
        parts, inner = [([], head, bound)], []
        for block in blocks(item[start:], depth(item[0]) + 2):
            words = words_of(" ".join(block))
            parts.append(([], words[words.index(":") + 1:], bound))
            inner.append(header(block[0])[1])
            if kind == "record":
                bound = bound | {inner[-1]}
        definition = Definition(self.file, name, len(item), parts, inner if kind == "data" else [])
        self.made[name] = definition
        self.made.update((constructor, definition) for constructor in definition.constructors)

    def enter_function(self, name, item, parameters):
        signature, *clauses = blocks(item, depth(item[0]))
        head, _, kind = " ".join(signature).partition(" :")
        bound = {name} | bound_in(parameters) | set(words_of(head))
        parts = [([], parameters + words_of(kind), bound)]
        self.statements[name] = Definition(self.file, name, len(signature), parts)
        for clause in clauses:
            left, right = sides(words_of(" ".join(clause)))
            parts = parts + [(left, right, bound)]
        self.made[name] = Definition(self.file, name, len(item), parts)


# ---- types and contracts (Rattle)

def types_named(text):
    return [word for word in re.findall(r"\b[A-Z]\w*", text) if word not in ("C", "Self")]


class Source:
    """A Rattle file: its structs and enums, its public functions with their contracts, and what its `use` lines bring."""

    def __init__(self, file):
        self.file, self.made, self.functions = file, {}, {}
        text = re.sub(r"^\s*//.*\n", "", file.read_text(), flags=re.M)
        self.uses = uses_in("\n".join(re.findall(r"^ghost use .*$", text, re.M)))
        self.paths = {path.split("::")[-1]: path.split("::") for path in re.findall(r"^(?:pub )?use ([\w:]+);", text, re.M)}
        for found in re.finditer(r"^(?:pub )?(struct|enum) (\w+)(?:<[^>\n]*>)?(?: \{\n(.*?)^\}|.*?;$)", text, re.M | re.S):
            named = types_named(re.sub(r"^    \w+", "", found[3], flags=re.M) if found[1] == "enum" else found[0].split(found[2], 1)[1])
            self.made[found[2]] = Definition(file, found[2], found[0].count("\n") + 1, [([], named, set())])
        for found in re.finditer(r"^( *)pub (?:extern \"C\" )?fn (\w+).*?(?=\n\1\{$| \{$)", text, re.M | re.S):
            self.functions[found[2]] = self.contract(found[2], found[0])

    def contract(self, name, text):
        """A function's signature and contract: the types that it names, and what the contract cites."""
        head, *clauses = re.split(r"^\s*(?:ensures|requires)\b", text, flags=re.M)
        parameters = set(re.findall(r"(\w+):", head)) | {"self"}
        parts = [([], types_named(head.split(name, 1)[1]), set())]
        parts += [([], words_of(clause[clause.index("{"):]), parameters) for clause in clauses]
        return Definition(self.file, name, text.count("\n") + 1, parts)


# ---- the tree

def crate_of(file):
    return file.relative_to(ROOT / "crates").parts[0]


class Tree:
    def __init__(self):
        lines = (ROOT / "crates.txt").read_text().splitlines()
        self.crates = [line.split(":")[0].split()[0] for line in lines if ":" in line and not line.startswith("#")]
        self.files = {file: Module(file) for file in sorted([*ROOT.glob("crates/*/specs/**/*.antt"), *ROOT.glob("crates/*/proofs/*.antt")])}
        self.files.update((file, Source(file)) for file in sorted(ROOT.glob("crates/*/src/**/*.rt")))
        self.kit, self.unknown, self.order, self.seen = {}, set(), [], set()

    def rattle_type(self, crate, path, name):
        """A struct or enum of a crate; of several, the one in the module that the path names."""
        found = [file for file, source in self.files.items() if file.suffix == ".rt" and crate_of(file) == crate and name in source.made]
        found.sort(key=lambda file: file.stem not in path)
        return self.files[found[0]].made[name] if found else None

    def at(self, path, name):
        """The definition of a name of a module; None where the kit has it."""
        found = re.match(r"Rattle\.(\w+)\.(specs|proofs)\.(.*)", path + "." + name)
        if not found or found[1] not in self.crates:
            return None
        crate, parts = found[1], found[3].split(".")
        if parts[0] == "declared":
            return self.rattle_type(crate, parts[1:], parts[parts.index("TheVariants") - 1] if "TheVariants" in parts else parts[-1])
        module = self.files.get(ROOT / "crates" / crate / found[2] / ("/".join(parts[:-1]) + ".antt"))
        if module and name not in module.made and name in module.uses:
            return self.at(*module.uses[name])
        return module and module.made.get(name)

    def find(self, word, here):
        """What a word in a file names: ('tree', definition), ('kit', module and name) or ('unknown', word)."""
        if word in here.made:
            return "tree", here.made[word]
        head, _, rest = word.partition(".")
        path, name = here.uses.get(word, (None, None))
        if name is None:
            path, name = here.uses.get(head, (None, None))[0], rest
        if path and name:
            definition = self.at(path, name)
            if definition or re.match(r"Rattle\.(\w+)", path) and re.match(r"Rattle\.(\w+)", path)[1] in self.crates:
                return ("tree", definition) if definition else ("unknown", word)
            return "kit", (path, name)
        if here.file.suffix == ".rt":
            path = here.paths.get(word, [word])
            definition = self.rattle_type(path[0] if path[0] in self.crates else crate_of(here.file), path[:-1], word)
            if definition:
                return "tree", definition
        return "unknown", word

    def is_constructor(self, word, here):
        """Names of the kit count as constructors where they stand on the left of a clause, and so do variants of Rattle's enums."""
        where, what = self.find(word, here)
        return where == "kit" or (where == "tree" and (what.file.suffix == ".rt" or word.split(".")[-1] in what.constructors))

    def visit(self, definition):
        """Lists a definition after all that it cites."""
        if (definition.file, definition.name) in self.seen:
            return
        self.seen.add((definition.file, definition.name))
        here = self.files[definition.file]
        for left, right, bound in definition.parts:
            for word in cited(left, right, bound, lambda name: self.is_constructor(name, here)):
                where, what = self.find(word, here)
                if where == "tree":
                    self.visit(what)
                elif where == "kit":
                    self.kit.setdefault(what[0], set()).add(what[1])
                elif word not in BUILT_IN:
                    self.unknown.add(f"{short(definition.file)}: {word} in {definition.name}")
        self.order.append(definition)

    def starts(self):
        for crate, names in ENTRY_POINTS.items():
            functions = {}
            for file, source in self.files.items():
                if file.suffix == ".rt" and crate_of(file) == crate and (names or file.stem == "lib"):
                    functions.update(source.functions)
            yield from (functions.get(name) or sys.exit(f"crates/{crate} has no public function {name}") for name in names or functions)
        for crate, name in [(crate, name) for crate, names in THEOREMS.items() for name in names]:
            found = [module.statements[name] for file, module in self.files.items()
                     if file.suffix == ".antt" and crate_of(file) == crate and name in module.statements]
            yield found[0] if found else sys.exit(f"crates/{crate} has no theorem {name}")

    def believed(self):
        """Files in reading order, by crate as crates.txt has them and what is cited first, each with its definitions that are needed."""
        for start in self.starts():
            self.visit(start)
        files = sorted(dict.fromkeys(definition.file for definition in self.order), key=lambda file: self.crates.index(crate_of(file)))
        return {file: [definition for definition in self.order if definition.file == file] for file in files}


# ---- what is printed

def short(file):
    return str(file.relative_to(ROOT))


def names_in(definitions):
    return ", ".join(definition.name for definition in definitions)


def lines_in(definitions):
    return sum(definition.lines for definition in definitions)


def total(believed):
    plain = sum(len(file.read_text().splitlines()) for file in believed)
    return f"{sum(map(lines_in, believed.values()))} lines of definitions and contracts in {len(believed)} files, which have {plain} lines in all"


def show(tree, believed):
    print("lines  of file")
    for file, definitions in believed.items():
        print(f"{lines_in(definitions):5}  {len(file.read_text().splitlines()):7}  {short(file)}: {names_in(definitions)}")
    print("\nFrom the kit, not followed:")
    for path in sorted(tree.kit):
        print(f"  {path}: {' '.join(sorted(tree.kit[path]))}")
    print()


def section(believed):
    rows = [f"| {short(file)} | {names_in(definitions)} |" for file, definitions in believed.items()]
    text = "By tools/believed.py, which also counts lines: files in reading order, with the names needed from each."
    return "\n".join([SECTION, "", text, "", "| file | names |", "|---|---|"] + rows) + "\n"


def parted(page):
    """A page before, in and after the section."""
    before, mark, rest = page.partition(SECTION + "\n")
    inside, heading, after = rest.partition("\n## ")
    return before, mark + inside, heading + after


def compared(page, believed):
    """How the section's rows differ from those computed."""
    listed = dict(re.findall(r"^\| (crates/\S+) \| (.*) \|$", parted(page)[1], re.M))
    needed = {short(file): names_in(definitions) for file, definitions in believed.items()}
    return ([f"missing: {file}" for file in needed if file not in listed] + [f"superfluous: {file}" for file in listed if file not in needed]
            + [f"other names: {file}: {needed[file]}" for file in needed if file in listed and set(listed[file].split(", ")) != set(needed[file].split(", "))])


def main(arguments):
    if arguments and (len(arguments) != 2 or arguments[0] not in ("--check", "--write")):
        sys.exit(__doc__)
    tree = Tree()
    believed = tree.believed()
    wrong = [f"not found: {word}" for word in sorted(tree.unknown)]
    wrong += [f"in a file of laws: {short(file)}: {names_in(d)}" for file, d in believed.items() if "Laws" in short(file) or "/laws/" in short(file)]
    if not arguments:
        show(tree, believed)
    elif arguments[0] == "--check":
        wrong += compared(pathlib.Path(arguments[1]).read_text(), believed)
    else:
        page = pathlib.Path(arguments[1])
        before, _, after = parted(page.read_text())
        page.write_text(before.rstrip("\n") + "\n\n" + section(believed) + after)
    print("\n".join([total(believed)] + wrong))
    sys.exit(1 if wrong else 0)


if __name__ == "__main__":
    main(sys.argv[1:])
