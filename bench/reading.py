#!/usr/bin/env python3
"""How much a reader must believe to accept a public contract: the definitions that it cites, and all that these cite.

    reading.py [--words NAME,..] [--without CASE,..] FILE.rt FUNCTION [CLAUSE..]      with clauses, only those
    reading.py crates/tool_run/src/runs.rt run ends
    reading.py --words past,mine,left,Rests crates/fn_funnel/src/waiting.rt add made
    reading.py --definitions crates/replay_run/specs/Claim.antt:TellsReplay crates/trace_text/specs/TraceGrammar.antt:IsTrace

FUNCTION may be Type::function. With --definitions it counts what these definitions ask to believe, in place of a contract.
Counted are the lines of definitions in the repository's specs/ that are neither blank nor comments; the kit's own definitions
and declared types aren't counted. A definition that is reached by a name is counted whole. Names behind --words are taken as
words: counted, and not looked into. Equations of a definition that are of a case named behind --without are left out. Paths are
from the top of the repository, wherever it is called. Prints a line for each crate, then the sum, as `248 lines, 79 definitions`.
"""
import os
import re
import sys

NAME = re.compile(r"[A-Za-z_][A-Za-z0-9_\-']*(?:\.[A-Za-z_][A-Za-z0-9_\-']*)*")
HEAD = re.compile(r"^(?:pub )?(?:(?:abbrev|unfoldable) )?(?:pub )?(record |data )?([^\s:]+)")


class Module:
    def __init__(self):
        self.definitions, self.imports, self.aliases, self.handed_on, self.constructors = {}, {}, {}, {}, {}

    def imported(self, text, public=False):
        """Takes a line `Path.{a, b as c}` or `Path as name`."""
        found = re.match(r"([\w\.]+)\.\{(.*)\}", text)
        if found:
            for item in found.group(2).split(","):
                item = item.strip()
                old, new = item.split(" as ") if " as " in item else (item, item)
                self.imports[new.strip()] = (found.group(1), old.strip())
                if public:
                    self.handed_on[new.strip()] = (found.group(1), old.strip())
            return
        found = re.match(r"([\w\.]+) as (\w+)", text)
        if found:
            self.aliases[found.group(2)] = found.group(1)


def read_specs(path):
    module, current, depth = Module(), None, 0
    for line in open(path, encoding="utf8").read().split("\n"):
        text = line.strip()
        if text.startswith(("use ", "pub use ")):
            public = text.startswith("pub ")
            module.imported(text[8:] if public else text[4:], public)
            current = None
            continue
        if not text or text.startswith("--"):
            if not text:
                current = None
            continue
        indent = len(line) - len(line.lstrip())
        if text.startswith(("module ", "pub mod ", "mod ")):
            current = None
            continue
        inside = current is not None and indent > depth
        head = None if inside else HEAD.match(text)
        defines = head and (head.group(1) or re.match(r"^(pub |abbrev |unfoldable )", text))
        if defines:
            current, depth = head.group(2), indent
            module.definitions[current] = ((head.group(1) or "").strip(), [line])
        elif current is not None:
            module.definitions[current][1].append(line)
            if module.definitions[current][0] == "data":
                module.constructors[text.split()[0]] = current
    return module


def read_all(root):
    modules = {}
    for folder, _, files in os.walk(os.path.join(root, "crates")):
        for name in files:
            path = os.path.join(folder, name)
            if name.endswith(".antt") and "/specs/" in path and "/out/" not in path:
                crate = os.path.relpath(path, os.path.join(root, "crates")).split(os.sep)[0]
                inner = path.split("/specs/", 1)[1][:-5].replace("/", ".")
                modules[f"Rattle.{crate}.specs.{inner}"] = read_specs(path)
    return modules


def find(modules, where, name, depth=0):
    module = modules.get(where)
    if module is None:
        return None
    if name in module.definitions:
        return (where, name)
    if name in module.constructors:
        return (where, module.constructors[name])
    if name in module.handed_on and depth < 6:
        return find(modules, *module.handed_on[name], depth + 1)
    return None


def resolve(modules, module, where, token):
    first, *rest = token.split(".")
    if first in module.aliases and rest:
        return find(modules, module.aliases[first], rest[0])
    if where and (first in module.definitions or first in module.constructors):
        return find(modules, where, first)
    if first in module.imports:
        return find(modules, *module.imports[first])
    return None


def kept(lines, cases):
    """The lines of a definition without the equations of these cases, and without comments."""
    left, dropped = [], False
    for line in lines:
        text = line.strip()
        if not text or text.startswith("--"):
            continue
        indent = len(line) - len(line.lstrip())
        if not dropped or indent <= depth:
            head = text.split(" = ")[0]
            dropped = " = " in text + " " and ":" not in head and bool(cases & set(NAME.findall(head)))
            depth = indent
        if not dropped:
            left.append(line)
    return left


def closure(modules, roots, words, cases):
    seen, left = set(), list(roots)
    while left:
        where, name = left.pop()
        if (where, name) in seen:
            continue
        seen.add((where, name))
        if name in words:
            continue
        module = modules[where]
        body = "\n".join(kept(module.definitions[name][1], cases))
        for token in set(NAME.findall(body)):
            found = resolve(modules, module, where, token)
            if found and found not in seen:
                left.append(found)
    return seen


def contract(path, function, wanted):
    """The imports that a function of a source file sees, and the text of its clauses."""
    module, lines = Module(), open(path, encoding="utf8").read().split("\n")
    for line in lines:
        text = line.strip()
        if text.startswith("ghost use "):
            module.imported(text[len("ghost use "):].rstrip(";"))
    owner, _, name = function.rpartition("::")
    begun = owner == ""
    for at, line in enumerate(lines):
        if owner and re.match(rf"^impl\b.*\b{owner}\b", line):
            begun = True
        if begun and re.match(rf"^\s*(pub(\(crate\))? )?fn {name}\b", line):
            break
    else:
        sys.exit(f"no function {function} in {path}")
    clauses, depth, current = [], 0, None
    for line in lines[at + 1:]:
        text = line.strip()
        if current is None and text in ("{", "{}"):
            break
        begins = re.match(r"(requires|ensures)\b(?:\s+(\w+))?", text)
        if current is None and begins:
            current, depth = [begins.group(2) or "", ""], 0
        if current is not None:
            current[1] += line + "\n"
            depth += line.count("{") - line.count("}")
            if depth == 0 and "{" in current[1]:
                clauses.append(tuple(current))
                current = None
    chosen = [text for label, text in clauses if not wanted or label in wanted]
    if not chosen:
        sys.exit(f"no such clause of {function}; it has: {', '.join(label or '(no name)' for label, _ in clauses)}")
    return module, "\n".join(chosen)


def named(modules, place):
    """The definition that `crates/CRATE/specs/FILE.antt:NAME` names."""
    path, _, name = place.partition(":")
    where = "Rattle." + path.removeprefix("crates/").removesuffix(".antt").replace("/", ".")
    return find(modules, where, name) or sys.exit(f"no definition {place}")


def main():
    given, words, cases = sys.argv[1:], set(), set()
    while len(given) > 1 and given[0] in ("--words", "--without"):
        (words if given[0] == "--words" else cases).update(given[1].split(","))
        given = given[2:]
    if len(given) < 2:
        sys.exit(__doc__)
    os.chdir(os.path.join(os.path.dirname(os.path.abspath(__file__)), ".."))
    modules = read_all(os.getcwd())
    if given[0] == "--definitions":
        roots = {named(modules, place) for place in given[1:]}
    else:
        module, text = contract(given[0], given[1], given[2:])
        roots = {found for token in set(NAME.findall(text)) if (found := resolve(modules, module, None, token))}
    seen, crates = closure(modules, roots, words, cases), {}
    for where, name in seen:
        lines = kept(modules[where].definitions[name][1], cases)
        counted = crates.setdefault(where.split(".")[1], [0, 0])
        counted[0] += len(lines)
        counted[1] += 1
    for crate in sorted(crates, key=lambda crate: -crates[crate][0]):
        print(f"{crate:16} {crates[crate][0]:5} lines {crates[crate][1]:4} definitions")
    print(f"{sum(c[0] for c in crates.values())} lines, {sum(c[1] for c in crates.values())} definitions")


if __name__ == "__main__":
    main()
