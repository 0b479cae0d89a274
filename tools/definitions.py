#!/usr/bin/env python3
"""Lists the definitions that a statement rests on, and keeps the tables of docs/PROOFS.md.

    tools/definitions.py FILE NAME          the definitions that NAME of FILE rests on, by file, and their number
    tools/definitions.py FILE NAME.FIELD    the same of one field of a record, with the record's parameters
    tools/definitions.py --all              the counts of all CLAIMS below
    tools/definitions.py --write [PAGE]     writes the tables between the markers of docs/PROOFS.md
    tools/definitions.py --check [PAGE]     compares them: exits with 1 where a name is listed and not reached, or reached and not listed,
                                            or the page names a file of specs/, proofs/ or src/ that is not there

FILE is a path such as crates/store/src/set_calls.rt, or as much of its end as tells which file is meant: store/src/set_calls, specs/EveryHistory.
A statement is a definition of specs/, a theorem of proofs/ (its type, not its proof) or a function of src/ (its types, `requires` and `ensures`).
Every name in its text is followed that its file defines or imports, and so on: through specs/, and through the structs and enums of src/ that
definitions speak of (`specs.declared`). Constructors and fields belong to their type. A name that the text binds is no reference. What comes from the
kit is named and not followed. A name that is neither bound, defined, imported nor the language's own is an error, so that none is passed over. Lines
are counted without comments and empty ones.
"""
import difflib
import functools
import glob
import os
import re
import sys

ROOT = os.path.dirname(os.path.dirname(os.path.abspath(__file__)))
BEGIN, END = "<!-- definitions: begin, written by tools/definitions.py --write -->", "<!-- definitions: end -->"
LANGUAGE = set("Type Unit tt ⊥ ¬ × → λ let in record where = : _ result".split())

# The claims in the page's order: the name there, and the statement, `*` being each field of a record; several must rest on the same but for themselves.
CLAIMS = [
    ("a call that may add nodes replies by `step`", ["store/src/" + s for s in (
        "set_calls set_call", "relation_calls relation_call", "image_calls image_call", "filter_calls filter_call")]),
    ("a call that only reads equals `step`", ["store/src/" + s for s in ("set_reads set_read", "relation_reads relation_read", "path_reads path_read")]),
    ("`new` replies by `new_step`", ["new_store/src/lib new"]),
    ("`policy` replies by `policy_step`", ["policies/src/lib policy"]),
    ("a list of jobs replies by `jobs_step`", ["jobs/src/exported packet_store_run_jobs"]),
    ("`*`", ["specs/EveryHistory HistoryRight.*"]),
    ("`AcceptedAlone`", ["specs/AcceptedAlone AcceptedAlone"]),
    ("`TextRight`", ["proofs/OneText text_right"]),
    ("`PlainText`", ["proofs/PlainText plain_text"]),
    ("`NewRight`", ["proofs/NewStore new_right"]),
    ("`AsHasPath`", ["proofs/FirstPath as_has_path"]),
    ("`AddedRight`", ["proofs/Added added_right"]),
    ("`NewAdded`", ["proofs/Added new_added"]),
    ("`MkAdded`", ["proofs/MkAdded set_mk_added", "proofs/MkAdded relation_mk_added"]),
    ("`AddedTogether`", ["proofs/Added added_together"]),
    ("`MembersRight`", ["proofs/MembersInTurn members_right"]),
    ("`NeverAltered`", ["proofs/MembersInTurn never_altered"]),
    ("`Worked`", ["specs/Worked Worked"]),
    ("`RunInOrder`", ["specs/JobLists RunInOrder"]),
    ("`JobRun`", ["specs/JobLists JobRun"]),
    ("`AnswersPlainly`", ["specs/JobLists AnswersPlainly"]),
    ("`SpareIgnored`", ["specs/JobLists SpareIgnored"]),
    ("`SeveralAsOne`", ["specs/JobLists SeveralAsOne"]),
]

# Definitions that the same claims rest on are a group, where there are at least so many; what a group is about, by one of its definitions.
LEAST = 3
ABOUT = {
    "specs/Outcome Outcome": "an outcome",
    "specs/Programs run": "nodes, how a program runs on them, and how a call ends",
    "specs/Relations sequence": "the operations that policies run",
    "specs/Memory encode": "the two memories, and places",
    "specs/Valid is_store": "which memories are a store, as a test",
    "specs/Reading reading": "the text of a policy: how it is read, and what it runs",
    "specs/OnMemories new_step": "`new`",
    "specs/Calls Call": "the calls of `store` as one type",
    "specs/Calls step": "what the 43 calls beside `new` do",
    "specs/Jobs asks": "the operations of jobs, and what a job asks for",
    "specs/Jobs run_jobs": "how jobs are run in turn",
    "specs/Jobs jobs_on": "a list of jobs as one call",
    "specs/Added held_in": "counts of nodes",
    "specs/Added added_by_new": "what `new` added",
    "specs/AllCalls AnyCall": "all 45 calls as one type",
    "specs/AllCalls nodes_added": "what any call added",
    "specs/Histories History": "calls that were made, and histories",
    "specs/PlainStore Plain": "the plain store beside the memories",
    "specs/Lists left_by": "calls in turn, and what each asks of the plain store",
    "specs/PlainStore plain_policy_step": "a policy on the plain store",
    "specs/AllCalls all_calls": "all 45 calls on the plain store",
    "specs/Lists on_plain_store": "a list of calls on the plain store",
    "specs/MembersInTurn nexts": "calls of `next` in turn",
    "specs/Worked Expected": "tables of calls with their answers",
    "specs/Grammar Sum": "the grammar of texts",
    "specs/AllCalls WithinRules": "the rules of a text",
    "specs/Policies meaning": "what a text relates",
    "specs/Valid IsStore": "which memories are a store, as conditions",
}


# READING FILES

def tokens(text):
    """The words of a text; what stands in brackets is a list of its own."""
    open_lists = [[]]
    for t in re.findall(r"[(){};,]|[^\s(){};,«»]+", text):
        if t in "({":
            open_lists.append([])
        else:
            t = open_lists.pop() if t in ")}" else t
            open_lists[-1].append(t)
    return open_lists[0]


def flat(ts):
    return [x for t in ts for x in (flat(t) if isinstance(t, list) else [t])]


def split_at(ts, mark):
    """The words before and after the first `mark` outside of brackets; all and None where there is none."""
    return (ts[:ts.index(mark)], ts[ts.index(mark) + 1:]) if mark in ts else (ts, None)


def spoken(name):
    """The words by which a text uses a name: of an operator `◌+◌` the part `+`."""
    return [part for part in name.split("◌") if part]


class Definition:
    """`modules` and `head` are its parameters and `type` its type, as tokens; `parts` are its clauses, with no names, or fields or constructors.
    Of code, `rust` are the types that it names, `bound` a function's parameters and `type` its contract."""

    def __init__(self, source, name, kind, lines, modules=(), head=(), type=(), rust=(), bound=()):
        self.source, self.name, self.kind, self.modules, self.head, self.type, self.rust, self.bound = source, name, kind, modules, head, type, rust, bound
        self.parts, self.lines, self.order = [], {None: lines}, len(source.order)
        source.order.append(self)
        for word in spoken(name) if kind != "fn" else []:
            source.defs.setdefault(word, []).append(self)


class Source:
    """A file: the definitions of each name, the type of each constructor, and what is imported, by name or as a whole module."""

    def __init__(self, path):
        self.path, self.defs, self.owner, self.imports, self.aliases, self.order = path, {}, {}, {}, {}, []
        with open(os.path.join(ROOT, path), encoding="utf-8") as f:
            lines = [re.sub(r"(^|\s)(--|//).*", "", line).rstrip() for line in f]
        (self.read_code if path.endswith(".rt") else self.read_block)([line for line in lines if line], [])

    def use(self, text):
        module, names, alias = re.fullmatch(r"use ([^\s{]+?)(?:\.\{(.*)\})?(?: as (\S+))?", text).groups()
        self.aliases[alias] = module
        for name in re.split(r",\s*", names or ""):
            old, new = (name.split(" as ") * 2)[:2]
            self.imports.update((here, (module, there)) for here, there in zip(spoken(new), spoken(old)))

    @staticmethod
    def items(lines):
        """Lines grouped: an item begins at the least indentation; deeper lines and closing brackets belong to it."""
        level, found = min((len(x) - len(x.lstrip()) for x in lines), default=0), []
        for x in lines:
            found += [] if x[level] in " )}" else [[]]
            found[-1].append(x)
        return found

    def read_block(self, lines, modules):
        last = None
        for item in self.items(lines):
            word, end = item[0].split()[0], next((i for i, x in enumerate(item) if x.endswith("where")), None)
            if word == "use":
                self.use(" ".join(x.strip() for x in item))
            elif word == "mutual":
                self.read_block(item[1:], modules)
            elif word == "module":
                self.read_block(item[end + 1:], modules + [tokens(" ".join(item[:end + 1]))[2:-1]])
            elif word not in ("infixl", "infixr", "infix", "unfolding"):
                last = self.read_item(item, end, modules, last)

    def read_item(self, item, end, modules, last):
        """A definition, without its clauses; a clause belongs to the definition before it, and that of a theorem, its proof, is not followed."""
        ts, words = tokens(" ".join(item)), []
        while ts[0] in ("abbrev", "unfoldable", "pub", "record", "data"):
            words.append(ts.pop(0))
        head, type = split_at(split_at(ts, "=")[0], ":")
        if type is None:
            if last.kind != "theorem":
                last.parts.append((None, ts))
                last.lines[None] += len(item)
            return last
        kind = words[-1] if words and words[-1] in ("record", "data") else "theorem" if "/proofs/" in self.path and words in ([], ["pub"]) else "function"
        if kind in ("theorem", "function"):
            return Definition(self, head[0], kind, len(item), modules, head[1:], type)
        d = Definition(self, head[0], kind, end + 1, modules, head[1:], split_at(type, "where")[0])
        for part in self.items(item[end + 1:]):
            names, text = split_at([t for t in tokens(" ".join(part)) if t != "pub"], ":")
            d.parts.append((names, text))
            d.lines[names[0]] = len(part)
            if kind == "data":
                self.owner.update((n, d) for n in names)
        return d

    def read_code(self, lines, _):
        text = "\n".join(lines)
        for line in re.findall(r"^ghost (use .*);$", text, re.M):
            self.use(line)
        for path, names in re.findall(r"^use ([\w:]+?)(?:::\{(.*?)\})?;$", text, re.M | re.S):
            for name in re.findall(r"[\w:]+", names) or ["self"]:
                full = path if name == "self" else path + "::" + name
                self.aliases[full.split("::")[-1]] = full
        for kind, name, body in re.findall(r"^(?:pub(?:\(crate\))? )?(struct|enum) (\w+)(?:<[^>\n]*>)? \{\n(.*?)^\}", text, re.M | re.S):
            types = " ".join(re.findall(r": (.*)," if kind == "struct" else r"\((.*)\)", body))
            Definition(self, name, kind, body.count("\n") + 2, rust=re.findall(r"[\w:]+", types))
        for name, rest in re.findall(r"^(?:pub(?:\(crate\))? )?(?:extern \"C\" )?fn (\w+)(\(.*?)\n\{", text, re.M | re.S):
            types, *contract = re.split(r"\s(?:requires|ensures)\b[* \w]*\{", rest)
            contract = tokens(" ".join("(%s)" % c.strip().rstrip("}") for c in contract))
            Definition(self, name, "fn", rest.count("\n") + 1, (), (), contract, re.findall(r"[\w:]*[A-Z][\w:]*", types), re.findall(r"(\w+):", types))


# FOLLOWING NAMES

@functools.lru_cache(None)
def source(path):
    """A file, read once; None where there is none."""
    return Source(path) if os.path.exists(os.path.join(ROOT, path)) else None


def imported(module, name):
    """The definition of a name that is imported from a module, and whether it is a constructor; the name alone where it is the kit's."""
    _, crate, *parts = module.split(".")
    crate = "crates/" + crate
    if not os.path.isdir(os.path.join(ROOT, crate)):
        return module + "." + name, True
    if parts[:2] == ["specs", "declared"]:
        types = [p for p in parts[2:] if p != "TheVariants"]
        return source("%s/src/%s.rt" % (crate, (["lib"] + types[:-1])[-1])).defs[types[-1]][-1], parts[-1] == "TheVariants"
    return named(source("%s/%s.antt" % (crate, "/".join(parts))), name)


def named(src, word, order=None):
    """The same of a word in a file, as it stands before or in the definition of that order; None where the file does not have it."""
    if word in src.owner:
        return src.owner[word], True
    if word in src.defs:
        return ([d for d in src.defs[word] if order is None or d.order <= order] or src.defs[word])[-1], False
    if word in src.imports:
        return imported(*src.imports[word])
    if "." in word:
        whole, part = word.split(".", 1)
        if whole in src.aliases:
            return imported(src.aliases[whole], part)
        target = named(src, whole, order)
        return target and (target[0], True)


def rust_type(src, path):
    """The struct or enum that a path in code names; None for the language's own."""
    if path in src.defs:
        return src.defs[path][-1]
    crate, *parts = src.aliases.get(path, path).split("::")
    crate = src.path.split("/")[1] if crate == "crate" else crate
    file = source("crates/%s/src/%s.rt" % (crate, (["lib"] + parts[:-1])[-1])) if parts else None
    return file.defs[parts[-1]][-1] if file else None


def walk(ts, bound, see, binding=False):
    """Calls `see` on each name that is not bound where it stands; returns what is bound at the end. In a head, a name in brackets is bound."""
    scope, lets, last, words = set(bound), [], None, iter(ts)
    for t in words:
        if last == "record":
            while t:
                field, t = split_at(t, ";")
                walk(split_at(field, "=")[1], scope, see)
        elif isinstance(t, list):
            names, type = split_at(t, ":")
            if type is None and not binding:
                walk(t, scope, see)
            else:
                walk(type or [], scope, see)
                scope.update(flat(names))
        elif t == "λ":
            while not t.endswith("."):
                t = next(words)
                scope.add(t.rstrip("."))
        elif t == "let":
            lets.append(next(words))
        elif t == "in":
            scope.add(lets.pop())
        elif t == ",":
            scope = set(bound)
        elif not {t, t.split(".")[0]} & (scope | LANGUAGE) and not re.match(r"\.|\d+$", t):
            see(t)
        last = t
    return scope


def references(d, field=None):
    """What the text of a definition names, or of one field of it with the fields that this names; and the lines that were read."""
    found, wanted, scope = {rust_type(d.source, path) for path in d.rust} - {None}, {field}, set(d.bound)

    def see(word):
        target = named(d.source, word, d.order)
        if field and word in d.lines:
            wanted.add(word)
        elif target is None:
            sys.exit("%s: %s: what is %s?" % (d.source.path, d.name, word))
        else:
            found.add(target[0])

    for ts in [*d.modules, d.head]:
        scope = walk(ts, scope, see, True)
    walk(d.type, scope, see)
    for names, text in reversed(d.parts) if field else d.parts:
        if names is None:  # a clause: what is no constructor in its patterns is bound
            left, right = split_at(text, "=")
            patterns = {t: named(d.source, t, d.order) for t in flat(left)}
            found.update(target[0] for target in patterns.values() if target and target[1])
            walk(right, scope | {t for t, target in patterns.items() if not target or not target[1] and target[0] is not d}, see)
        elif not field or wanted & set(names):
            walk(text, scope, see)
            scope.update(names if d.kind == "record" and not field else [])
    return found, sum(n for part, n in d.lines.items() if not field or part in wanted | {None})


def statement(text):
    """The definition that `FILE NAME` means, and the field if it names one."""
    end, name = text.split()
    name, _, field = name.partition(".")
    paths = sum((glob.glob("crates/*/%s" % kind, root_dir=ROOT) for kind in ("specs/*.antt", "proofs/*.antt", "src/*.rt")), [])
    paths = [p for p in paths if ("/" + p).endswith("/" + end) or ("/" + p.rsplit(".", 1)[0]).endswith("/" + end)]
    found = [d for p in paths for d in source(p).order if d.name == name and (not field or field in d.lines)]
    if len(found) != 1:
        sys.exit("%s: %s" % (text, "it is in " + ", ".join(d.source.path for d in found) if found else "there is no such statement"))
    return found[0], field or None


def rests_on(text):
    """All that a statement rests on, itself included: the lines of each (file, name), and the kit's names."""
    first, field = statement(text)
    reached, kit, todo = {}, set(), [(first, field)]
    while todo:
        d, field = todo.pop()
        key = (d.source.path, d.name + ("." + field if field else ""))
        if key not in reached:
            found, reached[key] = references(d, field)
            kit.update(x for x in found if isinstance(x, str))
            todo += [(x, None) for x in found if not isinstance(x, str)]
    return reached, kit


# THE PAGE

def by_file(keys):
    """The files of some definitions, each with their names in the order of the file."""
    files = {}
    for path, name in sorted(keys, key=lambda k: (k[0], [d.name for d in source(k[0]).order].index(k[1].split(".")[0]))):
        files.setdefault(re.sub(r"^crates/|\.antt$", "", path), []).append("`%s`" % name)
    return [("`%s`" % f, ", ".join(names)) for f, names in files.items()]


def counts(reached):
    return len(reached), len({path for path, _ in reached}), sum(reached.values())


def claims():
    """Each claim with its statements and what the first of them rests on, itself included; and the kit's names."""
    found, kit = [], set()
    for title, texts in CLAIMS:
        for field in list(statement(texts[0].replace(".*", ""))[0].lines)[1:] if "*" in title else [""]:
            rests = [rests_on(text.replace("*", field)) for text in texts]
            keys = [next(iter(reached)) for reached, _ in rests]
            if len({frozenset(set(reached) - {key}) for key, (reached, _) in zip(keys, rests)}) > 1:
                sys.exit(title + ": the statements do not rest on the same definitions")
            found.append((title.replace("*", field), keys, rests[0][0]))
            kit.update(*(of_kit for _, of_kit in rests))
    return found, kit


def tables():
    """The groups, and the claims with the groups that they rest on and what they rest on besides."""
    all_claims, kit = claims()
    reached, users, groups = {}, {}, {}
    for i, (_, keys, rests) in enumerate(all_claims):
        reached.update(rests)
        for key in set(rests) - {keys[0]}:
            users.setdefault(key, []).append(i)
    for key, of in users.items():
        groups.setdefault(tuple(of), []).append(key)
    shared = [g for g in groups.items() if len(g[0]) > 1 and len(g[1]) >= LEAST]
    groups = [(chr(ord("A") + i), *g) for i, g in enumerate(sorted(shared, key=lambda g: (-len(g[0]), -len(g[1]), g[0])))]
    out = ["| group | file | definitions |", "|---|---|---|"]
    for letter, _, keys in groups:
        about = [text for of, text in ABOUT.items() if any(("%s %s" % (p[:-5], n)).endswith("/" + of) for p, n in keys)]
        title = "**%s** %s: %d definitions, %d lines" % (letter, "; ".join(about), len(keys), sum(reached[k] for k in keys))
        out += ["| %s | %s | %s |" % (title if i == 0 else "", *row) for i, row in enumerate(by_file(keys))]
    out += ["", "| claim | where it is stated | groups | and besides | definitions | files | lines |", "|---|---|---|---|---|---|---|"]
    for i, (title, keys, rests) in enumerate(all_claims):
        used = [g for g in groups if i in g[1]]
        rest = set(rests) - {keys[0]} - {k for g in used for k in g[2]}
        stated, besides = ("; ".join("%s %s" % row for row in by_file(some)) for some in (keys, rest))
        out.append("| %s | %s | %s | %s | %d | %d | %d |" % (title, stated, " ".join(g[0] for g in used), besides, *counts(rests)))
    modules = {}
    for module, name in sorted(x.rsplit(".", 1) for x in kit):
        modules.setdefault("`%s`" % module, []).append("`%s`" % name)
    of_kit = "; ".join("%s %s" % (module, ", ".join(names)) for module, names in modules.items())
    return out + ["", "All claims together: %d definitions in %d files, %d lines." % counts(reached), "", "From the kit: %s." % of_kit]


def main(args):
    if len(args) == 2 and not args[0].startswith("--"):
        reached, kit = rests_on(" ".join(args))
        print("\n".join("%s: %s" % row for row in by_file(reached)))
        print("from the kit: %s\n%d definitions in %d files, %d lines" % (", ".join(sorted(kit)), *counts(reached)))
    elif args == ["--all"]:
        print("\n".join("%s: %d definitions in %d files, %d lines" % (title, *counts(reached)) for title, _, reached in claims()[0]))
    elif args[:1] not in (["--write"], ["--check"]) or len(args) > 2:
        sys.exit(__doc__)
    else:
        page = (args + [os.path.join(ROOT, "docs", "PROOFS.md")])[1]
        with open(page, encoding="utf-8") as f:
            lines = f.read().split("\n")
        i, j, written = lines.index(BEGIN) + 1, lines.index(END), [""] + tables() + [""]
        if args[0] == "--write":
            with open(page, "w", encoding="utf-8") as f:
                f.write("\n".join(lines[:i] + written + lines[j:]))
            return
        wrong = list(difflib.unified_diff(lines[i:j], written, "listed", "reached", "", "", 0, ""))
        paths = sorted(set(re.findall(r"`(?:crates/)?(\w+/(?:specs|proofs|src)/\w+)", "\n".join(lines))))
        wrong += ["no such file: " + p for p in paths if not glob.glob(os.path.join(ROOT, "crates", p + ".*"))]
        print("\n".join(wrong) or "the page lists what its claims rest on")
        sys.exit(1 if wrong else 0)


if __name__ == "__main__":
    main(sys.argv[1:])
