#!/usr/bin/env python3
"""Writes docs/PROMISE.md: the definitions on which the contract of `mc_play::run` rests.

Usage: tools/promise.py           writes the page
       tools/promise.py --check   ends with 1 where the page is not what the sources say, or where docs/CONTRACTS.md
                                  quotes a clause that stands in no source
       tools/promise.py --count   prints how many definitions each crate has on it

It begins at the clauses of `run`, of the traits of the outside and of the statuses, follows each name to the file of
specs/ that defines it, and so on down. Names are followed by the imports of the file in which they stand,
so that a definition that moves to another module or crate is found there.
"""

import os
import re
import sys
from collections import Counter
from pathlib import Path

TOP = Path(__file__).resolve().parent.parent
PAGE = TOP / "docs" / "PROMISE.md"
CONTRACTS = TOP / "docs" / "CONTRACTS.md"

# The promise, and what stands around it: the crate, the head of the item, and what it is for.
PROMISE = ("mc_play", r"pub fn run\b")
AROUND = [
    ("mc_outside", r"pub trait Shelf\b", "`D` is any shelf of files. What a shelf is held to"),
    ("mc_outside", r"pub trait Sink\b", "`K` is any sink for text. What a sink is held to"),
    ("mc_script", r"impl Exit\b", "The status of an exit"),
    ("mc_script", r"impl fmt::Display for Exit\b", "The line on standard error that tells it"),
]

# The topics in reading order: title, what it is about, and the modules, `crate/Module` or `crate/`. The
# longest pattern that a module begins with decides; a module that none fits stands under the last topic.
TOPICS = [
    (
        "The run",
        "Which film and which script the words name, how a run ends and why, and what it owes.",
        "mc_play/ mc_script/Exits mc_script/RunLines mc_script/Options mc_script/Words mc_script/Run",
    ),
    (
        "The lines of a script",
        "Which texts are scripts, what each line asks for, and what it leaves in the journal.",
        "mc_script/ mc_lines/ mc_command/ mc_value/",
    ),
    (
        "The text",
        "The line that each record of the journal has in the text of a run.",
        "mc_script/Transcript mc_script/CacheText mc_script/Text",
    ),
    (
        "Used, legal, gapless",
        "Which records may stand in a journal, in which order, and what readers were given by it.",
        "mc_journal/Used mc_journal/Legal mc_journal/Allowed",
    ),
    (
        "Readings of the journal",
        "What a journal says: the selected tracks, each reader's place, the cached ranges, the pending seek. "
        "And the film of which it tells, with the rule that a seek goes by.",
        "mc_journal/ mc_calls/ mc_jobs/ mc_index/ mc_range/ mc_queue/ mc_cache/",
    ),
    (
        "The walk",
        "A film's packets and its ending, element by element, from the octets of the file.",
        "mc_walk/ mc_film/ mc_cursor/",
    ),
    (
        "Blocks and laces",
        "The packets of one block: its head, its frames by its lacing, their times and marks.",
        "mc_block/ mc_walk/Blocks mc_packet/",
    ),
    (
        "The header",
        "What stands before the film's Clusters: the EBML header, Info, Tracks, and each refusal.",
        "mc_tracks/ mc_walk/Opening",
    ),
    ("Elements", "IDs, sizes, heads, integers and texts at a place in octets.", "mc_ebml/"),
    (
        "The outside",
        "What a shelf of files and a sink for text tell, and what a count of faults means.",
        "mc_outside/",
    ),
    ("More", "Definitions of other modules.", ""),
]

# Questions that a reader may have, each with its answer in short and the definitions to read for it, in this
# order; a name that is defined twice stands behind its module's. One that is gone is left out, with a warning.
PATHS = [
    (
        "How does a run end, and with which status?",
        "`Done` only where every line was played and no read failed; each other exit with its cause.",
        "Run.Ends EndsLine Stopped Stepped status_of exit_text",
    ),
    (
        "What is in the text?",
        "A line for each record of the journal that has one, in order.",
        "Written transcript line",
    ),
    (
        "When is a seek served from the cache, and what is given then?",
        "It is `Cached` exactly where a range that the journal leaves serves it. What each selected track's reader is"
        " given from then on is, on a film whose keyframes have rising times, a front of a fresh reading of the film"
        " from the place that the seek means; on any film packets of its track with none left out.",
        "Plays IsUsed is_still Used.IsNext Allowed.May Allowed.MaySeek is_served told serves served_head read_from MayGive IsRegular IsLegal GaveFronts"
        " reading IsGapless start_of",
    ),
    (
        "What may a line of a script leave?",
        "Records of its own, by a table of what may stand behind what it left so far, and where it may end.",
        "Runs Played Leaves Own Begins",
    ),
    (
        "What is a film, and how does it end?",
        "Packets in the order of their places, found by a walk from element to element; a clean, cut or damaged end.",
        "opened_film film_walk step_at move_of block_element_of plan_packets film_for",
    ),
    (
        "Is anything left out?",
        "Where all is there and nothing fails, every line was played, and each drain went to the end of each track.",
        "Completes HasAll IsQuiet Fulfils PlayedOut EndsAll",
    ),
]

HEAD = re.compile(r"(?:(?:abbrev|unfoldable|opaque)\s+)*(?:pub\s+)?(?:(?:record|data)\s+)?(\S+)")
IS_HEAD = re.compile(r"(?:abbrev|unfoldable|opaque|pub|record|data)\s|\S+ :(?:\s|$)")
NO_DEFINITION = re.compile(r"(?:pub\s+)?(?:use|mod|module|open)\s")
USE = re.compile(r"(pub\s+)?use\s+([\w.]+?)(?:\.\{(.*)\}|\s+as\s+(\S+))?\s*;?\s*$", re.S)
WORD = re.compile(r"\.?[^\s()\[\]{},;λ\"]+")


class Definition:
    """One definition of a file of specs/: its name, the comment above it, its text, and the section around it."""

    def __init__(self, module, name, comment, text, section):
        self.module, self.name, self.comment, self.text, self.section = module, name, comment, text, section

    def words(self):
        """Returns the words that its text may cite, in order, without the names that it binds itself."""
        found = {}
        for part in re.split(r"\n(?=\S)", self.text):
            part = re.sub(r"--.*", "", re.sub(r'"[^"]*"', "", part))
            bound = set(re.findall(r"^\s+(?:pub\s+)?([^\s():]+) [:←]", part, re.M))
            for names in re.findall(r"[({]([^(){}:;=]+) : ", part) + re.findall(r"λ ([^.]+)\.", part):
                bound.update(names.split())
            left, *right = re.split(r"\s=\s", part, maxsplit=1)
            if right and " : " not in left:
                bound.update(it for it in WORD.findall(left)[1:] if it[0].islower() and "." not in it)
            part = re.sub(r"(^\s+|[{;]\s*)[^\s={};]+ = ", r"\1", part, flags=re.M)
            for it in WORD.findall(part):
                it = it.rstrip(".")
                if it and it[0] != "." and it.split(".")[0] not in bound:
                    found[it] = None
        return found


class Module:
    """A file of a crate's specs/: its first comment, its imports and its definitions in order."""

    def __init__(self, crate, path, file):
        self.crate, self.path, self.file = crate, path, file
        lines = file.read_text(encoding="utf-8").split("\n")
        self.about = sentence(comment_at(lines, 0))
        self.imports = imports_of("\n".join(lines), "")
        self.definitions = definitions_of(self, lines)
        self.names = {it.name: it for it in self.definitions}

    @property
    def name(self):
        return f"{self.crate}/{'/'.join(self.path)}"


def comment_at(lines, at):
    found = []
    while at < len(lines) and lines[at].startswith("--"):
        found.append(lines[at])
        at += 1
    return found


def sentence(comment):
    """Returns the prose of comment lines, without the titles of sections."""
    return " ".join(it[2:].strip() for it in comment if not it.startswith("-- ----")).strip()


def definitions_of(module, lines):
    found, at, section = [], 0, ""
    while at < len(lines):
        if lines[at].startswith("-- ----"):
            section = lines[at][7:].strip()
        if not IS_HEAD.match(lines[at]) or NO_DEFINITION.match(lines[at]):
            at += 1
            continue
        begin, above = at, at - 1
        if above >= 0 and lines[above].startswith("infix"):
            begin, above = above, above - 1
        while above >= 0 and lines[above].startswith("--"):
            above -= 1
        last = at + 1
        while last < len(lines) and not ends_definition(lines[last]):
            last += 1
        text = "\n".join(lines[begin:last]).rstrip()
        name = HEAD.match(lines[at])[1]
        found.append(Definition(module, name, sentence(lines[above + 1 : begin]), text, section))
        at = last
    return found


def ends_definition(line):
    starts = line.startswith(("--", "infix")) or NO_DEFINITION.match(line)
    return bool(starts or (IS_HEAD.match(line) and not line[0].isspace()))


def imports_of(text, keyword):
    """Returns a file's imports: local names with module and name, modules by their local name, and those handed on."""
    names, modules, reexports = {}, {}, {}
    pattern = rf"^{keyword}((?:pub\s+)?use\s[^{{\n;]*(?:\{{[^}}]*\}})?[^\n;]*)"
    for line in re.findall(pattern, text, re.M):
        use = USE.match(line.strip())
        if not use:
            continue
        is_public, path, listed, alias = use.groups()
        if listed is None:
            modules[alias or path.split(".")[-1]] = path
            if is_public:
                reexports[alias or path.split(".")[-1]] = path
            continue
        for item in filter(None, map(str.strip, listed.split(","))):
            name, _, local = item.partition(" as ")
            names[(local or name).strip()] = (path, name.strip())
    return names, modules, reexports


class Sources:
    """All definitions of the repository, and the way from a name to what it means."""

    def __init__(self):
        self.modules = {}
        for file in sorted(TOP.glob("crates/*/specs/**/*.antt")):
            crate = file.relative_to(TOP / "crates").parts[0]
            path = file.relative_to(TOP / "crates" / crate / "specs").with_suffix("").parts
            self.modules[f"Rattle.{crate}.specs.{'.'.join(path)}"] = Module(crate, path, file)
        self.types = {}

    def module(self, path, depth=0):
        """Returns the module of a path, also where a crate hands on another's."""
        if path in self.modules or depth > 8:
            return self.modules.get(path)
        parts = path.split(".")
        lib = self.modules.get(".".join(parts[:3]) + ".Lib")
        if lib and len(parts) == 4 and parts[3] in lib.imports[2]:
            return self.module(lib.imports[2][parts[3]], depth + 1)
        return None

    def look_up(self, path, name, depth=0):
        """Returns the definition of this name in a module, also where that module hands on another's."""
        if ".specs.declared." in path:
            self.note_type(path, name)
            return None
        module = self.module(path)
        if module is None:
            above, _, last = path.rpartition(".")
            outer = self.module(above)
            return outer.names.get(last) if outer else None
        if name in module.names or depth > 8:
            return module.names.get(name)
        onward = module.imports[0].get(name)
        return self.look_up(*onward, depth + 1) if onward else None

    def note_type(self, path, name):
        parts = path.split(".")
        if len(parts) > 4 and "TheConstants" not in path:
            kind = parts[-2] if parts[-1] == "TheVariants" else parts[-1]
            end = parts.index(kind)
            self.types[(parts[1], kind)] = parts[4:end]

    def cited(self, words, imports, own):
        """Returns the definitions that words mean, by a file's own definitions and its imports."""
        names, modules, _ = imports
        found = []
        for local in [it for it in [*names, *own] if "◌" in it]:
            parts = [it for it in local.split("◌") if it.strip()]
            if all(part.strip() in words for part in parts):
                found.append(own.get(local) or self.look_up(*names[local]))
        for word in words:
            first, _, rest = word.partition(".")
            if first in own:
                found.append(own[first])
            elif first in names:
                found.append(self.look_up(*names[first]))
            elif first in modules and rest:
                found.append(self.look_up(modules[first], rest.split(".")[0]))
        return [it for it in found if it is not None]

    def closure(self, seeds):
        """Returns all definitions under some, in the order in which they are met, level by level."""
        met, level = dict.fromkeys(seeds), list(seeds)
        while level:
            below = []
            for it in level:
                for other in self.cited(it.words(), it.module.imports, it.module.names):
                    if other not in met:
                        met[other] = None
                        below.append(other)
            level = below
        return list(met)


def item_of(crate, head):
    """Returns the file, the doc comment, the item and the file's text, of a crate or, where it moved, of another."""
    own = sorted((TOP / "crates" / crate / "src").rglob("*.rt"))
    for file in [*own, *sorted((TOP / "crates").glob("*/src/**/*.rt"))]:
        text = file.read_text(encoding="utf-8")
        found = re.search(rf"^((?:[ \t]*///.*\n)*)((?:#\[.*\]\n)*)({head}[\s\S]*?^\}})", text, re.M)
        if found:
            return file, found[1], found[3], text
    sys.exit(f"promise: no item '{head}' in any crate")


def prose(doc):
    """Returns the first paragraph of a doc comment."""
    lines = [it.strip()[3:].strip() for it in doc.strip().split("\n")]
    return " ".join(lines[: lines.index("")] if "" in lines else lines)


def contract_of(text):
    """Returns a function's head with its clauses, without its body."""
    return text.split("\n{\n")[0]


def clauses_of(text):
    """Returns the texts between the braces of each clause, ghost member and law of an item."""
    return "\n".join(re.sub(r"//.*", "", it) for it in text.split("\n"))


def seeds_of(sources, crate, head, is_function):
    file, doc, item, text = item_of(crate, head)
    shown = contract_of(item) if is_function else item
    words = dict.fromkeys(it.rstrip(".") for it in WORD.findall(clauses_of(shown)) if it[0] != ".")
    found = sources.cited(words, imports_of(text, r"\s*ghost\s+"), {})
    return list(dict.fromkeys(found)), file, doc, shown


def topic_of(module):
    best, chosen = -1, len(TOPICS) - 1
    for number, (_, _, patterns) in enumerate(TOPICS):
        for pattern in patterns.split():
            if module.name.startswith(pattern) and len(pattern) > best:
                best, chosen = len(pattern), number
    return chosen


def slugs_of(lines):
    """Returns the anchor that each definition of a page has, the first of its name and the one of each module."""
    seen, found, in_code, module = Counter(), {}, False, ""
    for line in lines:
        in_code ^= line.startswith("```")
        if in_code or not line.startswith("#"):
            continue
        text = re.sub(r"\]\([^)]*\)", "", line.lstrip("# ")).replace("[", "").replace("`", "")
        slug = re.sub(r"[^\w -]", "", text.lower()).replace(" ", "-")
        anchor = f"{slug}-{seen[slug]}" if seen[slug] else slug
        seen[slug] += 1
        if line.startswith("### "):
            module = text.split("/")[-1]
        elif line.startswith("#### "):
            found.setdefault(text, anchor)
            found[f"{module}.{text}"] = anchor
    return found


def paths_of(lines):
    """Returns the table of questions, with a link to each definition that is to be read."""
    slugs = slugs_of(lines)
    rows = ["## Where to begin", "", "| Question | In short | Read, in this order |", "|---|---|---|"]
    for question, answer, names in PATHS:
        for gone in [it for it in names.split() if it not in slugs]:
            print(f"promise: '{gone}' of the question '{question}' is no definition any more", file=sys.stderr)
        links = [f"[`{it.split('.')[-1]}`](#{slugs[it]})" for it in names.split() if it in slugs]
        rows.append(f"| {question} | {answer} | {', '.join(links)} |")
    return [*rows, ""]


def link(file):
    return f"../{file.relative_to(TOP)}"


def as_sentence(text):
    return text[0].upper() + text[1:] + ("" if text[-1] in ".?!:" else ".") if text else ""


def entry(it):
    lines = [f"#### `{it.name}`", ""]
    if it.comment:
        lines += [as_sentence(it.comment), ""]
    return [*lines, "```", it.text, "```", ""]


def type_rows(sources):
    """Returns a row for each type of the program that the definitions speak of."""
    rows = []
    for (crate, kind), path in sorted(sources.types.items()):
        for file in sorted((TOP / "crates" / crate / "src").rglob("*.rt")):
            text = file.read_text(encoding="utf-8")
            head = rf"((?:^///.*\n)*)(?:^#\[.*\]\n)*^pub (?:struct|enum|type|trait) {kind}\b"
            found = re.search(head, text, re.M)
            if found:
                said = re.split(r"(?<=\.) ", prose(found[1]))[0]
                rows.append(f"| [`{kind}`]({link(file)}) | `{crate}` | {said} |")
                break
    return rows


def page_of(sources):
    seeds, file, doc, contract = seeds_of(sources, *PROMISE, True)
    promised = sources.closure(seeds)
    around = [seeds_of(sources, crate, head, False) for crate, head, _ in AROUND]
    taken = sources.closure(list(dict.fromkeys(it for one in around for it in one[0])))
    more = [it for it in taken if it not in promised]
    order = [*promised, *more]
    modules = list(dict.fromkeys(it.module for it in order))
    grouped = [[it for it in modules if topic_of(it) == n] for n in range(len(TOPICS))]
    kept = {it: [d for d in it.definitions if d in set(order)] for it in modules}
    out = [
        "# The promise of `run`, definition by definition",
        "",
        "*For whoever wants to know exactly what is promised. Written by `tools/promise.py` from the sources, so"
        " change those; `tests/promise.sh` fails where this page is stale.*",
        "",
        "The gate proves the contract of `run` below. Its clauses cite definitions, and these cite others:"
        f" {len(promised)} in all, and {len(more)} more that describe the outside and the statuses. They are all that"
        " has to be read and believed; everything else is proved against them. Read from the top: the clauses first,"
        " then what a question of yours needs, or the first topic, and go down only where a name matters to you."
        " Each definition stands with its sentence above its text; one without a sentence serves the next one that has"
        " one. Where sentence and text differ the text counts."
        " The marks are explained in [CONTRACTS.md](CONTRACTS.md). Words that have no entry here are the standard"
        " library's, such as `All` or `filter`, or types of the program, which the last table lists.",
        "",
        "## The contract",
        "",
        prose(doc),
        "",
        f"From [{file.relative_to(TOP)}]({link(file)}):",
        "",
        "```",
        contract,
        "```",
        "",
    ]
    for (_, _, what), (_, where, _, text) in zip(AROUND, around):
        out += [f"{what}, from [{where.relative_to(TOP)}]({link(where)}):", "", "```", text, "```", ""]
    out += ["## The topics", "", "| Topic | About | Definitions |", "|---|---|---|"]
    for (title, about, _), group in zip(TOPICS, grouped):
        if group:
            anchor = re.sub(r"[^a-z -]", "", title.lower()).replace(" ", "-")
            out.append(f"| [{title}](#{anchor}) | {about} | {sum(len(kept[it]) for it in group)} |")
    out.append("")
    for (title, about, _), group in zip(TOPICS, grouped):
        if not group:
            continue
        out += [f"## {title}", "", about, ""]
        for module in group:
            out += [f"### [{module.name}]({link(module.file)})", ""]
            out += [module.about, ""] if module.about else []
            section = ""
            for it in kept[module]:
                if it.section != section:
                    section = it.section
                    out += [f"*{as_sentence(section)}*", ""]
                out += entry(it)
    out += [
        "## Types of the program",
        "",
        "The definitions speak of these types of the program; their fields are documented where they stand.",
        "",
        "| Type | Crate | Is |",
        "|---|---|---|",
        *type_rows(sources),
    ]
    topics = out.index("## The topics")
    out[topics:topics] = paths_of(out)
    return "\n".join(out) + "\n", promised, more


def stale_quotes():
    """Returns the clauses that docs/CONTRACTS.md quotes and no source has, however either breaks its lines."""
    flat = lambda text: " ".join(text.split())
    sources = [flat(it.read_text(encoding="utf-8")) for it in (TOP / "crates").glob("*/src/**/*.rt")]
    sources += [flat(it.read_text(encoding="utf-8")) for it in (TOP / "crates").glob("*/specs/**/*.antt")]
    blocks = re.findall(r"^```\n([\s\S]*?)^```", CONTRACTS.read_text(encoding="utf-8"), re.M)
    parts = [it for block in blocks for it in re.split(r"\n(?=\s*(?:requires|ensures)\b)", block)]
    return [flat(it) for it in parts if not any(flat(it) in source for source in sources)]


def main(words):
    if words not in ([], ["--check"], ["--count"]):
        sys.exit(__doc__)
    page, promised, more = page_of(Sources())
    quotes = stale_quotes() if words == ["--check"] else []
    for it in quotes:
        print(f"promise: {os.path.relpath(CONTRACTS, TOP)} quotes what no source says: {it}")
    if words == ["--count"]:
        for crate, count in Counter(it.module.crate for it in promised).most_common():
            print(f"{count:5} {crate}")
        print(f"{len(promised):5} in all, and {len(more)} around them")
    elif not words:
        PAGE.write_text(page, encoding="utf-8")
    elif not PAGE.is_file() or PAGE.read_text(encoding="utf-8") != page:
        print(f"promise: {os.path.relpath(PAGE, TOP)} is stale: run tools/promise.py and look at what changed")
        return 1
    elif not quotes:
        print(f"promise: {len(promised)} definitions, the page is what the sources say")
    return 1 if quotes else 0


if __name__ == "__main__":
    sys.exit(main(sys.argv[1:]))
