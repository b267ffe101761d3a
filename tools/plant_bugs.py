#!/usr/bin/env python3
"""Plants bugs in the code of crates, one at a time, and lists those that the check lets through.

usage: tools/plant_bugs.py [--each N] [--seed S] [--jobs J] [--time T] [--only WORD] [--list] CRATE..

No list of bugs is written by hand: they come from the code in crates/CRATE/src, by the rules below. Contracts, ghost members,
attributes, comments, strings, imports and tests are left alone, and so are the limits (limits.rt), which definitions take from there:
they are no code that a contract holds. The work is done on copies in a temporary folder.

  --each N     how many bugs that compile for each crate, 12 if left out: one for each function in turn, then a second for each ..
  --seed S     which ones, and in what order: the same seed plants the same bugs
  --jobs J     how many checks run at once, each on a copy of its own
  --time T     minutes after which no further bug is planted
  --only WORD  only functions whose file, type or name contains WORD
  --list       prints all bugs that there are, and checks none

A bug is refused where a goal is left open, or where what is written as its proof proves it no more, and survives where all is proved
still. One that does not compile is not counted, nor one of which only a proof file speaks that cites a name that is gone, and another
takes its place. A survivor is for a person to judge: it may mean the same program.
"""
import argparse
import collections
import os
import pathlib
import random
import re
import shutil
import signal
import subprocess
import sys
import tempfile
import threading
import time

REPOSITORY = pathlib.Path(__file__).resolve().parent.parent
CHECK_SECONDS = 400

# Operators, which the layout sets between blanks; then words and methods.
OPERATORS = {
    "<": "<=", "<=": "<", ">": ">=", ">=": ">", "==": "!=", "!=": "==", "&&": "||", "||": "&&", "+": "-", "-": "+", "*": "/",
    "/": "*", "%": "/", "^": "|", "&": "|", "<<": ">>", ">>": "<<", "+=": "-=", "-=": "+=", "^=": "|=", "|=": "^=",
}
WORDS = {"true": "false", "false": "true", "is_ok": "is_err", "is_err": "is_ok", "is_some": "is_none", "is_none": "is_some",
         "min": "max", "max": "min"}
PAIRS = {"(": ")", "[": "]", "{": "}"}

Bug = collections.namedtuple("Bug", "path start end new kind function")


# ---- reading the code

def closing(text, start):
    """The place of the bracket that closes the one at `start`."""
    depth = 0
    for place in range(start, len(text)):
        if text[place] in "([{":
            depth += 1
        elif text[place] in ")]}":
            depth -= 1
            if depth == 0:
                return place
    return len(text) - 1


def until(text, start, ends):
    """The first place from `start` on, outside brackets, where one of the words `ends` stands."""
    place = start
    while place < len(text):
        if any(text.startswith(end, place) for end in ends):
            return place
        place = closing(text, place) + 1 if text[place] in PAIRS else place + 1
    return len(text)


def code_of(source):
    """The source place for place, with blanks for all but code, and `~` for strings and characters."""
    text = list(source)

    def blank(start, end, filler=" "):
        for place in range(start, end):
            if text[place] != "\n":
                text[place] = filler

    for found in re.finditer(r"//[^\n]*|b?\"(?:\\.|[^\"\\])*\"|b?'(?:\\.|[^'\\\n])'", source):
        if not re.fullmatch(r"b'[0-9A-Za-z]'", found.group()):
            blank(*found.span(), " " if found.group().startswith("//") else "~")
    for pattern, end_of in (
        (r"#\[(?:cfg\(test\)|test)\][^{;]*\{", lambda now, found: closing(now, found.end() - 1) + 1),
        (r"#!?\[", lambda now, found: closing(now, found.end() - 1) + 1),
        (r"(?m)^\s*(?:ghost |pub |pub\([a-z]+\) )?(?:use|mod)\b[^;]*;", lambda now, found: found.end()),
        (r"\b(?:requires|ensures)\b[^{;]*\{", lambda now, found: closing(now, found.end() - 1) + 1),
        (r"\bghost\s+\w+", lambda now, found: until(now, found.end(), ";,}")),
    ):
        while True:
            now = "".join(text)
            found = re.search(pattern, now)
            if not found:
                break
            blank(found.start(), end_of(now, found))
    return "".join(text)


def items(code):
    """Functions with a body, constants, and enums with numbers: name, kind of item, and where the body lies."""
    owners = []
    for found in re.finditer(r"(?m)^(?:pub )?(?:impl|trait)\b([^{;]*)\{", code):
        name = found.group(1)
        while re.search(r"<[^<>]*>", name):
            name = re.sub(r"<[^<>]*>", "", name)
        owners.append((found.end(), closing(code, found.end() - 1), re.findall(r"\w+", re.split(r"\bwhere\b|(?<!:):(?!:)", name)[0])[-1]))
    for found in re.finditer(r"\bfn\s+(\w+)", code):
        place = found.end()
        while place < len(code) and code[place] not in "{;":
            place = closing(code, place) + 1 if code[place] in "([" else place + 1
        if place < len(code) and code[place] == "{":
            owner = next((name for first, last, name in owners if first <= place <= last), "")
            yield (owner + "::" if owner else "") + found.group(1), "fn", place + 1, closing(code, place), owner
    for found in re.finditer(r"(?m)^\s*(?:pub )?const\s+([A-Z]\w*)\s*:", code):
        start = until(code, found.end(), "=")
        yield found.group(1), "const", start + 1, until(code, start, ";"), ""
    for found in re.finditer(r"\benum\s+(\w+)[^{;]*\{", code):
        end = closing(code, found.end() - 1)
        if re.search(r"=\s*\d", code[found.end():end]):
            yield found.group(1), "enum", found.end(), end, ""


def variants(crates):
    """Of each enum of these crates: its variants, each with how many values it takes."""
    enums = collections.defaultdict(list)
    for path in (p for crate in crates for p in sorted((REPOSITORY / "crates" / crate / "src").rglob("*.rt"))):
        code = code_of(path.read_text())
        for found in re.finditer(r"\benum\s+(\w+)[^{;]*\{", code):
            texts = [code[a:b] for a, b in parts(code, found.end() - 1)]
            enums[found.group(1)].append({re.match(r"\w*", text).group(): (re.sub(r"[^({]", "", text)[:1], text.count(",")) for text in texts})
    return enums


def fields(crate):
    """Of each field of a struct of this crate: another one of the same struct and type."""
    others = collections.defaultdict(set)
    for path in sorted((REPOSITORY / "crates" / crate / "src").rglob("*.rt")):
        code = code_of(path.read_text())
        for found in re.finditer(r"\bstruct\s+\w+[^{;(]*\{", code):
            spans = [code[a:b].split(":", 1) for a, b in parts(code, found.end() - 1)]
            typed = [(part[0].split()[-1], part[1].strip()) for part in spans if len(part) == 2]
            for i, (name, kind) in enumerate(typed):
                others[name].update([other for other, same in typed[i + 1:] + typed[:i] if same == kind][:1])
    return others


def parts(code, start):
    """Where the parts between commas lie, of the bracket that opens at `start`."""
    end = closing(code, start)
    spans, place = [], start + 1
    while place <= end:
        comma = min(until(code, place, ","), end)
        left, right = place, comma
        while left < right and code[left].isspace():
            left += 1
        while right > left and code[right - 1].isspace():
            right -= 1
        if left < right:
            spans.append((left, right))
        place = comma + 1
    return spans


# ---- the bugs of one item

def number_near(literal, step):
    """The literal one greater or less, in its own notation; none below zero."""
    digits, suffix = re.fullmatch(r"(0x[0-9a-fA-F_]+|0b[01_]+|[0-9_]+)(\w*)", literal).groups()
    value = int(digits.replace("_", ""), 0) + step if not re.fullmatch(r"0[0-9_]+", digits) else -1
    if value < 0:
        return None
    return (hex(value) if digits.startswith("0x") else bin(value) if digits.startswith("0b") else str(value)) + suffix


def token_bugs(code, start, end, owner, enums, others):
    """Changed operators, words, numbers, fields and variants."""
    body = code[start:end]
    for found in re.finditer(r"(?<=\s)(\S{1,2})(?=\s)", body):
        if found.group(1) in OPERATORS:
            yield start + found.start(), start + found.end(), OPERATORS[found.group(1)], "operator"
    for found in re.finditer(r"(?<![\w!=])!(?=[\w(])", body):
        yield start + found.start(), start + found.end(), "", "operator"
    for found in re.finditer(r"\b[a-z_]+\b", body):
        if found.group() in WORDS:
            yield start + found.start(), start + found.end(), WORDS[found.group()], "word"
    for found in re.finditer(r"(?<![\w'])(?:0x[0-9a-fA-F_]+|0b[01_]+|[0-9][0-9_]*)(?:[ui](?:8|16|32|64|size))?(?![\w'])", body):
        if re.search(r"(?<!\.)\.$", body[:found.start()]):
            continue
        for step in (1, -1):
            near = number_near(found.group(), step)
            if near:
                yield start + found.start(), start + found.end(), near, "number"
    for found in re.finditer(r"b'(\w)'", body):
        yield start + found.start(), start + found.end(), f"b'{chr(ord(found.group(1)) + 1)}'", "number"
    for found in re.finditer(r"(?<=\.)([a-z]\w*)\b(?!\()", body):
        for other in sorted(others.get(found.group(), [])):
            yield start + found.start(), start + found.end(), other, "field"
    for found in re.finditer(r"\b([A-Z]\w*)::([A-Z]\w*)\b(?!\s*::)(?!(?:\([^()]*\))? =>)", body):
        name = owner if found.group(1) == "Self" else found.group(1)
        for shapes in enums.get(name, []):
            same = [v for v in shapes if shapes[v] == shapes.get(found.group(2))]
            if len(same) > 1 and found.group(2) in same:
                place = same.index(found.group(2))
                for other in sorted({same[place - 1], same[(place + 1) % len(same)]}):
                    yield start + found.start(2), start + found.end(2), other, "variant"


def order_bugs(source, code, start, end):
    """Neighbours of a call, a tuple or an array changed over, and the answers of neighbouring arms."""
    for place in range(start, end):
        if code[place] in "([" and not (code[place] == "[" and re.match(r"[\w\])]", code[place - 1])):
            spans = parts(code, place)
            for (a, b), (c, d) in zip(spans, spans[1:]):
                if source[a:b] != source[c:d]:
                    yield a, d, source[c:d] + source[b:c] + source[a:b], "order"
    arms = [(start + found.start(1), start + found.end(1)) for found in re.finditer(r"(?m)=>\s+(\S.*),$", code[start:end])]
    for (a, b), (c, d) in zip(arms, arms[1:]):
        if source[a:b] != source[c:d]:
            yield a, d, source[c:d] + source[b:c] + source[a:b], "order"


def number_bugs(source, code, start, end):
    """Numbers of an enum: another one, and neighbours changed over."""
    spans = [(start + found.start(1), start + found.end(1)) for found in re.finditer(r"=\s*(\w+)", code[start:end])]
    used = {int(source[a:b], 0) for a, b in spans}
    for a, b in spans:
        for near in (number_near(source[a:b], 1), number_near(source[a:b], -1)):
            if near and int(near, 0) not in used:
                yield a, b, near, "number"
    for (a, b), (c, d) in zip(spans, spans[1:]):
        yield a, d, source[c:d] + source[b:c] + source[a:b], "order"


def statement_bugs(source, code, start, end):
    """Statements left out, and what another path answers answered at once."""
    lines, place = [], start
    for line in code[start:end].split("\n"):
        lines.append((place, line))
        place += len(line) + 1
    before = "{"
    for i, (place, line) in enumerate(lines):
        word = line.strip()
        if word and before[-1] in ";{}" and not re.match(r"let\b|if\b|for\b|while\b|loop\b|match\b|[}\])]", word):
            text = ""
            for at, more in lines[i:]:
                text += more + "\n"
                if sum(text.count(o) - text.count(c) for o, c in PAIRS.items()) <= 0:
                    if text.rstrip().endswith(";"):
                        left = place + len(line) - len(line.lstrip())
                        yield left, place + len(text.rstrip()), "", "statement"
                    break
        before = word or before
    answers = re.findall(r"\breturn\b ([^;\n]*);", code[start:end]) + re.findall(r"\{\n\s*([^\n;]*[^\n;,{}])\n\s*\}", code[start:end])
    for answer in sorted(set(answers)):
        yield start, start, f" return {answer};", "return"


def condition_bugs(code, start, end):
    for found in re.finditer(r"\bif\s+(?!let\b)", code[start:end]):
        first = start + found.end()
        last = min(until(code, first, ("{", "=>")), end)
        while last > first and code[last - 1].isspace():
            last -= 1
        for value in ("true", "false"):
            yield first, last, value, "condition"


def bugs_of(crate, below, only):
    """The bugs of a crate, by function."""
    enums, others = variants([crate] + below), fields(crate)
    found = collections.OrderedDict()
    for path in sorted((REPOSITORY / "crates" / crate / "src").rglob("*.rt")):
        if path.name == "limits.rt":
            continue
        source = path.read_text()
        code = code_of(source)
        for name, kind, start, end, owner in items(code):
            edits = list(token_bugs(code, start, end, owner, enums, others)) + list(order_bugs(source, code, start, end))
            if kind == "fn":
                edits += list(statement_bugs(source, code, start, end)) + list(condition_bugs(code, start, end))
            elif kind == "enum":
                edits = list(number_bugs(source, code, start, end))
            label = f"{path.relative_to(REPOSITORY / 'crates' / crate)} {name}"
            texts = {source}
            for left, right, new, why in edits:
                changed = source[:left] + new + source[right:]
                if changed not in texts and only in label:
                    texts.add(changed)
                    found.setdefault(label, []).append(Bug(path, left, right, new, why, name))
    return found


def shuffled(bugs, chance):
    """In chance order, kind after kind, so that the first few are of different kinds."""
    kinds = collections.defaultdict(list)
    for bug in chance.sample(bugs, len(bugs)):
        kinds[bug.kind].append(bug)
    order = chance.sample(sorted(kinds), len(kinds))
    return [kinds[kind][i] for i in range(len(bugs)) for kind in order if i < len(kinds[kind])]


def shown(bug):
    """The lines of a bug, before and after."""
    source = bug.path.read_text()
    place = f"{str(bug.path).split('/src/')[1]}:{source.count(chr(10), 0, bug.start) + 1} {bug.function}"
    if bug.kind == "return":
        return f"{place}: nothing -> {bug.new.strip()} first of all"
    left = source.rfind("\n", 0, bug.start) + 1
    right = source.find("\n", bug.end)
    old, new = source[left:right], source[left:bug.start] + bug.new + source[bug.end:right]
    old, new = (" ".join(re.sub(r"//[^\n]*", "", text).split())[:110] for text in (old, new))
    return f"{place}: {old} -> {new or 'nothing'}"


# ---- trying them

CHECKS = set()
# What a proof file says where the bug took away a name that it cites: that tells nothing of the contract.
GONE = r"proofs/.*(has no field|is not in scope|has no `|was not admitted)"


def check(folder):
    """What `rt check` says in a crate's folder, and the goal that it leaves open."""
    run = subprocess.Popen(["rt", "check"], cwd=folder, stdout=subprocess.PIPE, stderr=subprocess.STDOUT, text=True, start_new_session=True)
    CHECKS.add(run)
    try:
        said, _ = run.communicate(timeout=CHECK_SECONDS)
    except subprocess.TimeoutExpired:
        os.killpg(run.pid, signal.SIGKILL)
        run.communicate()
        return "no answer in time", ""
    finally:
        CHECKS.discard(run)
    if "logic=proved" in said:
        return "survived", ""
    if "logic=not-proved" not in said:
        return "not compiled" if "error[" in said else "not judged", next(iter(re.findall(r".*error.*", said)), said[-200:])[:160]
    told = [line for line in said.splitlines() if re.match(r"(note: )?\S+:\d+:\d+: ", line) or ": no proof: " in line]
    told = [line for line in told if not re.search(GONE, line) and "which is not proved" not in line]
    return ("refused", told[0][:160]) if told else ("not judged", "only a proof file names what is gone")


class Crate:
    """The bugs of one crate, in the order in which they are tried, and what became of them."""

    def __init__(self, name, below, options):
        chance = random.Random(f"{options.seed} {name}")
        found = bugs_of(name, below, options.only)
        self.name, self.each, self.turn, self.running = name, options.each, 0, 0
        self.queues = [(shuffled(bugs, chance), threading.Lock()) for bugs in found.values()]
        chance.shuffle(self.queues)
        self.counts, self.survivors, self.sound = collections.Counter(), [], None

    def planted(self):
        return self.counts["refused"] + self.counts["survived"]

    def next_queue(self):
        if self.planted() + self.running >= self.each or not any(bugs for bugs, _ in self.queues):
            return None
        self.turn, self.running = self.turn + 1, self.running + 1
        return self.queues[(self.turn - 1) % len(self.queues)]


def work(crates, copy, lock, say, deadline):
    """Takes one function of a crate after the other, and plants its next bug that compiles."""
    while time.time() < deadline:
        with lock:
            crate, queue = next(((c, q) for c in crates if c.sound is not False and (q := c.next_queue())), (None, None))
        if crate is None:
            return
        folder = copy / "crates" / crate.name
        with lock if crate.sound is None else threading.Lock():
            if crate.sound is None:
                crate.sound = check(folder)[0] == "survived"
                if not crate.sound:
                    say(f"{crate.name}: not proved as it is, so nothing is planted")
        bugs, own = queue
        with own:
            while crate.sound and bugs and time.time() < deadline:
                bug = bugs.pop(0)
                source = bug.path.read_text()
                target = copy / bug.path.relative_to(REPOSITORY)
                target.write_text(source[:bug.start] + bug.new + source[bug.end:])
                verdict, why = check(folder)
                target.write_text(source)
                with lock:
                    crate.counts[verdict] += 1
                    if verdict == "survived":
                        crate.survivors.append(bug)
                say(f"{crate.name} {shown(bug)}: {verdict}{': ' + why if why else ''}")
                if verdict in ("refused", "survived"):
                    break
        with lock:
            crate.running -= 1


def dependencies():
    lines = [line for line in (REPOSITORY / "crates.txt").read_text().splitlines() if ":" in line and not line.startswith("#")]
    direct = {line.split(":")[0].split()[0]: line.split(":")[1].split() for line in lines}
    return {name: [c for c in direct if c in closure(name, direct)] for name in direct}


def closure(name, direct):
    return set().union(*({c} | closure(c, direct) for c in direct.get(name, []) if c in direct))


def main():
    parser = argparse.ArgumentParser(usage=__doc__, add_help=True)
    parser.add_argument("crates", nargs="+", metavar="CRATE")
    parser.add_argument("--each", type=int, default=12)
    parser.add_argument("--seed", default="1")
    parser.add_argument("--jobs", type=int, default=1)
    parser.add_argument("--time", type=float, default=60)
    parser.add_argument("--only", default="")
    parser.add_argument("--list", action="store_true")
    options = parser.parse_args()
    below = dependencies()
    if options.list:
        for name in options.crates:
            for bug in (bug for bugs in bugs_of(name, below[name], options.only).values() for bug in bugs):
                print(f"{name} {bug.kind} {shown(bug)}")
        return
    deadline = time.time() + 60 * options.time
    signal.signal(signal.SIGTERM, lambda *_: sys.exit("stopped"))
    crates = [Crate(name, below[name], options) for name in options.crates]
    needed = set(options.crates).union(*(below[name] for name in options.crates))
    lock, tongue = threading.Lock(), threading.Lock()

    def say(line):
        with tongue:
            print(line, flush=True)

    with tempfile.TemporaryDirectory(prefix="planted-bugs-") as top:
        workers = []
        for job in range(options.jobs):
            copy = pathlib.Path(top) / str(job)
            for name in sorted(needed):
                shutil.copytree(REPOSITORY / "crates" / name, copy / "crates" / name)
            lines = [line for line in (REPOSITORY / "crates.txt").read_text().splitlines() if line.split(":")[0].split(" ")[0] in needed]
            (copy / "crates.txt").write_text("\n".join(lines) + "\n")
            workers.append(threading.Thread(target=work, args=(crates, copy, lock, say, deadline), daemon=True))
        try:
            for worker in workers:
                worker.start()
            for worker in workers:
                worker.join()
        finally:
            for run in list(CHECKS):
                os.killpg(run.pid, signal.SIGKILL)
    print("\ncrate          planted  refused  survived  not compiled  not judged")
    for crate in crates:
        n = crate.counts
        print(f"{crate.name:14} {crate.planted():7} {n['refused']:8} {n['survived']:9} {n['not compiled']:13} "
              f"{n['not judged'] + n['no answer in time']:11}")
    print("\nsurvivors")
    for crate in crates:
        for bug in crate.survivors:
            print(f"{crate.name} {shown(bug)}")


if __name__ == "__main__":
    sys.exit(main())
