"""Checks that what the documents name exists: the gate runs it.

usage: python3 tools/check_docs.py [--count]      in the project's folder; --count first writes the numbers of lines into README.md

docs/REVIEW.md: each definition in its file of `specs/`; each function, clause, invariant and type of a contract in its crate; each
must-fail edit and refused program, and that none of these is missing there. README.md: the table of the trusted reading has each file of
`specs/` that is no list of modules and no proof, in an order in which each stands on those before it, with its lines and their sums; a
file of proofs defines nothing. docs/INTEGRATING.md: each block of Rattle stands in the example, word for word. All pages that are no
history: each name in code letters stands in the code or the definitions, each path exists. It prints a line for each thing that does
not hold, and then ends with status 1.
"""
import pathlib
import re
import sys

ROOT = pathlib.Path('.')
CRATES = sorted(folder.name for folder in ROOT.glob('crates/*') if (folder / 'src').is_dir())
HISTORY = {'CHANGES.md', 'PORT.md', 'DESIGN-PASS.md'}
PAGES = [pathlib.Path('README.md'), *(page for page in sorted(ROOT.glob('docs/*.md')) if page.name not in HISTORY)]
READING_ROW = r'\| `([a-z_0-9]+/specs/\w+\.antt)` \| (\d+) \| [^|]* \| ([^|]*) \|'
wrong = []


def read(path):
    return path.read_text(encoding='utf-8')


def without_comments(text):
    return re.sub(r'^\s*//.*$', '', text, flags=re.M)


CODE = {crate: without_comments('\n'.join(map(read, sorted((ROOT / 'crates' / crate / 'src').rglob('*.rt'))))) for crate in CRATES}
# The traits stand in REVIEW without their crate.
TRAITS = CODE['suite'] + CODE['suite_of']


def report(place, text):
    wrong.append(f'{place}: {text}')


def named(text):
    return re.findall(r'`([^`]+)`', text)


# Definitions.

# Whether a file of specs/ defines that name, or has a field or a case of that name.
def defines(file, name):
    kinds = r'(?:abbrev |unfoldable )?(?:pub )?(?:data |record )?'
    word = re.escape(name)
    return file.is_file() and re.search(rf'^\s*{kinds}{word}\s*(?::|\(|\{{|where)|^\s+{word} = ', read(file), re.M) is not None


def check_definition(place, module, name):
    file = ROOT / 'crates' / module[0] / 'specs' / (module[1] + '.antt')
    if not defines(file, name):
        report(place, f'no definition {name} in {file}')


# `crate/Module: name`, and further names of the same module; before the first of them, names of the code.
def check_definitions(place, cell):
    module = None
    for text in named(cell):
        first = re.fullmatch(r'([a-z_0-9]+)/([A-Z][A-Za-z]*): (\S+)', text)
        if first:
            module = first.groups()[:2]
            check_definition(place, module, first[3])
        elif module:
            check_definition(place, module, text)
        elif not all(re.search(rf'\b{word}\b', WORDS) for word in re.findall(r'[A-Za-z_]\w+', text)):
            report(place, f'{text} is in no code')
    if not cell:
        report(place, 'no definition is named')


# Contracts.

# What stands in the trait of that name; if there is none, in its struct, its enum and its impls.
def owned(code, owner):
    for heads in ('trait', 'impl|struct|enum'):
        blocks = rf'^(?:pub(?:\([a-z]+\))? )?(?:{heads})\b[^{{;]*\b{owner}\b[^{{;]*\{{.*?^\}}'
        found = [block[0] for block in re.finditer(blocks, code, re.M | re.S) if heads != 'trait' or f'trait {owner}' in block[0]]
        if found:
            return '\n'.join(found)
    return ''


# The text of the functions of that name, with their clauses.
def functions(code, name):
    return '\n'.join(part for part in re.split(r'(?=\bfn )', code) if re.match(rf'fn {name}\b', part))


class Contract:
    """Reads a cell of contracts: a crate, and then functions, clauses, ghost members and types of it."""

    def __init__(self, place):
        self.place = place
        self.code = TRAITS
        self.owner = self.last = ''
        self.kind = 'item'

    def read(self, cell):
        for token in re.findall(r'`[^`]+`|[\w]+|[;]', cell):
            if token.startswith('`'):
                self.name(token.strip('`'))
            elif token in CODE:
                self.code, self.owner, self.kind = CODE[token], '', 'item'
            elif token in ('clause', 'clauses'):
                self.kind = 'clause'
            elif token in ('ghost', 'ghosts', 'invariant'):
                self.kind = 'ghost'
            elif token == 'of':
                self.kind = 'of'
            elif token in (';', 'trait', 'type'):
                self.kind = 'item'

    def name(self, text):
        if ': ' in text:
            check_definitions(self.place, f'`{text}`')
        elif not self.holds(text):
            report(self.place, f'no {text}, as {self.kind}')

    def holds(self, text):
        if self.kind == 'clause':
            return re.search(rf'ensures {text} \{{', self.last) is not None
        if self.kind == 'ghost':
            return re.search(rf'ghost {text}\b', owned(self.code, self.owner)) is not None
        if self.kind == 'of':
            return re.search(rf'^impl\b[^{{]*\b{self.owner}\b[^{{]*\bfor {text}\b', self.code, re.M) is not None
        return self.item(text)

    def item(self, text):
        owner, _, name = text.rpartition('::')
        if re.fullmatch(r'(impl )?\w+ for \w+', text):
            self.owner = text.split()[-1]
            return re.search(rf'^impl\b[^{{]*{text.removeprefix("impl ")}\b', self.code, re.M) is not None
        if name[0].isupper():
            self.owner = name
            return re.search(rf'\b{name}\b', self.code) is not None
        self.owner = owner or self.owner
        self.last = functions(owned(self.code, self.owner) if self.owner else self.code, name)
        if not self.last and not owner:
            self.last = functions(self.code, name)
        return self.last != ''


# Edits and refused programs.

def case_file(name):
    folder, label = name.split('/')
    if folder == 'refused':
        return ROOT / 'refused' / (label + '.case')
    return ROOT / 'crates' / folder / 'must-fail' / (label + '.edit')


def check_cases(place, cell):
    names = re.findall(r'\b[a-z_0-9]+/\w+', re.sub(r'`[^`]*`', '', cell))
    for name in names:
        if not case_file(name).is_file():
            report(place, f'no {case_file(name)}')
    if not names and not cell.startswith(('none', 'no code')):
        report(place, 'what shows it is not named')


def check_review():
    path = ROOT / 'docs/REVIEW.md'
    text = read(path)
    rules = text.index('## Rules and where they are held')
    for number, line in enumerate(text.split('\n'), 1):
        cells = [cell.strip() for cell in line.split('|')[1:-1]]
        place = f'{path}:{number}'
        if not cells or cells[0] == 'rule' or set(cells[0]) <= set('-'):
            continue
        if text.count('\n', 0, rules) > number:
            check_cases(place, cells[-1] if '/' in cells[-1] else 'none')
        elif len(cells) != 4:
            report(place, f'{len(cells)} cells in place of 4')
        else:
            check_definitions(place, cells[1])
            Contract(place).read(cells[2])
            check_cases(place, cells[3])
    for file in [*sorted(ROOT.glob('crates/*/must-fail/*.edit')), *sorted(ROOT.glob('refused/*.case'))]:
        name = f'{file.parts[-3]}/{file.stem}' if file.suffix == '.edit' else f'refused/{file.stem}'
        if not re.search(rf'\b{name}\b', text):
            report(path, f'{name} is not named')


# The reading.

# The files that a reader has to believe.
def trusted_files():
    for file in sorted(ROOT.glob('crates/*/specs/*.antt')):
        if file.stem != 'Lib' and not file.stem.endswith('Proofs'):
            yield file


def line_count(file):
    return read(file).count('\n')


# The reading as it should be: the table's numbers, and the two sums.
def counted(text):
    sums = {'promises': 0, 'all': 0}
    for file in trusted_files():
        lines = line_count(file)
        row = rf'(\| `{file.relative_to("crates")}` \| )\d+( \| [^|]* \| ([^|]*) \|)'
        needed = re.search(row, text)
        sums['all'] += lines
        sums['promises'] += lines if needed and needed[3] == 'promises' else 0
        text = re.sub(row, rf'\g<1>{lines}\g<2>', text)
    text = re.sub(r'(are needed for the promises: )[\d,]+( lines)', rf'\g<1>{sums["promises"]:,}\g<2>', text)
    return re.sub(r'(All together are )[\d,]+( lines)', rf'\g<1>{sums["all"]:,}\g<2>', text)


def count_lines():
    path = ROOT / 'README.md'
    path.write_text(counted(read(path)), encoding='utf-8')


def check_reading():
    text = read(ROOT / 'README.md')
    if counted(text) != text:
        report('README.md', 'numbers of lines are old: python3 tools/check_docs.py --count')
    rows = [path for path, _, _ in re.findall(READING_ROW, text)]
    files = [str(file.relative_to('crates')) for file in trusted_files()]
    for name in set(files) ^ set(rows):
        report('README.md', f'{name} is in the reading alone, or not in it')
    for place, name in enumerate(rows):
        for crate, module in re.findall(r'^use Rattle\.([a-z_0-9]+)\.specs\.([A-Z]\w*)', read(ROOT / 'crates' / name), re.M):
            below = f'{crate}/specs/{module}.antt'
            if below in rows and below not in rows[:place]:
                report('README.md', f'{name} stands before {below}')


def check_proof_files():
    for file in sorted(ROOT.glob('crates/*/specs/*Proofs.antt')):
        text = read(file)
        if not text.startswith('-- Proofs, which need not be read: '):
            report(file, 'the first line does not say that these are proofs')
        if re.search(r'^(pub )?(data|record|abbrev|unfoldable)\b', text, re.M):
            report(file, 'a file of proofs defines something')


# Pages.

def check_example():
    path = ROOT / 'docs/INTEGRATING.md'
    blocks = re.findall(r'```rust\n(.*?)```', read(path), re.S)
    files = [read(file) for file in sorted((ROOT / 'crates/device/src').glob('*.rt'))]
    for block in blocks:
        if not any(block in text for text in files):
            report(path, f'the block that begins {block.strip().splitlines()[0]!r} is not in the example')
    if not any('fn run(' in block for block in blocks):
        report(path, 'the main loop is not quoted')


def check_names():
    for page in PAGES:
        for text in named(re.sub(r'```.*?```', '', read(page), flags=re.S)):
            if re.fullmatch(r'(crates|docs|tools|refused|bench)/[\w./-]+', text) and not (ROOT / text).exists():
                report(page, f'no {text}')
            if re.fullmatch(r'\w*(_\w|[a-z][A-Z])\w*', text) and not re.search(rf'\b{text}\b', WORDS):
                report(page, f'{text} is in no code')


# All that has names: code, definitions, edits, tools, the measuring program and the lists.
WORDS = '\n'.join(read(file) for pattern in ('crates/*/src/**/*.rt', 'crates/*/specs/**/*.antt', 'crates.txt', 'Makefile', 'tools/*.py', 'bench/*')
                  for file in sorted(ROOT.glob(pattern)) if file.is_file()) + ' '.join(
    [*CRATES, *(file.stem for file in ROOT.glob('crates/*/must-fail/*.edit')), *(file.stem for file in ROOT.glob('refused/*.case'))])


if __name__ == '__main__':
    if '--count' in sys.argv[1:]:
        count_lines()
    for check in (check_review, check_reading, check_proof_files, check_example, check_names):
        check()
    for line in wrong:
        print(line)
    sys.exit(1 if wrong else 0)
