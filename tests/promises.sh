#!/usr/bin/env bash
# docs/PROMISES.md keeps step with the tree: every must-fail edit is named there, every edit that it names is there, every
# statement that it cites stands in the file that it says, every public function is listed there and has its one-answer law, and
# every entry point has its law that it asks nothing of its caller.
set -euo pipefail
cd "$(dirname "$0")/.."
python3 - <<'PYTHON'
import glob, os, re, sys

faults = []

# The cells of every table, by the column's heading.
cells, headings = [], []
for line in open('docs/PROMISES.md'):
    row = [cell.strip() for cell in line.strip().strip('|').split('|')]
    if not line.startswith('|'):
        headings = []
    elif not headings:
        headings = row
    else:
        cells += zip(headings, row)

# ---- edits: `crate: label, label; crate: label`, or labels alone
edits = {(path.split('/')[1], os.path.basename(path)[:-len('.edit')]) for path in glob.glob('crates/*/must-fail/*.edit')}
labels = {label for crate, label in edits}
named = set()
for heading, cell in cells:
    if heading == 'edit' or heading.startswith('wrong programs'):
        crate = None
        for word in re.findall(r'[a-z]+: |\w+', re.sub(r'`[^`]*`|(tests|samples)/\S+', '', cell)):
            if word.endswith(': '):
                crate = word[:-2]
            elif word in labels or '_' in word:
                named.add((crate, word))
for crate, label in sorted(edits):
    if (crate, label) not in named and (None, label) not in named:
        faults.append(f'crates/{crate}/must-fail/{label}.edit is not named')
for crate, label in named:
    if (crate, label) not in edits and (crate or label not in labels):
        faults.append(f'{crate}: {label} is named, and there is no such edit')

# ---- statements: `crate/File: name`, `crate/specs/File: name`, `crate/specs: name`, `crate: function`, a name alone, or a file
texts = {path: open(path).read() for path in glob.glob('crates/*/**/*.antt', recursive=True) + glob.glob('crates/*/src/*.rt')}
others = {'requires', 'result', 'buffer', 'table', 'facts', 'io::copy'}  # words of Rattle, clauses, a function of the kit

def stands(name, paths):
    defined = re.compile(r'^\s*(?:(?:pub|abbrev|unfoldable|opaque|record|data) )*' + re.escape(name) + r'(?: [({].*[)}])* :'
                         r'|\b(?:fn|struct|enum) ' + re.escape(name.split('::')[-1]) + r'\b', re.M)
    return any(defined.search(texts[path]) for path in paths)

for heading, cell in cells:
    for cited in re.findall(r'`([^`]+)`', cell) if heading == 'statement' else []:
        place, _, name = cited.rpartition(': ')
        crate, _, file = place.partition('/')
        if not place:
            paths = list(texts)
        elif not file:
            paths = [path for path in texts if path.startswith(f'crates/{crate}/src/')]
        elif file == 'specs':
            paths = [path for path in texts if path.startswith(f'crates/{crate}/specs/')]
        else:
            paths = [path for path in texts if path.startswith(f'crates/{crate}/') and path.endswith(f'/{file}.antt')]
        if '/' in name:
            found = any(path in (f'crates/{name}', f'crates/{name}.antt') for path in texts)
        else:
            found = name in others or stands(name, paths)
        if not found:
            faults.append(f'`{cited}` is cited and does not stand there')

# ---- public functions
listed = open('docs/PROMISES.md').read().partition('## Every public function')[2]
for path in sorted(set(glob.glob('crates/*/src/*.rt')) - set(glob.glob('crates/*/src/main.rt'))):
    crate = path.split('/')[1]
    laws = texts.get(f'crates/{crate}/proofs/OneAnswer.antt', '')
    for name in re.findall(r'pub (?:extern "C" )?fn (\w+)', texts[path]):
        if not re.search(r'\b' + name + r'\b', listed):
            faults.append(f'{crate}::{name} is public and not listed')
        if not re.search('^ *pub ' + name + '_one(?: [({].*[)}])* :', laws, re.M):
            faults.append(f'{crate}::{name} has no law in crates/{crate}/proofs/OneAnswer.antt')

# ---- entry points: the two lists that begin so, each up to its first full stop; a law of a function's own contract or clauses.
entries = set()
for begin in ('Entry points, without a `requires`: ', 'For C, without a `requires`: '):
    names = re.findall(r'`([^`]+)`', listed.partition(begin)[2].partition('.')[0])
    if not names:
        faults.append(f'there is no list "{begin}.."')
    entries |= {name.split('::')[-1] for name in names}

# The entry points of whose contract a text says something: by a word of the contract's module, as read_data.ended, or by one made of
# the name, as read_data_clauses.
def told_of(text):
    word = r"(?<![\w'-])" + '({})' + r"(?:_lem)?(?:[-_](?:contract|clauses|spec)\b|\.\w)"
    return {name for name in entries if re.search(word.format(name.replace('_', '[-_]')), text)}

laws = set()
for path in texts:
    # a statement goes on in the lines below that begin further to the right
    for _, name, said in re.findall(r'^( *)pub (\S+)_asks_nothing(?: [({].*[)}])* :(.*(?:\n\1 +\S.*)*)', texts[path], re.M) if '/proofs/' in path else []:
        # what it says behind the premises
        if name in entries and told_of(said.rpartition('→')[2]) != {name}:
            faults.append(f'{path}: {name}_asks_nothing does not say it of the contract of {name}')
        laws.add(name)
for name in sorted(entries - laws):
    faults.append(f'{name} is an entry point and has no law {name}_asks_nothing')
for name in sorted(laws - entries):
    faults.append(f'{name} asks nothing and is not listed as an entry point')
for name in re.findall(r'pub extern "C" fn (\w+)', texts['crates/pimlasut/src/lib.rt']):
    if name not in entries:
        faults.append(f'{name} is a function for C and not listed as an entry point')

for fault in faults:
    print('docs/PROMISES.md:', fault)
sys.exit(1 if faults else 0)
PYTHON
