#!/usr/bin/env bash
# docs/REFERENCE.md keeps step with the tree: its sections are the ones that others cite, its table of refusals, crates/refusals and the
# header's enum have the same numbers, and what it says to give them is there. And the pages name nothing that is not there: sections of the
# reference, files, links; the header has the stack of every function, docs/ARCHITECTURE.md every crate; every test can be run by its name.
set -euo pipefail
cd "$(dirname "$0")/.."
python3 - <<'PYTHON'
import glob, os, re, sys

faults = []
counts = {'numbers': 0, 'citations': 0, 'links': 0, 'paths': 0}


def text_of(path):
    return open(path, encoding='utf-8').read()


pages = sorted(['README.md', 'samples/README.md'] + glob.glob('docs/**/*.md', recursive=True) + glob.glob('include/*') + glob.glob('examples/*'))
reference = text_of('docs/REFERENCE.md')
header = text_of('include/pimlasut.h')

# ---- sections: others cite them by their numbers, so neither number nor title changes
titles = ['Bits and numbers', 'The data', 'Blocks and levels', 'The wrapper', 'SEI units', 'Records, and when one is valid', 'Writing',
          'Shader numbers', 'Tracks', 'Refusals', 'Where and why', 'The listing', 'Limits']
due = [f'{number} {title}' for number, title in enumerate(titles, 1)]
found = re.findall(r'^## (.*)$', reference, re.M)
for section in due:
    if found.count(section) != 1:
        faults.append(f'docs/REFERENCE.md: the heading "## {section}" stands there {found.count(section)} times')
if found != due and set(found) == set(due):
    faults.append('docs/REFERENCE.md: the sections are not in their order')
for section in found:
    if section not in due:
        faults.append(f'docs/REFERENCE.md: "## {section}" is none of its sections')
numbers = {section.split()[0] for section in found}

# ---- refusals: the table, a row for each number, between its two marks
table = reference.partition('<!-- refusals -->\n')[2].partition('<!-- end of refusals -->')[0].splitlines()
if table[:2] != ['| number | name | given exactly when | by |', '|---|---|---|---|']:
    faults.append('docs/REFERENCE.md: the table of refusals has not its marks or not its columns')
rows = {}
for line in table[2:]:
    cells = [cell.strip() for cell in line.strip('|').split('|')]
    if len(cells) != 4 or not re.fullmatch(r'[1-9]\d*', cells[0]) or not cells[1] or not cells[2]:
        faults.append(f'docs/REFERENCE.md: not a row of refusals: {line}')
    elif int(cells[0]) in rows or any(number > int(cells[0]) for number in rows):
        faults.append(f'docs/REFERENCE.md: the row of {cells[0]} does not stand in its order')
    else:
        rows[int(cells[0])] = cells[1:]
counts['numbers'] = len(rows)

# in the definitions, in the code and for C
defined = {int(n): name for name, n in re.findall(r'^(\w+) = (\d+)$', text_of('crates/refusals/specs/Refusals.antt'), re.M)}
coded = {int(n): name for name, n in re.findall(r'^    (\w+) = (\d+),$', text_of('crates/refusals/src/lib.rt'), re.M)}
enum = {int(n): name for name, n in re.findall(r'^ +(PIM_\w+) = (\d+)', header, re.M) if int(n) > 0}
gone = {number for number, row in rows.items() if row[1].startswith('no longer occurs')}
for where, its, those in (('include/pimlasut.h', enum, set(rows)), ('crates/refusals/src', coded, set(rows) - gone),
                          ('crates/refusals/specs', defined, set(rows) - gone)):
    for number in sorted(those - set(its)):
        faults.append(f'docs/REFERENCE.md has the refusal {number}, and {where} has not')
    for number in sorted(set(its) - those):
        faults.append(f'{where} has {its[number]} = {number}, and docs/REFERENCE.md ' + ('says that it no longer occurs' if number in gone else 'has not'))
for number in sorted(set(coded) & set(defined)):
    if coded[number].replace('_', '').lower() != defined[number].replace('_', '').lower():
        faults.append(f'crates/refusals: {number} is {coded[number]} in the code and {defined[number]} in the definitions')
for number, (name, _, _) in rows.items():
    if name != coded.get(number, enum.get(number)):
        faults.append(f'docs/REFERENCE.md: {number} is {name} there, and {coded.get(number, enum.get(number))} in the code')

# who gives them: functions that others can call, then programs
code = {path: text_of(path) for path in set(glob.glob('crates/*/src/*.rt')) - set(glob.glob('crates/*/src/main.rt'))}
functions = {name for source in code.values() for name in re.findall(r'\bpub (?:extern "C" )?fn (\w+)', source)}
for_c = set(re.findall(r'\bpub extern "C" fn (\w+)', code['crates/pimlasut/src/lib.rt']))
programs = {path.split('/')[1] for path in glob.glob('crates/*/src/main.rt')}
given = set()
for number, (_, _, by) in rows.items():
    callers, _, runs = by.partition(';')
    callers, runs = set(re.findall(r'\w+', callers)), set(re.findall(r'\w+', runs))
    for name in sorted(callers - functions):
        faults.append(f'docs/REFERENCE.md: {number} is given by {name}, which is no public function')
    for name in sorted(runs - programs):
        faults.append(f'docs/REFERENCE.md: {number} is given by {name}, which is no program')
    if bool(callers) == (number in gone):
        faults.append(f'docs/REFERENCE.md: {number} ' + ('no longer occurs, and is given by something' if callers else 'is given by nothing'))
    given |= callers
for name in sorted(for_c - given):
    faults.append(f'docs/REFERENCE.md: {name} stands in no row of refusals')
# second/ fails if a function for C gives another number than its list there has, or never gives one of them
lists = text_of('second/src/compare.rs').partition('pub const FUNCTIONS')[2].partition('];\n')[0]
seen = {f'pim_{name}': set(re.findall(r'\d+', its)) - {'0'} for name, its in re.findall(r'"(\w+)",\s*&\[([\d,\s]*)\]', lists)}
for name in sorted(for_c | set(seen)):
    its = {str(number) for number, row in rows.items() if re.search(rf'\b{name}\b', row[2])}
    if its != seen.get(name):
        faults.append(f'docs/REFERENCE.md: {name} gives {sorted(its, key=int)}, and in second/src/compare.rs {sorted(seen.get(name, []), key=int)}')

# ---- the header: its functions, and a line of stack for each
declared = set(re.findall(r'^uint32_t (pim_\w+)\(', header, re.M))
stacks = re.findall(r'^ \*   (pim_\w+) +(\d+|\?)$', header.partition('stack, bytes\n')[2].partition('*/')[0], re.M)
for name in sorted(for_c ^ declared):
    faults.append(f'include/pimlasut.h: {name} is declared there or in crates/pimlasut, and not in both')
for name in sorted(declared):
    if [its for its, _ in stacks].count(name) != 1:
        faults.append(f'include/pimlasut.h: the table of stack has not exactly one line for {name}')
for name, _ in stacks:
    if name not in declared:
        faults.append(f'include/pimlasut.h: the table of stack has {name}, which is not declared')

# ---- the crates
architecture = text_of('docs/ARCHITECTURE.md')
for crate in re.findall(r'^(\w+)\b[^:#\n]*:', text_of('crates.txt'), re.M):
    if not re.search(rf'\b{crate}\b', architecture):
        faults.append(f'docs/ARCHITECTURE.md does not name the crate {crate}')

# ---- what the pages name. REFERENCE n, REFERENCE n and m, REFERENCE n, m and o, REFERENCE n to m; in the reference itself, section n
cited = re.compile(r'\bREFERENCE(?:\.md)?,? (?:sections? )?(\d+(?:(?:, \d+)* and \d+| to \d+)?)')
# A path from the root on. In it a star and a word in capitals stand for any name, as in crates/NAME/specs, and something has to be there
# by such a name; only the .md files are themselves named in capitals.
named = re.compile(r'(?<![\w./-])((?:\.ci|bench|crates|docs|examples|include|samples|second|tests)/[\w.*/-]*)')
linked = re.compile(r'\]\(([^)\s]+)\)')


def anchors(page):
    return {re.sub(r'[^\w -]', '', title.lower()).replace(' ', '-') for title in re.findall(r'^#+ (.*)$', text_of(page), re.M)}


for page in pages:
    text = re.sub(r'\s+(?:\* )?', ' ', text_of(page))  # a name may stand across two lines
    sections = cited.findall(text)
    if page == 'docs/REFERENCE.md':
        sections += re.findall(r'\bsections? (\d+)', text)
    for words in sections:
        for number in re.findall(r'\d+', words):
            counts['citations'] += 1
            if number not in numbers:
                faults.append(f'{page}: there is no REFERENCE {number}')
    for path in named.findall(text):
        path = path.rstrip('.')
        counts['paths'] += 1
        pattern = '/'.join(part if part.endswith('.md') else re.sub(r'(?<![A-Za-z])[A-Z]{2,}(?![A-Za-z])', '*', part) for part in path.split('/'))
        if not glob.glob(pattern):
            faults.append(f'{page}: there is no {path}')
    for link in linked.findall(text) if page.endswith('.md') else []:
        if '://' in link:
            continue
        counts['links'] += 1
        path, _, anchor = link.partition('#')
        target = os.path.normpath(os.path.join(os.path.dirname(page), path)) if path else page
        if not os.path.exists(target):
            faults.append(f'{page}: the link {link} leads nowhere')
        elif anchor and anchor not in anchors(target):
            faults.append(f'{page}: the link {link} leads to no heading')
for kind, count in counts.items():
    if not count:
        faults.append(f'no {kind} were found')

# ---- the tests
for path in sorted(glob.glob('tests/*.sh')):
    if not os.access(path, os.X_OK):
        faults.append(f'{path} is not executable')

for fault in faults:
    print('tests/reference.sh:', fault)
if not faults:
    print('tests/reference.sh:', ', '.join(f'{count} {kind}' for kind, count in counts.items()))
sys.exit(1 if faults else 0)
PYTHON
