"""Counts places in src/ that are written in an older form, by the points of docs/DESIGN-PASS.md.

    python3 tools/forms.py            counts of this checkout, crate groups side by side
    python3 tools/forms.py COMMIT     the same of a commit
    python3 tools/forms.py -l POINT   the places of one point (with COMMIT behind, of that commit)
"""
import re
import subprocess
import sys

GROUPS = {
    'library': 'table bits parts plan digits regulator edit engine cause kept slots script question'.split(),
    'programs': 'replay why'.split(),
    'models': 'model_plans model_calls model_edits model_replay'.split(),
    'tests': 'trial_kit trial_states trial_rows trial_plans trial_scripts trial_files trial_calls trial_edits trial_replay'.split(),
}
NUMBER = r'\b(?:u8|u16|u32|u64|usize|i32|i64)\b'


def sources(commit):
    names = subprocess.run(['git', 'ls-tree', '-r', '--name-only', commit] if commit else ['git', 'ls-files', '-co', '--exclude-standard'],
                           capture_output=True, text=True, check=True).stdout.split('\n')
    for name in sorted(names):
        if re.fullmatch(r'crates/\w+/src/.*\.rt', name):
            if commit:
                text = subprocess.run(['git', 'show', commit + ':' + name], capture_output=True, text=True, check=True).stdout
            else:
                try:
                    text = open(name, encoding='utf-8').read()
                except FileNotFoundError:
                    continue
            yield name.split('/')[1], name, text


def functions(text):
    """Each function: its name, the line it begins on, its parameters, its result, its clauses and its body."""
    for m in re.finditer(r'^( *)(?:pub(?:\(crate\))? )?fn (\w+)(?:<[^>]*>)?\(((?:[^()]|\([^()]*\))*)\)((?:[^{;\[]|\[[^\]]*\])*?)(?=\n? *(?:requires|ensures|\{))', text, re.M | re.S):
        rest = text[m.end():]
        body = re.search(r'^' + m.group(1) + r'\{\n(.*?)^' + m.group(1) + r'\}', rest, re.M | re.S) if not rest.lstrip().startswith('{') else \
            re.match(r'\s*\{\n?(.*?)^' + m.group(1) + r'\}', rest, re.M | re.S)
        if body:
            yield (m.group(2), text.count('\n', 0, m.start()) + 1, ' '.join(m.group(3).split()), m.group(4),
                   rest[:body.start()], body.group(1))


def plain(text):
    return re.sub(r'\s+', ' ', re.sub(NUMBER, 'N', re.sub(r'//.*', '', text))).strip()


def count(commit):
    found = {p: [] for p in ('1', '2', '3', '4', '5', '5f', '6', '7')}
    bodies = {}
    facts = {}
    for crate, name, text in sources(commit):
        at = lambda m: text.count('\n', 0, m.start()) + 1
        # 1: a struct that holds the number of a refusal, or a flag that says whether the rest counts; a function that answers the
        # number of a refusal or of a kind; an enum of two variants of which one is bare
        for m in re.finditer(r'^(?:pub(?:\(crate\))? )?struct \w+ \{\n(.*?)^\}', text, re.M | re.S):
            for f in re.finditer(r'^ *(?:pub )?(refused|complete|given|written|known|told|more|failed): (?:u8|u32|bool)\b', m.group(1), re.M):
                found['1'].append((crate, name, at(m), 'struct with ' + f.group(1)))
        for m in re.finditer(r'^(?:pub(?:\(crate\))? )?enum (\w+) \{\n(.*?)^\}', text, re.M | re.S):
            rows = re.findall(r'^    (\w+)(.?)', m.group(2), re.M)
            if len(rows) == 2 and sum(r[1] in ('', ',') for r in rows) == 1:
                found['1'].append((crate, name, at(m), 'enum ' + m.group(1)))
        for fn, line, params, result, clause, body in functions(text):
            if re.search(r'(refus|fault|^check_|kind)', fn) and re.search(r'-> (u8|u16|u32)\b', result):
                found['1'].append((crate, name, line, 'fn ' + fn))
            # 2: bodies that are the same but for the width of numbers
            key = plain(body)
            if len(key) > 12 and 'N' in plain(params) + key:
                bodies.setdefault((key, plain(params).count(',')), []).append((crate, name, line, 'fn ' + fn))
            # 5: seven parameters and more
            n = len([p for p in params.split(',') if p.strip()])
            if n >= 7:
                found['5'].append((crate, name, line, f'fn {fn}, {n} parameters'))
            # 5f: a fact that three and more contracts of a crate ask for
            for text_of in re.findall(r'requires(?: \w+)? \{ (.*) \}', clause):
                for fact in {f.strip(' ()') for f in text_of.split(' × ')}:
                    facts.setdefault((crate, fact), []).append((crate, name, line, f'fn {fn}: {fact}'))
            # 6: a buffer with the length of what it holds beside it
            if re.search(r'\bout: &mut \[u8\], (at|from): usize', params):
                found['6'].append((crate, name, line, f'fn {fn}'))
            # 7: a flag or a number that says which step is to run
            for p in re.findall(r'(\w+): bool', params):
                if re.search(r'^ *if ' + p + r' \{', body, re.M) and len(re.findall(r'\breturn\b|\}\s*else', body)) >= 1:
                    found['7'].append((crate, name, line, f'fn {fn}, by {p}'))
            for p in re.findall(r'(\w+): (?:u8|u32|u64)', params):
                if len(re.findall(r'\bif ' + p + r' (?:==|<|<=) \d+', body)) >= 3:
                    found['7'].append((crate, name, line, f'fn {fn}, by {p}'))
        # 3: loops that count an index by hand
        for m in re.finditer(r'^( *)while ([^\n]*) \{\n(.*?)^\1\}', text, re.M | re.S):
            if re.search(r'^ *(\w+) [+-]= 1;', m.group(3), re.M):
                found['3'].append((crate, name, at(m), 'while ' + m.group(2)))
        # 4: equality, copying, conversion and printing by hand
        for fn, line, params, result, clause, body in functions(text):
            if re.match(r'(wide|wider)\w*$', fn) or re.match(r'(same|equal|alike|copy)(_\w+)?$', fn) or re.fullmatch(r'(all|one)?_?same_\w+', fn):
                found['4'].append((crate, name, line, 'fn ' + fn))
        # 6: an array with a count beside it
        for m in re.finditer(r'^(?:pub(?:\(crate\))? )?struct (\w+) \{\n(.*?)^\}', text, re.M | re.S):
            if re.search(r'\[[^\]]+; \d+\]', m.group(2)) and re.search(r'\b(count|records|len|length|n): (usize|u32)', m.group(2)):
                found['6'].append((crate, name, at(m), 'struct ' + m.group(1)))
    for (key, _), places in bodies.items():
        if len(places) > 1:
            found['2'] += places
    for places in facts.values():
        if len(places) > 2:
            found['5f'] += places
    return found


def main():
    args = [a for a in sys.argv[1:] if a != '-l']
    listed = '-l' in sys.argv and args.pop(0)
    found = count(args[0] if args else None)
    if listed:
        for crate, name, line, what in sorted(found[listed]):
            print(f'{name}:{line}: {what}')
        return
    print('point ' + ' '.join(f'{g:>9}' for g in GROUPS) + '       all')
    for point, places in found.items():
        row = [sum(p[0] in GROUPS[g] for p in places) for g in GROUPS]
        print(f'{point:5} ' + ' '.join(f'{n:9}' for n in row) + f' {sum(row):9}')


main()
