#!/usr/bin/env python3
"""Respells the names of the repository's own definitions and lemmas as today's Rattle spells names: words in snake case.

    python3 tools/respell.py [--dry]

Run at the top of a tree in which port.py ran. It reads every declaration in specs/ and proofs/, turns `camelCase` and dashes
between plain words into `snake_case` (a dash beside a type's name stays), and writes the new name wherever the old one stands
in .antt files, in clauses and `ghost use` items of .rt files, and in must-fail edits. A name that a file imports from another
library stays. It prints the names that fall together in a file; those in AGAIN get the name given there.
"""
import os
import re
import sys

DECLARED = re.compile(r'^\s*(?:pub |abbrev |unfoldable )*((?:[^\s(){}:,;]+ )+):(?:\s|$)')
KIND = re.compile(r'^\s*(?:pub )?(?:record|data) ([^\s(){}:]+)')
TOKEN = re.compile(r"[^\s(){}\[\],;.⌜⌝\"`«»]+")
USE = re.compile(r'use\s+([A-Za-z_][^\s{;]*?)\.\{([^}]*)\}(\s*as\s+\S+)?', re.S)
# Names that would fall together with another one.
AGAIN = {
    'result': 'result_of',
    'accessTold': 'AccessTold',
    **{name: re.sub('-', '_', name) + '_lem' for name in (
        'home-domain', 'home-estate', 'refusal-number', 'answers-after', 'accounts-part', 'each_member', 'judges-test', 'slot-at',
        'list_at', 'bit-and', 'empty-frame', 'empty-domain', 'empty-estate', 'no-accounts', 'no-estate', 'object-ok', 'ordinary-mode')},
}


def crates():
    names = []
    for line in open('crates.txt', encoding='utf-8'):
        line = line.split('#')[0].strip()
        if line:
            names.append(line.split(':')[0].split()[0])
    return names


def files(ending):
    for name in crates():
        for at, folders, here in os.walk(os.path.join('crates', name)):
            folders[:] = [f for f in folders if f != 'out']
            for file in sorted(here):
                if file.endswith(ending):
                    yield os.path.join(at, file)


def snake(word):
    """A part of a name between dashes, where it is no type's name."""
    word = re.sub(r'(?<=[a-z0-9])([A-Z])', r'_\1', word)
    return word.lower() if re.match(r'[a-z]', word) else word


def respelled(name):
    if not re.match(r'[a-z]', name) and '-' not in name:
        return name
    parts = name.split('-')
    if any(not p for p in parts):
        return name
    out = parts[0] if re.match(r'[A-Z]', parts[0]) else snake(parts[0])
    typed = bool(re.match(r'[A-Z]', parts[0]))
    for part in parts[1:]:
        upper = bool(re.match(r'[A-Z]', part))
        # Beside a type's name, and between two names of operators, a dash stays.
        joint = '-' if typed or upper or not re.match(r'[a-z0-9]', part) else '_'
        out += joint + (part if upper else snake(part))
        typed = upper
    return out


def declared(text):
    names = set()
    for line in text.split('\n'):
        kind = KIND.match(line)
        if kind:
            names.add(kind.group(1))
            continue
        found = DECLARED.match(line)
        if found:
            names.update(found.group(1).split())
    return {n for n in names if re.match(r"[A-Za-z][\w'₀-₉·-]*$", n)}


def foreign(text, own):
    """The names that a file imports from elsewhere, and all that it imports."""
    away, here = set(), {}
    for path, items, _ in USE.findall(text):
        mine = path.startswith('Rattle.') and path.split('.')[1] in own
        for item in items.split(','):
            words = item.split()
            if not words:
                continue
            here.setdefault(words[-1], path)
            if not mine:
                away.update((words[0], words[-1]))
            elif len(words) == 3:
                pass
    return away, here


def main():
    dry = '--dry' in sys.argv
    own = set(crates())
    texts = {f: open(f, encoding='utf-8').read() for f in list(files('.antt')) + list(files('.rt'))}
    names = set()
    for file, text in texts.items():
        if file.endswith('.antt'):
            names |= declared(text)
    turned = {}
    for name in names:
        new = AGAIN.get(name, respelled(name))
        if new != name:
            turned[name] = new

    def turn(text, away):
        def one(found):
            token = found.group(0)
            if token in turned and token not in away:
                # `result` is the returned value in a clause, and a field behind a dot.
                if token == 'result' and text[found.start() - 1:found.start()] == '.':
                    return token
                return turned[token]
            return token
        return TOKEN.sub(one, text)

    fallen = []
    for file, text in texts.items():
        away, here = foreign(text, own)
        if file.endswith('.antt'):
            mine = declared(text)
            seen = {}
            for name in sorted(mine):
                new = turned.get(name, name) if name not in away else name
                if new in seen and seen[new] != name:
                    fallen.append(f'{file}: {seen[new]} and {name} are both {new}')
                seen[new] = name
            for name, path in here.items():
                new = turned.get(name, name) if name not in away else name
                if new in seen and seen[new] != name:
                    fallen.append(f'{file}: {name} of {path} and {seen[new]} are both {new}')
                seen[new] = name
            out = turn(text, away)
            if 'Iff·' in out:
                out = re.sub(r'use Rattle\.std\.proofs\.Math\.Logic\.\{((?:Iff·\w+(?:, )?)+)\}', 'use mathlib.Core.Logic.Iff', out)
                out = out.replace('Iff·', 'Iff.')
        else:
            # In a .rt file: `ghost use` items and clauses, the names with a middle dot first.
            out = re.sub(r'(\w+) as \w+·\1\b', r'\1', text)
            out = re.sub(r'\b\w+·(\w+)', r'\1', out)
            out = rust(out, lambda part: turn(part, away))
        if out != text and not dry:
            open(file, 'w', encoding='utf-8').write(out)
    if not dry:
        for file in files('.edit'):
            text = open(file, encoding='utf-8').read()
            lines = []
            spec = False
            for line in text.split('\n'):
                if line.startswith('file: '):
                    spec = line.endswith('.antt')
                if spec and line.startswith(('old: ', 'new: ')):
                    line = turn(line, set())
                elif line.startswith(('old: ', 'new: ')) and re.search(r'ensures|requires|ghost', line):
                    line = turn(line, set())
                lines.append(line)
            out = '\n'.join(lines)
            if out != text:
                open(file, 'w', encoding='utf-8').write(out)
    print(f'respell: {len(turned)} names')
    for line in sorted(set(fallen)):
        print('falls together:', line)


CLAUSE = re.compile(r'\b(?:ensures|requires|invariant)\b\*?(?:\s+\w+)?\s*\{')


KEPT = re.compile(r'\s*λ (\w+)\. ⌜ (.*) ⌝ \}', re.S)


def turn_but(turn, text):
    """Turns a clause, in which `result` is the returned value."""
    return 'result'.join(turn(part) for part in re.split(r'(?<![\w.])result(?!\w)', text))


def rust(text, turn):
    """Turns what stands in `ghost use` items and in the braces of clauses."""
    out, at = [], 0
    spots = []
    for found in re.finditer(r'^ghost use [^;]*;', text, re.M):
        spots.append((found.start(), found.end()))
    for found in CLAUSE.finditer(text):
        line = text.rfind('\n', 0, found.start()) + 1
        if text[line:found.start()].lstrip().startswith('//'):
            continue
        depth, end = 1, found.end()
        while depth and end < len(text):
            depth += {'{': 1, '}': -1}.get(text[end], 0)
            end += 1
        spots.append((found.end(), end))
    for start, end in sorted(spots):
        if start < at:
            continue
        out.append(text[at:start])
        part = text[start:end]
        kept = KEPT.fullmatch(part)
        if kept:
            # A clause that kept its λ names the definition `result`; behind it the returned value is `result`.
            name, fact = kept.groups()
            fact = re.sub(r'(?<![.\w])result\b', AGAIN['result'], fact)
            if name != '_':
                fact = re.sub(rf'(?<![.\w]){name}(?!\w)', 'result', fact)
            part = f' {turn_but(turn, fact)} }}'
        elif part.startswith('ghost use'):
            part = turn(part)
        else:
            part = turn_but(turn, part)
        out.append(part)
        at = end
    out.append(text[at:])
    return re.sub(r'ensures\*(?= \{ (?!λ \w+\. ⌜))', 'ensures', ''.join(out))


if __name__ == '__main__':
    main()
