#!/usr/bin/env python3
"""Counts, in the .rt files of crates/*/src, the places where a plainer form of Rattle may stand.

    tools/count_forms.py [COMMIT] [--list]

Without a commit it reads the files as they stand here. `--list` prints each place. A place that is found is one to look at,
not one that is wrong: docs/DESIGN-PASS.md says which stay and why.
"""
import re
import subprocess
import sys


def files(commit):
    if commit is None:
        import glob
        for path in sorted(glob.glob('crates/*/src/**/*.rt', recursive=True)):
            yield path, open(path, encoding='utf-8').read()
        return
    names = subprocess.check_output(['git', 'ls-tree', '-r', '--name-only', commit, 'crates'], text=True).split('\n')
    for path in names:
        if '/src/' in path and path.endswith('.rt'):
            yield path, subprocess.check_output(['git', 'show', f'{commit}:{path}'], text=True)


# lines, by point
LINES = [
    ('1a', 'a refusal, a kind or a flag as a number in a struct',
     r'^\s+(pub )?(number|file|tag|letter|going|found|reference): (u8|u16|u32|u64|bool),'),
    ('1b', 'a number answered in place of a refusal, a kind or nothing',
     r'^\s*(return )?(?!0;|1;)([0-9]+|FULL|OPEN|NONE);(?! //.*byte)|=> [0-9]+,|\bfaulty\([0-9]+|\b(refused|refusal|stopped)\([0-9]+,'),
    ('1c', 'such a number tested',
     r'\b(number|fault|wrong|padded|found|tag|made|root|r|best\.cost|rest|old)(\([^)]*\))? (==|!=) ([0-9]+|FULL|OPEN|NONE)\b|\btag_at\(.*\) == 3'),
    ('4a', 'equality, order or a conversion as a function of its own',
     r'^\s*(pub )?fn (larger|lesser|cheaper|less|least|wide|short|digit|divisor|low_byte|same|equal)\b'),
    ('4b', 'a struct copied field by field', r'^\s+(\w+): (\w+)\.\1,$'),
    ('6a', 'columns of an array of arrays by their numbers', r'\[(ENDS|COST)\]|\[\[u32; 1024\]; 2\]'),
    ('6b', 'a buffer or a table with its length or its other half beside it',
     r'\b(out: &mut \[u8\], at: usize|log: &mut \[u32\], count: usize|nodes: &(\'a )?(mut )?\[u32; 512\], chains|heap: &mut \[u32\], pos: &mut \[u32\], n: usize)'),
    ('7', 'a switch on a letter', r'\bmatch (\w+\.)?letter\b|\bif (\w+\.)?letter\b'),
]


def bodies(text, head):
    """Each loop that `head` finds, with its body, by the depth of braces."""
    for m in re.finditer(head, text, re.M):
        at = text.index('{', m.end() - 1) if text[m.end() - 1] != '{' else m.end() - 1
        depth, end = 0, at
        while end < len(text):
            depth += {'{': 1, '}': -1}.get(text[end], 0)
            end += 1
            if depth == 0:
                break
        yield text.count('\n', 0, m.start()) + 1, m.group(0).strip(), text[at:end]


def found(commit):
    for path, text in files(commit):
        for number, line in enumerate(text.split('\n'), 1):
            if line.lstrip().startswith(('//', 'ghost', 'requires', 'ensures')):
                continue
            for point, _, pattern in LINES:
                if re.search(pattern, line):
                    yield point, path, number, line.strip()
        for number, head, body in bodies(text, r"^\s*('\w+: )?while [^{]*\{"):
            if re.search(r'\b\w+ [+-]= 1;|\b\w+ = wrapping_add_usize\(\w+, 1\)', body):
                yield '3a', path, number, head
        for number, head, body in bodies(text, r'^\s*for (\w+) in [^{]*\.\.[^{]*\{'):
            i = re.match(r'for (\w+)', head).group(1)
            uses = re.findall(r'\b%s\b' % i, body)
            if re.search(r'\.len\(\)', head) or (uses and all(re.search(r'_at\(rt, s, %s\b' % i, body) for _ in uses)):
                yield '3b', path, number, head
        for m in re.finditer(r'\bfn (\w+)(?:<[^(]*>)?\(([^)]*)\)', text):
            plain = re.sub(r'<[^<>]*>', '', re.sub(r'<[^<>]*>', '', m.group(2)))
            parameters = [p for p in plain.split(',') if p.strip()]
            if len(parameters) >= 6:
                yield '5', path, text.count('\n', 0, m.start()) + 1, f'{m.group(1)}: {len(parameters)} parameters'


WORDS = {point: word for point, word, _ in LINES}
WORDS['3a'] = 'a while loop that counts an index'
WORDS['3b'] = 'a for loop over indices that are only used to read elements'
WORDS['5'] = 'a function of six parameters or more'


def main():
    arguments = [a for a in sys.argv[1:] if a != '--list']
    commit = arguments[0] if arguments else None
    places = sorted(set(found(commit)))
    if '--list' in sys.argv:
        for point, path, number, line in places:
            print(f'{point:3} {path}:{number}: {line}')
    for point in sorted(WORDS):
        print(f'{point:3} {sum(p[0] == point for p in places):4}  {WORDS[point]}')


if __name__ == '__main__':
    main()
