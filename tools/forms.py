#!/usr/bin/env python3
"""Lists the places of the older forms in crates/*/src, a line each, and counts them: what docs/DESIGN-PASS.md counts.

    tools/forms.py [POINT..] [--at COMMIT]      of the working tree, or of a commit

A place is found by its text, so the page says of each that is left why it stays. Points:
  1  an own enum with data that is no sum of its subject (shape), a flag, a number for a reason, 0 for none
  2  functions whose text is the same but for names and numbers
  3  a loop that counts an index by hand
  4  equality, order, copying, conversion by hand
  5  a clause of `requires` in three or more functions of a crate; parameters that travel together in five or more
  6  a slice with a count beside it
  7  a match that only chooses which function to call
"""
import collections, re, subprocess, sys

def files(commit):
    if commit:
        names = subprocess.run(['git', 'ls-tree', '-r', '--name-only', commit, 'crates'], capture_output=True, text=True, check=True).stdout.split()
        for n in sorted(names):
            if '/src/' in n and n.endswith('.rt'):
                yield n, subprocess.run(['git', 'show', f'{commit}:{n}'], capture_output=True, text=True, check=True).stdout
    else:
        names = subprocess.run(['git', 'ls-files', '--cached', '--others', '--exclude-standard', 'crates'], capture_output=True, text=True, check=True).stdout.split()
        for n in sorted(set(names)):
            if '/src/' in n and n.endswith('.rt'):
                try:
                    yield n, open(n).read()
                except FileNotFoundError:
                    pass

def functions(text):
    """Each function as (line, name, signature with its clauses, body)."""
    for m in re.finditer(r'(?m)^( *)(?:pub(?:\(crate\))? )?(?:unsafe )?(?:extern "C" )?fn (\w+)', text):
        opens = re.search(r'\{$', text[m.start():], re.M)
        if not opens:
            continue
        at = m.start() + opens.start()
        end = text.find('\n' + m.group(1) + '}\n', at)
        end = len(text) if end < 0 else end
        yield text.count('\n', 0, m.start()) + 1, m.group(2), text[m.start():at], text[at:end]

def bare(text):
    return re.sub(r'//[^\n]*', '', text)

KEYWORDS = set('if else while for in loop match return let mut fn true false None Some Ok Err as'.split())

def shape(body):
    tokens = re.findall(r'[A-Za-z_]\w*|0x[0-9a-fA-F_]+|\d+|b\'(?:\\.|.)\'|b"[^"]*"|[^\sA-Za-z_\d]', bare(body))
    return tuple(t if t in KEYWORDS else 'x' if re.match(r'[A-Za-z_]', t) and not t.startswith('b\'') else 'n' if re.match(r'[\db]', t) else t for t in tokens)

def point1(all_files):
    for name, text in all_files:
        code = bare(text)
        for m in re.finditer(r'(?m)^(?:pub )?enum (\w+)[^{]*\{(.*?)^\}', code, re.S):
            if '(' in m.group(2) or '{' in m.group(2):
                yield name, code.count('\n', 0, m.start()) + 1, f'enum {m.group(1)} with data'
        for i, line in enumerate(code.split('\n'), 1):
            if re.search(r'^\s*(?:pub )?\w+: bool,|, \w+: bool[,)]|\(\w+: bool|let mut \w+(?:: bool)? = (?:false|true);', line):
                yield name, i, 'flag: ' + line.strip()
            if re.search(r'number: \d+,?|Refused\(\d+|\bno\(\d+, |refuse\(\d+|Stopped\(\d+|asked == \d+|\bput\(answer, \d', line):
                yield name, i, 'number for a reason: ' + line.strip()
        for i, line in enumerate(text.split('\n'), 1):
            if re.search(r'//.*\b0 (?:where|for|once|past)\b|//.*length 0 where|//.*or 0\b|//.*-1 (?:where|for)\b', line):
                yield name, i, '0 for none: ' + line.strip()

def point2(all_files):
    seen = collections.defaultdict(list)
    for name, text in all_files:
        for line, fn, _, body in functions(text):
            s = shape(body)
            if len(s) >= 24:
                seen[s].append((name, line, fn))
    for s, places in sorted(seen.items(), key=lambda p: p[1]):
        if len(places) > 1:
            for name, line, fn in places:
                yield name, line, f'{fn}: as {", ".join(f"{n}:{f}" for n, l, f in places if (n, l) != (name, line))}'

def point3(all_files):
    for name, text in all_files:
        code = bare(text)
        lines = code.split('\n')
        for i, line in enumerate(lines):
            m = re.match(r'( *)(?:while|loop)\b(.*)\{$', line)
            if not m:
                continue
            block = []
            for l in lines[i + 1:]:
                if l.startswith(m.group(1) + '}'):
                    break
                block.append(l)
            counted = set(re.findall(r'\b(\w+) [+-]= (?:1|2|8);', '\n'.join(block))) | set(re.findall(r'\b(\w+) = TokenNumber\(\w+ \+ 1\)', '\n'.join(block)))
            if any(re.search(r'\b' + v + r'\b', m.group(2)) or f'[{v}' in '\n'.join(block) for v in counted):
                yield name, i + 1, line.strip()

def point4(all_files):
    for name, text in all_files:
        for line, fn, head, body in functions(text):
            if re.match(r'(?:of|from|to|as|is_eq|eq|cmp|less|same|copy|wide|clone)(?:_\w+)?$', fn) and len(shape(body)) < 60:
                yield name, line, f'fn {fn}'
        code = bare(text)
        for m in re.finditer(r'(?m)^\s*(?:let \w+ = )?\w+ \{\n(?:\s+(\w+): \w+\.\1,\n)+', code):
            yield name, code.count('\n', 0, m.start()) + 1, 'a struct copied field by field'
        for m in re.finditer(r'(?m)^\s*(?:let (?:mut )?\w+ = )?State \{\n(?:[^}]*?(\w+): s\.\1,\n)', code):
            yield name, code.count('\n', 0, m.start()) + 1, 'a State copied field by field'

def point5(all_files):
    clauses = collections.defaultdict(set)
    groups = collections.defaultdict(set)
    for name, text in all_files:
        crate = name.split('/')[1]
        for line, fn, head, _ in functions(text):
            for m in re.finditer(r'requires(?: \w+)? \{ (.*) \}', head):
                for part in re.split(r' × ', m.group(1)):
                    clauses[crate, part.strip('() ')].add((name, fn))
            params = re.findall(r'(\w+): (&(?:mut )?\[?[\w;\s]+\]?|[A-Za-z]\w*)', head.split('requires')[0].split('ensures')[0])
            for size in (3, 4, 5):
                for k in range(len(params) - size + 1):
                    groups[crate, tuple(params[k:k + size])].add((name, fn))
    for (crate, c), fns in sorted(clauses.items()):
        if len(fns) >= 3:
            yield sorted(fns)[0][0], 0, f'{len(fns)} functions of {crate} require {c}'
    best = [(k, v) for k, v in groups.items() if len(v) >= 5]
    for (crate, g), fns in sorted(best):
        if not any(c == crate and len(h) > len(g) and any(h[i:i + len(g)] == g for i in range(len(h))) and len(w) == len(fns) for (c, h), w in best):
            yield sorted(fns)[0][0], 0, f'{len(fns)} functions of {crate} take {", ".join(n for n, _ in g)}'

def point6(all_files):
    for name, text in all_files:
        for line, fn, head, _ in functions(text):
            sig = head.split('requires')[0].split('ensures')[0]
            if re.search(r'\w+: &(?:mut )?\[u(?:8|32)(?:; [^\]]+)?\],(?:\s+\w+: [^,]+,)*?\s+(?:n|k|m|len|nodes|count|used): (?:usize|u32)', sig):
                yield name, line, f'fn {fn}'

def point7(all_files):
    for name, text in all_files:
        for line, fn, _, body in functions(text):
            m = re.match(r'\s*\{\s*match \w+ \{(.*)\}\s*$', bare(body).rstrip() + '\n}', re.S)
            arms = re.findall(r'=> (?:return )?[\w:]+\(', bare(body))
            if m and len(arms) >= 3 and 'src' in body:
                yield name, line, f'fn {fn}: {len(arms)} calls'

def main():
    words = sys.argv[1:]
    commit = None
    if '--at' in words:
        k = words.index('--at')
        commit = words[k + 1]
        del words[k:k + 2]
    every = {'1': point1, '2': point2, '3': point3, '4': point4, '5': point5, '6': point6, '7': point7}
    texts = list(files(commit))
    totals = []
    for p in words or sorted(every):
        places = list(every[p](texts))
        for name, line, what in places:
            print(f'{p} {name}:{line}: {what}' if line else f'{p} {name}: {what}')
        totals.append(f'point {p}: {len(places)}')
    print('; '.join(totals))

main()
