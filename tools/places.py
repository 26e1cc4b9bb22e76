#!/usr/bin/env python3
"""Counts the places in src/ at which code may be plainer: python3 tools/places.py [ROOT] [-v]

Each count is of what a pattern finds, with comments left out; -v prints the places."""
import collections, pathlib, re, sys

verbose = '-v' in sys.argv
roots = [a for a in sys.argv[1:] if a != '-v']
root = pathlib.Path(roots[0] if roots else '.')
files = sorted(root.glob('crates/*/src/**/*.rt'))
text = {f: re.sub(r'/\*.*?\*/|//[^\n]*', '', f.read_text(), flags=re.S) for f in files}


def name(f):
    return f'{f.parts[-3]}/{f.name}'


def after(t, i):
    """The place after the brace that closes the one at i."""
    d = 0
    while True:
        d += {'{': 1, '}': -1}.get(t[i], 0)
        i += 1
        if d == 0:
            return i


def functions():
    """Each function: file, name, what stands between its name and its body, and its body."""
    for f, t in text.items():
        for m in re.finditer(r'\bfn (\w+)', t):
            i = t.find('{', m.end())
            # The first brace that opens neither a clause nor a type is the body's.
            while i >= 0 and re.search(r'(requires|ensures)\s*\w*\s*$', t[m.end():i]):
                i = t.find('{', after(t, i))
            if i < 0 or ';' in re.sub(r'\[[^]]*\]|\{[^}]*\}', '', t[m.end():i]):
                continue
            yield f, m.group(1), t[m.end():i], t[i:after(t, i)]


fns = list(functions())


def head(h):
    """The parameters and the result, without the clauses."""
    return re.split(r'\b(?:requires|ensures)\b', h)[0]


def clauses(h):
    return re.findall(r'\b(requires|ensures)\s*\w*\s*\{(.*?)\}\s*(?=requires|ensures|$)', h, re.S)


def show(title, found):
    print(f'{len(found):4} {title}')
    if verbose:
        for x in found:
            print('       ', x)


def lines(pattern):
    return [f'{name(f)}: {l.strip()}' for f, t in text.items() for l in t.splitlines() if re.search(pattern, l)]


print('1. Flags, numbers and own options')
show('functions that answer a bool and write what they found into a &mut', [f'{name(f)}: {n}' for f, n, h, b in fns if '&mut' in head(h) and re.search(r'->\s*bool', head(h))])
show('a flag that travels with what it says of another parameter', [f'{name(f)}: {n}' for f, n, h, b in fns if re.search(r'\ball: bool', head(h))])
show('variants that say that there is nothing', lines(r'^\s*(End|Nothing|Missing|Empty),'))
show('matches that make an Option or a Result by hand', [f'{name(f)}: {n}' for f, n, h, b in fns for _ in re.findall(r'(?:Ok|Some)\(\w+\) => (?:Ok|Some)\(|None => None|(?:Ok|Some)\(\w+\) => \w+,\s*(?:Err\(_\)|None) => 0|Some\(_\) => true,\s*None => false|Ok\(_\) => Ok', b)])
show('functions that give or take a number for a kind or a refusal', [f'{name(f)}: {n}' for f, n, h, b in fns if re.search(r'-> u8', head(h)) and 'match' in b or re.search(r'\btag ==', b)])

print('2. Twins')


def shape(b):
    b = re.sub(r'\b\d+\b', '0', b)
    b = re.sub(r'&mut ', '&', b)
    return re.sub(r'\s+', ' ', re.sub(r'\b[a-z_A-Z]\w*\b', lambda m: m.group() if m.group() in KEEP else 'x', b))


KEEP = set('for in if else return true false match while loop let mut as Some None Ok Err self'.split())
groups = collections.defaultdict(list)
for f, n, h, b in fns:
    if 'cases' in name(f) or 'damaged' in name(f):
        continue
    if len(b.split()) > 12:
        groups[shape(b)].append(f'{name(f)}: {n}')
alike = [g for g in groups.values() if len(g) > 1]
twins = [x for g in alike for x in g]
show('functions whose body is that of another but for names and numbers', twins)
if verbose:
    for g in alike:
        print('        =', '; '.join(g))

tests = [f'{name(f)}: {n}' for f, n, h, b in fns if re.fullmatch(r'\{\s*(if \w+\.len\(\) != \w+\.len\(\) \{\s*return false;\s*\}\s*)?for \w+ in 0\.\.\w+\.len\(\) \{.{0,160}?return (true|false);\s*\}\s*\}\s*(true|false)\s*\}', b, re.S)]
show('functions that only go through a slice and test each element, which differ in the test', tests)
PAIRS = [('rules', 'facts'), ('body', 'head'), ('first', 'second')]
names = {(f.parts[-3], n) for f, n, h, b in fns}
named = [f'{name(f)}: {n}' for f, n, h, b in fns for p in PAIRS for x, y in (p, p[::-1])
         if re.search(rf'(^|_){x}(_|$)', n) and (f.parts[-3], re.sub(rf'(^|_){x}(_|$)', rf'\g<1>{y}\g<2>', n)) in names and 'cases' not in name(f)]
show('functions named for one of the two volumes or of the two parts of a rule', named)
show('functions in one of these lists', sorted(set(twins + tests + named)))

print('3. Loops over an index')
show('for over a range up to a length', lines(r'for \w+ in [0-9a-z_]+\.\.=?[a-z_.]*len\(\)'))
ranges = [l for l in lines(r'for \w+ in [^&]*\.\.') if 'len()' not in l]
show('for over any other range, but for the tables of cases', [l for l in ranges if 'volumes_cases' not in l])
show('for over a range in the tables of cases, where it gives a length or a number', [l for l in ranges if 'volumes_cases' in l])
show('loop, and while that tests', lines(r'^\s*(while (?!let)|loop)\b'))

print('4. By hand')
show('functions that only compare two values', [f'{name(f)}: {n}' for f, n, h, b in fns if re.fullmatch(r'\{\s*\w+ == \w+\s*\}', b)])
show('loops that test elements for equality', [f'{name(f)}: {n}' for f, n, h, b in fns if re.search(r'for .*\{\s*if (same_\w+|is_same|is_held|\w+\[\w+\] [!=]= )', b)])
show('impls of comparing, copying and converting', lines(r'^impl.*\b(PartialEq|Eq|Ord|PartialOrd|Clone|Copy|TryFrom|From)\b'))
show('bytes joined by hand', lines(r'\* 256'))
show('matches that give true or false', [f'{name(f)}: {n}' for f, n, h, b in fns for _ in re.findall(r'=> (?:true|false),\s*_ => (?:true|false)', b)])

print('5. What travels together')
params = collections.Counter()
for f, n, h, b in fns:
    if 'cases' in name(f) or 'damaged' in name(f):
        continue
    ps = re.findall(r'(\w+): (?!.*fn\()', head(h))
    ps = tuple(p for p in ps if p not in ('f',))
    for k in (3, 4, 5):
        for i in range(len(ps) - k + 1):
            params[ps[i:i + k]] += 1
found = [(p, c) for p, c in params.items() if c > 2]
# Of runs that stand in one another, the longest is counted.
top = [(p, c) for p, c in found if not any(p != q and set(p) <= set(q) and c <= d for q, d in found)]
show('runs of three or more parameters that stand in three or more functions', [f'{", ".join(p)}: {c}' for p, c in top])
facts = collections.Counter()
for f, n, h, b in fns:
    for kind, c in clauses(h):
        if kind == 'requires':
            for part in re.split(r'×', c):
                facts[re.sub(r'[\s()]+', ' ', part).strip()] += 1
show('facts that stand in the requires of three or more functions', [f'{p}: {c}' for p, c in facts.items() if c > 2])

print('6. Buffers')
show('arrays that are filled up to a count', lines(r'\[(Atom::BLANK|None|false|Term::Constant\(0\)); \d+\]|: \[Atom; \d+\]|: \[Term; \d+\],'))
show('parameters that are a place or a count in a slice beside them', [f'{name(f)}: {n}' for f, n, h, b in fns if re.search(r'\b(at|n|end|start|p|place|count|from): (usize|u8)', head(h)) and re.search(r'\[', head(h))])

print('7. Switches')
show('functions that match on a kind of volume or of relation', [f'{name(f)}: {n}' for f, n, h, b in fns if re.search(r'match [^{]*\{[^}]*\w*Kind::\w+(, \w+\))? =>|match kind \{', b)])
show('tables of functions', lines(r'\bfn\('))
