"""Finds the places in a crate's code at which a small bug can be planted, for tools/mutants."""
import collections, re

# A mutant: its crate, the file below the crate's folder, where its text begins and ends there, and what stands there then.
Mutant = collections.namedtuple('Mutant', 'crate file line column operator begin end before after')


def named(m):
    """The identity of a mutant, by which runs can be compared."""
    before, after = (re.sub(r'\s+', ' ', t).strip() for t in (m.before, m.after))
    return f'{m.crate}/{m.file}:{m.line}:{m.column} {m.operator}: {before} => {after or "(nothing)"}'


# --- The code: what may be changed ---

# What begins that is no code, and the ends of it, or the bracket in which the rest of it stands.
NO_CODE = {
    r'#\[(?:test|cfg\(test\))\]': '{',
    r'#!?(?=\[)': '[',
    r'\b(?:requires|ensures)\b': '{',
    r'\bprove!': '(',
    r'\bghost\b': ';,',
    r'\buse\b': ';',
}
TYPES = r'\blet (?:mut )?\w+(: [^=;]*(?:\[[^\]]*\][^=;]*)*)=|(::<[^;(]*?>)\(|; (\w+)\]'


def blank(text, begin, end):
    return text[:begin] + re.sub(r'[^\n]', ' ', text[begin:end]) + text[end:]


def end_of(text, begin, ends):
    """The place after the first of the ends that no bracket encloses, or of a bracket that closes before it."""
    depth = 0
    for i in range(begin, len(text)):
        if depth == 0 and text[i] in ends:
            return i + 1
        depth += (text[i] in '([{') - (text[i] in ')]}')
        if depth < 0:
            return i
    return len(text)


def code_only(text):
    """The text with blanks for all that is no code: comments, strings, attributes, clauses, ghost items, uses, tests."""
    for m in re.finditer(r'//[^\n]*|/\*.*?\*/|"(?:\\.|[^"\\])*"|\'(?:\\.|[^\'\\\n])\'', text, re.S):
        text = blank(text, m.start(), m.end())
    for pattern, ends in NO_CODE.items():
        for m in re.finditer(pattern, text):
            if text[m.start()] != ' ':
                closer = {'(': ')', '[': ']', '{': '}'}.get(ends)
                begin = text.index(ends, m.end()) + 1 if closer else m.end()
                text = blank(text, m.start(), end_of(text, begin, closer or ends))
    return text


def bodies(code):
    """Where the bodies of functions and the values of constants stand, outermost first."""
    past = 0
    for m in re.finditer(r'\bfn \w+|\bconst [A-Z]\w*: [^={}>()]*=', code):
        begin, is_fn = m.end(), m[0].startswith('fn')
        if is_fn:
            begin = end_of(code, begin, ';{')
        if m.start() >= past and code[begin - 1] != ';':
            past = end_of(code, begin, '}' if is_fn else ';')
            yield begin, past


def without_types(code):
    for m in re.finditer(TYPES, code):
        code = blank(code, m.start(m.lastindex), m.end(m.lastindex))
    return code


# --- The operators: each gives the places in the code that it changes, and what stands there then ---

SWAPS = {
    'comparison': {' < ': ' <= ', ' <= ': ' < ', ' > ': ' >= ', ' >= ': ' > ', ' == ': ' != ', ' != ': ' == '},
    'sum': {' + ': ' - ', ' - ': ' + ', ' += ': ' -= '},
    'connective': {'&& ': '|| ', '|| ': '&& '},
    'quantifier': {'.any(': '.all(', '.all(': '.any('},
    'end': {'.first(': '.last(', '.last(': '.first(', '.min(': '.max(', '.max(': '.min('},
    'test': {'.is_some()': '.is_none()', '.is_none()': '.is_some()'},
}
WORDS = r'(?!(?:if|while|match|return|for|let|in)\b)'
STATEMENTS = {
    'write dropped': r'\*?[a-z_][\w.]*(?:\[[^\]\n]*\])? [-+*|&^]?= |' + WORDS + r'[a-z_][\w.]*(?:::\w+)*\(',
    'exit removed': r'(?:return|continue|break)\b',
}


def swaps(code):
    for operator, pairs in SWAPS.items():
        for old, new in pairs.items():
            before = r'(?<=\s)' if operator == 'connective' else ''
            for m in re.finditer(before + re.escape(old), code):
                yield operator, m.start(), m.end(), new


def constants(code):
    for m in re.finditer(r'(?<![\w<])(?<!(?<!\.)\.)(\d+)(?![\w>])|\b(true|false)\b', code):
        yield 'constant', m.start(), m.end(), str(int(m[1]) + 1) if m[1] else {'true': 'false', 'false': 'true'}[m[2]]
    for m in re.finditer(r' [-+] 1\b', code):
        yield 'one dropped', m.start(), m.end(), ''


def conditions(code):
    for m in re.finditer(r'(?<![\w!])!(?=[\w(])', code):
        yield 'not dropped', m.start(), m.end(), ''
    for m in re.finditer(r'\b(if|while) (?!let\b)([^{};]+?)\s\{', code):
        if not m[2].startswith('!') and '=>' not in m[2]:
            yield 'not added', m.start(2), m.end(2), f'!({m[2]})'
        if m[1] == 'if' and m[2] not in ('true', 'false'):
            yield 'branch removed', m.start(2), m.end(2), 'false'
            yield 'branch removed', m.start(2), m.end(2), 'true'


def ranges(code):
    for m in re.finditer(r'(?<=[\w\])(\[])\.\.(?=[a-z(])', code):
        yield 'range', m.start(), m.end(), '..='
    for m in re.finditer(r'\b([a-z_]\w*)\.\.(?!=)', code):
        yield 'range', m.start(1), m.end(1), f'{m[1]} + 1'


def look(argument):
    """What is before a simple name, and how many fields it goes down; none of any other expression."""
    m = re.fullmatch(r'(&(?:mut )?|\*)?[a-z_]\w*((?:\.\w+)*)', argument)
    return m and (m[1], m[2].count('.'))


def arguments(code):
    for m in re.finditer(r'\b' + WORDS + r'[a-z]\w*(?:::<[^>]*>)?\(', code):
        at, parts = m.end(), []
        while code[at - 1] != ')' and at < len(code):
            end = end_of(code, at, ',)')
            parts.append((at + len(code[at:end]) - len(code[at:end].lstrip()), at + len(code[at:end - 1].rstrip())))
            at = end
        for (a, b), (c, d) in zip(parts, parts[1:]):
            one, other = code[a:b], code[c:d]
            if one != other and look(one) and look(one) == look(other):
                yield 'arguments', a, d, other + code[b:c] + one


def statements(code):
    """Statements that write or leave, dropped: assignments, calls whose value is not used, ways out."""
    for operator, pattern in STATEMENTS.items():
        for m in re.finditer(r'(?m)^ *(' + pattern + ')', code):
            end = end_of(code, m.start(1), ';')
            if code[end - 1] == ';' and re.search(r'[;{}]\s*$', code[:m.start(1)]):
                yield operator, m.start(1), end, ''


def somes(code):
    for m in re.finditer(r'\bSome\(', code):
        end = end_of(code, m.end(), ')')
        if not re.match(r'\s*(=>|=[^=]|\||if\b)', code[end:]):
            yield 'none', m.start(), end, 'None'


OPERATORS = (swaps, constants, conditions, ranges, arguments, statements, somes)


def mutants_of(folder):
    """Every mutant of the crate in a folder, in the order of files and places."""
    crate, made = folder.name, {}
    for path in sorted(folder.glob('src/**/*.rt')):
        text, file = path.read_text(), str(path.relative_to(folder))
        code = code_only(text)
        for begin, end in bodies(code):
            inner = ' ' * begin + without_types(code[begin:end])
            for operator, a, b, after in (it for make in OPERATORS for it in make(inner)):
                line, column = text.count('\n', 0, a) + 1, a - text.rfind('\n', 0, a)
                # (what is written again must be all of what stood there, and hold no string)
                if text[a:b] == code[a:b] or after in ('', 'None', 'true', 'false'):
                    made.setdefault((file, a, b, after), Mutant(crate, file, line, column, operator, a, b, text[a:b], after))
    return sorted(made.values(), key=lambda m: (m.file, m.begin, m.end, m.operator, m.after))
