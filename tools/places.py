#!/usr/bin/env python3
"""Lists places in crates/*/src that an older form of the language may have left, point by point.

    tools/places.py [FOLDER] [POINT]     every place; the last line of a point is its count
    tools/places.py --counts [FOLDER]    the counts alone

Code below `#[cfg(test)]`, comments and `ghost use` lines are left out. A place is a line of the source, but for
points 2 and 5, whose places are functions. docs/DESIGN-PASS.md says what was done with each.
"""
import os, re, sys

MATCH_HANDED = re.compile(r'(None => (None|return None|0|false|Ok\(|Err\(|said)|Err\(\w+\) => (Err\(|None|return|false)|Ok\(\(?_?\)?\) => |Some\(\w+\) => Ok\(\w+\)|None => return Err)')
ELSE_HANDED = re.compile(r'^\s*let .*(Some|Ok)\(.*= .*else \{$')
HANDED_BACK = re.compile(r'^\s*return (None;|Err\(|0;)')
KIND_NUMBER = re.compile(r"(^\s+\d+ => )|(\bput(_two|_three)?\([^)]*\b\d+\b)|((==|!=|>|<=|>=) (36|40|41|44|45|46|48|58|91|93|124|125)\b)|(\breturn (40|91);)|(^\s+(40|91)$)")
FLAG_TYPE = re.compile(r'\(bool, |\bused: bool|\btaken: u32|u16\b.*->|-> u16|\[u16\]|\[0u16;')
BOOL_MATCH = re.compile(r'=> (true|false),')
LOOPS = re.compile(r"^\s*('\w+: )?(while [^=]*[<>]|while let Some\(\(.*\)\) = \w+\(\w+, \w+\)|loop \{|for [a-z]\w* in [^{]*\.\.)")
BY_HAND = re.compile(r'fn (name|text|same|least|greater|bits|word|word_of|word_at|index_at|as_span|ended_at|copied|digit|value|byte|push_\w+|flag_of|pattern_of|part_of|mark_of|side_of|layer_of|row_of|node_of|of_\w+|none|is_special|halved|both_zero|all_zero|put_decimal|put_numeral)\b[<(]')
LENGTH_BESIDE = re.compile(r'^\s+(pub(\(crate\))? )?(len|count|size|used|starts|kids|slots|visits): (usize|u8|bool|Vec<|\[)|\[[^\[\]]+; (\d{2,}|[A-Z_]{3,})\]')
PLAIN = re.compile(r'&?(u8|u16|u32|usize|bool|str|String|Global|[A-Z]|Option<\w+>)$')
SWITCH = re.compile(r'\b(inside|waits|stands|suffixed|closed|bare|form|text|again|plain|two): (bool|Form)\b')

def code(path):
    lines, out = open(path, encoding='utf-8').read().split('\n'), []
    for n, line in enumerate(lines, 1):
        if line.startswith('#[cfg(test)]'):
            break
        bare = re.sub(r'\s*//.*$', '', line)
        if bare.strip() and not bare.lstrip().startswith('ghost use'):
            out.append((n, bare))
    return out

def functions(path):
    """(line, name, [parameters], [clauses])"""
    out, text = [], code(path)
    i = 0
    while i < len(text):
        n, line = text[i]
        m = re.match(r'\s*(?:pub(?:\(crate\))? )?(?:extern "C" )?fn (\w+)', line)
        if m:
            head = line
            while not re.search(r'[{;]\s*$', head) and i + 1 < len(text):
                i += 1
                head += ' ' + text[i][1].strip()
                if text[i][1].strip() == '{':
                    break
            inner = head[head.find('(', head.find(m.group(1)) ) + 1:]
            if '<' in head[:head.find('(')]:
                inner = head[head.find('>(') + 2:] if '>(' in head else inner
            params = [p.strip() for p in re.findall(r'(\w+: [^,()]+)', inner.split(') ')[0])]
            params = [re.sub(r"'\w+ ", '', p).replace('mut ', '') for p in params]
            clauses = re.findall(r'requires \w*\s*\{ (.*?) \}(?= requires| ensures|\s*\{|$)', head)
            out.append((n, m.group(1), params, clauses))
        i += 1
    return out

def sources(folder):
    for root, dirs, files in sorted(os.walk(os.path.join(folder, 'crates'))):
        dirs.sort()
        parts = root.split(os.sep)
        if 'src' in parts and 'out' not in parts:
            for f in sorted(files):
                if f.endswith('.rt'):
                    yield os.path.join(root, f)

def by_lines(folder, *rules):
    for path in sources(folder):
        for n, line in code(path):
            if any(r.search(line) for r in rules):
                yield path, n, line.strip()

def handed(folder):
    """the lines of point 1, and each `let .. else` that hands back what `?` or `ok_or` would"""
    for path in sources(folder):
        text = code(path)
        for k, (n, line) in enumerate(text):
            if any(r.search(line) for r in (MATCH_HANDED, KIND_NUMBER, FLAG_TYPE, BOOL_MATCH)):
                yield path, n, line.strip()
            elif ELSE_HANDED.search(line) and k + 1 < len(text) and HANDED_BACK.search(text[k + 1][1]):
                yield path, n, line.strip()

def twins(folder):
    """functions of one crate or of two whose bodies have one shape, names and numbers apart"""
    seen = {}
    for path in sources(folder):
        text = code(path)
        for k, (n, line) in enumerate(text):
            m = re.match(r'(\s*)(?:pub(?:\(crate\))? )?(?:extern "C" )?fn (\w+)', line)
            if not m:
                continue
            body, open_, end = [], line.rstrip().endswith('{'), m.group(1) + '}'
            for _, l in text[k + 1:]:
                if l == m.group(1) + '{' or (not open_ and l.rstrip().endswith('{') and not l.strip().startswith(('ensures', 'requires'))):
                    open_ = True
                    continue
                if l == end:
                    break
                if open_:
                    body.append(l)
            shape = re.sub(r'\b[a-z_]\w*\b|\b[A-Z]\w*\b|b?\'[^\']*\'|"[^"]*"|\b\d+\b', 'x', ' '.join(x.strip() for x in body))
            if len(shape) > 55:
                seen.setdefault(shape, []).append((path, n, m.group(2)))
    for places in seen.values():
        if len(places) > 1:
            for path, n, name in places:
                yield path, n, name + ' ~ ' + ', '.join(o for p, q, o in places if (p, q) != (path, n))

def carried(folder):
    """functions that share two parameters, or a clause that is asked, with two others of their crate; a pair counts where both are
    plain values or one is a slice, and not where a struct goes with another value"""
    crates = {}
    for path in sources(folder):
        crates.setdefault(path.split('crates' + os.sep)[1].split(os.sep)[0], []).extend((path,) + f for f in functions(path))
    for crate in sorted(crates):
        pairs, asked = {}, {}
        for path, n, name, params, clauses in crates[crate]:
            ps = sorted(set(params))
            for i in range(len(ps)):
                for j in range(i + 1, len(ps)):
                    types = [p.split(': ', 1)[1] for p in (ps[i], ps[j])]
                    if not any(t.startswith('&[') for t in types) and not all(PLAIN.match(t) for t in types):
                        continue
                    pairs.setdefault((ps[i], ps[j]), set()).add((path, n, name))
            for c in clauses:
                asked.setdefault(re.sub(r'\b(text|name|place|code|self)\b', 'x', c), set()).add((path, n, name))
        found = {}
        for k, v in list(pairs.items()) + list(asked.items()):
            if len(v) >= 3:
                for f in v:
                    found.setdefault(f, []).append(' and '.join(k) if isinstance(k, tuple) else k)
        for (path, n, name), why in sorted(found.items()):
            yield path, n, name + ': ' + why[0][:90]

POINTS = {
    '1': ('answers in own shapes, and numbers for kinds', handed),
    '2': ('twins', twins),
    '3': ('loops with a place or an index', lambda d: by_lines(d, LOOPS)),
    '4': ('order, conversion and printing by hand', lambda d: by_lines(d, BY_HAND)),
    '5': ('parameters and facts that travel', carried),
    '6': ('lengths beside buffers, fixed buffers, parallel lists', lambda d: by_lines(d, LENGTH_BESIDE)),
    '7': ('switches on what to do', lambda d: by_lines(d, SWITCH)),
}

def main(args):
    counts = '--counts' in args
    args = [a for a in args if a != '--counts']
    folder = next((a for a in args if a not in POINTS), '.')
    for p in [a for a in args if a in POINTS] or sorted(POINTS):
        title, find = POINTS[p]
        n = 0
        for path, line, text in find(folder):
            n += 1
            if not counts:
                print(f'{os.path.relpath(path, folder)}:{line}: {text}')
        print(f'{p}. {title}: {n}')

if __name__ == '__main__':
    try:
        main(sys.argv[1:])
    except BrokenPipeError:
        sys.stderr.close()
