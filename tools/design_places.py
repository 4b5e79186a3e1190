#!/usr/bin/env python3
"""Lists the places in crates/*/src that docs/DESIGN-PASS.md speaks of, point by point, and counts them.

Usage: tools/design_places.py [POINT ..]    from the root of the repository; without a point all counts, with one its places.

It goes by the text: what it finds is read by hand, and what it can't see (a flag with a value in a struct, say) is found by reading.
"""
import collections
import difflib
import glob
import re
import sys

FILES = sorted(glob.glob('crates/*/src/**/*.rt', recursive=True))
KEYWORDS = set('as break const continue else enum false fn for if impl in let loop match mod mut pub return self Self static struct trait true '
               'type use where while u8 u16 u32 u64 usize bool'.split())


def code(line):
    """A line without its comment; the lines of clauses stay."""
    return re.sub(r'//.*', '', line)


def lines_with(pattern, comments=False):
    found = []
    for path in FILES:
        for number, line in enumerate(open(path), 1):
            text = line if comments else code(line)
            if re.search(pattern, text):
                found.append((path, number, line.strip()))
    return found


class Function:
    def __init__(self, path, line, name, parameters, clauses, body):
        self.path, self.line, self.name = path, line, name
        self.parameters, self.clauses, self.body = parameters, clauses, body


def functions():
    """Each function with its parameters (name and type), clauses and body."""
    found = []
    for path in FILES:
        lines = [code(line).rstrip('\n') for line in open(path)]
        i = 0
        while i < len(lines):
            m = re.match(r'^(\s*)(pub(\(crate\))? )?(extern "C" )?fn (\w+)', lines[i])
            if not m:
                i += 1
                continue
            indent, name, start = m.group(1), m.group(5), i
            head = []
            # The body starts at a line that is one brace, or at the end of a one-line signature.
            while not re.match('^' + indent + r'\{$', lines[i]) and not lines[i].endswith(' {') and not lines[i].endswith(';'):
                head.append(lines[i])
                i += 1
            head.append(lines[i])
            body = []
            i += 1
            while i < len(lines) and lines[i] != indent + '}' and not head[-1].endswith(';'):
                body.append(lines[i])
                i += 1
            text = ' '.join(head)
            # The parameters end at the closing parenthesis of the first group.
            depth, begin, end = 0, text.index('(', text.index('fn ' + name)), None
            for k in range(begin, len(text)):
                depth += {'(': 1, ')': -1}.get(text[k], 0)
                if depth == 0:
                    end = k
                    break
            parameters = []
            depth, part = 0, ''
            for c in text[begin + 1:end] + ',':
                depth += {'(': 1, '[': 1, '<': 1, ')': -1, ']': -1, '>': -1}.get(c, 0)
                if c == ',' and depth == 0:
                    if part.strip():
                        n, _, t = part.strip().partition(':')
                        parameters.append((n.replace('mut ', '').strip(), t.strip()))
                    part = ''
                else:
                    part += c
            found.append(Function(path, start + 1, name, parameters, text[end + 1:], body))
            i += 1
    return found


def tokens(function):
    text = ' '.join(function.body)
    out = []
    for t in re.findall(r'\w+|[^\w\s]', text):
        if t in KEYWORDS:
            out.append(t)
        elif re.match(r'\d', t):
            out.append('0')
        elif re.match(r'\w', t):
            out.append('x')
        else:
            out.append(t)
    return out


def point_1():
    """own enums; refusals as numbers; a value that stands for none"""
    return (lines_with(r'^\s*(pub(\(crate\))? )?enum ')
            + lines_with(r'\b(Refused|refusal)\((\d|n\b)|\breturn 13;|: u32, .*answer')
            + lines_with(r'0 stands for none|and 0 where|, or 0\.|; x where there|or one more than the limit|; 0 for any other|its number then 0', True))


def point_2():
    """functions of four lines or more that differ in names, types and numbers alone, or nearly"""
    all_of = [(f, tokens(f)) for f in functions() if len(f.body) >= 3]
    found = []
    for i, (f, a) in enumerate(all_of):
        for g, b in all_of[i + 1:]:
            if min(len(a), len(b)) < 18 or max(len(a), len(b)) > 1.35 * min(len(a), len(b)):
                continue
            ratio = difflib.SequenceMatcher(None, a, b, autojunk=False).ratio()
            if ratio >= 0.88:
                found.append((f.path, f.line, '%s ~ %s:%d %s (%.2f)' % (f.name, g.path, g.line, g.name, ratio)))
    return found


def point_3():
    """loops that are not `for`"""
    return lines_with(r'^\s*(while|loop)\b')


def point_4():
    """conversions, comparisons, bytes of numbers and texts by hand"""
    return lines_with(r'\.0 as |\.0 == |\.0 != |\bas u8\b.*%|% 256|65536|little_endian|\b48\b|\b87\b')


def point_5():
    """facts that three or more functions ask for; parameters that travel together; functions with more than seven parameters"""
    asked = collections.defaultdict(set)
    together = collections.defaultdict(set)
    found = []
    for f in functions():
        for clause in re.findall(r'requires[^{]*\{(.*?)\}(?= *(?:requires|ensures|\{|$))', f.clauses):
            for fact in re.findall(r'(?:^|× |\()\s*([A-Z]\w+(?: [\w.«»]+)*|[\w.]+ [≤<] [\w .+*]+)', clause):
                asked[(f.path.split('/')[1], re.sub(r'\.(now|old)', '', fact.strip()))].add(f.name)
        names = [n for n, _ in f.parameters]
        for i in range(len(names) - 1):
            together[(names[i], names[i + 1])].add((f.path, f.name))
        if len(names) > 7:
            found.append((f.path, f.line, '%s: %d parameters' % (f.name, len(names))))
    for (crate, fact), users in sorted(asked.items()):
        if len(users) >= 3:
            found.append(('crates/' + crate, 0, '%s: asked for by %d functions' % (fact, len(users))))
    for pair, users in sorted(together.items()):
        if len(users) >= 3:
            found.append(('crates', 0, '%s, %s: together in %d functions' % (pair + (len(users),))))
    return found


def point_6():
    """an array with a length or an end beside it; arrays of one size made side by side"""
    found = []
    for f in functions():
        names = [n for n, t in f.parameters if t == 'usize']
        if any('[' in t for _, t in f.parameters) and [n for n in names if n in ('n', 'count', 'end', 'at', 'top', 'used', 'start')]:
            found.append((f.path, f.line, '%s: %s' % (f.name, ', '.join(n for n in names if n in ('n', 'count', 'end', 'at', 'top', 'used', 'start')))))
        sizes = collections.Counter(m.group(1) for line in f.body for m in [re.search(r'let mut \w+ = \[.*; (.*)\];', line)] if m)
        for size, k in sizes.items():
            if k > 1:
                found.append((f.path, f.line, '%s: %d arrays of %s' % (f.name, k, size)))
    return found


def point_7():
    """a switch on which step to run"""
    return lines_with(r'match (check|letter|step|mode)\b|if letter ==|match .*letter')


POINTS = {'1': point_1, '2': point_2, '3': point_3, '4': point_4, '5': point_5, '6': point_6, '7': point_7}


def main():
    asked = sys.argv[1:]
    for name in asked or sorted(POINTS):
        found = POINTS[name]()
        print('point %s: %d places (%s)' % (name, len(found), POINTS[name].__doc__))
        if asked:
            for path, number, text in found:
                print('  %s:%s: %s' % (path, number, text) if number else '  %s: %s' % (path, text))


main()
