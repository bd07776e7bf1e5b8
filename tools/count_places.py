#!/usr/bin/env python3
"""Counts, in the src/ of all crates, the places that docs/DESIGN-PASS.md speaks of, and lists them with -v.

    python3 tools/count_places.py [-v] [--open] [FOLDER]

FOLDER is a checkout, this one where none is given. Each count is of a form that a reader can find again; whether a place of that form is better
written otherwise is said in the page. The second count is of those that have a reason, a comment line `Kept: REASON`. It stands above the place or above
the match or loop around it; for the forms in BY_ITEM also above the function. What lies in several functions needs more:

- functions alike have a reason where the first of them in each file has one: above itself, above its impl, or atop the file;
- types and constants declared twice have one above each declaration;
- clauses and parameters have one in each crate: above one of the functions, or in a line that names the clause, or two of the parameters, in
  backticks before its reason.

What is found by form and is no place stands in no_places.txt beside this script, with why; it is left out of every count.

--open lists the places that have no reason, of such a group the functions or types that lack one, and ends with how many places of each point those are.
"""
import collections
import glob
import os
import re
import sys

ENUMS = '1 enums of the shape of Option or Result'
REFUSALS = '1 a refusal by its number'
ARMS = '1 an arm for a kind by its number'
KIND_TESTS = '1 a kind tested with =='
PASSING = '1 a match with an arm for Err or None that only passes on'
RESULTS = '1 a Result handed on as an argument, for a value'
TWINS = '2 functions alike but for names and numbers'
TYPES = '2 types declared twice, in several crates'
COUNTED = '3 loops that count by hand'
WHILES = '3 other while loops'
SEARCHES = '3 a search loop'
BY_HAND = '4 written by hand: equality, least, greatest, conversion'
RANGES = '4 a test of a range by two comparisons'
CLAUSES = '5 a clause that stands in three functions or more'
PARAMETERS = '5 three parameters or more that stand together in three functions or more'
TABLES = '6 a table with its length beside it'
CONSTANTS = '6 the same constant number declared in several crates'
CHOICES = '7 a choice of the step to run'
FORMS = [ENUMS, REFUSALS, ARMS, KIND_TESTS, PASSING, RESULTS, TWINS, TYPES, COUNTED, WHILES, SEARCHES, BY_HAND, RANGES, CLAUSES, PARAMETERS, TABLES,
         CONSTANTS, CHOICES]

# Forms that a reason above the function around them is enough for.
BY_ITEM = {REFUSALS, ARMS, COUNTED, WHILES, SEARCHES, BY_HAND, CHOICES}

# What is found by form and is no place: (form, crate, function or line).
NO_PLACES = {tuple(part.strip() for part in line.split(' | ')[:3])
             for line in open(os.path.join(os.path.dirname(os.path.abspath(__file__)), 'no_places.txt')) if not line.startswith('#')}

Place = collections.namedtuple('Place', 'where lacking text kept')
Function = collections.namedtuple('Function', 'source name line parameters clauses body')

# A variant that says that there is no value, or why; `Other` only where it holds nothing.
NO_VALUE = {'Refused', 'Nothing', 'None', 'NoPlace', 'NoStep', 'NoStruct', 'NoData', 'NoType', 'NoMember', 'NoValue', 'Past', 'Cut', 'Stopped', 'TooLarge',
            'Odd', 'Long', 'Failed', 'Narrow', 'Overflow', 'Full', 'Broken', 'End', 'Absent', 'Missing', 'Outside', 'Empty', 'Wrong', 'Bad', 'Invalid',
            'Bytes', 'Allowed', 'Accepted', 'Fine', 'Made', 'Unknown', 'NotANumber', 'NotFound', 'Unset', 'Skipped', 'Open'}

# Words of a body that stay as they are when names are left out.
KEYWORDS = {'if', 'else', 'while', 'for', 'in', 'match', 'return', 'let', 'mut', 'as', 'true', 'false'}

LINE_FORMS = [
    (REFUSALS, r'number: \d+|Refused\(\d+\)|refused\(\d+\)'),
    (ARMS, r'^\s*\d+ => '),
    (KIND_TESTS, r'[=!]= (\w+::)*\w*_KIND\b|\b(\w+::)*\w*_KIND [=!]= '),
    (BY_HAND, r'fn (same_\w+|equal\w*|larger|least|smaller|is_equal|as_\w+|number_of|\w+_outcome)\('),
]

# A term without spaces, such as `self.n`, `b' '`, `s[i + 1]` or `u64::from(row)`; and what stands between two comparisons of one term.
TERM = r"(?:b'_+'|[\w.:]+(?:\([\w., ]*\)|\[[\w.+ ]*\])?)"
AND, OR, FROM = r'\)*\s+&&?\s+\(*', r'\)*\s+\|\|?\s+\(*', r'(?<![\w.:])'
TEXT_FORMS = [
    (PASSING, r'Err\(\w+\) => \{?\s*(return )?Err\(|None => \{?\s*(return )?(None|Err\()|if let Err\(\w+\) = [^{]*\{\s*return Err\('),
    (RANGES, rf'{TERM} <=? (?P<x>{TERM}){AND}(?P=x) <=? {TERM}'),
    (RANGES, rf'{FROM}(?P<x>{TERM}) >=? {TERM}{AND}(?P=x) <=? {TERM}'),
    (RANGES, rf'(?<![&<])(?<!<=) \(*(?P<x>{TERM}) <=? {TERM}{OR}({TERM} <=? (?P=x)|(?P=x) >=? {TERM})(?![\w.:(\[])'),
    # where each arm is a text, nothing is chosen to run
    (CHOICES, r'match (way|form|command|wanted|class|run|shape) \{(?!\n[^\n]*=> b")|match \w+\.form \{(?!\n[^\n]*=> b\")'),
    # a loop over places that only looks for the first of which something holds
    (SEARCHES, r'(?m)^( *)for (\w+) in [^\n]*\{\n(?:\s*let [^;{]*;)*\s*if [^{]*\{\s*return (true|false|Some\([^;]*\)|(\w+::)*\w+( \+ 1)?);\s*\}\n\1\}'),
]


def blanked(text):
    """The text with comments and the insides of strings and characters blanked, position by position."""
    def blank(m):
        t = m.group(0)
        return ' ' * len(t) if t.startswith('//') else t[0] + re.sub(r'[^\n]', '_', t[1:-1]) + t[-1]
    return re.sub(r'"(?:[^"\\]|\\.)*"|\'(?:[^\'\\\n]|\\.[^\'\n]*)\'|//[^\n]*', blank, text)


class Source:
    """A file, its code without comments, and which of its lines have a reason beside them."""

    def __init__(self, path, top):
        self.short = os.path.relpath(path, top)
        self.crate = self.short.split(os.sep)[1]
        self.text = open(path).read()
        self.code = blanked(self.text)
        self.lines = self.text.split('\n')
        self.names = [re.findall(r'`([^`]*)`', m.group(1)) for m in re.finditer(r'//+ Kept: ((?:`[^`]*`(?:, | and )?)+)', self.text)]

    def line_of(self, position):
        """The line, from 1, of a position of the text."""
        return self.text.count('\n', 0, position) + 1

    def at(self, n):
        """Line n as a reader finds it."""
        return f'{self.short}:{n}'

    def says(self, n):
        """Whether line n is a comment, or ends with one, that gives a reason."""
        return re.search(r'//.*\bKept: ', self.lines[n - 1]) is not None

    def above(self, n):
        """Whether line n, or a comment that ends right above it, gives a reason."""
        if self.says(n):
            return True
        k = n - 1
        while k > 0 and re.match(r'\s*(//|#!?\[)', self.lines[k - 1]):
            if self.says(k):
                return True
            k -= 1
        return False

    def item(self, n):
        """The line of the item that line n lies in."""
        k = n
        while k > 1 and not re.match(r' {0,4}(pub )?(const |extern "C" )?(fn|enum|struct|impl|trait)\b', self.lines[k - 1]):
            k -= 1
        return k

    def around(self, n):
        """The line of the match or the loop that line n lies in, else n."""
        for k in range(n - 1, self.item(n), -1):
            line = self.lines[k - 1]
            if line.strip() and indent(line) < indent(self.lines[n - 1]) and line.rstrip().endswith('{'):
                return k
        return n

    def beside(self, form, n):
        """Whether a place at line n has a reason: above it, above the match or the loop around it, or above its item where the form allows that."""
        return self.above(n) or self.above(self.around(n)) or form in BY_ITEM and self.above(self.item(n))

    def atop(self):
        """Whether the comment that the file begins with gives a reason that names nothing."""
        head = re.match(r'(//[^\n]*\n)*(?=\n|#!|use |ghost )', self.text)
        return head is not None and re.search(r'Kept: (?!`)', head.group(0)) is not None

    def section(self, n):
        """Whether a reason stands above line n, above the impl around it, or atop the file."""
        k = n
        while k > 1 and indent(self.lines[n - 1]) and not re.match(r'(impl|pub trait|trait)\b', self.lines[k - 1]):
            k -= 1
        return self.above(n) or self.above(k) or self.atop()


def indent(line):
    """How many spaces a line begins with."""
    return len(line) - len(line.lstrip())


def closing(text, at, opening, close):
    """The position after the bracket that closes the one right before `at`."""
    depth = 1
    while depth and at < len(text):
        depth += {opening: 1, close: -1}.get(text[at], 0)
        at += 1
    return at


def functions(source):
    """The functions of a file but those of the C interface, whose form is given from outside."""
    code = source.code
    for m in re.finditer(r'(?m)^ *(?:pub )?(?:const )?fn (\w+)(?:<(?:->|[^<>]|<[^<>]*>)*>)?\(', code):
        at = closing(code, m.end(), '(', ')')
        # the body begins at a line that is `{` alone, or ends the line of a function without clauses
        b = re.compile(r'(?m)^ *\{$|\{\}?$').search(code, at)
        if b:
            end = b.end() if code[b.end() - 1] == '}' else closing(code, b.end(), '{', '}')
            yield Function(source, m.group(1), source.line_of(m.start()), source.text[m.end():at - 1], source.text[at:b.start()], code[b.end():end - 1])


def parts(body):
    """The parts of a list between commas that stand in no bracket."""
    depth, found, part = 0, [], ''
    for c in re.findall(r'->|.', body + ',', re.S):
        depth += {'(': 1, '{': 1, '[': 1, '<': 1, ')': -1, '}': -1, ']': -1, '>': -1}.get(c, 0)
        if c == ',' and depth == 0:
            if part.strip():
                found.append(' '.join(part.split()))
            part = ''
        else:
            part += c
    return found


def types(source):
    """The structs and enums of a file, as (word, name, line, fields or variants)."""
    for m in re.finditer(r'(?m)^(?:pub )?(struct|enum) (\w+)(?:<[^>]*>)?\s*(\{|\(|;)', source.code):
        body = source.code[m.end():closing(source.code, m.end(), m.group(3), {'{': '}', '(': ')', ';': ''}[m.group(3)]) - 1] if m.group(3) != ';' else ''
        body = re.sub(r'(?m)^\s*(pub )?ghost [^\n]*$|#\[[^\]]*\]', '', body)
        yield m.group(1), m.group(2), source.line_of(m.start()), [re.sub(r'\bpub |\b\w+::', '', p) for p in parts(body)]


def shape_of_option(variants):
    """Whether an enum has a variant for no value, or is one thing or nothing; variants with numbers of an outside code have another use."""
    if all('=' in v for v in variants):
        return False
    bare = [v for v in variants if re.fullmatch(r'\w+', v)]
    names = {re.match(r'\w+', v).group(0) for v in variants}
    return bool(names & NO_VALUE) or 'Other' in bare or (len(variants), len(bare)) == (2, 1)


def without_names(body):
    """A body with names, texts and numbers left out; in a short one what is called keeps its name, since little else is left."""
    names, calls = {}, set(re.findall(r'(\w+)(?:::<[^()]*>)?\(', body)) if len(body.split()) <= 8 else set()
    body = re.sub(r'b?"[^"]*"', '""', re.sub(r"b?'[^'\n]*'", '0', body))
    body = re.sub(r'[A-Za-z_]\w*', lambda m: m.group(0) if m.group(0) in KEYWORDS | calls else names.setdefault(m.group(0), f'v{len(names)}'), body)
    return ' '.join(re.sub(r'\b\d+\b', '0', body).split())


def is_plain(body):
    """Whether a body is a field, a name or a constant, one operation with two of these, a call with a text of its own, calls without arguments, or a
    struct of names and numbers."""
    if re.fullmatch(r'\s*[\w:]+ \{\s*\w+(: [\w.]+)?(,\s*\w+(: [\w.]+)?)*,?\s*\}\s*', body):
        return True
    one = r'[&*]?(mut )?[\w.:]+'
    sole = rf'{one}( (as|[-+*/%&|^<>]|[<>=!]=|<<|>>) {one})?'
    return re.fullmatch(rf'\s*({sole}|([\w:]+\(\);\s*)+|[\w.:]+\(\s*([\w.]+,\s*)*b?"[^"]*",?\s*\);?)\s*', body) is not None


class Count:
    """The places found, by form."""

    def __init__(self, sources):
        self.sources = sources
        self.functions = [f for s in sources for f in functions(s)]
        self.types = [(s,) + t for s in sources for t in types(s)]
        self.found = {form: [] for form in FORMS}

    def put(self, form, source, n, kept, text):
        """Adds a place at line n."""
        self.found[form].append(Place(source.at(n), source.at(n), text, kept))

    def put_line(self, form, source, n):
        """Adds line n."""
        if ('line', source.crate, source.lines[n - 1].strip()) not in NO_PLACES:
            self.put(form, source, n, source.beside(form, n), source.lines[n - 1].strip())

    def put_group(self, form, uses, text):
        """Adds a place of several uses, each (source, line, name, whether it has a reason). Of those that are alike, one is what the others could be."""
        where = [f'{s.at(n)} {name}' for s, n, name, _ in uses]
        lacking = [w for w, u in zip(where, uses) if not u[3]]
        spared = 1 if form in (TWINS, TYPES, CONSTANTS) and len(where) > 1 else 0
        self.found[form].append(Place(', '.join(where), ', '.join(lacking), text, len(lacking) <= spared))

    def lines(self):
        """Forms that are seen within one line, or within a few. Arms by number are the conversion in a `try_from`, and bytes where a width is matched."""
        for s in self.sources:
            for n, line in enumerate(s.code.split('\n'), 1):
                for form, pattern in LINE_FORMS:
                    if form == ARMS and (' fn try_from(' in s.lines[s.item(n) - 1] or 'match width ' in s.lines[s.around(n) - 1]):
                        continue
                    if re.search(pattern, line):
                        self.put_line(form, s, n)
            for form, pattern in TEXT_FORMS:
                for m in re.finditer(pattern, s.code):
                    self.put_line(form, s, s.line_of(m.start()))

    def loops(self):
        """The while loops, those that count a number up or down apart."""
        for s in self.sources:
            for m in re.finditer(r'(?m)^( *)while [^\n]*', s.code):
                body = s.code[m.end():s.code.find('\n' + m.group(1) + '}', m.end())]
                counts = re.search(r'(?m)^\s*(\w+) (?:\+= 1|= \w+ \+ 1|= \w+ - 1|= before|= next);', body) and re.search(r'<|>', m.group(0))
                self.put_line(COUNTED if counts else WHILES, s, s.line_of(m.start()))

    def enums(self):
        """Enums of the shape of Option or Result but those that are the error of a Result."""
        errors = {e for s in self.sources for e in re.findall(r'Result<.*?, (?:\w+::)*(\w+)>', s.code)}
        for s, word, name, n, fields in self.types:
            if word == 'enum' and name not in errors and shape_of_option(fields):
                self.put(ENUMS, s, n, s.above(n), f'{name}: ' + ', '.join(fields))

    def types_twice(self):
        """Types of several crates that have one name and half of their fields in common, or two fields or more with the same names and types."""
        by_name, by_fields = collections.defaultdict(list), collections.defaultdict(list)
        for s, word, name, n, fields in self.types:
            if ('type', s.crate, name) in NO_PLACES:
                continue
            names = frozenset(re.match(r'\w+', f).group(0) for f in fields if re.match(r'[a-zA-Z_]', f))
            by_name[name].append((names, (s, n, name, s.above(n))))
            if len(names) > 1:
                by_fields[frozenset(' '.join(f.split()) for f in fields)].append((s, n, name, s.above(n)))
        for name, declared in by_name.items():
            uses = [u for names, u in declared if any(v[0] is not u[0] and len(names & other) * 2 >= max(len(names), len(other)) for other, v in declared)]
            if len({s.crate for s, *_ in uses}) > 1:
                self.put_group(TYPES, uses, f'{name}, {len(uses)} times')
        for names, uses in by_fields.items():
            if len({s.crate for s, *_ in uses}) > 1 and len({name for _, _, name, _ in uses}) > 1:
                self.put_group(TYPES, uses, 'each of ' + ', '.join(sorted(names)))

    def constants(self):
        """Constants of one name and one number in several crates."""
        same = collections.defaultdict(list)
        for s in self.sources:
            for m in re.finditer(r'(?m)^ *(?:pub )?const (\w+): \w+ = ([\d_]+)(?:[ui]\w+)?;', s.code):
                n = s.line_of(m.start())
                same[m.group(1), m.group(2).replace('_', '')].append((s, n, m.group(1), s.above(n)))
        for (name, value), uses in same.items():
            if len({s.crate for s, *_ in uses}) > 1:
                self.put_group(CONSTANTS, uses, f'{name} = {value}')

    def twins(self):
        """Functions alike but for names and numbers; each `try_from` is the conversion to an enum of its own."""
        alike = collections.defaultdict(list)
        for f in self.functions:
            if len(f.body.split()) >= 3 and not is_plain(f.body) and f.name != 'try_from' and ('twin', f.source.crate, f.name) not in NO_PLACES:
                alike[without_names(f.body)].append(f)
        for body, uses in alike.items():
            if len(uses) > 1:
                first = {}
                for f in uses:
                    first.setdefault(f.source.short, f.source.section(f.line))
                self.put_group(TWINS, [(f.source, f.line, f.name, first[f.source.short]) for f in uses], f'{len(uses)} functions: {body[:100]}')

    def put_shared(self, form, uses, text, is_named):
        """Adds what stands in three functions or more; is_named says whether a line's names in backticks are of it."""
        told = {f.source.crate for f in uses if f.source.above(f.line)}
        told |= {s.crate for s in self.sources for names in s.names if is_named(names)}
        self.put_group(form, [(f.source, f.line, f.name, f.source.crate in told) for f in uses], f'{len(uses)} functions: {text}')

    def clauses(self):
        """Clauses of requires, and long ones of ensures, that stand in three functions or more."""
        same = collections.defaultdict(list)
        for f in self.functions:
            for word, c in sorted(set(re.findall(r'(?m)^\s*(requires|ensures) (?:\w+ )?\{(.*)\}\s*$', f.clauses))):
                c = ' '.join(c.split())
                if word == 'requires' or len(c) > 60:
                    same[word, c].append(f)
        for (word, c), uses in same.items():
            if len(uses) > 2:
                self.put_shared(CLAUSES, uses, f'{word} {c}', lambda names: c in names)

    def parameters(self):
        """Three parameters that stand together in three functions or more, a table with its length, and a Result."""
        same = collections.defaultdict(list)
        for f in self.functions:
            ps = [p for p in parts(f.parameters) if ':' in p]
            for i in range(len(ps) - 2):
                same[tuple(ps[i:i + 3])].append(f)
            for a, b in zip(ps, ps[1:]):
                if ('table', f.source.crate, f.name) in NO_PLACES:
                    continue
                if re.search(r'\[\w+\]', a) and re.match(r'(n|count|len|length|used): (u32|usize)$', b):
                    own = {a.split(':')[0], b.split(':')[0]}
                    self.put(TABLES, f.source, f.line, f.source.above(f.line) or any(own <= set(names) for names in f.source.names), f'{f.name}: {a}, {b}')
            for p in ps:
                if f.clauses.lstrip().startswith('->') and re.match(r'(mut )?\w+: (&(mut )?)?(\w+::)*Result<', p):
                    self.put(RESULTS, f.source, f.line, f.source.above(f.line), f'{f.name}: {p}')
        for group, uses in same.items():
            if len(uses) > 2:
                own = {p.split(':')[0].replace('mut ', '') for p in group}
                self.put_shared(PARAMETERS, uses, ', '.join(group), lambda names: len(own & set(names)) > 1)

    def all(self):
        """Looks for every form."""
        for look in (self.lines, self.loops, self.enums, self.types_twice, self.constants, self.twins, self.clauses, self.parameters):
            look()
        return self


def answers(top):
    """How many answers the proofs have."""
    files = glob.glob(os.path.join(top, 'crates/*/proofs/**/Answers.antt'), recursive=True)
    return sum(len(re.findall(r'(?m)^pub [\w+.-]+ : ', open(f).read())) for f in files)


def main():
    """Prints the counts, and the places that are asked for."""
    verbose, only_open = '-v' in sys.argv, '--open' in sys.argv
    top = next((a for a in sys.argv[1:] if not a.startswith('-')), '.')
    found = Count([Source(f, top) for f in sorted(glob.glob(os.path.join(top, 'crates/*/src/*.rt')))]).all().found
    left = collections.Counter()
    for form, places in found.items():
        print(f'{len(places):5} {sum(p.kept for p in places):5}  {form}')
        left[form.split()[0]] += sum(not p.kept for p in places)
        for p in places:
            if verbose or only_open and not p.kept:
                print(f'         {p.where if verbose else p.lacking}: {p.text}')
    print(f'{answers(top):5}        8 answers in proofs/')
    print('open: ' + ', '.join(f'{n} of point {point}' for point, n in left.items()) + f'; {sum(left.values())} in all')


main()
