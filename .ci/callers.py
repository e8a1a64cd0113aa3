# Which public functions of the crates are reached from the program, an exported C function, a test or a law. A call is found by its name, and by what its file
# brings in. Of two methods with one name both count as called, unless the receiver is a parameter, a field or a new value, whose type can be read off.
# `python3 .ci/callers.py` lists the public functions that neither the program nor a C function calls, each with whether tests or nothing reaches it.
import collections
import os
import re
import subprocess

# A comment, a string, or a character.
BLANK = re.compile(r'//[^\n]*|/\*.*?\*/|b?r(#*)".*?"\1|b?"(?:[^"\\]|\\.)*"|b?\'(?:[^\'\\\n]|\\[^\n]{1,8}?)\'', re.S)
TOKEN = re.compile(r'[A-Za-z_]\w*|::|->|=>|\S')
# Programs that are tests themselves.
TEST_PROGRAMS = ('host_faults',)
CLAUSES = ('requires', 'ensures', 'ghost')
OPENS, CLOSES = '([{', ')]}'


class Function:
    """A function: where it stands, the type that it belongs to if any, the trait that it implements if any, and the tokens of its body."""

    def __init__(self, crate, file, name, owner, trait, body, marks):
        self.crate, self.file, self.name, self.owner, self.trait, self.body = crate, file, name, owner, trait, body
        self.types = types_in(body)
        self.is_public = 'pub' in marks
        self.is_test = 'test' in marks or crate in TEST_PROGRAMS
        self.is_root = self.is_test or 'no_mangle' in marks or name.endswith('_law') or (name == 'main' and file.endswith('/main.rt'))

    def __str__(self):
        return '::'.join(filter(None, (self.crate, self.owner, self.name)))


class Source:
    """A source file: the functions in it, and what it brings in by `use`: from each name the crates that it may come from."""

    def __init__(self, crate, file, text):
        self.crate, self.file = crate, file
        text = BLANK.sub(lambda found: ' ' if found.group().startswith(('/', "'")) else ' "" ', text)
        self.tokens = TOKEN.findall(text)
        self.brought = collections.defaultdict(set)
        self.functions, self.fields = [], {}
        self.read(0, len(self.tokens), None, None, False)

    def matching(self, at):
        """The place of the bracket that closes the one at a place."""
        depth = 0
        for place in range(at, len(self.tokens)):
            token = self.tokens[place]
            depth += (token in OPENS) - (token in CLOSES)
            if depth == 0:
                return place
        return len(self.tokens) - 1

    def next_of(self, at, wanted):
        """The first place from this one on with one of these tokens."""
        while at < len(self.tokens) and self.tokens[at] not in wanted:
            at += 1
        return at

    def read(self, at, end, owner, trait, implied):
        """Reads the items between two places, of a file, a module, a type or a trait."""
        start = at
        while at < end:
            token = self.tokens[at]
            if token == 'use':
                close = self.next_of(at, ';')
                if self.tokens[at - 1] != 'ghost':
                    self.bring(self.tokens[at + 1:close])
                start = at = close + 1
            elif token == 'fn' and re.match(r'\w', self.tokens[at + 1]):
                start = at = self.read_function(start, at, owner, trait, implied)
            elif token in ('impl', 'trait') and self.tokens[at - 1] not in ('&', '(', ',', ':', '<', '->'):
                start = at = self.read_group(at)
            elif token == 'struct':
                opening = self.next_of(at, '{;(')
                self.fields[self.tokens[at + 1]] = types_in(self.tokens[opening + 1:self.matching(opening)]) if self.tokens[opening] == '{' else {}
                start = at = opening if self.tokens[opening] != '(' else self.matching(opening)
            elif token == 'mod' and self.tokens[at + 2] == '{':
                close = self.matching(at + 2)
                self.read(at + 3, close, None, None, False)
                start = at = close + 1
            elif token in '{;}':
                at = self.matching(at) + 1 if token == '{' else at + 1
                start = at
            else:
                at += 1

    def read_group(self, at):
        """Reads an impl or a trait, and gives the place after it."""
        opening = self.next_of(at, '{;')
        head = without_parameters(self.tokens[at + 1:opening])
        is_trait = self.tokens[at] == 'trait'
        of_trait = 'for' in head
        head = head[:head.index('where')] if 'where' in head else head
        named = [token for token in (head[head.index('for') + 1:] if of_trait else head) if re.match(r'[A-Z]\w*$', token)]
        trait = next((token for token in reversed(head[:head.index('for')]) if re.match(r'[A-Z]', token)), None) if of_trait else None
        owner = (named[0] if is_trait else named[-1]) if named else None
        close = self.matching(opening)
        self.read(opening + 1, close, owner, owner if is_trait else trait, is_trait)
        return close + 1

    def read_function(self, start, at, owner, trait, implied):
        """Reads a function, and gives the place after it."""
        name, place = self.tokens[at + 1], at + 2
        marks = self.tokens[start:at]
        while place < len(self.tokens) and self.tokens[place] not in '{;':
            token = self.tokens[place]
            if token in CLAUSES:
                place = self.matching(self.next_of(place, '{')) + 1
            elif token in '([':
                place = self.matching(place) + 1
            else:
                place += 1
        close = self.matching(place) if self.tokens[place] == '{' else place
        is_public = 'pub' in marks and self.tokens[start + marks.index('pub') + 1] != '('
        marks = [mark for mark in marks if mark != 'pub'] + ['pub'] * (is_public or implied)
        body = self.tokens[at + 2:place] + self.tokens[place:close]
        self.functions.append(Function(self.crate, self.file, name, owner, trait, strip_clauses(self.tokens[at + 2:close]) if trait or body else [], marks))
        return close + 1

    def bring(self, words):
        """What a `use` brings in."""
        first = words[0] if words[0] != '::' else words[1]
        come = self.crate if first in ('crate', 'self', 'super') else first
        for place, word in enumerate(words):
            if re.match(r'\w+$', word) and word not in ('as', 'pub') and (place + 1 == len(words) or words[place + 1] in ',}' or words[place + 1] == 'as'):
                self.brought[word].add(come)
                if place + 2 < len(words) and words[place + 1] == 'as':
                    self.brought[words[place + 2]].add(come)


def types_in(tokens):
    """The type of each name that is followed by one, or that is given a new value of one."""
    found = {}
    for place, token in enumerate(tokens[:-2]):
        if not re.match(r'[a-z_]\w*$', token):
            continue
        if tokens[place + 1] == ':':
            kind = type_at(tokens, place + 2)
        elif tokens[place + 1] == '=' and place and tokens[place - 1] in ('let', 'mut') and tokens[place + 2][0].isupper() and tokens[place + 3:place + 4] == ['{']:
            kind = tokens[place + 2]
        else:
            continue
        found[token] = kind if found.get(token, kind) == kind else None
    return found


def type_at(tokens, place):
    """The name of the type that begins at a place, without the references and the module before it."""
    while place < len(tokens) and (tokens[place] in ('&', 'mut', '::', "'") or re.match(r'[a-z_]\w*$', tokens[place])):
        place += 2 if tokens[place] == "'" else 1
    return tokens[place] if place < len(tokens) and re.match(r'[A-Z]\w*$', tokens[place]) else None


def without_parameters(tokens):
    """A head without what stands between < and >."""
    depth, kept = 0, []
    for token in tokens:
        depth += (token == '<') - (token == '>')
        if depth == 0 and token != '>':
            kept.append(token)
    return kept


def strip_clauses(tokens):
    """The tokens of a signature and a body without the clauses between them."""
    kept, place = [], 0
    while place < len(tokens):
        if tokens[place] in CLAUSES and not kept[-1:] == ['.']:
            while place < len(tokens) and tokens[place] != '{':
                place += 1
            depth = 0
            while place < len(tokens):
                depth += (tokens[place] == '{') - (tokens[place] == '}')
                place += 1
                if depth == 0:
                    break
        else:
            kept.append(tokens[place])
            place += 1
    return kept


class Crates:
    """All functions of the crates, and which of them are reached."""

    def __init__(self, files, text_of):
        self.sources = [Source(name.split('/')[1], name, text_of(name)) for name in files if name.endswith('.rt')]
        self.names = {source.crate for source in self.sources}
        self.free, self.methods, self.in_file = (collections.defaultdict(list) for _ in range(3))
        self.traits = collections.defaultdict(list)
        self.fields = collections.defaultdict(list)
        for source in self.sources:
            for struct, fields in source.fields.items():
                self.fields[struct].append(fields)
            for function in source.functions:
                if function.owner is None:
                    self.free[function.crate, function.name].append(function)
                    self.in_file[function.file, function.name].append(function)
                else:
                    self.methods[function.name].append(function)
                    if function.trait:
                        self.traits[function.owner].append(function)
        self.own_traits = {function.trait for group in self.traits.values() for function in group if function.owner == function.trait}
        self.source_of = {source.file: source for source in self.sources}

    def called(self, function):
        """The functions that one may call."""
        source, body = self.source_of[function.file], function.body
        for place, token in enumerate(body):
            if not re.match(r'[A-Za-z_]', token):
                continue
            before = body[place - 1] if place else ''
            if before == '.':
                if body[place + 1:place + 2] not in (['('], ['::']):
                    continue  # a field
                kind = self.receiver(function, body, place - 2)
                yield from (one for one in self.methods[token] if kind is None or one.owner in (kind, one.trait))
            elif before == '::':
                yield from self.by_path(function, source, body, place)
            elif token[0].isupper():
                yield from (one for one in self.traits[token] if one.trait not in self.own_traits)
            elif self.in_file[function.file, token]:
                yield from self.in_file[function.file, token]
            else:
                for crate in source.brought.get(token, ()):
                    yield from self.free[crate, token]

    def receiver(self, function, body, place):
        """The type of what stands before a method, with its last word at this place, if it can be read off."""
        words = [body[place]]
        while place > 1 and body[place - 1] == '.':
            place -= 2
            words.insert(0, body[place])
        if place and body[place - 1] == '::' or not all(re.match(r'[a-z_]\w*$', word) for word in words):
            return None
        kind = function.owner if words[0] == 'self' else function.types.get(words[0])
        for field in words[1:]:
            kinds = {fields.get(field) for fields in self.fields[kind]} if kind else set()
            kind = kinds.pop() if len(kinds) == 1 else None
        return kind if kind and len(kind) > 1 else None

    def by_path(self, function, source, body, place):
        """The functions that a path names whose last word stands at this place."""
        name, head = body[place], body[place - 2]
        if head in ('>', 'Self') or head[:1].isupper():
            yield from (one for one in self.methods[name] if head in ('>', 'Self', one.owner, one.trait) or len(head) == 1)
            if head[:1].isupper():
                yield from (one for one in self.traits[head] if one.trait not in self.own_traits)
            return
        first = place - 2
        while first > 1 and body[first - 1] == '::':
            first -= 2
        for crate in {body[first] if body[first] in self.names else function.crate, *source.brought.get(body[first], ())}:
            yield from self.free[crate, name]

    def every(self):
        """All functions."""
        return [function for source in self.sources for function in source.functions]

    def public(self):
        """The public functions."""
        return [function for function in self.every() if function.is_public]

    def reached(self, counts):
        """The functions that are reached from those with which a run begins, as far as these count."""
        left = [function for function in self.every() if function.is_root and counts(function)]
        seen = set(left)
        while left:
            for function in self.called(left.pop()):
                if function not in seen:
                    seen.add(function)
                    left.append(function)
        return seen


def text_of(name):
    """The text of a file."""
    with open(name) as file:
        return file.read()


def read(files):
    """The functions of the source files among these."""
    return Crates([name for name in files if os.path.isfile(name)], text_of)


if __name__ == '__main__':
    os.chdir(os.path.join(os.path.dirname(os.path.abspath(__file__)), '..'))
    functions = read(subprocess.run(['git', 'ls-files', 'crates'], check=True, capture_output=True, text=True).stdout.splitlines())
    reached, called = functions.reached(lambda one: True), functions.reached(lambda one: not one.is_test)
    for function in functions.public():
        if function not in called:
            print(f'{function}  {function.file}  {"tests" if function in reached else "nothing"}')
