"""Rung (a) of .ci/page, with Python's standard library only: compares the files of the page with each other, the documents and the proxies' files."""
import gzip
import json
import os
import re
import subprocess
import sys

TOP = os.path.realpath(os.path.join(os.path.dirname(os.path.abspath(__file__)), '../..'))
PAGE = os.path.join(TOP, 'page')
# The limits of page/js/rules.js, by the names of their constants.
LISTED = {'name': 'LONGEST_NAME', 'members': 'MOST_MEMBERS', 'riders': 'MOST_RIDERS', 'goods': 'MOST_GOODS', 'places': 'MOST_PLACES', 'rent': 'MOST_RENT', 'cost': 'MOST_FARE_CENTS',
          'steps': 'MOST_STEPS', 'estateSteps': 'MOST_ESTATE_STEPS', 'points': 'WHOLE_POINTS', 'turns': 'MOST_TURNS', 'certificate': 'MOST_BYTES', 'digits': 'MOST_DIGITS', 'denominator': 'MOST_PRINTED_DENOMINATOR'}
UNLOADED = ('try', 'make', 'help_pages.py', 'single_file.py', 'policy.txt')  # no browser loads these
OF_FILES = ('check.html', 'divide.html', 'js/alone.js', 'js/divide_alone.js', 'js/carried_alone.js', 'js/more_style_alone.js')  # the files that people can save, and what is only in them
# Loaded only if something is checked, or divided without a server. Counted apart, like judge/ and the languages.
OF_CHECKS = [f'js/{name}.js' for name in ('carried', 'check', 'check_estate', 'judges', 'judge_task', 'judge_worker', 'module_of', 'pairs', 'verdict')]
OF_DIVISIONS = [f'js/{name}.js' for name in ('demo', 'divide', 'divide_form', 'estate', 'finish', 'handed', 'handed_view', 'proposal', 'solver', 'solve_task', 'solve_worker')]
MOST_BYTES = 250_000
MOST_APART = 80_000
MOST_FOR_A_BID = 30_000
MOST_OF_A_FIRST_VIEW = 83_700  # not compressed, with what a bid loads behind its form
MOST_OF_A_PICTURE = 60_000
MOST_LINES, MOST_SIGNS = 40, 120  # of a function, and in a line
BID = ['index.html', 'style.css', 'icon.svg'] + [f'js/{name}.js' for name in (
    'main', 'dom', 'language', 'link', 'round', 'api', 'money', 'money_field', 'bid', 'value_fields', 'rules', 'seen', 'store')]
FIRST = [*BID, 'js/bidders.js', 'js/remember.js', 'js/rounds_kept.js', 'js/device.js', 'js/all_seen.js']
with open(os.path.join(PAGE, 'js/language.js'), encoding='utf-8') as language_file:
    LANGUAGES = re.findall(r"load: \(\) => import\('\./(words[.\w]*)\.js'\)", language_file.read())
FORMS = {'zero', 'one', 'two', 'few', 'many', 'other'}  # of a plural; node tells which ones a language needs
MORE = {words: [words.replace('words', f'words.{part}') for part in ('make', 'more')] for words in LANGUAGES}  # what nobody needs to bid
PROXIES = ['hosting/nginx.site', 'hosting/Caddyfile', 'hosting/haproxy.cfg']
# Codes that nobody sees on the page: they are for proxies and programs, or have sentences of their own.
UNMET = {'no_key', 'role', 'open', 'bad_head', 'bad_host', 'framing', 'bad_length', 'length_missing', 'no_route', 'method', 'bad_json', 'bad_field', 'turn',
         'no_audit', 'void', 'not_two', 'step_limit'}
FORBIDDEN = ('innerHTML', 'outerHTML', 'insertAdjacentHTML', 'document.write', 'eval(', 'new Function', 'setTimeout("', "setTimeout('", 'style="', '<style',
             'javascript:', 'document.cookie', '@import', 'url(')
right = wrong = 0


def check(what, held):
    global right, wrong
    right += bool(held)
    wrong += not held
    if not held:
        print(f'texts: {what}')


def text_of(name):
    with open(os.path.join(TOP, name), encoding='utf-8') as file:
        return file.read()


def files():
    """The files that a browser may load, with their names in page/."""
    found = {}
    for folder, folders, names in os.walk(PAGE):
        folders[:] = [name for name in folders if name not in ('__pycache__', 'judge')]  # the modules are counted apart
        for name in names:
            path = os.path.join(folder, name)
            check(f'{path} is a symbolic link', not os.path.islink(path))
            found[os.path.relpath(path, PAGE)] = path
    texts = [name for name in found if name not in UNLOADED and not name.startswith('judge/')]
    return {name: open(found[name], encoding='utf-8').read() for name in texts}


def weigh(texts):
    """The page is no larger than it may be."""
    others = [f'js/{words}.js' for words in [*MORE, *sum(MORE.values(), [])]]
    size = {name: len(text.encode()) for name, text in texts.items() if name not in OF_FILES and name not in others}
    apart = sum(size[name] for name in OF_CHECKS + OF_DIVISIONS)
    whole = sum(size.values()) - apart
    check(f'the page has {whole} bytes, above {MOST_BYTES}', whole <= MOST_BYTES)
    check(f'checks and divisions have {apart} bytes, above {MOST_APART}', apart <= MOST_APART)
    least = []
    check('a member\'s first view has {0} bytes'.format(first := max(sum(len(texts[name].encode()) for name in [*FIRST, f'js/{words}.js']) for words in LANGUAGES)), first <= MOST_OF_A_FIRST_VIEW)
    for words in LANGUAGES:
        bid = sum(len(gzip.compress(texts[name].encode(), 6)) for name in BID + [f'js/{words}.js'])
        check(f'a member\'s bid has {bid} bytes compressed with {words}, above {MOST_FOR_A_BID}', bid <= MOST_FOR_A_BID)
        least.append(bid)
    return f'{whole} bytes, a member\'s first view {first}, a bid {" or ".join(map(str, least))} compressed'


def look_for_danger(texts):
    """No markup is parsed, nothing is run from text, nothing comes from elsewhere."""
    for name, text in texts.items():
        if name.endswith('.html') and name != 'index.html':
            continue
        for word in FORBIDDEN:
            check(f'{word} stands in {name}', word not in text)
        others = [url for url in re.findall(r'(?:https?:)?//[a-z0-9][\w.-]*\.[a-z]{2,}[^\s"\'`)]*', text) if not url.endswith('www.w3.org/2000/svg')]
        check(f'{name} names another address: {others}', not others)
    index = texts['index.html']
    check('a script in line', re.findall(r'<script[^>]*>', index) == ['<script type="module" src="js/main.js">'])
    check('a handler in markup', not re.search(r'\son[a-z]+=', index))
    loaded = reached()
    check(f'imports of a bid beside its list: {loaded ^ set(BID[3:])}', loaded == set(BID[3:]))
    ahead = re.findall(r'<link rel="modulepreload" href="([^"]*)">', index)  # so that a bid doesn't wait for one module after the other
    check(f'modules of a bid beside those that are loaded ahead: {loaded ^ {"js/main.js", *ahead}}', sorted(['js/main.js', *ahead]) == sorted(loaded))


def imports_of(module, dynamic):
    text = text_of(f'page/js/{module}.js')
    return re.findall(r"^import [^;]*from '\./([\w.]+)\.js'", text, re.M) + (re.findall(r"import\('\./([\w.]+)\.js'\)", text) if dynamic else [])


def reached():
    """The modules that a bid on a rent needs before it can be sent, without the words. No other bid needs more."""
    found, todo = set(), ['main', 'round', 'bid', 'value_fields']
    while todo:
        module = todo.pop()
        if module not in found:
            found.add(module)
            todo += imports_of(module, False)
    return {f'js/{module}.js' for module in found}


def follow_imports(texts):
    modules = [name[3:-3] for name in texts if name.startswith('js/')]
    used = {needed for module in modules for needed in imports_of(module, True)}
    for module in modules:
        for needed in imports_of(module, True):
            check(f'{module}.js uses {needed}.js, which is not there', f'js/{needed}.js' in texts)
        for names, needed in re.findall(r"^import \{([^}]*)\} from '\./([\w.]+)\.js'", texts[f'js/{module}.js'], re.M):
            for name in filter(None, (word.strip() for word in names.split(','))):
                check(f'{module}.js takes {name} of {needed}.js, which has none', re.search(rf'^export (?:async )?(?:const|let|class|function\*?) {name}\b', texts[f'js/{needed}.js'], re.M))
                check(f'{module}.js takes {name} and does not use it', len(re.findall(rf'\b{name}\b', texts[f'js/{module}.js'])) > 1)
    workers = set(re.findall(r"'js/(\w+)\.js'", texts['js/carried.js']))
    begun = {'main', 'alone', 'divide_alone', 'carried_alone', 'more_style_alone'} | workers
    check(f'a module that nobody uses: {sorted((used | begun) ^ set(modules))}', used | begun == set(modules))


def policy():
    """The header lines of policy.txt: {path: {name: value}}."""
    lines = {'/': {}, '/instances': {}}
    for line in text_of('page/policy.txt').splitlines():
        if not line.startswith('#'):
            path, field = line.split(' ', 1)
            name, value = field.split(': ', 1)
            lines[path][name] = value
    return lines


def compare_policies():
    lines = policy()
    csp = lines['/']['Content-Security-Policy']
    check('the policy is not strict', 'unsafe' not in csp.replace("'wasm-unsafe-eval'", '') and csp.startswith("default-src 'none'") and 'http' not in csp)
    seen = []
    for name in PROXIES:
        if not os.path.exists(os.path.join(TOP, name)):
            continue
        seen.append(name)
        text = text_of(name).replace('\\', '')
        text = re.sub(r'^\s*#.*$', '', text, flags=re.M)
        for field in {field for of in lines.values() for field in of}:
            allowed = {of[field] for of in lines.values() if field in of}
            told = re.findall(rf'\b{field}["\']?[ :]+(?:"([^"]*)"|([^"\s;][^;\n]*))', text)
            values = {quoted or re.sub(r' (always|(if|unless) \{.*)$', '', bare).strip() for quoted, bare in told}
            check(f'{name} sends {field} as {values - allowed}', values <= allowed)
            if 'Content-Security-Policy' in text:
                check(f'{name} does not send {field}', values)
    check('neither nginx nor Caddy sends the policy', not seen or any('Content-Security-Policy' in text_of(name) for name in seen))
    return f'policies of {", ".join(seen) or "no proxy"}'


def keys_of(words):
    """The sentences of a language, by their keys, as a flat table."""
    text = re.sub(r'^//.*$', '', text_of(f'page/js/{words}.js'), flags=re.M)
    tokens = re.findall(r"'((?:[^'\\]|\\.)*)'|(\w+)(?=:)|([{}])", text[text.index('words = ') + 8:])
    found, path, key = {}, [], None
    for string, name, brace in tokens:
        if name:
            key = name
        elif brace == '{':
            path.append(key)
        elif brace == '}':
            path.pop()
        else:
            found['.'.join([part for part in path[1:]] + [key])] = string
    return found


def sentences_of(words):
    """The sentences of a language by their keys, each with its forms: one, or those of a plural."""
    table, found = {key: text for part in [words, *MORE[words]] for key, text in keys_of(part).items()}, {}
    beside = {}
    for key in table:
        beside.setdefault(key.rpartition('.')[0], set()).add(key.rpartition('.')[2])
    for key, text in table.items():
        above = key.rpartition('.')[0]
        found.setdefault(above if 'other' in beside[above] <= FORMS else key, []).append(text)
    return found


def compare_words(texts):
    """Every language has every sentence that the code asks for, with the same parts to put in."""
    tables = {words: sentences_of(words) for words in LANGUAGES}
    check(f'these languages are there: {LANGUAGES}', len(LANGUAGES) >= 6)
    first = tables[LANGUAGES[0]]
    for words, table in tables.items():
        check(f'{words} has other sentences: {sorted(set(first) ^ set(table))}', set(first) == set(table))
        for key in set(first) & set(table):
            parts = {part for form in first[key] for part in re.findall(r'\{\w+\}', form)}
            check(f'{words} puts other things into {key}', all(set(re.findall(r'\{\w+\}', form)) == parts for form in table[key]))
            check(f'{words} has an empty {key}, or a straight apostrophe', all(form and "'" not in form and form.count('*') % 2 == 0 for form in table[key]))
    whole = set(first)
    code = '\n'.join(text for name, text in texts.items() if name.startswith('js/') and not name.startswith('js/words'))
    asked = set(re.findall(r"'([a-z]\w*(?:\.\w+)+|[a-z]\w+)'", code))
    made = re.findall(r'`((?:[a-z]\w*\.)+(?:\$\{[^`]*?\}|[\w.])*)`', code)
    patterns = [r'\w+'.join(re.escape(part) for part in re.split(r'\$\{.*?\}', text)) for text in made]
    for key in sorted(whole):
        check(f'no code asks for the sentence {key}', key in asked or any(re.fullmatch(pattern, key) for pattern in patterns))
    dotted = {key for key in asked if '.' in key and not key.endswith('.html') and key.split('.')[0] in {k.split('.')[0] for k in whole}}
    for key in sorted(dotted - whole):
        check(f'there is no sentence {key}', any(other.startswith(key + '.') for other in whole))
    for key in re.findall(r"\b(?:t|text)\('(\w+)'", code):
        check(f'there is no sentence {key}', key in whole)
    return first


def compare_limits(texts, words):
    """The limits are those of the schema, and every code that a person can see has a sentence."""
    schema = json.loads(text_of('examples/creation.schema.json'))
    kinds = {kind['title']: kind['properties'] for kind in schema['oneOf']}
    limits = {key: json.loads(value.replace('_', '')) for key, value in re.findall(r'(\w+): (\[\d+, \d+\]|[\d_]+)', texts['js/rules.js'].split('LIMITS = {')[1].split('};')[0])}
    span = lambda kind, field: [kinds[kind][field]['minItems'], kinds[kind][field]['maxItems']]
    theirs = {'members': span('rent', 'members'), 'riders': span('fares', 'members'), 'goods': span('goods', 'goods'), 'places': span('fares', 'places'), 'rent': kinds['rent']['rent']['maximum'],
              'cost': kinds['fares']['flag']['maximum'], 'steps': kinds['goods']['limit']['maximum'], 'name': schema['$defs']['name']['maxLength']}
    for what, value in theirs.items():
        check(f'the limit of {what} is {limits[what]} here and {value} in the schema', limits[what] == value)
    check('the members of goods', span('goods', 'members') == limits['members'])
    listed = dict((name, int(number.replace(',', ''))) for number, name in re.findall(r'\| ([\d,]+)[^|]*\| `\w+`: `(\w+)` \|', text_of('docs/REFERENCE.md')))
    for what, name in LISTED.items():
        most = limits[what][1] if isinstance(limits[what], list) else limits[what]
        check(f'the limit of {what} is {most} here and {listed[name]} in docs/REFERENCE.md', most == listed[name])
    check('a limit of the page is compared with nothing', set(limits) == set(LISTED))
    http = text_of('docs/HTTP.md')
    turns = re.search(r'from 1 to (\d+)', http.split('## Bids')[1])
    check('the turns of a member', turns and int(turns[1]) == limits['turns'])
    table = http.split('## Refusals, in the order')[1].split('\n## ')[0]
    rows = [row.split('|')[2] for row in table.splitlines() if re.match(r'\| [45]\d\d', row)]
    codes = set(re.findall(r'`([a-z_]+)`', ' '.join(rows))) - {'field', 'place', 'kept'}
    check('the table of codes is read', len(codes) > 15)
    for code in sorted(codes - UNMET):
        check(f'there is no sentence for {code}', f'refusals.{code}' in words)


def compare_hosts(texts):
    """The page accepts every path that hosting/shards gives to a host, and every proxy's file serves the list."""
    pattern = re.search(r'/(\^[^;]*?\$)/\.test', texts['js/creation.js'])[1].replace('\\/', '/')
    for path in ('/a/', '/z/', '/h27/', '/h1000/'):
        check(f'the page takes no host at {path}', re.search(pattern, path))
    for path in ('//other.example/', 'https://other.example/', '/a/b/', '/', 'a'):
        check(f'the page takes a host at {path}', not re.search(pattern, path))
    for name in PROXIES:
        check(f'{name} does not serve /hosts.json', re.search(r'^[^#]*/hosts\.json', text_of(name), re.M))


def luminance(red, green, blue):
    linear = [part / 12.92 if part <= 0.04045 else ((part + 0.055) / 1.055) ** 2.4 for part in (red, green, blue)]
    return sum(part * weight for part, weight in zip(linear, (0.2126, 0.7152, 0.0722)))


def contrast(one, other):
    """The contrast of two colours, as WCAG has it."""
    high, low = sorted((luminance(*(int(colour[at:at + 2], 16) / 255 for at in (0, 2, 4))) for colour in (one, other)), reverse=True)
    return (high + 0.05) / (low + 0.05)


def measure_people():
    """Each person's colour stands out from the page, light and dark, its letter from it, and words from its ground."""
    style = text_of('page/style.css')
    light, dark = style.split('@media (prefers-color-scheme: dark)')
    for theme, text in (('light', light), ('dark', dark.split('.p1, .p7')[0])):
        tokens = {name: colour * 2 if len(colour) == 3 else colour for name, colour in re.findall(r'--(\w+): #(\w{3}|\w{6});', text)}
        check(f'six colours in the {theme}', all(f'{name}{at}' in tokens for name in ('p', 'on', 'tint') for at in range(1, 7)))
        for at in range(1, 7):
            for what, one, other, least in (('page', f'p{at}', 'paper', 3), ('letter', f'on{at}', f'p{at}', 4.5), ('ground', 'ink', f'tint{at}', 4.5)):
                found = contrast(tokens[one], tokens[other])
                check(f'colour {at} has a contrast of {found:.2f} in the {theme}: {what}', found >= least)


# A line that opens a function, with what stands before it.
OPENS = re.compile(r'^( *)(?!(?:if|for|while|switch|else|\}|try|catch|class)\b)\S.*(?:\)|=>) \{$')


def look_at_shape(texts):
    """Functions are short, and lines fit on a screen; those of the languages are sentences."""
    for name, text in texts.items():
        if not name.startswith('js/') or name.startswith('js/words'):
            continue
        lines = text.split('\n')
        for at, line in enumerate(lines):
            check(f'line {at + 1} of {name} has {len(line)} signs', len(line) <= MOST_SIGNS)
            opens = OPENS.match(line)
            if opens:
                size = next(size for size, last in enumerate(lines[at + 1:], 2) if re.match(opens[1] + r'\}', last))
                check(f'{name} has a function of {size} lines at line {at + 1}', size <= MOST_LINES)


def outside_of_proof():
    """The documents say that the page is outside what is proved, README has a picture of it, and the picture is small."""
    for name in ('docs/HEADLINE.md', 'docs/PROVED.md', 'README.md'):
        check(f'{name} does not say that the page is outside what is proved', re.search(r'page[^.]*(outside|no (clause|proof))', text_of(name)))
    check('README has no command page/try 8080', re.search(r'^page/try 8080$', text_of('README.md'), re.M))
    pictures = re.findall(r'!\[[^\]]+\]\((docs/pictures/[\w.-]+)\)', text_of('README.md'))
    check('README does not open with a picture', pictures and text_of('README.md').index(pictures[0]) < text_of('README.md').index('\n## '))
    for picture in pictures:
        check(f'{picture} is above {MOST_OF_A_PICTURE} bytes', os.path.getsize(os.path.join(TOP, picture)) <= MOST_OF_A_PICTURE)


def main():
    texts = files()
    weight = weigh(texts)
    look_for_danger(texts)
    follow_imports(texts)
    look_at_shape(texts)
    policies = compare_policies()
    words = compare_words(texts)
    compare_limits(texts, words)
    compare_hosts(texts)
    measure_people()
    outside_of_proof()
    check('page/make would write other files', subprocess.run([sys.executable, os.path.join(PAGE, 'make'), '--check', 'check.html', 'divide.html'], check=False).returncode == 0)
    print(f'texts: {right} right, {wrong} wrong; {weight}; {policies}')
    sys.exit(wrong > 0)


if __name__ == '__main__':
    main()
