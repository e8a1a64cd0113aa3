"""Makes the pages that are one file each: the modules of page/js in line, with the proved modules of page/judge, under a policy that allows these bytes
alone. page/make uses it."""
import base64
import hashlib
import json
import os
import re
import sys

PAGE = os.path.dirname(os.path.abspath(__file__))
IMPORT = re.compile(r"^import \{([^}]*)\} from '(\.[\w./]+)\.js';\n", re.M)
EXPORT = re.compile(r'^export ((?:async )?(?:function\*?|class|const|let) (\w+))', re.M)
LOAD = re.compile(r"import\('(\.[\w./]+)\.js'\)")
# A single file carries along what the page loads.
INSTEAD = {'js/carried': 'js/carried_alone', 'js/more_style': 'js/more_style_alone'}
# What would ask for another file, or was not understood above: nothing of it may be left in a single file.
LEFT = re.compile(r"^(?:import|export)\b.*|\bimport\(.*|['\"`](?:\./)?[\w/.-]+\.(?:css|js|svg)['\"`].*", re.M)


def text_of(name):
    with open(os.path.join(PAGE, name), encoding='utf-8') as file:
        return file.read()


def named(module, address):
    """The module at an address that stands in another one: both by their paths, without the ending."""
    found = os.path.normpath(os.path.join(os.path.dirname(module), address))
    return INSTEAD.get(found, found)


def variable(module):
    """The variable in which the exports of a module are."""
    return 'module_' + re.sub(r'\W', '_', module)


def with_needs(module, done):
    """The modules that a module needs, each behind those that it needs itself."""
    text = text_of(f'{module}.js')
    for address in [found[1] for found in IMPORT.findall(text)] + LOAD.findall(text):
        if named(module, address) not in done:
            with_needs(named(module, address), done)
    done.append(module)
    return done


def wrapped(module, is_last):
    """A module as a function that is called at once and answers its exports."""
    text = text_of(f'{module}.js')
    exports = [found[1] for found in EXPORT.findall(text)]
    text = IMPORT.sub(lambda found: f'const {{{found[1].replace(" as ", ": ")}}} = {variable(named(module, found[2]))};\n', text)
    text = LOAD.sub(lambda found: f'Promise.resolve({variable(named(module, found[1]))})', EXPORT.sub(r'\1', text))
    left = LEFT.search(text)
    if left:
        sys.exit(f'single_file: {module}.js has what a single file cannot: {left[0]}')
    call = '(async () => {' if is_last else '(() => {'
    return f'const {variable(module)} = {call}\n{text}return {{ {", ".join(exports)} }};\n}})();\n'


def script_of(module):
    """A module and all that it needs, as one script."""
    modules = with_needs(module, [])
    return '\n' + '\n'.join(wrapped(each, each == module) for each in modules)


def carried(workers, files):
    """The workers and the files of page/judge that a page carries along."""
    texts = {name: script_of(f'js/{name}_worker') for name in workers}
    bytes_of = {}
    for name in files:
        with open(os.path.join(PAGE, 'judge', name), 'rb') as file:
            bytes_of[name] = base64.b64encode(file.read()).decode()
    return f'const CARRIED = {json.dumps({"workers": texts, "files": bytes_of}, ensure_ascii=False)};\n'


def digest(text):
    return 'sha256-' + base64.b64encode(hashlib.sha256(text.encode()).digest()).decode()


def whole(begin, title, why, workers, files):
    """The file: it begins with a module, and carries workers and files along. `why` is shown if the script doesn't run."""
    script = '\n' + carried(workers, files) + script_of(begin)
    style = '\n' + text_of('style.css') + text_of('tables.css')
    if '</script' in script or '<!--' in script or '</style' in style:
        sys.exit('a module or the style ends the element that it stands in')
    policy = (f"default-src 'none'; script-src '{digest(script)}' 'wasm-unsafe-eval'; worker-src blob:; style-src '{digest(style)}'; img-src blob:; "
              "base-uri 'none'; form-action 'none'; require-trusted-types-for 'script'; trusted-types fairsplit-workers")
    return f'''<!doctype html>
<html lang="en">
<meta charset="utf-8">
<meta http-equiv="Content-Security-Policy" content="{policy}">
<meta name="viewport" content="width=device-width, initial-scale=1">
<meta name="color-scheme" content="light dark">
<title>{title}</title>
<style>{style}</style>
<body>
<header class="site"><span id="languages"></span></header>
<main id="main"><h1>{title}</h1><p>{why}</p></main>
<p id="live" class="sr" role="status" aria-live="polite"></p>
<script type="module">{script}</script>
</body>
</html>
'''
