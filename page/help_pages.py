"""Makes the help pages from the Markdown of docs/: the same text as HTML, with next and previous, without scripts, in the style of the page. page/make
uses it.

The pages lie beside the page under help/, so their style is ../style.css, and their pictures are ../pictures/. Whoever reads them has a server and no copy
of this repository. So what stands between the two comments of HIDDEN is left out, a link to a document that is no help page becomes its words, and a page
that still names a file of the repository is refused. It needs python3-markdown, as Debian has it.
"""
import html
import os
import re
import sys

try:
    import markdown
    from markdown.extensions.toc import slugify_unicode
except ImportError:
    markdown = None

SYSTEM_PYTHON = '/usr/bin/python3'
DOCS = os.path.normpath(os.path.join(os.path.dirname(os.path.abspath(__file__)), '../docs'))
SITE = os.path.join(DOCS, 'site')
# The pages of each language in their order: their source, with the section if it isn't the whole document, and their file.
PAGES = {
    'en': [('MEMBERS.md', 'members.html'), ('ORGANISERS.md', 'organisers.html'), ('CERTIFICATES.md', 'certificates.html'), ('REFERENCE.md#Limits', 'limits.html')],
    'de': [('MEMBERS.de.md', 'members.de.html'), ('ORGANISERS.de.md', 'organisers.de.html')],
}
# What only a reader of the repository gets.
HIDDEN = re.compile(r'[ \n]*<!-- only in the repository -->.*?<!-- everywhere -->', re.S)
# A name of a file or a directory of the repository.
NAMED = re.compile(r'\b[\w-]+\.(?:md|antt|rt|py|yaml)\b|\b(?:docs|crates|page|hosting|examples|python|include)/[\w.*-]+|\.ci/')
SAID = {'en': {'back': 'Previous: ', 'on': 'Next: ', 'start': 'To the start page', 'other': 'Deutsch'},
        'de': {'back': 'Zurück: ', 'on': 'Weiter: ', 'start': 'Zur Startseite', 'other': 'English'}}


def other_python():
    """Another Python of this machine, which may have what this one lacks; or None."""
    is_other = markdown is None and os.access(SYSTEM_PYTHON, os.X_OK) and os.path.realpath(sys.executable) != os.path.realpath(SYSTEM_PYTHON)
    return SYSTEM_PYTHON if is_other else None


def section_of(text, heading):
    """One section as a page of its own, without the last column of its tables, which names constants."""
    found = text.split(f'\n## {heading}\n')[1].split('\n## ')[0]
    rows = re.sub(r'^(\|[^|\n]*\|[^|\n]*\|)[^|\n]*\|$', r'\1', found, flags=re.M)
    return f'# {heading}\n' + re.sub(r'^##(#+ )', r'#\1', rows, flags=re.M)


def source(name):
    """The text of a document, or of its section, as a help page has it."""
    path, _, heading = name.partition('#')
    with open(os.path.join(DOCS, path), encoding='utf-8') as file:
        text = HIDDEN.sub('', file.read())
    return section_of(text, heading) if heading else text


def title_of(name):
    """The heading of a document, as text in HTML."""
    return html.escape(re.match(r'# (.*)', source(name))[1])


def linked(text, language):
    """Links to help pages lead to these, in the same language if they are there; those to other documents become their words."""
    targets = {name.replace('.de', ''): file for tongue in ('en', language) for name, file in PAGES[tongue]}

    def link(found):
        words, target, heading = found[1], found[2], found[3] or ''
        if re.match(r'[a-z]+:', target):
            return found[0]
        if target == '':
            return found[0]
        name = os.path.basename(target).replace('.de.md', '.md')
        section = f'{name}{heading.title()}'
        return f'[{words}]({targets[section]})' if section in targets else f'[{words}]({targets[name]}{heading})' if name in targets else words
    text = re.sub(r'!\[([^\]]*)\]\(pictures/', r'![\1](../pictures/', text)
    return re.sub(r'(?<!!)\[([^\]]+)\]\(([^)#\s]*)(#[^)\s]*)?\)', link, text)


def navigation(pages, at, language):
    """Previous and next, the start page, and the page in the other language."""
    said = SAID[language]
    links = [f'<a href="{pages[at - 1][1]}">{said["back"]}{title_of(pages[at - 1][0])}</a>'] if at else []
    links += [f'<a href="{pages[at + 1][1]}">{said["on"]}{title_of(pages[at + 1][0])}</a>'] if at + 1 < len(pages) else []
    other = pages[at][1].replace('.de.', '.') if language == 'de' else pages[at][1].replace('.html', '.de.html')
    links += [f'<a href="../">{said["start"]}</a>']
    if any(other == file for _, file in PAGES['en' if language == 'de' else 'de']):
        links.append(f'<a href="{other}" hreflang="{"en" if language == "de" else "de"}">{said["other"]}</a>')
    return '<nav><p>' + ' · '.join(links) + '</p></nav>'


def page(pages, at, language):
    """One help page."""
    name = pages[at][0]
    body = markdown.markdown(re.sub(r'^( {3,})(?=\S)', r'    ', linked(source(name), language), flags=re.M), extensions=['tables', 'fenced_code', 'toc'],
                             extension_configs={'toc': {'slugify': slugify_unicode}}, output_format='html')
    around = navigation(pages, at, language)
    return f'''<!doctype html>
<html lang="{language}">
<head>
<meta charset="utf-8">
<meta name="viewport" content="width=device-width, initial-scale=1">
<title>{title_of(name)}</title>
<link rel="icon" href="../icon.svg">
<link rel="stylesheet" href="../style.css">
<link rel="stylesheet" href="help.css">
</head>
<body>
<main>
{around}
{body}
{around}
</main>
</body>
</html>
'''


def named(text):
    """The files of the repository that a help page names."""
    return sorted(set(NAMED.findall(re.sub(r'<[^>]*>', ' ', text))))


def made():
    """All help pages: their texts, by their paths. A page that names a file of the repository ends all with an error."""
    pages_made = {os.path.join(SITE, target): page(pages, place, tongue) for tongue, pages in PAGES.items() for place, (_, target) in enumerate(pages)}
    strange = [f'{path} names {name}, which its reader does not have' for path, text in pages_made.items() for name in named(text)]
    if strange:
        sys.exit('\n'.join(strange))
    return pages_made
