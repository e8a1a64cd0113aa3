#!/usr/bin/env python3
"""notebook.py NOTEBOOK: runs the cells of a notebook, and tells whether they give the output that it shows; with --write it writes what they give.

A cell shows what it prints, and the value of its last line, as a notebook does: no Jupyter is needed.
"""
import ast
import contextlib
import io
import json
import os
import sys


def ran(source, names):
    """The outputs of a cell."""
    tree, printed = ast.parse(source), io.StringIO()
    last = tree.body.pop() if tree.body and isinstance(tree.body[-1], ast.Expr) else None
    with contextlib.redirect_stdout(printed):
        exec(compile(tree, 'cell', 'exec'), names)
        value = eval(compile(ast.Expression(last.value), 'cell', 'eval'), names) if last else None
    if printed.getvalue():
        yield {'name': 'stdout', 'output_type': 'stream', 'text': printed.getvalue().splitlines(keepends=True)}
    if value is not None:
        data = {'text/plain': repr(value).splitlines(keepends=True)}
        if hasattr(value, '_repr_html_'):
            data['text/html'] = value._repr_html_().splitlines(keepends=True)
        yield {'data': data, 'metadata': {}, 'output_type': 'execute_result'}


def main(path, is_written):
    with open(path, encoding='utf-8') as file:
        notebook = json.load(file)
    os.chdir(os.path.dirname(os.path.abspath(path)))
    names, differ, count = {'__name__': '__main__'}, 0, 0
    for cell in notebook['cells']:
        if cell['cell_type'] != 'code':
            continue
        count += 1
        outputs = list(ran(''.join(cell['source']), names))
        for output in outputs:
            if output['output_type'] == 'execute_result':
                output['execution_count'] = count
        if (cell['outputs'], cell['execution_count']) != (outputs, count):
            differ += 1
            print(f'library: cell {count} of {path} gives another output than it shows')
        cell.update(outputs=outputs, execution_count=count)
    if is_written:
        with open(os.path.basename(path), 'w', encoding='utf-8') as file:
            json.dump(notebook, file, indent=1, ensure_ascii=False)
            file.write('\n')
        return 0
    print(f'library: {count} cells of {os.path.basename(path)}: {differ} differ from what they show')
    return bool(differ)


if __name__ == '__main__':
    words = [word for word in sys.argv[1:] if word != '--write']
    sys.exit(main(words[0], '--write' in sys.argv) if len(words) == 1 else __doc__)
