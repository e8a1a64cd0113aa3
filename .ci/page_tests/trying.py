"""A part of rung (a) of .ci/page, with Python only, if the program is there: `page/try` serves the page with its policy and the host behind it, no other
file can be reached, and it leaves nothing behind."""
import http.client
import json
import os
import shutil
import signal
import socket
import subprocess
import sys
import tempfile
import time

from rig import PAGE, free_port, policy, wait_for

right = wrong = 0


def same(what, got, wanted):
    global right, wrong
    if got == wanted:
        right += 1
    else:
        wrong += 1
        print(f'trying: {what} gives {got!r} and not {wanted!r}')


def ask(port, method, path, body=None, key=None, length=None):
    """Status, fields and content of a reply."""
    link = http.client.HTTPConnection('127.0.0.1', port, timeout=60)
    fields = {**({'x-key': key} if key else {}), **({'Content-Length': length} if length else {})}
    link.request(method, path, body, fields)
    reply = link.getresponse()
    content = reply.read()
    link.close()
    return reply.status, {name.lower(): value for name, value in reply.getheaders()}, content


def serve(port):
    """What is served, while page/try runs."""
    lines = {path: {name: value for of, name, value in policy() if of == path} for path in ('/', '/instances')}
    for path, kind in (('/', 'text/html'), ('/js/main.js', 'text/javascript'), ('/style.css', 'text/css'), ('/icon.svg', 'image/svg+xml')):
        status, fields, content = ask(port, 'GET', path)
        same(f'the status of {path}', status, 200)
        same(f'the type of {path}', fields['content-type'].split(';')[0], kind)
        same(f'the policy of {path}', {name: fields.get(name.lower()) for name in lines['/']}, lines['/'])
        with open(os.path.join(PAGE, path[1:] or 'index.html'), 'rb') as file:
            same(f'the bytes of {path}', content == file.read(), True)
    for path, place in (('/help/members.html', 'site/members.html'), ('/help/help.css', 'site/help.css'), ('/pictures/step-1.png', 'pictures/step-1.png')):
        status, fields, content = ask(port, 'GET', path)
        with open(os.path.join(PAGE, '../docs', place), 'rb') as file:
            same(f'the reply to {path}', (status, content == file.read()), (200, True))
        same(f'the policy of {path}', fields['content-security-policy'], lines['/']['Content-Security-Policy'])
    for path in ('/../README.md', '/..%2fREADME.md', '/help/../../README.md', '/help/..%2fMEMBERS.md', '/js/', '/help/', '/nothing'):
        status, fields, _ = ask(port, 'GET', path)
        same(f'the status of {path}', status, 404)
        same(f'the policy of {path}', fields.get('content-security-policy'), lines['/']['Content-Security-Policy'])
    creation = {'kind': 'rent', 'title': 'Flat', 'members': ['Ann', 'Ben'], 'rooms': ['A', 'B'], 'rent': 900, 'deadline': '2126-03-01T12:00:00Z', 'tag': 'flat-of-ann-and-ben'}
    status, fields, content = ask(port, 'POST', '/instances', json.dumps(creation))
    same('a creation', (status, fields['content-type']), (201, 'application/json'))
    same('the policy of the routes', {name: fields.get(name.lower()) for name in lines['/instances']}, lines['/instances'])
    made = json.loads(content)
    same('a round', json.loads(ask(port, 'GET', '/instances/1', key=made['keys'][0])[2])['you'], 1)
    same('the head of a round', ask(port, 'HEAD', '/instances/1', key=made['keys'][0])[::2], (200, b''))
    same('a wrong key', ask(port, 'GET', '/instances/1', key='0' * 64)[0], 403)
    same('a bid', ask(port, 'POST', '/instances/1/bids', '{"turn":1,"values":[600,300]}', made['keys'][0])[0], 200)
    same('a long body', ask(port, 'POST', '/instances', b'', length='65537')[0], 413)
    same('a file that is posted to', ask(port, 'POST', '/index.html', b'x')[0], 405)


def children_of(parent):
    """The processes that page/try started."""
    found = []
    for pid in filter(str.isdigit, os.listdir('/proc')):
        try:
            with open(f'/proc/{pid}/status', encoding='utf-8') as file:
                if f'\nPPid:\t{parent}\n' in file.read():
                    found.append(pid)
        except OSError:  # it has ended
            pass
    return found


def main():
    place = tempfile.mkdtemp(prefix='fairsplit-trying-')
    port = free_port()
    words = [sys.executable, os.path.join(PAGE, 'try')]
    same('no words', subprocess.run(words, capture_output=True, check=False).returncode, 1)
    trial = subprocess.Popen([*words, str(port)], stdout=subprocess.PIPE, text=True, env={**os.environ, 'TMPDIR': place})
    try:
        same('the line', trial.stdout.readline().startswith(f'Open http://127.0.0.1:{port}/'), True)
        wait_for(port)
        serve(port)
        same('a port that is taken', subprocess.run([*words, str(port)], capture_output=True, check=False).returncode, 1)
        children = children_of(trial.pid)
        same('processes beside it', len(children), 1)
        trial.send_signal(signal.SIGINT)
        same('the status at its end', trial.wait(60), 0)
        time.sleep(0.1)
        same('the host has ended', [pid for pid in children if os.path.exists(f'/proc/{pid}')], [])
        same('folders that are left', os.listdir(place), [])
        with socket.create_server(('127.0.0.1', port)):
            pass
    finally:
        if trial.poll() is None:
            trial.terminate()
            trial.wait()
        shutil.rmtree(place)
    print(f'trying: {right} right, {wrong} wrong')
    sys.exit(wrong > 0)


if __name__ == '__main__':
    main()
