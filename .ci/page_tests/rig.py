"""What stands behind the browsers: a host, a proxy between that can lose replies, and nginx in front, with TLS where openssl is there. All of it listens
on 127.0.0.1, on free ports, in a folder of its own, and is ended by `end`."""
import os
import shutil
import socket
import subprocess
import sys
import tempfile
import threading
import time

HERE = os.path.dirname(os.path.abspath(__file__))
sys.path.insert(0, os.path.join(HERE, '..'))
from host import Host, free_port, wait_for  # noqa: E402
PAGE = os.path.join(HERE, '../../page')
DOCS = os.path.join(HERE, '../../docs')
NGINX = shutil.which('nginx') or (os.access('/usr/sbin/nginx', os.X_OK) and '/usr/sbin/nginx')


def policy():
    """The header lines of page/policy.txt: [(path, name, value)]."""
    rows = []
    with open(os.path.join(PAGE, 'policy.txt'), encoding='utf-8') as file:
        for line in file:
            if not line.startswith('#'):
                path, field = line.strip().split(' ', 1)
                rows.append((path, *field.split(': ', 1)))
    return rows


class Lossy(threading.Thread):
    """Between nginx and the host: sends one request a connection on. `lose` replies to POSTs are lost behind the host, `refuse` requests before it, and
    while `deaf` no reply comes to any; each takes `slow` seconds more. `alter` makes another body of that of a reply, or another status and body, by the first line of its request."""

    def __init__(self, host_port):
        super().__init__(daemon=True)
        self.lose = self.refuse = 0
        self.deaf = False
        self.slow = 0
        self.alter = None
        self.seen = []
        self.host_port = host_port
        self.listener = socket.create_server(('127.0.0.1', 0))
        self.port = self.listener.getsockname()[1]

    def run(self):
        while True:
            client, _ = self.listener.accept()
            threading.Thread(target=self.serve, args=(client,), daemon=True).start()

    def request(self, client):
        """The head and the body of a request."""
        data = b''
        while b'\r\n\r\n' not in data:
            more = client.recv(65536)
            if not more:
                return data, b''
            data += more
        head, body = data.split(b'\r\n\r\n', 1)
        length = next((int(line.split(b':')[1]) for line in head.split(b'\r\n') if line.lower().startswith(b'content-length')), 0)
        while len(body) < length:
            body += client.recv(65536)
        return head, body

    def altered(self, first, reply):
        """The reply with another body, where there is to be one."""
        head, body = reply.split(b'\r\n\r\n', 1)
        other = self.alter(first, body)
        if other is None or b' 200 ' not in head.split(b'\r\n')[0]:
            return reply
        status, *lines = [line for line in head.split(b'\r\n') if not line.lower().startswith(b'content-length')]
        if isinstance(other, tuple):
            status, other = other
        return b'\r\n'.join([status, *lines, b'Content-Length: %d' % len(other)]) + b'\r\n\r\n' + other

    def serve(self, client):
        client.settimeout(90)
        try:
            head, body = self.request(client)
            first = head.split(b'\r\n')[0].decode()
            self.seen.append((first, head.decode(), body.decode()))
            post = first.startswith('POST')
            if self.deaf or (post and self.refuse > 0):
                self.refuse -= post and not self.deaf
                return
            time.sleep(self.slow)
            lines = [line for line in head.split(b'\r\n') if not line.lower().startswith(b'connection')] + [b'Connection: close']
            reply = b''
            with socket.create_connection(('127.0.0.1', self.host_port), 90) as host:
                host.sendall(b'\r\n'.join(lines) + b'\r\n\r\n' + body)
                while more := host.recv(65536):
                    reply += more
            if post and self.lose > 0:
                self.lose -= 1
                return
            client.sendall(self.altered(first, reply) if self.alter else reply)
        except OSError:
            pass
        finally:
            client.close()


class Rig:
    """Hosts behind nginx, each at a path of its own: `url` is the address of the page for the one of the tests, `next_url` for that of `room`."""
    path = '/h7/'
    next_path = '/h8/'

    def __init__(self, program):
        self.folder = tempfile.mkdtemp(prefix='fairsplit-rig-')
        self.started = []
        try:
            self.start(program)
        except BaseException:
            self.end()
            raise

    def start(self, program):
        self.lossy = Lossy(self.host(program, 'host'))
        self.lossy.start()
        self.next_port = self.host(program, 'next')
        port = free_port()
        tls = self.certificate()
        with open(os.path.join(self.folder, 'nginx.conf'), 'w', encoding='utf-8') as file:
            file.write(self.configuration(port, tls))
        self.begin([NGINX, '-c', os.path.join(self.folder, 'nginx.conf'), '-p', self.folder], stderr=subprocess.DEVNULL)
        wait_for(port)
        name = f'http{"s" if tls else ""}://127.0.0.1:{port}'
        self.url, self.next_url = name + self.path, name + self.next_path

    def host(self, program, name):
        """Starts a host, and answers its port."""
        home = os.path.join(self.folder, name)
        os.mkdir(home)
        subprocess.run([program, 'init', os.urandom(32).hex()], cwd=home, check=True)
        host = Host(program, home, workers=2)
        self.started.append(host.process)
        return host.port

    def begin(self, words, **more):
        process = subprocess.Popen(words, stdout=subprocess.DEVNULL, **more)
        self.started.append(process)

    def certificate(self):
        """Whether there is a certificate for TLS, made here."""
        if not shutil.which('openssl'):
            return False
        words = ['openssl', 'req', '-x509', '-newkey', 'rsa:2048', '-nodes', '-keyout', 'key.pem', '-out', 'cert.pem', '-days', '2', '-subj', '/CN=localhost',
                 '-addext', 'subjectAltName=IP:127.0.0.1']
        return subprocess.run(words, cwd=self.folder, stderr=subprocess.DEVNULL).returncode == 0

    def configuration(self, port, tls):
        """A configuration of nginx with the lines of the policy."""
        here = self.folder
        lines = {path: '\n'.join(f'add_header {name} "{value}" always;' for of, name, value in policy() if of == path) for path in ('/', '/instances')}
        return f'''{'user root;' if os.geteuid() == 0 else ''}
worker_processes 1;
daemon off;
pid {here}/nginx.pid;
error_log {here}/error.log;
events {{ worker_connections 256; }}
http {{
    include /etc/nginx/mime.types;
    access_log {here}/access.log;
    {' '.join(f'{what}_temp_path {here}/{what};' for what in ('client_body', 'proxy', 'fastcgi', 'uwsgi', 'scgi'))}
    server {{
        listen 127.0.0.1:{port}{' ssl' if tls else ''};
        {f'ssl_certificate {here}/cert.pem; ssl_certificate_key {here}/key.pem;' if tls else ''}
        client_max_body_size 64k;
        location = /hosts.json {{ return 200 '["{self.next_path}","{self.path}"]'; }}
        {self.place(self.path, self.lossy.port, lines)}
        {self.place(self.next_path, self.next_port, lines)}
    }}
}}
'''

    def place(self, path, port, lines):
        """The page with its help, and the routes of a host, at a path."""
        folders = {'': PAGE, 'help/': os.path.join(DOCS, 'site'), 'pictures/': os.path.join(DOCS, 'pictures')}
        return f'''location {path}instances {{
            proxy_pass http://127.0.0.1:{port}/instances;
            {lines['/instances']}
        }}
        {' '.join(self.files(path + below, folder, lines) for below, folder in folders.items())}'''

    def files(self, path, folder, lines):
        """The files of a folder at a path."""
        return f'''location {path} {{
            alias {os.path.realpath(folder)}/;
            gzip on;
            gzip_types text/css application/javascript application/wasm image/svg+xml;
            {lines['/']}
        }}'''

    def log(self):
        """What nginx wrote of the requests."""
        with open(os.path.join(self.folder, 'access.log'), encoding='utf-8') as file:
            return file.read()

    def end(self):
        for process in reversed(self.started):
            process.terminate()
            try:
                process.wait(30)
            except subprocess.TimeoutExpired:
                process.kill()
                process.wait()
        shutil.rmtree(self.folder, ignore_errors=True)
