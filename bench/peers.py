"""Peers on loopback for bench/calls and bench/session: a server that answers as it is told, Python's own, and nginx. As a program it is a
server that answers each request at once, and tells its port."""
import contextlib
import os
import socket
import struct
import subprocess
import sys
import threading
import time

HOST = "127.0.0.1"

# How long a peer waits for what a caller sends or takes.
PATIENCE = 120


def free_port():
    """A port on loopback that nobody listens on."""
    with socket.create_server((HOST, 0)) as listener:
        return listener.getsockname()[1]


def read_request(link):
    """The bytes of a request: its head, and a body of the length that it tells."""
    data = b""
    while b"\r\n\r\n" not in data:
        piece = link.recv(65536)
        if not piece:
            return data
        data += piece
    head = data.index(b"\r\n\r\n") + 4
    sizes = [int(it[15:]) for it in data[:head].split(b"\r\n") if it.lower().startswith(b"content-length:")]
    while len(data) < head + sum(sizes):
        piece = link.recv(65536)
        if not piece:
            return data
        data += piece
    return data


def whole(data):
    """Sends bytes at once, and closes."""
    return lambda link: link.sendall(data)


def dribble(data):
    """Sends bytes one at a time, and closes."""

    def send(link):
        link.setsockopt(socket.IPPROTO_TCP, socket.TCP_NODELAY, 1)
        for byte in data:
            link.sendall(bytes((byte,)))
            time.sleep(0.0005)

    return send


def slowly(data, seconds):
    """Waits so long before each half of the bytes."""

    def send(link):
        for half in (data[: len(data) // 2], data[len(data) // 2 :]):
            time.sleep(seconds)
            link.sendall(half)

    return send


def hold(data):
    """Sends bytes and then nothing, until the caller goes."""

    def send(link):
        link.sendall(data)
        while link.recv(65536):
            pass

    return send


def reset(data):
    """Sends bytes and resets the connection."""

    def send(link):
        link.sendall(data)
        time.sleep(0.05)
        link.setsockopt(socket.SOL_SOCKET, socket.SO_LINGER, struct.pack("ii", 1, 0))
        link.close()

    return send


class Peer:
    """A server that answers each request by the path of its target. `answers` has ways for each path, of which the last stays; `order` has
    the paths in the order in which requests came, and `requests` the bytes of those for a path, up to the end of the connection."""

    def __init__(self, address=(HOST, 0), family=socket.AF_INET):
        self.listener = socket.create_server(address, family=family, backlog=64)
        self.port = self.listener.getsockname()[1]
        self.answers, self.requests, self.order = {}, {}, []
        self.changed = threading.Condition()
        threading.Thread(target=self.serve, daemon=True).start()

    def serve(self):
        with contextlib.suppress(OSError):
            while True:
                link, _ = self.listener.accept()
                threading.Thread(target=self.talk, args=(link,), daemon=True).start()

    def talk(self, link):
        with link, contextlib.suppress(OSError):
            link.settimeout(PATIENCE)
            data = read_request(link)
            path = data.split(b" ")[1].split(b"?")[0].decode() if data.count(b" ") > 1 else ""
            place, way = self.arrived(path)
            with contextlib.suppress(OSError):
                way(link)
                link.shutdown(socket.SHUT_WR)
                while piece := link.recv(65536):
                    data += piece
            with self.changed:
                self.requests[path][place] = data
                self.changed.notify_all()

    def arrived(self, path):
        """Which request for a path it is, and the way of its answer."""
        with self.changed:
            self.order.append(path)
            self.requests.setdefault(path, []).append(None)
            self.changed.notify_all()
            ways = self.answers.get(path) or [whole(b"HTTP/1.1 404 Not Found\r\nContent-Length: 0\r\n\r\n")]
            return len(self.requests[path]) - 1, ways.pop(0) if len(ways) > 1 else ways[0]

    def came(self, path, count=1, seconds=10):
        """The requests for a path, once so many have come and all have ended."""
        with self.changed:
            there = lambda: len(self.requests.get(path, [])) >= count and None not in self.requests[path]
            self.changed.wait_for(there, seconds)
            return list(self.requests.get(path, []))

    def begun(self, path, seconds=10):
        """Whether a request for a path came."""
        with self.changed:
            return self.changed.wait_for(lambda: path in self.order, seconds)

    def close(self):
        self.listener.close()


class Closing:
    """A server that closes each connection at once."""

    def __init__(self):
        self.listener = socket.create_server((HOST, 0))
        self.port = self.listener.getsockname()[1]
        threading.Thread(target=self.serve, daemon=True).start()

    def serve(self):
        with contextlib.suppress(OSError):
            while True:
                self.listener.accept()[0].close()

    def close(self):
        self.listener.close()


class Full:
    """A listener that takes no more connections: its queue is full, and the kernel drops what asks for one."""

    def __init__(self):
        self.listener = socket.socket()
        self.listener.bind((HOST, 0))
        self.listener.listen(0)
        self.port = self.listener.getsockname()[1]
        self.links = []
        for _ in range(4):
            link = socket.socket()
            link.setblocking(False)
            link.connect_ex((HOST, self.port))
            self.links.append(link)
        time.sleep(0.1)

    def close(self):
        for link in (*self.links, self.listener):
            link.close()


class Server:
    """A process that serves on loopback."""

    def __init__(self, words, ports, log):
        self.log = log
        with open(log, "wb") as file:
            self.process = subprocess.Popen(words, stdin=subprocess.DEVNULL, stdout=file, stderr=file)
        for port in ports:
            self.wait(port)

    def wait(self, port):
        end = time.monotonic() + 10
        while time.monotonic() < end and self.process.poll() is None:
            with contextlib.suppress(OSError):
                socket.create_connection((HOST, port), timeout=1).close()
                return
            time.sleep(0.02)
        self.close()
        with open(self.log, errors="replace") as file:
            raise SystemExit(f"{self.process.args[0]} does not serve:\n{file.read()}")

    def close(self):
        self.process.terminate()
        self.process.wait()


def python_server(folder, log):
    """Python's http.server over a folder, and its port."""
    port = free_port()
    words = [sys.executable, "-m", "http.server", str(port), "--bind", HOST, "--directory", folder]
    return Server(words, [port], log), port


def nginx(program, folder, servers, ports):
    """nginx, with these blocks of `http`."""
    rooms = "".join(f"{it}_temp_path {folder}/{it};\n" for it in ("client_body", "proxy", "fastcgi", "uwsgi", "scgi"))
    text = f"""daemon off;
master_process off;
pid {folder}/nginx.pid;
error_log {folder}/nginx.error;
events {{}}
http {{
access_log off;
server_tokens off;
etag off;
absolute_redirect off;
default_type text/plain;
types {{ application/json json; text/plain txt; application/octet-stream bin; }}
{rooms}{servers}}}
"""
    path = os.path.join(folder, "nginx.conf")
    with open(path, "w") as file:
        file.write(text)
    return Server([program, "-p", folder, "-e", f"{folder}/nginx.error", "-c", path], ports, os.path.join(folder, "nginx.log"))


def certificate(folder, name):
    """A certificate for a name that signs itself, and its key: their paths."""
    paths = [os.path.join(folder, f"{name}.{len(os.listdir(folder))}.{it}") for it in ("pem", "key")]
    words = ["openssl", "req", "-x509", "-newkey", "rsa:2048", "-nodes", "-days", "2", "-subj", f"/CN={name}"]
    words += ["-addext", f"subjectAltName=DNS:{name}", "-out", paths[0], "-keyout", paths[1]]
    subprocess.run(words, check=True, stdin=subprocess.DEVNULL, stdout=subprocess.DEVNULL, stderr=subprocess.DEVNULL)
    return paths


class AtOnce:
    """A process that answers each request at once with `{"x":1}`, and closes."""

    def __init__(self):
        words = [sys.executable, os.path.abspath(__file__)]
        self.process = subprocess.Popen(words, stdin=subprocess.DEVNULL, stdout=subprocess.PIPE)
        self.port = int(self.process.stdout.readline())

    def close(self):
        self.process.terminate()
        self.process.wait()
        self.process.stdout.close()


def serve_at_once():
    listener = socket.create_server((HOST, 0), backlog=64)
    print(listener.getsockname()[1], flush=True)
    while True:
        link, _ = listener.accept()
        with link, contextlib.suppress(OSError):
            read_request(link)
            link.sendall(b'HTTP/1.1 200 OK\r\nContent-Type: application/json\r\nContent-Length: 7\r\n\r\n{"x":1}')


if __name__ == "__main__":
    serve_at_once()
