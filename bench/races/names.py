"""A server of names: a claim looks and stores without a lock. Python's lock changes threads each 5 milliseconds alone."""
import json, socketserver, sys


class Names(set):
    reset = lambda self: self.clear() is None
    claimed = set.__contains__

    def claim(self, name):
        is_free = name not in self
        if is_free:
            self.add(name)
        return is_free


class Connection(socketserver.StreamRequestHandler):
    disable_nagle_algorithm = True

    def handle(self):
        for line in self.rfile:
            at, name, *arguments = line.decode().split()
            answer = getattr(objects[int(at)], name)(*arguments)
            self.wfile.write(json.dumps(answer).encode() + b"\n")


class Server(socketserver.ThreadingTCPServer):
    daemon_threads = allow_reuse_address = True


objects = [Names() for _ in range(64)]
Server(("127.0.0.1", int(sys.argv[1])), Connection).serve_forever()
