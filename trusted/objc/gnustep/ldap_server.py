"""ldap_server.py PORT: as much of a server of LDAP as openvpn-auth-ldap asks. It knows one person,
alice, whose password is right, and one group."""
import socketserver
import sys

ENTRIES = {
    b"alice": b"uid=alice,ou=People,dc=example,dc=com",
    b"developers": b"cn=developers,ou=Groups,dc=example,dc=com",
}
BIND, UNBIND, SEARCH, COMPARE = 0x60, 0x42, 0x63, 0x6E
DONE = {BIND: 0x61, SEARCH: 0x65, COMPARE: 0x6F}
INVALID_CREDENTIALS, COMPARE_TRUE = 49, 6


def piece(tag, inner):
    size = len(inner)
    head = [tag, size] if size < 128 else [tag, 0x82, *size.to_bytes(2, "big")]
    return bytes(head) + inner


def answer(number, tag, inner):
    return piece(0x30, piece(2, number) + piece(tag, inner))


def result(number, kind, code):
    return answer(number, DONE[kind], piece(10, bytes([code])) + piece(4, b"") + piece(4, b""))


class Client(socketserver.StreamRequestHandler):
    def read_piece(self):
        """A tag and what it holds; none where the client has gone."""
        head = self.rfile.read(2)
        if len(head) < 2:
            return None, b""
        size = head[1]
        if size >= 128:
            size = int.from_bytes(self.rfile.read(size - 128), "big")
        return head[0], self.rfile.read(size)

    def handle(self):
        while True:
            tag, message = self.read_piece()
            if tag is None:
                return
            number, kind = message[2:2 + message[1]], message[2 + message[1]]
            asked = message[2 + message[1]:]
            if kind == BIND:
                is_right = asked.endswith((b"right", b"\x80\x00"))
                self.wfile.write(result(number, kind, 0 if is_right else INVALID_CREDENTIALS))
            elif kind == SEARCH:
                for word, name in ENTRIES.items():
                    if word in asked:
                        self.wfile.write(answer(number, 0x64, piece(4, name) + piece(0x30, b"")))
                self.wfile.write(result(number, kind, 0))
            elif kind == COMPARE:
                self.wfile.write(result(number, kind, COMPARE_TRUE))
            elif kind == UNBIND:
                return


socketserver.ThreadingTCPServer.allow_reuse_address = True
with socketserver.ThreadingTCPServer(("127.0.0.1", int(sys.argv[1])), Client) as server:
    server.serve_forever()
