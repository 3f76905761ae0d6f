#!/usr/bin/env python3
"""A server and a client at a coordinator, in plain Python after docs/PROTOCOL.md: the server registers, the client finds it.

    examples/find_server.py 127.0.0.1:3976 3979 [NAME]

The second word is the port at which the server's game listens. With a NAME the client then joins the game there.
"""
import socket
import struct
import sys

coordinator, coordinator_port = sys.argv[1].split(":")
game_port = int(sys.argv[2])


def text(words):
    return words.encode() + b"\0"


class Link:
    """A connection over which packets go."""

    def __init__(self, host, port):
        self.link = socket.create_connection((host, int(port)), timeout=8)
        self.held = b""

    def say(self, kind, body):
        self.link.sendall(struct.pack("<HB", len(body) + 3, kind) + body)

    def hear(self, wanted):
        """The body of the next packet, which has to be of this type."""
        while len(self.held) < 2 or len(self.held) < struct.unpack_from("<H", self.held)[0]:
            if not (piece := self.link.recv(4096)):
                sys.exit(f"the connection ended before packet {wanted} came")
            self.held += piece
        size = struct.unpack_from("<H", self.held)[0]
        kind, body, self.held = self.held[2], self.held[3:size], self.held[size:]
        if kind != wanted:
            sys.exit(f"packet {kind} {body.hex()} came instead of {wanted}")
        return body


server = Link(coordinator, coordinator_port)
server.say(1, b"\1\1" + struct.pack("<H", game_port) + text("") + text(""))  # SERVER_REGISTER: public, no code yet
code, secret, _ = server.hear(2).split(b"\0", 2)  # GC_REGISTER_ACK
print("the server got the code", code.decode())
server.say(3, b"\1" + text("Game") + text("13.4") + bytes([0, 25, 0, 0]) + struct.pack("<I", 0))  # SERVER_UPDATE

client = Link(coordinator, coordinator_port)
found = []
while code not in found:  # the update goes over a link of its own, so it may come after a listing
    client.say(4, b"\1" + text("13.4"))  # CLIENT_LISTING
    while (body := client.hear(5))[:2] != b"\0\0":  # GC_LISTING, until one of none
        found.append(body[2:].split(b"\0")[0])
print("the client sees the codes", *sorted({one.decode() for one in found}))

client.say(6, b"\1" + code + b"\0")  # CLIENT_CONNECT
token, asked, _ = client.hear(7).split(b"\0", 2)  # GC_CONNECTING
named, rest = client.hear(11).split(b"\0", 1)  # GC_DIRECT_CONNECT: the token, 1, host and port
where, place = rest[1:].split(b"\0", 1)
client.say(10, b"\1" + token + b"\0")  # CLIENT_CONNECTED
if (asked, named, struct.unpack("<H", place)[0]) != (code, token, game_port):
    sys.exit("the client did not find the server")
print(f"the client is told to connect to {where.decode()}:{game_port}")
if sys.argv[3:]:
    game = Link(where.decode(), game_port)
    game.say(2, text("13.4") + struct.pack("<I", 13) + text(sys.argv[3]) + b"\xff")  # CLIENT_JOIN, of no company
    print("it joined the game there as client", *struct.unpack_from("<I", game.hear(12)))  # SERVER_WELCOME
