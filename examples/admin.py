#!/usr/bin/env python3
"""An admin of a game in plain Python, after docs/PROTOCOL.md alone: it joins, polls, prints companies and clients, and quits.

    examples/admin.py 127.0.0.1:3977 PASSWORD [CONSOLE COMMAND]
"""
import socket
import struct
import sys

host, port = sys.argv[1].split(":")
link = socket.create_connection((host, int(port)), timeout=5)


def text(words):
    return words.encode() + b"\0"


def say(kind, body=b""):
    link.sendall(struct.pack("<HB", len(body) + 3, kind) + body)


def packets():
    held = b""
    while piece := link.recv(4096):
        held += piece
        while len(held) >= 2 and len(held) >= (size := struct.unpack_from("<H", held)[0]):
            yield held[2], held[3:size]
            held = held[size:]


def row(form, body, texts):
    """The numbers of a form, and then texts that end with a zero byte; what is behind them is left."""
    size = struct.calcsize(form)
    return [*struct.unpack_from(form, body), *(words.decode() for words in body[size:].split(b"\0")[:texts])]


say(0, text(sys.argv[2]) + text("admin.py") + text("1"))  # JOIN
for kind in (2, 3, 1):  # POLL companies, their money, clients; all of each
    say(3, struct.pack("<BI", kind, 0xFFFFFFFF))
if sys.argv[3:]:
    say(5, text(sys.argv[3]))  # RCON
say(7, struct.pack("<I", 1))  # PING: its PONG stands behind all answers
names, money, clients, console = {}, {}, [], []
for kind, body in packets():
    if kind in (100, 101, 102):  # FULL, BANNED, ERROR
        sys.exit(f"the server ended it: packet {kind} {body.hex()}")
    elif kind == 104:  # WELCOME
        print("joined", row("", body, 2)[0])
    elif kind == 114:  # COMPANY_INFO
        company, name, president = row("<B", body, 2)
        names[company] = (name, president)
    elif kind == 117:  # COMPANY_ECONOMY
        company, *money[company] = row("<BqI", body, 0)
    elif kind == 109:  # CLIENT_INFO
        client, name = row("<I", body, 1)
        clients.append((client, name, body[-1]))
    elif kind == 120:  # a line of the console
        console.append(row("<H", body, 1)[1])
    elif kind == 126:  # PONG
        say(1)  # QUIT
        break
    elif kind == 106:  # SHUTDOWN: the game is over
        break
print("company  money       loan        name, president")
for company, (name, president) in sorted(names.items()):
    print(f"{company:<9}{money[company][0]:<12}{money[company][1]:<12}{name}, {president}")
print("client   company  name")
for client, name, company in clients:
    print(f"{client:<9}{'-' if company == 255 else company:<9}{name}")
for line in console:
    print("console:", line)
