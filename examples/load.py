#!/usr/bin/env python3
"""Measures a server over loopback: it starts one, and is its players and admins, in plain Python after docs/PROTOCOL.md.

    examples/load.py PROGRAM [PLAYERS]

PROGRAM is the built server (crates/tt_server/out/tt_server); PLAYERS is the greater of the two numbers of players, 255 if it is left out.
It prints one line for each figure. Figures of a machine that does something else beside it are worth little.
"""
import os
import selectors
import socket
import struct
import subprocess
import sys
import time

TICK = 0.030
now = time.perf_counter


def packet(kind, body=b""):
    return struct.pack("<HB", len(body) + 3, kind) + body


def text(words):
    return words.encode() + b"\0"


class Link:
    """A connection that is read without waiting; `heard` is called with each packet."""

    def __init__(self, port, heard=None):
        self.socket = socket.create_connection(("127.0.0.1", port), timeout=10)
        self.socket.setsockopt(socket.IPPROTO_TCP, socket.TCP_NODELAY, 1)
        self.held, self.heard, self.is_open = b"", heard or self.hear, True

    def say(self, data):
        self.socket.sendall(data)

    def pump(self):
        piece = self.socket.recv(1 << 18)
        self.is_open = bool(piece)
        held, place = self.held + piece, 0
        while len(held) >= place + 2 and len(held) >= place + (size := struct.unpack_from("<H", held, place)[0]):
            self.heard(held[place + 2], held[place + 3 : place + size])
            place += size
        self.held = held[place:]

    def close(self):
        self.socket.close()


class Player(Link):
    """A player that joins as a spectator, loads the map, and acknowledges frames."""

    def __init__(self, port, name):
        super().__init__(port)
        self.name, self.frames, self.welcomed, self.plays, self.acked, self.token = name, {}, None, None, 0, 0

    def join(self):
        self.asked = now()
        self.say(packet(2, text("13.4") + struct.pack("<I", 13) + text(self.name) + b"\xff"))

    def hear(self, kind, body):
        if kind == 12:  # WELCOME, answered by GETMAP
            self.welcomed = now()
            self.say(packet(13))
        elif kind == 15:  # MAP_BEGIN
            self.acked = struct.unpack_from("<I", body)[0]
        elif kind == 18:  # MAP_DONE, answered by MAP_OK
            self.say(packet(19))
        elif kind == 21:  # FRAME: it plays
            frame, permitted, token = struct.unpack("<IIB", body)
            first, self.plays = not self.plays, self.plays or now()
            self.frames[frame] = now()
            self.token = token or self.token
            if first or token or permitted >= self.acked + 74:
                self.say(packet(23, struct.pack("<IB", permitted, self.token)))
                self.acked, self.token = permitted, 0
        elif kind in (0, 3, 37):  # FULL, ERROR, SHUTDOWN
            sys.exit(f"load: player {self.name} was ended by packet {kind} {body.hex()}")


class Admin(Link):
    """An admin that joins, and counts pongs."""

    def __init__(self, port):
        super().__init__(port)
        self.pongs = []
        self.say(packet(0, text("secret") + text("load.py") + text("1")))
        self.ping(0)
        while not self.pongs:
            self.pump()

    def hear(self, kind, body):
        if kind == 126:
            self.pongs.append(now())

    def ping(self, number):
        self.say(packet(7, struct.pack("<I", number)))


def run(links, seconds, is_done=lambda: False, each=lambda: None):
    """Reads all links for so long, or until it is done."""
    chosen = selectors.DefaultSelector()
    for link in links:
        chosen.register(link.socket, selectors.EVENT_READ, link)
    end = now() + seconds
    while now() < end and not is_done():
        for key, _ in chosen.select(0.002):
            key.data.pump()
            if not key.data.is_open:
                chosen.unregister(key.data.socket)
        each()


def of(values, part):
    values = sorted(values)
    return values[min(len(values) - 1, int(len(values) * part))] * 1000


def tell(what, value):
    print(f"{what:<58}{value}", flush=True)


def memory(pid):
    return int(next(line for line in open(f"/proc/{pid}/status") if line.startswith("VmRSS")).split()[1]) / 1024


def processor(pid):
    fields = open(f"/proc/{pid}/stat").read().rsplit(")", 1)[1].split()
    return (int(fields[11]) + int(fields[12])) / os.sysconf("SC_CLK_TCK")


def frame_lags(players):
    """How long after the first player of a frame each of the others got it, and how long each gap between two frames of a player was."""
    first = {}
    for player in players:
        for frame, when in player.frames.items():
            first[frame] = min(when, first.get(frame, when))
    lags = [when - first[frame] for player in players for frame, when in player.frames.items()]
    order = sorted(first)
    gaps = [first[b] - first[a] for a, b in zip(order, order[1:]) if b == a + 1]
    return lags, gaps


def joined(game, count, mark):
    """So many players that join at once, and how long it took until all play."""
    players = [Player(game, f"{mark}{number}") for number in range(count)]
    begun = now()
    for player in players:
        player.join()
    run(players, 60, lambda: all(player.plays for player in players))
    return players, now() - begun, sum(1 for player in players if player.plays and player.plays - begun < 15)


def frames(players, count):
    for player in players:
        player.frames = {}
    run(players, 5)
    lags, gaps = frame_lags(players)
    tell(f"FRAME behind the first one told, {count} players, p50 and p95", f"{of(lags, 0.5):.2f} {of(lags, 0.95):.2f} ms")
    tell(f"from one FRAME to the next, {count} players, p50, p95, max", f"{of(gaps, 0.5):.1f} {of(gaps, 0.95):.1f} {of(gaps, 1):.1f} ms")


def main():
    program, most = sys.argv[1], int((sys.argv[2:] or ["255"])[0])
    free = []
    for _ in range(2):
        taken = socket.create_server(("127.0.0.1", 0))
        free.append((taken.getsockname()[1], taken))
    for _, taken in free:
        taken.close()
    game, side = (port for port, _ in free)
    server = subprocess.Popen(
        [program, f"127.0.0.1:{game}", f"127.0.0.1:{side}", "--clients", "255", "--admin-password", "secret"],
        stdout=subprocess.PIPE, stderr=subprocess.DEVNULL,
    )
    for _ in range(100):
        try:
            socket.create_connection(("127.0.0.1", side)).close()
            break
        except OSError:
            time.sleep(0.05)
    time.sleep(2)
    begun, used = now(), processor(server.pid)
    time.sleep(5)
    tell("resident memory, nobody there", f"{memory(server.pid):.1f} MB")
    tell("processor, nobody there", f"{(processor(server.pid) - used) / (now() - begun):.3f} of a core")

    admin, pings = Admin(side), []
    for number in range(2000):
        begun, count = now(), len(admin.pongs)
        admin.ping(number)
        while len(admin.pongs) == count:
            admin.pump()
        pings.append(now() - begun)
    tell("PING of an admin, one after another, p50 and p95", f"{of(pings, 0.5):.3f} {of(pings, 0.95):.3f} ms")
    tell("the same, in a second", f"{len(pings) / sum(pings):.0f}")

    waits = []
    for number in range(100):
        player = Player(game, f"w{number}")
        player.join()
        run([player], 5, lambda: player.welcomed)
        waits.append(player.welcomed - player.asked)
        player.say(packet(35))
        player.close()
    tell("JOIN to WELCOME, p50 and p95", f"{of(waits, 0.5):.2f} {of(waits, 0.95):.2f} ms")
    time.sleep(0.3)

    few, _, _ = joined(game, 25, "f")
    frames(few, 25)
    many, took, soon = joined(game, 75, "m")
    for player in few + many:
        player.say(packet(35))
        player.close()
    time.sleep(0.5)
    hundred, took, soon = joined(game, 100, "h")
    tell("100 joins at once: all play after, and of 100 within 15 s", f"{took:.2f} s, {soon}")
    tell("resident memory, 100 players", f"{memory(server.pid):.1f} MB")
    begun, used = now(), processor(server.pid)
    run(hundred, 5)
    tell("processor, 100 players", f"{(processor(server.pid) - used) / (now() - begun):.3f} of a core")
    rest, took, _ = joined(game, most - 100, "r")
    frames(hundred + rest, most)
    tell(f"resident memory, {most} players", f"{memory(server.pid):.1f} MB")
    for player in rest:
        player.say(packet(35))
        player.close()
    time.sleep(0.5)

    # A burst of one admin, while another one and a hundred players go on.
    other, late = Admin(side), []
    for player in hundred:
        player.frames = {}
    burst = b"".join(packet(7, struct.pack("<I", number)) for number in range(60000))
    admin.pongs, sent, asked = [], [0], [now()]
    admin.socket.setblocking(False)
    begun = now()

    def drive():
        if sent[0] < len(burst):
            try:
                sent[0] += admin.socket.send(burst[sent[0] : sent[0] + (1 << 16)])
            except BlockingIOError:
                pass
        if other.pongs and other.pongs[-1] >= asked[-1]:
            late.append(other.pongs[-1] - asked[-1])
            asked.append(now())
            other.ping(1)

    other.ping(1)
    run([admin, other, *hundred], 60, lambda: len(admin.pongs) >= 60000, drive)
    tell("60,000 PINGs in one burst, until the last PONG", f"{now() - begun:.2f} s")
    _, gaps = frame_lags(hundred)
    tell("meanwhile another admin's PING, p50 and max", f"{of(late, 0.5):.2f} {of(late, 1):.2f} ms")
    tell("meanwhile from one FRAME to the next, max", f"{of(gaps, 1):.1f} ms" if gaps else "-")
    admin.socket.setblocking(True)
    admin.say(packet(5, text("quit")))
    summary = server.communicate(timeout=20)[0].decode()
    tell("the server's status, and connections of its summary", f"{server.returncode}, {summary.splitlines()[0]}")


main()
