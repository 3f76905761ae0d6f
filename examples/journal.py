#!/usr/bin/env python3
"""Plays the journals of reports again, in plain Python after docs/RULES.md and docs/MAPS.md alone:

    examples/journal.py SCRIPT..

A script here ends with its report, as the scripts of this folder do. From the settings and the report's `entry` lines alone the world of the
last frame is computed, and compared with the report's `server`, `company` and `sign` lines; the worlds of clients that run are compared
with that of the journal at their own frames. It says for each script that differs where, and ends with 1 then.
"""
import struct
import sys

WORDS = 1 << 32
MOST_MONEY = 9_000_000_000_000_000


def turned(word, by):
    return (word >> by | word << 32 - by) % WORDS


class World:
    def __init__(self, seed):
        self.words, self.day, self.part, self.paused, self.companies, self.signs = (seed, seed), 0, 0, False, {}, []

    def draw(self):
        s, t = self.words
        self.words = ((s + turned(t ^ 0x1234567F, 7) + 1) % WORDS, (turned(s, 3) - 1) % WORDS)
        return self.words[1]

    def frame(self):
        if self.paused:
            return
        self.draw()
        self.part += 1
        if self.part == 74:
            self.part, self.day = 0, min(self.day + 1, WORDS - 1)
            for number in sorted(self.companies):
                self.companies[number]["money"] += self.draw() * 1001 >> 32
            for company in self.companies.values():
                if self.day % 30 == 0:
                    company["money"] -= company["loan"] // 600
                company["money"] = max(-MOST_MONEY, min(MOST_MONEY, company["money"]))

    def do(self, company, code, number, to, text):
        """A command that is done in a frame; one that is refused changes nothing."""
        mine = self.companies.get(company)
        if code <= 6 and mine is None:
            return
        others = [it["name"] for place, it in self.companies.items() if place != company]
        if code == 0 and 0 < number and number % 10000 == 0 and mine["loan"] + number <= mine["most"] and mine["money"] + number <= MOST_MONEY:
            mine["loan"] += number
            mine["money"] += number
        elif code == 1 and 0 < number <= mine["loan"] and number % 10000 == 0 and number <= mine["money"]:
            mine["loan"] -= number
            mine["money"] -= number
        elif code == 2 and 1 <= number <= 20_000_000 and to in self.companies and to != company:
            if mine["money"] - mine["loan"] >= number and self.companies[to]["money"] + number <= MOST_MONEY:
                mine["money"] -= number
                self.companies[to]["money"] += number
        elif code == 3 and number < 1 << 20 and text and len(self.signs) < 1000:
            taken = {sign["id"] for sign in self.signs}
            free = next(it for it in range(1000) if it not in taken)
            self.signs.append({"id": free, "owner": company, "tile": number, "text": text})
            self.signs.sort(key=lambda sign: sign["id"])
        elif code == 4:
            for sign in [it for it in self.signs if it["id"] == number and it["owner"] == company]:
                sign["text"] = text
                self.signs = [it for it in self.signs if it["text"]]
        elif code == 5 and text and text not in others:
            mine["name"] = text
        elif code == 6 and text:
            mine["president"] = text
        elif code == 7 and number <= 1:
            self.paused = number == 1
        elif code == 8 and len(self.companies) < 15:
            place = next(it for it in range(15) if it not in self.companies)
            names = {it["name"] for it in self.companies.values()}
            name = next(it for it in (b"Company %d" % m for m in range(1, 17)) if it not in names)
            self.companies[place] = {"money": 100000, "loan": 100000, "most": 300000, "name": name, "president": b"President"}

    def read(self, map):
        """The world that a map of either version tells."""
        version = struct.unpack_from(">I", map, 4)[0] >> 16
        self.day, self.part, self.paused = struct.unpack_from(">IBB", map, 16)
        self.words = struct.unpack_from(">II", map, 30)
        place = 46

        def read(form):
            nonlocal place
            made = struct.unpack_from(">" + form, map, place)
            place += struct.calcsize(">" + form)
            return made

        def text():
            nonlocal place
            length = map[place]
            place += 1 + length
            return map[place - length : place]

        for _ in range(*read("B")):
            number, money, loan = read("BqI")
            (most,) = read("I") if version == 2 else (300000,)
            self.companies[number] = {"money": money, "loan": loan, "most": most, "name": text(), "president": text()}
        read("II")
        for _ in range(*read("H")):
            id, owner, tile = read("HBI")
            self.signs.append({"id": id, "owner": owner, "tile": tile, "text": text()})

    def lines(self):
        """What a report tells of it: words and time, and then companies and signs."""
        first, second = self.words
        told = [f"{first:08x} {second:08x} {self.day} {self.part} {int(self.paused)}"]
        for number, it in sorted(self.companies.items()):
            told.append(f"company {number} {it['money']} {it['loan']} {it['name'].hex()} {it['president'].hex()}")
        return told + [f"sign {it['id']} {it['owner']} {it['tile']} {it['text'].hex()}" for it in self.signs]


def settings(lines):
    world = World(0)
    for line in lines:
        if line.startswith("set seed "):
            world.words = (int(line.split()[2]),) * 2
    for line in lines:
        if line.startswith("set map "):
            world.read(bytes.fromhex(line.split()[2]))
    return world


def world_at(lines, entries, frame):
    world, place = settings(lines), 0
    for number in range(1, frame + 1):
        while place < len(entries) and entries[place][0] == number:
            world.do(*entries[place][1:])
            place += 1
        world.frame()
    return world


def told_worlds(report):
    """The worlds that a report tells: who is told of, at which frame, and the lines."""
    found = []
    for line in report:
        words = line.split(" ")
        if words[0] == "server":
            found.append(("the server", int(words[1]), [" ".join(words[3:])]))
        elif words[0] == "client" and words[2] == "running":
            found.append((f"client {words[1]}", int(words[3]), [" ".join(words[4:])]))
        elif words[0] in ("company", "sign"):
            found[-1][2].append(line)
    return found


def faults(path):
    lines = open(path, encoding="utf-8").read().splitlines()
    report = [line[2:] for line in lines if line.startswith("= ")]
    entries = []
    for line in report:
        if line.startswith("entry "):
            frame, _, company, code, number, to, text = line.split(" ")[1:]
            entries.append((int(frame), int(company), int(code), int(number), int(to), b"" if text == "-" else bytes.fromhex(text)))
    for who, frame, told in told_worlds(report):
        if (made := world_at(lines, entries, frame).lines()) != told:
            yield f"{path}: {who} at frame {frame}: {told[0]} is told, and the journal makes {made[0]}" if made[0] != told[0] else f"{path}: {who} at frame {frame}: companies or signs"


found = [fault for path in sys.argv[1:] for fault in faults(path)]
print("\n".join(found) or f"{len(sys.argv) - 1} journals make the worlds that their reports tell")
sys.exit(bool(found))
