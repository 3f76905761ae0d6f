#!/usr/bin/env python3
"""Writes the worked games of crates/tt_rows as scripts, and compares what a program makes of them:

    examples/rows/make.py FOLDER crates/tt_replay/out/tt_replay

A worked game is a list of events with what each connection is told, the journal, the frames, and often the world that they come to. All of
that is computed by the checker from the rules' definitions alone. Here each game becomes a script, the program plays it, and its report
has to say just that; then the script is written with the report as its expected lines. A game that no script can say is named with the
reason. It reads the few forms in which these definitions are written, and does not know the rules.
"""
import pathlib
import re
import subprocess
import sys
import threading

TOP = pathlib.Path(__file__).resolve().parents[2]
ROWS = TOP / "crates/tt_rows"
CODES = ["IncreaseLoan", "DecreaseLoan", "Give", "PlaceSign", "RenameSign", "RenameCompany", "RenamePresident", "Pause", "NewCompany"]
SETTINGS = {  # the names of a setup's fields in scripts, in their order, with what they are where nothing is said
    "seed": ("seed", 0), "frame_freq": ("frame_freq", 0), "sync_freq": ("sync_freq", 100), "max_clients": ("clients", 25),
    "init": ("init", 100), "pass_limit": ("password", 65535), "download": ("download", 1000), "join": ("join", 500),
    "lag": ("lag", 500), "cost": ("cost", 1073741824), "password": ("pw", []), "admin_password": ("admin", []),
}  # fmt: skip
TOKEN = re.compile(r'\s+|--[^\n]*|("[^"]*")|([0-9]+)|(«\w+»|[^\W\d]\w*(?:-\w+)*)|(\+\+|∷|→|\[\]|\.\w+|.)')


class Unsayable(Exception):
    """Why a game can't be told by a script."""


# ---- reading definitions


def tokens(text):
    found = []
    for made in TOKEN.finditer(text):
        if made[1] or made[2] or made[3] or made[4]:
            found.append(made[0].strip("«»"))
    return found


class Reader:
    """One expression or equation, read from its tokens."""

    LEVELS = [["++", "∷"], ["+", "-"], ["*", "/", "%"]]

    def __init__(self, text):
        self.tokens, self.place = tokens(text), 0

    def next(self):
        return self.tokens[self.place] if self.place < len(self.tokens) else ""

    def take(self, wanted=None):
        token = self.next()
        if wanted and token != wanted:
            raise SyntaxError(f"{wanted} wanted, {token} found: {' '.join(self.tokens[:20])}")
        self.place += 1
        return token

    def expression(self, level=0):
        if self.next() == "let":
            self.take()
            name = self.take()
            self.take("=")
            value = self.expression()
            self.take("in")
            return ("let", name, value, self.expression())
        if level == len(self.LEVELS):
            return self.application()
        left = self.expression(level + 1)
        if level == 0 and self.next() in self.LEVELS[0]:
            return (self.take(), left, self.expression(0))
        while level and self.next() in self.LEVELS[level]:
            left = (self.take(), left, self.expression(level + 1))
        return left

    def application(self):
        made = self.atom()
        while self.next() and (self.next() in ("(", "[]", "record", "λ") or re.match(r'["\w]', self.next())) and self.next() not in ("in", "where"):
            made = ("call", made, self.atom())
        return made

    def atom(self):
        token = self.take()
        if token == "(":
            parts = [self.expression()]
            while self.next() == ",":
                self.take()
                if self.next() != ")":
                    parts.append(self.expression())
            self.take(")")
            made = parts[0] if len(parts) == 1 else ("tuple", parts)
        elif token == "record":
            base = None if self.next() == "{" else self.atom()
            self.take("{")
            fields = []
            while self.next() != "}":
                name = self.take()
                self.take("=")
                fields.append((name, self.expression()))
                if self.next() == ";":
                    self.take()
            self.take("}")
            made = ("record", base, fields)
        elif token == "[]":
            made = ("list",)
        elif token.startswith('"'):
            made = ("text", token[1:-1])
        elif token.isdigit():
            made = ("number", int(token))
        elif re.match(r"\w", token):
            made = ("name", token)
        else:
            raise SyntaxError(f"{token}: {' '.join(self.tokens[:20])}")
        while self.next().startswith(".") and len(self.next()) > 1:
            made = ("field", made, self.take()[1:])
        return made

    def pattern(self):
        token = self.take()
        if token != "(":
            return token
        head = self.take()
        made = ("suc", self.take()) if head == "suc" else (self.take("∷"), head, self.take())
        self.take(")")
        return made


def equations(path):
    """The equations of a file, by name: the file, their patterns and their expression."""
    found = {}
    for block in re.split(r"\n(?=[\w-])", path.read_text(encoding="utf-8")):
        block = re.sub(r"--[^\n]*", "", block).strip()
        if not block or re.match(r"(use|abbrev|pub|record|mod|module)\b", block):
            continue
        reader = Reader(block)
        try:
            name, patterns = reader.take(), []
            while reader.next() != "=":
                patterns.append(reader.pattern())
            reader.take("=")
            found.setdefault(name, []).append((path.stem, patterns, reader.expression()))
        except SyntaxError:
            pass  # a statement: no game is made of it
    return found


# ---- what they come to


def number_bytes(width, value):
    return list(value.to_bytes(width, "little"))


def start_world(setup):
    return world((setup["seed"], setup["seed"]), 0, 0, False, [], [])


def world(words, day, part, paused, companies, signs):
    return {"words": words, "day": day, "part": part, "paused": paused, "companies": dict(companies), "signs": signs}


def company(money, loan, name, president):
    return {"money": money, "loan": loan, "most": 300000, "name": name, "president": president}


PLAIN = {field: default for field, (_, default) in SETTINGS.items()}
GIVEN = {
    "codes": (1, lambda text: list(text.encode())),
    "hex": (1, lambda digits: list(bytes.fromhex(bytes(digits).decode()))),
    "to_le_bytes": (2, number_bytes), "w16": (0, 2), "w32": (0, 4),
    "replicate": (2, lambda n, one: [one] * n), "take": (2, lambda n, xs: xs[:n]), "drop": (2, lambda n, xs: xs[n:]),
    "length": (1, len), "decimal": (1, lambda n: list(str(n).encode())), "pos": (1, lambda n: n), "neg_ℤ": (1, lambda n: -n), "zero": (0, 0),
    "slice_index": (2, lambda xs, n: xs[n]), "suc": (1, lambda n: n + 1), "negsuc": (1, lambda n: -1 - n),
    "true": (0, True), "false": (0, False), "plain": (0, PLAIN), "Main": (0, "open"), "Side": (0, "side"),
    "Open": (2, lambda door, peer: ("open", door)), "Packet": (3, lambda conn, kind, body: ("bytes", conn, packet(kind, body))),
    "Broken": (1, lambda conn: ("bytes", conn, [2, 0])), "Shut": (1, lambda conn: ("shut", conn)),
    "Tick": (0, ("tick",)), "Stop": (0, ("stop",)), "world": (6, world), "company": (4, company),
    "sign": (4, lambda id, owner, tile, text: {"id": id, "owner": owner, "tile": tile, "text": text}),
    "made_from": (1, lambda setup: {"setup": setup, "start": start_world(setup)}),
    "flat_map": (2, lambda f, xs: [y for x in xs for y in f(x)]),
    **{code: (0, number) for number, code in enumerate(CODES)},
}  # fmt: skip


def packet(kind, body):
    return [*number_bytes(2, len(body) + 3), kind, *body]


class Values:
    """What names come to. A name means what its own file says, or else what another one does."""

    def __init__(self, files):
        self.files, self.kept, self.all = files, {}, {}
        for found in files.values():
            for name, made in found.items():
                self.all.setdefault(name, made)

    def equations(self, name, file):
        return self.files.get(file, {}).get(name) or self.all.get(name)

    def named(self, name, file):
        return self.of(("name", name), {"": file})

    def of(self, it, names):
        kind = it[0]
        if kind in ("number", "text"):
            return it[1]
        if kind == "list":
            return []
        if kind == "tuple":
            return tuple(self.of(part, names) for part in it[1])
        if kind == "let":
            return self.of(it[3], {**names, it[1]: self.of(it[2], names)})
        if kind == "field":
            whole = self.of(it[1], names)
            return whole[int(it[2])] if it[2].isdigit() else whole[it[2]]
        if kind == "record":
            base = dict(self.of(it[1], names)) if it[1] else {}
            return {**base, **{name: self.of(value, names) for name, value in it[2]}}
        if kind in ("++", "∷", "+", "-", "*", "/", "%"):
            left, right = self.of(it[1], names), self.of(it[2], names)
            return {
                "++": lambda: left + right, "∷": lambda: [left, *right], "+": lambda: left + right, "-": lambda: max(0, left - right),
                "*": lambda: left * right, "/": lambda: left // right, "%": lambda: left % right,
            }[kind]()  # fmt: skip
        if kind == "call":
            given = [it[2]]
            while it[1][0] == "call":
                it = it[1]
                given.insert(0, it[2])
            return self.called(it[1], [self.of(one, names) for one in given], names)
        return self.called(it, [], names)

    def called(self, head, given, names):
        name = head[1] if head[0] == "name" else None
        if name in names:
            return names[name](*given) if given else names[name]
        if name in GIVEN:
            count, made = GIVEN[name]
            if count == len(given):
                return made(*given) if count else made
            return made
        found = self.equations(name, names.get(""))
        if not found:
            raise Unsayable(f"{name or head} is not known")
        if not given and (found[0][0], name) in self.kept:
            return self.kept[found[0][0], name]
        for file, patterns, body in found:
            bound = self.matched(patterns, given)
            if bound is not None:
                made = self.of(body, {**bound, "": file})
                if not given:
                    self.kept[file, name] = made
                return made
        raise Unsayable(f"no equation of {name}")

    @staticmethod
    def matched(patterns, given):
        if len(patterns) != len(given):
            return None
        bound = {}
        for pattern, value in zip(patterns, given):
            if pattern in ("[]", "zero") or isinstance(pattern, str) and pattern.isdigit():
                if value != ([] if pattern == "[]" else 0 if pattern == "zero" else int(pattern)):
                    return None
            elif isinstance(pattern, str):
                bound[pattern] = value
            elif pattern[0] == "suc":
                if not value:
                    return None
                bound[pattern[1]] = value - 1
            else:
                if not value:
                    return None
                bound[pattern[1]], bound[pattern[2]] = value[0], value[1:]
        return bound


# ---- scripts


def digits(listed):
    return bytes(listed).hex() or "-"


def map_of(told):
    """A world as bytes, as docs/MAPS.md tells it."""

    def chunk(tag, body):
        return tag.encode() + len(body).to_bytes(4, "big") + body

    def text(listed):
        return bytes([len(listed), *listed])

    big = lambda value, width: value.to_bytes(width, "big", signed=width == 8)
    companies = b"".join(
        bytes([number]) + big(c["money"], 8) + big(c["loan"], 4) + big(c["most"], 4) + text(c["name"]) + text(c["president"])
        for number, c in sorted(told["companies"].items())
    )
    signs = b"".join(big(s["id"], 2) + bytes([s["owner"]]) + big(s["tile"], 4) + text(s["text"]) for s in told["signs"])
    return (
        bytes.fromhex("4f54544e00020000")
        + chunk("GAME", big(told["day"], 4) + bytes([told["part"], told["paused"]]))
        + chunk("RAND", big(told["words"][0], 4) + big(told["words"][1], 4))
        + chunk("CMPY", bytes([len(told["companies"])]) + companies)
        + chunk("SIGN", big(len(told["signs"]), 2) + signs)
        + chunk("ENDC", b"")
    )


def settings(origin):
    setup, lines = origin["setup"], []
    for field in setup:
        if field not in SETTINGS:
            raise Unsayable(f"a script has no setting for {field}")
    for field, (name, default) in SETTINGS.items():
        if setup[field] != default:
            value = setup[field]
            lines.append(f"set {name} {digits(value) if isinstance(value, list) else value}")
    if origin["start"] != start_world(setup):
        lines.append(f"set map {map_of(origin['start']).hex()}")
    return lines


def script(game):
    """The lines of a game, and the doors of its connections."""
    lines, doors, ticks = settings(game["origin"]), [], 0
    for event in [*game["events"], None]:
        if event == ("tick",):
            ticks += 1
            continue
        if ticks:
            lines.append(f"tick {ticks}")
            ticks = 0
        if event is None:
            break
        if event[0] == "open":
            doors.append("game" if event[1] == "open" else "admin")
            lines.append(event[1])
        elif event[0] == "bytes":
            lines.append(f"bytes {event[1]} {digits(event[2])}")
        else:
            lines.append(" ".join(map(str, event)))
    return lines, doors


def report_of(game, doors):
    """The lines of a report that a game says, by the word that they begin with."""
    frame, top = game["frames"]
    return {
        "conn": [f"conn {number} {door} {'live' if live else 'ended'} {digits(told)}" for number, (door, (told, live)) in enumerate(zip(doors, game["conns"]), 1)],
        "entry": [
            f"entry {it['frame']} {it['sender']} {it['company']} {it['command']['code']} {it['command']['number']} {it['command']['to']} {digits(it['command']['text'])}"
            for it in game["journal"]
        ],
        "server": [f"server {frame} {top} "],
    }


def world_lines(told):
    first, second = told["words"]
    return {
        "server": [f"{first:08x} {second:08x} {told['day']} {told['part']} {int(told['paused'])}"],
        "company": [f"company {number} {c['money']} {c['loan']} {digits(c['name'])} {digits(c['president'])}" for number, c in sorted(told["companies"].items())],
        "sign": [f"sign {it['id']} {it['owner']} {it['tile']} {digits(it['text'])}" for it in told["signs"]],
    }


def faults(game, doors, world, report):
    """Where a report is not what a game comes to."""
    found = {}
    for line in report:
        found.setdefault(line.split(" ")[0], []).append(line)
    said = report_of(game, doors)
    wrong = [] if found.get("conn", [])[: len(said["conn"])] == said["conn"] else ["conn"]
    wrong += [] if found.get("entry", []) == said["entry"] else ["entry"]
    wrong += [] if found["server"][0].startswith(said["server"][0]) else ["server"]
    if world:
        lines = world_lines(world)
        wrong += [] if found["server"][0].endswith(lines["server"][0]) else ["words and day"]
        wrong += [it for it in ("company", "sign") if found.get(it, []) != lines[it]]
    return wrong


def worlds():
    """The worlds behind the games, by the game's name."""
    found = {}
    for path in (ROWS / "src").glob("*.rt"):
        for name, told in re.findall(r"ensures \w+_world \{ world_behind (\w+)\.origin \1\.events\s*≡\s*(.*?) \}\n", path.read_text(), re.S):
            found[name] = Reader(told).expression()
    return found


failed = [0]


def main():
    folder, program = pathlib.Path(sys.argv[1]), sys.argv[2]
    texts = {path: path.read_text(encoding="utf-8") for path in sorted((ROWS / "specs").glob("*.antt"))}
    values, behind, written = Values({path.stem: equations(path) for path in texts}), worlds(), 0
    games = sorted((name, path.stem) for path, text in texts.items() for name in re.findall(r"^abbrev pub (\w+) : Game$", text, re.M))
    for name, file in games:
        try:
            game = values.named(name, file)
            lines, doors = script(game)
        except Unsayable as why:
            print(f"{name}: {why}")
            continue
        input = "\n".join(lines) + "\n"
        ran = subprocess.run([program, "run"], input=input, capture_output=True, text=True)
        report = ran.stdout.splitlines()
        wrong = faults(game, doors, values.of(behind[name], {"": file}) if name in behind else None, report) if ran.returncode == 0 else [ran.stdout]
        if wrong:
            print(f"{name}: not what the game comes to: {', '.join(wrong)}")
            failed[0] = 1
            continue
        twice = sum(other == name for other, _ in games) > 1
        (folder / (f"{name}_of_{file}.tts" if twice else f"{name}.tts")).write_text(input + "".join(f"= {line}\n" for line in report))
        written += 1
    print(f"{written} of {len(games)} games")


# (a world of a thousand signs is told by a rule that calls itself as often)
sys.setrecursionlimit(100_000)
threading.stack_size(512 << 20)
reading = threading.Thread(target=main)
reading.start()
reading.join()
sys.exit(failed[0])
