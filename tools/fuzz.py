#!/usr/bin/env python3
"""Random scripts through the program, seeded: all suites, frames delivered out of order and again, altered, cut and foreign octets,
rounds, sessions that end, keys that are revoked, changed or renewed, and at the end of every fourth script a line that is refused.

A script is made piece by piece: what it delivers is chosen among the frames that the report of the pieces so far tells of. It is wrong
where the program ends by a signal, hangs, or ends with a number that a replay does not have; where the report of a piece does not go on
as that of the pieces before it; where the counts of the summary are not those of its lines; where a frame number is not the next one;
where a premise does not hold though no octet was foreign, and where all hold, if a packet number is used again between two installations
of a key, or handed up again; and where the refused line is not told by its number. For every tenth script a storm of a random number is
run too. Wrong scripts are kept in the folder that `--keep` names. The status is 0 where none is wrong, and where no program was built and
none is named.

    tools/fuzz.py [--count 1000] [--from 0] [--jobs PROCESSORS] [--program crates/kehtrop/out/kehtrop] [--keep FOLDER]
"""
import argparse
import os
import random
import re
import subprocess
import sys
from concurrent.futures import ThreadPoolExecutor

HOLDS = "premises fresh yes no-collision yes unforged yes"
SECONDS = 60  # of one run; the largest takes less than one
BUILT = os.path.join(os.path.dirname(os.path.abspath(__file__)), "..", "crates", "kehtrop", "out", "kehtrop")


class Wrong(Exception):
    pass


class Script:
    def __init__(self, seed, program):
        self.random = random.Random(seed)
        self.program = program
        r = self.random
        self.suite = r.choice(("psk", "psk-sha256", "ft-psk", "ft-psk", "ft-psk"))
        self.points = ["a%d" % (k + 1) for k in range(r.randint(1, 4))]
        self.stations = ["s%d" % (k + 1) for k in range(r.randint(1, 5))]
        # what only scripts of version 2 have is drawn by itself, so that all else of a number is as without it
        self.second = random.Random("domain 2, %s" % seed)
        self.is_second = self.second.random() < 0.3
        self.lines = ["domain 2" if self.is_second else "domain 1", "seed %064x" % r.getrandbits(256), "ssid " + "".join(r.choice("abcdef XYZ~") for _ in range(r.randint(1, 32)))]
        key = "passphrase passphrase" if r.random() < 0.05 else "psk %064x" % r.getrandbits(256)
        self.lines += [key, "akm " + self.suite]
        if self.suite == "ft-psk":
            self.lines.append("mdid %04x" % r.getrandbits(16))
        self.renews = self.is_second and self.suite != "ft-psk"
        if self.renews and self.second.random() < 0.3:
            self.lines.append("renew-at %d" % self.second.randint(1, 4))
        # so is what only networks have that protect management frames
        self.third = random.Random("mfp, %s" % seed)
        self.protects = self.is_second and self.suite != "psk" and self.third.random() < 0.5
        if self.protects:
            self.lines.append("mfp")
        self.lines += ["ap 0200000000%02x %s" % (k + 1, "r0kh-%d" % k) for k in range(len(self.points))]
        self.lines += ["sta 0200000001%02x%s" % (k + 1, self.own_key(0.5)) for k in range(len(self.stations))]
        self.frames = []  # receiver and octets of each frame sent so far
        self.foreign = False
        self.report = ""

    def own_key(self, share):
        if not self.is_second or self.second.random() >= share:
            return ""
        return " passphrase passphrase" if self.second.random() < 0.05 else " psk %064x" % self.second.getrandbits(256)

    # ---- events

    def some_frame(self):
        # mostly one of the last, now and then any
        count = len(self.frames)
        if self.random.random() < 0.8:
            return count - min(int(self.random.expovariate(0.6)), count - 1)
        return self.random.randint(1, count)

    def receiver(self, number, nodes):
        to = self.frames[number - 1][0]
        if to in nodes and self.random.random() < 0.9:
            return to
        return self.random.choice(nodes)

    def octets(self, least, most):
        return bytes(self.random.getrandbits(8) for _ in range(self.random.randint(least, most))).hex()

    def foreign_frame(self):
        # an air frame of some kind with addresses of the network, or noise
        r = self.random
        if r.random() < 0.3:
            return self.octets(1, 60)
        addresses = ["0200000000%02x" % (k + 1) for k in range(len(self.points))] + ["0200000001%02x" % (k + 1) for k in range(len(self.stations))]
        one, two = r.choice(addresses), r.choice(addresses)
        kind = r.choice(("0000", "1000", "2000", "3000", "b000", "0801", "0802", "8801", "8802", "0841", "0842"))
        return kind + "0000" + one + two + r.choice(addresses) + "%04x" % r.getrandbits(16) + self.octets(1, 120)

    def event(self, within):
        r = self.random
        nodes = self.points if within else self.points + self.stations
        if self.is_second and not within and self.second.random() < 0.03:
            return "secret %s%s" % (self.second.choice(self.stations + ["all"]), self.own_key(1))
        if self.renews and not within and self.second.random() < 0.06:
            return "renew %s %s" % (self.second.choice(self.points), self.second.choice(self.stations))
        if self.protects and not within and self.third.random() < 0.06:
            return "announce %s %s" % (self.third.choice(self.points), bytes(self.third.getrandbits(8) for _ in range(self.third.randint(1, 40))).hex())
        point, station, node = r.choice(self.points), r.choice(self.stations), r.choice(nodes)
        draw = r.random()
        if self.frames and draw < 0.5:
            number = self.some_frame()
            return "deliver %d to %s" % (number, self.receiver(number, nodes))
        if self.frames and draw < 0.56:
            self.foreign = True
            number = self.some_frame()
            return "alter %d %d %02x to %s" % (number, r.randrange(self.frames[number - 1][1]), r.randint(1, 255), self.receiver(number, nodes))
        if self.frames and draw < 0.59:
            self.foreign = True
            number = self.some_frame()
            return "cut %d %d to %s" % (number, r.randint(0, self.frames[number - 1][1]), self.receiver(number, nodes))
        if draw < 0.62:
            self.foreign = True
            return "inject %s %s" % (node, self.foreign_frame())
        if draw < 0.68:
            return "retry %s %s" % (point, station)
        if draw < 0.71:
            return "rekey %s" % point
        if draw < 0.78:
            to = r.choice((station, "all"))
            return "send %s %s %s %s" % (point, to, r.choice(("-", str(r.randint(0, 15)))), self.octets(1, 40))
        if draw < 0.80:
            return "expire %s %s" % (point, station)
        if draw < 0.82:
            return "revoke %s %s" % (point, station)
        if within:
            return "retry %s %s" % (point, station)
        if draw < 0.86:
            return "send %s %s %s %s" % (station, point, r.choice(("-", str(r.randint(0, 15)))), self.octets(1, 40))
        if draw < 0.87:
            return "leave %s" % station
        if draw < 0.93 and self.suite == "ft-psk":
            return "roam %s %s" % (station, point)
        return "connect %s %s" % (station, point)

    def piece(self):
        out = []
        for _ in range(self.random.randint(3, 12)):
            if self.random.random() < 0.06:
                out.append("round")
                out += [self.event(True) for _ in range(self.random.randint(0, 8))]
                out.append("end")
            else:
                out.append(self.event(False))
        return out

    def faulty_line(self):
        # a line that is refused, whatever came before
        r = self.random
        return r.choice((
            "connect s0 a1", "connect a1 s1", "deliver 0 to a1", "deliver %d to a1" % (len(self.frames) + 1), "frob", "round x", "end", "turn", "seed draw",
            "connect  s1 a1", "inject a1 0", "inject a1 " + "00" * 2401, "send a1 all - " + "00" * 2305, "send a1 a1 - 00", "sta 0200000000ff x",
            "alter 1 99999 01 to a1", "cut 1 99999 to a1", "renew-at 2", "renew s1 a1", "mfp", "announce s1 00", "retry s1 a1", "x" * 8193, "domain 1", "leave a1", "rekey s1", "deliver 1 to all", "",
        )) or "Connect s1 a1"

    # ---- runs

    def run(self, lines):
        done = subprocess.run([self.program, "replay"], input="\n".join(lines + [""]).encode(), capture_output=True, timeout=SECONDS)
        return done.returncode, done.stdout.decode(), done.stderr.decode()

    def judged(self, report):
        lines = report.split("\n")
        if lines[-1] != "" or len(lines) < 4:
            raise Wrong("the report has no end")
        body, summary = lines[:-4], lines[-4:-1]
        counts = {word: 0 for word in ("accepted", "answered", "refused", "ignored")}
        heads = {}
        frames = []
        for line in body:
            words = line.split(" ")
            heads[words[0]] = heads.get(words[0], 0) + 1
            if words[0] == "took":
                counts[words[3]] += 1
            if words[0] == "sent":
                frames.append((words[3], int(words[5])))
                if int(words[1]) != len(frames):
                    raise Wrong("a frame is not numbered by its place: " + line)
        first = "end frames %d accepted %d answered %d refused %d ignored %d" % (
            len(frames), counts["accepted"], counts["answered"], counts["refused"], counts["ignored"])
        second = "keys installed %d resumed %d used %d handed-up %d" % tuple(heads.get(word, 0) for word in ("install", "resume", "used", "up"))
        if summary[:2] != [first, second]:
            raise Wrong("the summary is not that of the lines: %s; %s" % tuple(summary[:2]))
        if not re.fullmatch(r"premises fresh (yes|no) no-collision (yes|no) unforged (yes|no)", summary[2]):
            raise Wrong("no premises")
        if summary[2] != HOLDS and not self.foreign:
            raise Wrong("a premise does not hold, and no octet was foreign")
        if summary[2] == HOLDS:
            self.safe(body)
        self.frames = frames
        return "\n".join(body)

    # What the lines alone can tell of safety: under one key of a node no packet number comes twice, neither used nor handed up.
    def safe(self, body):
        used, taken = {}, {}
        for line in body:
            words = line.split(" ")
            if words[0] == "install":
                # a new key: numbers begin anew
                node, peer = words[1], words[2]
                key = "0" if words[3] == "ptk" else words[4]
                for kept in (used, taken):
                    for place in [place for place in kept if place[:3] == (node, peer, key)]:
                        del kept[place]
            if words[0] == "used":
                place = (words[1], words[2], words[3])
                if int(words[4]) <= used.get(place, 0):
                    raise Wrong("a packet number used again: " + line)
                used[place] = int(words[4])
            if words[0] == "up":
                place = (words[1], words[2], words[3], words[4])
                if int(words[5]) <= taken.get(place, -1):
                    raise Wrong("a packet number handed up again: " + line)
                taken[place] = int(words[5])

    def whole(self):
        for _ in range(self.random.randint(2, 9)):
            self.lines += self.piece()
            code, report, said = self.run(self.lines)
            if code != 0 or said:
                raise Wrong("ended with %d: %s" % (code, said.strip()))
            body = self.judged(report)
            if not body.startswith(self.report):
                raise Wrong("the report does not go on as it began")
            self.report = body
        if self.random.random() < 0.25:
            line = self.faulty_line()
            self.lines.append(line)
            code, report, said = self.run(self.lines)
            if code == 2 and not said.startswith("line %d: " % len(self.lines)):
                raise Wrong("another line is refused: " + said.strip())
            if code not in (2, 8) or report.rstrip("\n") != self.report.rstrip("\n"):
                raise Wrong("a refused line ended with %d" % code)


def storm(number, program):
    done = subprocess.run([program, "storm", str(number)], stdin=subprocess.DEVNULL, capture_output=True, timeout=SECONDS)
    lines = done.stdout.decode().split("\n")
    if done.returncode != 0 or len(lines) != 4 or lines[2] != HOLDS:
        raise Wrong("storm %d ended with %d: %s" % (number, done.returncode, " ".join(lines)))


def one(seed, program, keep):
    script = Script(seed, program)
    try:
        script.whole()
        if seed % 10 == 0:
            storm(script.random.getrandbits(32), program)
        return None
    except (Wrong, subprocess.TimeoutExpired, ValueError, KeyError, IndexError) as error:
        if keep:
            os.makedirs(keep, exist_ok=True)
            with open(os.path.join(keep, "%d.txt" % seed), "w") as file:
                file.write("\n".join(script.lines) + "\n")
        return "seed %d: %s" % (seed, error)


def main():
    words = argparse.ArgumentParser(description="Random scripts through the program.")
    words.add_argument("--count", type=int, default=1000)
    words.add_argument("--from", dest="first", type=int, default=0)
    words.add_argument("--jobs", type=int, default=os.cpu_count())
    words.add_argument("--program", default=BUILT)
    words.add_argument("--keep")
    words = words.parse_args()
    if not os.access(words.program, os.X_OK):
        print("skipped: no program was built" if words.program == BUILT else "no program: " + words.program)
        return 0 if words.program == BUILT else 1
    wrong = 0
    with ThreadPoolExecutor(words.jobs) as workers:
        for answer in workers.map(lambda seed: one(seed, words.program, words.keep), range(words.first, words.first + words.count)):
            if answer:
                wrong += 1
                print(answer, flush=True)
    print("scripts %d wrong %d" % (words.count, wrong))
    return 1 if wrong else 0


if __name__ == "__main__":
    sys.exit(main())
