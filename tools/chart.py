#!/usr/bin/env python3
"""A sequence chart of a run: from a script and the report of its replay.

    tools/chart.py SCRIPT REPORT > CHART.svg
    tools/chart.py --text SCRIPT REPORT
    tools/chart.py --keys [--text] FILE

A lane for each node, and a row for each event of the script, from the top. Stations stand at both sides of the access point with which
they exchange most frames. An arrow is a frame that came: solid as it was sent, in another colour where it came again, was altered or cut,
or was injected from outside. Where it passes the lane of another node it goes under that lane, with a gap. A dotted arrow is a frame that
never came. At the right stands what came of each event, and at which node. Bars beside a lane are attempts (left) and sessions (right) with
the node that is named in them, a diamond is a key that was installed, with its name beside it. The events of a round stand between rows for
its two lines, by access point, as in the report; they happen side by side.

With `--keys` script and entries are those of a file that `kehtrop journal` writes. Each key that is installed has its first digits in the
chart then, and stands whole below it: such a chart holds keys.

It needs Python's library alone. It knows the report lines of what is built. It ends with status 1 and one line where a file cannot be
read, or with the line where script and report do not fit together. docs/user/SCRIPTS.md has the grammar of both.
"""

import sys
import textwrap
from collections import Counter
from xml.sax.saxutils import escape

sys.dont_write_bytecode = True
import entries  # noqa: E402

# What follows a `took` line of that kind and outcome, as first words; a word in brackets may be missing. Where group keys are two (`mfp`),
# what is told of the one is told of the other too.
AFTER_TAKING = {
    ("assoc-req", "accepted"): ["[close]", "open", "sent", "sent"],
    ("assoc-req", "status"): ["sent"],
    ("m1", "accepted"): ["[open]", "sent"],
    ("m2", "accepted"): ["sent"],
    ("m3", "accepted"): ["[close]", "install", "install|resume", "finish", "sent"],
    ("m3", "answered"): ["sent"],
    ("m4", "accepted"): ["[close]", "install", "finish", "[put]"],
    ("g1", "accepted"): ["install|resume", "sent"],
    ("data", "accepted"): ["up"],
    ("action", "accepted"): ["up"],
    ("ft-req", "accepted"): ["look", "[close]", "open", "sent"],
    ("ft-req", "answered"): ["sent"],
    ("ft-req", "status"): ["sent"],
    ("ft-req", "no-holder"): ["[look]", "sent"],
    ("ft-req", "name"): ["[look]", "sent"],
    ("ft-req", "spent"): ["look"],
    ("ft-resp", "accepted"): ["sent"],
    ("re-req", "accepted"): ["[close]", "install", "finish", "sent"],
    ("re-req", "answered"): ["sent"],
    ("re-req", "status"): ["sent"],
    ("re-req", "name"): ["sent"],
    ("re-resp", "accepted"): ["close", "install", "install|resume", "finish"],
}
CONNECT = ["[close]", "[close]", "open", "sent"]
ROAM = ["[close]", "open", "sent"]
RENEW = ["open", "sent"]
AT_A_NODE = ("connect", "roam", "retry", "rekey", "send", "expire", "revoke", "leave", "renew", "announce")
WITH_A_FRAME = ("deliver", "alter", "cut", "inject")
AT_SOME_NODES = ("secret",)
BORDERS = ("round", "end")
SUMMARY = ("end", "keys", "premises")
FEW = 20  # so many lanes are put in the order in which arrows pass fewest


class Mismatch(Exception):
    """Script and report do not fit together."""


class Event:
    """An event of the script, a line that begins or ends a round, or the start of an access point, with the report lines that came of it."""

    def __init__(self, line, words, renew_at=0, mfp=False):
        self.line, self.words, self.acts, self.renew_at = line, words, [], renew_at
        self.keys = 2 if mfp else 1  # how many group keys an access point has in use

    def is_border(self):
        return self.words[0] in BORDERS

    def text(self):
        words = list(self.words)
        if words[0] in ("inject", "send", "announce"):
            words[-1] = shortened(words[-1], 8)
        if words[0] in AT_SOME_NODES:
            words[3:] = [".."]  # no chart shows a key
        return " ".join(words)

    def took(self):
        """The receiver, the kind and the outcome, where a frame came."""
        if self.acts and self.acts[0][0] == "took":
            act = self.acts[0]
            return act[1], act[2], act[3:]
        return None


def shortened(digits, most):
    return digits[:most] + ".." if len(digits) > most else digits


def events_of(script):
    """The events of a script, in the order of their report lines, and the nodes that it lists. A round that is left open is not run."""
    events, nodes, begun, renew_at, mfp = [], {"ap": 0, "sta": 0}, None, 0, False
    for line, text in enumerate(script.split("\n"), 1):
        words = text.split(" ")
        if text == "" or text.startswith("#") or line == 1:
            continue
        if words[0] == "renew-at":
            renew_at = int(words[1])
        elif words[0] == "mfp":
            mfp = True
        elif words[0] in nodes:
            nodes[words[0]] += 1
            if words[0] == "ap":
                events.append(Event(line, ["start", "a%d" % nodes["ap"]], mfp=mfp))
        elif words[0] in AT_A_NODE + AT_SOME_NODES + WITH_A_FRAME + BORDERS:
            if words[0] == "end" and begun is not None:
                events[begun:] = sorted(events[begun:], key=place_of)
                begun = None
            events.append(Event(line, words, renew_at, mfp))
            if words[0] == "round":
                begun = len(events)
    if begun is not None:
        del events[begun - 1:]
    listed = ["s%d" % (n + 1) for n in range(nodes["sta"])] + ["a%d" % (n + 1) for n in range(nodes["ap"])]
    return events, listed


def awaited(event, acts):
    """The first words of the report lines that come of the event, by its first line."""
    word = event.words[0]
    if word == "start":
        return ["install"] * event.keys
    if word in BORDERS:
        return []
    if acts[0][0] == "idle":
        return ["idle"]
    if word in ("connect", "roam"):
        return CONNECT if word == "connect" else ROAM
    if word == "renew":
        return RENEW
    if word == "announce":
        return ["used", "sent"]
    if word == "send":
        # with that packet number under the key of a station an access point begins to renew the key, where no attempt goes on
        begins = acts[0][1].startswith("a") and acts[0][3:] == ["0", str(event.renew_at)] and acts[2:] and acts[2][0] == "open"
        return ["used", "sent"] + (RENEW if begins else [])
    if word == "retry":
        return ["gave-up", "close"] if acts[0][0] == "gave-up" else ["sent"]
    if word == "rekey":
        return ["sent"] * renewed(acts) or ["install"] * event.keys
    if word == "revoke":
        return ["revoke"]
    if word in ("expire", "leave"):
        ends = [act[:1] + act[1:2] + act[3:] for act in acts[:2]]
        both = [["close", event.words[1], part] for part in ("attempt", "session")]
        # A station that roams has its attempt and its session with different access points.
        return ["close", "close"] if ends == both and (word == "leave" or acts[0][2] == acts[1][2]) else ["close"]
    if acts[0][0] != "took":
        raise Mismatch("a frame comes, and the report has `%s`" % " ".join(acts[0]))
    outcome = acts[0][4] if acts[0][3] == "refused" else acts[0][3]
    after = AFTER_TAKING.get((acts[0][2], outcome), [])
    return ["took"] + [word for word in after for _ in range(event.keys if word == "install|resume" else 1)]


def changed(event, lines, listed):
    """The lines that come of a changed key: at each access point for each station whose key it is, and then at each of these."""
    points = [node for node in listed if node.startswith("a")]
    named = [node for node in listed if node.startswith("s") and event.words[1] in ("all", node)]
    awaited_keys = [["secret", point, station] for point in points for station in named] + [["secret", station, station] for station in named]
    taken = 0
    for key in awaited_keys:
        while taken < len(lines) and lines[taken][0] in ("revoke", "close", "install"):
            taken += 1
        if taken == len(lines) or lines[taken] != key:
            raise Mismatch("script line %d (%s): awaited `%s`" % (event.line, event.text(), " ".join(key)))
        taken += 1
    return lines[:taken]


def renewed(acts):
    """How many sessions get the new group key, which goes to the stations in their order."""
    before = 0
    for count, act in enumerate(acts):
        if act[0] != "sent" or act[4] != "g1" or act[2] != acts[0][2] or int(act[3][1:]) <= before:
            return count
        before = int(act[3][1:])
    return len(acts)


class GroupKeys:
    """What lines hang on that the report does not say: how many group keys an access point drew, how many were drawn as message 3 went
    out, and whether the newest is in use."""

    def __init__(self):
        self.drawn, self.carried, self.pending = {}, {}, set()

    def note(self, event):
        node = node_of(event)
        if event.words[0] == "start" or (event.words[0] == "rekey" and event.acts[0][0] != "idle"):
            self.drawn[node] = self.drawn.get(node, 0) + 1
            self.pending.add(node)
        for act in event.acts:
            if act[0] == "open":
                self.carried.pop((node, act[2]), None)
            elif act[0] == "sent" and act[4] == "m3":
                self.carried.setdefault((node, act[3]), self.drawn[node])
            elif act[0] == "install" and act[2] == "all":
                self.pending.discard(act[1])

    def behind(self, event, lines):
        """The lines that come of the event behind those that are awaited of it: message 1 of the group-key handshake, where message 3
        carried an older group key, and the newest group key, where it comes into use."""
        node, taken = node_of(event), []
        done = [act[2] for act in event.acts if act[0] == "finish"]
        if event.took() and event.took()[1] == "m4" and done and self.carried[node, done[0]] < self.drawn[node]:
            taken = lines[:1]
            if not taken or taken[0][0] != "sent" or taken[0][2:5] != [node, done[0], "g1"]:
                raise Mismatch("script line %d (%s): awaited `sent` with g1" % (event.line, event.text()))
        rest = lines[len(taken):]
        if node in self.pending and rest and rest[0][:3] == ["install", node, "all"]:
            taken = taken + rest[:event.keys]
        return taken


def node_of(event):
    """The node whose report lines come of the event; none for a line that begins or ends a round, and for a changed key."""
    if event.is_border() or event.words[0] in AT_SOME_NODES:
        return None
    return event.words[1] if event.words[0] in ("start",) + AT_A_NODE else node_at(event)


def noted(event, notes):
    """What came of an event with its node, where it is at one."""
    node = node_of(event)
    return notes if node is None else "%s %s" % (node, notes)


def place_of(event):
    """The place of an event of a round: that of its access point. Where a line of it is faulty the round is not run, and has no lines."""
    number = node_of(event)[1:] if len(event.words) > 1 else ""
    return int(number) if number.isdigit() else 0


def node_at(event):
    return event.words[1] if event.words[0] == "inject" else event.words[-1]


def node_in(act):
    return act[2] if act[0] == "sent" else act[1]


def pair(script, report):
    """Gives each event its report lines. The events of a script that ended with a fault stop where the report does."""
    events, listed = events_of(script)
    lines = [line.split(" ") for line in report.splitlines()]
    place, keys = 0, GroupKeys()
    for number, event in enumerate(events):
        if place == len(lines):
            del events[number:]
            break
        if " ".join(lines[place]).startswith("end frames ") and not event.is_border():
            raise Mismatch("script line %d (%s): the report has no line of it" % (event.line, event.text()))
        if event.words[0] in AT_SOME_NODES:
            event.acts = changed(event, lines[place:], listed)
            place += len(event.acts)
            keys.note(event)
            continue
        for word in awaited(event, lines[place:]):
            optional, words = word.startswith("["), word.strip("[]").split("|")
            act = lines[place] if place < len(lines) else [""]
            if act[0] in words and node_in(act) == node_of(event):
                event.acts.append(act)
                place += 1
            elif not optional:
                raise Mismatch("script line %d (%s): awaited `%s`, the report has `%s` at line %d" % (
                    event.line, event.text(), word, " ".join(act), place + 1))
        if event.is_border():
            continue
        more = keys.behind(event, lines[place:])
        event.acts += more
        place += len(more)
        keys.note(event)
    rest = lines[place:]
    if any(line[0] not in SUMMARY for line in rest):
        raise Mismatch("report line %d: `%s` comes of no event" % (place + 1, " ".join(rest[0])))
    return events, listed, [" ".join(line) for line in rest]


class Frame:
    def __init__(self, act, row):
        self.number, self.sender, self.peer, self.kind = int(act[1]), act[2], act[3], act[4]
        self.row, self.came = row, set()


class Arrow:
    """A frame that comes: from where, to where, and how it is marked ('' where it comes as it was sent, for the first time)."""

    def __init__(self, frame, sender, receiver, mark):
        self.frame, self.sender, self.receiver, self.mark = frame, sender, receiver, mark

    def label(self):
        if self.frame is None:
            return "injected"
        return "%d %s%s" % (self.frame.number, self.frame.kind, " " + self.mark if self.mark else "")


class Chart:
    """Rows of a chart: each event with its arrow and notes, the frames, and when attempts and sessions began and ended."""

    def __init__(self, script, report, below=()):
        self.events, listed, self.summary = pair(script, report)
        self.summary += below
        self.frames, self.arrows, self.bars, seen = {}, [], [], set()
        self.keys = []
        for row, event in enumerate(self.events):
            self.arrows.append(self.arrow(event, row))
            for act in event.acts:
                self.note(act, row)
                if event.words[0] != "start":
                    seen.add(node_in(act))
        for bar in self.bars:
            if bar[3] is None:
                bar[3] = len(self.events)
        self.lanes = in_order([node for node in listed if node in seen] or listed, self.ways())

    def ways(self):
        """From which node to which each arrow of the chart goes, those of frames that never came too."""
        drawn = [(arrow.sender, arrow.receiver) for arrow in self.arrows if arrow is not None and arrow.sender is not None]
        return drawn + [(frame.sender, frame.peer) for frame in self.frames.values() if not frame.came and frame.peer != "all"]

    def arrow(self, event, row):
        took = event.took()
        if took is None:
            return None
        word = event.words[0]
        if word == "inject":
            return Arrow(None, None, took[0], "injected")
        frame = self.frames[int(event.words[1])]
        if word == "alter":
            mark = "octet %s altered" % event.words[2]
        elif word == "cut":
            mark = "cut to %s" % event.words[2]
        elif took[0] != frame.peer and frame.peer != "all":
            mark = "for %s" % frame.peer
        elif took[0] not in frame.came:
            mark = ""
            frame.came.add(took[0])
        else:
            mark = "again"
        return Arrow(frame, frame.sender, took[0], mark)

    def note(self, act, row):
        word = act[0]
        if word == "sent":
            self.frames[int(act[1])] = Frame(act, row)
        elif word == "open":
            self.bars.append([act[1], act[2], "attempt", None, row])
        elif word == "finish":
            self.end(act[1], act[2], "attempt", row)
            self.bars.append([act[1], act[2], "session", None, row])
        elif word == "close":
            self.end(act[1], act[2], act[3], row)
        elif word in ("install", "resume"):
            self.keys.append((act[1], row, word, " ".join(act[3:])))

    def end(self, node, peer, what, row):
        for bar in self.bars:
            if bar[:3] == [node, peer, what] and bar[3] is None:
                bar[3] = row

    def states(self, node, row):
        """Whether the node is in an attempt and in a session after this row."""
        now = {bar[2] for bar in self.bars if bar[0] == node and bar[4] <= row < bar[3]}
        return "attempt" in now, "session" in now

    def notes(self, event, is_drawn=False):
        """What came of an event, in words; but for what the picture shows where it is drawn."""
        if event.words[0] in AT_SOME_NODES:
            nodes = list(dict.fromkeys(node_in(act) for act in event.acts))
            return "; ".join("%s %s" % (node, self.told(event, [act for act in event.acts if node_in(act) == node], is_drawn)) for node in nodes)
        return self.told(event, event.acts, is_drawn)

    def told(self, event, acts, is_drawn):
        words = {"install": "installs", "resume": "resumes", "finish": "session with", "gave-up": "gives up", "open": "attempt with"}
        told, sends = [], []
        for act in acts:
            if is_drawn and act[0] in ("sent", "open", "finish"):
                continue
            if act[0] == "took":
                frame = self.frames.get(int(event.words[1])) if event.words[0] != "inject" else None
                told.append(" ".join(act[3:] if frame is not None and frame.kind == act[2] else act[2:]))
            elif act[0] == "sent":
                sends.append("%s %s" % (act[1], act[4]))
            elif act[0] == "install" and act[2] == "all":
                told.append("installs %s for all" % " ".join(act[3:]))
            elif act[0] in ("install", "resume", "gave-up"):
                told.append("%s %s" % (words[act[0]], " ".join(act[3:])))
            elif act[0] == "used":
                told.append("uses packet number %s%s" % (act[4], "" if act[3] == "0" else " of %s %s" % ("igtk" if act[3] in ("4", "5") else "gtk", act[3])))
            elif act[0] == "up":
                told.append("hands up %s" % shortened(act[6], 16))
            elif act[0] == "close":
                told.append("%s with %s ends" % (act[3], act[2]))
            elif act[0] in ("put", "revoke"):
                told.append("key of %s %s" % (act[2], act[3].replace("-", " ")))
            elif act[0] == "look":
                told.append("looks for the key of %s: %s" % (act[2], act[3].replace("-", " ")))
            elif act[0] == "secret":
                told.append("has a new key" if act[1] == act[2] else "has a new key of %s" % act[2])
            elif act[0] == "open" and act[3] == "renew":
                told.append("renews the key with %s" % act[2])
            elif act[0] == "idle":
                told.append("does nothing: %s" % act[2] if act[2] != "nothing" else "does nothing")
            else:
                told.append("%s %s" % (words[act[0]], act[2]))
        if sends:
            told.append("sends " + " and ".join(sends))
        return ", ".join(told)

    def is_second(self, frame):
        """Another frame was sent before it in the same row."""
        return any(f.row == frame.row and f.number < frame.number for f in self.frames.values())

    def lost(self, row):
        """The frames that were sent in this row and never came as they were sent."""
        return [f for f in self.frames.values() if f.row == row and not f.came]


def in_order(nodes, ways):
    """The lanes from the left: each access point with its stations at both sides. Where they are few, they are then moved one by one as long
    as arrows pass fewer lanes."""
    points = [node for node in nodes if node.startswith("a")]
    between = Counter(frozenset(way) for way in ways if way[0] in nodes and way[1] in nodes)
    homes = {}
    for node in nodes:
        if node not in points and points:
            home = max(points, key=lambda point: (between[frozenset((node, point))], -points.index(point)))
            homes.setdefault(home, []).append(node)
    order = [] if points else list(nodes)
    for point in points:
        around = homes.get(point, [])
        order += around[:(len(around) + 1) // 2] + [point] + around[(len(around) + 1) // 2:]

    def passed(lanes):
        place = {node: number for number, node in enumerate(lanes)}
        return sum(count * (max(place[node] for node in pair) - min(place[node] for node in pair)) for pair, count in between.items())

    while len(order) <= FEW:
        others = [order[:place] + order[place + 1:] for place in range(len(order))]
        moved = [rest[:to] + [node] + rest[to:] for node, rest in zip(order, others) for to in range(len(order))]
        best = min(moved, key=passed, default=order)
        if passed(best) >= passed(order):
            break
        order = best
    return order


# The chart as text: one line for each event. A lane is `|`, in an attempt `:`, in a session `#`, in both `%`.

WIDTH = 32


def lane_line(chart, row, left):
    line = [" "] * (left + WIDTH * (len(chart.lanes) - 1) + 1)
    for place, node in enumerate(chart.lanes):
        line[left + WIDTH * place] = {(False, False): "|", (True, False): ":", (False, True): "#", (True, True): "%"}[chart.states(node, row)]
    return line


def put(line, place, text):
    line[place:place + len(text)] = list(text)


def draw_arrow(line, start, end, label, dash, head):
    """An arrow from one column to another, under the lanes that it passes; the label stands before the first of these."""
    first, last = min(start, end) + 1, max(start, end) - 1
    line += [" "] * (last + 1 - len(line))
    lanes = [place for place in range(first, last + 1) if line[place] != " "]
    for place in range(first, last + 1):
        if all(abs(place - lane) > 1 for lane in lanes):
            line[place] = dash[(place - first) % len(dash)]
    put(line, last if end > start else first, {True: ">", False: "<"}[end > start] if head is None else head)
    if lanes:
        first, last = (first, lanes[0] - 2) if end > start else (lanes[-1] + 2, last)
    put(line, (first + last - len(label)) // 2, " " + label + " ")


def text_chart(chart):
    texts = ["%5d %s" % (event.line, event.text()) for event in chart.events]
    left = max([len(text) for text in texts] + [12]) + 4
    out = []
    heads = [" "] * (left + WIDTH * len(chart.lanes))
    for place, node in enumerate(chart.lanes):
        put(heads, left + WIDTH * place - 1, node)
    out.append("".join(heads).rstrip())
    for row, event in enumerate(chart.events):
        line, arrow = lane_line(chart, row, left), chart.arrows[row]
        put(line, 0, texts[row])
        if event.is_border():
            out.append("".join(line))
            continue
        if arrow is not None:
            end = left + WIDTH * chart.lanes.index(arrow.receiver)
            start = end - WIDTH // 2 if arrow.sender is None else left + WIDTH * chart.lanes.index(arrow.sender)
            if arrow.sender is None and end == left:
                start = end + WIDTH // 2
            if start == end:
                start = end + WIDTH // 2 if end == left else end - WIDTH // 2
            draw_arrow(line, start, end, arrow.label(), "=" if arrow.mark else "-", None)
        out.append("%s   %s" % ("".join(line), noted(event, chart.notes(event))))
        for frame in chart.lost(row):
            line = lane_line(chart, row, left)
            put(line, 0, "      never comes")
            start = left + WIDTH * chart.lanes.index(frame.sender)
            end = left + WIDTH * chart.lanes.index(frame.peer) if frame.peer in chart.lanes else start + WIDTH
            draw_arrow(line, start, (start + 3 * end) // 4, "%d %s" % (frame.number, frame.kind), ". ", "x")
            out.append("".join(line))
    return "\n".join(out + [""] + chart.summary) + "\n"


# The chart as SVG.

# Between lanes (wider where there are two), beside them, and rows: of an event, and what a frame that never came and a second key add.
LANE, WIDE_LANE, BESIDE, ROW, LOST, KEY, TEXT = 230, 300, 100, 26, 26, 13, 7.3
BAR, EDGE, GAP = 11, 6, 4  # the width of a bar, half that of a diamond, and what is left free beside a lane that is passed
LEGEND = ["Dotted: never came. Brown: came again, or to another node. Red: altered, cut or injected.",
          "Yellow bar: attempt with the node named in it. Green bar: session. Diamond: a key installed (white: one that goes on)."]
COLOURS = {"": "#1f2937", "again": "#b45309", "altered": "#b91c1c", "lost": "#6b7280"}


class Picture:
    def __init__(self):
        self.parts = []

    def line(self, x1, y1, x2, y2, colour, more=""):
        self.parts.append('<line x1="%.1f" y1="%.1f" x2="%.1f" y2="%.1f" stroke="%s" %s/>' % (x1, y1, x2, y2, colour, more))

    def text(self, x, y, text, anchor="start", colour="#111827", size=12, more=""):
        self.parts.append('<text x="%.1f" y="%.1f" text-anchor="%s" fill="%s" font-size="%d" paint-order="stroke" stroke="#ffffff" '
                          'stroke-width="3"%s>%s</text>' % (x, y, anchor, colour, size, more, escape(text)))

    def bar(self, x, y1, y2, colour, name, down):
        high = max(y2 - y1, 4)
        self.parts.append('<rect x="%.1f" y="%.1f" width="%d" height="%.1f" fill="%s" stroke="#374151" stroke-width="0.5"/>' % (
            x, y1, BAR - 1, high, colour))
        if high > down + 6 * len(name):
            self.parts.append('<text transform="translate(%.1f %.1f) rotate(90)" fill="#374151" font-size="9">%s</text>' % (x + 2, y1 + down, name))

    def diamond(self, x, y, colour):
        self.parts.append('<path d="M %.1f %.1f l 6 6 l -6 6 l -6 -6 z" fill="%s" stroke="#111827"/>' % (x, y - 6, colour))

    def head(self, x, y, way, colour):
        self.parts.append('<path d="M %.1f %.1f l %d -4 l 0 8 z" fill="%s"/>' % (x, y, -9 * way, colour))


def colour_of(mark):
    if mark.startswith("for "):
        return COLOURS["again"]
    return COLOURS.get(mark, COLOURS["altered"])


class Layout:
    """Where the lanes, rows, bars and diamonds of a chart stand."""

    def __init__(self, chart, top, first, lane):
        self.chart, self.lane = chart, lane
        self.x = {node: first + lane * place for place, node in enumerate(chart.lanes)}
        self.keys = [[] for _ in chart.events]
        for node, row, word, name in chart.keys:
            if node in self.x:
                self.keys[row].append((node, word, name))
        # A row for each event, and below it some room for a second key and for each frame that was sent in it and never came.
        self.y = [top + ROW * 0.5]
        for row in range(len(chart.events)):
            self.y.append(self.y[row] + ROW + self.second(row) + LOST * len(chart.lost(row)))
        self.bars = []
        for node, peer, what, end, begin in chart.bars:
            if node in self.x:
                beside = {bar[5] for bar in self.bars if bar[0] == node and bar[2] == what and begin < bar[4]}
                place = min(set(range(len(beside) + 1)) - beside)
                self.bars.append((node, peer, what, begin, end, place))

    def second(self, row):
        """The room that the keys of a row take below the first one."""
        return KEY * max(len(self.keys[row]) - 1, 0)

    def edge(self, node, way, y):
        """The outer edge of a lane at that height, at its left (-1) or right (1) side: of its bars and diamonds there."""
        what = "attempt" if way < 0 else "session"
        away = [BAR * (bar[5] + 1) for bar in self.bars if bar[0] == node and bar[2] == what and self.y[bar[3]] <= y <= self.y[bar[4]]]
        if any(abs(self.y[row] + KEY * place - y) < EDGE + 2 for row, keys in enumerate(self.keys) for place, key in enumerate(keys) if key[0] == node):
            away.append(EDGE)
        return self.x[node] + way * max(away + [1])


def heading(script, most):
    """The first sentence of the comment with which a script begins, in lines of at most that many characters."""
    told = []
    for line in script.split("\n")[1:]:
        if not line.startswith("#"):
            break
        told.append(line.lstrip("# "))
    sentence = " ".join(told).split(". ")[0].rstrip(".")
    return textwrap.wrap(sentence + "." if sentence else "", most)


def svg_chart(chart, title, script):
    picture = Picture()
    notes = [chart.notes(event, True) for event in chart.events]
    left = 20 + TEXT * max([len(event.text()) + 4 for event in chart.events] + [16])
    lane = WIDE_LANE if len(chart.lanes) <= 2 else LANE
    right = left + 2 * BESIDE + lane * (len(chart.lanes) - 1)
    width = max(right + 30 + TEXT * (max([len(note) for note in notes] + [10]) + 3), 28 + TEXT * max([len(line) for line in chart.summary] + [0]), 900)
    told = heading(script, int((width - 28) / TEXT))
    top = 76 + 16 * len(told)
    layout = Layout(chart, top, left + BESIDE, lane)
    x_of, y_of = layout.x, layout.y
    height = y_of[-1] + 20 * (len(chart.summary) + len(LEGEND) + 2)
    picture.text(14, 26, title, size=16, more=' font-weight="bold"')
    for number, line in enumerate(told):
        picture.text(14, 46 + 16 * number, line, colour="#374151")
    for row, event in enumerate(chart.events):
        if event.is_border():
            picture.line(left, y_of[row], width - 14, y_of[row], "#9ca3af", 'stroke-dasharray="6 4"')
        else:
            picture.line(left, y_of[row], right + 10, y_of[row], "#eef0f3")
    for node in chart.lanes:
        picture.text(x_of[node], top - 14, node, "middle", size=15)
        picture.line(x_of[node], top - 6, x_of[node], y_of[-1], "#9ca3af")
    for node, peer, what, begin, end, place in layout.bars:
        x = x_of[node] - BAR * (place + 1) if what == "attempt" else x_of[node] + 1 + BAR * place
        down = 8 + layout.second(begin) if what == "session" else 8
        picture.bar(x, y_of[begin], y_of[end], "#fde68a" if what == "attempt" else "#86efac", peer, down)
    draw_frames(picture, chart, layout)
    draw_keys(picture, chart, layout)
    for row, event in enumerate(chart.events):
        picture.text(14, y_of[row] + 4, "%d  %s" % (event.line, event.text()), colour="#6b7280", size=11)
        if notes[row]:
            picture.text(right + 20, y_of[row] + 4, noted(event, notes[row]))
    below = y_of[-1] + 26
    for number, line in enumerate(LEGEND):
        picture.text(14, below + 16 * number, line, colour="#6b7280", size=11)
    below += 16 * len(LEGEND)
    for number, line in enumerate(chart.summary):
        picture.text(14, below + 20 * number + 8, line)
    return ('<?xml version="1.0" encoding="UTF-8"?>\n<svg xmlns="http://www.w3.org/2000/svg" width="%.0f" height="%.0f" '
            'font-family="monospace">\n<title>%s</title>\n<rect width="100%%" height="100%%" fill="#ffffff"/>\n%s\n</svg>\n'
            % (width, height, escape(title), "\n".join(picture.parts)))


def draw_keys(picture, chart, layout):
    """Diamonds, each with the name of its key at the side from which no arrow comes."""
    for row, keys in enumerate(layout.keys):
        arrow = chart.arrows[row]
        for place, (node, word, name) in enumerate(keys):
            y = layout.y[row] + KEY * place
            way = -arrow_way(layout, arrow) if arrow is not None else -1
            picture.diamond(layout.x[node], y, "#111827" if word == "install" else "#ffffff")
            picture.text(layout.edge(node, -way, y) - way * 5, y + 4, name, "start" if way < 0 else "end", size=11)


def arrow_way(layout, arrow):
    """To the right (1) or to the left (-1); a frame from outside, or back to its sender, comes from the left."""
    if arrow.sender is None or arrow.sender == arrow.receiver:
        return 1
    return 1 if layout.x[arrow.receiver] > layout.x[arrow.sender] else -1


def draw_frames(picture, chart, layout):
    x_of, y_of = layout.x, layout.y
    for row, arrow in enumerate(chart.arrows):
        if arrow is not None:
            draw_frame(picture, chart, layout, arrow, row)
    for row in range(len(chart.events)):
        for place, frame in enumerate(chart.lost(row)):
            way = 1 if x_of.get(frame.peer, x_of[frame.sender] + 1) > x_of[frame.sender] else -1
            y1 = y_of[row] + layout.second(row) + LOST * (place + 0.55)
            start, y2 = layout.edge(frame.sender, way, y1), y1 + 8
            x = start + way * 60
            picture.line(start, y1, x, y2, COLOURS["lost"], 'stroke-dasharray="2 5" stroke-width="1.5"')
            picture.text(x + way * 6, y2 + 4, "×", "middle", COLOURS["lost"], 14)
            label = "%d %s" % (frame.number, frame.kind)
            picture.text(x + way * 14, y2 + 4, label, "start" if way > 0 else "end", COLOURS["lost"], 11)


def draw_frame(picture, chart, layout, arrow, row):
    """One arrow, with a gap at each lane that it passes, and its label before the first of them."""
    y_of, colour, way = layout.y, colour_of(arrow.mark), arrow_way(layout, arrow)
    end, y2 = layout.edge(arrow.receiver, -way, y_of[row]), y_of[row]
    passed = []
    if arrow.sender is None or arrow.sender == arrow.receiver:
        start, y1 = end - way * 80, y2 - 10
    else:
        first, last = sorted(chart.lanes.index(node) for node in (arrow.sender, arrow.receiver))
        passed = chart.lanes[first + 1:last][::way]
        is_slanted = arrow.mark == "" and row - arrow.frame.row <= 2 and not passed
        y1 = y_of[arrow.frame.row] if is_slanted else y2 - 10
        start = layout.edge(arrow.sender, way, y1)
    pieces, at = [], start
    for node in passed:
        y = y1 + (y2 - y1) * (layout.x[node] - start) / (end - start)
        pieces.append((at, layout.edge(node, -way, y) - way * GAP))
        at = layout.edge(node, way, y) + way * GAP
    pieces.append((at, end))
    for x1, x2 in pieces:
        heights = [y1 + (y2 - y1) * (x - start) / (end - start) for x in (x1, x2)]
        picture.line(x1, heights[0], x2, heights[1], colour, 'stroke-width="1.5"')
    picture.head(end, y2, way, colour)
    # Near its sender, where another frame sent in that row has its label farther on.
    part = 0.5 if passed else 0.66 if y2 - y1 > ROW and chart.is_second(arrow.frame) else 0.42
    half = 0.45 * TEXT * len(arrow.label()) + 4
    x = start + way * max(abs(pieces[0][1] - start) * part, half)
    slope = (y2 - y1) / (end - start)
    picture.text(x, y1 + slope * (x - start) - 3 - min(abs(slope) * half, 8), arrow.label(), "middle", colour, 11)


def read(name):
    with open(name, encoding="latin-1", newline="") as file:
        return file.read().replace("\r\n", "\n")


def chart_of(names, has_keys):
    """The chart of a script and its report, or of a journal with its keys; and the script."""
    if not has_keys:
        script, report = read(names[0]), read(names[1])
        return Chart(script, report), script
    journal = entries.read(names[0])
    script = "\n".join(journal.script).replace("\r", "")
    return Chart(script, "\n".join(journal.report(True)), ["This chart holds keys:"] + journal.keys()), script


def main(words):
    as_text, has_keys = "--text" in words, "--keys" in words
    names = [word for word in words if word not in ("--text", "--keys")]
    if len(names) != (1 if has_keys else 2) or names[0].startswith("-"):
        print("usage: chart.py [--text] SCRIPT REPORT, or chart.py --keys [--text] FILE", file=sys.stderr)
        return 2
    try:
        chart, script = chart_of(names, has_keys)
    except OSError as why:
        print("%s: %s" % (why.filename, why.strerror), file=sys.stderr)
        return 1
    except (Mismatch, entries.Unreadable) as why:
        print("%s: %s" % (" and ".join(names), why), file=sys.stderr)
        return 1
    except (KeyError, IndexError, ValueError):
        print("%s: these are no script and its report" % " and ".join(names), file=sys.stderr)
        return 1
    sys.stdout.write(text_chart(chart) if as_text else svg_chart(chart, names[0].split("/")[-1], script))
    return 0


if __name__ == "__main__":
    sys.exit(main(sys.argv[1:]))
