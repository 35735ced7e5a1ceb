"""The page of `bench`: one HTML file that needs nothing beside it."""
import html
import math
import re

COLORS = {"old": "#c8d0d8", "new": "#2a9d5c", "damaged": "#d1495b", "astray": "#e09f3e"}
STYLE = """
body { font: 15px/1.5 system-ui, sans-serif; margin: 2em auto; max-width: 72em; padding: 0 1em; color: #1d2733; background: #fff }
table { border-collapse: collapse; width: 100% } td, th { text-align: left; vertical-align: top; padding: .25em .6em; border-bottom: 1px solid #dde3ea }
pre { background: #f4f6f8; padding: .6em; overflow: auto; max-height: 24em; font-size: 13px } h2 { margin-top: 2em }
.well { color: #1d7a46 } .error { color: #a05a00 } .silent, .wrong { color: #b3202f; font-weight: 600 } .excused { color: #5a6775 }
summary { cursor: pointer } figure { display: inline-block; margin: 0 1em 1em 0 } figcaption { font-size: 13px; color: #5a6775 } .waves { overflow: auto }
"""


def text_of(value):
    return html.escape(str(value))


# ---- rings: a disk as it is seen from above, cylinder 0 outside

def arc(inner, outer, begin, end):
    """A path of a part of a ring; angles as parts of a turn, from above and clockwise."""
    def point(radius, turn):
        angle = 2 * math.pi * turn - math.pi / 2
        return f"{120 + radius * math.cos(angle):.2f} {120 + radius * math.sin(angle):.2f}"
    return f"M{point(outer, begin)}A{outer} {outer} 0 0 1 {point(outer, end)}L{point(inner, end)}A{inner} {inner} 0 0 0 {point(inner, begin)}Z"


def rings(state, head, planned):
    """One side: each sector that isn't as it was has its color; a dot stands at each planned fault."""
    parts = ['<svg viewBox="0 0 240 240" width="340" height="340" role="img"><circle cx="120" cy="120" r="118" fill="#eef1f4"/>',
             f'<circle cx="120" cy="120" r="75" fill="none" stroke="{COLORS["old"]}" stroke-width="80"/><circle cx="120" cy="120" r="12" fill="#fff"/>']
    for cylinder in range(80):
        for record in range(18):
            sector = 36 * cylinder + 18 * head + record
            if state[sector] != "old":
                outer = 115 - cylinder
                parts.append(f'<path d="{arc(outer - 1, outer, record / 18, (record + 1) / 18)}" fill="{COLORS[state[sector]]}"><title>cylinder {cylinder}, head {head}, '
                             f'record {record + 1}: {state[sector]}</title></path>')
    for cylinder, side, word in planned:
        if side == head:
            angle, radius = 2 * math.pi * word / 12500 - math.pi / 2, 114.5 - cylinder
            parts.append(f'<circle cx="{120 + radius * math.cos(angle):.1f}" cy="{120 + radius * math.sin(angle):.1f}" r="1.6" fill="none" stroke="#1d2733" stroke-width=".7">'
                         f'<title>a fault at cylinder {cylinder}, word {word}</title></circle>')
    return "".join(parts) + "</svg>"


def planned_places(plan):
    """Cylinder, head and word of the faults that have such a place."""
    return [tuple(map(int, line.split()[2:5])) for line in plan if line.split()[0] in ("drop", "cut")]


def disk(one):
    places = planned_places(one["plan"])
    sides = "".join(f"<figure>{rings(one['state'], head, places)}<figcaption>head {head}</figcaption></figure>" for head in (0, 1))
    key = ", ".join(f'<span style="color:{color}">&#9632;</span> {name}' for name, color in COLORS.items())
    return f"<p>What stands on the disk: {key}; a circle is a planned fault.</p>{sides}"


# ---- waves: what passed at the ports, in its order

def events(lines):
    """The traced lines as (time, kind, port, value); times in microseconds of the host since the first."""
    found, first = [], None
    for line in lines:
        time = re.search(r"@(\d+)\.(\d+):", line)
        now = int(time[1]) * 1000000 + int(time[2]) if time else 0
        first = now if first is None else first
        access = re.search(r"fdc_(read|write) 0x(\w+) (?:gives|takes) 0x(\w+)", line)
        up, ahead, store = re.search(r"fdc_int INT (\d)", line), re.search(r"fdc_ahead (-?\d+) steps", line), re.search(r"fdc_store (.*)", line)
        if access:
            found.append((now - first, access[1], int(access[2], 16), access[3].upper()))
        elif up:
            found.append((now - first, "int", 0, up[1]))
        elif ahead:
            found.append((now - first, "ahead", 0, ahead[1]))
        elif store:
            found.append((now - first, "store", 0, store[1]))
    return found


def lane_of(event):
    _, kind, port, _ = event
    if kind in ("read", "write"):
        return {("write", 0x3F5): "OUT 3F5", ("read", 0x3F5): "IN 3F5", ("read", 0x3F4): "IN 3F4", ("write", 0x3F2): "OUT 3F2"}.get((kind, port), "others")
    return {"int": "INT", "ahead": "steps", "store": "stored"}[kind]


LANES = ["OUT 3F2", "OUT 3F5", "IN 3F4", "IN 3F5", "others", "INT", "steps", "stored"]


def shortened(found):
    """Without reads of MSR that give the same as the one before."""
    out, last = [], None
    for event in found:
        if lane_of(event) == "IN 3F4":
            if event[3] == last:
                continue
            last = event[3]
        out.append(event)
    return out


def waves(lines, most=600):
    """The events side by side, a lane for each port and line; the newest ones, if they are too many."""
    found = shortened(events(lines))
    left, found = max(0, len(found) - most), found[-most:]
    if not found:
        return "<p>" + text_of("; ".join(lines) or "no trace") + "</p>"
    width, level, parts = 90 + 22 * len(found), 0, []
    for i, name in enumerate(LANES):
        parts.append(f'<text x="2" y="{24 + 26 * i}" font-size="11">{name}</text><line x1="80" x2="{width}" y1="{30 + 26 * i}" y2="{30 + 26 * i}" stroke="#dde3ea"/>')
    base, path = 30 + 26 * LANES.index("INT"), ""
    path = f"M80 {base}"
    for i, event in enumerate(found):
        x, lane = 85 + 22 * i, LANES.index(lane_of(event))
        if event[1] == "int":
            path += f"H{x}V{base - 16 * int(event[3])}"
            level = int(event[3])
        shown = {"int": "", "store": "&#9632;", "ahead": "&#9656;"}.get(event[1], text_of(event[3]))
        parts.append(f'<text x="{x}" y="{25 + 26 * lane}" font-size="11" font-family="monospace">{shown}<title>{event[0]} us: {event[1]} {event[2]:03X} {text_of(event[3])}</title></text>')
    path += f"H{width}"
    told = f"<p>The first {left} accesses are left out.</p>" if left else ""
    return f'{told}<div class="waves"><svg width="{width}" height="{40 + 26 * len(LANES)}" data-level="{level}"><path d="{path}" fill="none" stroke="#2266aa"/>{"".join(parts)}</svg></div>'


# ---- the page

def findings(step, kinds):
    return "".join(f'<div class="{"excused" if kinds[kind][0] else "wrong"}">{kind}: {text_of(what)}</div>' for kind, what in step["found"])


def is_wrong(one, kinds):
    return any(not kinds[kind][0] for step in one["steps"] for kind, _ in step["found"])


def row(one, kinds):
    answers = " ".join(f'<span class="{step["answer"]}">{step["answer"]}</span>' for step in one["steps"])
    told = "".join(findings(step, kinds) for step in one["steps"])
    link = f'<a href="#r{one["number"]}">{one["number"]}</a>'
    return f"<tr><td>{link}</td><td>{'<br>'.join(map(text_of, one['plan'])) or 'no fault'}</td><td>{answers}</td><td>{told or 'as reported'}</td></tr>"


def section(one, kinds, command):
    """A round at full length."""
    said = "".join(f'<h4>{text_of(step["what"])}: <span class="{step["answer"]}">{step["answer"]}</span></h4>{findings(step, kinds)}<pre>{text_of(step["said"])}</pre>'
                   for step in one["steps"])
    drawn = f"<h4>Waves of the round, done once more</h4>{waves(one['waves'])}" if one["waves"] else ""
    return (f'<details id="r{one["number"]}"{" open" if is_wrong(one, kinds) else ""}><summary>Round {one["number"]}</summary><h4>Planned</h4>'
            f'<pre>{text_of(chr(10).join(one["plan"]) or "no fault")}</pre>{said}{disk(one)}{drawn}<p>Again: <code>{text_of(command)} --round {one["number"]}</code></p></details>')


def page(job, rounds, counts, kinds, command, seconds):
    wrong = [one for one in rounds if is_wrong(one, kinds)]
    sums = "".join(f'<tr><td>{counts[kind]}</td><td class="{"" if kinds[kind][0] or not counts[kind] else "wrong"}">{kind}</td><td>{text_of(what)}</td></tr>' for kind, (_, what) in kinds.items())
    shown = wrong + [one for one in rounds if one not in wrong and any(step["found"] or step["answer"] != "well" for step in one["steps"])][:20]
    shown += [one for one in rounds if one not in shown][:3]
    return f"""<!doctype html><html lang="en"><meta charset="utf-8"><title>Bench: {text_of(command)}</title><style>{STYLE}</style>
<h1>A driver under planned faults</h1>
<p>{len(rounds)} rounds in {seconds:.0f} s; {len(wrong)} with a finding that nothing excuses. The same rounds again: <code>{text_of(command)}</code></p>
<table><tr><th>how often</th><th>finding</th><th>what it is</th></tr>{sums}</table>
<h2>What the guest does</h2><pre>{text_of(job.text)}</pre>
<h2>Rounds</h2><table><tr><th>round</th><th>planned</th><th>the guest said</th><th>findings</th></tr>{"".join(row(one, kinds) for one in rounds)}</table>
<h2>Rounds at full length</h2><p>All with a finding that nothing excuses, and some of the others.</p>{"".join(section(one, kinds, command) for one in sorted(shown, key=lambda one: one["number"]))}
</html>
"""
