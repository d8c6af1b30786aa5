"""The pictures of a day's report, for 'mud-report', which stands beside this: SVG by matplotlib, without a screen.

Each has its numbers as a text, too. Colours of words are those of the page around it.
"""
import io
import math
import re

import matplotlib

matplotlib.use("svg")
from matplotlib import pyplot  # noqa: E402 (the kind of picture is chosen first)

# what stands in place of the page's own colour
INK = "#010203"
COLOURS = {"passed": "#2b8a5f", "unmanaged": "#8a8f98", "link": "#c3c7cc", "unreadable": "#6b4f3a", "unknown": "#7b5bb5", "begun": "#c9962b", "dropped": "#d1403b"}
WORDS = {"passed": "passed", "dropped": "dropped", "begun": "begun before the capture", "unknown": "not known yet", "unmanaged": "unmanaged",
         "link": "link upkeep", "unreadable": "unreadable"}
ALL = ("passed", "unmanaged", "link", "unreadable", "unknown", "begun")
PAIRS = 24
SETTINGS = {"svg.fonttype": "none", "svg.hashsalt": "mud", "text.parse_math": False, "font.family": "sans-serif", "font.size": 9, "text.color": INK,
            "axes.edgecolor": INK, "axes.labelcolor": INK, "xtick.color": INK, "ytick.color": INK, "axes.spines.top": False, "axes.spines.right": False}


def svg_of(figure, name, words):
    """The picture as an element of the page, with its numbers as a text."""
    octets = io.StringIO()
    figure.savefig(octets, format="svg", transparent=True, metadata={"Date": None, "Creator": None}, bbox_inches="tight")
    pyplot.close(figure)
    text = octets.getvalue()
    text = text[text.index("<svg"):].replace(INK, "currentColor")
    # its style would be one of the whole page, and its size is the page's
    text = re.sub(r"<metadata>.*?</metadata>|<style.*?</style>", "", text, flags=re.S)
    text = re.sub(r'(<svg[^>]*?) width="[^"]*" height="[^"]*"', r"\1", text, count=1)
    text = re.sub(r'(\bid="|url\(#|href="#)', rf"\1{name}-", text)
    return re.sub(r"<svg ", f'<svg role="img" aria-label="{escaped(words)}" ', text, count=1)


def escaped(text):
    return text.replace("&", "&amp;").replace('"', "&quot;").replace("<", "&lt;").replace(">", "&gt;")


def hours_words(hours):
    """The numbers of the picture of hours."""
    parts = []
    for row in hours:
        numbers = ", ".join(f"{row[kind]} {WORDS[kind]}" for kind in ("passed", "dropped", *ALL[1:]) if row[kind])
        parts.append(f"{row['time']}: {numbers or 'nothing'}")
    return "Packets by hour. " + "; ".join(parts) + "."


def hours_picture(hours):
    """The day by hour: what passed and all else above, what was dropped below."""
    with matplotlib.rc_context(SETTINGS):
        figure, (above, below) = pyplot.subplots(2, 1, figsize=(9, 4.2), sharex=True, gridspec_kw={"height_ratios": (3, 2)})
        places, base = range(len(hours)), [0] * len(hours)
        for kind in ALL:
            numbers = [row[kind] for row in hours]
            if any(numbers):
                above.bar(places, numbers, bottom=base, color=COLOURS[kind], label=WORDS[kind], width=0.8)
                base = [low + more for low, more in zip(base, numbers)]
        numbers = [row["dropped"] for row in hours]
        below.bar(places, numbers, color=COLOURS["dropped"], label="dropped", width=0.8, hatch="//", edgecolor="none")
        for at, number in enumerate(numbers):
            if number:
                below.text(at, number, str(number), ha="center", va="bottom", fontsize=7)
        below.set_xticks(list(places), [row["time"] for row in hours], rotation=90)
        above.set_ylabel("packets")
        below.set_ylabel("dropped packets")
        below.set_xlabel("beginning of the hour, in local time")
        below.set_ylim(0, max([*numbers, 1]) * 1.2)
        above.legend(frameon=False, ncol=4, loc="lower left", bbox_to_anchor=(0, 1))
        return svg_of(figure, "hours", hours_words(hours))


def pairs_of(talks):
    """The pairs that are shown: those with drops first, then those with the most packets."""
    rows = sorted(talks, key=lambda row: (-(row["dropped"] > 0), -(row["passed"] + row["dropped"] + row["begun"] + row["unknown"]), row["peer"]))
    return rows[:PAIRS]


def peer_word(row):
    return row["names"][0] if row["names"] else row["peer"]


def talks_words(rows, called):
    """The numbers of the picture of who talks to whom."""
    parts = []
    for row in rows:
        numbers = ", ".join(f"{row[kind]} {WORDS[kind]}" for kind in ("passed", "dropped", "begun", "unknown") if row[kind])
        parts.append(f"{called[row['mac']]} and {peer_word(row)} ({row['peer']}): {numbers}")
    return "Who talks to whom. " + "; ".join(parts) + "."


def shortened(text, most=38):
    return text if len(text) <= most else text[:most - 1] + "…"


def talks_picture(talks, called):
    """Who talks to whom: Things at the left, their peers at the right."""
    rows = pairs_of(talks)
    macs, peers = list(dict.fromkeys(row["mac"] for row in rows)), list(dict.fromkeys(row["peer"] for row in rows))
    height = max(len(macs), len(peers), 2)
    with matplotlib.rc_context(SETTINGS):
        figure, axes = pyplot.subplots(figsize=(9, 0.42 * height + 0.6))
        at = {mac: (number + 0.5) * height / len(macs) for number, mac in enumerate(macs)}
        to = {peer: (number + 0.5) * height / len(peers) for number, peer in enumerate(peers)}
        for row in rows:
            packets = row["passed"] + row["dropped"] + row["begun"] + row["unknown"]
            kind = max(("passed", "dropped", "begun", "unknown"), key=lambda one: row[one])
            axes.plot((0, 1), (at[row["mac"]], to[row["peer"]]), color=COLOURS["dropped" if row["dropped"] else kind],
                      linestyle="--" if row["dropped"] else "-", linewidth=0.8 + math.log10(packets + 1), alpha=0.8)
        for mac in macs:
            axes.text(-0.02, at[mac], shortened(called[mac]), ha="right", va="center")
        for row in {row["peer"]: row for row in rows}.values():
            here = [one for one in rows if one["peer"] == row["peer"]]
            numbers = [f"{sum(one[kind] for one in here)} {WORDS[kind]}" for kind in ("passed", "dropped", "begun", "unknown") if any(one[kind] for one in here)]
            axes.text(1.02, to[row["peer"]], f"{shortened(peer_word(row))}: {', '.join(numbers)}", ha="left", va="center")
        axes.set_xlim(-0.1, 1.1)
        axes.set_ylim(height, 0)
        axes.axis("off")
        return svg_of(figure, "talks", talks_words(rows, called))
