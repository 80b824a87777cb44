"""What the pictures in docs/ are made of."""

import os
import sys
from xml.sax.saxutils import escape

ROOT = os.path.dirname(os.path.dirname(os.path.abspath(__file__)))

STYLE = """<style>
text { font: 13px system-ui, -apple-system, "Segoe UI", "DejaVu Sans", sans-serif; fill: #1f2430 }
.mono { font-family: ui-monospace, SFMono-Regular, Menlo, Consolas, "DejaVu Sans Mono", monospace }
.head { font-size: 15px; font-weight: bold }
.small { font-size: 11.5px; fill: #3f4757 }
.offset { font-size: 10.5px; fill: #667085 }
.tiny { font-size: 9px; fill: #667085 }
.middle { text-anchor: middle }
.end { text-anchor: end }
path { fill: none; stroke: #98a2b3; stroke-width: 1.6 }
</style>"""
PAPER = "#fcfcf9"
# Pairs of fill and edge.
BLUE, AMBER, RED = ("#dbe8f6", "#7da2cd"), ("#fdeacb", "#d3a04c"), ("#f9dbd7", "#cb7d75")
GREEN, GREY, VIOLET = ("#dcf0df", "#74ae81"), ("#ededeb", "#b4b4b0"), ("#e9e2f6", "#9f8bcb")
MARGIN = 24


def source(path):
    with open(os.path.join(ROOT, path), encoding="utf-8") as file:
        return file.read()


def keep(made, check, program):
    """Writes what was made for each path; where it is only to be checked, ends the program if a path holds something else."""
    for path, text in made.items():
        whole = os.path.join(ROOT, path)
        if not check:
            with open(whole, "w", encoding="utf-8") as file:
                file.write(text)
        elif not os.path.exists(whole) or source(path) != text:
            sys.exit(f"{path} is not what {program} makes of its sources: run {program}")


def text(x, y, words, classes=""):
    return f'<text x="{x:g}" y="{y:g}" class="{classes}">{escape(words)}</text>'.replace(' class=""', "")


def box(x, y, width, height, colours, corner=2):
    fill, edge = colours
    return f'<rect x="{x:g}" y="{y:g}" width="{width:g}" height="{height:g}" rx="{corner}" fill="{fill}" stroke="{edge}"/>'


def legend(x, y, entries):
    """Coloured squares in a row, each with its words."""
    for colours, words in entries:
        yield box(x, y - 11, 14, 14, colours)
        yield text(x + 21, y, words)
        x += 51 + 6.6 * len(words)


def picture(width, height, title, parts):
    head = (f'<svg xmlns="http://www.w3.org/2000/svg" viewBox="0 0 {width:g} {height:g}" width="{width:g}" '
            f'height="{height:g}" role="img">')
    paper = f'<rect width="{width:g}" height="{height:g}" rx="10" fill="{PAPER}"/>'
    return "\n".join([head, f"<title>{escape(title)}</title>", STYLE, paper, *parts, "</svg>", ""])
