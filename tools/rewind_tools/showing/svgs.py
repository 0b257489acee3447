"""Pieces of the pictures in docs/pictures: SVGs that stand alone, on a ground of their own, in a light and a
dark form."""
from html import escape

STYLE = """
svg {
  --ground: #ffffff; --ink: #1b2330; --soft: #566273; --rim: #8b98a8; --box: #f4f6f9;
  --loop: #dfe8f3; --deep: #c6d6ea; --accent: #0b5cb8;
}
@media (prefers-color-scheme: dark) {
  svg {
    --ground: #12161c; --ink: #e7ebf1; --soft: #a3afbf; --rim: #6b7889; --box: #161b22;
    --loop: #26313e; --deep: #374658; --accent: #7fbcff;
  }
}
.ground { fill: var(--ground); }
text { font: 13px sans-serif; fill: var(--ink); text-anchor: middle; }
.fixed { font-family: monospace; }
.small { font-size: 12px; }
.head { font-weight: bold; }
.soft { fill: var(--soft); }
.accent { fill: var(--accent); }
.start { text-anchor: start; }
.end { text-anchor: end; }
.line { fill: none; stroke: var(--rim); stroke-width: 1.5; }
.thick { stroke: var(--accent); stroke-width: 2; }
.dashed { stroke-dasharray: 6 4; }
.box { fill: var(--box); stroke: var(--rim); stroke-width: 1.2; }
.loop { fill: var(--loop); stroke: none; }
.loop-edge { fill: none; stroke: var(--loop); }
.deep { fill: var(--deep); stroke: none; }
.deep-edge { fill: none; stroke: var(--deep); }
.tip { fill: var(--rim); }
.thick-tip { fill: var(--accent); }
"""
TIPS = "".join(
    f'<marker id="{name}" viewBox="0 0 8 8" refX="7" refY="4" markerUnits="userSpaceOnUse" markerWidth="10"'
    f' markerHeight="10" orient="auto"><path class="{name}" d="M0,0 L8,4 L0,8 z"/></marker>\n'
    for name in ("tip", "thick-tip")
)


def number(value):
    return f"{round(value, 1):g}"


def text(x, y, words, classes=""):
    plain = escape(words.replace("\u00a0", " "))
    return f'<text x="{number(x)}" y="{number(y)}" class="{classes}">{plain}</text>\n'


def box(x, y, wide, high, classes="box", round_by=7):
    """A rectangle by its middle."""
    left, top = number(x - wide / 2), number(y - high / 2)
    return (
        f'<rect x="{left}" y="{top}" width="{number(wide)}" height="{number(high)}" rx="{round_by}"'
        f' class="{classes}"/>\n'
    )


def line(x, y, to_x, to_y, classes="line", tip=None):
    end = f' marker-end="url(#{tip})"' if tip else ""
    return f'<path class="{classes}" d="M{number(x)},{number(y)} L{number(to_x)},{number(to_y)}"{end}/>\n'


def curve(points, classes="line", tip="tip", wide=None):
    """An edge of a layout."""
    rest = " ".join(f"{number(x)},{number(y)}" for x, y in points[1:])
    end = f' stroke-width="{wide}" stroke-linecap="round"' if wide else f' marker-end="url(#{tip})"'
    return f'<path class="{classes}" d="M{number(points[0][0])},{number(points[0][1])} C{rest}"{end}/>\n'


def moved(x, y, parts):
    return f'<g transform="translate({number(x)} {number(y)})">\n{"".join(parts)}</g>\n'


def picture(wide, high, title, parts):
    """A whole picture; its title is what is read out in its place."""
    size = f'width="{number(wide)}" height="{number(high)}" viewBox="0 0 {number(wide)} {number(high)}"'
    head = f'<svg xmlns="http://www.w3.org/2000/svg" {size} role="img">\n<title>{escape(title)}</title>\n'
    ground = '<rect class="ground" width="100%" height="100%"/>\n'
    return f"{head}<style>{STYLE}</style>\n<defs>\n{TIPS}</defs>\n{ground}{''.join(parts)}</svg>\n"
