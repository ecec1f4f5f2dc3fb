"""Pictures as SVG: shapes, and a panel with a frame. scripts/draw and bench/plots draw by it."""
import html

SANS = "DejaVu Sans, Verdana, sans-serif"
MONO = "DejaVu Sans Mono, monospace"
INK, FAINT = "#1a1a1a", "#555555"


def number(value):
    """A coordinate, with at most one decimal."""
    return f"{value:.1f}".removesuffix(".0")


def shape(name, inner=None, **given):
    """An element; `stroke_width=2` is the attribute stroke-width, and what is None is left out."""
    words = "".join(f" {key.replace('_', '-')}='{number(value) if isinstance(value, float) else value}'"
                    for key, value in given.items() if value is not None)
    return f"<{name}{words}/>" if inner is None else f"<{name}{words}>{inner}</{name}>"


def text(x, y, words, size=12, fill=INK, anchor="start", family=SANS, weight=None):
    return shape("text", html.escape(str(words), quote=False), x=x, y=y, font_size=size, fill=fill,
                 text_anchor=None if anchor == "start" else anchor, font_weight=weight, font_family=family)


def rect(x, y, width, height, fill, stroke=None, rx=None, stroke_width=None):
    return shape("rect", x=x, y=y, width=width, height=height, rx=rx, fill=fill, stroke=stroke, stroke_width=stroke_width)


def path(d, stroke, fill=None, stroke_width=None, marker_end=None):
    return shape("path", d=d, fill=fill, stroke=stroke, stroke_width=stroke_width, marker_end=marker_end)


def circle(x, y, radius, fill):
    return shape("circle", cx=x, cy=y, r=radius, fill=fill)


def arrow_head(name, fill):
    """A marker for the end of a path."""
    tip = shape("marker", shape("path", d="M0 0L10 5L0 10z", fill=fill), id=name, viewBox="0 0 10 10", refX=9, refY=5,
                markerWidth=7, markerHeight=7, orient="auto")
    return shape("defs", tip)


def picture(width, height, title, parts):
    """The whole file: a panel of its own, so that the page around it may be light or dark."""
    head = shape("svg", "", xmlns="http://www.w3.org/2000/svg", viewBox=f"0 0 {width} {height}", width=width, height=height,
                 role="img").removesuffix("</svg>")
    panel = rect(0, 0, width, height, "#fbfbf8", "#8a8a8a", rx=10)
    return "\n".join([head, shape("title", title), panel, *parts, "</svg>", ""])
