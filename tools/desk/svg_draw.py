"""What a picture is drawn with: measured text, bars, lines and marks as SVG elements, the patterns and the style."""
import unicodedata

from .report_words import clean, escaped

SMALL, NORMAL, LARGE = 10, 12, 18  # sizes of text
WIDE, HALF, TALL = 0.99, 0.42, 0.66  # widths of characters in sizes of text, rather too wide than too narrow
NARROW = set("ijlftrI.,:;'|!()[]/- \"")
BROAD = set("mwMW%@&QGO\u2026")
BLUE, DARK, WARNING, INK, MUTED = "#0072b2", "#00456e", "#c44e00", "#1c2730", "#56626c"
STYLE = f"""
.journey text{{font-family:Arial,Helvetica,'Liberation Sans','DejaVu Sans',sans-serif;fill:{INK}}}
.journey .quiet{{fill:{MUTED}}}
.journey .strong{{font-weight:bold}}
.journey .grid{{stroke:#e4e8eb;fill:none}}
.journey .rule{{stroke:#aeb7be;fill:none}}
.journey .started{{stroke:{INK};stroke-width:1.2;stroke-dasharray:5 3;fill:none}}
.journey .request,.journey .indication{{fill:{DARK}}}
.journey .confirm{{fill:#fff;stroke:{DARK};stroke-width:1.6}}
.journey .no_confirm,.journey .error{{fill:none;stroke:{WARNING};stroke-width:2.2}}
.journey .deadline{{fill:{WARNING};stroke:#fff;stroke-width:1}}
.journey .several{{fill:none;stroke:{INK};stroke-width:1.4}}
.journey .bar{{stroke-width:1}}
.journey .watched{{stroke:none}}
.journey .value{{fill:none;stroke:{BLUE};stroke-width:1.7;stroke-linejoin:round}}
.journey .given{{fill:#fff;stroke:{MUTED};stroke-width:1.3}}
.journey .taken{{fill:{BLUE}}}
.journey .lost{{fill:{WARNING};stroke:#fff;stroke-width:1}}
.journey .between{{stroke:{BLUE};stroke-width:1.2;fill:none}}
.journey .dense{{fill:none;stroke-width:1.3;stroke:{DARK}}}
.journey .dense.no_confirm,.journey .dense.error,.journey .dense.deadline,.journey .dense.lost{{stroke:{WARNING};stroke-width:1.8}}
.journey .dense.given{{stroke:#a3adb5}}
.journey .dense.taken{{stroke:{BLUE}}}
.journey .state{{stroke:{BLUE};stroke-width:1}}
"""
# By what a bar means: its fill and its outline.
FILLS = {
    "confirm": ("#bcdcf0", BLUE), "no_confirm": ("url(#slanted)", WARNING), "deadline": ("url(#crossed)", WARNING),
    "start": ("#fff", MUTED), "end": ("#eef6fb", BLUE), "delay": ("url(#dotted)", MUTED),
    "running": ("#e3eef5", "none"), "stopped": ("url(#grey)", "none"), "good": ("#5f9cc2", "none"), "bad": ("url(#slanted)", "none"),
    "still": ("#dd9464", "none"),
    "in_time": ("#9db4c3", "none"), "many": ("url(#upright)", BLUE),
}


def pattern(name, size, ground, drawing, turned=0):
    turn = f" patternTransform=\"rotate({turned})\"" if turned else ""
    return (f"<pattern id=\"{name}\" width=\"{size}\" height=\"{size}\" patternUnits=\"userSpaceOnUse\"{turn}>"
            f"<rect width=\"{size}\" height=\"{size}\" fill=\"{ground}\"/>{drawing}</pattern>")


def definitions():
    """Style and patterns; one drawing of a page has them for all."""
    def upright(size, colour, width):
        return f"<path d=\"M{size / 2:g} 0V{size}\" stroke=\"{colour}\" stroke-width=\"{width}\"/>"

    crossed = upright(4, WARNING, 1.4) + f"<path d=\"M0 2H4\" stroke=\"{WARNING}\" stroke-width=\"1.4\"/>"
    patterns = [pattern("slanted", 4, "#fdeee4", upright(4, WARNING, 1.5), 45), pattern("crossed", 4, "#fbe3d3", crossed, 45),
                pattern("dotted", 4, "#fff", f"<circle cx=\"2\" cy=\"2\" r=\"0.9\" fill=\"{MUTED}\"/>"),
                pattern("grey", 6, "#f4f5f6", upright(6, "#c3cad0", 1.5), 45), pattern("upright", 3, "#fff", upright(3, BLUE, 1.2))]
    return f"<style>{STYLE}</style>\n<defs>{''.join(patterns)}</defs>\n"


def character_width(character):
    if unicodedata.combining(character):
        return 0.0
    if character in BROAD or unicodedata.east_asian_width(character) in "WF":
        return WIDE
    return HALF if character in NARROW else WIDE * 0.78 if character.isupper() else TALL


def text_width(text, size, bold=False):
    """About as wide as the widest of the usual fonts draws it."""
    return size * sum(map(character_width, text)) * (1.1 if bold else 1)


def shortened(text, size, room, bold=False):
    """The text, or as much of its beginning as has room."""
    text = clean(text)
    if text_width(text, size, bold) <= room:
        return text
    while text and text_width(text + "\u2026", size, bold) > room:
        text = text[:-1]
    return text.rstrip() + "\u2026"


def number(value):
    """A coordinate, to a hundredth of a pixel."""
    return f"{round(value, 2):g}" if abs(value) < 100000 else f"{value:.0f}"


# The outline of each mark around 0, 0, as path commands that move by differences.
SHAPES = {
    "request": "m0 -5l4.5 9h-9z", "indication": "m0 5l4.5 -9h-9z", "deadline": "m0 -6.5l6.5 6.5l-6.5 6.5l-6.5 -6.5z",
    "no_confirm": "m-4 -4l8 8m0 -8l-8 8", "error": "m-4 -4l8 8m0 -8l-8 8",
    "confirm": "m-3.6 0a3.6 3.6 0 1 0 7.2 0a3.6 3.6 0 1 0 -7.2 0z", "given": "m-3 0a3 3 0 1 0 6 0a3 3 0 1 0 -6 0z",
    "taken": "m-4.5 0a4.5 4.5 0 1 0 9 0a4.5 4.5 0 1 0 -9 0z", "lost": "m0 -6l5.5 10h-11z",
}
REACH = 6.5  # how far a mark goes from its middle, at most


class Box:
    """Where something lies, so that no text is put on it."""

    def __init__(self, left, top, right, bottom):
        self.left, self.top, self.right, self.bottom = left, top, right, bottom

    def meets(self, other):
        return self.left < other.right and other.left < self.right and self.top < other.bottom and other.top < self.bottom


def text_box(x, y, text, size, anchor="start", bold=False):
    """Where text lies whose baseline is at y."""
    width = text_width(text, size, bold)
    left = x - {"start": 0, "middle": width / 2, "end": width}[anchor]
    return Box(left, y - 0.8 * size, left + width, y + 0.25 * size)


class Canvas:
    """Collects elements. `taken` has what text must not be put on, in the lane that is drawn."""

    def __init__(self):
        self.parts, self.taken = [], []

    def add(self, tag, attributes, tip=None):
        words = "".join(f" {name}=\"{number(value) if isinstance(value, (int, float)) else value}\"" for name, value in attributes.items())
        self.parts.append(f"<{tag}{words}/>" if tip is None else f"<{tag}{words}><title>{escaped(tip)}</title></{tag}>")

    def line(self, kind, x, y, to_x, to_y, tip=None):
        self.add("path", {"class": kind, "d": f"M{number(x)} {number(y)}L{number(to_x)} {number(to_y)}"}, tip)

    def bar(self, kind, how, x, y, to_x, height, tip=None, count=1):
        """A bar, one pixel wide where it would be narrower."""
        fill, outline = FILLS[how]
        attributes = {"class": kind, "x": x, "y": y, "width": max(1.0, to_x - x), "height": height, "fill": fill}
        if outline != "none":
            attributes["stroke"] = outline
        if how == "start":
            attributes["stroke-dasharray"] = "3 2"
        if count > 1:
            attributes["data-count"] = count
        self.add("rect", attributes, tip)

    def mark(self, kind, x, y, tip, count=1):
        """A mark; with a bar above it where it stands for several."""
        attributes = {"class": kind, "d": f"M{number(x)} {number(y)}{SHAPES[kind]}"}
        if count > 1:
            attributes["data-count"] = count
        self.add("path", attributes, tip)
        if count > 1:
            self.line("several", x - 4.5, y - 7.5, x + 4.5, y - 7.5)
        self.taken.append(Box(x - REACH, y - REACH - 2, x + REACH, y + REACH))

    def stroke(self, kind, x, top, bottom, tip, count=1):
        """An upright stroke, at least two pixels long, for some of many marks."""
        attributes = {"class": f"dense {kind}", "d": f"M{number(x)} {number(min(top, bottom - 2))}V{number(bottom)}"}
        if count > 1:
            attributes["data-count"] = count
        self.add("path", attributes, tip)

    def text(self, x, y, words, size, kind="", anchor="start", tip=None):
        """Text that has its room."""
        words = clean(words)
        if not words:
            return
        self.taken.append(text_box(x, y, words, size, anchor, "strong" in kind))
        named = f" class=\"{kind}\"" if kind else ""
        anchored = f" text-anchor=\"{anchor}\"" if anchor != "start" else ""
        title = f"<title>{escaped(tip)}</title>" if tip else ""
        self.parts.append(f"<text x=\"{number(x)}\" y=\"{number(y)}\" font-size=\"{size}\"{named}{anchored}>{escaped(words)}{title}</text>")

    def text_where_free(self, x, y, words, size, kind="", anchor="start"):
        """Text, unless it would lie on something; says whether it was put there."""
        box = text_box(x, y, clean(words), size, anchor)
        if any(box.meets(other) for other in self.taken):
            return False
        self.text(x, y, words, size, kind, anchor)
        return True

    def name(self, x, y, words, size, room, kind=""):
        """A name, cut where it has no room; the whole is then in its tip."""
        cut = shortened(words, size, room, "strong" in kind)
        self.text(x, y, cut, size, kind, tip=None if cut == clean(words) else words)
