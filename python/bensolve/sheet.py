"""An SVG text in the making, with labels that meet nothing that stands there already."""
import html
import unicodedata

FONT = 13
AROUND = ((1, -1), (1, 0), (0, -1), (-1, -1), (1, 1), (-1, 0), (0, 1), (-1, 1))


def plain(text: str) -> str:
    """A text as it may stand in XML: without what is not printed, and with its signs escaped."""
    return html.escape("".join(sign if sign.isprintable() else " " for sign in text))


def pixel(value) -> str:
    """A place in the picture. Here exact numbers end."""
    text = f"{float(value):.1f}"
    return "0.0" if text == "-0.0" else text


def width_of(text: str) -> float:
    """About the width of a text."""
    return FONT * sum(0.33 if sign in " ,.:;()/-'ijlrtf" else 0.95 if sign in "mwMW" or unicodedata.east_asian_width(sign) in "WF" else 0.58
                      for sign in text)


def path_of(points) -> str:
    return " ".join(f"{pixel(x)},{pixel(y)}" for x, y in points)


class Sheet:
    """With a halo, labels are read over lines too."""

    def __init__(self, width: int, height: int, title: str, halo: bool = False):
        self.width, self.height = width, height
        self.halo = {"stroke": "white", "stroke_width": 3, "stroke_linejoin": "round", "paint_order": "stroke"} if halo else {}
        self.taken, self.crossed = [], []
        self.lines = [
            f'<svg xmlns="http://www.w3.org/2000/svg" viewBox="0 0 {width} {height}" role="img" font-family="sans-serif" font-size="{FONT}">',
            f"<title>{plain(title)}</title>",
            f'<rect width="{width}" height="{height}" fill="white"/>',
        ]

    def put(self, tag: str, text=None, title=None, **attributes):
        """Adds an element; `font_size` stands for the attribute `font-size`."""
        words = "".join(f' {name.replace("_", "-")}="{plain(str(value))}"' for name, value in attributes.items())
        inner = ("" if title is None else f"<title>{plain(title)}</title>") + ("" if text is None else plain(text))
        self.lines.append(f"<{tag}{words}>{inner}</{tag}>" if inner else f"<{tag}{words}/>")

    def take(self, x, y, width, height, places=None):
        """Keeps labels away from a rectangle with this middle."""
        (self.taken if places is None else places).append((float(x) - width / 2, float(y) - height / 2, width, height))

    def take_line(self, start, end, only_crossed=False):
        """Keeps labels away from a line; from one that is only crossed, those that are to stand apart."""
        (a, b), (c, d) = [[float(value) for value in point] for point in (start, end)]
        steps = int(max(abs(c - a), abs(d - b)) / 6) + 1
        for step in range(steps + 1):
            self.take(a + (c - a) * step / steps, b + (d - b) * step / steps, 4, 4, self.crossed if only_crossed else self.taken)

    def label(self, x, y, text: str, spots=AROUND, gap=9, apart=False, **attributes) -> bool:
        """Writes a text beside a place, at the first of the spots where it meets nothing; where there is none, it is left out."""
        width, height = width_of(text) + 4, FONT + 3
        places = self.taken + self.crossed if apart else self.taken
        for across, down in spots:
            left = float(x) + across * gap - width * (1 - across) / 2
            top = float(y) + down * gap - height * (1 - down) / 2
            if left < 2 or top < 2 or left + width > self.width - 2 or top + height > self.height - 2:
                continue
            if any(left < a + w and a < left + width and top < b + h and b < top + height for a, b, w, h in places):
                continue
            self.taken.append((left, top, width, height))
            anchor = ("end", "middle", "start")[(across > 0) - (across < 0) + 1]
            self.put("text", text, x=pixel(left + width * (1 - across) / 2), y=pixel(top + FONT - 1), text_anchor=anchor, **self.halo, **attributes)
            return True
        return False

    def text(self) -> str:
        return "\n".join([*self.lines, "</svg>", ""])
