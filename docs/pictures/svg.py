"""Small pictures in SVG: boxes, lines and text on a white page, so that they read on light and on dark screens.

  Fault         what a picture cannot be made from, in one line
  Page          a page that elements are added to; `text()` is the whole file
  width_of      about how wide a text is"""

from html import escape

INK, FAINT, RULE = "#1a1a1a", "#5a5f66", "#c4c8ce"
FONT = 'system-ui, "DejaVu Sans", sans-serif'
CODE = '"DejaVu Sans Mono", monospace'


class Fault(Exception):
    """What a picture is made from does not have the form that it needs."""


def width_of(text, size, is_code=False):
    return len(text) * size * (0.61 if is_code else 0.56)


def number(value):
    return f"{value:.1f}".removesuffix(".0")


class Page:
    def __init__(self, title, width, height):
        self.head = f'<svg xmlns="http://www.w3.org/2000/svg" width="{number(width)}" height="{number(height)}" viewBox="0 0 {number(width)} {number(height)}" role="img">'
        self.made = [f"<title>{escape(title)}</title>", f"<style>text {{ font: 12px {FONT}; fill: {INK}; }} .code {{ font-family: {CODE}; font-size: 11px; }}</style>"]
        self.box(0, 0, width, height, "#ffffff", "none")
        self.words(16, 26, title, size=15, weight="600")

    def add(self, name, inside=None, **places):
        """An element; the names of its places have _ for -."""
        where = "".join(f' {key.rstrip("_").replace("_", "-")}="{number(value) if isinstance(value, (int, float)) else escape(value)}"' for key, value in places.items())
        self.made.append(f"<{name}{where}/>" if inside is None else f"<{name}{where}>{escape(inside)}</{name}>")

    def box(self, x, y, width, height, fill, stroke=RULE, rx=0):
        self.add("rect", x=x, y=y, width=width, height=height, rx=rx, fill=fill, stroke=stroke)

    def words(self, x, y, text, size=12, fill=INK, anchor="start", weight="400"):
        self.add("text", text, x=x, y=y, style=f"font-size: {size}px; font-weight: {weight}; fill: {fill}", text_anchor=anchor)

    def code(self, x, y, text):
        self.add("text", text, class_="code", x=x, y=y)

    def line(self, x1, y1, x2, y2, stroke=RULE, width=1):
        self.add("line", x1=x1, y1=y1, x2=x2, y2=y2, stroke=stroke, stroke_width=width)

    def text(self):
        return "\n".join([self.head, *self.made, "</svg>"]) + "\n"
