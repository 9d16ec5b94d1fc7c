"""Drawings as SVG: boxes, arrows and texts, legible on white and on black."""

from xml.sax.saxutils import escape

CONTAINER, OTHER, WARNING, LINE = "#1b6d85", "#5b5f66", "#a33b2e", "#7a7a7a"
FONT = 13  # pixels; a letter takes about half as much
HEIGHT = 30


class Drawing:
    """Shapes, and the sentence that says what they show."""

    def __init__(self, width, height, title):
        self.size, self.title, self.shapes = (width, height), title, []

    def text(self, x, y, words, fill=LINE, anchor="start", size=FONT):
        self.shapes.append(f'<text x="{x:g}" y="{y:g}" fill="{fill}" text-anchor="{anchor}" font-size="{size}">{escape(words)}</text>')

    def box(self, x, y, width, words, fill, height=HEIGHT):
        """Draws a filled box with its words in the middle, and returns the box."""
        self.shapes.append(f'<rect x="{x:g}" y="{y:g}" width="{width:g}" height="{height:g}" rx="4" fill="{fill}"/>')
        if words:
            self.text(x + width / 2, y + height / 2 + FONT / 3, words, "#ffffff", "middle")
        return x, y, width, height

    def arrow(self, start, end, words="", dashed=False):
        """Draws an arrow from a point to a point, with words beside its middle."""
        dash = ' stroke-dasharray="4 3"' if dashed else ""
        (x, y), (to_x, to_y) = start, end
        line = f'<line x1="{x:g}" y1="{y:g}" x2="{to_x:g}" y2="{to_y:g}" stroke="{LINE}" stroke-width="1.5"{dash} marker-end="url(#end)"/>'
        self.shapes.append(line)
        if words:
            self.text((x + to_x) / 2 + (6 if x == to_x else 0), (y + to_y) / 2 - (0 if x == to_x else 7), words, anchor="start" if x == to_x else "middle")

    def svg(self):
        width, height = self.size
        head = f'<svg xmlns="http://www.w3.org/2000/svg" viewBox="0 0 {width:g} {height:g}" width="{width:g}" role="img" font-family="sans-serif">'
        tip = f'<path d="M0 0 L8 4 L0 8 z" fill="{LINE}"/>'
        marker = f'<defs><marker id="end" viewBox="0 0 8 8" refX="8" refY="4" markerWidth="8" markerHeight="8" orient="auto">{tip}</marker></defs>'
        lines_first = sorted(self.shapes, key=lambda shape: not shape.startswith("<line"))
        return "\n".join([head, f"<title>{escape(self.title)}</title>", marker, *lines_first, "</svg>"]) + "\n"


def under(box):
    x, y, width, height = box
    return x + width / 2, y + height


def above(box):
    x, y, width, _ = box
    return x + width / 2, y


def right_of(box):
    x, y, width, height = box
    return x + width, y + height / 2


def left_of(box):
    x, y, _, height = box
    return x, y + height / 2
