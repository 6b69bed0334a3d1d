"""What the drawings of this folder have in common: an SVG that grows line by line, with a title and a line under it."""
from xml.sax.saxutils import escape

INK, GREY, LINE, PAPER = "#1c2127", "#5b6570", "#dde1e6", "#ffffff"


class Svg:
    def __init__(self):
        self.out = []

    def put(self, text, *values):
        self.out.append(text % values)

    def write(self, x, y, text, size=12, anchor="start", colour=INK, more=""):
        form = '<text x="%.1f" y="%.1f" font-size="%d" text-anchor="%s" fill="%s"%s>%s</text>'
        self.put(form, x, y, size, anchor, colour, more, escape(text))

    def begin(self, width, height, left, title, told):
        """The paper, with its title and what is told under it, from a place on."""
        self.put('<svg xmlns="http://www.w3.org/2000/svg" width="%d" height="%d" viewBox="0 0 %d %d"', width, height, width, height)
        self.put(' font-family="Helvetica, Arial, \'DejaVu Sans\', sans-serif">')
        self.put("<title>%s</title>", escape(title))
        self.put('<rect width="%d" height="%d" fill="%s"/>', width, height, PAPER)
        self.write(left, 34, title, 18, more=' font-weight="bold"')
        self.write(left, 56, told, 13, colour=GREY)

    def end(self):
        """All of it."""
        self.put("</svg>")
        return "\n".join(self.out) + "\n"
