"""Sizes in millimetres, and colours. Each class has a colour and a shape of its own, so that it is known in print too."""
from ..answers import Class

# A card is 85.6 mm wide and 53.98 mm high.
WIDTH, HEIGHT = 85.6, 54.0
# A drawing that is wide and low takes less.
LEAST_HEIGHT = 12.0
MARGIN = 3.0
TEXT, SMALL, TITLE = 2.3, 1.9, 3.0
LINE = 3.1
# How wide a letter is, roughly; and how many bold ones fit into a text line of the panel.
LETTER = 0.57 * TEXT
LETTERS = 58
STROKE, OUTLINE, BAND = 0.32, 0.2, 1.1
MARK, RING = 0.95, 2.2
# Marks that are nearer to each other share one label.
NEAR = 1.2

INK, PALE, PAPER = "#222222", "#b8b8b8", "#ffffff"
# The first path and the second.
PATHS = ("#1f4e8c", "#8a5a1c")
CLASSES = {
    Class.TANGENT: "#7a35b8",
    Class.ONE: "#d3121f",
    Class.TWO: "#e06c00",
    Class.LINES: "#0b8043",
    Class.ARCS: "#00838f",
}
REFUSED = "#d6006c"

SHEET = (".row:target rect{fill:#ffe98a}"
         ".mark:target circle{fill:#ffe98a;fill-opacity:.8}"
         "a:hover text{text-decoration:underline}"
         "a{cursor:pointer}")
