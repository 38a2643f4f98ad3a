"""Pictures: SVG of one path or two, with true arcs, a mark for each crossing, and a ring around a refused vertex.

A picture is as wide as a card, 85.6 mm, and the paths have a card's field. Each mark is a link to its row in the table below,
and has the row in words as its title. There are no scripts and no fonts in it.
"""
from . import style
from .marks import at
from .panel import Panel


def draw(first, second=None, *, rows=(), refusal=None, title=None, names=None, outline=None, notes=()):
    """The text of an SVG file of one panel."""
    return sheet([Panel(first, second, rows, refusal, title=title, names=names, outline=outline, notes=notes)])


def sheet(panels):
    """The text of an SVG file of panels beside each other."""
    gap, drawn = 4.0, [panel.draw() for panel in panels]
    width = len(panels) * style.WIDTH + (len(panels) - 1) * gap
    height = max(high for _, high in drawn)
    parts = ['<?xml version="1.0" encoding="UTF-8"?>',
             f'<svg xmlns="http://www.w3.org/2000/svg" width="{at(width)}mm" height="{at(height)}mm" '
             f'viewBox="0 0 {at(width)} {at(height)}" font-family="sans-serif" fill="{style.INK}">',
             f"<style>{style.SHEET}</style>",
             f'<rect width="{at(width)}" height="{at(height)}" fill="{style.PAPER}"/>']
    for order, (elements, _) in enumerate(drawn):
        parts.append(f'<g transform="translate({at(order * (style.WIDTH + gap))} 0)">\n{elements}\n</g>')
    return "\n".join(parts + ["</svg>", ""])
