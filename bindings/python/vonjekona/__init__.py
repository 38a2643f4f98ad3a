"""Vonjekona: where two cutting paths, made of line segments and arcs, meet.

The calls of include/vonjekona.h, with the same names less the `vj_`. Numbers are handed over as they are; a refusal is raised
as `Refusal`. `python3 -m vonjekona list` is the command.
"""
from .answers import (Answer, Box, Boxed, Boxes, Class, Finding, Findings, KernelAnswer, LargeAnswer, LargeRow, Listing, Page,
                      Row)
from .drawings import dxf_export, dxf_export_large, dxf_import, dxf_import_large
from .floats import abs, abs_bits, max, max_bits, min, min_bits, sqrt, sqrt_bits
from .layouts import Layout, read_packed, read_text
from .library import NoLibrary
from .listings import (mutual, mutual_boxed, mutual_boxed_large, mutual_large, self_, self_boxed, self_boxed_large, self_large)
from .pages import (mutual_page, mutual_page_large, mutual_pages, mutual_pages_large, self_page, self_page_large, self_pages,
                    self_pages_large)
from .pairs import circle_circle_intr, line_circle_intr, line_line_intr, pair, pair_findings, pair_large
from .paths import Path, Vertex
from .refusals import Refusal
from .reports import Report, join, mutual_counted, mutual_counted_large

# Without abs, min and max: `from vonjekona import *` leaves Python's own. Without the modules of the package.
__all__ = [name for name, value in sorted(globals().items())
           if name[0] != "_" and name not in ("abs", "min", "max") and not hasattr(value, "__path__") and
           not hasattr(value, "__loader__")]
