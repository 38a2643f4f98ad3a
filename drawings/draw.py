#!/usr/bin/env python3
"""Draws the polylines of drawings/ with ezdxf: `draw.py FILE` writes them as a DXF file of R2000. ORIGIN.md says more."""
import math
import sys

import ezdxf

drawing = ezdxf.new("R2000")
drawing.layers.add("CUT", color=1)
space = drawing.modelspace()

# 1: a plate, plain numbers
space.add_lwpolyline([(0, 0), (100, 0), (100, 62.5), (0, 62.5)], close=True)
# 2: a slot with two half circles, on a layer with a colour and a line type
space.add_lwpolyline([(10, 10, 0), (40.25, 10, 1), (40.25, 14.5, 0), (10, 14.5, 1)], format="xyb", close=True,
                     dxfattribs={"layer": "CUT", "color": 3, "linetype": "BYLAYER"})
# 3: a plate whose corners are quarter circles: tan(pi/8) has more than six digits
quarter = math.tan(math.pi / 8)
space.add_lwpolyline([(5, 0, 0), (95, 0, quarter), (100, 5, 0), (100, 57.5, quarter), (95, 62.5, 0), (5, 62.5, quarter),
                      (0, 57.5, 0), (0, 5, quarter)], format="xyb", close=True)
# 4: an open track with an elevation and one width
track = space.add_lwpolyline([(0, 0), (20, 0), (20, 3), (0, 3), (0, 6), (20, 6)],
                             dxfattribs={"elevation": 1.5, "const_width": 0.25, "lineweight": 25})
# 5: an open track with a width at each vertex, arcs of 1/64 and below 0, and notes of a program
space.add_lwpolyline([(-12.5, 7.125, 0.5, 0.25, 0.015625), (-3, 7.000001, 0.25, 0.25, -0.75), (8.875, -2.5, 0.25, 0.5, 0)],
                     format="xyseb")
drawing.appids.add("NOTES")
space[-1].set_xdata("NOTES", [(1000, "cut first"), (1070, 7), (1010, (1.0, 2.0, 3.0))])
# 6: measures from a sum: 0.1 + 0.2 is not 0.3
space.add_lwpolyline([(0.1 + 0.2, 1 / 3, 0), (7.7, 2.2 * 3, 0.25), (9, 9, 0)], format="xyb")
# 7: one vertex
space.add_lwpolyline([(1048576, -1048576)])
drawing.saveas(sys.argv[1])
