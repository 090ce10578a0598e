"""Pictures of patterns as SVG: the plate's row on the left, a cut through the elevations on the right."""

HEIGHT, TOP, LEFT, ROW, GAP, CUT = 200, 64, 44, 360, 56, 180
DASHES = {"solid": "", "dashed": ' stroke-dasharray="7 4"', "dotted": ' stroke-dasharray="1.5 3.5" stroke-linecap="round"'}
WIDTHS = {"solid": 1.4, "dashed": 1.6, "dotted": 2.2}


def depth(curves):
    """How many dB the picture shows: enough for the deepest curve, at most 30."""
    lowest = min(level for points, _ in curves for _, level in points)
    return next((dB for dB in (3, 6, 12) if lowest > -dB), 30)


def short(tenths):
    """A number of tenths in as few letters as can be."""
    return ("%g" % (tenths / 10)).replace("0.", ".") if abs(tenths) < 10 else "%g" % (tenths / 10)


def line(points, style):
    """A line through points, each told by its step from the last, in tenths; steps that go on straight are one."""
    tenths = [(round(10 * x), round(10 * y)) for x, y in points]
    steps = []
    for (a, b), (x, y) in zip(tenths, tenths[1:]):
        if steps and steps[-1][1] == 0 == y - b:
            steps[-1] = (steps[-1][0] + x - a, 0)
        else:
            steps.append((x - a, y - b))
    path = "M%g,%gl" % (tenths[0][0] / 10, tenths[0][1] / 10) + " ".join("%s,%s" % (short(x), short(y)) for x, y in steps)
    return '<path d="%s" stroke-width="%g"%s/>' % (path, WIDTHS[style], DASHES[style])


def axes(left, width, degrees, count, deepest):
    """A grid with its numbers: degrees[0] to degrees[1] in `count` parts, and three parts of the depth."""
    across = [(round(left + width * k / count, 1), degrees[0] + (degrees[1] - degrees[0]) * k / count) for k in range(count + 1)]
    down = [(round(TOP + HEIGHT * k / 3, 1), -deepest * k / 3) for k in range(4)]
    parts = ['<g stroke="#bbb" stroke-width=".6">']
    parts += ['<path d="M%g,%gh%g"/>' % (left, y, width) for y, _ in down]
    parts += ['<path d="M%g,%gv%g"/>' % (x, TOP, HEIGHT) for x, _ in across]
    parts.append('</g><g font-size="11" text-anchor="end">')
    parts += ['<text x="%g" y="%g">%g</text>' % (left - 5, y + 4, level) for y, level in down]
    parts.append('</g><g font-size="11" text-anchor="middle">')
    parts += ['<text x="%g" y="%g">%g</text>' % (x, TOP + HEIGHT + 15, degree) for x, degree in across]
    return parts


def panel(left, width, degrees, count, curves, caption):
    """Axes and curves: each a list of (degree, level) and a style."""
    deepest = depth(curves)
    parts = axes(left, width, degrees, count, deepest)
    parts.append('<text x="%g" y="%g">%s</text></g>' % (left + width / 2, TOP + HEIGHT + 30, caption))
    parts.append('<g fill="none" stroke="#000">')
    for points, style in curves:
        across = [left + width * (degree - degrees[0]) / (degrees[1] - degrees[0]) for degree, _ in points]
        down = [TOP + HEIGHT * min(-level / deepest, 1) for _, level in points]
        parts.append(line(list(zip(across, down)), style))
    return parts + ["</g>"]


def legend(names):
    """What each style of line is, above the panels."""
    parts = ['<g font-size="12" fill="none" stroke="#000">']
    for k, (name, style) in enumerate(names):
        y = 16 + 16 * k
        parts.append('<path d="M%d,%dh34" stroke-width="%g"%s/>' % (LEFT, y, WIDTHS[style], DASHES[style]))
        parts.append('<text x="%d" y="%d" fill="#000" stroke="none">%s</text>' % (LEFT + 42, y + 4, name))
    return parts + ["</g>"]


def picture(title, rows, cuts, names, captions):
    """The whole SVG. Rows and cuts: a list for each curve of (degree, level) and its style."""
    width, height = LEFT + ROW + GAP + CUT + 16, TOP + HEIGHT + 40
    head = '<svg xmlns="http://www.w3.org/2000/svg" viewBox="0 0 %d %d" width="%d" height="%d" font-family="sans-serif">'
    parts = [head % (width, height, width, height), "<title>%s</title>" % title, '<rect width="100%" height="100%" fill="#fff"/>']
    parts += legend(names)
    parts += panel(LEFT, ROW, (-180, 180), 4, rows, captions[0])
    parts += panel(LEFT + ROW + GAP, CUT, (0, 90), 3, cuts, captions[1])
    return "\n".join(parts + ["</svg>"]) + "\n"
