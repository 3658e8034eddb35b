"""Draws docs/speed.svg, which README.md shows: the rows for each set of pictures, and below them each kind of picture."""

ROWS = {
    "encoding into a buffer": "encoding",
    "decoding into a buffer": "decoding",
    "encoding to a writer, a slice": "encoding to a writer",
    "`from_buf_read` of a `BufReader`": "decoding from a BufReader",
}
COLORS = ("#2f6f9f", "#79aacb", "#c3d9e8")
LEFT, UNIT = 190, 90


def text(x, y, words, anchor="start"):
    return f'<text x="{x:.0f}" y="{y:.0f}" text-anchor="{anchor}">{words}</text>'


def bar(y, high, ratio, color):
    """A bar, with the ratio behind it, or behind the line at 1."""
    width, shown = ratio * UNIT, f"{ratio:.1f}" if ratio >= 1 else f"{ratio:.2f}"
    yield f'<rect x="{LEFT}" y="{y}" width="{width:.1f}" height="{high - 2}" fill="{color}"/>'
    yield text(LEFT + max(width, UNIT) + 5, y + high - 4, shown)


def legend(y, title, names):
    x = LEFT
    yield text(x - 10, y + 11, title, "end")
    for name, color in zip(names, COLORS):
        yield f'<rect x="{x}" y="{y}" width="12" height="12" fill="{color}"/>'
        yield text(x + 17, y + 11, name)
        x += 35 + 7 * len(name)


def block(top, title, found, high, gap):
    """Where it ends, and bars so high below a legend: a group for each name, with the ratios of what the legend has."""
    names = list(next(iter(found.values())))
    lines, y, one = list(legend(top, title, names)), top + 36, LEFT + UNIT
    for name, by in found.items():
        lines.append(text(LEFT - 10, y + len(names) * high / 2 + 4, name, "end"))
        for ratio, color in zip(by.values(), COLORS):
            lines += bar(y, high, ratio, color)
            y += high
        y += gap
    lines.append(f'<line x1="{one}" y1="{top + 28}" x2="{one}" y2="{y}" stroke="#b03030" stroke-dasharray="4 3"/>')
    return y, lines


def svg(found, real, made, head):
    """The picture. `found` has the ratio of each set of pictures for each row, the others those of each kind."""
    most = max(max(it.values()) for it in (*found.values(), *real.values(), *made.values()))
    y, lines = block(10, "", found, 14, 14)
    for title, kinds in (("by kind of picture:", real), ("of made pictures:", made)):
        y, more = block(y + 14, title, kinds, 12, 6)
        lines += more
    lines.append(text(LEFT, y + 14, "1: the faster of the C library and the Rust crate"))
    lines.append(text(LEFT, y + 29, "(of calls over a writer or a reader, the crate)"))
    body = "\n".join(lines)
    return (f'<svg xmlns="http://www.w3.org/2000/svg" width="{LEFT + int(most * UNIT) + 45}" height="{y + 40}" '
            f'font-family="sans-serif" font-size="12">\n<title>{head}</title>\n'
            f'<rect width="100%" height="100%" fill="white"/>\n{body}\n</svg>\n')


def draw(path, columns, by_kind, is_made, ratio, head):
    """Writes the picture of the rows that it has, from the seconds of all who were timed, made kinds last."""
    found = {shown: {pictures: float(ratio(rows[row])) for pictures, rows in columns.items()}
             for row, shown in ROWS.items() if all(row in it for it in columns.values())}
    calls = ("encoding", "decoding")
    kinds = {kind: {it: float(ratio(rows[f"{it} into a buffer"])) for it in calls} for kind, rows in by_kind.items()}
    real, made = ({kind: it for kind, it in kinds.items() if (kind in is_made) == last} for last in (False, True))
    path.write_text(svg(found, real, made, head))
