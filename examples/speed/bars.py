"""Bars of ratios as an SVG, for speed.py."""
from html import escape

WIDTH, LABEL, BAR, LINE, HEAD = 760, 300, 380, 22, 34
STYLE = 'font-family="sans-serif" font-size="13"'


def bar(y, label, ratio, most):
    """One row: what it is, a bar as long as its ratio, and the ratio."""
    long = BAR * ratio / most
    return [f'<text x="{LABEL - 8}" y="{y + 14}" text-anchor="end">{escape(label)}</text>',
            f'<rect x="{LABEL}" y="{y + 3}" width="{long:.1f}" height="{LINE - 8}" fill="#4878a8"/>',
            f'<text x="{LABEL + long + 6:.1f}" y="{y + 14}">{ratio:.1f}</text>']


def picture(parts):
    """The picture of parts, each a title and its rows of (label, ratio). Each part has a scale of its own; a line marks 1."""
    lines, y = [], 6
    for title, rows in parts:
        lines.append(f'<text x="{LABEL}" y="{y + 18}" font-weight="bold">{escape(title)}</text>')
        top, y = y + HEAD - 8, y + HEAD - 6
        most = max([1.0] + [ratio for _, ratio in rows])
        for label, ratio in rows:
            lines += bar(y, label, ratio, most)
            y += LINE
        one = LABEL + BAR / most
        lines.append(f'<line x1="{one:.1f}" y1="{top}" x2="{one:.1f}" y2="{y}" stroke="#b03030" stroke-dasharray="3 3"/>')
        y += 8
    head = f'<svg xmlns="http://www.w3.org/2000/svg" width="{WIDTH}" height="{y}" viewBox="0 0 {WIDTH} {y}" {STYLE}>'
    back = f'<rect width="{WIDTH}" height="{y}" fill="#ffffff"/>'
    return '\n'.join([head, back, *lines, '</svg>', ''])
