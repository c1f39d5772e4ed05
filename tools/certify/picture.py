"""A graph that `chart.dot` wrote as an SVG picture: rectangles in layers, with an arrow for each way.

    picture.py < certificate.dot > certificate.svg

A block stands in the layer below the last one that leads to it. A way over several layers takes a place in each of them; a way back
goes along the right side. The same graph always gives the same bytes.
"""
import re
import sys
from html import escape

CHARACTER, LINE, PAD = 7.3, 16, 8           # of text at 12 pixels: its width, a line's height, the space around
BESIDE, BETWEEN, LANE = 28, 52, 18          # between blocks of a layer, between layers, between ways back
NODE = re.compile(r'\s*(\w+) \[label="((?:[^"\\]|\\.)*)"(, shape=oval)?\];')
WAY = re.compile(r'\s*(\w+) -> (\w+)(?: \[(?:label="((?:[^"\\]|\\.)*)")?(.*)\])?;')
HEAD = ('<svg xmlns="http://www.w3.org/2000/svg" width="{0}" height="{1}" viewBox="0 0 {0} {1}" font-family="monospace" font-size="12">\n'
        '<defs><marker id="to" viewBox="0 0 8 8" refX="8" refY="4" markerWidth="7" markerHeight="7" orient="auto">'
        '<path d="M0 0L8 4L0 8z"/></marker></defs>\n<rect width="{0}" height="{1}" fill="white"/>')


class Node:
    """A block's box, or with no lines the place of a way that goes past a layer."""

    def __init__(self, lines=(), is_oval=False):
        self.lines, self.is_oval = lines, is_oval
        self.width = max(map(len, lines)) * CHARACTER + 2 * PAD if lines else LANE
        self.height = len(lines) * LINE + 2 * PAD if lines else 0
        self.layer, self.x, self.y = 0, 0.0, 0.0


class Way:
    """An arrow: from, to, its text, whether it is a guard's; by: the places that it goes through."""

    def __init__(self, source, target, label, style):
        self.source, self.target, self.label = source, target, unescaped(label or '')
        self.is_guard, self.is_back, self.by = 'red' in (style or ''), False, []


def unescaped(label):
    """A label without its backslashes."""
    return re.sub(r'\\(.)', r'\1', label)


def parsed(lines):
    """The nodes by name, in the order in which they stand, and the ways."""
    nodes, ways = {}, []
    for line in lines:
        if found := WAY.match(line):
            ways.append(Way(*found.groups()))
        elif (found := NODE.match(line)) and found[1] not in ('node', 'edge'):
            text = found[2].removesuffix('\\l')
            nodes[found[1]] = Node([unescaped(part) for part in text.split('\\l')], bool(found[3]))
    return nodes, ways


def find_ways_back(nodes, ways):
    """Marks the ways that lead back to a block that is still on the way to them."""
    leads = {name: [way for way in ways if way.source == name] for name in nodes}
    open_, done = set(), set()
    for first in nodes:
        walk = [] if first in done else [(first, iter(leads[first]))]
        open_.update(name for name, _ in walk)
        while walk:
            name, rest = walk[-1]
            way = next(rest, None)
            if way is None:
                walk.pop()
                open_.discard(name)
                done.add(name)
            elif way.target in open_:
                way.is_back = True
            elif way.target not in done:
                open_.add(way.target)
                walk.append((way.target, iter(leads[way.target])))


def layered(nodes, ways):
    """Gives each block its layer, and each long way its places: the layers, each a list of nodes."""
    forward = [way for way in ways if not way.is_back]
    is_changed = True
    while is_changed:
        is_changed = False
        for way in forward:
            least = nodes[way.source].layer + 1
            if nodes[way.target].layer < least:
                nodes[way.target].layer, is_changed = least, True
    layers = [[] for _ in range(max(node.layer for node in nodes.values()) + 1)]
    for node in nodes.values():
        layers[node.layer].append(node)
    for way in forward:
        for layer in range(nodes[way.source].layer + 1, nodes[way.target].layer):
            way.by.append(Node())
            layers[layer].append(way.by[-1])
    return layers


def placed(nodes, ways, layers):
    """Gives each node its place: below what leads to it, as far as there is room; the width and height of all."""
    above = {}
    for way in ways:
        if not way.is_back:
            chain = [nodes[way.source], *way.by, nodes[way.target]]
            for one, two in zip(chain, chain[1:]):
                above.setdefault(id(two), []).append(one)
    top = float(PAD)
    for layer in layers:
        middle = lambda node: sum(n.x for n in above[id(node)]) / len(above[id(node)]) if id(node) in above else 0.0
        wanted = sorted((middle(node), k) for k, node in enumerate(layer))
        left, tall = wanted[0][0] - layer[wanted[0][1]].width, max(node.height for node in layer)
        for want, k in wanted:
            node = layer[k]
            node.x, node.y = max(left + node.width / 2, want), top
            node.height = node.height or tall
            left = node.x + node.width / 2 + BESIDE
        much = sum(layer[k].x - want for want, k in wanted) / len(layer)
        for node in layer:
            node.x -= much
        top += tall + BETWEEN
    every = [node for layer in layers for node in layer]
    first = min(node.x - node.width / 2 for node in every) - PAD
    for node in every:
        node.x -= first
    return max(node.x + node.width / 2 for node in every), top - BETWEEN + PAD


def drawn_node(node):
    """The box of a block with its text, the first line bold."""
    left = node.x - node.width / 2
    round_ = node.height / 2 if node.is_oval else 3
    yield (f'<rect x="{left:.1f}" y="{node.y:.1f}" width="{node.width:.1f}" height="{node.height:.1f}" rx="{round_:.1f}" '
           'fill="#f6f6f6" stroke="black"/>')
    for k, line in enumerate(node.lines):
        weight = ' font-weight="bold"' if k == 0 and not node.is_oval else ''
        yield f'<text x="{left + PAD:.1f}" y="{node.y + PAD + LINE * k + 12:.1f}"{weight}>{escape(line)}</text>'


def drawn_way(way, nodes, right):
    """The arrow of a way, and its text beside where it begins."""
    one, two = nodes[way.source], nodes[way.target]
    x, y = one.x, one.y + one.height
    if way.is_back:
        x, out = one.x + one.width / 4, two.x + two.width / 4
        path = f'M{x:.1f} {y:.1f}v16H{right:.1f}V{two.y - 16:.1f}H{out:.1f}v16'
    else:
        path = f'M{x:.1f} {y:.1f}'
        for node in [*way.by, two]:
            path += f'C{x:.1f} {y + BETWEEN / 2:.1f} {node.x:.1f} {node.y - BETWEEN / 2:.1f} {node.x:.1f} {node.y:.1f}'
            x, y = node.x, node.y
            if node is not two:
                y = node.y + node.height
                path += f'V{y:.1f}'
    style = ' stroke="red" stroke-dasharray="5 3"' if way.is_guard else ' stroke="black"'
    yield f'<path d="{path}" fill="none"{style} marker-end="url(#to)"/>'
    if way.label:
        first = (way.by + [two])[0]
        at = one.x + one.width / 4 + 4 if way.is_back else one.x + (first.x - one.x) / 4 + 6
        fill = 'red' if way.is_guard else '#444'
        yield f'<text x="{at:.1f}" y="{one.y + one.height + 12:.1f}" fill="{fill}">{escape(way.label)}</text>'


def svg(lines):
    """The picture of a graph, as text."""
    nodes, ways = parsed(lines)
    find_ways_back(nodes, ways)
    layers = layered(nodes, ways)
    right, height = placed(nodes, ways, layers)
    out, lane = [], right
    for way in ways:
        lane += LANE if way.is_back else 0
        out += drawn_way(way, nodes, lane)
    for node in nodes.values():
        out += drawn_node(node)
    return '\n'.join([HEAD.format(round(lane + LANE), round(height)), *out, '</svg>']) + '\n'


if __name__ == '__main__':
    print(svg(sys.stdin), end='')
