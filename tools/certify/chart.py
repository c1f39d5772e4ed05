"""A certificate as a Graphviz graph: its blocks with what they state, and the ways between them by the checker's steps."""
import advice
import flow
import names
from outside import checker, model

CONSTANTS = ('addi', 'lui', 'auipc')
STYLE = ['digraph certificate {', '  node [shape=box, fontname="monospace", fontsize=12];', '  edge [fontname="monospace", fontsize=11];']


def ends_of(image, certificate):
    """The blocks that only end the run: numbers and stores, and then `ecall` or another such block."""
    starts = {block.start for block in certificate.blocks}
    words = {start: flow.words_of(image, start, starts) for start in starts}
    ends, is_changed = set(), True
    while is_changed:
        more = {start for start in starts - ends if is_end(words[start], ends)}
        ends, is_changed = ends | more, bool(more)
    return ends


def is_end(words, ends):
    """Whether a block only ends the run, where these do."""
    if not words:
        return False
    *before, (pc, i, f) = words
    if any(j.name not in CONSTANTS and j.shape != 'store' for _, j, _ in before):
        return False
    if i.shape == 'jal' and not f['rd']:
        return pc + f['to'] in ends
    return i.shape == 'ecall' or (i.name in CONSTANTS or i.shape == 'store') and pc + 4 in ends


def text(lines):
    """Lines as a label, each from the left."""
    return ''.join(line.replace('\\', '\\\\').replace('"', '\\"') + '\\l' for line in lines)


def name_of(target):
    """The name of a way's end in the graph."""
    return {model.EXIT: 'end', None: 'unknown'}.get(target, f'b{target or 0:x}')


def blocks(certificate, labels):
    """A line for each block: its address and label, its budget, what it states."""
    by_address = {address: name for name, address in labels.items()}
    for block in certificate.blocks:
        label = f' <{by_address[block.start]}>' if block.start in by_address else ''
        budget = names.budget(block.c, ((block.r, block.k), (block.r2, block.k2)))
        lines = [f'{block.start:#x}{label}', f'at most {budget} instructions', *advice.claims(block)]
        yield f'  {name_of(block.start)} [label="{text(lines)}"];'


def ways(image, certificate):
    """A line for each way: a branch that is taken with its condition, one that ends the run early as a guard."""
    ends, explorer = ends_of(image, certificate), flow.Explorer(image, certificate)
    for block in certificate.blocks:
        for edge in explorer.edges(block):
            i, f = flow.decoded_at(image, edge.pc)
            is_taken = i.shape == 'branch' and edge.target == edge.pc + f['to'] & checker.M32
            is_guard = i.shape == 'branch' and edge.target in ends and block.start not in ends
            shown = names.instruction(i, f, edge.pc).rsplit(',', 1)[0] if is_taken else ''
            label = ', '.join(part for part in ('guard' if is_guard else '', shown) if part)
            style = [f'label="{text([label])[:-2]}"'] if label else []
            style += ['color=red', 'style=dashed'] if is_guard else []
            yield f"  {name_of(block.start)} -> {name_of(edge.target)}{' [' + ', '.join(style) + ']' if style else ''};"


def dot(image, certificate, labels):
    """The lines of the graph."""
    lines = [*STYLE, *blocks(certificate, labels)]
    between = list(ways(image, certificate))
    for name, label in (('end', 'the run ends'), ('unknown', 'not known')):
        if any(f'-> {name}' in line for line in between):
            lines.append(f'  {name} [label="{label}", shape=oval];')
    return [*lines, *between, '}']

