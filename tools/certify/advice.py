"""In words: which block and rule resisted a search, and what would help."""
import flow
import names
import obstacles
import reasons
from outside import certificates, checker

ILLEGAL = ('the word means no instruction of RV32IM and Zve32x, or is not legal with this vector type: compile with '
           '-march=rv32im_zve32x')
HELP = {
    'NotCode': 'the kernel leads to where no code is',
    'IllegalWord': ILLEGAL,
    'Illegal': ILLEGAL,
    'VtypeUnknown': 'the vector type is not the same on each way here: set it (vsetvli) in the loop itself, or '
                    'compile with -Os -fno-vectorize where the compiler made the vector instructions',
    'ReadOnly': 'the buffer may only be read: state mode = "rw" in the job',
    'BlockTooLong': 'a block of more than 4,096 words: unroll less',
}
OUTSIDE = 'does the interval in the job fit the buffer, has each buffer its size, and is what is written to of mode "rw"?'
MOST = 8     # obstacles that are told


def misfits(image, certificate):
    """(block, address, rule, what is known there) of each block that is refused with budgets left out."""
    walk = checker.Walk(image, certificate)
    for block in certificate.blocks:
        s, pc = checker.at_block(certificate, block, walk.vlenb), block.start
        try:
            while walk.word(s, None, pc):
                pc += 4
        except certificates.Refused as e:
            yield block.start, pc, e.args[0], s


def told(found, image):
    """The lines that say why nothing was found, obstacle by obstacle."""
    resisting = list(misfits(image, found.certificate))
    what = obstacles.Obstacles(image, found.certificate.params, found.finder.words)
    for start, pc, rule, s in resisting[:MOST]:
        yield f'block {start:#x}: {rule} at {at(image, pc)}'
        yield from (f'  {line}' for line in help_with(what, pc, rule, s))
    if len(resisting) > MOST:
        yield f'and {len(resisting) - MOST} more'
    if found.trouble is not None and hasattr(found.trouble, 'loop'):
        yield f'loop {min(found.trouble.loop):#x}: BudgetNotProved: {found.trouble.why}'
        yield from (f'  {line}' for line in help_with_loop(what, found))
    elif not resisting:
        yield found.answer


def help_with(what, pc, rule, s):
    """What is known at a word that resisted, and what would help."""
    decoded = flow.decoded_at(what.image, pc)
    if rule == 'AccessNotProved' and decoded:
        i, f = decoded
        vl = f', vl {names.interval(*s.vl)}' if i.is_vector else ''
        return [f"{names.ABI[f['rs1']]} is {names.interval(*s.x[f['rs1']].range)}{vl}", *what.of_access(pc, s)]
    if rule == 'TargetNotABlock' and decoded and decoded[0].shape == 'jalr':
        return what.of_jump(pc)
    return [HELP.get(rule, 'what the block states does not hold on a way in'), reasons.NOTHING]


def help_with_loop(what, found):
    """What would help a loop that has no budget."""
    if found.trouble.why in reasons.REASONS:
        return reasons.told(found.trouble.why)
    return what.of_loop({pc for start in found.trouble.loop for pc, _, _ in found.finder.words[start]})


def told_of_run(refuted, image, params=()):
    """The lines that say what a run has shown."""
    passed = ', '.join(f'{name} = {number}' for name, number in refuted.arguments.items())
    run = f'a run with {passed}' if passed else 'a run'
    if refuted.fault:
        name, number = refuted.fault
        yield f'{run} meets {name} {number:#x} at {at(image, refuted.pc)}'
        yield '  ' + HELP.get(name, OUTSIDE)
        return
    yield f'{run} comes back to {refuted.pc:#x} with no register, and no sum of two, that falls each time: a budget has to'
    what = obstacles.Obstacles(image, params, [refuted.pc])
    around = what.origins.loops_at(refuted.pc)
    yield from (f'  {line}' for line in (what.of_loop(around[-1]) if around else reasons.told('calls')))


def at(image, pc):
    decoded = flow.decoded_at(image, pc)
    return f'{pc:#x}, ' + (names.instruction(*decoded, pc) if decoded else 'no instruction')


def ended(answer, certificate, entry):
    """What `rvvbox check` prints for an accepted certificate."""
    block = next(b for b in certificate.blocks if b.start == entry)
    second = f' + {block.k2} * x{block.r2}' if block.k2 else ''
    return f'accepted: bound {block.c} + {block.k} * x{block.r}{second}'


def listing(image, certificate, labels):
    """A certificate and the code that it speaks of, block by block."""
    by_address = {address: name for name, address in labels.items()}
    yield f'version {certificate.version}, VLEN {certificate.vlen}'
    for place, p in enumerate(certificate.params):
        if p.kind == 'buffer':
            yield f"a{place}: a buffer of {p.a} bytes to read{' and write' if p.mode & certificates.WRITE else ''}"
        if p.kind == 'scalar':
            yield f'a{place}: a number, {names.interval(p.a, p.b)}'
    for block in certificate.blocks:
        yield ''
        label = f' <{by_address[block.start]}>' if block.start in by_address else ''
        yield f'{block.start:#x}{label}: at most {names.budget(block.c, ((block.r, block.k), (block.r2, block.k2)))} instructions'
        yield from (f'  {line}' for line in claims(block))
        for pc, i, f in flow.words_of(image, block.start, {b.start for b in certificate.blocks}):
            yield f'    {pc:#x}  {names.instruction(i, f, pc)}'


def claims(block):
    """What a block states, in names."""
    if block.vtype is not None:
        yield f'vtype is {names.vtype(block.vtype)}'
    for fact in block.facts:
        parts = [] if (fact.lo, fact.hi) == certificates.FULL else [names.interval(fact.lo, fact.hi)]
        if fact.equal and not (fact.lo == fact.hi and not fact.equal[1]):
            parts.append('equal to ' + names.total(*fact.equal))
        yield f"{names.ABI[fact.number]} is {', '.join(parts)}"
    for fact in block.vectors:
        count = f'the first {fact.count} elements' if fact.count else 'the first vl elements'
        group = f'v{fact.register}' + (f' to v{fact.register + fact.registers - 1}' if fact.registers > 1 else '')
        yield f'{count} of {group} at {fact.width} bits are {names.interval(fact.lo, fact.hi)}'
    for order in block.orders:
        yield f'{names.ABI[order.r]} is at most {names.ABI[order.s]}'
