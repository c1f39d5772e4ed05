"""Wrong definitions of how a run starts and ends, of runs.py, and of why none is opened, of opening.py: a name, a text and what stands in its place, perhaps
several times. For wrong.py."""
import itertools

REGISTERS = '        x[1], x[2] = EXIT, SP\n'
NEXT = 'at += (len(a[1]) + 4095) // 4096 * 4096 + 4096'
MACHINE = 'bytes(32 * self.vlenb), 0x80000000, 0, 0, 0, memory)'
STACK = "areas.append((STACK, bytes(65536), 'rw'))"

START = [
    ('ra is 0', REGISTERS, '        x[2] = SP\n'),
    ('ra is the entry', REGISTERS, '        x[1], x[2] = entry_of(self.image), SP\n'),
    ('sp is 0', REGISTERS, '        x[1] = EXIT\n'),
    ('sp is 16 below the end of the stack', REGISTERS, '        x[1], x[2] = EXIT, SP - 16\n'),
    ('sp is the first byte of the stack', REGISTERS, '        x[1], x[2] = EXIT, STACK\n'),
    ('gp is the entry', REGISTERS, REGISTERS + '        x[3] = entry_of(self.image)\n'),
    ('a0 is the number of arguments where nothing is passed', REGISTERS, REGISTERS + '        x[10] = sum(a is not None for a in self.args)\n'),
    ('a scalar is of 31 bits', 'x[10 + k] = a\n', 'x[10 + k] = a & 0x7fffffff\n'),
    ('arguments close up', '        for k, a in enumerate(self.args):\n            if isinstance', '        for k, a in enumerate([a for a in self.args if a is not None]):\n            if isinstance'),
    ('an empty buffer is 0', '                x[10 + k] = at\n', '                x[10 + k] = at if a[1] else 0\n'),
    ('buffers begin at 0x4000_1000', 'at, self.buffers = 0x40000000, []', 'at, self.buffers = 0x40001000, []'),
    ('buffers adjoin', NEXT, 'at += (len(a[1]) + 4095) // 4096 * 4096'),
    ('buffers begin a page behind each other', NEXT, 'at += len(a[1]) + 4096'),
    ('buffers have whole pages between them', NEXT, 'at += len(a[1]) // 4096 * 4096 + 8192'),
    ('an empty buffer takes no room', NEXT, 'at += (len(a[1]) + 4095) // 4096 * 4096 + 4096 if a[1] else 0'),
    ('buffers fill whole pages', "areas.append((at, a[1], 'rw' if a[0] == 'w' else 'r'))", "areas.append((at, a[1] + bytes(-len(a[1]) % 4096), 'rw' if a[0] == 'w' else 'r'))"),
    ('all buffers may be written', "areas.append((at, a[1], 'rw' if a[0] == 'w' else 'r'))", "areas.append((at, a[1], 'rw'))"),
    ('buffers may be executed', "areas.append((at, a[1], 'rw' if a[0] == 'w' else 'r'))", "areas.append((at, a[1], 'rwx' if a[0] == 'w' else 'rx'))"),
    ('the stack may be executed', STACK, STACK.replace("'rw'", "'rwx'")),
    ('the stack is a page longer', STACK, "areas.append((STACK - 4096, bytes(65536 + 4096), 'rw'))"),
    ('the stack is a page shorter', STACK, "areas.append((STACK + 4096, bytes(65536 - 4096), 'rw'))"),
    ('the stack is a byte longer', STACK, "areas.append((STACK, bytes(65537), 'rw'))"),
    ('the stack is ones', STACK, STACK.replace('bytes(65536)', "b'\\xff' * 65536")),
    ('the lowest page of the stack is ones', STACK, STACK.replace('bytes(65536)', "b'\\xff' * 4096 + bytes(65536 - 4096)")),
    ('what may be written may be read', "('r' if f & 4 else '')", "('r' if f & 6 else '')"),
    ('what may be executed may be read', "('r' if f & 4 else '')", "('r' if f & 5 else '')"),
    ('what has no right may be read', "('r' if f & 4 else '')", "('r' if f & 4 or not f else '')"),
    ('what may be read may be executed', "('x' if f & 1 else '')", "('x' if f & 5 else '')"),
    ('what may be read may be written', "('w' if f & 2 else '')", "('w' if f & 2 or f == 4 else '')"),
    ('bytes past those of the file are ones', 'image[offset:offset + filesz] + bytes(memsz - filesz)', "image[offset:offset + filesz] + b'\\xff' * (memsz - filesz)"),
    ('segments fill whole pages', 'image[offset:offset + filesz] + bytes(memsz - filesz)', 'image[offset:offset + filesz] + bytes(memsz - filesz + -(vaddr + memsz) % 4096)'),
    ('a run starts at the first segment', 'entry_of(self.image), x, bytes(32 * self.vlenb), 0x80000000', 'areas[0][0], x, bytes(32 * self.vlenb), 0x80000000'),
    ('vector registers are ones', MACHINE, MACHINE.replace('bytes(32 * self.vlenb)', "b'\\xff' * (32 * self.vlenb)")),
    ('vtype is 0', MACHINE, MACHINE.replace('0x80000000', '0')),
    ('vl is VLENB', MACHINE, MACHINE.replace('0x80000000, 0,', '0, self.vlenb,')),
    ('vl is VLENB under vill', MACHINE, MACHINE.replace('0x80000000, 0,', '0x80000000, self.vlenb,')),
    ('vxrm is 2', MACHINE, MACHINE.replace('0, 0, 0, memory', '0, 2, 0, memory')),
    ('vxsat is 1', MACHINE, MACHINE.replace('0, 0, 0, memory', '0, 0, 1, memory')),
    ('out of steps comes before the end', '            if m.pc == EXIT:\n', '            if m.pc == EXIT and steps < self.most:\n'),
    ('a trap comes before out of steps', '            if steps == self.most:\n', "            if steps == self.most and memory.permits(m.pc, 4, 'x') and model.decode(int.from_bytes(memory.load(m.pc, 4), 'little')):\n"),
    ('one step more', '            if steps == self.most:\n', '            if steps == self.most + 1:\n'),
    ('a fault is a step', "                end = 'trapped %s %08x' % e.args\n", "                end = 'trapped %s %08x' % e.args\n                steps += 1\n"),
    ('a fetch needs its first byte alone', "if not memory.permits(m.pc, 4, 'x'):", "if not memory.permits(m.pc, 1, 'x'):"),
    ('a word of code lies in one segment', "if not memory.permits(m.pc, 4, 'x'):", "if not any('x' in r and at <= m.pc and m.pc + 4 <= at + len(b) for at, b, r in memory.areas):"),
    ('code lies in the segment of the entry', "if not memory.permits(m.pc, 4, 'x'):", "if not any(at <= entry_of(self.image) < at + len(b) and at <= m.pc < at + len(b) for at, b, r in memory.areas):"),
    ('code may be read', "if not memory.permits(m.pc, 4, 'x'):", "if not memory.permits(m.pc, 4, 'x') or not memory.permits(m.pc, 4, 'r'):"),
]

KINDS = "('WrongKind', is_wrong_kind)"
INTERVALS = "('ScalarOutOfInterval', is_out_of_interval)"
SIZES = "('WrongSize', is_wrong_size)"
ORDER = 'ERRORS = (%s, %s, %s)' % (KINDS, INTERVALS, SIZES)
INSIDE = 'not p.a <= argument <= p.b'
ARGUMENTS = '    if error:\n        return error\n'
SUM = 'constant + sum(factor * x[register] for factor, register in zip(products[::2], products[1::2]))'
BOUND = "    if %s > most:\n        return 'BoundTooLarge'\n" % SUM
LENGTH = "    return None if certificate.vlen == 8 * vlenb else 'WrongVlen'\n"
MATCHED = '    error = arguments_error(certificate.params, arguments)\n' + ARGUMENTS
NUMBERS = "    constant, *products = map(int, told.split()[1:])\n"
WALK = '''    for name, is_wrong in ERRORS:
        for place in range(8):
'''

OPENING = [
    ('kinds are not tested', ORDER, 'ERRORS = (%s, %s)' % (INTERVALS, SIZES), "p.kind == 'scalar' and", "p.kind == 'scalar' and isinstance(argument, int) and", "p.kind == 'buffer' and len", "p.kind == 'buffer' and isinstance(argument, tuple) and len"),
    ('a scalar may be passed for none', 'return p.kind != kind_of(argument)', "return p.kind != kind_of(argument) and (p.kind, kind_of(argument)) != ('none', 'scalar')"),
    ('a buffer may be passed for none', 'return p.kind != kind_of(argument)', "return p.kind != kind_of(argument) and (p.kind, kind_of(argument)) != ('none', 'buffer')"),
    ('none may be passed for a scalar', 'return p.kind != kind_of(argument)', "return p.kind != kind_of(argument) and (p.kind, kind_of(argument)) != ('scalar', 'none')", INSIDE, 'not p.a <= (argument or 0) <= p.b'),
    ('none may be passed for a buffer', 'return p.kind != kind_of(argument)', "return p.kind != kind_of(argument) and (p.kind, kind_of(argument)) != ('buffer', 'none')", "p.kind == 'buffer' and len", "p.kind == 'buffer' and argument and len"),
    ('a buffer may be passed for a scalar', 'return p.kind != kind_of(argument)', "return p.kind != kind_of(argument) and (p.kind, kind_of(argument)) != ('scalar', 'buffer')", "p.kind == 'scalar' and", "p.kind == 'scalar' and isinstance(argument, int) and"),
    ('a scalar may be passed for a buffer', 'return p.kind != kind_of(argument)', "return p.kind != kind_of(argument) and (p.kind, kind_of(argument)) != ('buffer', 'scalar')", "p.kind == 'buffer' and len", "p.kind == 'buffer' and isinstance(argument, tuple) and len"),
    ('a scalar may be below its interval', INSIDE, 'not argument <= p.b'),
    ('a scalar may be above its interval', INSIDE, 'not p.a <= argument'),
    ('a scalar is above lo', INSIDE, 'not p.a < argument <= p.b'),
    ('a scalar is below hi', INSIDE, 'not p.a <= argument < p.b'),
    ('a buffer may be longer', 'len(argument[1]) != p.a', 'len(argument[1]) < p.a'),
    ('a buffer may be shorter', 'len(argument[1]) != p.a', 'len(argument[1]) > p.a'),
    ('a buffer may be empty', 'len(argument[1]) != p.a', 'len(argument[1]) not in (0, p.a)'),
    ('intervals come before kinds', ORDER, 'ERRORS = (%s, %s, %s)' % (INTERVALS, KINDS, SIZES), "p.kind == 'scalar' and", "p.kind == 'scalar' and isinstance(argument, int) and"),
    ('sizes come before kinds', ORDER, 'ERRORS = (%s, %s, %s)' % (SIZES, KINDS, INTERVALS), "p.kind == 'buffer' and len", "p.kind == 'buffer' and isinstance(argument, tuple) and len"),
    ('sizes come before intervals', ORDER, 'ERRORS = (%s, %s, %s)' % (KINDS, SIZES, INTERVALS)),
    ('the first place with any error is told', WALK, '    for place in range(8):\n        for name, is_wrong in ERRORS:\n'),
    ('the last place is told', WALK, WALK.replace('range(8)', 'reversed(range(8))')),
    ('seven places are looked at', WALK, WALK.replace('range(8)', 'range(7)')),
    ('places begin at 1', "'%s(%d)' % (name, place)", "'%s(%d)' % (name, place + 1)"),
    ('arguments are not tested', ARGUMENTS, ''),
    ('the bound comes before the arguments', MATCHED, '', BOUND, BOUND + MATCHED),
    ('the length comes before the arguments', MATCHED, "    if certificate.vlen != 8 * vlenb:\n        return 'WrongVlen'\n" + MATCHED),
    ('the length comes before the bound', BOUND, "    if certificate.vlen != 8 * vlenb:\n        return 'WrongVlen'\n" + BOUND),
    ('the length is not tested', LENGTH, '    return None\n'),
    ('the bound is not tested', BOUND, ''),
    ('the bound is below the most steps', BOUND, BOUND.replace('> most', '>= most')),
    ('one step more than the bound', BOUND, BOUND.replace('> most', '> most + 1')),
    ('the bound has 32 bits', BOUND, BOUND.replace(SUM, '(%s) %% (1 << 32)' % SUM)),
    ('the bound has 63 bits', BOUND, BOUND.replace(SUM, '(%s) %% (1 << 63)' % SUM)),
    ('the bound has 64 bits', BOUND, BOUND.replace(SUM, '(%s) %% (1 << 64)' % SUM)),
    ('the bound has no second product', BOUND, BOUND.replace('products[::2]', 'products[:1]')),
    ('both products are of the first register', BOUND, BOUND.replace('x[register]', 'x[products[1]]')),
    ('the bound is c', BOUND, BOUND.replace(SUM, 'constant')),
    ('the bound has no c', BOUND, BOUND.replace('constant + ', '')),
    ('the bound is by the greatest of the interval', NUMBERS, NUMBERS + "    arguments = [p.b if p.kind == 'scalar' else a for p, a in zip(certificate.params, arguments)]\n"),
    ('ra is 0 for the bound', '    x[1], x[2] = EXIT, 0x30000000\n', '    x[2] = 0x30000000\n'),
    ('sp is 0 for the bound', '    x[1], x[2] = EXIT, 0x30000000\n', '    x[1] = EXIT\n'),
    ('other registers are not 0 for the bound', '    x = [0] * 32\n', '    x = [1] * 32\n'),
    ('a pointer is 0 for the bound', '        x[10 + place] = address\n', '        pass\n'),
    ('a pointer is that of the first buffer for the bound', '        x[10 + place] = address\n', '        x[10 + place] = 0x40000000\n'),
    ('a scalar is 0 for the bound', '            x[10 + place] = argument & M32\n', '            pass\n'),
    ('arguments begin at a1 for the bound', '            x[10 + place] = argument & M32\n', '            x[11 + place] = argument & M32\n'),
    ('a bound of a scalar alone', BOUND, BOUND.replace('x[register]', 'x[register] * (10 <= register < 18)')),
    ('images are not checked', "    if not told.startswith('accepted '):\n        return told\n", "    if not told.startswith('accepted '):\n        return None if told.split()[0][-9:] == 'NotProved' else told\n"),
    ('arguments come before the check', "    if not told.startswith('accepted '):\n        return told\n", "    if told[:2] in ('Ac', 'In', 'Bu') and arguments_error(read_certificate(read_image(file).certificate).params, arguments):\n        return arguments_error(read_certificate(read_image(file).certificate).params, arguments)\n    if not told.startswith('accepted '):\n        return told\n"),
    ('an image without a certificate is run', "    if not told.startswith('accepted '):", "    if told == 'no certificate':\n        return None\n    if not told.startswith('accepted '):"),
    ('the check is at the length of the run', "    told = next(answer for answer in (check(file, own) for own in (16, 32, 64)) if answer != 'WrongVlen')\n", '    told = check(file, vlenb)\n'),
]
OPENING += [('a certificate for %d bits is run at %d' % (own, bits), LENGTH,
             LENGTH.replace('== 8 * vlenb', '== 8 * vlenb or (certificate.vlen, 8 * vlenb) == (%d, %d)' % (own, bits)))
            for own, bits in itertools.permutations((128, 256, 512), 2)]

# Changes that change no answer, and why.
SAME = []
