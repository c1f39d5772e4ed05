"""Wrong definitions of the machine: a name, a text of model.py and what stands in its place. For wrong.py.

The first six are definitions that once stood in this project unnoticed.
"""
import itertools

MACHINE = [
    ('lw decoded from f3 6', 'def decode(word):', 'def decode(word):\n    if word & 0x707f == 0x6003:\n        word ^= 0x4000\n    elif word & 0x707f == 0x2003:\n        return None'),
    ('vle8 that ignores bits 31:26', 'def decode(word):', 'def decode(word):\n    if word & 0x01f0707f == 0x7:\n        word &= 0x03ffffff'),
    ('a masked compare into v0 is not legal', "not (dest.eew == 1 or dest.is_single)", "not (dest.eew == 1 and i.shape != 'cmp' or dest.is_single)"),
    ('a masked carry out into v0 is not legal', "not (dest.eew == 1 or dest.is_single)", "not (dest.eew == 1 and i.shape != 'carry_mask' or dest.is_single)"),
    ('vsetvli x0, rs1 keeps vl', "avl = self.x[f['rs1']]", "avl = self.x[f['rs1']] if f['rd'] else 'keep'"),
    ('arithmetic at vl 0 writes the tail', '''        if self.vl == 0:
            return
        for k in range(self.vl if first_tail''', '''        for k in range(self.vl if first_tail'''),
    ('vlenb reads 16 at VLEN 256', '0xc22: self.vlenb}', '0xc22: 16}'),
    ('a mask at vl 0 has a tail', '''    def write_mask(self, reg, new, is_active):
        if self.vl == 0:
            return''', '''    def write_mask(self, reg, new, is_active):'''),
    ('a mask tail follows vta', '        if self.ones:\n            for k in range(self.vl, 8', '        if self.agnostic(6):\n            for k in range(self.vl, 8'),
    ('a mask tail ends at VLMAX', 'for k in range(self.vl, 8 * self.vlenb)', 'for k in range(self.vl, vlmax_of(self.vtype, self.vlenb))'),
    ('tail ends at VLMAX where EMUL is below 1', '            for k in range(self.vl if first_tail is None else first_tail, count):', '            for k in range(self.vl if first_tail is None else first_tail, min(count, vlmax_of(self.vtype, self.vlenb))):'),
    ('the element behind 511 others is no tail', '            for k in range(self.vl if first_tail is None else first_tail, count):', '            for k in range((self.vl if first_tail is None else first_tail) + (self.vl == 511), count):'),
    ('the bit behind 511 others is no tail', 'for k in range(self.vl, 8 * self.vlenb)', 'for k in range(self.vl + (self.vl == 511), 8 * self.vlenb)'),
    ('the last of 511 elements is left as it is', '                if new[k] is not None:\n', '                if new[k] is not None and (self.vl, k) != (511, 510):\n'),
    ('vta and vma changed about', 'return self.ones and self.vtype >> bit & 1', 'return self.ones and self.vtype >> 13 - bit & 1'),
    ('inactive elements are always kept', 'elif new[k] is not None and self.agnostic(7)', 'elif False'),
    ('inactive bits are always kept', '            elif self.agnostic(7):\n                self.put_bit', '            elif False:\n                self.put_bit'),
    ('the mask is inverted', "self.bit(0, k) == 1", "self.bit(0, k) == 0"),
    ('the mask is by bytes', "return f['vm'] == 1 or self.bit(0, k) == 1", "return f['vm'] == 1 or self.v[k % self.vlenb] & 1 == 1"),
    ('vadc with the mask as a mask', "if stem == 'vadc' else a(k) - b(k) - self.bit(0, k) for k in body], every)", "if stem == 'vadc' else a(k) - b(k) - self.bit(0, k) for k in body])"),
    ('vmadc without carry in', "c = lambda k: self.bit(0, k) if f['vm'] == 0 else 0", 'c = lambda k: 0'),
    ('vmadc always with carry in', "c = lambda k: self.bit(0, k) if f['vm'] == 0 else 0", 'c = lambda k: self.bit(0, k)'),
    ('vmadc with inactive elements', "c(k) < 0 for k in body], every)", "c(k) < 0 for k in body], is_active)"),
    ('vmerge the other way', 'write([b(k) if self.bit(0, k) else a(k)', 'write([a(k) if self.bit(0, k) else b(k)'),
    ('vmerge with inactive elements', 'else a(k) for k in body], every)', 'else a(k) for k in body])'),
    ('a write to vcsr changes its bits about', 'self.vxsat, self.vxrm = new & 1, new >> 1 & 3', 'self.vxrm, self.vxsat = new & 3, new >> 2 & 1'),
    ('a write to vxrm keeps three bits', 'self.vxrm = new & 3', 'self.vxrm = new & 7'),
    ('csrrs with a register that holds 0 reads vl only then', "writes = i.name in ('csrrw', 'csrrwi') or (f['imm'] if 'imm' in f else f['rs1']) != 0", "writes = operand != 0"),
    ('csrrc sets', "'c': old & ~operand", "'c': old & operand"),
    ('csrrsi immediate is signed', "f['imm'] = word >> 15 & 31\n        if f['csr'] not", "f['imm'] = signed(word >> 15, 5)\n        if f['csr'] not"),
    ('vstart may be read', "if f['csr'] not in CSRS", "if f['csr'] not in CSRS and f['csr'] != 8"),
    ('vl may be set to itself', "if f['csr'] in READ_ONLY and (i.name in ('csrrw', 'csrrwi') or word >> 15 & 31)", "if f['csr'] in READ_ONLY and i.name in ('csrrw', 'csrrwi')"),
    ('vl is AVL / 2 rounded up between', "min(avl, greatest)", "(min(avl, greatest) if avl <= greatest or avl >= 2 * greatest else (avl + 1) // 2)"),
    ('vl above VLMAX', "request, greatest if avl == 'greatest' else min(avl, greatest)", "request, greatest if avl == 'greatest' else avl & 0xff"),
    ('the keep form cuts vl', "if vtype == VILL or vlmax_of(vtype, vlenb) != greatest:\n            return VILL, 0", "vl = min(vl, greatest)"),
    ('the keep form goes under vill', "if vtype == VILL or vlmax", "if vtype != VILL and vlmax"),
    ('not supported keeps vl', "    if not is_supported(request):\n        return VILL, 0", "    if not is_supported(request):\n        return VILL, vl"),
    ('rd gets AVL', "self.set_x(f['rd'], self.vl)", "self.set_x(f['rd'], avl if type(avl) is int else self.vl)"),
    ('bits above 7 of the request are ignored', 'return vtype >> 8 == 0 and', 'return'),
    ('bit 31 of the request is ignored', 'return vtype >> 8 == 0 and', 'return (vtype & 0x7fffffff) >> 8 == 0 and'),
    ('SEW 64 supported', "vtype >> 3 & 7 <= 2", "vtype >> 3 & 7 <= 3"),
    ('LMUL 1/8 supported', 'vtype & 7 not in (4, 5) and', 'vtype & 7 != 4 and (vtype & 7 == 5 and vtype >> 3 & 7 == 0 or vtype & 7 != 5) and vtype & 7 in (0, 1, 2, 3, 5, 6, 7) and (vtype & 7) == 5 or vtype & 7 not in (4, 5) and'),
    ('SEW 16 at LMUL 1/4 supported', 'sew_of(vtype) * 4 <= lmul4_of(vtype) * 32', 'True'),
    ('vsetivli immediate of 11 bits', "0x7ff if i.name == 'vsetvli' else 0x3ff", "0x7ff"),
    ('an unaligned group is legal', 'or o.reg % o.count != 0', ''),
    ('sources need no alignment', 'or o.reg % o.count != 0', "or o.reg % o.count != 0 and o.role == 'vd'"),
    ('EMUL below 1 is aligned to 2', 'o.reg % o.count != 0', 'o.reg % (o.count if o.emul4 >= 4 else 2) != 0'),
    ('unmasked into v0 is not legal', "if f['vm'] == 0 and 0 in dest.registers", "if 0 in dest.registers"),
    ('a masked instruction into v0 is legal', "if f['vm'] == 0 and 0 in dest.registers", "if False and 0 in dest.registers"),
    ('v0 is looked for at the start of the group alone, at LMUL 1', "if f['vm'] == 0 and 0 in dest.registers", "if f['vm'] == 0 and dest.reg == 0 and dest.count == 1"),
    ('a mask may lie anywhere in a source', "if dest.reg != s.reg:\n                return False", "pass"),
    ('a mask may share with no source', "if dest.reg != s.reg:\n                return False", "return False"),
    ('a mask may lie at the end of a source', "if dest.reg != s.reg:", "if dest.reg != s.reg + s.count - 1:"),
    ('vmsgt immediate is unsigned', "f['imm'] = signed(word >> 15, 5) if i.imm == 's'", "f['imm'] = signed(word >> 15, 5) if i.imm == 's' and not i.name.startswith('vmsgt')"),
    ('vmsleu immediate is unsigned', "f['imm'] = signed(word >> 15, 5) if i.imm == 's'", "f['imm'] = signed(word >> 15, 5) if i.imm == 's' and not i.name.startswith('vmsleu')"),
    ('shift immediate is signed', "if i.imm == 's' else word >> 15 & 31\n", "\n"),
    ('vx operand is cut to 8 bits', "return self.x[f['rs1']] & (1 << w) - 1", "return self.x[f['rs1']] & 255"),
    ('shift by all bits', 'return b & (w - 1)', 'return min(b, w)'),
    ('shift by five bits', 'return b & (w - 1)', 'return b & 31'),
    ('vrsub as vsub', "'vrsub': lambda a, b, w: b - a", "'vrsub': lambda a, b, w: a - b"),
    ('vmulhsu the other way', "'vmulhsu': lambda a, b, w: signed(a, w) * b >> w", "'vmulhsu': lambda a, b, w: a * signed(b, w) >> w"),
    ('vmadd as vmacc', "'vmadd': lambda a, b, c, w: b * c + a", "'vmadd': lambda a, b, c, w: b * a + c"),
    ('vnmsub as vmadd', "'vnmsub': lambda a, b, c, w: a - b * c", "'vnmsub': lambda a, b, c, w: a + b * c"),
    ('division by 0 gives 0', 'return mask, a\n', 'return 0, a\n'),
    ('remainder by 0 gives 0', 'return mask, a\n', 'return mask, 0\n'),
    ('division rounds down', "q = abs(x) // abs(y)\n    if (x < 0) != (y < 0):\n        q = -q", "q = x // y"),
    ('jalr keeps bit 0', "(a + imm & ~1 if", "(a + imm if"),
    ('jalr reads rd after it is written', "                    self.set_x(f['rd'], go)\n                go = target", "                    self.set_x(f['rd'], go)\n                go = (self.x[f['rs1']] + imm & ~1) & M32 if n == 'jalr' else target"),
    ('a misaligned branch that is not taken faults', "            if taken:\n                target", "            if taken or (pc + f['to']) % 4:\n                target"),
    ('a misaligned target is gone to', "if target % 4:", "if target % 2:"),
    ('lb is unsigned', "v if n.endswith('u') else signed(v, i.width)", "v if n.endswith('u') or n == 'lb' else signed(v, i.width)"),
    ('a load past the end gives its first bytes', "all(self.find(addr + k, right) for k in range(n))", "self.find(addr, right) is not None and (self.find(addr + n - 1, right) is not None or n == 2)"),
    ('an address past 2^32 faults', "at, size = a + imm & M32", "at, size = a + imm"),
    ('a store needs to be read alone', "permits(at, size, 'w')", "permits(at, size, 'r')"),
    ('vle8 faults at inactive places too, at vl 0', "body = [k for k in range(self.vl) if self.active(f, k)]", "body = [k for k in range(max(1, self.vl)) if self.active(f, k)]"),
    ('vle8 has elements of SEW', "stride = size if how == 'unit'", "size = sew_of(self.vtype) // 8\n                stride = size if how == 'unit'"),
    ('vle8 writes what LMUL says, not EMUL', "dest, _ = operands(i, f, self.vtype)\n            w = 8", "dest, _ = operands(i, f, self.vtype)\n            dest.emul4 = lmul4_of(self.vtype)\n            w = 8"),
    ('mulhsu the other way', "'mulhsu': lambda: sa * b >> 32", "'mulhsu': lambda: a * sb >> 32"),
    ('x0 is written', "        if n:\n            self.x[n]", "        if True:\n            self.x[n]"),
    ('ecall goes on', "go = EXIT", "go = go"),
    ('auipc is lui', "self.set_x(f['rd'], pc + imm)", "self.set_x(f['rd'], imm)"),
    ('slti is unsigned', "{'sltiu': 'sltu'}", "{'sltiu': 'sltu', 'slti': 'sltu'}"),
    ('sltiu immediate is unsigned', "b, n = imm & M32", "b, n = imm & (0xfff if n == 'sltiu' else M32)"),
    ('rounding to the nearest rounds a half down', 'return floor + (low >= half)', 'return floor + (low > half)'),
    ('rounding to even rounds a half up', 'low > half or low == half and floor & 1', 'low >= half'),
    ('rounding to odd cuts', 'return floor | (low != 0)', 'return floor'),
    ('rounding down rounds up', 'if vxrm == 2:\n        return floor\n', 'if vxrm == 2:\n        return floor + (low != 0)\n'),
    ('vaaddu without the carry', 'rounded(p + q if', 'rounded(p + q & (1 << w) - 1 if'),
    ('vsmul shifts by SEW', 'rounded(x * y, w - 1, vxrm)', 'rounded(x * y, w, vxrm)'),
    ('vsmul does not saturate', "clipped(v, w, True), clipped(v, w, True) != v\n    return rounded(a if", "v, False\n    return rounded(a if"),
    ('inactive elements set vxsat', 'if any(sat for k, (_, sat) in enumerate(both) if is_active(k)):', 'if any(sat for _, sat in both):'),
    ('vxsat is cleared where nothing saturates', 'if any(sat for k, (_, sat) in enumerate(both) if is_active(k)):', 'self.vxsat = 0\n            if any(sat for k, (_, sat) in enumerate(both) if is_active(k)):'),
    ('vnclip by as many bits as SEW has', 'd = b & (2 * w - 1)', 'd = b & (w - 1)'),
    ('vnclipu of a signed number', 'rounded(signed(a, 2 * w) if is_signed else a, d, vxrm)', 'rounded(signed(a, 2 * w), d, vxrm)'),
    ('vsaddu.vi immediate is unsigned', "f['imm'] = signed(word >> 15, 5) if i.imm == 's'", "f['imm'] = signed(word >> 15, 5) if i.imm == 's' and i.name != 'vsaddu.vi'"),
    ('vwsub.wv extends b by zeros', "'vwsub': lambda a, b, w: a - signed(b, w)}", "'vwsub': lambda a, b, w: a - b}"),
    ('vwmulsu the other way', "'vwmulsu': lambda a, b, w: signed(a, w) * b", "'vwmulsu': lambda a, b, w: a * signed(b, w)"),
    ('vwmaccsu as vwmaccus', "'vwmaccsu': lambda a, b, c, w: signed(b, w) * a + c", "'vwmaccsu': lambda a, b, c, w: b * signed(a, w) + c"),
    ('vsext extends by zeros', "signed(a(k), part) if stem == 'vsext' else a(k)", 'a(k)'),
    ('vslideup writes below the distance', 'a(k - offset) if k >= offset else None', 'a(k - offset) if k >= offset else 0'),
    ('vslidedown ends at vl', 'a(k + offset) if k + offset < vlmax else 0', 'a(k + offset) if k + offset < vl else 0'),
    ('slides go by the low bits', "offset = f['imm'] if 'imm' in f else self.x[f['rs1']]", "offset = f['imm'] if 'imm' in f else self.x[f['rs1']] & 255"),
    ('vslide1down ends at VLMAX', 'a(k + 1) if k < vl - 1 else offset', 'a(k + 1) if k < vlmax - 1 else offset'),
    ('vrgather goes round at VLMAX', 'a(index(k)) if index(k) < vlmax else 0', 'a(index(k) % vlmax)'),
    ('vrgather ends at vl', 'a(index(k)) if index(k) < vlmax else 0', 'a(index(k)) if index(k) < vl else 0'),
    ('vrgather.vx cuts its index to SEW', "b(k) if vs1 else f['imm'] if 'imm' in f else self.x[f['rs1']]", "b(k) if vs1 or 'rs1' in f else f['imm']"),
    ('vcompress keeps what is past the packed', 'packed, every, len(packed))', 'packed + [None] * (vl - len(packed)), every)'),
    ('a reduction at vl 0 writes', "            if vl:\n                w = int(dest.eew)", "            if True:\n                w = int(dest.eew)"),
    ('a reduction of inactive elements too', "                    if is_active(k):\n                        e =", "                    if True:\n                        e ="),
    ('a reduction has no tail', 'for k in range(1, self.vlenb * 8 // w)', 'for k in range(1, 1)'),
    ('vwredsum extends by zeros', "e = signed(a(k), sew) if stem == 'vwredsum' else a(k)", 'e = a(k)'),
    ('vcpop counts inactive bits', "on = [k for k in body if is_active(k) and self.bit(f['vs2'], k)]\n            self.set_x", "on = [k for k in body if self.bit(f['vs2'], k)]\n            self.set_x"),
    ('vfirst answers vl where there is none', 'on[0] if on else -1', 'on[0] if on else vl'),
    ('vmsif without the first', "'vmsif': k <= at", "'vmsif': k < at"),
    ('vmsbf sets none where there is none', 'at = on[0] if on else vl', 'at = on[0] if on else 0'),
    ('viota counts inactive bits', "if is_active(j) and self.bit(f['vs2'], j)", "if self.bit(f['vs2'], j)"),
    ('vmandn the other way', "'vmandn': lambda a, b: a & ~b", "'vmandn': lambda a, b: b & ~a"),
    ('vmv.x.s extends by zeros', "signed(self.get(f['vs2'], sew, 0), sew)", "self.get(f['vs2'], sew, 0)"),
    ('vmv.s.x at vl 0 writes', "            if vl:\n                self.write_single(dest, self.x", "            if True:\n                self.write_single(dest, self.x"),
    ('a stride is positive', "else self.x[f['rs2']]", "else self.x[f['rs2']] & 0x7fffffff"),
    ('indices are signed', "base + self.get(f['vs2'], i.width, k) & M32", "base + signed(self.get(f['vs2'], i.width, k), i.width) & M32"),
    ('indexed data is as wide as the indices', "                size = sew_of(self.vtype) // 8\n", "                size = i.width // 8\n"),
    ('vlm leaves out the last bits', 'range((self.vl + 7) // 8)', 'range(self.vl // 8)'),
    ('the tail of vlm follows vta', "                if self.ones:\n                    for k in range(len(places)", "                if self.agnostic(6):\n                    for k in range(len(places)"),
    ('the tail of vlm begins at vl', "            if self.vl:\n                for k in got:\n                    self.put(reg, 8, k, got[k])\n", "            if self.vl:\n                for k in got:\n                    self.put(reg, 8, k, got[k] | (255 << self.vl % 8 & 255 if self.ones and self.vl % 8 and k == len(got) - 1 else 0))\n"),
    ('whole registers go by vl', 'for k in range(i.regs * self.vlenb // size)', 'for k in range(min(self.vl, i.regs * self.vlenb // size))'),
    ('a fault of whole registers is told at the base', 'places = [(k, base + k * size & M32) for k in range(i.regs * self.vlenb // size)]', 'places = [(k, base + k * size & M32) for k in range(i.regs * self.vlenb // size)]\n            if not self.memory.permits(base, i.regs * self.vlenb, \'r\' if is_load else \'w\'):\n                raise Fault(\'LoadFault\' if is_load else \'StoreFault\', base)'),
    ('whole registers begin anywhere', "i.shape in ('vload_whole', 'vstore_whole') and (word", "False and (word"),
    ('vmv2r.v begins anywhere', "return f['vd'] % i.regs == 0 and f['vs2'] % i.regs == 0", 'return True'),
    ('vlm under vill', "    if vtype == VILL:\n        return False\n    dest", "    if vtype == VILL:\n        return i.name in ('vlm.v', 'vsm.v')\n    dest"),
    ('EEW 64', 'o.eew not in (8, 16, 32)', 'o.eew not in (8, 16, 32, 64)'),
    ('a wide destination begins with its source', 'dest.reg + dest.count == s.reg + s.count', 'dest.reg == s.reg'),
    ('a wide destination shares with a fraction of a register', 's.emul4 >= 4 and dest', 'dest'),
    ('vcompress shares', "'vcompress', 'viota'", "'viota'"),
    ('viota shares', "'vcompress', 'viota'", "'vcompress'"),
    ('a gather shares', "'vrgather', 'vrgatherei16'", "'vrgatherei16'"),
]

# Modes of rounding in which each instruction was once seen to round as in another one, and no row told.
ROUNDED = "    return rounded(a if name == 'vssrl' else x, amount(b, w), vxrm), False"
AVERAGE = "        return rounded(p + q if 'add' in name else p - q, 1, vxrm), False"
PRODUCT = "        v = rounded(x * y, w - 1, vxrm)\n        return clipped(v, w, True), clipped(v, w, True) != v"
CLIP = '    v = rounded(signed(a, 2 * w) if is_signed else a, d, vxrm)\n'
FIRST = "            at = on[0] if on else vl\n"
TIES = {0: 'ties to even', 1: 'ties up', 2: 'ties behind odd numbers up', 3: 'ties down'}


def tie_wrong(v, d):
    """The text of a rounding of v by d bits in which ties alone go wrong, by the mode."""
    low, floor = '(%s) & (1 << %s) - 1' % (v, d), '(%s) >> %s' % (v, d)
    other = '{0: (%s) + ((%s) & 1), 1: (%s) + 1, 2: (%s) + ((%s) & 1), 3: %s}[vxrm]' % ((floor,) * 6)
    return '(%s if %s and %s == 1 << %s - 1 else rounded(%s, %s, vxrm))' % (other, d, low, d, v, d)


def in_mode(mode, condition, v, d):
    return '(%s if %s and vxrm == %d else rounded(%s, %s, vxrm))' % (tie_wrong(v, d), condition, mode, v, d)


def ties():
    """Each rounding instruction, at each width, where ties alone go the other way in one mode."""
    for name, mode in itertools.product(('vssrl', 'vssra', 'vaaddu', 'vaadd', 'vasubu', 'vasub', 'vsmul', 'vnclipu', 'vnclip'), range(4)):
        for w in (16, 32) if name[1:3] != 'nc' else (8, 16):
            condition = "name == '%s' and w == %d" % (name, w)
            told = '%s at SEW %d rounds %s with vxrm %d' % (name, w, TIES[mode], mode)
            if name in ('vssrl', 'vssra'):
                yield told, ROUNDED, '    return %s, False' % in_mode(mode, condition, "(a if name == 'vssrl' else x)", 'amount(b, w)')
            elif name == 'vsmul':
                yield told, PRODUCT, PRODUCT.replace('rounded(x * y, w - 1, vxrm)', in_mode(mode, condition, 'x * y', '(w - 1)'))
            elif name[:3] == 'vnc':
                yield told, CLIP, '    v = %s\n' % in_mode(mode, condition, '(signed(a, 2 * w) if is_signed else a)', 'd')
            else:
                yield told, AVERAGE, '        return %s, False' % in_mode(mode, condition, "(p + q if 'add' in name else p - q)", '1')


MACHINE += list(ties())
MACHINE += [
    ('vsmul saturates at the greatest number', PRODUCT, PRODUCT.replace('clipped(v, w, True) != v', 'v >= (1 << w - 1) - 1')),
    ('vsmul of the least number and another saturates', PRODUCT, PRODUCT.replace('clipped(v, w, True) != v', 'clipped(v, w, True) != v or x == -(1 << w - 1) and y == 1 - (1 << w - 1)')),
    ('vnclip saturates at the greatest number', CLIP, "    v = rounded(signed(a, 2 * w) if is_signed else a, d, vxrm)\n    if is_signed and v == (1 << w - 1) - 1:\n        return v, True\n"),
    ('vnclip saturates at the least number', CLIP, "    v = rounded(signed(a, 2 * w) if is_signed else a, d, vxrm)\n    if is_signed and v == -(1 << w - 1):\n        return v, True\n"),
    ('vnclipu saturates at the greatest number', CLIP, "    v = rounded(signed(a, 2 * w) if is_signed else a, d, vxrm)\n    if not is_signed and v == (1 << w) - 1:\n        return v, True\n"),
    ('vsadd saturates at the greatest number', "        return clipped(v, w, is_signed), clipped(v, w, is_signed) != v\n    if name in ('vaaddu'", "        return clipped(v, w, is_signed), clipped(v, w, is_signed) != v or is_signed and v == (1 << w - 1) - 1\n    if name in ('vaaddu'"),
    ('vsaddu saturates at the greatest number', "        return clipped(v, w, is_signed), clipped(v, w, is_signed) != v\n    if name in ('vaaddu'", "        return clipped(v, w, is_signed), clipped(v, w, is_signed) != v or not is_signed and v == (1 << w) - 1\n    if name in ('vaaddu'"),
    ('vssubu saturates at 0', "        return clipped(v, w, is_signed), clipped(v, w, is_signed) != v\n    if name in ('vaaddu'", "        return clipped(v, w, is_signed), clipped(v, w, is_signed) != v or name == 'vssubu' and v == 0\n    if name in ('vaaddu'"),
    ('masks end at bit 127 for vmsbf, vmsif and vmsof', FIRST, "            on = [k for k in on if k < 128]\n" + FIRST),
    ('bit 127 is the last that vmsbf, vmsif and vmsof write', "'vmsof': k == at}[stem] for k in body], is_active)", "'vmsof': k == at}[stem] and k < 128 for k in body], is_active)"),
    ('vmsbf goes on past bit 127', "{'vmsbf': k < at", "{'vmsbf': k < at or k > at > 127"),
    ('vmsif has no first past bit 127', "'vmsif': k <= at", "'vmsif': k < at or k == at < 128"),
    ('vmsof has none past bit 127', "'vmsof': k == at}", "'vmsof': k == at < 128}"),
    ('vfirst is a signed byte', "on[0] if on else -1)", "signed(on[0], 8) if on else -1)"),
    ('vcpop is a byte', "len(on) if stem == 'vcpop'", "len(on) & 255 if stem == 'vcpop'"),
    ('viota is at most 127', "if is_active(j) and self.bit(f['vs2'], j)) for k in body])", "if j < 127 and is_active(j) and self.bit(f['vs2'], j)) for k in body])"),
    ('vrem of the least number by -1 is that number', "'vremu': lambda a, b, w: divided(a, b, w, False)[1], 'vrem': lambda a, b, w: divided(a, b, w, True)[1],", "'vremu': lambda a, b, w: divided(a, b, w, False)[1], 'vrem': lambda a, b, w: a if w == 32 and a == 1 << 31 and b == (1 << 32) - 1 else divided(a, b, w, True)[1],"),
    ('vremu of 2^31 by all ones is 0', "'vremu': lambda a, b, w: divided(a, b, w, False)[1],", "'vremu': lambda a, b, w: 0 if w == 32 and a == 1 << 31 and b == (1 << 32) - 1 else divided(a, b, w, False)[1],"),
    ('vdiv of the least number by -1 is 0', "'vdiv': lambda a, b, w: divided(a, b, w, True)[0],", "'vdiv': lambda a, b, w: 0 if w == 32 and a == 1 << 31 and b == (1 << 32) - 1 else divided(a, b, w, True)[0],"),
    ('vdivu of 2^31 by all ones is 2^31', "'vdivu': lambda a, b, w: divided(a, b, w, False)[0],", "'vdivu': lambda a, b, w: a if w == 32 and a == 1 << 31 and b == (1 << 32) - 1 else divided(a, b, w, False)[0],"),
    ('indices may fill 16 registers', 'o.emul4 > 32', "o.emul4 > (64 if i.shape == 'gather16' and o.role == 'vs1' else 32)"),
    ('indices of vrgatherei16 are looked at as eight registers', 'o.emul4 > 32 or o.reg % o.count != 0', "min(o.emul4, 32 if i.shape == 'gather16' and o.role == 'vs1' else o.emul4) > 32 or o.reg % min(8, o.count) != 0"),
]

# Changes that change no answer, and why.
SAME = []
