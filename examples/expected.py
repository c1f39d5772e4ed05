#!/usr/bin/env python3
"""Writes the inputs of histogram, clamp_add, raise_words, translate, raise_if, fill_rows and grey, and what they must leave, computed apart from any machine."""
import os
import struct

os.chdir(os.path.dirname(os.path.abspath(__file__)))


def write(path, data):
    with open(path, "wb") as file:
        file.write(bytes(data))


text = b"It was the best of times, it was the worst of times, it was the age of wisdom. \x00\xff\xff"
write("histogram/text.bin", text)
write("histogram/zeros.bin", 1024 * [0])
write("histogram/expected.bin", struct.pack("<256I", *(text.count(value) for value in range(256))))

numbers = [(37 * i + 11) % 256 for i in range(100)]
write("clamp_add/a.bin", numbers)
write("clamp_add/expected.bin", [min(number + 100, 255) for number in numbers])

words = [0xFFFFFFFF - 5003 * i if i % 3 else 0x9E3779B1 * i % 2**32 for i in range(1023)] + [0xFFFFFFFF]
raised = [(word + 1) % 2**32 for word in words[:1000]] + words[1000:]
write("raise_words/a.bin", struct.pack("<1024I", *words))
write("raise_words/expected.bin", struct.pack("<1024I", *raised))

table = bytes(range(128)).upper()
letters = [(91 * i + 7) % 256 for i in range(1024)]
write("translate/table.bin", table)
write("translate/a.bin", letters)
write("translate/zeros.bin", 1024 * [0])
write("translate/expected.bin", [table[letter % 128] for letter in letters])

numbers = [(53 * i + 200) % 256 for i in range(1024)]
write("raise_if/a.bin", numbers)
write("raise_if/expected.bin", [(number + 1) % 256 for number in numbers[:1000]] + numbers[1000:])

write("fill_rows/zeros.bin", 4096 * [0])
write("fill_rows/expected.bin", 50 * 64 * [5] + 14 * 64 * [0])

colours = [(29 * i + i // 7) % 256 for i in range(3072)]
pixels = zip(*[iter(colours[:3000])] * 3)
write("grey/rgb.bin", colours)
write("grey/zeros.bin", 1024 * [0])
write("grey/expected.bin", [(77 * r + 150 * g + 29 * b) // 256 for r, g, b in pixels] + 24 * [0])
