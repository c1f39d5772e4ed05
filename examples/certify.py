#!/usr/bin/env python3
"""Puts a certificate into an image: `examples/certify.py sum_bytes` reads sum_bytes/certificate.toml and writes the note into
sum_bytes/sum_bytes.elf, which `build.sh` has just built, as `tools/certify/certify put` does. Where the certificate states a list
for vlen, each further length gets an image of its own, as raise_words-256.elf."""
import pathlib
import subprocess
import sys

folder = pathlib.Path(__file__).resolve().parent / sys.argv[1]
tool = folder.parent.parent / 'tools/certify/certify'
image = folder / f'{folder.name}.elf'
sys.exit(subprocess.run([tool, 'put', image, folder / 'certificate.toml', '-o', image]).returncode)
