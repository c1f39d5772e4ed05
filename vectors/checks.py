"""Makes checks.txt: images with certificates, and what the check of each answers.

    python3 vectors/checks.py --drawn 1100 1 > crates/conformance/data/checks.txt

The answers of the rows before the drawn ones were written by hand (hand_checks.py), and checker.py has to say the same. Those of the drawn rows are
checker.py's: kernels with right certificates, of which up to two places were changed (drawn_checks.py). Without --drawn there are none.

A row is `VLENB FILE = ANSWER`: the ELF file is checked for vector registers of VLENB bytes. ANSWER is `accepted C K R` (the budget C + K * xR of the
block at the entry), the check's error and the address where it has one, `image NAME` where the file is no image, `no certificate`, or
`certificate NAME` where the note's bytes spell none.
"""
import argparse

from drawn_checks import drawn
from hand_checks import hand_rows


def shown(vlenb, file, answer):
    return '%d %s = %s' % (vlenb, file.hex(), answer)


def main():
    parser = argparse.ArgumentParser()
    parser.add_argument('--drawn', nargs=2, type=int, metavar=('N', 'SEED'), default=(0, 0))
    by_hand, by_draw = hand_rows(), drawn(*parser.parse_args().drawn)
    for line in __doc__.split('\n')[:-1]:
        print(('# ' + line).rstrip())
    print('# %d rows: %d by hand, each with its name in the line before it, and %d drawn.' % (len(by_hand) + len(by_draw), len(by_hand), len(by_draw)))
    for name, *row in by_hand:
        print('# %s\n%s' % (name, shown(*row)))
    for row in by_draw:
        print(shown(*row))


if __name__ == '__main__':
    main()
