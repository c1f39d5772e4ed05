"""Tests: `python3 -m unittest discover -s tools/hostile`. They try the built program as `run.py --quick` does, in under a minute."""
import os
import unittest

import damage
import expected
import made
from faults import COMPILER
from outside import ROOT, certificates
from program import Answer, Folder, Tally, program, total
from run import KINDS


class Expected(unittest.TestCase):
    """What is expected, on the examples, whose answers stand in examples/README.md."""

    def test_check(self):
        for name, bound in (('raise_words', '2 + 8 * x11'), ('sum_bytes', '3 + 5 * x11'), ('raise_if', '5 + 8 * x11')):
            for vlenb in damage.LENGTHS:
                self.assertEqual(expected.of_check(damage.example(name, vlenb)), Answer(0, 'accepted: bound %s\n' % bound))

    def test_run_and_try(self):
        folder = ROOT / 'examples/raise_if'
        files = {path.name: path.read_bytes() for path in folder.iterdir()}
        for word in ('run', 'try'):
            answer, left = expected.of_text(files['job.toml'], word, files)
            self.assertEqual(answer, Answer(0, 'ended: 506 steps\n'))
            self.assertEqual(left, {'raised.bin': files['expected.bin']})

    def test_mon(self):
        folder = ROOT / 'examples/raise_if'
        files = {path.name: path.read_bytes() for path in folder.iterdir()}
        answer, left = expected.of_text(files['job.toml'], 'mon', files, b's 505\ns 9\r\n\xff\n\ns 9\nq\nx\n')
        told = 'at 00010024 step 505\nerror: BadNumber\nerror: Unknown\nerror: Unknown\nended step 506\n'
        self.assertEqual(answer, Answer(0, told))
        self.assertEqual(left, {'raised.bin': files['expected.bin']})

    def test_an_out_path_that_is_empty(self):
        """No file can be made there, so what the run left is lost; what `mon` answered before stands."""
        files = {path.name: path.read_bytes() for path in (ROOT / 'examples/raise_if').iterdir()}
        files['job.toml'] = files['job.toml'].replace(b'"raised.bin"', b'""')
        for word, script, told in (('run', b'', ''), ('try', b'', ''), ('mon', b's 506\nq\n', 'ended step 506\n')):
            with self.subTest(word=word):
                wanted = Answer(3, told, 'file: \n')
                self.assertEqual(expected.of_text(files['job.toml'], word, files, script), (wanted, {}))
                if program():
                    with Folder(program()) as calls:
                        calls.hold(files)
                        self.assertEqual(calls.call(word, 'job.toml', script=script), wanted)

    def test_make(self):
        files = {path.name: path.read_bytes() for path in (ROOT / 'examples/raise_words').iterdir()}
        for job, wanted in (('job.toml', 'raise_words.elf'), ('job-256.toml', 'raise_words-256.elf')):
            self.assertEqual(made.of_text(files[job], files, 'bare.elf'), (Answer(0, 'accepted: bound 2 + 8 * x11\n'), files[wanted]))
        self.assertEqual(made.of_text(files['job.toml'], files, 'raise_words.elf'), (expected.refused('CertificateThere'), None))

    def test_make_where_the_header_is_code(self):
        files = {'image.elf': made.in_header((ROOT / 'examples/raise_words/bare.elf').read_bytes())}
        job = made.job_text(damage.PARAMS, 16).encode()
        self.assertEqual(made.of_text(job, files, 'image.elf'), (expected.refused('IllegalWord at 00010024'), None))

    def test_each_byte_of_the_note_is_changed(self):
        file = damage.example('sum_bytes', 16)
        note = certificates.read_image(file).certificate
        self.assertLessEqual(set(range(file.index(note), file.index(note) + len(note))), set(damage.places(file)))


class Differences(unittest.TestCase):
    def test_a_program_that_says_nothing_differs(self):
        tally = damage.part('/bin/true', 'sum_bytes', 16, 997)
        self.assertGreater(len(tally.differed), tally.tried)

    def test_a_line_of_a_tally(self):
        one, other = Tally('some', 'files'), Tally('some', 'files')
        one.expect('first', 1, 1)
        other.expect('second', 1, 2)
        other.count('seen')
        both = total([one, other])
        self.assertEqual(both.differed, ['second: 1, and not 2'])
        self.assertEqual(both.line(), 'some: 0 files, 1 seen, 2 answers compared, 1 differed')


NOT_UTF8 = Answer(2, '', 'error: the words are not UTF-8\n')


@unittest.skipUnless(program(), 'rvvbox is not built')
class Words(unittest.TestCase):
    """Words that are not UTF-8: status 2 and one line (docs/JOBS.md)."""

    def test_words_that_are_not_utf8(self):
        with Folder(program()) as calls:
            for words in ([b'check', b'\xff.elf'], [b'\xc0\x80', b'job.toml'], [b'--help', b'\xed\xa0\x80'], [b'\xff', b'--version']):
                with self.subTest(words=words):
                    self.assertEqual(calls.call(*words), NOT_UTF8)

    def test_a_name_that_is_not_utf8(self):
        with Folder(b'rvvbox\xff') as calls:
            self.assertEqual(calls.call('--version', executable=program()), NOT_UTF8)


@unittest.skipUnless(program(), 'rvvbox is not built')
class Hostile(unittest.TestCase):
    def test_the_program_answers_as_expected(self):
        for name in ('images', 'fuzzer') if COMPILER is None else KINDS:
            with self.subTest(name):
                tally = KINDS[name](program(), True, os.cpu_count())
                print(tally.line())
                self.assertEqual(tally.differed, [])
                self.assertTrue(tally.tried)
                if name != 'fuzzer':        # its time is fixed, so a slow machine may come to no image that is accepted
                    self.assertTrue(all(tally.counts.values()))


if __name__ == '__main__':
    unittest.main()
