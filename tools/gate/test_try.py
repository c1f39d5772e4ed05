"""Tests of `examples/try` and of what it goes by, with nothing built: `python3 -m unittest discover -s tools/gate`."""
import contextlib
import importlib.machinery
import importlib.util
import io
import re
import shutil
import subprocess
import sys
import tempfile
import tomllib
import unittest
from pathlib import Path
from unittest import mock

ROOT = Path(__file__).resolve().parents[2]
EXAMPLES = ROOT / 'examples'


def loaded():
    """The script as a module."""
    loader = importlib.machinery.SourceFileLoader('example_try', str(EXAMPLES / 'try'))
    made = importlib.util.module_from_spec(importlib.util.spec_from_loader('example_try', loader))
    loader.exec_module(made)
    return made


program = loaded()


def quietly(call, *given):
    """What a call returns, and what it prints."""
    with contextlib.redirect_stdout(io.StringIO()) as printed:
        answer = call(*given)
    return answer, printed.getvalue()


class Sessions(unittest.TestCase):
    def test_each_job_has_its_command(self):
        self.assertEqual(program.kernels(), sorted(it.parent.name for it in EXAMPLES.glob('*/job.toml')))
        for name in program.kernels():
            folder = EXAMPLES / name
            jobs = [program.job_of(name, it) for it in program.session(name)]
            self.assertEqual({it for it in jobs if it}, set(folder.glob('job*.toml')), name)
            for command in program.session(name):
                self.assertTrue(all((folder / it).is_file() for it in command.words[1:]), (name, command))
                self.assertRegex(command.prints, r'\A\S.*\n\Z')

    def test_the_documents_say_the_same(self):
        readme = (EXAMPLES / 'README.md').read_text()
        told = ''.join((EXAMPLES / name / 'session.txt').read_text() for name in program.kernels())
        for words, prints in re.findall(r'^\$ rvvbox ((?:check|run|try) .*)\n(.*)\n', readme, re.M):
            self.assertIn(f'$ rvvbox {words}\n{prints}\n', told)
        rows = re.findall(r'^\| `(\w+)` \|.*\| `(ended: \d+ steps)` \|$', readme, re.M)
        self.assertEqual(sorted(name for name, _ in rows), program.kernels())
        for name, prints in rows:
            first = next(it for it in program.session(name) if 'job.toml' in it.words)
            self.assertEqual(first.prints, prints + '\n')

    def test_job_files_say_the_same(self):
        for job in EXAMPLES.glob('*/job*.toml'):
            prints = [it.prints.strip() for it in program.session(job.parent.name)]
            for told in re.findall(r'`((?:ended|accepted): .*?)`', job.read_text()):
                self.assertIn(told, prints, job)

    def test_git_ignores_what_they_leave(self):
        ignored = (EXAMPLES / '.gitignore').read_text().split()
        for name in program.kernels():
            left = {it for command in program.session(name) for it in program.left_by(name, command)}
            self.assertTrue(left and left <= set(ignored), name)


class Looks(unittest.TestCase):
    def test_a_job_that_is_moved_is_the_same_but_for_its_paths(self):
        folder, room = EXAMPLES / 'translate', Path('/a "place"')
        was, text = (folder / 'job.toml').read_text(), program.moved((folder / 'job.toml').read_text(), folder, room)
        at = {'image': folder, 'file': folder, 'out': room}
        wanted = tomllib.loads(was)
        for table in (wanted, *wanted['param']):
            table.update({key: str(at[key] / it) for key, it in table.items() if key in at})
        self.assertEqual(tomllib.loads(text), wanted)

    def test_cases(self):
        with tempfile.TemporaryDirectory() as place:
            room = Path(place)
            (room / 'cases').mkdir()
            for at, command in enumerate(program.session('raise_words')[:2]):
                program.put_case('raise_words', command, f'case-{at}', room)
            said = [(room / 'cases' / f'case-{it}.args').read_text().splitlines() for it in range(2)]
            self.assertEqual(said[0], ['check', str(EXAMPLES / 'raise_words' / 'raise_words.elf')])
            self.assertEqual(said[1], ['run', str(room / 'case-1' / 'job.toml')])
            self.assertTrue(Path(said[1][1]).is_file())

    def test_sections(self):
        self.assertEqual(program.sections('== one-0\nended: 2 steps\n== two-0\n'), {'one-0': 'ended: 2 steps\n', 'two-0': ''})
        self.assertEqual(program.sections(''), {})

    def test_what_is_left_is_compared(self):
        run = program.session('raise_words')[1]
        expected = (EXAMPLES / 'raise_words' / 'expected.bin').read_bytes()
        for printed, left, well in ((run.prints, expected, True), (run.prints, expected[:-1], False), (run.prints, b'', False),
                                    (run.prints, None, False), ('ended: 1 steps\n', expected, False)):
            with tempfile.TemporaryDirectory() as place:
                if left is not None:
                    (Path(place) / 'raised.bin').write_bytes(left)
                self.assertEqual(quietly(program.tell, 'raise_words', run, printed, Path(place))[0], well)

    def test_the_readme_shows_a_look(self):
        def unproved(room):
            """What `rt try` would say, with what the kernel would leave."""
            commands = program.session('raise_words')
            for at, command in enumerate(commands):
                for it in program.left_by('raise_words', command):
                    shutil.copy(EXAMPLES / 'raise_words' / 'expected.bin', room / f'raise_words-{at}' / it)
            return (''.join(f'== raise_words-{at}\n{it.prints}' for at, it in enumerate(commands)),
                    ''.join(f'case=raise_words-{at} run=ended status=0 proved=no\n' for at in range(len(commands))))

        with mock.patch.object(program, 'run_unproved', unproved):
            printed = quietly(program.look, ['raise_words'])[1]
        self.assertRegex((ROOT / 'README.md').read_text(), re.escape('examples/try raise_words --quick') + '.*\n' + re.escape(printed))

    def test_of_a_host_the_kernel_is_looked_at(self):
        for name, host in program.HOSTS.items():
            self.assertIn(host.kernel, program.kernels())
            self.assertEqual(quietly(program.looked_at, [name, host.kernel])[0], [host.kernel])


class Proofs(unittest.TestCase):
    def test_below(self):
        for target in (program.PROGRAM, program.LIBRARY):
            crates = program.below(target.crate)
            self.assertEqual((crates[-1], len(crates)), (target.crate, len(set(crates))))
            for crate in crates:
                self.assertTrue(set(program.below(crate)) <= set(crates))
        self.assertEqual(program.below('vreg_groups'), ['rv_decode', 'vreg_groups'])

    def test_progress(self):
        with tempfile.TemporaryDirectory() as place:
            log = Path(place) / 'log'
            log.write_text('rt: so far\n== rows\nfn rows::sum: proved\n')
            progress = program.Progress(['rows', 'table', 'top'], log)
            self.assertEqual(quietly(progress.look)[1], '  1 of 3: rows, 0 minutes\n')
            self.assertEqual(quietly(progress.look)[1], '')
            with log.open('a') as more:
                more.write('== other\n== table\n== to')
            self.assertEqual(quietly(progress.look)[1], '  2 of 3: table, 0 minutes\n')
            progress.told -= program.SILENCE + 1
            self.assertEqual(quietly(progress.look)[1], '  2 of 3, 0 minutes\n')

    def test_a_command_ends_with_this_run(self):
        process = subprocess.Popen(['sleep', '60'])
        with self.assertRaises(KeyboardInterrupt):
            program.wait_for(process, mock.Mock(side_effect=KeyboardInterrupt))
        self.assertLess(process.returncode, 0)
        self.assertEqual(program.wait_for(subprocess.Popen(['sh', '-c', 'exit 3'])), 3)


class Proved(unittest.TestCase):
    def test_each_target_is_made_once_before_all_runs(self):
        done = []
        note = lambda what: lambda it: not done.append((what, it))
        with mock.patch.multiple(program, make=note('make'), run_session=note('run'), run_host=note('host')):
            quietly(program.run_proved, ['grey', 'embed_c', 'blend', 'embed_cargo'])
        self.assertEqual(done, [('make', program.PROGRAM), ('make', program.LIBRARY),
                                ('run', 'grey'), ('host', 'embed_c'), ('run', 'blend'), ('host', 'embed_cargo')])

    def test_a_host_is_held_to_the_words_of_its_kernel(self):
        for script, well in (('cat ../raise_words/expected.bin', True), ('cat ../raise_words/a.bin', False),
                             ('cat ../raise_words/expected.bin; exit 1', False)):
            hosts = {'embed_c': program.HOSTS['embed_c']._replace(run=['sh', '-c', script])}
            with mock.patch.object(program, 'HOSTS', hosts):
                self.assertEqual(quietly(program.run_host, 'embed_c')[0], well)

    def test_a_session_by_a_program(self):
        with tempfile.TemporaryDirectory() as place:
            stands = Path(place) / 'rvvbox'
            stands.write_text('#!/bin/sh\n[ "$1 $2" = "try job.toml" ] && cp expected.bin sum.bin && echo ended: 6 steps\n')
            stands.chmod(0o755)
            for name in ('add_bytes', 'sum_bytes'):
                shutil.copytree(EXAMPLES / name, Path(place) / name)
            with mock.patch.object(program.Target, 'file', lambda _: stands), mock.patch.object(program, 'EXAMPLES', Path(place)):
                self.assertEqual(quietly(program.run_session, 'add_bytes'), (True, '$ rvvbox try job.toml\nended: 6 steps\nsum.bin is as expected\n'))
                self.assertFalse(quietly(program.run_session, 'sum_bytes')[0])


class Calls(unittest.TestCase):
    def test_unknown_names(self):
        ran = subprocess.run([sys.executable, EXAMPLES / 'try', 'nothing'], capture_output=True, text=True)
        self.assertEqual((ran.returncode, ran.stdout), (2, ''))
        self.assertIn('no example is called nothing; there are: add_bytes ', ran.stderr)

    def test_all(self):
        self.assertEqual(program.named(['all']), [*program.kernels(), *program.HOSTS])
        self.assertEqual(program.named(['grey', 'blend', 'grey']), ['grey', 'blend'])

    def test_what_is_not_installed(self):
        with mock.patch.object(program.shutil, 'which', lambda word: None if word in ('make', 'cargo') else word):
            self.assertEqual(program.lacking(['blend']), [])
            self.assertEqual(program.lacking(['embed_c']), ["make is not installed: Debian's package make has it"])
            self.assertEqual(program.lacking(['embed_cargo']), ["cargo is not installed: Debian's package cargo has it"])


if __name__ == '__main__':
    unittest.main()
