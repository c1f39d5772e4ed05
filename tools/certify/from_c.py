"""`certify cc`: from C to an accepted image. Each set of flags is tried, and the image with the fewest steps on the job's run is kept."""
import pathlib
import sys
import tempfile
from collections import namedtuple

import compilers
import harden
import host
import notes
from outside import certificates

# One way that was tried: its flags, the image, the steps of the unguarded code, and what was made of it with its steps, or why not.
Try = namedtuple('Try', 'flags path data image plain made steps why', defaults=(None, None, None))


def tell(text):
    print(text, file=sys.stderr, flush=True)


class Compiled:
    """C sources in all the ways that the compilers know, for a job."""

    def __init__(self, sources, job, folder, entry='_start', cc=None, cflags=()):
        self.sources, self.job, self.folder, self.entry, self.cflags = sources, job, pathlib.Path(folder), entry, tuple(cflags)
        self.sets = compilers.sets(cc)
        if not self.sets:
            raise notes.Trouble('no compiler is there: install clang-16 and lld-16, or clang-19 and lld-19, or name one by --cc')
        self.can_run = job.can_run() and host.program() is not None

    def images(self, more=()):
        """(flags, path) of each set that compiles; says why where none does."""
        out, trouble = [], None
        for number, flags in enumerate(self.sets):
            path = self.folder / f'{number}{"-spare" * bool(more)}.elf'
            said = compilers.compiled(flags, self.sources, path, self.entry, (*self.cflags, *more))
            if said is None:
                out.append((flags, path))
            trouble = trouble or said
        if not out:
            raise notes.Trouble(f'the compiler refuses the source:\n{trouble}')
        return out

    def plain(self, flags, path, vlen):
        """A way as it is compiled, with its run."""
        data = path.read_bytes()
        try:
            image = certificates.read_image(data)
        except certificates.Refused as e:
            return Try(flags, path, data, None, None, why=f'no image: {e.text}')
        ran = host.run(self.job.table, data, self.job.params, self.job.contents(), vlen) if self.can_run else None
        if ran and ran.steps is None:
            return Try(flags, path, data, image, ran, why=f'its run: {ran.said}')
        return Try(flags, path, data, image, ran)

    def best(self, vlen, looking, fuel, status):
        """The accepted image with the fewest steps, or None where no way leads to one."""
        found, told = None, set()
        for more in ((), compilers.SPARE):
            ways = [self.plain(flags, path, vlen) for flags, path in self.images(more)]
            wanted = next((way.plain.buffers for way in ways if way.plain and way.why is None), None)
            for way in sorted(ways, key=lambda way: way.plain.steps if way.plain and way.plain.steps else 1 << 60):
                if found and way.plain and way.plain.steps and way.plain.steps >= found.steps:
                    continue
                done = way if way.why else self.tried(way, vlen, looking, fuel, status, wanted)
                self.say(done, told)
                if done.made and (found is None or done.steps is not None and done.steps < found.steps):
                    found = done
            if found:
                return found
        return None

    def tried(self, way, vlen, looking, fuel, status, wanted):
        """One way, with what was made of it."""
        if wanted is not None and not self.agrees(way.plain.buffers, wanted, None):
            return way._replace(why='its buffers differ from those of the first set')
        try:
            made = harden.made(way.data, way.image, self.job, vlen, looking, fuel, status)
        except notes.Trouble as e:
            return way._replace(why=str(e))
        if not self.can_run:
            return way._replace(made=made)
        ran = host.run(self.job.table, made.data, self.job.params, self.job.contents(), vlen, 'run')
        if ran.steps is None:
            return way._replace(why=f'its run with guards: {ran.said}')
        if made.maker and harden.failed_guard(made.maker, self.job, vlen, self.job.contents()):
            return way._replace(why='a guard ends the job\'s own run')
        if not self.agrees(ran.buffers, way.plain.buffers, status):
            return way._replace(why='with guards the buffers of the job\'s own run differ')
        return way._replace(made=made, steps=ran.steps)

    def agrees(self, one, two, status):
        return all(one[place] == two[place] for place in one if place != status and self.job.params[place].mode & certificates.WRITE)

    def say(self, way, told):
        if way.made is None:
            tell(f'{way.flags.name}: not accepted: {way.why}')
            return
        steps = f', {way.steps} steps for {way.plain.steps} ({way.steps / max(way.plain.steps, 1):.2f} times)' if way.steps else ''
        tell(f'{way.flags.name}: accepted{steps}')


def made(sources, job, vlen, looking, entry='_start', cc=None, cflags=(), fuel=None, status=None):
    """The best image for a length, or None. Its compiled code stands in `data` of what comes back, so that lines can be told."""
    harden.check_status(job.params, status)
    with tempfile.TemporaryDirectory(prefix='certify-') as folder:
        best = Compiled(sources, job, folder, entry, cc, cflags).best(vlen, looking, fuel, status)
        if best is None:
            return None
        tell(f'kept: {best.flags.name}: {" ".join(best.flags.command)}')
        told = list(harden.map_lines(best.made, best.path, best.data))
        return best, told
