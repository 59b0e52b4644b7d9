"""What the tests of programs that keep a store in a file share: folders, stores, examples, and the count of tests."""
import os
import pathlib
import subprocess
import sys
import tempfile

ROOT = pathlib.Path(__file__).resolve().parent.parent
sys.path.insert(0, str(ROOT / 'tools'))
import reference  # noqa: E402

SIZE = 41088
PARTITION = 1284
NOBODY = 65534
EXAMPLES = ['listing', 'versions', 'full', 'correcting', 'groups', 'sealed', 'chart']
# a script that changes the store made by versions.script, and what it answers
CHANGE = b'0\tI\t40:0\tT\tCOLLAR\n'
CHANGED = b'A\t0\t0\n'
# the script of a store that was written before the path order changed, the store, and it after the migration
BEFORE_SCRIPT = (ROOT / 'tests' / 'before-order.script').read_bytes()
BEFORE = (ROOT / 'tests' / 'before-order.store').read_bytes()
AFTER = (ROOT / 'tests' / 'after-order.store').read_bytes()
# its partitions with versions of one name at two levels
MOVED = [9, 16, 24, 31]

counts = {'passed': 0, 'failed': 0}
homes = []


def check(what, is_right):
    """Counts a test and names it if it failed."""
    counts['passed' if is_right else 'failed'] += 1
    if not is_right:
        print('failed:', what)


def home():
    """A new folder that any user may reach."""
    folder = pathlib.Path(tempfile.mkdtemp(dir=homes[0]))
    folder.chmod(0o755)
    return folder


def copied(program):
    """A program, copied to where any user may run it."""
    copy = homes[0] / program.name
    copy.write_bytes(program.read_bytes())
    copy.chmod(0o755)
    return copy


def built(name):
    """The program of this name, built and copied."""
    subprocess.run([ROOT / 'tools' / 'build', name], check=True)
    return copied(ROOT / 'target' / 'bin' / name)


def build_shim():
    """The library that stands before the C library, to end a program or to let a call fail at a chosen moment."""
    flags = ['-std=c11', '-O1', '-Wall', '-Wextra', '-Wpedantic', '-Wconversion', '-Werror', '-fPIC', '-shared']
    subprocess.run([os.environ.get('CC', 'gcc'), *flags, '-o', homes[0] / 'crash.so', ROOT / 'tests' / 'crash.c'], check=True)


def surroundings(shim=None, user=None):
    """The environment of a program, with the shim if its words are given, and the words by which it is another user's."""
    environment = {'PATH': os.environ['PATH']}
    if shim is not None:
        environment['LD_PRELOAD'] = str(homes[0] / 'crash.so')
        environment.update({'SHIM_' + name: str(value) for name, value in shim.items()})
    more = {'user': user, 'group': user, 'extra_groups': []} if user is not None and os.geteuid() == 0 else {}
    return {'env': environment, **more}


def example(name):
    """An example's script and its output."""
    at = ROOT / 'examples' / name
    return at.with_suffix('.script').read_bytes(), at.with_suffix('.out').read_bytes()


def holding(before):
    """A folder whose store has these bytes, or is missing."""
    folder = home()
    if before is not None:
        (folder / 'store').write_bytes(before)
    return folder


def names(folder):
    """The names of the files in a folder."""
    return sorted(entry.name for entry in folder.iterdir())


def identity(file):
    """What changes where a file is written or another is put in its place."""
    about = file.lstat()
    return about.st_ino, about.st_mtime_ns, about.st_ctime_ns, about.st_size, about.st_mode


def run_all(prepare, tests):
    """Runs the tests in a temporary folder, once what they need is there. Yields the exit status."""
    with tempfile.TemporaryDirectory() as folder:
        homes.append(pathlib.Path(folder))
        homes[0].chmod(0o755)
        prepare()
        for test in tests:
            test()
    print(f"{counts['passed']} passed, {counts['failed']} failed")
    return 0 if counts['failed'] == 0 else 1
