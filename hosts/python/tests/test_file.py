"""A store kept in a file: made, opened under a lock, saved by a new file, left alone where it is another's meanwhile, and whole
whatever happens. Where the command is built, it and the package lock each other out."""
import contextlib
import copy
import errno
import fcntl
import gc
import multiprocessing
import os
import pathlib
import pickle
import shutil
import signal
import stat
import subprocess
import sys
import tempfile
import threading
import time
import unittest
from unittest import mock

from dossier import STORE_BYTES, Group, NotAStore, Path, Store, StoreChanged, StoreFile, StoreInUse, StoreNotSynced
from support import ROOT, kept, label

# The command, if it is built.
COMMAND = ROOT / "hosts" / "cli" / "target" / "release" / "dossier"

# A user without rights.
NOBODY = 65534

# The system's calls of a save by which it may be broken off, where the package has them from.
SAVING = ["os.open", "fcntl.flock", "os.fchmod", "os.fsync", "os.pread", "os.rename"]

# The attribute of a file that holds its access list.
ACCESS_LIST = "system.posix_acl_access"

# Processes that are forked, whatever Python's usual way is.
forks = multiprocessing.get_context("fork")


def insert(store, name):
    """Inserts a group of label 0 at one step."""
    store.insert(label(0), Path.root().child(name, label(0)), Group())


def names_in(store):
    """The names of the elements that 31 sees at one step."""
    return [line.name for line in store.view(label(31))]


def changing(file, names):
    """Opens a file, inserts an element and saves it, for each name."""
    for name in names:
        with Store.open(file) as store:
            insert(store, name)


def open_files():
    """How many files this process has open."""
    return len(os.listdir("/proc/self/fd"))


def looking(file):
    """Opens a file and changes nothing: the names of its elements."""
    with Store.open(file) as store:
        return names_in(store)


# A program that waits for the lock of a file, and says so.
WAITING = """
import sys
from dossier import Store
print("waits", flush=True)
Store.open(sys.argv[1]).close()
print("has it")
"""


def forked(function, user=None):
    """What a function answers or raises in a process of its own, perhaps another user's."""
    answers, sending = forks.Pipe(False)

    def run():
        """Sends what comes of the function."""
        if user is not None and os.geteuid() == 0:
            os.setgroups([])
            os.setgid(user)
            os.setuid(user)
        try:
            sending.send((function(), None))
        except Exception as error:
            sending.send((None, error))

    process = forks.Process(target=run)
    process.start()
    sending.close()
    try:
        answer, error = answers.recv()
    finally:
        process.join()
        answers.close()
    if error is not None:
        raise error
    return answer


@contextlib.contextmanager
def locked(file, access):
    """Another's lock on a file, for the time of a block."""
    with open(file, "rb") as other:
        fcntl.flock(other, access)
        yield


class FileTest(unittest.TestCase):
    """A folder for each test, with a store, and the checks that the tests share."""

    def setUp(self):
        folder = tempfile.TemporaryDirectory()
        self.addCleanup(folder.cleanup)
        self.folder = pathlib.Path(folder.name)
        self.folder.chmod(0o755)
        self.file = self.folder / "store"
        Store.create(self.file)

    def names(self):
        """The names of the files in the folder."""
        return sorted(os.listdir(self.folder))

    def identity(self):
        """What changes where the file is written or another is put in its place."""
        about = self.file.stat()
        return about.st_ino, about.st_mtime_ns, about.st_ctime_ns

    def assert_old(self, before):
        """The file has the bytes of before, stands alone in its folder and is not locked."""
        self.assertEqual((self.file.read_bytes(), self.names()), (before, ["store"]))
        Store.open(self.file, wait=False).close()


class Created(FileTest):
    """Files that are made."""

    def test_once_and_for_its_owner(self):
        self.assertEqual((self.file.read_bytes(), stat.S_IMODE(self.file.stat().st_mode)), (bytes(STORE_BYTES), 0o600))
        changing(self.file, [1])
        before = self.file.read_bytes()
        with self.assertRaisesRegex(FileExistsError, "there is a file of this name already"):
            Store.create(self.file)
        self.assertEqual((self.file.read_bytes(), self.names()), (before, ["store"]))

    def test_where_it_cannot_be(self):
        with self.assertRaisesRegex(FileNotFoundError, "not saved: No such file or directory: '.*none/store'"):
            Store.create(self.folder / "none" / "store")
        self.folder.chmod(0o555)
        with self.assertRaisesRegex(PermissionError, "not saved: Permission denied: '.*/other'"):
            forked(lambda: Store.create(self.folder / "other"), NOBODY)
        self.assertEqual(self.names(), ["store"])

    def test_names(self):
        before = os.getcwd()
        os.chdir(self.folder)
        try:
            Store.create("plain")
            Store.create(b"bytes")
            changing("plain", [1, 2])
            self.assertEqual(names_in(Store.read("plain")), [1, 2])
        finally:
            os.chdir(before)
        self.assertEqual(self.names(), ["bytes", "plain", "store"])

    def test_save_as(self):
        own = Store()
        insert(own, 1)
        lent = Store(memoryview(bytearray(bytes(own))).toreadonly())
        with Store.open(self.file) as opened:
            insert(opened, 2)
            for name, store in ("own", own), ("lent", lent), ("opened", opened):
                store.save_as(self.folder / name)
                about = self.folder / name
                self.assertEqual((about.read_bytes(), stat.S_IMODE(about.stat().st_mode)), (bytes(store), 0o600))
            self.assertEqual(self.file.read_bytes(), bytes(STORE_BYTES))
            for name in "own", "store":
                with self.assertRaisesRegex(FileExistsError, f"there is a file of this name already: '{self.folder / name}'"):
                    opened.save_as(self.folder / name)
        self.assertEqual((names_in(Store.read(self.folder / "own")), names_in(Store.read(self.file))), ([1], [2]))
        self.assertEqual(self.names(), ["lent", "opened", "own", "store"])

    def test_store_of_another_length(self):
        for length in 0, STORE_BYTES + 1:
            with self.assertRaisesRegex(ValueError, f"^not saved: the store has {length} bytes and not 41088$"):
                Store(bytearray(length)).save_as(self.folder / "other")
        self.assertEqual(self.names(), ["store"])


class Saved(FileTest):
    """Stores that are saved."""

    def test_block(self):
        with Store.open(self.file) as store:
            insert(store, 10)
            self.assertEqual(self.file.read_bytes(), bytes(STORE_BYTES))
        self.assertEqual(self.file.read_bytes(), bytes(Store.read(self.file)))
        self.assertEqual((names_in(Store.read(self.file)), self.names()), ([10], ["store"]))

    def test_block_that_an_error_left(self):
        for error in ZeroDivisionError, KeyboardInterrupt, SystemExit:
            with self.assertRaises(error):
                with Store.open(self.file) as store:
                    insert(store, 10)
                    raise error
            self.assert_old(bytes(STORE_BYTES))

    def test_save_and_go_on(self):
        store = Store.open(self.file)
        self.assertFalse(store.save())
        for name in 1, 2:
            insert(store, name)
            self.assertTrue(store.save())
            self.assertEqual(self.file.read_bytes(), bytes(store))
            self.assertRaises(StoreInUse, Store.read, self.file, wait=False)
        self.assertFalse(store.save())
        insert(store, 3)
        store.close()
        self.assertEqual(names_in(Store.read(self.file)), [1, 2])

    def test_unchanged_store_is_not_written(self):
        before = self.identity()
        with Store.open(self.file) as store:
            insert(store, 1)
            store.delete(label(0), Path.parse("1:0"))
        looking(self.file)
        self.assertEqual(self.identity(), before)
        changing(self.file, [1])
        self.assertNotEqual(self.identity(), before)

    def test_order(self):
        calls = []

        def noting(name, real):
            """The system's call, which is noted."""
            return lambda *arguments: (calls.append(name), real(*arguments))[1]

        with contextlib.ExitStack() as patches, Store.open(self.file) as store:
            for name in "fsync", "rename", "fchmod":
                patches.enter_context(mock.patch(f"dossier.file.os.{name}", noting(name, getattr(os, name))))
            insert(store, 1)
            store.save()
        self.assertEqual(calls, ["fchmod", "fsync", "rename", "fsync"])

    def test_mode_and_owner(self):
        for mode in 0o600, 0o640, 0o664, 0o604:
            self.file.chmod(mode)
            changing(self.file, [mode])
            self.assertEqual(stat.S_IMODE(self.file.stat().st_mode), mode)
        if os.geteuid() == 0:
            os.chown(self.file, 12, 34)
            changing(self.file, [1])
            about = self.file.stat()
            self.assertEqual((about.st_uid, about.st_gid, stat.S_IMODE(about.st_mode)), (12, 34, 0o604))

    @unittest.skipUnless(shutil.which("setfacl"), "setfacl is not installed")
    def test_access_list(self):
        subprocess.run(["setfacl", "-m", "u:12:r,g:34:rw", self.file], check=True)
        before, mode = os.getxattr(self.file, ACCESS_LIST), self.file.stat().st_mode
        changing(self.file, [1])
        self.assertEqual((os.getxattr(self.file, ACCESS_LIST), self.file.stat().st_mode), (before, mode))
        subprocess.run(["setfacl", "-b", self.file], check=True)
        subprocess.run(["setfacl", "-d", "-m", "u:12:rw", self.folder], check=True)
        changing(self.file, [2])
        with self.assertRaises(OSError):
            os.getxattr(self.file, ACCESS_LIST)

    def test_symbolic_link(self):
        (self.folder / "inside").mkdir()
        self.file.rename(self.folder / "inside" / "kept")
        self.file.symlink_to("inside/kept")
        changing(self.file, [1])
        self.assertTrue(self.file.is_symlink())
        self.assertEqual((names_in(Store.read(self.file)), self.names()), ([1], ["inside", "store"]))
        self.assertEqual(os.listdir(self.folder / "inside"), ["kept"])

    def test_store_of_another_length_is_not_saved(self):
        with self.assertRaisesRegex(ValueError, "not saved: the store has 41089 bytes and not 41088"):
            with Store.open(self.file) as store:
                store.buffer.append(0)
        self.assert_old(bytes(STORE_BYTES))


class Closed(FileTest):
    """Stores that are closed."""

    def test_calls(self):
        store, ten = Store.open(self.file), Path.parse("10:0")
        self.assertEqual((store.closed, repr(store)), (False, f"<StoreFile '{self.file}' of 41088 bytes>"))
        store.close()
        store.close()
        self.assertEqual((store.closed, repr(store)), (True, f"<StoreFile '{self.file}', closed>"))
        calls = [
            store.save, store.migrate, store.__enter__, lambda: store.view(label(0)), lambda: store.view_xml(label(0)),
            lambda: store.save_as(self.folder / "other"),
            lambda: store.insert(label(0), ten, Group()), lambda: store.update(label(0), ten, Group()), lambda: bytes(store),
            lambda: store.delete(label(0), ten), lambda: store.grade(label(0), ten, ten, 1), lambda: store.buffer,
            lambda: store.insert_xml(label(0), ten, ""),
        ]
        for call in calls:
            with self.assertRaisesRegex(ValueError, "^the store is closed$"):
                call()

    def test_block_that_closes(self):
        with Store.open(self.file) as store:
            insert(store, 1)
            store.close()
        self.assert_old(bytes(STORE_BYTES))

    def test_copies(self):
        with Store.open(self.file) as store:
            for copying in copy.copy, copy.deepcopy, pickle.dumps:
                with self.assertRaisesRegex(TypeError, "cannot be copied or pickled, since one alone has the lock"):
                    copying(store)
            insert(store, 1)
            own = copy.copy(Store(bytearray(bytes(store))))
        self.assertEqual((type(store), type(own), names_in(own)), (StoreFile, Store, [1]))

    def test_forgotten_store_lets_the_lock_go(self):
        with self.assertWarns(ResourceWarning):
            store = Store.open(self.file)
            del store
            gc.collect()
        self.assert_old(bytes(STORE_BYTES))


class Locks(FileTest):
    """Who may have a file at the same time."""

    def test_shared_and_alone(self):
        with locked(self.file, fcntl.LOCK_SH):
            self.assertEqual(bytes(Store.read(self.file, wait=False)), bytes(STORE_BYTES))
            with self.assertRaisesRegex(StoreInUse, f"^{self.file}: the file is in use$"):
                Store.open(self.file, wait=False)
        with locked(self.file, fcntl.LOCK_EX):
            for call in Store.open, Store.read:
                self.assertRaises(StoreInUse, call, self.file, wait=False)
                self.assertRaises(BlockingIOError, call, self.file, wait=False)
        with Store.open(self.file, wait=False):
            for call in Store.open, Store.read:
                self.assertRaises(StoreInUse, call, self.file, wait=False)
        self.assert_old(bytes(STORE_BYTES))

    def test_two_processes_lose_nothing(self):
        processes = [forks.Process(target=changing, args=[self.file, range(at, 33, 2)]) for at in (1, 2)]
        for process in processes:
            process.start()
        for process in processes:
            process.join()
        self.assertEqual(names_in(Store.read(self.file)), list(range(1, 33)))
        self.assertEqual(self.names(), ["store"])

    def test_who_waits_goes_on_with_what_was_saved(self):
        waiting = [threading.Thread(target=changing, args=[self.file, [name]]) for name in range(2, 10)]
        with Store.open(self.file) as store:
            for thread in waiting:
                thread.start()
            insert(store, 1)
        for thread in waiting:
            thread.join()
        self.assertEqual(names_in(Store.read(self.file)), list(range(1, 10)))

    def test_interrupt_while_waiting(self):
        def interrupt(number, frame):
            """What Ctrl-C does."""
            raise KeyboardInterrupt

        before, handler = open_files(), signal.signal(signal.SIGALRM, interrupt)
        self.addCleanup(signal.signal, signal.SIGALRM, handler)
        errors = []
        for call in Store.open, Store.read:
            with locked(self.file, fcntl.LOCK_EX):
                signal.setitimer(signal.ITIMER_REAL, 0.1)
                errors.append(kept(call, self.file))
        self.assertEqual((open_files(), [type(error) for error in errors]), (before, [KeyboardInterrupt] * 2))
        self.assert_old(bytes(STORE_BYTES))

    def test_no_file_is_left_open(self):
        before, errors = open_files(), []
        for call in Store.open, Store.read:
            with locked(self.file, fcntl.LOCK_EX):
                errors.append(kept(call, self.file, False))
            errors.append(kept(call, self.folder))
        self.file.write_bytes(b"none")
        errors += [kept(call, self.file) for call in (Store.open, Store.read)]
        self.assertEqual((open_files(), {type(error) for error in errors}), (before, {StoreInUse, NotAStore}))

    def test_forked_process(self):
        with Store.open(self.file) as store:
            insert(store, 1)
            with self.assertRaisesRegex(ValueError, "is open in the process from which this one was forked"):
                forked(store.save)
            forked(store.close)
            self.assertRaises(StoreInUse, Store.open, self.file, wait=False)
            sleeping = forks.Process(target=signal.pause)
            sleeping.start()
            self.addCleanup(sleeping.join)
            self.addCleanup(sleeping.kill)
            waiting = subprocess.Popen([sys.executable, "-c", WAITING, str(self.file)], stdout=subprocess.PIPE)
            self.addCleanup(waiting.communicate)
            self.addCleanup(waiting.kill)
            self.assertEqual(waiting.stdout.readline(), b"waits\n")
            time.sleep(0.2)
            self.assertTrue(store.save())
        self.assertEqual(waiting.communicate(timeout=20)[0], b"has it\n")
        Store.open(self.file, wait=False).close()

    def test_forked_process_that_changes_nothing(self):
        with Store.open(self.file) as store:
            self.assertIs(forked(store.save), False)

    def test_errors_of_the_system_have_the_name(self):
        error = OSError(errno.ENOLCK, "No locks available")
        for function, words in ("fcntl.flock", "the file cannot be locked: No locks available"), ("os.pread", error.strerror):
            for call in Store.open, Store.read:
                with mock.patch(function, side_effect=error), self.assertRaises(OSError) as raised:
                    call(self.file)
                self.assertEqual((raised.exception.filename, raised.exception.strerror), (str(self.file), words))

    def test_started_program_has_no_file_of_it(self):
        with Store.open(self.file), subprocess.Popen(["sleep", "9"], close_fds=False) as program:
            held = [os.readlink(f"/proc/{program.pid}/fd/{one}") for one in os.listdir(f"/proc/{program.pid}/fd")]
            program.kill()
        self.assertNotIn(str(self.file), held)

    @unittest.skipUnless(COMMAND.exists(), "the command is not built")
    def test_command(self):
        script = b"0\tI\t1:0\tG\t-\n"
        with Store.open(self.file) as store:
            done = subprocess.run([COMMAND, "run", "--no-wait", self.file], input=script, capture_output=True)
            self.assertEqual((done.stdout, done.returncode), (b"", 3))
            self.assertIn(b"is in use", done.stderr)
            insert(store, 2)
        with subprocess.Popen([COMMAND, "run", self.file], stdin=subprocess.PIPE, stdout=subprocess.PIPE) as program:
            program.stdin.write(script)
            program.stdin.flush()
            self.assertEqual(program.stdout.readline(), b"A\t0\t0\n")
            for call in Store.open, Store.read:
                self.assertRaises(StoreInUse, call, self.file, wait=False)
        self.assertEqual(names_in(Store.read(self.file)), [1, 2])


class Meanwhile(FileTest):
    """A file that is another's when it comes to be saved."""

    def test_left_to_the_other(self):
        changes = [
            lambda: self.file.write_bytes(bytes([7]) * STORE_BYTES),
            lambda: self.file.write_bytes(bytes(STORE_BYTES + 1)),
            lambda: (self.file.rename(self.folder / "aside"), self.file.write_bytes(bytes(STORE_BYTES))),
            lambda: self.file.unlink(),
        ]
        for change in changes:
            Store.create(self.file) if not self.file.exists() else self.file.write_bytes(bytes(STORE_BYTES))
            with self.assertRaisesRegex(StoreChanged, f"^{self.file}: not saved: the file was changed meanwhile$"):
                with Store.open(self.file) as store:
                    insert(store, 1)
                    change()
                    left = self.file.read_bytes() if self.file.exists() else None
            self.assertEqual(self.file.read_bytes() if self.file.exists() else None, left)
            self.assertLessEqual(set(self.names()), {"aside", "store"})


class NoStore(FileTest):
    """What is not opened."""

    def test_other_files(self):
        for length in 0, STORE_BYTES - 1, STORE_BYTES + 1, 3 * STORE_BYTES:
            self.file.write_bytes(bytes(length))
            words = f"^{self.file}: it is no store: it has {length} bytes, a store has 41088$"
            for call in Store.open, Store.read:
                with self.assertRaisesRegex(NotAStore, words):
                    call(self.file, wait=False)
        self.assertEqual(self.file.read_bytes(), bytes(3 * STORE_BYTES))
        os.mkfifo(self.folder / "pipe")
        for name in self.folder, self.folder / "pipe", "/dev/null":
            for call in Store.open, Store.read:
                with self.assertRaisesRegex(NotAStore, f"^{name}: it is no regular file$"):
                    call(name)

    def test_missing_and_forbidden_files(self):
        (self.folder / "round").symlink_to("round")
        for call in Store.open, Store.read:
            self.assertRaises(FileNotFoundError, call, self.folder / "none")
            with self.assertRaises(OSError) as raised:
                call(self.folder / "round")
            self.assertEqual(raised.exception.errno, errno.ELOOP)
            self.file.chmod(0)
            self.assertRaises(PermissionError, forked, lambda: call(self.file) and None, NOBODY)

    def test_name_of_a_forbidden_file(self):
        (self.folder / "link").symlink_to("store")
        self.file.chmod(0)
        for call in Store.open, Store.read:
            with self.assertRaises(PermissionError) as raised:
                forked(lambda: call(self.folder / "link") and None, NOBODY)
            self.assertEqual(raised.exception.filename, str(self.folder / "link"))


class Failed(FileTest):
    """Saves that fail, or are broken off."""

    def test_folder_that_cannot_be_written(self):
        self.file.chmod(0o666)
        self.folder.chmod(0o555)
        with self.assertRaisesRegex(PermissionError, f"not saved: Permission denied: '{self.file}'"):
            forked(lambda: changing(self.file, [1]), NOBODY)
        self.assert_old(bytes(STORE_BYTES))

    def test_file_that_cannot_be_written(self):
        self.file.chmod(0o444)
        self.folder.chmod(0o777)
        with self.assertRaisesRegex(PermissionError, f"not saved: Permission denied: '{self.file}'"):
            forked(lambda: changing(self.file, [1]), NOBODY)
        self.assertEqual(forked(lambda: looking(self.file), NOBODY), [])
        self.assert_old(bytes(STORE_BYTES))

    def test_folder_that_cannot_be_synced(self):
        if os.geteuid() == 0:
            os.chown(self.folder, NOBODY, NOBODY)
            os.chown(self.file, NOBODY, NOBODY)
        self.folder.chmod(0o300)
        with self.assertRaisesRegex(StoreNotSynced, "saved, but its folder is not synced: Permission denied"):
            forked(lambda: changing(self.file, [1]), NOBODY)
        self.folder.chmod(0o755)
        self.assertEqual((names_in(Store.read(self.file)), self.names()), ([1], ["store"]))

    def test_each_call_that_fails(self):
        for name in SAVING:
            with Store.open(self.file) as store:
                insert(store, 1)
                with mock.patch(f"dossier.file.{name}", side_effect=OSError(errno.EIO, "no luck")):
                    with self.assertRaises(OSError) as raised:
                        store.save()
                self.assertIn("not saved: no luck", str(raised.exception))
                self.assertEqual(raised.exception.filename, str(self.file))
                store.delete(label(0), Path.parse("1:0"))
            self.assert_old(bytes(STORE_BYTES))

    def test_save_that_failed_is_tried_again(self):
        with Store.open(self.file) as store:
            insert(store, 1)
            with mock.patch("dossier.file.os.rename", side_effect=OSError(errno.EIO, "no luck")):
                self.assertRaises(OSError, store.save)
            self.assertTrue(store.save())
        self.assertEqual((names_in(Store.read(self.file)), self.names()), ([1], ["store"]))

    def end_at(self, name, number, is_behind):
        """Changes the store, in a process that ends before or behind one of its system's calls: its exit status."""
        module, function = (os if name.startswith("os.") else fcntl), name.split(".")[1]
        real, left = getattr(module, function), [number]

        def call(*arguments, **more):
            """The system's call, but for the one at which the process ends."""
            left[0] -= 1
            if left[0] == 0 and not is_behind:
                os._exit(41)
            done = real(*arguments, **more)
            if left[0] == 0:
                os._exit(41)
            return done

        def run():
            """Changes the store."""
            with mock.patch(f"dossier.file.{name}", call):
                changing(self.file, [1])

        process = forks.Process(target=run)
        process.start()
        process.join()
        return process.exitcode

    def test_crash(self):
        store, found = Store(), []
        insert(store, 1)
        new = bytes(store)
        for name in SAVING:
            for is_behind in False, True:
                number, status = 1, 41
                while status == 41:
                    self.file.write_bytes(bytes(STORE_BYTES))
                    status = self.end_at(name, number, is_behind)
                    left = self.file.read_bytes()
                    self.assertIn(left, (bytes(STORE_BYTES), new), (name, number, is_behind))
                    found.append((name, left == new))
                    Store.open(self.file, wait=False).close()
                    number += 1
                self.assertEqual(status, 0)
        self.assertGreater(len(found), 20)
        self.assertIn(("os.rename", True), found)
        self.assertIn(("os.rename", False), found)

    def test_killed_in_the_block(self):
        answers, sending = forks.Pipe(False)

        def hold():
            """Changes the store and waits."""
            with Store.open(self.file) as store:
                insert(store, 1)
                sending.send("inserted")
                signal.pause()

        process = forks.Process(target=hold)
        process.start()
        self.assertEqual(answers.recv(), "inserted")
        self.assertRaises(StoreInUse, Store.open, self.file, wait=False)
        process.kill()
        process.join()
        self.assert_old(bytes(STORE_BYTES))


if __name__ == "__main__":
    unittest.main(argv=sys.argv)
