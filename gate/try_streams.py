#!/usr/bin/env python3
"""Tries the built program and ./ia64 under closed, full, slow and broken streams, signals, odd arguments and small limits.

  gate/try_streams.py [PROGRAM]    PROGRAM is the built one of this repository where none is named

What is wanted is what docs/use/commands.md says: "Arguments and statuses", "Streams, signals and memory".

What this machine gives no leave for, as a mount, is skipped, and the closing line says so.
"""

import array
import contextlib
import fcntl
import os
import resource
import shutil
import signal
import socket
import struct
import subprocess
import sys
import tempfile
import termios
import time
import unittest
from pathlib import Path

sys.dont_write_bytecode = True
HERE = Path(__file__).resolve().parent.parent
PROGRAM = str(HERE / "crates" / "ia64_cli" / "out" / "ia64_cli")
SECONDS = 60        # the longest that anything may take
PAGE = 4096         # the least room of a pipe
PAUSE = 0.001       # of a slow reader and a slow writer
LIMIT = 16_777_216  # the longest input
CLOSED = None       # in place of a stream

# ---- Inputs and answers ----------------------------------------------------------------------------------

TEXT = b"{ .mii\n  nop.m 0\n  nop.i 0\n  nop.i 0 ;;\n}\n"
HAZARD = b"{ .mii\n  nop.m 0\n  adds r8=1,r0\n  adds r9=1,r8 ;;\n}\n"
BREAK = b"{ .mib\n  nop.m 0\n  nop.i 0\n  break.b 0 ;;\n}\n"
LOOP = b"loop:\n{ .mib\n  adds r8=1,r8\n  nop.i 0\n  br.cond.sptk.few loop ;;\n}\n"
LOOSE = b"add r8=r9,r10\nadd r11=r8,r9\n"
ACCEPTED = b"accepted\n"
VIOLATED = b"violations 1\nRAW r8 0.1 0.2\n"
EMPTY = b"line 1: empty\n"
TRIAL = b"trial 1 1\naccepted\nend break 0x0 at 0.2\ngroups 1\nsum 0000000000000000\n"


def state(end, groups, *lines):
    """What `run` prints of a state without a register frame."""
    lines = f"end {end}", f"groups {groups}", "frame 0 sof 0 sol 0 sor 0 rrb 0 0 0", "rse 0 0 0 0", *lines
    return "".join(f"{line}\n" for line in lines).encode()


def looped(groups):
    """What `run` prints of LOOP after so many groups."""
    return state("limit at 0.0", groups, f"r8 {groups:016x}", "pr 0000000000000001")


def nops(number):
    """A bundle of three `nop`, of which the last has this number, with a stop behind them."""
    nop = 1 << 27
    return (1 | nop << 5 | nop << 46 | (nop | number << 6) << 87).to_bytes(16, "little")


# The longest output of `wrap`: no two of its bundles are the same, so each byte that is out of place shows.
BUNDLES = b"".join(nops(number) for number in range(4096))
IMAGE = b"IA64IMG1" + struct.pack("<4I", 4096, 0, 0, 0) + BUNDLES

# Each command that reads, and an input for which it gives an answer.
READERS = ((("build",), TEXT), (("stops",), LOOSE), (("show",), IMAGE), (("list",), IMAGE), (("wrap",), BUNDLES), (("lift",), IMAGE),
           (("check",), TEXT), (("run", "1"), TEXT), (("watch", "1"), TEXT), (("trace", "0", "1"), TEXT),
           (("groups", "1", "0"), TEXT))

# ---- Streams and calls -----------------------------------------------------------------------------------


def waiting(descriptor):
    """How many bytes can be read there without waiting."""
    count = array.array("i", [0])
    fcntl.ioctl(descriptor, termios.FIONREAD, count)
    return count[0]


def arrived(descriptor):
    """What can be read there without waiting."""
    return os.read(descriptor, waiting(descriptor))


def written(file):
    """All that is in a file, wherever its stream stands."""
    return os.pread(file, 2 * LIMIT, 0)


def offset(descriptor):
    """Where in the file the next read begins, of whoever shares the stream."""
    return os.lseek(descriptor, 0, os.SEEK_CUR)


def doing(process):
    """Of a process in /proc: the letter of the system for what it does (R runs, S sleeps, T is stopped), and who began its
    session."""
    letter, _, _, began = Path(f"/proc/{process}/stat").read_bytes().rpartition(b")")[2].split()[:4]
    return letter.decode(), int(began)


def phase(call):
    return doing(call.pid)[0]


def session(call):
    """The processes of the session that the call began."""
    found = []
    for folder in Path("/proc").glob("[0-9]*"):
        with contextlib.suppress(OSError):      # it has ended in the meantime
            letter, began = doing(folder.name)
            if began == call.pid and letter != "Z":
                found.append(folder.name)
    return found


def until(holds):
    """Waits for it."""
    end = time.monotonic() + SECONDS
    while not holds():
        if time.monotonic() > end:
            raise AssertionError("it didn't come in time")
        time.sleep(PAUSE)


class Streams(unittest.TestCase):
    """Makes streams, and closes them at the end; and starts calls on them, and ends those."""

    def setUp(self):
        self.folder = Path(tempfile.mkdtemp())
        self.addCleanup(shutil.rmtree, self.folder)
        self.descriptors = set()
        self.addCleanup(lambda: [os.close(descriptor) for descriptor in self.descriptors])
        self.files = 0

    def kept(self, *descriptors):
        self.descriptors.update(descriptors)
        return descriptors[0] if len(descriptors) == 1 else descriptors

    def close(self, *descriptors):
        for descriptor in descriptors:
            self.descriptors.remove(descriptor)
            os.close(descriptor)

    def opened(self, path, flags=os.O_RDONLY):
        return self.kept(os.open(path, flags))

    def path(self, content=b""):
        """A new file with this content."""
        self.files += 1
        path = self.folder / str(self.files)
        path.write_bytes(content)
        return path

    def file(self, content=b"", start=0):
        """A stream of a new file with this content, that begins in front of the byte START of it."""
        descriptor = self.opened(self.path(content), os.O_RDWR)
        os.lseek(descriptor, start, os.SEEK_SET)
        return descriptor

    def pipe(self, room=PAGE):
        """The end of a pipe that reads, and the one that writes."""
        ends = self.kept(*os.pipe())
        fcntl.fcntl(ends[0], getattr(fcntl, "F_SETPIPE_SZ", 1031), room)
        return ends

    def given(self, content, ends=True, waits=True):
        """A pipe to read from, which has just this content, and after which it ends or not."""
        reader, writer = self.pipe()
        os.write(writer, content)
        if ends:
            self.close(writer)
        os.set_blocking(reader, waits)
        return reader

    def sockets(self):
        """Two that are connected."""
        return self.kept(*(end.detach() for end in socket.socketpair()))

    def terminal(self):
        """The end of a terminal where the user is, and the one where the program is."""
        try:
            return self.kept(*os.openpty())
        except OSError as error:
            return self.skipTest(f"no terminal: {error.strerror}")

    def start(self, *words, streams, call=None, name=None, ignored=False, terminal=False, limits=(), environment=None):
        """Starts the call (of the program, if no other is given) on three streams, of which the first may be its terminal.
        SIGPIPE and SIGXFSZ are ignored or not when it begins; of other signals it doesn't matter what this script was given."""
        def prepare():
            signal.pthread_sigmask(signal.SIG_SETMASK, [])
            for number in signal.SIGINT, signal.SIGQUIT, signal.SIGHUP, signal.SIGTERM:
                signal.signal(number, signal.SIG_DFL)
            if terminal:
                fcntl.ioctl(0, termios.TIOCSCTTY, 0)
            for number, stream in enumerate(streams):
                if stream is CLOSED:
                    os.close(number)
            for number, limit in ((resource.RLIMIT_CORE, 0), *limits):
                resource.setrlimit(number, (limit, limit))
        given = [subprocess.DEVNULL if stream is CLOSED else stream for stream in streams]
        call = call or PROGRAM
        started = subprocess.Popen(
            [call if name is None else name, *words], executable=call, stdin=given[0], stdout=given[1], stderr=given[2],
            restore_signals=not ignored, preexec_fn=prepare, start_new_session=True, env=environment)
        self.addCleanup(started.wait)
        self.addCleanup(started.kill)
        return started

    def outcome(self, *words, stdin, **how):
        """The status of a call on this input, or less than 0 and the signal that ended it; what it writes, and what it says."""
        out, err = self.file(), self.file()
        status = self.start(*words, streams=(stdin, out, err), **how).wait(SECONDS)
        answer = written(out), written(err)
        self.close(out, err)
        return (status, *answer)

    def gives(self, status, wanted, *words, says=b"", **how):
        self.assertEqual(self.outcome(*words, **how), (status, wanted, says), words and words[0])


class Inputs(Streams):
    """What is standard input. Each is handed to words that are no command and to `trial` first, which leave it as it is."""

    def reset(self):
        """A socket that gives a front, and then fails, since what was sent to its other end was never taken."""
        near, far = self.sockets()
        os.write(near, b"lost")
        os.write(far, TEXT)
        self.close(far)
        return near

    def ended(self, content):
        """A socket that gives this content and ends."""
        near, far = self.sockets()
        os.write(far, content)
        self.close(far)
        return near

    def fifo(self, content):
        path = self.folder / "fifo"
        os.mkfifo(path)
        reader = self.opened(path, os.O_RDONLY | os.O_NONBLOCK)
        writer = self.opened(path, os.O_WRONLY)
        os.write(writer, content)
        self.close(writer)
        os.set_blocking(reader, True)
        return reader

    def test_inputs(self):
        for name, stream, status, wanted in (
                ("closed", lambda: CLOSED, 5, b""),
                ("a folder", lambda: self.opened("/"), 5, b""),
                ("a file that isn't open for reading or writing", lambda: self.opened(self.path(TEXT), os.O_PATH), 5, b""),
                ("a file that is open for writing alone", lambda: self.opened(self.path(TEXT), os.O_WRONLY), 5, b""),
                ("memory that can't be read", lambda: self.opened("/proc/self/mem"), 5, b""),
                ("an empty pipe that doesn't wait", lambda: self.given(b"", ends=False, waits=False), 5, b""),
                ("a pipe that doesn't wait for what follows", lambda: self.given(TEXT, ends=False, waits=False), 5, b""),
                ("a socket that fails", self.reset, 5, b""),
                ("/dev/zero", lambda: self.opened("/dev/zero"), 4, b""),
                ("/dev/full", lambda: self.opened("/dev/full"), 4, b""),
                ("/dev/urandom", lambda: self.opened("/dev/urandom"), 4, b""),
                ("/dev/null", lambda: self.opened("/dev/null"), 3, EMPTY),
                ("an empty file", self.file, 3, EMPTY),
                ("a pipe that ends at once", lambda: self.given(b""), 3, EMPTY),
                ("a pipe", lambda: self.given(TEXT), 0, ACCEPTED),
                ("a pipe that doesn't wait and has ended", lambda: self.given(HAZARD, waits=False), 1, VIOLATED),
                ("a named pipe", lambda: self.fifo(HAZARD), 1, VIOLATED),
                ("a socket", lambda: self.ended(HAZARD), 1, VIOLATED),
                ("a file", lambda: self.file(HAZARD), 1, VIOLATED),
                ("a file from some place on", lambda: self.file(b"no text\n" + HAZARD, 8), 1, VIOLATED),
                ("a file from its end on", lambda: self.file(TEXT, len(TEXT)), 3, EMPTY),
                ("a file from behind its end on", lambda: self.file(TEXT, len(TEXT) + 1), 3, EMPTY)):
            with self.subTest(name):
                stream = stream()
                self.gives(2, b"", "no command", stdin=stream)
                self.gives(0, TRIAL, "trial", "1", "1", stdin=stream)
                self.gives(status, wanted, "check", stdin=stream)

    def test_commands(self):
        """Each command that reads says so where it can't."""
        for words, _ in READERS:
            with self.subTest(words[0]):
                self.gives(5, b"", *words, stdin=CLOSED)
                self.gives(4, b"", *words, stdin=self.opened("/dev/zero"))

    def test_how_far_is_read(self):
        """To the end, whatever the answer; no further than one byte past the limit; or not at all."""
        for words, content, status, end in (
                (["check"], TEXT, 0, len(TEXT)),
                (["wrap"], BUNDLES, 0, len(BUNDLES)),
                (["check"], HAZARD, 1, len(HAZARD)),
                (["wrap"], bytes(LIMIT), 3, LIMIT),
                (["wrap"], bytes(LIMIT + 1), 4, LIMIT + 1),
                (["wrap"], bytes(2 * LIMIT), 4, LIMIT + 1),
                (["build"], b"wrong\n" + TEXT * 10000, 3, 6 + 10000 * len(TEXT)),
                (["stops"], LOOSE, 0, len(LOOSE)),
                (["stops"], TEXT, 3, len(TEXT)),
                (["show"], TEXT * 10000, 3, 10000 * len(TEXT)),
                (["wrap"], BUNDLES + b"x", 3, len(BUNDLES) + 1),
                (["run", "1"], LOOP, 8, len(LOOP)),
                (["watch", "1"], TEXT, 9, len(TEXT)),
                (["trace", "0", "100"], TEXT, 9, len(TEXT)),
                (["trace", "0", "101"], TEXT, 2, 0),
                (["groups", "1", "7"], LOOP, 8, len(LOOP)),
                (["groups", "1"], LOOP, 2, 0),
                (["trial", "1", "1"], TEXT, 0, 0),
                (["trial", "1", "0"], TEXT, 2, 0),
                (["run"], TEXT, 2, 0),
                ([], TEXT, 2, 0)):
            with self.subTest(words, status=status):
                stream = self.file(b"xxx" + content, 3)
                out = self.file()
                self.assertEqual(self.start(*words, streams=(stream, out, out)).wait(SECONDS), status)
                self.assertEqual(offset(stream), 3 + end)
                stream = self.file(b"xxx" + content, 3)
                self.assertEqual(self.start(*words, streams=(stream, CLOSED, out)).wait(SECONDS), status if status in (2, 4) else 6)
                self.assertEqual(offset(stream), 3 + end)

    def test_a_pipe_that_never_ends(self):
        """No more is taken from it than one byte past the limit."""
        reader, writer = self.pipe()
        os.set_blocking(writer, False)
        out = self.file()
        call = self.start("check", streams=(reader, out, out))
        given = 0
        while call.poll() is None:
            try:
                given += os.write(writer, b"\n" * PAGE)
            except BlockingIOError:
                time.sleep(PAUSE / 10)
        self.assertEqual((call.returncode, given - waiting(reader)), (4, LIMIT + 1))
        self.assertEqual(written(out), b"")

    def test_yes(self):
        """A writer that never ends is left to write to nobody."""
        reader, writer = self.pipe()
        yes = self.start(call=shutil.which("yes"), streams=(CLOSED, writer, CLOSED))
        self.close(writer)
        self.gives(4, b"", "check", stdin=reader)
        self.close(reader)
        self.assertEqual(yes.wait(SECONDS), -signal.SIGPIPE)


class Outputs(Streams):
    """What is standard output. Answers that write nothing are given to each first, and leave it as it is."""

    def file_and_reader(self, content=b"", flags=os.O_WRONLY):
        path = self.path(content)
        return self.opened(path, flags), self.opened(path)

    def pipe_and_reader(self, room=PAGE, waits=True, filled=0):
        reader, writer = self.pipe(room)
        os.write(writer, bytes(filled))
        os.set_blocking(writer, waits)
        return writer, reader

    def unread(self, ends):
        """The end that writes, of those of which the other one is closed."""
        reader, writer = ends
        self.close(reader)
        return writer, None

    def hung_up(self):
        """A terminal whose user has gone."""
        user, program = self.terminal()
        self.close(user)
        return program, None

    def test_outputs(self):
        """How much of the output stands, and with which status."""
        for name, stream, status, wanted in (
                ("closed", lambda: (CLOSED, None), 6, None),
                ("a file that is open for reading alone", lambda: self.file_and_reader(TEXT, os.O_RDONLY), 6, TEXT),
                ("/dev/full", lambda: (self.opened("/dev/full", os.O_WRONLY), None), 6, None),
                ("a pipe that nobody reads", lambda: self.unread(self.pipe()), 6, None),
                ("a socket that nobody reads", lambda: self.unread(self.sockets()), 6, None),
                ("a terminal that has hung up", self.hung_up, 6, None),
                ("a full pipe that doesn't wait", lambda: self.pipe_and_reader(waits=False, filled=PAGE), 6, bytes(PAGE)),
                ("a pipe with some room that doesn't wait", lambda: self.pipe_and_reader(waits=False), 6, IMAGE[:PAGE]),
                ("a pipe with room that doesn't wait", lambda: self.pipe_and_reader(2 * len(IMAGE), False), 0, IMAGE),
                ("a pipe with room", lambda: self.pipe_and_reader(2 * len(IMAGE)), 0, IMAGE),
                ("/dev/null", lambda: (self.opened(os.devnull, os.O_WRONLY), None), 0, None),
                ("a file", self.file_and_reader, 0, IMAGE),
                ("a longer file", lambda: self.file_and_reader(bytes(len(IMAGE)) + TEXT), 0, IMAGE + TEXT),
                ("the end of a file", lambda: self.file_and_reader(TEXT, os.O_WRONLY | os.O_APPEND), 0, TEXT + IMAGE)):
            with self.subTest(name):
                stream, reader = stream()
                error = self.file()
                for words, stdin, ends in (([], self.file(BUNDLES), 2), (["wrap"], self.opened("/dev/zero"), 4), (["wrap"], CLOSED, 5),
                                           (["wrap"], self.file(BUNDLES), status)):
                    got = self.start(*words, streams=(stdin, stream, error)).wait(SECONDS)
                    self.assertEqual((got, written(error)), (ends, b""))
                if wanted is not None:
                    self.assertEqual(arrived(reader), wanted)

    def test_commands(self):
        """Each command says so where it can't write: its answers, violations and refusals."""
        for words, content in (*READERS, (("check",), HAZARD), (("run", "1"), HAZARD), (("check",), b""), (("show",), b""),
                               (("run", "9"), LOOP), (("trial", "1", "1"), b"")):
            with self.subTest(words[0]):
                error = self.file()
                for stream in CLOSED, self.opened("/dev/full", os.O_WRONLY):
                    self.assertEqual(self.start(*words, streams=(self.file(content), stream, error)).wait(SECONDS), 6)
                self.assertEqual(written(error), b"")

    def test_limits_of_a_file(self):
        """A file that may not grow past a limit gets just so much; the program is ended by a signal unless that is ignored."""
        for limit in 0, 1, 24, PAGE, len(IMAGE) - 1, len(IMAGE), len(IMAGE) + 1:
            whole = limit >= len(IMAGE)
            for ignored in True, False:
                with self.subTest(limit, ignored=ignored):
                    status = 0 if whole else 6 if ignored else -signal.SIGXFSZ
                    self.gives(status, IMAGE[:limit], "wrap", stdin=self.file(BUNDLES), ignored=ignored,
                               limits=[(resource.RLIMIT_FSIZE, limit)])

    def test_a_small_filesystem(self):
        """A front of the output stands on one that gets full, and not all of it."""
        script = 'mount -t tmpfs -o size=32k none "$0" || exit 99; "$1" wrap > "$0/image"; status=$?; cat "$0/image"; exit $status'
        if not shutil.which("unshare"):
            self.skipTest("no unshare")
        out, error = self.file(), self.file()
        got = self.start("-m", "sh", "-c", script, str(self.folder), PROGRAM, call=shutil.which("unshare"),
                         streams=(self.file(BUNDLES), out, error), name="unshare").wait(SECONDS)
        said, front = written(error), written(out)
        if said and got in (1, 99):
            self.skipTest(f"no leave to mount: {said.decode(errors='replace').strip()}")
        self.assertEqual((got, said, front), (6, b"", IMAGE[:len(front)]))
        self.assertTrue(0 < len(front) < len(IMAGE))

    def test_the_file_that_is_read(self):
        """It may be the output too: it is read whole before anything is written."""
        path = self.path(BUNDLES)
        error = self.file()
        self.assertEqual(self.start("wrap", streams=(self.opened(path), self.opened(path, os.O_WRONLY), error)).wait(SECONDS), 0)
        self.assertEqual(path.read_bytes(), IMAGE)
        stream = self.file(HAZARD)
        self.assertEqual(self.start("check", streams=(stream, stream, error)).wait(SECONDS), 1)
        self.assertEqual(written(stream), HAZARD + VIOLATED)

    def test_closed_streams(self):
        """Nothing is said on standard error, so that it is closed changes nothing; and all three may be."""
        for words, content, status, wanted in ((("check",), HAZARD, 1, VIOLATED), (("check",), b"", 3, EMPTY), ((), TEXT, 2, b""),
                                               (("trial", "1", "1"), TEXT, 0, TRIAL)):
            out = self.file()
            with self.subTest(words, status=status):
                got = self.start(*words, streams=(self.file(content), out, CLOSED)).wait(SECONDS)
                self.assertEqual((got, written(out)), (status, wanted))
        for words, status in ((("check",), 5), ((), 2), (("trial", "1", "1"), 6)):
            with self.subTest(words, closed="all"):
                self.assertEqual(self.start(*words, streams=(CLOSED, CLOSED, CLOSED)).wait(SECONDS), status)


class Partners(Streams):
    """Who is at the other end of a pipe or a terminal, and does what in the meantime."""

    def blocked(self, *words, content=BUNDLES, **how):
        """A call that waits in the middle of its output, as the pipe is full; and the end of the pipe that reads."""
        reader, writer = self.pipe()
        error = self.file()
        call = self.start(*words, streams=(self.file(content), writer, error), **how)
        self.close(writer)
        until(lambda: waiting(reader) == PAGE and phase(call) == "S")
        return call, reader

    def reading(self, front=TEXT[:20], **how):
        """A call that has taken a front of its input and waits for more; the end of the pipe that writes; and its output."""
        reader, writer = self.pipe()
        out = self.file()
        call = self.start("check", streams=(reader, out, out), **how)
        self.close(reader)
        os.write(writer, front)
        until(lambda: waiting(writer) == 0 and phase(call) == "S")
        return call, writer, out

    def rest(self, reader, size=PAGE, pause=0.0):
        """What comes from there until it ends, in pieces of at most this size."""
        pieces = []
        while not pieces or pieces[-1]:
            time.sleep(pause)
            pieces.append(os.read(reader, size))
        return b"".join(pieces)

    def test_a_slow_writer(self):
        """One byte at a time."""
        reader, writer = self.pipe()
        out = self.file()
        call = self.start("check", streams=(reader, out, out))
        for byte in HAZARD:
            os.write(writer, bytes([byte]))
            time.sleep(PAUSE)
        self.close(writer)
        self.assertEqual((call.wait(SECONDS), written(out)), (1, VIOLATED))

    def test_a_slow_reader(self):
        call, reader = self.blocked("wrap")
        self.assertEqual((self.rest(reader, 700, PAUSE), call.wait(SECONDS)), (IMAGE, 0))

    def test_a_pause(self):
        """Nothing is written before the input has ended, however long that takes."""
        call, writer, out = self.reading()
        time.sleep(0.1)
        self.assertEqual((call.poll(), written(out)), (None, b""))
        os.write(writer, TEXT[20:])
        until(lambda: waiting(writer) == 0 and phase(call) == "S")
        self.assertEqual((call.poll(), written(out)), (None, b""))
        self.close(writer)
        self.assertEqual((call.wait(SECONDS), written(out)), (0, ACCEPTED))

    def test_a_writer_that_is_killed(self):
        """The input then ends where it is: here behind the second line of a bundle."""
        call, writer, out = self.reading(TEXT[:TEXT.index(b"  nop.i")])
        holder = self.start("60", call=shutil.which("sleep"), streams=(CLOSED, writer, CLOSED))
        self.close(writer)
        holder.kill()
        self.assertEqual((call.wait(SECONDS), written(out)), (3, b"line 3: misplaced\n"))

    def test_a_reader_that_goes(self):
        """After three bytes, or killed: that is a failed write, whether SIGPIPE was ignored before or not."""
        for ignored in True, False:
            with self.subTest("three bytes", ignored=ignored):
                call, reader = self.blocked("wrap", ignored=ignored)
                front = os.read(reader, 3)
                self.close(reader)
                self.assertEqual((call.wait(SECONDS), front), (6, IMAGE[:3]))
            with self.subTest("killed", ignored=ignored):
                call, reader = self.blocked("wrap", ignored=ignored)
                holder = self.start("60", call=shutil.which("sleep"), streams=(reader, CLOSED, CLOSED))
                self.close(reader)
                self.assertIsNone(call.poll())
                holder.kill()
                self.assertEqual(call.wait(SECONDS), 6)

    def test_a_socket_both_ways(self):
        near, far = self.sockets()
        error = self.file()
        call = self.start("wrap", streams=(near, near, error))
        self.close(near)
        end = socket.socket(fileno=os.dup(far))
        end.sendall(BUNDLES)
        end.shutdown(socket.SHUT_WR)
        end.close()
        self.assertEqual((self.rest(far), call.wait(SECONDS)), (IMAGE, 0))

    # ---- Signals -----------------------------------------------------------------------------------------

    def stopped_and_continued(self, call):
        """Stops the call, lets it go on, and sends it signals that are ignored if nobody asks for them."""
        call.send_signal(signal.SIGSTOP)
        until(lambda: phase(call) == "T")
        for number in signal.SIGWINCH, signal.SIGURG, signal.SIGCHLD, signal.SIGCONT:
            call.send_signal(number)
        until(lambda: phase(call) != "T")

    def test_a_stop_while_it_reads(self):
        call, writer, out = self.reading()
        for piece in TEXT[20:30], TEXT[30:]:
            self.stopped_and_continued(call)
            os.write(writer, piece)
        self.stopped_and_continued(call)
        self.close(writer)
        self.assertEqual((call.wait(SECONDS), written(out)), (0, ACCEPTED))

    def test_a_stop_while_it_writes(self):
        call, reader = self.blocked("wrap")
        self.stopped_and_continued(call)
        front = os.read(reader, PAGE)
        self.stopped_and_continued(call)
        self.assertEqual((front + self.rest(reader), call.wait(SECONDS)), (IMAGE, 0))

    def running(self):
        """A call that has read its input, and has many groups to run."""
        stream, out = self.file(LOOP), self.file()
        call = self.start("run", "10000000", streams=(stream, out, out))
        until(lambda: offset(stream) == len(LOOP))
        time.sleep(0.02)
        return call, out

    def test_a_stop_while_it_runs(self):
        call, out = self.running()
        self.stopped_and_continued(call)
        self.assertEqual((call.wait(SECONDS), written(out)), (8, looped(10000000)))

    def test_signals_that_end_it(self):
        """What was written then stands: nothing, or a front."""
        for number in signal.SIGTERM, signal.SIGINT, signal.SIGHUP, signal.SIGQUIT, signal.SIGKILL:
            with self.subTest(number):
                call, _, out = self.reading()
                call.send_signal(number)
                self.assertEqual((call.wait(SECONDS), written(out)), (-number, b""))
                call, out = self.running()
                call.send_signal(number)
                self.assertEqual((call.wait(SECONDS), written(out)), (-number, b""))
                call, reader = self.blocked("wrap")
                call.send_signal(number)
                self.assertEqual((call.wait(SECONDS), self.rest(reader)), (-number, IMAGE[:PAGE]))

    # ---- Terminals ---------------------------------------------------------------------------------------

    def typed(self, *words, content, **how):
        """The status of a call on a terminal, and all that the terminal shows, with what is typed there before."""
        user, program = self.terminal()
        os.write(user, content)
        call = self.start(*words, streams=(program, program, program), **how)
        self.close(program)
        shown = b""
        try:
            while True:
                shown += os.read(user, PAGE)
        except OSError:     # nobody has the other end any more
            return call.wait(SECONDS), shown.replace(b"^D\b\b", b"")

    def test_a_terminal(self):
        """Ctrl-D ends the input at the beginning of a line, or typed twice in a line. The terminal shows what is typed, too."""
        for name, content, status, wanted in (
                ("ended", HAZARD + b"\x04", 1, HAZARD + VIOLATED),
                ("ended at once", b"\x04", 3, EMPTY),
                ("ended in a line", TEXT[:-1] + b"\x04\x04", 0, TEXT[:-1] + ACCEPTED)):
            with self.subTest(name):
                self.assertEqual(self.typed("check", content=content), (status, wanted.replace(b"\n", b"\r\n")))

    def test_a_terminal_that_does_not_wait(self):
        _, program = self.terminal()
        os.set_blocking(program, False)
        self.gives(5, b"", "check", stdin=program)

    def test_keys_that_end_it(self):
        """Ctrl-C, Ctrl-\\, and the end of the terminal itself."""
        for name, key, number in (("Ctrl-C", b"\x03", signal.SIGINT), ("Ctrl-\\", b"\x1c", signal.SIGQUIT), ("hung up", None, signal.SIGHUP)):
            with self.subTest(name):
                user, program = self.terminal()
                out = self.file()
                call = self.start("check", streams=(program, out, out), terminal=True)
                self.close(program)
                until(lambda: phase(call) == "S")
                if key:
                    os.write(user, key)
                else:
                    self.close(user)
                self.assertEqual((call.wait(SECONDS), written(out)), (-number, b""))


class Surroundings(Streams):
    """Words, the environment, and limits of memory and stack."""

    def test_words(self):
        """Words that are no command: nothing is read, and nothing written."""
        for name, words in (
                ("none", []), ("an empty one", [""]), ("an empty one behind", ["check", ""]), ("an empty one before", ["", "check"]),
                ("a line feed", ["check\n"]), ("a space", ["check "]), ("upper case", ["CHECK"]), ("two words in one", ["run 1"]),
                ("dashes", ["--", "check"]), ("a file", ["check", "/dev/null"]), ("no UTF-8", [b"\xff"]), ("no UTF-8 behind", ["check", b"\xff"]),
                ("half a character", [b"check\xc3"]), ("not ASCII", ["chéck"]), ("other digits", ["run", "\u0661"]),
                ("a long word", ["check" * 26000]), ("a long number", ["run", "1" * 131000]),
                ("a long number with zeros", ["run", "0" * 131000 + "1"]), ("a long word behind", ["run", "1", "x" * 131000]), ("many words", ["check"] * 20000), ("many empty words", [""] * 20000)):
            with self.subTest(name):
                stream = self.file(TEXT)
                self.gives(2, b"", *words, stdin=stream)
                self.assertEqual(offset(stream), 0)

    def test_the_name_of_the_program(self):
        """It is no word, whatever it is."""
        for name in "", "check", "/", "x" * 131000, "\U0001f600", b"/tmp/caf\xe9/ia64_cli":
            with self.subTest(name[:20]):
                self.gives(1, VIOLATED, "check", stdin=self.file(HAZARD), name=name)

    def test_the_environment(self):
        for name, environment in (
                ("empty", {}), ("large", {f"A{number}": "x" * 130000 for number in range(10)}),
                ("of many", {f"A{number}": "" for number in range(50000)}), ("no UTF-8", {b"\xff": b"\xff"}), ("another language", {"LC_ALL": "tr_TR.UTF-8", "LANG": "tr_TR.UTF-8"})):
            with self.subTest(name):
                self.gives(1, VIOLATED, "check", stdin=self.file(HAZARD), environment=environment)

    def test_memory(self):
        """From the least memory with which the program begins, up to where it answers, it says that memory ran out, and
        writes nothing."""
        def limited(limit, *words, content=b""):
            with contextlib.suppress(OSError):      # the system can't begin it
                return self.outcome(*words, stdin=self.file(content), limits=[(resource.RLIMIT_AS, limit)])
            return None, b"", b""
        ran_out, step = (7, b"", b""), 1 << 15
        least = next(limit for limit in range(step, 1 << 30, step) if limited(limit) in (ran_out, (2, b"", b"")))
        for words, content, wanted in (
                (["check"], 1000 * TEXT, (0, ACCEPTED)), (["wrap"], BUNDLES, (0, IMAGE)), (["wrap"], bytes(LIMIT + 1), (4, b"")),
                (["run", "9"], LOOP, (8, looped(9))), (["trial", "1", "1"], b"", (0, TRIAL)), ([], b"", (2, b""))):
            with self.subTest(words, wanted=wanted[0]):
                limit, got = least, ran_out
                while got == ran_out:
                    got = limited(limit, *words, content=content)
                    limit += max(step, limit // 32)
                self.assertEqual(got, (*wanted, b""), limit)

    def test_a_small_stack(self):
        """256 kibibytes are enough."""
        for words, content, status in (
                (["check"], 4096 * TEXT, 0), (["build"], 4096 * TEXT, 0), (["show"], IMAGE, 0), (["list"], IMAGE, 0), (["wrap"], BUNDLES, 0),
                (["run", "9"], LOOP, 8), (["watch", "9"], LOOP, 8), (["trace", "9", "9"], LOOP, 8), (["groups", "9", "1"], LOOP, 8),
                (["trial", "1", "4096"], b"", 0)):
            with self.subTest(words):
                got, _, said = self.outcome(*words, stdin=self.file(content), limits=[(resource.RLIMIT_STACK, 1 << 18)], environment={})
                self.assertEqual((got, said), (status, b""))


class Wrapper(Streams):
    """`./ia64` on the built program, on one that is kept without a proof, and without one, where a stand-in for `rt` answers.
    All have the program's statuses and bytes, and say on standard error what a status means that prints nothing."""

    # As `rt try` it takes nothing of a writer that pauses and of a terminal, and says the same whether its output was taken or not.
    RT = """#!/bin/bash
if [ "$1" = version ]; then exit; fi
shift 2
if [ -f /dev/stdin ]; then cat; fi > "$OUTLINE/input"
"$PROGRAM" "$@" < "$OUTLINE/input" > "$OUTLINE/output"
echo "run=ended status=$? runners=1 proved=no" >&2
cat "$OUTLINE/output" 2> /dev/null
"""
    READ_FAULT = b"ia64: reading standard input failed; nothing was written\n"
    WRITE_FAULT = b"ia64: writing standard output failed; only a front of the output was written\n"
    TERMINAL = b"ia64: standard input is a terminal: type the input and end it with Ctrl-D, or call ia64 check FILE\n"
    NOT_BUILT = (b"ia64: the program is not built from the sources as they are: nothing is proved of this answer. "
                 b"./build proves and builds it\n")
    NOT_KEPT = (b"ia64: compiling the program without a proof, once for these sources and this kit: 40 to 90 seconds\n"
                b"ia64: a program without a proof can't be kept: the kit %s isn't laid out as it is looked for\n"
                b"ia64: so it is compiled for each answer anew\n")

    def setUp(self):
        super().setUp()
        self.outline, self.temporary = self.folder / "outline", self.folder / "temporary"
        self.program = self.outline / "crates" / "ia64_cli" / "out" / "ia64_cli"
        for folder in self.program.parent, self.temporary:
            folder.mkdir(parents=True)
        self.wrapper = shutil.copy(HERE / "ia64", self.outline)
        self.sources_sum, kept = self.outline / "tools" / "sources_sum", self.outline / "out" / "unproved"
        for folder in self.sources_sum.parent, kept:
            folder.mkdir(parents=True)
        for name in "tools/sources_sum", "tools/kit_mirror", "tools/compile_unproved", "crates.txt":
            shutil.copy(HERE / name, self.outline / name)
        shutil.copytree(HERE / "front", self.outline / "front", ignore=shutil.ignore_patterns("tests", "__pycache__"))
        self.standing_in("rt", self.RT)
        self.environment = {**os.environ, "PATH": f"{self.outline}:{os.environ['PATH']}", "TMPDIR": str(self.temporary),
                            "PROGRAM": PROGRAM, "OUTLINE": str(self.outline), "XDG_CACHE_HOME": str(self.folder / "cache")}
        for name in "IA64_PROVED", "IA64_PROGRAM":
            self.environment.pop(name, None)
        self.compiled = kept / "-".join(["program", *self.summed().split()])

    def standing_in(self, name, script):
        path = self.outline / name
        path.write_text(script)
        path.chmod(0o755)
        return path

    def summed(self, *words):
        """What tools/sources_sum prints."""
        return subprocess.run([self.sources_sum, *words], env=self.environment, stdout=subprocess.PIPE, check=True, text=True).stdout

    def build(self, program):
        """Puts a program where a built one stands, and has it count as built."""
        self.program.symlink_to(program)
        self.summed(str(self.program), *self.summed().split())

    def built_or_not(self):
        """What is said in front of an answer: nothing of a built program, then of one that is kept, and then of none."""
        self.build(PROGRAM)
        yield b""
        self.program.unlink()
        self.compiled.symlink_to(PROGRAM)
        yield self.NOT_BUILT
        self.compiled.unlink()
        yield self.NOT_BUILT + self.NOT_KEPT % os.fsencode(self.outline.parent)
        self.assertEqual(list(self.temporary.iterdir()), [])

    def call(self, *words, **how):
        return self.start(*words, call=self.wrapper, environment=self.environment, **how)

    def slow(self):
        """A pipe whose writer pauses."""
        reader, writer = self.pipe()
        self.start("-c", 'sleep 0.2; printf "%s" "$0"', HAZARD, call="/bin/sh", streams=(CLOSED, writer, CLOSED))
        self.close(writer)
        return reader

    def test_streams(self):
        for before in self.built_or_not():
            for name, words, stdin, stdout, status, wanted, says in (
                    ("closed", ["check"], lambda: CLOSED, self.file, 5, b"", self.READ_FAULT),
                    ("a folder", ["check"], lambda: self.opened("/"), self.file, 5, b"", self.READ_FAULT),
                    ("a pipe that doesn't wait", ["check"], lambda: self.given(TEXT, ends=False, waits=False), self.file, 5, b"", self.READ_FAULT),
                    ("a slow pipe", ["check"], self.slow, self.file, 1, VIOLATED, b""),
                    ("no input", ["trial", "1", "1"], lambda: CLOSED, self.file, 0, TRIAL, b""),
                    ("a closed output", ["check"], lambda: self.file(TEXT), lambda: CLOSED, 6, None, self.WRITE_FAULT),
                    ("a full output", ["check"], lambda: self.file(TEXT), lambda: self.opened("/dev/full", os.O_WRONLY), 6, None, self.WRITE_FAULT),
                    ("an output that nobody reads", ["check"], lambda: self.file(TEXT), self.unread, 6, None, self.WRITE_FAULT),
                    ("neither", ["check"], lambda: CLOSED, lambda: CLOSED, 5, None, self.READ_FAULT)):
                with self.subTest(name, before=before):
                    stdin, stdout, error = stdin(), stdout(), self.file()
                    got = self.call(*words, streams=(stdin, stdout, error)).wait(SECONDS)
                    self.assertEqual((got, written(error)), (status, before + says))
                    if wanted is not None:
                        self.assertEqual(written(stdout), wanted)
                    if name != "a slow pipe":   # with nothing to say it on
                        self.assertEqual(self.call(*words, streams=(stdin, stdout, CLOSED)).wait(SECONDS), status)

    def unread(self):
        """A pipe that nobody reads."""
        reader, writer = self.pipe()
        self.close(reader)
        return writer

    def test_a_limit_of_a_file(self):
        """The signal that ends the program shows in the status, as a shell gives it."""
        self.build(PROGRAM)
        out, error = self.file(), self.file()
        call = self.call("wrap", streams=(self.file(BUNDLES), out, error), limits=[(resource.RLIMIT_FSIZE, 1000)])
        self.assertEqual((call.wait(SECONDS), written(out)), (128 + signal.SIGXFSZ, IMAGE[:1000]))

    def test_what_is_not_read(self):
        """Words that are no command, and `trial`, leave the input as it is."""
        for before in self.built_or_not():
            for words, status in (
                    ([], 2), (["run"], 2), (["watch", "0"], 2), (["run", "10000001"], 2), (["check", "x"], 2), (["Check"], 2), (["--help"], 0),
                    (["trace", "0", "0"], 2), (["trace", "0", "101"], 2), (["trace", "01", "1"], 2), (["trace", "10000001", "1"], 2),
                    (["groups", "5"], 2), (["groups", "10000001", "0"], 2), (["groups", "5", "00"], 2), (["groups", "5", "18446744073709551616"], 2),
                    (["trial", "1", "4097"], 2), (["trial", "18446744073709551616", "1"], 2), (["trial", "18446744073709551615", "1"], 0)):
                with self.subTest(words, before=before):
                    stream, out = self.file(TEXT), self.file()
                    self.assertEqual((self.call(*words, streams=(stream, out, out)).wait(SECONDS), offset(stream)), (status, 0))

    def test_help(self):
        """It fails where it isn't taken."""
        for stream in CLOSED, self.opened("/dev/full", os.O_WRONLY):
            self.assertEqual(self.call("--help", streams=(CLOSED, stream, CLOSED)).wait(SECONDS), 2)

    def test_other_statuses(self):
        """A status of the program comes through, with what it wrote, and so does one that no document knows."""
        stand_in = self.standing_in("stand_in", "#!/bin/sh\ncat\nexit $STATUS\n")
        self.build(stand_in)
        for status, says in ((0, b""), (1, b""), (7, b"ia64: out of memory; nothing was written\n"), (8, b""), (9, b""), (99, b"")):
            with self.subTest(status):
                self.environment["STATUS"] = str(status)
                self.gives(status, TEXT, "check", stdin=self.file(TEXT), call=self.wrapper, environment=self.environment, says=says)

    def test_a_terminal(self):
        for before in self.built_or_not():
            with self.subTest(before=before):
                user, program = self.terminal()
                out, error = self.file(), self.file()
                os.write(user, HAZARD + b"\x04")
                call = self.call("check", streams=(program, out, error))
                self.assertEqual((call.wait(SECONDS), written(out), written(error)),
                                 (1, VIOLATED, self.TERMINAL + before))

    def test_ctrl_c(self):
        """While the input is read and, without a program, while `rt` is at work: nothing goes on, and no file is left."""
        self.standing_in("rt", '#!/bin/sh\nif [ "$1" = version ]; then exit; fi\n: > "$OUTLINE/working"\nexec sleep 60\n')
        working = self.outline / "working"
        for before in self.built_or_not():
            for typed, at_work in ((b"{\n", lambda: waiting(program) == 0), *([(b"\x04", working.exists)] if b"anew" in before else [])):
                with self.subTest(typed, before=before):
                    user, program = self.terminal()
                    out = self.file()
                    os.write(user, typed)
                    until(lambda: typed == b"\x04" or waiting(program))
                    call = self.call("check", streams=(program, out, out), terminal=True)
                    until(at_work)
                    os.write(user, b"\x03")
                    self.assertIn(call.wait(SECONDS), (-signal.SIGINT, 128 + signal.SIGINT))
                    self.assertEqual(written(out), self.TERMINAL + before)
                    until(lambda: not session(call))


def main():
    if len(sys.argv) > 1:
        globals()["PROGRAM"] = os.path.abspath(sys.argv[1])
    if not os.access(PROGRAM, os.X_OK):
        sys.exit(f"try_streams: {PROGRAM} is not built")
    suite = unittest.defaultTestLoader.loadTestsFromModule(sys.modules[__name__])
    result = unittest.TextTestRunner(verbosity=0).run(suite)
    wrong = {test.id().split(" ")[0] for test, _ in result.failures + result.errors}
    skipped = {test.id().split(" ")[0]: why for test, why in result.skipped}
    print(f"try_streams: {result.testsRun - len(wrong | skipped.keys())} passed, {len(wrong)} failed"
          + "".join(f"; skipped in {name.rpartition('.')[2]}: {why}" for name, why in skipped.items()))
    return 1 if wrong else 0


if __name__ == "__main__":
    sys.exit(main())
