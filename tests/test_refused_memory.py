"""Refuses the program memory, one request after the other, on every command: python3 -m unittest.

Where a request is refused, the status is 5 and what was written is a front of the whole text: nothing, but for the
lines of a schedule's first events or of a gateway's first requests, and the envelopes of the first draws of a
challenge. A shard that serves asks for memory before it takes a byte, and never after. What a gateway and a challenge
write is more than the memory that they may take. The program is the variable WALRUS, or else
crates/walrus/out/walrus; a C compiler makes the library that refuses. With the variable REFUSE_ALL each request of each
run is refused, of which there are thousands.
"""
import hashlib
import os
import pathlib
import random
import resource
import shutil
import subprocess
import sys
import tempfile
import unittest

TOP = pathlib.Path(__file__).resolve().parents[1]
sys.path.insert(0, str(TOP / "hostile"))

import challenges
import corpus
import forms
import images

BUILT = TOP / "crates" / "walrus" / "out" / "walrus"
PROGRAM = os.path.abspath(os.environ.get("WALRUS") or BUILT)
COMPILER = shutil.which("cc") or shutil.which("clang")
NAMES = shutil.which("nm") or shutil.which("llvm-nm")
NO_MEMORY = 5
ROOM = 96 << 20  # the bytes of address space of a run whose text is longer
GIVERS = {  # the functions of the C library that give memory, but for `reallocarray`, which asks `realloc`
    "malloc", "calloc", "realloc", "memalign", "aligned_alloc", "posix_memalign", "valloc", "pvalloc", "mmap", "mmap64",
    "mremap", "brk", "sbrk", "syscall"}


def setUpModule():
    """Makes the library that refuses."""
    global FOLDER, LIBRARY
    if COMPILER is None:
        raise unittest.SkipTest("there is no C compiler, so no memory is refused")
    FOLDER = tempfile.TemporaryDirectory()
    LIBRARY = compiled("refuse", "-shared", "-fPIC", "-O1")


def tearDownModule():
    FOLDER.cleanup()


def compiled(name, *options):
    """What the C file of this name becomes."""
    made = os.path.join(FOLDER.name, name)
    subprocess.run([COMPILER, *options, "-o", made, TOP / "tests" / f"{name}.c"], check=True)
    return made


def names(kind, path):
    """The names of functions that a program or library takes from others, or gives them, as `kind` says."""
    told = subprocess.run([NAMES, "-D", f"--{kind}-only", path], check=True, capture_output=True, encoding="utf-8")
    return {line.split()[-1].partition("@")[0] for line in told.stdout.splitlines()}


def run(words, content, refused=None, program=PROGRAM):
    """The status, the text, how much was taken, and how many requests for memory there were, where that is counted."""
    environment = {} if refused is None else {"LD_PRELOAD": LIBRARY, "REFUSE": str(refused)}
    with tempfile.TemporaryFile() as source, tempfile.TemporaryFile() as count:
        source.write(content)
        source.seek(0)
        ended = subprocess.run([program, *words], stdin=source, capture_output=True, timeout=60,
                               pass_fds=[count.fileno()], env=environment | {"COUNT": str(count.fileno())})
        taken = os.lseek(source.fileno(), 0, os.SEEK_CUR)
        count.seek(0)
        requests = int(count.read() or 0)
    if ended.stderr:
        raise AssertionError(f"{words} with request {refused} refused: on standard error: {ended.stderr[:200]}")
    return ended.returncode, ended.stdout, taken, requests


def stream(payloads):
    return forms.join([(0, payload) for payload in payloads])


def schedule(name):
    return (TOP / "examples" / "schedules" / f"{name}.json").read_bytes()


def requests_of(subject, shard):
    """A shard's day: a blob is registered, stored, acknowledged and read."""
    sliver = subject.sliver(forms.SECONDARY, subject.held(forms.SECONDARY, shard))
    return stream([
        bytes([forms.REGISTER_ENTRY]) + subject.identifier + forms.number(9, 4), subject.metadata,
        subject.sliver(forms.PRIMARY, shard), sliver, bytes([forms.ACK]) + subject.identifier,
        bytes([forms.READ]) + subject.identifier,
        forms.target(forms.SYMBOL, subject.identifier, forms.PRIMARY, 0)])


def audit_of(subject, count):
    """What asks the shard of number f, what it holds, and its claims."""
    name, shard, beacon = subject.identifier, subject.faults, bytes(32)
    held = [subject.metadata, *[subject.sliver(axis, subject.held(axis, shard)) for axis in (0, 1)]]
    drawn = [challenges.draw(beacon, name, subject.shards, shard, number) for number in range(count)]
    claims = [subject.opening(1 - axis, place, subject.held(axis, shard)) for axis, place in drawn]
    return [name.hex(), str(shard), beacon.hex(), str(count)], held, claims


def cases():
    """The words and the input of each command, with the status of a run with memory."""
    honest, long = SUBJECTS.honest[0], max(SUBJECTS.honest, key=lambda subject: len(subject.blob))
    false = next(subject for subject in SUBJECTS.false if subject.proofs)
    axis = false.proofs[0][33]
    index = forms.value_of(false.proofs[0][34:36])
    for subject in (honest, long):
        words = [str(subject.faults), "--format", str(subject.format)]
        slivers = [subject.metadata, *subject.slivers()]
        yield ["id", *words], subject.blob, 0
        yield ["encode", *words], subject.blob, 0
        yield ["read", subject.identifier.hex()], stream(slivers), 0
        yield ["read", subject.identifier.hex()], stream(slivers[1:] + slivers[:1]), 0
        yield ["read", subject.identifier.hex()], stream(slivers[:1]), 4
        for side in (forms.PRIMARY, forms.SECONDARY):
            opened = [subject.metadata, *subject.openings(side, 1)]
            yield ["recover", subject.identifier.hex(), forms.AXES[side], "1"], stream(opened), 0
        yield ["serve", str(subject.faults), "1", "--blobs", "2", "--pages", "60"], requests_of(subject, 1), 0
        parts = [subject.metadata, *subject.slivers()]
        image = images.image_of(10**6, parts)[1]
        yield ["image", str(len(image))], stream(parts), 0
        yield ["image", "100"], stream(parts), 4
        yield ["unpack"], image, 0
        yield ["bundle", str(subject.faults)], stream(parts[1:3]), 0
        asked, held, claims = audit_of(subject, 20)
        yield ["challenge", *asked], stream(held), 0
        yield ["challenge", *asked], stream(held[:2]), 4
        yield ["verify", *asked], stream([subject.metadata, *claims]), 0
        yield ["verify", *asked], stream([subject.metadata, *claims[::-1]]), 3
        gets = [forms.get(subject.identifier, 0, len(subject.blob)), forms.get(subject.identifier, 1, 2)]
        yield ["gateway", "2"], stream([*slivers, *gets, *slivers[:1], forms.get(bytes(32), 0, 1)]), 0
    packed, columns = SUBJECTS.bundles[0], range(3)
    for told in ([packed.sliver(forms.SECONDARY, it) for it in columns],
                 [opening for it in columns for opening in packed.openings(forms.SECONDARY, it)]):
        yield ["member", packed.identifier.hex(), "1"], stream([packed.metadata, *told]), 0
    yield ["member", packed.identifier.hex(), "1"], stream([packed.metadata]), 4
    yield ["unpack"], b"", 8
    yield ["bundle", "1"], stream([b""] * 3), 4
    yield ["read", false.identifier.hex()], stream([false.metadata, *false.slivers()]), 3
    yield ["read", false.identifier.hex()], stream([false.metadata, *false.proofs]), 3
    yield ["read", honest.identifier.hex()], b"X", 8
    yield ["recover", false.identifier.hex(), forms.AXES[axis], str(index)], \
        stream([false.metadata, *false.openings(axis, index)]), 3
    yield ["check", false.identifier.hex()], stream([false.metadata, *false.proofs]), 3
    yield ["check", honest.identifier.hex()], stream([honest.metadata, *false.proofs]), 4
    for name in ("honest", "handover", "bad_encoding", "expiry", "too_many_faults"):
        yield ["replay"], schedule(name), 0
    yield ["replay"], b"[" * 200, 8
    yield ["sample", "1"], b"", 0
    yield ["id", "0"], b"", 2


def chosen(requests):
    """Which requests are refused: all where the variable REFUSE_ALL stands, else of many the first, the last and some."""
    if requests <= 40 or "REFUSE_ALL" in os.environ:
        return range(1, requests + 1)
    return sorted({*range(1, 21), *range(requests - 9, requests + 1), *range(20, requests, requests // 10)})


class Refusing(unittest.TestCase):
    def test_each_way_to_ask(self):
        """A C program that asks once in each way is refused what it is told, and nothing else."""
        program, ways = compiled("asks", "-O0"), 10
        for refused in range(ways + 2):
            with self.subTest(refused=refused):
                given = b"".join(b"0" if way == refused else b"1" for way in range(1, ways + 1))
                status, text, _, requests = run([], b"", refused, program)
                self.assertEqual((status, text, requests), (0, given, ways))


@unittest.skipUnless(os.path.exists(PROGRAM), "the program is not built, so it is refused no memory")
class RefusedMemory(unittest.TestCase):
    @classmethod
    def setUpClass(cls):
        """Makes what the commands are given."""
        global SUBJECTS
        SUBJECTS = corpus.Corpus(lambda words, content: run(words, content)[:2], random.Random(1))

    @unittest.skipUnless(NAMES, "there is no nm, which tells how the program asks for memory")
    def test_each_request_can_be_refused(self):
        """The program asks in no way that tests/refuse.c does not see."""
        asks = names("undefined", PROGRAM) & GIVERS
        self.assertIn("malloc", asks)
        self.assertEqual(asks - names("defined", LIBRARY), set())

    def refuse(self, words, content, whole, number):
        """The run in which this request is refused."""
        status, text, taken, _ = run(words, content, number)
        self.assertEqual(status, NO_MEMORY)
        self.assertEqual(text, whole[:len(text)])
        if words[0] == "serve":
            self.assertEqual((text, taken), (b"", 0))
        elif words[0] in ("replay", "gateway"):
            self.assertEqual(text[-1:], b"\n" if text else b"")
        elif words[0] == "challenge":
            self.assertEqual(forms.split(text)[1], len(text))
        else:
            self.assertEqual(text, b"")
        if words[0] in ("gateway", "challenge"):
            self.assertLess(len(text), len(whole))

    def test_each_command(self):
        tried = {}
        for words, content, wanted in cases():
            status, whole, _, requests = run(words, content, 0)
            with self.subTest(words=words):
                self.assertEqual(status, wanted)
                self.assertEqual(run(words, content)[:2], (status, whole))
            for number in chosen(requests):
                with self.subTest(words=words, refused=number):
                    self.refuse(words, content, whole, number)
            tried[words[0]] = tried.get(words[0], 0) + len(chosen(requests))
        print("requests refused:", ", ".join(f"{name} {count}" for name, count in tried.items()))


def digested(words, content):
    """The status, the length and the digest of the text of a run that may take no more than the room."""
    def limit():
        resource.setrlimit(resource.RLIMIT_AS, (ROOM, ROOM))

    length, digest = 0, hashlib.sha256()
    with tempfile.TemporaryFile() as source:
        source.write(content)
        source.seek(0)
        with subprocess.Popen([PROGRAM, *words], stdin=source, stdout=subprocess.PIPE, preexec_fn=limit) as ended:
            while piece := ended.stdout.read(1 << 20):
                length += len(piece)
                digest.update(piece)
    return ended.returncode, length, digest.hexdigest()


@unittest.skipUnless(os.path.exists(PROGRAM), "the program is not built, so its memory is not limited")
class LimitedMemory(unittest.TestCase):
    """A text that is longer than the room is written all the same: of each line or envelope the memory is let go."""

    @classmethod
    def setUpClass(cls):
        """Makes the envelopes of a blob of one MiB."""
        cls.blob = random.Random(7).randbytes(1 << 20)
        cls.identifier = run(["id", "1"], cls.blob)[1][:64].decode()
        cls.encoded = run(["encode", "1"], cls.blob)[1]

    def test_many_requests_for_one_blob(self):
        """Each of 200 requests is for the whole blob, which is read once."""
        request = stream([forms.get(bytes.fromhex(self.identifier), 0, len(self.blob))])
        line = b" range " + self.blob.hex().encode() + b"\n"
        told, count = hashlib.sha256(b"miss" + line), 200
        for _ in range(count - 1):
            told.update(b"hit" + line)
        self.assertGreater(count * len(line), 2 * ROOM)
        self.assertEqual(digested(["gateway", "1"], self.encoded + request * count),
                         (0, count * (len(line) + 3) + 1, told.hexdigest()))

    def test_many_draws(self):
        """A thousand draws, of symbols of 174,764 bytes; the first fifty are the same whatever follows."""
        asked = ["challenge", self.identifier, "0", "00" * 32]
        status, first, *_ = run([*asked, "50"], self.encoded)
        self.assertEqual((status, len(forms.split(first)[0])), (0, 50))
        status, length, told = digested([*asked, "1000"], self.encoded)
        self.assertEqual((status, length), (0, len(first) * 20))
        self.assertGreater(length, ROOM)
        self.assertEqual(told, self.whole_answer(asked, first))

    def whole_answer(self, asked, first):
        """The digest of all draws, each of which shows one of the symbols of the first ones."""
        name, shown = bytes.fromhex(asked[1]), {}
        for number, (_, payload) in enumerate(forms.split(first)[0]):
            shown[challenges.draw(bytes(32), name, 4, 0, number)] = payload
        told = hashlib.sha256()
        for number in range(1000):
            payload = shown[challenges.draw(bytes(32), name, 4, 0, number)]
            told.update(forms.join([(0, payload)]))
        return told.hexdigest()


if __name__ == "__main__":
    unittest.main()
