"""Tests of what pages show beside commands: a conversation, schedules, the client, ncat, a clash, units."""
import contextlib
import hashlib
import json
import pathlib
import re
import shlex
import shutil
import socket
import subprocess
import sys
import tempfile
import time
import unittest

from test_pages import PROGRAM, SECONDS, SIX_WORDS, TOP, make_folder, needs_program


def read_blocks(page, language=""):
    text = (TOP / page).read_text(encoding="utf-8")
    return re.findall(rf"^```{language}\n(.*?)^```$", text, re.DOTALL | re.MULTILINE)


def run(*words, data):
    ran = subprocess.run([PROGRAM, *words], input=data, stdout=subprocess.PIPE, timeout=SECONDS, check=True)
    return ran.stdout


def split(stream):
    """The envelopes of a stream, in hexadecimal digits."""
    envelopes = []
    while stream:
        size = 7 + int.from_bytes(stream[3:7], "big")
        envelopes.append(stream[:size].hex())
        stream = stream[size:]
    return envelopes


def name_parts(blocks):
    """What the conversation tells in words, in hexadecimal digits; a name comes before those that it begins with."""
    metadata, *slivers = split(run("encode", "1", data=SIX_WORDS))
    opening = next(block for block in blocks if block.startswith("12 "))
    return {
        "the envelope of the metadata, but from sender 1": metadata[:2] + "0001" + metadata[6:],
        "the envelope of the metadata": metadata,
        "the envelope of primary sliver 1": slivers[2],
        "the envelope of primary sliver 2": slivers[4],
        "the envelope of secondary sliver 1": slivers[3],
        "and the opening of secondary sliver 3 at cross 1": opening,
    }


def spell(line, parts):
    """The envelope of a line, in hexadecimal digits: behind three spaces stands what it means."""
    text = line[2:].partition("   ")[0]
    for name, digits in parts.items():
        text = text.replace(name, digits)
    return bytes.fromhex(text).hex()


@needs_program
class Blocks(unittest.TestCase):
    def test_the_conversation_of_the_formats(self):
        blocks = read_blocks("docs/FORMATS.md")
        lines = [line for block in blocks if block.startswith("> ") for line in block.splitlines()]
        parts = name_parts(blocks)
        requests = "".join(spell(line, parts) for line in lines if line.startswith("> "))
        wanted = [spell(line, parts) for line in lines if line.startswith("< ")]
        self.assertEqual(split(run("serve", "1", "1", data=bytes.fromhex(requests))), wanted)
        self.assertEqual(len(wanted), 11)

    def test_the_events_of_a_schedule(self):
        schedule, *blocks = read_blocks("docs/SCHEDULES.md", "json")
        events = json.loads("[" + ",".join(re.sub(r"}\n{", "},{", block) for block in blocks) + "]")
        schedule = {**json.loads(schedule), "events": events}
        lines = run("replay", data=json.dumps(schedule).encode()).decode().splitlines()
        self.assertEqual([line.split()[0] for line in lines], [event["do"] for event in events])

    def test_the_client_of_the_examples(self):
        [block] = read_blocks("examples/README.md", "python")
        words = [sys.executable, "-c", block]
        with make_folder({"FILE": SIX_WORDS}) as (folder, _, environment):
            environment["PYTHONPATH"] = str(TOP / "clients" / "python")
            got = subprocess.check_output(words, cwd=folder, env=environment, timeout=SECONDS)
        self.assertEqual(got.decode(), f"{SIX_WORDS.hex()} [0, 1, 2, 3] [0, 1, 2, 3]\n")


class Examples(unittest.TestCase):
    def test_help_and_a_program_that_is_not_there(self):
        for name in ("spread", "one_shard", "bad_encoding", "bundle", "journal", "schedules/run", "network"):
            helped, wrong = [
                subprocess.run([TOP / "examples" / name, word], capture_output=True, text=True, timeout=SECONDS)
                for word in ("--help", "/nowhere")
            ]
            with self.subTest(name=name):
                self.assertEqual((helped.returncode, helped.stdout[:6], helped.stderr), (0, "usage:", ""))
                lines = wrong.stderr.splitlines()
                self.assertEqual((wrong.returncode, wrong.stdout, len(lines)), (1, "", 1))
                self.assertIn("/nowhere: No such file or directory", lines[0])


@needs_program
@unittest.skipUnless(shutil.which("ncat"), "ncat is not here, to which a page gives a shard")
class Connections(unittest.TestCase):
    def test_ncat_serves_a_shard(self):
        """The two lines of the page, at a free port and with the built program."""
        [block] = [block for block in read_blocks("docs/OPERATING.md", "console") if "ncat --listen" in block]
        with socket.socket() as free:
            free.bind(("127.0.0.1", 0))
            port = str(free.getsockname()[1])
        lines = block.replace("4100", port).replace("/usr/local/bin/walrus", PROGRAM).splitlines()
        listening, asking = [line.removeprefix("$ ") for line in lines]
        requests = bytes.fromhex("5700000000002540" + "11" * 32 + "00000001")
        with tempfile.TemporaryDirectory() as folder:
            pathlib.Path(folder, "requests").write_bytes(requests)
            with subprocess.Popen(shlex.split(listening)) as server:
                try:
                    self.wait_for(int(port))
                    subprocess.run(["bash", "-c", asking], cwd=folder, timeout=SECONDS, stderr=subprocess.DEVNULL)
                finally:
                    server.kill()
            answers = pathlib.Path(folder, "answers").read_bytes()
        self.assertEqual(answers, run("serve", "1", "0", data=requests))

    def wait_for(self, port):
        for _ in range(100):
            with contextlib.suppress(OSError), socket.create_connection(("127.0.0.1", port), 1):
                return
            time.sleep(0.05)
        self.fail("ncat does not listen")


@unittest.skipUnless(shutil.which("xxd"), "xxd is not here, which the pages use")
class Clashes(unittest.TestCase):
    def test_the_lines_on_a_clash(self):
        """The lines of the page on a frame of two texts. Their digests differ, as no two texts with one are known."""
        [block] = [block for block in read_blocks("docs/OPERATING.md", "console") if "tail -c 140" in block]
        texts = [bytes([1]) + bytes([filling]) * 64 for filling in (7, 8)]
        frame = b"\x31" + b"".join(bytes([len(text)]) + text for text in texts)
        envelope = b"\x57" + bytes(2) + len(frame).to_bytes(4, "big") + frame
        for name, text in zip(["LEFT", "RIGHT"], texts):
            block = block.replace(f"<<< {name} ", f"<<< {text.hex()} ")
        with tempfile.TemporaryDirectory() as folder:
            pathlib.Path(folder, "answers").write_bytes(b"answers before" + envelope)
            lines = "".join(line.removeprefix("$ ") for line in block.splitlines(keepends=True))
            ran = subprocess.run(["bash", "-c", lines], cwd=folder, capture_output=True, text=True, timeout=SECONDS)
        digests = [f"{hashlib.sha256(text).hexdigest()}  -" for text in texts]
        self.assertEqual(ran.stdout.splitlines(), [envelope.hex(), *digests])


@unittest.skipUnless(shutil.which("systemd-analyze"), "systemd-analyze is not here, which reads units")
class Units(unittest.TestCase):
    def test_systemd_takes_the_units(self):
        page = (TOP / "docs" / "OPERATING.md").read_text(encoding="utf-8")
        units = re.findall(r"^`/etc/systemd/system/(\S+)`:\n\n```ini\n(.*?)^```$", page, re.DOTALL | re.MULTILINE)
        names = ["walrus-front.service", "walrus-shard.socket", "walrus-shard@.service"]
        self.assertEqual([name for name, _ in units], names)
        with tempfile.TemporaryDirectory() as folder:
            paths = [pathlib.Path(folder, name) for name, _ in units]
            for path, (_, text) in zip(paths, units):
                path.write_text(re.sub("/usr/(bin/python3|local/bin/walrus)", "/bin/true", text))
            words = ["systemd-analyze", "verify", *paths]
            ran = subprocess.run(words, stdin=subprocess.DEVNULL, capture_output=True, text=True, timeout=SECONDS)
        self.assertEqual([line for line in ran.stderr.splitlines() if "walrus-" in line], [])


if __name__ == "__main__":
    unittest.main()
