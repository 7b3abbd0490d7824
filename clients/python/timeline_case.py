"""What the tests of pictures of schedules share: the schedules of the examples, their reports, and the program."""
import json
import os
import pathlib
import subprocess
import sys
import unittest
from typing import Any

from walrus_timeline_report import Story, read_report
from walrus_timeline_schedule import read_schedule

HERE = pathlib.Path(__file__).resolve().parent
TOP = HERE.parents[1]
SCHEDULES, HOSTILE = TOP / "examples" / "schedules", TOP / "hostile"
BUILT = TOP / "crates" / "walrus" / "out" / "walrus"
PROGRAM = os.path.abspath(os.environ.get("WALRUS") or BUILT)
NAMES = ["bad_encoding", "expiry", "handover", "honest", "too_many_faults"]
BLOB = "e02bba4bcbf5e38690b9d44c477647094b390c35d101726424629de2f5ab48fa"
needs_program = unittest.skipUnless(os.path.exists(PROGRAM), "the program is not built")


def content(name: str) -> bytes:
    return (SCHEDULES / f"{name}.json").read_bytes()


def report(name: str) -> str:
    return (SCHEDULES / f"{name}.report").read_text()


def tell(schedule: bytes, report: str) -> Story:
    return read_report(read_schedule(schedule)[0], report.encode())


def story(name: str) -> Story:
    return tell(content(name), report(name))


def schedule_of(*events: dict[str, Any], **head: Any) -> bytes:
    """A schedule: the head on its first line, and then each event on one."""
    front = json.dumps({"f": 1, "epoch": 0, "faulty": [3], **head})[:-1]
    return f'{front}, "events": [\n'.encode() + ",\n".join(map(json.dumps, events)).encode() + b"\n]}"


def run_replay(text: bytes) -> tuple[int, str]:
    ran = subprocess.run([PROGRAM, "replay"], input=text, stdout=subprocess.PIPE, timeout=60)
    return ran.returncode, ran.stdout.decode()


def run_script(*words: object, **environment: str) -> subprocess.CompletedProcess[str]:
    command = [sys.executable, "-B", str(HERE / "walrus_timeline.py"), *map(str, words)]
    return subprocess.run(command, capture_output=True, text=True, timeout=60, env={**os.environ, **environment})


FINISH: dict[str, Any] = {"do": "finish"}
READY: dict[str, Any] = {"do": "ready", "shard": 0}
ACK = {"do": "ack", "shard": 0, "id": BLOB}
READ = {"do": "read", "id": BLOB, "replies": [{"true": 0, "at": "now"}]}
BEGIN: dict[str, Any] = {"do": "begin", "faulty": [], "stays": []}
