"""Tests of the script ./walrus, which builds the program and runs it, with a stand-in for rt: python3 -m unittest."""
import os
import pathlib
import shutil
import subprocess
import tempfile
import unittest

TOP = pathlib.Path(__file__).resolve().parents[1]
FLAGS = "fpu pni ssse3 cx16 sse4_1 sse4_2 movbe popcnt xsave avx f16c lahf_lm abm bmi1 avx2 bmi2 fma"
CRATES = "wal_shape:\nwal_gf:\nwal_code: wal_gf\nwalrus: wal_code wal_shape\nwalrus_c staticlib: wal_code\n"
RT = """#!/bin/sh
case $1 in
    lib)
        crate=$(basename "$PWD")
        [ -z "${FAILS-}" ] || { printf 'src/run.rt:1:1: error: %s\n' "$FAILS"; exit 1; }
        printf 'fn %s::run: proved\n' $crate
        if [ $crate = walrus_c ]; then
            echo "$*" >>"$0.calls"
            mkdir -p out && echo 'unsigned char walrus_run(void) { return 0; }' | cc -fPIC -xc -c -o out/one.o -
            rm -f out/libwalrus_c.a && ar rc out/libwalrus_c.a out/one.o
        fi
        sleep "${SLEEPS-0}"
        exit 0 ;;
esac
[ $1 = doc ] && echo "$(dirname "$0")/START-HERE.md" && exit
[ $1 = try ] && echo "tried in $(basename "$PWD"): $* of $(cat)" && exit "${STATUS-0}"
shift 3 # run --jobs N
echo "run $*" >>"$0.calls"
cpu=default
[ "$1" = -- ] || cpu=${1#--cpu=}
[ "$cpu" != "${LACKS-}" ] || { echo "clang: error: unknown target CPU"; exit 1; }
mkdir -p out
printf '#!/bin/sh\\n[ "$1" = tunables ] && echo "$GLIBC_TUNABLES" && exit\\necho "it runs $* for %s"\\n' $cpu >out/walrus
chmod +x out/walrus
"""


class Script(unittest.TestCase):
    """A folder with the script, and what it says there."""

    def setUp(self):
        folder = tempfile.TemporaryDirectory()
        self.addCleanup(folder.cleanup)
        self.top = pathlib.Path(folder.name)
        self.source = self.top / "crates" / "walrus" / "src" / "main.rt"
        self.source.parent.mkdir(parents=True)
        self.source.touch()
        (self.top / "crates.txt").write_text(CRATES)
        shutil.copy(TOP / "crates" / "prove.py", self.top / "crates")
        for name in ("wal_shape", "wal_gf", "wal_code"):
            (self.top / "crates" / name / "src").mkdir(parents=True)
        self.cpuinfo = self.top / "cpuinfo"
        script = (TOP / "walrus").read_text()
        self.assertEqual(script.count("/proc/cpuinfo"), 1)
        (self.top / "walrus").write_text(script.replace("/proc/cpuinfo", str(self.cpuinfo)))
        (self.top / "walrus").chmod(0o755)
        self.put_on(FLAGS)
        (self.top / "bin").mkdir()
        (self.top / "bin" / "rt").write_text(RT)
        (self.top / "bin" / "rt").chmod(0o755)

    def put_on(self, flags):
        """From now on the processor has these flags."""
        self.cpuinfo.write_text(f"processor\t: 0\nflags\t\t: {flags}\nbugs\t\t:\n" * 2)

    def start(self, *words, **variables):
        path = {"PATH": f"{self.top}/bin:{os.environ['PATH']}"}
        known = {name: value for name, value in os.environ.items() if name not in ("WALRUS_CPU", "GLIBC_TUNABLES")}
        how = {"stdin": subprocess.DEVNULL, "stdout": subprocess.PIPE, "stderr": subprocess.PIPE, "text": True}
        return subprocess.Popen([self.top / "walrus", *words], env={**known, **path, **variables}, **how)

    def says(self, **variables):
        """What the program says; the processor that it was built for is the last word."""
        return self.start("id", "1", **variables).communicate()[0]

    def change_source(self):
        """Gives a source a time behind those of what was built: clocks of file systems go in steps of milliseconds."""
        built = (self.top / "crates" / "walrus" / "out" / "walrus", self.top / "clients" / "c" / "out" / "libwalrus.a")
        latest = max(it.stat().st_mtime_ns for it in built if it.exists())
        os.utime(self.source, ns=(latest + 1, latest + 1))

    def calls(self):
        return (self.top / "bin" / "rt.calls").read_text().splitlines()


class Tried(Script):
    """The program before any proof."""

    def try_it(self, **variables):
        child = self.start("--try", "id", "1", **variables)
        said, told = child.communicate()
        return child.returncode, said, told

    def test_the_words_and_the_input_reach_rt_and_its_status_comes_back(self):
        self.assertEqual(self.try_it()[:2], (0, "tried in walrus: try --seconds 300 -- id 1 of \n"))
        self.assertEqual(self.try_it(STATUS="7")[0], 7)

    def test_it_says_that_nothing_is_proved_and_leaves_no_program(self):
        self.assertIn("nothing that this prints is proved", self.try_it()[2])
        self.assertFalse((self.top / "crates" / "walrus" / "out").exists())


class Building(Script):
    """When it builds, and what it says of that."""

    def test_it_builds_where_it_must_and_says_how_far_it_is(self):
        said, told = self.start("id", "1").communicate()
        self.assertEqual(said, "it runs id 1 for x86-64-v3\n")
        lines = told.splitlines()
        self.assertRegex(lines[0], "building for x86-64-v3; a first proof takes twenty minutes or more")
        self.assertRegex(lines[1], r"1 of 4 crates done, wal_(gf|shape) the last$")
        self.assertRegex(lines[-1], r"3 of 4 crates done, wal_(code|shape) the last$")
        self.assertEqual(list(self.top.glob(".proving-*")), [])
        self.assertEqual(self.start("id", "2").communicate(), ("it runs id 2 for x86-64-v3\n", ""))
        self.change_source()
        self.assertEqual(self.start("id", "3").communicate()[0], "it runs id 3 for x86-64-v3\n")
        self.assertEqual(self.calls(), ["run --cpu=x86-64-v3 -- id 1"] * 2)

    def test_the_program_has_large_pages_unless_the_environment_says_otherwise(self):
        self.says()
        told = [self.start("tunables", **more).communicate()[0] for more in ({}, {"GLIBC_TUNABLES": "glibc.malloc.check=0"})]
        self.assertEqual(told, ["glibc.malloc.hugetlb=1\n", "glibc.malloc.check=0\n"])

    def test_two_at_once_build_once(self):
        both = [self.start("id", word, SLEEPS="0.5") for word in "12"]
        ended = [process.communicate() for process in both]
        self.assertEqual([said for said, _ in ended], [f"it runs id {word} for x86-64-v3\n" for word in "12"])
        self.assertEqual(sum("waiting for it" in told for _, told in ended), 1)
        self.assertEqual(len(self.calls()), 1)

    def test_a_failed_build_ends_with_what_matters(self):
        process = self.start("id", "1", FAILS="a goal is open")
        said, told = process.communicate()
        self.assertEqual((process.returncode, said), (1, ""))
        self.assertEqual(told.splitlines()[-3], "src/run.rt:1:1: error: a goal is open")
        self.assertRegex(told.splitlines()[-2], "wal_(gf|shape) failed$")
        self.assertRegex(told.splitlines()[-1], "the build failed; all that it said stands in .*build.log$")
        self.assertNotIn("proved", told.replace("first proof", ""))
        self.assertFalse((self.top / "bin" / "rt.calls").exists())


@unittest.skipUnless(shutil.which("cc"), "there is no C compiler cc")
class Library(Script):
    """What ./walrus --library builds, over an archive of a stand-in."""

    def setUp(self):
        super().setUp()
        shutil.copytree(TOP / "clients" / "c", self.top / "clients" / "c", ignore=shutil.ignore_patterns("out"))
        (self.top / "crates" / "walrus_c" / "src").mkdir(parents=True)
        (self.top / "bin" / "c").mkdir()
        heap = self.top / "bin" / "c" / "heap.o"
        subprocess.run(["cc", "-xc", "-c", "-o", heap, "-"], input=b"int heap_of_the_kit;\n", check=True)
        subprocess.run(["ar", "rc", heap.with_name("liblibc_c.a"), heap], check=True)
        self.out = self.top / "clients" / "c" / "out"

    def test_it_is_built_where_it_must_be(self):
        said, told = self.start("--library").communicate()
        self.assertEqual(said, "")
        self.assertRegex(told.splitlines()[-1], r"2 of 3 crates done, wal_code the last$")
        files = ["build.log", "libwalrus.a", "libwalrus.a.cpu", "libwalrus.so", "libwalrus.so.0", "walrus.pc"]
        self.assertEqual(sorted(file.name for file in self.out.iterdir()), files)
        self.assertEqual(self.start("--library").communicate(), ("", ""))
        self.assertEqual(len(self.calls()), 1)
        self.assertRegex(self.calls()[0], r"^lib --jobs \d+ --cpu=x86-64-v3$")
        self.change_source()
        self.start("--library").communicate()
        self.assertEqual(len(self.calls()), 2)

    def test_it_exports_its_names_alone(self):
        self.start("--library").communicate()
        names = subprocess.run(["nm", "-D", "--defined-only", self.out / "libwalrus.so"], capture_output=True, text=True)
        self.assertIn(" walrus_run", names.stdout)
        self.assertNotIn("heap_of_the_kit", names.stdout)
        held = subprocess.run(["nm", self.out / "libwalrus.a"], capture_output=True, text=True).stdout
        self.assertEqual({line.split()[-1] for line in held.splitlines() if " " in line}, {"walrus_run", "heap_of_the_kit"})

    def test_without_a_compiler_it_says_so(self):
        process = self.start("--library", CC="no-such-compiler")
        _, told = process.communicate()
        self.assertEqual(process.returncode, 127)
        self.assertRegex(told, "there is no C compiler no-such-compiler to link the library with")


class Processor(Script):
    """For which processor it builds."""

    def test_another_processor_has_the_default(self):
        self.put_on(FLAGS.replace("avx2", "avx"))
        said, told = self.start("id", "1").communicate()
        self.assertEqual(said, "it runs id 1 for default\n")
        self.assertRegex(told.splitlines()[0], "building for the default processor;")
        self.cpuinfo.unlink()
        self.change_source()
        self.assertEqual(self.says(), "it runs id 1 for default\n")
        self.assertEqual(self.calls(), ["run -- id 1"] * 2)

    def test_a_program_that_does_not_run_here_is_built_again(self):
        self.says()
        self.put_on("fpu")
        self.assertEqual(self.says(), "it runs id 1 for default\n")
        self.put_on(FLAGS)
        self.assertEqual(self.says(), "it runs id 1 for default\n")
        self.assertEqual(len(self.calls()), 2)

    def test_what_the_gate_built_is_used_and_is_for_the_default(self):
        self.says()
        program = self.top / "crates" / "walrus" / "out" / "walrus"
        program.write_text("#!/bin/sh\necho of the gate\n")
        self.assertEqual(self.says(), "of the gate\n")
        self.assertEqual(self.says(WALRUS_CPU="default"), "of the gate\n")
        self.put_on("fpu")
        self.assertEqual(self.says(), "of the gate\n")
        self.assertEqual(len(self.calls()), 1)
        self.put_on(FLAGS)
        self.assertEqual(self.says(WALRUS_CPU="x86-64-v3"), "it runs id 1 for x86-64-v3\n")

    def test_a_build_that_was_broken_off_is_in_doubt(self):
        self.says()
        (self.top / "crates" / "walrus" / "out" / "walrus.cpu").write_text("x86-64-v3 begun\n")
        self.assertEqual(self.says(), "it runs id 1 for x86-64-v3\n")
        self.assertEqual(len(self.calls()), 1)
        self.assertEqual(self.says(WALRUS_CPU="default"), "it runs id 1 for default\n")

    def test_the_variable_is_obeyed(self):
        for _ in "12":
            self.assertEqual(self.says(WALRUS_CPU="default"), "it runs id 1 for default\n")
        for _ in "12":
            self.assertEqual(self.says(WALRUS_CPU="x86-64-v3"), "it runs id 1 for x86-64-v3\n")
        self.put_on("fpu")
        for _ in "12":
            self.assertEqual(self.says(WALRUS_CPU="x86-64-v3"), "it runs id 1 for default\n")
        self.assertEqual(len(self.calls()), 3)
        process = self.start("id", "1", WALRUS_CPU="z80")
        self.assertEqual(process.communicate(), ("", "walrus: WALRUS_CPU is default or x86-64-v3\n"))
        self.assertEqual(process.returncode, 2)

    def test_where_that_build_fails_the_default_is_built(self):
        said, told = self.start("id", "1", LACKS="x86-64-v3").communicate()
        self.assertEqual(said, "it runs id 1 for default\n")
        self.assertIn("the build for x86-64-v3 failed", told)
        self.assertEqual(self.says(), "it runs id 1 for default\n")
        self.assertEqual(self.calls(), ["run --cpu=x86-64-v3 -- id 1", "run -- id 1"])


if __name__ == "__main__":
    unittest.main()
