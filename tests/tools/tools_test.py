"""Tries the tools in tools/, on small repositories and tables that are written here. What has to come was worked out by hand."""
import io
import os
import shutil
import subprocess
import sys
import tempfile
import unittest
from contextlib import redirect_stdout
from pathlib import Path
from unittest.mock import patch

TOP = Path(__file__).resolve().parents[2]
sys.path.insert(0, str(TOP / "tools"))
import check
import counts
import duplicates
import links
import quick
import reckon
import tests


class InFolder(unittest.TestCase):
    """Tests with an empty folder, which goes with each."""

    def setUp(self):
        folder = tempfile.TemporaryDirectory()
        self.addCleanup(folder.cleanup)
        self.here = Path(folder.name)

    def put(self, name, text="", mode=0o644):
        path = self.here / name
        path.parent.mkdir(parents=True, exist_ok=True)
        path.write_text(text)
        path.chmod(mode)
        return path


class Quick(InFolder):
    def fake_rt(self, script):
        """A command `rt` that does what a shell script says where it is asked to try."""
        return str(self.put("bin/rt", f"#!/bin/sh\n[ \"$1\" = try ] || exit 0\n{script}\n", 0o755))

    def built(self, script):
        """What tools/quick.py says and ends with, over a repository of one file, where `rt try` does what the script says."""
        self.put("top/crates.txt", "runtest:\n")
        self.put("top/crates/runtest/src/main.rt", "fn main() {}\n")
        how = {"stdout": subprocess.PIPE, "stderr": subprocess.STDOUT, "text": True, "check": False}
        return subprocess.run([sys.executable, TOP / "tools/quick.py", self.here / "top"], env={**os.environ, "RT": self.fake_rt(script)}, **how)

    def test_the_repository_is_the_one_above_the_folder_where_it_is_called(self):
        self.put("crates.txt")
        self.put("crates/runtest/src/main.rt")
        self.addCleanup(os.chdir, os.getcwd())
        os.chdir(self.here / "crates/runtest")
        self.assertEqual(quick.repository(None), self.here.resolve())
        os.chdir("/")
        self.assertEqual(quick.repository(None), TOP)

    def test_a_program_is_whole_with_its_last_section(self):
        whole = Path(shutil.copy(os.path.realpath(shutil.which("sleep")), self.here / "whole"))
        self.assertTrue(quick.is_whole(whole))
        cut = self.here / "cut"
        cut.write_bytes(whole.read_bytes()[:-1])
        self.assertFalse(quick.is_whole(cut))
        self.assertFalse(quick.is_whole(self.put("text", "#!/bin/sh\n" * 20)))
        self.assertFalse(quick.is_whole(self.put("empty")))

    def test_what_is_taken_stays_when_the_folder_goes(self):
        self.put("tmp/native-1/module.o", "no program")
        self.put("tmp/native-2/program", "not yet to be run")
        taken = quick.Taken(self.here / "tmp", self.here)
        taken.look()
        self.assertEqual(taken.files, [])
        (self.here / "tmp/native-2/program").chmod(0o755)
        taken.look()
        taken.look()
        shutil.rmtree(self.here / "tmp")
        self.assertEqual([it.read_text() for it in taken.files], ["not yet to be run"])

    def test_another_source_has_another_sum(self):
        self.put("crates/a/src/lib.rt", "one")
        self.put("crates.txt", "a:\n")
        first = quick.sum_of_sources(self.here)
        self.put("crates/a/proofs/Proof.antt", "a proof is not compiled")
        self.assertEqual(quick.sum_of_sources(self.here), first)
        self.put("crates/a/src/lib.rt", "two")
        self.assertNotEqual(quick.sum_of_sources(self.here), first)

    def test_a_kit_that_keeps_no_program_is_told(self):
        ran = self.built("echo 'run=ended status=0 runners=1 proved=no' >&2")
        self.assertEqual(ran.returncode, 1)
        self.assertIn("this kit keeps none", ran.stdout)
        self.assertIn("Build the proved program: make", ran.stdout)

    def test_a_try_that_was_killed_is_told(self):
        ran = self.built("echo 'run=none proved=no' >&2; exit 2")
        self.assertEqual(ran.returncode, 1)
        self.assertIn("the memory did not suffice", ran.stdout)

    def test_what_is_not_compiled_is_told(self):
        ran = self.built("echo 'src/main.rt:1: error[no-such-thing]' >&2; exit 2")
        self.assertEqual(ran.returncode, 1)
        self.assertIn("error[no-such-thing]", ran.stdout)
        self.assertIn("rt try ended with status 2", ran.stdout)

    def test_a_program_that_does_not_run_is_none(self):
        ran = self.built('mkdir "$TMPDIR/x"; printf "#!/bin/sh\\necho runtest 1.0\\n" > "$TMPDIR/x/program"; chmod +x "$TMPDIR/x/program"; sleep 0.3')
        self.assertEqual(ran.returncode, 1)
        self.assertFalse((self.here / "top/out/quick/runtest").exists())


class Reckon(unittest.TestCase):
    """Crates: `low`, on it `left` and `right`, on both `high`."""

    BELOW = {"low": [], "left": ["low"], "right": ["low"], "high": ["left", "right"]}
    SECONDS = {"low": 10, "left": 30, "right": 20, "high": 5}

    def test_a_row_of_the_table_has_two_numbers(self):
        text = "| crate | proof | tests | wrong bodies | how many | all |\n|---|---:|---:|---:|---:|---:|\n| `low` | 10 | 3 | 67 | 1 | 80 |\n| `high` | 5 |  |  |  | 5 |\n| all crates | 15 | 3 | 67 | 1 | 85 |\n"
        self.assertEqual(reckon.table(text), {"low": (13, 67), "high": (5, 0)})

    def test_a_chain_goes_up_to_the_last_crate(self):
        self.assertEqual(reckon.chains(self.SECONDS, self.BELOW), {"low": 45, "left": 35, "right": 25, "high": 5})

    def test_one_lane_does_all_in_turn(self):
        self.assertEqual(reckon.proofs(self.SECONDS, {"low": 7}, self.BELOW, 1), 72)

    def test_two_lanes_do_both_sides_at_once(self):
        # low to 10; left to 40 beside right to 30; high to 45
        self.assertEqual(reckon.proofs(self.SECONDS, {}, self.BELOW, 2), 45)
        # the wrong bodies of low fill the second lane from 30 to 42, and end before high does
        self.assertEqual(reckon.proofs(self.SECONDS, {"low": 12}, self.BELOW, 2), 45)
        # those of 30 seconds begin at 30, and end at 60
        self.assertEqual(reckon.proofs(self.SECONDS, {"low": 30}, self.BELOW, 2), 60)

    def test_what_waits_for_nothing_is_packed(self):
        self.assertEqual(reckon.packed([5, 4, 3], 2), 7)
        self.assertEqual(reckon.packed([], 2), 0)

    def test_wrong_bodies_of_both_kinds_share_their_seconds(self):
        self.assertEqual(reckon.split({"low": 30, "high": 8}, {"low": 1}, {"low": 1, "high": 1}), ({"low": 15, "high": 0}, {"low": 15, "high": 8}))

    def test_the_gate_is_both_parts(self):
        times = {"low": (10, 0), "left": (30, 0), "right": (20, 0), "high": (5, 6)}
        self.assertEqual(reckon.reckoned(times, self.BELOW, {}, {"high": 1}, 2, 4), (45, 45, 51))


class Names(InFolder):
    def test_names_are_turned_back_where_a_line_follows(self):
        said = "D1 crates/a/src/lib.rs:1-20 ~ crates/a/specs/Lib.hs:3-22 (+1 more run)\nleft out: a.rs\n"
        self.assertEqual(duplicates.back(said), "D1 crates/a/src/lib.rt:1-20 ~ crates/a/specs/Lib.antt:3-22 (+1 more run)\nleft out: a.rs\n")

    def test_sources_are_those_of_the_parts(self):
        for name in ("a/src/lib.rt", "a/src/in/part.rt", "a/specs/Lib.antt", "a/proofs/F/Proof.antt", "a/data/x.rows", "a/out/src/old.rt"):
            self.put(f"crates/{name}")
        given = [str(it) for it in duplicates.sources(self.here, ["src", "specs"])]
        self.assertEqual(given, ["crates/a/specs/Lib.antt", "crates/a/src/in/part.rt", "crates/a/src/lib.rt"])


class Counts(InFolder):
    def test_a_small_repository_is_counted(self):
        self.put("crates.txt", "# a comment: none\na:\nb: a\n")
        self.put("crates/a/src/lib.rt", "pub fn one() {}\nimpl A {\n    fn two(&self) {}\n}\n// fn three\n")
        self.put("crates/a/specs/Lib.antt", "x\n")
        self.put("crates/a/must-fail/x.edit")
        self.put("crates/b/wrong-bodies/y.edit")
        self.put("crates/b/wrong-bodies/z.edit")
        self.put("tests/wrong-bodies/gate.txt", "# which\nb: y\n")
        self.put("tests/tcl/words.cases", "=== one\npass 1\n---\nPASS: 1\n=== two\n")
        self.put("tests/tcl/requests.rows", "# rows\nput x\trefused 3\n\n")
        self.put("crates/runtest/stdin", "report\n")
        self.put("crates/dg_trials/data/cores.rows", "case a\nadvance | x\ncase b\n")
        self.put("crates/dg_trials/data/pipes.rows", "# calls\nspawn\tstarted\n")
        found = dict(counts.counts(self.here))
        self.assertEqual((found["crates"], found["functions"], found["lines of code"], found["lines of definitions"]), (2, 2, 5, 1))
        self.assertEqual(found["wrong bodies"], 3)
        self.assertEqual(found["wrong bodies that the gate tries by their function"], 1)
        self.assertEqual(found["scripts of the program's session"], 2)
        self.assertEqual(found["  tests/tcl/requests.rows (requests)"], 1)
        self.assertEqual((found["cases of cores and jobs"], found["calls of children"]), (2, 1))


class Tests(InFolder):
    def setUp(self):
        super().setUp()
        kept = tests.TOP, tests.TESTS
        self.addCleanup(lambda: (setattr(tests, "TOP", kept[0]), setattr(tests, "TESTS", kept[1])))
        tests.TOP, tests.TESTS = self.here, {"good": [], "bad": [], "lacking": [], "absent": []}
        self.put("tests/good/run.sh", 'echo "it is $RUNTEST"\n')
        self.put("tests/bad/run.sh", "echo why; exit 3\n")
        self.put("tests/lacking/run.sh", "echo 'skipped: no x'; exit 77\n")

    def test_those_that_are_there_are_run(self):
        self.assertEqual(tests.there(), ["good", "bad", "lacking"])

    def test_each_counts_once_and_is_told(self):
        said = io.StringIO()
        with redirect_stdout(said):
            found = tests.told(self.put("some/program", mode=0o755), tests.there())
        self.assertEqual(found, {"passed": ["good"], "failed": ["bad"], "skipped": ["lacking"]})
        for it in (f"it is {self.here}/some/program", "== tests/bad: failed", "why", "skipped: no x"):
            self.assertIn(it, said.getvalue())


    def test_a_quick_program_is_not_put_to_all_tests(self):
        tests.TESTS = {"program": []}
        self.put("tests/program/run.sh", "exit 0\n")
        with redirect_stdout(io.StringIO()):
            quick_one = self.put("quick", "ELF .. AddressSanitizer ..", 0o755)
            proved_one = self.put("proved", "ELF ..", 0o755)
            self.assertEqual(tests.told(quick_one, ["program"])["skipped"], ["program"])
            self.assertEqual(tests.told(proved_one, ["program"])["passed"], ["program"])
            self.assertEqual(tests.told(self.here / "absent", ["program"])["failed"], ["program"])


class Gate(InFolder):
    """The gate, with an `rt` that does what a shell script says, and wrong bodies and tests that aren't tried."""

    def gate(self, rt, bodies, *tests_told):
        """What the gate ends with, and the lines that it writes."""
        command = str(self.put("rt", f"#!/bin/sh\n{rt}\n", 0o755))
        tests_told = iter([dict(zip(("passed", "failed", "skipped"), it)) for it in tests_told or [([], [], [])]])
        said = io.StringIO()
        with patch.dict(os.environ, {"RT": command, "RT_JOBS": "2"}), patch.object(check, "TOP", self.here), redirect_stdout(said):
            with patch.object(check, "listed", return_value=dict(enumerate(bodies))), patch.object(check, "refused", lambda at, it: it):
                with patch.object(check.tests, "told", lambda *_: next(tests_told)), self.assertRaises(SystemExit) as ended:
                    (self.here / "crates").mkdir()
                    check.main()
        return ended.exception.code, said.getvalue().splitlines()

    NONE = ([], [], [])

    def test_all_are_added_up(self):
        status, said = self.gate("echo '90 passed, 0 failed'", [(3, 0), (2, 0)], (["tools"], [], []), (["a", "b"], [], ["c"]), self.NONE)
        self.assertEqual((status, said[-1]), (0, "98 passed, 0 failed"))

    def test_nothing_is_proved_where_the_tools_fail(self):
        status, said = self.gate("echo 'proving'", [(3, 0)], ([], ["tools"], []))
        self.assertEqual((status, said), (1, ["0 passed, 1 failed"]))

    def test_a_test_that_fails_beside_checks_has_a_second_try(self):
        status, said = self.gate("echo '90 passed, 0 failed'", [(3, 0)], self.NONE, (["a"], ["b"], []), (["b"], [], []))
        self.assertEqual((status, said[-1]), (0, "95 passed, 0 failed"))

    def test_a_test_that_fails_twice_has_failed(self):
        status, said = self.gate("echo '90 passed, 0 failed'", [(3, 0)], self.NONE, (["a"], ["b"], []), ([], ["b"], []))
        self.assertEqual((status, said[-1]), (1, "94 passed, 1 failed"))

    def test_a_wrong_body_that_is_let_through_fails(self):
        status, said = self.gate("echo '90 passed, 0 failed'", [(3, 1)], self.NONE, (["a"], [], []), self.NONE)
        self.assertEqual((status, said[-1]), (1, "94 passed, 1 failed"))

    def test_behind_a_failed_proof_nothing_is_tried(self):
        status, said = self.gate("echo 'dg_glob NOT PROVED'; echo '89 passed, 1 failed'; exit 1", [(3, 0)])
        self.assertEqual((status, said), (1, ["dg_glob NOT PROVED", "89 passed, 1 failed"]))

    def test_a_run_that_broke_off_has_no_last_line(self):
        status, said = self.gate("echo 'proving'; exit 137", [(3, 0)])
        self.assertEqual((status, said), ("rt ci did not come to its end", ["proving"]))


class Links(InFolder):
    def test_a_link_leads_to_a_file_or_a_heading(self):
        document = self.put("docs/A.md", "# One thing\n")
        self.put("docs/B.md", "## What `x` is: two words\n")
        for link in ("B.md", "B.md#what-x-is-two-words", "#one-thing", "../docs"):
            self.assertTrue(links.leads(document, link), link)
        for link in ("C.md", "B.md#what", "#two"):
            self.assertFalse(links.leads(document, link), link)

    def test_all_links_of_the_documents_lead_somewhere(self):
        said = io.StringIO()
        with redirect_stdout(said):
            status = links.main()
        self.assertEqual((status, said.getvalue()), (0, ""))


class Rows(unittest.TestCase):
    @unittest.skipUnless(shutil.which("tclsh"), "there is no tclsh here")
    def test_the_session_of_the_gate_is_the_one_of_the_cases(self):
        with tempfile.TemporaryDirectory() as folder:
            made = [Path(folder) / it for it in ("stdin", "stdout")]
            subprocess.run(["sh", TOP / "tools/rows.sh", *made], check=True)
            for it in made:
                self.assertEqual(it.read_bytes(), (TOP / "crates/runtest" / it.name).read_bytes(), f"make rows writes another {it.name}")


if __name__ == "__main__":
    unittest.main()
