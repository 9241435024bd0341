"""Tries runtest-compare, runtest-merge and runtest-junit: reports.py PROGRAM."""
import pathlib
import shutil
import xml.etree.ElementTree as xml

from common import DATA, TOP, Looks, Ran, contrib, folder, is_fault, runner, write

looks = Looks("reports.py")
EXAMPLES = TOP / "examples"


def compares(status, old, new, wanted, *words):
    ran = contrib("compare", *words, old, new)
    looks.same(f"compare {old} {new}", (status, wanted, ""), (ran.status, ran.out, ran.err))


def merges(wanted, *reports):
    ran = contrib("merge", *reports)
    looks.same(f"merge {reports}", (0, wanted.read_bytes().decode("latin-1"), ""), (ran.status, ran.out, ran.err))


def try_stored():
    """Reports of the examples, and ones that were written by hand."""
    for tool in ("sh", "sed", "awk"):
        stored = EXAMPLES / tool / f"{tool}.sum"
        compares(0, stored, stored, "", "--strict")
        merges(stored, stored)
    sed, awk, sh = (EXAMPLES / f"{it}/{it}.sum" for it in ("sed", "awk", "sh"))
    compares(1, sed, DATA / "sed.later.sum", (DATA / "sed.compared").read_text())
    compares(1, DATA / "awk.earlier.sum", awk, (DATA / "awk.compared").read_text())
    compares(1, DATA / "sh.ends.sum", DATA / "sh.later.sum", (DATA / "sh.compared").read_text())
    compares(1, DATA / "dejagnu/old.sum", DATA / "dejagnu/new.sum", (DATA / "dejagnu/compared").read_text())
    merges(DATA / "sed.merged.sum", sed, DATA / "sed.later.sum")
    merges(sh, DATA / "sh.words.sum", DATA / "sh.ends.sum")
    merges(DATA / "dejagnu/old.sum", DATA / "dejagnu/old.sum")


def report(*lines, tool="t", script="t/a.exp"):
    """A small report of one script."""
    return "\n".join([f"\t\t=== {tool} tests ===", "", "Schedule of variations:", "    unix", "", "Running target unix", f"Running {script} ...", *lines, "", f"\t\t=== {tool} Summary ===", "", ""])


def try_moves(here):
    """Each class before and now: the list that it comes to, and the status."""
    rows = [
        ("PASS", "FAIL", "now fail", 1), ("PASS", "XFAIL", "now fail", 1), ("XPASS", "UNRESOLVED", "now fail", 1), ("PASS", "ERROR", "now fail", 1),
        ("FAIL", "PASS", "now work", 0), ("XFAIL", "XPASS", "now work", 0), ("KFAIL", "KPASS", "now work", 0),
        (None, "FAIL", "New tests that FAIL", 1), (None, "PASS", "New tests that PASS", 0), ("UNTESTED", "PASS", "New tests that PASS", 0),
        ("PASS", None, "passed, that have disappeared", 0), ("PASS", "UNSUPPORTED", "passed, that have disappeared", 0),
        ("FAIL", None, "failed, that have disappeared", 0), ("XFAIL", "FAIL", "is not any more", 1), ("PASS", "KPASS", "is not any more", 1),
        ("FAIL", "XFAIL", "changed otherwise", 0), ("UNTESTED", None, "changed otherwise", 0), ("NOTE", None, None, 0), ("PASS", "PASS", None, 0),
    ]
    for before, now, heading, status in rows:
        files = [write(here / name, report(*[f"{it}: a"] * bool(it))) for name, it in (("old.sum", before), ("new.sum", now))]
        ran = contrib("compare", *files)
        looks.same(f"{before} -> {now}: the status", status, ran.status)
        headings = [it for it in ran.out.split("\n") if "tests)" in it]
        looks.right(f"{before} -> {now}: the list", headings == [] if heading is None else len(headings) == 1 and heading in headings[0], headings)
        strict = contrib("compare", "--strict", *files).status
        looks.same(f"{before} -> {now}: --strict", 1 if status or heading and "disappeared" in heading else 0, strict)
    # which one of several with the same message
    old, new = write(here / "old.sum", report("PASS: a", "PASS: a")), write(here / "new.sum", report("PASS: a", "FAIL: a"))
    compares(1, old, new, "Tests that now fail, but worked before (1 tests):\n\nunix t/a.exp: a (PASS -> FAIL)\n\n")


def try_paths(here):
    """A script by its path is the one of that name in the suite."""
    for tool, path, name in (
        ("gdb", "/src/gdb/testsuite/gdb.base/a.exp", "gdb.base/a.exp"),
        ("t", "./t.x/deep/a.exp", "t.x/deep/a.exp"),
        ("ld", "/ld/ld-2.40/ld/testsuite/ld-elf/ld-sub/a.exp", "ld-elf/ld-sub/a.exp"),
        ("g++", "../../gcc/testsuite/g++.dg/a.exp", "g++.dg/a.exp"),
    ):
        old = write(here / "old.sum", report("PASS: a", f"UNRESOLVED: testcase '{path}' aborted due to Tcl error", tool=tool, script=path))
        new = write(here / "new.sum", report("PASS: a", f"UNRESOLVED: testcase '{name}' aborted due to Tcl error", tool=tool, script=name))
        compares(0, old, new, "", "--strict")
        compares(0, new, old, "", "--strict")


def try_folders(here):
    """Two folders of reports."""
    for name, old, new in (("gdb/gdb.sum", "PASS", "FAIL"), ("ld.sum", "PASS", "PASS"), ("only.sum", "PASS", None)):
        for side, kind in (("old", old), ("new", new)):
            if kind:
                write(here / side / name, report(f"{kind}: a"))
    said = "Only in {}:\n\nonly.sum\n\n== gdb/gdb.sum\n\nTests that now fail, but worked before (1 tests):\n\nunix t/a.exp: a (PASS -> FAIL)\n\n== ld.sum\n\n"
    compares(1, here / "old", here / "new", said.format(here / "old"))
    shutil.rmtree(here / "old/gdb")
    looks.same("a file less", 0, contrib("compare", here / "old", here / "new").status)
    looks.same("a file less, --strict", 1, contrib("compare", "--strict", here / "old", here / "new").status)
    looks.same("a file more, --strict", 0, contrib("compare", "--strict", here / "new", here / "new").status)
    looks.right("a file and a folder", is_fault(contrib("compare", here / "old", here / "new/ld.sum"), "two files or two folders"))
    looks.right("nothing in common", is_fault(contrib("compare", here / "old", DATA), "no .sum file of the same name"))


def try_broken(here):
    """Files that are no reports, for each program that reads one."""
    sed = (EXAMPLES / "sed/sed.sum").read_text()
    broken = {
        "none.sum": ("PASS: a\n", "is no report"),
        "empty.sum": ("", "is no report"),
        "bytes.sum": (bytes(range(256)), "is no report"),
        "cut.sum": (sed[: sed.index("Summary") - 10], "ends before its last summary"),
        "summary.sum": (sed[sed.index("\n\t\t=== sed Summary") :], "is no report"),
        "two.sum": (report("PASS: a") + report("PASS: a", tool="u"), "reports of two tools"),
    }
    for name, (text, why) in broken.items():
        path = write(here / name, text)
        for words in (("merge", path), ("junit", path), ("compare", path, path)):
            ran = contrib(*words)
            looks.right(f"{words[0]} of {name}", is_fault(ran, why), (ran.status, ran.err))
    for words in (("merge", here / "absent"), ("junit", here), ("compare", here / "absent", here / "absent"), ("junit", "--log", here / "absent", EXAMPLES / "sed/sed.sum")):
        ran = contrib(*words)
        looks.right(str(words), is_fault(ran, "can't read"), (ran.status, ran.err))
    looks.right("merge of two tools", is_fault(contrib("merge", EXAMPLES / "sed/sed.sum", EXAMPLES / "awk/awk.sum"), "the tool is awk, not sed"))


def is_valid(path):
    """Whether a text fits the schema, where xmllint is there."""
    return Ran(["xmllint", "--noout", "--nonet", "--schema", TOP / "tests/contrib/junit.xsd", path])


def junit(path, *words):
    """The JUnit text of a report, read again."""
    ran = contrib("junit", path, *words)
    looks.same(f"junit {path}", (0, ""), (ran.status, ran.err))
    made = write(pathlib.Path(path).with_suffix(".xml") if not str(path).startswith(str(TOP)) else HERE / "stored.xml", ran.out)
    if shutil.which("xmllint"):
        valid = is_valid(made)
        looks.right(f"junit {path} fits the schema", valid.status == 0, valid.err)
    return xml.parse(made).getroot()


def try_junit(here):
    """One testcase a result line, what became of each, and the text of a log."""
    for path in [*EXAMPLES.glob("*/*.sum"), *DATA.glob("*.sum"), *DATA.glob("dejagnu/*.sum")]:
        made = junit(path)
        results = [it for it in path.read_text().split("\n") if it.split(":")[0] in "PASS FAIL XPASS XFAIL KPASS KFAIL UNRESOLVED UNTESTED UNSUPPORTED".split() and ":" in it]
        looks.same(f"junit {path}: testcases", len(results), len(made.findall("testsuite/testcase")))
        bad = sum(it.startswith(("FAIL", "XPASS", "KPASS")) for it in results)
        looks.same(f"junit {path}: failures", bad, len(made.findall("testsuite/testcase/failure")))
        looks.same(f"junit {path}: their counts", bad, sum(int(it.get("failures")) for it in made))
        looks.same(f"junit {path}: errors", sum(it.startswith("UNRESOLVED") for it in results), len(made.findall("testsuite/testcase/error")))
    write(here / "t.sum", report("PASS: <&\"'> \x01\x1b \xff \xc3\xa4 ]]>", "FAIL: a", "PASS: a", "WARNING: w", "FAIL: a", "NOTE: n", "UNRESOLVED: u"))
    write(here / "t.log", 'Running t/a.exp ...\n[exp1] << "one\\n"\nFAIL: a\nPASS: a\n[exp1] timeout\x02 <\xff>\nWARNING: w\nFAIL: a\nNOTE: n\nUNRESOLVED: u\n')
    write(here / "transcripts/unix/t/a.exp.tr", "dejagnu-transcript 1\nsession 1\nstarted 61\nchunk 1200 61\nsilence 300\ndone\n")
    suite = junit(here / "t.sum")[0]
    names = [it.get("name") for it in suite.findall("testcase")]
    looks.same("names", ["<&\"'> \\x01\\x1b \\xff ä ]]>", "a", "a (2)", "a (3)", "u"], names)
    looks.same("failures", ['[exp1] << "one\\n"\n', "[exp1] timeout\\x02 <\\xff>\nWARNING: w\n"], [it.text for it in suite.findall("testcase/failure")])
    looks.same("errors", ["NOTE: n\n"], [it.text for it in suite.findall("testcase/error")])
    looks.same("lines", ("NOTE: n", "WARNING: w"), (suite.find("system-out").text, suite.find("system-err").text))
    looks.same("what stands in front", ("t/a.exp", "unix.t.a", "1.500"), (suite.get("name"), suite[1].get("classname"), suite.get("time")))
    # a long text keeps its two ends
    write(here / "t.log", "Running target unix\nRunning /some/t/a.exp ...\n" + "begin\n" + ("y" * 79 + "\n") * 9000 + "end\nFAIL: a\n")
    write(here / "t.sum", report("FAIL: a", script="/some/t/a.exp"))
    text = junit(here / "t.sum").find("testsuite/testcase/failure").text
    looks.right("a long text", text.startswith("begin\n") and text.endswith("end\n") and "bytes are left out" in text and len(text) < 150000, len(text))


def try_parts(here):
    """A suite that is judged in two parts, whose reports give the stored one."""
    shutil.copytree(EXAMPLES / "sh", here / "sh")
    made = []
    for part, scripts in (("ends", ("status.exp", "unset.exp")), ("words", ("expand.exp", "lines.exp"))):
        ran = runner("--tool", "sh", "--srcdir", here / "sh", "--outdir", here / "sh", "--target_board", "unix strict", "--rejudge", *scripts)
        looks.same(f"the part {part}", (DATA / f"sh.{part}.sum").read_text(), ran.out)
        made.append(write(here / f"{part}.sum", ran.out))
    merges(EXAMPLES / "sh/sh.sum", *made)


def try_dejagnu(here):
    """What DejaGnu itself writes of a suite, beside what this runner writes of it."""
    dejagnu = shutil.which("runtest", path="/usr/bin:/usr/local/bin")
    if not dejagnu or not shutil.which("expect") or "DejaGnu" not in Ran([dejagnu, "--version"]).out:
        looks.left_out("comparing with DejaGnu, since DejaGnu or Expect is not there")
        return
    write(here / "suite/t.one/a.exp", 'pass "one"\nsetup_xfail "*-*-*"\nfail "two"\nunsupported "three"\nnote n\n')
    write(here / "suite/t.two/b.exp", 'pass "one"\nfail "two"\nuntested "four"\n')
    (here / "theirs").mkdir()
    Ran([dejagnu, "--tool", "t", "--srcdir", here / "suite", "--outdir", here / "theirs"], cwd=here / "theirs")
    runner("--tool", "t", "--srcdir", here / "suite", "--outdir", here / "ours")
    compares(0, here / "theirs/t.sum", here / "ours/t.sum", "", "--strict")
    compares(0, here / "ours", here / "theirs", "== t.sum\n\n", "--strict")
    write(here / "suite/t.two/b.exp", 'fail "one"\npass "two"\nuntested "four"\n')
    runner("--tool", "t", "--srcdir", here / "suite", "--outdir", here / "ours")
    said = "Tests that now fail, but worked before (1 tests):\n\nunix t.two/b.exp: one (PASS -> FAIL)\n\nTests that now work, but didn't before (1 tests):\n\nunix t.two/b.exp: two (FAIL -> PASS)\n\n"
    compares(1, here / "theirs/t.sum", here / "ours/t.sum", said)
    merges(here / "theirs/t.sum", here / "theirs/t.sum")
    looks.same("junit of DejaGnu's report", 6, len(junit(here / "theirs/t.sum").findall("testsuite/testcase")))


try_stored()
for it in (try_moves, try_paths, try_folders, try_broken, try_junit, try_parts, try_dejagnu):
    with folder() as name:
        HERE = pathlib.Path(name)
        it(HERE)
if not shutil.which("xmllint"):
    looks.left_out("the JUnit schema, since xmllint is not there")
looks.end()
