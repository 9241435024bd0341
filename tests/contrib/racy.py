"""Tries runtest-racy: racy.py PROGRAM [PART..]. Races that were planted are found, each with its cut, and no other test is told.

All transcripts are written here, and no child is started.
"""
import os
import pathlib
import random
import re
import sys

from common import PROGRAM, TOP, Looks, contrib, folder, is_fault, runner, write

sys.path.insert(0, str(TOP / "contrib"))
sys.dont_write_bytecode = True
from runtestlib.cuts import Recording, smallest
from runtestlib.transcripts import OUTPUT, entries

looks = Looks("racy.py")


def transcript(*told, version=1, words=(b"cat",)):
    """The text of a transcript of one session: pairs of a kind and its fields, or pieces that came at once."""
    lines = [f"dejagnu-transcript {version}", "session 1", "started " + " ".join(it.hex() for it in words)]
    for it in told:
        lines.append(f"chunk 0 {it.hex()}" if isinstance(it, bytes) else it)
    return "\n".join([*lines, "done", ""])


# Races: the script behind `spawn cat`, the transcript, and how the smallest cut is told.
PLANTED = {
    "prefix": ('expect "ab" {pass x} "a" {fail x}', transcript(b"ab\n"), ['entry 2 is cut: "a" | "b\\n"']),
    "number": ('expect -re {[0-9]+} {}\nif {$expect_out(0,string) == 12345} {pass x} else {fail x}', transcript(b"12345\n"), ["entry 2 is cut: "]),
    "all": ('expect "?*"\nif {$expect_out(0,string) eq "one\\ntwo\\n"} {pass x} else {fail x}', transcript(b"one\ntwo\n"), ["entry 2 is cut: "]),
    "joined": ('expect -re {^a$} {pass x} -re {^ab} {fail x}', transcript(b"a", b"b"), ['entries 2 and 3 are joined: "a" + "b"']),
    "apart": ('expect "ab" {fail x} "a" {pass x}', transcript(b"a", "chunk 700 62"), ["entries 2 and 3 are joined (0.700 s apart"]),
    "two cuts": ('expect -re {^one two t} {pass x} -re {^o$} {expect -re {^ne} {pass x} -re {^n$} {fail x}}', transcript(b"one two three"), ['entry 2 is cut: "o" | "ne two three"', 'entry 2 is cut: "on" | "e two three"']),
    "departs": ('expect "go" {send "a\\n"} "g" {send "b\\n"}\npass x', transcript(b"go\n", "sent 610a"), ['entry 2 is cut: "g" | "o\\n"']),
    "late": ('for {set i 0} {$i < 12} {incr i} {expect "line $i\\n"}\nexpect "yes" {pass x} "y" {fail x}', transcript(*[f"line {it}\n".encode() for it in range(12)], b"yes"), ['line 11\\ny" | "es"']),
    "deep": ('expect -re {(^|\\n)end (\\d+)} {}\nif {$expect_out(2,string) == 77} {pass x} else {fail x}', transcript(*[b"some output\n" * 20] * 3, b"end 77\n"), ['end 7" | "7\\n"']),
    "forgets": ('match_max 200\nexpect "begin*end" {pass x} timeout {fail x}', transcript(b"begin" + b"." * 90, b"." * 90 + b"end", b"." * 30, "silence 10000"), []),
}
# Tests that look like races and are none.
SOUND = {
    "line": ('expect -ex "ab\\n" {pass x}\nexpect -ex "c\\n" {pass y}', transcript(b"ab\nc", b"\n")),
    "quiet": ('expect "a\\n" {pass x}\nset timeout 1\nexpect "b" {fail early} timeout {pass quiet}\nset timeout 5\nexpect "b\\n" {pass y}', transcript(b"a\n", "silence 1000", "chunk 3000 62", "chunk 0 0a")),
    "slow": ('set timeout 2\nexpect "a" {pass x}\nexpect "b" {pass y}\nexpect "c" {pass z}', transcript("chunk 1900 61", "chunk 1900 62", "chunk 1900 63")),
    "times out": ('set timeout 2\nexpect "a" {pass x}\nexpect "b" {fail y} timeout {pass late}\nexpect "b" {pass z}', transcript(b"a", "chunk 3000 62")),
    "end": ('expect eof {pass "all of it: [string length $expect_out(buffer)]"}', transcript(b"one\n", b"two\n", "end 0", "exited 0")),
    "passed over": ('expect "ready\\n"\nsend "x\\n"\nexpect "y\\n" {pass x}\nclose', transcript(b"ready\n", b"more", b" and more\n", "sent 780a", b"y\n", "closed")),
    "nothing": ('pass x', "dejagnu-transcript 1\ndone\n"),
}
# In version 2: pieces of the error stream, which no `expect` sees.
ERRORS = {
    "both": ('expect "ab" {pass x} "a" {fail x}', transcript(b"ab", "errchunk 0 6f6f7073", b"c", version=2), ['entry 2 is cut: "a" | "b"']),
    "between": ('expect -re {^a$} {pass x} -re {^ab} {fail x}', transcript(b"a", "errchunk 0 6f6f", "errchunk 5 7073", b"b", version=2), None),
}


def plant(here, rows, tool="t"):
    """Writes the tests of these rows."""
    for name, row in rows.items():
        script = f"{tool}.x/{name.replace(' ', '-')}.exp"
        write(here / "suite" / script, ("" if name == "nothing" else "spawn cat\n") + row[0] + "\n")
        write(here / "out/transcripts/unix" / f"{script}.tr", row[1])


def racy(here, *words, tool="t"):
    return contrib("racy", here / "suite", here / "out", "--tool", tool, *words)


def told(out):
    """What is told of each test that is found: the lines of its cut, and those of its verdict."""
    found = {}
    for line in out.split("\n"):
        test = re.fullmatch(r"unix \S+/(\S+)\.exp: its verdict depends on how output is cut", line)
        if test:
            lines = found.setdefault(test[1].replace("-", " "), [])
        elif line.startswith("    "):
            lines.append(line.strip())
    return found


def try_planted(here):
    plant(here, {**PLANTED, **SOUND})
    before = runner("--tool", "t", "--srcdir", here / "suite", "--outdir", here / "out", "--rejudge")
    looks.right("the verdicts of what was recorded", "FAIL" not in before.out and "UNRESOLVED" not in before.out, before.out)
    ran = racy(here, "--keep", here / "kept")
    found = told(ran.out)
    looks.same("status", 1, ran.status)
    looks.same("found", sorted(PLANTED), sorted(found))
    looks.right("the seed", f"{len(PLANTED)} of {len(PLANTED) + len(SOUND)} tests depend on how output is cut (seed 1, 10 rounds; " in ran.out, ran.out[-300:])
    for name, lines in found.items():
        cuts = [it for it in lines if it.startswith("session")]
        wanted = PLANTED[name][2]
        looks.right(f"the cut of {name}", all(any(part in it for it in cuts) for part in wanted) and (not wanted or len(wanted) == len(cuts)), lines)
        looks.right(f"the lines of {name}", any(it.startswith("+ ") for it in lines) and any(it.startswith("- PASS: x") for it in lines), lines)
    kept = runner("--tool", "t", "--srcdir", here / "suite", "--outdir", here / "kept", "--rejudge", *(f"{it.replace(' ', '-')}.exp" for it in PLANTED))
    looks.same("the kept transcripts", 0, kept.out.count("PASS: x"))
    again = racy(here, "--seed", "99", "--rounds", "3")
    looks.same("another seed", sorted(PLANTED), sorted(told(again.out)))
    looks.right("its seed", "seed 99, 3 rounds" in again.out, again.out[-300:])
    all_planted = " ".join(f"{it.replace(' ', '-')}.exp" for it in PLANTED)
    for status, words in ((1, ["prefix.exp", "line.exp"]), (0, ["--ignore", all_planted]), (0, ["t.x/line.exp"])):
        looks.same(f"selected: {words}", status, racy(here, *words).status)


def try_errors(here):
    """Transcripts of version 2, where the program reads them."""
    plant(here, ERRORS)
    ran = runner("--tool", "t", "--srcdir", here / "suite", "--outdir", here / "out", "--rejudge")
    if "bad transcript" in ran.err:
        looks.left_out("transcripts of version 2, since the program doesn't read them yet")
        return
    ran = racy(here)
    found = told(ran.out)
    looks.same("version 2", ["both"], sorted(found))
    looks.right("its cut", any(ERRORS["both"][2][0] in it for it in found.get("both", [])), found)


def answer(rng, lines):
    """Some lines, cut at random places into pieces with waits."""
    data, pieces = b"".join(lines), []
    while data:
        length = rng.choice([1, 2, 7, 40, 300, 1000])
        pieces.append(f"chunk {rng.choice([0, 0, 0, 10, 20, 150, 900])} {data[:length].hex()}")
        data = data[length:]
    return pieces


def dialogue(rng):
    """A dialogue that is drawn: its script, which waits for whole lines, and its transcript."""
    script, told, word = ["spawn cat", "set timeout 60"], [], lambda: "".join(rng.choice("abcxyz") for _ in range(rng.randint(1, 9)))
    for turn in range(rng.randint(1, 8)):
        asked = word()
        script.append(f'send "{asked}\\n"')
        told.append(f"sent {(asked + chr(10)).encode().hex()}")
        kind = rng.choice(["line", "count", "number", "long", "quiet", "close to another"])
        if kind == "line":
            told += answer(rng, [f"{asked} {turn}\n".encode()])
            script.append(f'expect -ex "{asked} {turn}\\n" {{pass "line {turn}"}} "*\\n" {{fail "line {turn}"}}')
        elif kind == "count":
            count = rng.randint(1, 20)
            told += answer(rng, [f"row {it}\n".encode() for it in range(count)] + [b"last\n"])
            script.append(f'set n 0\nexpect -re {{^row \\d+\\n}} {{incr n; exp_continue}} -re {{^last\\n}} {{note "rows: $n"}}\nif {{$n == {count}}} {{pass "count {turn}"}} else {{fail "count {turn}"}}')
        elif kind == "number":
            number = rng.randint(0, 10**9)
            told += answer(rng, [f"value = {number}\n".encode()])
            script.append(f'expect -re {{value = (\\d+)\\n}} {{note $expect_out(1,string)}}\nif {{$expect_out(1,string) == {number}}} {{pass "number {turn}"}} else {{fail "number {turn}"}}')
        elif kind == "long":
            told += answer(rng, [b"%05d " % it + b"." * rng.randint(0, 40) + b"\n" for it in range(rng.randint(3, 20))] + [b"the end\n"])
            script.append(f'expect -re {{(^|\\n)the end\\n}} {{pass "long {turn}"}}')
        elif kind == "quiet":
            told.append("silence 2000")
            script.append(f'expect -timeout 2 -re {{.}} {{fail "quiet {turn}"}} timeout {{pass "quiet {turn}"}}')
        else:
            told += answer(rng, [b"ab\n"])
            script.append(f'expect "ab\\n" {{pass "near {turn}"}} "a\\n" {{fail "near {turn}"}}')
    return "\n".join(script[1:] + ["close", "wait"]), transcript(*told, "closed", "exited 0")


def try_dialogues(here):
    """Dialogues without a race, 200 if DIALOGUES doesn't say another number; then ten of them with one."""
    rng, number = random.Random(20), int(os.environ.get("DIALOGUES", "200"))
    rows = {f"d{it:03}": dialogue(rng) for it in range(number)}
    plant(here, rows)
    before = runner("--tool", "t", "--srcdir", here / "suite", "--outdir", here / "out", "--rejudge")
    looks.right("the verdicts of the dialogues", before.status == 0 and before.out.count("PASS: ") > number, before.out[-400:])
    ran = racy(here)
    looks.same("dialogues without a race", (0, {}), (ran.status, told(ran.out)))
    print(f"racy.py: dialogues: {ran.out.strip()}")
    chosen = rng.sample(sorted(rows), 10)
    for name in chosen:
        script, text = rows[name]
        script = script.replace("\nclose", '\nsend "q\\n"\nexpect "no" {fail race} "not" {fail race} "n" {fail race} "yes" {pass race} "y" {fail race}\nclose')
        plant(here, {name: (script, text.replace("\nclosed", "\nsent 710a\nchunk 40 7965730a\nclosed"))})
    ran = racy(here)
    looks.same("dialogues with ten races", (1, sorted(chosen)), (ran.status, sorted(told(ran.out))))
    looks.right("their cuts", all(sum(line.startswith("session") for line in it) == 1 for it in told(ran.out).values()), ran.out)


def try_examples(here):
    for tool in ("sh", "sed", "awk"):
        boards = "unix strict" if tool == "sh" else "unix"
        ran = contrib("racy", TOP / "examples" / tool, TOP / "examples" / tool, "--tool", tool, "--target_board", boards)
        looks.right(f"the example {tool}", ran.status == 0 and ran.out.startswith("0 of "), (ran.status, ran.out, ran.err))


def try_faults(here):
    plant(here, {"line": SOUND["line"], "other": SOUND["end"]})
    bad = {
        "no program": (["--program", here / "absent"], "can't run"),
        "another program": (["--program", "/bin/echo"], "is not this runner"),
        "no such tool": (["--tool", "u"], "no script of tool u"),
        "no such script": (["x.exp"], "no script of tool t"),
        "too long pieces": (["--most", "5000"], "1 to 4096"),
    }
    for what, (words, why) in bad.items():
        ran = racy(here, *words)
        looks.right(what, is_fault(ran, why), (ran.status, ran.err))
    looks.right("no folder", is_fault(contrib("racy", here / "absent", here / "out"), "can't read"))
    looks.right("no transcripts", is_fault(contrib("racy", here / "suite", here / "suite"), "none of the 2 selected tests has a transcript"))
    path = here / "out/transcripts/unix/t.x/other.exp.tr"
    text = path.read_text()
    path.write_text(text[:-5])
    looks.right("a broken transcript", is_fault(racy(here), f"bad transcript {path} line 8"))
    path.unlink()
    ran = racy(here)
    looks.right("a transcript less", ran.status == 0 and "1 of 2 tests have no transcript, the first is unix t.x/other.exp" in ran.err and "0 of 1 tests" in ran.out, (ran.status, ran.err))


def streams(listed):
    """What a cut has to keep: for each session its entries but for output, and between them each stretch's bytes and waits."""
    kept = []
    for it in listed:
        if it.kind in OUTPUT and kept and kept[-1][:2] == (it.session, it.kind):
            kept[-1] = (it.session, it.kind, kept[-1][2] + it.data, kept[-1][3] + it.wait)
        else:
            kept.append((it.session, it.kind, it.data, it.wait) if it.kind in OUTPUT else it)
    return kept


def try_cuts(here):
    """Each cut of drawn transcripts keeps what it has to keep, at sizes that a transcript may have."""
    rng, count = random.Random(3), 0
    texts = [dialogue(rng)[1] for _ in range(8)] + [transcript(*[b"x" * 4096] * 40), transcript(b"ab", "errchunk 5 6162", "errchunk 7 63", "silence 5", b"c", version=2)]
    for number, text in enumerate(texts):
        path = write(here / f"{number}.tr", text)
        recording, listed = Recording(path), list(entries(path))
        looks.same("a recording has its own text", text, recording.text((recording.recorded,) * 2).decode())
        ways = [recording.bytewise(), recording.joined(1000, False), recording.joined(1000, True), recording.joined(1, False)] + [recording.anywhere(random.Random(it), 1000) for it in range(4)]
        for cut in ways:
            for form in (it for pair in recording.pairs(cut) for it in pair):
                made = list(entries(write(here / "cut.tr", recording.text(form))))
                looks.same(f"transcript {number}", streams(listed), streams(made))
                count += 1
        sizes = [len(it.data) for it in recording.listed(ways[0], ways[0]) if it.kind in OUTPUT]
        looks.right("each byte a piece", max(sizes, default=1) == (4 if number == 8 else 1), max(sizes, default=1))
        kept = {(it.session, it.kind, it.wait) for it in listed if it.kind == "silence"}
        looks.right("silences stay", kept == {(it.session, it.kind, it.wait) for it in recording.listed(ways[1], ways[1]) if it.kind == "silence"})
    looks.right("many cuts", count > 100, count)
    for wanted in ([5], [0, 31], [3, 4, 17]):
        looks.same("the smallest part", wanted, smallest(list(range(32)), lambda it, wanted=wanted: set(wanted) <= set(it), 500))


PARTS = {"cuts": try_cuts, "planted": try_planted, "errors": try_errors, "faults": try_faults, "examples": try_examples, "dialogues": try_dialogues}
for part in sys.argv[2:] or PARTS:
    with folder() as name:
        PARTS[part](pathlib.Path(name))
looks.end()
