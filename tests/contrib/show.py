"""Tries runtest-show: show.py PROGRAM. Transcripts that are broken have their first bad line where the program says it."""
import pathlib
import random
import re

from common import TOP, Looks, contrib, folder, is_fault, memory, runner, write

looks = Looks("show.py")
CAUSES = ["", "the first line", "no word of a transcript", "a field is missing", "may not stand there", "over 64 sessions", "no newline"]
HEAD = "dejagnu-transcript 1\n"
FIRST = HEAD + "session 1\nstarted 636174\nsent 610a\nchunk 10 61\nchunk 0 0a\nsilence 20\nclosed\nexited 3\nsession 2\nnostart 1 6e6f\nsession 3\nstarted 61 - 62\nnosend 3 ff\nnoread 4\nkilled 9\nsession 4\nstarted 61\nend 5\nnowait 4\nsession 5\nstarted 61\nnoclose 2\ndone\n"
SHOWN = r'''unix t/a.exp
  session 1
     0.000  started  cat "" "a b" "\"" "\xff"
     0.000  >>  "a\n"
            >>  "b\tc\\\x1b[1m\n"
     0.010  <<  "a\n"
     2.510  <2  "oops"
    12.510  silence of 10.000 s
    12.520  end of its output
            exited with status 3
  session 2
     0.000  could not start: not found (code 1)  none
  session 3
     0.000  started  x
     0.000  could not be sent: broken pipe (code 3)
            >>  "\x00"
     0.000  its output could not be read: another cause (code 4)
            killed by signal 9
  session 4
     0.000  started  x
     0.000  could not be closed: not permitted (code 2)
            could not be waited for: another cause (code 4)
'''
TEXT = "dejagnu-transcript 2\nsession 1\nstarted 636174 - 612062 22 ff\nsent 610a6209635c1b5b316d0a\nchunk 10 610a\nerrchunk 2500 6f6f7073\nsilence 10000\nend 10\nexited 3\nsession 2\nnostart 1 6e6f6e65\nsession 3\nstarted 78\nnosend 3 00\nnoread 4\nkilled 9\nsession 4\nstarted 78\nnoclose 2\nnowait 4\ndone\n"
BYTES = r'''unix t/a.exp
  session 1
     0.000  started  cat
     0.000  <<  000000  61 62 63 64 65 66 67 68 69 6a 6b 6c 6d 6e 6f 70  |abcdefghijklmnop|
            <<  000010  0a ff 7e 7f                                      |..~.|
'''


def show(*words):
    ran = contrib("show", *words)
    looks.right(f"show {words}", ran.status == 0 and ran.err == "", (ran.status, ran.err))
    return ran.out


def try_form(here):
    """Each kind of entry, in both versions; the tests that are named."""
    path = write(here / "transcripts/unix/t/a.exp.tr", TEXT)
    looks.same("both versions", SHOWN, show(here))
    looks.same("a file by its path", SHOWN.replace("unix t/a.exp", str(path)), show(path))
    write(here / "transcripts/sim/t/b.exp.tr", HEAD + "done\n")
    write(here / "transcripts/unix/t/b.exp.tr", HEAD + "done\n")
    looks.same("several", f"sim t/b.exp\n\n{SHOWN}\nunix t/b.exp\n", show(here))
    for words, titles in ((["b.exp"], "sim t/b.exp\n\nunix t/b.exp\n"), (["sim/t/b.exp"], "sim t/b.exp\n"), (["t/b.exp.tr"], "sim t/b.exp\n\nunix t/b.exp\n"), (["sim t/b.exp", "unix/t/b.exp"], "sim t/b.exp\n\nunix t/b.exp\n")):
        looks.same(str(words), titles, show(here, *words))
    write(path, HEAD + "session 1\nstarted 636174\nchunk 0 6162636465666768696a6b6c6d6e6f700aff7e7f\ndone\n")
    looks.same("--bytes", BYTES, show("--bytes", here, "a.exp"))
    looks.right("no such test", is_fault(contrib("show", here, "c.exp"), "no transcript of c.exp"))
    looks.right("no such folder", is_fault(contrib("show", here / "out"), "can't read"))
    looks.right("no transcripts", is_fault(contrib("show", here / "transcripts"), "no folder"))
    looks.right("a file and a test", is_fault(contrib("show", path, "a.exp"), "is no folder"))


def broken(rng):
    """Texts that are near to a transcript."""
    lines = FIRST.split("\n")
    yield from ("", "\n", HEAD, HEAD + "done", HEAD + "done\n\n", HEAD + "done\ndone\n", "dejagnu-transcript 3\ndone\n", HEAD + "session 2\n", HEAD + "session 1\ndone\n", HEAD + "sent 61\ndone\n")
    yield from (HEAD + f"session 1\nstarted 61\n{it}\ndone\n" for it in ("errchunk 0 61", "chunk 0 6A", "chunk 0 6", "chunk 0", "chunk 00 61", "chunk -1 61", "chunk 3600001 61", "chunk 0 61 ", " chunk 0 61", "chunk  0 61", "sent -", "silence", "silence 1 2", "end 1\nend 1", "closed 1", "exited 256", "killed 0", "killed 128", "noread 5", "exited 0", "chunk 0 " + "61" * 4097, "silence 99999999999999999999", "Chunk 0 61", "started 61", "session 3", "session 1"))
    yield HEAD + "session 1\nstarted" + " 61" * 65 + "\ndone\n"
    yield HEAD + "".join(f"session {it}\nnostart 1 61\n" for it in range(1, 66)) + "done\n"
    yield HEAD + "session 1\nstarted 61\n" + "silence 0\n" * 65536 + "done\n"
    yield HEAD + "session 1\nstarted 61\nsent " + "61" * 1048577 + "\ndone\n"
    for _ in range(60):
        kept = lines[:]
        at = rng.randrange(len(kept) - 1)
        rng.choice([lambda: kept.pop(at), lambda: kept.insert(at, rng.choice(lines)), lambda: kept.__setitem__(at, kept[at][:-1]), lambda: kept.__setitem__(at, kept[at] + rng.choice(" 0af1"))])()
        yield "\n".join(kept)
    yield from (FIRST[:it] for it in rng.sample(range(len(FIRST)), 20))


def try_broken(here):
    """The first bad line and its cause are those that the program tells, and no other text is refused."""
    write(here / "suite/t/a.exp", "pass a\n")
    path, told = here / "out/transcripts/unix/t/a.exp.tr", 0
    for text in [FIRST, *broken(random.Random(7))]:
        write(path, text)
        ours, theirs = contrib("show", here / "out"), runner("--srcdir", here / "suite", "--outdir", here / "out", "--rejudge")
        said = re.search(r" line (\d+) cause (\d)\n", theirs.err)
        if said:
            told += 1
            looks.right(f"broken {text[-60:]!r}", is_fault(ours, f" line {said[1]}: ") and CAUSES[int(said[2])] in ours.err, (ours.status, ours.err[:300], theirs.err))
        else:
            looks.right(f"whole {text[-60:]!r}", ours.status == 0 == theirs.status, (ours.status, ours.err[:300], theirs.err))
    looks.right("most are broken", told > 60, told)
    write(path, HEAD + "x" * 20_000_000)
    looks.right("a long line", is_fault(contrib("show", here / "out"), "line 2"))


def try_long(here):
    """A transcript of many bytes takes little memory."""
    piece = b"a line of some output, as it comes\n" * 28
    with open(here / "long.tr", "wb") as file:
        file.write(b"dejagnu-transcript 1\nsession 1\nstarted 61\n")
        for _ in range(12000):
            file.write(b"chunk 10 %s\n" % piece.hex().encode())
        file.write(b"closed\ndone\n")
    before = memory()
    ran = contrib("show", here / "long.tr")
    looks.same("a long transcript", (0, 12000 * 28 + 4), (ran.status, ran.out.count("\n")))
    looks.right("its memory in MB", memory() <= max(before, 64), (before, memory()))


for it in (try_form, try_long, try_broken):
    with folder() as name:
        it(pathlib.Path(name))
looks.right("examples", all(show(TOP / "examples" / it).startswith(("strict", "unix")) for it in ("sh", "sed", "awk")))
looks.end()
