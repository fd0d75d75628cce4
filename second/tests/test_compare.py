"""The comparison harness itself: it passes a right program and fails each kind of wrong one.

The program here is the second program behind the stream of one comparison, with its output spoiled on demand.
"""

import os
import subprocess
import sys
import tempfile
from runpy import run_path

from second.tests.samples import ROOT
from stream import Run

COMPARE = os.path.join(ROOT, "tests", "compare")
LINES = 15000  # of the comparison of given values
PROGRAM = """
import os, sys
sys.path[:0] = [{root!r}, os.path.join({root!r}, "tests")]
from gen_given import answer
from stream import Reader
reader, lines = Reader(sys.stdin.buffer.read()), []
while not reader.ended():
    lines.append(" ".join("%016x" % word for word in answer(reader)))
{spoil}
sys.stdout.write("".join(line + "\\n" for line in lines))
"""


def compared(*arguments, spoil=""):
    """Exit status and last line of a comparison of given values with the program spoiled."""
    with tempfile.TemporaryDirectory() as folder:
        program = os.path.join(folder, "program.py")
        with open(program, "w") as file:
            file.write(PROGRAM.format(root=ROOT, spoil=spoil))
        arguments = arguments or ("given=%s %s" % (sys.executable, program),)
        done = subprocess.run([sys.executable, COMPARE, *arguments], stdout=subprocess.PIPE, cwd=folder)
    return done.returncode, done.stdout.decode().split("\n")[-2]


def counted(equal, different):
    return "%d passed, %d failed" % (equal, different)


def test_a_right_program_passes():
    assert compared() == (0, counted(LINES, 0))


def test_one_wrong_digit_fails():
    assert compared(spoil="lines[7] = lines[7][:-1] + '?'") == (1, counted(LINES - 1, 1))


def test_missing_and_extra_lines_fail():
    assert compared(spoil="lines.pop()") == (1, counted(LINES - 1, 1))
    assert compared(spoil="lines.append(lines[-1])") == (1, counted(LINES, 1))
    assert compared(spoil="lines.clear()") == (1, counted(0, LINES))


def test_a_bad_end_fails():
    assert compared(spoil="import atexit; atexit.register(os._exit, 3)")[0] == 1
    assert compared(spoil="lines[-1] += '\\n0'; sys.stdout.write(' ')")[0] == 1


def test_no_program_fails():
    assert compared("given=no-such-program-here")[0] == 1
    assert compared("no_such_comparison") == (1, counted(0, 1))


def test_words_stand_behind_the_command():
    output_of = run_path(COMPARE)["output_of"]
    show = [sys.executable, "-c", "import sys; print(sys.argv[1:])"]
    for words in ((), ("53",), ("", "x y", "32")):
        assert output_of(show, Run({}, b"", [], words)) == ([str(list(words))], None)
