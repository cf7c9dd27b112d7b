"""Counts instructions by valgrind's callgrind: what a thousand lines more cost, so that the start of the program does not count.
usage: values.py PROGRAM"""
import re
import subprocess
import sys
import tempfile


def instructions(program, asked):
    with tempfile.TemporaryDirectory() as room:
        words = ["valgrind", "--tool=callgrind", f"--callgrind-out-file={room}/out", program]
        ran = subprocess.run(words, input=asked, capture_output=True, check=False)
        said = ran.stderr.decode(errors="replace")
        found = re.search(r"Collected : (\d+)", said)
        if found is None:
            sys.exit(f"valgrind did not count: {said[-300:]}")
        return int(found[1])


def a_line(program, kind):
    few, many = (instructions(program, kind + bytes([count])) for count in (1, 3))
    return (many - few) / 2000


def main():
    program = sys.argv[1]
    text = a_line(program, b"ta")
    print(f"a line of text of 85 bytes: {text:.0f} instructions, {text / 85:.2f} a byte")
    value = a_line(program, b"va")
    print(f"a string of 8,000 bytes, interpolated: {value / 8000:.2f} a byte")
    for names, word in ((b"a", "10"), (b"b", "1,024")):
        print(f"a call of a macro beside {word} names: {a_line(program, b'c' + names):.0f} a line")


if __name__ == "__main__":
    main()
