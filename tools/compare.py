#!/usr/bin/env python3
"""Compares the built program with the independent reader of check.py on books with random faults.

    python3 tools/compare.py COUNT SEED

Needs target/bin/translator. Answers how many books were compared, and each difference.
"""
import os
import subprocess
import sys
import tempfile

TOP = os.path.dirname(os.path.dirname(os.path.abspath(__file__)))
PROGRAM = os.path.join(TOP, "target", "bin", "translator")


def main():
    count, seed = sys.argv[1], sys.argv[2]
    with tempfile.TemporaryDirectory() as folder:
        tool = os.path.join(TOP, "tools", "books.py")
        subprocess.run([sys.executable, tool, "fuzz", folder, count, seed], check=True, stdout=subprocess.DEVNULL)
        judge = os.path.join(TOP, "tools", "check.py")
        answers = subprocess.run([sys.executable, judge, "--folder", folder], check=True, capture_output=True, text=True)
        different = compared = 0
        for line in answers.stdout.splitlines():
            name, wanted = line.split(" ", 1)
            run = subprocess.run([PROGRAM, "check", os.path.join(folder, name)], capture_output=True, text=True)
            first = run.stdout.split("\n", 1)[0]
            told = first if first.startswith("- ") else "ok"
            compared += 1
            if told != wanted or run.returncode != (0 if told == "ok" else 1):
                different += 1
                print(f"{name}: {wanted!r} wanted, {told!r} told, status {run.returncode}")
        print(f"{compared} books compared, {different} different")
        return 1 if different else 0


sys.exit(main())
