#!/usr/bin/env python3
"""Takes the C example out of README.md, builds it over target/staticlib/libkelvrist.a as the page says, and runs it."""
import re
import subprocess
import sys
from pathlib import Path

TOP = Path(__file__).resolve().parent.parent


def main():
    page = (TOP / "README.md").read_text()
    (code,) = re.findall(r"```c\n(.*?)```", page, re.S)
    lines = re.findall(r"`(task \d+ on processor \d+ at \d+)`", page)
    folder = TOP / "target" / "readme"
    folder.mkdir(parents=True, exist_ok=True)
    (folder / "example.c").write_text(code)
    build = ["cc", "-Wall", "-Wextra", "-Werror", "-Iinclude", "-o", "target/readme/example", "target/readme/example.c",
             "target/staticlib/libkelvrist.a"]
    subprocess.run(build, cwd=TOP, check=True)
    run = subprocess.run([folder / "example"], stdout=subprocess.PIPE, text=True)
    if run.returncode != 0 or run.stdout.splitlines() != lines or len(lines) != 3:
        sys.exit(f"the README's example ends with {run.returncode} and prints {run.stdout!r}; the page says {lines}")
    print("README: the C example builds, and prints what the page says")


main()
