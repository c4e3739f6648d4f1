#!/usr/bin/env python3
"""Runs the programs of README.md and of a language's page, as a reader would: without a network, in a new folder, in which
the commands of README.md install the package.

    page_programs.py FOLDER LANGUAGE BEFORE     BEFORE comes before each command

The first line of a program has the name of its file and the command that runs it. It prints the block of text after it;
on README.md each prints SHOWN. By default nothing is proved: `rt try` in place of `rt run` runs a program in Rattle. A
program of a page that verifies content by a CID, which the block before it sets, rejects other content.
"""
import os
import re
import subprocess
import sys
from pathlib import Path

from pages import FENCE, README, TOP, read

HEAD = re.compile(r"(?://|#) (\S+\.(\w+)): (.*)\n")
SHOWN = re.findall(r"`(code \d+, digest \w+)`", read(README))[0] + "\n"


def run(commands: str, folder: Path, wanted: str | None = None) -> str:
    """Runs commands of Bash in a folder beside the clone, where they print a text, and returns what is wrong."""
    variables = {**os.environ, "MH": str(folder.with_name("clone"))}
    if "ALL" not in os.environ:
        commands = commands.replace("rt run", "rt try")
    ran = subprocess.run(["bash", "-ec", commands], cwd=folder, env=variables, capture_output=True, text=True)
    if ran.returncode == 0 and wanted in (None, ran.stdout):
        return ""
    return f"{commands}\nstatus {ran.returncode}\n{(ran.stdout + ran.stderr)[-900:]}\nwanted {wanted}\n"


def page_errors(page: str, ending: str, folder: Path, before: str) -> str:
    blocks, errors = [*FENCE.findall(read(page)), ("", "")], ""
    for at, (_, text) in enumerate(blocks):
        head = HEAD.match(text)
        if not head or head[2] != ending or (page != README and blocks[at + 1][0] != "text"):
            continue
        (folder / head[1]).parent.mkdir(parents=True, exist_ok=True)
        (folder / head[1]).write_text(text, "utf-8")
        wanted = SHOWN if page == README else blocks[at + 1][1]
        if "$CID" not in head[3]:
            errors += run(f"{before}\n{head[3]}", folder, wanted)
        else:
            given = f"{before}\n{blocks[at - 1][1]}{head[3]}"
            other = given.replace("hello world", "other content")
            errors += run(given, folder, wanted)
            errors += run(f"{other} || [ $? = 1 ]", folder, "false\n" if wanted == "true\n" else "False\n")
    return errors


def main(work: Path, name: str, before: str) -> str:
    (folder := work / name).mkdir(parents=True)
    (clone := work / "clone").mkdir(exist_ok=True)
    run(f"git ls-files -co --exclude-standard -z | tar -c --null -T - 2> /dev/null | tar -x -C '{clone}'", TOP)
    if name == README:
        commands = "".join(body for language, body in FENCE.findall(read(README)) if language == "sh")
        return run(commands, clone, read("crates/mh_show/stdout") * len(re.findall(" [<|] ", commands)))
    page = re.findall(rf"^\| \[{name}[^\]]*\]\(([^)]*)\)", read(README), re.M)[0]
    install = re.findall(rf"^# {name}\b.*\n((?:[^#`].*\n)+)", read(README), re.M)[0]
    ending = {"JavaScript": "mjs", "Python": "py", "Rust": "rs", "C": "c", "Rattle": "rt"}[name]
    errors = run(f"{before}\n{install}", folder) or page_errors(README, ending, folder, before)
    if name != "Rattle":
        errors += page_errors(page, ending, folder, before)
    return errors


if __name__ == "__main__":
    sys.exit(main(Path(sys.argv[1]), sys.argv[2], "".join(sys.argv[3:])) or None)
