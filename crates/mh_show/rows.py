#!/usr/bin/env python3
"""Runs mh_show, in Rattle or in C, on each line of rows.tsv, and over streams that fail: rows.py PROGRAM. Prints the runs
that are wrong: what was wanted, and what was found."""
import re
import subprocess
import sys
from pathlib import Path

SHOWN, NOT_READ = "code 22\nsize 1\ndigest 00\n0\n", "mh_show: input not read\n1\n"
NOT_WRITTEN, NOT_HEX = "mh_show: output not written\n1\n", "mh_show: not hexadecimal\n1\n"
# commands of Bash, and what they write to both streams, with the status
STREAMS = (
    ("{ printf 16; sleep 0.1; printf 010; sleep 0.1; printf 0; } | mh_show", SHOWN),
    ("mh_show --help 1603 - <<< 160100", SHOWN),
    (r"printf '0000\0' | mh_show", NOT_HEX),
    ("mh_show < /dev/zero", NOT_READ),
    ("mh_show < /", NOT_READ),
    ("mh_show <&-", NOT_READ),
    ("mh_show < / > /dev/full", NOT_READ),
    ("mh_show <<< 160100 > /dev/full", NOT_WRITTEN),
    ("mh_show <<< 160100 >&-", NOT_WRITTEN),
    ("exec 3> >(:); wait $!; mh_show <<< 160100 >&3", NOT_WRITTEN),
    ("mh_show <<< 160100 2> /dev/full", SHOWN),
    ("mh_show <<< zz 2> /dev/full", "1\n"),
    ("mh_show <<< zz 2>&-", "1\n"),
    ("mh_show <<< zz > /dev/full", NOT_HEX),
)


def errors(program: str) -> list[str]:
    wrong = []
    for line in Path(__file__).with_name("rows.tsv").read_text("utf-8").splitlines():
        if line.startswith("#"):
            continue
        text = re.sub(r"\{(\w+)\*(\d+)\}", lambda found: found[1] * int(found[2]), line)
        given, output, reason, status = text.replace(r"\n", "\n").replace(r"\r", "\r").split("\t")
        ran = subprocess.run([program], input=given.encode(), capture_output=True, timeout=120)
        wanted = (output, f"mh_show: {reason}\n" if reason else "", status)
        found = (ran.stdout.decode(), ran.stderr.decode(), str(ran.returncode))
        if found != wanted:
            wrong.append(f"{line}: {wanted}, {found}")
    for command, wanted_text in STREAMS:
        words = ["bash", "-c", 'mh_show() { "$0" "$@"; }; ulimit -t 120; { %s; } 2>&1; echo $?' % command, program]
        shown = subprocess.check_output(words).decode()
        if shown != wanted_text:
            wrong.append(f"{command}: {wanted_text!r}, {shown!r}")
    return wrong


if __name__ == "__main__":
    sys.exit("\n".join(errors(sys.argv[1])) or None)
