"""The command of a check: it checks functions, or makes wrong edits, each in a copy of the files, and shows that the check
rejects each for its reason."""
import shutil
import subprocess
import sys
from collections.abc import Callable, Mapping, Sequence
from functools import partial
from multiprocessing import Pool
from multiprocessing.pool import ThreadPool
from os import cpu_count
from pathlib import Path
from tempfile import TemporaryDirectory

ROOT = Path(__file__).parents[1]
# The function whose check has to reject it, the text, what is put in its place, and how the reason starts.
Edit = tuple[str, str, str, str]


def verdict(check: str, files: Sequence[str], edit: Edit) -> tuple[bool, str]:
    """Whether a check rejects an edit for its reason, and a line that says so."""
    function, old, new, reason = edit
    with TemporaryDirectory() as root:
        shutil.copytree(ROOT / "proof", Path(root, "proof"), ignore=shutil.ignore_patterns("__pycache__"))
        for file in files:
            Path(root, file).parent.mkdir(parents=True, exist_ok=True)
            shutil.copy(ROOT / file, Path(root, file))
        paths = [path for path in Path(root).rglob("*.*") if not path.name.startswith("wrong_")]
        texts = {path: path.read_text("utf-8") for path in paths if path.is_file()}
        found = [path for path, text in texts.items() if old in text]
        if len(found) != 1 or texts[found[0]].count(old) != 1:
            return False, f"{function}: no file, or not once, has the text: {old}"
        found[0].write_text(texts[found[0]].replace(old, new), "utf-8")
        command = [sys.executable, f"{root}/proof/{check}", function]
        run = subprocess.run(command, stdout=subprocess.PIPE, stderr=subprocess.STDOUT, text=True)
    lines = run.stdout.splitlines()
    rejections = [line for line in lines if f" {function}: REJECTED: " in line]
    is_right = any(f" {function}: REJECTED: {reason}" in line for line in rejections) and run.returncode == 1
    said = (rejections or lines[-1:] or [""])[0].strip()
    because = "" if is_right else f"NOT REJECTED with the reason {reason}: "
    return is_right, f"{because}{said[:200]}\n    for {new or 'nothing'} in place of {old}"


def main(
    check: str,
    files: Sequence[str],
    groups: Mapping[str, Callable[[str], str]],
    names: Callable[[], list[str]],
    edits: Sequence[Edit],
) -> int:
    """Prints a line for each function of each group, or for each edit of the functions. Returns 1 if one is not right."""
    wanted, failed = [name for name in sys.argv[1:] if name != "--wrong"], False
    if "--wrong" in sys.argv:
        rows = [edit for edit in edits if not wanted or edit[0] in wanted]
        with ThreadPool(cpu_count()) as threads:
            for is_right, line in threads.imap(partial(verdict, check, files), rows):
                print(line, flush=True)
                failed |= not is_right
        return failed
    wanted = wanted or names()
    with Pool() as processes:
        for group, result in groups.items():
            print(group)
            for line in processes.imap(result, wanted):
                print(f"  {line}", flush=True)
                failed |= "REJECTED" in line
    return failed
