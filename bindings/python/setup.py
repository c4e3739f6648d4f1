"""Builds the extension module with the library for C, from source.

An sdist has all that it needs. The folder of the repository is built in a copy, which gets the rest from other folders,
so nothing is written into a clone. An editable installation is built in the folder itself.
"""

import contextlib
import shutil
import sys
import tempfile
import tomllib
from pathlib import Path

from setuptools import Extension, setup

# What an sdist has in this folder, and the repository elsewhere.
COPIES = {
    "LICENSE": "LICENSE",
    "multihash_c/multihash.c": "bindings/c/src/multihash.c",
    "multihash_c/multihash.h": "bindings/c/include/multihash.h",
    "multihash_c/multihash_message.h": "bindings/c/include/multihash_message.h",
    "tests/cids.tsv": "crates/vectors/data/cids.tsv",
    "tests/hashes.tsv": "crates/vectors/data/hashes.tsv",
    "tests/messages.tsv": "crates/vectors/data/messages.tsv",
    "tests/rows.tsv": "crates/mh_show/rows.tsv",
    "tests/values.tsv": "crates/vectors/data/values.tsv",
    "tests/verdicts.tsv": "crates/vectors/data/verdicts.tsv",
}
HERE = Path.cwd()


def add_copies(folder: Path) -> None:
    (folder / "multihash_c").mkdir(exist_ok=True)
    for name, path in COPIES.items():
        shutil.copyfile(HERE / "../.." / path, folder / name)


def build() -> None:
    oldest = tomllib.loads(Path("pyproject.toml").read_text("utf-8"))["project"]["requires-python"]
    minor = int(oldest.removeprefix(">=3."))
    core = Extension(
        "verified_multihash._core",
        ["src/arguments.c", "src/core.c", "src/reader.c", "src/value.c", "multihash_c/multihash.c"],
        include_dirs=["multihash_c"],
        define_macros=[("Py_LIMITED_API", f"0x03{minor:02x}0000")],
        extra_compile_args=["/std:c11"] if sys.platform == "win32" else ["-std=c11", "-fvisibility=hidden"],
        extra_link_args=["-Wl,-z,now"] if sys.platform == "linux" else [],
        py_limited_api=True,
    )
    # The files of an earlier build may be as new as those here, or newer.
    force = {"force": True}
    options = {"bdist_wheel": {"py_limited_api": f"cp3{minor}"}, "build_ext": force, "build_py": force}
    setup(license="MIT", ext_modules=[core], options=options)


if Path("PKG-INFO").exists():
    build()
elif "editable_wheel" in sys.argv:
    add_copies(HERE)
    build()
else:
    with tempfile.TemporaryDirectory() as copy, contextlib.chdir(copy):
        shutil.copytree(HERE, copy, ignore=shutil.ignore_patterns("*.egg-info", "*.so", "build"), dirs_exist_ok=True)
        add_copies(Path(copy))
        build()
