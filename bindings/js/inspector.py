#!/usr/bin/env python3
"""Prints inspector.html with the modules of this folder, so that a browser opens it without a server: they are data in an
import map, by their names without `./`, since a page of a file may not import other files."""
import base64
import json
import re
import sys
from pathlib import Path

HOME = Path(__file__).resolve().parent
MODULE = '<script type="module">'


def text_of(path: Path) -> str:
    return re.sub(r"(?<= from ')\./", "", path.read_text("utf-8"))


data = {path.name: base64.b64encode(text_of(path).encode()).decode() for path in sorted(HOME.glob("*.js"))}
imports = {name: f"data:text/javascript;base64,{text}" for name, text in data.items()}
script = f'<script type="importmap">{json.dumps({"imports": imports})}</script>\n{MODULE}'
sys.stdout.write(text_of(HOME / "inspector.html").replace(MODULE, script))
