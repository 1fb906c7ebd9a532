"""Leads to the command's package: what the reckoning takes of it is read from ../command, and no file stands twice."""

from pathlib import Path

PACKAGE = Path(__file__).resolve().parents[2] / "command" / "pumdalin"
__path__ = [str(PACKAGE)]
VERSION = (PACKAGE / "VERSION").read_text(encoding="ascii").strip()
