"""The command `pumdalin`: listings and sheets in, what the proved calls answer out.

Nothing is reckoned here. What is said of a sheet comes from the proved calls of the
shared library; what is added to it, such as a column, is called a hint.
"""

from pathlib import Path

VERSION = Path(__file__).with_name("VERSION").read_text(encoding="ascii").strip()
