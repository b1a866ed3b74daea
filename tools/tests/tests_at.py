"""Where the repository and its parts are, and how the tests run a tool."""
import subprocess
import sys
from pathlib import Path

TOP = Path(__file__).resolve().parents[2]
TOOLS = TOP / "tools"
EXAMPLES = TOP / "examples"


def run(tool, text, *words, folder=None):
    """What a tool makes of a text on standard input."""
    return subprocess.run([sys.executable, TOOLS / tool, *words], input=text, capture_output=True,
                          encoding="utf-8", cwd=folder, check=False)
