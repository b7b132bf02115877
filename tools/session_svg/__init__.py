"""The parts of session-svg: labels in words, the story of a session, the layout and the drawing."""

import sys
from pathlib import Path

sys.path.insert(0, str(Path(__file__).resolve().parents[2] / "clients" / "python"))
