"""How this tool is called, in its package and in the repository."""

import sys
from pathlib import Path

NAME = "gptp_planner" if Path(sys.argv[0]).name == "gptp_planner" else "planner"
CALL = NAME if NAME == "gptp_planner" else "tools/planner"
