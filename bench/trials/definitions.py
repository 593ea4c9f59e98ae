"""docs/DEFINITIONS.md is what bench/definitions writes; docs/ARCHITECTURE.md names each crate once, in its order."""
import os
import subprocess

import tools


def try_all(trials):
    made = subprocess.run([os.path.join(tools.TOP, "bench", "definitions")], cwd=tools.TOP, capture_output=True)
    trials.expect("the map", (0, ""), (made.returncode, made.stderr.decode().strip()))
    trials.expect("docs/DEFINITIONS.md is written anew", True,
                  made.stdout.decode() == tools.document("docs/DEFINITIONS.md"))
