"""What a test over the source is asked: of which crates, and whether to list all."""

import argparse
from pathlib import Path

from source import ROOT


def asked(description):
    options = argparse.ArgumentParser(
        description=description, formatter_class=argparse.RawDescriptionHelpFormatter)
    options.add_argument("--crates", type=Path, default=ROOT / "crates")
    options.add_argument("--list", action="store_true")
    return options.parse_args()
