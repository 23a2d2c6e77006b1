"""The parts of the tests: the part NAME is the file tests/FOLDER/test_NAME.py. Importing this module makes all modules below
tests/ importable by their names, which differ."""
import glob
import os
import sys

from crates import ROOT

FOLDERS = sorted(os.path.basename(os.path.dirname(path)) for path in glob.glob(f"{ROOT}/tests/*/"))
PARTS = {os.path.basename(path)[len("test_"):-len(".py")]: folder
         for folder in FOLDERS for path in sorted(glob.glob(f"{ROOT}/tests/{folder}/test_*.py"))}
sys.path[1:1] = [f"{ROOT}/tests/{folder}" for folder in FOLDERS]


def of(*folders):
    """The parts in these folders."""
    return {name for name, folder in PARTS.items() if folder in folders}
