"""The proved programs, run."""
import os
import subprocess

from . import build
from .ends import Failure


def run(name, given, words=()):
    """What a program prints that is given these bytes as its input and these words."""
    path = build.program(name)
    try:
        done = subprocess.run([os.path.join(build.ROOT, "tools", "x86-64"), "run", path, *words], input=given, stdout=subprocess.PIPE, check=False)
    except OSError as error:
        raise Failure(f"the program cannot be run: {build.problem(error)}") from error
    if done.returncode != 0:
        raise Failure(f"the program ended with status {done.returncode}")
    return done.stdout.decode("ascii", errors="replace")
