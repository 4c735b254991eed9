"""A checkout whose rt and program are stand-ins: nothing is proved, and every failure can be had."""
import os
import shutil
import subprocess
import tempfile

from testing import ROOT, contents, path

# As `rt run` does, it links the program, runs it, and ends as that ends; what it says itself goes to standard error.
RT = """#!/bin/sh
echo "$*" >>"$STANDIN/calls"
echo $$ >"$STANDIN/rt.pid"
while [ -n "${STANDIN_WAIT:-}" ] && [ ! -e "$STANDIN/go" ]; do
    sleep 0.05
done
for crate in lists flashlist; do
    sleep "${STANDIN_PAUSE:-0}"
    echo "crate $crate: modules loaded=0 checked=1" >&2
done
mkdir -p out && cp "$STANDIN/program" out/flashlist || exit 2
echo "rt: running out/flashlist" >&2
cat >"$STANDIN/given"
printf '%s' "${STANDIN_WRITES:-as ruled}"
exit "${STANDIN_STATUS:-0}"
"""
PROGRAM = """#!/bin/sh
cat >/dev/null
cat "$STANDIN/prints"
exit "${STANDIN_PROGRAM:-0}"
"""


def put(file, text, mode=0o644):
    os.makedirs(os.path.dirname(file), exist_ok=True)
    with open(file, "w", encoding="utf-8") as opened:
        opened.write(text)
    os.chmod(file, mode)


class Checkout:
    """The command in a folder of its own; `job` is the one square's."""

    def __enter__(self):
        self.temporary = tempfile.TemporaryDirectory()
        self.folder = os.path.realpath(self.temporary.name)
        os.chmod(self.folder, 0o755)
        self.root, self.standin = os.path.join(self.folder, "checkout"), os.path.join(self.folder, "standin")
        os.makedirs(self.root)
        shutil.copy(os.path.join(ROOT, "flashlist"), self.root)
        shutil.copytree(os.path.join(ROOT, "tools"), os.path.join(self.root, "tools"), ignore=shutil.ignore_patterns("__pycache__"))
        put(self.inside("tools/x86-64"), '#!/bin/sh\nshift\nexec "$@"\n', 0o755)
        put(self.inside("crates.txt"), "# a line for each crate\nlists:\nlists_c staticlib: lists\nflashlist: lists thiserror\n")
        put(self.inside("crates/lists/src/lib.rt"), "// lists\n")
        put(self.inside("crates/flashlist/src/main.rt"), "// flashlist\n")
        put(self.inside("crates/flashlist/stdin"), "the example\n")
        put(self.inside("crates/flashlist/stdout"), "as ruled")
        put(os.path.join(self.standin, "bin", "rt"), RT, 0o755)
        put(os.path.join(self.standin, "program"), PROGRAM, 0o755)
        self.script, self.job = self.inside("flashlist"), path("one-square", ".job")
        self.list = contents("one-square", ".out")
        self.prints(self.list)
        self.environment = {name: value for name, value in os.environ.items() if name not in ("COLUMNS", "PYTHONIOENCODING")}
        self.environment.update(STANDIN=self.standin, PATH=f"{os.path.join(self.standin, 'bin')}:{os.environ['PATH']}",
                                PYTHONUTF8="1")
        return self

    def __exit__(self, *_):
        self.temporary.cleanup()

    def inside(self, name):
        return os.path.join(self.root, name)

    def prints(self, text):
        """What the program prints from now on, whatever it is given."""
        put(os.path.join(self.standin, "prints"), text)

    def said(self, name):
        """What a stand-in noted."""
        try:
            with open(os.path.join(self.standin, name), encoding="ascii") as file:
                return file.read()
        except FileNotFoundError:
            return ""

    def calls(self):
        """How often rt was called."""
        return len(self.said("calls").splitlines())

    def start(self, *words, env=None, **more):
        more = {"stdin": subprocess.DEVNULL, "stdout": subprocess.PIPE, "stderr": subprocess.PIPE, "cwd": self.root, **more}
        return subprocess.Popen([self.script, *words], env={**self.environment, **(env or {})}, **more)

    def run(self, *words, given=None, **more):
        """Standard output, standard error and exit status of a call."""
        if given is not None:
            more["stdin"] = subprocess.PIPE
        with self.start(*words, **more) as process:
            printed, said = process.communicate(given)
        return (printed or b"").decode(), (said or b"").decode(), process.returncode
