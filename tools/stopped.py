"""Runs a script of Python and stops it at one of its renames, for tools/try_checks.

    python3 tools/stopped.py COUNT WAY SCRIPT WORD ..

COUNT is how many renames are made before. WAY is the name of a signal, which comes before that rename; with `after` before it, as in
`afterSIGKILL`, behind it. `error`: the rename fails; `errors`: that and the next one; `errorSIGTERM`: it fails, and the signal comes before
each later one.
"""
import os
import runpy
import signal
import sys

COUNT, WAY = int(sys.argv[1]), sys.argv[2]
made = 0


def stopping(rename):
    """A rename that is stopped when its time has come."""

    def call(path, to):
        global made
        late, made = made - COUNT, made + 1
        if late == 0 and WAY.startswith("error") or late == 1 and WAY == "errors":
            raise OSError(f"rename {COUNT} fails")
        if late == 0 and WAY.startswith("SIG") or late > 0 and WAY.startswith("errorSIG"):
            os.kill(os.getpid(), signal.Signals[WAY.removeprefix("error")])
        rename(path, to)
        if late == 0 and WAY.startswith("after"):
            os.kill(os.getpid(), signal.Signals[WAY.removeprefix("after")])

    return call


os.rename, os.replace = stopping(os.rename), stopping(os.replace)
sys.argv = sys.argv[3:]
runpy.run_path(sys.argv[0], run_name="__main__")
