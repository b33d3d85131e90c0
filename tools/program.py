"""Starts a linked program. Run by `tools/run`; the other tools take `command` of it.

usage: tools/run PROGRAM [WORD ..]

What the program prints is passed on. The programs give no exit status, so this gives one: 1 where it said
`refused`, `bad operation` or `differs`, could not compare a case, or told an error on standard error; 2 where there was
nothing to run; and else 0. `rt run` in the crate of a program links it, for x86-64 alone, as out/NAME beside src/.
"""
import os, pathlib, platform, re, subprocess, sys, threading

ROOT = pathlib.Path(__file__).resolve().parent.parent
TOOL = "tools/run" if __name__ == "__main__" else f"tools/{pathlib.Path(sys.argv[0]).name}"
# A listing's lines begin with `#`, `/` or `:`, so nothing that a script has is taken for a refusal or a difference.
WRONG = re.compile(rb"refused \d+|bad operation$|[^#/:].* differs: |cases: \d+ agree, (?!0 differ, 0 not compared$)")


def stop(why, status=2):
    """One line that says what to do."""
    os.write(2, f"{TOOL}: {why}\n".encode())
    sys.exit(status)


def programs():
    return sorted(path.parent.parent.name for path in ROOT.glob("crates/*/src/main.rt"))


def linking(name):
    """The command that proves and links a program, and has it print its usage."""
    return f"(cd crates/{name} && rt run -- --help)"


def command(name):
    """The words that start a program."""
    if name not in programs():
        stop(f"no program {name}: name one of {', '.join(programs())}")
    linked = ROOT / "crates" / name / "out" / name
    if not linked.is_file():
        stop(f"{name} is not linked yet: run `{linking(name)}` first")
    if platform.machine() != "x86_64":
        stop(f"{name} is linked for x86-64: take a machine with such a processor")
    return [str(linked)]


class Passed(threading.Thread):
    """What goes on from the program to an output of this tool, and whether it tells of anything wrong."""

    def __init__(self, source, to, wrong):
        super().__init__()
        self.source, self.to, self.wrong = source, to, wrong
        self.line, self.is_wrong, self.error = b"", False, None
        self.start()

    def run(self):
        while some := os.read(self.source.fileno(), 65536):
            self.look(some)
            try:
                while some:
                    some = some[os.write(self.to, some):]
            except OSError as error:
                self.error = error
                break
        self.look(b"\n")
        self.source.close()

    def look(self, some):
        *lines, self.line = (self.line + some).split(b"\n")
        self.is_wrong |= any(self.wrong.match(line.rstrip(b"\r")) for line in lines)


def started(words):
    """The program takes the input that `tools/run` has left at number 3; where there is none, it has none either."""
    both = {"stdout": subprocess.PIPE, "stderr": subprocess.PIPE}
    try:
        os.fstat(3)
    except OSError:
        return subprocess.Popen(words, preexec_fn=lambda: os.close(0), **both)
    return subprocess.Popen(words, stdin=3, **both)


def main():
    if len(sys.argv) < 2:
        stop(f"name a program: {', '.join(programs())}")
    running = started([*command(sys.argv[1]), *sys.argv[2:]])
    passed = [Passed(running.stdout, 1, WRONG), Passed(running.stderr, 2, re.compile(b"."))]
    for one in passed:
        one.join()
    status = running.wait()
    errors = [one.error for one in passed if one.error]
    if errors:
        stop(f"standard output: {errors[0].strerror}", 1)
    if status:
        stop(f"{sys.argv[1]} ended with status {status}", 1)
    sys.exit(1 if any(one.is_wrong for one in passed) else 0)


if __name__ == "__main__":
    main()
