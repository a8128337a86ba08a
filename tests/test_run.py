#!/usr/bin/env python3
"""tests/run, .ci/run and .ci/report themselves: what they count, that what is missing
counts as failed, in which order programs that run at once are shown, and what is taken
for a refusal by a fact.  Their commands are replaced by stand-ins."""

import importlib.machinery
import importlib.util
import os
import shutil
import subprocess
import sys
import tempfile
import threading
import time

from tally import HERE, Tally

ROOT = os.path.dirname(HERE)


def load(path=os.path.join(HERE, "run")):
    """tests/run, or another program, as a module."""
    name = os.path.basename(path)
    loader = importlib.machinery.SourceFileLoader(name, path)
    module = importlib.util.module_from_spec(importlib.util.spec_from_loader(name, loader))
    loader.exec_module(module)
    return module


RUST = "test result: ok. %d passed; 0 failed; 0 ignored\n"


def tried(missing=None, broken=None, rust=RUST % 5, seal=True):
    """(passed, failed) with one tool missing, or failing, the others right."""
    module = load()
    counted = module.Results()

    class Done:
        def __init__(self, name):
            self.returncode, self.stdout = int(name == broken), rust

    def stand_in(command, **options):
        name = "python" if command[0] == sys.executable else command[0]
        if name == missing:
            raise FileNotFoundError(name)
        return Done(name)

    with tempfile.TemporaryDirectory() as room:
        here = os.getcwd()
        os.chdir(room)
        try:
            os.makedirs("target/bin")
            if seal:
                open("target/bin/seal", "w", encoding="utf-8").close()
            real, module.subprocess.run = module.subprocess.run, stand_in
            try:
                if module.build(counted):
                    for name in ("a.py", "b.py"):
                        module.python_program(counted, name, [])
                    module.c_program(counted, "tests/c/door.c")
                    module.rust_crate(counted)
            finally:
                module.subprocess.run = real
        finally:
            os.chdir(here)
    return counted.passed, counted.failed


TIMEOUT = 60


def check_order(tally):
    """Jobs that wait for each other: how many run at once, in which order they are started and shown."""
    module = load()
    first, long = module.REFERENCE, list(module.LONGEST)

    def tried_jobs(names, at_a_time, job):
        """The names shown, with what their jobs said, and counts."""
        shown, counted = [], [0, 0]

        def show(name, results, seconds):
            shown.append((name, results.said))
            counted[0] += results.passed
            counted[1] += results.failed
            tally.equal(seconds >= 0, True, "seconds of a job")

        module.run_jobs([(name, lambda results, name=name: job(results, name)) for name in names], at_a_time, show)
        return shown, tuple(counted)

    # Each ends only after the one behind it has ended, and says two lines.
    names = ["a", "b", "c"]
    ended = {name: threading.Event() for name in names + ["d"]}
    ended["d"].set()

    def backwards(results, name):
        results.say(name + " begins")
        right = ended[chr(ord(name) + 1)].wait(TIMEOUT)
        results.say(name + " ends")
        results.add(name, right)
        ended[name].set()

    in_order = [(name, "%s begins\n%s ends\n" % (name, name)) for name in names]
    tally.equal(tried_jobs(names, 3, backwards), (in_order, (3, 0)), "jobs that end in the other order")

    # Never more at once than asked; each once, the longest first.
    for at_a_time in (1, 2, 3, 20):
        lock, running, most, started = threading.Lock(), set(), [0], []

        def busy(results, name):
            with lock:
                running.add(name)
                started.append(name)
                most[0] = max(most[0], len(running))
            time.sleep(0.01)
            with lock:
                running.remove(name)
            results.add(name, True)

        names = [first, "x", "y", *long[::-1], "z"]
        shown, counted = tried_jobs(names, at_a_time, busy)
        what = "%d at a time" % at_a_time
        tally.equal(([name for name, _ in shown], counted), (names, (len(names), 0)), what + ": the order shown")
        tally.equal((most[0] <= at_a_time, sorted(started)), (True, sorted(names)), what + ": at once, and each once")
        if at_a_time == 1:
            tally.equal(started, [first, *long, "x", "y", "z"], "the longest are started first")

    # A job that raises is counted, and the others are run.
    def raising(results, name):
        if name == "b":
            raise ValueError("out of order")
        results.add(name, name != "c")

    shown, counted = tried_jobs(["a", "b", "c", "d"], 2, raising)
    tally.equal(counted, (2, 2), "a job that raises and one that fails")
    texts = dict(shown)
    tally.equal(("ValueError: out of order\nFAILED: b\n" in texts["b"], texts["c"]), (True, "FAILED: c\n"), "what is said of them")


PROGRAMS = {
    "reference/simd_ref.py": "print('reference')",
    "test_a.py": "import os, sys, time\nprint('a 1', flush=True)\n"
                 "while not os.path.exists('b-ended') and '--wait' in os.environ.get('TRIED', ''):\n    time.sleep(0.01)\n"
                 "print('a 2', sys.argv[1:])",
    "test_b.py": "print('b 1')\nopen('b-ended', 'w').close()",
    "test_crash.py": "import os\nprint('crash', flush=True)\nos.kill(os.getpid(), 9)",
    "test_fails.py": "import sys\nprint('fails')\nprint('to standard error', file=sys.stderr)\nsys.exit(1)",
    "test_random.py": "import sys\nprint('random', sys.argv[1:])",
}
WHOLE = """reference
a 1
a 2 []
b 1
crash
%s -B tests/test_crash.py: ended by signal 9
FAILED: tests/test_crash.py
fails
to standard error
FAILED: tests/test_fails.py
random ['--seed', '7', '--count', '8']
rust: 5 tests passed, 0 failed
5 passed, 2 failed
""" % sys.executable


def check_whole(tally):
    """tests/run over some programs of its own: the same lines, however many run at a time."""
    with tempfile.TemporaryDirectory() as room:
        for folder in ("tests/reference", "tools", "target/bin", "bin"):
            os.makedirs(os.path.join(room, folder))
        shutil.copy(os.path.join(HERE, "run"), os.path.join(room, "tests", "run"))
        texts = {"tests/" + name: text + "\n" for name, text in PROGRAMS.items()}
        texts["target/bin/seal"] = ""
        for name in ("tools/build", "bin/gcc", "bin/g++", "bin/valgrind"):
            texts[name] = "#!/bin/sh\nexit 0\n"
        texts["bin/cargo"] = "#!/bin/sh\nprintf '%s'\n" % (RUST % 5)
        for name, text in texts.items():
            with open(os.path.join(room, name), "w", encoding="utf-8") as f:
                f.write(text)
            os.chmod(os.path.join(room, name), 0o755)

        def whole(arguments, **variables):
            env = dict(os.environ, PATH=os.path.join(room, "bin") + ":" + os.environ["PATH"], **variables)
            done = subprocess.run([sys.executable, "-B", os.path.join(room, "tests", "run"), *arguments], env=env,
                                  stdout=subprocess.PIPE, stderr=subprocess.PIPE, text=True, timeout=TIMEOUT)
            if os.path.exists(os.path.join(room, "b-ended")):
                os.remove(os.path.join(room, "b-ended"))
            return done.stdout, done.stderr, done.returncode

        chosen = ["--seed", "7", "--count", "8"]
        tally.equal(whole(chosen + ["--jobs", "1"], TEST_JOBS="3"), (WHOLE, "", 1), "one at a time")
        tally.equal(whole(chosen + ["--jobs", "2"], TRIED="--wait"), (WHOLE, "", 1), "two at a time")
        tally.equal(whole(chosen, TEST_JOBS="3", TRIED="--wait"), (WHOLE, "", 1), "TEST_JOBS")
        tally.equal(whole(chosen, TEST_JOBS=""), (WHOLE, "", 1), "as many as processors")
        out, _, status = whole(chosen + ["--times"])
        tally.equal((out.startswith(WHOLE[:-len("5 passed, 2 failed\n")]), out.endswith("\n5 passed, 2 failed\n"),
                     out.count(" s  "), status), (True, True, 7, 1), "--times")
        for wrong in ("0", "-1", "two", "1.5", ""):
            out, err, status = whole(["--jobs=" + wrong])
            tally.equal((out, "is no number of jobs" in err, status), ("", True, 2), "--jobs=" + wrong)
        tally.equal(whole([], TEST_JOBS="many")[::2], ("", 2), "TEST_JOBS=many")
        for name in ("test_crash.py", "test_fails.py"):
            os.remove(os.path.join(room, "tests", name))
        out, _, status = whole([])
        tally.equal((out.splitlines()[-1], status), ("5 passed, 0 failed", 0), "all passed")
        os.remove(os.path.join(room, "target/bin/seal"))
        tally.equal(whole([]), ("FAILED: seal\n0 passed, 1 failed\n", "", 1), "nothing to test")


def gate(parts):
    """(the last line, the status) of .ci/run if its two parts print these."""
    with tempfile.TemporaryDirectory() as room:
        for folder in (".ci", "tests", "bin"):
            os.mkdir(os.path.join(room, folder))
        with open(os.path.join(ROOT, ".ci", "run"), encoding="utf-8") as f:
            texts = {".ci/run": f.read()}
        for name, (text, status) in zip(("bin/rt", "tests/run"), parts):
            texts[name] = "#!/bin/sh\nprintf '%s'\nexit %d\n" % (text, status)
        for name, text in texts.items():
            with open(os.path.join(room, name), "w", encoding="utf-8") as f:
                f.write(text)
            os.chmod(os.path.join(room, name), 0o755)
        done = subprocess.run([os.path.join(room, ".ci", "run")], stdout=subprocess.PIPE, text=True,
                              env=dict(os.environ, PATH=os.path.join(room, "bin") + ":" + os.environ["PATH"]))
    return done.stdout.splitlines()[-1], done.returncode


# What the prover says of an edit, what the edit brings along, and how .ci/report is to take it.
REFUSED = "proofs/f/Proof.antt:1:2: error: `returns`: "
LOGS = (("", "", "unknown"),
        (REFUSED + "`omega`: the goal does not follow\n", "", "fact"),
        (REFUSED + "expected type `tie.A`, but this has type `tie.B`\n", "", "shape"),
        (REFUSED + "something new\n", "", "unknown"),
        (REFUSED + "`g` was not admitted (it was rejected), so this cannot be checked\n", "", "unknown"),
        ("fn x::m::f: no proof: no file; `search` does not close `returns`\n", "new: mod m { }\n", "unknown"),
        ("note: a:1:2: it is not proved that n is 3\nfn x::f: no proof: no file; `search` does not close `returns`\n", "", "fact"))


# What rt says of an edit, and the status of a report on it.
SAID = (("refused, as it must be: " + LOGS[1][0].strip(), 0),
        ("NOT REFUSED: the crate is still proved with this edit (one that means the same as before cannot be refused: remove it)", 1),
        ("NOT TRIED: its check was killed, most likely for memory, so nothing is known of it: run this again", 1),
        ("BAD EDIT: an 'old:' text is in src/lib.rt 0 times, and not once", 1),
        ("refused, as it must be", 1),
        ("refused, as it must be: " + LOGS[2][0].strip(), 1),
        ("refused, as it must be (only because a proof file names what the edit took away, so this says little of the contract: "
         "change a value and keep the names): " + LOGS[1][0].strip(), 1),
        ("refused, as it must be (only by a limit of the prover, which gave no verdict, so this says less of the contract: choose a "
         "change that it refuses sooner): " + LOGS[1][0].strip(), 1))
# An error that does not tell, what rt check then says in the copy, and the status: which edit is tried there is seen by the stand-in.
RESTS = "refused, as it must be: proofs/f/Proof.antt:1:2: error: 2 declarations that depend on `g`, which was rejected, were not checked"
AGAIN = ((LOGS[1][0], 0), (LOGS[2][0], 1), ("", 1))
CHECK = r"""#!/bin/sh
[ "$* ${PWD##*/} $(cat src/lib.rt)" = "check x  a wrong body" ] && printf '%s' "$SAID"
exit 1
"""


def check_report(tally):
    """How .ci/report takes the logs of refused edits, and its status."""
    report = load(os.path.join(ROOT, ".ci", "report"))
    for log, edit, kind in LOGS:
        tally.equal(report.judged(log, edit)[0], kind, "a refusal: %r" % log[:60])
    with tempfile.TemporaryDirectory() as room:
        for folder in ("crates/x/must-fail", "crates/x/src", ".ci", "bin"):
            os.makedirs(os.path.join(room, folder))
        for name, text in (("crates/x/must-fail/label.edit", "A wrong program.\nfile: src/lib.rt\nold: right\nnew:  a wrong\n"),
                           ("crates/x/src/lib.rt", "right body\n"), ("crates.txt", "x:\n"), ("bin/rt", CHECK)):
            with open(os.path.join(room, name), "w", encoding="utf-8") as f:
                f.write(text)
        os.chmod(os.path.join(room, "bin", "rt"), 0o755)
        shutil.copy(os.path.join(ROOT, ".ci", "report"), os.path.join(room, ".ci"))

        def reported(*arguments, said="", again=""):
            """(standard output, status) of .ci/report on a log in which this is said of the edit."""
            with open(os.path.join(room, "log"), "w", encoding="utf-8") as f:
                f.write("== x\n" + "rt: must-fail x/label.edit: %s\n" % said * bool(said) + "3 passed, 0 failed\n")
            done = subprocess.run([sys.executable, "-B", os.path.join(room, ".ci", "report"), *arguments], stdout=subprocess.PIPE, text=True,
                                  env=dict(os.environ, SAID=again, PATH=os.path.join(room, "bin") + ":" + os.environ["PATH"]), cwd=room,
                                  stderr=subprocess.DEVNULL)
            return done.stdout, done.returncode

        for said, status in SAID:
            out, ended = reported("refusals", "log", said=said)
            tally.equal((ended, out.count("\n")), (status, 2), "the status of a report: %r" % said[:60])
            tally.equal(reported("refusals", "log", "--try", said=said)[1], status, "the same, with --try: %r" % said[:60])
        tally.equal(reported("refusals", "log", said=RESTS)[1], 1, "an error that does not tell")
        for again, status in AGAIN:
            tally.equal(reported("refusals", "log", "--try", said=RESTS, again=again)[1], status, "the edit tried again: %r" % again[:60])
        with open(os.path.join(room, "crates/x/src/lib.rt"), encoding="utf-8") as f:
            tally.equal(f.read(), "right body\n", "a try leaves the crate as it is")
        tally.equal(reported("edits", "log", said=SAID[0][0]), ("x/label  %s\n" % LOGS[1][0].strip(), 0), "where edits were refused")
        tally.equal((reported("refusals", "log"), reported("edits", "log")), (("", 1), ("", 1)), "a log without edits")
        for arguments in ([], ["times", "log"], ["refusals"], ["refusals", "log", "--all"], ["edits"]):
            tally.equal(reported(*arguments, said=SAID[0][0]), ("", 2), "arguments %r" % arguments)


def main():
    tally = Tally("run")
    # Two programs in Python, C, C under valgrind, C++, Rust.
    tally.equal(tried(), (6, 0), "all there: tests are counted, compilations are not")
    for tool, expected in (("valgrind", (5, 1)), ("g++", (5, 1)), ("cargo", (5, 1)), ("python", (4, 2)),
                           ("gcc", (0, 1)), ("tools/build", (0, 1))):
        tally.equal(tried(missing=tool), expected, "no " + tool)
        tally.equal(tried(broken=tool), expected, tool + " fails")
    tally.equal(tried(seal=False), (0, 1), "no seal")
    for text, what in ((RUST % 0, "0 tests"), ("", "no count"), (RUST % 3 + RUST % 0, None)):
        tally.equal(tried(rust=text), (5, 1) if what else (6, 0), "Rust: %s" % what)

    check_order(tally)
    check_whole(tally)
    check_report(tally)

    # Every test program that lies here is found.
    module = load()
    os.chdir(ROOT)
    found = set(module.python_programs())
    lying = {os.path.join("tests", name) for name in os.listdir("tests") if name.startswith("test_")}
    tally.equal(lying - found, set(), "test programs that are not run")
    tally.equal(module.RANDOM - found, set(), "random tests that are not there")
    names = [name for name, _ in module.all_jobs([])]
    tally.equal((len(names), names[0], names[-1]), (len(set(names)), module.REFERENCE, module.RUST), "the order shown")
    tally.equal(set(module.LONGEST) - set(names), set(), "long tests that are not there")

    good, bad = ("3 passed, 0 failed\\n", 0), ("2 passed, 1 failed\\n", 1)
    tally.equal(gate((good, good)), ("6 passed, 0 failed", 0), "the gate: all right")
    tally.equal(gate((good, bad)), ("5 passed, 1 failed", 1), "the gate: a test failed")
    tally.equal(gate((bad, good)), ("5 passed, 1 failed", 1), "the gate: a proof failed")
    tally.equal(gate((good, ("broken\\n", 0))), ("3 passed, 1 failed", 1), "the gate: a part without a count")
    tally.equal(gate((("3 passed, 0 failed\\n", 1), good)), ("6 passed, 1 failed", 1), "the gate: a status of 1")
    ok = "rt: ok; handles allowed: none; must-fail edits: 5 refused%s; every proof and must-fail edit was done in this run\\n"
    for lost, failed in (("", 0), (", 1 of them only by a limit", 0), (", 1 bad", 1), (", 2 of them only by a limit, 12 bad", 12)):
        tally.equal(gate(((ok % lost + good[0], 0), good)), ("6 passed, %d failed" % failed, int(failed > 0)), "the gate: edits%s" % lost)
    tally.equal(gate((("3 passed, 0 failed (x and the crates below alone: not the gate)\\n", 0), good)), ("3 passed, 1 failed", 1),
                "the gate: not all crates")
    tally.equal(gate((("0 passed, 0 failed\\n", 0),) * 2), ("0 passed, 0 failed", 1), "the gate: nothing run")
    with open("Makefile", encoding="utf-8") as f:
        tally.equal("\ncheck:\n\t.ci/run\n" in f.read(), True, "make check is .ci/run")
    return tally.finish()


if __name__ == "__main__":
    sys.exit(main())
