#!/usr/bin/env python3
"""./seal and tools/build: when they build, for whom, and what they say.

Each test has a repository of its own with a few crates and a stand-in for rt,
which reads all of its input, takes a while, leaves its work half done on the
way, and fails where two of it run at once.
"""

import contextlib
import os
import re
import select
import shutil
import signal
import subprocess
import sys
import tempfile
import time

from tally import HERE, Tally

ROOT = os.path.dirname(HERE)
PROGRAM = os.path.join(ROOT, "target", "bin", "seal")
TIMEOUT = 60
NOBODY = 65534
TAPE, LISTING = b"\x05", "done 0\n"
USAGE = "usage: seal [--help | --version] < TAPE\n"

RT = r"""#!/bin/sh
crate=${PWD##*/}
cd "$HOME" || exit 2
cat >given
echo "$crate: $*" >>runs
mkdir busy || { echo 'rt: two at once'; exit 2; }
trap 'rmdir busy' EXIT
[ ! -e waits ] || echo 'rt: waiting for another rt to finish in crates/low' >&2
[ ! -e stop ] || { echo stopped >stop; sleep 60; }
proved() { printf '== %s\nfn %s::f: proved\nlogic=proved functions=1\n' "$1" "$1"; }
case "$crate: $*" in
'seal: all check')
    echo 'lib.rt:1:1: note: of no interest'
    echo 'rt: chose 2 at a time'
    [ ! -e unread ] || { echo 'lib.rt:1:2: error: no such word'; echo 'rt: mend these first: no library was built'; exit 1; }
    proved low
    if [ -e refuse ]; then
        echo '== middle'
        echo 'lib.rt:3:4: error: expected a proof'
        echo 'statements std: modules loaded=5 checked=0'
        echo 'library low: modules loaded=25 checked=0'
        echo 'logic=not-proved'
        echo '== summary'
        echo 'low: ok'
        echo 'middle: failed (1)'
        echo 'seal: not run, since middle failed'
        echo '1 of 3 crates ok'
        exit 1
    fi
    echo '== middle'
    echo 'rt: middle: begins with what a check kept in /another/crates/middle'
    proved seal
    printf '== summary\nlow: ok\nmiddle: ok\nseal: ok\n3 of 3 crates ok\n'
    ;;
'seal: run --cpu=x86-64')
    mkdir -p crates/seal/out
    if [ ! -e unchanged ]; then
        printf '#!/bin/sh\necho half\n' >crates/seal/out/seal
        chmod +x crates/seal/out/seal
        sleep 0.2
        cp program crates/seal/out/seal.new && mv crates/seal/out/seal.new crates/seal/out/seal
    fi
    echo 'rt: running out/seal' >&2
    crates/seal/out/seal <given
    ;;
'door: all check' | 'other: all check')
    proved low
    proved "$crate"
    printf '== summary\nlow: ok\n%s: ok\n2 of 2 crates ok\n' "$crate"
    ;;
'low: all check') proved low ;;
'door: lib --cpu=x86-64')
    mkdir -p crates/door/out
    echo archive >crates/door/out/libdoor.a
    [ ! -e cut ] || exit 1
    echo 'logic=proved functions=1'
    ;;
'low: lib --cpu=x86-64') ;;
*) exit 2 ;;
esac
"""
BUILD = ["seal: all check", "seal: run --cpu=x86-64"]

BUILDING = """seal: proving and building target/bin/seal; from nothing this takes some minutes
seal: 1 of 3 crates: low proved
seal: 2 of 3 crates: middle proved
seal: 3 of 3 crates: seal proved
seal: target/bin/seal is built
"""
WAITING = "seal: another build is running in this folder, waiting for it\n"
UNREADY = "seal: target/bin/seal %s, and %s is not yours to write: who may write there has to run tools/build seal\n"


class Repository:
    """A folder with seal, tools/build, some crates and a stand-in for rt."""

    def __init__(self, room):
        self.top = os.path.join(room, "a repository")
        self.tools = os.path.join(room, "bin")
        for folder in ("tools", "crates/low/src", "crates/low/must-fail", "crates/middle/src",
                       "crates/seal/src", "crates/door/src", "crates/other/src"):
            os.makedirs(os.path.join(self.top, folder))
        os.mkdir(self.tools)
        for name in ("seal", "tools/build"):
            shutil.copy(os.path.join(ROOT, name), os.path.join(self.top, name))
        shutil.copy(PROGRAM, os.path.join(self.top, "program"))
        self.write("crates.txt", "# NAME: the crates under it\nlow:\nmiddle: low\nseal: low middle io\ndoor staticlib: low\nother staticlib: low io\n")
        self.write("crates/seal/stdin", TAPE.decode())
        self.write("crates/seal/stdout", LISTING)
        self.write("crates/low/src/lib.rt", "")
        self.write("crates/low/must-fail/wrong.edit", "")
        self.write(os.path.join(self.tools, "rt"), RT)
        os.chmod(os.path.join(self.tools, "rt"), 0o755)

    def path(self, name):
        return os.path.join(self.top, name)

    def write(self, name, text):
        with open(self.path(name), "w", encoding="utf-8") as f:
            f.write(text)

    def runs(self):
        """What rt was asked for since the last time."""
        if not os.path.exists(self.path("runs")):
            return []
        with open(self.path("runs"), encoding="utf-8") as f:
            lines = f.read().splitlines()
        os.remove(self.path("runs"))
        return lines

    def start(self, command=None, kit=True, **options):
        env = dict(os.environ, HOME=self.top)
        env["PATH"] = ":".join([self.tools] * kit + [p for p in env["PATH"].split(":")
                                                     if not os.path.exists(os.path.join(p, "rt"))])
        return subprocess.Popen(command or [self.path("seal")], env=env,
                                **{"stdin": subprocess.PIPE, "stdout": subprocess.PIPE,
                                   "stderr": subprocess.PIPE, **options})

    def seal(self, *arguments, tape=TAPE, **options):
        """(standard output, standard error, status)."""
        process = self.start([options.pop("command", self.path("seal")), *arguments], **options)
        out, err = process.communicate(tape, timeout=TIMEOUT)
        return out.decode(), err.decode(), process.returncode


@contextlib.contextmanager
def repository():
    with tempfile.TemporaryDirectory() as room:
        os.chmod(room, 0o755)
        yield Repository(room)


def check_arguments(tally):
    with open(os.path.join(ROOT, "include", "simd.h"), encoding="utf-8") as f:
        version = re.findall(r'^#define SIMD_VERSION "(.*)"', f.read(), re.M)
    with repository() as r:
        for arguments in (["x"], [""], ["-h"], ["--"], ["--help", "x"], ["--version", "--help"], ["a", "b"]):
            tally.equal(r.seal(*arguments), ("", USAGE, 2), "arguments %r" % arguments)
        out, err, status = r.seal("--help")
        tally.equal((out.startswith(USAGE), "Exit status: 0 done; 1 refused; 2 " in out, err, status),
                    (True, True, "", 0), "--help")
        tally.equal(r.seal("--version"), ("seal %s (SIMD v1.1)\n" % "".join(version), "", 0), "--version")
        with open("/dev/full", "wb") as full:
            for argument in ("--help", "--version"):
                call = r.start([r.path("seal"), argument], stdout=full)
                call.communicate(timeout=TIMEOUT)
                tally.equal(call.returncode, 2, argument + " to /dev/full")
        tally.equal(r.runs(), [], "arguments build nothing")


def check_at_once(tally):
    """Eight calls at once where nothing is built: one builds, all answer."""
    with repository() as r:
        calls = [r.start() for _ in range(8)]
        answers = [(out.decode(), err.decode(), call.returncode) for call, (out, err) in
                   [(call, call.communicate(TAPE, timeout=TIMEOUT)) for call in calls]]
        tally.equal([(out, status) for out, _, status in answers], [(LISTING, 0)] * 8, "eight calls at once")
        said = [err for _, err, _ in answers]
        tally.equal(said.count(BUILDING), 1, "one of them builds")
        tally.equal([err for err in said if err not in (BUILDING, WAITING, "")], [], "the others wait")
        tally.equal(r.runs(), BUILD, "rt is run once")


def check_when(tally):
    """It is built again if and only if a source is newer."""
    with repository() as r:
        tally.equal(r.seal(), (LISTING, BUILDING, 0), "the first build")
        tally.equal(r.runs(), BUILD, "the first build")

        def then(what, built, **options):
            tally.equal(r.seal(**options), (LISTING, BUILDING if built else "", 0), what)
            tally.equal(r.runs(), BUILD * built, what)

        then("nothing newer", False)
        then("nothing newer, and no kit", False, kit=False)
        r.write("crates/low/must-fail/wrong.edit", "changed")
        then("a must-fail edit changed", False)
        r.write("crates/low/src/lib.rt", "changed")
        then("a source changed", True)
        then("a source changed, once more", False)
        os.makedirs(r.path("crates/middle/proofs/f"))
        r.write("crates/middle/proofs/f/Proof.antt", "")
        then("a proof put in", True)
        os.remove(r.path("crates/middle/proofs/f/Proof.antt"))
        then("a proof taken away", True)
        r.write("crates/middle/proofs/f/Proof.antt", "")
        then("a proof put in again", True)
        shutil.rmtree(r.path("crates/middle/proofs"))
        then("all proofs of a crate taken away", True)
        os.makedirs(r.path("crates/low/out"))
        r.write("crates/low/out/kept", "")
        then("what rt keeps changed", False)
        r.write("crates.txt", "low:\nmiddle: low\nseal: low middle\n")
        then("crates.txt changed", True)
        shutil.rmtree(r.path("target"))
        then("target removed", True)
        os.remove(r.path("target/stamp/seal"))
        then("a build that was cut off", True)
        r.write("unchanged", "")
        os.utime(r.path("crates/low/src/lib.rt"))
        tally.equal(r.seal()[::2], (LISTING, 0), "the same source at a later time")
        tally.equal(r.runs(), BUILD, "the same source at a later time")
        then("the same source, once more", False)

        spent = []
        for _ in range(10):
            began = time.monotonic()
            r.seal()
            spent.append(time.monotonic() - began)
        tally.equal(min(spent) < 0.1, True, "a call costs little: %.3f s" % min(spent))


def check_failures(tally):
    with repository() as r:
        tally.equal(r.seal(kit=False),
                    ("", "seal: target/bin/seal is to be built, and the Rattle kit (rt) is not on the PATH\n", 2),
                    "no kit")
        r.write("refuse", "")
        refused = """seal: proving and building target/bin/seal; from nothing this takes some minutes
seal: 1 of 3 crates: low proved
== middle
lib.rt:3:4: error: expected a proof
logic=not-proved
middle: failed (1)
seal: not run, since middle failed
1 of 3 crates ok
seal: target/bin/seal is not built
"""
        tally.equal(r.seal(), ("", refused, 2), "not proved")
        os.remove(r.path("refuse"))
        tally.equal(r.seal(), (LISTING, BUILDING, 0), "proved after that")
        r.write("refuse", "")
        r.write("crates/low/src/lib.rt", "wrong")
        for what in ("a wrong source", "a wrong source, once more"):
            tally.equal(r.seal(), ("", refused, 2), what + ": the program of before is not run")
        os.remove(r.path("refuse"))
        begins, built = BUILDING.splitlines(True)[0], BUILDING.splitlines(True)[-1]
        r.write("unread", "")
        tally.equal(r.seal(), ("", begins + """lib.rt:1:1: note: of no interest
rt: chose 2 at a time
lib.rt:1:2: error: no such word
rt: mend these first: no library was built
seal: target/bin/seal is not built
""", 2), "a source that is not read")
        os.remove(r.path("unread"))
        r.write("crates/seal/stdout", "done 1\n")
        tally.equal(r.seal(), ("", BUILDING.replace(built, """rt: running out/seal
what seal wrote is not what its file stdout has
seal: target/bin/seal is not built
"""), 2), "a program that writes something else than it is to")
        r.write("crates/seal/stdout", LISTING)
        r.write("waits", "")
        waits = "rt: waiting for another rt to finish in crates/low\n"
        tally.equal(r.seal(), (LISTING, begins + waits + BUILDING[len(begins):-len(built)] + waits + built, 0),
                    "rt waits, and the program is built after that")
        os.remove(r.path("waits"))
        r.write("crates/low/src/lib.rt", "changed")

        # A build that is interrupted leaves nothing that passes for built, and no lock.
        r.write("stop", "")
        call = r.start(start_new_session=True, stdin=subprocess.DEVNULL)
        deadline = time.monotonic() + TIMEOUT
        while not os.path.getsize(r.path("stop")) and time.monotonic() < deadline:
            time.sleep(0.01)
        os.killpg(call.pid, signal.SIGTERM)
        tally.equal(call.communicate(timeout=TIMEOUT)[0], b"", "a build that is interrupted")
        os.remove(r.path("stop"))
        shutil.rmtree(r.path("busy"), ignore_errors=True)
        tally.equal(r.seal(), (LISTING, BUILDING, 0), "after a build that was interrupted")


def check_links(tally):
    with repository() as r:
        r.seal()
        other = os.path.join(os.path.dirname(r.top), "other")
        os.mkdir(other)
        os.symlink(r.path("seal"), os.path.join(other, "absolute"))
        os.symlink("../a repository/seal", os.path.join(other, "relative"))
        os.symlink("relative", os.path.join(other, "twice"))
        os.symlink(r.top, os.path.join(other, "folder"))
        for name in ("absolute", "relative", "twice", "folder/seal"):
            tally.equal(r.seal(command=os.path.join(other, name)), (LISTING, "", 0), "by a link, " + name)
            tally.equal(r.seal(command="./" + name, cwd=other), (LISTING, "", 0), "by a link from there, " + name)
        tally.equal(r.seal("seal", command="sh", cwd=r.top), (LISTING, "", 0), "sh seal")


def check_users(tally):
    """A user who may not write to the folder."""
    with repository() as r:
        options = {"user": NOBODY, "group": NOBODY, "extra_groups": []} if os.getuid() == 0 else {}

        def closed(what, expected):
            places = [r.top] + [r.path("target")] * os.path.exists(r.path("target"))
            for place in places:
                os.chmod(place, 0o555 if not options else 0o755)
            tally.equal(r.seal(**options), expected, what)
            for place in places:
                os.chmod(place, 0o755)

        closed("may not write, not built", ("", UNREADY % ("is not built", r.top), 2))
        r.seal()
        closed("may not write, built", (LISTING, "", 0))
        os.utime(r.path("crates/low/src/lib.rt"))
        closed("may not write, older", ("", UNREADY % ("is older than its sources", r.top), 2))


def check_passing(tally):
    """What the program writes is handed on as it is, at once."""
    with repository() as r:
        r.seal()

        def stand_in(text):
            r.write("target/bin/seal", "#!/bin/sh\n" + text)

        gate = r.path("gate")
        os.mkfifo(gate)
        stand_in('echo "digest 1"; read -r x <"%s"; echo "done 1"\n' % gate)
        call = r.start()
        ready, _, _ = select.select([call.stdout], [], [], 20)
        first = os.read(call.stdout.fileno(), 100) if ready else b""
        with open(gate, "w", encoding="utf-8") as f:
            f.write("go on\n")
        out, err = call.communicate(TAPE, timeout=TIMEOUT)
        tally.equal((first, out, err, call.returncode), (b"digest 1\n", b"done 1\n", b"", 0), "a line at once")
        for text, expected in (
                ("printf 'digest 1 2'", ("digest 1 2", "", 2)),
                ("printf 'digest 1 2\\n'", ("digest 1 2\n", "", 2)),
                ("printf 'done 3\\nmore\\n'", ("done 3\nmore\n", "", 2)),
                ("printf '\\nrefused 1 at 2\\n'", ("\nrefused 1 at 2\n", "", 1)),
                ("echo 'digest 1'; exit 3", ("digest 1\n", "seal: the program ended with status 3\n", 2))):
            stand_in(text)
            tally.equal(r.seal(), expected, "a program that does: " + text)


def check_archive(tally):
    """tools/build of a library."""
    with repository() as r:
        def build(what, expected, runs, *arguments):
            tally.equal(r.seal(*arguments, command=r.path("tools/build"), tape=b""), expected, what)
            tally.equal(r.runs(), runs, what)

        runs = ["door: all check", "door: lib --cpu=x86-64"]
        build("an archive", ("", """door: proving and building target/staticlib/libdoor.a; from nothing this takes some minutes
door: 1 of 2 crates: low proved
door: 2 of 2 crates: door proved
door: target/staticlib/libdoor.a is built
""", 0), runs, "door")
        build("an archive that is built", ("", "", 0), [], "door")
        r.write("cut", "")
        r.write("crates/low/src/lib.rt", "changed")
        for what in ("an archive half written", "an archive half written, once more"):
            tally.equal(r.seal("door", command=r.path("tools/build"), tape=b"")[2], 2, what)
            tally.equal(r.runs(), runs, what)
        os.remove(r.path("cut"))
        for name, what in (("low", "a library that is no archive"), ("other", "an archive that rt refuses")):
            tally.equal(r.seal(name, command=r.path("tools/build"), tape=b"")[2], 2, what)
            tally.equal(r.runs(), ["%s: all check" % name, "%s: lib --cpu=x86-64" % name], what)
        build("no such crate", ("", "none: crates.txt lists no such crate\n", 2), [], "none")
        build("no product named", ("", "usage: tools/build seal | NAME\n", 2), [])


def main():
    if not os.path.exists(PROGRAM):
        sys.exit("no target/bin/seal: run tests/run")
    tally = Tally("launcher")
    for check in (check_arguments, check_at_once, check_when, check_failures, check_links, check_users,
                  check_passing, check_archive):
        check(tally)
    return tally.finish()


if __name__ == "__main__":
    sys.exit(main())
