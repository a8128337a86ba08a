#!/usr/bin/env python3
"""`make install` into an empty folder, without the kit: what is there, a C
program compiled against it by pkg-config, the installed `seal`, and that
`make uninstall` takes all of it away.

Needs the built library and program, make, gcc and pkg-config.
"""

import os
import re
import subprocess
import sys
import tempfile

from tally import HERE, Tally
import simd_ref as ref
import tape_ref

ROOT = os.path.dirname(HERE)
TIMEOUT = 120
DOOR = os.path.join(HERE, "c", "door.c")

# An rt that must not be called.
NO_KIT = "#!/bin/sh\necho \"rt $*\" >>'%s'\nexit 2\n"


def version():
    with open(os.path.join(ROOT, "include", "simd.h"), encoding="utf-8") as f:
        return "".join(re.findall(r'^#define SIMD_VERSION "(.*)"', f.read(), re.M))


def run(command, tape=None, **options):
    """(standard output, standard error, status)."""
    done = subprocess.run(command, input=tape, stdout=subprocess.PIPE, stderr=subprocess.PIPE,
                          timeout=TIMEOUT, **options)
    return done.stdout.decode(), done.stderr.decode(), done.returncode


def files(top):
    """{path: what a link leads to, or None} of all files below a folder."""
    found = {}
    for folder, _, names in os.walk(top):
        for name in names:
            path = os.path.join(folder, name)
            found[os.path.relpath(path, top)] = os.readlink(path) if os.path.islink(path) else None
    return found


def expected_files(prefix, libdir):
    number = version()
    soname = "libsimd.so." + number.split(".")[0]
    names = {prefix + "/bin/seal": None, prefix + "/libexec/simd/seal": None, prefix + "/include/simd.h": None,
             libdir + "/libsimd.a": None, libdir + "/libsimd.so." + number: None,
             libdir + "/" + soname: "libsimd.so." + number, libdir + "/libsimd.so": soname,
             libdir + "/pkgconfig/simd.pc": None, prefix + "/share/man/man1/seal.1": None,
             prefix + "/share/man/man3/simd.3": None}
    return {name.lstrip("/"): link for name, link in names.items()}


def check_install(tally, room, env, prefix, more):
    what = " ".join([prefix] + more)
    dest = os.path.join(room, "dest" + prefix.replace("/", "-") + str(len(more)))
    libdir = dict(word.split("=") for word in more).get("LIBDIR", prefix + "/lib")
    words = ["DESTDIR=" + dest, "PREFIX=" + prefix] + more
    make = ["make", "--no-print-directory", "-C", ROOT]
    out, err, status = run(make + ["install"] + words, env=env)
    tally.equal((err, status), ("", 0), "install below " + what)
    tally.equal(files(dest), expected_files(prefix, libdir), "what is installed below " + what)

    # A C program, with the flags that pkg-config tells, by the shared and by the static library.
    place = dest + libdir
    found = dict(env, PKG_CONFIG_PATH=place + "/pkgconfig", PKG_CONFIG_SYSROOT_DIR=dest)
    tally.equal(run(["pkg-config", "--modversion", "simd"], env=found), (version() + "\n", "", 0), "its version")
    flags = run(["pkg-config", "--cflags", "--libs", "simd"], env=found)[0].split()
    tally.equal(flags, ["-I%s%s/include" % (dest, prefix), "-L" + place, "-lsimd"], "flags below " + what)
    program = os.path.join(room, "program")
    compile_it = ["gcc", "-std=c99", "-Wall", "-Wextra", "-Wpedantic", "-Werror", "-o", program, DOOR]
    tally.equal(run(compile_it + flags), ("", "", 0), "compiled with the shared library")
    needed = run(["objdump", "-p", program])[0]
    soname = "libsimd.so." + version().split(".")[0]
    tally.equal(re.findall(r"NEEDED\s+(libsimd\S*)", needed), [soname], "the library's name in the program")
    tally.equal(run([program], env=dict(env, LD_LIBRARY_PATH=place))[2], 0, "run with the shared library")
    static = [flag for flag in flags if flag != "-lsimd"] + [place + "/libsimd.a"]
    tally.equal(run(compile_it + static), ("", "", 0), "compiled with the static library")
    tally.equal(run([program], env=env)[2], 0, "run with the static library")
    names = run(["nm", "-D", "--defined-only", place + "/libsimd.so"])[0]
    with open(os.path.join(dest + prefix, "include", "simd.h"), encoding="utf-8") as f:
        declared = set(re.findall(r"uint8_t (simd_\w+)\(", f.read()))
    tally.equal(set(re.findall(r" T (\w+)", names)), declared, "the shared library's names")
    tally.equal("RWE" in run(["objdump", "-p", place + "/libsimd.so"])[0], False, "no executable stack")

    # seal, also by a link; statuses 0, 1 and 2.
    seal = os.path.join(dest + prefix, "bin", "seal")
    link = os.path.join(room, "link")
    if os.path.lexists(link):
        os.remove(link)
    os.symlink(seal, link)
    listing = tape_ref.line(1, 256, ref.digest(256, b"", 0)) + "\ndone 1\n"
    for command in (seal, link):
        tally.equal(run([command], b"\x01\x00\x01\x04\x05", env=env), (listing, "", 0), "installed seal: done")
        tally.equal(run([command], b"\x05", env=env, cwd="/"), ("done 0\n", "", 0), "installed seal: from elsewhere")
        tally.equal(run([command], b"", env=env), ("refused 11 at 0\n", "", 1), "installed seal: refused")
        folder = os.open(room, os.O_RDONLY)
        done = subprocess.run([command], stdin=folder, stdout=subprocess.PIPE, stderr=subprocess.PIPE, env=env)
        os.close(folder)
        tally.equal((done.stdout, done.stderr, done.returncode),
                    (b"", b"seal: standard input: Is a directory\n", 2), "installed seal: not read")
        tally.equal(run([command, "--version"], b"", env=env), ("seal %s (SIMD v1.1)\n" % version(), "", 0),
                    "installed seal: --version")
    os.remove(dest + prefix + "/libexec/simd/seal")
    out, err, status = run([seal], b"\x05", env=env)
    tally.equal((out, err.startswith("seal: no program at "), status), ("", True, 2), "installed seal: no program")

    tally.equal(run(make + ["uninstall"] + words, env=env)[1:], ("", 0), "uninstall below " + what)
    tally.equal(files(dest), {}, "what is left below " + what)
    tally.equal(os.path.exists(dest + prefix + "/libexec/simd"), False, "its own folder is gone")


def check_manuals(tally):
    """The manuals name every call, option, status and refusal, and this version."""
    texts = {}
    for name in ("seal.1", "simd.3"):
        with open(os.path.join(ROOT, "man", name), encoding="utf-8") as f:
            texts[name] = f.read()
        tally.equal('"simd %s"' % version() in texts[name].splitlines()[0], True, name + " has the version")
    with open(os.path.join(ROOT, "include", "simd.h"), encoding="utf-8") as f:
        header = f.read()
    declared = set(re.findall(r"uint8_t (simd_\w+)\(", header))
    tally.equal(set(re.findall(r"uint8_t (simd_\w+)\(", texts["simd.3"])), declared, "simd.3: the calls")
    tally.equal(re.findall(r"^\.B (\d+) (SIMD_REFUSED_\w+)$", texts["simd.3"], re.M),
                [(number, name) for name, number in re.findall(r"^#define (SIMD_REFUSED_\w+) (\d+)", header, re.M)],
                "simd.3: the refusals")
    numbers = re.findall(r"^\.B (\d+)$", texts["seal.1"], re.M)
    tally.equal(numbers, ["1", "4", "10", "11", "12", "13", "0", "1", "2"], "seal.1: refusals, statuses")
    for name, line in (("seal.1", "Number 3 is retired"), ("simd.3", "is retired: no call answers it")):
        tally.equal(sum(text.startswith(line) for text in texts[name].splitlines()), 1, name + ": what is retired")


def main():
    tally = Tally("install")
    with tempfile.TemporaryDirectory() as room:
        called, tools = os.path.join(room, "called"), os.path.join(room, "bin")
        os.mkdir(tools)
        with open(os.path.join(tools, "rt"), "w", encoding="utf-8") as f:
            f.write(NO_KIT % called)
        os.chmod(os.path.join(tools, "rt"), 0o755)
        env = {name: value for name, value in os.environ.items()
               if not name.startswith("MAKE") and name not in ("MFLAGS", "DESTDIR", "PREFIX", "LIBDIR")}
        env["PATH"] = tools + ":" + env["PATH"]
        check_install(tally, room, env, "/usr/local", [])
        check_install(tally, room, env, "/opt/a-place", ["LIBDIR=/opt/a-place/lib64"])
        tally.equal(os.path.exists(called), False, "the kit is not called")
    check_manuals(tally)
    return tally.finish()


if __name__ == "__main__":
    sys.exit(main())
