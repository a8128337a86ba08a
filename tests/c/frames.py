"""The stack that each call may need, from the machine code of an archive.

    bounds(archive)  {name of a global function: bytes}

The most over all ways through the code: what a function pushes and sets aside,
and what the functions that it calls need.  The return address is part of it,
arguments that the caller pushed are not.  A function of the C library counts
its return address only.  An instruction that changes the stack pointer in a way
unknown here, a call through a register and a recursion that is not named in
DEPTHS are errors.
"""

import re
import subprocess

ADDRESS = 8     # of a return

# The functions that call themselves, and how deep: a number on a page has at
# most six digits.
DEPTHS = {"text::digits": 6}


class Instruction:
    def __init__(self, address, text):
        self.address, self.text, self.target = address, text, None


def number(text):
    value = int(text, 16)
    return value - 2 ** 64 if value >= 2 ** 63 else value


def functions(archive):
    """{name: instructions} of an archive; a call's target is a name."""
    listing = subprocess.run(["objdump", "-dr", "--no-show-raw-insn", archive], check=True,
                             stdout=subprocess.PIPE).stdout.decode()
    found = {}
    for line in listing.splitlines():
        name = re.match(r"[0-9a-f]+ <(.*)>:$", line)
        relocation = re.match(r"\s+[0-9a-f]+: R_X86_64_\w+\s+(\S+)$", line)
        instruction = re.match(r"\s+([0-9a-f]+):\s+(.*?)\s*$", line)
        if name:
            body = found[name.group(1)] = []
        elif relocation:
            target = re.sub(r"-0x4$", "", relocation.group(1))
            body[-1].target = re.sub(r"^\.text\.", "", target)
        elif instruction:
            text = re.sub(r"\s+", " ", instruction.group(2))
            body.append(Instruction(int(instruction.group(1), 16), text))
    return found


def moved(text):
    """How far an instruction moves the stack pointer down."""
    if text.startswith("push"):
        return 8
    if text.startswith("pop"):
        return -8
    change = re.match(r"(sub|add)q? \$0x([0-9a-f]+),%rsp$", text)
    if change:
        return number(change.group(2)) * (1 if change.group(1) == "sub" else -1)
    change = re.match(r"lea (-?)0x([0-9a-f]+)\(%rsp\),%rsp$", text)
    if change:
        return number(change.group(2)) * (1 if change.group(1) else -1)
    if re.search(r",%rsp$", text) and not re.match(r"(cmp|test)", text) or text.startswith("leave"):
        raise ValueError("unknown: " + text)
    return 0


def frame(name, body):
    """(bytes that a function itself uses, [(function called, bytes in use)])."""
    index = {instruction.address: k for k, instruction in enumerate(body)}
    most, calls, seen, jumps, work = 0, [], set(), [], [(0, 0)]
    while work:
        k, depth = work.pop()
        while k < len(body) and k not in seen:
            seen.add(k)
            text, target = body[k].text, body[k].target
            below = re.search(r"-0x([0-9a-f]+)\(%rsp", text)
            if below and not text.startswith("lea"):
                most = max(most, depth + number(below.group(1)))
            depth += moved(text)
            most = max(most, depth)
            if text.startswith("ret"):
                if depth:
                    raise ValueError("%s returns with %d bytes in use" % (name, depth))
                break
            if text.startswith("call"):
                if not target and text.endswith(" 0 <%s>" % name):
                    target = name
                if not target or "*" in text:
                    raise ValueError("%s: %s" % (name, text))
                calls.append((target, depth + ADDRESS))
            if text.startswith("jmp"):
                if "*" in text:
                    jumps.append(depth)
                elif target:
                    calls.append((target, depth))
                else:
                    work.append((index[int(text.split()[1], 16)], depth))
                break
            if re.match(r"j\w+ ", text):
                work.append((index[int(text.split()[1], 16)], depth))
            k += 1
        # A jump by a table goes to code that no other way has reached.
        if not work and jumps and len(seen) < len(body):
            work.append((min(set(range(len(body))) - seen), max(jumps)))
    return most, calls


def bounds(archive):
    bodies, known = functions(archive), {}

    def need(name):
        if name not in bodies:
            return 0
        if name not in known:
            known[name] = None
            most, calls = frame(name, bodies[name])
            again = max([used for target, used in calls if target == name], default=0)
            others = [used + need(target) for target, used in calls if target != name or name not in DEPTHS]
            known[name] = (DEPTHS.get(name, 1) - 1) * again + max([most] + others)
        if known[name] is None:
            raise ValueError("recursion: " + name)
        return known[name]

    return {name: ADDRESS + need(name) for name in bodies if re.match(r"simd_\w+$", name)}
