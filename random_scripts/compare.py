#!/usr/bin/env python3
"""compare.py PROGRAM FIRST COUNT [--fuel N] [--limit SECONDS] [--model] [--cut] [--no-reduce] [--most-finds K]
Runs seeds FIRST .. FIRST+COUNT-1: `PROGRAM run FILE --fuel N` beside CPython (ref.py), and with --model beside model.py (units, kinds of Beyond).
PROGRAM is a command line (one word or several). Finds go to finds/SEED-KIND.py with their reports, reduced."""
import argparse
import collections
import os
import random
import re
import shlex
import subprocess
import sys
import time

sys.path.insert(0, os.path.dirname(os.path.abspath(__file__)))
from gen import Gen, SAFE
from ref import reference

HERE = os.path.dirname(os.path.abspath(__file__))


class Report:
    """What the program wrote: status, output, end, units."""
    def __init__(self, status, text):
        self.status, self.text = status, text
        self.out, self.end, self.units, self.bad = b"", "", None, None
        m = re.match(rb"A (\d+)\n", text)
        if status == 3:
            self.end = text.decode("utf-8", "replace").strip()
            return
        if status == 11:
            self.end = "memory"
            if text:
                self.bad = "text behind status 11"
            return
        if not m:
            self.bad = "no report"
            return
        n = int(m.group(1))
        rest = text[m.end():]
        self.out = rest[:n]
        tail = rest[n:]
        if n and not self.out.endswith(b"\n"):
            if not tail.startswith(b"\n"):
                self.bad = "no line feed behind the output"
            tail = tail[1:]
        t = re.fullmatch(rb"end ([^\n]*)\nunits (\d+)\n", tail)
        if not t or len(self.out) != n:
            self.bad = "form of the report"
            return
        self.end = t.group(1).decode("utf-8", "replace")
        self.units = int(t.group(2))
        want = {"done": 0, "fuel": 6}.get(self.end, 7 if self.end.startswith("beyond ") else 1 if self.end.startswith("raised A ") else None)
        if want != status:
            self.bad = "status %d with end %s" % (status, self.end)


def run_program(cmd, path, fuel, limit):
    if cmd == ["model"]:
        # the model in place of the program: it checks generator, reference and model against one another
        import model
        m = model.run(open(path, newline="").read(), fuel)
        if m is None:
            return Report(6, b"A 0\nend fuel\nunits 0\n")
        o, end, units = m
        status = {"done": 0, "fuel": 6}.get(end, 7 if end.startswith("beyond ") else 1)
        return Report(status, b"A %d\n" % len(o) + o + (b"\n" if o and not o.endswith(b"\n") else b"") + ("end %s\nunits %d\n" % (end, units)).encode())
    try:
        p = subprocess.run(cmd + ["run", path, "--fuel", str(fuel)], stdin=subprocess.DEVNULL, stdout=subprocess.PIPE, stderr=subprocess.PIPE, timeout=limit)
    except subprocess.TimeoutExpired:
        return None
    r = Report(p.returncode, p.stdout)
    if p.stderr and not r.bad:
        r.bad = "stderr: " + p.stderr[:200].decode("utf-8", "replace")
    return r


def judge(r, ref):
    """The category, and a note."""
    if ref[0][0] == "syntax" and "too many statically nested blocks" in ref[0][1]:
        ref = ("skip", "CPython nests no more than 20 blocks"), b""
    cat, note = judge_all(r, ref)
    if cat == "DIFFERENT" and b"(...)" in ref[1]:
        return "tuple that prints itself", note
    return cat, note


def judge_all(r, ref):
    end, out = ref
    if r is None:
        return "timeout", ""
    if r.status == 11:
        return "MEMORY", r.bad or ""
    if r.bad:
        return "DIFFERENT", r.bad
    if r.status == 3:
        if end[0] == "syntax":
            return "refused by both", r.end.split()[-1]
        return "REFUSED", r.end
    if end[0] == "syntax":
        return "DIFFERENT", "CPython: " + str(end)
    if end[0] == "skip":
        # only what was printed up to the skip is known
        k = min(len(out), len(r.out))
        if out[:k] != r.out[:k]:
            return "skipped " + end[1] + ", output differs", ""
        return "skipped " + end[1], r.end
    if r.end.startswith("beyond ") or r.end == "fuel":
        if not out.startswith(r.out):
            return "DIFFERENT", "output before " + r.end
        if "NotYet" in r.end:
            return "NOTYET", r.end
        return "left the subset", r.end
    if r.out != out:
        return "DIFFERENT", "output"
    if r.end == "done":
        if end[0] != "done":
            return "DIFFERENT", "done, CPython %s" % (end,)
        return "same", "done"
    cls, args = r.end[len("raised A "):].split("(", 1)
    if end[0] != "raised" or end[1] != cls:
        return "DIFFERENT", "%s, CPython %s" % (r.end, end)
    if cls in ("RuntimeError", "NotImplementedError", "AssertionError", "EOFError", "KeyError", "StopIteration") and end[2] != r.end[len("raised A "):]:
        return "DIFFERENT", "%s, CPython %s" % (r.end, end)
    return "same", "raised"


class Runner:
    def __init__(self, a):
        self.cmd = shlex.split(a.program)
        self.fuel, self.limit, self.model, self.cut = a.fuel, a.limit, a.model, a.cut
        self.rng = random.Random(a.first)
        self.path = "/tmp/fuzz-%d.py" % os.getpid()
        if a.model:
            import model
            self.run_model = model.run

    def both(self, src):
        with open(self.path, "w", newline="") as f:
            f.write(src)
        t = time.time()
        r = run_program(self.cmd, self.path, self.fuel, self.limit)
        self.took = time.time() - t
        self.units = r.units if r is not None else None
        cat, note = judge(r, reference(src, self.limit))
        if self.model and r is not None and r.status in (0, 1, 6, 7) and not r.bad:
            m = self.run_model(src, self.fuel)
            if m is not None and m != (r.out, r.end, r.units) and cat not in ("DIFFERENT", "MEMORY"):
                return "MODEL", "model: %s %s, program: %s %s%s" % (m[1], m[2], r.end, r.units, "" if m[0] == r.out else ", output")
        if self.cut and r is not None and r.units is not None and not r.bad and r.end != "fuel" and cat in ("same", "left the subset"):
            self.src = src
            said = self.cut_short(r)
            if said:
                return "CUT", said
        return cat, note

    def cut_short(self, r):
        """The same script with fewer units: it must end by fuel there, with a front of the output; by the model with exactly its output."""
        for f in {0, r.units, r.units - 1, self.rng.randrange(0, r.units + 1), self.rng.randrange(0, r.units + 1)}:
            if f < 0:
                continue
            s = run_program(self.cmd, self.path, f, self.limit)
            if s is None:
                return "timeout with fuel %d" % f
            if s.status == 11:
                return "status 11 with fuel %d" % f
            want = (r.end, r.units) if f >= r.units else ("fuel", f)
            if s.bad or (s.end, s.units) != want or not r.out.startswith(s.out) or (f >= r.units and s.out != r.out):
                return "fuel %d: %s %s %s, want %s" % (f, s.bad, s.end, s.units, want)
            if self.model and f < r.units:
                m = self.run_model(self.src, f)
                if m is not None and m[0] != s.out:
                    return "fuel %d: output is not the model's" % f
        return None

    def reduce(self, src, cat, seconds):
        """Takes out lines and suites as long as the category stays."""
        stop = time.time() + seconds
        lines = src.rstrip("\n").split("\n")

        def good(ls):
            t = "\n".join(ls) + "\n"
            try:
                import warnings
                with warnings.catch_warnings():
                    warnings.simplefilter("ignore")
                    compile(t, "s.py", "exec")
            except SyntaxError:
                return False
            return self.both(t)[0] == cat

        def indent(s):
            return len(s) - len(s.lstrip(" "))

        def block(ls, i):
            j = i + 1
            while j < len(ls) and indent(ls[j]) > indent(ls[i]):
                j += 1
            return j

        changed = True
        while changed and time.time() < stop:
            changed = False
            size = max(len(lines) // 2, 1)
            while size >= 1 and time.time() < stop:
                i = 0
                while i < len(lines) and time.time() < stop:
                    t = lines[:i] + lines[i + size:]
                    if t and good(t):
                        lines, changed = t, True
                    else:
                        i += size
                size //= 2
            i = 0
            while i < len(lines) and time.time() < stop:
                j = block(lines, i)
                tries = []
                # a whole statement with its handlers; a head whose suite moves out; a suite that is `pass`
                k = j
                while k < len(lines) and indent(lines[k]) == indent(lines[i]) and re.match(r" *(except|finally|else|elif)\b", lines[k]):
                    k = block(lines, k)
                tries.append(lines[:i] + lines[k:])
                tries.append(lines[:i] + lines[j:])
                if j > i + 1:
                    inner = [l[4:] for l in lines[i + 1:j]]
                    tries.append(lines[:i] + inner + lines[k:])
                    tries.append(lines[:i + 1] + [" " * (indent(lines[i]) + 4) + "pass"] + lines[j:])
                elif lines[i].strip() != "pass":
                    tries.append(lines[:i] + [" " * indent(lines[i]) + "pass"] + lines[i + 1:])
                for t in tries:
                    if t and t != lines and (len(t) < len(lines) or sum(map(len, t)) < sum(map(len, lines))) and good(t):
                        lines, changed = t, True
                        break
                else:
                    i += 1
        return "\n".join(lines) + "\n"


def main():
    p = argparse.ArgumentParser()
    p.add_argument("program")
    p.add_argument("first", type=int)
    p.add_argument("count", type=int)
    p.add_argument("--fuel", type=int, default=3000000)
    p.add_argument("--limit", type=float, default=8)
    p.add_argument("--model", action="store_true")
    p.add_argument("--cut", action="store_true", help="run each script again with fewer units")
    p.add_argument("--no-reduce", action="store_true")
    p.add_argument("--reduce-seconds", type=float, default=60)
    p.add_argument("--most-finds", type=int, default=25)
    p.add_argument("--seconds", type=float, default=1e9)
    a = p.parse_args()
    run = Runner(a)
    finds = os.path.join(HERE, "finds")
    os.makedirs(finds, exist_ok=True)
    count, notes, kept = collections.Counter(), collections.Counter(), collections.Counter()
    began = time.time()
    done, slow, total = 0, [], 0.0
    for seed in range(a.first, a.first + a.count):
        if time.time() - began > a.seconds:
            break
        src = Gen(seed).script()
        cat, note = run.both(src)
        done += 1
        count[cat] += 1
        slow = sorted(slow + [(round(run.took, 3), seed, run.units)])[-5:]
        total += run.took
        if cat in ("left the subset", "same", "refused by both") or cat.startswith("skipped"):
            notes[cat + ": " + note] += 1
        if cat in ("MEMORY", "DIFFERENT", "NOTYET", "REFUSED", "MODEL", "CUT", "timeout"):
            kept[cat] += 1
            print("FIND", seed, cat, note, flush=True)
            base = os.path.join(finds, "%d-%s" % (seed, cat))
            with open(base + ".py", "w", newline="") as f:
                f.write(src)
            if not a.no_reduce and cat != "timeout" and kept[cat] <= a.most_finds:
                small = run.reduce(src, cat, a.reduce_seconds)
                with open(base + ".small.py", "w") as f:
                    f.write(small)
                with open(base + ".txt", "w") as f:
                    f.write("%s %s\n%s" % (cat, note, run.both(small)))
                print("  reduced to %d lines" % small.count("\n"), run.both(small)[1][:200], flush=True)
        if done % 250 == 0:
            print("%d seeds, %.0f s: %s" % (done, time.time() - began, dict(count)), flush=True)
    print("seeds %d to %d, %.0f s" % (a.first, a.first + done - 1, time.time() - began))
    print("the program's time %.1f s; slowest (seconds, seed, units):" % total, slow)
    for k, v in count.most_common():
        print("%7d %s" % (v, k))
    for k, v in sorted(notes.items()):
        print("    %7d %s" % (v, k))


if __name__ == "__main__":
    main()
