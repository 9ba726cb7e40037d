#!/usr/bin/env python3
"""kept.py ORACLE BIN CORE: the oracle's kept inputs, run now on the Rust (BIN/real, BIN/scripted) and on the core.
- tools/cases.py, 185 cases: the core must answer every one as 01 says, and differ from the Rust exactly where the Rust differs from 01.
- scripts/interleave.txt and 01-examples.txt (seven interleavings), time.txt, openssh.txt, and smallest.txt here: the lines that differ must be
  those of kept.txt, each with its reason there; no more and no fewer. With WRITE=1 the lines are printed in kept.txt's form.
  The core's lists have comments, the Rust's do not: but in smallest.txt they are left out. The core itself compares them with what was added."""
import os, struct, subprocess, sys
oracle, bins, core = sys.argv[1:4]
here = os.path.dirname(os.path.abspath(__file__))
bad = 0

def cases(program):
    out = subprocess.run([sys.executable, f"{oracle}/tools/cases.py", program], capture_output=True, text=True, check=True).stdout.splitlines()
    return out[:-1], out[-1]

rust, rust_sum = cases(f"{bins}/real")
ours, ours_sum = cases(core)
differ = [(r, o) for r, o in zip(rust, ours) if r != o]
wrong = [o for r, o in zip(rust, ours) if o.startswith("D") or (r != o) != r.startswith("D")]
print(f"cases: {len(ours)} run; core against 01: {ours_sum.split(';')[1].strip()}; core against the Rust: {len(differ)} differ, all of them where the Rust differs from 01"
      if not wrong and len(ours) == len(rust) == 185 else f"cases: WRONG {wrong} {len(ours)} {len(rust)}")
bad |= bool(wrong) or len(ours) != 185 or len(rust) != 185

def answers(program, script):
    path = f"{here}/smallest.txt" if script == "smallest" else f"{oracle}/scripts/{script}.txt"
    return subprocess.run([program], stdin=open(path), capture_output=True, text=True, check=True, env={**os.environ, "SORT": "1"}).stdout.splitlines()

def kind(line):
    if line == "reply 0000000105": return "FAILURE"
    if line == "reply 0000000106": return "SUCCESS"
    return {"0c": "list", "0e": "signature"}.get(line[14:16], " ".join(line.split()[:2]))

def without_comments(line):
    if kind(line) != "list": return line
    b, at, out = bytes.fromhex(line[6:]), 9, b""
    while at < len(b):
        n = struct.unpack(">I", b[at:at + 4])[0]
        out += b[at:at + 4 + n] + bytes(4)
        at += 4 + n
        at += 4 + struct.unpack(">I", b[at:at + 4])[0]
    return f"reply {struct.pack('>I', 5 + len(out)).hex()}{b[4:9].hex()}{out.hex()}"

found = []
for script in ("01-examples", "interleave", "time", "openssh", "smallest"):
    r, o = answers(f"{bins}/scripted", script), answers(core, script)
    whole, title = o, ""
    if script != "smallest": o = [without_comments(x) for x in o]
    if len(r) != len(o): print(f"{script}: {len(r)} lines against {len(o)}"); bad = 1
    for i, (x, y) in enumerate(zip(r, o), 1):
        if x.startswith("=="): title = x[3:]
        if x != y: found.append(f"{script} line {i}: {kind(x)} | {kind(y)}" + (f"    # {title}" if os.environ.get("WRITE") else ""))
    also = f", {sum(x != y for x, y in zip(whole, o))} in their comments" if script != "smallest" else ""
    print(f"{script}: {len(o)} answers, {sum(x != y for x, y in zip(r, o))} differ{also}")
want = [l.split("  #")[0].rstrip() for l in open(f"{here}/kept.txt") if l.strip() and not l.startswith("#")]
if os.environ.get("WRITE"): print("\n".join(found))
for l in found:
    if l not in want: print("NOT LISTED", l); bad = 1
for l in want:
    if l not in found: print("LISTED, NOT FOUND", l); bad = 1
sys.exit(1 if bad else 0)
