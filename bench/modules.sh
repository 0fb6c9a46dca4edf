#!/usr/bin/env bash
# Makes modules of seven shapes in three sizes, compiles each with the proved program, and prints the size, the time,
# the bytes a second and the peak memory. The last two shapes have very many faults, found out of their order. Words: a
# folder for the modules (a temporary one by default).
set -eu
top=$(dirname "$(dirname "$(readlink -f "$0")")")
program=$top/crates/erlfront/out/erlfront
[ -x "$program" ] || { echo "bench: run ./erlfront once, so that the program is built" >&2; exit 1; }
folder=${1:-$(mktemp -d)}
mkdir -p "$folder"
python3 - "$folder" <<'PYTHON'
import sys
folder = sys.argv[1]
sizes = {"64K": 64 << 10, "512K": 512 << 10, "4M": 4 << 20}

def letters(n):
    text = ""
    for _ in range(8):
        text = chr(97 + n % 26) + text
        n //= 26
    return text

def write(name, size, lines):
    head = f"-module({name}).\n-export([start/0]).\nstart() -> ok.\n"
    with open(f"{folder}/{name}.erl", "w") as out:
        out.write(head)
        left = size - len(head)
        for line in lines:
            if len(line) > left:
                break
            out.write(line)
            left -= len(line)

def functions():
    # at most 65,536 functions: the body is as long as the largest size asks
    n = 0
    while True:
        name = letters(n)
        yield f"{name}(First, Second) ->\n    lists:{name}(First),\n    start(),\n    {name}(Second, First).\n"
        n += 1

def arguments():
    n = 0
    while True:
        args = ", ".join(["X", "12345", "atom"] * 84)
        yield f"a{n}(X) -> m:f({args}).\n"
        n += 1

def nesting():
    n = 0
    while True:
        calls = "g:h(" * 100
        yield f"n{n}(X) -> {calls}X{')' * 100}.\n"
        n += 1

def cases():
    n = 0
    while True:
        inner = "case Y of 1 -> Z = a; _ -> Z = b end"
        yield f"c{n}(X) ->\n    case X of {{ok, Y}} -> Z = g:h(Y); [Y | _] -> {inner}; Y -> Z = X end,\n    {{Y, Z}}.\n"
        n += 1

def branches():
    n = 0
    while True:
        before = "case X of 1 -> Y = 1; _ -> " * 100
        yield f"b{n}(X) -> {before}Y = 2{' end' * 100}, Y.\n"
        n += 1

# `U` is bound on some ways, so each use is a fault; that of `Z` is found before those of the pattern on its left
def unsafe(name, length):
    before = f"{name}(X) -> case X of 1 -> U = 1; _ -> 2 end, ["
    after = "U] = Z.\n"
    return before + "U," * ((length - len(before) - len(after)) // 2) + after

def faults(size):
    yield unsafe("f", size - 64)

def faulty():
    n = 0
    while True:
        yield unsafe(f"f{n}", 1024)
        n += 1

for label, size in sizes.items():
    write(f"functions_{label}", size, functions())
    write(f"arguments_{label}", size, arguments())
    write(f"nesting_{label}", size, nesting())
    write(f"cases_{label}", size, cases())
    write(f"branches_{label}", size, branches())
    write(f"faults_{label}", size, faults(size))
    write(f"faulty_{label}", size, faulty())
PYTHON
cd "$folder"
printf '%-16s %9s %8s %12s %12s %8s\n' module bytes seconds bytes/s peak-bytes per-byte
for shape in functions arguments nesting cases branches faults faulty; do
  for size in 64K 512K 4M; do
    file=${shape}_$size.erl
    python3 - "$program" "$file" <<'PYTHON'
import os, resource, subprocess, sys, time
program, file = sys.argv[1:]
best, status = None, None
wanted = 1 if file.startswith("fault") else 0
for _ in range(3):
    begin = time.monotonic()
    status = subprocess.run([program, file], stdout=subprocess.DEVNULL).returncode
    took = time.monotonic() - begin
    best = took if best is None else min(best, took)
peak = resource.getrusage(resource.RUSAGE_CHILDREN).ru_maxrss * 1024
size = os.path.getsize(file)
print(f"{file[:-4]:<16} {size:>9} {best:>8.3f} {size / best:>12.0f} {peak:>12} {peak / size:>8.1f}" + ("" if status == wanted else f"  status {status}"))
PYTHON
  done
done
