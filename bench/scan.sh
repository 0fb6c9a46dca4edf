#!/usr/bin/env bash
# Makes a file of mixed Erlang source and files of one character each, all of 4 MiB, and times how long the proved program
# takes over each: the best of some runs, the bytes a second, and the time beside that of the mixed file. Each file has a
# faulty form or none at all, so the program reads and scans it, prints its faults and does no more. Words: a folder for
# the files (a temporary one by default), and another program.
set -eu
top=$(dirname "$(dirname "$(readlink -f "$0")")")
folder=${1:-$(mktemp -d)}
program=${2:-$top/crates/erlfront/out/erlfront}
[ -x "$program" ] || { echo "bench: run ./erlfront once, so that the program is built" >&2; exit 1; }
mkdir -p "$folder"
python3 - "$folder" "$program" <<'PYTHON'
import os, random, subprocess, sys, time
folder, program = sys.argv[1:]
size = 4 << 20
runs = 7

def word(choose, first, rest):
    return choose.choice(first) + "".join(choose.choice(rest) for _ in range(choose.randrange(1, 12)))

small, capital = "abcdefghijklmnopqrstuvwxyz\u00e4\u00f8", "ABCDEFGHIJKLMNOPQRSTUVWXYZ_\u00c4"
part = small + capital + "0123456789_@"

def forms():
    choose = random.Random(1)
    atoms = [word(choose, small, part) for _ in range(3000)]
    variables = [word(choose, capital, part) for _ in range(500)]
    quoted = ["'two words'", "'it\\'s'", "'\u20ac \\x{20ac}'", "'Elixir.Module'", "''"]
    strings = ['"a line of text\\n"', '"~p: ~s~n"', '"\\"\u4e2d\u6587\\" \\101\\x41"', '""', '"%% no comment"']
    numbers = ["0", "42", "1_000_000", "16#FFff", "2#1010_1010", "170141183460469231731687303715884105727"]
    others = ["$a", "$\\n", "$\\x{41}", "$ "]
    operators = ["+", "-", "++", "=:=", "=<", "andalso", "orelse", "div", "bsl", "!", "=", "/=", "=="]

    def term():
        kind = choose.randrange(10)
        if kind < 3:
            return choose.choice(variables)
        if kind < 5:
            return choose.choice(atoms)
        if kind < 6:
            return choose.choice(quoted)
        if kind < 7:
            return choose.choice(strings)
        if kind < 8:
            return choose.choice(numbers)
        if kind < 9:
            return f"{choose.choice(atoms)}:{choose.choice(atoms)}({choose.choice(variables)})"
        return choose.choice(["[{0}, {1} | {2}]", "{{{0}, {1}, {2}}}", "<<{0}:8, {1}/binary>>", "#{0}{{f = {1}, g = {2}}}"]).format(
            choose.choice(variables), choose.choice(atoms), choose.choice(others))

    while True:
        name = choose.choice(atoms)
        lines = [f"%% @doc What {name} does with its arguments, \u00fc and \u4e2d among them.\n"]
        lines.append(f"{name}({choose.choice(variables)}, {term()}) when is_list({choose.choice(variables)}) ->\n")
        for _ in range(choose.randrange(2, 9)):
            lines.append(f"    {choose.choice(variables)} = {term()} {choose.choice(operators)} {term()},  % then\n")
        lines.append(f"    case {term()} of\n        {term()} -> {term()};\n        _ -> {term()}\n    end.\n\n")
        yield "".join(lines)

def mixed():
    texts, left = [], size - len("~.\n")
    for form in forms():
        form = form.encode()
        if len(form) > left:
            break
        texts.append(form)
        left -= len(form)
    return b"".join(texts) + b" " * left + b"~.\n"

files = {
    "mixed": mixed(),
    "single_quotes": b"'" * size,
    "double_quotes": b'"' * size,
    "backslashes": b"\\" * size,
    "digits": b"7" * size,
    "percents": b"%" * size,
    "dollars": b"$" * size,
    "dots": b"." * size,
    "quoted_backslashes": b'"' + b"\\" * (size - 2) + b'"',
    "open_quote": b'"' + b"a" * (size - 1),
    "quoted_text": b'"' + b"a" * (size - 2) + b'"',
    "spaces": b"a" + b" " * (size - 1),
    "one_name": b"a" * size,
    "small_names": b"a " * (size // 2),
    "commas": b"," * size,
    "faulty_forms": b"~." + b"\n~." * ((size - 2) // 3),
}
for name, text in files.items():
    with open(f"{folder}/{name}.erl", "wb") as out:
        out.write(text)

best = {}
for _ in range(runs):
    for name in files:
        begin = time.monotonic()
        subprocess.run([program, f"{folder}/{name}.erl"], stdout=subprocess.DEVNULL)
        took = time.monotonic() - begin
        best[name] = min(took, best.get(name, took))
print(f"{'file':<20} {'bytes':>8} {'seconds':>8} {'MB/s':>8} {'to mixed':>8}")
for name, took in best.items():
    print(f"{name:<20} {len(files[name]):>8} {took:>8.4f} {len(files[name]) / took / 1e6:>8.1f} {took / best['mixed']:>8.2f}")
PYTHON
