#!/usr/bin/env bash
# Makes a module of mixed code of 4 MiB, with all constructs of the language, and files of one construct each that are large in
# one way, each also of half its size. Times how long the proved program takes over each: the best of some runs, the bytes a
# second, and the time of a byte beside that of the file of half the size, which is about 1 where the time is linear. Each
# module is read whole and has more than what is written as Core, or a form that is none, so the program scans and parses it,
# prints its faults and does no more. Words: a folder for the files (a temporary one by default), and another program.
set -eu
top=$(dirname "$(dirname "$(readlink -f "$0")")")
folder=${1:-$(mktemp -d)}
program=${2:-$top/crates/erlfront/out/erlfront}
[ -x "$program" ] || { echo "bench: run ./erlfront once, so that the program is built" >&2; exit 1; }
mkdir -p "$folder"
python3 - "$folder" "$program" <<'PYTHON'
import os, random, subprocess, sys, time
folder, program = sys.argv[1:]
runs = 5

FORMS = [
    """%% What is asked of {a}, and what it answers.
-spec {a}({A} :: term(), {B} :: [integer()]) -> {{ok, {a}_state()}} | {{error, atom()}}.
{a}({A}, [{B} | {C}]) when is_list({C}), {B} > {n}; {A} =:= undefined ->
    {D} = {b}:{c}({A}, #{r}{{name = {B}, size = length({C}), _ = undefined}}),
    case {D} of
        {{ok, #{r}{{name = {E}}} = {F}}} when {E} =/= {A} ->
            {F}#{r}{{size = {F}#{r}.size + {n} * 2, name = {E}}};
        {{error, _}} = {E} ->
            error_logger:format("~p: ~s ~w~n", [?, {E}, {A}]),
            {E}
    end;
{a}(_, []) ->
    {{error, {c}}}.
""".replace("[?, ", "[self(), "),
    """{a}({A}, {B}, <<{C}:16/big-unsigned, {D}:{n}/binary, {E}/binary>>) ->
    {F} = <<({C} bxor 16#ff):16, {D}/binary, "{c}", 0:8>>,
    [{{{A}, {G}}} || {G} <- {B}, {G} > {C}, is_integer({G}) orelse {G} == none] ++
        [{H} || <<{H}:8>> <= {E}, {H} rem 2 =:= 0, {F} /= <<>>];
{a}({A}, _, _) -> {b}({A} + 1, [], <<>>).
""",
    """{a}({A}, {B}) ->
    {C} = fun ({D}, {E}) when {D} < {E} -> [{D}, {E} | {A}]; (_, {E}) -> {E} end,
    {F} = lists:foldl(fun ({G}, {H}) -> {H} + {G} * {n} - ({G} bsl 2) end, 0, {B}),
    try lists:map(fun {b}/1, {B}) of
        [] -> {C}({F}, -1);
        [{G} | _] when {G} >= {n}, not is_atom({G}) -> catch {b}:{c}({G})
    catch
        throw:{{{a}, {H}}} -> {H};
        error:{H}:{I} -> exit({{{H}, {I}}})
    after
        {b}:{c}({A} ! {{self(), {F}}})
    end.
""",
    """{a}({A}) ->
    receive
        {{'DOWN', {B}, process, _, normal}} -> {a}({A} -- [{B}]);
        {{{b}, {C}}} when is_pid({C}) ->
            if {A} == [] -> ok; {A} =/= {C}, {n} < 3 -> begin {b}({C}), $x end; true -> "text" "more\\n" end
    after {n} * 1000 ->
        maybe {{ok, {D}}} ?= {b}:{c}({A}), true ?= {D} andalso {A} > 1, {D} else {E} -> {{error, {E}}} end
    end.
""",
]

def word(choose, first):
    return first + "".join(choose.choice("abcdefghijklmnopqrstuvwxyz_") for _ in range(choose.randrange(3, 12)))

def mixed(size):
    choose = random.Random(1)
    atoms = [word(choose, choose.choice("abcdefgh")) + "x" for _ in range(3000)]
    variables = [word(choose, choose.choice("ABCDEFGH")) for _ in range(500)]
    text = ["-module(mixed).\n-export([start/0]).\n-record(r, {name = none :: atom(), size = 0, rest = [] :: [term()]}).\nstart() -> ok.\n"]
    left = size - len(text[0])
    while True:
        names = {k: choose.choice(atoms) for k in "abc"} | {k: choose.choice(variables) for k in "ABCDEFGHI"}
        form = choose.choice(FORMS).format(r="r", n=choose.randrange(1, 1000), **names)
        if len(form) > left:
            return "".join(text)
        text.append(form)
        left -= len(form)

def module(body):
    return "-module(m).\n-export([f/0]).\nf() -> " + body + ".\n"

shapes = {
    "mixed": (4 << 20, mixed),
    "parentheses": (1_000_000, lambda n: module("(" * n + "a" + ")" * n)),
    "open_brackets": (4_000_000, lambda n: module("[" * n)),
    "list": (500_000, lambda n: module("[" + "a, " * (n - 1) + "a]")),
    "tuple_of_texts": (500_000, lambda n: module("{" + '"ab", ' * (n - 1) + "a}")),
    "texts": (500_000, lambda n: module('"ab" ' * n)),
    "operators": (500_000, lambda n: module("1 + " * n + "1")),
    "right_operators": (500_000, lambda n: module("A ++ " * n + "A")),
    "signs": (1_000_000, lambda n: module("- " * n + "1")),
    "clauses": (100_000, lambda n: module("a" + "; f() -> b" * n)),
    "case_clauses": (100_000, lambda n: module("case a of b -> c" + "; b when c; d -> e" * n + " end")),
    "qualifiers": (200_000, lambda n: module("[a || b <- c" + ", d" * n + "]")),
    "segments": (200_000, lambda n: module("<<1" + ", X:8/binary-unit:2" * n + ">>")),
    "record_fields": (200_000, lambda n: module("#r{a = 1" + ", b = 2" * n + "}")),
    "record_chain": (200_000, lambda n: module("X" + "#r.a" * n)),
    "heads": (100_000, lambda n: module("a" + "; g(1) -> b" * n)),
    "forms": (60_000, lambda n: module("a") + "".join(f"f{i}(X) -> {{X, {i}}} ! X.\n" for i in range(n))),
    "faulty_forms": (100_000, lambda n: module("a") + "g( -> b.\n" * n),
    "exports": (200_000, lambda n: "-module(m).\n-export([f/0" + ", g/1" * n + "]).\nf() -> a.\n"),
    "constant": (500_000, lambda n: "-module(m).\n-a([1" + ", b" * n + "]).\n"),
}

def seconds(path):
    begin = time.monotonic()
    subprocess.run([program, path], stdout=subprocess.DEVNULL)
    return time.monotonic() - begin

texts = {}
for name, (count, make) in shapes.items():
    for part in (count, count // 2):
        path = f"{folder}/{name}_{part}.erl"
        with open(path, "w", encoding="utf-8") as out:
            out.write(make(part))
        texts[name, part] = path
best = {}
for _ in range(runs):
    for key, path in texts.items():
        best[key] = min(seconds(path), best.get(key, 1e9))
print(f"{'shape':<18} {'bytes':>9} {'seconds':>9} {'MB/s':>7} {'a byte to half':>15}")
for name, (count, make) in shapes.items():
    whole, half = os.path.getsize(texts[name, count]), os.path.getsize(texts[name, count // 2])
    took = best[name, count]
    ratio = (took / whole) / (best[name, count // 2] / half)
    print(f"{name:<18} {whole:>9} {took:>9.4f} {whole / took / 1e6:>7.1f} {ratio:>15.2f}")
PYTHON
