"""Writes the rows of a grammar for a crate that parses by `ef_grammar`, with the table by which they are chosen.

    python3 tools/grammar/tables.py ROWS [NAME FOLDER]

ROWS is a text of three parts, as

    classes
    Plus '(' ')' Number Nothing
    set Sign = Plus
    rows
    # ==== sum
    # ---- sums
    sum      : value sum_tail
    sum_tail : Sign value <add> sum_tail
             | -
    value    : Number <number>
             | '(' sum ')'
    starts
    sum
    opened
    value

A symbol is a class of tokens, a set of classes, a rule or an action `<name>`, and `-` is the empty right side. `Nothing`
is the class of the end, `starts` has the rules that whole inputs begin with, and `opened` those whose rows are opened
ahead, until none of them begins with a rule. A line `# ==== NAME` says that the rules
behind it have their rows in src/NAME_rows.rt. Says where two rows are chosen at one class.
With the NAME of a crate and its FOLDER, writes src/classes.rt, src/rows.rt, a file of rows for each line `# ====`, those
that are opened in src/opened_rows.rt and their shared parts in src/parts.rt, specs/Classes.antt, specs/Rules.antt, specs/Tables.antt and specs/Sound.antt there. What is written is proved, so nothing
rests on this script.
"""
import os
import re
import sys

SIGNS = {
    "(": "LeftParen", ")": "RightParen", "[": "LeftBracket", "]": "RightBracket", "{": "LeftBrace", "}": "RightBrace",
    "<<": "LeftBits", ">>": "RightBits", ",": "Comma", ":": "Colon", "::": "DoubleColon", ".": "Point", ";": "Semi",
    "->": "Arrow", "|": "Bar", "||": "DoubleBar", "#": "Hash", "=": "Equals", "!": "Bang", "?=": "MaybeMatch",
    "/": "Slash", "+": "Plus", "-": "Minus", "*": "Times",
}  # fmt: skip


def camel(word):
    if word[0] == "'":
        word = SIGNS.get(word[1:-1], word[1:-1])
    return "".join(part[:1].upper() + part[1:] for part in word.split("_"))


def upper(word):
    return re.sub(r"(?<=[a-z0-9])(?=[A-Z])", "_", camel(word)).upper()


class Grammar:
    """The rows of a text. `rows` has the right sides of each rule, lists of symbols (token, rule or act, word), and `parts`
    the rules of each file of rows."""

    def __init__(self, text):
        self.classes, self.sets, self.heads, self.parts, self.starts, self.opened, words = [], {}, {}, {}, [], [], {}
        part = rule = file = None
        comment = ""
        for line in (line.strip() for line in text.splitlines()):
            if line.startswith("# ----"):
                comment = line[6:].strip()
            if line.startswith("# ===="):
                file = self.parts.setdefault(line[6:].strip(), [])
            if not line or line[0] == "#":
                continue
            if line in ("classes", "rows", "starts", "opened"):
                part = line
            elif part == "classes" and line.startswith("set "):
                self.sets[line.split()[1]] = line.split()[3:]
            elif part == "classes":
                self.classes += line.split()
            elif part == "starts":
                self.starts += line.split()
            elif part == "opened":
                self.opened += line.split()
            else:
                name, right = re.match(r"(?:(\w+)\s*:|\|)\s+(.*)$", line).groups()
                if name:
                    rule, words[name], self.heads[name], comment = name, [], comment, ""
                    file.append(name)
                words[rule].append([] if right == "-" else right.split())
        self.number = {name: i for i, name in enumerate(self.classes)}
        self.rows = {
            name: [[self.symbol(word, words) for word in right] for right in rights] for name, rights in words.items()
        }
        self.actions = list(dict.fromkeys(word for right in self.every() for kind, word in right if kind == "act"))

    def symbol(self, word, rules):
        if re.fullmatch(r"<\w+>", word):
            return "act", word[1:-1]
        if word in rules:
            return "rule", word
        if word not in self.sets and word not in self.number:
            sys.exit(f"unknown symbol: {word}")
        return "token", word

    def every(self):
        return (right for rights in self.rows.values() for right in rights)

    def members(self, word):
        return sum(1 << self.number[name] for name in self.sets.get(word, [word]))


class Table:
    """Where each right side is chosen, what may stand behind a rule, and a bound of the steps before its first token."""

    def __init__(self, grammar):
        self.grammar = grammar
        self.at = {name: [0] * len(rights) for name, rights in grammar.rows.items()}
        end = grammar.members("Nothing")
        self.behind = {name: end if name in grammar.starts else 0 for name in grammar.rows}
        self.height = {name: 1 for name in grammar.rows}
        self.errors = []
        while self.widen():
            pass
        for _ in range(len(grammar.rows) + 2):
            if not self.raise_heights():
                break
        else:
            self.errors.append("a rule comes back to itself before a token")
        for name, sets in self.at.items():
            for j, k in ((j, k) for j in range(len(sets)) for k in range(j)):
                both = [word for word in grammar.classes if sets[j] & sets[k] & grammar.members(word)]
                if both:
                    self.errors.append(f"{name}: rows {k + 1} and {j + 1} are chosen at {' '.join(both)}")

    def any(self, name):
        whole = 0
        for some in self.at[name]:
            whole |= some
        return whole

    def leading(self, right, behind):
        for kind, word in right:
            if kind == "token":
                return self.grammar.members(word)
            if kind == "rule":
                return self.any(word)
        return behind

    def widen(self):
        changed = False
        for name, rights in self.grammar.rows.items():
            for k, right in enumerate(rights):
                more = self.at[name][k] | self.leading(right, self.behind[name])
                changed, self.at[name][k] = changed or more != self.at[name][k], more
                for i, (kind, word) in enumerate(right):
                    if kind == "rule":
                        more = self.behind[word] | self.leading(right[i + 1 :], self.behind[name])
                        changed, self.behind[word] = changed or more != self.behind[word], more
        return changed

    def weight(self, right):
        steps = 0
        for kind, word in right:
            if kind == "token":
                break
            steps += self.height[word] if kind == "rule" else 1
        return steps

    def open(self, name):
        """The rows of the rule with their first rules opened: for each the classes, the row of a rule that it begins with (that
        rule and the row's index) and the symbols behind it. Beside them how many levels were opened."""
        rows, levels = [(at, (name, k), []) for k, at in enumerate(self.at[name])], 0
        while any(self.first_rule(row) for row in rows):
            rows, levels = [new for row in rows for new in self.open_row(row)], levels + 1
        return rows, levels

    def passed(self, symbols):
        """The classes at which they all come to nothing, rules as they are."""
        whole = -1 if symbols else 0
        for _, rule in symbols:
            whole &= sum(at for at, right in zip(self.at[rule], self.grammar.rows[rule]) if not right)
        return whole

    def first_rule(self, row):
        _, (name, k), _ = row
        right = self.grammar.rows[name][k]
        return right[0][1] if right and right[0][0] == "rule" else None

    def open_row(self, row):
        at, (name, k), then = row
        first = self.first_rule(row)
        if not first:
            return [row]
        rest = self.grammar.rows[name][k][1:] + then
        return [(at & some, (first, j), rest) for j, some in enumerate(self.at[first])]

    def raise_heights(self):
        changed = False
        for name, rights in self.grammar.rows.items():
            height = 1 + max(self.weight(right) for right in rights)
            changed, self.height[name] = changed or height != self.height[name], height
        return changed


def classes_code(g):
    out = "// The classes of tokens, and sets of them.\n\n"
    for name in g.classes:
        out += f"pub const {upper(name)}: u8 = {g.number[name]};\n\n"
    for name in g.sets:
        out += f"pub const {upper(name)}: u64 = 0x{g.members(name):x};\n\n"
    return out.rstrip() + "\n"


def rows_code(g, crate):
    def enum(doc, name, words):
        body = "".join(f"    {camel(word)},\n" for word in words)
        return f"/// {doc}\n#[derive(Clone, Copy)]\npub enum {name} {{\n{body}}}\n\n"

    out = "// The rows of each rule of the grammar.\n"
    out += "ghost use Rattle.std.specs.Prelude.{◌≡◌, map, true};\n"
    out += "ghost use Rattle.ef_grammar.specs.Shown.{pass_all, row};\n"
    out += "ghost use Rattle.ef_grammar.specs.Table.{opened_rows};\n"
    out += f"ghost use Rattle.{crate}.specs.Tables as tables;\n\n"
    out += "".join(f"use crate::{part}_rows as {part};\n" for part in [*g.parts, *["opened"] * bool(g.opened)])
    out += "use ef_grammar::Row;\n\n"
    out += enum("A rule of the grammar.", "RuleName", g.rows)
    out += enum("What builds from what has been read.", "Action", g.actions)
    out += "/// The right sides of the rule, those of some rules opened ahead.\n"
    out += "pub fn rows(rule: RuleName) -> &'static [Row<RuleName, Action>]\n"
    out += "    ensures rows { map row result.now ≡ opened_rows tables.table rule }\n"
    out += "    ensures passed { pass_all tables.table result.now ≡ true }\n{\n    match rule {\n"
    for part, names in g.parts.items():
        for name in names:
            out += f"        RuleName::{camel(name)} => {'opened' if name in g.opened else part}::{upper(name)},\n"
    return out + "    }\n}\n"


def symbol_code(g, kind, word):
    if kind == "token":
        return f"Token(classes::{upper(word)})" if word in g.sets else f"Token(1 << classes::{upper(word)})"
    return f"Rule(RuleName::{camel(word)})" if kind == "rule" else f"Act(Action::{camel(word)})"


def symbols_code(g, symbols):
    return ", ".join(symbol_code(g, *one) for one in symbols)


def uses_code(parts):
    out = "use crate::classes;\n" + ("" if parts else "use crate::parts::NOTHING;\n") + "use crate::rows::{Action, RuleName};\n"
    out += "use ef_grammar::Symbol::{Act, Rule, Token};\n"
    return out + ("use ef_grammar::{Piece, Symbol};\n\n" if parts else "use ef_grammar::Row;\n\n")


def part_code(g, table, part):
    out = f"// The rows of the grammar: {part}.\n\n" + uses_code(False)
    for name in (name for name in g.parts[part] if name not in g.opened):
        out += f"pub const {upper(name)}: &[Row<RuleName, Action>] = &[\n"
        for at, right in zip(table.at[name], g.rows[name]):
            out += f"    Row {{\n        at: 0x{at:x},\n        right: &[{symbols_code(g, right)}],\n        then: NOTHING,\n    }},\n"
        out += "];\n\n"
    return out.rstrip() + "\n"


def opened_code(g, table):
    """The text of src/parts.rt, and that of src/opened_rows.rt."""
    parts = "// Parts that rows share.\n\n" + uses_code(True)
    parts += "pub const NOTHING: Piece<'static, RuleName, Action> = Piece {\n    symbols: &[],\n    pass: 0,\n};\n\n"
    rows = "// Rows that are opened ahead: what begins with a rule begins with that rule's row.\n\n"
    rows += "use crate::parts as part;\nuse crate::rows::{Action, RuleName};\nuse ef_grammar::Row;\n\n"
    seen = {}

    def shared(name, symbols, behind=False):
        nonlocal parts
        if name not in seen and behind:
            parts += f"pub const {name}: Piece<'static, RuleName, Action> = Piece {{\n    symbols: &[{symbols_code(g, symbols)}],\n"
            parts += f"    pass: 0x{table.passed(symbols):x},\n}};\n\n"
        elif name not in seen:
            parts += f"pub const {name}: &[Symbol<RuleName, Action>] = &[{symbols_code(g, symbols)}];\n\n"
        assert seen.setdefault(name, symbols) == symbols
        return f"part::{name}"

    for name in g.opened:
        rows += f"pub const {upper(name)}: &[Row<RuleName, Action>] = &[\n"
        for at, (rule, k), then in table.open(name)[0]:
            right = shared(f"{upper(rule)}_{k + 1}", g.rows[rule][k])
            behind = shared(f"BEHIND_{upper(rule)}_IN_{upper(name)}", then, True) if then else "part::NOTHING"
            rows += f"    Row {{\n        at: 0x{at:x},\n        right: {right},\n        then: {behind},\n    }},\n"
        rows += "];\n\n"
    return parts.rstrip() + "\n", rows.rstrip() + "\n"


def classes_spec(g):
    out = "-- The classes of tokens by number, and sets of them.\n"
    out += "use Rattle.std.specs.Prelude.{ℕ, [], ◌∷◌}\nuse Rattle.ef_grammar.specs.Grammar.{set_of}\n"
    for name in g.classes:
        out += f"\nabbrev pub {camel(name)} : ℕ\n{camel(name)} = {g.number[name]}\n"
    for name, words in g.sets.items():
        members = " ∷ ".join([camel(word) for word in words] + ["[]"])
        out += f"\nabbrev pub {camel(name)} : ℕ\n{camel(name)} = set_of ({members})\n"
    return out


def uses(crate):
    return (
        f"use Rattle.{crate}.specs.declared.rows.RuleName.{{RuleName}}\n"
        f"use Rattle.{crate}.specs.declared.rows.RuleName.TheVariants as r\n"
        f"use Rattle.{crate}.specs.declared.rows.Action.{{Action}}\n"
    )


def rules_spec(g, crate):
    def symbol(kind, word):
        if kind == "token":
            return f"Token c.{camel(word)}" if word in g.sets else f"t c.{camel(word)}"
        return f"Rule r.{camel(word)}" if kind == "rule" else f"Act a.{camel(word)}"

    def line(right):
        return "[]" if not right else f"({' ∷ '.join([symbol(*one) for one in right] + ['[]'])})"

    out = "-- The rows of the grammar: a line an alternative.\n"
    out += "use Rattle.std.specs.Prelude.{ℕ, List, [], ◌∷◌}\n"
    out += "use Rattle.ef_grammar.specs.Grammar.{Symbol, Token, Rule, Act, one}\n"
    out += f"use Rattle.{crate}.specs.Classes as c\n" + uses(crate)
    out += f"use Rattle.{crate}.specs.declared.rows.Action.TheVariants as a\n\n"
    out += "-- the token of this class\nabbrev pub t : ℕ → Symbol RuleName Action\nt i = Token (one i)\n\n"
    out += "abbrev pub rules : RuleName → List (List (Symbol RuleName Action))\n"
    for name, rights in g.rows.items():
        out += f"-- ---- {g.heads[name]}\n" if g.heads[name] else ""
        out += f"rules r.{camel(name)} =\n    " + "\n    ∷ ".join([line(right) for right in rights] + ["[]"]) + "\n"
    return out


def tables_spec(g, table, crate):
    out = "-- At which classes each right side is chosen, what may stand behind each rule, a bound of the steps before its first\n"
    out += "-- token, and how many levels are opened ahead. These numbers are checked, and tell a reader nothing of the language.\n"
    out += "use Rattle.std.specs.Prelude.{ℕ, List, [], ◌∷◌}\nuse Rattle.ef_grammar.specs.Table.{Row, Table, rowed}\n"
    out += uses(crate) + f"use Rattle.{crate}.specs.Rules.{{rules}}\n\nabbrev pub at : RuleName → List ℕ\n"
    for name, sets in table.at.items():
        out += f"at r.{camel(name)} = {' ∷ '.join([f'0x{some:x}' for some in sets] + ['[]'])}\n"
    out += "\nabbrev pub behind : RuleName → ℕ\n"
    out += "".join(f"behind r.{camel(name)} = 0x{some:x}\n" for name, some in table.behind.items())
    out += "\nabbrev pub height : RuleName → ℕ\n"
    out += "".join(f"height r.{camel(name)} = {steps}\n" for name, steps in table.height.items())
    out += "\nabbrev pub ahead : RuleName → ℕ\n"
    out += "".join(f"ahead r.{camel(name)} = {table.open(name)[1]}\n" for name in g.opened) + "ahead n = 0\n"
    out += "\nabbrev pub rows : RuleName → List (Row RuleName Action)\nrows n = rowed (at n) (rules n)\n"
    out += "\nabbrev pub table : Table RuleName Action\n"
    return out + "table = record { rows = rows; behind = behind; height = height; ahead = ahead }\n"


def sound_spec(g, crate):
    out = "-- The table is sound, and has the rows of the grammar.\n"
    out += "use Rattle.std.proofs.Common.{◌≡◌, refl}\nuse Rattle.ef_grammar.specs.Table.{rights, IsSound}\n"
    out += "".join(line + "\n" for line in uses(crate).splitlines()[:2])
    out += f"use Rattle.{crate}.specs.Rules.{{rules}}\nuse Rattle.{crate}.specs.Tables.{{rows, table}}\n"
    out += "\npub sound : IsSound table\n"
    out += "".join(f"sound r.{camel(name)} = refl\n" for name in g.rows)
    out += "\npub rows_are : (n : RuleName) → rights (rows n) ≡ rules n\n"
    return out + "".join(f"rows_are r.{camel(name)} = refl\n" for name in g.rows)


def main(path, crate=None, folder=None):
    g = Grammar(open(path, encoding="utf-8").read())
    table = Table(g)
    for error in table.errors:
        print(error)
    rights = sum(len(rights) for rights in g.rows.values())
    height = max(table.height.values())
    print(f"{len(g.rows)} rules, {rights} rows, {len(g.classes)} classes, {len(g.actions)} actions, height {height}")
    if table.errors or len(g.classes) > 64:
        sys.exit("no table: there are more than 64 classes, or what is said above")
    files = {
        "src/classes.rt": lambda: classes_code(g),
        "src/rows.rt": lambda: rows_code(g, crate),
        "specs/Classes.antt": lambda: classes_spec(g),
        "specs/Rules.antt": lambda: rules_spec(g, crate),
        "specs/Tables.antt": lambda: tables_spec(g, table, crate),
        "specs/Sound.antt": lambda: sound_spec(g, crate),
    }
    for part in g.parts:
        files[f"src/{part}_rows.rt"] = lambda part=part: part_code(g, table, part)
    files["src/parts.rt"] = lambda: opened_code(g, table)[0]
    if g.opened:
        files["src/opened_rows.rt"] = lambda: opened_code(g, table)[1]
    for name, text in files.items() if folder else ():
        os.makedirs(os.path.dirname(os.path.join(folder, name)), exist_ok=True)
        with open(os.path.join(folder, name), "w", encoding="utf-8") as out:
            out.write(text())


if __name__ == "__main__":
    if len(sys.argv) not in (2, 4):
        sys.exit(__doc__)
    main(*sys.argv[1:])
