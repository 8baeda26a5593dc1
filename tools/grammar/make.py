#!/usr/bin/env python3
"""Writes the classes of tokens and the table of the grammar of the crate fort_grammar.

    tools/grammar/make.py

The table is written twice, as data of the program (src) and as definitions (specs), with the
sets that the proof of the table tests: FIRST and emptiness of each row, FOLLOW of each part,
a measure, and a row of each part that ends. Run `rt fmt` in the crate afterwards.

Nothing trusts this script: the check computes that both tables are equal and that the sets
are right.
"""
import os

HERE = os.path.dirname(os.path.abspath(__file__))
CRATE = os.path.join(HERE, "..", "..", "crates", "fort_grammar")
OTHER_CLASSES = ["number", "name", "reserved", "other"]
# A text of each class that tokens.txt gives no text.
SAMPLES = {"number": "0", "name": "x", "reserved": "real", "other": "!$claw"}


def lines_of(name):
    """The lines HEAD: BODY of a file, comments set aside."""
    with open(os.path.join(HERE, name), encoding="utf-8") as file:
        for line in file:
            if line.strip() and not line.startswith("#"):
                head, body = line.split(":", 1)
                yield head.strip(), body.strip()


def camel(name):
    """The name of a variant."""
    return "".join(word[0].upper() + word[1:] for word in name.split("_"))


def read_tokens():
    """The classes in order, each text with its class, and the keywords."""
    classes, words, keywords = [], [], []
    for head, body in lines_of("tokens.txt"):
        texts = body.split()
        if head == "keywords":
            classes += texts
            keywords = texts
            words += [(text, text) for text in texts]
        else:
            if head not in OTHER_CLASSES:
                classes.append(head)
            words += [(text, head) for text in texts]
    return classes + OTHER_CLASSES, words, keywords


class Grammar:
    """The parts with their rows, and what follows from them."""

    def __init__(self, classes):
        self.rows = {head: [row.split() for row in body.split("|")] for head, body in lines_of("grammar.txt")}
        self.parts = list(self.rows)
        self.actions = []
        for row in self.all_rows():
            for symbol in row:
                if symbol[0] == "!" and symbol[1:] not in self.actions:
                    self.actions.append(symbol[1:])
                assert symbol[0] == "!" or symbol in self.rows or symbol in classes, symbol
        self.empty = {part: False for part in self.parts}
        self.first = {part: [] for part in self.parts}
        self.follow = {part: [] for part in self.parts}
        self.weight, self.rank = {}, {}
        self.close_first()
        self.close_follow()
        for part in self.parts:
            self.weigh(part, ())
        self.rank_parts()
        self.test()

    def all_rows(self):
        return [row for part in self.parts for row in self.rows[part]]

    def is_empty(self, row):
        """Whether the row derives no token."""
        return all(symbol[0] == "!" or self.empty.get(symbol, False) for symbol in row)

    def firsts(self, row):
        """The classes that can begin the row."""
        out = []
        for symbol in row:
            if symbol[0] == "!":
                continue
            out += [c for c in self.first.get(symbol, [symbol]) if c not in out]
            if not self.empty.get(symbol, False):
                break
        return out

    def close_first(self):
        changed = True
        while changed:
            changed = False
            for part in self.parts:
                for row in self.rows[part]:
                    if self.is_empty(row) and not self.empty[part]:
                        self.empty[part] = changed = True
                    for c in self.firsts(row):
                        if c not in self.first[part]:
                            self.first[part].append(c)
                            changed = True

    def close_follow(self):
        changed = True
        while changed:
            changed = False
            for part in self.parts:
                for row in self.rows[part]:
                    for at, symbol in enumerate(row):
                        if symbol not in self.rows:
                            continue
                        rest = row[at + 1 :]
                        for c in self.firsts(rest) + (self.follow[part] if self.is_empty(rest) else []):
                            if c not in self.follow[symbol]:
                                self.follow[symbol].append(c)
                                changed = True

    def weigh(self, part, above):
        """One more than what stands before the first token of a row, at most."""
        assert part not in above, ("left recursion", part)
        if part not in self.weight:
            most = 0
            for row in self.rows[part]:
                total = 0
                for symbol in row:
                    if symbol[0] == "!":
                        total += 1
                    elif symbol in self.rows:
                        total += self.weigh(symbol, above + (part,))
                    else:
                        break
                most = max(most, total)
            self.weight[part] = most + 1
        return self.weight[part]

    def rank_parts(self):
        """Each part has a row all of whose parts have a lower rank."""
        rank = 0
        while len(self.rank) < len(self.parts):
            new = [
                part
                for part in self.parts
                if part not in self.rank
                and any(all(s not in self.rows or s in self.rank for s in row) for row in self.rows[part])
            ]
            assert new, "some part derives nothing"
            for part in new:
                self.rank[part] = rank
            rank += 1

    def test(self):
        """One token of look-ahead is enough."""
        for part in self.parts:
            rows = self.rows[part]
            for at, row in enumerate(rows):
                for other in rows[:at]:
                    assert not set(self.firsts(other)) & set(self.firsts(row)), (part, other, row)
                if self.empty[part]:
                    assert not set(self.firsts(row)) & set(self.follow[part]), (part, row)
            assert not any(self.is_empty(row) for row in rows[:-1]), part


def rust_symbol(grammar, symbol):
    if symbol[0] == "!":
        return f"Symbol::Build(Action::{camel(symbol[1:])})"
    if symbol in grammar.rows:
        return f"Symbol::Call(Part::{symbol})"
    return f"Symbol::Take(Class::{camel(symbol)})"


def antt_symbol(grammar, symbol):
    if symbol[0] == "!":
        return f"Build act.{camel(symbol[1:])}"
    if symbol in grammar.rows:
        return f"Call part.{symbol}"
    return f"Take class.{camel(symbol)}"


def antt_list(items):
    return " ∷ ".join(list(items) + ["[]"])


def enum(name, doc, variants):
    body = "".join(f"    {camel(v)},\n" for v in variants)
    return f"/// {doc}\n#[derive(Clone, Copy, Debug, PartialEq, Eq)]\npub enum {name} {{\n{body}}}\n"


def write(path, text):
    with open(os.path.join(CRATE, path), "w", encoding="utf-8") as file:
        file.write(text)


def quoted(text):
    return f'b"{text}"'


def write_class(classes, words, keywords):
    listed = "".join(f"        Word {{\n            text: {quoted(t)},\n            class: Class::{camel(c)},\n        }},\n" for t, c in words)
    reserved = " | ".join(f"Class::{camel(c)}" for c in keywords + ["reserved"])
    write(
        "src/class.rt",
        f"""//! Classes of tokens: the terminal symbols of the grammar. Made by tools/grammar/make.py.
ghost use Rattle.std.specs.Prelude.{{◌≡◌, map}};
ghost use Rattle.fort_grammar.specs.Class.{{word, words}};

{enum("Class", "The class of a token. A keyword is a class of its own; a reserved word without a place in the grammar is in `Reserved`.", classes)}
/// A text, and the class of the token that has it.
#[derive(Clone, Copy, Debug)]
pub struct Word {{
    pub text: &'static [u8],
    pub class: Class,
}}

impl Class {{
    ghost use Rattle.std.specs.Prelude.{{◌≡◌, nat_eq}};
    ghost use Rattle.fort_grammar.specs.Class.{{code, is_reserved as reserved_test}};

    /// The number of the class, from 0.
    pub fn code(self) -> u8
        ensures {{ result ≡ code self }}
    {{
        self as u8
    }}

    /// Whether both are the same class.
    pub fn is(self, other: Class) -> bool
        ensures {{ result ≡ nat_eq (code self) (code other) }}
    {{
        self.code() == other.code()
    }}

    /// Whether it is the class of a reserved word, the names of intrinsic functions set aside.
    pub fn is_reserved(self) -> bool
        ensures {{ result ≡ reserved_test self }}
    {{
        matches!(self, {reserved})
    }}
}}

/// The texts whose class is not that of all names or of all numbers.
pub fn words() -> &'static [Word]
    ensures {{ map word result.now ≡ words }}
{{
    &[
{listed}    ]
}}
""",
    )
    codes = "".join(f"code class.{camel(c)} = {n}\n" for n, c in enumerate(classes))
    entries = " ∷\n    ".join(f'record {{ text = codes "{t}"; class = class.{camel(c)} }}' for t, c in words)
    reserved = "".join(f"is_reserved class.{camel(c)} = true\n" for c in keywords + ["reserved"])
    sample = {c: t for t, c in reversed(words)} | SAMPLES
    samples = "".join(f'sample class.{camel(c)} = codes "{sample[c]}"\n' for c in classes)
    write(
        "specs/Class.antt",
        f"""-- Classes of tokens. Made by tools/grammar/make.py.
use Rattle.std.specs.Prelude.{{ℕ, Bool, true, false, List, [], ◌∷◌, codes}}
use Rattle.fort_grammar.specs.declared.class.Class.{{Class}}
use Rattle.fort_grammar.specs.declared.class.Class.TheVariants as class
use Rattle.fort_grammar.specs.declared.class.Word.{{Word}}

abbrev pub code : Class → ℕ
{codes}
abbrev pub classes : List Class
classes = {antt_list("class." + camel(c) for c in classes)}

-- a text, and the class of the token that has it
pub record Entry : Type 0 where
  pub text : List ℕ
  pub class : Class

abbrev pub word : Word → Entry
word w = record {{ text = w.text.now; class = w.class }}

-- the texts whose class isn't that of all names or of all numbers
abbrev pub words : List Entry
words =
    {entries} ∷
    []

-- the class of a reserved word, the names of intrinsic functions set aside
abbrev pub is_reserved : Class → Bool
{reserved}is_reserved _ = false

-- a text of each class
abbrev pub sample : Class → List ℕ
{samples}""",
    )


def write_table(grammar):
    arms = []
    for part in grammar.parts:
        rows = "".join(
            "                Row {\n"
            f"                    first: &[{', '.join('Class::' + camel(c) for c in grammar.firsts(row))}],\n"
            f"                    empty: {'true' if grammar.is_empty(row) else 'false'},\n"
            f"                    symbols: &[{', '.join(rust_symbol(grammar, s) for s in row)}],\n"
            "                },\n"
            for row in grammar.rows[part]
        )
        arms.append(f"        Part::{part} => {{\n            &[\n{rows}            ]\n        }}\n")
    write(
        "src/table.rt",
        f"""//! The grammar as data: the rows of each part. Made by tools/grammar/make.py.
ghost use Rattle.std.specs.Prelude.{{◌≡◌, map}};
ghost use Rattle.fort_grammar.specs.Table.{{choice, table}};

use crate::class::Class;

{enum("Action", "What is built where the action stands in a row.", grammar.actions)}
{enum("Part", "A part of the grammar: a nonterminal symbol.", grammar.parts)}
/// What stands in a row.
#[derive(Clone, Copy, Debug)]
pub enum Symbol {{
    /// A token of the class.
    Take(Class),
    /// Tokens of the part.
    Call(Part),
    /// No token; something is built.
    Build(Action),
}}

/// A row of a part, with the classes that can begin it, and whether it can be empty.
#[derive(Clone, Copy, Debug)]
pub struct Row {{
    pub first: &'static [Class],
    pub empty: bool,
    pub symbols: &'static [Symbol],
}}

/// The rows of the part.
pub fn rows(part: Part) -> &'static [Row]
    ensures {{ map choice result.now ≡ table part }}
{{
    match part {{
{"".join(arms)}    }}
}}
""",
    )
    clauses = ""
    for part in grammar.parts:
        rows = " ∷\n    ".join(
            [
                f"record {{ first = {antt_list('class.' + camel(c) for c in grammar.firsts(row))}; "
                f"empty = {'true' if grammar.is_empty(row) else 'false'}; "
                f"symbols = {antt_list(antt_symbol(grammar, s) for s in row)} }}"
                for row in grammar.rows[part]
            ]
            + ["[]"]
        )
        clauses += f"table part.{part} =\n    {rows}\n"
    write(
        "specs/Table.antt",
        f"""-- The grammar as data. Made by tools/grammar/make.py.
use Rattle.std.specs.Prelude.{{Bool, true, false, List, [], ◌∷◌}}
use Rattle.fort_grammar.specs.declared.class.Class.{{Class}}
use Rattle.fort_grammar.specs.declared.class.Class.TheVariants as class
use Rattle.fort_grammar.specs.declared.table.Action.TheVariants as act
use Rattle.fort_grammar.specs.declared.table.Part.{{Part}}
use Rattle.fort_grammar.specs.declared.table.Part.TheVariants as part
use Rattle.fort_grammar.specs.declared.table.Symbol.{{Symbol}}
use Rattle.fort_grammar.specs.declared.table.Symbol.TheVariants.{{Take, Call, Build}}
use Rattle.fort_grammar.specs.declared.table.Row.{{Row}}

-- a row, with the classes that can begin it, and whether it can be empty
pub record Choice : Type 0 where
  pub first : List Class
  pub empty : Bool
  pub symbols : List Symbol

abbrev pub choice : Row → Choice
choice r = record {{ first = r.first.now; empty = r.empty; symbols = r.symbols.now }}

-- the rows of a part
abbrev pub table : Part → List Choice
{clauses}""",
    )


def write_sets(grammar):
    follow = "".join(f"follow part.{p} = {antt_list('class.' + camel(c) for c in grammar.follow[p])}\n" for p in grammar.parts)
    weight = "".join(f"weight part.{p} = {grammar.weight[p]}\n" for p in grammar.parts)
    rank = "".join(f"rank part.{p} = {grammar.rank[p]}\n" for p in grammar.parts)
    write(
        "specs/Sets.antt",
        f"""-- Sets and measures that the test of the table is about. Made by tools/grammar/make.py.
use Rattle.std.specs.Prelude.{{ℕ, List, [], ◌∷◌}}
use Rattle.fort_grammar.specs.declared.class.Class.{{Class}}
use Rattle.fort_grammar.specs.declared.class.Class.TheVariants as class
use Rattle.fort_grammar.specs.declared.table.Part.{{Part}}
use Rattle.fort_grammar.specs.declared.table.Part.TheVariants as part

-- the classes that can follow a part
abbrev pub follow : Part → List Class
{follow}
-- more than the weights of what stands before the first token in each row of the part
abbrev pub weight : Part → ℕ
{weight}
-- each part has a row all of whose parts have a lower rank
abbrev pub rank : Part → ℕ
{rank}""",
    )


def main():
    classes, words, keywords = read_tokens()
    grammar = Grammar(classes)
    write_class(classes, words, keywords)
    write_table(grammar)
    write_sets(grammar)
    count = len(grammar.all_rows())
    print(f"{len(classes)} classes, {len(words)} words, {len(grammar.parts)} parts, {count} rows, {len(grammar.actions)} actions")


if __name__ == "__main__":
    main()
