#!/usr/bin/env python3
"""Rewrites the repository's own antt names to today's spelling: UpperCamel for types and predicates, snake case for all else, a dash between two names only.

usage, at the repository's root: python3 tools/respell.py [--check [--verbose] | --table]

It reads every crates/*/specs/**/*.antt and crates/*/proofs/**/*.antt and the clauses, ghost items and `ghost use` lines of crates/*/src/*.rt, with the code spans of their comments.
--check writes nothing and fails where something is left to rewrite; --verbose shows the words that stay though they read like a row; --table prints old<TAB>new. Where two names would meet it says so and writes nothing: such names stand in EXCEPT and EXCEPT_IN. A second run changes nothing.
A name is rewritten where it is declared, where the file's `use` lines bring it in, behind a module's path or alias, and behind a dot where it is a field of a record of the repository.
Names that Rattle makes, of Rust code, of modules and of the kit's library stay.
"""

import collections
import glob
import os
import re
import sys

# old -> new, where the plain rule would meet another name. Each with its reason.
EXCEPT = {
    # the constructors and a field of these words stand beside the functions
    "in-name": "in_a_name",
    "in-pattern": "in_a_pattern",
    # a field beside the function block_at
    "block-at": "block_range",
    # the constructors no_position and no_stream stand beside these values
    "noPosition": "no_position_data",
    "noStream": "no_stream_data",
}

# The same for the name of one module: module, old, new.
EXCEPT_IN = """
# a lemma (or, with _here, a shorthand) about the function of the same words ends in _lem
face_trail.proofs.Laws found-by found_by_lem
head_de.proofs.Moves number-of number_of_lem
head_de_lists.proofs.Going ranges-with ranges_with_lem
head_de_lists.proofs.Going spans-with spans_with_lem
head_de_lists.proofs.Moves items-from items_from_lem
head_de_lists.proofs.Moves list-of list_of_lem
head_de_values.proofs.Scalars scalar-value scalar_value_lem
head_lines.proofs.Moves key-of key_of_lem
head_lines.proofs.Sound lines-from lines_from_lem
head_open.proofs.Left open-words open_words_lem
head_open.proofs.Left positions-done positions_done_lem
head_open.proofs.Left streams-done streams_done_lem
head_record_fits.proofs.Said global-fits global_fits_lem
head_record_fits.proofs.Said position-fits position_fits_lem
head_record_fits.proofs.Said span_fits span_fits_lem
head_record_fits.proofs.Said stream-fits stream_fits_lem
head_record_fits.proofs.Said up-to up_to_lem
head_sections.proofs.Breaks break-here break_here_lem
house_step.proofs.Laws placed-in placed_in_lem
label_answers.proofs.Joined pattern-fits pattern_fits_lem
label_answers.proofs.Joined pattern-row pattern_row_lem
label_answers.proofs.Joined question-row question_row_lem
label_answers.proofs.Joined row_fits row_fits_lem
label_answers.proofs.Laws row-matches row_matches_lem
label_answers.proofs.Laws row_fits row_fits_lem
label_answers.proofs.Laws rows_fit rows_fit_lem
label_match.proofs.Matched some_end some_end_lem
laws.proofs.Parted read-from read_from_lem
link_search.proofs.Last last-is last_is_lem
link_tree.proofs.Laws step-yes step_yes_lem
link_window.proofs.Joined first-from first_from_lem
link_window.proofs.Laws fault-shape fault_shape_lem
load_bounds.proofs.Laws stands_at stands_at_lem
load_choose.proofs.Words position_at position_at_lem
load_choose.proofs.Words stream_at stream_at_lem
load_plan.proofs.Laws text-read text_read_lem
load_text.proofs.Laws name-index name_index_lem
promises.proofs.Apart held-left held_left_lem
promises.proofs.Beside room_in room_in_lem
promises.proofs.Reading comment-said comment_said_lem
promises.proofs.Tables job-done job_done_lem
shown_accepts.proofs.Lines to-line to_line_lem
shown_accepts.proofs.Rows leaf-of leaf_of_lem
shown_accepts.proofs.Rows row_fits row_fits_lem
shown_apart.proofs.Fills pattern-words pattern_words_lem
shown_example.proofs.Small record-table record_table_lem
shown_example.proofs.Small tree-table tree_table_lem
shown_face.proofs.Back comment-in comment_in_lem
shown_groups.proofs.Lines row-of row_of_lem
shown_groups.proofs.Lines row-said row_said_lem
shown_models.proofs.Chosen position-name position_name_lem
shown_models.proofs.Chosen stream-name stream_name_lem
shown_one.proofs.AsFull body-records body_records_lem
shown_one.proofs.Plan tree-planned tree_planned_lem
shown_voice.proofs.Texts voice-text voice_text_lem
shown_words.proofs.Back flags-fit flags_fit_lem
shown_words.proofs.Shaped empty-position empty_position_lem
shown_words.proofs.Shaped empty-stream empty_stream_lem
shown_write.proofs.BackLines leaf-at leaf_at_lem
shown_write.proofs.BackLines leaf-in leaf_in_lem
shown_write.proofs.BackLines lines-in lines_in_lem
shown_write.proofs.Loads pattern-rows pattern_rows_lem
shown_write.proofs.Loads pattern-table pattern_table_lem
shown_write.proofs.Loads question-rows question_rows_lem
shown_write.proofs.Loads question-table question_table_lem
shown_write.proofs.Sound pattern-fits pattern_fits_lem
table_rows.proofs.Fours record-table record_table_lem
table_rows.proofs.Fours tree-table tree_table_lem
table_rows.proofs.Stand tree-there tree_there_lem
text_numbers.proofs.Joined pattern-found pattern_found_lem
text_spaces.proofs.Joined past-byte past_byte_lem
text_spaces.proofs.Joined then_at then_at_lem
trail_rows.proofs.Joined body-row body_row_lem
trail_rows.proofs.Joined text-rows text_rows_lem
trail_rows.proofs.Joined tree-row tree_row_lem
trail_voice.proofs.Laws text-rows text_rows_lem
tree_body.proofs.Joined body-read body_read_lem
tree_body.proofs.Joined past-star past_star_lem
tree_body.proofs.Joined tree-read tree_read_lem
tree_line.proofs.Joined line-found line_found_lem
tree_line.proofs.Joined line_step line_step_lem
tree_question.proofs.Filling questions-from questions_from_here
tree_question.proofs.Joined past-qs past_qs_lem
tree_question.proofs.Joined pattern-step pattern_step_here
tree_question.proofs.Joined question-read question_read_lem
tree_reference.proofs.Digits in-word in_word_lem
tree_reference.proofs.Same same_index same_index_lem
tree_survey.proofs.Said body-lines body_lines_lem
tree_survey.proofs.Said body-records body_records_lem
tree_survey.proofs.Said said-negative said_negative_lem
tree_survey.proofs.Said tree-lines tree_lines_lem
tree_survey.proofs.Said tree-records tree_records_lem
tree_survey.proofs.Whole trees-at trees_at_lem
walk.proofs.Bound one_more one_more_lem
walk.proofs.Judged is-yes is_yes_lem
walk_bare.proofs.Laws is-yes is_yes_lem
walk_bare.proofs.Laws walk-shape walk_shape_lem
write_rows.proofs.Outside asks-in asks_in_lem
write_rows.proofs.Outside pattern-in pattern_in_lem
write_rows.proofs.Outside question-in question_in_lem
write_text.proofs.Laws tree-bytes tree_bytes_lem
written.proofs.Tests up-to up_to_lem
written_alone.proofs.Shifted byte-at byte_at_lem
written_apart.proofs.ApartFile all-of all_of_lem
"""

# Words that join as a plain word even where something is named so.
PLAIN = set("""a after all alone an and are as at be been before both broken but by did each else end ends every first for from full given goes had has here how if in inside is it its kept left long more most
named next no none not of on one only or other out over own past read right rest said same so some step still than that the then there these this those to two up was what when where which
who whole with within without""".split())
# Words of the kit that count as names, besides those that the files import.
KIT = set("""add all append count drop eq eqb filter flatten get get_or insert le leb length lt ltb map mem min max mul ne nth pow replicate reverse set sets slice_get sub subset succ sum take
zero zip cons nil suc not cond same_below is_some is_none""".split())
LOCAL = {("Rattle." + row.split()[0], row.split()[1]): row.split()[2] for row in EXCEPT_IN.split("\n") if row and row[0] != "#"}
KIT_MODULES = ("Rattle.std.specs.Prelude", "mathlib.Core.", "lib.ListN", "lib.Dec", "lib.Seq", "lib.IntN", "borrow.Author.Tests", "native.Mathlib.Nat")
# a part of a name, where the kit says it otherwise today
PARTS = {"getD": "get_or"}

W = r'[^\s(){}.;,@"«»]+'
WORD = re.compile(W)
QUIET = re.compile(r'"(?:[^"\\\n]|\\.)*"|(?<![^\s(){}.;,@"«»])--[^\n]*|\{-.*?-\}', re.S)
SPAN = re.compile(r"`[^`\n]+`")
PARENS = r"\((?:[^()]|\((?:[^()]|\((?:[^()]|\([^()]*\))*\))*\))*\)"
SIG = re.compile(r"^( *)((?:(?:pub|abbrev|unfoldable|pattern|axiom|data|record) +)*)(%s(?: +%s)*?)((?: *(?:\{[^{}]*\}|%s))*) +:(?= |$)" % (W, W, PARENS), re.M)
KEYWORDS = {"use", "module", "open", "infix", "infixl", "infixr", "unfolding", "where", "let", "in", "mod", "mutual", "λ", "=", "→", "|", "↦", "with"}
MADE = re.compile(r"(?:tie\.(?:Need-|invariant-|decreases-)|goal\.|\{M : Type 1\} → statement M)")
USE = re.compile(r"^ *(?:pub )?use ([^\s{]+?)(?:\.?\{([^}]*)\}| as (\S+))", re.M)
GHOST_USE = re.compile(r"\bghost\s+use\s+([^\s{;]+?)(?:\.?\{([^}]*)\}| as (\S+))?\s*;")
STEPS = {"given", "loop", "ensures", "requires", "auto", "initial", "old", "new", "now", "invariant", "result", "seen", "type-inv", "true", "false", "test"}


def blank(text):
    return QUIET.sub(lambda m: re.sub(r"[^\n]", " ", m[0]), text)


def snake(part):
    return re.sub(r"(?<=[a-z0-9₀-₉])([A-Z])", lambda m: "_" + m[1], part).lower() if re.search("[a-z][A-Z]|[0-9][A-Z]", part) and not part[0].isupper() else part


def items(text):
    for item in text.split(","):
        words = item.split()
        if len(words) == 3 and words[1] == "as":
            yield words[0], words[2]
        elif len(words) == 1:
            yield words[0], words[0]


class Module:
    """What an antt file declares and brings in."""

    def __init__(self, path):
        self.path = path
        with open(path, encoding="utf-8") as f:
            self.text = f.read()
        self.code = blank(self.text)
        self.values, self.types, self.fields, self.ctors, self.defs, self.made = (set() for _ in range(6))
        self.name = "Rattle." + path[len("crates/") : -len(".antt")].replace("/", ".")
        lines, stack = self.code.split("\n"), []
        for row, line in enumerate(lines):
            if not line.strip():
                continue
            deep = len(line) - len(line.lstrip())
            while stack and deep <= stack[-1][0]:
                stack.pop()
            m = SIG.match(line)
            names = m[3].split() if m else []
            if not m or KEYWORDS & {line.split()[0], *names}:
                continue
            kind = [line[m.end() :]]
            for more in lines[row + 1 :]:
                if more.strip() and len(more) - len(more.lstrip()) <= deep:
                    break
                kind.append(more)
            kind, marks = " ".join(kind).strip(), m[2].split()
            block = stack[-1][1] if stack else None
            for name in names:
                if MADE.match(kind) and "/proofs/" in path:
                    self.made.add(name)
                elif "data" in marks or "record" in marks or not block and re.match(r"Type\b", last_of(kind)):
                    self.types.add(name)
                    self.defs.add(name)
                else:
                    self.values.add(name)
                    if block:
                        (self.fields if block == "record" else self.ctors).add(name)
                    else:
                        self.defs.add(name)
            for mark in ("record", "data"):
                if mark in marks:
                    stack.append((deep, mark))
        # fields of record types without a name
        for m in re.finditer(r"\brecord \{", self.code):
            depth, at = 0, m.end() - 1
            for t in re.finditer(r"[({]|[)}]|;|(?<=[{;\s])(%s) :(?= )" % W, self.code[at:]):
                if t[0] in "({":
                    depth += 1
                elif t[0] in ")}":
                    depth -= 1
                    if not depth:
                        break
                elif t[1] and depth == 1:
                    self.fields.add(t[1])
        self.uses = [(m[1], list(items(m[2])) if m[2] is not None else None, m[3]) for m in USE.finditer(self.code)]

    def declared(self):
        return (self.values | self.types | self.fields) - self.made


def last_of(kind):
    depth = at = 0
    for m in re.finditer(r"[({})]|→", kind):
        depth += (m[0] in "({") - (m[0] in ")}")
        if m[0] == "→" and not depth:
            at = m.end()
    return kind[at:].strip()


class Speller:
    def __init__(self, modules):
        self.table, self.words = {}, set(KIT)
        types = set().union(*(m.types for m in modules))
        values = set().union(*(m.values | m.fields for m in modules))
        for m in modules:
            for path, names, alias in m.uses:
                if names and path.startswith(KIT_MODULES):
                    self.words |= {a for a, b in names if re.fullmatch(r"[A-Za-z_]+", a)}
        aliases = {b for m in modules for path, names, alias in m.uses if names and path.startswith("Rattle.") for a, b in names if a != b}
        for name in types - values:
            new = self.type_name(name)
            if new != name:
                self.table[name] = new
        plain = lambda n: self.table.get(n) or EXCEPT.get(n) or snake(n)
        self.words |= {plain(n) for m in modules if "/specs/" in m.path for n in m.defs if "-" not in n}
        self.words -= PLAIN
        self.both = types & values
        for name in sorted(values | aliases):
            if name not in self.table:
                new = EXCEPT.get(name) or self.value_name(name)
                if new != name:
                    self.table[name] = new

    def type_name(self, name):
        if name in EXCEPT:
            return EXCEPT[name]
        if not re.fullmatch(r"[A-Za-z]\w*(-\w+)*'*", name) or name[0].isupper() and "-" not in name:
            return name
        return "".join(p[0].upper() + p[1:] for p in re.split("[-_]", name))

    def value_name(self, name):
        if name[0].isupper() or name[0] in "#|◌" or not re.search("[A-Za-z]", name):
            return name
        parts = [p for p in re.split("(-)", name)]
        if "" in parts:  # the sign of an operator
            return name
        new = [PARTS.get(p) or self.table.get(p) or EXCEPT.get(p) or snake(p) for p in parts[::2]]
        is_name = lambda p: p.rstrip("'?!₀₁₂₃₄₅₆₇₈₉") in self.words
        out = new[0]
        for a, b in zip(new, new[1:]):
            out += ("-" if is_name(a) and is_name(b) else "_") + b
        return out if out == name else self.value_name(out)  # (a part that has grown by `_` may be no name)


class Respeller:
    def __init__(self):
        paths = sorted(p for sub in ("specs", "proofs") for p in glob.glob(f"crates/*/{sub}/**/*.antt", recursive=True))
        self.modules = {m.name: m for m in map(Module, paths)}
        self.speller = Speller(self.modules.values())
        self.table = self.speller.table
        self.fields, self.ctors = ({f for m in self.modules.values() for f in of(m) if f in self.table} for of in (lambda m: m.fields, lambda m: m.ctors))
        self.datas, self.own = {t for m in self.modules.values() for t in m.types}, ""
        self.rust = set()
        for path in glob.glob("crates/*/src/*.rt"):
            with open(path, encoding="utf-8") as f:
                self.rust |= set(re.findall(r"\w+", f.read()))
        self.said, self.count, self.hits = [], collections.Counter(), collections.Counter()

    # ---- names in scope

    def new_in(self, module, name):
        return LOCAL.get((module, name)) or self.table.get(name, name)

    def scope(self, uses, module=None):
        """What the names of a file turn into, each with its new name; the modules behind its aliases; where each name comes from."""
        here, aliases, origin = {}, {}, {}
        own = module.name if module else ""
        for path, names, alias in uses:
            m = self.modules.get(path)
            if alias:
                aliases[alias] = path
            for a, b in names or ():
                origin[b] = (path, a)
                if a == b and m and a in m.declared():
                    here[b] = self.new_in(path, a)
                elif a != b and path.startswith("Rattle."):
                    here[b] = self.new_in(own, b)
        if module:
            for n in module.declared() | module.made:
                origin[n] = (own, n)
                here[n] = self.new_in(own, n)
                if n in module.made:
                    del here[n]
        return {a: b for a, b in here.items() if a != b}, aliases, origin

    # ---- text

    def turn(self, code, here, aliases, where):
        """A stretch of antt without quotes and comments."""
        code = re.sub(r"(\buse )([^\s{]+?)(\.?\{)([^}]*)(\})", lambda m: m[1] + m[2] + m[3] + self.items(m[2], m[4]) + m[5], code)
        out, at = [], 0
        uses = [m.span() for m in re.finditer(r"\buse [^\s{]+(?:\{[^}]*\})?(?: as \S+)?", code)]
        chain = re.compile(r"(?:%s|(?<=[)}»]))(?:\.(?:%s))*" % (W, W))
        for m in chain.finditer(code):
            if not m[0] or any(a <= m.start() < b for a, b in uses):
                continue
            parts = m[0].split(".")
            new = self.chain(parts, here, aliases, code, m, where)
            out += [code[at : m.start()], ".".join(new)]
            at = m.end()
        return "".join(out + [code[at:]])

    def items(self, path, text):
        m = self.modules.get(path)

        def one(it):
            words = re.match(r"(\s*)(\S+)(?: as (\S+))?(\s*)$", it, re.S)
            if not words:
                return it
            a, b = words[2], words[3]
            na = self.hit(a, self.new_in(path, a)) if m and a in m.declared() else a
            nb = self.hit(b, self.new_in(self.own, b)) if b and path.startswith("Rattle.") else b
            return words[1] + (na if not b or na == nb else f"{na} as {nb}") + words[4]

        return ",".join(map(one, text.split(",")))

    def hit(self, old, new):
        if new != old:
            self.hits[old] += 1
        return new

    def chain(self, parts, here, aliases, code, m, where):
        out, at = [], 0
        if parts[0] == "":
            out, at = [""], 1
        elif parts[0] == "Rattle" or parts[0] in aliases:
            path = parts[0] if parts[0] == "Rattle" else aliases[parts[0]]
            out, at = [parts[0]], 1
            while at < len(parts) and path not in self.modules and path.startswith("Rattle") and (parts[0] == "Rattle"):
                path += "." + parts[at]
                out.append(parts[at])
                at += 1
            mod = self.modules.get(path)
            if not mod:
                # a module that Rattle makes, or the kit's: only what stands behind a name of it can be a field
                if at < len(parts):
                    out.append(parts[at])
                    at += 1
            elif at < len(parts):
                out.append(self.hit(parts[at], self.new_in(path, parts[at])) if parts[at] in mod.declared() else parts[at])
                at += 1
        else:
            head = parts[0]
            if head in self.fields and self.is_key(code, m):
                out = [self.hit(head, self.table[head])]
            elif head in here:
                out = [self.hit(head, here[head])]
            else:
                out = [head]
                if head in self.table:
                    self.said.append(f"left: {where}: {head} in `{'.'.join(parts)}`")
            at = 1
        for k in range(at, len(parts)):
            p = parts[k]
            if p in self.ctors and parts[k - 1] in self.datas or p in self.fields and not self.is_step(parts, k):
                out.append(self.hit(p, self.table[p]))
            else:
                if p in self.table:
                    self.said.append(f"dot: {where}: {p} in `{'.'.join(parts)}`")
                out.append(p)
        return out

    def is_step(self, parts, k):
        """A name behind a dot that Rattle made of a Rust name."""
        if parts[0] in ("tie", "goal") or parts[k - 1] in ("args", "before"):
            return True
        if parts[k].replace("-", "_") not in self.rust:
            return False
        if parts[k - 1] in ("invariant", "requires", "ensures", "inv") or k > 1 and parts[k - 2] == "invariant":
            return False
        return k + 1 < len(parts) and parts[k + 1] in STEPS or parts[0] == "c" and k == 1

    def is_key(self, code, m):
        """The key of a record literal."""
        return bool(re.search(r"[{;]\s*$", code[: m.start()])) and bool(re.match(r"\s+[=:](?=\s)", code[m.end() :]))

    def comment(self, text, here, aliases, where):
        return SPAN.sub(lambda s: self.turn(s[0], here, aliases, where + " (comment)"), text)

    def antt(self, text, here, aliases, where):
        out, at = [], 0
        for q in QUIET.finditer(text):
            out.append(self.turn(text[at : q.start()], here, aliases, where))
            out.append(q[0] if q[0][0] == '"' else self.comment(q[0], here, aliases, where))
            at = q.end()
        return "".join(out + [self.turn(text[at:], here, aliases, where)])

    # ---- Rattle source

    RUST = re.compile(r"""//[^\n]*|/\*.*?\*/|b?"(?:\\.|[^"\\])*"|b?'(?:\\.|[^'\\])'|\w+|\s+|.""", re.S)
    CLAUSE = re.compile(r"(?:requires|ensures|decreases|invariant)\b\s*\*?\s*(?:\w+\s*)?\{|ghost\b\s*(?:\w+\s*(?::\s*|=\s*)?)*\{")

    def rt(self, text, where):
        uses = [(m[1], list(items(m[2])) if m[2] is not None else None, m[3]) for m in GHOST_USE.finditer(text)]
        here, aliases, origin = self.scope(uses)
        out, at = [], 0
        while at < len(text):
            m = self.RUST.match(text, at)
            word, end = m[0], m.end()
            if word[:2] in ("//", "/*"):
                out.append(self.comment(word, here, aliases, where))
            elif word in ("requires", "ensures", "decreases", "invariant", "ghost"):
                use, clause = GHOST_USE.match(text, at), self.CLAUSE.match(text, at)
                if use:
                    end = use.end()
                    out.append(self.turn(use[0], here, aliases, where))
                elif clause:
                    close = self.closing(text, clause.end())
                    out += [clause[0], self.antt(text[clause.end() : close], here, aliases, where)]
                    end = close
                else:
                    out.append(word)
            else:
                out.append(word)
            at = end
        return "".join(out), here, origin

    def closing(self, text, at):
        depth = 0
        for m in re.compile(QUIET.pattern + r"|[{}]|//[^\n]*", re.S).finditer(text, at):
            depth += (m[0] == "{") - (m[0] == "}")
            if depth < 0:
                return m.start()
        raise SystemExit("a clause that doesn't close")

    # ---- clashes

    def clashes(self, where, here, origin, words, said):
        """A new spelling that the file already has, or that two of its names fall into."""
        found = collections.defaultdict(set)
        for old, new in here.items():
            found[new].add(old)
        for new, olds in sorted(found.items()):
            if len(olds) > 1 or new in words and new not in here:
                all_ = olds | ({new} if new in words and new not in here else set())
                said.append(("clash", where, new, [(n, origin.get(n)) for n in sorted(all_)]))


def heads(code):
    """The words that can name something by themselves: none behind a dot, none in the path of a `use` line."""
    code = re.sub(r"\buse [^\s{]+", lambda m: " ", code)
    code = re.sub(r"([{;]\s*)%s(?=\s+=\s)" % W, r"\1", code)
    return set(re.findall(r"(?<![^\s(){},;@\"«»])" + W, code))


def main(args):
    if set(args) - {"--check", "--table", "--verbose"}:
        sys.exit(__doc__.split("\n\n")[1])
    r = Respeller()
    if "--table" in args:
        print("\n".join(f"{a}\t{b}" for a, b in sorted(r.table.items())))
        return 0
    clashes, changed = [], {}
    for name in sorted(r.speller.both & set(r.table)):
        clashes.append(("clash", "both", name, []))
    for mod in r.modules.values():
        here, aliases, origin = r.scope(mod.uses, mod)
        r.own = mod.name
        new = r.antt(mod.text, here, aliases, mod.path)
        r.clashes(mod.path, here, origin, heads(mod.code), clashes)
        if new != mod.text:
            changed[mod.path] = new
    r.own = ""
    for path in sorted(glob.glob("crates/*/src/*.rt")):
        with open(path, encoding="utf-8") as f:
            text = f.read()
        new, here, origin = r.rt(text, path)
        bare = re.sub(r"//[^\n]*", "", text)
        bound = set(re.findall(r"\b(?:let|mut|for|ref) (\w+)", bare)) | set(re.findall(r"(\w+)\s*:(?!:)", bare)) | set(re.findall(r"\|(\w+)", bare))
        r.clashes(path, here, origin, bound, clashes)
        low = {w.lower(): w for w in re.findall(r"\b(?:fn|struct|enum|const|type|trait|mod|static) (\w+)", bare)}
        for old, t in here.items():
            if t.lower() in low and low[t.lower()] != t:
                clashes.append(("case", path, t, [(old, origin.get(old))]))
        if new != text:
            changed[path] = new
    for line in clashes:
        print(f"{line[0]}: {line[1]}: {line[2]}: " + "; ".join(f"{n} of {(o or ['?'])[0]}" for n, o in line[3]))
    for line in r.said if "--verbose" in args else []:
        print(line)
    if clashes:
        return 2
    if "--check" not in args:
        for path, new in changed.items():
            with open(path, "w", encoding="utf-8") as f:
                f.write(new)
    kinds = collections.Counter(p.rsplit(".", 1)[1] for p in changed)
    print(f"names {len(r.table)}; words {sum(r.hits.values())}; files {'to change' if '--check' in args else 'changed'}: {kinds['antt']} antt, {kinds['rt']} rt")
    return 1 if "--check" in args and changed else 0


if __name__ == "__main__":
    sys.exit(main(sys.argv[1:]))
