#!/usr/bin/env python3
"""Counts the places of docs/DESIGN-PASS.md's eight points. Run at the repository's top: `python3 tools/places.py`, with `-l` to list each place,
and with a prefix (`3`, `1b`) for some kinds alone. It reads crates/*/src/*.rt and, for point 8, crates/*/proofs/.
Crates of C functions (abi_*) stand in kinds of their own, whose names end in -c: what C sees stays as it is."""
import hashlib
import os
import re
import sys
from collections import defaultdict

TITLES = {
    "1a-result": "enums with a variant Refused (shape of Result)",
    "1a-done-failed": "enums of Done and Failed (shape of Result), no number",
    "1a-option": "enums of one unit variant that means none, and one that holds a value (shape of Option)",
    "1a-three": "enums of one unit variant that means none or bad, and two or more that hold values",
    "1a-uses": "lines that make or match a Refused(..), outside abi_*",
    "1a-uses-c": "the same in abi_*",
    "1b-const": "refusal numbers as constants",
    "1b-fn": "functions that answer u8 as a refusal number, outside abi_*",
    "1b-fn-c": "functions that answer u8 in abi_*",
    "1b-test": "tests `no != 0`",
    "1b-raise": "uses of law::refusal::X",
    "1b-accept": "lines that are the bare answer 0 of a u8 function",
    "1c-const": "sentinel constants (ABSENT, UNLOADED, NONE)",
    "1c-sentinel": "uses of a sentinel: ABSENT, UNLOADED, NONE, usize::MAX as none",
    "1c-zero": "0 as the end of a list or as `not mine` (list == 0, rest != 0, answers 0 / tests > 0 or == 0 in replay)",
    "1c-nobody": "a table's length for nobody, n for the empty list's front",
    "1c-flag": "functions whose flag says whether what stands beside it counts (dense: bool, factored: bool), outside abi_*",
    "1c-flag-c": "the same in abi_*",
    "1c-bool-out": "functions that write a lent list and answer by a bool whether it holds, outside abi_*",
    "1d-kind": "numbers for kinds, outside abi_*: `how: u..`, literals 0..7 handed to done, pair, gained, told, whole",
    "1d-kind-c": "numbers for kinds, and 0 for accepted, in abi_*: how: u32, filled(1..), bare(0), => 0, => 7",
    "2-same": "functions that are equal once names, types and constants are taken away (in groups)",
    "2-judged": "functions of groups that reading judges to be twins (in groups, JUDGED below)",
    "3-while-counter": "`while` loops with a counter by hand",
    "3-while-other": "`while` loops without a counter that steps by one",
    "3-for-lists": "`for k in a..b` whose k only picks places of lists in order",
    "3-for-number": "`for k in a..b` whose k is also a number (handed on, stored, compared)",
    "3-for-turns": "`for _ in ..`",
    "3-for-iterator": "`for x in` something else than a range (no place)",
    "4-enum-match": "functions that are one `match` from an enum to a number, a float or another enum, outside abi_*",
    "4-enum-match-c": "the same in abi_*",
    "4-digits": "digits read, made or printed by hand (% 10, % 16, b'0' +, 48 +, - b'a')",
    "4-order": "functions that order, choose the lesser or greater or clamp by hand (ORDER below)",
    "4-same-field": "field lists `a: a`",
    "4-ignored-field": "fields ignored one by one in a pattern, `a: _`",
    "4-record": "a record copied to or from a list, or to another record, field by field",
    "4-widen": "calls of law::wide, a cast u32 to usize",
    "4-cast": "lines with `as` casts",
    "4-derive": "types with derive(Clone, Copy) and no other derive",
    "4-same": "uses of check::same, an equality of texts as a function",
    "5-pattern": "functions that take (n,) row_offsets, cols and diagonal",
    "5-rows": "functions that take row_offsets and cols, but no diagonal",
    "5-plan": "functions that take perm, inv_perm, first and row_start",
    "5-plan-part": "functions that take some two or three of those",
    "5-iteration": "functions that take residual, direction, a_direction and z",
    "5-settings": "functions that take tolerance and max_iterations or limit (and max_dense_dofs)",
    "5-entries": "functions that take pinned, count or entries, particles and gradients",
    "5-table": "functions that take pinned, loaded and column_of",
    "5-columns": "functions that take column_of and columns, but no loaded or no pinned",
    "5-desk": "functions that take degrees, placed, mark, level and queue",
    "5-desk-part": "functions that take three or four of those (placed may be called order)",
    "5-pairs": "functions that take count and pairs",
    "5-line": "functions of replay that take w and out, or w and line",
    "5-params": "functions of ten parameters or more",
    "5-requires": "requires clauses that stand word for word in three functions or more (a place is a function)",
    "6-fixed": "local arrays of a fixed length that hold a list whose length is elsewhere",
    "6-cursor": "functions that take `at` and a lent buffer and answer the next place",
    "6-length": "functions that take a list and beside it how much of it counts (count, read, len, n)",
    "6-search": "functions of the search by hand, and calls of it",
    "6-arena": "functions over the lists of indices (heads, links, firsts, ways)",
    "6-parallel": "functions over particles and gradients, or values with first and row_start, as parallel lists",
    "7-names": "branches that choose an operation by its name (check::same)",
    "7-chain": "`if x > 0 { return x }` chains over operations",
    "7-switch": "switches on which step or base to run (call: Call, entries: bool, base, dense)",
    "7-axis": "axis numbers 0 and 1 that choose what to do",
}

# Groups that reading judges to be twins: a name of the group, and crate/file.rt:function of each.
JUDGED = {
    "walk by the size of the cursors": ["matrix_test/formed.rt:walk_few", "matrix_test/formed.rt:walk_all"],
    "a list all of one value": ["law/lists.rt:clear", "factor_load/blocks.rt:zero", "columns_table/table.rt:clear",
                                "vectors/inner.rt:clear", "matrix_values/inner.rt:clear_values"],
    "a list copied": ["plan_layout/tables.rt:copy", "vectors/inner.rt:copy", "bench_print/inner.rt:put_bytes",
                      "replay_tokens/list.rt:copy_wholes", "replay_tokens/list.rt:copy_reals", "replay_tokens/list.rt:copy_bytes"],
    "particle by particle, out of two vectors": ["vectors/inner.rt:lack", "vectors/inner.rt:copy", "vectors/inner.rt:clear",
        "vectors/multiples.rt:advance", "vectors/multiples.rt:retreat", "vectors/multiples.rt:redirect",
        "vectors/multiples.rt:scale_all", "vectors/multiples.rt:precondition", "factor_substitution/inner.rt:gather"],
    "a vector or a block at a place": ["vectors/inner.rt:vector_at", "vectors/inner.rt:block_at",
                                       "vectors/inner.rt:set_vector", "vectors/inner.rt:set_block"],
    "halvings by how many": ["matrix_shape/index.rt:one", "matrix_shape/index.rt:two", "matrix_shape/index.rt:four"],
    "every place passes": ["matrix_test/formed.rt:rises", "matrix_walk/rows.rt:ends_ok", "matrix_pairs/given.rt:pairs_ok",
        "plan_test/plan.rt:undoes", "plan_test/plan.rt:firsts_ok", "plan_test/plan.rt:steps_ok", "plan_inside/inside.rt:slots_ok",
        "plan_inside/inside.rt:rows_ok", "step_entries/entries.rt:all_below", "step_entries/entries.rt:any_free",
        "columns_table/table.rt:bare", "columns_table/table.rt:each_once"],
    "a row's unmarked neighbours": ["order_search/breadth.rt:meet_row", "order_make/place.rt:append_open"],
    "not v and not marked": ["order_search/breadth.rt:is_new", "order_make/place.rt:is_wanted"],
    "the lesser or greater of two": ["plan_layout/rows.rt:lesser", "factor_row/row.rt:later", "replay_tokens/list.rt:least"],
    "a block beside and on the diagonal": ["factor_load/blocks.rt:beside", "factor_load/blocks.rt:corner"],
    "Factored, twice": ["factor_make/lib.rt:enum Factored", "factor_doors/lib.rt:enum Factored", "factor_doors/front.rt:answer"],
    "Refused or Done alone": ["matrix_doors/lib.rt:enum Ran", "factor_doors/lib.rt:enum Solved", "gradient_doors/lib.rt:enum Updated"],
    "Refused or Done(usize)": ["matrix_building/lib.rt:enum Built", "plan_doors/lib.rt:enum Planned", "columns_table/lib.rt:enum Loaded",
                               "bench_answer/lib.rt:enum Answered", "bench_sketch/inner.rt:enum Sketched"],
    "Refused or one u32": ["matrix_doors/lib.rt:enum Found", "matrix_row_view/lib.rt:enum Seen", "matrix_row_view/lib.rt:enum Placed"],
    "an answer with the record after it": ["step_lent/lib.rt:struct AfterStep", "step_lent/lib.rt:struct AfterResponse",
        "columns_make/lib.rt:struct Reckoned", "step_lent/inner.rt:after_step", "step_lent/inner.rt:after_response"],
    "refusals of a pattern's call": ["matrix_doors/refuse.rt:row", "matrix_doors/refuse.rt:clearing",
        "matrix_doors/refuse.rt:multiplying", "matrix_doors/refuse.rt:pinning", "matrix_doors/refuse.rt:pinning_marked",
        "gradient_refusals/refuse.rt:updating"],
    "refusals of building, with values and without": ["matrix_building/refuse.rt:building", "matrix_building/refuse.rt:from_pairs"],
    "later tests of a step and of columns": ["step_routes/refuse.rt:later", "columns_refusals/refuse.rt:later"],
    "the factor is within the limit": ["factor_doors/refuse.rt:short", "step_routes/dense.rt:plan_short"],
    "the number of an answer, for C": ["abi_answers/built.rt:built_number", "abi_answers/built.rt:ran_number",
        "abi_answers/built.rt:found_number", "abi_answers/ended.rt:updated_number", "abi_answers/ended.rt:solved_number",
        "abi_answers/factored.rt:factored_number", "abi_answers/factored.rt:solved_number", "abi_answers/planned.rt:planned_number",
        "abi_row_answers/row.rt:spanned_number", "abi_row_answers/row.rt:seen_number", "abi_row_answers/row.rt:placed_number",
        "abi_step_answers/marked.rt:marked_number", "abi_step_answers/responded.rt:responded_number",
        "abi_step_answers/stepped.rt:stepped_number", "abi_columns_answers/block.rt:block_number",
        "abi_columns_answers/combined.rt:combined_number", "abi_columns_answers/computed.rt:computed_number",
        "abi_columns_answers/loaded.rt:loaded_number"],
    "the value of an answer, or the old one, for C": ["abi_answers/built.rt:found_slot", "abi_row_answers/row.rt:spanned_first",
        "abi_row_answers/row.rt:spanned_len", "abi_row_answers/row.rt:seen_col", "abi_row_answers/row.rt:placed_slot",
        "abi_answers/factored.rt:factored_how", "abi_answers/factored.rt:failed_row", "abi_answers/factored.rt:failed_pivot",
        "abi_step_answers/marked.rt:marked_how", "abi_step_answers/marked.rt:failed_row", "abi_step_answers/marked.rt:failed_pivot",
        "abi_step_answers/responded.rt:gain_after", "abi_columns_answers/block.rt:block_how",
        "abi_columns_answers/block.rt:block_after", "abi_columns_answers/combined.rt:combined_gain",
        "abi_columns_answers/combined.rt:combined_how", "abi_columns_answers/computed.rt:ended_after",
        "abi_columns_answers/loaded.rt:loaded_after"],
    "four places after a solve, for C": ["abi_answers/ended.rt:after", "abi_step_answers/stepped.rt:after",
        "abi_step_answers/responded.rt:after", "abi_answers/ended.rt:filled", "abi_step_answers/stepped.rt:bare"],
    "a record of seven counts from a list": ["abi_step_answers/counts.rt:record", "replay_tally/record.rt:counts",
        "abi_step_answers/counts.rt:list", "replay_tally/record.rt:show"],
    "a list of a line lent": ["replay_tokens/list.rt:lent_wholes", "replay_tokens/list.rt:lent_reals",
                              "replay_tokens/list.rt:lent_bytes", "replay_tokens/list.rt:as_reals"],
    "the list behind a list": ["replay_tokens/list.rt:next", "replay_tokens/list.rt:behind", "replay_tokens/list.rt:behind_all",
                               "replay_tokens/list.rt:filled"],
    "a list of a line taken": ["replay_tokens/list.rt:wholes", "replay_tokens/list.rt:reals"],
    "a list printed": ["replay_tokens/print.rt:floats", "replay_tokens/print.rt:whole_list", "replay_tokens/print.rt:float_list",
                       "bench_print/inner.rt:put_list"],
    "digits of a base": ["replay_tokens/print.rt:pattern", "replay_tokens/print.rt:whole", "replay_tokens/word.rt:shifted",
                         "bench_print/inner.rt:put_number"],
    "first words of an answer line": ["replay_matrix/verdict.rt:built", "replay_matrix/verdict.rt:found", "replay_matrix/verdict.rt:ran",
        "replay_plan/operation.rt:planned", "replay_direct/factor.rt:factored", "replay_direct/solve.rt:solved",
        "replay_direct/mark.rt:marked", "replay_gradient/ending.rt:solved", "replay_gradient/update.rt:updated",
        "replay_step/ending.rt:stepped", "replay_step/ending.rt:responded", "replay_columns/ending.rt:loaded",
        "replay_columns/ending.rt:computed", "replay_columns/ending.rt:combined", "replay_columns/ending.rt:blocked"],
    "nothing of either": ["replay_gradient/ending.rt:none", "replay_columns/ending.rt:none"],
    "the operation of a name": ["replay_matrix/operation.rt:building", "replay_matrix/operation.rt:finding",
        "replay_matrix/operation.rt:changing", "replay_matrix/operation.rt:operate", "replay_direct/operation.rt:operate",
        "replay_gradient/operation.rt:operate", "replay_step/operation.rt:operate", "replay_columns/operation.rt:of_table",
        "replay_columns/operation.rt:of_columns", "replay_columns/operation.rt:operate", "replay/answer.rt:scalar",
        "replay/answer.rt:planar", "replay/answer.rt:matrix", "replay/answer.rt:operate"],
    "a call with verdict and lists": ["replay_matrix/blocks.rt:call_clear", "replay_matrix/blocks.rt:call_pin",
        "replay_matrix/blocks.rt:call_pin_marked", "replay_matrix/blocks.rt:call_mul", "replay_matrix/build.rt:call_pattern",
        "replay_matrix/build.rt:call_matrix", "replay_direct/factor.rt:call", "replay_direct/solve.rt:call",
        "replay_direct/mark.rt:call", "replay_gradient/update.rt:call", "replay_gradient/solve.rt:call",
        "replay_columns/table.rt:call_clear", "replay_columns/table.rt:call_load", "replay_columns/combine.rt:call_combine",
        "replay_columns/combine.rt:call_block"],
    "step, response and columns told": ["replay_step/solve.rt:tell", "replay_step/respond.rt:tell", "replay_columns/compute.rt:tell"],
    "lists lent by threes": ["replay_step/lent.rt:turned", "replay_step/lent.rt:started", "replay_columns/compute.rt:turned",
                             "replay_columns/compute.rt:started", "replay_gradient/solve.rt:turned"],
    "an argument's file": ["bench_table/main.rt:run_arg", "replay/main.rt:run_arg"],
}
ORDER = {"comes_before", "lower_of", "lesser", "later", "least", "clamp", "gain_of", "sort_by_key", "find_slot", "shift_in", "insert_one"}
KEYWORDS = set("fn pub let mut if else return match for in while loop break continue as true false struct enum mod use crate self const "
               "unsafe extern impl where ref move dyn u8 u16 u32 u64 usize i32 f32 f64 bool".split())


class Fn:
    """A function: where it stands, its name, parameters (name, type), answer, clauses and body, with line numbers."""

    def __init__(self, crate, path, line, name, head, clauses, body, body_line):
        self.crate, self.path, self.line, self.name = crate, path, line, name
        self.head, self.clauses, self.body, self.body_line = head, clauses, body, body_line
        inside, after = split_head(head)
        self.params = [tuple(x.strip() for x in p.split(":", 1)) for p in cut(inside) if ":" in p]
        self.names = {re.sub(r"^mut ", "", a) for a, _ in self.params}
        self.gives = after.replace("->", "").strip()

    @property
    def file(self):
        return f"{self.crate}/{os.path.basename(self.path)}"


def split_head(head):
    """The text inside the parameters' parentheses, and what follows them."""
    start = head.index("(", head.index("fn "))
    depth = 0
    for i in range(start, len(head)):
        depth += {"(": 1, ")": -1}.get(head[i], 0)
        if depth == 0:
            return head[start + 1:i], head[i + 1:].strip()
    return head[start + 1:], ""


def cut(text):
    """Parameters, parted at commas that stand in no bracket."""
    parts, depth, word = [], 0, ""
    for c in text:
        depth += {"(": 1, "[": 1, "<": 1, ")": -1, "]": -1, ">": -1}.get(c, 0)
        if c == "," and depth == 0:
            parts.append(word)
            word = ""
        else:
            word += c
    return [p.strip() for p in parts + [word] if p.strip()]


def bare(line):
    """A line without its comment."""
    return re.sub(r"//.*$", "", line)


def functions(crate, path, lines):
    """The functions of a file. A body starts at a line `{` alone, or at the end of a head without clauses, and ends at `}` of its indent."""
    found, i = [], 0
    while i < len(lines):
        m = re.match(r'(\s*)((pub(\([a-z]+\))? )?(extern "C" )?fn (\w+))', lines[i])
        if not m:
            i += 1
            continue
        indent, first, head, clauses = m.group(1), i, "", []
        while i < len(lines):
            line = bare(lines[i]).rstrip()
            clause = re.match(r"\s*(requires|ensures)\b", line)
            if line.endswith(";") and not line.strip().startswith("let"):  # a method of a trait, without a body
                break
            if clause or clauses:
                if line.strip() == "{":
                    break
                clauses.append(line.strip())
            elif line.strip() == "{":
                break
            elif line.endswith("{"):
                head += " " + line[:-1].strip()
                break
            else:
                head += " " + line.strip()
            i += 1
        start = i + 1
        while i < len(lines) and lines[i].rstrip() != indent + "}":
            i += 1
        found.append(Fn(crate, path, first + 1, m.group(6), head, clauses, [bare(x) for x in lines[start:i]], start + 1))
        i += 1
    return found


def read(top):
    crates = [re.split(r"[ :]", x)[0] for x in open(os.path.join(top, "crates.txt")) if x.strip() and not x.startswith("#")]
    files = []
    for crate in crates:
        folder = os.path.join("crates", crate, "src")
        for name in sorted(os.listdir(os.path.join(top, folder))):
            if name.endswith(".rt"):
                path = os.path.join(folder, name)
                files.append((crate, path, open(os.path.join(top, path)).read().split("\n")))
    return crates, files


PLACES = defaultdict(list)


def place(kind, crate, path, line, text):
    PLACES[kind + ("-c" if crate.startswith("abi_") and kind + "-c" in TITLES else "")].append((path, line, " ".join(text.split())))


def enums(crate, path, lines):
    for i, line in enumerate(lines):
        m = re.match(r"\s*(pub )?enum (\w+)", line)
        if not m:
            continue
        body, j = "", i + 1
        while lines[j].strip() != "}" or len(lines[j]) - len(lines[j].lstrip()) > len(line) - len(line.lstrip()):
            body += " " + bare(lines[j]).strip()
            j += 1
        variants = [re.sub(r"\s+", " ", v) for v in cut(body.replace("{", "(").replace("}", ")"))]
        unit = [v for v in variants if re.fullmatch(r"\w+", v)]
        full = [v for v in variants if v not in unit]
        none = [v for v in unit if v in ("None", "Absent", "Nothing", "Bad")]
        text = f"{m.group(2)} {{ {', '.join(variants)} }}"
        if any(v.startswith("Refused(u8") for v in full):
            place("1a-result", crate, path, i + 1, text)
        elif any(v.startswith("Failed") for v in full):
            place("1a-done-failed", crate, path, i + 1, text)
        elif none and len(full) == 1:
            place("1a-option", crate, path, i + 1, text)
        elif none and len(full) > 0:
            place("1a-three", crate, path, i + 1, text)
        yield m.group(2), i + 1


def by_line(crate, path, lines):
    """Kinds that one line shows."""
    abi, replay = crate.startswith("abi_"), crate.startswith("replay")
    derive = None
    for i, raw in enumerate(lines):
        line = bare(raw)
        if line.startswith("ghost use") or line.startswith("#!["):
            continue
        at = lambda kind: place(kind, crate, path, i + 1, line)
        if re.search(r"\bRefused\(", line) and not re.match(r"\s*Refused\(u8\)", line) and "ensures" not in line and "λ" not in line:
            at("1a-uses")
        if re.match(r"pub const \w+: u8 = ", line) and path.endswith("refusal.rt"):
            at("1b-const")
        if re.search(r"\bno != 0\b", line):
            at("1b-test")
        if re.search(r"law::refusal::[A-Z]+_", line):
            at("1b-raise")
        if re.match(r"(pub )?const (ABSENT|UNLOADED|NONE)\b", line):
            at("1c-const")
        elif re.search(r"\b(law::ABSENT|law::UNLOADED|NONE|usize::MAX)\b", line):
            at("1c-sentinel")
        if re.search(r"\b(list == 0|rest != 0)\b", line) or (crate.startswith("matrix_") and "links[rest - 1]" in line):
            at("1c-zero")
        if replay and re.search(r"^\s*(_ => )?0,?$|return 0;|\bif \w\w+ > 0 \{|\bat == 0\b", line) and "start" not in line:
            at("1c-zero")
        if re.search(r"best == degrees\.len\(\)|best = degrees\.len\(\)|return n;$", line) and not replay:
            at("1c-nobody")
        if abi and re.search(r"\bhow: u32|how: &mut u32|\b(filled|bare)\(\d|=> \d,", line):
            at("1d-kind")
        if not abi and re.search(r"\bhow: u\d+|\b(done|pair|gained|told)\(\d|whole\(7", line):
            at("1d-kind")
        if re.search(r"% 10\b|% 16\b|b'0' \+|\b48 \+|- b'[0a]'|- 48\b|\* 10\b|\* 16\b|v as u8 - 10", line) and "n % " not in line.replace("(n % 10)", ""):
            at("4-digits")
        elif re.search(r"\(n % 10\)|n / 10", line):
            at("4-digits")
        if re.match(r"\s*(\w+): \1,?$", line):
            at("4-same-field")
        if re.search(r"\b[a-z]\w*: _\b", line):
            PLACES["4-ignored-field"] += [(path, i + 1, line.strip())] * len(re.findall(r"\b[a-z]\w*: _\b", line))
        if re.search(r"\bdirect: (c\[0\]|own\.direct)|^\s*t\.direct,$|\bhow: \*how|\*how = p\.how|c0x: m\[0\]", line):
            at("4-record")
        if re.search(r"\bwide\(", line) and "pub fn wide" not in line:
            PLACES["4-widen"] += [(path, i + 1, line.strip())] * len(re.findall(r"\bwide\(", line))
        if re.search(r"\bas (u8|u16|u32|u64|usize|f32)\b", line) and not re.match(r"\s*(requires|ensures)", line):
            at("4-cast")
        if "derive(Clone, Copy)" in line:
            at("4-derive")
        if "check::same(" in line:
            at("4-same")
            at("7-names")
        if re.match(r"\s*if \w\w+ > 0 \{", line) and replay:
            at("7-chain")
        if re.search(r"match call \{|if entries \{|if base == 16|if dense\b(?!::)|if !dense\b(?!::)|if 2 \* (n|pattern\.n) <= max_dense_dofs", line):
            at("7-switch")
        if re.search(r"\bpinned\w*, p, [01]\b|columns, p, [01][,)]|columns, [01][,)]|p, [01], gradients|unit\(k, [01]\)|for k in 0\.\.2", line):
            at("7-axis")
        if re.match(r"\s*let mut \w+ = \[0\w*; [\w:]+( \+ 1)?\];", line):
            at("6-fixed")
        if re.search(r"\b(slot_of|searched|index::block_index)\(", line) and "fn " not in line and not replay:
            at("6-search")


def loops(f):
    for i, line in enumerate(f.body):
        m = re.match(r"(\s*)(while (.*) \{|for (.+?) in (.*) \{)", line)
        if not m:
            continue
        j = i + 1
        while f.body[j].rstrip() != m.group(1) + "}":
            j += 1
        inside = "\n".join(f.body[i + 1:j])
        at = (f.crate, f.path, f.body_line + i, f"{f.name}: {line.strip()}")
        if m.group(3):
            counters = re.findall(r"\b(\w+) (?:\+= 1|-= 1|= \w+ [+-] (?:1|8));", inside)
            if any(re.search(rf"\b{v}\b", m.group(3)) or f"[{v}]" in inside for v in counters):
                place("3-while-counter", *at)
            else:
                place("3-while-other", *at)
            continue
        k = re.escape(m.group(4))
        if ".." not in re.sub(r"\[[^\[\]]*\]", "", m.group(5)):
            place("3-for-iterator", *at)
        elif k == "_":
            place("3-for-turns", *at)
        else:
            rest = re.sub(r"\[[^\[\]]*\]", "", inside)
            rest = re.sub(r"(vector_at|block_at)\((\w+), " + k + r"\)", "", rest)
            rest = re.sub(r"set_(vector|block)\(\s*\w+,\s*" + k + r",", "", rest)
            place("3-for-number" if re.search(rf"\b{k}\b", rest) else "3-for-lists", *at)


def shape(f):
    """The function with names, types and constants taken away: what twins share."""
    text = re.sub(r"'\w+ ?", "", f.head + " {" + " ".join(f.body) + "}")
    text = re.sub(r"pub |unsafe|extern \"C\"|&mut |&", "", text)
    text = re.sub(r"b\"[^\"]*\"|b'[^']*'", "L", text)
    tokens, names = [], {}
    for t in re.findall(r"[A-Za-z_][\w:]*|\d[\w.]*|[^\s\w]", text):
        if t == ",":
            continue
        if re.match(r"\d", t):
            t = "N"
        elif t in ("u8", "u16", "u32", "u64", "usize", "f32", "bool"):
            t = "T"
        elif re.match(r"[A-Za-z_]", t) and t not in KEYWORDS:
            t = names.setdefault(t, f"x{len(names)}")
        tokens.append(t)
    return tokens


def by_function(fns):
    shapes = defaultdict(list)
    clauses = defaultdict(list)
    for f in fns:
        at = (f.crate, f.path, f.line, f.head)
        body = "\n".join(f.body)
        one_match = re.fullmatch(r"\s*match \w+ \{.*\n    \}\s*", body, re.S)
        if f.gives == "u8" and (f.crate.startswith("abi_") or re.search(r"law::refusal|no != 0|structure\(|later\(", body)):
            place("1b-fn", *at)
            if f.body and f.body[-1].strip() == "0":
                PLACES["1b-accept"].append((f.path, f.body_line + len(f.body) - 1, f"{f.name}: 0"))
        if any(a in ("dense", "factored") and b == "bool" for a, b in f.params):
            place("1c-flag", *at)
        if f.gives == "bool" and any("&mut" in b for _, b in f.params) and not f.crate.startswith("abi_"):
            place("1c-bool-out", *at)
        if one_match and re.match(r"\s*match (\w+)", body).group(1) in f.names and "b: u8" not in f.head:
            place("4-enum-match", *at)
        if f.name in ORDER and not f.crate.startswith("abi_") and "Responded" not in f.head:
            place("4-order", *at)
        n = f.names
        if {"row_offsets", "cols", "diagonal"} <= n:
            place("5-pattern", *at)
        elif {"row_offsets", "cols"} <= n:
            place("5-rows", *at)
        plan = n & {"perm", "inv_perm", "first", "row_start"}
        if len(plan) == 4:
            place("5-plan", *at)
        elif len(plan) > 1:
            place("5-plan-part", *at)
        if {"residual", "direction", "a_direction", "z"} <= n:
            place("5-iteration", *at)
        if "tolerance" in n and n & {"max_iterations", "limit"}:
            place("5-settings", *at)
        if {"pinned", "particles", "gradients"} <= n:
            place("5-entries", *at)
        if {"pinned", "loaded", "column_of"} <= n:
            place("5-table", *at)
        elif {"column_of", "columns"} <= n:
            place("5-columns", *at)
        desk = {"placed" if x == "order" and "queue" in n else x for x in n} & {"degrees", "placed", "mark", "level", "queue"}
        if len(desk) == 5:
            place("5-desk", *at)
        elif len(desk) > 2:
            place("5-desk-part", *at)
        if {"count", "pairs"} <= n:
            place("5-pairs", *at)
        if f.crate.startswith("replay") and "w" in n and n & {"out", "line"}:
            place("5-line", *at)
        if len(f.params) > 9:
            place("5-params", *at)
        if "at" in n and "out" in n and f.gives == "usize":
            place("6-cursor", *at)
        if (("count" in n and n & {"pairs", "particles"}) or ("read" in n and "buffer" in n) or {"len", "queue"} <= n or {"len", "order"} <= n
                or ("n" in n and n & {"line", "bytes", "buffer"} and "u8" in f.head)):
            place("6-length", *at)
        if n & {"heads", "links", "firsts", "ways"}:
            place("6-arena", *at)
        if f.file == "matrix_shape/index.rt":
            place("6-search", *at)
        if {"particles", "gradients"} <= n or ({"first", "row_start"} <= n and "values" in n):
            place("6-parallel", *at)
        for c in re.findall(r"requires (?:\w+ )?\{(.*?)\}(?= requires| ensures|$)", " ".join(f.clauses)):
            clauses[" ".join(re.sub(r"\.(now|old|new)\b", "", c).split())].append(f)
        tokens = shape(f)
        if len(tokens) > 24:
            shapes[hashlib.sha1(" ".join(tokens).encode()).hexdigest()].append(f)
    groups = [g for g in shapes.values() if len(g) > 1]
    for k, g in enumerate(sorted(groups, key=lambda g: (g[0].path, g[0].line)), 1):
        for f in g:
            place("2-same", "", f.path, f.line, f"[{k}] {f.name}")
    for k, (c, g) in enumerate(sorted(((c, g) for c, g in clauses.items() if len(g) > 2), key=lambda x: -len(x[1])), 1):
        for f in g:
            place("5-requires", "", f.path, f.line, f"[{k}: {len(g)}] {f.name}: {c}")
    return len(groups), sum(1 for g in clauses.values() if len(g) > 2)


def judged(fns, types):
    here = {f"{f.file}:{f.name}": f for f in fns}
    groups = 0
    for k, (name, members) in enumerate(JUDGED.items(), 1):
        left = [m for m in members if m in here or m in types]
        if len(left) > 1:
            groups += 1
            for m in left:
                path, line = (here[m].path, here[m].line) if m in here else types[m]
                place("2-judged", "", path, line, f"[{k} {name}] {m.split(':')[1]}")
    return groups


def proofs(top, crates, listing):
    total = defaultdict(lambda: [0, 0])
    for crate in crates:
        folder = os.path.join(top, "crates", crate, "proofs")
        sums = defaultdict(lambda: [0, 0])
        for path, _, names in os.walk(folder):
            for name in names:
                if name.endswith(".antt"):
                    kind = name[:-5] if name in ("Answers.antt", "Invariants.antt") else "own"
                    n = sum(1 for _ in open(os.path.join(path, name)))
                    for s in (sums, total):
                        s[kind][0] += 1
                        s[kind][1] += n
        if listing and sums:
            print("   ", crate.ljust(24), "  ".join(f"{k} {sums[k][0]} files {sums[k][1]} lines" for k in ("Answers", "Invariants", "own")))
    return total


def main():
    listing = "-l" in sys.argv[1:]
    want = [a for a in sys.argv[1:] if not a.startswith("-")]
    top = "."
    crates, files = read(top)
    fns, types = [], {}
    for crate, path, lines in files:
        fns += functions(crate, path, lines)
        for name, line in enums(crate, path, lines):
            types[f"{crate}/{os.path.basename(path)}:enum {name}"] = (path, line)
        for i, line in enumerate(lines):
            m = re.match(r"(pub )?struct (\w+)", line)
            if m:
                types[f"{crate}/{os.path.basename(path)}:struct {m.group(2)}"] = (path, i + 1)
        by_line(crate, path, lines)
    for f in fns:
        loops(f)
    same, repeated = by_function(fns)
    twins = judged(fns, types)
    print(f"{len(crates)} crates, {len(files)} files, {sum(len(x) - 1 for _, _, x in files)} lines, {len(fns)} functions")
    for kind, title in TITLES.items():
        if want and not any(kind.startswith(w) for w in want):
            continue
        more = {"2-same": f" in {same} groups", "2-judged": f" in {twins} groups", "5-requires": f" of {repeated} clauses"}.get(kind, "")
        print(f"{kind:18}{len(PLACES[kind]):5}{more}  {title}")
        if listing:
            for path, line, text in PLACES[kind]:
                print(f"    {path}:{line}: {text[:150]}")
    if not want or any(w.startswith("8") for w in want):
        total = proofs(top, crates, listing)
        for k in ("Answers", "Invariants", "own"):
            print(f"{'8-' + k:18}{total[k][0]:5}  files, {total[k][1]} lines")


main()
