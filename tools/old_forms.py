#!/usr/bin/env python3
"""Counts the places of old forms in the sources: what reads like the older language that the project was ported from.

    python3 tools/old_forms.py              for each point the number of places, how many of these are kept, and the numbers by crate
    python3 tools/old_forms.py POINT        each place of one point besides (1 to 8)
    python3 tools/old_forms.py all          each place of every point

It is run at the top of a checkout, of any commit (in a work tree of an older one, by the script's path in this), and reads crates/*/src/*.rt,
and for point 8 crates/*/proofs. It counts by syntax, and does not ask whether a new form would be plainer. Where that was asked and the place stays, a comment
line that begins `// Kept:` stands just above the place or above its item (function, type or constant), and the place is counted as kept. Of a clause or of
parameters that stand in many functions the line begins `// Kept: clause` or `// Kept: parameters`, above one of these functions.

The points:
  1  own enums of the shape of Option or Result; a flag, or a number for none, with a value beside it; numbers for kinds and refusals
  2  twins: functions or types that differ only in a type, a size or a constant
  3  loops that count an index by hand
  4  equality, order, copying, conversion and printing by hand
  5  a clause, or a group of parameters, that stands in three or more functions
  6  buffers with a length beside them or in a slot, arrays cut up by offsets, lists searched by hand, arenas of indices
  7  switches on which step to run
  8  proofs: files of answers, answers, lines
"""
import collections
import glob
import os
import re
import sys

# ---------------------------------------------------------------------------------------------------------------------------------------------------------
# What is known by name, since no pattern tells it. A name is counted as long as it is still there.

# Point 1. Numbers for kinds and refusals: in which crate, what they number, and the constants.
NUMBERS = [
    ("parsing", "refusals of reading", "TOO_LONG ENDS_TOO_SOON COUNT_OUTSIDE TOO_LARGE NOT_ABOVE COMPLEMENT_BESIDE CONTRADICTORY_EFFECTS EFFECT_AND_KNOWLEDGE "
     "NOT_EXCLUSIVE NESTED_TOO_DEEP BYTES_AFTER TOO_MANY_ITEMS SAYS_IS_NOT"),
    ("parsing", "marks", "UNKNOWN_MARK TRUE_MARK FALSE_MARK"),
    ("walking", "marks", "FIRST SECOND"),
    ("verdicts", "answers", "VERIFIED GOAL_MISSED NOT_EXECUTABLE BUDGET_SPENT STATE_LENGTH NOT_REACHED SENSING_TOO_WIDE TOO_MANY_LINES ROOM_SHORT GUARD_BROKEN "
     "TOO_MANY_CASES INDEX_DIFFERS WHETHER_ASKED"),
    ("verdicts", "inputs", "NEITHER_INPUT THE_REQUEST THE_DERIVATION THE_INDEX"),
    ("checking", "refusals of a derivation", "NO_SUCH_RULE NOT_EARLIER CITATIONS_NOT_TAKEN DOES_NOT_FOLLOW NOT_THE_QUESTION CLOSING_NOT_RIGHT"),
    ("derivation", "rules", "EMPTY_RULE ACTION_RULE SENSING_RULE BRANCHING_RULE COMPOSITION_RULE CONSEQUENCE_RULE LOOK_RULE LITERAL_RULE SENSING_WHETHER_RULE "
     "COMPOSITION_WHETHER_RULE BRANCHING_WHETHER_RULE"),
    ("writing", "rules", "EMPTY_RULE ACTION_RULE SENSING_RULE BRANCHING_RULE COMPOSITION_RULE CONSEQUENCE_RULE"),
    ("steps", "modes", "NARROW VALUES"),
    ("glintstring", "modes", "BY_CASES"),
    ("steps", "answers", "TOO_WIDE TOO_MANY"),
    ("walking", "answers", "MISSED STUCK SPENT BROKEN"),
    ("guide", "answers", "NOT_VERIFIED WRONG_NUMBER AGAINST_KNOWN"),
]
# Fields that hold such a number.
NUMBER_FIELDS = [("meaning", "Answer", "number"), ("meaning", "Answer", "input"), ("comparing", "Spot", "rule")]
# Constants that stand for none among numbers that say something else, and functions whose result is a number that may stand for none (0, or a limit).
NONE_CONSTANTS = [("guide", "NO_ACTION")]
NONE_FUNCTIONS = [
    ("reading", "first_line"), ("reading", "next_line"), ("reading", "before"), ("steps", "next_unknown"), ("steps", "first_unknown"),
    ("walking", "next_unknown"), ("walking", "first_unknown"), ("steps", "start_of"), ("steps", "follow"), ("walking", "follow"),
    ("checking", "line_refused"), ("glintstring", "line_at"),
]

# Point 2. Twins: each of a group as crate::module::name. A group is counted as many times as it has members beyond the first that are still there.
TWINS = [
    ("bodies that agree with two states", "refusing::refusal_16::agrees refusing::refusal_16::agrees_with_both"),
    ("lines that run with two states", "refusing::refusal_16::runs_with refusing::refusal_16::values_run_with"),
    ("two effects that contradict", "refusing::refusal_16::contradicts refusing::refusal_16::values_contradict"),
    ("an effect against those in its bucket", "refusing::refusal_16::contradicted_flags refusing::refusal_16::contradicted_values"),
    ("a state that rules out conditions", "refusing::refusal_18::excludes refusing::refusal_18::sets_exclude"),
    ("conditions that are exclusive", "refusing::refusal_18::flags_exclusive refusing::refusal_18::values_exclusive"),
    ("whether an action can be run", "steps::actions::can_be_run acting::value_actions::can_be_run"),
    ("the state after an action", "steps::actions::state_after acting::value_actions::state_after"),
    ("a literal that is known", "reading::marks::holds valuing::states::known"),
    ("each literal of a list", "reading::marks::each_holds valuing::states::each_known"),
    ("a look at a list", "reading::marks::look_at valuing::states::look_at"),
    ("the state of a list", "reading::marks::state_of valuing::states::first_state"),
    ("the first goal missed", "steps::goals::first_missed steps::goals::first_value_missed"),
    ("trying an action", "steps::trying::try_flags steps::trying::try_valued"),
    ("entries of a list", "parsing::lists::entries_at parsing::values::value_entries_at"),
    ("a list", "parsing::lists::list_at parsing::values::value_list_at"),
    ("a list of either form", "parsing::forms::literals_at parsing::table_lines::body_at"),
    ("a request read", "reader::whole::read_request reader::whole::read_guarded reader::whole::read_values"),
    ("a request settled", "refusing::settled::settle refusing::settled::settle_guarded refusing::settled::settle_values"),
    ("a request walked", "verdicts::walked::walk_plan verdicts::walked::walk_values"),
    ("the calls that walk", "glintstring::judging::judge glintstring::judging::judge_guarded glintstring::judging::judge_by_cases "
     "glintstring::judging::judge_indexed glintstring::judging::judge_values"),
    ("flags of an action's bodies", "steps::opening::flag_effects steps::opening::flag_lines"),
    ("the branch that is chosen", "steps::onward::chosen steps::onward::chosen_flags"),
    ("a number made wider", "parsing::bytes::wide reading::notes::widened verdicts::telling::widened walking::tally::widened writing::lines::number_of"),
    ("a number made narrower", "verdicts::telling::byte_of glintstring::missing::narrowed"),
    ("an array as long as its type says", "reading::notes::sized derivation::derivations::sized valuing::sets::sized"),
    ("a slot of an array", "reading::notes::get derivation::derived::place_of"),
    ("a slot of an array written", "reading::notes::put derivation::derivations::note_place"),
    ("a slot of the lines' notes", "reading::notes::line_place reading::notes::next_line reading::notes::first_line"),
    ("two bytes as a number", "comparing::plans::count_of indexing::taking::offset_at"),
    ("a number as two bytes", "writing::room::put_number indexing::building::put_offset"),
    ("numbers of one, two and four bytes", "guide_trials::main::one_byte guide_trials::main::two_bytes guide_trials::main::four_bytes"),
    ("the input of a program", "judge::main::judge_input derive::main::derive_input index::main::index_input release::main::release_input"),
    ("the answer to a derivation", "audit::main::answer_to review::answering::answer_to"),
    ("fluents that are asked for", "guide_program::saying::put_fluents guide_trials::main::put_asked"),
    ("what an outcome adds", "review::main::passing review::main::missing"),
    ("what was read, or a fault", "parsing::bytes::Read parsing::lists::Passed derivation::derivations::Lined"),
    ("a number, or none", "finding::places::Found ruling::readings::Used programs::lib::Asked guide_trials::main::Number"),
    ("the rules' numbers", "derivation::rule_numbers::EMPTY_RULE writing::rule_bytes::EMPTY_RULE"),
    ("an answer's number, once more for the walk", "verdicts::answers::GOAL_MISSED walking::tally::MISSED"),
    ("an answer's number, once more for trying", "verdicts::answers::TOO_MANY_CASES steps::trying::TOO_MANY"),
]

# Point 6. Arrays with a slot that is no element but their length, or whose slots mean different things.
SLOTTED = "tally progress cites held"
# Constants that are offsets into an array that is cut up by them.
OFFSETS = [
    ("reading", "ITEM_PLACE ITEM_NEXT AROUND_FROM BRANCH_PLACE BRANCH_ITEM FIRST_LINES EFFECTS EXECUTABILITY SENSED_FROM SENSED_TO PLAN ITEMS COUNT_OF_EFFECTS "
     "COUNT_OF_EXECUTABILITY COUNT_OF_KNOWLEDGE GOALS GUARDS MODE SENSED"),
    ("derivation", "PLAN_ENDS LINES_END"),
]
# Functions that write or read the links of an arena of indices.
ARENAS = [
    ("reading", "first_line"), ("reading", "next_line"), ("reading", "append_line"), ("reading", "note_next"), ("reading", "note_branch"),
    ("refusing", "link_bucket"), ("indexing", "take_lines"),
]

NUMBER_TYPES = ("u8", "u16", "u32", "u64", "usize")

# ---------------------------------------------------------------------------------------------------------------------------------------------------------
# Reading the sources.

Item = collections.namedtuple("Item", "kind name at head clauses body body_at")  # body and clauses are text with comments and strings blanked


def blanked(text):
    """The text without what comments, strings and characters say, at the same offsets."""
    def blank(found):
        said = found[0]
        if said.startswith("//"):
            return " " * len(said)
        start = said.index(said[-1])
        return said[:start + 1] + re.sub(r"[^\n]", "_", said[start + 1:-1]) + said[-1]
    return re.sub(r"//[^\n]*|b?\"(?:\\.|[^\"\\])*\"|b?'(?:\\.|[^'\\\n])'", blank, text)


def closing(text, at):
    """Where the bracket at `at` is closed."""
    pairs = {"{": "}", "(": ")", "[": "]"}
    depth = 0
    for i in range(at, len(text)):
        if text[i] == text[at]:
            depth += 1
        elif text[i] == pairs[text[at]]:
            depth -= 1
            if depth == 0:
                return i
    return len(text) - 1


class Source:
    def __init__(self, path):
        self.path = path
        self.crate = path.split("/")[1]
        self.module = os.path.basename(path)[:-3]
        with open(path, encoding="utf-8") as it:
            self.text = it.read()
        self.lines = self.text.split("\n")
        self.code = blanked(self.text)
        self.items = list(self.find_items())

    def line(self, at):
        return self.text.count("\n", 0, at) + 1

    def find_items(self):
        heads = r"^[ \t]*(?:pub(?:\([a-z]+\))? +)?(?:unsafe +)?(?:extern +\"[^\"]*\" +)?(?:const +(?=fn))?(fn|enum|struct|const|type) +(\w+)"
        for found in re.finditer(heads, self.code, re.M):
            kind, name = found[1], found[2]
            at = found.start(1)
            if kind == "fn":
                opened = self.code.index("(", found.end())
                end = closing(self.code, opened)
                head = self.code[opened + 1:end]
                clauses = []
                at_clause = end + 1
                # The contract: clauses with a name or none, each in its own braces; then the body.
                while True:
                    nearest = re.compile(r"\b(requires|ensures|decreases)\b[^{]*|\{").search(self.code, at_clause)
                    if not nearest or nearest[0] == "{":
                        break
                    start = nearest.end()
                    stop = closing(self.code, start)
                    clauses.append((nearest[1], nearest.start(), self.code[start + 1:stop]))
                    at_clause = stop + 1
                if not nearest:
                    continue
                result = self.code[end + 1:clauses[0][1] if clauses else nearest.start()]
                stop = closing(self.code, nearest.start())
                yield Item(kind, name, at, (head, result), clauses, self.code[nearest.start() + 1:stop], nearest.start() + 1)
            elif kind in ("enum", "struct"):
                opened = re.compile(r"[{;(]").search(self.code, found.end())
                if not opened or opened[0] != "{":
                    continue
                stop = closing(self.code, opened.start())
                yield Item(kind, name, at, "", [], self.code[opened.end():stop], opened.end())
            else:
                stop = self.code.index(";", found.end())
                # An array's type has a semicolon of its own.
                while self.code.count("[", found.end(), stop) > self.code.count("]", found.end(), stop):
                    stop = self.code.index(";", stop + 1)
                yield Item(kind, name, at, "", [], self.code[found.end():stop], found.end())

    def functions(self):
        return [i for i in self.items if i.kind == "fn"]

    def item_at(self, at):
        """The item that this offset is in."""
        within = None
        for item in self.items:
            if item.at <= at <= item.body_at + len(item.body):
                within = item
        return within

    def kept_line(self, line, word=""):
        """Just above this line, between other comment lines and attributes, a line begins `// Kept:`."""
        i = line - 2
        while i >= 0 and re.match(r"\s*(//|#\[)", self.lines[i]):
            if re.match(r"\s*// Kept: *" + word, self.lines[i]):
                return True
            i -= 1
        return False

    def kept(self, at):
        if self.kept_line(self.line(at)):
            return True
        item = self.item_at(at)
        if not item:
            return False
        if item.kind == "const":
            return self.kept_constant(item)
        return self.kept_line(self.line(item.at))

    def kept_constant(self, item):
        """The comment above a constant stands for those behind it too, up to the next comment."""
        i = self.line(item.at) - 2
        while i >= 0 and re.match(r"\s*$|\s*(pub(\([a-z]+\))? +)?const ", self.lines[i]):
            i -= 1
        return self.kept_line(i + 2)


SOURCES = [Source(path) for path in sorted(glob.glob("crates/*/src/**/*.rt", recursive=True))]

Place = collections.namedtuple("Place", "point part crate where what kept")
PLACES = []


def add(point, part, source, at, what, kept=None):
    where = f"{source.path}:{source.line(at)}"
    PLACES.append(Place(point, part, source.crate, where, what, source.kept(at) if kept is None else kept))


def squeezed(text):
    return re.sub(r"\s+", " ", text).strip()


def split_top(text, mark=","):
    """The parts between commas that stand in no bracket."""
    parts, depth, last = [], 0, 0
    for i, c in enumerate(text):
        if c in "([{":
            depth += 1
        elif c in ")]}":
            depth -= 1
        elif c == mark and depth == 0:
            parts.append(text[last:i])
            last = i + 1
    parts.append(text[last:])
    return [squeezed(p) for p in parts if squeezed(p)]


def parameters(item):
    """Name and type of each."""
    given = [p.split(":", 1) for p in split_top(item.head[0]) if ":" in p]
    return [(re.sub(r"^mut ", "", name.strip()), squeezed(kind)) for name, kind in given]


def fields(item):
    given = [re.sub(r"^pub(\([a-z]+\))? +", "", squeezed(re.sub(r"#\[[^\]]*\]", "", f))) for f in split_top(item.body)]
    return [tuple(x.strip() for x in f.split(":", 1)) for f in given if re.match(r"\w+ *:", f)]


def variants(item):
    """Name and data of each."""
    given = [squeezed(re.sub(r"#\[[^\]]*\]", "", v)) for v in split_top(item.body)]
    return [(re.match(r"\w+", v)[0], v[re.match(r"\w+", v).end():].strip()) for v in given if re.match(r"\w+", v)]


def everywhere(kind, crate=None, name=None):
    for source in SOURCES:
        for item in source.items:
            if item.kind == kind and crate in (None, source.crate) and name in (None, item.name):
                yield source, item


# ---------------------------------------------------------------------------------------------------------------------------------------------------------
# Point 1.

def own_enums():
    """Two variants: one without data beside one with data (Option), or one that is a fault (Result)."""
    for source, item in everywhere("enum"):
        both = variants(item)
        if len(both) != 2:
            continue
        data = [d != "" for _, d in both]
        fault = any(re.match(r"(Fault|Err|Error|Fails|Failed|Refused|Unreadable)$", n) for n, _ in both)
        if fault and all(data):
            add(1, "own enum like Result", source, item.at, f"enum {item.name} {{ {', '.join(n + d for n, d in both)} }}")
        elif data.count(True) == 1:
            add(1, "own enum like Option", source, item.at, f"enum {item.name} {{ {', '.join(n + d for n, d in both)} }}")


def flags_beside():
    """A struct with a field that is a bool, or an enum without data, and other fields beside it."""
    plain = {item.name for _, item in everywhere("enum") if variants(item) and all(d == "" for _, d in variants(item))}
    for source, item in everywhere("struct"):
        given = fields(item)
        for name, kind in given:
            if len(given) > 1 and (kind == "bool" or kind.split("::")[-1] in plain):
                at = item.body_at + re.search(rf"\b{name}\b", item.body).start()
                add(1, "flag beside values", source, at, f"struct {item.name}: {name}: {kind} beside {', '.join(n for n, _ in given if n != name)}")


def numbers_for_kinds():
    for crate, what, names in NUMBERS:
        for name in names.split():
            for source, item in everywhere("const", crate, name):
                if item.body.strip().startswith(":") and re.match(r"\s*:\s*(u8|u16|u32|u64|usize)\b", item.body):
                    add(1, "number for a kind or refusal", source, item.at, f"const {name}{squeezed(item.body)} ({what})")
    for crate, struct, field in NUMBER_FIELDS:
        for source, item in everywhere("struct", crate, struct):
            for name, kind in fields(item):
                if name == field and kind in NUMBER_TYPES:
                    at = item.body_at + re.search(rf"\b{name}\b", item.body).start()
                    add(1, "number for a kind or refusal", source, at, f"field {struct}.{field}: {kind}")


def numbers_for_none():
    for crate, name in NONE_CONSTANTS:
        for source, item in everywhere("const", crate, name):
            add(1, "number for none", source, item.at, f"const {name}{squeezed(item.body)}")
    for crate, name in NONE_FUNCTIONS:
        for source, item in everywhere("fn", crate, name):
            kind = squeezed(item.head[1]).replace("->", "").strip()
            if kind in NUMBER_TYPES:
                add(1, "number for none", source, item.at, f"fn {name} -> {kind}")


# ---------------------------------------------------------------------------------------------------------------------------------------------------------
# Point 2.

def twins():
    for what, names in TWINS:
        there = []
        for name in names.split():
            crate, module, last = name.split("::")
            for source in SOURCES:
                if (source.crate, source.module) == (crate, module):
                    there += [(source, item) for item in source.items if item.name == last]
        for source, item in there[1:]:
            first, of = there[0]
            # Of two, the line may stand above either.
            kept = source.kept(item.at) or len(there) == 2 and first.kept(of.at)
            add(2, "twin", source, item.at, f"{item.name}, of {first.crate}::{first.module}::{of.name}: {what}", kept)


# ---------------------------------------------------------------------------------------------------------------------------------------------------------
# Point 3.

Loop = collections.namedtuple("Loop", "source at kind test body")


def loops():
    for source in SOURCES:
        for item in source.functions():
            for found in re.finditer(r"\b(while|for|loop)\b([^{};]*)\{", item.body):
                opened = item.body_at + found.end() - 1
                stop = closing(source.code, opened)
                yield Loop(source, item.body_at + found.start(), found[1], found[2], source.code[opened + 1:stop])


def counted_by_hand(loop):
    """The variable of the test that the body changes by a constant: `x += 1`, `x = x - 2`, or `let y = x - 1; .. x = y;`."""
    apart = {}
    for found in re.finditer(r"\blet (?:mut )?(\w+) = (\w+) ([+-]) \d+;", loop.body):
        apart[found[1]] = found[2]
    for name in re.findall(r"(?<![.\w:])[a-z_]\w*(?![\w(.:])", loop.test):
        if re.search(rf"(?<![.\w]){name} [+-]= \d+;", loop.body) or re.search(rf"(?<![.\w]){name} = {name} [+-] \d+;", loop.body):
            return name
        for found in re.finditer(rf"(?<![.\w]){name} = (\w+);", loop.body):
            if apart.get(found[1]) == name:
                return name
    return None


def follows(loop):
    """A variable of the test is taken from elsewhere: `k = next_line(..)`, `i = j`."""
    for name in re.findall(r"(?<![.\w:])[a-z_]\w*(?![\w(.:])", loop.test):
        if re.search(rf"(?<![.\w]){name} = ", loop.body):
            return name
    return None


def hand_loops():
    for loop in loops():
        if loop.kind != "while":
            continue
        name = counted_by_hand(loop)
        item = loop.source.item_at(loop.at)
        if name:
            add(3, "while that counts by hand", loop.source, loop.at, f"{item.name}: while {squeezed(loop.test)}, {name} by hand")
        elif follows(loop):
            NOT_COUNTED["while that follows links or is told by a call"].append((loop.source, loop.at, f"{item.name}: while {squeezed(loop.test)}"))
        else:
            NOT_COUNTED["another while"].append((loop.source, loop.at, f"{item.name}: while {squeezed(loop.test)}"))


NOT_COUNTED = collections.defaultdict(list)

# ---------------------------------------------------------------------------------------------------------------------------------------------------------
# Point 4.

def only_casts():
    for source, item in everywhere("fn"):
        if re.fullmatch(r"\w+ as \w+", squeezed(item.body)):
            add(4, "function that is only a cast", source, item.at, f"{item.name}: {squeezed(item.body)}")


def copies():
    """A loop that does nothing but to put the elements of one array, each by itself, into another."""
    one = r"\w+\[[^\[\]]*\] = (?:\w+\()?\w+\[[^\[\]]*\]\)?(?: as \w+)?;"
    beside = r"let \w+ = [\w ]+ \+ [\w ]+;|\w+ \+= \d+;|if \w+\.len\(\) <= \w+ \{ return; \}"
    for loop in loops():
        body = squeezed(loop.body)
        if len(re.findall(one, body)) == 1 and squeezed(re.sub(rf"{one}|{beside}", "", body)) == "":
            item = loop.source.item_at(loop.at)
            add(4, "array copied by elements", loop.source, loop.at, f"{item.name}: {re.search(one, body)[0]}")


def comparisons():
    for loop in loops():
        found = re.search(r"if (\w+)\[(\w+)\] != (\w+)\[(\w+)\] \{\s*return", loop.body)
        if found:
            item = loop.source.item_at(loop.at)
            add(4, "slices compared by elements", loop.source, loop.at, f"{item.name}: {squeezed(found[0])}")
    for source, item in everywhere("fn"):
        for found in re.finditer(r"(?:if (\w+) == [\w:]+ \{\s*return true;\s*\}\s*){2,}(?:\1 == [\w:]+\s*$)?", item.body):
            add(4, "ladder of ==", source, item.body_at + found.start(), f"{item.name}: {found[1]} == .. {found[0].count('==')} times")


def least_and_less():
    name = r"[a-zA-Z_][\w:]*"
    for source, item in everywhere("fn"):
        body = squeezed(item.body)
        for found in re.finditer(rf"if ({name}) <=? ({name}) \{{ (?:return )?({name});? \}} (?:else \{{ )?({name})\b(?! *[(.\[<=+*/-])", body):
            if {found[1], found[2]} == {found[3], found[4]}:
                add(4, "min or max by hand", source, item.at, f"{item.name}: {found[0]}")
        for found in re.finditer(rf"if ({name}) == 0 \{{ (?:return )?0;? \}} (?:else \{{ )?\1 - 1\b", body):
            add(4, "saturating subtraction by hand", source, item.at, f"{item.name}: {found[0]}")


def words_of_numbers():
    """A match from numbers, or names of numbers, to words or signs."""
    for source, item in everywhere("fn"):
        for found in re.finditer(r"\bmatch [^{};]*\{", item.body):
            opened = item.body_at + found.end() - 1
            inside = source.code[opened + 1:closing(source.code, opened)]
            arms = re.findall(r"(?:^|\n)\s*(?:\d+|(?:\w+::)*[A-Z][A-Z_]+) =>[^\n]*?b?[\"']", inside)
            if len(arms) >= 2:
                add(4, "words or signs of numbers", source, item.body_at + found.start(), f"{item.name}: {len(arms)} numbers")


def numbers_by_hand():
    patterns = [
        (r"as usize\) \* 256 \+|\* 256 \+ get|<< 8\) \|", "number put together from bytes"),
        (r"/ 256\) as u8", "number cut into bytes"),
        (r"\* 10 \+", "number read from digits"),
    ]
    for source, item in everywhere("fn"):
        for pattern, what in patterns:
            for found in re.finditer(pattern, item.body):
                add(4, what, source, item.body_at + found.start(), f"{item.name}: {squeezed(found[0])}")


def printing():
    """Three writes or more one behind the other, where one `write!` would do."""
    one = r"(?:\w+\.write_all|put\w*|write!)\([^;{}]*\)"
    for source, item in everywhere("fn"):
        for found in re.finditer(rf"(?:{one}\?;\s*){{2,}}(?:{one}(?=\s*\}}|\s*$))?", item.body):
            count = len(re.findall(r"\b(?:write_all|put\w*|write!)\(", found[0]))
            if count >= 3:
                add(4, "printing piece by piece", source, item.body_at + found.start(), f"{item.name}: {count} writes")


def faults_handed_on():
    for source, item in everywhere("fn"):
        for found in re.finditer(r"\w+::Fault\((\w+), (\w+)\) =>\s*(?:\{\s*return\s+)?\w+::Fault\(\1, \2\)", item.body):
            add(4, "arm that hands a fault on", source, item.body_at + found.start(), f"{item.name}: {squeezed(found[0])}")
        for found in re.finditer(r"\bErr\((\w+)\) =>\s*(?:\{\s*)?(?:return\s+)?Err\(\1\)", item.body):
            add(4, "arm that hands a fault on", source, item.body_at + found.start(), f"{item.name}: {squeezed(found[0])}")


# ---------------------------------------------------------------------------------------------------------------------------------------------------------
# Point 5.

def repeated_clauses():
    stands = collections.defaultdict(list)
    for source, item in everywhere("fn"):
        for text in {squeezed(text) for kind, _, text in item.clauses if kind == "requires"}:
            stands[text].append((source, item))
    for text, where in sorted(stands.items(), key=lambda x: (-len(x[1]), x[0])):
        if len(where) >= 3:
            kept = any(source.kept_line(source.line(item.at), "clause") for source, item in where)
            first, item = where[0]
            add(5, "clause in three functions or more", first, item.at, f"{len(where)} functions: {text}", kept)
            for source, _ in where:
                CLAUSES[source.crate] += 1


# By crate, the clauses that stand in three functions or more.
CLAUSES = collections.Counter()


def repeated_parameters():
    """Parameters one behind the other. A group is counted where no larger one stands in the same functions."""
    stands = collections.defaultdict(dict)
    for source, item in everywhere("fn"):
        given = parameters(item)
        for i in range(len(given)):
            for j in range(i + 2, len(given) + 1):
                stands[tuple(given[i:j])][(source.path, item.at)] = (source, item)
    many = {group: where for group, where in stands.items() if len(where) >= 3}
    for group, where in sorted(many.items(), key=lambda x: (-len(x[1]), x[0])):
        larger = any(len(other) > len(group) and len(there) == len(where) and
                     any(other[i:i + len(group)] == group for i in range(len(other) - len(group) + 1))
                     for other, there in many.items())
        if not larger:
            kept = any(source.kept_line(source.line(item.at), "parameters") for source, item in where.values())
            source, item = next(iter(where.values()))
            add(5, "parameters together in three functions or more", source, item.at,
                f"{len(where)} functions: {', '.join(f'{n}: {k}' for n, k in group)}", kept)


# ---------------------------------------------------------------------------------------------------------------------------------------------------------
# Point 6.

LENGTH = r"(count|length|len|end|used)$"


def lengths_beside():
    for source, item in everywhere("struct"):
        given = fields(item)
        arrays = [n for n, k in given if k.startswith("[")]
        for name, kind in given:
            if arrays and kind in NUMBER_TYPES and re.match(LENGTH, name):
                at = item.body_at + re.search(rf"\b{name}\b", item.body).start()
                add(6, "length beside a buffer", source, at, f"struct {item.name}: {name} beside {', '.join(arrays)}")
    for source, item in everywhere("fn"):
        given = parameters(item)
        for (buffer, array), (name, kind) in zip(given, given[1:]):
            if re.match(r"&(mut )?\[.*;", array) and kind in NUMBER_TYPES and re.match(LENGTH, name):
                add(6, "length beside a buffer", source, item.at, f"{item.name}({buffer}: {array}, {name}: {kind})")


def slotted_arrays():
    for source, item in everywhere("type"):
        if re.search(r"\[.*;\s*\w*SLOTS\s*\]", squeezed(item.body)):
            add(6, "array whose slots differ", source, item.at, f"type {item.name}{squeezed(item.body)}")
    for source, item in everywhere("fn"):
        for found in re.finditer(rf"(?<![.\w])({'|'.join(SLOTTED.split())})\[\d\]", item.body):
            add(6, "slot by its number", source, item.body_at + found.start(), f"{item.name}: {found[0]}")
    for crate, names in OFFSETS:
        for name in names.split():
            for source, item in everywhere("const", crate, name):
                add(6, "offset into an array", source, item.at, f"const {name}{squeezed(item.body)}")


def searches():
    """A loop that leaves at the first element of which something is true."""
    for loop in loops():
        found = re.search(r"\breturn (true|false|Found::At\(\w+\)|Some\(\w+\)|Look::Never|Runs::By\(\w+\)|\w+)\s*;", loop.body)
        if found and loop.kind in ("while", "for") and re.match(r"return (true|false|Found|Some|Look|Runs|here)", found[0]):
            item = loop.source.item_at(loop.at)
            add(6, "list searched by hand", loop.source, loop.at, f"{item.name}: {loop.kind} {squeezed(loop.test)}, {squeezed(found[0])}")


def arenas():
    for crate, name in ARENAS:
        for source, item in everywhere("fn", crate, name):
            add(6, "links of an arena of indices", source, item.at, f"fn {name}")


# ---------------------------------------------------------------------------------------------------------------------------------------------------------
# Point 7.

CALL = r"(?:[a-z_]\w*::)*([a-z_]\w*)\(([^;{}]*)\)"


def arms_that_call(inside):
    """Name and arguments of each arm that is a call and nothing else."""
    for found in re.finditer(r"=>\s*(?:\{\s*)?(?:[a-z_]\w*::)*([a-z_]\w*)\(", inside):
        end = closing(inside, found.end() - 1)
        if re.match(r"\s*([,}]|$)", inside[end + 1:]):
            yield found[1], inside[found.end():end]


def alike(calls):
    """Calls of different functions that are given the same: they share at least two arguments, and half of the longer list."""
    if len({name for name, _ in calls}) < 2:
        return False
    lists = [split_top(given) for _, given in calls]
    shared = set(lists[0]).intersection(*lists[1:])
    return len(shared) >= 2 and 2 * len(shared) >= max(len(x) for x in lists)


def switches():
    for source, item in everywhere("fn"):
        # A match on a name, whose arms call.
        for found in re.finditer(r"\bmatch (\w+) \{", item.body):
            opened = item.body_at + found.end() - 1
            inside = source.code[opened + 1:closing(source.code, opened)]
            calls = list(arms_that_call(inside))
            if len(calls) >= 2 and alike(calls):
                add(7, "match that only calls", source, item.body_at + found.start(), f"{item.name}: match {found[1]}: {', '.join(n for n, _ in calls)}")
        # Ifs on one name that return calls, and the call behind them.
        one = rf"if (\w+)(?: == [\w:]+)? \{{\s*(?:return {CALL};|{CALL};\s*return;)\s*\}}"
        by_name = collections.defaultdict(list)
        for found in re.finditer(one, item.body):
            by_name[found[1]].append((found.start(), (found[2] or found[4], found[3] if found[2] else found[5]), found.end()))
        for name, met in by_name.items():
            calls = [call for _, call, _ in met]
            behind = re.match(rf"\s*{CALL}\s*$", item.body[met[-1][2]:])
            if behind:
                calls.append((behind[1], behind[2]))
            if len(met) >= 2 and len({n for n, _ in calls}) >= 3 or alike(calls):
                add(7, "ifs that only call", source, item.body_at + met[0][0], f"{item.name}: if {name}: {', '.join(n for n, _ in calls)}")


# ---------------------------------------------------------------------------------------------------------------------------------------------------------
# Point 8.

def proofs():
    """By crate: files of answers, answers in them, files of invariants, and lines of all that is in proofs/."""
    numbers = collections.defaultdict(lambda: [0, 0, 0, 0])
    for path in sorted(glob.glob("crates/*/proofs/**/*", recursive=True)):
        if not os.path.isfile(path):
            continue
        crate = path.split("/")[1]
        with open(path, encoding="utf-8") as it:
            text = it.read()
        if path.endswith("/Answers.antt"):
            numbers[crate][0] += 1
            numbers[crate][1] += len(re.findall(r"^(?:pub +)?\S+ : goal\.", text, re.M))
        if path.endswith("/Invariants.antt"):
            numbers[crate][2] += 1
        numbers[crate][3] += text.count("\n")
    return numbers


# ---------------------------------------------------------------------------------------------------------------------------------------------------------

TITLES = {
    1: "own enums like Option or Result, flags and numbers for none beside values, numbers for kinds",
    2: "twins",
    3: "loops that count by hand",
    4: "equality, order, copying, conversion and printing by hand",
    5: "clauses and groups of parameters in three functions or more",
    6: "lengths beside buffers, arrays cut by offsets, searches by hand, arenas",
    7: "switches on which step to run",
}


def of_these(places):
    return f"{len(places)} found, of these {sum(p.kept for p in places)} kept"


def tell(point, each):
    there = [p for p in PLACES if p.point == point]
    print(f"{point}  {TITLES[point]}: {of_these(there)}")
    for part in dict.fromkeys(p.part for p in there):
        print(f"     {part}: {of_these([p for p in there if p.part == part])}")
    if point == 3:
        for what, where in NOT_COUNTED.items():
            print(f"     not counted: {what}: {len(where)}")
    if point == 5:
        print(f"     such clauses in all functions together: {sum(CLAUSES.values())}")
    if each:
        for p in there:
            print(f"       {p.where}: {p.part}: {p.what}" + (" (kept)" if p.kept else ""))
        if point == 3:
            for what, where in NOT_COUNTED.items():
                for source, at, said in where:
                    print(f"       {source.path}:{source.line(at)}: not counted: {what}: {said}")


def tell_proofs(each):
    numbers = proofs()
    files, answers, invariants, lines = (sum(n[i] for n in numbers.values()) for i in range(4))
    print(f"8  proofs: {files} files Answers.antt, {answers} answers in them, {invariants} files Invariants.antt, {lines} lines in proofs/")
    if each:
        for crate, n in sorted(numbers.items()):
            print(f"       {crate}: {n[0]} files of answers, {n[1]} answers, {n[2]} files of invariants, {n[3]} lines")


def tell_crates():
    """Places by crate. A clause that stands in many functions is none of one crate: here point 5 has how many such clauses the crate's functions have."""
    numbers = proofs()
    crates = sorted({s.crate for s in SOURCES})
    print(f"\n{'by crate':14}" + "".join(f"{p:>7}" for p in range(1, 8)) + f"{'answers':>9}{'lines of proofs':>17}")
    for crate in crates:
        counts = [CLAUSES[crate] if point == 5 else sum(p.point == point and p.crate == crate for p in PLACES) for point in range(1, 8)]
        print(f"{crate:14}" + "".join(f"{n:7}" for n in counts) + f"{numbers[crate][1]:9}{numbers[crate][3]:17}")


def main():
    asked = sys.argv[1] if len(sys.argv) > 1 else ""
    if not SOURCES:
        sys.exit("old_forms.py: no crates/*/src/*.rt here: it is run at the top of a checkout")
    for count in (own_enums, flags_beside, numbers_for_none, numbers_for_kinds, twins, hand_loops, only_casts, copies, comparisons, least_and_less,
                  words_of_numbers, numbers_by_hand, printing, faults_handed_on, repeated_clauses, repeated_parameters, lengths_beside, slotted_arrays, searches,
                  arenas, switches):
        count()
    for point in range(1, 8):
        if asked in ("", "all", str(point)):
            tell(point, asked != "")
    if asked in ("", "all", "8"):
        tell_proofs(asked != "")
    if asked in ("", "all"):
        tell_crates()


main()
