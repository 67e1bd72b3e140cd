#!/usr/bin/env python3
"""Prints the lines to believe: the definitions that the statements rest on, one by one, down to the kit's own, and how many lines they have without
imports, comments, blank lines and what only tells the checker what to unfold. What several statements rest on is counted once in the sum.

    believe.py            the count for each statement, and in all
    believe.py --files    the count for each file as well
    believe.py --print    the definitions themselves

It fails where a statement rests on a promise between functions, which a folder specs/Inner holds, and where a definition stands in specs/ that no
statement, no public entry's contract and no row rests on. Needs nothing but python3."""

import pathlib
import re
import sys

CRATES = pathlib.Path(__file__).resolve().parent.parent / "crates"

# What a reader of documents 01 and 02 holds in the other hand: the statement, where it stands, and the definitions that say it.
STATEMENTS = [
    ("demand 1, direct call", "claims_direct.Demand1", "Demand1"),
    ("demand 2, the Rust on its own terms", "claims_direct.Encoding", "Encodes WithinLimits RoomWhereSized CallAgrees"),
    ("demand 2, the Rust on its own terms", "claims_direct.Rust", "estimate_extrinsics_from_cam_target_poses"),
    ("demand 3", "claims_direct.Demand3", "WellFormed Demand3"),
    ("demand 1, one call of a session", "claims_streams.CallDemand1", "CallDemand1"),
    ("what whole streams answer", "claims_streams.Stream", "meaning calls"),
    ("Solve in a stream, as demanded", "claims_streams.SolveDemands", "AsDemanded"),
    ("what a session holds", "claims_streams.Held", "HoldsExactly accepted_edits LastIsPose"),
    ("what floats of empty cells can change", "claims_streams.Alike", "EachAlike AnswersAlike"),
    ("the same, of the whole-stream entry", "claims_printing.Printed", "PartsAlike"),
    ("a pose taken back", "claims_streams.TakenBack", "PoseThenWithdrawal TakenBack"),
    ("what is printed", "claims_printing.Printed", "whole_of fresh_state"),
    ("the summary of shared counts", "claims_shared.Summaries", "Summarises holds_pose"),
    ("demand 1, the query", "claims_shared.Queries", "QueryDemand1"),
    ("the session without the summary", "claims_shared.Plain", "forgotten plain_answer plain_calls plain_lines"),
    ("the import of packed frames", "claims_telemetry.Import", "ImportDemand LengthsAlike"),
    ("the program for packed frames", "frames.Demand", "RunDemand"),
    ("the program for packed frames", "frames.Turned", "Turned Untold"),
    ("the averaging entry", "claims_exports.Averages", "AverageDemand1"),
    ("the root", "root.Root", "IsRootOf"),
]
# Contracts of public entries, and theorems, beside these; and the rows, which check definitions.
BESIDE = [
    ("root.Root", "root_of Neighbours"),
    ("mean.Average", "average_isometries"),
    ("averaging.Entry", "averaged_of"),
    ("chains.Layered", "Layered"),
    ("chains.Masks", "views_of_both shared_by"),
    ("refusal.Table", "number_of detail_of text_of"),
    ("extrinsics.Direct", "Direct"),
    ("placing.Estimate", "rig_se3_cam rig_se3_target target_candidates"),
    ("placing.Lent", "SameAnswers"),
    ("inputs.Inputs", "checked_of"),
    ("putting.Putting", "Puts"),
    ("command.Framing", "FramesEnd Follow SomeByte frames_from"),
    ("command.Command", "commands_at"),
    ("command.Writing", "bytes_of OfDoubles OfBytes"),
    ("telemetry.Frames", "Bytes imported_of import_leaves RefusedAlike max_bytes kept_length"),
    ("shared_query.Query", "shared_answer"),
    ("session_commands.Reply", "Edited"),
    ("session_commands.Lent", "state_in"),
    ("session.Call", "Called"),
    ("claims_direct.Encoding", "Agrees"),
    ("claims_streams.Stream", "Reads EndsAt struck earlier Usable last_state"),
    ("claims_exports.Averages", "RepliesDemand1"),
    ("claims_exports.Steps", "Steps fresh_words"),
    ("claims_exports.SharedReplies", "SharedReplies LeftBySteps"),
    ("claims_exports.FramesReplies", "FramesReplies"),
    ("claims_exports.InHand", "Bytes"),
    ("listing.Listing", "written listing_bytes"),
    ("listing.Writing", "Front"),
    ("stream_text.StreamText", "ObeyedInto"),
    ("claims_printing.Printed", "whole_from rounds_from input_bytes"),
    ("claims_printing.TextDemand", "TextDemand"),
    ("rig.AllObeyed", "AllObeyed"),
    ("frames.Told", "Told"),
    ("frames.Turned", "Taken"),
    ("record_words.Words", "record_in"),
    ("placer.Exports", "AveragedInto Estimated shared_reply ImportedInto"),
    ("placer.Step", "Stepped"),
    ("placer.Reading", "DirectReply CallReply NoRecordReply outcome_in reply_in shared_in imported_in"),
    ("descriptors.Moved", "ReadWithin WrittenWhole IsTold"),
]
# Rows are what definitions are checked against, and crates of tests are nobody's promise.
CHECKS = re.compile(r"^(test_|claims_cases/|claims_rows/|claims_summary_rows/)|/Rows\.antt$|/Lib\.antt$|/Inner\.antt$")

USE = re.compile(r"^(?:pub )?use Rattle\.([a-z_0-9]+?)\.specs\.([A-Za-z0-9_.-]+?)\.\{([^}]*)\}", re.M)
START = re.compile(r"^\s*(?:(?:abbrev|unfoldable|pub) )*(?:(record|data) )?([^\s(){}:]+)(?: [^=]*?)? : ")
WORD = re.compile(r"[^\s(){},;.λ]+")
BOUND = ("◌>>=◌", "◌>>◌")  # what a `do` block stands for


class Definition:
    """Its name, the modules around it, and its lines."""

    def __init__(self, file, name, around):
        self.file, self.name, self.around, self.lines = file, name, around, []


class File:
    """The definitions of one file, the names that each is known by, and what the file brings in."""

    def __init__(self, path):
        self.path = path
        text = path.read_text()
        self.brings = {}
        for crate, module, names in USE.findall(text):
            for name in names.split(","):
                name, _, other = name.strip().partition(" as ")
                self.brings[other or name] = (crate, module, name)
        self.definitions, self.names = [], {}
        self.read(text.splitlines())

    def read(self, lines):
        around, current, kind, margin = [], None, None, 0
        for line in lines:
            code = line.rstrip()
            if not code.strip() or code.lstrip().startswith(("--", "use ", "pub use ", "pub mod ", "infix", "unfolding ")):
                continue
            indent = len(code) - len(code.lstrip())
            around = [opened for opened in around if opened[0] < indent]
            if code.lstrip().startswith("module _ "):
                around.append((indent, code))
                current = None
                continue
            inside = current is not None and indent > margin
            found = None if inside else START.match(code)
            if found and (current is None or found.group(2) != current.name):
                kind, margin = found.group(1), indent
                current = Definition(self, found.group(2), tuple(opened[1] for opened in around))
                self.definitions.append(current)
                self.names[current.name] = current
            if current is None:
                sys.exit(f"believe: {self.path}: {code}")
            current.lines.append(code)
            if kind == "data" and inside:
                made = re.match(r"\s+([^:]+) :", code)
                for name in made.group(1).split() if made else []:
                    self.names[name] = current

    def named(self, name):
        """The definition of that name that the file has, or brings in for others; None where it is the kit's or the code's."""
        if name in self.names:
            return self.names[name]
        if name in self.brings:
            crate, module, there = self.brings[name]
            file = file_of(crate, module)
            return file and file.named(there)
        return None


FILES = {}


def file_of(crate, module):
    """The file that a module stands in, or None where it is a declared type of the code, or the kit's."""
    if module.startswith("declared.") or not (CRATES / crate).is_dir():
        return None
    path = CRATES / crate / "specs" / (module.replace(".", "/") + ".antt")
    if not path.is_file():
        sys.exit(f"believe: {crate} has no module {module}")
    if path not in FILES:
        FILES[path] = File(path)
    return FILES[path]


def rests_on(definition, found):
    if definition in found:
        return
    found.add(definition)
    for word in sorted(set(WORD.findall("\n".join(definition.around + tuple(definition.lines))))):
        for name in BOUND if word == "do" else (word, f"◌{word}◌"):
            below = definition.file.named(name)
            if below is not None:
                rests_on(below, found)


def roots(place, names):
    crate, module = place.split(".", 1)
    for name in names.split():
        definition = file_of(crate, module).named(name)
        if definition is None:
            sys.exit(f"believe: {place} has no {name}")
        yield definition


def count(definitions):
    return sum(len(d.lines) for d in definitions) + len({(d.file, line) for d in definitions for line in d.around})


def main():
    counts, every, wrong = {}, set(), False
    for statement, place, names in STATEMENTS:
        found = counts.setdefault(statement, set())
        for root in roots(place, names):
            rests_on(root, found)
        every |= found
    for statement, found in counts.items():
        print(f"{count(found):5} lines, {len({d.file for d in found}):2} files: {statement}")
    beside = set(every)
    for place, names in BESIDE:
        for root in roots(place, names):
            rests_on(root, beside)
    files = sorted({d.file.path for d in every})
    for path in files:
        here = [d for d in FILES[path].definitions if d in every]
        if "--files" in sys.argv[1:]:
            print(f"{count(here):9} {path.relative_to(CRATES)}")
        if "--print" in sys.argv[1:]:
            print(f"\n-- {path.relative_to(CRATES)}")
            for d in here:
                print("\n".join(d.lines))
    for path in sorted(CRATES.glob("*/specs/**/*.antt")):
        name = str(path.relative_to(CRATES))
        if CHECKS.search(name):
            continue
        file = file_of(name.split("/")[0], name.split("/specs/")[1].removesuffix(".antt").replace("/", "."))
        for d in file.definitions:
            inner = "/Inner/" in name
            if inner and d in beside:
                print(f"believe: {name} is a promise between functions, and a statement rests on its {d.name}")
                wrong = True
            if not inner and d not in beside:
                print(f"believe: no statement, contract or row rests on {d.name} of {name}")
                wrong = True
    print(f"believe: {count(every)} lines in {len(files)} files")
    sys.exit(wrong)


main()
