#!/usr/bin/env python3
"""Counts the places of docs/DESIGN-PASS.md in crates/*/src/*.rt, and for point 8 in crates/*/proofs.

usage: python3 tools/design_counts.py        every place, as file:line, function and text, with a total for each kind and each point
       python3 tools/design_counts.py 3      the same of point 3 alone
       python3 tools/design_counts.py -s     the totals alone

Comments are left out. A kind is a regular expression over the lines of code, one over clauses, parameters that a function takes together,
or a list of names, with the new name beside the old one. A name counts where src/ has it (in 1.10, 1.12 and 6.7 with a result of that type),
a family of twins where it has two of them, a fact where three functions or more state it, parameters where three functions or more take
them.
"""
import glob
import os
import re
import sys

SHORT, POINTS = "-s" in sys.argv, [int(a) for a in sys.argv[1:] if a.isdigit()] or range(1, 9)
ROOT = os.path.join(os.path.dirname(os.path.abspath(__file__)), "..")
FN = re.compile(r'(\s*)(?:pub(?:\(\w+\))? )?(?:const )?(?:extern "C" )?fn (\w+)')


class Function:
    def __init__(self, name, where, indent):
        self.name, self.where, self.indent, self.head = name, where, indent, []

    def parts(self):
        return re.sub(r" (?=(?:requires|ensures) )", "\n", " ".join(self.head)).split("\n")

    def signature(self):
        return self.parts()[0]

    def clauses(self):
        return self.parts()[1:]


def read():
    """The functions, the other names, and the lines of code that are no signature or clause."""
    functions, names, lines = [], {}, []
    for path in sorted(glob.glob(os.path.join(ROOT, "crates/*/src/*.rt"))):
        crate, now, owner, in_head = path.split("/")[-3], None, "", False
        for number, raw in enumerate(open(path, encoding="utf-8"), 1):
            text, where = re.sub(r"//.*", "", raw).rstrip(), f"{os.path.relpath(path, ROOT)}:{number}"
            if not text or text.startswith("ghost use"):
                continue
            if m := re.match(r"impl (\w+)", text):
                owner = m[1] + "::"
            if m := FN.match(text):
                now, in_head = Function(f"{crate}::{owner}{m[2]}", where, m[1]), True
                functions.append(now)
            if m := re.match(r"\s*(?:pub(?:\(\w+\))? )?(struct|enum|const) (?!fn)(\w+)", text):
                names[f"{crate}::{owner}{m[2]}"] = where
                owner = m[2] + "::" if text.endswith("{") and m[1] != "const" else owner
            if now and in_head:
                now.head.append(text.strip())
                in_head = not text.endswith("{")
            else:
                lines.append((where, now.name if now else f"{crate}::{owner}".rstrip(":"), text))
            if now and not in_head and text == now.indent + "}":
                now = None
            if text == "}":
                owner = ""
    return functions, {f.name: f.where for f in functions} | names, lines


FUNCTIONS, NAMES, LINES = read()
TOTALS, KINDS = {}, {}


def show(point, kind, found, places=None):
    """Prints a kind, how many places it has, and each of them."""
    places = len(found) if places is None else places
    TOTALS[point] = TOTALS.get(point, 0) + places
    KINDS[point] = KINDS.get(point, 0) + 1
    say(point, f"{point}.{KINDS[point]} {kind}: {places}", *([] if SHORT else ["      " + "  ".join(place) for place in found]))


def say(point, *lines):
    if point in POINTS:
        print("\n".join(lines))


def code(point, kind, pattern, only=""):
    show(point, kind, [(w, n, t.strip()) for w, n, t in LINES if re.search(pattern, t) and n.startswith(only)])


def named(point, kind, names, pattern=""):
    signatures = {f.name: f.signature() for f in FUNCTIONS}
    show(point, kind, [(NAMES[n], n) for n in names.split() if n in NAMES and re.search(pattern, signatures.get(n, ""))])


def taking(parameters):
    return [(f.where, f.name) for f in FUNCTIONS if all(re.search(rf"[( ]{p}: ", f.signature()) for p in parameters.split())]


def stating(pattern):
    return [(f.where, f.name) for f in FUNCTIONS if any(re.search(pattern, c) for c in f.clauses())]


def enums():
    """Enums of two cases, one of them at least with a value."""
    for path in sorted(glob.glob(os.path.join(ROOT, "crates/*/src/*.rt"))):
        text = re.sub(r"//.*", "", open(path, encoding="utf-8").read())
        for m in re.finditer(r"enum (\w+) \{(.*?)\n\}", text, re.S):
            cases = re.findall(r"^\s+(\w+(?:\(.*\))?),$", m[2], re.M)
            if len(cases) == 2 and any("(" in c for c in cases):
                name = f"{path.split('/')[-3]}::{m[1]}"
                yield NAMES.get(name, path), name, " | ".join(cases)


# ---- 1. Own enums like Option and Result, flags and sentinels, numbers for kinds and refusals
show(1, "enums of two cases, one with a value", list(enums()))
code(1, "such an enum, or a Result, taken apart by hand",
     r"let \w+::\w+(\(.*\))? = .* else \{|let \(?(Ok|Err|Some)\(.* else \{|match (inputs::read_full|reading|first|check|envelope::open)\b")
code(1, "a number for a refusal", r"Refused\(\d+")
code(1, "0 for the p of a refusal that has none", r"Refused\(.*, 0\)")
code(1, "a number for the kind of image", r"\bkind: u32|\.kind [=!]= \d|\.kind as|, t\.kind\)|^ +t\.kind,|\(\w+\.kind\),")
code(1, "a number for the kind of image, made", r"^ +\d$", "headers::kind_of")
code(1, "a number for the part of a partition", r"const \w+: u8 = \d|part == ")
LETTERS = [(f.where, f.name) for f in FUNCTIONS if re.search("(part|leaf): u8", f.signature())]
show(1, "a parameter that is such a number, or a letter", LETTERS)
code(1, "an attribute field's value, as a bare number",
     r"\(kind == \d|\(x == \d\)|matches!\(.* \d|is_either\(self|\w+_type\(\) == \d|4 < self\.cluster")
named(1, "a number, or an empty range, that stands for none", """words::byte_at keys::place_of block_rules::next_entry
    block_rules::check_block clash_rules::check_loads image_rules::owner_of range_lists::part_at range_lists::load_of checks::number_in
    reader::bill reader::part_of reader::owner reader::answer_of reader::read listing::print leaf_costs::main""",
      r"-> (u|Range|\w*Answer|Result<usize|io::Result<\(\)>)")
code(1, "a test for such a number", r"1 <= place|own == n|!= n \{|found == 0|answer [!=]= 0|0 < r\.size")
named(1, "failure as a bool or a number; a value beside its enum", "program::answer program::pdi_run pdi::main envelope::image",
      r"-> (bool|i32|ExitCode|&)")

# ---- 2. Twins
FAMILIES = """words::wide envelope::wide rows::wide
words::added leaf_costs::added
words::word_of envelope::big_endian_at
words::checksum words::boot_checksum
words::spells words::spells_text
words::put_u64 words::put_bytes
words::word_at headers::word
words::spells headers::spells
keys::zero_or_common keys::zero_common_or_user
table_rules::table_key_unknown header_rules::key_unknown
ranges::past ranges::past_address_space
attributes::Attributes headers::HeaderSizes
attributes::Attributes: cluster dpa partition_type reserved tcm_flag owner checksum_type cpu lockstep
headers::HeaderSizes: table_words image_header_words partition_header_words
attributes::is_either attributes::known_cpu
headers::MOST_IMAGES headers::MOST_PARTITIONS
headers::PartitionHeader: span body
table_rules::table_checksum_wrong table_rules::boot_header_bad header_rules::header_checksum_bad image_rules::run_at
table_rules::TableAnswer header_rules::HeaderAnswer
chain_rules::Answer checks::Reading
chain_rules::Link image_rules::Run block_rules::BlockAnswer envelope::Opened program::Input
pairs::in_order clash_rules::in_order
pairs::any_clash pairs::any_crossing clash_rules::check_loads
range_lists::put_parts range_lists::put_blocks range_lists::push_parts range_lists::push_blocks
reader::bill reader::part_of reader::owner reader::read
inputs::large_buffer program::input_buffer
leaf_costs::partition leaf_costs::table leaf_costs::boot leaf_costs::entry
pdi_host::pdi_read pdi_host::pdi_bill pdi_host::pdi_body_length pdi_host::pdi_owner \
pdi_host_c::pdi_read pdi_host_c::pdi_bill pdi_host_c::pdi_body_length pdi_host_c::pdi_owner
promises: read bill body owner host_read host_bill host_body_length host_owner print open image"""
twins = []
for line in FAMILIES.split("\n"):
    owner, _, members = line.rpartition(": ")
    members = [n for n in ([f"{owner}::{m}" for m in members.split()] if owner else line.split()) if n in NAMES]
    twins += [members] if 1 < len(members) else []
show(2, "families of twins", [(NAMES[family[0]], ", ".join(family)) for family in twins])
say(2, f"    functions, types and constants in them, each once: {len({name for family in twins for name in family})}")

# ---- 3. Loops that count an index
code(3, "while", r"\bwhile\b")
code(3, "for over a range of indices", r"\bfor \w+ in [^&]*\.\.")

# ---- 4. Equality, order, copying, conversion and printing by hand
named(4, "equality", "ranges::same words::spells_text headers::Block::is_absent attributes::is_either attributes::known_cpu")
named(4, "order", "header_rules::lower table_rules::not_from")
named(4, "copying, element by element", """words::put_bytes range_lists::put pairs::range_at rows::put rows::write pdi_host::put_numbers
    listing::put_envelope""")
named(4, "conversion", """words::wide words::word_of words::word_at words::low words::put_u64 envelope::wide envelope::big_endian_at
    rows::wide rows::row_at rows::Accepted::row headers::joined headers::kind_of checks::number_in reader::answer_of program::read_input
    bench_cases::case leaf_costs::partition""")
named(4, "printing", """listing::digit_of listing::put_decimal listing::put_number listing::mark_after listing::put_line listing::put_rows
    listing::put_buffer listing::put_answer listing::put_reading""")
CASTS = [m for _, _, t in LINES for m in re.findall(r"(\S+) as (u8|u32|u64|usize)\b", t)]
WIDE = r"(SIZE|len\(\)|\bat|place|\bi|found|entries\[i\])$"
SMALL = [e for e, t in CASTS if {"u32": e == "x", "usize": e in ("x", "16)"), "u64": not re.search(WIDE, e), "u8": False}[t]]
say(4, f"    casts, counted apart: {len(CASTS)}; of a smaller type to one that has From for it: {len(SMALL)}")

# ---- 5. Facts in the contracts of three or more functions, parameters that travel together
FACTS = """the offsets are the chain's @ requires.*\\{ (Is)?Chain \\w
the headers of all images lie inside @ requires.*ImageHeadersInside
the table is the one at its place @ requires.*IsTable
there is room for each partition's offset @ requires.*length offsets\\.old ≡ most_partitions
there is room for each partition's entry @ requires.*length entries\\.old ≡ most_partitions
the entries are those of the hash blocks @ requires.*\\{ Entries image
the index is that of a partition or an image @ requires.*i < (\\w+\\.)*table\\.(partitions|images)
ranges are most_ranges at most @ requires.*[≤<] most_ranges
both arrays have room for the ranges @ requires.*\\{ Room
the first so many ranges in both arrays are these @ Filled|ranges\\.(old|new)\\.items ≡
a header or an entry lies inside the image @ requires.*(header_size|entry_size|boot_size) ≤ length
a word lies inside the slice @ requires.* 3 < length
the row buffer has a head and rows @ requires.*row_width.* ≤ length rows
the text has room from the offset on @ requires.*(≤ length out\\.old|array_string_len text\\.old.* ≤ LONGEST)
the text is stored, and its end is answered @ ensures.*(out\\.new ≡ sets|text\\.new\\.bytes ≡)
what was read lies at the start of the buffer @ ensures within"""
for line in FACTS.split("\n"):
    found = stating(line.split(" @ ")[1])
    show(5, f"fact, that {line.split(' @ ')[0]} ({len(found)} functions)", found, int(3 <= len(found)))
answers = {}
for f in FUNCTIONS:
    for clause in f.clauses():
        answers.setdefault(re.sub(r"^ensures (\w+ )?\{ | \}( \{)?$", "", clause), []).append((f.where, f.name))
for clause, found in answers.items():
    if 3 <= len(found) and re.search(r"_(answer|rows) image", clause):
        show(5, f"promise, that {clause} ({len(found)} functions)", found, 1)
GROUPS = """image table, image table offsets, image table offsets i, image offsets entries, image [th], image place, image at, starts sizes,
    starts sizes n, block_starts block_sizes m, out at, s at"""
for group in re.split(r",\s+", GROUPS):
    found = taking(group)
    show(5, f"together: {group} ({len(found)} functions)", found, int(3 <= len(found)))

# ---- 6. Buffers with a length beside, parallel arrays, lists searched by hand, indices for what they point at
show(6, "two arrays, of starts and of sizes, taken", taking("starts sizes"))
code(6, "two arrays, of starts and of sizes, made", r"let mut (block_)?(starts|sizes) = \[")
show(6, "offsets (and entries), as many as the table says, taken", taking("offsets"))
code(6, "offsets and entries, made", r"let mut (offsets|entries) = \[")
named(6, "a buffer with its length beside", """words::checksum words::boot_checksum words::put_bytes rows::put_rows rows::write
    rows::Accepted::write_rows rows::Accepted::write pdi_host::put_numbers pdi_host::pdi_read listing::put_rows listing::put_buffer
    listing::push_buffer listing::put_reading listing::push_reading listing::print program::read_input program::answer program::pdi_run
    inputs::read_on inputs::read_full bench_cases::read_into bench_cases::ask bench_cases::main leaf_costs::main""")
show(6, "a buffer of text, and the offset behind what it has", taking("out at"))
named(6, "a list searched by hand", "keys::place_of block_rules::next_entry image_rules::owner_of", r"-> u")
code(6, "a field that is an index into the image", r"pub (at|place): usize,")

# ---- 7. A switch on which step to run
named(7, "a switch on a number or a letter", "range_lists::part_at leaf_costs::one")
named(7, "a function that hands the number or the letter on", "range_lists::put_parts leaf_costs::turns")
show(7, "a flag that says which test is run", taking("equals"))
show(7, "a flag that says whether a rule is broken", taking("short"))

# ---- 8. Proofs
say(8, "8. crate: answer files, their lines, answers, lemmas in them; invariant files, their lines; other files, their lines, declarations")
DECLARED = re.compile(r"^\s*(?:(?:pub|abbrev|unfoldable) )*[\w'-]+ : (?!goal\.)", re.M)
sums, refuted = [0] * 9, 0
for crate in sorted(os.listdir(os.path.join(ROOT, "crates"))):
    row = [0] * 9
    for path in glob.glob(os.path.join(ROOT, "crates", crate, "proofs/**/*.antt"), recursive=True):
        text, name = open(path, encoding="utf-8").read(), os.path.basename(path)
        k = 0 if name == "Answers.antt" and " : goal." in text else 4 if name == "Invariants.antt" else 6
        refuted += text.count("0 1 = cc")
        row[k] += 1
        row[k + 1] += text.count("\n")
        if k != 4:
            row[k + 2 + (k == 0)] += len(DECLARED.findall(text))
        row[2] += len(re.findall(r" : goal\.", text)) if k == 0 else 0
    sums = [a + b for a, b in zip(sums, row)]
    if not SHORT and any(row):
        say(8, "      {}: {}, {}, {}, {}; {}, {}; {}, {}, {}".format(crate, *row))
say(8, "    all: {}, {}, {}, {}; {}, {}; {}, {}, {}".format(*sums))
say(8, f"    two cases of an enum set equal, refuted by hand (0 1 = cc): {refuted}")
print("totals, but of point 8: " + ", ".join(f"point {p}: {n}" for p, n in TOTALS.items() if p in POINTS))
