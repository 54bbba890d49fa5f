#!/usr/bin/env python3
"""Counts, in the sources at a commit (HEAD without one), the places that docs/DESIGN-PASS.md speaks of: python3 tools/count_places.py [COMMIT] [--list]."""
import re
import subprocess
import sys

LISTED = "--list" in sys.argv
COMMIT = next((it for it in sys.argv[1:] if not it.startswith("--")), "HEAD")


def git(*words):
    return subprocess.run(["git", *words], capture_output=True, text=True, check=True).stdout


FILES = [it for it in git("ls-tree", "-r", "--name-only", COMMIT).split() if re.fullmatch(r"crates/\w+/src/\w+\.rt", it)]
TEXTS = {it: git("show", f"{COMMIT}:{it}") for it in FILES}
# A function: its file, its name, its parameters, its result, its clauses and its body.
FUNCTIONS = []
for file, text in TEXTS.items():
    for it in re.finditer(r"^(?P<indent>    )?(?:pub(?:\(crate\))? )?(?:extern \"C\" )?fn (?P<name>\w+)(?:<[^>]*>)?\((?P<taken>[^{]*?)\)(?: -> (?P<given>[^\n{]*?))?\s*(?=\n|\{)", text, re.M):
        close = "\n" + (it["indent"] or "") + "}"
        end = text.find(close, it.end())
        rest = text[it.end() : end if end > 0 else len(text)]
        clauses = "\n".join(line for line in rest.split("\n") if re.match(r"\s*(requires|ensures)\b", line))
        FUNCTIONS.append((file, it["name"], re.sub(r"\s+", " ", it["taken"]), (it["given"] or "").strip(), clauses, rest))


def tell(point, what, found):
    print(f"{point}  {len(found):4}  {what}")
    if LISTED:
        for it in found:
            print(f"            {it}")


def lines(pattern, where=lambda file: True):
    return [f"{file.split('/')[1]}: {line.strip()}" for file, text in TEXTS.items() if where(file) for line in text.split("\n") if re.search(pattern, line)]


def named(pattern):
    return [f"{file.split('/')[1]}::{name}" for file, name, *_ in FUNCTIONS if re.fullmatch(pattern, name)]


def taking(*names):
    return [f"{file.split('/')[1]}::{name}" for file, name, taken, *_ in FUNCTIONS if all(re.search(rf"\b{it}: ", taken) for it in names)]


def asking(pattern):
    return [f"{file.split('/')[1]}::{name}" for file, name, _, _, clauses, _ in FUNCTIONS if re.search(pattern, clauses)]


enums = [it for text in TEXTS.values() for it in re.findall(r"enum (\w+) \{((?:[^{}]|\{[^{}]*\})*)\}", text)]
print(f"{COMMIT}: {len(FILES)} files, {sum(text.count(chr(10)) for text in TEXTS.values())} lines, {len(FUNCTIONS)} functions")
tell(1, "own enums with a case that refuses, is withdrawn or is none beside a value", [name for name, body in enums if re.search(r"\b(Refused|BeforeReading|Withdrawn|Absent|Otherwise)\b", body)])
tell(1, "refusals by a number, and their constants", lines(r"\b(Refused|BeforeReading|FromReading)\b \{|^pub const [A-Z_]+: u32 = \d\d?;", lambda file: "/scan/" not in file))
tell(1, "a value beside what says whether it stands", lines(r"^    pub (has_norm: bool|outcome: )"))
tell(1, "the index of the first that offends, or the length where none does", [f"{file.split('/')[1]}::{name}" for file, name, _, given, _, _ in FUNCTIONS if re.match(r"(first_(bad|non)|find_)", name) and given == "usize"])
tell(1, "kinds by a number", [f"{file.split('/')[1]}::{name}" for file, name, taken, *_ in FUNCTIONS if re.search(r"\b(code|call|form|kind): u8", taken) and "capi/" not in file])
tell(2, "rooms: functions that only make an array", [f"{file.split('/')[1]}::{name}" for file, name, taken, given, *_ in FUNCTIONS if re.match(r"\[\w+; \d+\]", given) and not taken])
tell(2, "answers into lent numbers", named(r"tell(_\w+)?"))
tell(2, "a pass over all items and a search for the first beside it", named(r"(all_(finite|small|signs|good|plain|linear|kept|directions|positive)|find_\w+)"))
tell(2, "the same for another element: stores, puts, reads, lesser and greater", named(r"put_(number|score|low|long)|lesser|greater|least|read_(floats|linear|radii|indices|signs)"))
tell(3, "loops by hand", lines(r"^\s*('\w+: )?(while|loop)\b"))
tell(4, "copies of what std has for f32", [it for it in named(r"is_nan|is_finite|clamp|sqrt|floor_u32|to_bits|from_bits|from_le_bytes|put_f32|copy_into") if it.startswith("float")])
tell(4, "numbers and bytes by hand", named(r"word_of|pair_of|put_word|put_low|put_long|put_number|get_(u32|f32|word|long|float|number)"))
tell(4, "the least of two, and eighths rounded up", lines(r"\+ 7\) / 8|if (\w+) < (\w+) \{ \1 \} else \{ \2 \}"))
tell(4, "tests and conversions of an enum by a match", named(r"is_bad_profile|is_given|norm_value|mode_number|profile_number|norm_number|width_of|linear_bit|signs_bit|norm_bit"))
tell(5, "rotation, directions and matrix as three parameters", taking("rotation", "directions", "matrix"))
tell(5, "the rotated and the projected query as two", taking("rotated", "projected"))
tell(5, "tally, numbers and scores as three", taking("tally", "numbers", "scores"))
tell(5, "profile, range and payload as three", [it for it in taking("profile", "range") if it])
tell(5, "that the scalars have passed", asking(r"requires .*first \(scalar_checks setup\) accepted ≡ accepted"))
tell(5, "that a header is the record's", asking(r"requires .*(Whole bytes\.now header|read_record_of bytes\.now ≡ value header|Peeked setup bytes\.now header)"))
tell(5, "that the bytes hold a header", asking(r"requires .*header_length \(map_of bytes\.now\) ≤"))
tell(5, "that a matrix has its rows", asking(r"requires .*(Rowed|rows \* columns ≡|length query\.now ≤ length matrix)"))
tell(6, "arrays beside a length, and parallel arrays", lines(r"^    pub (numbers|scores|kept|ends): "))
tell(7, "a switch on which call to make", [f"{file.split('/')[1]}::{name}" for file, name, taken, *_ in FUNCTIONS if "call: u8" in taken])
tell(7, "a flag that says which of two steps to run", [f"{file.split('/')[1]}::{name}" for file, name, taken, *_ in FUNCTIONS if re.search(r"\bjudged: bool", taken)])
proofs = [it for it in git("ls-tree", "-r", "--name-only", COMMIT).split() if re.fullmatch(r"crates/\w+/proofs/.*\.antt", it)]
print(f"8  {len(proofs):4}  files of proofs, with {sum(git('show', f'{COMMIT}:{it}').count(chr(10)) for it in proofs)} lines")
