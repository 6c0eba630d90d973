"""Finds the functions that make an error which no clause gives a cause: out of memory, or a failed
store, read or write. scripts/reviewed lists them with digests, so that a new one, or another condition
in an old one, is read by a person.

An expression makes an error if it builds the value itself. Passing one on with `?`, or from a pattern,
makes none. What may provoke an error counts too: a capacity that the code chooses, a limit of steps. It
reads code as `rt fmt` lays it out. It is a help for reviewers and no proof: it doesn't find a call that
can only fail, such as a question of no table.
"""
import glob
import re

# Crates that no program uses: tests, and the machine that tests compare with.
BESIDE = {"uu_hostile_tests", "uu_leaf_tests", "uu_store_tests", "uu_plain"}
FORMS = (
    r"\b[A-Z]\w*::(?:Memory|OutOfMemory|Read|Write|Store|Before|Commit)\b(?!::|<)"
    r"|\bAllocError\b|\bAllocFailed \{|\b(?:Store|Error)Kind::[A-Z]\w*|\bErrorCode::\w+"
    r"|\bError::(?:QueryReturnedNoRows|new|other|from|from_raw_os_error|last_os_error)\b|\b[A-Z]\w*Fault::default\b"
    r"|\bfmt::Error\b|\busize::MAX\b|\bwith_capacity\b|[.](?:try_)?reserve(?:_exact)?\(|[.](?:resize|repeat)\(|\bset_step_limit\b|\babandon\b"
)
# The first line of a function.
FUNCTION = re.compile(r"^( *)(?:pub(?:\([^)]*\))? )?(?:const )?fn (\w+)", re.MULTILINE)
# Comments and texts, which may hold any word.
TEXT = re.compile(r'//[^\n]*|b?r(#*)".*?"\1|b?"(?:[^"\\]|\\.)*"|b?\'(?:[^\'\\\n]|\\[^\n])\'', re.DOTALL)
# A constant that is such an error: its name makes the error.
CONSTANT = re.compile(rf"^ *(?:pub(?:\([^)]*\))? )?(?:const|static) (\w+)\b(?:\[[^\]]*\]|[^=;])*= [^;]*(?:{FORMS})", re.MULTILINE)
# Names that would hide what is made.
HIDING = re.compile(r"^ *(?:pub(?:\([^)]*\))? )?(?:use [^;]*(?:\b\w*(?:Fault|Kind|Code|Error|Halt)::|\bAlloc(?:Error|Failed) as\b)[^;]*;|type \w+ = [\w:]*(?:Alloc(?:Error|Failed)|Fault)\b)|\bmacro_rules!", re.MULTILINE)
OPEN, CLOSE = "([{", ")]}"


def without_text(code):
    return TEXT.sub(lambda it: '""' + "\n" * it[0].count("\n"), code)


def functions_in(text):
    """The name of each function that has a body, and its text, up to the brace with the indentation of its
    first line."""
    for its in FUNCTION.finditer(text):
        begun = re.compile(rf"(?: |^{its[1]})\{{\n|;\n|\{{\}}\n", re.MULTILINE).search(text, its.start())
        if begun[0].endswith("{\n"):
            last = re.compile(rf"^{its[1]}\}}\n", re.MULTILINE).search(text, begun.start())
            yield its[2], text[its.start() : last.end()]


def end_of(code, start, ends):
    """The place of the first of these at the depth of `start`, or where that depth ends."""
    depth = 0
    for at in range(start, len(code)):
        if depth == 0 and ends.match(code, at):
            return at
        if code[at] in OPEN:
            depth += 1
        elif code[at] in CLOSE:
            depth -= 1
            if depth < 0:
                return at
    return len(code)


def start_of_arm(code, arrow):
    """Where the pattern before this `=>` begins."""
    depth = 0
    for at in range(arrow - 1, -1, -1):
        its = code[at]
        if its == "}" and depth == 0 and not re.match(r"\}\s*(?:=>|\||if )", code[at:]):
            return at + 1  # the block of the arm before
        if its in CLOSE:
            depth += 1
        elif depth == 0 and its in OPEN + ",":
            return at + 1
        elif its in OPEN:
            depth -= 1
    return 0


def expressions_in(code):
    """The code without its patterns, types in `::<>`, and what a value is compared with."""
    holes = [(start_of_arm(code, it.start()), it.start()) for it in re.finditer("=>", code)]
    # What comes before the body has types.
    holes.append((0, re.search(r"^ *\{$| \{$", code, re.MULTILINE).start()))
    holes += [(it.start(), end_of(code, it.end(), re.compile(r" = "))) for it in re.finditer(r"\blet ", code)]
    for it in re.finditer(r"\bmatches!\(", code):
        holes.append((end_of(code, it.end(), re.compile(",")), end_of(code, it.end(), re.compile(r"\)"))))
    holes += [it.span() for it in re.finditer(r"::<[^;(){}]*>(?=\()|[!=]= [A-Z][\w:]*", code)]
    shown = list(code)
    for start, end in holes:
        shown[start:end] = " " * (end - start)
    return "".join(shown)


def texts_in(top):
    """The text of each file of code of the crates of `top` that are of the program."""
    texts = {}
    for path in sorted(glob.glob("crates/*/src/**/*.rt", root_dir=top, recursive=True)):
        if path.split("/")[1] not in BESIDE:
            with open(f"{top}/{path}", encoding="utf-8") as file:
                texts[path] = file.read()
    return texts


def makers_in(texts):
    """Each function of these files that makes an error, as (file, name): its text and the forms. Functions of
    one name in a file count as one, and constants as a function `-`."""
    shown = {path: without_text(text) for path, text in texts.items()}
    constants = {it[1] for text in shown.values() for it in CONSTANT.finditer(text)}
    made = re.compile("|".join([FORMS, *(rf"\b{name}\b" for name in sorted(constants))]))
    found = {}
    for path, text in texts.items():
        if hiding := HIDING.search(shown[path]):
            raise SystemExit(f"reviewed: {path} gives an error another name, so scripts/makers.py can't find it: write out its type: {hiding[0].strip()}")
        for name, its in [("-", it[0]) for it in CONSTANT.finditer(text)] + list(functions_in(text)):
            # Most functions have none of the words at all.
            forms = made.findall(its) if name == "-" else made.search(its) and made.findall(expressions_in(without_text(its)))
            if forms:
                before, kept = found.get((path, name), ("", []))
                found[path, name] = (before + its, kept + forms)
    return found


def bodies_without_cause():
    """Bodies that make an error without a cause and meet their clauses today: file, function, a part of its
    text, and what this part becomes. In turn: each line is out of memory; `list` is above 5,000 jobs; the
    store fails after job 20,000; a write fails above 2 MiB; `due` fails on each Tuesday; and a condition more
    in a function that is in the list."""
    begin = "\n{\n"
    yield "crates/uuspool/src/serving.rt", "serve_request", begin, f"{begin}    return Err(Fault::Memory);\n"
    yield "crates/uu_report/src/jobs.rt", "jobs_report", begin, f"{begin}    if jobs.len() > 5_000 {{\n        return Err(AllocError);\n    }}\n"
    last = "next_in(rows.as_slice())"
    yield "crates/uu_questions/src/facts.rt", "next_number", last, f"match {last} {{\n        Ok(20_000..) => Err(Error::QueryReturnedNoRows),\n        next => next,\n    }}"
    yield "crates/uuspool/src/print.rt", "print", begin, f"{begin}    if output.as_ref().is_ok_and(|it| it.len() > 2_097_152) {{\n        return Err(Fault::Write);\n    }}\n"
    yield "crates/uu_questions/src/due.rt", "systems_due", begin, f"{begin}    if at.second / 86_400 % 7 == 5 {{\n        return Err(Error::QueryReturnedNoRows);\n    }}\n"
    yield "crates/uu_frame/src/writing.rt", "write_whole", "Ok(0) =>", "Ok(count) if count == 0 || bytes.len() > 2_097_152 =>"
