#!/usr/bin/env python3
"""Counts the places in crates/*/src that are written in an older form.

    tools/forms.py [ROOT]            a line for each point
    tools/forms.py [ROOT] --list N   the places of point N

The points are those of docs/DESIGN-PASS.md. What a pattern can't tell (whether
a byte is a number of refusal) is in the lists below."""
import pathlib
import re
import sys

# functions that answer a byte that is no number of a refusal and no kind
BYTES = set("""byte_at digit first_event event_awaited most small next_segment run
follow thread_of low_byte draw_byte few key_event event_of number_below byte
segment_after next pick chosen from next_of mapped_byte segment_by letter_of
put_answer""".split())

FLAGS = r"\b(number: u8|full: bool|named: bool|heard: bool|stepwise: bool|targets: bool|finishes: bool|written: bool|marked: bool)"


def functions(text):
    """Name, line, parameters, result and body of each function."""
    for m in re.finditer(r"^[ \t]*(?:pub(?:\([a-z]+\))? )?(?:extern \"C\" )?fn (\w+)[^(]*\(", text, re.M):
        depth, i = 1, m.end()
        while depth and i < len(text):
            depth += {"(": 1, ")": -1}.get(text[i], 0)
            i += 1
        params = text[m.end():i - 1]
        head = re.match(r"\s*(?:->\s*([^\n{]+?))?\s*(?:\n|\{)", text[i:])
        result = (head.group(1) or "").strip() if head else ""
        end = re.search(r"^[ \t]*\}\s*$", text[i:], re.M)
        body = text[i:i + end.end()] if end else ""
        yield m.group(1), text.count("\n", 0, m.start()) + 1, params, result, body


def places(root):
    found = {n: [] for n in range(1, 8)}
    for path in sorted(root.glob("crates/*/src/**/*.rt")):
        text = path.read_text()
        name = str(path.relative_to(root / "crates")).replace("/src/", "/")

        def note(point, line, what):
            found[point].append(f"{name}:{line}: {what}")

        for m in re.finditer(r"^[ \t]*(?:pub )?(?:enum|struct) (\w+)[^{;]*\{([^}]*)\}", text, re.M):
            line = text.count("\n", 0, m.start()) + 1
            if re.search(FLAGS.replace("|stepwise: bool|targets: bool|finishes: bool|written: bool|marked: bool", ""), m.group(2)):
                note(1, line, f"{m.group(1)} holds a number or a flag beside a value")
            if m.group(1) in ("Written", "Answer", "Bound", "Step"):
                note(1, line, f"{m.group(1)} is an enum of the shape of Option or Result")
            if re.search(r"\b(n|count): (u8|usize)", m.group(2)) and "[" in m.group(2):
                note(6, line, f"{m.group(1)} holds an array with its length beside it")
            if len(re.findall(r": \[[^\]]*; \d+\]", m.group(2))) > 1:
                note(6, line, f"{m.group(1)} holds parallel arrays")
        for fn, line, params, result, body in functions(text):
            if result == "u8" and fn not in BYTES and not name.startswith("second"):
                note(1, line, f"fn {fn} answers a number")
            if re.search(r"by_rows|of_rows|rows_", fn):
                note(2, line, f"fn {fn} beside the one on a table")
            if fn in ("places", "count_of", "within", "at_most", "few", "moved", "places_used", "body_length"):
                note(2, line, f"fn {fn}: a count and the places for it")
            if fn in ("put_words", "put_numbers", "is_long_name"):
                note(2, line, f"fn {fn}: another differs in a type")
            if re.search(r"\{\s*\n\s*\(?\w+(\.0)? as \w+\)?\s*\n\s*\}\s*$", body):
                note(4, line, f"fn {fn} only converts")
            if fn in ("is_same", "lesser", "greater", "least", "lesser_of", "most_of", "least_of", "is_before", "is_bound_before"):
                note(4, line, f"fn {fn} compares by hand")
            if len([p for p in re.split(r",(?![^\[]*\])", params) if p.strip()]) > 7:
                note(5, line, f"fn {fn} takes more than seven parameters")
            for m in re.finditer(r"\b(stepwise|targets|finishes|written|marked): bool", params):
                note(7, line, f"fn {fn}: {m.group(1)} says which step to run")
        for m in re.finditer(r"^[ \t]*while (.*) \{$", text, re.M):
            test = m.group(1)
            if re.search(r"[<>]|!=", test):
                note(3, text.count("\n", 0, m.start()) + 1, f"while {test}")
    return found


def main():
    args = sys.argv[1:]
    listed = int(args[args.index("--list") + 1]) if "--list" in args else 0
    root = pathlib.Path(args[0]) if args and not args[0].startswith("--") else pathlib.Path(__file__).resolve().parent.parent
    found = places(root)
    if listed:
        print("\n".join(found[listed]))
        return
    for point, list_of in found.items():
        print(f"{point}: {len(list_of)}")


main()
