"""Texts with their answers in both modes, in vectors.jsonl. Run alone, it makes that file anew from the reference."""

import collections
import json
import pathlib

import inputs
import known
import reference

FILE = pathlib.Path(__file__).resolve().parent / "vectors.jsonl"
COUNT = 2000
SEED = 2026
MAX_BYTES = 64
MAX_ALIKE = 20
MAX_KNOWN_BYTES = 3000


def answer(text, mode):
    try:
        tree = reference.read(text, mode)
    except reference.Rejection as rejection:
        fields = {"rejected": rejection.code, "position": rejection.position}
        if isinstance(rejection.argument, bytes):
            fields["argument"] = rejection.argument.hex()
        elif rejection.argument is not None:
            fields["argument"] = rejection.argument
        return fields | {"printed": rejection.printed().decode(), "reason": rejection.reason().decode()}
    return {"tree": reference.described(tree), "text": reference.written(tree).hex()}


# The code, or how the tree begins.
def outcome(fields):
    return fields.get("rejected") or fields["tree"][:4]


def vector(text):
    return {"input": text.hex()} | {mode: answer(text, mode) for mode in (reference.STANDARD, reference.EXTENDED)}


def texts():
    """The texts with answers by hand, and then made ones."""
    yield from (text for _, text, _ in known.ROWS if len(text) <= MAX_KNOWN_BYTES)
    yield from (text for text, _ in known.WRITTEN)
    yield from (text for equal in known.UPWARDS for text in equal)
    yield None
    yield from (text for text in inputs.texts(SEED, 100 * COUNT) if len(text) <= MAX_BYTES)


def made():
    """The vectors. Of the made texts only so many are taken whose answers are of the same kinds."""
    found = {}
    alike = collections.Counter()
    all_taken = True
    for text in texts():
        if text is None:
            all_taken = False
            continue
        if text in found:
            continue
        fields = vector(text)
        kinds = (outcome(fields["standard"]), outcome(fields["extended"]))
        if all_taken or alike[kinds] < MAX_ALIKE:
            alike[kinds] += 1
            found[text] = fields
        if len(found) == COUNT:
            break
    return list(found.values())


def line_of(fields):
    """What the program answers."""
    if "rejected" in fields:
        return f"no {fields['printed'].encode().hex()}"
    return f"ok {fields['tree']} {fields['text']} same"


def lines_and_answers():
    """What the program is asked, and what it is to answer."""
    lines, answers = [], []
    for written in FILE.read_text(encoding="utf-8").splitlines():
        fields = json.loads(written)
        for mode, name in (("s", reference.STANDARD), ("e", reference.EXTENDED)):
            lines.append(f"{mode} {fields['input']}")
            # All fields are those of the reference: what is printed tells not all of them.
            is_so = fields[name] == answer(bytes.fromhex(fields["input"]), name)
            answers.append(line_of(fields[name]) if is_so else "not as the reference has it")
    return lines, answers


def main():
    vectors = made()
    FILE.write_text("".join(json.dumps(fields) + "\n" for fields in vectors), encoding="utf-8")
    print(f"{len(vectors)} vectors")


if __name__ == "__main__":
    main()
