#!/usr/bin/env python3
"""Brings the repository's own definitions and lemmas to today's spelling, once, behind the kit's port.py.

    python3 tools/respell.py        at the top of a checkout

Words and members are in snake case, types in camel case; a dash is left to the parts of a lemma's name. Only contracts,
definitions, proofs and what the documents quote of them are touched: no name of a Rust item is in the table.
"""

import os
import re
import sys

NAMES = {
    "Fits-in": "FitsIn",
    "accepted-is": "accepted_is",
    "acceptedAfter": "accepted_after",
    "acceptedBy": "accepted_by",
    "acceptedFrom": "accepted_from",
    "acceptedOf": "accepted_of",
    "alikeOf": "alike_of",
    "alikeWith": "alike_with",
    "allEqual": "all_equal",
    "answerTo": "answer_to",
    "askOf": "ask_of",
    "askedBy": "asked_by",
    "asksOf": "asks_of",
    "bitsAt": "bits_at",
    "bitsAt-below": "bits_at-below",
    "bitsAt-byte": "bits_at-byte",
    "bitsAt-drop": "bits_at-drop",
    "bitsAt-high": "bits_at-high",
    "bitsAt-join": "bits_at-join",
    "bitsAt-narrow": "bits_at-narrow",
    "bitsAt-part": "bits_at-part",
    "bitsAt-past": "bits_at-past",
    "bitsAt-take": "bits_at-take",
    "bitsAt-written": "bits_at-written",
    "buffer-is": "buffer_is",
    "bytesFor": "bytes_for",
    "cellsAfter": "cells_after",
    "cellsAt": "cells_at",
    "cellsAt-append": "cells_at-append",
    "cellsAt-drop": "cells_at-drop",
    "cellsAt-push": "cells_at-push",
    "cellsBy": "cells_by",
    "collected-is": "collected_is",
    "current-is": "current_is",
    "currentOf": "current_of",
    "cut-header": "cut_header",
    "cut-run": "cut_run",
    "cutFrom": "cut_from",
    "cutLength": "cut_length",
    "declinedAs": "declined_as",
    "differenceOf": "difference_of",
    "empty-run": "empty_run",
    "endingOf": "ending_of",
    "endsPage": "ends_page",
    "fieldName": "field_name",
    "fittedBoth": "fitted_both",
    "fittedOf": "fitted_of",
    "foundAs": "found_as",
    "frontOf": "front_of",
    "gathered-is": "gathered_is",
    "get-batch": "get_batch",
    "getD-cellsAt": "get_or-cells_at",
    "getD-digits": "get_or-digits",
    "headFault": "head_fault",
    "headedAt": "headed_at",
    "headedBy": "headed_by",
    "headerOf": "header_of",
    "heldBy": "held_by",
    "heldBytes": "held_bytes",
    "ifMade": "if_made",
    "lastTick": "last_tick",
    "leftAfter": "left_after",
    "length-cellsAt": "length-cells_at",
    "length-is": "length_is",
    "nextByte": "next_byte",
    "nextFor": "next_for",
    "no-fault": "no_fault",
    "packGroup": "pack_group",
    "packed-run": "packed_run",
    "packedOf": "packed_of",
    "pageLength": "page_length",
    "patternOf": "pattern_of",
    "phase-is": "phase_is",
    "phaseOf": "phase_of",
    "put-list": "put_list",
    "putsAnswered": "puts_answered",
    "putsOf": "puts_of",
    "readAt": "read_at",
    "readOne": "read_one",
    "readVlq": "read_vlq",
    "readsAs": "reads_as",
    "repeated-run": "repeated_run",
    "repeatedAt": "repeated_at",
    "repeatsIn": "repeats_in",
    "room-is": "room_is",
    "roomOf": "room_of",
    "runFor": "run_for",
    "runRefusal": "run_refusal",
    "runsIn": "runs_in",
    "runsLeft": "runs_left",
    "shortBy": "short_by",
    "takenBy": "taken_by",
    "takesAnswered": "takes_answered",
    "takingAs": "taking_as",
    "ticksOf": "ticks_of",
    "turnsLeft": "turns_left",
    "unextendedBy": "unextended_by",
    "unpackedAt": "unpacked_at",
    "unpackedOf": "unpacked_of",
    "unzigzagOf": "unzigzag_of",
    "valueBytes": "value_bytes",
    "valuesFrom": "values_from",
    "valuesIn": "values_in",
    "vlqBy": "vlq_by",
    "vlqBy-last": "vlq_by-last",
    "vlqBy-step": "vlq_by-step",
    "vlqBy-turns": "vlq_by-turns",
    "waitingAt": "waiting_at",
    "waitingFor": "waiting_for",
    "waitingIn": "waiting_in",
    "waitingOf": "waiting_of",
    "waitsAt": "waits_at",
    "wordsFor": "words_for",
    "zero-header": "zero_header",
    "zigzagOf": "zigzag_of",
}

# A name is a longest run of these.
LETTER = r"[\w'-]"
TOKEN = re.compile(rf"(?<!{LETTER})(?:{'|'.join(sorted(map(re.escape, NAMES), key=len, reverse=True))})(?!{LETTER})")


def files(top):
    for folder, dirs, names in os.walk(os.path.join(top, "crates")):
        dirs[:] = sorted(d for d in dirs if d != "out")
        yield from (os.path.join(folder, n) for n in sorted(names) if n.endswith((".rt", ".antt", ".edit")))
    for folder in (top, os.path.join(top, "docs")):
        yield from (os.path.join(folder, n) for n in sorted(os.listdir(folder)) if n.endswith(".md"))


def fall_together(texts):
    """Names of the table whose new spelling is a definition's name already, in the same file."""
    for path, text in texts.items():
        for old, new in NAMES.items():
            defined = r"(?m)^ *(?:(?:pub|abbrev|unfoldable|data|record) )*{}(?!{})".format
            if path.endswith(".antt") and re.search(defined(re.escape(old), LETTER), text) and re.search(defined(re.escape(new), LETTER), text):
                yield f"{path}: {old} and {new}"


def main():
    top = os.getcwd()
    if not os.path.isdir(os.path.join(top, "crates")):
        sys.exit("respell: run it at the top of the checkout")
    texts = {}
    for path in files(top):
        with open(path, encoding="utf-8") as f:
            texts[path] = f.read()
    clashes = list(fall_together(texts))
    if clashes:
        sys.exit("respell: nothing was written; these names fall together:\n" + "\n".join(clashes))
    changed = 0
    for path, text in texts.items():
        new = TOKEN.sub(lambda m: NAMES[m.group()], text)
        if new != text:
            changed += 1
            with open(path, "w", encoding="utf-8") as f:
                f.write(new)
    print(f"respell: {changed} files")


if __name__ == "__main__":
    main()
