#!/usr/bin/env python3
"""Brings this repository's own definitions, lemmas, record fields and local names of specs/ and proofs/ to snake case.

usage: python3 tools/respell.py        at the top of the repository, once, after the kit's port.py

A dash stays only where it joins the names of two functions, as in `without-append`. Names of src/, text in strings and
comments stay as they are. Must-fail edits are turned alike. It stops where two names would fall together.
"""

import glob
import re
import sys

# Names of definitions, lemmas, fields and variables, as they stand after port.py. Those made from two function names keep
# the dash between the two.
JOINED = {
    "sumBy-map": "sum_by-map",
    "sumBy-none": "sum_by-none",
    "sumBy-same": "sum_by-same",
    "two-le-sumBy": "two-le-sum_by",
    "times-without-other": "times-without_other",
    "times-without-same": "times-without_same",
    "without-append": "without-append",
}
PLAIN = """
action-call active-in active-le acts-same added-nothing advance-as advance-at advance-moves advance-put advance-unfit
advances-as advances-at advances-by after-opening ahead-few ahead-here ahead-is ahead-outer all-active all-freed
around-a-writer ask-at asked-as at-place-is at-the-end away-new bad-word before-is begun-as bits-added blank-gone
blank-joined blank-more blank-new blank-set book-of by-me call-after call-first call-moves call-sound calls-from
calls-length calls-of calls-place calls-within cell-of code-of-reply coin-dropped coin-dropped-as done-moves done-sound
dropped-of enter-read-moves enter-read-sound enter-sound enters-over-a-one-step-lock enters-over-a-two-step-lock
few-active few-writers fifth-number first-no first-yes five-number four-coins freed-at freed-off freed-writer freeing-all
fresh-seen fresh-sound from-good from-lock from-till front-all full-cell going-at good-advance good-ask good-join
good-leave good-rest good-word has-not held-at-end held-moves held-off held-other held-since held-zero here-at
holder-holds holder-is holder-set holds-no holds-ticket holds-yes in-line in-one-step in-till in-two-steps is-entry
is-inside is-out is-waiting is-writer is-writing join-at join-moves join-sound layer-of leading-up leave-as leave-at
leave-gone leave-moves leave-put leave-sound leave-unfit leaves-as left-of length-of length-verdict letter-met
line-at-short line-is line-room line-short line-waits list-book lock-after lock-does lock-layer lock-number map-away
never-out new-kept new-lined next-writer-posted no-amount no-goes no-writer none-goes none-there not-mine not-one
not-present of-lock one-dropped one-prop one-small only-unfit open-does open-layer open-number open-seen open-sound
other-times out-moves out-sound own-times paid-out pair-at pair-call pair-past pair-there pair-word past-refused
past-state past-tests pft-book phase-bit post-moves post-sound posted-enters posted-waits present-flag present-in
print-from print-of-schedule put-drop put-length put-so put-take read-cleared read-moves read-put read-sound read-there
read-unfit reader-le reads-by refusal-line refuses-so reply-to rig-around-a-writer rig-layer rig-next-writer-posted
rig-number right-count rin-fits rin-out room-then rout-fits same-standing seen-after seen-stepped settled-as shows-after
shows-new some-found some-sum some-writer standing-at standing-in standing-is standing-of standing-past stands-as
stays-in step-lined tally-all tally-cons tally-empty tally-small text-from tickets-after till-layer till-number told-after
told-at-entry told-by-writer told-next turn-lined waits-present win-fits within-moves without-same word-verdict
words-length words-place wout-fits wout-out wrap-back wrap-cancel wrap-fits wrap-more wrap-plain write-put write-unfit
writer-at writer-is writer-le writer-other writers-le writes-by
""".split()

TOKEN = re.compile(r"[A-Za-z_][\w']*(?:-[\w']+)*")
STRING = re.compile(r'"(?:[^"\\]|\\.)*"')


def table():
    names = {n: n.replace("-", "_") for n in PLAIN} | JOINED
    assert len(set(names.values())) == len(names), "two names fall together"
    return names


def turn_code(line, names, comment):
    """The line with each name turned, but for strings and what follows a comment's mark."""
    out, at = [], 0
    cut = len(line)
    for m in re.finditer(r'"(?:[^"\\]|\\.)*"|' + re.escape(comment), line):
        if m.group(0) == comment:
            cut = m.start()
            break
    head, tail = line[:cut], line[cut:]
    for m in STRING.finditer(head):
        out.append(TOKEN.sub(lambda t: names.get(t.group(0), t.group(0)), head[at : m.start()]))
        out.append(m.group(0))
        at = m.end()
    out.append(TOKEN.sub(lambda t: names.get(t.group(0), t.group(0)), head[at:]))
    return "".join(out) + tail


def main():
    names = table()
    files = sorted(glob.glob("crates/**/*.antt", recursive=True) + glob.glob("crates/**/*.rt", recursive=True) + glob.glob("crates/*/must-fail/*.edit"))
    files = [f for f in files if "/out/" not in f]
    changed = 0
    for f in files:
        with open(f, encoding="utf-8") as it:
            old = it.read()
        tokens = set(TOKEN.findall(old))
        for a, b in names.items():
            if a != b and a in tokens and b in tokens and f.endswith(".antt"):
                print(f"look: {f}: both {a} and {b} stand here")
        comment = "--" if f.endswith(".antt") else "//" if f.endswith(".rt") else "\0"
        new = "".join(turn_code(l, names, comment) for l in old.splitlines(keepends=True))
        if new != old:
            changed += 1
            with open(f, "w", encoding="utf-8") as it:
                it.write(new)
    print(f"respell: {changed} of {len(files)} files")
    return 0


if __name__ == "__main__":
    sys.exit(main())
