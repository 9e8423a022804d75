#!/usr/bin/env python3
"""The plane numbers, the block matrix, the plan, the direct solve, the conjugate gradient, the step and its columns of the rules a second
time. `answer`: case lines in, answer lines out. `cases SEED`: damaged input."""

import sys

sys.dont_write_bytecode = True

import columns
import damage
import direct
import gradient
import matrix
import plan
import plane
import rules
import step
import text


WORK = matrix.WORK | {"plan": plan.plan, "factorize": direct.factorize, "solve": direct.solve} | gradient.WORK | step.WORK | columns.WORK


def answer(line):
    word, *tokens = line.split(" ")
    if word in plane.WORK:
        return " ".join(map(text.answer_token, plane.WORK[word](*map(text.float_of, tokens))))
    call = text.read(line)
    refused = rules.refusal(call)
    # Planning's 7 is the one refusal that changes a list.
    if refused == 7 and call["word"] == "plan":
        plan.clear_work(call)
    if refused and "counts" in call:
        step.count(call, step.REFUSED)
    if refused:
        return text.answer_line(call, ["refused", refused])
    came = WORK[call["word"]](call)
    if isinstance(came, tuple):
        return text.answer_line(call, ["failed", *came])
    return text.answer_line(call, ["done"] if came is None else ["done", came])


def main(words):
    if words == ["answer"]:
        lines = (answer(line.rstrip("\n")) for line in sys.stdin)
    elif len(words) == 2 and words[0] == "cases":
        lines = map(text.case_line, damage.cases(int(words[1])))
    else:
        sys.exit("usage: program.py answer | program.py cases SEED")
    for line in lines:
        print(line)


main(sys.argv[1:])
