#!/usr/bin/env python3
"""Feeds the program `console` random lines, and holds each answer to the line's form.

    tests/console/random_lines.py [LINES] [SEED] [PROGRAM]

The form is read here by a regular expression, apart from the console's own reader. Of every chunk: the program ends by
itself with status 0; each line but a comment has exactly one answer; a line of another form, an unknown word or a wrong
count answers `error`; an answer is `error`, `full`, `refused` and a number from 1 to 14, `yes` to a verdict, or `ok` and as
many words as the command gives. The chunk is then run again without the lines that were not done, and with what a failed
setter leaves set in its place by lines of the form: nothing else may be changed by a line that was not done, so the other
answers are the same. Verdicts stay, since they leave what was observed, and so does a `room` that is full.
"""
import random
import re
import subprocess
import sys
from collections import Counter

CHUNK = 20000
P = 2013265921
FORM = re.compile(rb"([a-z0-9_]{1,32})((?: [0-9]+)*)\Z")

# The count of numbers, where it is fixed, and the words of an `ok`, where they are known.
FIXED = {
    b"lambda": (4, 0), b"plan": (1, None), b"get": (3, 1), b"stack": (1, None), b"view": (2, 2), b"room": (0, 4),
    b"len": (2, 0), b"set": (3, 0), b"start": (0, 0), b"fold0": (4, 0), b"fold": (5, 0), b"pair": (1, 8),
    b"openings": (0, None), b"work": (0, None), b"verdict": (0, 0), b"observed": (0, None), b"add": (8, 4), b"sub": (8, 4),
    b"mul": (8, 4), b"square": (4, 4), b"halve": (4, 4), b"exp_power_of_2": (5, 4), b"eval_eq_uni": (9, 4),
    b"eval_eq_uni_at_one": (5, 4), b"eval_in_uni": (6, 4), b"interpolate_quadratic_at_012": (16, 4), b"take": (0, 5),
    b"show": (0, 10), b"help": (0, None), b"why": (1, None), b"plan_unsorted": (1, None),
    b"round0": (0, None), b"column_openings": (0, None),
}
# Of these any count, or one by a rule.
FREE = {
    b"shape": (lambda n: n >= 3, 0), b"matrix": (None, 0), b"cells": (None, 0), b"point": (None, 0), b"claims": (None, 0),
    b"first": (None, 0), b"pairs": (None, 0), b"opened": (None, 0), b"challenges": (None, 0),
    b"eval_eq_mle": (lambda n: n % 8 == 0, 4), b"eval_eq_prism": (lambda n: n % 8 == 1, 4),
    b"eval_rot_kernel_prism": (lambda n: n % 8 == 1, 4), b"eval_eq_rot_cube": (lambda n: n % 8 == 0, 8),
    b"evals_eq_hypercube": (None, None), b"evals_eq_hypercube_from": (lambda n: n >= 4, None),
    b"horner_eval": (lambda n: n >= 4 and n % 4 == 0, 4),
}
WORDS = list(FIXED) + list(FREE)
# These say `error` too where there is no such commitment, buffer, count, or number.
MAY_ERR = {b"plan", b"plan_unsorted", b"get", b"stack", b"view", b"len", b"set", b"shape", b"why"}
# Lines that set what a failed line of the word leaves.
LEAVES = {
    b"shape": [b"shape 0 0 0"], b"lambda": [b"lambda 0 0 0 0"], b"matrix": [b"matrix"], b"cells": [b"cells"],
    b"point": [b"point"], b"claims": [b"claims"], b"first": [b"first"], b"pairs": [b"pairs"], b"opened": [b"opened"],
    b"challenges": [b"challenges"], b"take": [b"challenges", b"pairs", b"opened", b"first", b"claims"],
}


def read(line):
    """None for a comment, False for another form, else the word and its numbers."""
    if line.startswith(b"#"):
        return None
    m = FORM.match(line)
    if not m:
        return False
    digits = [x.lstrip(b"0") for x in m.group(2).split()]
    if any(len(x) > 10 for x in digits):
        return False
    numbers = [int(x or b"0") for x in digits]
    if any(x >= 2**32 for x in numbers):
        return False
    return m.group(1), numbers


def well_counted(word, n):
    if word in FIXED:
        return n == FIXED[word][0]
    rule = FREE[word][0]
    return rule is None or rule(n)


def wrong(line, answer):
    """What is wrong with an answer, or None."""
    got = read(line)
    head = answer.split(b" ")
    if line.startswith(b"help ") and line[5:] in WORDS:
        return None if re.fullmatch(rb"ok " + line[5:] + rb"( .*)? -> .*", answer) else "no help"
    if got is False or got[0] not in WORDS:
        return None if answer == b"error" else "another form, and no error"
    word, numbers = got
    if not well_counted(word, len(numbers)):
        if word in FREE and len(numbers) > 65536 and answer == b"full":
            return None
        return None if answer == b"error" else "a wrong count, and no error"
    if answer == b"error":
        return None if word in MAY_ERR else "an error for a line of the form"
    if answer == b"full":
        return None
    if head[0] == b"refused":
        if not 1 <= int(head[1]) <= 14:
            return "no such number"
        return None if len(head) == (10 if int(head[1]) >= 13 else 2) else "refused with other words"
    if (answer == b"yes") if word == b"verdict" else (head[0] == b"ok"):
        pass
    else:
        return "no answer of the page"
    words = FIXED[word][1] if word in FIXED else FREE[word][1]
    if words is not None and len(head) - 1 != words:
        return "another count of words"
    if word not in (b"get", b"plan", b"plan_unsorted", b"help", b"why", b"verdict") and not all(re.fullmatch(rb"[0-9]+", x) for x in head[1:]):
        return "words of another form"
    return None


class Lines:
    def __init__(self, seed):
        self.r = random.Random(seed)

    def number(self):
        r = self.r
        k = r.randrange(10)
        if k < 5:
            return r.randrange(4)
        if k < 7:
            return r.randrange(40)
        if k < 8:
            return r.choice([P - 1, P, P + 1, 2**31, 2**32 - 1])
        return r.randrange(2**32)

    def numbers(self, n):
        return b"".join(b" %d" % self.number() for _ in range(n))

    def bytes_(self):
        r = self.r
        line = bytes(r.randrange(256) for _ in range(r.choice([0, 1, 2, 5, 20, 80])))
        return line.replace(b"\n", b" ")

    def texty(self):
        r = self.r
        return bytes(r.choice(b"abcfoldpairstart_0123456789   #-+.,\t\rXYZ") for _ in range(r.randrange(30)))

    def triples(self, l, n, k):
        r = self.r
        logs = [r.randrange(l + n + (2 if r.randrange(40) == 0 else 1)) for _ in range(k)]
        if r.randrange(8):
            logs.sort(reverse=True)
        return [(r.randrange(3), h, r.randrange(2)) for h in logs]

    def shape(self):
        """Lists that a run often takes, and what a run of them is given."""
        r = self.r
        l, n, k = r.randrange(4), r.randrange(4), r.randrange(1, 4)
        later = r.randrange(3)
        t = self.triples(l, n, k) + [(1, r.randrange(l + n + 1), r.randrange(2)) for _ in range(later)]
        flat = b"".join(b" %d %d %d" % x for x in t)
        rows = [w * 2 ** max(h, l) for w, h, _ in t]
        stacked = sum(-(-x // 2 ** (l + n)) for x in [sum(rows[:k])] + rows[k:])
        self.n, self.words, self.opened = n, 2 ** (l + n) * stacked, stacked
        self.claims, self.first = sum(w * (1 + f) for w, _, f in t), 2 ** (l + 1) - 1
        return [b"shape %d %d %d %d" % (l, n, 1 + later, k) + b" 1" * later + flat]

    def element(self):
        r = self.r
        return b"".join(b" %d" % r.randrange(P) for _ in range(4))

    def sent(self):
        """A verdict's inputs: zeros, which are accepted, or elements."""
        r = self.r
        out = [b"challenges" + b"".join(self.element() for _ in range(self.n + 1))]
        for word, n in ((b"claims", self.claims), (b"first", self.first), (b"pairs", 2 * self.n), (b"opened", self.opened)):
            zeros = r.randrange(4)
            out.append(word + b"".join(b" 0 0 0 0" if zeros else self.element() for _ in range(n)))
        return out

    def session(self):
        r = self.r
        out = self.shape() + [
            b"matrix" + b"".join(b" %d" % r.randrange(P) for _ in range(self.words)),
            b"point" + b"".join(self.element() for _ in range(self.n + 1)),
            b"lambda" + self.element(), b"room", b"start", b"round0", r.choice([b"fold0 1 0 0 0", b"work", b"round0"]),
            b"fold0" + self.element(),
        ]
        for j in range(1, self.n + 1):
            out += [b"pair %d" % j, b"fold %d" % j + self.element()]
        out += [b"openings", b"work", b"column_openings"] + self.sent() + [b"verdict", b"observed", b"plan 1", b"plan_unsorted 1", b"stack 1", b"view 1 0", b"get 1 0 0"]
        out += r.choice([[], [b"take", b"verdict", b"show"]])
        if r.randrange(2):
            out.pop(r.randrange(len(out)))
        return out

    def command(self):
        r = self.r
        word = r.choice(WORDS)
        if word == b"exp_power_of_2":
            return word + b" %d" % r.randrange(200) + self.numbers(r.choice([4, 4, 3, 5]))
        if word == b"evals_eq_hypercube":
            return word + self.numbers(r.choice([0, 4, 8, 12, 16, 3]))
        if word == b"evals_eq_hypercube_from":
            return word + self.numbers(r.choice([4, 8, 12, 16, 3, 7]))
        if word == b"help" and r.randrange(4):
            return word + b" " + r.choice(WORDS)
        if word == b"why" and r.randrange(4):
            return word + b" %d" % r.randrange(16)
        n = FIXED[word][0] if word in FIXED else r.choice([0, 1, 3, 4, 8, 9, 16, 17, 24, 40])
        return word + self.numbers(n if r.randrange(4) else r.randrange(12))

    def damaged(self):
        r = self.r
        line = self.command()
        k = r.randrange(8)
        at = r.randrange(len(line) + 1)
        if k == 0:
            return line[:at]
        if k == 1:
            return line[:at] + bytes([r.choice([0, 9, 13, 32, 45, 46, 65, 127, 128, 255])]) + line[at:]
        if k == 2:
            return line + b" "
        if k == 3:
            return line + b"\r"
        if k == 4:
            return b" " + line
        if k == 5:
            return line.replace(b" ", b"  ", 1)
        if k == 6:
            return line + b" %d" % r.choice([2**32, 2**32 + 1, 10**19, 2**64, 2**64 + 1, 10**40])
        return line.upper()

    def long(self):
        r = self.r
        k = r.randrange(6)
        if k == 0:
            return r.choice(WORDS) + b" 7" * r.choice([65535, 65536, 65537, 70000, 131072])
        if k == 1:
            return b"a" * r.choice([31, 32, 33, 1000, 300000])
        if k == 2:
            return b"#" + b"x" * 200000
        if k == 3:
            return b"pair " + b"0" * 300000 + b"1"
        if k == 4:
            return b"point" + b" 1" * r.choice([256, 257, 4096])
        return bytes(r.randrange(256) for _ in range(100000)).replace(b"\n", b"")

    def batch(self):
        r = self.r
        k = r.randrange(10000)
        if k < 2500:
            return [self.bytes_()]
        if k < 3500:
            return [self.texty()]
        if k < 6500:
            return [self.command()]
        if k < 9000:
            return [self.damaged()]
        if k < 9790:
            return [b"#" + self.bytes_()]
        if k < 9995:
            return self.session()
        return [self.long()]


def run(program, text):
    ran = subprocess.run([program], input=text, stdout=subprocess.PIPE, timeout=300)
    answers = ran.stdout.split(b"\n")
    assert ran.returncode == 0, ran.returncode
    assert answers.pop() == b"", "no newline at the end"
    return answers


def unchanged(program, asked, answers):
    """Whether the lines that were done answer the same without those that were not, but for what failed setters leave."""
    kept, without, left = [], 0, 0
    for x, y in zip(asked, answers):
        if y.startswith(b"ok") or x in (b"verdict", b"room"):
            kept.append((x, y))
            continue
        without += 1
        if y in (b"error", b"full"):
            lines = LEAVES.get(x.split(b" ")[0], [])
            left += len(lines) > 0
            kept += [(line, b"ok") for line in lines]
    same = run(program, b"".join(x + b"\n" for x, _ in kept)) == [y for _, y in kept]
    return same, without, left


def main():
    total = int(sys.argv[1]) if len(sys.argv) > 1 else 1000000
    seed = int(sys.argv[2]) if len(sys.argv) > 2 else 1
    program = sys.argv[3] if len(sys.argv) > 3 else "crates/console/out/console"
    lines = Lines(seed)
    tally, forms, done, longest, out, emptied, bad = Counter(), Counter(), 0, 0, 0, 0, 0
    while done < total:
        chunk = []
        while len(chunk) < CHUNK:
            chunk += lines.batch()
        text = b"\n".join(chunk)
        ended = lines.r.randrange(2)
        answers = run(program, text + (b"\n" if ended else b""))
        asked = [x for x in chunk if read(x) is not None]
        last = None
        if not ended:
            # The last line has no newline: nothing where it is empty or a comment, and an error else.
            last = chunk[-1]
            if read(last) is not None:
                asked.pop()
                if last:
                    assert answers.pop() == b"error", last
        assert len(asked) == len(answers), (len(asked), len(answers))
        for line, answer in zip(asked, answers):
            fault = wrong(line, answer)
            if fault:
                bad += 1
                print("DIFFERS:", fault, line[:200], answer[:200])
            tally[answer.split(b" ")[0].decode()] += 1
            got = read(line)
            forms["of the form" if got and got[0] in WORDS and well_counted(got[0], len(got[1])) else "of another form"] += 1
            if answer.startswith(b"refused"):
                tally["refused " + answer.split(b" ")[1].decode()] += 1
        same, without, left = unchanged(program, asked, answers)
        out += without
        emptied += left
        if not same:
            bad += 1
            print("DIFFERS: without the lines that were not done")
        forms["comments"] += len(chunk) - len(asked)
        longest = max(longest, max(map(len, chunk)))
        done += len(chunk)
    print(f"{done} lines, {dict(forms)}, the longest of {longest} bytes")
    print({k: tally[k] for k in sorted(tally)})
    print(f"{emptied} failed setters left what they set empty")
    print(f"{out} lines were not done, and without them the others answer the same" if not bad else f"{bad} differ")
    sys.exit(1 if bad else 0)


main()
