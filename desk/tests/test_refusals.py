"""Each refusal of a reading, on a text made for it: number, line, column, words and fix."""
import random
import unittest

import pirkvezo
from pirkvezo.refusals import excerpt
from plans_at_random import plan_text

GOOD = ("(pad 376)\n(domain 0 (share 400) (may 1))\n(domain 1 (share 300) (may))\n"
        "(window 0 (length 400))\n(run 1)\n")
LONG = GOOD.replace("(run 1)", "(run 1000)").replace("376", "1000000").replace(
    "(window 0 (length 400))\n", "(window 0 (length 1000000))\n" * 32)

# text, number, line, column, part of the words, part of the fix
CASES = [
    (GOOD + " " * 40000, 1, 6, 32667, "40102 bytes", "shorten it by 7334 bytes"),
    ("(pad\t376)", 2, 1, 5, "a tab", "spaces"),
    ("(pad 376)\r\n", 2, 1, 10, "a carriage return", "LF"),
    ("(pad 376)\r(run 1)", 2, 1, 10, "a carriage return", "LF"),
    ("\ufeff(pad 376)", 2, 1, 1, "byte order mark", "without BOM"),
    ("(pad 1,000)", 2, 1, 7, "a comma", "without commas"),
    ("(pad 1000.5)", 2, 1, 10, "a full stop", "whole numbers"),
    ("(pad -5)", 2, 1, 6, "a minus sign", "without a sign"),
    ("(PAD 376)", 2, 1, 2, "capital letter P", "small letters"),
    ("(pad\u00a0376)", 2, 1, 5, "no-break space", "plain spaces"),
    ("(pad 376)".encode("utf-16"), 2, 1, 1, "UTF-16", "ASCII"),
    (b"\0\0", 2, 1, 1, "NUL", "plain ASCII"),
    (b"(pad \xe9)", 2, 1, 6, "byte 233", "plain ASCII"),
    ("; note", 2, 1, 1, "a semicolon", "no comments"),
    ("(paf 376)", 2, 1, 2, 'not "paf"', "did you mean pad?"),
    ("(pad", 2, 1, 5, "stops short: a number (pad, 376 to 1000000)", "(pad 376)"),
    ("(pad 376", 2, 1, 9, "stops short: a closing bracket", "(pad 376)"),
    ("(pad 376) (run 1)", 2, 1, 11, "the form is complete", "one form"),
    ("\n pad", 2, 2, 2, "an opening bracket was due", "one form"),
    (GOOD + "(op 0 (send 1))", 2, 6, 14, "a number (word, 0 to 65535)", "(op 0 (send 1 77))"),
    ("(domain 0 (share 400) (may", 2, 1, 27, "a recipient or a closing bracket", "(may 1))"),
    ("x" * 3000, 2, 1, 1, 'not "xxxxxxxxxxxxxxxxxxxx.."', "one form"),
    ("(pad 375)", 3, 1, 6, "the pad is 375; it is at least 376", "376 to 1000000"),
    (GOOD.replace("376", "276"), 3, 1, 6, "such a pad was enough before the touch", "need at least 376"),
    ("(pad 275)", 3, 1, 6, "64 (both flushes) + 100 (the touch of the return path)", "written for 276"),
    ("(pad 1000001)", 3, 1, 6, "the pad is 1000001; it is at most 1000000", "376 to 1000000"),
    ("(pad 00000000376)", 3, 1, 6, "11 digits", "376 to 1000000"),
    ("(pad " + "9" * 9000 + ")", 3, 1, 6, "9000 digits", "376 to 1000000"),
    (GOOD + "(op 0 (compute 201))", 3, 6, 16, "at most 200", "1 to 200"),
    ("(domain 0 (share 400) (may 9))", 3, 1, 28, "recipient 9", "eight domains"),
    ("(domain 1 (share 400) (may))", 4, 1, 9, "domain 0 is due here", "write 0"),
    (GOOD + "(window 2 (length 5))", 4, 6, 9, "domain 2, which is not declared above", "domains 0 to 1"),
    ("(op 0 (read 3))", 4, 1, 5, "not declared above", "no domain is declared"),
    (GOOD.replace("(may)", "(may 4)"), 4, 3, 28, "recipient 4 is declared nowhere", "domain 4"),
    ("", 5, 1, 1, "no pad, domain, window or run", "(pad 376)"),
    (GOOD.replace("(run 1)\n", ""), 5, 5, 1, "the plan has no run", "add (run 1)"),
    (GOOD + "  (pad 376)", 5, 6, 3, "a second pad; the first is in line 1", "keep one pad"),
    (GOOD.replace("400) (may 1", "33) (may 1"), 6, 2, 18, "domain 0: the share 33 gives no colour", "at least 34"),
    (GOOD.replace("300", "700"), 7, 3, 18, "total 1100, which is 100 over 1000", "100 thousandths less"),
    ("(domain 0 (share 400) (may 0))", 8, 1, 28, "lists itself", "leave 0 out"),
    ("(domain 0 (share 400) (may 1 2 1))", 8, 1, 32, "lists the recipient 1 twice", "leave one 1 out"),
    (LONG, 9, 36, 6, "64000000 ticks 1000 times", "at most (run 67)"),
    (GOOD + "(window 0 (length 400))\n" * 32, 10, 37, 1, "at most 32 windows", "repeat fewer"),
    (GOOD + "(op 1 (read 3))\n" * 257, 10, 262, 1, "domain 1 has at most 256 ops", "take ops out"),
    (GOOD.replace("400", "500", 1).replace("300", "00500"), 16, 3, 18, "16 colours, which is 1 over 15",
     "give domain 1 a share of 499 (8 colours become 7)"),
]


class Refusals(unittest.TestCase):
    def test_each(self):
        for text, number, line, column, words, fix in CASES:
            with self.subTest(text=text[:60]):
                with self.assertRaises(pirkvezo.Refused) as caught:
                    pirkvezo.read(text)
                said = caught.exception
                self.assertEqual((said.number, said.line, said.column), (number, line, column), said)
                self.assertIn(words, said.words)
                self.assertIn(fix, said.fix)
        self.assertEqual({case[1] for case in CASES}, set(range(1, 11)) | {16})

    def test_every_damaged_text_has_words(self):
        chance = random.Random(20)
        refused = 0
        for _ in range(1500):
            text = bytearray(plan_text(chance)[:chance.choice([40, 200, 5000])])
            for _ in range(chance.randint(1, 3)):
                at = chance.randrange(len(text))
                text[at:at + chance.randrange(3)] = chance.choice(
                    [b"(", b")", b" ", b"\n", b"7", b"99999999999", b"pad", bytes([chance.randrange(256)])])
            try:
                pirkvezo.read(bytes(text))
            except pirkvezo.Refused as said:
                refused += 1
                self.assertTrue(said.words and said.fix and said.line >= 1 and said.column >= 1)
                line, caret = excerpt(said.text, said.offset)
                self.assertTrue(caret.endswith("^") and len(caret) <= len(line) + 1)
                self.assertTrue(line.isprintable())
        self.assertGreater(refused, 1000)


if __name__ == "__main__":
    unittest.main()
