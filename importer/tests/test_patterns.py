"""Each pattern of the package takes a time that grows in line with the text."""

import unittest

from importer.tests.patterns import Refused, package_patterns, refuse

# A pattern, and whether texts are searched for it.
REFUSED = (
    ("a*a*", False), ("a+a+b", False), ("(a*)*", False), ("(a+)+b", False), ("(?:a|ab*)*b*", False), ("[a-z]*[a-m]+", False),
    ("a*b?a*", False), ("(?:a+b?)+c", False), ("a*aa*", False), (".*,.*", False), ("(?:a*|b)*c", False), (r"\w+\d*", False),
    ("a*(?=a*b)", False), ("(a{1,1000}){1,1000}", False), ("a*(?:b|a+)c", False), (" *(?: +x)?", False),
    ("a*b", True), (" +(?=x)", True), (r"\[[^\]]*\]", True), ("x?[a-z]+:", True), (r"(?<=a)a*b", True), ("(?:ab)*c", True), ("x(?:y)+[xyz]*w", True),
)
ACCEPTED = (
    ("a*b*", False), ("a+ba+", False), ("[a-z]+(?:-[a-z]+)*", False), (r"\[[^\[\]]*\]", True), ("a*", True), ("[A-Za-z]+", True),
    ("^a*b", True), (r"(?<= )a*b", True), ("-a*b", True), (r" \(([^()]*)\)(?=$|  )", True), ("(?: [^ ]+){0,2}  ", False),
    ("a?a?a?", False), ("[0-9]{1,4}", False), (".*>$", False), ("<[^<>]*>|[^ ]*", False), ("[^ ]*,(?= |$)", False),
    ("a*(?!b)c", False), ("(?=a*)[a-c]*", False), (r"\\x1b\[[ -?]*[@-~]?", True), ("(a|b)+c", False), (" +|x", True),
)


class Patterns(unittest.TestCase):
    def test_refused(self):
        for pattern, is_searched in REFUSED:
            with self.subTest(pattern), self.assertRaises(Refused):
                refuse(pattern, 0, is_searched)

    def test_accepted(self):
        for pattern, is_searched in ACCEPTED:
            with self.subTest(pattern):
                refuse(pattern, 0, is_searched)

    def test_package(self):
        found = list(package_patterns())
        self.assertGreater(len(found), 60)
        for place, pattern, flags, is_searched in found:
            with self.subTest(place, pattern=pattern):
                refuse(pattern, flags, is_searched)
