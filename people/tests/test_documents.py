"""Documents: what plain words of YAML are, the one spelling of numbers, and what is refused."""
import unittest

import beside  # noqa: F401
from ssabench_people.documents import compact, parse_documents, parse_json, tidy, to_yaml
from ssabench_people.refusal import Refusal

WORDS = [  # what Kubernetes' reader of YAML makes of a plain word
    ("yes", True), ("y", True), ("On", True), ("n", False), ("FALSE", False), ("null", None), ("~", None), ("", None),
    ("8:30", "8:30"), ("2024-05-01", "2024-05-01"), ("2024-05-01T08:00:00Z", "2024-05-01T08:00:00Z"),
    ("0644", 420), ("0x1f", 31), ("0b11", 3), ("-7", -7), ("1_000", 1000), ("+5", 5), ("0", 0), ("0o17", 15),
    ("1e3", 1000), ("1.50", 1.5), (".5", 0.5), ("-1.5e-3", -0.0015), ("1.", 1), ("1.2.3", "1.2.3"), ("v1", "v1"),
    ("09", 9), ("=", "="), ("12e", "12e"), ("0xg", "0xg"),
]  # fmt: skip
NUMBERS = [
    ("1.0", "1"), ("1e2", "100"), ("-0.0", "0"), ("-0", "0"), ("0.10", "0.1"), ("9223372036854775807", "9223372036854775807"),
    ("9223372036854775808", "9.223372036854776e+18"), ("1e400", None), ("-9223372036854775808", "-9223372036854775808"),
    ("1e-7", "1e-07"), ("15e-1", "1.5"),
]  # fmt: skip


class Documents(unittest.TestCase):
    def test_plain_words_of_yaml(self):
        for word, value in WORDS:
            with self.subTest(word=word):
                (document,) = parse_documents(f"a: {word}\n", "x")
                self.assertEqual(compact(document["a"]), compact(value))

    def test_numbers_have_one_spelling(self):
        for text, spelling in NUMBERS:
            with self.subTest(text=text):
                if spelling is None:
                    self.assertRaises(Refusal, parse_json, text)
                else:
                    self.assertEqual(compact(parse_json(text)), spelling)
                    self.assertEqual(compact(parse_json(spelling)), spelling)

    def test_names_of_members_are_texts(self):
        (document,) = parse_documents("1: a\ntrue: b\n1.5: c\n", "x")
        self.assertEqual(document, {"1": "a", "true": "b", "1.5": "c"})

    def test_several_documents_and_lists(self):
        text = "a: 1\n---\n---\nkind: List\nitems:\n- b: 2\n- c: 3\n"
        self.assertEqual(parse_documents(text, "x"), [{"a": 1}, {"b": 2}, {"c": 3}])
        self.assertEqual(parse_documents("", "x"), [])

    def test_what_is_neither_json_nor_yaml_is_told_with_its_place(self):
        with self.assertRaisesRegex(Refusal, r"x: neither JSON nor YAML at line 2, column \d"):
            parse_documents("a: 1\nb: ]\n", "x")
        for text in ("a: .nan", "a: !!python/object:os.system {}", "{a: {[1]: 2}}"):
            self.assertRaises(Refusal, parse_documents, text, "x")

    def test_half_a_pair_of_surrogates_is_refused(self):
        self.assertRaises(Refusal, parse_json, '"\\ud800"')
        self.assertRaises(Refusal, parse_json, '{"\\udc00":1}')
        self.assertEqual(parse_json('"\\ud83d\\ude00"'), "\U0001f600")

    def test_what_is_written_as_yaml_is_read_as_the_same(self):
        values = [word for word, _ in WORDS] + ["a\nb\n", "a\n\n b", " a", "a ", "- a", "#", "é", "\t", "a: b", "'", '"', "\x07"]
        values += [True, None, 0.5, 10**15, [], {}, [[]], {"a b": {"": 1}}]
        self.assertEqual(parse_documents(to_yaml({"values": values}), "x"), [{"values": tidy(values)}])


if __name__ == "__main__":
    unittest.main()
