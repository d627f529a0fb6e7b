"""The editors' files: that they can be read, and know the words of the language."""
import json
import re
import unittest

from pages import text_of

VIM, CODE = ("tools", "editors", "vim"), ("tools", "editors", "vscode")
# What `rt` writes of a place, as the pages of the kit show it.
MESSAGE = "src/lib.rt:12:5: error: a goal is open"


class Editors(unittest.TestCase):
    def test_the_extensions_files_are_there_and_json(self):
        contributes = json.loads(text_of(*CODE, "package.json"))["contributes"]
        parts = contributes["languages"] + contributes["grammars"]
        named = [one.get("configuration") or one["path"] for one in parts]
        for path in named:
            json.loads(text_of(*CODE, *path.split("/")[1:]))

    def test_messages_are_read(self):
        pattern = json.loads(text_of(*CODE, "package.json"))["contributes"]["problemMatchers"][0]["pattern"]
        read = re.match(pattern["regexp"], MESSAGE)
        parts = [read[pattern[part]] for part in ("file", "line", "column", "severity", "message")]
        self.assertEqual(parts, ["src/lib.rt", "12", "5", "error", "a goal is open"])
        self.assertIn("%f:%l:%c:", text_of(*VIM, "compiler", "rattle.vim"))

    def test_both_know_the_same_words(self):
        patterns = json.loads(text_of(*CODE, "syntaxes", "antt.json"))["patterns"]
        of_code = [set(re.findall(r"\w{2,}", one["match"].strip("\\b"))) for one in patterns if "|" in one["match"]]
        lines = re.findall(r"^syntax keyword \w+ (.*)$", text_of(*VIM, "syntax", "antt.vim"), re.MULTILINE)
        of_vim = [set(words.split()) for words in lines]
        self.assertEqual(of_code, of_vim)


if __name__ == "__main__":
    unittest.main()
