"""Scripts on their happy path and each refusal, beside the texts that the cases have: python3 -m unittest"""

import inspect
import unittest
from pathlib import Path

from universal.text import HISTORY, BadScript, Svg, TooLong, draw, lines, replay

CASES = Path(__file__).parent.parent.parent / "crates" / "cases" / "data"
with_cases = unittest.skipUnless(CASES.parent.is_dir(), "the stored scripts are in the repository")
SCRIPT = "universal 1 queue 2 8\ncall 0 enq 10\nstep 0 10\nfinish 0\nlog\n"


def text_of(path):
    return path.read_bytes().decode()


class Scripts(unittest.TestCase):
    def test_replay(self):
        answers = "called 0.0\ngoing 0.0 steps 10 turns 1\nreturned 0.0 ok steps 16 turns 1\n2 0.0 enq 10 -> ok\nend\n"
        self.assertEqual(replay(SCRIPT), answers)
        # a call of one of two processes asks for 10 * 2 + 13 events
        for history in [33, 1 << 24]:
            self.assertEqual(replay(SCRIPT, history), answers)
        self.assertEqual(replay(SCRIPT, history=32), "refused history\nrefused idle 0\nrefused idle 0\nend\n")

    def test_history_where_none_is_told(self):
        self.assertEqual(HISTORY, 1_048_576)
        self.assertEqual(inspect.signature(replay).parameters["history"].default, HISTORY)

    def test_a_limit(self):
        answers = replay(SCRIPT)
        self.assertEqual(replay(SCRIPT, limit=len(answers)), answers)
        for call in [replay, draw, lines]:
            with self.assertRaises(TooLong) as raised:
                call(SCRIPT, limit=10)
            self.assertEqual(raised.exception.needed, len(str(call(SCRIPT))))

    def test_bad_history(self):
        for history in [0, (1 << 24) + 1, -1, 1 << 64]:
            with self.assertRaises(ValueError) as raised:
                replay(SCRIPT, history)
            self.assertNotIsInstance(raised.exception, BadScript)

    def test_bad_scripts(self):
        for call in [replay, draw, lines]:
            for script, fault in [("", "line 1: no header"), ("universal 1 queue 2 8\né\n", "line 2: bad byte")]:
                with self.assertRaises(BadScript) as raised:
                    call(script)
                self.assertEqual(str(raised.exception), fault)

    def test_too_many_events(self):
        script = "universal 1 queue 1 1000\n" + "call 0 enq 1\nfinish 0\n" * 150
        self.assertTrue(replay(script).endswith("end\n"))
        for call in [draw, lines]:
            with self.assertRaises(BadScript) as raised:
                call(script)
            self.assertEqual(str(raised.exception), "too many events for a picture: at most 2000")

    def test_a_picture_shows_in_a_notebook(self):
        picture = draw(SCRIPT)
        self.assertIsInstance(picture, Svg)
        self.assertTrue(picture.text.startswith("<svg ") and picture.text.endswith("</svg>\n"))
        self.assertEqual((picture._repr_svg_(), str(picture)), (picture.text, picture.text))

    @with_cases
    def test_the_scripts_of_the_course(self):
        scripts = sorted((CASES / "course").glob("*.script"))
        self.assertEqual(len(scripts), 23)
        for path in scripts:
            with self.subTest(path.stem):
                script = text_of(path)
                self.assertEqual(replay(script), text_of(path.with_suffix(".answers")))
                self.assertEqual(draw(script).text, text_of(path.with_suffix(".svg")))

    @with_cases
    def test_scripts_with_a_fault(self):
        faults = sorted((CASES / "faults").glob("*.fault"))
        self.assertGreater(len(faults), 10)
        for path in faults:
            script = path.with_suffix(".script")
            if path.with_suffix(".lines").exists() or path.with_suffix(".words").exists():
                continue
            with self.subTest(path.stem):
                with self.assertRaises(BadScript) as raised:
                    replay(text_of(script) if script.exists() else "")
                self.assertEqual(str(raised.exception) + "\n", text_of(path))


if __name__ == "__main__":
    unittest.main()
