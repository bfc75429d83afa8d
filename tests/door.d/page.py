"""The pages, in a browser without a head: what they say when they are opened, and that nothing is fetched."""
import html
import os
import re

from common import Test, cases, log_of, made, run, twin

from door import registers


def opened(path):
    """The page's document as chromium has it after it was opened."""
    done = run(["chromium", "--headless", "--no-sandbox", "--disable-gpu", "--disable-dev-shm-usage", "--virtual-time-budget=2000",
                "--dump-dom", "file://" + path.replace("%", "%25").replace("#", "%23").replace("?", "%3F")])
    return done.out


def words_of(page):
    """A page's words, without its marks."""
    page = re.sub(r"(?s)<(style|script)\b.*?</\1>", "", page)
    return html.unescape(re.sub(r"<[^>]*>", " ", page))


class Page(Test):
    def alone(self, text):
        """The page is whole: it fetches nothing, and runs nothing."""
        for reference in re.findall(r"(?:https?:|ftp:|//)[^\s\"'<>]+", text):
            self.assertIn("www.w3.org", reference)
        self.assertEqual([], re.findall(r"(?i)<(?:link|iframe|object|embed|img|base)\b", text))
        self.assertEqual([], re.findall(r"(?i)@import|url\((?!#)", text))
        self.assertEqual([], re.findall(r"(?i)<script\b[^>]*\bsrc", text))


class Checks(Page):
    def page(self, log, status, name="board.log"):
        path = os.path.join(self.room, "page.html")
        done = twin("check", "--html", path, self.put(name, log))
        self.assertStatus(status, done)
        with open(path, encoding="utf-8") as file:
            text = file.read()
        self.alone(text)
        return text, opened(path)

    def test_a_board_that_fails(self):
        case = next(case for case in cases() if case.name == "sid2-reopened")
        text, seen = self.page(log_of(case.session, case.name), 1)
        said = words_of(seen)
        for word in ("SVID2", "SID2", "SWSCI.15", "PASSED", "FAILED", "NOT TESTED", "NOT MODELLED", "R 2C F", "FFFF1234", "ABCD1234"):
            self.assertIn(word, said)
        self.assertRegex(said, r"(?si)every answer of the twin is proved.*tested")
        for lock in ("SVID2", "SID2", "SWSCI.15"):
            self.assertRegex(seen, rf'role="img" aria-label="{lock}: ')
        self.assertNotIn("http:", text)
        self.assertNotIn("https:", text)

    def test_what_comes_from_the_log_is_only_text(self):
        name = "<img src=x onerror=alert(1)>&amp;.log"
        text, seen = self.page("W 2C 3 00001234\nR 2C 3 = 1234\n", 0, name)
        self.assertNotIn("<img", text)
        self.assertIn("<img src=x onerror=alert(1)>&amp;.log", words_of(seen))
        self.assertIn("PASSED", words_of(seen))

    def test_a_long_log(self):
        log = log_of("".join(made(seed, 4000) for seed in range(3)), "lanes-ignored")
        path = os.path.join(self.room, "page.html")
        self.assertStatus(1, twin("check", "--html", path, self.put("long.log", log)))
        with open(path, encoding="utf-8") as file:
            self.alone(file.read())
        self.assertLess(os.path.getsize(path), 3000000)
        self.assertIn("FAILED", words_of(opened(path)))


class Map(Page):
    def test_the_map(self):
        path = os.path.join(self.room, "map.html")
        self.assertStatus(0, twin("map", "--html", path))
        with open(path, encoding="utf-8") as file:
            self.alone(file.read())
        seen = opened(path)
        for register in registers.REGISTERS:
            self.assertIn(register.name, seen)
        for kind in registers.KINDS:
            self.assertIn(kind, words_of(seen))

    def test_the_picture(self):
        seen = opened(os.path.join(os.path.dirname(os.path.abspath(__file__)), "..", "..", "docs", "map.svg"))
        for kind in registers.KINDS:
            self.assertIn(kind, words_of(seen))
