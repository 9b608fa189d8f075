"""sheet: the page of a capture."""

import base64
import re
import unittest
from html.parser import HTMLParser

import expected
from expected import CAPTURE, SCENES
from harness import CommandTest, png_size_and_texels

DATA = "data:image/png;base64,"


class Page(HTMLParser):
    """What a page has: its text by section, its pictures, and every address that it names."""

    EMPTY = {"meta", "img", "br"}

    def __init__(self, text):
        super().__init__()
        self.open, self.section, self.texts, self.cards = [], "", {}, []
        self.pictures, self.addresses, self.ids = [], [], []
        self.feed(text)
        self.close()
        assert not self.open, self.open

    def handle_starttag(self, tag, attributes):
        attributes = dict(attributes)
        if tag not in self.EMPTY:
            self.open.append(tag)
        if "id" in attributes:
            self.ids.append(attributes["id"])
            self.section = attributes["id"]
        if tag == "figure" and "card" in attributes.get("class", "").split():
            self.cards.append("")
        self.addresses += [attributes[name] for name in ("src", "href") if name in attributes]
        self.addresses += re.findall(r"url\(([^)]*)\)", attributes.get("style", ""))
        if tag == "img":
            self.pictures.append(png_size_and_texels(base64.b64decode(attributes["src"].removeprefix(DATA))))

    def handle_endtag(self, tag):
        assert self.open.pop() == tag, tag

    def handle_data(self, data):
        if "style" not in self.open:
            words = "".join(f"{word} " for word in data.split())
            self.texts[self.section] = self.texts.get(self.section, "") + words
            if self.cards and "figcaption" in self.open:
                self.cards[-1] += words


class Sheet(CommandTest):
    def page(self, *arguments, status=1, **options):
        ran = self.run_command("sheet", *arguments, **options)
        self.assertEqual((ran.status, ran.error, ran.out), (status, "", b""))
        return Page((self.room / arguments[1]).read_text(encoding="utf-8"))

    def test_one_file_without_the_network(self):
        page = self.page(CAPTURE, "sheet.html")
        self.assertEqual(self.names(), ["sheet.html"])
        for address in page.addresses:
            self.assertTrue(address.startswith(DATA) or address.removeprefix("#") in page.ids, address[:60])
        text = (self.room / "sheet.html").read_text(encoding="utf-8")
        self.assertIsNone(re.search(r"https?:|@import|<script|<link", text))

    def test_page_that_a_newcomer_sees_first(self):
        """docs/sheet.html is the page of the drawn capture. Two makers of PNG files may pack one picture in two ways."""
        page = self.page(CAPTURE, "sheet.html")
        made = (self.room / "sheet.html").read_text(encoding="utf-8")
        stored = (expected.ROOT / "docs" / "sheet.html").read_text(encoding="utf-8")
        packed = re.compile(re.escape(DATA) + r"[A-Za-z0-9+/=]*")
        self.assertEqual(packed.sub("", stored), packed.sub("", made))
        self.assertEqual(Page(stored).pictures, page.pictures)

    def test_totals(self):
        page = self.page(CAPTURE, "sheet.html")
        for words in ("drawn.bin", "40 records", "32 pictures", "27 keys", "5 refused"):
            self.assertIn(words, page.texts[""])

    def test_every_picture_has_a_card(self):
        page = self.page(CAPTURE, "sheet.html")
        for card, records in zip(page.cards, expected.GROUPS, strict=True):
            self.assertIn(expected.digest(records[0])[:12], card)
            count = expected.key_and_kept(records[0])[1]
            self.assertIn(f"{count:,} bytes kept", card)
        for card, words in ((0, "16 × 16 I4"), (8, "16 × 16 IA4"), (13, "CI4, colours by palette"), (17, "16 × 16 of 64 × 16 RGBA16")):
            self.assertIn(words, page.cards[card])
        self.assertIn("lookup of 4,096 × 4", page.cards[28])

    def test_pictures_are_what_was_drawn(self):
        page = self.page(CAPTURE, "sheet.html")
        texels = {texels for _, _, texels in page.pictures}
        for name in ("letter T", "letter A", "red bricks", "sign by day", "sign by night", "wall 64 by 64", "sun"):
            self.assertIn(expected.texels(expected.numbered(name)), texels, name)

    def test_lookup_is_folded(self):
        """Each of its four rows to 64 by 64: the first beside the second, and the third beside the fourth below them."""
        page = self.page(CAPTURE, "sheet.html")
        folded = [texels for width, height, texels in page.pictures if (width, height) == (128, 128)]
        rows, step = expected.lookup_rows(expected.numbered("tall of an odd line")), 4 * 64
        halves = zip(rows[::2], rows[1::2])
        lines = [row[place : place + step] for pair in halves for place in range(0, len(rows[0]), step) for row in pair]
        self.assertEqual((len(folded), folded[1]), (3, b"".join(lines)))

    def test_captured_more_than_once(self):
        """The sentence has the count of addresses at which the banks differ; each bank is a picture of 64 by 64."""
        page = self.page(CAPTURE, "sheet.html")
        for numbers, words in (((6, 8), "6 and 8"), ((14, 15, 16), "14, 15 and 16")):
            banks = [expected.bank(number) for number in numbers]
            count = sum(len(set(values)) > 1 for values in zip(*banks))
            said = f"Records {words} have one key. Their banks differ at {count:,} addresses, and the picture reads none of these."
            self.assertIn(said, page.texts["again"])
        self.assertEqual([picture[:2] for picture in page.pictures].count((64, 64)), 5)

    def test_equal_banks_and_more_than_are_shown(self):
        page = self.page("-", "sheet.html", status=0, given=expected.record(0) * 8)
        self.assertIn("Records 0, 1, 2, 3, 4, 5, 6 and 7 have one key. Their banks are equal.", page.texts["again"])
        self.assertIn("and 2 more", page.texts["again"])
        self.assertNotIn("refused", page.texts)

    def test_one_key_several_tile_records(self):
        page = self.page(CAPTURE, "sheet.html")
        self.assertIn("5 tile records have this key, which keeps 512 bytes.", page.texts["key"])
        self.assertIn("2 tile records have this key, which keeps 4,096 bytes.", page.texts["key"])
        self.assertIn("128 × 16 , record 21", page.texts["key"])

    def test_one_key_of_unlike_counts(self):
        """A key of zeros, of two texels and of three."""
        heads = [bytes([4, 1, *bytes(11), width, 0, 1]) for width in (2, 3)]
        page = self.page("-", "sheet.html", status=0, given=b"".join(head + bytes(4096) for head in heads))
        self.assertIn("2 tile records have this key, which keeps 2 to 3 bytes, with its zeros.", page.texts["key"])

    def test_refusals_in_words(self):
        page = self.page(CAPTURE, "sheet.html")
        for number, drawn in enumerate(SCENES):
            if drawn.refusal:
                tile = f"{drawn.fields['width']} × {drawn.fields['height']}, line {drawn.fields['line']}"
                words = expected.WORDS[drawn.refusal].partition(": ")[2]
                self.assertRegex(page.texts["refused"], rf"\b{number} [^(]*{re.escape(tile)}[^(]*{re.escape(words)} \({drawn.refusal}\)")

    def test_any_tile_record(self):
        """Every byte of a tile record can be anything; a page is made all the same."""
        heads = [bytes([255] * 16), bytes(16), bytes([7, 3, 15, 3, 3, 3, 15, 15, 1, 255, 1, 255, 0, 2, 0, 2])]
        page = self.page("-", "sheet.html", given=b"".join(head + bytes(4096) for head in heads))
        self.assertIn("format 255, size 255, mode 255", page.texts["refused"])

    def test_names_are_shown_as_they_are(self):
        self.write("<b>&.bin", expected.record(0))
        self.assertIn("<b>&.bin", self.page("<b>&.bin", "sheet.html", status=0).texts[""])

    def test_standard_output(self):
        ran = self.run_command("sheet", CAPTURE, "-")
        self.run_command("sheet", CAPTURE, "sheet.html")
        self.assertEqual(ran.out, (self.room / "sheet.html").read_bytes())

    def test_no_record(self):
        page = self.page("-", "sheet.html", status=0)
        self.assertIn("0 records", page.texts[""])
        self.assertEqual(page.pictures, [])


if __name__ == "__main__":
    unittest.main()
