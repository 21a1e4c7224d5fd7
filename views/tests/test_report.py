"""`report OBJ [SCRIPT]`: one page, whose parts say what the views say, and which loads nothing."""

import re
from html.parser import HTMLParser

from common import Case, example

VOID = ("meta", "link", "br", "img", "input", "hr")


class Elements(HTMLParser):
    """The elements of a page, each closed in its place, and what its text is."""

    def __init__(self):
        super().__init__()
        self.open, self.faults, self.text, self.attributes = [], [], [], []

    def handle_starttag(self, tag, attrs):
        self.attributes += [(tag, *it) for it in attrs]
        if tag not in VOID:
            self.open.append(tag)

    def handle_startendtag(self, tag, attrs):
        self.attributes += [(tag, *it) for it in attrs]

    def handle_endtag(self, tag):
        if not self.open or self.open.pop() != tag:
            self.faults.append(tag)

    def handle_data(self, data):
        if self.open and self.open[-1] not in ("style", "script"):
            self.text.append(data)


class Page(Case):
    def page(self, *words):
        """The page of these words, with its faults and its text."""
        content = self.written("report", *words).decode("utf-8")
        found = Elements()
        found.feed(content)
        found.close()
        self.assertEqual((found.faults, found.open), ([], []))
        return content, found, re.sub(r"\s+", " ", " ".join(found.text))

    def test_an_object_and_a_script(self):
        script = self.file("port.script", (
            "ipi APU INIT_FINALIZE  # expect answer SUCCESS\nbreak UART_0\n"
            "ipi APU REQUEST_NODE UART_0 ACCESS 0 BLOCKING # expect answer SUCCESS; a <b>port</b> & more\nboot RPU_0 0\nboot RPU 0\n"
        ))  # fmt: skip
        rules = self.file("rules.policy", "never RPU_0 master APU\n")
        content, found, text = self.page("--policy", rules, example("laboratory.obj"), script)
        for part in [
            "Who can reach whom", "may force a processor of it down", "OCM_BANK_0", "Reset lines: 1 can be reached",
            "A rule is broken.", "never RPU_0 master APU", "port.script: 1 of 2 expectations met", "expected answer SUCCESS, and it is INTERNAL",
            "ipi APU REQUEST_NODE UART_0 ACCESS 0 BLOCKING", "APU: internal", "a <b>port</b> & more", "the device refused a command",
            "3 fail 33 0 1", "UART_0 on: refused by the device", "RPU_0 starts at 0x0",
            "boot RPU 0", "it does nothing: RPU is a power node, and no processor", "master 1 1 ", "APU: may suspend",
        ]:  # fmt: skip
            self.assertIn(part, text)
        self.assertIn("<svg", content)
        outside = [it for it in found.attributes if it[1] in ("src", "href", "action", "data") and not it[2].startswith("#")]
        self.assertEqual(outside, [])
        self.assertNotIn("@import", content)
        self.assertNotIn("url(", content)

    def test_what_the_device_has_is_of_another_colour_in_both_schemes(self):
        script = self.file("broken.script", "ipi 1 21\nbreak 33\nipi 1 13 33 1 0 2\n")
        content, _, text = self.page(example("laboratory.obj"), script)
        self.assertEqual(content.count("--device: #"), content.count("--link: #"))
        style = content.partition("</style>")[0]
        self.assertGreater(style.index(".picture svg .device { stroke: var(--device); }"), style.index(".picture svg .wave {"))
        self.assertIn("a command that the device refused", text)

    def test_each_way_leads_to_a_part(self):
        _, found, _ = self.page(example("laboratory.obj"))
        ways = {value[1:] for tag, name, value in found.attributes if (tag, name) == ("a", "href")}
        self.assertEqual(ways, {"reach", "object"})
        self.assertLessEqual(ways, {value for _, name, value in found.attributes if name == "id"})

    def test_its_words(self):
        self.assertIn("report takes an OBJ", self.refused("report"))
        self.assertIn("--policy is the last word", self.refused("report", example("laboratory.obj"), "--policy"))
