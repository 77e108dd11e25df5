"""The page and the editor in Chromium: clicks, keys, narrow and wide, light and dark, and what a screen reader gets."""

import os
import re
import shutil
import subprocess
import threading
import unittest
from unittest import mock

import examples
from browser import Browsing
from koat_tools import serve
from test_command import STAND_IN, shown

# The texts that are shown with less contrast than WCAG 2 asks for (4.5, or 3 for large ones), with their contrast.
CONTRAST = r"""(() => {
  const parts = (text) => (text.match(/[\d.]+/g) ?? [0, 0, 0, 0]).map(Number);
  const over = (top, below) => [0, 1, 2].map((at) => top[at] * (top[3] ?? 1) + below[at] * (1 - (top[3] ?? 1)));
  const light = (colour) => {
    const [red, green, blue] = colour.map((it) => it / 255).map(
      (it) => (it <= 0.03928 ? it / 12.92 : ((it + 0.055) / 1.055) ** 2.4));
    return 0.2126 * red + 0.7152 * green + 0.0722 * blue;
  };
  const dark = matchMedia("(prefers-color-scheme: dark)").matches;
  const found = [];
  for (const one of document.querySelectorAll("body *")) {
    const text = [...one.childNodes].filter((it) => it.nodeType === 3).map((it) => it.textContent.trim()).join("");
    if (!text || !one.getClientRects().length || one.closest("script, style, noscript, .unseen, [aria-hidden=true]")) continue;
    const style = getComputedStyle(one), isDrawn = one.ownerSVGElement !== null && one.ownerSVGElement !== undefined;
    let share = 1;
    const papers = [];
    for (let at = one; at; at = at.parentElement) {
      share *= Number(getComputedStyle(at).opacity);
      papers.unshift(parts(getComputedStyle(at).backgroundColor));
    }
    const paper = papers.reduce((below, top) => over(top, below), dark ? [18, 18, 18] : [255, 255, 255]);
    const ink = parts(isDrawn ? style.fill : style.color);
    const told = over([...ink.slice(0, 3), (ink[3] ?? 1) * share], paper);
    const [less, more] = [light(told), light(paper)].sort((first, second) => first - second);
    const size = parseFloat(style.fontSize), wanted = size >= 24 || (size >= 18.66 && Number(style.fontWeight) >= 700) ? 3 : 4.5;
    const contrast = (more + 0.05) / (less + 0.05);
    if (contrast < wanted && (ink[3] ?? 1) > 0) found.push(`${text.slice(0, 30)}: ${contrast.toFixed(2)}`);
  }
  return found;
})()"""

# What tidy's check of accessibility finds; what it only reminds of (`ensure`, `require`) isn't a finding.
FINDING = re.compile(r"Access: \[[0-9.]+\]: (?!ensure|.*(?:require|remove flicker|noscript|associate labels explicitly with "
                     r"form controls \(id\)|new windows)).*")


class Page(Browsing):
    def open(self, name, *words, width=1300):
        """Opens the page of an example, which is made once; its path."""
        path = os.path.join(self.room.name, f"{name}{''.join(words)}.html")
        if not os.path.exists(path):
            picture = () if shutil.which("dot") else ("--without-picture",)
            with open(path, "w", encoding="utf-8") as file:
                file.write(shown("page", examples.path(name), *picture, *words)[1])
        self.page.set_window_size(width, 900)
        self.page.get(f"file://{path}")
        return path

    def press(self, *keys):
        from selenium.webdriver.common.keys import Keys
        for key in keys:
            self.page.switch_to.active_element.send_keys(getattr(Keys, key))

    def test_a_run_by_clicks_and_keys(self):
        self.open("gcd")
        self.one("[data-step=on]").click()
        self.assertTrue(self.text("#state").startswith("step 1 of 7, by rule 1: at loop, A = 10, B = 7"))
        self.one("[data-step=last]").click()
        self.assertEqual(self.text("#state"), "step 7 of 7, by rule 4: at stop, x1 = 1, x2 = 1")
        self.assertEqual([it.text for it in self.all(".run .uses")], ["7", "1", "3", "2", "1"])
        self.assertEqual([it.text for it in self.all(".run .most")], ["19", "1", "10", "7", "1"])
        self.one("#step").click()
        self.press("HOME", "ARROW_RIGHT", "ARROW_RIGHT", "ARROW_LEFT")
        self.assertTrue(self.text("#state").startswith("step 1 of 7"))
        self.assertEqual(self.complaints(), [])

    def test_values_follow_the_inputs(self):
        self.open("gcd")
        field = self.one("#input-1")
        field.clear()
        field.send_keys("-30")
        self.assertEqual(self.text("[data-label=total] .value"), "39")
        self.one("#slider-2").send_keys("\ue010")
        self.assertEqual(self.value("document.getElementById('input-2').value"), "100")
        self.assertEqual(self.text("[data-label=total] .value"), "132")
        field.send_keys("x")
        self.assertIn(self.text("[data-label=total] .value"), ("132", "?"))

    @unittest.skipUnless(shutil.which("dot"), "dot isn't there")
    def test_an_arrow_leads_to_its_rule(self):
        self.open("gcd")
        self.one("#edge-3 text").click()
        self.eventually(lambda: self.value("document.activeElement.id"), "rule-3")

    def test_folds_and_reasons(self):
        self.open("unequal")
        self.one("[data-fold=close]").click()
        self.assertEqual(len(self.all(".rule details[open]")), 0)
        self.one("[data-fold=open]").click()
        self.assertEqual(len(self.all(".rule details:not([open])")), 0)
        self.one(".rule.missing .unknown a").click()
        self.eventually(lambda: self.value("document.querySelector(':target').id"), "why-time-3")

    def test_nothing_is_wider_than_the_window(self):
        for width in (1300, 700, 500):
            self.open("gcd", width=width)
            self.assertFalse(self.value("document.documentElement.scrollWidth > innerWidth"), width)
        self.page.execute_cdp_cmd("Emulation.setDeviceMetricsOverride",
                                  {"width": 340, "height": 700, "deviceScaleFactor": 1, "mobile": True})
        self.addCleanup(self.page.execute_cdp_cmd, "Emulation.clearDeviceMetricsOverride", {})
        self.assertFalse(self.value("document.documentElement.scrollWidth > innerWidth"))

    def test_contrast_in_light_and_in_dark(self):
        self.addCleanup(self.page.execute_cdp_cmd, "Emulation.setEmulatedMedia", {})
        for name, words in (("unequal", ()), ("flag", ("--facts",))):
            self.open(name, *words)
            for scheme in ("light", "dark"):
                self.page.execute_cdp_cmd("Emulation.setEmulatedMedia",
                                          {"features": [{"name": "prefers-color-scheme", "value": scheme}]})
                self.assertEqual(self.value(CONTRAST), [], (name, scheme))

    def test_each_control_has_its_name_for_a_screen_reader(self):
        self.open("gcd")
        self.one("[data-fold=open]").click()
        lacking = [it.get_attribute("outerHTML") for it in self.all("button, input, summary, a[href], [role], section")
                   if it.is_displayed() and not it.accessible_name]
        self.assertEqual(lacking, [])
        headings = [int(it.tag_name[1]) for it in self.all("h1, h2, h3")]
        self.assertEqual([one for one, next_one in zip(headings, headings[1:]) if next_one > one + 1], [])

    def test_the_keyboard_gets_to_the_rules_at_once(self):
        self.open("gcd")
        self.press("TAB", "ENTER")
        self.eventually(lambda: self.value("location.hash"), "#rules")

    @unittest.skipUnless(shutil.which("tidy"), "tidy isn't there")
    def test_what_tidy_finds(self):
        paths = [self.open("gcd")]
        paths.append(os.path.join(self.room.name, "editor.html"))
        with open(paths[-1], "w", encoding="utf-8") as file:
            file.write(serve.editor("nonce"))
        for path in paths:
            ran = subprocess.run(["tidy", "-e", "-q", "--accessibility-check", "2", path], stderr=subprocess.PIPE,
                                 text=True, check=False)
            found = [it for it in ran.stderr.splitlines() if FINDING.search(it) or "Error:" in it or (
                "Warning:" in it and not re.search("<a> proprietary|<svg> attribute|(nonce|autoc[a-z]*)\"$", it))]
            self.assertEqual(found, [])


class Editor(Browsing):
    def setUp(self):
        patched = mock.patch.dict(os.environ, {"KOAT": STAND_IN})
        patched.start()
        self.addCleanup(patched.stop)
        self.server = serve.Server(0, 30, 500)
        threading.Thread(target=self.server.serve_forever, daemon=True).start()
        self.addCleanup(self.server.server_close)
        self.addCleanup(self.server.shutdown)
        self.page.set_window_size(1300, 900)
        self.page.get(self.server.address)

    def of_page(self, what):
        """A text of the page that stands beside the editor."""
        self.page.switch_to.frame(self.one("iframe:not(.coming)"))
        try:
            return self.text(what)
        finally:
            self.page.switch_to.default_content()

    def choose(self, field, text):
        from selenium.webdriver.support.ui import Select
        Select(self.one(field)).select_by_visible_text(text)

    def test_examples_and_commands(self):
        self.eventually(lambda: self.text("#said"), "bounded: WORST_CASE(?, O(n^1))")
        self.eventually(lambda: self.of_page("[data-label=total] .bound"), "A + B + 2")
        self.choose("#by", "analyse")
        self.choose("#example", "triangle")
        self.eventually(lambda: self.text("#said"), "bounded: WORST_CASE(?, O(n^2))")
        self.eventually(lambda: self.of_page("[data-label=total] .bound"), "2*N^2 + 2*N + 1")
        self.assertEqual(self.text("#back .comment"), "(COMMENT for i from N down to 1: for j from i down to 1)")
        self.assertEqual(self.text("#lines").split(), [str(it) for it in range(1, 10)])
        self.assertEqual(self.complaints(), [])

    def test_a_refusal_is_marked_as_one_types(self):
        self.eventually(lambda: self.text("#said"), "bounded: WORST_CASE(?, O(n^1))")
        self.page.execute_script("document.getElementById('text').value = ''")
        self.one("#text").send_keys("(RULES\n (f")
        self.eventually(lambda: self.text("#said").partition(":")[0], "Line 2, column 2")
        self.assertEqual(self.text("mark.here"), "(")
        self.assertIn("earlier", self.one("#beside").get_attribute("class"))
        self.one("#there").click()
        self.assertEqual(self.value("text.value.slice(text.selectionStart, text.selectionEnd)"), "(")

    def test_a_link_has_the_program_in_it(self):
        self.eventually(lambda: self.text("#said"), "bounded: WORST_CASE(?, O(n^1))")
        self.choose("#example", "doubling")
        self.one("#link").click()
        address = self.page.current_url
        self.assertIn("#", address)
        self.page.get("about:blank")
        self.page.get(address)
        self.eventually(lambda: self.text("#said"), "bounded: WORST_CASE(?, O(EXP))")
        self.assertEqual(self.value("text.value"), examples.text("doubling", ".koat"))

    def test_hostile_texts_stay_texts(self):
        evil = "<img src=x onerror=alert(1)><script>alert(1)</script>"
        self.page.execute_script("text.value = arguments[0]; changed(); ask();", evil)
        self.eventually(lambda: self.text("#said").partition(":")[0], "Line 1, column 52")
        self.assertEqual((self.text("#back").strip(), len(self.all("#back img, #back script"))), (evil, 0))
        self.page.execute_script("text.value = arguments[0].repeat(30000); changed();", "f(A) -> f(A)\n")
        self.assertNotIn("coloured", self.one(".editor").get_attribute("class"))

    def test_contrast(self):
        self.addCleanup(self.page.execute_cdp_cmd, "Emulation.setEmulatedMedia", {})
        self.eventually(lambda: self.text("#said"), "bounded: WORST_CASE(?, O(n^1))")
        for scheme in ("light", "dark"):
            self.page.execute_cdp_cmd("Emulation.setEmulatedMedia",
                                      {"features": [{"name": "prefers-color-scheme", "value": scheme}]})
            self.assertEqual(self.value(CONTRAST.replace(", [aria-hidden=true]", "")), [], scheme)
