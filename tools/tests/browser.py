"""Chromium without a window, driven by selenium, for tests that click; none where a package is missing."""

import shutil
import sys
import tempfile
import unittest

# Where Debian's python3-selenium is, also for another Python than Debian's.
DEBIAN = "/usr/lib/python3/dist-packages"


def _imported():
    try:
        from selenium import webdriver
    except ImportError:
        sys.path.append(DEBIAN)
        try:
            from selenium import webdriver
        except ImportError:
            return None
        finally:
            sys.path.remove(DEBIAN)
    return webdriver


DRIVER = _imported()
LACKING = next((f"{name} isn't there" for name, it in (
    ("selenium", DRIVER), ("chromium", shutil.which("chromium")), ("chromedriver", shutil.which("chromedriver"))) if not it),
    None)


class Browsing(unittest.TestCase):
    """Tests with one browser for all of them."""

    @classmethod
    def setUpClass(cls):
        if LACKING:
            raise unittest.SkipTest(LACKING)
        from selenium.common.exceptions import WebDriverException
        from selenium.webdriver.chrome.service import Service
        cls.room = tempfile.TemporaryDirectory()
        cls.addClassCleanup(cls.room.cleanup)
        options = DRIVER.ChromeOptions()
        options.binary_location = shutil.which("chromium")
        for word in ("--headless=new", "--no-sandbox", "--disable-gpu", "--disable-dev-shm-usage", "--window-size=1300,900",
                     f"--user-data-dir={cls.room.name}/user", "--disable-background-networking", "--no-first-run"):
            options.add_argument(word)
        options.set_capability("goog:loggingPrefs", {"browser": "ALL"})
        try:
            cls.page = DRIVER.Chrome(service=Service(shutil.which("chromedriver")), options=options)
        except (WebDriverException, OSError) as fault:
            raise unittest.SkipTest(f"chromium doesn't start: {fault}") from fault
        cls.addClassCleanup(cls.page.quit)
        cls.page.set_page_load_timeout(60)

    def one(self, what):
        return self.page.find_element("css selector", what)

    def all(self, what):
        return self.page.find_elements("css selector", what)

    def text(self, what):
        return self.one(what).text

    def value(self, script):
        """What a script says of the page."""
        return self.page.execute_script(f"return {script};")

    def eventually(self, what, wanted):
        """What comes to be, within half a minute."""
        from selenium.common.exceptions import TimeoutException, WebDriverException
        from selenium.webdriver.support.ui import WebDriverWait
        try:
            WebDriverWait(self.page, 30, 0.1, (WebDriverException,)).until(lambda _: what() == wanted)
        except TimeoutException:
            self.assertEqual(what(), wanted)

    def complaints(self):
        """What the browser's console complains of."""
        return [it["message"] for it in self.page.get_log("browser") if "favicon" not in it["message"]]
