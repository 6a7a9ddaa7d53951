"""Looks at a page with Chromium and tidy, where they are installed."""
import html
import json
import os
import pathlib
import re
import shutil
import subprocess
import tempfile

CHROMIUM = ("chromium", "chromium-browser", "google-chrome")
POLICY = re.compile(r'<meta http-equiv="Content-Security-Policy"[^>]*>')
# A window has at least 500 pixels, but a frame may have fewer.
AROUND = """<!DOCTYPE html><title>around</title><script>
addEventListener("message", (it) => document.documentElement.setAttribute("data-measured", it.data));
</script><iframe src="page.html" style="width:{width}px;height:900px;border:0"></iframe>"""
TWO_PARTS = """<!DOCTYPE html><title>report</title><style>
body { margin: 0; display: flex; overflow: hidden; background: #dde2e9; gap: 2px; }
div { width: 749px; height: 1000px; overflow: hidden; }
iframe { width: 1070px; height: 1429px; border: 0; transform: scale(.7); transform-origin: 0 0; }
</style><div><iframe src="report.html"></iframe></div><div><iframe src="report.html#faults"></iframe></div>"""
MEASURED = re.compile(r'data-measured="([^"]*)"')
FIGURE = re.compile(r'<(\w+)[^>]* data-figure="([^"]*)"[^>]*>(.*?)</\1>', re.DOTALL)
# The widths and whether the page is dark.
SCREENS = ((1280, False), (390, False), (1280, True), (390, True))


class Broken(Exception):
    """Something that the page must not have."""


def browser():
    """Returns the name of the browser, or None."""
    return next(filter(shutil.which, CHROMIUM), None)


def load(path, width, is_dark, *words):
    """Loads a page, and returns what the browser writes on its output and on its standard error."""
    with tempfile.TemporaryDirectory() as profile:
        call = [browser(), "--headless", "--disable-gpu", "--hide-scrollbars", "--enable-logging=stderr", f"--user-data-dir={profile}",
                f"--window-size={width},1000", f"--blink-settings=preferredColorScheme={0 if is_dark else 1}"]
        call += ["--no-sandbox"] if os.geteuid() == 0 else []
        done = subprocess.run([*call, *words, path.as_uri()], capture_output=True, text=True, timeout=120, check=False)
    if done.returncode:
        raise Broken(f"{call[0]} ended with status {done.returncode}: {done.stderr[-400:]}")
    return done.stdout, done.stderr


def shown_page(path):
    """Returns the page as the browser has it, and refuses one for which the console says something."""
    page, said = load(path, 1280, False, "--dump-dom")
    console = [line for line in said.splitlines() if ":CONSOLE" in line]
    if console:
        raise Broken(f"the console says {console[0]}")
    return page


def try_layout(path):
    """Measures the page on each screen."""
    script = pathlib.Path(__file__).with_name("measure.js").read_text(encoding="utf-8")
    text = POLICY.sub("", path.read_text(encoding="utf-8")).replace("</body>", f"<script>{script}</script></body>")
    with tempfile.TemporaryDirectory() as folder:
        (pathlib.Path(folder) / "page.html").write_text(text, encoding="utf-8")
        for width, is_dark in SCREENS:
            around = pathlib.Path(folder) / "around.html"
            around.write_text(AROUND.format(width=width), encoding="utf-8")
            try_screen(around, width, is_dark)


def try_screen(around, width, is_dark):
    """Measures a page that measures itself, in a frame as wide as the screen."""
    dom, _ = load(around, 1400, is_dark, "--virtual-time-budget=10000", "--dump-dom")
    measured = MEASURED.search(dom)
    if not measured:
        raise Broken("the page was not measured")
    seen = json.loads(html.unescape(measured[1]))
    screen = f'{seen["width"]} pixels, {"dark" if seen["dark"] else "light"}'
    if (seen["width"], seen["dark"]) != (width, is_dark) or not seen["colours"]:
        raise Broken(f"a screen of {width} pixels was to be measured, not one of {screen}")
    if seen["found"]:
        raise Broken(f'on a screen of {screen}: {"; ".join(seen["found"][:4])}')


def try_tidy(path):
    """Lets tidy read the page. A warning is a fault, too."""
    done = subprocess.run(["tidy", "-e", "-q", str(path)], capture_output=True, text=True, check=False)
    if done.returncode or done.stderr.strip():
        raise Broken(f"tidy says {done.stderr.splitlines()[:2]}")


def figures_shown(page):
    """Returns the figures of a page as the browser has it, which may leave out ends of elements."""
    return {html.unescape(name): html.unescape(re.sub(r"<[^>]*>", "", text)) for _, name, text in FIGURE.findall(page)}


def take_picture(page, path):
    """Writes a picture of two parts of a page: its top, and its charts."""
    with tempfile.TemporaryDirectory() as folder:
        (pathlib.Path(folder) / "report.html").write_text(page, encoding="utf-8")
        around = pathlib.Path(folder) / "around.html"
        around.write_text(TWO_PARTS, encoding="utf-8")
        load(around, 1500, False, "--virtual-time-budget=10000", f"--screenshot={path}")
