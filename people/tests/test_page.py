"""The page that `view` writes, in headless Chromium: for a Deployment with four managers, and for a bench near the limit of paths.

A script that is put at the page's end presses keys and buttons and notes what then stands there. Where Chromium or jinja2 can't be
had, these tests say so. A folder that SSABENCH_SCREENSHOTS names gets pictures of the pages, in light and dark.
"""
import functools
import html
import importlib.util
import json
import os
import re
import shutil
import subprocess
import sys
import tempfile
import unittest

import beside  # noqa: F401
import largest
from test_speed import run

HERE = os.path.dirname(os.path.realpath(__file__))
AT_MOST = 3000  # milliseconds that something on the page may take on a machine with much other work: ten times an idle one's
ROWS = 1300  # that stand on the page at once, whatever was opened

DEPLOYMENT = """
const way = (row) => row.dataset.way;
const rows = () => [...document.querySelectorAll("#tree .row")];
const row = (name) => rows().find((one) => way(one) === name);
const marks = (name) => [...row(name).querySelectorAll(".mark")].map((one) => one.title);
const lit = () => rows().filter((one) => one.classList.contains("lit")).map(way);
const key = (name, at) => (at || document.activeElement || document.body).dispatchEvent(new KeyboardEvent("keydown", {key: name, bubbles: true, cancelable: true}));
const buttons = [...document.querySelectorAll("#managers button")];
const changes = () => [...document.querySelectorAll("#changes li")].map((one) => one.textContent.trim().replace(/\\s+/g, " "));
const step = () => document.getElementById("step").textContent;
note("ways", rows().map(way));
note("managers", buttons.map((one) => one.textContent.trim()));
note("marks", [".spec.replicas", '.spec.template.spec.containers[name="app"]', '.spec.template.spec.containers[name="log"].name'].map(marks));
note("resources", performance.getEntriesByType("resource").length);
buttons[3].dispatchEvent(new MouseEvent("mouseenter"));
note("hovered", lit());
buttons[3].dispatchEvent(new MouseEvent("mouseleave"));
note("left", lit());
buttons[2].click();
note("pressed", [lit(), buttons[2].getAttribute("aria-pressed")]);
key("2", document.body);
note("second", lit());
key("Escape", document.body);
note("escaped", lit());
note("step two", [step(), changes(), document.querySelector("#slider").max]);
key("[", document.body);
note("step one", [step(), changes(), row(".spec.replicas").querySelector(".value").textContent, row(".spec.replicas").classList.contains("changed")]);
const slider = document.getElementById("slider");
slider.value = 0;
slider.dispatchEvent(new Event("input"));
note("step none", [step(), changes(), row(".spec.replicas").querySelector(".value").textContent, marks(".spec.replicas")]);
key("]", document.body);
key("]", document.body);
key("]", document.body);
note("step last", step());
row(".spec").focus();
key("ArrowLeft");
note("closed", [rows().map(way), row(".spec").getAttribute("aria-expanded"), row(".spec").classList.contains("changed"), way(document.activeElement)]);
key("ArrowRight");
key("ArrowDown");
note("moved", way(document.activeElement));
key("ArrowLeft");
note("back", way(document.activeElement));
document.getElementById("close-all").click();
document.querySelector(".conflict button").click();
note("conflict", [way(document.activeElement), document.activeElement.classList.contains("in-conflict")]);
note("manifest", document.querySelector(".manifest").innerText.replace(/\\s+/g, " ").trim());
"""

LARGEST = """
const timed = (name, what) => { const begun = performance.now(); what(); document.body.offsetHeight; note(name, [Math.round(performance.now() - begun), document.querySelectorAll("#tree .row").length]); };
note("first", [Math.round(performance.now()), document.querySelectorAll("#tree .row").length]);
timed("back", () => document.getElementById("back").click());
timed("on", () => document.getElementById("on").click());
timed("lit", () => document.querySelector("#managers button").click());
timed("open all", () => document.getElementById("open-all").click());
timed("lit", () => document.querySelectorAll("#managers button")[1].click());
timed("wide", () => show(".spec.wide.w999"));
note("shown", document.activeElement.dataset.way);
const box = document.activeElement.getBoundingClientRect();
note("seen", document.elementFromPoint(box.left + 40, box.top + 5).closest(".row").dataset.way);
timed("slider", () => { document.getElementById("slider").value = 1; document.getElementById("slider").dispatchEvent(new Event("input")); });
timed("close all", () => document.getElementById("close-all").click());
"""

NOTES = """
<script>
const notes = {};
const note = (name, value) => { notes[name] = value; };
try { %s } catch (fault) { notes.fault = String(fault.stack); }
const told = document.createElement("pre");
told.id = "notes";
told.textContent = JSON.stringify(notes);
document.body.append(told);
</script>
</body>
"""


@functools.cache
def missing():
    """What a test of the page needs and can't be had; None where all is there."""
    if importlib.util.find_spec("jinja2") is None:
        return "the page was not tried: it needs jinja2 (apt-get install python3-jinja2)"
    if chromium() is None:
        return "the page was not tried: it needs Chromium (apt-get install chromium)"
    with tempfile.TemporaryDirectory(prefix="ssabench-chromium-", ignore_cleanup_errors=True) as folder:
        try:
            browser(folder, "--dump-dom", "about:blank")
        except (OSError, subprocess.SubprocessError) as fault:
            return f"the page was not tried: Chromium doesn't run here ({fault})"
    return None


@functools.cache
def chromium():
    names = ("chromium", "chromium-browser", "google-chrome")
    return next((path for path in map(shutil.which, names) if path), None)


def browser(folder, *words):
    """What Chromium prints, with a profile of its own in a folder."""
    common = ("--headless", "--no-sandbox", "--disable-gpu", "--disable-dev-shm-usage", f"--user-data-dir={folder}/profile")
    words = [chromium(), *common, "--window-size=1400,1000", *words]
    return subprocess.run(words, capture_output=True, text=True, timeout=120, check=True).stdout


class Page(unittest.TestCase):
    maxDiff = None

    def setUp(self):
        if missing():
            print(f"\n{missing()}", file=sys.__stderr__)
            self.skipTest(missing())
        folder = tempfile.TemporaryDirectory(prefix="ssabench-page-", ignore_cleanup_errors=True)
        self.addCleanup(folder.cleanup)
        self.folder = folder.name

    def notes(self, page, script):
        """What a script at the end of a page notes."""
        path = os.path.join(self.folder, "tried.html")
        with open(path, "w", encoding="utf-8") as file:
            file.write(page.replace("</body>", NOTES % script))
        shown = browser(self.folder, "--dump-dom", f"file://{path}")
        found = json.loads(html.unescape(re.search(r'<pre id="notes">(.*?)</pre>', shown, re.DOTALL).group(1)))
        self.assertNotIn("fault", found, found.get("fault"))
        return found

    def pictures(self, name, page):
        """Pictures of a page, where they are asked for."""
        target = os.environ.get("SSABENCH_SCREENSHOTS")
        if target is None:
            return
        path = os.path.join(self.folder, f"{name}.html")
        with open(path, "w", encoding="utf-8") as file:
            file.write(page)
        for scheme, number in (("dark", 0), ("light", 1)):
            picture = os.path.join(target, f"{name}-{scheme}.png")
            browser(self.folder, f"--blink-settings=preferredColorScheme={number}", f"--screenshot={picture}", f"file://{path}")

    def viewed(self, *words, folder=None):
        ran = run("view", *words, folder=folder)
        self.assertEqual((ran.returncode, ran.stderr), (0, ""))
        return ran.stdout

    def test_a_deployment_with_four_managers(self):
        shutil.copytree(os.path.join(HERE, "stories"), self.folder, dirs_exist_ok=True)
        folder = os.path.join(self.folder, "explain")
        run("open", "--schema", "../kinds.yaml", "-f", "live.yaml", "web.bench", folder=folder)
        for second, words in enumerate((("team.yaml", "team"), ("../history/replicas.yaml", "autoscaler")), 1):
            moment = f"2024-05-01T10:00:0{second}Z"
            options = ("--field-manager", words[1], "--force-conflicts", "--at", moment)
            self.assertEqual(run("apply", "-f", words[0], *options, "web.bench", folder=folder).returncode, 0)
        page = self.viewed("-f", "team.yaml", "--field-manager", "team", "web.bench", folder=folder)
        self.assertIsNone(re.search(r'(src|href)=|https?://|url\(|@import', page))
        self.pictures("deployment", page)
        app, log = (f'.spec.template.spec.containers[name="{name}"]' for name in ("app", "log"))
        noted = self.notes(page, DEPLOYMENT)
        for way in (".apiVersion", ".metadata.name", ".metadata.labels.app", ".spec.replicas", f"{app}.image", f"{log}.name"):
            self.assertIn(way, noted["ways"])
        team, other, editor, labeler, autoscaler = "team (Apply)", "other (Apply)", "editor (Update)", "labeler (Apply)", "autoscaler (Apply)"
        self.assertEqual([name[2:].rpartition(" ")[0] for name in noted["managers"]], [team, other, editor, labeler, autoscaler])
        self.assertEqual(noted["marks"], [[autoscaler], [team, other], []])
        self.assertEqual(noted["resources"], 0)
        self.assertEqual(noted["hovered"], [".metadata.labels.app"])
        self.assertEqual(noted["left"], [])
        self.assertEqual(noted["pressed"], [[f"{log}.image"], "true"])
        self.assertEqual(noted["second"], [app, f"{app}.name", f"{app}.resources.limits.cpu"])
        self.assertEqual(noted["escaped"], [])
        heading = "2 of 2: 2024-05-01T10:00:02Z apply by autoscaler, by force"
        self.assertEqual(noted["step two"], [heading, ["modified .spec.replicas 3 -> 5, taken from team (Apply)"], "2"])
        step, changes, replicas, is_changed = noted["step one"]
        self.assertEqual((step, replicas, is_changed), ("1 of 2: 2024-05-01T10:00:01Z apply by team, by force", "3", True))
        self.assertIn("modified .spec.replicas 2 -> 3", changes)
        self.assertIn(f"given up {log} stays for editor (Update)", changes)
        self.assertEqual(noted["step none"], ["0 of 2: as it was at first", ["before the first command"], "2", [team]])
        self.assertEqual(noted["step last"], heading)
        closed, expanded, is_changed, focused = noted["closed"]
        self.assertEqual((expanded, is_changed, focused), ("false", True, ".spec"))
        self.assertEqual([way for way in closed if way.startswith(".spec")], [".spec"])
        self.assertEqual((noted["moved"], noted["back"]), (".spec.replicas", ".spec"))
        self.assertEqual(noted["conflict"], [".spec.replicas", True])
        self.assertIn("An apply by team is refused .spec.replicas conflicts with autoscaler (Apply) live 5 configured 3", noted["manifest"])
        self.assertIn("told by this program, and not proved", noted["manifest"])

    def test_the_largest(self):
        page = self.viewed(largest.made(self.folder, run))
        self.pictures("largest", page)
        noted = self.notes(page, LARGEST)
        self.assertEqual(noted["first"][1], 4)  # apiVersion, kind, metadata and spec: collapsed
        self.assertEqual((noted["shown"], noted["seen"]), (".spec.wide.w999", ".spec.wide.w999"))
        self.assertEqual(noted["close all"][1], 4)
        took = {name: value[0] for name, value in noted.items() if isinstance(value, list)}
        print(f"\nmeasured: the page of {largest.PATHS} paths, in milliseconds: {took}", file=sys.__stderr__)
        for name in took:
            self.assertLess(took[name], AT_MOST, name)
            self.assertLess(noted[name][1], ROWS, name)


if __name__ == "__main__":
    unittest.main()
