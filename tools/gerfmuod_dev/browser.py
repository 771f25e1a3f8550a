"""Has the DevTools of headless Chromium read trace events, by the DevTools protocol over a pipe."""
import collections
import json
import os
import shutil
import subprocess
import tempfile

from .event_format import Profile, nanoseconds
from .repository import TOP, text_of

NAMES = ("chromium", "chromium-browser", "google-chrome")
# a shell gives Chromium the descriptors 3 and 4, on which it reads and writes
SHELL = 'reads=$1 writes=$2; shift 2; exec "$@" 3<&"$reads" 4>&"$writes"'
OPTIONS = ["--headless=new", "--remote-debugging-pipe", "--disable-gpu", "--no-first-run"]
OPTIONS += ["--no-sandbox"] * (os.geteuid() == 0)
SECONDS = 600
# reads the events, and returns the slices that the panel would show, or null without such modules
READ = text_of(f"{TOP}/tools/data/devtools.js")


def program():
    return next((path for path in map(shutil.which, NAMES) if path), None)


def is_here(tally, what):
    """Whether Chromium is installed. If it is not, counts what is not tried; `tools/page-packages` prints its package."""
    if not program():
        tally.skips(what, NAMES[0])
    return bool(program())


class Browser:
    """A page in Chromium."""

    def __init__(self):
        self.folder = tempfile.mkdtemp()
        reads, to_browser = os.pipe()
        from_browser, writes = os.pipe()
        options = [*OPTIONS, f"--user-data-dir={self.folder}"]
        command = ["sh", "-c", SHELL, "sh", str(reads), str(writes), "timeout", str(SECONDS), program(), *options]
        self.process = subprocess.Popen(command, pass_fds=(reads, writes), stdin=subprocess.DEVNULL, stderr=subprocess.DEVNULL)
        os.close(reads)
        os.close(writes)
        self.out, self.source = os.fdopen(to_browser, "wb"), os.fdopen(from_browser, "rb")
        self.session, self.number, self.rest = {}, 0, b""
        target = self.call("Target.createTarget", url="about:blank")["targetId"]
        self.session = {"sessionId": self.call("Target.attachToTarget", targetId=target, flatten=True)["sessionId"]}
        self.call("Page.enable")

    def __enter__(self):
        return self

    def __exit__(self, *_):
        self.out.close()
        self.process.wait()
        self.source.close()
        # (a process below Chromium may still write there)
        shutil.rmtree(self.folder, ignore_errors=True)

    def receive(self):
        """Returns the next message of the browser."""
        while b"\0" not in self.rest:
            if not (read := self.source.read1(1 << 16)):
                raise EOFError("Chromium has ended")
            self.rest += read
        text, _, self.rest = self.rest.partition(b"\0")
        return json.loads(text)

    def call(self, method, **parameters):
        self.number += 1
        message = {"id": self.number, "method": method, "params": parameters, **self.session}
        self.out.write(json.dumps(message).encode() + b"\0")
        self.out.flush()
        while (reply := self.receive()).get("id") != self.number:
            pass
        if "error" in reply:
            raise RuntimeError(f"{method}: {reply['error']}")
        return reply["result"]

    def navigate(self, url):
        """Opens a page; returns whether this Chromium allows that."""
        if "errorText" in self.call("Page.navigate", url=url):
            return False
        while self.receive().get("method") != "Page.loadEventFired":
            pass
        return True

    def value(self, expression):
        result = self.call("Runtime.evaluate", expression=expression, returnByValue=True, awaitPromise=True)
        return result["result"].get("value")


def slices_in(text):
    """Counts the slices of a text: process, thread, their names, and the slice's name, begin and length in nanoseconds."""
    profile, found = Profile(text), collections.Counter()
    for event in profile.slices:
        pid, tid = event["pid"], event["tid"]
        names = profile.processes.get(pid), profile.threads.get((pid, tid)), event["name"]
        found[(pid, tid, *names, nanoseconds(event["ts"]), nanoseconds(event["dur"]))] += 1
    return found


def check_events(tally, browser, texts):
    """Counts whether the panel Performance of Chromium's DevTools has each slice of these texts once, under the names of the file."""
    what = f"the events of {len(texts)} run{'s' * (len(texts) != 1)}"
    is_open = browser.navigate("devtools://devtools/bundled/devtools_app.html")
    for name, text in texts.items():
        found = browser.value(f"{READ}({json.dumps(text)})") if is_open else None
        if found is None:
            tally.skips(f"{what} in DevTools", "a Chromium whose DevTools have the module models/trace")
            return
        expected = slices_in(text)
        shown = collections.Counter((*others, nanoseconds(begin), nanoseconds(length)) for *others, begin, length in found)
        differing = [*(expected - shown), *(shown - expected)]
        tally.judge(not differing, f"{name}: {len(differing)} slices differ in DevTools, such as {differing[:2]}")
    print(f"{what}: read by the panel Performance of Chromium's DevTools", flush=True)
