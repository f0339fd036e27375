"""A real browser without a window, which is told by its own protocol what to do."""

import json
import os
import shutil
import subprocess
import time

BROWSERS = "chromium", "chromium-browser", "google-chrome"


def browser():
    """The browser's command, if one is installed (tests/picture/install does that)."""
    return next(filter(None, map(shutil.which, BROWSERS)), None)


class Browser:
    """One that runs until the block ends. Its profile is in a folder of this room."""

    def __init__(self, room, seconds):
        self.seconds, self.last, self.rest = seconds, 0, b""
        given, self.orders = os.pipe()
        self.answers, taken = os.pipe()
        os.set_inheritable(given, True)
        os.set_inheritable(taken, True)
        words = [browser(), "--headless=new", "--no-sandbox", "--disable-gpu", "--window-size=1200,900",
                 "--remote-debugging-pipe", f"--user-data-dir={room}/driven", "about:blank"]
        # The protocol is spoken over the descriptors 3 and 4.
        moved = f'exec "$@" 3<&{given} 4>&{taken}'
        self.process = subprocess.Popen(["bash", "-c", moved, "bash", *words], pass_fds=(given, taken),
                                        stdin=subprocess.DEVNULL, stdout=subprocess.DEVNULL,
                                        stderr=subprocess.DEVNULL)
        os.close(given)
        os.close(taken)

    def __enter__(self):
        target = next(one for one in self.call("Target.getTargets")["targetInfos"] if one["type"] == "page")
        self.session = self.call("Target.attachToTarget", targetId=target["targetId"], flatten=True)["sessionId"]
        return self

    def __exit__(self, *_):
        try:
            self.call("Browser.close")
            self.process.wait(self.seconds)
        finally:
            self.process.kill()
            os.close(self.orders)
            os.close(self.answers)

    def call(self, method, session=None, **params):
        """What the browser answers to an order."""
        self.last += 1
        order = {"id": self.last, "method": method, "params": params}
        if session:
            order["sessionId"] = session
        os.write(self.orders, json.dumps(order).encode() + b"\0")
        while True:
            answer = json.loads(self.message())
            if answer.get("id") == self.last:
                if "error" in answer:
                    raise RuntimeError(f"{method}: {answer['error']}")
                return answer["result"]

    def message(self):
        while b"\0" not in self.rest:
            more = os.read(self.answers, 1 << 16)
            if not more:
                raise RuntimeError("the browser has ended")
            self.rest += more
        message, self.rest = self.rest.split(b"\0", 1)
        return message

    def go_to(self, path):
        """Loads a page, and goes on at once."""
        self.call("Page.navigate", self.session, url=path.as_uri())

    def value(self, expression):
        """What an expression comes to in the page, as JSON has it."""
        answer = self.call("Runtime.evaluate", self.session, expression=expression, returnByValue=True,
                           awaitPromise=True)
        return answer["result"].get("value")

    def until(self, expression):
        """Waits until an expression comes to something in the page, and answers that."""
        end = time.monotonic() + self.seconds
        while time.monotonic() < end:
            value = self.value(expression)
            if value:
                return value
            time.sleep(0.02)
        raise TimeoutError(expression)
