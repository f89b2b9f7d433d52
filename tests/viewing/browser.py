"""A headless Chromium with one page, for the test of a page."""
import base64
import contextlib
import json
import os
import select
import shutil
import subprocess
import time

# seconds
PATIENCE = 120
BROWSERS = ('chromium', 'chromium-browser', 'google-chrome', 'google-chrome-stable')


def browser():
    """The program of a browser, if there is one."""
    return next(filter(None, map(shutil.which, BROWSERS)), None)


class Refused(Exception):
    """The browser didn't do what it was asked for: while a page is loaded again, for one."""


class Browser:
    """A headless browser with one page, spoken to over its debugging pipe: messages in JSON, each ended by a zero
    byte."""

    def __init__(self, program, folder, url):
        to_read, self.out = os.pipe()
        self.into, to_write = os.pipe()

        def hand_over():
            # the browser reads from 3 and writes to 4
            one, other = os.dup(to_read), os.dup(to_write)
            os.dup2(one, 3)
            os.dup2(other, 4)

        words = [program, '--headless=new', '--no-sandbox', '--disable-gpu', '--disable-dev-shm-usage',
                 '--remote-debugging-pipe', '--no-first-run', f'--user-data-dir={folder}', '--window-size=1400,1000',
                 '--force-device-scale-factor=1', 'about:blank']
        self.process = subprocess.Popen(words, stdin=subprocess.DEVNULL, stdout=subprocess.DEVNULL,
                                        stderr=subprocess.DEVNULL, close_fds=False, preexec_fn=hand_over)
        os.close(to_read)
        os.close(to_write)
        self.number, self.rest, self.session = 0, b'', None
        page = self.ask('Target.createTarget', url=url)['targetId']
        self.session = self.ask('Target.attachToTarget', targetId=page, flatten=True)['sessionId']
        self.ask('Emulation.setDeviceMetricsOverride', width=1400, height=1000, deviceScaleFactor=1, mobile=False)
        self.wait("document.readyState === 'complete'")

    def message(self, reason):
        """The browser's next message. One that doesn't come ends the test, with what was waited for."""
        end = time.monotonic() + PATIENCE
        while b'\0' not in self.rest:
            if not select.select([self.into], [], [], max(0, end - time.monotonic()))[0]:
                raise SystemExit(f'the browser has said nothing for {PATIENCE} seconds: {reason}')
            more = os.read(self.into, 1 << 20)
            if not more:
                raise SystemExit('the browser ended')
            self.rest += more
        one, _, self.rest = self.rest.partition(b'\0')
        return json.loads(one)

    def reload(self):
        """The page begins anew. Nothing is asked of it until it is loaded: a question while it goes may never be
        answered."""
        self.ask('Page.enable')
        self.ask('Page.reload')
        while self.message('a page that is loaded again').get('method') != 'Page.loadEventFired':
            pass
        self.ask('Page.disable')

    def ask(self, method, **words):
        self.number += 1
        message = ({'id': self.number, 'method': method, 'params': words}
                   | ({'sessionId': self.session} if self.session else {}))
        os.write(self.out, json.dumps(message).encode() + b'\0')
        while True:
            answer = self.message(f'{method} {str(words)[:200]}')
            if answer.get('id') == self.number:
                if 'error' in answer:
                    raise Refused(f'{method}: {answer["error"]}')
                return answer['result']

    def value(self, script):
        """What a script of the page gives."""
        found = self.ask('Runtime.evaluate', expression=script, returnByValue=True, awaitPromise=True)
        if 'exceptionDetails' in found:
            raise Refused(f'{script[:100]}: {found["exceptionDetails"]}')
        return found['result'].get('value')

    def wait(self, script):
        end = time.monotonic() + 30
        while time.monotonic() < end:
            with contextlib.suppress(Refused):
                if self.value(script):
                    return
            time.sleep(0.02)
        raise SystemExit(f'the page never came to: {script}')

    def drawn(self):
        """Waits until what was asked for is drawn."""
        self.value('new Promise((done) => { requestAnimationFrame(() => requestAnimationFrame(done)); '
                   'setTimeout(done, 5000); })')

    def size(self, width, height):
        self.ask('Emulation.setDeviceMetricsOverride', width=width, height=height, deviceScaleFactor=1, mobile=False)
        self.drawn()

    def scheme(self, name):
        """Light or dark, as the system would have it."""
        self.ask('Emulation.setEmulatedMedia', features=[{'name': 'prefers-color-scheme', 'value': name}])
        self.drawn()

    def mouse(self, kind, x, y):
        """`Moved`, `Pressed` or `Released`, of the left button."""
        pressed = {} if kind == 'Moved' else {'button': 'left', 'clickCount': 1}
        self.ask('Input.dispatchMouseEvent', type=f'mouse{kind}', x=x, y=y, **pressed)
        self.drawn()

    def click(self, x, y):
        for kind in ('Moved', 'Pressed', 'Released'):
            self.mouse(kind, x, y)

    def key(self, name):
        text = {'text': name} if len(name) == 1 else {}
        self.ask('Input.dispatchKeyEvent', type='keyDown', key=name, **text)
        self.ask('Input.dispatchKeyEvent', type='keyUp', key=name)
        self.drawn()

    def text(self, selector):
        return self.value(f'document.querySelector({json.dumps(selector)}).textContent')

    def all(self, selector, *names):
        """Attributes of all elements of a selector."""
        each = f'(it) => {json.dumps(names)}.map((name) => it.getAttribute(name))'
        return [tuple(it) for it in self.value(f'[...document.querySelectorAll({json.dumps(selector)})].map({each})')]

    def texts(self, selector):
        return self.value(f'[...document.querySelectorAll({json.dumps(selector)})].map((it) => it.textContent)')

    def picture(self, path):
        path.write_bytes(base64.b64decode(self.ask('Page.captureScreenshot', format='png')['data']))

    def paper(self, path, **words):
        path.write_bytes(base64.b64decode(self.ask('Page.printToPDF', **words)['data']))

    def end(self):
        self.process.kill()
        self.process.wait()
