"""A headless Chromium, driven through its debugging pipe: pages are opened, asked, pressed, and taken pictures of."""
import base64
import json
import os
import select
import shutil
import subprocess
import tempfile
import time

SLOW = 180         # seconds after which a browser is taken to have died, also on a machine with much else to do
NAMES = ('chromium', 'chromium-browser', 'google-chrome', 'google-chrome-stable')


def found():
    """The browser's path, or none."""
    return next((path for path in map(shutil.which, NAMES) if path), None)


class Failed(Exception):
    """The browser refused something, or gave no answer in time."""


class Browser:
    """One browser with one page; `lines` are what its console has said."""

    def __init__(self):
        self.folder = tempfile.mkdtemp()
        to_read, self.out = os.pipe()
        self.into, to_write = os.pipe()

        def child():
            # Both ends go to high numbers first, so that neither is lost where 3 or 4 is one of them.
            high = os.dup2(to_read, 20), os.dup2(to_write, 21)
            os.dup2(high[0], 3)
            os.dup2(high[1], 4)
            os.set_inheritable(3, True)
            os.set_inheritable(4, True)

        words = [found(), '--headless', '--remote-debugging-pipe', f'--user-data-dir={self.folder}', '--no-first-run',
            '--disable-gpu',
                 '--hide-scrollbars', '--disable-dev-shm-usage', '--no-proxy-server']
        if os.geteuid() == 0:
            words.append('--no-sandbox')
        self.process = subprocess.Popen(words, preexec_fn=child, close_fds=False, stdout=subprocess.DEVNULL,
            stderr=subprocess.DEVNULL)
        os.close(to_read)
        os.close(to_write)
        self.number, self.rest, self.events, self.lines, self.session = 0, b'', [], [], None
        target = next(t for t in self.call('Target.getTargets')['targetInfos'] if t['type'] == 'page')
        self.session = self.call('Target.attachToTarget', targetId=target['targetId'], flatten=True)['sessionId']
        for domain in ('Page', 'Runtime', 'Log', 'Network'):
            self.call(f'{domain}.enable')
        self.blank()

    def blank(self):
        """Goes to the empty page; a page that is opened twice with another address alone would not be loaded anew."""
        self.call('Page.navigate', url='about:blank')
        end = time.monotonic() + SLOW
        while time.monotonic() < end:
            try:
                if self.ask("location.href === 'about:blank' && document.readyState === 'complete'"):
                    return
            except Failed:
                pass
            time.sleep(0.01)
        raise Failed('the empty page does not come')

    def message(self, seconds):
        """The next message of the browser."""
        end = time.monotonic() + seconds
        while b'\0' not in self.rest:
            left = end - time.monotonic()
            if left <= 0 or not select.select([self.into], [], [], left)[0]:
                raise Failed('the browser gave no answer')
            piece = os.read(self.into, 1 << 20)
            if not piece:
                raise Failed('the browser has ended')
            self.rest += piece
        text, self.rest = self.rest.split(b'\0', 1)
        return json.loads(text)

    def take(self, message):
        """Keeps an event; what the console says is a line."""
        name, told = message.get('method'), message.get('params', {})
        if name == 'Runtime.exceptionThrown':
            detail = told['exceptionDetails']
            self.lines.append(detail.get('exception', {}).get('description', detail.get('text', 'an exception')))
        elif name == 'Runtime.consoleAPICalled':
            self.lines.append(' '.join(str(one.get('value', one.get('description'))) for one in told['args']))
        elif name == 'Log.entryAdded':
            self.lines.append(told['entry']['text'])
        elif name == 'Network.requestWillBeSent' and not told['request']['url'].startswith(
            ('file:', 'data:', 'about:', 'blob:')):
            self.lines.append(f"asks the network for {told['request']['url']}")
        self.events.append(name)

    def call(self, method, seconds=SLOW, **words):
        """Calls the browser, and gives its answer."""
        self.number += 1
        message = {'id': self.number, 'method': method, 'params': words}
        if self.session:
            message['sessionId'] = self.session
        data = json.dumps(message).encode() + b'\0'
        while data:
            try:
                data = data[os.write(self.out, data):]
            except BrokenPipeError as error:
                raise Failed('the browser has ended') from error
        while True:
            answer = self.message(seconds)
            if answer.get('id') == self.number:
                if 'error' in answer:
                    raise Failed(f"{method}: {answer['error']['message']}")
                return answer['result']
            self.take(answer)

    def ask(self, text, seconds=SLOW):
        """The value of an expression in the page; a promise is awaited."""
        answer = self.call('Runtime.evaluate', seconds, expression=text, returnByValue=True, awaitPromise=True)
        if 'exceptionDetails' in answer:
            detail = answer['exceptionDetails']
            raise Failed(detail.get('exception', {}).get('description', detail['text']))
        return answer['result'].get('value')

    def open(self, path, address='', seconds=SLOW):
        """Opens a file, and waits until the page is ready."""
        self.visit(f'file://{os.path.abspath(path)}{address}', seconds)

    def visit(self, url, seconds=SLOW):
        """Goes to an address, and waits until the page is ready."""
        self.blank()
        self.lines.clear()
        self.call('Page.navigate', url=url)
        end = time.monotonic() + seconds
        while not self.ask("document.body !== null && document.body.classList.contains('ready')"):
            if time.monotonic() > end:
                raise Failed(f'{url} is not ready after {seconds} s: {self.lines}')
            time.sleep(0.02)

    def press(self, key, control=False, shift=False):
        """Presses a key and lets it go."""
        codes = {'ArrowLeft': 37, 'ArrowRight': 39, 'Home': 36, 'End': 35, 'Tab': 9, 'Enter': 13, 'Escape': 27,
            ' ': 32, 'Backspace': 8}
        words = {'key': key, 'modifiers': 2 * control + 8 * shift, 'windowsVirtualKeyCode': codes.get(key,
            ord(key.upper()) if len(key) == 1 and key.isalnum() else 0)}
        if key == 'Enter':
            words['text'] = '\r'
        if len(key) == 1 and not control:
            words['text'] = key
        if key == 'z' and control:
            words['commands'] = ['undo']
        self.call('Input.dispatchKeyEvent', type='keyDown', **words)
        self.call('Input.dispatchKeyEvent', type='keyUp', **words)

    def click(self, x, y):
        for kind in ('mousePressed', 'mouseReleased'):
            self.call('Input.dispatchMouseEvent', type=kind, x=x, y=y, button='left', clickCount=1)

    def size(self, width, height):
        self.call('Emulation.setDeviceMetricsOverride', width=width, height=height, deviceScaleFactor=1, mobile=False)
        self.frames()

    def frames(self):
        """Waits until what was asked for is drawn."""
        self.ask('new Promise((done) => requestAnimationFrame(() => requestAnimationFrame(() => done(1))))')

    def dark(self, on):
        self.call('Emulation.setEmulatedMedia', features=[{'name': 'prefers-color-scheme',
            'value': 'dark' if on else 'light'}])
        self.frames()

    def picture(self, path):
        with open(path, 'wb') as file:
            file.write(base64.b64decode(self.call('Page.captureScreenshot')['data']))

    def close(self):
        try:
            self.session = None
            self.call('Browser.close', SLOW)
        except Failed:
            self.process.kill()
        self.process.wait(SLOW)
        shutil.rmtree(self.folder, ignore_errors=True)
