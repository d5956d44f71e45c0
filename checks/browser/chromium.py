"""Headless Chromium, driven over the DevTools protocol by a pipe."""
import base64
import json
import os
import pathlib
import select
import shutil
import subprocess
import sys
import tempfile
import time

FLAGS = ['--headless=new', '--no-sandbox', '--disable-gpu', '--disable-dev-shm-usage', '--no-first-run', '--hide-scrollbars',
         '--disable-background-networking', '--disable-component-update', '--disable-sync', '--disable-extensions', '--mute-audio',
         '--force-color-profile=srgb', '--remote-debugging-pipe']
KEYS = {'Enter': (13, '\r'), 'Escape': (27, ''), 'ArrowLeft': (37, ''), 'ArrowUp': (38, ''), 'ArrowRight': (39, ''), 'ArrowDown': (40, ''),
        'Home': (36, ''), 'End': (35, ''), 'Tab': (9, ''), ' ': (32, ' ')}


class DidNotStart(Exception):
    """The browser gave no answer when it was started."""


class Lost(Exception):
    """The browser ended, or gives no answer any more."""


class Fault(Exception):
    """The browser refused a command, or an expression threw."""


def program():
    """The browser's path. Installs Debian's package where it is missing; None where it can't be had."""
    found = shutil.which('chromium')
    if found is None and shutil.which('apt-get'):
        for words in (['update'], ['install', '-y', '--no-install-recommends', 'chromium']):
            apt_get(words)
        found = shutil.which('chromium')
    return found


def apt_get(words):
    """Whether it succeeds is seen by what is there then."""
    patience = ['-o', 'Acquire::Retries=3', '-o', 'Acquire::http::Timeout=20', '-o', 'DPkg::Lock::Timeout=120']
    quiet = {**os.environ, 'DEBIAN_FRONTEND': 'noninteractive'}
    try:
        subprocess.run(['apt-get', '-q', *patience, *words], stdin=subprocess.DEVNULL, stdout=sys.stderr, env=quiet, check=False,
                       timeout=600)
    except subprocess.TimeoutExpired as fault:
        print(fault, file=sys.stderr)


class Browser:
    """One browser with one window. `with Browser.started() as browser: ..`"""

    @classmethod
    def started(cls, path, width=1200, height=700):
        """A browser; one that doesn't start is started again, at most three times."""
        for attempt in range(4):
            try:
                return cls(path, width, height)
            except DidNotStart as fault:
                print(f'the browser did not start: {fault}', file=sys.stderr)
                time.sleep(attempt)
        raise DidNotStart('not in four attempts')

    def __init__(self, path, width, height):
        self.size = (width, height)
        self.folder = pathlib.Path(tempfile.mkdtemp(prefix='page-browser-'))
        self.events, self.rest, self.last = [], b'', 0
        read_end, self.writing = os.pipe()
        self.reading, write_end = os.pipe()

        # The browser reads commands from descriptor 3 and writes answers to descriptor 4.
        def place_pipes():
            high_read, high_write = os.dup(read_end), os.dup(write_end)
            os.dup2(high_read, 3)
            os.dup2(high_write, 4)

        with open(self.folder / 'log', 'wb') as log:
            self.process = subprocess.Popen(
                [path, *FLAGS, f'--user-data-dir={self.folder}/profile', f'--window-size={width},{height}', 'about:blank'],
                preexec_fn=place_pipes, close_fds=False, stdin=subprocess.DEVNULL, stdout=log, stderr=log,
                start_new_session=True)
        os.close(read_end)
        os.close(write_end)
        self.session = None
        try:
            target = self.send('Target.getTargets')['targetInfos']
            page = next(each for each in target if each['type'] == 'page')
            self.session = self.send('Target.attachToTarget', targetId=page['targetId'], flatten=True)['sessionId']
            for domain in ('Page', 'Runtime', 'Network', 'Log'):
                self.send(f'{domain}.enable')
            self.resize(width, height)
        except (Fault, Lost, StopIteration) as fault:
            self.close()
            raise DidNotStart(repr(fault)) from fault

    def __enter__(self):
        return self

    def __exit__(self, *_):
        self.close()

    def close(self):
        """Ends the browser, and all that it started."""
        for descriptor in (self.reading, self.writing):
            os.close(descriptor)
        try:
            self.process.wait(5)
        except subprocess.TimeoutExpired:
            os.killpg(self.process.pid, 9)
            self.process.wait()
        shutil.rmtree(self.folder, ignore_errors=True)

    def message(self, deadline):
        """The next message of the browser."""
        while b'\0' not in self.rest:
            ready, _, _ = select.select([self.reading], [], [], max(0, deadline - time.monotonic()))
            if not ready:
                raise Lost('no answer')
            read = os.read(self.reading, 1 << 20)
            if not read:
                raise Lost('the browser ended')
            self.rest += read
        text, _, self.rest = self.rest.partition(b'\0')
        return json.loads(text)

    def send(self, method, deadline=60, **parameters):
        """The answer to a command. What happens meanwhile is kept in `events`."""
        self.last += 1
        command = {'id': self.last, 'method': method, 'params': parameters}
        if self.session:
            command['sessionId'] = self.session
        data = json.dumps(command).encode() + b'\0'
        try:
            while data:
                data = data[os.write(self.writing, data):]
        except BrokenPipeError as fault:
            raise Lost('the browser ended') from fault
        until = time.monotonic() + deadline
        while True:
            message = self.message(until)
            if message.get('id') == self.last:
                if 'error' in message:
                    raise Fault(f'{method}: {message["error"]["message"]}')
                return message['result']
            self.events.append(message)

    def happened(self, method):
        """What events there were of a kind."""
        return [event['params'] for event in self.events if event.get('method') == method]

    def value(self, expression, **more):
        """The value of an expression in the page; a promise is waited for."""
        answer = self.send('Runtime.evaluate', expression=expression, returnByValue=True, awaitPromise=True, **more)
        if 'exceptionDetails' in answer:
            details = answer['exceptionDetails']
            raise Fault(f'{expression}: {details.get("exception", {}).get("description", details["text"])}')
        return answer['result'].get('value')

    def go(self, path, fragment=''):
        """Opens a file."""
        self.events.clear()
        # Another address than the last, so that the document is read anew.
        self.send('Page.navigate', url='about:blank')
        self.send('Page.navigate', url=pathlib.Path(path).resolve().as_uri() + fragment)

    def open(self, path, fragment=''):
        """Opens a page, and waits until it has been painted."""
        self.go(path, fragment)
        self.wait_for("performance.getEntriesByName('painted').length > 0 && document.readyState === 'complete'")
        self.settle()

    def wait_for(self, expression, seconds=60):
        until = time.monotonic() + seconds
        while not self.value(expression):
            if time.monotonic() > until:
                raise TimeoutError(f'never true: {expression}')
            time.sleep(0.02)

    def settle(self):
        """Waits for two frames and for what the page does after a picture."""
        self.value('new Promise((done) => requestAnimationFrame(() => requestAnimationFrame(() => setTimeout(done, 0))))')

    def resize(self, width, height):
        self.send('Emulation.setDeviceMetricsOverride', width=width, height=height, deviceScaleFactor=1, mobile=False)

    def prefer(self, scheme, media=''):
        """Has the page think that the system prefers light or dark."""
        self.send('Emulation.setEmulatedMedia', media=media, features=[{'name': 'prefers-color-scheme', 'value': scheme}])
        self.settle()

    def press(self, key, modifiers=0):
        code, text = KEYS.get(key, (ord(key[0].upper()), key))
        same = {'key': key, 'windowsVirtualKeyCode': code, 'modifiers': modifiers}
        self.send('Input.dispatchKeyEvent', type='keyDown', **same, **({'text': text} if text else {}))
        self.send('Input.dispatchKeyEvent', type='keyUp', **same)
        self.settle()

    def write(self, text):
        """Types a text into what has the focus."""
        self.send('Input.insertText', text=text)

    def move(self, x, y):
        self.send('Input.dispatchMouseEvent', type='mouseMoved', x=x, y=y)
        self.settle()

    def click(self, x, y):
        self.move(x, y)
        for kind in ('mousePressed', 'mouseReleased'):
            self.send('Input.dispatchMouseEvent', type=kind, x=x, y=y, button='left', clickCount=1)
        self.settle()

    def click_on(self, selector):
        """Clicks the middle of an element."""
        left, top, width, height = self.area(selector)
        self.click(left + width / 2, top + height / 2)

    def area(self, selector):
        return self.value(f'''(() => {{ const area = document.querySelector({json.dumps(selector)}).getBoundingClientRect();
            return [area.left, area.top, area.width, area.height]; }})()''')

    def text(self, selector):
        return self.value(f'document.querySelector({json.dumps(selector)}).textContent')

    def screenshot(self, path):
        self.settle()
        answer = self.send('Page.captureScreenshot', format='png')
        pathlib.Path(path).write_bytes(base64.b64decode(answer['data']))
