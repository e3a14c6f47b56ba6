"""A browser without a window, driven as a person would: real clicks and keys. It is Debian's chromium, spoken to by its pipe; python3 alone is needed beside it."""
import base64
import json
import os
import select
import shutil
import subprocess
import tempfile
import time

with open(os.path.join(os.path.dirname(os.path.abspath(__file__)), 'seen.js'), encoding='utf-8') as seen:
    SEEN = seen.read()
PATIENCE = 120          # seconds for an answer; a busy machine is slow
WORDS = ['--headless', '--no-sandbox', '--disable-gpu', '--hide-scrollbars', '--no-first-run', '--remote-debugging-pipe']


class Silent(Exception):
    """The browser does not answer."""


class Browser:
    def __init__(self):
        self.room = tempfile.mkdtemp()
        theirs_in, self.ours_out = os.pipe()
        self.ours_in, theirs_out = os.pipe()
        # The browser reads its orders from 3 and answers by 4.
        words = ['sh', '-c', 'exec "$@" 3<&%d 4>&%d' % (theirs_in, theirs_out), 'sh', 'chromium', '--user-data-dir=' + self.room] + WORDS + ['about:blank']
        self.process = subprocess.Popen(words, pass_fds=(theirs_in, theirs_out), stdout=subprocess.DEVNULL, stderr=subprocess.DEVNULL)
        os.close(theirs_in)
        os.close(theirs_out)
        self.said, self.count, self.session, self.asked = b'', 0, None, []
        try:
            self.begin()
        except Silent:
            self.end()
            raise

    def begin(self):
        target = self.order('Target.createTarget', url='about:blank')['targetId']
        self.session = self.order('Target.attachToTarget', targetId=target, flatten=True)['sessionId']
        for domain in ('Page', 'Runtime', 'Network'):
            self.order(domain + '.enable')

    def close(self):
        try:
            self.session = None
            self.order('Browser.close')
            self.process.wait(20)
        except (Silent, subprocess.TimeoutExpired):
            pass
        self.end()

    def end(self):
        if self.process.poll() is None:
            self.process.kill()
            self.process.wait()
        os.close(self.ours_in)
        os.close(self.ours_out)
        shutil.rmtree(self.room, ignore_errors=True)

    def message(self, until):
        """The next thing that the browser says."""
        while b'\0' not in self.said:
            ready, _, _ = select.select([self.ours_in], [], [], max(0, until - time.time()))
            more = os.read(self.ours_in, 1 << 16) if ready else b''
            if not more:
                raise Silent('the browser says nothing')
            self.said += more
        line, self.said = self.said.split(b'\0', 1)
        return json.loads(line)

    def order(self, method, **given):
        self.count += 1
        order = dict({'id': self.count, 'method': method, 'params': given}, **({'sessionId': self.session} if self.session else {}))
        try:
            os.write(self.ours_out, json.dumps(order).encode() + b'\0')
        except BrokenPipeError:
            raise Silent('the browser has ended') from None
        until = time.time() + PATIENCE
        while True:
            said = self.message(until)
            if said.get('method') == 'Network.requestWillBeSent':
                self.asked.append(said['params']['request']['url'])
            if said.get('id') == self.count:
                if 'error' in said:
                    raise Silent('%s: %s' % (method, said['error']))
                return said['result']

    # ---- what a person does ----

    def screen(self, wide, high, dark=False, phone=False):
        self.order('Emulation.setDeviceMetricsOverride', width=wide, height=high, deviceScaleFactor=1, mobile=phone)
        self.order('Emulation.setEmulatedMedia', features=[{'name': 'prefers-color-scheme', 'value': 'dark' if dark else 'light'}])

    def visit(self, address):
        """Loads a page anew, also where the address differs only behind its #."""
        self.order('Page.navigate', url='about:blank')
        self.order('Page.navigate', url=address)
        self.settled()

    def reload(self):
        self.order('Page.reload')
        self.settled()

    def settled(self):
        until = time.time() + PATIENCE
        while not self.value("document.readyState === 'complete' && location.protocol === 'file:' && !!document.querySelector('#lamp .lamp')"):
            if time.time() > until:
                raise Silent('the page does not come')
            time.sleep(0.05)

    def value(self, script, wait=False):
        said = self.order('Runtime.evaluate', expression=script, returnByValue=True, awaitPromise=wait)
        if 'exceptionDetails' in said:
            raise AssertionError('the script %s fails: %s' % (script, said['exceptionDetails']))
        return said['result'].get('value')

    def see(self, question, wait=False):
        """The answer of seen.js to a question."""
        return self.value('(%s).%s' % (SEEN, question), wait)

    def click(self, element):
        """Clicks an element, given as a script, where it can be seen; it fails where something covers it."""
        spot = self.see('spot(%s)' % element)
        if not spot:
            raise AssertionError('%s is covered, and can\'t be clicked' % element)
        for kind in ('mousePressed', 'mouseReleased'):
            self.order('Input.dispatchMouseEvent', type=kind, x=spot[0], y=spot[1], button='left', clickCount=1)

    def press(self, key):
        text = {'Enter': '\r', 'Space': ' '}.get(key, key if len(key) == 1 else '')
        name = {'Space': ' '}.get(key, key)
        code = {'Enter': 13, 'Tab': 9, 'Space': 32, 'Backspace': 8, 'ArrowRight': 39}.get(key, ord(key.upper()) if len(key) == 1 else 0)
        self.order('Input.dispatchKeyEvent', type='keyDown', key=name, text=text, windowsVirtualKeyCode=code)
        self.order('Input.dispatchKeyEvent', type='keyUp', key=name, windowsVirtualKeyCode=code)

    def picture(self, path):
        high = self.value('document.documentElement.scrollHeight')
        wide = self.value('innerWidth')
        whole = {'x': 0, 'y': 0, 'width': wide, 'height': high, 'scale': 1}
        shot = self.order('Page.captureScreenshot', format='png', captureBeyondViewport=True, clip=whole)
        with open(path, 'wb') as file:
            file.write(base64.b64decode(shot['data']))
