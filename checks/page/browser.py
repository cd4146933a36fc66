"""A headless Chromium that is told what to do by WebDriver, with the standard library alone."""
import base64
import json
import os
import subprocess
import time
import urllib.error
import urllib.request

ELEMENT = 'element-6066-11e4-a52e-4f735466cecf'
KEYS = {'Home': '\ue011', 'End': '\ue010', 'ArrowUp': '\ue013', 'ArrowDown': '\ue015', 'PageDown': '\ue00f'}


class Browser:
    """A session of Debian's chromedriver, which ends with the `with` that began it."""

    def __init__(self, width=1500, height=1000):
        self.size = f'--window-size={width},{height}'

    def __enter__(self):
        words = ['chromedriver', '--port=0']
        self.driver = subprocess.Popen(words, stdout=subprocess.PIPE, stderr=subprocess.DEVNULL, text=True)
        try:
            self.address = f'http://127.0.0.1:{self._port()}'
            self._begin()
        except BaseException:
            self._end()
            raise
        return self

    def __exit__(self, *_):
        try:
            self.ask('DELETE', '')
        finally:
            self._end()

    def _port(self):
        for line in self.driver.stdout:
            if 'started successfully on port' in line:
                return int(line.rsplit('port', 1)[1].strip(' .\n'))
        raise RuntimeError('chromedriver did not start')

    def _begin(self):
        arguments = ['--headless=new', '--disable-gpu', '--disable-background-networking', self.size]
        if os.geteuid() == 0:
            arguments.append('--no-sandbox')  # Chromium wants it of root
        logs = {'browser': 'ALL', 'performance': 'ALL'}
        wanted = {'goog:chromeOptions': {'args': arguments}, 'goog:loggingPrefs': logs}
        self.session = ''
        self.session = '/' + self.ask('POST', '', {'capabilities': {'alwaysMatch': wanted}})['sessionId']

    def _end(self):
        self.driver.terminate()
        self.driver.wait(10)
        self.driver.stdout.close()

    def ask(self, method, path, data=None):
        """One request of the session: its value."""
        body = None if method in ('GET', 'DELETE') else json.dumps(data or {}).encode()
        request = urllib.request.Request(f'{self.address}/session{self.session}{path}', body, method=method)
        request.add_header('Content-Type', 'application/json')
        try:
            with urllib.request.urlopen(request, timeout=120) as answer:
                return json.load(answer)['value']
        except urllib.error.HTTPError as trouble:
            raise RuntimeError(json.load(trouble)['value']['message'].splitlines()[0]) from None

    def open(self, address):
        self.ask('POST', '/url', {'url': address})

    def run(self, script):
        """What a script in the page returns."""
        return self.ask('POST', '/execute/sync', {'script': script, 'args': []})

    def press(self, *keys):
        """Presses keys one after another, each a character or a name of KEYS."""
        typed = [KEYS.get(key, key) for key in keys]
        actions = [{'type': kind, 'value': key} for key in typed for kind in ('keyDown', 'keyUp')]
        self.ask('POST', '/actions', {'actions': [{'type': 'key', 'id': 'keyboard', 'actions': actions}]})

    def click(self, selector):
        found = self.ask('POST', '/element', {'using': 'css selector', 'value': selector})[ELEMENT]
        self.ask('POST', f'/element/{found}/click')

    def log(self, kind):
        """What has been logged since it was last asked: of kind browser, the console."""
        return self.ask('POST', '/se/log', {'type': kind})

    def requests(self):
        """The addresses that the page has asked for since this was last asked."""
        sent = [json.loads(entry['message'])['message'] for entry in self.log('performance')]
        return [it['params']['request']['url'] for it in sent if it['method'] == 'Network.requestWillBeSent']

    def picture(self, file):
        """Writes a screenshot as PNG."""
        file.write_bytes(base64.b64decode(self.ask('GET', '/screenshot')))

    def wait_for(self, script, seconds=20):
        """Waits until the script returns something true."""
        end = time.monotonic() + seconds
        while not self.run(script):
            if time.monotonic() > end:
                raise RuntimeError(f'not so after {seconds} s: {script}')
            time.sleep(0.1)
