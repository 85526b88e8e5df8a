"""What tools/see_page.sh needs: the sound of its recordings, and a browser that is driven by its debugging pipe."""
import array, base64, json, os, random, subprocess, struct, sys, time


def samples(folder, side):
    data = array.array('h')
    with open(f'{folder}/{side}-before.wav', 'rb') as file:
        data.frombytes(file.read()[44:])
    return data


def sound(folder, seconds):
    """Raw stereo: the demo's dictations, louder and softer, and pauses of the grinder between them."""
    left, right = samples(folder, 'left'), samples(folder, 'right')
    dictation, rest = min(len(left), len(right)), 48_000 * seconds
    random.seed(3)
    while rest > 0:
        loud, pause = random.choice([1.0, 0.8, 0.5, 0.3]), random.choice([2, 5, 20, 40])
        for length, times in ((dictation, 1), (48_000, pause)):
            block = array.array('h', (round(loud * x) for pair in zip(left[:length], right[:length]) for x in pair))
            for _ in range(times):
                sys.stdout.buffer.write(block[:2 * rest].tobytes())
                rest = max(0, rest - length)


def broken(folder):
    """A stereo WAV stream of floats that has no number behind a second and a half."""
    right = samples(folder, 'right')
    floats = array.array('f', (x for sample in right[:72_000] for x in (0.0, sample / 32_768)))
    floats.extend([float('nan'), 0.0] * 9_600)
    format_ = struct.pack('<IHHIIHH', 16, 3, 2, 48_000, 384_000, 8, 32)
    head = b'RIFF' + struct.pack('<I', 36 + 4 * len(floats)) + b'WAVEfmt ' + format_
    sys.stdout.buffer.write(head + b'data' + struct.pack('<I', 4 * len(floats)) + floats.tobytes())


class Browser:
    """Without a sandbox, which a container's root can't have: the pages are our own, and need no network."""

    def __init__(self, program, profile):
        (theirs_in, self.to), (self.from_, theirs_out) = os.pipe(), os.pipe()
        # the browser reads what it is asked from 3, and answers to 4
        high_in, high_out = os.dup2(theirs_in, 60, inheritable=True), os.dup2(theirs_out, 61, inheritable=True)
        words = [program, '--headless', '--no-sandbox', '--disable-gpu', '--hide-scrollbars', '--mute-audio',
                 f'--user-data-dir={profile}', '--remote-debugging-pipe', 'about:blank']
        self.process = subprocess.Popen(words, stdout=subprocess.DEVNULL, stderr=subprocess.DEVNULL,
                                        pass_fds=(3, 4, high_in, high_out),
                                        preexec_fn=lambda: (os.dup2(high_in, 3), os.dup2(high_out, 4)))
        self.count, self.rest, self.session = 0, b'', None
        target = self.ask('Target.createTarget', url='about:blank')['targetId']
        self.session = self.ask('Target.attachToTarget', targetId=target, flatten=True)['sessionId']

    def ask(self, method, **parameters):
        self.count += 1
        question = {'id': self.count, 'method': method, 'params': parameters}
        if self.session:
            question['sessionId'] = self.session
        os.write(self.to, json.dumps(question).encode() + b'\0')
        while True:
            while b'\0' not in self.rest:
                part = os.read(self.from_, 1 << 20)
                if not part:
                    sys.exit('the browser is gone')
                self.rest += part
            line, self.rest = self.rest.split(b'\0', 1)
            answer = json.loads(line)
            if answer.get('id') == self.count:
                if 'error' in answer:
                    sys.exit(f'{method}: {answer["error"]}')
                return answer['result']

    def value(self, expression):
        answer = self.ask('Runtime.evaluate', expression=expression, returnByValue=True)
        if 'exceptionDetails' in answer:
            sys.exit(f'{expression}: {answer["exceptionDetails"]}')
        return answer['result'].get('value')

    def open(self, page, wide, high, phone, scheme, has_sound=True):
        self.ask('Emulation.setDeviceMetricsOverride', width=wide, height=high, deviceScaleFactor=1, mobile=phone)
        self.ask('Emulation.setEmulatedMedia', features=[{'name': 'prefers-color-scheme', 'value': scheme}])
        self.ask('Page.navigate', url=f'file://{page}')
        ready = "document.readyState == 'complete'"
        if has_sound:
            ready += " && [...document.querySelectorAll('audio')].every(a => a.readyState > 0)"
        for _ in range(100):
            if self.value(ready):
                return
            time.sleep(0.1)
        sys.exit(f'{page}: its players find no sound')

    def press(self, x, y):
        for kind in ('mousePressed', 'mouseReleased'):
            self.ask('Input.dispatchMouseEvent', type=kind, x=x, y=y, button='left', clickCount=1)
        time.sleep(0.3)

    def key(self, key, code):
        for kind in ('rawKeyDown', 'keyUp'):
            self.ask('Input.dispatchKeyEvent', type=kind, key=key, code=key, windowsVirtualKeyCode=code)
        time.sleep(0.3)


SMALLEST = """Math.min(...[...document.querySelectorAll('body *')]
  .filter(e => [...e.childNodes].some(n => n.nodeType == 3 && n.data.trim())
    && !['SCRIPT', 'TITLE', 'DESC'].includes(e.tagName.toUpperCase()))
  .map(e => parseFloat(getComputedStyle(e).fontSize)))"""
IN_SIGHT = """[...document.querySelectorAll('audio')].map(a => a.getBoundingClientRect())
  .every(r => r.left >= 0 && r.right <= innerWidth && r.width > 200)"""
FIRST_CARD = """[...document.querySelector('section').querySelectorAll('audio')]
  .every(a => a.getBoundingClientRect().bottom <= innerHeight)"""
PLAYING = """[...document.querySelectorAll('audio')].filter(a => !a.paused).length"""
STRIP = """(() => { const s = document.querySelectorAll('.strip input')[%d]; s.scrollIntoView({ block: 'center' });
  const r = s.getBoundingClientRect(), end = Number(s.max);
  return [r.left + r.width / 2, r.top + r.height / 2, end / 2, 3 * end / r.width, s.dataset.player]; })()"""


def look(program, profile, out, *pages):
    browser, wrong = Browser(program, profile), []

    def must(holds, what):
        if not holds:
            wrong.append(what)

    for name, page in (one.split('=', 1) for one in pages):
        for device, wide, high in (('desk', 1280, 1000), ('phone', 390, 844)):
            for scheme in ('light', 'dark'):
                which = f'{name}-{device}-{scheme}'
                browser.open(page, wide, high, device == 'phone', scheme)
                shot = browser.ask('Page.captureScreenshot', format='png')['data']
                with open(f'{out}/{which}.png', 'wb') as file:
                    file.write(base64.b64decode(shot))
                smallest = browser.value(SMALLEST)
                must(smallest >= 12, f'{which}: text of {smallest} px')
                inside = browser.value('document.documentElement.scrollWidth <= innerWidth')
                must(inside, f'{which}: wider than the screen')
                must(browser.value(IN_SIGHT) and browser.value(FIRST_CARD), f'{which}: a player is out of sight')
                heard = listen(browser, which, must)
                print(f'{out}/{which}.png: text of {smallest:.0f} px and more; {heard}')
    browser.process.terminate()
    for what in wrong:
        print(what)
    sys.exit(1 if wrong else 0)


def listen(browser, which, must):
    """Presses in the middle of each strip, then keys: the strip's player plays from there, and no other."""
    strips = browser.value("document.querySelectorAll('.strip input').length")
    for at in range(strips):
        # so many seconds are three pixels, the width of the line where the player stands
        x, y, middle, line, player = browser.value(STRIP % at)
        audio = f"document.getElementById('{player}')"
        browser.press(x, y)
        now, paused = browser.value(f'{audio}.currentTime'), browser.value(f'{audio}.paused')
        plays = f'{which}: a press in the middle of strip {at} plays {player} from {now} s, paused: {paused}'
        must(not paused and middle - line - 0.1 < now < middle + line + 2, plays)
        must(browser.value(PLAYING) == 1, f'{which}: two players at once')
        browser.key('Enter', 13)
        must(browser.value(f'{audio}.paused'), f'{which}: Enter does not stop {player}')
        before = browser.value(f'{audio}.currentTime')
        browser.key('ArrowLeft', 37)
        must(browser.value(f'{audio}.currentTime') < before, f'{which}: the arrow does not move {player}')
    # the players' own buttons, one after the other: each stops the one before it
    players = browser.value("document.querySelectorAll('audio').length")
    for at in range(players):
        browser.value(f"document.querySelectorAll('audio')[{at}].play().then(() => 0)")
        time.sleep(0.2)
        playing = browser.value("[...document.querySelectorAll('audio')].map(a => !a.paused)")
        must(playing.count(True) == 1 and playing[at], f'{which}: player {at} was started, and these play: {playing}')
    return f'{strips} strips played by presses and keys, {players} players one at a time'


PLAYS = """(() => { const a = document.getElementById('player'), c = document.querySelector('td.chosen');
  return [a.paused, a.currentTime, decodeURI(a.src), c && c.querySelector('.which').textContent,
    document.getElementById('now').textContent]; })()"""
CENTRE = """(() => { const e = document.querySelector('%s'); e.scrollIntoView({ block: 'center' });
  const r = e.getBoundingClientRect(); return [r.left + r.width / 2, r.top + r.height / 2]; })()"""


def look_at_day(program, profile, out, page):
    """The page of a day: pictures, then one press to hear the first word, and the keys."""
    browser, wrong = Browser(program, profile), []

    def must(holds, what):
        if not holds:
            wrong.append(what)

    for device, wide, high in (('desk', 1280, 1000), ('phone', 390, 844)):
        for scheme in ('light', 'dark'):
            which = f'day-{device}-{scheme}'
            browser.open(page, wide, high, device == 'phone', scheme, has_sound=False)
            smallest = browser.value(SMALLEST)
            must(smallest >= 12, f'{which}: text of {smallest} px')
            must(browser.value('document.documentElement.scrollWidth <= innerWidth'), f'{which}: wider than the screen')
            must(browser.value(IN_SIGHT), f'{which}: the player is out of sight')
            browser.press(*browser.value(CENTRE % 'button.word'))
            time.sleep(0.5)
            paused, at, src, side, now = browser.value(PLAYS)
            word = float(browser.value("document.querySelector('button.word').dataset.at"))
            must(not paused and word - 0.4 < at < word + 1.5, f'{which}: the first word plays from {at} s, {paused}')
            must(side.lower() in src and now.startswith(side), f'{which}: {side} plays {src}, and says {now}')
            for key, code in (('n', 78), ('n', 78), ('p', 80)):
                browser.key(key, code)
                time.sleep(0.3)
                paused, _, src, side, now = browser.value(PLAYS)
                is_own = side.lower() in src and now.startswith(side)
                must(not paused and is_own, f'{which}: {key}: {side} plays {src}, says {now}')
            cells = browser.value("[...document.querySelectorAll('button.all')].findIndex(b => b.closest('td.chosen'))")
            must(cells == 1, f'{which}: n, n and p lead to dictation {cells}')
            browser.key('b', 66)
            time.sleep(0.3)
            must('/before/' in browser.value(PLAYS)[2], f'{which}: b does not switch to the original')
            browser.key('b', 66)
            time.sleep(0.3)
            must('/before/' not in browser.value(PLAYS)[2], f'{which}: b does not switch back')
            browser.value("document.getElementById('player').pause(); scrollTo(0, 0)")
            shot = browser.ask('Page.captureScreenshot', format='png')['data']
            with open(f'{out}/{which}.png', 'wb') as file:
                file.write(base64.b64decode(shot))
            print(f'{out}/{which}.png: text of {smallest:.0f} px and more; first word, next, previous, before, after')
    browser.process.terminate()
    for what in wrong:
        print(what)
    sys.exit(1 if wrong else 0)


if __name__ == '__main__':
    command, *rest = sys.argv[1:]
    if command == 'sound':
        sound(rest[0], int(rest[1]))
    elif command == 'broken':
        broken(*rest)
    elif command == 'day':
        look_at_day(*rest)
    else:
        look(*rest)
