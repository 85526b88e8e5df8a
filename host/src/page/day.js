'use strict';
// One player for all dictations. A press plays from the first word or from the start; keys go to the next and the
// previous.
const audio = document.getElementById('player'), now = document.getElementById('now');
const toggle = document.getElementById('switch');
// one for each dictation: its cell, the button for all of it, and the one for its first word if a voice was found
const all = [...document.querySelectorAll('button.all')].map(button => {
  const cell = button.closest('td');
  return { cell, whole: button, word: cell.querySelector('button.word') || button };
});
let chosen = -1, original = false;

function tell() {
  const { side, hour } = all[chosen].whole.dataset;
  now.textContent = side.toUpperCase() + ', ' + hour + ', ' + (original ? 'before' : 'after') + ' cleaning';
  for (const [at, one] of all.entries()) {
    one.cell.classList.toggle('chosen', at === chosen);
    if (at === chosen) one.cell.setAttribute('aria-current', 'true'); else one.cell.removeAttribute('aria-current');
  }
  toggle.setAttribute('aria-pressed', original);
}

// the file as it was, if that is asked for and kept
function source(button) {
  original = original && 'before' in button.dataset;
  toggle.hidden = !('before' in button.dataset);
  return original ? button.dataset.before : button.dataset.src;
}

function play(at, from) {
  audio.src = source(all[at].whole);
  audio.currentTime = from;
  chosen = at;
  tell();
  audio.play();
}

// from a little before the first voice, so that its first sound is not lost
const word = at => play(at, Math.max(0, Number(all[at].word.dataset.at) - 0.3));

function go(step) {
  const at = chosen + step;
  if (at < 0 || at >= all.length) return;
  word(at);
  all[at].cell.scrollIntoView({ block: 'nearest' });
}

function other() {
  if (chosen < 0 || toggle.hidden) return;
  const at = audio.currentTime;
  original = !original;
  play(chosen, at);
}

for (const [at, one] of all.entries()) {
  one.whole.addEventListener('click', () => play(at, 0));
  if (one.word !== one.whole) one.word.addEventListener('click', () => word(at));
}
const first = () => { if (all.length) word(Math.max(0, chosen)); };
const keys = { n: () => go(1), p: () => go(-1), w: first, b: other };
const buttons = { next: keys.n, previous: keys.p, word: keys.w, switch: keys.b };
for (const [id, press] of Object.entries(buttons)) document.getElementById(id).addEventListener('click', press);
document.addEventListener('keydown', event => {
  const press = keys[event.key.toLowerCase()];
  if (!press || event.ctrlKey || event.altKey || event.metaKey) return;
  event.preventDefault();
  press();
});
