'use strict';
// A press in a picture, or on a time, plays from there; the line in the picture is where the player stands. Without
// this the players do all the same.
const player = element => document.getElementById(element.dataset.player);
const clock = at => Math.floor(at / 60) + ':' + String(Math.floor(at % 60)).padStart(2, '0');

// One player at a time, whatever starts it: both benches at once would be one voice over the other.
const players = [...document.querySelectorAll('audio')];
for (const audio of players)
  audio.addEventListener('play', () => { for (const other of players) if (other !== audio) other.pause(); });

function play(audio, at) {
  audio.currentTime = at;
  audio.play();
}

for (const slider of document.querySelectorAll('.strip input')) {
  const audio = player(slider), end = Number(slider.max);
  const step = Math.min(5, Math.max(0.1, end / 100));
  const steps = { ArrowLeft: -1, ArrowDown: -1, ArrowRight: 1, ArrowUp: 1, PageDown: -10, PageUp: 10 };
  const tell = () => slider.setAttribute('aria-valuetext', clock(slider.value) + ' of ' + clock(end));
  slider.hidden = false;
  tell();
  slider.addEventListener('input', () => { audio.currentTime = Number(slider.value); tell(); });
  slider.addEventListener('click', () => play(audio, Number(slider.value)));
  slider.addEventListener('keydown', event => {
    if (event.key === ' ' || event.key === 'Enter') {
      if (audio.paused) play(audio, audio.currentTime); else audio.pause();
    } else if (event.key in steps) {
      audio.currentTime = Math.min(end, Math.max(0, audio.currentTime + step * steps[event.key]));
    } else return;
    event.preventDefault();
  });
  audio.addEventListener('timeupdate', () => { slider.value = audio.currentTime; tell(); });
}

// from a little before the first voice, so that its first sound is not lost
for (const button of document.querySelectorAll('button[data-at]'))
  button.addEventListener('click', () => play(player(button), Math.max(0, Number(button.dataset.at) - 0.3)));

for (const time of document.querySelectorAll('time'))
  time.textContent = new Date(time.dateTime).toLocaleString([], { dateStyle: 'medium', timeStyle: 'short' });
