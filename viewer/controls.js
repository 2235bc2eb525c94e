// The ways to go through a run: slider, buttons, keys, and playing.

import { byId, element } from "./panel.js";

/** How many rounds or steps a second there are to choose from. */
const SPEEDS = [1, 2, 5, 10, 30, 60, 200, 1000];

/** How many rounds or steps the page keys go. */
const PAGE = 10;

/** Elements that take keys for themselves. */
const TAKES_KEYS = "select, input[type=text]";

/** The controls of a run of so many places; `go` goes to one. */
export class Controls {
  constructor(last, go) {
    this.last = last;
    this.go = go;
    this.at = 0;
    this.isPlaying = false;
    this.slider = byId("slider");
    this.slider.max = String(last);
    this.slider.addEventListener("input", () => this.leap(Number(this.slider.value)));
    this.offerSpeeds();
    this.bindButtons();
    document.addEventListener("keydown", (event) => this.key(event));
  }

  /** Fills the choice of speeds; what is chosen at first comes to the end within half a minute where it can. */
  offerSpeeds() {
    const speeds = SPEEDS.filter((speed) => speed <= 60 || speed <= this.last);
    const suits = speeds.find((speed) => speed >= 2 && this.last / speed <= 25) || speeds[speeds.length - 1];
    const options = speeds.map((speed) => {
      const option = element("option", `${speed} a second`);
      option.value = String(speed);
      option.selected = speed === suits;
      return option;
    });
    byId("speed").replaceChildren(...options);
  }

  bindButtons() {
    byId("first").addEventListener("click", () => this.leap(0));
    byId("back").addEventListener("click", () => this.leap(this.at - 1));
    byId("on").addEventListener("click", () => this.leap(this.at + 1));
    byId("last").addEventListener("click", () => this.leap(this.last));
    byId("play").addEventListener("click", () => this.toggle());
  }

  /** Goes to a place, and stops playing. */
  leap(at) {
    this.stop();
    this.go(at);
  }

  /** What is shown now, in words for the slider. */
  tell(at, words) {
    this.at = at;
    this.slider.value = String(at);
    this.slider.setAttribute("aria-valuetext", words);
    byId("first").disabled = at === 0;
    byId("back").disabled = at === 0;
    byId("on").disabled = at === this.last;
    byId("last").disabled = at === this.last;
  }

  /** Does what a key says; arrows on the slider do the same. */
  key(event) {
    const ways = { ArrowLeft: -1, ArrowRight: 1, PageUp: -PAGE, PageDown: PAGE, Home: -Infinity, End: Infinity };
    if (event.altKey || event.ctrlKey || event.metaKey || event.target.closest(TAKES_KEYS)) {
      return;
    }
    if (event.key === " " && !event.target.closest("button, summary, input[type=checkbox]")) {
      event.preventDefault();
      this.toggle();
    } else if (event.key in ways) {
      event.preventDefault();
      this.leap(Math.max(0, Math.min(this.last, this.at + ways[event.key])));
    }
  }

  /** Plays or pauses; at the end it begins anew. */
  toggle() {
    if (this.isPlaying) {
      this.stop();
      return;
    }
    if (this.at === this.last) {
      this.go(0);
    }
    this.isPlaying = true;
    this.due = 0;
    this.before = performance.now();
    byId("play").textContent = "Pause";
    requestAnimationFrame((now) => this.tick(now));
  }

  stop() {
    this.isPlaying = false;
    byId("play").textContent = "Play";
  }

  /** Goes on by as many places as are due by now. */
  tick(now) {
    if (!this.isPlaying) {
      return;
    }
    this.due += (Math.max(0, Math.min(now - this.before, 500)) / 1000) * Number(byId("speed").value);
    this.before = now;
    const places = Math.floor(this.due);
    this.due -= places;
    if (places > 0) {
      this.go(this.at + places);
    }
    if (this.at >= this.last) {
      this.stop();
    } else {
      requestAnimationFrame((later) => this.tick(later));
    }
  }
}
