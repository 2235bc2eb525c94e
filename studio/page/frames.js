// The run in the middle: the page that `unison page` makes, in a frame. The next one is drawn out of sight first, so that nothing flickers.

import { element } from "./viewer/panel.js";

/** Waits until a window has drawn what it has. */
function drawn(window) {
  return new Promise((done) => {
    window.requestAnimationFrame(() => window.requestAnimationFrame(done));
    setTimeout(done, 400);
  });
}

/** Two frames, of which one is seen. */
export class Frames {
  constructor(host, ready) {
    this.host = host;
    this.ready = ready;
    this.frames = [0, 1].map(() => {
      const frame = element("iframe");
      frame.title = "The run: the network, its rounds, and the ways to go through them";
      frame.className = "waits";
      frame.tabIndex = -1;
      return frame;
    });
    host.replaceChildren(...this.frames);
    this.seen = this.frames[0];
    this.bytes = null;
    this.number = 0;
    this.turned = 0;
  }

  /** Whether a page is on its way that is not seen yet. */
  get isLoading() {
    return this.turned !== this.number;
  }

  /** The face of the page that is seen, or null. */
  get face() {
    const face = this.seen.contentWindow?.unison;
    return face && face.problem === null ? face : null;
  }

  /** What is chosen in the page that is seen, to be chosen in the next one. */
  get state() {
    const { face } = this;
    if (!face) {
      return null;
    }
    const part = (id) => this.seen.contentDocument.getElementById(id);
    const shown = face.shown();
    return { at: shown.at ?? shown.step ?? 0, last: face.last, manner: face.manner, field: part("field").value, chosen: part("find").value, isPlaying: face.isPlaying() };
  }

  /** Shows a page; `place` is where to go, or null for where the page before stands. */
  async show(bytes, place = null) {
    this.number += 1;
    const mine = this.number;
    const next = this.frames.find((frame) => frame !== this.seen);
    const address = URL.createObjectURL(new Blob([bytes], { type: "text/html" }));
    await new Promise((done) => {
      next.onload = done;
      next.src = address;
    });
    URL.revokeObjectURL(address);
    if (mine !== this.number) {
      return;
    }
    try {
      this.settle(next, place);
      await drawn(next.contentWindow);
    } finally {
      if (mine === this.number) {
        this.turn(next, bytes);
      }
    }
  }

  /** Lets the next page stand where the one before stands. */
  settle(next, place) {
    const before = this.state;
    const face = next.contentWindow.unison;
    if (!face || face.problem !== null) {
      return;
    }
    const field = next.contentDocument.getElementById("field");
    if (before && [...field.options].some((option) => option.value === before.field)) {
      face.field(Number(before.field));
    }
    if (before && before.manner === face.manner) {
      face.go(Math.min(place ?? before.at, face.last));
    } else if (place !== null) {
      face.go(Math.min(place, face.last));
    }
    if (before && before.isPlaying) {
      next.contentDocument.getElementById("play").click();
    }
  }

  /** Lets the next page be seen. */
  turn(next, bytes) {
    this.seen.className = "waits";
    this.seen.tabIndex = -1;
    next.className = "seen";
    next.tabIndex = 0;
    if (this.seen.contentWindow?.unison?.isPlaying?.()) {
      this.seen.contentDocument.getElementById("play").click();
    }
    Object.assign(this, { seen: next, bytes, turned: this.number });
    this.ready(this);
  }
}
