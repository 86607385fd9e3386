"use strict";
// The picture: lanes as rows, and in each column a packet, a call or a step of a call. A step's line goes through all lanes, so that
// each packet stands wholly before or behind it.

const LEFT = 58, TOP = 40, BOTTOM = 10, NEAREST = 34;
const KINDS = ["sent", "dropped", "in", "answered", "refused"];
const KIND_WORDS = ["packet that left", "packet that was dropped", "packet that went to a controller", "call that was answered OK",
  "call of which something was refused"];
const SENT = 0, DROPPED = 1, IN = 2, ANSWERED = 3, REFUSED = 4;

function colours() {
  const style = getComputedStyle(document.documentElement);
  const found = {};
  for (const name of ["paper", "ink", "quiet", "line", "band", "step", "dim", "open", ...KINDS]) {
    found[name] = style.getPropertyValue("--" + name).trim();
  }
  return found;
}

/** Sets a canvas to its size on the page, in the screen's own dots, and gives what draws on it. */
function prepared(canvas, width, height) {
  const dots = window.devicePixelRatio || 1;
  canvas.width = Math.round(width * dots);
  canvas.height = Math.round(height * dots);
  canvas.style.height = height + "px";
  const pen = canvas.getContext("2d");
  pen.setTransform(dots, 0, 0, dots, 0, 0);
  return pen;
}

/** Draws the mark of a kind: a disc, a cross, a triangle, a square, a square with a cross. They differ without colours, too. */
function drawMark(pen, kind, x, y, half, colour) {
  pen.fillStyle = pen.strokeStyle = colour;
  pen.lineWidth = Math.max(1.2, half / 3.5);
  pen.beginPath();
  if (kind === SENT) {
    pen.arc(x, y, half, 0, 2 * Math.PI);
    pen.fill();
  } else if (kind === IN) {
    pen.moveTo(x, y - half);
    pen.lineTo(x + half, y + half);
    pen.lineTo(x - half, y + half);
    pen.fill();
  } else if (kind === ANSWERED) {
    pen.fillRect(x - half, y - half, 2 * half, 2 * half);
  } else {
    if (kind === REFUSED) pen.rect(x - half, y - half, 2 * half, 2 * half);
    pen.moveTo(x - half, y - half);
    pen.lineTo(x + half, y + half);
    pen.moveTo(x + half, y - half);
    pen.lineTo(x - half, y + half);
    pen.stroke();
  }
}

class Picture {
  constructor(canvas, overview, report, changed) {
    Object.assign(this, {canvas, overview, report, changed});
    this.first = 0;
    this.per = 1;
    this.open = -1;
    this.found = null;
    this.isDue = false;
    this.fit();
  }

  get width() { return this.canvas.parentElement.clientWidth || 900; }
  get row() { return this.report.lanes.length > 10 ? 24 : 46; }
  get height() { return TOP + this.report.lanes.length * this.row + BOTTOM; }
  get columns() { return this.report.order.length; }
  get farthest() { return Math.min(NEAREST, (this.width - LEFT - 12) / Math.max(1, this.columns)); }
  x(column) { return LEFT + (column + 0.5 - this.first) * this.per; }
  y(lane) { return TOP + (lane + 0.5) * this.row; }

  fit() {
    this.per = this.farthest;
    this.first = 0;
    this.redraw();
  }

  /** Shows so many pixels a column, with the column at x where it was. */
  zoom(per, x = (this.width + LEFT) / 2) {
    const column = this.first + (x - LEFT) / this.per;
    this.per = Math.max(this.farthest, Math.min(NEAREST, per));
    this.move(column - (x - LEFT) / this.per);
  }

  move(first) {
    const shown = (this.width - LEFT - 12) / this.per;
    this.first = Math.max(0, Math.min(first, this.columns - shown));
    this.redraw();
  }

  /** Moves so that a column is seen. */
  see(column) {
    const shown = (this.width - LEFT - 12) / this.per;
    if (column < this.first + 1 || column > this.first + shown - 2) this.move(column - shown / 2);
    this.redraw();
  }

  redraw() {
    if (this.isDue) return;
    this.isDue = true;
    requestAnimationFrame(() => {
      this.isDue = false;
      this.draw();
    });
  }

  draw() {
    const pen = prepared(this.canvas, this.width, this.height), colour = colours();
    const from = Math.max(0, Math.floor(this.first)), to = Math.min(this.columns, Math.ceil(this.first + (this.width - LEFT) / this.per));
    pen.fillStyle = colour.paper;
    pen.fillRect(0, 0, this.width, this.height);
    pen.save();
    pen.beginPath();
    pen.rect(LEFT, 0, this.width - LEFT, this.height);
    pen.clip();
    this.drawBands(pen, colour, from, to);
    this.drawRows(pen, colour);
    this.drawSteps(pen, colour, from, to);
    if (this.per >= 4) this.drawMarks(pen, colour, from, to);
    else this.drawCrowd(pen, colour, from, to);
    this.drawOpen(pen, colour);
    pen.restore();
    this.drawLanes(pen, colour);
    this.drawOverview(colour);
    this.changed();
  }

  /** The stretch behind every other step is shaded. */
  drawBands(pen, colour, from, to) {
    const steps = this.report.stepColumns;
    pen.fillStyle = colour.band;
    let at = firstFrom(steps, from) - 1;
    if (steps.length * this.per / Math.max(1, this.columns) > 0 && (to - from) / Math.max(1, firstFrom(steps, to) - at) * this.per < 3) return;
    for (; at < steps.length && (at < 0 || steps[at] < to); at++) {
      if (at < 0 || at % 2) continue;
      const left = this.x(steps[at]), right = at + 1 < steps.length ? this.x(steps[at + 1]) : this.x(this.columns);
      pen.fillRect(left, TOP - 4, right - left, this.height);
    }
  }

  drawRows(pen, colour) {
    pen.strokeStyle = colour.line;
    pen.lineWidth = 1;
    for (let lane = 0; lane < this.report.lanes.length; lane++) {
      pen.beginPath();
      pen.moveTo(LEFT, Math.round(this.y(lane)) + 0.5);
      pen.lineTo(this.width, Math.round(this.y(lane)) + 0.5);
      pen.stroke();
    }
  }

  /** A line for each step through all lanes, thicker for a batch, with its number and kind where there is room. */
  drawSteps(pen, colour, from, to) {
    const report = this.report, steps = report.stepColumns;
    let free = -Infinity, last = -Infinity;
    pen.strokeStyle = pen.fillStyle = colour.step;
    pen.font = "12px system-ui, 'DejaVu Sans', sans-serif";
    for (let at = firstFrom(steps, from); at < steps.length && steps[at] < to; at++) {
      const x = this.x(steps[at]), [number, kind, changes] = report.stepAt(steps[at]);
      const isBatch = kind === "batch";
      if (x - last >= 0.7 || isBatch) {
        pen.globalAlpha = isBatch ? 1 : 0.45;
        pen.lineWidth = isBatch ? Math.min(4, Math.max(1.5, this.per / 4)) : 1;
        pen.beginPath();
        pen.moveTo(x, TOP - 14);
        pen.lineTo(x, this.height);
        pen.stroke();
        last = x;
      }
      pen.globalAlpha = 1;
      const text = isBatch ? `${number} batch of ${changes}` : `${number} ${kind}`, short = String(number);
      const chosen = [text, short].find((it) => x - pen.measureText(it).width / 2 >= free);
      const room = at + 1 < steps.length ? this.x(steps[at + 1]) - x : Infinity;
      const shown = chosen === text && room < pen.measureText(text).width && !isBatch ? short : chosen;
      if (shown && x - pen.measureText(shown).width / 2 >= free) {
        const wide = pen.measureText(shown).width;
        pen.fillText(shown, x - wide / 2, TOP - 20);
        free = x + wide / 2 + 10;
      }
    }
  }

  drawMarks(pen, colour, from, to) {
    const report = this.report, half = Math.min(this.per * 0.36, this.row * 0.26, 8);
    for (let column = from; column < to; column++) {
      const kind = report.kind[column];
      const isFound = !this.found || this.found[column];
      drawMark(pen, kind, this.x(column), this.y(report.lane[column]), half, isFound ? colour[KINDS[kind]] : colour.dim);
    }
  }

  /** Where there are several columns a pixel: a bar for each pixel and lane, with a part for each kind. */
  drawCrowd(pen, colour, from, to) {
    const report = this.report, lanes = report.lanes.length, parts = KINDS.length + 1;
    const pixels = Math.ceil(this.width), counts = new Uint32Array(pixels * lanes * parts);
    for (let column = from; column < to; column++) {
      const x = Math.floor(LEFT + (column - this.first) * this.per);
      if (x < LEFT || x >= pixels) continue;
      const part = !this.found || this.found[column] ? report.kind[column] : KINDS.length;
      counts[(x * lanes + report.lane[column]) * parts + part]++;
    }
    const full = this.row * 0.62, wide = Math.max(1, Math.ceil(this.per));
    for (let x = LEFT; x < pixels; x++) {
      for (let lane = 0; lane < lanes; lane++) {
        this.drawBar(pen, colour, counts, (x * lanes + lane) * parts, x, this.y(lane) + full / 2, full, wide);
      }
    }
  }

  drawBar(pen, colour, counts, at, x, bottom, full, wide) {
    let all = 0;
    for (let part = 0; part <= KINDS.length; part++) all += counts[at + part];
    if (!all) return;
    let y = bottom;
    for (let part = 0; part <= KINDS.length; part++) {
      if (!counts[at + part]) continue;
      const high = Math.max(part < KINDS.length ? 2 : 0, full * counts[at + part] / all);
      pen.fillStyle = part < KINDS.length ? colour[KINDS[part]] : colour.dim;
      pen.fillRect(x, y - high, wide, high);
      y -= high;
    }
  }

  drawOpen(pen, colour) {
    if (this.open < 0) return;
    const x = this.x(this.open), y = this.y(this.report.lane[this.open]), half = Math.max(7, Math.min(this.per * 0.55, this.row * 0.4));
    pen.strokeStyle = colour.open;
    pen.lineWidth = 3;
    pen.strokeRect(x - half, y - half, 2 * half, 2 * half);
  }

  drawLanes(pen, colour) {
    pen.fillStyle = colour.ink;
    pen.font = "13px system-ui, 'DejaVu Sans', sans-serif";
    pen.textBaseline = "middle";
    this.report.lanes.forEach((name, lane) => pen.fillText(name, 12, this.y(lane)));
    pen.fillStyle = colour.quiet;
    pen.font = "12px system-ui, 'DejaVu Sans', sans-serif";
    pen.fillText("steps", 12, TOP - 24);
    pen.textBaseline = "alphabetic";
  }

  /** The whole run, small, with a frame around what is shown. */
  drawOverview(colour) {
    const width = this.overview.clientWidth || this.width, height = 30, pen = prepared(this.overview, width, height);
    pen.fillStyle = colour.paper;
    pen.fillRect(0, 0, width, height);
    const seen = new Uint8Array(Math.ceil(width) + 1), scale = width / Math.max(1, this.columns);
    for (let column = 0; column < this.columns; column++) {
      if (!this.found || this.found[column]) seen[Math.floor(column * scale)] |= 1 << this.report.kind[column];
    }
    for (let x = 0; x < seen.length; x++) {
      for (let kind = 0; kind < KINDS.length; kind++) {
        if (!(seen[x] & 1 << kind)) continue;
        pen.fillStyle = colour[KINDS[kind]];
        pen.fillRect(x, 4 + kind * 5, Math.max(1, scale), 4);
      }
    }
    pen.strokeStyle = colour.open;
    pen.lineWidth = 2;
    const shown = (this.width - LEFT - 12) / this.per;
    pen.strokeRect(this.first * scale + 1, 1, Math.max(4, Math.min(shown, this.columns) * scale - 2), height - 2);
  }

  /** The column of what is at a place of the picture, the nearest of its lane, or -1. */
  at(x, y) {
    const lane = Math.floor((y - TOP) / this.row), column = Math.floor(this.first + (x - LEFT) / this.per);
    if (x < LEFT || !this.columns) return -1;
    if (y < TOP) return this.nearest(column, (it) => this.report.isStep(it));
    const reach = Math.ceil(12 / this.per);
    return this.nearest(column, (it) => this.report.lane[it] === lane && (!this.found || this.found[it]), reach)
      ?? this.nearest(column, (it) => this.report.lane[it] === lane, reach) ?? -1;
  }

  nearest(column, fits, reach = this.columns) {
    for (let far = 0; far <= reach; far++) {
      for (const it of [column - far, column + far]) {
        if (it >= 0 && it < this.columns && fits(it)) return it;
      }
    }
    return undefined;
  }
}

/** The place of the first of rising numbers that is not below one. */
function firstFrom(numbers, least) {
  let low = 0, high = numbers.length;
  while (low < high) {
    const middle = low + high >> 1;
    if (numbers[middle] < least) low = middle + 1;
    else high = middle;
  }
  return low;
}
