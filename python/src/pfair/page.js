"use strict";
const part = name => document.getElementById(name);
const view = part("view"), glass = part("glass"), box = part("box"), picture = view.querySelector("svg");
const names = part("names").getContext("2d"), times = part("times").getContext("2d");
const number = (element, key) => Number(element.getAttribute(key));
const all = (selector, kind) => [...picture.querySelectorAll(selector)].map(kind);
const least = values => values.reduce((one, other) => Math.min(one, other), Infinity);
const most = values => values.reduce((one, other) => Math.max(one, other), -Infinity);

// The picture's own measures: its size, the edges of its chart, where its times stand, and the names beside its rows.
const size = { x: number(picture, "width"), y: number(picture, "height") };
const lineOf = line => ({ x: number(line, "x1"), top: number(line, "y1"), bottom: number(line, "y2") });
const lines = all("line.grid, line.tick", lineOf);
const left = least(lines.map(line => line.x)), right = most(lines.map(line => line.x));
const upper = least(lines.map(line => line.top)), lower = most(lines.map(line => line.bottom));
const tickOf = text => ({ x: number(text, "x"), y: number(text, "y"), time: Number(text.textContent) });
const scale = all("text.scale", tickOf);
const lowest = most(scale.map(tick => tick.y)), ticks = scale.filter(tick => tick.y === lowest);
const first = ticks[0], last = ticks[ticks.length - 1], wide = (last.x - first.x) / (last.time - first.time);
const sideOf = text => ({
    x: number(text, "x"), y: number(text, "y"), said: text.firstChild.data, kind: text.getAttribute("class"),
});
const sides = all("text.name, text.absent, text.side", sideOf)
    .filter(side => side.x < left && side.y > upper && side.y < lower);
const COLOURS = { name: "#1f2933", absent: "#8a94a1", side: "#5b6673" };
const FONTS = { name: ["bold", 11], absent: ["", 11], side: ["", 10] };
const HIGH = 20, EDGE = 12, LARGEST = 32, FAR = 50, SQUARE = 64;

// Where the picture's corner is, how many times larger it is, and how many times it was when it was last drawn sharp.
let at = { x: 0, y: 0 }, zoom = 1, sharp = 1, room = { x: 0, y: 0 }, held = null, shapes = null, frame = 0, idle = 0;

function within(place, length, space) {
    return length <= space ? 0 : Math.min(0, Math.max(place, space - length));
}

// A strip along an edge: cleared and then white where it is to hide the picture, with the pen that writes on it.
function strip(pen, white) {
    pen.clearRect(0, 0, room.x, room.y);
    pen.fillStyle = "#fff";
    pen.fillRect(white.x, white.y, white.width, white.height);
}

function fit(pen, width, height) {
    const sheet = pen.canvas, dots = window.devicePixelRatio || 1;
    sheet.width = Math.ceil(width * dots);
    sheet.height = Math.ceil(height * dots);
    sheet.style.width = width + "px";
    sheet.style.height = height + "px";
    pen.scale(dots, dots);
}

// The names beside the rows, once the picture's own are out of sight.
function drawNames() {
    const small = Math.min(1, zoom);
    const top = Math.max(0, upper * zoom + at.y), end = Math.min(room.y, lower * zoom + at.y);
    names.canvas.hidden = left * zoom + at.x >= left * small || end <= top;
    if (names.canvas.hidden) {
        return;
    }
    strip(names, { x: 0, y: top, width: left * small, height: end - top });
    names.textAlign = "right";
    for (const side of sides) {
        const y = side.y * zoom + at.y;
        if (y > top && y < end + HIGH) {
            const [form, high] = FONTS[side.kind];
            names.font = `${form} ${high * small}px Helvetica, Arial, sans-serif`;
            names.fillStyle = COLOURS[side.kind];
            names.fillText(side.said, side.x * small, y);
        }
    }
}

// The times along the top, once the picture's own are out of sight.
function drawTimes() {
    times.canvas.hidden = upper * zoom + at.y >= HIGH || lower * zoom + at.y <= HIGH;
    if (times.canvas.hidden) {
        return;
    }
    const begin = left * zoom + at.x - EDGE, end = Math.min(room.x, right * zoom + at.x + EDGE);
    strip(times, { x: begin, y: 0, width: end - begin, height: HIGH });
    let step = 1;
    for (let turn = 0; step * wide * zoom < FAR; turn += 1) {
        step *= turn % 3 === 1 ? 2.5 : 2;
    }
    const where = time => (first.x + (time - first.time) * wide) * zoom + at.x;
    const shown = names.canvas.hidden ? 0 : left * Math.min(1, zoom);
    const earliest = Math.max(first.time, first.time + ((shown - at.x) / zoom - first.x) / wide);
    times.font = "10px Helvetica, Arial, sans-serif";
    times.textAlign = "center";
    times.fillStyle = COLOURS.side;
    for (let time = Math.ceil(earliest / step) * step; time <= last.time && where(time) <= end; time += step) {
        times.fillRect(where(time), HIGH - 4, 1, 4);
        times.fillText(String(time), where(time), HIGH - 7);
    }
}

function draw() {
    frame = 0;
    at.x = within(at.x, size.x * zoom, room.x);
    at.y = within(at.y, size.y * zoom, room.y);
    picture.style.transform = `translate3d(${at.x}px, ${at.y}px, 0) scale(${zoom})`;
    drawNames();
    drawTimes();
    if (zoom !== sharp) {
        // while the size changes what was drawn is stretched, unless that would show too little or take too much
        const isFar = zoom > 4 * sharp || 1.4 * zoom < sharp;
        picture.style.willChange = isFar ? "auto" : "transform";
        sharp = isFar ? zoom : sharp;
        clearTimeout(idle);
        idle = setTimeout(sharpen, 150);
    }
}

// The picture drawn anew in its present size, once that rests.
function sharpen() {
    sharp = zoom;
    picture.style.willChange = "auto";
}

function soon() {
    frame = frame || requestAnimationFrame(draw);
}

function move(x, y) {
    at.x += x;
    at.y += y;
    box.hidden = true;
    soon();
}

function enlarge(times, x, y) {
    const smallest = Math.min(1, room.x / size.x, room.y / size.y), before = zoom;
    zoom = Math.min(LARGEST, Math.max(smallest, zoom * times));
    at.x = x - (x - at.x) * zoom / before;
    at.y = y - (y - at.y) * zoom / before;
    box.hidden = true;
    soon();
}

// The shapes that say something, by the squares of the picture that they touch, in the order in which they are drawn.
function sayingShapes() {
    const squares = new Map();
    for (const title of picture.querySelectorAll(":scope > * title")) {
        const edge = title.parentNode.getBBox(), shape = { edge, said: title.textContent };
        for (let x = Math.floor(edge.x / SQUARE); x * SQUARE <= edge.x + edge.width; x += 1) {
            for (let y = Math.floor(edge.y / SQUARE); y * SQUARE <= edge.y + edge.height; y += 1) {
                const key = x * 65536 + y;
                squares.set(key, squares.get(key) || []);
                squares.get(key).push(shape);
            }
        }
    }
    return squares;
}

// What is said of the shape under the pointer, at once.
function tell(across, down) {
    shapes = shapes || sayingShapes();
    const x = (across - at.x) / zoom, y = (down - at.y) / zoom;
    const near = shapes.get(Math.floor(x / SQUARE) * 65536 + Math.floor(y / SQUARE)) || [];
    const isIn = ({ edge }) => edge.x <= x && x <= edge.x + edge.width && edge.y <= y && y <= edge.y + edge.height;
    const shape = near.findLast(isIn);
    box.hidden = !shape;
    if (shape) {
        box.textContent = shape.said;
        box.style.left = Math.max(0, Math.min(across + 14, room.x - box.offsetWidth - 4)) + "px";
        const isLow = down + 18 + box.offsetHeight > room.y;
        box.style.top = (isLow ? Math.max(0, down - 8 - box.offsetHeight) : down + 18) + "px";
    }
}

function resize() {
    room = { x: view.clientWidth, y: view.clientHeight };
    fit(names, left, room.y);
    fit(times, room.x, HIGH);
    soon();
}

const KEYS = {
    "+": () => enlarge(1.25, room.x / 2, room.y / 2),
    "=": () => enlarge(1.25, room.x / 2, room.y / 2),
    "-": () => enlarge(0.8, room.x / 2, room.y / 2),
    "0": () => { zoom = 1; at = { x: 0, y: 0 }; soon(); },
    ArrowLeft: () => move(room.x / 8, 0),
    ArrowRight: () => move(-room.x / 8, 0),
    ArrowUp: () => move(0, room.y / 8),
    ArrowDown: () => move(0, -room.y / 8),
};

const title = picture.querySelector(":scope > title");
document.title = title ? title.textContent : document.title;
view.style.overflow = "hidden";
window.addEventListener("resize", resize);
window.addEventListener("keydown", event => {
    if (KEYS[event.key] && !event.ctrlKey && !event.metaKey && !event.altKey) {
        event.preventDefault();
        KEYS[event.key]();
    }
});
glass.addEventListener("wheel", event => {
    event.preventDefault();
    enlarge(Math.exp(-event.deltaY * (event.deltaMode ? 0.05 : 0.002)), event.clientX, event.clientY);
}, { passive: false });
glass.addEventListener("pointerdown", event => {
    glass.setPointerCapture(event.pointerId);
    glass.classList.add("held");
    held = { x: event.clientX, y: event.clientY };
});
glass.addEventListener("pointermove", event => {
    if (held) {
        move(event.clientX - held.x, event.clientY - held.y);
        held = { x: event.clientX, y: event.clientY };
    } else {
        tell(event.clientX, event.clientY);
    }
});
for (const end of ["pointerup", "pointercancel"]) {
    glass.addEventListener(end, () => {
        glass.classList.remove("held");
        held = null;
    });
}
glass.addEventListener("pointerleave", () => { box.hidden = true; });
resize();
view.focus();
