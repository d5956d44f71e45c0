// Keeps what a page paints. This runs in a page before its own scripts, and stands between them and the canvas: each rectangle with its
// colour and each text with its place goes to the record of its canvas, in dots. A paint begins with a rectangle over the whole canvas.
// What the page saves is kept here, and goes to no file.
(() => {
    'use strict';
    const context = CanvasRenderingContext2D.prototype;
    const { fillRect, fillText, clearRect, measureText } = context;
    // Whatever else paints, or bends what is painted: the check knows none of them, so a page that calls one is refused.
    const OTHERS = ['fill', 'stroke', 'strokeRect', 'strokeText', 'drawImage', 'putImageData', 'clip', 'drawFocusIfNeeded'];
    const records = new WeakMap();
    const blobs = new Map();
    let saved = null;

    // What a fault puts in the place of what the page does; see faults.js. Without a fault all stays as it is. `changed` counts what did not.
    const bend = {
        rectangle: (sides) => [sides],
        fill: (fill) => fill,
        text: (text) => text,
        place: (place) => place,
        saved: (text) => text,
        fragment: (text) => text,
        changed: 0,
    };

    // What a bend makes of something.
    function bent(name, what, ...more) {
        const made = bend[name](what, ...more);
        const isSame = name === 'rectangle' ? made.length === 1 && made[0] === what : made === what;
        if (!isSame) bend.changed++;
        return made;
    }

    function recordOf(canvas) {
        if (!records.has(canvas)) begin(canvas);
        return records.get(canvas);
    }

    function begin(canvas) {
        const { width, height } = canvas;
        records.set(canvas, { width, height, scale: 1, colours: [], rectangles: [], texts: [], others: [] });
    }

    // A number with as many digits as the comparison needs: a record goes through a pipe.
    function short(number) {
        return Math.round(number * 1e5) / 1e5;
    }

    function numberOf(record, colour) {
        const place = record.colours.lastIndexOf(colour);
        return place >= 0 ? place : record.colours.push(colour) - 1;
    }

    // The sides in dots.
    function placed(transform, [left, top, width, height]) {
        const { a, d, e, f } = transform;
        return [a * left + e, d * top + f, a * width, d * height].map(short);
    }

    function noteOddities(painter, transform, record) {
        const isPlain = painter.globalAlpha === 1 && painter.globalCompositeOperation === 'source-over' && painter.filter === 'none';
        if (!isPlain) record.others.push('alpha, composition or filter');
        if (transform.b !== 0 || transform.c !== 0 || transform.a !== transform.d) record.others.push('a turned or stretched picture');
    }

    function isWhole(canvas, [left, top, width, height]) {
        return left <= 0 && top <= 0 && left + width >= canvas.width && top + height >= canvas.height;
    }

    context.fillRect = function (...asked) {
        const transform = this.getTransform();
        const isPaper = isWhole(this.canvas, placed(transform, asked));
        if (isPaper) begin(this.canvas);
        const record = recordOf(this.canvas);
        if (isPaper) record.scale = transform.a;
        noteOddities(this, transform, record);
        const fill = this.fillStyle;
        if (!isPaper) this.fillStyle = bent('fill', fill, asked);
        for (const sides of isPaper ? [asked] : bent('rectangle', asked)) {
            record.rectangles.push(...placed(transform, sides), numberOf(record, this.fillStyle));
            fillRect.apply(this, sides);
        }
        this.fillStyle = fill;
    };

    context.fillText = function (asked, left, middle, ...rest) {
        const transform = this.getTransform();
        const record = recordOf(this.canvas);
        noteOddities(this, transform, record);
        const text = bent('text', asked);
        const { a, d, e, f } = transform;
        record.texts.push({
            text,
            left: short(a * left + e),
            middle: short(d * middle + f),
            width: short(a * measureText.call(this, text).width),
            ink: this.fillStyle,
            style: [this.font, this.textBaseline, this.textAlign, this.direction].join('; '),
            after: record.rectangles.length / 5,
        });
        fillText.call(this, text, left, middle, ...rest);
    };

    context.clearRect = function (...sides) {
        begin(this.canvas);
        clearRect.apply(this, sides);
    };

    for (const name of OTHERS) {
        const original = context[name];
        if (!original) continue;
        context[name] = function (...given) {
            recordOf(this.canvas).others.push(name);
            return original.apply(this, given);
        };
    }

    // What is saved goes nowhere.
    const createObjectURL = URL.createObjectURL.bind(URL);
    URL.createObjectURL = (blob) => {
        const address = createObjectURL(blob);
        blobs.set(address, blob);
        return address;
    };
    const click = HTMLElement.prototype.click;
    HTMLAnchorElement.prototype.click = function () {
        if (this.download) saved = { name: this.download, blob: blobs.get(this.href) };
        else click.call(this);
    };
    // A picture is kept as what was painted on its canvas. Making a PNG of it would take longer than all else.
    HTMLCanvasElement.prototype.toBlob = function () {
        saved = { name: 'picture.png', record: recordOf(this) };
    };

    function frame() {
        return new Promise((done) => requestAnimationFrame(() => setTimeout(done, 0)));
    }

    function byId(id) {
        return document.getElementById(id);
    }

    // What is painted on the screen now, and where.
    function seen() {
        const [picture, canvas] = [byId('picture'), byId('canvas')];
        const [area, shown] = [picture.getBoundingClientRect(), canvas.getBoundingClientRect()];
        return {
            ...recordOf(canvas),
            scrolled: picture.scrollTop,
            room: [picture.clientWidth, picture.clientHeight],
            shown: [shown.width, shown.height],
            origin: [area.left + picture.clientLeft, area.top + picture.clientTop],
            dots: window.devicePixelRatio,
            fragment: location.hash,
            axis: [...document.querySelectorAll('#axis:not([hidden]) span')].map((tick) => [
                tick.getBoundingClientRect().left - area.left - picture.clientLeft, tick.textContent]),
        };
    }

    function told() {
        const tip = byId('tip');
        const lines = tip.hidden ? [] : [...tip.querySelectorAll('p')].map((line) => line.textContent);
        return { lines, status: byId('status').textContent };
    }

    function point(kind, place) {
        const { origin } = seen();
        const [x, y] = bent('place', place);
        const where = { clientX: origin[0] + x, clientY: origin[1] + y, bubbles: true, cancelable: true, pointerId: 1, button: 0 };
        const event = kind.startsWith('pointer') ? new PointerEvent(kind, where) : new MouseEvent(kind, where);
        byId('picture').dispatchEvent(event);
    }

    window.recorder = {
        bend,
        seen,
        // What is seen after an action, when the frame after it is painted.
        async after(action) {
            await action();
            await frame();
            return seen();
        },
        // Goes to another address of the same document.
        go(asked) {
            const fragment = bent('fragment', asked);
            if (location.hash === fragment || (fragment === '#' && location.hash === '')) return Promise.resolve();
            const arrived = new Promise((done) => window.addEventListener('hashchange', done, { once: true }));
            location.hash = fragment;
            return arrived;
        },
        click(place) {
            for (const kind of ['pointermove', 'pointerdown', 'pointerup', 'click']) point(kind, place);
        },
        // What tip and status say at each place of the picture.
        tips(places) {
            const all = places.map((place) => {
                point('pointermove', place);
                return told();
            });
            byId('picture').dispatchEvent(new PointerEvent('pointerleave'));
            return all;
        },
        // What the button saves: the text of an SVG, or the record of a PNG's canvas.
        async saved(kind) {
            saved = null;
            byId(`save-${kind}`).click();
            await frame();
            return saved && (saved.record || bent('saved', await saved.blob.text()));
        },
        // The picture that is made for paper.
        printed() {
            window.dispatchEvent(new Event('beforeprint'));
            const text = new XMLSerializer().serializeToString(document.querySelector('#paper svg'));
            window.dispatchEvent(new Event('afterprint'));
            return text;
        },
    };
})();
