// A page of which more is to come: it loads itself again. What is looked at is in its address, and so stays.

// For how long it is left as it is, from when it was shown or a reader last did something with it, in milliseconds.
const PAUSE = 2000;

// A page that nobody sees waits until somebody does.
function loadAgain() {
    if (document.hidden) document.addEventListener('visibilitychange', loadAgain, { once: true });
    else location.reload();
}

export function loadAgainSoon() {
    let waiting = window.setTimeout(loadAgain, PAUSE);
    const wait = () => {
        clearTimeout(waiting);
        waiting = window.setTimeout(loadAgain, PAUSE);
    };
    for (const kind of ['keydown', 'pointerdown', 'pointermove', 'wheel']) document.addEventListener(kind, wait, { passive: true });
}
