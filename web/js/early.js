/** The page's first script. It holds what is asked before the page is ready, and says that the page is loading. */
'use strict';
{
    const root = document.documentElement, state = document.getElementById('state');
    /** @type {HTMLElement[]} */
    const held = [];
    const words = new Map([['en', 'Loading'], ['nl', 'Laden'], ['fr', 'Chargement'], ['ru', 'Загрузка']]);
    const hold = (/** @type {Event} */ event) => {
        const target = event.target instanceof Element ? event.target.closest('form, button') : null;
        if (root.dataset.ready || !(target instanceof HTMLElement)) return;
        if (event.type === 'submit') event.preventDefault();
        else if (target.getAttribute('type') !== 'button') return;
        event.stopImmediatePropagation();
        held.push(target);
    };
    for (const kind of ['click', 'submit']) document.addEventListener(kind, hold, true);
    addEventListener('ready', () => {
        for (const target of held.splice(0)) {
            if (target instanceof HTMLFormElement) target.requestSubmit();
            else target.click();
        }
    });
    if (state) state.textContent = `${words.get((navigator.languages[0] ?? '').slice(0, 2)) ?? words.get('en')}…`;
}
