/** Where the tools below the board stand: after the answers in a small window, so that one asks without scrolling. */
import { byId } from './dom.js';

/** A window that has no room for two columns, or a low one, where the board fills the first of them. */
const SMALL = '(max-width: 719px), (max-height: 500px) and (orientation: landscape)';

/** Follows the size of the window. */
export function followWindow() {
    const small = matchMedia(SMALL), more = byId('setup-more'), panels = byId('panels');
    const place = () => {
        if (small.matches) panels.after(more);
        else byId('setup').append(more);
    };
    small.addEventListener?.('change', place);
    place();
}
