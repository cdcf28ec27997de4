/** A worker of a browser that runs the programs. */
import { work } from './worker.js';

work();
