#!/usr/bin/env node
const [major] = process.versions.node.split('.').map(Number);
if (major < 18) {
    console.error('dw: node 18 or newer is needed; this is node ' + process.versions.node);
    process.exit(3);
}
import('./program.js').then(({ run }) => run('dw'));
