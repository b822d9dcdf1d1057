// Runs a script in Node: node host/node.js SCRIPT
// It gives the script its $host: write(text) writes a text to standard output in UTF-8, and line() answers the next
// line of standard input with its newline where it has one, null at the end. An exception that nothing caught is told
// on standard error with status 1, as `opal exec` tells it.
'use strict';
const fs = require('fs');

const decoder = new TextDecoder('utf-8', { fatal: true, ignoreBOM: true });
const chunk = Buffer.alloc(65536);
let rest = '';
let ended = false;

// Another piece of the input.
function readMore() {
  const count = fs.readSync(0, chunk);
  ended = count === 0;
  rest += ended ? decoder.decode() : decoder.decode(chunk.subarray(0, count), { stream: true });
}

const host = {
  write(text) {
    // A surrogate without a partner becomes U+FFFD.
    let bytes = Buffer.from(text, 'utf8');
    while (bytes.length > 0) {
      try {
        bytes = bytes.subarray(fs.writeSync(1, bytes));
      } catch (error) {
        if (error.code !== 'EAGAIN') throw error;
      }
    }
  },
  line() {
    let end = rest.indexOf('\n');
    while (end < 0 && !ended) {
      readMore();
      end = rest.indexOf('\n');
    }
    const line = end < 0 ? rest : rest.slice(0, end + 1);
    rest = rest.slice(line.length);
    return line === '' ? null : line;
  },
};

// The own text of a thrown object under a name, or another.
function ownText(thrown, name, other) {
  const own = Object(thrown) === thrown && Object.prototype.hasOwnProperty.call(thrown, name);
  return own && typeof thrown[name] === 'string' ? thrown[name] : other;
}

const script = new Function('$host', fs.readFileSync(process.argv[2], 'latin1'));
try {
  script(host);
} catch (thrown) {
  process.stderr.write(`uncaught: ${ownText(thrown, 'name', 'Error')}: ${ownText(thrown, 'message', '')}\n`);
  process.exitCode = 1;
}
