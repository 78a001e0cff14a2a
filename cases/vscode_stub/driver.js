// Starts the extension with a program and a text, and kills its server as soon as there are findings. Once the extension has started
// another server, prints what the extension shows: findings with their traces, the outline, and the page at the first finding.
'use strict';

const childProcess = require('child_process');
const Module = require('module');
const path = require('path');

const resolve = Module._resolveFilename;
Module._resolveFilename = (name, ...more) => (name === 'vscode' ? path.join(__dirname, 'vscode.js') : resolve(name, ...more));
const { registered, document } = require('vscode');

const spawn = childProcess.spawn;
const servers = [];
childProcess.spawn = (...given) => {
  servers.push(spawn(...given));
  return servers[servers.length - 1];
};

const subscriptions = [];
registered.found = async found => {
  if (servers.length === 1) {
    servers[0].kill('SIGKILL');
    return;
  }
  const [line, column] = found[0].range.ends;
  const place = range => `${range.ends[0] + 1}:${range.ends[1] + 1}`;
  for (const it of found) {
    console.log(`${place(it.range)} ${it.code.value} ${it.message}`);
    for (const note of it.relatedInformation) console.log(`  ${place(note.location.range)} ${note.message}`);
  }
  const within = it => (it.children && it.children.length ? ` (${outline(it.children)})` : '');
  const outline = them => them.map(it => `${it.kind} ${it.name}${within(it)}`).join(', ');
  console.log(outline(await registered.symbols.provideDocumentSymbols(document)));
  const hover = await registered.hover.provideHover(document, { line, character: column });
  console.log(hover.content.value.split('\n').find(line => line.startsWith('# ')));
  subscriptions.forEach(it => it && it.dispose && it.dispose());
};
require('../../editors/vscode/extension.js').activate({ subscriptions });
