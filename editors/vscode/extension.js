// Starts the language server of this repository, tools/lsp, and shows what it reports. This file reads and writes the protocol's messages
// itself, so the extension needs no packages.
'use strict';

const childProcess = require('child_process');
const fs = require('fs');
const path = require('path');
const vscode = require('vscode');

const LANGUAGE = 'sing';
const SERVER = path.join(fs.realpathSync(__dirname), '..', '..', 'tools', 'lsp');
const STARTS = 5; // how many times the server is started if it keeps ending by itself
const KINDS = { 5: 'Class', 6: 'Method', 11: 'Interface', 22: 'EnumMember', 23: 'Struct', 24: 'Event' };

/** The server process: takes requests and returns their answers; notifications go in both directions. */
class Server {
  constructor(words, notified, ended) {
    this.child = childProcess.spawn(words[0], words.slice(1), { stdio: ['pipe', 'pipe', 'ignore'] });
    this.over = false;
    this.waiting = new Map();
    this.number = 0;
    this.data = Buffer.alloc(0);
    this.notified = notified;
    this.child.on('error', ended);
    this.child.on('exit', () => {
      this.over = true;
      this.waiting.forEach(answer => answer(null));
      ended(null);
    });
    this.child.stdin.on('error', () => {}); // the event 'exit' reports that the server has ended
    this.child.stdout.on('data', data => this.take(data));
  }

  take(data) {
    this.data = Buffer.concat([this.data, data]);
    for (;;) {
      const front = this.data.indexOf('\r\n\r\n');
      const size = front < 0 ? null : /Content-Length: *(\d+)/i.exec(this.data.toString('latin1', 0, front));
      if (!size || this.data.length < front + 4 + Number(size[1])) return;
      const body = this.data.subarray(front + 4, front + 4 + Number(size[1]));
      this.data = this.data.subarray(front + 4 + Number(size[1]));
      this.receive(JSON.parse(body.toString('utf8')));
    }
  }

  receive(message) {
    if (message.method) {
      this.notified(message.method, message.params);
      return;
    }
    const answer = this.waiting.get(message.id);
    this.waiting.delete(message.id);
    if (answer) answer(message.error ? null : message.result);
  }

  write(message) {
    const body = Buffer.from(JSON.stringify({ jsonrpc: '2.0', ...message }), 'utf8');
    this.child.stdin.write(`Content-Length: ${body.length}\r\n\r\n`);
    this.child.stdin.write(body);
  }

  tell(method, params) {
    this.write({ method, params });
  }

  /** Resolves to the result, or to null if the server reports an error or has ended. */
  ask(method, params) {
    if (this.over) return Promise.resolve(null);
    const id = (this.number += 1);
    return new Promise(answer => {
      this.waiting.set(id, answer);
      this.write({ id, method, params });
    });
  }
}

const toRange = it => new vscode.Range(it.start.line, it.start.character, it.end.line, it.end.character);

const at = (document, position) => ({
  textDocument: { uri: document.uri.toString() },
  position: { line: position.line, character: position.character },
});

const toRelated = it => new vscode.DiagnosticRelatedInformation(
  new vscode.Location(vscode.Uri.parse(it.location.uri), toRange(it.location.range)), it.message);

function toDiagnostic(it) {
  const made = new vscode.Diagnostic(toRange(it.range), it.message, vscode.DiagnosticSeverity.Error);
  made.relatedInformation = (it.relatedInformation || []).map(toRelated);
  made.source = it.source;
  made.code = it.codeDescription ? { value: it.code, target: vscode.Uri.parse(it.codeDescription.href) } : it.code;
  return made;
}

function toSymbol(it) {
  const kind = vscode.SymbolKind[KINDS[it.kind]];
  const made = new vscode.DocumentSymbol(it.name, '', kind, toRange(it.range), toRange(it.selectionRange));
  made.children = it.children.map(toSymbol);
  return made;
}

function activate(context) {
  const found = vscode.languages.createDiagnosticCollection('singcheck');
  const asked = vscode.workspace.getConfiguration('singcheck').get('program');
  let server = null;
  let starts = 0;
  let over = false;
  const notified = (method, params) => {
    if (method === 'textDocument/publishDiagnostics') found.set(vscode.Uri.parse(params.uri), params.diagnostics.map(toDiagnostic));
    if (method === 'window/showMessage') vscode.window.showErrorMessage(params.message);
  };
  const ended = error => {
    found.clear();
    if (over) return;
    if (error) vscode.window.showErrorMessage(`singcheck: ${SERVER} cannot be started: ${error.message}`);
    else if (starts < STARTS) start();
    else vscode.window.showErrorMessage(`singcheck: ${SERVER} has ended ${starts} times, so nothing is checked any more`);
  };
  const ours = document => document.languageId === LANGUAGE;
  const open = document => ours(document) && server.tell('textDocument/didOpen', { textDocument: {
    uri: document.uri.toString(), languageId: LANGUAGE, version: document.version, text: document.getText() } });
  const named = document => ({ textDocument: { uri: document.uri.toString(), version: document.version } });

  const start = () => {
    starts += 1;
    const its = new Server(asked ? [SERVER, '--program', asked] : [SERVER], notified, ended);
    server = its;
    its.ask('initialize', { processId: process.pid, rootUri: null, capabilities: {
      general: { positionEncodings: ['utf-16'] }, textDocument: { publishDiagnostics: { relatedInformation: true } } } })
      .then(able => {
        if (!able) return;
        its.tell('initialized', {});
        vscode.workspace.textDocuments.forEach(open);
      });
  };

  start();
  context.subscriptions.push(
    vscode.workspace.onDidOpenTextDocument(open),
    vscode.workspace.onDidChangeTextDocument(({ document }) => ours(document) && server.tell('textDocument/didChange', {
      ...named(document), contentChanges: [{ text: document.getText() }] })),
    vscode.workspace.onDidSaveTextDocument(document => ours(document) && server.tell('textDocument/didSave', named(document))),
    vscode.workspace.onDidCloseTextDocument(document => ours(document) && server.tell('textDocument/didClose', named(document))),
    vscode.languages.registerHoverProvider(LANGUAGE, { provideHover: async (document, position) => {
      const it = await server.ask('textDocument/hover', at(document, position));
      return it && new vscode.Hover(new vscode.MarkdownString(it.contents.value));
    } }),
    vscode.languages.registerDefinitionProvider(LANGUAGE, { provideDefinition: async (document, position) => {
      const them = await server.ask('textDocument/definition', at(document, position));
      return (them || []).map(it => new vscode.Location(document.uri, toRange(it.range)));
    } }),
    vscode.languages.registerDocumentSymbolProvider(LANGUAGE, { provideDocumentSymbols: async document => {
      const them = await server.ask('textDocument/documentSymbol', { textDocument: { uri: document.uri.toString() } });
      return (them || []).map(toSymbol);
    } }));
  context.subscriptions.push(found, { dispose: () => {
    over = true;
    server.ask('shutdown').then(() => server.tell('exit'));
  } });
}

module.exports = { activate };
