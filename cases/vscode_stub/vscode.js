// Replaces the editor's module `vscode` in a test: keeps what the extension registers, and prints the messages that it shows.
'use strict';

const fs = require('fs');

const registered = {};
const keep = name => made => {
  registered[name] = made;
  return { dispose() {} };
};
const parts = (...given) => given;
const text = fs.readFileSync(process.argv[3], 'utf8');
const document = { languageId: 'sing', version: 1, uri: { toString: () => 'file:///a.sg' }, getText: () => text };

module.exports = {
  registered,
  document,
  Range: function (...given) { this.ends = given; },
  Diagnostic: function (range, message) { Object.assign(this, { range, message }); },
  DiagnosticRelatedInformation: function (location, message) { Object.assign(this, { location, message }); },
  Hover: function (content) { this.content = content; },
  MarkdownString: function (value) { this.value = value; },
  Location: function (uri, range) { this.range = range; },
  DocumentSymbol: function (name, detail, kind) { Object.assign(this, { name, kind }); },
  DiagnosticSeverity: { Error: 0 },
  SymbolKind: { Class: 'class', Method: 'method', Interface: 'contract', EnumMember: 'state', Struct: 'struct', Event: 'message' },
  Uri: { parse: parts },
  languages: {
    createDiagnosticCollection: () => ({ set: (uri, found) => registered.found(found), clear() {} }),
    registerHoverProvider: (language, made) => keep('hover')(made),
    registerDefinitionProvider: (language, made) => keep('definition')(made),
    registerDocumentSymbolProvider: (language, made) => keep('symbols')(made),
  },
  workspace: {
    getConfiguration: () => ({ get: () => process.argv[2] }),
    textDocuments: [document],
    onDidOpenTextDocument: keep('open'),
    onDidChangeTextDocument: keep('change'),
    onDidSaveTextDocument: keep('save'),
    onDidCloseTextDocument: keep('close'),
  },
  window: { showErrorMessage: said => console.log(said) },
};
