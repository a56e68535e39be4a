// A client of `a2lab lsp` for VS Code, without packages: it starts the program, speaks the Language Server Protocol over its standard input
// and output, and offers what it answers through VS Code's own calls.
'use strict';
const vscode = require('vscode');
const {spawn} = require('child_process');

/** Speaks to a process in messages of JSON, each with its length before it. */
class Connection {
  constructor(process, heard) {
    this.process = process;
    this.heard = heard;
    this.kept = Buffer.alloc(0);
    this.waiting = new Map();
    this.number = 0;
    process.stdout.on('data', data => this.take(data));
    process.on('exit', () => this.waiting.forEach(({reject}) => reject(new Error('a2lab ended'))));
    process.stdin.on('error', () => {});
  }

  take(data) {
    this.kept = Buffer.concat([this.kept, data]);
    for (;;) {
      const end = this.kept.indexOf('\r\n\r\n');
      const length = end < 0 ? null : /Content-Length: *(\d+)/i.exec(this.kept.subarray(0, end).toString());
      if (!length || this.kept.length < end + 4 + Number(length[1])) return;
      const last = end + 4 + Number(length[1]);
      const message = JSON.parse(this.kept.subarray(end + 4, last).toString());
      this.kept = this.kept.subarray(last);
      this.answer(message);
    }
  }

  answer(message) {
    const asked = this.waiting.get(message.id);
    if (!asked) return this.heard(message);
    this.waiting.delete(message.id);
    if (message.error) asked.reject(new Error(message.error.message));
    else asked.resolve(message.result);
  }

  send(message) {
    const body = Buffer.from(JSON.stringify({jsonrpc: '2.0', ...message}));
    this.process.stdin.write(`Content-Length: ${body.length}\r\n\r\n`);
    this.process.stdin.write(body);
  }

  notify(method, params) {
    this.send({method, params});
  }

  ask(method, params) {
    const id = ++this.number;
    return new Promise((resolve, reject) => {
      this.waiting.set(id, {resolve, reject});
      this.send({id, method, params});
    });
  }
}

const range = ({start, end}) => new vscode.Range(start.line, start.character, end.line, end.character);
const place = ({line, character}) => ({line, character});
const spanOf = it => ({start: place(it.start), end: place(it.end)});
const location = it => new vscode.Location(vscode.Uri.parse(it.uri), range(it.range));
const edits = list => (list ?? []).map(it => new vscode.TextEdit(range(it.range), it.newText));
const markdown = ({value}) => new vscode.MarkdownString(value);

function workspaceEdit({changes}) {
  const edit = new vscode.WorkspaceEdit();
  for (const [uri, list] of Object.entries(changes)) edit.set(vscode.Uri.parse(uri), edits(list));
  return edit;
}

function diagnostic(it) {
  const made = new vscode.Diagnostic(range(it.range), it.message, it.severity - 1);
  made.source = it.source;
  made.code = it.code;
  return made;
}

/** Registers what the server can do for documents of the language. */
function providers(connection, legend) {
  const {languages} = vscode, files = {language: 'a2'};
  const of = document => ({textDocument: {uri: document.uri.toString()}});
  const at = (document, position) => ({...of(document), position: place(position)});
  const ask = (method, params) => connection.ask(`textDocument/${method}`, params);
  return [
    languages.registerHoverProvider(files, {
      async provideHover(document, position) {
        const it = await ask('hover', at(document, position));
        return it && new vscode.Hover(markdown(it.contents), range(it.range));
      },
    }),
    languages.registerDefinitionProvider(files, {
      async provideDefinition(document, position) {
        const it = await ask('definition', at(document, position));
        return it && location(it);
      },
    }),
    languages.registerReferenceProvider(files, {
      async provideReferences(document, position, context) {
        return (await ask('references', {...at(document, position), context})).map(location);
      },
    }),
    languages.registerRenameProvider(files, {
      async prepareRename(document, position) {
        const it = await ask('prepareRename', at(document, position));
        if (!it) throw new Error('no name is here');
        return range(it);
      },
      async provideRenameEdits(document, position, newName) {
        return workspaceEdit(await ask('rename', {...at(document, position), newName}));
      },
    }),
    languages.registerDocumentSymbolProvider(files, {
      async provideDocumentSymbols(document) {
        const found = await ask('documentSymbol', of(document));
        return found.map(it => new vscode.DocumentSymbol(it.name, '', it.kind - 1, range(it.range), range(it.selectionRange)));
      },
    }),
    languages.registerCompletionItemProvider(files, {
      async provideCompletionItems(document, position) {
        const {items} = await ask('completion', at(document, position));
        return items.map(it => {
          const item = new vscode.CompletionItem(it.label, it.kind - 1);
          item.detail = it.detail;
          item.insertText = it.insertText ?? it.label;
          item.additionalTextEdits = edits(it.additionalTextEdits);
          if (it.documentation) item.documentation = markdown(it.documentation);
          return item;
        });
      },
    }),
    languages.registerSignatureHelpProvider(files, {
      async provideSignatureHelp(document, position) {
        const it = await ask('signatureHelp', at(document, position));
        if (!it) return undefined;
        const help = new vscode.SignatureHelp();
        help.signatures = it.signatures.map(({label}) => new vscode.SignatureInformation(label));
        help.activeSignature = 0;
        return help;
      },
    }, ' '),
    languages.registerFoldingRangeProvider(files, {
      async provideFoldingRanges(document) {
        return (await ask('foldingRange', of(document))).map(it => new vscode.FoldingRange(it.startLine, it.endLine));
      },
    }),
    languages.registerInlayHintsProvider(files, {
      async provideInlayHints(document, span) {
        const found = await ask('inlayHint', {...of(document), range: spanOf(span)});
        return found.map(it => {
          const hint = new vscode.InlayHint(new vscode.Position(it.position.line, it.position.character), it.label);
          hint.paddingLeft = true;
          return hint;
        });
      },
    }),
    languages.registerDocumentSemanticTokensProvider(files, {
      async provideDocumentSemanticTokens(document) {
        return new vscode.SemanticTokens(new Uint32Array((await ask('semanticTokens/full', of(document))).data));
      },
    }, new vscode.SemanticTokensLegend(legend.tokenTypes, legend.tokenModifiers)),
    languages.registerDocumentFormattingEditProvider(files, {
      async provideDocumentFormattingEdits(document) {
        return edits(await ask('formatting', {...of(document), options: {}}));
      },
    }),
    languages.registerDocumentRangeFormattingEditProvider(files, {
      async provideDocumentRangeFormattingEdits(document, span) {
        return edits(await ask('rangeFormatting', {...of(document), range: spanOf(span), options: {}}));
      },
    }),
    languages.registerCodeActionsProvider(files, {
      async provideCodeActions(document, span) {
        const found = await ask('codeAction', {...of(document), range: spanOf(span), context: {diagnostics: []}});
        return found.map(it => {
          const action = new vscode.CodeAction(it.title, vscode.CodeActionKind.QuickFix);
          action.edit = workspaceEdit(it.edit);
          action.diagnostics = it.diagnostics.map(diagnostic);
          action.isPreferred = true;
          return action;
        });
      },
    }),
  ];
}

/** Tells the server about the documents of the language. */
function watch(connection) {
  const {workspace} = vscode, isOurs = document => document.languageId === 'a2';
  const open = document => isOurs(document) && connection.notify('textDocument/didOpen', {
    textDocument: {uri: document.uri.toString(), languageId: 'a2', version: document.version, text: document.getText()},
  });
  workspace.textDocuments.forEach(open);
  return [
    workspace.onDidOpenTextDocument(open),
    workspace.onDidChangeTextDocument(({document, contentChanges}) => isOurs(document) && connection.notify('textDocument/didChange', {
      textDocument: {uri: document.uri.toString(), version: document.version},
      contentChanges: contentChanges.map(it => ({range: spanOf(it.range), text: it.text})),
    })),
    workspace.onDidCloseTextDocument(document => isOurs(document) && connection.notify('textDocument/didClose', {
      textDocument: {uri: document.uri.toString()},
    })),
  ];
}

let connection;

/** Starts the debug adapter for each session. */
function debuggerOf(program) {
  return vscode.debug.registerDebugAdapterDescriptorFactory('a2lab', {
    createDebugAdapterDescriptor: () => new vscode.DebugAdapterExecutable(program, ['dap']),
  });
}

exports.activate = async context => {
  const program = vscode.workspace.getConfiguration('a2').get('program');
  context.subscriptions.push(debuggerOf(program));
  const shown = vscode.languages.createDiagnosticCollection('a2lab');
  const process = spawn(program, ['lsp']);
  process.on('error', () => vscode.window.showErrorMessage(`a2: cannot start ${program}; set a2.program to the name of a2lab`));
  connection = new Connection(process, ({method, params}) => {
    if (method === 'textDocument/publishDiagnostics') shown.set(vscode.Uri.parse(params.uri), params.diagnostics.map(diagnostic));
    if (method === 'window/showMessage') vscode.window.showErrorMessage(`a2: ${params.message}`);
  });
  const {capabilities} = await connection.ask('initialize', {processId: null, rootUri: null, capabilities: {}});
  connection.notify('initialized', {});
  context.subscriptions.push(shown, ...providers(connection, capabilities.semanticTokensProvider.legend), ...watch(connection));
};

exports.deactivate = async () => {
  if (!connection) return;
  await connection.ask('shutdown').catch(() => {});
  connection.notify('exit');
};
