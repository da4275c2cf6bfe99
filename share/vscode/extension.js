// The language B in VS Code: all that it tells comes from the language server, b-lsp, and from the debugger, b_dap.py.
"use strict";

const fs = require("fs");
const path = require("path");
const vscode = require("vscode");
const { Client } = require("./client");

const COLOURS = ["function", "variable", "parameter", "label"];

function setting(name) {
    return vscode.workspace.getConfiguration("b").get(name);
}

/** Where the server is: in this folder, or beside it where the program is installed. */
function serverFile() {
    const own = path.join(__dirname, "server", "b-lsp");
    return fs.existsSync(own) ? own : path.join(__dirname, "..", "lsp", "b-lsp");
}

/** Where the debugger is: in this folder, or beside it where the program is installed. */
function debuggerFile() {
    const own = path.join(__dirname, "dap", "b_dap.py");
    return fs.existsSync(own) ? own : path.join(__dirname, "..", "dap", "b_dap.py");
}

function python() {
    return setting("python") || (process.platform === "win32" ? "python" : "python3");
}

/** Starts the debugger, and fills a launch configuration that has no program, as where no launch.json is there. */
function debuggers() {
    const env = setting("library") ? { B_LIBRARY: setting("library") } : {};
    const factory = {
        createDebugAdapterDescriptor: () => new vscode.DebugAdapterExecutable(python(), [debuggerFile()], { env }),
    };
    const provider = {
        resolveDebugConfiguration: (_folder, given) => given.program ? given :
            { name: "Debug this source", stopOnEntry: true, ...given, type: "b", request: "launch", program: "${file}" },
    };
    return [vscode.debug.registerDebugAdapterDescriptorFactory("b", factory),
        vscode.debug.registerDebugConfigurationProvider("b", provider)];
}

function rangeOf({ start, end }) {
    return new vscode.Range(start.line, start.character, end.line, end.character);
}

function placeOf({ uri, range }) {
    return new vscode.Location(vscode.Uri.parse(uri), rangeOf(range));
}

function diagnosticOf(told) {
    const { Error, Warning } = vscode.DiagnosticSeverity;
    const made = new vscode.Diagnostic(rangeOf(told.range), told.message, told.severity === 1 ? Error : Warning);
    made.source = told.source;
    made.code = told.code;
    made.relatedInformation = (told.relatedInformation || []).map(
        (it) => new vscode.DiagnosticRelatedInformation(placeOf(it.location), it.message));
    return made;
}

function editOf(told) {
    return vscode.TextEdit.replace(rangeOf(told.range), told.newText);
}

function symbolOf(it) {
    return new vscode.DocumentSymbol(it.name, "", it.kind - 1, rangeOf(it.range), rangeOf(it.selectionRange));
}

function completionOf(told) {
    const made = new vscode.CompletionItem(told.label, told.kind - 1);
    made.documentation = told.documentation;
    return made;
}

function helpOf(told) {
    const made = new vscode.SignatureHelp();
    made.signatures = told.signatures.map((it) => {
        const shown = new vscode.SignatureInformation(it.label, it.documentation);
        shown.parameters = it.parameters.map((one) => new vscode.ParameterInformation(one.label));
        return shown;
    });
    Object.assign(made, { activeSignature: told.activeSignature, activeParameter: told.activeParameter });
    return made;
}

function foldOf(told) {
    const { Comment, Region } = vscode.FoldingRangeKind;
    return new vscode.FoldingRange(told.startLine, told.endLine, told.kind === "comment" ? Comment : Region);
}

/** The edits of a rename, or of a fix. */
function renameOf(told) {
    const made = new vscode.WorkspaceEdit();
    for (const [uri, edits] of Object.entries(told.changes))
        made.set(vscode.Uri.parse(uri), edits.map(editOf));
    return made;
}

function actionOf(told) {
    const made = new vscode.CodeAction(told.title, vscode.CodeActionKind.QuickFix);
    made.diagnostics = told.diagnostics.map(diagnosticOf);
    made.edit = renameOf(told.edit);
    return made;
}

/** What the server is asked, by the name of the provider of VS Code, and what is made of its answer. */
function providers(client) {
    const ask = (method, make) => async (document, ...others) => {
        const params = { textDocument: { uri: document.uri.toString() } };
        const position = others.find((it) => it instanceof vscode.Position);
        const name = others.find((it) => typeof it === "string");
        const told = await client.ask(`textDocument/${method}`, {
            ...params, ...(position && { position: { line: position.line, character: position.character } }),
            ...(name !== undefined && { newName: name }),
        });
        return told ? make(told) : undefined;
    };
    const each = (make) => (told) => told.map(make);
    return {
        Hover: { provideHover: ask("hover", (it) =>
            new vscode.Hover(new vscode.MarkdownString().appendCodeblock(it.contents.value, "b"))) },
        Definition: { provideDefinition: ask("definition", placeOf) },
        Reference: { provideReferences: ask("references", each(placeOf)) },
        DocumentHighlight: { provideDocumentHighlights: ask("documentHighlight", each((it) =>
            new vscode.DocumentHighlight(rangeOf(it.range)))) },
        Rename: { provideRenameEdits: ask("rename", renameOf) },
        DocumentSymbol: { provideDocumentSymbols: ask("documentSymbol", each(symbolOf)) },
        DocumentFormattingEdit: { provideDocumentFormattingEdits: ask("formatting", each(editOf)) },
        FoldingRange: { provideFoldingRanges: ask("foldingRange", each(foldOf)) },
        CodeActions: { provideCodeActions: async (document, range) =>
            (await client.ask("textDocument/codeAction", {
                textDocument: { uri: document.uri.toString() }, range: { start: range.start, end: range.end },
                context: { diagnostics: [] },
            })).map(actionOf) },
        CompletionItem: { provideCompletionItems: ask("completion", each(completionOf)) },
        SignatureHelp: { provideSignatureHelp: ask("signatureHelp", helpOf) },
        DocumentSemanticTokens: { provideDocumentSemanticTokens: ask("semanticTokens/full", (it) =>
            new vscode.SemanticTokens(new Uint32Array(it.data))) },
    };
}

const MORE = {
    SignatureHelp: () => ["(", ","],
    DocumentSemanticTokens: () => [new vscode.SemanticTokensLegend(COLOURS)],
};

/** Tells the server of the sources that are open, as they change. */
function follow(client) {
    const isOurs = (document) => document.languageId === "b";
    const of = (document) => ({ uri: document.uri.toString(), version: document.version });
    const opened = (document) => isOurs(document) && client.tell("textDocument/didOpen", {
        textDocument: { ...of(document), languageId: "b", text: document.getText() } });
    const changed = ({ document }) => isOurs(document) && client.tell("textDocument/didChange", {
        textDocument: of(document), contentChanges: [{ text: document.getText() }] });
    const closed = (document) => isOurs(document) && client.tell("textDocument/didClose", {
        textDocument: of(document) });
    vscode.workspace.textDocuments.forEach(opened);
    return [
        vscode.workspace.onDidOpenTextDocument(opened),
        vscode.workspace.onDidChangeTextDocument(changed),
        vscode.workspace.onDidCloseTextDocument(closed),
    ];
}

function start(all) {
    const words = [serverFile(), "--edition", String(setting("edition")), "--program", setting("program")];
    const hear = (method, params) => {
        if (method === "textDocument/publishDiagnostics")
            all.set(vscode.Uri.parse(params.uri), params.diagnostics.map(diagnosticOf));
        else if (method === "window/showMessage")
            vscode.window.showErrorMessage(params.message);
    };
    const ended = (reason) => {
        const told = `The language server of B doesn't run: ${reason}. It needs Python 3.8 or later.`;
        vscode.window.showErrorMessage(told);
    };
    return new Client(python(), words, hear, ended);
}

let running;

function activate(context) {
    const all = vscode.languages.createDiagnosticCollection("b");
    running = start(all);
    running.ask("initialize", { processId: process.pid, capabilities: {} }).catch(() => {});
    running.tell("initialized", {});
    const ways = Object.entries(providers(running)).map(([name, provider]) =>
        vscode.languages[`register${name}Provider`]("b", provider, ...(MORE[name] ? MORE[name]() : [])));
    const symbols = vscode.languages.registerWorkspaceSymbolProvider({
        provideWorkspaceSymbols: async (query) => (await running.ask("workspace/symbol", { query })).map((it) =>
            new vscode.SymbolInformation(it.name, it.kind - 1, "", placeOf(it.location))),
    });
    context.subscriptions.push(all, symbols, ...ways, ...follow(running), ...debuggers());
}

function deactivate() {
    return running && running.end();
}

module.exports = { activate, deactivate };
