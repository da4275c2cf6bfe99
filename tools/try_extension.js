// Runs VS Code's extension with an editor that is none, on the sources on standard input, and prints what it shows.
// tools/try-editors compares it.
"use strict";

const Module = require("module");
const folder = process.argv[2];
const given = JSON.parse(require("fs").readFileSync(0, "utf8"));
const URI = require("url").pathToFileURL(given.file).href;
const heard = {};
const shown = new Map();
const ways = {};
const said = [];

/** A class of the editor that keeps what it is made of, under these names. */
function kept(...names) {
    return class {
        constructor(...values) {
            names.forEach((name, index) => {
                this[name] = values[index];
            });
        }
    };
}

class Range {
    constructor(...ends) {
        this.text = `${ends[0]}:${ends[1]}-${ends[2]}:${ends[3]}`;
    }
}

class MarkdownString {
    appendCodeblock(text) {
        return Object.assign(this, { text });
    }
}

class WorkspaceEdit {
    set(uri, edits) {
        Object.assign(this, { uri, edits });
    }
}

const hear = (name) => (listener) => {
    heard[name] = listener;
};
const languages = new Proxy({ createDiagnosticCollection: () => shown }, {
    get: (known, name) => known[name] || ((...words) => {
        ways[name.replace(/^register|Provider$/g, "")] = words.find((it) => Object.keys(it)[0].startsWith("provide"));
    }),
});
const debuggers = {};
const debug = {
    registerDebugAdapterDescriptorFactory: (type, it) => Object.assign(debuggers, { [type]: it }),
    registerDebugConfigurationProvider: (type, it) => Object.assign(debuggers[type], it),
};
const vscode = {
    debug, DebugAdapterExecutable: kept("command", "words", "options"),
    Range, MarkdownString, WorkspaceEdit, languages,
    Position: kept("line", "character"),
    Uri: { parse: (text) => text },
    Diagnostic: kept("range", "message", "severity"),
    DiagnosticSeverity: { Error: 1, Warning: 2 },
    DiagnosticRelatedInformation: kept("location", "message"),
    Location: kept("uri", "range"),
    TextEdit: { replace: (range, text) => ({ range, text }) },
    Hover: kept("contents"),
    DocumentHighlight: kept("range"),
    DocumentSymbol: kept("name", "detail", "kind", "range", "selectionRange"),
    SymbolInformation: kept("name", "kind", "container", "location"),
    CompletionItem: kept("label", "kind"),
    CodeAction: kept("title", "kind"),
    CodeActionKind: { QuickFix: "quickfix" },
    SignatureHelp: kept(),
    SignatureInformation: kept("label", "documentation"),
    ParameterInformation: kept("label"),
    FoldingRange: kept("start", "end", "kind"),
    FoldingRangeKind: { Comment: 1, Region: 3 },
    SemanticTokens: kept("data"),
    SemanticTokensLegend: kept("types"),
    window: { showErrorMessage: (text) => said.push(text) },
    workspace: {
        textDocuments: [],
        getConfiguration: () => ({ get: (name) => ({ program: "b", edition: 1, python: "" })[name] }),
        onDidOpenTextDocument: hear("open"),
        onDidChangeTextDocument: hear("change"),
        onDidCloseTextDocument: hear("close"),
    },
};
const load = Module._load;
Module._load = (name, ...others) => (name === "vscode" ? vscode : load(name, ...others));

const document = { languageId: "b", uri: URI, fileName: given.file, version: 0, getText: () => document.text };

/** What is shown some time after a change of the document. */
async function after(text, tell) {
    Object.assign(document, { text, version: document.version + 1 });
    shown.clear();
    tell();
    while (!shown.has(URI))
        await new Promise((done) => setTimeout(done, 20));
    return shown.get(URI).map((it) => [it.range.text, it.severity, it.code, it.message.split("\n")[0]]);
}

/** What the ways of the extension answer at a place in the call of a function. */
async function answers() {
    const at = new vscode.Position(11, 18);
    const inCall = new vscode.Position(11, 23);
    const colours = await ways.DocumentSemanticTokens.provideDocumentSemanticTokens(document);
    return {
        hover: (await ways.Hover.provideHover(document, at)).contents.text,
        definition: (await ways.Definition.provideDefinition(document, at)).range.text,
        references: (await ways.Reference.provideReferences(document, at, {})).map((it) => it.range.text),
        highlights: (await ways.DocumentHighlight.provideDocumentHighlights(document, at)).map((it) => it.range.text),
        rename: (await ways.Rename.provideRenameEdits(document, at, "thrice")).edits.map((it) => it.text),
        refused: await ways.Rename.provideRenameEdits(document, at, "main").catch((error) => error.message),
        symbols: (await ways.DocumentSymbol.provideDocumentSymbols(document)).map((it) => it.range.text),
        folds: (await ways.FoldingRange.provideFoldingRanges(document)).map((it) => [it.start, it.end]),
        completion: (await ways.CompletionItem.provideCompletionItems(document, at)).length > 10,
        signature: (await ways.SignatureHelp.provideSignatureHelp(document, inCall)).signatures[0].label,
        colours: colours.data.length > 0 && colours.data.length % 5 === 0,
        everywhere: (await ways.WorkspaceSymbol.provideWorkspaceSymbols("twi")).map((it) => it.name),
    };
}

async function main() {
    const extension = require(`${folder}/extension.js`);
    extension.activate({ subscriptions: [] });
    const seen = {};
    seen.source = await after(given.source, () => heard.open(document));
    const line = { start: { line: 11, character: 0 }, end: { line: 11, character: 0 } };
    const actions = await ways.CodeActions.provideCodeActions(document, line);
    seen.actions = actions.map((it) => [it.title, it.edit.edits[0].range.text, it.edit.edits[0].text]);
    seen.wrong = await after("main() $;\n", () => heard.change({ document }));
    seen.refused = await ways.DocumentFormattingEdit.provideDocumentFormattingEdits(document);
    seen.mended = await after(given.mended, () => heard.change({ document }));
    seen.answers = await answers();
    seen.ugly = await after(given.ugly, () => heard.change({ document }));
    seen.layout = (await ways.DocumentFormattingEdit.provideDocumentFormattingEdits(document))[0].text;
    const { words } = debuggers.b.createDebugAdapterDescriptor();
    seen.debugger = [require("fs").existsSync(words[0]), debuggers.b.resolveDebugConfiguration(undefined, {}).program];
    heard.close(document);
    await extension.deactivate();
    console.log(JSON.stringify({ ...seen, said }));
}

main();
