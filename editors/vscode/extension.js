// Starts tools/language_server by the client library of the editor. Without that library there are colours alone.
const fs = require("fs");
const path = require("path");
const vscode = require("vscode");

let client;

function clientLibrary() {
    try {
        return require("vscode-languageclient/node");
    } catch {
        return undefined;
    }
}

exports.activate = async (context) => {
    const library = clientLibrary();
    if (!library) {
        vscode.window.showWarningMessage("Clarity: `npm install` in the extension's folder brings the client library; until then there are colours alone.");
        return;
    }
    const settings = vscode.workspace.getConfiguration("clarity");
    const server = settings.get("server") || path.join(fs.realpathSync(context.extensionPath), "..", "..", "tools", "language_server");
    const named = settings.get("library") ? { CLARITY_LIBRARY: settings.get("library") } : {};
    client = new library.LanguageClient("clarity", "Clarity", { command: server, options: { env: { ...process.env, ...named } } }, {
        documentSelector: [{ language: "clarity" }],
        initializationOptions: { clarity: { version: settings.get("version") } },
        synchronize: { configurationSection: "clarity", fileEvents: vscode.workspace.createFileSystemWatcher("**/*.clar") },
    });
    await client.start();
};

exports.deactivate = () => client?.stop();
