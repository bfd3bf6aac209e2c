// Starts fbr-lsp for texts of fbr (docs/EDITORS.md).
const { workspace } = require("vscode");
const { LanguageClient } = require("vscode-languageclient/node");

let client;

exports.activate = async function () {
  const settings = workspace.getConfiguration("fbr");
  const program = settings.get("program");
  const files = (settings.get("with") || []).flatMap((file) => ["--with", file]);
  const run = { command: settings.get("server") || "fbr-lsp", args: [...(program ? ["--fbr", program] : []), ...files] };
  client = new LanguageClient("fbr", "fbr", run, { documentSelector: [{ language: "fb" }] });
  await client.start();
};

exports.deactivate = function () {
  return client ? client.stop() : undefined;
};
