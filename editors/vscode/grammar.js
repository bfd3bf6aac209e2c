// Copies the grammar of editors/textmate into this folder, so that the extension has it when it is packed.
const fs = require("fs");
const path = require("path");

const to = path.join(__dirname, "syntaxes");
fs.mkdirSync(to, { recursive: true });
fs.copyFileSync(path.join(__dirname, "..", "textmate", "fb.tmLanguage.json"), path.join(to, "fb.tmLanguage.json"));
