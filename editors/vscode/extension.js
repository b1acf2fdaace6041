// Starts the language server, and hands it the SNL documents that are open.
const vscode = require('vscode');
const { LanguageClient } = require('vscode-languageclient/node');

let client;

exports.activate = async () => {
  const command = vscode.workspace.getConfiguration('snl').get('server.path') || 'snl-lsp';
  client = new LanguageClient('snl', 'SNL', { command }, {
    documentSelector: [{ scheme: 'file', language: 'snl' }, { scheme: 'untitled', language: 'snl' }],
  });
  try {
    await client.start();
  } catch (error) {
    client = undefined;
    vscode.window.showErrorMessage(
      `SNL: ${command} could not be started. Put snl-lsp on the PATH, or name it in snl.server.path.`);
  }
};

exports.deactivate = () => client && client.stop();
