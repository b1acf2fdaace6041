-- Opens p.stt in neovim with the server, changes it, asks of it, and writes what is shown to the
-- file told.
local lines, version = {}, nil
local name = 'textDocument/publishDiagnostics'
local handler = vim.lsp.handlers[name]
vim.lsp.handlers[name] = function(fault, result, ...)
  version = result.version
  return handler(fault, result, ...)
end

-- Waits until what is shown is of the last text that was sent, and tells it.
local function tell(tag)
  local is_there = vim.wait(9000, function()
    return version and version == vim.lsp.util.buf_versions[vim.api.nvim_get_current_buf()]
  end, 10)
  table.insert(lines, is_there and tag or tag .. ': no answer')
  for _, it in ipairs(vim.diagnostic.get(0)) do
    table.insert(lines, ('%d:%d-%d:%d %d %s %s'):format(
      it.lnum, it.col, it.end_lnum, it.end_col, it.severity, it.code, it.message))
  end
end

-- What the server answers to a question on the text, at a place where it is one on a place.
local function ask(method, line, column, context)
  local params = { textDocument = vim.lsp.util.make_text_document_params(), context = context }
  params.position = { line = line, character = column }
  local answers = vim.lsp.buf_request_sync(0, 'textDocument/' .. method, params, 9000) or {}
  local _, answer = next(answers)
  return answer and answer.result
end

-- Tells where the name at a place is named, and how often it is marked.
local function tell_references(line, column)
  local found = ask('references', line, column, { includeDeclaration = true }) or {}
  for _, it in ipairs(vim.lsp.util.locations_to_items(found, 'utf-16')) do
    table.insert(lines, ('named at %d:%d'):format(it.lnum - 1, it.col - 1))
  end
  local marked = ask('documentHighlight', line, column) or {}
  table.insert(lines, ('marked %d times'):format(#marked))
end

-- Tells the symbols, where the name at a place is declared, what is told of it, and where it is
-- named.
local function tell_asked(line, column)
  for _, it in ipairs(vim.lsp.util.symbols_to_items(ask('documentSymbol') or {}, 0)) do
    table.insert(lines, ('%d:%d %s'):format(it.lnum - 1, it.col - 1, it.text))
  end
  vim.lsp.util.jump_to_location(ask('definition', line, column), 'utf-16')
  local place = vim.api.nvim_win_get_cursor(0)
  table.insert(lines, ('declared at %d:%d'):format(place[1] - 1, place[2]))
  local hover = ask('hover', line, column)
  for _, it in ipairs(vim.lsp.util.convert_input_to_markdown_lines(hover.contents)) do
    table.insert(lines, it)
  end
  tell_references(line, column)
end

local function keys(typed)
  vim.cmd('normal! ' .. typed)
end

vim.o.swapfile = false
vim.cmd('edit p.stt')
local id = vim.lsp.start_client({
  name = 'snl', cmd = { os.getenv('SERVER') }, root_dir = '.', flags = { debounce_text_changes = 0 },
})
vim.wait(9000, function() return vim.lsp.get_client_by_id(id) ~= nil end, 10)
vim.lsp.buf_attach_client(0, id)
tell('opened')
vim.api.nvim_buf_set_text(0, 1, 0, 1, 0, { '/* ä😀 */ evflag f = 1; ' })
tell('after wide characters')
keys('Goint z')
tell('a line that is begun')
keys('A;')
tell('finished')
keys('ggVGd')
tell('nothing left')
keys('u')
tell('undone')
table.insert(lines, 'asked')
tell_asked(3, 20)
vim.lsp.stop_client(id)
local ended = vim.wait(9000, function() return vim.lsp.client_is_stopped(id) end, 10)
table.insert(lines, ended and 'stopped' or 'not stopped')
vim.fn.writefile(lines, 'told')
vim.cmd('qa!')
