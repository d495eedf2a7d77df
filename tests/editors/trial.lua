-- What tests/editors/in_neovim.py tries: runs the steps of steps.json, compares the server's text with
-- the buffer's after each, makes random edits, and writes reported.json.
local steps = vim.fn.json_decode(io.open("steps.json"):read("*a"))
local reported = { wrong = {}, ranges = 0, wholes = 0 }
local client = vim.lsp.get_client_by_id(1)
vim.wait(60000, function() return client.initialized end)
local notify = client.rpc.notify
client.rpc.notify = function(method, params)
  for _, change in ipairs(method == "textDocument/didChange" and params.contentChanges or {}) do
    local kind = change.range and "ranges" or "wholes"
    reported[kind] = reported[kind] + 1
  end
  return notify(method, params)
end

local function buffer_text()
  return table.concat(vim.api.nvim_buf_get_lines(0, 0, -1, true), "\n") .. "\n"
end

local function wrong(where, what)
  table.insert(reported.wrong, where .. ": " .. vim.inspect(what))
end

local function compare(where)
  local params = { textDocument = vim.lsp.util.make_text_document_params() }
  local answer = client.request_sync("lr/text", params, 60000, vim.api.nvim_get_current_buf())
  if not answer or answer.result.text ~= buffer_text() then
    wrong(where .. ": another text", { answer, buffer_text() })
  end
end

local function characters(line, byte)
  local text = vim.api.nvim_buf_get_lines(0, line, line + 1, false)[1] or ""
  return vim.str_utfindex(text, math.min(byte, #text))
end

local function diagnostics()
  local found = {}
  for _, d in ipairs(vim.diagnostic.get(0)) do
    local first, last = characters(d.lnum, d.col), characters(d.end_lnum, d.end_col)
    table.insert(found, { d.lnum, first, d.end_lnum, last, d.message })
  end
  return found
end

for number, step in ipairs(steps) do
  vim.api.nvim_feedkeys(step[1], "tx", true)
  local shows = vim.wait(60000, function() return vim.deep_equal(diagnostics(), step[2]) end, 20)
  if not shows then wrong("step " .. number, diagnostics()) end
  compare("step " .. number)
end
local function levels()
  return { vim.fn.foldlevel(1), vim.fn.foldlevel(2), vim.fn.foldlevel(3) }
end
vim.wait(60000, function() return vim.deep_equal(levels(), { 1, 1, 0 }) end, 20)
reported.levels = levels()
reported.whole = buffer_text()
local function colours()
  local found = {}
  local lrls = vim.api.nvim_get_namespaces().lrls
  for _, mark in ipairs(vim.api.nvim_buf_get_extmarks(0, lrls, 0, -1, { details = true })) do
    table.insert(found, { mark[2], mark[3], mark[4].end_row, mark[4].end_col, mark[4].hl_group })
  end
  return found
end
vim.wait(60000, function() return #colours() == 13 end, 20)
reported.colours = colours()
-- While no answer comes, what is typed after a number.
local request = client.request
client.request = function() end
vim.api.nvim_feedkeys("a67+", "tx", true)
vim.wait(60000, function() return colours()[7][4] == 10 end, 20)
reported.typed = colours()
client.request = request
vim.api.nvim_feedkeys("u", "tx", true)

math.randomseed(1)
local pieces = { "1", "+", "(", ")", "\u{e9}", "\u{1f600}", "12+(3)" }
local function piece() return pieces[math.random(#pieces)] end
local function some_lines()
  local lines = {}
  for _ = 1, math.random(3) do table.insert(lines, piece() .. piece()) end
  return lines
end
for edit = 1, 200 do
  local count = vim.api.nvim_buf_line_count(0)
  local first, last = math.random(0, count - 1), math.random(0, count - 1)
  if first > last then first, last = last, first end
  if last - first > 3 then last = first + 3 end
  if edit % 10 == 0 then
    vim.cmd("silent undo")
  elseif edit % 3 == 0 then
    vim.api.nvim_buf_set_lines(0, first, last, true, some_lines())
  else
    vim.api.nvim_win_set_cursor(0, { first + 1, 0 })
    vim.api.nvim_feedkeys((edit % 2 == 0 and "A" or "C") .. piece() .. "\r" .. piece(), "tx", true)
  end
  if edit % 5 == 0 then compare("edit " .. edit) end
end
io.open("reported.json", "w"):write(vim.fn.json_encode(reported))
vim.cmd("qall!")
