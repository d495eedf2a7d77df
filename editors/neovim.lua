-- Serves languages by lrls in Neovim, from 0.7 on: diagnostics while a text is typed, folds, colours, a selection that follows
-- the tree, and the tree beside the text. editors/README.md lists the commands and the keys.
-- Load it by `local lrls = dofile("PATH/editors/neovim.lua")` in init.lua. Languages of your own are added there by
-- `lrls.add({ name = .., files = .., grammar = .. })`, with the fields of the table below, or in the table itself.
local top = vim.fn.fnamemodify(debug.getinfo(1, "S").source:sub(2), ":p:h:h")

-- The script `lrls`, or a program that `lrls install` copied.
local program = top .. "/lrls"

-- The languages: the name becomes the file type, `files` is the pattern of their files, and `comment` how a line is made a
-- comment. `colours` has the highlight groups of rules of the grammar; tokens of other rules have no colour. `program` runs in
-- the place of the program above. Only the first three fields are needed.
local languages = {
  {
    name = "sums",
    files = "*.sum",
    grammar = top .. "/grammars/g0.lr",
    comment = "",
    colours = { NUM = "Number", PLUS = "Operator", LP = "Delimiter", RP = "Delimiter" },
  },
  {
    name = "lr",
    files = "*.lr",
    grammar = top .. "/grammars/lr.lr",
    comment = "# %s",
    colours = {
      LRGRAMMAR_1 = "PreProc",
      LRGRAMMAR_2 = "PreProc",
      TOKEN = "Keyword",
      SKIP = "Keyword",
      START = "Keyword",
      FOLD = "Keyword",
      COMMENT = "Comment",
      LITERAL = "String",
      CLASS = "Character",
      MARKED = "Identifier",
      NAME = "Identifier",
      BAR = "Operator",
      STAR = "Operator",
      PLUS = "Operator",
      QUESTION = "Operator",
    },
  },
}

-- Keys in the buffers that are served, in normal and visual mode.
local keys = { ["<M-o>"] = "LrlsGrow", ["<M-i>"] = "LrlsShrink" }

local marks = vim.api.nvim_create_namespace("lrls")
local grammar_faults = vim.api.nvim_create_namespace("lrls grammars")
local group = vim.api.nvim_create_augroup("lrls", { clear = true })
local is_new = vim.fn.has("nvim-0.11") == 1

-- What is kept of each buffer that is served: `language`, `folds` (pairs of lines, from 0), `levels` (what 'foldexpr' answers of
-- each line), `tokens` with the `tick` of the text that they are of, `tree` (what the window of the tree shows), and `pause`.
local served = {}
-- The number of the client that serves each language, by the language's name.
local clients = {}
-- All languages, with those that `add` has added.
local known = {}
-- What is to be done once the client of this number has ended.
local after_end = {}
-- The job that looks at the grammar of each language, by the language's name.
local checks = {}

-- Shows a message. Of several lines `vim.notify` makes so many messages in Neovim 0.7, and asks for Enter twice.
local function notify(text)
  if text:find("\n") then
    vim.api.nvim_echo({ { "lrls: " .. text, "ErrorMsg" } }, true, {})
  else
    vim.notify("lrls: " .. text, vim.log.levels.ERROR)
  end
end

local function tick_of(buffer)
  return vim.api.nvim_buf_get_changedtick(buffer)
end

-- Calls a function in each window that shows a buffer, as if it were the current one.
local function in_windows(buffer, run)
  for _, window in ipairs(vim.fn.win_findbuf(buffer)) do
    vim.api.nvim_win_call(window, run)
  end
end

-- The first of these numbers of which something is so. It is so of the last one, and of all after the first.
local function first_of(first, last, is_so)
  while first < last do
    local middle = math.floor((first + last) / 2)
    if is_so(middle) then
      last = middle
    else
      first = middle + 1
    end
  end
  return first
end

-- Places. Lines and bytes count from 0, as the server counts them too: it is asked for bytes when it starts.

local function line_of(buffer, line)
  return vim.api.nvim_buf_get_lines(buffer, line, line + 1, false)[1] or ""
end

-- The part of a line between two bytes, or nothing where the line ends before the second one.
local function part_of(buffer, line, first, last)
  local is_there, lines = pcall(vim.api.nvim_buf_get_text, buffer, line, first, line, last, {})
  return is_there and lines[1] or ""
end

-- Whether the first place (line and column) is before the second.
local function is_before(line, column, other_line, other_column)
  return line < other_line or line == other_line and column < other_column
end

-- Requests.

local function client_of(buffer)
  local id = served[buffer] and clients[served[buffer].language.name]
  local client = id and vim.lsp.get_client_by_id(id)
  return client and client.initialized and vim.lsp.buf_is_attached(buffer, id) and client or nil
end

-- Calls a method of a client, which takes the client itself from Neovim 0.11 on.
local function call(client, name, ...)
  if is_new then
    return client[name](client, ...)
  end
  return client[name](...)
end

-- Asks the server about a buffer. `done` is called with the error, or with nil and the result.
local function ask(buffer, method, params, done)
  local client = client_of(buffer)
  if not client then
    return done({ message = "no server runs for this buffer; :LrlsRestart starts one" })
  end
  params.textDocument = { uri = vim.uri_from_bufnr(buffer) }
  local function answered(err, result)
    if vim.api.nvim_buf_is_valid(buffer) and served[buffer] then
      done(err, result)
    end
  end
  call(client, "request", method, params, answered, buffer)
end

-- The same, for a command: waits for the result, and shows an error. Returns nil after an error.
local function ask_now(buffer, method, params)
  local failure, result
  local is_answered = false
  ask(buffer, method, params, function(err, answer)
    failure, result, is_answered = err, answer, true
  end)
  vim.wait(5000, function()
    return is_answered
  end, 1)
  if failure or not is_answered then
    notify(failure and failure.message or "the server has not answered for 5 seconds; :LrlsRestart starts another one")
    return nil
  end
  return result
end

-- Folds.

local function fault_line(buffer)
  local client = client_of(buffer)
  local namespace = client and vim.lsp.diagnostic.get_namespace(client.id)
  local fault = namespace and vim.diagnostic.get(buffer, { namespace = namespace })[1]
  return fault and fault.lnum
end

-- A fold that ends in the line in which another one begins ends a line before it, since Neovim's folds share no line.
local function separated(folds)
  local begins = {}
  for _, fold in ipairs(folds) do
    begins[fold[1]] = true
  end
  local found = {}
  for _, fold in ipairs(folds) do
    local last = fold[2] - (begins[fold[2]] and 1 or 0)
    if last > fold[1] then
      table.insert(found, { fold[1], last })
    end
  end
  return found
end

-- How many of these folds begin in each line, and how many end there; and the last line of them all.
local function bounds_of(folds)
  local begins, ends, last = {}, {}, -1
  for _, fold in ipairs(folds) do
    begins[fold[1]] = (begins[fold[1]] or 0) + 1
    ends[fold[2]] = (ends[fold[2]] or 0) + 1
    last = math.max(last, fold[2])
  end
  return begins, ends, last
end

-- What 'foldexpr' answers where folds begin or end: this mark and a level. Each text is made once.
local function texts_with(mark)
  return setmetatable({}, {
    __index = function(texts, level)
      texts[level] = mark .. level
      return texts[level]
    end,
  })
end

local beginning, ending = texts_with(">"), texts_with("<")

-- What 'foldexpr' answers of each line up to the end of the last fold, by its number from 1 on.
local function levels_of(folds)
  local begins, ends, last = bounds_of(separated(folds))
  local levels, depth = {}, 0
  for line = 0, last do
    local begun, ended = begins[line], ends[line] or 0
    depth = depth + (begun or 0)
    levels[line + 1] = begun and beginning[depth] or ended > 0 and ending[depth - ended + 1] or depth
    depth = depth - ended
  end
  return levels
end

-- 'foldexpr' can name a global function alone.
function _G.lrls_fold(line)
  local state = served[vim.api.nvim_get_current_buf()]
  return state and state.levels[line] or 0
end

-- Has Neovim ask 'foldexpr' of all lines anew. It doesn't do so in insert mode, so then it waits for the mode's end.
local function draw_folds(buffer)
  local state = served[buffer]
  if state.is_drawn or vim.api.nvim_get_mode().mode:find("^[iR]") then
    return
  end
  state.is_drawn = true
  in_windows(buffer, function()
    vim.cmd("setlocal foldmethod=expr")
  end)
end

local function set_folds(buffer, folds)
  local state = served[buffer]
  state.is_drawn = state.is_drawn and vim.deep_equal(folds, state.folds)
  state.folds, state.levels = folds, levels_of(folds)
  draw_folds(buffer)
end

-- Takes over the folds of an answer. While the text has a fault the server knows only what is before it: the folds that reach
-- the line of the fault, or begin after it, stay as they were.
local function take_folds(buffer, ranges)
  local folds, is_there = {}, {}
  local function add(first, last)
    if last > first and not is_there[first .. ":" .. last] then
      is_there[first .. ":" .. last] = true
      table.insert(folds, { first, last })
    end
  end
  for _, range in ipairs(ranges) do
    add(range.startLine, range.endLine)
  end
  local fault = fault_line(buffer)
  for _, fold in ipairs(fault and served[buffer].folds or {}) do
    if fold[2] >= fault then
      add(fold[1], fold[2])
    end
  end
  set_folds(buffer, folds)
end

-- Moves the folds with their lines, from a change of lines up to the server's answer on it.
local function move_folds(buffer, first, last, new_last)
  local state = served[buffer]
  local function moved(line)
    if line >= last then
      return line + new_last - last
    end
    return math.min(line, math.max(first, new_last - 1))
  end
  if last == new_last then
    return
  end
  for _, fold in ipairs(state.folds) do
    fold[1], fold[2] = moved(fold[1]), moved(fold[2])
  end
  state.levels = levels_of(state.folds)
  state.is_drawn = false
end

-- Tokens. They stay text, as the server writes them: a list of rows `["NAME",line,byte,line,byte]`. A token is known by the place
-- at which its row begins in this text.

local function token_at(tokens, at)
  local name, line, byte, last_line, last_byte = tokens:match('^%["([^"]+)",(%d+),(%d+),(%d+),(%d+)%]', at)
  return { name, tonumber(line), tonumber(byte), tonumber(last_line), tonumber(last_byte) }
end

-- The first token whose row begins at this place of the text or after it, or nil.
local function token_from(tokens, at)
  return tokens:find('["', at, true)
end

-- The first token that ends in this line or after it, or nil.
local function first_token(tokens, line)
  return token_from(tokens, first_of(1, #tokens + 1, function(place)
    local at = token_from(tokens, place)
    return not at or token_at(tokens, at)[4] >= line
  end))
end

-- Colours. Only the lines that a window shows are coloured, and of each only what begins before the column 'synmaxcol', where
-- Neovim's own colours end too.

-- The lines that windows show of a buffer, without those in closed folds.
local function shown(buffer)
  local lines = {}
  in_windows(buffer, function()
    local line, last = vim.fn.line("w0"), vim.fn.line("w$")
    while line <= last do
      local closed = vim.fn.foldclosedend(line)
      if closed < 0 then
        table.insert(lines, line - 1)
      end
      line = math.max(line, closed) + 1
    end
  end)
  return lines
end

-- Makes a mark of a colour between two places, or moves the one of this number there.
local function set_colour(buffer, line, byte, last_line, last_byte, colour, number)
  local place = { end_row = last_line, end_col = last_byte, hl_group = colour, priority = 90, id = number }
  -- A token may reach beyond the buffer where the text has changed since.
  pcall(vim.api.nvim_buf_set_extmark, buffer, marks, line, byte, place)
end

-- Has the colour of a token take in the letters that were typed after it, since the server's answer comes later.
local function extend_colour(buffer, line, byte, count)
  local letters = part_of(buffer, line, byte, byte + count):match("^[%w_\128-\255]+")
  local before = { details = true, limit = 1 }
  local mark = vim.api.nvim_buf_get_extmarks(buffer, marks, { line, byte }, { line, 0 }, before)[1]
  if letters and mark and mark[4].end_row == line and mark[4].end_col == byte then
    set_colour(buffer, line, mark[3], line, byte + #letters, mark[4].hl_group, mark[1])
  end
end

-- Colours the tokens of a line that begin before this column, but for those that are done.
local function paint_line(buffer, line, columns, done)
  local tokens, colours = served[buffer].tokens, served[buffer].language.colours or {}
  local at = first_token(tokens, line)
  local token = at and token_at(tokens, at)
  while token and is_before(token[2], token[3], line, columns) do
    if colours[token[1]] and not done[at] then
      set_colour(buffer, token[2], token[3], token[4], token[5], colours[token[1]])
    end
    done[at] = true
    at = token_from(tokens, at + 1)
    token = at and token_at(tokens, at)
  end
end

local function paint(buffer)
  local state, columns = served[buffer], vim.bo[buffer].synmaxcol
  if not client_of(buffer) or state.tick ~= tick_of(buffer) then
    return
  end
  vim.api.nvim_buf_clear_namespace(buffer, marks, 0, -1)
  local done = {}
  for _, line in ipairs(shown(buffer)) do
    paint_line(buffer, line, columns > 0 and columns or math.huge, done)
  end
end

-- The tree. Its window holds the nodes around the one under the cursor, and so many at most.
local drawn_nodes = 1000
-- So many nodes are read at once.
local slice = 5000

-- Calls a function in slices, each of which ends where it yields, so that Neovim takes keys in between. `done` gets its result,
-- unless that isn't wanted any more.
local function in_slices(run, is_wanted, done)
  local thread = coroutine.create(run)
  local function go_on()
    if not is_wanted() then
      return
    end
    local is_right, result = coroutine.resume(thread)
    assert(is_right, result)
    if coroutine.status(thread) == "dead" then
      return done(result)
    end
    vim.defer_fn(go_on, 0)
  end
  go_on()
end

-- Reads a tree from its text, in slices. Of each node and token, in the order of the text from the root on: its name, its depth,
-- the number of the node that it lies in, and of its first and its last leaf. The leaves are the tokens that the text of the tree
-- names (the others are skipped ones), and `leaf_nodes` has their numbers among the nodes.
local function read_tree(text, tokens)
  local tree = { names = {}, depths = {}, parents = {}, firsts = {}, lasts = {}, tokens = tokens, leaves = {}, leaf_nodes = {} }
  local open, depth, number, leaf, at = { [0] = 0 }, 0, 0, 0, 0
  for opening, name, closing in text:gmatch("(%(?)([^%s()]+)(%)*)") do
    number = number + 1
    tree.names[number], tree.depths[number], tree.parents[number], tree.firsts[number] = name, depth, open[depth], leaf + 1
    if opening == "" then
      leaf, at = leaf + 1, tokens:find('["' .. name .. '"', at + 1, true)
      tree.leaves[leaf], tree.leaf_nodes[leaf], tree.lasts[number] = at, number, leaf
    else
      depth = depth + 1
      open[depth] = number
    end
    for closed = depth, depth - #closing + 1, -1 do
      tree.lasts[open[closed]] = leaf
    end
    depth = depth - #closing
    if number % slice == 0 then
      coroutine.yield()
    end
  end
  return tree
end

-- How a node looks: nothing, or of a token its text up to the end of its line, shortened to so many characters.
local function text_of(buffer, tree, number)
  local leaf = tree.firsts[number]
  if tree.leaf_nodes[leaf] ~= number then
    return ""
  end
  local token, count = token_at(tree.tokens, tree.leaves[leaf]), 40
  local last = token[4] == token[2] and math.min(token[5], token[3] + 4 * count) or -1
  return "  " .. vim.fn.strcharpart(part_of(buffer, token[2], token[3], last), 0, count)
end

-- Writes the nodes around this one into the window of the tree.
local function draw_nodes(buffer, number)
  local view = served[buffer].tree
  local tree, depth, lines = view.tree, math.huge, {}
  local first = math.max(1, math.min(number - drawn_nodes / 2, #tree.names - drawn_nodes + 1))
  local last = math.min(#tree.names, first + drawn_nodes - 1)
  for node = first, last do
    depth = math.min(depth, tree.depths[node])
  end
  for node = first, last do
    table.insert(lines, ("  "):rep(tree.depths[node] - depth) .. tree.names[node] .. text_of(buffer, tree, node))
  end
  view.first, view.depth, view.middle = first, depth, number
  vim.bo[view.buffer].modifiable = true
  vim.api.nvim_buf_set_lines(view.buffer, 0, -1, false, lines)
  vim.bo[view.buffer].modifiable = false
end

-- The number of the last leaf that begins at this place or before it, or 0.
local function leaf_before(tree, line, byte)
  return first_of(1, #tree.leaves + 1, function(leaf)
    local token = token_at(tree.tokens, tree.leaves[leaf])
    return is_before(line, byte, token[2], token[3])
  end) - 1
end

-- The number of the innermost node around a place, or of the root.
local function node_at(tree, line, byte)
  local number = tree.leaf_nodes[leaf_before(tree, line, byte)] or 1
  local function ends_before()
    local last = token_at(tree.tokens, tree.leaves[tree.lasts[number]])
    return not is_before(line, byte, last[4], last[5])
  end
  while tree.parents[number] > 0 and ends_before() do
    number = tree.parents[number]
  end
  return number
end

-- Shows a line of the window of the tree that is indented so far, and puts the cursor there.
local function show_row(row, indent)
  local is_shown = row >= vim.fn.line("w0") and row <= vim.fn.line("w$")
  vim.api.nvim_win_set_cursor(0, { row, indent })
  if not is_shown then
    vim.cmd("normal! zz")
  end
  vim.fn.winrestview({ leftcol = math.max(0, indent - math.floor(vim.api.nvim_win_get_width(0) / 2)) })
end

-- Marks in the window of the tree the innermost node around the cursor, where the tree is that of the text.
local function mark_node(buffer)
  local view = served[buffer].tree
  if not view or not view.tree or view.tick ~= tick_of(buffer) then
    return
  end
  local cursor = vim.api.nvim_win_get_cursor(0)
  local number = node_at(view.tree, cursor[1] - 1, cursor[2])
  if math.abs(number - view.middle) > drawn_nodes / 4 then
    draw_nodes(buffer, number)
  end
  local row, indent = number - view.first + 1, 2 * (view.tree.depths[number] - view.depth)
  vim.api.nvim_buf_clear_namespace(view.buffer, marks, 0, -1)
  vim.api.nvim_buf_set_extmark(view.buffer, marks, row - 1, 0, { line_hl_group = "Visual" })
  in_windows(view.buffer, function()
    show_row(row, indent)
  end)
end

-- Shows a tree, and the node under the cursor in it.
local function take_tree(buffer, tree)
  local view = served[buffer].tree
  view.tree, view.tick = tree, tick_of(buffer)
  draw_nodes(buffer, math.min(view.middle, #tree.names))
  if vim.api.nvim_get_current_buf() == buffer then
    mark_node(buffer)
  end
end

-- Says in the window of the tree whether the text has one. Where it has a fault there is none, and the last one stays.
local function name_tree(buffer, is_there)
  for _, window in ipairs(vim.fn.win_findbuf(served[buffer].tree.buffer)) do
    vim.wo[window].statusline = is_there and "tree" or "the text has a fault: this is the tree before it"
  end
end

-- Asks for the tree, and shows it. The tokens have to be those of the same text.
local function refresh_tree(buffer)
  local state, tick = served[buffer], tick_of(buffer)
  local function is_wanted()
    return served[buffer] == state and state.tree and state.tick == tick and tick_of(buffer) == tick
  end
  ask(buffer, "lr/tree", {}, function(err, text)
    if err or not is_wanted() then
      return
    end
    local is_there = type(text) == "string"
    name_tree(buffer, is_there)
    if is_there then
      in_slices(function()
        return read_tree(text, state.tokens)
      end, is_wanted, function(tree)
        take_tree(buffer, tree)
      end)
    end
  end)
end

-- Goes to the text of the node that the cursor is on in the window of the tree.
local function go_to_node(buffer)
  local view, window = served[buffer].tree, vim.fn.win_findbuf(buffer)[1]
  local number = vim.api.nvim_win_get_cursor(0)[1] + view.first - 1
  local leaf = view.tree and view.tree.leaves[view.tree.firsts[number]]
  if leaf and window then
    local token = token_at(view.tree.tokens, leaf)
    vim.api.nvim_set_current_win(window)
    vim.api.nvim_win_set_cursor(window, { token[2] + 1, token[3] })
  end
end

-- Refreshing: after a change, once the text has rested for three times as long as the last answers took, so that hardly a key
-- waits while Neovim takes them in.

local function refresh(buffer)
  local state, tick, begun = served[buffer], tick_of(buffer), vim.loop.hrtime()
  ask(buffer, "textDocument/foldingRange", {}, function(err, ranges)
    if not err and tick_of(buffer) == tick then
      take_folds(buffer, ranges)
    end
  end)
  ask(buffer, "lr/tokens", {}, function(err, tokens)
    local lost = err and client_of(buffer)
        and { { lnum = 0, col = 0, source = "lrls", message = err.message, severity = vim.diagnostic.severity.WARN } }
    vim.diagnostic.set(marks, buffer, lost or {})
    if not err and tick_of(buffer) == tick then
      state.tokens, state.tick = tokens, tick
      paint(buffer)
      if state.tree then
        refresh_tree(buffer)
      end
    end
    state.pause = math.min(1000, math.max(50, 3 * (vim.loop.hrtime() - begun) / 1e6))
  end)
end

local function refresh_soon(buffer)
  local state = served[buffer]
  state.timer = state.timer or vim.loop.new_timer()
  state.timer:start(math.floor(state.pause), 0, vim.schedule_wrap(function()
    if served[buffer] == state and vim.api.nvim_buf_is_loaded(buffer) and client_of(buffer) then
      refresh(buffer)
    end
  end))
end

-- Faults of grammars: diagnostics in the buffer of the grammar file.

local function is_file(path, real)
  return real and vim.loop.fs_realpath(path) == real
end

-- The buffer in which this file is loaded.
local function buffer_of(path)
  local real = vim.loop.fs_realpath(path)
  for _, buffer in ipairs(vim.api.nvim_list_bufs()) do
    if vim.api.nvim_buf_is_loaded(buffer) and is_file(vim.api.nvim_buf_get_name(buffer), real) then
      return buffer
    end
  end
end

-- Whether a line of a grammar file says this production: it does so itself, or by a name with a mark, or as the start.
local function says(line, production)
  local words, left = vim.split(vim.trim(line), "%s+"), production:match("^%S+")
  if left == "(start)" then
    return words[1] == "start" and words[2] ~= "="
  end
  return table.concat(words, " ") == production or left:find("[*+?]$") and vim.tbl_contains(words, left)
end

-- The productions in the items of a conflict.
local function productions_of(message)
  local productions = {}
  for item in message:gmatch("\nitem: ([^,\n]*),") do
    local production = item:gsub(" %.", "", 1)
    table.insert(productions, production)
  end
  return productions
end

-- The lines of a grammar file that a message is about: the one that it names, or those of a conflict's two items, or the first.
local function lines_of_fault(buffer, message)
  local named, lines = tonumber(message:match("^line (%d+): ")), vim.api.nvim_buf_get_lines(buffer, 0, -1, false)
  if named then
    return { math.max(0, math.min(named, #lines) - 1) }
  end
  local productions, found = productions_of(message), {}
  for number, line in ipairs(lines) do
    for _, production in ipairs(productions) do
      found[number - 1] = found[number - 1] or says(line, production) or nil
    end
  end
  return next(found) and vim.tbl_keys(found) or { 0 }
end

-- Shows what is wrong with the grammar of a language in the grammar's buffer, or that nothing is.
local function show_grammar_fault(language, message)
  local buffer, diagnostics = buffer_of(language.grammar), {}
  if not buffer then
    return
  end
  for _, line in ipairs(message and lines_of_fault(buffer, message) or {}) do
    local last = #line_of(buffer, line)
    table.insert(diagnostics, { lnum = line, col = 0, end_lnum = line, end_col = last, source = "lrls", message = message })
  end
  vim.diagnostic.set(grammar_faults, buffer, diagnostics)
end

-- The connection to a server. Neovim's own would decode each answer when it comes, and all tokens of a megabyte take it half a
-- second. Here the answer to `lr/tokens` stays text.

-- Returns a function that takes what a server writes, and calls `take` with the content of each frame.
local function frames(take)
  local chunks, size, wanted = {}, 0, nil
  local function cut(count)
    local text = table.concat(chunks)
    chunks, size = { text:sub(count + 1) }, #text - count
    return text:sub(1, count)
  end
  return function(chunk)
    table.insert(chunks, chunk)
    size = size + #chunk
    while true do
      local head = not wanted and table.concat(chunks):match("^Content%-Length: %d+\r\n\r\n")
      if head then
        wanted = tonumber(cut(#head):match("%d+"))
      end
      if not wanted or size < wanted then
        return
      end
      take(cut(wanted))
      wanted = nil
    end
  end
end

-- Returns a function that takes the content of a frame: a notification, or the answer to one of the requests that wait.
local function receiver(waiting, dispatchers)
  local function answer(id, err, result)
    local request = waiting[id]
    waiting[id] = nil
    if request then
      vim.schedule(function()
        request.is_answered(id)
        request.done(err, result)
      end)
    end
  end
  return function(content)
    local id = tonumber(content:match('^{"id":(%d+),"jsonrpc":"2.0","result":'))
    if id and waiting[id] and waiting[id].method == "lr/tokens" then
      return answer(id, nil, content)
    end
    local message = vim.json.decode(content, { luanil = { object = true } })
    if not message.method then
      return answer(message.id, message.error, message.result)
    end
    vim.schedule(function()
      dispatchers.notification(message.method, message.params)
    end)
  end
end

-- What Neovim's client calls to speak with a process that reads from this pipe.
local function speaker(process, pid, input, waiting)
  local count = 0
  local function send(message)
    local content = vim.json.encode(message)
    return not process:is_closing() and input:write(("Content-Length: %d\r\n\r\n%s"):format(#content, content)) ~= nil
  end
  return {
    pid = pid,
    handle = process,
    notify = function(method, params)
      return send({ jsonrpc = "2.0", method = method, params = params })
    end,
    request = function(method, params, done, is_answered)
      count = count + 1
      waiting[count] = { method = method, done = done, is_answered = is_answered or function() end }
      return send({ id = count, jsonrpc = "2.0", method = method, params = params }), count
    end,
    is_closing = function()
      return process:is_closing()
    end,
    terminate = function()
      process:kill("sigterm")
    end,
  }
end

-- Runs a server, and returns what Neovim's client needs to speak with it.
local function connection(command, dispatchers)
  local input, output, waiting = vim.loop.new_pipe(false), vim.loop.new_pipe(false), {}
  local process, pid
  process, pid = vim.loop.spawn(command[1], { args = vim.list_slice(command, 2), stdio = { input, output } }, function(...)
    input:close()
    output:close()
    process:close()
    dispatchers.on_exit(...)
  end)
  local take = frames(receiver(waiting, dispatchers))
  output:read_start(function(_, chunk)
    if chunk then
      take(chunk)
    end
  end)
  return speaker(process, pid, input, waiting)
end

-- The server.

local function command_of(language, errors)
  return { "sh", "-c", 'exec "$0" serve "$1" 2> "$2"', language.program or program, language.grammar, errors }
end

-- What a server wrote on its standard error, which went into this file.
local function take_errors(errors)
  local file = io.open(errors)
  local text = file and file:read("*a") or ""
  if file then
    file:close()
    os.remove(errors)
  end
  return text
end

-- The status with which a server ends at a fault of its grammar.
local faulty_grammar = 2

local function message_of(text)
  return vim.trim(text:gsub("^lrls: ", ""))
end

-- Says why a server has ended, in its own words, and goes on where one was to be started anew.
local function ended(language, id, code, signal, errors)
  local text, go_on = take_errors(errors), after_end[id]
  if clients[language.name] == id then
    clients[language.name] = nil
  end
  after_end[id] = nil
  if go_on then
    return go_on()
  elseif code == 0 and signal == 0 then
    return
  end
  if code == faulty_grammar then
    show_grammar_fault(language, message_of(text))
  end
  local how = signal ~= 0 and "was ended by signal " .. signal or "ended with status " .. code
  notify(("the server of %s %s:\n%s:LrlsRestart starts it anew"):format(language.name, how, text))
end

local function config_of(language)
  local errors = vim.fn.tempname()
  local capabilities = vim.lsp.protocol.make_client_capabilities()
  capabilities.general = vim.tbl_extend("force", capabilities.general or {}, { positionEncodings = { "utf-8" } })
  return {
    name = "lrls " .. language.name,
    cmd = function(dispatchers)
      return connection(command_of(language, errors), dispatchers)
    end,
    capabilities = capabilities,
    offset_encoding = "utf-8",
    handlers = {
      ["window/logMessage"] = function(_, message)
        notify(message.message)
      end,
    },
    on_attach = function(_, buffer)
      if served[buffer] then
        refresh_soon(buffer)
      end
    end,
    on_exit = function(code, signal, id)
      vim.schedule(function()
        ended(language, id, code, signal, errors)
      end)
    end,
  }
end

-- Starts a client, and returns its number.
local function start(config, buffer)
  if vim.lsp.start then
    local function never()
      return false
    end
    return vim.lsp.start(config, { bufnr = buffer, reuse_client = never })
  end
  -- Neovim 0.7 takes no connection of another kind than its own.
  local rpc, connect = require("vim.lsp.rpc"), config.cmd
  local own = rpc.start
  rpc.start = function(_, _, dispatchers)
    return connect(dispatchers)
  end
  config.cmd = { "sh" }
  local id = vim.lsp.start_client(config)
  rpc.start = own
  return id
end

-- Has the server of a buffer's language hear of the buffer, and starts it where it doesn't run.
local function connect(buffer)
  local language = served[buffer].language
  local id = clients[language.name]
  if not id then
    id = start(config_of(language), buffer)
    clients[language.name] = id
    local namespace = vim.lsp.diagnostic.get_namespace(id)
    vim.diagnostic.config({ update_in_insert = true, virtual_text = true }, namespace)
  end
  vim.lsp.buf_attach_client(buffer, id)
end

local function connect_all(language)
  for buffer, state in pairs(served) do
    if state.language == language and vim.api.nvim_buf_is_loaded(buffer) then
      connect(buffer)
    end
  end
end

-- Starts the server of a language anew.
local function restart(language)
  local id = clients[language.name]
  if not id or not vim.lsp.get_client_by_id(id) then
    clients[language.name] = nil
    return connect_all(language)
  end
  after_end[id] = function()
    connect_all(language)
  end
  vim.lsp.stop_client(id)
end

-- The languages whose grammar is in this file.
local function languages_in(path)
  local real = vim.loop.fs_realpath(path)
  return vim.tbl_filter(function(language)
    return is_file(language.grammar, real)
  end, known)
end

-- Starts the servers anew of a buffer's language, and of the languages whose grammar the buffer is.
local function restart_servers(buffer)
  restart(served[buffer].language)
  for _, language in ipairs(languages_in(vim.api.nvim_buf_get_name(buffer))) do
    if language ~= served[buffer].language then
      restart(language)
    end
  end
end

-- Looks at the grammar of a language: a server without input reads it, and ends.
-- `done` gets the fault, or nil.
local function check_grammar(language, done)
  local errors = vim.fn.tempname()
  vim.fn.jobstop(checks[language.name] or 0)
  checks[language.name] = vim.fn.jobstart(command_of(language, errors), {
    stdin = "null",
    on_exit = function(job, code)
      local text = take_errors(errors)
      if checks[language.name] == job then
        local message = code ~= 0 and text ~= "" and message_of(text) or nil
        show_grammar_fault(language, code == faulty_grammar and message or nil)
        done(message)
      end
    end,
  })
end

-- Has the languages of a grammar file that was written go by it. Where it has a fault, their servers go on with the grammar before.
local function grammar_written(path)
  for _, language in ipairs(languages_in(path)) do
    check_grammar(language, function(message)
      if message then
        return notify(("%s: %s"):format(vim.fn.fnamemodify(path, ":t"), message))
      end
      restart(language)
    end)
  end
end

-- The selection.

-- A range of the server, up to and without its last place. One that ends at the beginning of a line ends after the line before,
-- since a selection holds no line break alone.
local function range_of(range)
  local first, last = range.start, range["end"]
  if last.character == 0 and last.line > first.line then
    return { first.line, first.character, last.line - 1, vim.fn.col({ last.line, "$" }) - 1 }
  end
  return { first.line, first.character, last.line, last.character }
end

-- The ranges around the cursor from inner to outer.
local function ranges_around_cursor(buffer)
  local cursor = vim.api.nvim_win_get_cursor(0)
  local position = { line = cursor[1] - 1, character = cursor[2] }
  local answer = ask_now(buffer, "textDocument/selectionRange", { positions = { position } })
  local found, link = {}, answer and answer[1]
  while type(link) == "table" do
    local range = range_of(link.range)
    if is_before(range[1], range[2], range[3], range[4]) then
      table.insert(found, range)
    end
    link = link.parent
  end
  return found
end

local function select_range(range)
  if vim.api.nvim_get_mode().mode:find("^[vV\22]") then
    vim.cmd("normal! \27")
  end
  vim.api.nvim_win_set_cursor(0, { range[1] + 1, range[2] })
  vim.cmd("normal! v")
  vim.api.nvim_win_set_cursor(0, { range[3] + 1, math.max(range[4] - 1, 0) })
end

-- The selection as `select_range` would take it: its range, or nil outside of visual mode.
local function selected()
  if not vim.api.nvim_get_mode().mode:find("^[vV\22]") then
    return nil
  end
  local here, there = vim.fn.getpos("."), vim.fn.getpos("v")
  if is_before(there[2], there[3], here[2], here[3]) then
    here, there = there, here
  end
  local line = line_of(0, there[2] - 1)
  local width = #vim.fn.matchstr(line:sub(there[3]), "^.")
  return { here[2] - 1, here[3] - 1, there[2] - 1, there[3] - 1 + width }
end

local function is_wider(range, than)
  local begins_after = is_before(than[1], than[2], range[1], range[2])
  local ends_before = is_before(range[3], range[4], than[3], than[4])
  return not begins_after and not ends_before and not vim.deep_equal(range, than)
end

-- Selects the innermost node around the cursor, or around the selection a wider one.
local function grow(buffer)
  local state, now = served[buffer], selected()
  local ranges = ranges_around_cursor(buffer)
  if not now then
    state.grown = {}
  end
  for _, range in ipairs(ranges) do
    if not now or is_wider(range, now) then
      table.insert(state.grown, now or false)
      return select_range(range)
    end
  end
end

-- Goes back to what was selected before the last growth.
local function shrink(buffer)
  local before = table.remove(served[buffer].grown)
  if before then
    select_range(before)
  elseif selected() then
    vim.cmd("normal! \27")
  end
end

-- Opens a window for the tree, beside the current one.
local function open_tree(buffer)
  local own = vim.api.nvim_create_buf(false, true)
  served[buffer].tree = { buffer = own, first = 1, middle = 1 }
  vim.bo[own].bufhidden = "wipe"
  local window = vim.api.nvim_get_current_win()
  vim.cmd("rightbelow vertical sbuffer " .. own)
  vim.cmd("setlocal nonumber norelativenumber signcolumn=no nowrap foldmethod=manual nofoldenable")
  vim.keymap.set("n", "<CR>", function()
    go_to_node(buffer)
  end, { buffer = own })
  vim.api.nvim_create_autocmd("BufWipeout", {
    buffer = own,
    callback = function()
      if served[buffer] then
        served[buffer].tree = nil
      end
    end,
  })
  vim.api.nvim_set_current_win(window)
end

-- Opens the window of the tree, or closes it.
local function toggle_tree(buffer)
  local state = served[buffer]
  if state.tree then
    return vim.api.nvim_buf_delete(state.tree.buffer, { force = true })
  end
  local tokens = ask_now(buffer, "lr/tokens", {})
  if tokens then
    state.tokens, state.tick = tokens, tick_of(buffer)
    open_tree(buffer)
    refresh_tree(buffer)
  end
end

-- Buffers.

-- Sends the whole text. Where all lines are deleted Neovim reports the line break that it keeps as deleted too, and from then on
-- the server's text would lack its last line break.
local function resend(buffer)
  local client = client_of(buffer)
  if not client then
    return
  end
  -- Before a request Neovim sends the changes that it still holds back.
  ask(buffer, "lr/stats", {}, function() end)
  local text = table.concat(vim.api.nvim_buf_get_lines(buffer, 0, -1, true), "\n") .. "\n"
  local document = { uri = vim.uri_from_bufnr(buffer), version = tick_of(buffer) }
  local params = { textDocument = document, contentChanges = { { text = text } } }
  call(client, "notify", "textDocument/didChange", params)
end

local function is_empty(buffer)
  return vim.api.nvim_buf_line_count(buffer) == 1 and line_of(buffer, 0) == ""
end

-- Follows the changes of a buffer.
local function follow(buffer)
  local state = served[buffer]
  vim.api.nvim_buf_attach(buffer, false, {
    on_lines = function(_, _, _, first, last, new_last)
      if served[buffer] ~= state then
        return true
      end
      move_folds(buffer, first, last, new_last)
      refresh_soon(buffer)
      if is_empty(buffer) then
        vim.schedule(function()
          resend(buffer)
        end)
      end
    end,
    on_bytes = function(_, _, _, line, byte, _, old_lines, old_bytes, _, lines, bytes)
      if old_lines + old_bytes + lines == 0 then
        -- The marks have not moved yet.
        vim.schedule(function()
          if vim.api.nvim_buf_is_loaded(buffer) then
            extend_colour(buffer, line, byte, bytes)
          end
        end)
      end
    end,
    on_reload = function()
      refresh_soon(buffer)
    end,
    on_detach = function()
      if served[buffer] == state then
        served[buffer] = nil
      end
    end,
  })
end

local function show_folds()
  vim.cmd("setlocal foldmethod=expr foldexpr=v:lua.lrls_fold(v:lnum) foldlevel=99")
end

-- A line of more bytes is a long one.
local long_line = 20000

local function has_long_line(buffer)
  for _, line in ipairs(vim.api.nvim_buf_get_lines(buffer, 0, -1, false)) do
    if #line > long_line then
      return true
    end
  end
  return false
end

-- Switches off what Neovim does at each key with all of a long line: its own colours of the file type, and the marking of matching
-- parentheses.
local function spare(buffer)
  vim.bo[buffer].syntax = ""
  if vim.fn.exists(":NoMatchParen") == 2 then
    vim.cmd("NoMatchParen")
  end
end

local function serve(buffer, language)
  served[buffer] = { language = language, folds = {}, levels = {}, tokens = "", grown = {}, pause = 50 }
  vim.bo[buffer].filetype = language.name
  vim.bo[buffer].commentstring = language.comment or ""
  if has_long_line(buffer) then
    spare(buffer)
  end
  for key, command in pairs(keys) do
    vim.keymap.set({ "n", "x" }, key, "<Cmd>" .. command .. "<CR>", { buffer = buffer })
  end
  follow(buffer)
  connect(buffer)
end

-- Makes a command that is for buffers that are served.
local function command(name, run, description)
  vim.api.nvim_create_user_command(name, function()
    local buffer = vim.api.nvim_get_current_buf()
    if not served[buffer] then
      return notify("no language of editors/neovim.lua is for this buffer")
    end
    run(buffer)
  end, { desc = description, range = true })
end

local function add(language)
  table.insert(known, language)
  vim.api.nvim_create_autocmd({ "BufRead", "BufNewFile" }, {
    group = group,
    pattern = language.files,
    callback = function(event)
      serve(event.buf, language)
    end,
  })
end

for _, language in ipairs(languages) do
  add(language)
end

-- Calls a function with what Neovim tells of each of these events.
local function at(events, run)
  vim.api.nvim_create_autocmd(events, { group = group, callback = run })
end

-- Calls a function with the current buffer at these events, where the buffer is served.
local function at_served(events, run)
  at(events, function(event)
    if served[event.buf] then
      run(event.buf)
    end
  end)
end

at_served("BufWinEnter", show_folds)
at_served("BufWinEnter", paint)
at_served("InsertLeave", draw_folds)
at_served({ "CursorMoved", "CursorMovedI" }, mark_node)
at("WinScrolled", function()
  for buffer in pairs(served) do
    paint(buffer)
  end
end)
at("BufWritePost", function(event)
  grammar_written(event.match)
end)
at("BufReadPost", function(event)
  for _, language in ipairs(languages_in(event.match)) do
    check_grammar(language, function() end)
  end
end)
command("LrlsGrow", grow, "selects the innermost node around the cursor, or around the selection")
command("LrlsShrink", shrink, "goes back to the selection before the last :LrlsGrow")
command("LrlsTree", toggle_tree, "opens or closes a window with the tree")
command("LrlsRestart", restart_servers, "starts the server anew")

return { add = add }
