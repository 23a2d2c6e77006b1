-- examples/language_server with the client of Neovim, headless: after each key, undo, second document and
-- change of the pattern, the diagnostics are those of a new search of the buffer's lines, written here.
dofile(os.getenv("SERVER_LINES"))

-- The matches of the first of some literals, in a line: from the left, none within another.
local function in_line(line, literals)
  local found, at = {}, 1
  while true do
    local first, last
    for _, literal in ipairs(literals) do
      local start, stop = line:find(literal, at, true)
      if start and (not first or start < first) then
        first, last = start, stop
      end
    end
    if not first then
      return found
    end
    found[#found + 1] = { first - 1, last }
    at = last + 1
  end
end

local function anew(buffer, literals)
  local all = {}
  for row, line in ipairs(vim.api.nvim_buf_get_lines(buffer, 0, -1, true)) do
    for _, match in ipairs(in_line(line, literals)) do
      all[#all + 1] = ("%d:%d-%d"):format(row - 1, match[1], match[2])
    end
  end
  return table.concat(all, " ")
end

local function shown(buffer)
  local all = vim.diagnostic.get(buffer)
  table.sort(all, function(one, other)
    return one.lnum < other.lnum or one.lnum == other.lnum and one.col < other.col
  end)
  for i, one in ipairs(all) do
    assert(one.lnum == one.end_lnum, vim.inspect(one))
    all[i] = ("%d:%d-%d"):format(one.lnum, one.col, one.end_col)
  end
  return table.concat(all, " ")
end

local function client_of(buffer)
  local client
  assert(vim.wait(10000, function()
    for _, one in pairs(vim.lsp.buf_get_clients(buffer)) do
      client = one
    end
    return client ~= nil and client.initialized ~= false
  end, 10), "the server doesn't start")
  return client
end

local function ask(buffer, method, params)
  params.textDocument = vim.lsp.util.make_text_document_params(buffer)
  local answer, why = client_of(buffer).request_sync(method, params, 10000, buffer)
  assert(answer and not answer.err, vim.inspect({ why, answer }))
  return answer.result
end

-- The server answers in order, so what it publishes is there once it has answered a request.
local function see(buffer, literals, after)
  local cursor = { line = 0, character = 0 }
  ask(buffer, "textDocument/documentHighlight", { position = cursor })
  local due = anew(buffer, literals)
  vim.wait(2000, function()
    return shown(buffer) == due
  end, 5)
  if shown(buffer) ~= due then
    local text = table.concat(vim.api.nvim_buf_get_lines(buffer, 0, -1, true), "\\n")
    error(("after %s diagnostics are %s, not %s, in %s"):format(after, shown(buffer), due, text))
  end
end

local function press(keys)
  vim.api.nvim_feedkeys(vim.api.nvim_replace_termcodes(keys, true, false, true), "xt", false)
end

local KEYS = {
  "iTODO <Esc>", "oa FIXME b TODO<Esc>", "ggdd", "Gdd", "x", "dw", "yyp", "J", "u", "u", "<C-r>", "a TODO<CR>TODO<Esc>", "ggVGd",
  "ié🐸TODO<Esc>", "AFIX<Esc>", "AME<Esc>", "ggO<Esc>", "Go🐸🐸 TODO<Esc>", ":%s/TODO/FIXME/ge<CR>", "u", "ddP", ">>", "~", "r1",
  "vipJ", "u", "<C-r>", "Gkdd", "ggVG:m0<CR>", "iTO<CR>DO<Esc>", "kJx", "0D", "i日本 TODO<Esc>",
}

local DEFAULT = { "TODO", "FIXME" }

local function opened(name, lines, format)
  vim.cmd("enew!")
  vim.api.nvim_buf_set_name(0, name)
  vim.bo.fileformat, vim.bo.undolevels = format, 1000
  vim.api.nvim_buf_set_lines(0, 0, -1, true, lines)
  vim.bo.filetype = "text"
  return vim.api.nvim_get_current_buf()
end

local function typed(buffer, literals, seed, count)
  math.randomseed(seed)
  for step = 1, count do
    local keys = KEYS[math.random(#KEYS)]
    press(keys)
    see(buffer, literals, ("key %d of seed %d, %s,"):format(step, seed, keys))
  end
end

local function search(buffer, literals)
  client_of(buffer).notify("workspace/didChangeConfiguration", {
    settings = { rope_search = { pattern = table.concat(literals, "|"), replacement = "<$0>" } },
  })
end

local one = opened("one.txt", { "one TODO two", "", "é🐸 FIXME TODO" }, "unix")
see(one, DEFAULT, "the start")
typed(one, DEFAULT, 1, 60)
local two = opened("two.txt", { "TODO", "🐸TODO 🐸FIXME" }, "dos")
see(two, DEFAULT, "the start of a second document")
see(one, DEFAULT, "opening another")
typed(two, DEFAULT, 2, 60)
see(one, DEFAULT, "typing in another")
assert(client_of(one).id == client_of(two).id, "each document has a server of its own")
vim.api.nvim_buf_set_lines(one, 0, -1, true, { "é TODO", "FIXME 🐸TO" })
for seed, literals in ipairs({ { "é", "TO" }, { "FIXME" }, DEFAULT }) do
  search(two, literals)
  see(two, literals, "another pattern")
  see(one, literals, "another pattern")
  assert(shown(one) ~= "", "nothing is shown in the other document")
  typed(two, literals, 10 + seed, 15)
end

-- The words under the cursor, and the action that replaces all that is listed.
vim.api.nvim_buf_set_lines(two, 0, -1, true, { "🐸 word sword", "word TODO", "FIXME 🐸TODO" })
see(two, DEFAULT, "lines anew")
local words = ask(two, "textDocument/documentHighlight", { position = { line = 1, character = 4 } })
local got = table.concat(vim.tbl_map(function(word)
  local range = word.range
  return ("%d:%d-%d"):format(range.start.line, range.start.character, range["end"].character)
end, words), " ")
assert(got == "0:3-7 1:0-4", got)
local place = { line = 2, character = 0 }
local actions = ask(two, "textDocument/codeAction", { range = { start = place, ["end"] = place }, context = { diagnostics = {} } })
vim.lsp.util.apply_workspace_edit(actions[1].edit, "utf-16")
local lines = table.concat(vim.api.nvim_buf_get_lines(two, 0, -1, true), "\n")
assert(lines == "🐸 word sword\nword <TODO>\n<FIXME> 🐸<TODO>", lines)
see(two, DEFAULT, "replacing")
press("u")
see(two, DEFAULT, "undoing that")
vim.cmd("bdelete! " .. one)
see(two, DEFAULT, "closing the other")
local client = client_of(two)
client.stop()
assert(vim.wait(10000, function()
  return client.is_stopped()
end, 10), "the server doesn't stop")
print("diagnostics in Neovim: as due")
