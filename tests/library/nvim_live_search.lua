-- examples/nvim, headless: after each of many keys the marks in the buffer are those of a search
-- anew of its text, by a session of its own.
local live = require("live_search")
local rope_search = require("rope_search")

local NAMESPACE = vim.api.nvim_create_namespace("live_search")

-- The matches of a pattern in the buffer's text, as pairs of bytes of the text.
local function anew(text, pattern)
  local session = assert(rope_search.open())
  assert(session:set_text(text))
  assert(session:set_pattern(pattern))
  local all = {}
  for i, match in ipairs(session:matches(0, session:text_lines() - 1)) do
    local start = session:byte_of({ match.line, match.start })
    all[i] = ("%d-%d"):format(start, session:byte_of({ match.line, match.stop }))
  end
  session:close()
  return table.concat(all, " ")
end

local function offset_of(buffer, row)
  return math.max(0, vim.api.nvim_buf_get_offset(buffer, row))
end

local function marked(buffer)
  local all = {}
  for i, mark in ipairs(vim.api.nvim_buf_get_extmarks(buffer, NAMESPACE, 0, -1, { details = true })) do
    local start = offset_of(buffer, mark[2]) + mark[3]
    local stop = offset_of(buffer, mark[4].end_row) + mark[4].end_col
    all[i] = ("%d-%d"):format(start, stop)
  end
  return table.concat(all, " ")
end

local function text_of(buffer)
  return table.concat(vim.api.nvim_buf_get_lines(buffer, 0, -1, true), "\n") .. "\n"
end

local function press(keys)
  vim.api.nvim_feedkeys(vim.api.nvim_replace_termcodes(keys, true, false, true), "xt", false)
end

-- The marks that start in the rows of the window, which are painted as they are after a key, are
-- those that start there once all is painted.
local function see_window(buffer, after)
  vim.cmd("redraw")
  live.paint_windows(buffer)
  local shown = vim.fn.getwininfo(vim.api.nvim_get_current_win())[1]
  local function in_window()
    local all = {}
    for i, mark in ipairs(vim.api.nvim_buf_get_extmarks(buffer, NAMESPACE, { shown.topline - 1, 0 },
      { shown.botline - 1, -1 }, { details = true })) do
      all[i] = ("%d:%d-%d:%d"):format(mark[2], mark[3], mark[4].end_row, mark[4].end_col)
    end
    table.sort(all)
    return table.concat(all, " ")
  end
  local got = in_window()
  live.paint(buffer, 0, vim.api.nvim_buf_line_count(buffer) - 1)
  if got ~= in_window() then
    error(("after %s the window has the marks %s, not %s"):format(after, got, in_window()))
  end
  live.paint_windows(buffer)
end

local function see(buffer, pattern, after)
  live.paint(buffer, 0, vim.api.nvim_buf_line_count(buffer) - 1)
  local got, due = marked(buffer), anew(text_of(buffer), pattern)
  if got ~= due then
    error(("after %s marks are %s, not %s, in %q"):format(after, got, due, text_of(buffer)))
  end
end

local KEYS = {
  "ione <Esc>", "otwo one<Esc>", "ggdd", "Gdd", "x", "dw", "yyp", "J", "u", "u", "<C-r>", "a one<CR>one<Esc>", "ggVGd",
  "iné🐸one<Esc>", "A\ronce<Esc>", "i<C-v><CR>one<Esc>", "$i<C-v><CR><Esc>", "0i<CR><Esc>", "ggO<Esc>", "Go<Esc>",
  ":%s/one/none/ge<CR>", "u", "ddP", ">>", "~", "r1", "vipJ", "u", "<C-r>", "gg0C<C-v><CR>x one<Esc>", "Gkdd", "ggVG:m0<CR>",
}

local function typed(lines, pattern, seed)
  vim.cmd("enew!")
  vim.bo.undolevels = 1000
  local buffer = vim.api.nvim_get_current_buf()
  vim.api.nvim_buf_set_lines(buffer, 0, -1, true, lines)
  assert(live.search(buffer, pattern))
  see(buffer, pattern, "the start")
  math.randomseed(seed)
  for step = 1, 60 do
    local keys = KEYS[math.random(#KEYS)]
    press(keys)
    if step % 3 > 0 then
      see_window(buffer, ("key %d, %s,"):format(step, keys))
    else
      see(buffer, pattern, ("key %d, %s,"):format(step, keys))
      live.paint_windows(buffer)
    end
  end
  live.stop(buffer)
end

-- Replaces what is listed, as a step of its own to undo.
local function replaced(buffer, ...)
  vim.bo.undolevels = vim.bo.undolevels
  return live.replace(buffer, ...)
end

local function walked()
  vim.cmd("enew!")
  local buffer = vim.api.nvim_get_current_buf()
  vim.api.nvim_buf_set_lines(buffer, 0, -1, true, { "one two", "é one\rone", "none" })
  assert(live.search(buffer, "one"))
  local seen = {}
  vim.api.nvim_win_set_cursor(0, { 1, 0 })
  for _, go in ipairs({ live.next, live.next, live.next, live.next, live.previous, live.previous }) do
    go(0)
    local k, n = live.count(0)
    seen[#seen + 1] = ("%d/%d %s"):format(k, n, table.concat(vim.api.nvim_win_get_cursor(0), ":"))
  end
  local got = table.concat(seen, ", ")
  local due = "2/4 2:3, 3/4 2:7, 4/4 3:1, 1/4 1:0, 4/4 3:1, 3/4 2:7"
  assert(got == due, got)
  assert(replaced(buffer, "<$0>") == 4)
  assert(text_of(buffer) == "<one> two\né <one>\r<one>\nn<one>\n", text_of(buffer))
  see(buffer, "one", "replacing")
  press("u")
  assert(text_of(buffer) == "one two\né one\rone\nnone\n", text_of(buffer))
  see(buffer, "one", "undoing that")
  -- In some rows, with a group and a break; and what is listed where the whole text has other matches.
  assert(live.search(buffer, "(o)ne$"))
  assert(replaced(buffer, "$1\n-", 1, 1) == 2)
  assert(text_of(buffer) == "one two\né o\n-\ro\n-\nnone\n", text_of(buffer))
  see(buffer, "(o)ne$", "replacing in some rows")
  press("u")
  assert(text_of(buffer) == "one two\né one\rone\nnone\n", text_of(buffer))
  see(buffer, "(o)ne$", "undoing that")
  assert(replaced(buffer, "") == 3)
  assert(text_of(buffer) == "one two\né \r\nn\n", text_of(buffer))
  press("u")
  assert(replaced(buffer, "x", 0, 0) == 0)
  see(buffer, "(o)ne$", "replacing nothing")
  local done, why = live.search(buffer, "(")
  assert(not done and why == "a group isn't closed, at byte 1")
end

-- A pattern in many lines: no call makes more rows than a slice, also where keys come between the
-- slices; and once all are done the marks are those of a search anew.
local function in_slices()
  vim.cmd("enew!")
  local buffer, lines = vim.api.nvim_get_current_buf(), {}
  for line = 1, 30000 do
    lines[line] = line % 3 == 0 and "one two" or "a line"
  end
  vim.api.nvim_buf_set_lines(buffer, 0, -1, true, lines)
  local session = assert(rope_search.open())
  local calls, most = getmetatable(session), 0
  session:close()
  for _, name in ipairs({ "set_text", "edit_bytes", "begin_pattern", "advance", "window", "off" }) do
    local call = calls[name]
    calls[name] = function(self, ...)
      local rows = self:counted().rows
      local answer, why = call(self, ...)
      most = math.max(most, self:counted().rows - rows)
      return answer, why
    end
  end
  assert(live.search(buffer, "one"))
  assert(live.pending(buffer))
  local _, count, is_more = live.count(0)
  assert(is_more and count > 0 and count < 10000)
  see_window(buffer, "a pattern that is pending")
  most = 0
  assert(live.search(buffer, "two"))
  assert(live.pending(buffer))
  press("ggitwo <Esc>")
  live.paint_windows(buffer)
  live.next(0)
  local there = table.concat(vim.api.nvim_win_get_cursor(0), ":")
  live.previous(0)
  there = there .. " " .. table.concat(vim.api.nvim_win_get_cursor(0), ":")
  live.previous(0)
  there = there .. " " .. table.concat(vim.api.nvim_win_get_cursor(0), ":")
  assert(there == "3:4 1:0 30000:4", there)
  assert(vim.wait(20000, function()
    return not live.pending(buffer)
  end))
  assert(most == live.slice, ("%d rows at once"):format(most))
  _, count, is_more = live.count(0)
  assert(not is_more and count == 10001, count)
  see(buffer, "two", "all slices")
  live.stop(buffer)
end

walked()
in_slices()
for seed = 1, 4 do
  typed({ "one two", "a line of one word", "", "none\rone\r" }, "one", seed)
  typed({ "" }, "\\bo\\w*$|^", 100 + seed)
end
print("matches in Neovim: as due")
