-- A letter typed in each of many random rows of a buffer of Neovim, until examples/nvim has its session follow, and
-- undone: LINES and EDITS come by the environment. It prints the median nanoseconds of each, one a line, as embedded.c
-- does; and what the same letter takes before the search begins, of which the rest is Neovim's own.
local live = require("live_search")

local lines, edits = tonumber(vim.env.LINES), tonumber(vim.env.EDITS)
local text = {}
for i = 0, lines - 1 do
  text[i + 1] = ("line %d of the text: let x = y(a, b);"):format(i)
end
vim.api.nvim_buf_set_lines(0, 0, -1, true, text)
vim.o.undolevels = -1
math.randomseed(7)

-- The median nanoseconds of a letter put in, and taken out again.
local function medians()
  local typed, undone = {}, {}
  for i = 1, edits do
    local row = math.random(0, lines - 1)
    local first = vim.loop.hrtime()
    vim.api.nvim_buf_set_text(0, row, 5, row, 5, { "a" })
    local second = vim.loop.hrtime()
    vim.api.nvim_buf_set_text(0, row, 5, row, 6, { "" })
    typed[i], undone[i] = second - first, vim.loop.hrtime() - second
  end
  table.sort(typed)
  table.sort(undone)
  local middle = math.floor(edits / 2) + 1
  return typed[middle], undone[middle]
end

local bare = medians()
assert(live.search(vim.api.nvim_get_current_buf(), "y\\(\\w+"))
local typed, undone = medians()
io.stdout:write(("typed %.0f\nundone %.0f\nbare %.0f\n"):format(typed, undone, bare))
