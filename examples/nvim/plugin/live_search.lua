-- :LiveSearch PATTERN searches the buffer, :LiveSearch alone ends that. :LiveSearchNext and
-- :LiveSearchPrevious go from match to match, :LiveSearchReplace TEMPLATE replaces all that is listed,
-- with a range in front of it what is listed there.
local live = require("live_search")

local function tell()
  local at, count, is_more = live.count(0)
  vim.api.nvim_echo({ { ("%d of %d%s"):format(at, count, is_more and "+" or "") } }, false, {})
end

vim.api.nvim_create_user_command("LiveSearch", function(given)
  local buffer = vim.api.nvim_get_current_buf()
  if given.args == "" then
    return live.stop(buffer)
  end
  local done, why = live.search(buffer, given.args)
  if done then
    tell()
  else
    vim.notify("refused: " .. why, vim.log.levels.WARN)
  end
end, { nargs = "?" })

vim.api.nvim_create_user_command("LiveSearchNext", function()
  live.next(0)
  tell()
end, {})

vim.api.nvim_create_user_command("LiveSearchPrevious", function()
  live.previous(0)
  tell()
end, {})

vim.api.nvim_create_user_command("LiveSearchReplace", function(given)
  local first, last = given.line1 - 1, given.line2 - 1
  local count, why = live.replace(vim.api.nvim_get_current_buf(), given.args, first, last)
  vim.notify(count and ("%d replaced"):format(count) or "refused: " .. why)
end, { nargs = 1, range = "%" })
