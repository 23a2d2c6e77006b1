-- A letter typed in each of many random lines of a text under a pattern, undone, and the fifty rows of a window, by
-- bindings/lua: embedded.lua LINES EDITS. It prints the median nanoseconds of each, one a line, as embedded.c does.
local ffi = require("ffi")
local rope_search = require("rope_search")

ffi.cdef([[
typedef struct { long seconds, nanoseconds; } embedded_time;
int clock_gettime(int, embedded_time *);
]])

local at = ffi.new("embedded_time")

local function now()
  ffi.C.clock_gettime(1, at)
  return tonumber(at.seconds) * 1e9 + tonumber(at.nanoseconds)
end

local lines, edits = tonumber(arg[1]), tonumber(arg[2])
local text = {}
for i = 0, lines - 1 do
  text[i + 1] = ("line %d of the text: let x = y(a, b);\n"):format(i)
end
local session = assert(rope_search.open())
assert(session:set_text(table.concat(text)))
assert(session:set_pattern("y\\(\\w+"))
math.randomseed(7)
local times = { typed = {}, undone = {}, shown = {} }
for i = 1, edits do
  local line = math.random(0, lines - 1)
  local first = now()
  assert(session:edit({ line, 5 }, { line, 5 }, "a"))
  local second = now()
  assert(#session:matches(line, line + 50) > 0)
  local third = now()
  assert(session:undo())
  times.typed[i], times.shown[i], times.undone[i] = second - first, third - second, now() - third
end
for _, what in ipairs({ "typed", "undone", "shown" }) do
  table.sort(times[what])
  print(("%s %.0f"):format(what, times[what][math.floor(edits / 2) + 1]))
end
