-- lua5.3 extract.lua SCRIPT..: the words of every function of the scripts, as Lua 5.3 compiles them, in the form of
-- words/real.txt: f NAME; w WORD..
local chunk, at

local function take(format)
  local value
  value, at = string.unpack(format, chunk, at)
  return value
end

local function text()
  local n = take("B")
  if n == 255 then n = take("T") end
  return n > 0 and take("c" .. n - 1) or nil
end

-- What a constant takes, by its tag: nil, a boolean, a float, an integer, a short and a long string.
local values = { [0] = function() end, [1] = function() take("B") end, [3] = function() take("n") end,
  [19] = function() take("j") end, [4] = text, [20] = text }

local function fun(name)
  text()
  local line = take("i")
  take("i")
  at = at + 3
  local words = {}
  for i = 1, take("i") do words[i] = take("I4") end
  for _ = 1, take("i") do values[take("B")]() end
  local upvalues = take("i")
  at = at + 2 * upvalues
  local children = {}
  for i = 1, take("i") do children[i] = fun(name .. "/" .. i - 1) end
  local lines = take("i")
  at = at + 4 * lines
  for _ = 1, take("i") do text() take("i") take("i") end
  for _ = 1, take("i") do text() end
  return ("f %s:%d\nw %s\n%s"):format(name, line, table.concat(words, " "), table.concat(children))
end

for _, script in ipairs(arg) do
  chunk = string.dump(assert(loadfile(script)))
  at = 1 + 4 + 1 + 1 + 6 + 5 + 8 + 8 + 1
  io.write(fun(script:match("[^/]*$")))
end
