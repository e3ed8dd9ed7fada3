-- lua5.4 extract.lua SCRIPT..: every function of the scripts, as Lua 5.4 compiles them, in the form of real.txt:
-- f NAME; w WORD..; k TAG PAYLOAD for each constant; n PLACE for each upvalue name; b HEX, the string bytes.
-- A payload is unsigned and a place is start + 2^32 length, as document 01 has them.
local chunk, at

local function take(format)
  local value
  value, at = string.unpack(format, chunk, at)
  return value
end

local function size()
  local x = 0
  while true do
    local b = take("B")
    x = x << 7 | b & 0x7f
    if b & 0x80 ~= 0 then return x end
  end
end

local function text()
  local n = size()
  return n > 0 and take("c" .. n - 1) or nil
end

-- Lua's integers are signed: the bits as an unsigned number, its last digit apart.
local function unsigned(x)
  if x >= 0 then return tostring(x) end
  local q = (x >> 1) // 5
  return tostring(q) .. tostring(x - q * 10)
end

local function fun(name)
  local bytes, length = {}, 0
  local function place(s)
    bytes[#bytes + 1] = s
    length = length + #s
    return length - #s | #s << 32
  end
  text()
  local line = size()
  size()
  at = at + 3
  local words = {}
  for i = 1, size() do words[i] = take("I4") end
  local constants = {}
  for i = 1, size() do
    local tag = take("B")
    local payload = 0
    if tag == 3 then payload = take("i8") elseif tag == 19 then payload = take("i8")
    elseif tag == 4 or tag == 20 then payload = place(text()) end
    constants[i] = tag .. " " .. unsigned(payload)
  end
  local upvalues = size()
  at = at + 3 * upvalues
  local children = {}
  for i = 1, size() do children[i] = fun(name .. "/" .. i - 1) end
  local lines = size()
  at = at + lines
  for _ = 1, size() do size() size() end
  for _ = 1, size() do text() size() size() end
  local names = {}
  for i = 1, size() do
    local s = text()
    names[i] = unsigned(s and place(s) or -1)
  end
  local out = { "f " .. name .. ":" .. line, "w " .. table.concat(words, " ") }
  for _, k in ipairs(constants) do out[#out + 1] = "k " .. k end
  for _, n in ipairs(names) do out[#out + 1] = "n " .. n end
  out[#out + 1] = "b " .. table.concat(bytes):gsub(".", function(c) return string.format("%02x", c:byte()) end)
  return table.concat(out, "\n") .. "\n" .. table.concat(children)
end

for _, script in ipairs(arg) do
  chunk = string.dump(assert(loadfile(script)))
  at = 1 + 4 + 1 + 1 + 6 + 3 + 8 + 8 + 1
  io.write(fun(script:match("[^/]*$")))
end
