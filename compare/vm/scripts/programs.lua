-- Small whole programs: queens, sieve, a parser, a queue simulation, string work, errors.
local function queens(n)
  local count, cols, up, down = 0, {}, {}, {}
  local function place(row)
    if row > n then count = count + 1 return end
    for c = 1, n do
      if not (cols[c] or up[row + c] or down[row - c]) then
        cols[c], up[row + c], down[row - c] = true, true, true
        place(row + 1)
        cols[c], up[row + c], down[row - c] = nil, nil, nil
      end
    end
  end
  place(1)
  return count
end
assert(queens(6) == 4)
local function sieve(n)
  local composite, primes = {}, {}
  for i = 2, n do
    if not composite[i] then
      primes[#primes + 1] = i
      for j = i * i, n, i do composite[j] = true end
    end
  end
  return primes
end
assert(#sieve(1000) == 168)
local function parse(text)
  local pos = 1
  local expr
  local function peek() return text:sub(pos, pos) end
  local function atom()
    if peek() == "(" then pos = pos + 1 local v = expr() pos = pos + 1 return v end
    if peek() == "-" then pos = pos + 1 return -atom() end
    local s, e = text:find("^%d+", pos)
    assert(s, "number expected at " .. pos)
    pos = e + 1
    return tonumber(text:sub(s, e))
  end
  local function term()
    local v = atom()
    while true do
      local c = peek()
      if c == "*" then pos = pos + 1 v = v * atom() elseif c == "/" then pos = pos + 1 v = v // atom() else return v end
    end
  end
  function expr()
    local v = term()
    while peek() == "+" or peek() == "-" do
      local c = peek()
      pos = pos + 1
      if c == "+" then v = v + term() else v = v - term() end
    end
    return v
  end
  return expr()
end
assert(parse("2*(3+4)-10/(1+1)") == 9)
assert(not pcall(parse, "2*"))
local seed = 42
local function random(n) seed = (seed * 1103515245 + 12345) & 0x7fffffff return (seed >> 16) % n + 1 end
local queue, first, last, served, waited = {}, 1, 0, 0, 0
for tick = 1, 2000 do
  if random(3) == 1 then last = last + 1 queue[last] = tick end
  if last >= first and random(2) == 1 then waited = waited + tick - queue[first] queue[first] = nil first = first + 1 served = served + 1 end
end
assert(served > 100 and waited >= 0)
local words = {}
for w in ("the quick brown fox jumps over the lazy dog the end"):gmatch("%a+") do words[w] = (words[w] or 0) + 1 end
assert(words.the == 3)
local s = ("abc"):rep(20):gsub("b", { b = "B" }):upper():reverse()
assert(#s == 60)
local ok, err = pcall(function() local t = nil return t.x end)
assert(not ok and err:find("nil"))
assert(select(2, xpcall(error, function(e) return "handled " .. e end, "boom")) == "handled boom")
local matrix = {}
for i = 1, 12 do matrix[i] = {} for j = 1, 12 do matrix[i][j] = i == j and 1 or (i + j) / 10 end end
local product = {}
for i = 1, 12 do product[i] = {} for j = 1, 12 do local v = 0 for k = 1, 12 do v = v + matrix[i][k] * matrix[k][j] end product[i][j] = v end end
assert(product[1][1] > 0)
