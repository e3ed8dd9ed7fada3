-- A yield inside every word that can be interrupted by one (luaV_finishOp), each answered with true and with false, in
-- coroutines. Not among scripts/, whose functions are also the real code of words/real.txt.
local yield = coroutine.yield
local events = {}
for event in ("index newindex len eq add band shl shr unm bnot lt le concat call"):gmatch("%l+") do
  events["__" .. event] = function() return yield() end
end
function events.__close() yield() yield() yield() end
local function object() return setmetatable({}, events) end
-- Runs f in a coroutine and answers each yield; yields must be as many as wanted.
local function drive(wanted, answer, f)
  local co, count = coroutine.create(f), -1
  local a, b, value = object(), object(), nil
  repeat
    local ok, message = coroutine.resume(co, table.unpack(count < 0 and { a, b } or { answer }))
    assert(ok, message)
    count, value = count + 1, message
  until coroutine.status(co) == "dead"
  assert(count == wanted, count)
  return value
end
local environment = object()
-- An upvalue that is no constant, so that GETTABUP and SETTABUP are made.
local function upvalues()
  local _ENV = environment
  return function() local v = x return v end, function() x = 1 end
end
local get, set = upvalues()
local bodies = {
  function(a, b) local v = a + b return v end, function(a) local v = a + 1 return v end,
  function(a) local v = 1 + a return v end, function(a) local v = a + 1.5 return v end,
  function(a) local v = 3 & a return v end, function(a) local v = 1 << a return v end,
  function(a) local v = a >> 1 return v end, function(a, b) local v = a & b return v end,
  function(a) local v = -a return v end, function(a) local v = ~a return v end, function(a) local v = #a return v end,
  function(a, b) local v = a[b] return v end, function(a) local v = a[1] return v end,
  function(a) local v = a.x return v end, get, function(a, b) local v = a == b return v end,
  function(a, b) local v = a < b return v end, function(a, b) local v = a <= b return v end,
  function(a) local v = a < 1 return v end, function(a) local v = a <= 1 return v end,
  function(a) local v = a > 1 return v end, function(a) local v = a >= 1 return v end,
  function(a, b) local v = a .. b return v end, function(a) local v = a() return v end,
  function() local v = yield() return v end, function() return yield() end, function(a) return a() end,
}
for i, body in ipairs(bodies) do
  assert(drive(1, true, body) == true)
  assert(drive(1, false, body) == false)
end
drive(1, nil, set)
drive(1, nil, function(a, b) a[b] = 1 end)
drive(1, nil, function(a) a[1] = 1 end)
drive(1, nil, function(a) a.x = 1 end)
assert(drive(1, function() return 5 end, function(a) local v = a:m() return v end) == 5)
assert(drive(1, "m", function(a) local v = "s" .. a .. "t" return v end) == "sm")
for _, answer in ipairs { true, false } do
  drive(4, answer, function(a, b)
    local r = 0
    if a < b then r = r + 1 end
    if a <= 1 then r = r + 2 else r = r + 3 end
    if not (a == b) then r = r + 4 end
    while a > 1 do r = r + 5 break end
  end)
end
-- An iterator that yields, once with a value and once without.
drive(2, nil, function() for v in function(_, v) yield() if not v then return 1 end end do end end)
-- A variable to be closed: its __close yields thrice, and the word is run once more; with two variables, twice more.
drive(3, nil, function(a) do local c <close> = a end end)
drive(6, nil, function(a, b) do local c <close> = a local d <close> = b end end)
assert(drive(3, nil, function(a) local c <close> = a return 7 end) == 7)
assert(drive(6, nil, function(a, b) local c <close> = a local d <close> = b return 7 end) == 7)
assert(drive(3, nil, function(a, ...) local c <close> = a return ... end) ~= nil)
