-- What Lua 5.3.6 does with the words of docs/DIFFERENCES.md's part on it: as ../vm/rows.lua, whose first lines say how.
local here = arg[0]:match("^(.*)/") or "."
local asm = dofile(here .. "/assemble.lua")
local cases = assert(loadfile(here .. "/../vm/cases.lua"))(asm)
local case, equal, run, fails, with, hooked = cases.case, cases.equal, cases.run, cases.fails, cases.with, cases.hooked
local op, abc, asbx, loadk = asm.op, asm.abc, asm.asbx, asm.loadk
local jump, extra, give, PAST = asm.jump, asm.extra, asm.give, cases.PAST
-- In a coroutine: the words as a function of these arguments, whose first yield is answered.
local function resumed(words, args, answer, f)
  f = f or {}
  f.words, f.params = words, #args
  local co = coroutine.wrap(function(made) return made(table.unpack(args)) end)
  co(asm.make(f))
  return table.pack(co(answer))
end
local yield = coroutine.yield
-- Whether a test takes the JMP after it along (true), or skips it.
local function jumps(word, args, f)
  f = f or {}
  f.k = { "skips", "jumps" }
  local way = { word, jump(2), loadk(30, 0), give(30, 1), loadk(30, 1), give(30, 1) }
  return run(way, args, f)[1] == "jumps"
end

-- Comments and code
case({ "older 16777219" }, function()
  local r = run({ 16777219, give(0, 1) }, {})[1]
  assert(r and type(r) == "boolean" and r ~= true)
  equal(run({ abc(op.LOADBOOL, 0, 1), give(0, 1) }, {}), true)
end)
case({ "older 4194307" }, function() equal(run({ 4194307, loadk(0, 0), give(0, 1) }, {}, { k = { 7 } }), false) end)
case({ "older 16543, 30, 8388646" }, function()
  for _, code in ipairs { op.EQ, op.LT, op.LE } do
    for _, values in ipairs { { 1, 1 }, { 1, 2 }, { 2, 1 } } do
      for _, a in ipairs { 2, 3, 255 } do
        assert(not jumps(abc(code, a, 0, 1), values))
        equal(run({ abc(code, a, 0, 1), 30, give(0, 2) }, values), table.unpack(values))
      end
    end
  end
  run({ 16543, 30, 8388646 }, { 1, 1 })
end)
case({ "older 32802 or 32803" }, function()
  for _, c in ipairs { 1, 2, 256, 511 } do
    assert(jumps(abc(op.TEST, 0, 0, c), { 5 }) and not jumps(abc(op.TEST, 0, 0, c), { false }))
    assert(jumps(abc(op.TESTSET, 1, 0, c), { 5 }) and not jumps(abc(op.TESTSET, 1, 0, c), { false }))
  end
  assert(jumps(abc(op.TEST, 0, 0, 0), { false }) and not jumps(abc(op.TEST, 0, 0, 0), { 5 }))
end)
local function one() return 7 end
case({ "older 8388645, 8388646" }, function()
  local words = { 8388645, loadk(0, 0), give(0, 1) }
  equal(run(words, { one }, { k = { 5 } }), 7)
  equal(run(words, { os.time }, { k = { 5 } }), 5)
end)
case({ "older 8405029" }, function() equal(run({ 8405029, loadk(0, 0), give(0, 1) }, { one }, { k = { 5 } }), 7) end,
  { asserts = "LUA_MULTRET" })
case({ "older 38" }, function()
  local r = run({ 38 }, { 1, 2 }, { stack = 4 })
  assert(r.n == 4 and r[1] == 1 and r[2] == 2)
end)
case({ "older 2147467303" }, function()
  equal(run({ 2147467303, give(0, 4) }, { 1, 1, 1, "before" }), 1, 1, 1, "before")
  equal(run({ 2147467303, give(0, 4) }, { 1, 2, 1, "before" }), 2, 2, 1, 2)
  equal(run({ 2147467303, give(0, 4) }, { 1.0, 1.0, 1.0, "before" }), 1.0, 1.0, 1.0, "before")
end)
case({ "older 2147467304" }, function()
  equal(run({ 2147467304, give(0, 3) }, { 5, 7.5, 1 }), 4, 7, 1)
  equal(run({ 2147467304, give(0, 3) }, { 5, 7, 1.5 }), 3.5, 7.0, 1.5)
  equal(run({ 2147467304, give(0, 3) }, { 5, 7, "1" }), 4.0, 7.0, 1.0)
  equal(run({ 2147467304, give(0, 3) }, { 5, -math.huge, 1 }), -1, math.mininteger, 1)
end)
case({ "older 16425, 2147467306" }, function()
  local args = { select, "#", "i", 0, 0, 0 }
  equal(run({ 16425, 2147467306, give(0, 6) }, args), "#", "#", "i", 1, "#", "i")
  equal(run({ abc(41), 2147467306, give(0, 6) }, args), "#", "#", "i", select, "#", "i")
end)
case({ "older 41, 2147467626" }, function()
  equal(run({ 41, 2147467626, give(5, 2) }, { one, 1, 2, 0, 0, "a", "b" }), "b", "b")
end)
local joins = with { __concat = function() return "m" end }
case({ "older 16733" }, function()
  equal(run({ 16733, give(0, 6) }, { 1, 2, "k", 0, 0, 0 }), "12", "2", "k", 0, 0, "12")
  local r = run({ 16733, give(0, 6) }, { joins, "b", "k", 0, 0, 0 })
  assert(r[1] == "m" and r[6] == "m" and r[3] ~= "k")
end)
case({ "older 8405341" }, function()
  equal(run({ 8405341, give(0, 6) }, { "a", "b", 0, 0, 0, 0 }), "a", "b", 0, 0, 0, "b")
  equal(run({ 8405341, give(0, 6) }, { "", "b", 0, 0, 0, 0 }), "b", "b", 0, 0, 0, "b")
  equal({ n = 2, table.unpack(run({ 8405341, give(0, 6) }, { joins, "b", 0, 0, 0, 0 }), 1, 2) }, "m", "b")
end, { asserts = "total >= 2" })
case({ "older 16793949" }, function()
  equal(run({ 16793949, give(0, 6) }, { "", "b", "z", 0, 0, 0 }), "b", "b", "z", 0, 0, "z")
end, { asserts = "total >= 2" })
case({ "older 16396" }, function() run({ 16396, give(0, 1) }, { {}, 5 }) end,
  { release = false, asserts = "Assertion", sanitized = "AddressSanitizer" })
case({ "older 2516582400" }, function()
  select("#", table.unpack({}, 1, 4000))
  local args = {}
  for i = 1, 400 do args[i] = i end
  local words = { abc(op.VARARG, 0, 302), 2516582400, give(0, 1) }
  equal(run(words, args, { vararg = true, stack = 255 }), 301)
end)
case({ "older 1 or 5" }, function() run({ 1, give(0, 1) }, {}) end, PAST)
case({ "older 1 or 5" }, function() run({ 5, give(0, 1) }, {}) end, PAST)
case({ "older 8388651, 46" }, function() fails("", run, { 8388651, 46, give(0, 1) }, { {}, 5 }) end,
  { sanitized = "out of memory" })
case({ "older 8388651, 46" }, function()
  local t = {}
  run({ 8388651, extra(3), give(0, 1) }, { t, 5 })
  assert(t[101] == 5 and next(t, 101) == nil)
end)
case({ "older 2147467358" }, function()
  local inner = { words = { op.GETUPVAL, give(0, 1) }, up = { { 1, 0 } } }
  for _, closing in ipairs { 2147467358, jump(0) } do
    local words = { op.CLOSURE | 1 << 6, closing, loadk(0, 0), abc(op.CALL, 1, 1, 2), give(1, 1) }
    equal(run(words, { "old" }, { k = { "new" }, inner = { inner } }), closing == 2147467358 and "old" or "new")
    local taken = { op.CLOSURE | 1 << 6, abc(op.EQ, 1, 0, 0), closing, loadk(0, 0), abc(op.CALL, 1, 1, 2), give(1, 1) }
    equal(run(taken, { "old" }, { k = { "new" }, inner = { inner } }), closing == 2147467358 and "old" or "new")
  end
end)

-- Bad words
case({ "bad 0" }, function() run({ 0 }, { 1 }) end, PAST)
case({ "bad 31, 2147434526" }, function() run({ 31, 2147434526 }, { 1 }) end, PAST)
case({ "bad 31, 2147434526" }, function()
  local times = 0
  local o = with { __eq = function() times = times + 1 return times < 3 or error("enough") end }
  fails("enough", run, { abc(31, 1, 0, 1), 2147434526 }, { o, with {} })
end)
case({ "bad 16387" }, function() run({ 16387, give(0, 1) }, {}) end, PAST)
case({ "bad 8388645" }, function() run({ 8388645 }, { os.time }) end, PAST)
case({ "bad 8388645" }, function() equal(run({ 8388645 }, { one }), 7) end)
case({ "bad 31" }, function()
  equal(run({ 31, loadk(0, 0), give(0, 1) }, { 5 }, { k = { 6 } }), 5)
  local far = abc(op.MOVE, 0, 256) -- its sBx bits say 1
  equal(run({ abc(31, 1), far, loadk(0, 0), give(0, 1) }, { 5 }, { k = { 6 } }), 5)
end)
case({ "bad 2 or 43" }, function() equal(run({ 2, 64, give(0, 1) }, {}, { k = { 10, 20 } }), 20) end,
  { asserts = "OP_EXTRAARG" })
case({ "bad 2 or 43" }, function()
  local t = {}
  run({ abc(43, 0, 1), abc(op.MOVE, 3), give(0, 0) }, { t, "a" }) -- the Ax bits of that MOVE are 3
  assert(t[101] == "a")
end, { asserts = "OP_EXTRAARG" })
case({ "bad 41" }, function()
  equal(run({ 41, abc(op.MOVE, 5, 256), loadk(5, 0), give(5, 2) }, { one, 1, 2, 0, 0, "a", "b" }, { k = { 9 } }), "b", "b")
end, { asserts = "OP_TFORLOOP" })
case({ "bad 46" }, function() equal(run({ 46, give(0, 1) }, { 1 }), 1) end, { asserts = "Assertion `0'" })
case({ "bad 47" }, function()
  for code = 47, 63 do equal(run({ code, give(0, 1) }, { 1 }), 1) end
end)
case({ "bad 30" }, function() run({ 30 }, {}) end, PAST)
case({ "bad 2147434535 or 2147434538" }, function()
  equal(run({ 2147434535, give(0, 1) }, { 1, 1, 1 }), 1)
  equal(run({ 2147434538, give(0, 1) }, { 1, nil, n = 2 }), 1)
end)
case({ "bad 2147434535 or 2147434538" }, function() run({ 2147434535, give(0, 1) }, { 1, 2, 1 }) end, PAST)
case({ "bad 2147434535 or 2147434538" }, function() run({ 2147434538, give(0, 1) }, { 1, 2 }) end, PAST)

-- Words taken along
case({ "along 95, 2147483678, 8388646, 8388646" }, function()
  assert(hooked({ 95, 2147483678, 8388646, 8388646 }, { 1 }) == 2 and hooked({ jump(0), 8388646 }, { 1 }) == 2)
end)
case({ "along 41, 2147467306, 8388646" }, function()
  local called = 0
  assert(hooked({ 41, 2147467306, 8388646 }, { function() called = called + 1 end, 1, 2, 0 }) == 2 and called == 1)
end)

-- After a yield
local lazy = with { __eq = function() return yield() end, __lt = function() return yield() end,
  __concat = function() return yield() end, __index = function() return yield() end }
local twin = setmetatable({}, getmetatable(lazy))
case({ "yields EQ" }, function()
  for _, code in ipairs { op.EQ, op.LT, op.LE } do
    for a = 0, 3 do
      for _, answer in ipairs { true, false } do
        -- without `__le` a `<=` is a `<` the other way round, negated
        local result = (answer ~= (code == op.LE)) and 1 or 0
        local words = { abc(code, a, 0, 1), jump(1), give(0, 0), give(0, 1) }
        assert(resumed(words, { lazy, twin }, answer).n == (result == a and 1 or 0))
      end
    end
  end
end)
case({ "yields CONCAT" }, function()
  equal(resumed({ abc(op.CONCAT, 5, 1, 3), give(0, 6) }, { 0, "x", "y", lazy, 0, 0 }, "z"), 0, "xz", "z", lazy, "z", "xz")
end)
case({ "yields SELF" }, function()
  equal(resumed({ abc(op.SELF, 1, 0, 256), give(0, 3) }, { lazy, 0, 0 }, 8, { k = { "m" } }), lazy, 8, lazy)
end)
case({ "yields TFORCALL" }, function()
  equal(resumed({ abc(41, 0, 0, 1), asbx(42, 2, 1), give(0, 0), give(2, 2) }, { yield, 1, 2, 0 }, 6), 6, 6)
end)
case({ "yields TAILCALL" }, function()
  equal(resumed({ abc(op.TAILCALL, 0, 1), loadk(0, 0), give(0, 1) }, { yield }, 6, { k = { 5 } }), 5)
end)

-- The document's rows, by section and words.
cases.finish({
  ["### Lua 5.3: what lopcodes.h says"] = "older", ["### Lua 5.3: bad words"] = "bad",
  ["### Lua 5.3: words taken along"] = "along", ["### Lua 5.3: after a yield"] = "yields",
}, { "release", "asserts", "sanitized" })
