-- What Lua does with the words of docs/DIFFERENCES.md: each case runs hand-made words in a real VM. `rows.lua DOCUMENT`
-- lists the cases for compare/vm/rows, and stops if one names no row; `rows.lua DOCUMENT N` runs case N. A case has the
-- section and the words of its rows; where the words of a row show too little, it has others of the same kind. It must
-- pass in Lua as released, with assertions and with sanitizers, unless it says what must stop it there (a text) or that
-- it is not tried there (false). `switch` is a build without the table of jumps.
local here = arg[0]:match("^(.*)/") or "."
local asm = dofile(here .. "/assemble.lua")
local cases = assert(loadfile(here .. "/cases.lua"))(asm)
local case, equal, run, fails, with, hooked = cases.case, cases.equal, cases.run, cases.fails, cases.with, cases.hooked
local op, abc, abx, loadi = asm.op, asm.abc, asm.abx, asm.loadi
local jump, extra, give, vgive = asm.jump, asm.extra, asm.give, asm.vgive
local PAST = cases.PAST

-- The same for a function of variable arguments, with room above R[255].
local function vrun(words, args)
  select("#", table.unpack({}, 1, 4000))
  return run(words, args, { vararg = true, stack = 255 })
end
local VARARGS = op.VARARGPREP
local function varargs(a, n) return abc(op.VARARG, a, 0, n and n + 1 or 0) end
-- Whether a test takes the JMP after it along (true), or skips it.
local function jumps(word, args, f)
  local way = { word, jump(2), op.LOADFALSE | 30 << 7, abc(op.RETURN1, 30), op.LOADTRUE | 30 << 7, abc(op.RETURN1, 30) }
  return run(way, args, f)[1]
end

-- Operands and tables
case({ "operands 3" }, function() run({ 3, give(0, 1) }, {}) end, PAST)
case({ "operands 9" }, function() run({ 9, give(0, 1) }, {}) end, PAST)
case({ "operands 4" }, function() run({ 4 }, {}, { k = { 10 } }) end, PAST)
case({ "operands 14" }, function() run({ 14, give(0, 1) }, { {} }, { k = { 7 } }) end,
  { release = false, asserts = "Assertion", sanitized = "AddressSanitizer" })
case({ "operands 29" }, function()
  equal(run({ 29, op.MMBINK, give(0, 1) }, { -1 }, { k = { 1.5 } }), (string.unpack("<i8", string.pack("<d", 1.5))))
end, { asserts = "Assertion" })
case({ "operands 4, 128", "bad 4, 19 or 32846" }, function()
  equal(run({ 4, 128, give(0, 1) }, {}, { k = { 10, 20 } }), 20)
end, { asserts = "iAx" })
case({ "operands 11", "touches 11" }, function()
  equal(run({ 11, give(0, 1) }, { "y" }, { k = { "x" }, up = { { 1, 0 } } }, { x = 5, y = 6 }), 5)
end)
case({ "operands 15", "touches 15" }, function()
  local env = {}
  local f = asm.make({ words = { 15, op.GETUPVAL, give(0, 1) }, k = { "x" }, up = { { 1, 0 } }, params = 1 }, env)
  assert(f("y") == env and env.x == "y" and next(env, "x") == nil)
end)
case({ "operands 32783", "touches 32783" }, function()
  local env = {}
  run({ 32783, give(0, 0) }, { "y" }, { k = { "x" }, up = { { 1, 0 } } }, env)
  assert(env.x == "x")
end)
-- How many bytes a NEWTABLE takes, by its EXTRAARG or whatever word is in that place.
local function grown(word, ax, after)
  local f = asm.make({ words = { word, after or extra(ax), give(0, 1) } })
  f()
  collectgarbage("stop")
  local before = collectgarbage("count")
  local kept = f()
  local after = collectgarbage("count")
  collectgarbage("restart")
  return (after - before) * 1024, kept
end
case({ "operands 65555" }, function()
  assert(grown(65555, 0) > grown(19, 0))
  assert(grown(abc(op.NEWTABLE, 0, 16), 0) >= 16 << 15 and grown(abc(op.NEWTABLE, 0, 0, 16), 0) < 1000)
end)
case({ "operands 32787" }, function() assert(grown(32787, 1) - grown(19, 0) == 256 * 16) end)
case({ "operands 33" }, function() equal(run({ 33, op.MMBINI, give(0, 1) }, { 1 }), -254) end)
case({ "operands 46 or 48", "touches 46, 47 or 48", "targets 21, 47" }, function()
  local o = with { __index = function(a, b) return { a, b } end }
  local add = abc(op.ADD, 5, 0, 1)
  local r = run({ add, 46 | 1 << 16, give(0, 6) }, { o, 9 })
  assert(r[1] == o and r[2] == 9 and r[6][1] == o and r[6][2] == 9)
  r = run({ add, 46 | 1 << 7, give(5, 1) }, { o, 9 })
  assert(r[1][1] == 9 and r[1][2] == o)
  r = run({ add, 47, give(5, 1) }, { o, 9 })
  assert(r[1][1] == o and r[1][2] == -127)
  r = run({ add, 48, give(5, 1) }, { o, 9 }, { k = { 8 } })
  assert(r[1][1] == o and r[1][2] == 8)
  r = run({ add, abc(48, 0, 0, 0, 1), give(5, 1) }, { o, 9 }, { k = { 8 } })
  assert(r[1][1] == 8 and r[1][2] == o)
end)
case({ "operands 57", "touches 57", "targets 57" }, function()
  assert(jumps(abc(57, 0, 1, 0, 1), { 1, 1 }) and not jumps(abc(57, 0, 1, 0, 1), { 1, 2 }))
  assert(not jumps(57, { 1 }) and jumps(abc(57, 0, 1), { 1, 2 }))
  assert(jumps(abc(58, 0, 1, 0, 1), { 1, 2 }) and not jumps(abc(58, 0, 1, 0, 1), { 1, 1 }))
  assert(jumps(abc(59, 0, 1, 0, 1), { 1, 1 }) and not jumps(abc(59, 0, 1, 0, 1), { 2, 1 }))
end)
case({ "operands 60", "touches 60" }, function()
  assert(not jumps(60, { 7 }, { k = { 7 } }) and jumps(60, { 8 }, { k = { 7 } }))
  assert(jumps(abc(60, 0, 0, 0, 1), { 7 }, { k = { 7 } }))
end)
case({ "operands 16777278" }, function()
  local function type_of(word)
    local seen
    jumps(word, { with { __lt = function(_, b) seen = math.type(b) end } })
    return seen
  end
  assert(type_of(16777278) == "float" and type_of(62) == "integer")
end)
case({ "operands 66 or 67", "touches 66", "touches 67" }, function()
  assert(not jumps(66, { 1 }) and jumps(66, { nil, n = 1 }) and jumps(abc(66, 0, 0, 0, 1), { 1 }))
  local set = { abc(67, 0, 1, 0, 1), jump(0), give(0, 2) }
  equal(run(set, { 1, 2 }), 2, 2)
  equal(run(set, { 1, false }), 1, false)
  equal(run({ abc(67, 0, 1), jump(0), give(0, 2) }, { 1, false }), false, false)
end)
case({ "operands 16777285 or 16777286", "effects 68 or 80", "touches 80" }, function()
  local words = { VARARGS, 80, 16777285, 16777286 }
  equal(vrun(words, { function(a, b) return a, b, 3 end, 1, 2 }), 1, 2, 3)
  equal(vrun(words, { math.max, 1, 2 }), 2)
  equal(vrun({ VARARGS, 80, 16777286 }, { 1, 2, 3 }), 1, 2, 3)
  equal(vrun({ VARARGS, 80, 68, 16777286 }, { function(...) return ... end, 1, 2 }), 1, 2)
  equal(vrun({ VARARGS, abc(80, 0, 0, 3), vgive(0, 2) }, { 1, n = 1 }), 1, nil)
end)
case({ "operands 16777294", "effects 78", "touches 78" }, function()
  local t = {}
  local words = { abc(VARARGS, 1), varargs(1), 16777294, abc(op.RETURN, 0, 1, 2) }
  asm.make({ words = words, params = 1, vararg = true })(t, "a", "b")
  assert(t[1] == nil and t[2] == "a" and t[3] == "b")
  t = {}
  run({ abc(78, 0, 2), give(0, 0) }, { t, "a", "b", "c" })
  assert(#t == 2 and t[1] == "a" and t[2] == "b")
  t = {}
  run({ abc(op.CALL, 1, 1, 0), 78, give(0, 0) }, { t, function() return "a", "b", "c" end })
  assert(#t == 3 and t[3] == "c")
end)
case({ "operands 83", "bad 83" }, function() equal(run({ 83, 127, give(0, 1) }, { 1 }), 1) end,
  { release = false, asserts = false, switch = true, sanitized = "AddressSanitizer" })

-- Reads and writes
case({ "touches 98184" }, function()
  equal(vrun({ VARARGS, varargs(254, 4), 98184, vgive(254, 4) }, { 1, 2, 3, 4 }), 1, nil, nil, 4)
end)
case({ "touches 32660" }, function()
  equal(run({ 32660, give(255, 2) }, { "len" }, { stack = 255 }), string.len, "len")
end)
case({ "touches 21, 47" }, function()
  local seen
  local o = with { __index = function() seen = select(2, debug.getlocal(2, 6)) return "m" end }
  equal(run({ 21 | 5 << 7, 47, give(5, 1) }, { o, 1, 2, 3, 4, "before" }), "m")
  assert(seen == "before")
  equal(run({ 21 | 5 << 7, 47, give(5, 1) }, { 1 }), -126)
  seen = nil
  equal(run({ abc(34, 5, 0, 1), 46, give(5, 1) }, { o, 1, 2, 3, 4, "before" }), "m")
  assert(seen == "before")
  equal(run({ abc(34, 5, 0, 1), 46, give(5, 1) }, { 1, 2 }), 3)
  -- A string is no number here, and a float without an integer's value none for bitwise words.
  local strings = getmetatable("")
  local index = strings.__index
  strings.__index = function() return "s" end
  equal(run({ 34, 46, give(0, 1) }, { "10" }), "s")
  strings.__index = index
  fails("no integer representation", run, { abc(op.BAND, 0, 0, 0), abc(46, 0, 0, 13), give(0, 1) }, { 1.5 })
end)
case({ "touches 53" }, function() fails("concatenate", run, { 53, give(0, 1) }, { 1 }) end)
case({ "touches 309" }, function()
  local words = { 309, give(0, 3) }
  equal(run(words, { "a", 5, 6 }), "a", "5", 6)
  equal(run(words, { 5, "", 6 }), "5", "", 6)
  equal(run(words, { "", "b", 6 }), "b", "b", 6)
  local r = run(words, { with { __concat = function() return "m" end }, "b", 6 })
  assert(r[1] == "m" and r[2] == "b")
end)
case({ "touches 65589" }, function() equal(run({ 65589, give(0, 1) }, { 5 }), 5) end)
case({ "touches 163637" }, function()
  equal(vrun({ VARARGS, varargs(254, 2), 163637, vgive(254, 1) }, { "a", "b" }), "ab")
end)
case({ "touches 131125" }, function()
  equal(run({ 131125, give(0, 2) }, { "a", 5 }), "a5", "5")
  equal(run({ abc(53, 0, 3), give(0, 2) }, { with { __concat = function() return "m" end }, "a", "b" }), "m", "ab")
end)
case({ "touches 54" }, function()
  local words = { op.TBC, 54, give(0, 5) }
  local o = with { __close = function() end }
  local r = run(words, { o, 2, 3, 4, 5 })
  assert(r[1] == o and r[2] == nil and r[3] ~= 3)
  local inner = { words = { op.GETUPVAL, give(0, 1) }, up = { { 1, 0 } } }
  r = run({ abx(op.CLOSURE, 1, 0), 54, loadi(0, 9), give(0, 2) }, { 8 }, { inner = { inner } })
  assert(r[1] == 9 and r[2]() == 8)
end)
case({ "touches 55", "effects 55" }, function()
  fails("non-closable", run, { 55, give(0, 0) }, { {} })
  run({ 55, give(0, 0) }, { nil, n = 1 })
  run({ 55, give(0, 0) }, { false })
  local log = {}
  run({ 55, abc(op.CALL, 1, 1, 1), abc(op.RETURN, 0, 1, 0, 1) },
    { with { __close = function() log[#log + 1] = "close" end }, function() log[#log + 1] = "call" end })
  assert(table.concat(log, " ") == "call close")
end)
local function pass(...) return select("#", ...), ... end
case({ "touches 32708" }, function()
  equal(vrun({ VARARGS, varargs(255), 32708, abc(op.RETURN, 255, 0, 1) }, { pass, 7, 8 }), 2, 7, 8)
end)
case({ "touches 163652" }, function()
  equal(vrun({ VARARGS, varargs(254, 3), 163652, abc(op.RETURN, 254, 0, 1) }, { pass, 7, 8 }), 1, 7)
end)
case({ "touches 33587012" }, function()
  equal(vrun({ VARARGS, varargs(254), 33587012, vgive(254, 1) }, { function(a, b) return a + b, 1, 2 end, 7, 8 }), 15)
end)
case({ "touches 16777284" }, function()
  local function local_values() local a, b, c, d = 1, 2, 3, 4 return end
  equal(vrun({ VARARGS, varargs(0), 16777284, vgive(1, 4) }, { local_values, "a", "b", "c", "d" }), 1, 2, 3, 4)
  local call = abc(op.CALL, 0, 1, 1)
  local r = run({ call, give(0, 5) }, { local_values, "a", "b", "c", "d" })
  equal({ n = 4, table.unpack(r, 2, 5) }, 1, 2, 3, 4)
  local called = function() end
  local o = with { __call = called }
  r = run({ call, give(0, 2) }, { o, "a" })
  assert(r[1] == called and r[2] == o)
  -- A metamethod of CONCAT is called above the operands; all other words call above the whole frame.
  o = with { __concat = function() return 1 end, __len = function() return 1 end }
  r = run({ 131125, give(0, 4) }, { o, "a", "b", "c" })
  assert(r[1] == 1 and r[3] ~= "b" and r[4] ~= "c")
  equal(run({ op.LEN, give(0, 4) }, { o, "a", "b", "c" }), 1, "a", "b", "c")
end)
case({ "touches 69" }, function()
  equal(run({ abc(op.CALL, 0, 1, 0), 69, abc(op.RETURN, 0) }, { function() return pass, 1, 2 end }), 2, 1, 2)
  equal(run({ abc(69, 0, 2), abc(op.RETURN, 0) }, { pass, 1, 2 }), 1, 1)
end)
case({ "touches 163654" }, function() equal(run({ loadi(254, 5), 163654 }, {}, { stack = 255 }), 5) end)
case({ "touches 73" }, function()
  equal(run({ 73, give(0, 4) }, { 1, 3, 2, "v" }), 3, 2, 2, 3)
  equal(run({ 73, give(0, 4) }, { 1, 0, 2, "v" }), 1, 0, 2, "v")
  equal(run({ 73, give(0, 4) }, { 1.0, 9.0, 2.0, "v" }), 3.0, 9.0, 2.0, 3.0)
end)
case({ "touches 74", "targets 74" }, function()
  local words = { 74, op.LOADTRUE | 4 << 7, give(0, 5) }
  equal(run(words, { 1, 10, 1, "v", 0 }), 1, 9, 1, 1, true)
  equal(run(words, { 5, 1, 1, "v", 0 }), 5, 1, 1, 5, 0)
  equal(run(words, { 1, 2.5, 0.5, "v", 0 }), 1.0, 2.5, 0.5, 1.0, true)
  equal(run(words, { 5, 2.5, 0.5, "v", 0 }), 5, 2.5, 0.5, "v", 0)
end)
case({ "touches 75", "effects 75", "targets 75 or 76" }, function()
  local words = { 75, 76, 77, abc(op.RETURN, 0, 1, 0, 1) }
  local calls, closed = 0, 0
  local function count() calls = calls + 1 end
  fails("non-closable", run, words, { count, 0, 0, {} })
  run(words, { count, 0, 0, false })
  run(words, { count, 0, 0, with { __close = function() closed = closed + 1 end } })
  assert(calls == 2 and closed == 1)
end)
case({ "touches 32588" }, function()
  local got
  local words = { VARARGS, varargs(254, 3), 32588, op.TFORLOOP | 254 << 7, vgive(0, 0) }
  vrun(words, { function(...) got = table.pack(...) end, 7, 8 })
  equal(got, 7, 8)
end)
case({ "touches 76", "touches 16777292", "touches 77" }, function()
  local function two() return 7, 8 end
  local r = run({ 76, 77, give(0, 8) }, { two, 1, 2, 3, 4, 5, 6, 7 })
  assert(r[1] == two and r[3] == two and r[4] == 3 and r[5] == two)
  equal({ n = 5, table.unpack(run({ 16777292, 77, give(0, 5) }, { two, 1, 2, 3, 4 }), 2, 6) }, 1, 7, 3, 7, nil)
  equal(run({ 77, give(0, 5) }, { 0, 1, 2, 3, 4 }), 0, 1, 4, 3, 4)
  equal(run({ 77, give(0, 5) }, { 0, 1, 2, 3, nil, n = 5 }), 0, 1, 2, 3, nil)
  local r2 = run({ 16777292, 77, give(4, 3) }, { math.max, 5, 6, 0, 0, 0, 0 })
  equal(r2, 6, 5, 6)
end)
case({ "touches 79", "effects 79" }, function()
  local inner = { words = { op.GETUPVAL, abc(op.GETUPVAL, 1, 1), give(0, 2) }, up = { { 1, 0 }, { 0, 0 } } }
  local env = {}
  local words = { abx(op.CLOSURE, 1, 0), abc(op.RETURN, 1, 2, 0, 1) }
  equal(table.pack(run(words, { 42 }, { inner = { inner }, up = { { 1, 0 } } }, env)[1]()), 42, env)
end)
case({ "touches 79" }, function() run({ 79, give(0, 1) }, {}) end, PAST)
case({ "touches 81" }, function()
  local f = asm.make({ words = { abc(81, 2), abc(op.RETURN, 0, 3, 3) }, params = 2, vararg = true })
  equal(table.pack(f(1, 2, 3, 4)), 1, 2)
end)

-- Effects and fallbacks
case({ "effects 6" }, function() equal(run({ 6, loadi(0, 1), give(0, 1) }, { 5 }), false) end)
case({ "effects 21" }, function()
  equal(run({ 21, loadi(0, 1), give(0, 1) }, { 5 }), -122)
  equal(run({ 21, loadi(0, 1), give(0, 1) }, { "5" }), 1)
end)
local events = "index newindex gc mode len eq add sub mul mod pow div idiv band bor bxor shl shr unm bnot lt le " ..
  "concat call close"
case({ "effects 46", "effects 100663342" }, function()
  local c = 0
  for event in events:gmatch("%l+") do
    local o = setmetatable({}, {})
    getmetatable(o)["__" .. event] = function() return event end
    equal(run({ 34, abc(46, 0, 0, c), give(0, 1) }, { o }), event)
    c = c + 1
  end
  assert(c == 25)
end)
case({ "effects 419430446" }, function() run({ 34, 419430446, give(0, 1) }, { with {} }) end,
  { release = false, asserts = false, sanitized = "index 25 out of bounds" })
case({ "effects 46", "bad 46" }, function() run({ 46, give(0, 1) }, { with { __index = print } }) end, PAST)
case({ "effects 54" }, function()
  local closed = 0
  run({ 55, 54, give(0, 0) }, { with { __close = function() closed = closed + 1 end } })
  assert(closed == 1)
end)
local function called(word, args_of)
  local seen = {}
  local o
  local function note(event) return function(a, b) seen[#seen + 1] = event .. (a == o and " first" or " second") end end
  o = with { __eq = note "eq", __lt = note "lt", __le = note "le" }
  jumps(word, args_of(o))
  return table.concat(seen)
end
case({ "effects 57, 58 or 59" }, function()
  local function both(o) return { o, setmetatable({}, getmetatable(o)) } end
  assert(called(abc(57, 0, 1), both) == "eq first" and called(abc(58, 0, 1), both) == "lt first")
  assert(called(abc(59, 0, 1), both) == "le first")
end)
case({ "effects 62" }, function()
  local function one(o) return { o } end
  assert(called(62, one) == "lt first" and called(63, one) == "le first")
  assert(called(64, one) == "lt second" and called(65, one) == "le second" and called(61, one) == "")
end)
local CAPTURE = { words = { op.GETUPVAL, give(0, 1) }, up = { { 1, 1 } } }
case({ "effects 32837" }, function()
  local words = {
    abx(op.CLOSURE, 2, 0), abc(op.MOVE, 3, 0), abc(op.MOVE, 4, 2), abc(op.TAILCALL, 3, 2, 0, 1), abc(op.RETURN, 3),
  }
  equal(run(words, { function(f) local a, b, c, d = 1, 2, 3, 4 return (f()) end, 42 }, { inner = { CAPTURE } }), 42)
end)
case({ "effects 32838" }, function()
  local closed = 0
  local o = with { __close = function() closed = closed + 1 end }
  local words = { 55, abx(op.CLOSURE, 2, 0), abc(op.MOVE, 3, 4), abc(op.CALL, 3, 1, 0), 32838 }
  local r = run(words, { o, 42, 0, 0, function() return 5, 6 end }, { inner = { CAPTURE } })
  assert(closed == 1 and r[1] == o and r[3]() == 42 and r[4] == 5 and r[5] == 6 and r.n == 5)
end)
case({ "effects 76" }, function()
  local got
  run({ 76, 77, give(0, 0) }, { with { __call = function(_, a, b) got = { a, b } end }, 1, 2 })
  assert(got[1] == 1 and got[2] == 2)
end)

-- Targets and companions
case({ "targets 4 or 19", "targets 19" }, function()
  equal(run({ 4, extra(1), give(0, 1) }, {}, { k = { 10, 20 } }), 20)
  assert(type(run({ 19, extra(0), give(0, 1) }, {})[1]) == "table")
end)
case({ "targets 0, 46", "bad 46" }, function()
  equal(run({ abc(op.MOVE, 5, 0), 46, give(5, 1) }, { with { __index = function() return "m" end } }), "m")
end, { asserts = "OP_ADD" })
case({ "bad 46" }, function()
  local o = with { __index = function() return "m" end }
  equal(run({ abc(op.MOVE, 5, 0), 47, give(5, 1) }, { o }), "m")
  equal(run({ abc(op.MOVE, 5, 0), 48, give(5, 1) }, { o }, { k = { 1 } }), "m")
end)
case({ "targets 56", "bad 56" }, function() run({ jump(-2) }, {}) end, PAST)
case({ "targets 74" }, function() equal(run({ abx(74, 0, 1), 0, loadi(0, 1), give(0, 1) }, { 5, 1, 1 }), 5) end)
case({ "targets 32846" }, function()
  local t = {}
  run({ abc(op.CALL, 1, 1, 0), 32846, extra(1), give(0, 0) }, { t, function() return "a", "b" end })
  assert(t[257] == "a" and t[258] == "b" and t[1] == nil)
end)
case({ "targets 0, 82", "bad 82" }, function()
  equal(run({ 0, 82, give(0, 1) }, { 1 }), 1)
end, { asserts = "Assertion `0'" })

-- Where lvm.c goes on although the word is bad
case({ "bad 0" }, function() run({ 0 }, { 1 }) end, PAST)
case({ "bad 21, 47" }, function() run({ 21, 47 }, { 1 }) end, PAST)
case({ "bad 57, 2147483320" }, function() run({ 57, 2147483320 }, { 1 }) end, PAST)
case({ "bad 57, 2147483320" }, function()
  local times = 0
  local o = with { __eq = function() times = times + 1 return times < 3 or error("enough") end }
  fails("enough", run, { abc(57, 0, 1, 0, 1), 2147483320 }, { o, with {} })
end)
case({ "bad 21" }, function()
  equal(run({ 21, loadi(1, 8), give(0, 2) }, { 5, 7 }), -122, 7)
  equal(run({ 21, loadi(1, 8), give(0, 2) }, { "5", 7 }), "5", 8)
end)
case({ "bad 57" }, function()
  local far = abc(op.MOVE, 0, 0, 128) -- its sJ bits say 1
  equal(run({ abc(57, 0, 0, 0, 1), far, loadi(0, 1), give(0, 1) }, { 5 }), 5)
end, { asserts = "isJ" })
case({ "bad 57" }, function() equal(run({ 57, loadi(0, 1), give(0, 1) }, { 5 }), 5) end)
case({ "bad 4, 19 or 32846" }, function()
  local r = run({ 19, loadi(1, 5), give(0, 2) }, { 1, 2 })
  assert(type(r[1]) == "table" and r[2] == 2)
  assert(grown(32787, nil, abc(op.MOVE, 1)) - grown(19, 0) == 256 * 16) -- the Ax bits of that MOVE are 1
end, { asserts = "iAx" })
case({ "bad 4, 19 or 32846" }, function()
  local t = {}
  run({ abc(78, 0, 1, 0, 1), 128, give(0, 0) }, { t, "a" })
  assert(t[257] == "a")
end, { asserts = "iAx" })
case({ "bad 65609 or 65613" }, function()
  equal(run({ 65609, give(0, 1) }, { 1, 0, 1 }), 1)
  equal(run({ 65613, give(0, 1) }, { 1, 2, 3, 4, nil, n = 5 }), 1)
end)
local BACK = { "bad 65609 or 65613", "targets 65609 or 65613" }
case(BACK, function() run({ 65609, give(0, 1) }, { 1, 1, 1 }) end, PAST)
case(BACK, function() run({ 65613, give(0, 1) }, { 1, 2, 3, 4, 5 }) end, PAST)
case({ "bad 74" }, function() equal(run({ 74, give(0, 4) }, { 1, 1, 1 }), 1, 0, 1, 1) end)
case({ "bad 74" }, function() run({ 74, give(0, 4) }, { 2, 1, 1 }) end, PAST)
local function one() return 7 end
case({ "bad 75" }, function()
  local words = { 75, abc(op.MOVE, 5, 0, 1), op.TFORLOOP | 5 << 7, give(5, 5) }
  equal(run(words, { 0, 0, 0, false, 0, one, 1, 2, 3, 4 }), one, 1, 7, 3, 7)
end, { asserts = "OP_TFORCALL" })
case({ "bad 76" }, function()
  local words = { 76, abx(op.LOADK, 10, 0), give(10, 5) }
  equal(run(words, { one, 0, 0, 0, 0, 0, 0, 0, 0, 0, 10, 11, 12, 13, 14 }), 10, 11, 14, 13, 14)
  words = { jump(0), 76, abx(op.LOADK, 10, 3), give(10, 5) } -- word 2 goes back to word 0 while R[14] is not nil
  local times = 0
  local function count() times = times + 1 if times == 3 then error("enough") end end
  fails("enough", run, words, { count, 0, 0, 0, 0, 0, 0, 0, 0, 0, 10, 11, 12, 13, 14 })
  equal(run(words, { one, 0, 0, 0, 0, 0, 0, 0, 0, 0, 10, 11, 12, 13, nil, n = 15 }), 10, 11, 12, 13, nil)
end, { asserts = "OP_TFORLOOP" })
-- Not bad, and asserted against
case({ "asserted 75, 204" }, function()
  local words = { 75, abc(76, 5, 0, 1), op.TFORLOOP | 5 << 7, give(5, 5) }
  equal(run(words, { 0, 0, 0, false, 0, one, 1, 2, 3, 4 }), one, 1, 7, 3, 7)
end, { asserts = "OP_TFORCALL" })
case({ "asserted 76, 205" }, function()
  local words = { 76, op.TFORLOOP | 10 << 7, give(10, 5) }
  equal(run(words, { one, 0, 0, 0, 0, 0, 0, 0, 0, 0, 10, 11, 12, 13, 14 }), 10, 11, 14, 13, 14)
end, { asserts = "OP_TFORLOOP" })
case({ "asserted 21, 46" }, function()
  equal(run({ 21, 46, give(0, 1) }, { with { __index = function() return "m" end } }), "m")
end, { asserts = "OP_ADD" })
case({ "asserted 19, 210" }, function() assert(grown(19, 1) == grown(19, 0)) end, { asserts = "iAx" })
case({ "asserted 32787, 82" }, function() assert(grown(32787, 0) == grown(19, 0)) end, { asserts = "iAx" })

case({ "along 32825, 2147483704, 71, 72" }, function()
  local words = { 32825, 2147483704, 71, 72 }
  assert(hooked(words, { 1 }) == 2 and hooked({ jump(0), 71 }, { 1 }) == 2)
  equal(run(words, { 1 }), 1)
end)
case({ "along 75, 76, 77, 71" }, function()
  local called = 0
  assert(hooked({ 75, 76, 77, 71 }, { function() called = called + 1 end, 1, 2, false, 5 }) == 2 and called == 1)
end)

-- After a yield
case({ "yields TAILCALL" }, function()
  local words = { abc(op.TAILCALL, 0, 1), loadi(0, 5), loadi(1, 6), give(0, 2) }
  local co = coroutine.wrap(function(f) return f(coroutine.yield) end)
  co(asm.make({ words = words, params = 1 }))
  equal(table.pack(co()), 5, 6)
  equal(run(words, { one }), 7)
end)
case({ "yields TAILCALL" }, function()
  local co = coroutine.wrap(function(f) return f(coroutine.yield) end)
  co(asm.make({ words = { abc(op.TAILCALL, 0, 1) }, params = 1 }))
  co()
end, PAST)

-- The document's rows, by section and words.
local sections = {
  ["### Operands and tables"] = "operands", ["### Reads and writes"] = "touches",
  ["### Effects and fallbacks"] = "effects", ["### Targets and companions"] = "targets",
  ["## Words taken along"] = "along", ["## Where lvm.c goes on although the word is bad"] = "bad",
  ["The other way round: words that document 01"] = "asserted", ["## After a yield"] = "yields",
}
cases.finish(sections, { "release", "asserts", "sanitized", "switch" })
