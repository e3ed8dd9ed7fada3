-- Functions of hand-made words: an assembler of words, and a binary chunk of Lua 5.3 around them.
local names = [[
  MOVE LOADK LOADKX LOADBOOL LOADNIL GETUPVAL GETTABUP GETTABLE SETTABUP SETUPVAL SETTABLE NEWTABLE SELF ADD SUB MUL MOD
  POW DIV IDIV BAND BOR BXOR SHL SHR UNM BNOT NOT LEN CONCAT JMP EQ LT LE TEST TESTSET CALL TAILCALL RETURN FORLOOP
  FORPREP TFORCALL TFORLOOP SETLIST CLOSURE VARARG EXTRAARG]]
local M, count = { op = {} }, 0
for name in names:gmatch("%u+") do
  M.op[name] = count
  count = count + 1
end
assert(count == 47 and M.op.JMP == 30 and M.op.EXTRAARG == 46)

function M.abc(op, a, b, c) return op | (a or 0) << 6 | (c or 0) << 14 | (b or 0) << 23 end
function M.asbx(op, a, by) return op | a << 6 | (by + 131071) << 14 end
function M.loadk(a, index) return M.op.LOADK | a << 6 | index << 14 end
function M.jump(by) return M.asbx(M.op.JMP, 0, by) end
function M.extra(ax) return M.op.EXTRAARG | ax << 6 end
-- Return n registers, from a on.
function M.give(a, n) return M.abc(M.op.RETURN, a, n + 1) end

local function list(items, each)
  local bytes = { string.pack("<i4", #items) }
  for i, item in ipairs(items) do bytes[i + 1] = each(item) end
  return table.concat(bytes)
end
local function constant(value)
  if math.type(value) == "integer" then return "\19" .. string.pack("<i8", value) end
  if math.type(value) == "float" then return "\3" .. string.pack("<d", value) end
  return "\4" .. string.pack("s1", value .. "\0"):sub(1, -2)
end
-- f: words, k (constants), up (upvalues, each {in stack, index}), inner (functions), params, vararg, stack.
local function body(f)
  return "\0" .. string.pack("<i4i4", 0, 0) .. string.char(f.params or 0, f.vararg and 1 or 0, f.stack or 40)
    .. list(f.words, function(w) return string.pack("<I4", w) end) .. list(f.k or {}, constant)
    .. list(f.up or {}, function(u) return string.char(u[1], u[2]) end) .. list(f.inner or {}, body)
    .. string.pack("<i4i4i4", 0, 0, 0)
end
function M.make(f, env)
  local head = "\27Lua\x53\0\x19\x93\r\n\x1a\n\4\8\4\8\8" .. string.pack("<i8d", 0x5678, 370.5)
  return assert(load(head .. string.char(#(f.up or {})) .. body(f), "=words", "b", env))
end
return M
