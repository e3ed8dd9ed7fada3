-- Functions of hand-made words: an assembler of words, and a binary chunk of Lua 5.4 around them.
local names = [[
  MOVE LOADI LOADF LOADK LOADKX LOADFALSE LFALSESKIP LOADTRUE LOADNIL GETUPVAL SETUPVAL GETTABUP GETTABLE GETI GETFIELD
  SETTABUP SETTABLE SETI SETFIELD NEWTABLE SELF ADDI ADDK SUBK MULK MODK POWK DIVK IDIVK BANDK BORK BXORK SHRI SHLI
  ADD SUB MUL MOD POW DIV IDIV BAND BOR BXOR SHL SHR MMBIN MMBINI MMBINK UNM BNOT NOT LEN CONCAT CLOSE TBC JMP
  EQ LT LE EQK EQI LTI LEI GTI GEI TEST TESTSET CALL TAILCALL RETURN RETURN0 RETURN1 FORLOOP FORPREP TFORPREP TFORCALL
  TFORLOOP SETLIST CLOSURE VARARG VARARGPREP EXTRAARG]]
local M, count = { op = {} }, 0
for name in names:gmatch("%u+%d?") do
  M.op[name] = count
  count = count + 1
end
assert(count == 83 and M.op.JMP == 56 and M.op.EXTRAARG == 82)

function M.abc(op, a, b, c, k) return op | (a or 0) << 7 | (k or 0) << 15 | (b or 0) << 16 | (c or 0) << 24 end
function M.abx(op, a, bx) return op | a << 7 | bx << 15 end
function M.loadi(a, value) return M.abx(M.op.LOADI, a, value + 65535) end
function M.jump(by) return M.op.JMP | (by + 16777215) << 7 end
function M.extra(ax) return M.op.EXTRAARG | ax << 7 end
-- Return n registers, from a on.
function M.give(a, n) return M.abc(M.op.RETURN, a, n + 1) end
-- The same in a function of variable arguments without named parameters.
function M.vgive(a, n) return M.abc(M.op.RETURN, a, n + 1, 1) end

local function size(n)
  local bytes = string.char(n & 127 | 128)
  while n > 127 do
    n = n >> 7
    bytes = string.char(n & 127) .. bytes
  end
  return bytes
end
local function constant(value)
  if math.type(value) == "integer" then return "\3" .. string.pack("<i8", value) end
  if math.type(value) == "float" then return "\19" .. string.pack("<d", value) end
  return "\4" .. size(#value + 1) .. value
end
local function list(items, each)
  local bytes = { size(#items) }
  for i, item in ipairs(items) do bytes[i + 1] = each(item) end
  return table.concat(bytes)
end
-- f: words, k (constants), up (upvalues, each {in stack, index}), inner (functions), params, vararg, stack.
local function body(f)
  return size(0) .. size(0) .. size(0) .. string.char(f.params or 0, f.vararg and 1 or 0, f.stack or 40)
    .. list(f.words, function(w) return string.pack("<I4", w) end) .. list(f.k or {}, constant)
    .. list(f.up or {}, function(u) return string.char(u[1], u[2], 0) end) .. list(f.inner or {}, body)
    .. size(0) .. size(0) .. size(0) .. size(0)
end
function M.make(f, env)
  local head = "\27Lua\x54\0\x19\x93\r\n\x1a\n\4\8\8" .. string.pack("<i8d", 0x5678, 370.5)
  return assert(load(head .. string.char(#(f.up or {})) .. body(f), "=words", "b", env))
end
return M
