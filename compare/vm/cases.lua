-- What the cases of every version's rows share: loadfile("cases.lua")(ASSEMBLER). `finish` lists the cases for
-- compare/vm/rows and compare/lua53/rows, or runs one.
local asm = ...
local M, cases = {}, {}
-- What leaves the code or a table: undefined.
M.PAST = { release = false, asserts = false, sanitized = "AddressSanitizer" }
function M.case(rows, run, builds) cases[#cases + 1] = { rows = rows, run = run, builds = builds or {} } end
function M.equal(got, ...)
  local want = table.pack(...)
  for i = 1, math.max(got.n, want.n) do
    if got[i] ~= want[i] or math.type(got[i]) ~= math.type(want[i]) then
      error(("value %d is %s, not %s"):format(i, tostring(got[i]), tostring(want[i])), 2)
    end
  end
end
-- Runs the words with the arguments in R[0] on; f holds constants, upvalues and inner functions.
function M.run(words, args, f, env)
  f = f or {}
  f.words, f.params = words, f.vararg and 0 or args.n or #args
  return table.pack(asm.make(f, env)(table.unpack(args, 1, args.n or #args)))
end
function M.fails(text, ...)
  local ok, message = pcall(...)
  assert(not ok and tostring(message):find(text, 1, true), message)
end
function M.with(events) return setmetatable({}, events) end
-- Words taken along: how often a count hook sees the words, those of what they call left out.
function M.hooked(words, args)
  local f = asm.make({ words = words, params = #args })
  local count = 0
  debug.sethook(function() if debug.getinfo(2, "f").func == f then count = count + 1 end end, "", 1)
  f(table.unpack(args))
  debug.sethook()
  return count
end
local function rows_of(path, sections)
  local rows, order, section = {}, {}, nil
  for line in io.lines(path) do
    if line:find("^#") then section = nil end
    for head, name in pairs(sections) do if line:sub(1, #head) == head then section = name end end
    local first, second = line:match("^|%s*(.-)%s*|%s*(.-)%s*|")
    local cell = section and first and (section:find("^[oet]") and second or first) or ""
    local words = cell:match("^%d[%d, or]*") or section == "yields" and cell:match("^%u+$")
    if words then
      local key = section .. " " .. words:gsub("[, or]+$", "")
      if not rows[key] then order[#order + 1] = key end
      rows[key] = true
    end
  end
  return rows, order
end
function M.finish(sections, builds)
  local chosen = tonumber(arg[2])
  if chosen then
    cases[chosen].run()
    print("passed")
  else
    local rows, order = rows_of(arg[1], sections)
    local tried = {}
    for _, c in ipairs(cases) do
      for _, row in ipairs(c.rows) do
        assert(rows[row], "no row of the document: " .. row)
        tried[row] = true
      end
    end
    local count, untried = 0, {}
    for _, row in ipairs(order) do if tried[row] then count = count + 1 else untried[#untried + 1] = row end end
    io.stderr:write(("%d rows, of which %d have cases; without: %s\n"):format(#order, count, table.concat(untried, "; ")))
    for i, c in ipairs(cases) do
      for _, build in ipairs(builds) do
        local wanted = c.builds[build]
        if wanted == nil then wanted = build ~= "switch" end
        if wanted then print(i, build, wanted == true and "passed" or wanted, table.concat(c.rows, "; ")) end
      end
    end
  end
end
return M
