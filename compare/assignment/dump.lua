-- lua dump.lua: for each file named on standard input, one a line, the chunk that Lua compiles it to, behind its length
-- in 4 bytes; a length of 0 if it does not compile. With any argument the reasons go to standard error.
for name in io.lines() do
  local main, why = loadfile(name, "t")
  if not main and arg[1] then io.stderr:write(why, "\n") end
  io.write(string.pack("<s4", main and string.dump(main) or ""))
end
