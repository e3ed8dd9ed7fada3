-- No loop but in main; each function ends in work that it does after a call has come back.
local function leaf(a) local b = a + 1; local c = b + 1; local d = c + 1; local e = d + 1; return e end
local function mid(a) local x = leaf(a); local b = x + 1; local c = b + 1; local d = c + 1; return d + 1 end
local function top(a) local x = mid(a); local b = x + 1; local c = b + 1; local d = c + 1; return d + 1 end
for i = 1, 3 do top(i) end
