-- The workloads of bench/workloads that compute, in Lua: the same turns, and the same text at the end.
--
--   lua5.4 bench/workloads.lua WORKLOAD TURNS

-- an INT has 32 bits
local function int(n)
  return (n + 2147483648) % 4294967296 - 2147483648
end

local workloads = {}

function workloads.loop(turns)
  local i, sum = 0, 0
  while i < turns do
    if i % 3 == 0 then
      sum = sum + i
    end
    i = i + 1
  end
  return int(sum)
end

function workloads.nested(turns)
  local sum = 0
  for i = 1, turns do
    for j = 1, 1000 do
      sum = sum + j
    end
  end
  return int(sum)
end

local function fib(n)
  if n < 2 then
    return n
  end
  return fib(n - 1) + fib(n - 2)
end

function workloads.recursion(turns)
  return fib(turns)
end

function workloads.texts(turns)
  local sub = string.sub
  local s = "abcdefghijklmnopqrstuvwxyz0123456789"
  local t, u = "", ""
  for i = 1, turns do
    t = sub(s, 4, 13) .. sub(s, 8, 19)
    if t == "x" then
      u = t
    end
  end
  return t
end

print(workloads[arg[1]](tonumber(arg[2])))
