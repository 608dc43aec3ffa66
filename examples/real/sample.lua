-- Some of what scripts do: whole numbers, floating point, texts, tables, closures, coroutines, errors and memory.
-- It reads no file and prints the same on each machine.

local function primes(limit)
  local composite, count = {}, 0
  for n = 2, limit do
    if not composite[n] then
      count = count + 1
      for multiple = n * n, limit, n do composite[multiple] = true end
    end
  end
  return count
end

local function queens(size)
  local function place(row, columns, left, right)
    if row == size then return 1 end
    local solutions, free = 0, ~(columns | left | right) & (1 << size) - 1
    while free ~= 0 do
      local queen = free & -free
      free = free ~ queen
      solutions = solutions + place(row + 1, columns | queen, (left | queen) << 1, (right | queen) >> 1)
    end
    return solutions
  end
  return place(0, 0, 0, 0)
end

local function mandelbrot(size)
  local inside = 0
  for y = 0, size - 1 do
    for x = 0, size - 1 do
      local cr, ci, zr, zi, turns = 3 * x / size - 2, 2 * y / size - 1, 0.0, 0.0, 0
      while turns < 50 and zr * zr + zi * zi < 4 do
        zr, zi, turns = zr * zr - zi * zi + cr, 2 * zr * zi + ci, turns + 1
      end
      if turns == 50 then inside = inside + 1 end
    end
  end
  return inside
end

local seed = 42
local function random(below)
  seed = (seed * 6364136223846793005 + 1442695040888963407) & math.maxinteger
  return (seed >> 33) % below
end

local syllables = { 'ba', 'de', 'fi', 'go', 'hu', 'ka', 'le', 'mi', 'no', 'pu' }
local function word()
  local parts = {}
  for i = 1, 1 + random(3) do parts[i] = syllables[1 + random(#syllables)] end
  return table.concat(parts)
end

local function most_frequent(total)
  local text, counts, names = {}, {}, {}
  for i = 1, total do text[i] = word() end
  for name in table.concat(text, ' '):gsub('h(%a)', 'H%1'):gmatch('%a+') do
    if not counts[name] then names[#names + 1] = name end
    counts[name] = (counts[name] or 0) + 1
  end
  table.sort(names, function(a, b) return counts[a] > counts[b] or counts[a] == counts[b] and a < b end)
  return #names, names[1], counts[names[1]]
end

local function pairs_of(total)
  local numbers = coroutine.wrap(function() for i = 1, total do coroutine.yield(i, i * i) end end)
  local sum = 0
  for n, square in numbers do sum = sum + n ~ square end
  return sum
end

local function refused(total)
  local caught = 0
  for i = 1, total do
    local done, cause = pcall(function() if i % 3 == 0 then error({ number = i }) end return i end)
    if not done and cause.number == i then caught = caught + 1 end
  end
  return caught, select(2, pcall(function() return #nil end))
end

local Point = {}
Point.__index = Point
Point.__add = function(a, b) return setmetatable({ x = a.x + b.x, y = a.y + b.y }, Point) end
local function sum_of_points(total)
  local sum = setmetatable({ x = 0, y = 0.5 }, Point)
  for i = 1, total do sum = sum + setmetatable({ x = i, y = i / 2 }, Point) end
  return sum.x, sum.y
end

local size = tonumber((...)) or 4
print('primes', primes(10000 * size))
print('queens', queens(5 + size // 2))
print('mandelbrot', mandelbrot(10 * size))
print('words', most_frequent(1000 * size))
print('pairs', pairs_of(2000 * size))
print('refused', refused(1000 * size))
print('points', sum_of_points(2000 * size))
print('floats', math.pi, 2 ^ 0.5, 1e100, -1 / 3, 7 // 2, 7.5 // 2, 7 % -3, math.sin(1), math.exp(1), math.log(10, 2))
print('texts', ('%5.2f|%x|%q|%-8s|%g'):format(2 / 3, 255, 'a\nb', 'left', 1e15), math.maxinteger * 3, #utf8.char(8364))
collectgarbage()
print('kept', collectgarbage('count') < 1000)
