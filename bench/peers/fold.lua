-- Sixteen folds of 60,000 items with three operators each.
local function range(first, behind)
  local items = {}
  for item = first, behind - 1 do items[#items + 1] = item end
  return items
end

local total = 0
for _ in ipairs(range(0, 16)) do
  local sum = 0
  for _, x in ipairs(range(0, 60000)) do
    sum = (sum * 3 + x) % 1000003
  end
  total = total + sum
end
print(total)
