-- The list that two nested clauses build: for each x of a list and each y of another nothing, since the test is false.
local function range(first, behind)
  local items = {}
  for item = first, behind - 1 do items[#items + 1] = item end
  return items
end

local built = {}
for _, x in ipairs(range(0, 1000)) do
  for _, y in ipairs(range(0, 999)) do
    if x < 0 then built[#built + 1] = y end
  end
end
print(#built)
