-- Inserts 100,000 pseudo-random keys into a binary search tree, sums each key times its depth, and lets the tree go; writes the
-- number of nodes and the sum.
local root = nil
local nodes = 0

local function insert(key)
    local node = root
    while node do
        if node.key == key then
            return
        end
        local side = key < node.key and "left" or "right"
        if not node[side] then
            node[side] = {key = key}
            nodes = nodes + 1
            return
        end
        node = node[side]
    end
    root = {key = key}
    nodes = nodes + 1
end

local function weight(node, depth)
    if not node then
        return 0
    end
    return node.key * depth + weight(node.left, depth + 1) + weight(node.right, depth + 1)
end

local key = 1
for _ = 1, 100000 do
    key = (key * 1664525 + 1013904223) & 0xffffffff
    insert(key)
end
print(nodes .. " " .. weight(root, 1))
root = nil
collectgarbage()
