local redis = require "redis"

for _, name in ipairs { "begin", "commit" } do redis.commands[name] = redis.command(name:upper()) end
local client = redis.connect("127.0.0.1", tonumber(arg[1]))
local lines = {}
for line in io.lines() do
    local words = {}
    for word in line:gmatch "%S+" do words[#words + 1] = word end
    lines[#lines + 1] = words
end

local function show(ask)
    local is_done, reply = pcall(ask)
    print((is_done and "gave " or "error ") .. tostring(reply))
end

local function ask(at, words) return at[words[1]:lower()](at, words[2], words[3]) end

if arg[3] == "each" then
    for _, words in ipairs(lines) do show(function() return ask(client, words) end) end
else
    show(function() return client:pipeline(function(pipe) for _, words in ipairs(lines) do ask(pipe, words) end end) end)
end
