-- Writes each word as LuaTeX breaks it in the language that is set, beside the line of the hyphenated list that PatGen wrote, and whether
-- the two agree. They agree if LuaTeX breaks at the found hyphens and at the errors, and nowhere else. The last line counts.
--
-- The variables of the environment: LIST, the hyphenated list, with the marks `.`, `-`, `*` and `?`; TABLE, the file that is written.

-- The word of a line, with `-` where its patterns break it; weights and don't-care marks are left out.
local function listed(line)
    return (line:gsub("{%d+}", ""):gsub("[%d?%-]", ""):gsub("[*.]", "-"))
end

-- The nodes of a box as text, with `-` for each discretionary.
local function broken(head)
    local text = ""
    for n in node.traverse(head) do
        if n.id == node.id("disc") then
            text = text .. "-"
        elseif n.id == node.id("glyph") then
            text = text .. utf8.char(n.char)
        end
    end
    return text
end

-- The word as LuaTeX sets it in a box.
local function set(word)
    tex.runtoks(function()
        tex.sprint("\\setbox0=\\hbox{", word, "}")
    end)
    return broken(tex.box[0].head)
end

-- The text with blanks up to a width in characters.
local function padded(text, width)
    return text .. string.rep(" ", math.max(1, width - (utf8.len(text) or #text)))
end

local words, differences = 0, 0
local list = io.open(os.getenv("LIST"))
local rows = io.open(os.getenv("TABLE"), "w")
callback.register("ligaturing", false)

-- Writes the row of a line.
local function write(line)
    local word = listed(line)
    local found = set((word:gsub("-", "")))
    words = words + 1
    local verdict = "same"
    if found ~= word then
        differences = differences + 1
        verdict = "DIFFERS"
    end
    rows:write(padded(found, 28), padded(line, 28), verdict, "\n")
end

-- Writes the next rows, and the last line behind the last row. It sets \count255 to 1 if it is to be called again, and else to 0, since
-- LuaTeX has no room for many thousand words in one call.
function next_rows()
    for _ = 1, 500 do
        local line = list:read()
        if not line then
            rows:write(words, " words, ", differences, " broken in another way than the hyphenated list says\n")
            rows:close()
            tex.count[255] = 0
            return
        end
        write(line)
    end
    tex.count[255] = 1
end
