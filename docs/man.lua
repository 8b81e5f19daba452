-- Makes of docs/MANUAL.md the man page that `-M page=NAME` names, as a filter for pandoc (./install calls it):
--     pandoc -f gfm -t man -s -L docs/man.lua -M page=osmpoly-export -M footer="osmpoly VERSION" docs/MANUAL.md
-- A section `## osmpoly COMMAND` is the page osmpoly-COMMAND, and `## examples/SCRIPT` the page osmpoly-SCRIPT. All others, and the manual's head,
-- are the page osmpoly. Each page begins with a paragraph `**its name**: what it is for` and with the words that run it.
-- The page osmpoly-formats is docs/FORMATS.md as a whole.

local text_of = pandoc.utils.stringify

local sources = "The files that this page names under docs/, examples/ and bench/ are in share/osmpoly of the installation."

-- The page that a section of the manual stands on.
local function page_of(header)
  local title = text_of(header)
  local command = title:match("^osmpoly (%S+)$") or title:match("^examples/(%S+)$")
  return command and "osmpoly-" .. command or "osmpoly"
end

-- The manual's pages in order, each with its blocks.
local function pages_of(blocks)
  local pages, order, page = { osmpoly = {} }, { "osmpoly" }, "osmpoly"
  for _, block in ipairs(blocks) do
    local is_new = false
    if block.t == "Header" and block.level == 2 then
      page = page_of(block)
      is_new = pages[page] == nil
      if is_new then
        pages[page] = {}
        table.insert(order, page)
      end
    end
    if not is_new and not (block.t == "Header" and block.level == 1) then
      table.insert(pages[page], block)
    end
  end
  return pages, order
end

-- `NAME - what it is for`, of a page's first paragraph.
local function name_line(page, blocks)
  local purpose = text_of(blocks[1]):match("^[^:]+: (.-)%.?$")
  return page .. " - " .. purpose
end

-- The words of a table's row that are explained, in one term.
local function term_of(cells)
  local term = {}
  for column = 1, #cells - 1 do
    local words = pandoc.utils.blocks_to_inlines(cells[column])
    if #term > 0 and #words > 0 then
      table.insert(term, pandoc.Str(", "))
    end
    for _, word in ipairs(words) do
      table.insert(term, word)
    end
  end
  return term
end

-- A table of words and what they mean becomes a list of terms; one of figures stays a table.
local function explained(original)
  local rows = pandoc.utils.to_simple_table(original)
  local is_list = #rows.headers == 2 or text_of(rows.headers[1]) == "Option"
  if not is_list then
    return nil
  end
  local items = {}
  for _, cells in ipairs(rows.rows) do
    table.insert(items, { term_of(cells), { cells[#cells] } })
  end
  return pandoc.DefinitionList(items)
end

-- The blocks with section titles as man pages have them, the highest of the given level, and words that stand for themselves in bold.
local function dressed(blocks, highest)
  local looks = {
    Header = function(header)
      local level, title = header.level - highest + 1, text_of(header)
      return pandoc.Header(level, pandoc.Str(level == 1 and title:upper() or title))
    end,
    Code = function(code)
      return pandoc.Strong(pandoc.Str(code.text))
    end,
    Str = function(word)
      return pandoc.Str((word.text:gsub("docs/FORMATS%.md", "osmpoly-formats(5)"):gsub("docs/MANUAL%.md", "osmpoly(1)")))
    end,
    Table = explained,
  }
  return pandoc.walk_block(pandoc.Div(blocks), looks).content
end

local function section(title, ...)
  return { pandoc.Header(1, pandoc.Str(title)), ... }
end

-- The page of all: the manual's head, the commands and what they are for, and the sections that are no command's.
local function overview(pages, order, blocks)
  local items = {}
  for _, page in ipairs(order) do
    if page ~= "osmpoly" then
      local purpose = name_line(page, pages[page]):match(" %- (.*)$")
      table.insert(items, { { pandoc.Strong(pandoc.Str(page .. "(1)")) }, { { pandoc.Plain(purpose) } } })
    end
  end
  local whole = pandoc.List(section("DESCRIPTION", blocks[1]))
  whole:extend(section("COMMANDS", pandoc.DefinitionList(items)))
  whole:extend({ table.unpack(blocks, 2) })
  return whole
end

-- The words that run a command, a line each.
local function synopsis(text)
  local lines = pandoc.List({})
  for line in text:gmatch("[^\n]+") do
    lines:extend(#lines > 0 and { pandoc.LineBreak(), pandoc.Strong(pandoc.Str(line)) } or { pandoc.Strong(pandoc.Str(line)) })
  end
  return pandoc.Para(lines)
end

-- What the last section of a page names.
local function others(page, order)
  local names = { page ~= "osmpoly-formats" and "osmpoly-formats(5)" or nil }
  for _, other in ipairs(order) do
    if other ~= page then
      table.insert(names, other .. "(1)")
    end
  end
  table.insert(names, "osmium(1)")
  return table.concat(names, ", ")
end

-- The page of the formats: the document without its title.
local function formats(document)
  local whole = pandoc.List(section("NAME", pandoc.Plain("osmpoly-formats - what osmpoly reads and writes, to the byte")))
  whole:extend(dressed({ table.unpack(document.blocks, 2) }, 2))
  whole:extend(section("SEE ALSO", pandoc.Para("osmpoly(1), osmium-file-formats(5)"), pandoc.Para(sources)))
  return whole
end

-- The document as a page of a section of the man pages.
local function as_page(document, blocks, page, of)
  document.blocks = blocks
  document.meta = { title = page:upper(), section = of, header = "osmpoly", footer = document.meta.footer, adjusting = "l", hyphenate = false }
  return document
end

function Pandoc(manual)
  local page = text_of(manual.meta.page)
  if page == "osmpoly-formats" then
    return as_page(manual, formats(manual), page, "5")
  end
  local pages, order = pages_of(manual.blocks)
  local blocks = assert(pages[page], "the manual has no page " .. page)
  local rest = dressed({ table.unpack(blocks, 3) }, page == "osmpoly" and 2 or 3)
  local whole = pandoc.List(section("NAME", pandoc.Plain(name_line(page, blocks))))
  whole:extend(section("SYNOPSIS", synopsis(blocks[2].text)))
  whole:extend(page == "osmpoly" and overview(pages, order, rest) or rest)
  whole:extend(section("SEE ALSO", pandoc.Para(others(page, order)), pandoc.Para(sources)))
  return as_page(manual, whole, page, "1")
end
