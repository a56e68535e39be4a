-- Links of a page of the manual as HTML, for pandoc: a page leads to the page beside it that is made of it, and a link to a
-- file that is not there becomes its text. (pandoc is called in the page's folder.)
local function is_there(file)
  local opened = io.open(file)
  if opened then opened:close() end
  return opened ~= nil
end

function Link(link)
  local file, anchor = link.target:match("^([^#]*)(.*)$")
  if file == "" or file:match("^%a+:") then return nil end
  if not is_there(file) then return link.content end
  link.target = file:gsub("%.md$", ".html") .. anchor
  return link
end
