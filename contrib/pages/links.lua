-- Links to documents become links to their pages, and each table may be moved sideways on a narrow screen.
function Link(link)
  if not link.target:match("^%a+:") then
    link.target = link.target:gsub("README%.md", "index.html"):gsub("%.md", ".html")
  end
  return link
end

function Table(table)
  return pandoc.Div(table, { class = "wide" })
end
