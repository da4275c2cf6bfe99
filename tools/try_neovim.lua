-- Has Neovim talk to the language server about the source FILE, and writes what it shows into the file SEEN.
-- tools/try-editors compares it.
local seen = {}

local function shown()
  return vim.tbl_map(function(it)
    return { it.lnum, it.col, vim.split(it.message, "\n")[1] }
  end, vim.diagnostic.get(0))
end

local function wait_for(count)
  vim.wait(30000, function() return #vim.diagnostic.get(0) == count end, 50)
  return shown()
end

local function ask(method, more)
  local given = vim.tbl_extend("force", vim.lsp.util.make_position_params(), more or {})
  local told = vim.lsp.buf_request_sync(0, method, given, 10000) or {}
  return (told[1] or {}).result
end

vim.cmd("filetype plugin on")
vim.cmd("edit " .. vim.fn.fnameescape(vim.env.FILE))
local client = vim.lsp.start_client({ name = "b", cmd = { vim.env.SERVER }, root_dir = vim.fn.getcwd() })
vim.lsp.buf_attach_client(0, client)
seen.source = wait_for(1)
vim.cmd("%s/i = 5$/i=5;/")
vim.cmd("%s/i, other/i/")
seen.mended = wait_for(0)
vim.lsp.buf.formatting_sync(nil, 10000)
seen.layout = table.concat(vim.api.nvim_buf_get_lines(0, 0, -1, false), "\n") .. "\n"
vim.api.nvim_win_set_cursor(0, { 12, 18 })
seen.hover = ask("textDocument/hover").contents.value
seen.uses = #ask("textDocument/references", { context = { includeDeclaration = true } })
vim.lsp.buf.rename("thrice")
vim.wait(30000, function() return vim.fn.search("thrice", "nw") > 0 end, 50)
seen.renamed = vim.fn.getline(3)
vim.fn.writefile({ vim.fn.json_encode(seen) }, vim.env.SEEN)
vim.cmd("qall!")
