-- Has Neovim read the lines INIT of the page, over a module `dap` that only keeps what they set, and writes what they set
-- for the source FILE into the file SEEN. tools/try-dap compares it.
local dap = { adapters = {}, configurations = {} }
package.loaded.dap = dap
dofile(vim.env.INIT)
vim.cmd("filetype plugin on")
vim.cmd("edit " .. vim.fn.fnameescape(vim.env.FILE))
local seen = { adapter = dap.adapters.b, configurations = dap.configurations[vim.bo.filetype] }
vim.fn.writefile({ vim.fn.json_encode(seen) }, vim.env.SEEN)
vim.cmd("qall!")
