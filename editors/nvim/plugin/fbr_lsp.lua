-- Texts of fbr are attached to its language server (docs/EDITORS.md).
local group = vim.api.nvim_create_augroup("fbr_lsp", {})

vim.api.nvim_create_autocmd({ "BufNewFile", "BufRead" }, {
  group = group,
  pattern = "*.fb",
  callback = function()
    vim.bo.filetype = "fb"
  end,
})

vim.api.nvim_create_autocmd("FileType", {
  group = group,
  pattern = "fb",
  callback = function(event)
    require("fbr_lsp").attach(event.buf)
  end,
})
