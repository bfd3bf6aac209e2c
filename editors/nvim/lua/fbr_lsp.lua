-- Starts fbr-lsp for texts of fbr, in Neovim 0.7 and newer (docs/EDITORS.md).
local M = {}

-- What `setup` takes: `cmd`, the words that start the server, and `keys`, whether K and gd are set in these buffers.
M.options = { cmd = nil, keys = true }

-- The server that runs, for Neovim 0.7, which does not look for one itself.
local running

-- The words that start the server: those of `setup`, fbr-lsp on the PATH, or the one of the repository that this file stands in.
local function command()
  if M.options.cmd then
    return M.options.cmd
  end
  if vim.fn.executable("fbr-lsp") == 1 then
    return { "fbr-lsp" }
  end
  local file = vim.fn.resolve(debug.getinfo(1, "S").source:sub(2))
  return { vim.fn.fnamemodify(file, ":p:h:h:h:h") .. "/tools/fbr-lsp" }
end

local function on_attach(_, buffer)
  vim.bo[buffer].omnifunc = "v:lua.vim.lsp.omnifunc"
  if M.options.keys then
    vim.api.nvim_buf_set_keymap(buffer, "n", "K", "<Cmd>lua vim.lsp.buf.hover()<CR>", { noremap = true })
    vim.api.nvim_buf_set_keymap(buffer, "n", "gd", "<Cmd>lua vim.lsp.buf.definition()<CR>", { noremap = true })
  end
end

-- Attaches a buffer to the server, which is started if none runs.
function M.attach(buffer)
  local words = command()
  if vim.fn.executable(words[1]) ~= 1 then
    vim.notify_once("fbr-lsp: " .. words[1] .. " is no program; name the server by require('fbr_lsp').setup({ cmd = { .. } })", vim.log.levels.WARN)
    return
  end
  local config = { name = "fbr-lsp", cmd = words, root_dir = vim.fn.getcwd(), on_attach = on_attach }
  if vim.lsp.start then
    vim.lsp.start(config, { bufnr = buffer })
    return
  end
  if not running then
    -- client_is_stopped would say so of a server that is not ready yet, and a buffer comes here again when its type is set again.
    config.on_exit = function()
      running = nil
    end
    running = vim.lsp.start_client(config)
  end
  if running then
    vim.lsp.buf_attach_client(buffer, running)
  end
end

-- Takes options; buffers that are opened later follow them.
function M.setup(options)
  M.options = vim.tbl_extend("force", M.options, options or {})
end

return M
