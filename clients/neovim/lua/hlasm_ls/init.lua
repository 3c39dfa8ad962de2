--- The client of hlasm_ls. Settings, before the first file is opened:
---   vim.g.hlasm_ls_command = { '/path/to/hlasm_ls', 'serve' }   where the program is not on the PATH
---   vim.g.hlasm_ls_extensions = { 'hlasm', 'mac' }              where other files than .hlasm .asm .mac .cpy are HLASM
local watching = require('hlasm_ls.watching')
local workspace = require('hlasm_ls.workspace')

local M = {}

local function begin(client)
  if client.config.root_dir then
    watching.start(client.id, client.config.root_dir)
  end
end

local function finish(_, _, number)
  watching.stop(number)
end

-- The words that start the server.
local function command()
  local words = vim.g.hlasm_ls_command or 'hlasm_ls'
  return type(words) == 'string' and { words, 'serve' } or words
end

-- Whether a buffer shows a file, which alone the server takes.
local function shows_file(buffer)
  local name = vim.api.nvim_buf_get_name(buffer)
  return vim.bo[buffer].buftype == '' and name ~= '' and not name:match('^%a[%w+.-]*://')
end

-- The numbers of the running clients by workspace, for Neovim 0.7, which has no vim.lsp.start to find them.
local running = {}

local function attach_old(config, buffer)
  local key = config.root_dir or ''
  if not running[key] then
    config.on_exit = function(...)
      running[key] = nil
      finish(...)
    end
    running[key] = vim.lsp.start_client(config)
  end
  if running[key] then
    vim.lsp.buf_attach_client(buffer, running[key])
  end
end

local function attach(config, buffer)
  vim.api.nvim_buf_call(buffer, function()
    vim.lsp.start(config)
  end)
end

--- Starts the server for a buffer's workspace, where it does not run yet, and tells it of the buffer.
function M.start(buffer)
  if not shows_file(buffer) then
    return
  end
  local words = command()
  if vim.fn.executable(words[1]) == 0 then
    vim.notify_once('hlasm_ls: no program ' .. words[1] .. '; set vim.g.hlasm_ls_command', vim.log.levels.WARN)
    return
  end
  local config = {
    name = 'hlasm_ls',
    cmd = words,
    root_dir = workspace.root_of(vim.api.nvim_buf_get_name(buffer)),
    get_language_id = function()
      return 'hlasm'
    end,
    on_init = begin,
    on_exit = finish,
  }
  local way = vim.lsp.start and attach or attach_old
  way(config, buffer)
end

return M
