-- Asks of names in Neovim with the plugin, by the keys of docs/EDITORS.md, and writes down what Neovim then shows.
-- Run by neovim_names.py, which says by environment variables what: HLASM_TEST_STEPS has the steps, HLASM_TEST_KEYS sets the keys,
-- HLASM_TEST_ROOT is the workspace, HLASM_TEST_RECORD is written. All waiting is for an event, for a minute at most.
local A_MINUTE = 60000

local root = vim.env.HLASM_TEST_ROOT

local function await(what, event)
  if not vim.wait(A_MINUTE, event, 10) then
    error('waited in vain for ' .. what)
  end
end

local function clients()
  return (vim.lsp.get_clients or vim.lsp.get_active_clients)()
end

-- A file's name, from the workspace.
local function name_of(buffer)
  return (vim.api.nvim_buf_get_name(buffer):gsub('^' .. vim.pesc(root .. '/'), ''))
end

local function open(name)
  vim.cmd('silent edit ' .. vim.fn.fnameescape(root .. '/' .. name))
  local buffer = vim.api.nvim_get_current_buf()
  await('the server of ' .. name, function()
    local client = clients()[1]
    return client and client.server_capabilities and vim.lsp.buf_is_attached(buffer, client.id)
  end)
end

-- The window that floats over the text, which hover opens.
local function float()
  for _, window in ipairs(vim.api.nvim_list_wins()) do
    if vim.api.nvim_win_get_config(window).relative ~= '' then
      return window
    end
  end
end

local function text_of_float()
  local window = float()
  local text = table.concat(vim.api.nvim_buf_get_lines(vim.api.nvim_win_get_buf(window), 0, -1, true), '\n')
  vim.api.nvim_win_close(window, true)
  return vim.trim(text)
end

-- Where the cursor is: file, line and column, counted from 1.
local function place()
  local cursor = vim.api.nvim_win_get_cursor(0)
  return string.format('%s %d.%d', name_of(vim.api.nvim_get_current_buf()), cursor[1], cursor[2] + 1)
end

-- The list that a question fills: that of a window in later versions of Neovim, the one of all windows before.
local function items(window)
  local own = vim.fn.getloclist(window)
  return #own > 0 and own or vim.fn.getqflist()
end

local function listed(window, with_text)
  local found = {}
  for _, item in ipairs(items(window)) do
    local line = string.format('%s %d.%d', name_of(item.bufnr), item.lnum, item.col)
    table.insert(found, with_text and line .. ' ' .. vim.trim(item.text) or line)
  end
  vim.cmd('cclose | lclose')
  vim.api.nvim_set_current_win(window)
  return found
end

-- For each kind of question: what is put away before it, what is waited for, and what is found then.
local WAYS = {
  hover = {
    event = float,
    result = text_of_float,
  },
  jump = {
    before = function(window)
      vim.fn.settagstack(window, { items = {} }, 'r')
    end,
    event = function(window)
      return vim.fn.gettagstack(window).length > 0
    end,
    result = place,
  },
  back = {
    event = function()
      return true
    end,
    result = place,
  },
  places = {
    event = function(window)
      return #items(window) > 0
    end,
    result = function(window)
      return listed(window, false)
    end,
  },
  outline = {
    event = function(window)
      return #items(window) > 0
    end,
    result = function(window)
      return listed(window, true)
    end,
  },
}

-- Types the keys of a step, the question's among them, with nothing between them that could wait; what is seen then.
local function seen(step)
  if step.open then
    open(step.open)
  end
  local window, way = vim.api.nvim_get_current_win(), WAYS[step.kind]
  vim.fn.setqflist({}, 'f')
  vim.fn.setloclist(window, {}, 'f')
  if way.before then
    way.before(window)
  end
  vim.api.nvim_feedkeys(vim.api.nvim_replace_termcodes(step.keys, true, false, true), 'tx', false)
  await(step.name, function()
    return way.event(window)
  end)
  return way.result(window)
end

local record = { seen = {} }

local function run()
  for _, step in ipairs(vim.json.decode(vim.env.HLASM_TEST_STEPS)) do
    record.seen[step.name] = seen(step)
  end
  vim.lsp.stop_client(clients())
  await('the end of the server', function()
    return #clients() == 0
  end)
end

local well, why = xpcall(run, debug.traceback)
record.fault = not well and tostring(why) or nil
record.messages = vim.fn.execute('messages')
local file = assert(io.open(vim.env.HLASM_TEST_RECORD, 'wb'))
file:write(vim.json.encode(record))
file:close()
vim.cmd(well and 'qall!' or 'cquit')
