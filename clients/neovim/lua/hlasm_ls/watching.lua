--- Tells a server of what changes outside the editor: the files of the workspace's library folders, and its settings.
--- The server asks for nothing of the kind, so Neovim's own watcher, of later versions, is of no use here.
local workspace = require('hlasm_ls.workspace')

local M = {}

local uv = vim.uv or vim.loop

-- The numbers of LSP 3.17, FileChangeType. A file that is there may be told as changed, new or not.
local CHANGED, DELETED = 2, 3

-- What changes within so many milliseconds is told in one message.
local PAUSE = 100

-- By the number of a client: its watchers, and the paths that changed and were not told yet.
local watched = {}

local function notify(client, changes)
  local params = { changes = changes }
  if vim.fn.has('nvim-0.11') == 1 then
    client:notify('workspace/didChangeWatchedFiles', params)
  else
    client.notify('workspace/didChangeWatchedFiles', params)
  end
end

local function close_all(handles)
  for _, handle in ipairs(handles) do
    handle:stop()
    handle:close()
  end
end

-- Tells what changed, in order of the paths, and follows the settings.
local function tell(number)
  local state, client = watched[number], vim.lsp.get_client_by_id(number)
  if not state or not client then
    return
  end
  local paths = vim.tbl_keys(state.changed)
  table.sort(paths)
  state.changed = {}
  local changes, is_set_anew = {}, false
  for _, path in ipairs(paths) do
    table.insert(changes, { uri = vim.uri_from_fname(path), type = uv.fs_stat(path) and CHANGED or DELETED })
    is_set_anew = is_set_anew or path == workspace.groups_of(state.root)
  end
  notify(client, changes)
  if is_set_anew then
    M.start(number, state.root)
  end
end

-- Watches a folder, if it is there.
local function watch(number, folder)
  local handle = uv.new_fs_event()
  local started = handle:start(folder, {}, function(fault, name)
    local state = watched[number]
    if fault or not name or not state then
      return
    end
    if not next(state.changed) then
      vim.defer_fn(function()
        tell(number)
      end, PAUSE)
    end
    state.changed[folder .. '/' .. name] = true
  end)
  if not started then
    handle:close()
    return {}
  end
  return { handle }
end

--- Watches the libraries and the settings of a workspace for a client, in place of what was watched for it.
function M.start(number, root)
  local before = watched[number]
  if before then
    close_all(before.handles)
  end
  local state = { root = root, handles = {}, changed = before and before.changed or {} }
  watched[number] = state
  for folder in pairs(workspace.watched_folders(root)) do
    vim.list_extend(state.handles, watch(number, folder))
  end
end

--- Ends what is watched for a client.
function M.stop(number)
  if watched[number] then
    close_all(watched[number].handles)
    watched[number] = nil
  end
end

return M
