--- Which files are HLASM, and which folder is their workspace: the one with the folder .hlasmplugin.
local M = {}

local uv = vim.uv or vim.loop

local EXTENSIONS = { 'hlasm', 'asm', 'mac', 'cpy' }
local SETTINGS = '.hlasmplugin'
local GROUPS = SETTINGS .. '/proc_grps.json'

-- The workspaces so far: a file in a library outside all of them is found through these.
local known = {}

local function folder_of(path)
  return vim.fn.fnamemodify(path, ':h')
end

-- A folder under one name, whatever links and dots lead to it.
local function plain(folder)
  return uv.fs_realpath(folder) or (vim.fn.simplify(folder):gsub('(.)/+$', '%1'))
end

local function read(path)
  local file = io.open(path, 'rb')
  if not file then
    return nil
  end
  local text = file:read('*a')
  file:close()
  return text
end

-- The elements of a member of a JSON object that is a list.
local function list_in(object, name)
  local list = type(object) == 'table' and object[name]
  return type(list) == 'table' and list or {}
end

--- The nearest folder at or above a path that has settings, or nil.
function M.root_above(path)
  local folder = path
  while true do
    local settings = uv.fs_stat(folder .. '/' .. SETTINGS)
    if settings and settings.type == 'directory' then
      known[folder] = true
      return folder
    end
    local above = folder_of(folder)
    if above == folder then
      return nil
    end
    folder = above
  end
end

--- The file of a workspace that names its libraries.
function M.groups_of(root)
  return root .. '/' .. GROUPS
end

-- The library folders of a workspace, as the server names them: `libs` of every group, each a text or an object with `path`, from
-- the workspace's folder, without a slash at the end.
local function libraries_of(root)
  local ok, settings = pcall(vim.json.decode, read(M.groups_of(root)) or '')
  local folders = {}
  for _, group in ipairs(list_in(ok and settings, 'pgroups')) do
    for _, library in ipairs(list_in(group, 'libs')) do
      local path = type(library) == 'table' and library.path or library
      if type(path) == 'string' then
        local whole = path:sub(1, 1) == '/' and path or root .. '/' .. path
        table.insert(folders, (whole:gsub('/$', '')))
      end
    end
  end
  return folders
end

--- The library folders of a workspace, each under one name.
function M.library_folders(root)
  return vim.tbl_map(plain, libraries_of(root))
end

--- The folders whose files the server reads, as a set: the settings and the libraries.
function M.watched_folders(root)
  local folders = { [root .. '/' .. SETTINGS] = true }
  for _, folder in ipairs(libraries_of(root)) do
    folders[folder] = true
  end
  return folders
end

-- The workspace one of whose library folders a file stands in, or nil.
local function root_of_member(path)
  local folder = plain(folder_of(path))
  local function takes(root)
    return root and vim.tbl_contains(M.library_folders(root), folder)
  end
  for _, near in ipairs({ path, uv.cwd() }) do
    local root = M.root_above(near)
    if takes(root) then
      return root
    end
  end
  for root in pairs(known) do
    if takes(root) then
      return root
    end
  end
end

--- The workspace of a file, or nil: then the server reads no settings.
function M.root_of(path)
  return M.root_above(path) or root_of_member(path)
end

--- Whether a file is HLASM, by its extension in either case or since it stands in a library folder.
function M.is_hlasm(path)
  if path:match('^%a[%w+.-]*://') then
    return false
  end
  local extension = vim.fn.fnamemodify(path, ':e'):lower()
  return vim.tbl_contains(vim.g.hlasm_ls_extensions or EXTENSIONS, extension) or root_of_member(path) ~= nil
end

return M
