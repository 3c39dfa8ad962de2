-- Edits a file in Neovim with the plugin, and writes down, after each edit, the text and the diagnostics that came for it.
-- Run by neovim.py, which says by environment variables where: HLASM_TEST_FILE is edited, HLASM_TEST_RECORD is written.
-- All waiting is for an event, for a minute at most.
local A_MINUTE = 60000

local function await(what, event)
  if not vim.wait(A_MINUTE, event, 10) then
    error('waited in vain for ' .. what)
  end
end

local function keys(text)
  vim.api.nvim_feedkeys(vim.api.nvim_replace_termcodes(text, true, false, true), 'tx', false)
end

-- The list that the server published last for each file, and the version of each buffer's text that it must come to.
local published, version = {}, {}

local show = vim.lsp.handlers['textDocument/publishDiagnostics']
vim.lsp.handlers['textDocument/publishDiagnostics'] = function(fault, list, ...)
  published[list.uri] = list
  return show(fault, list, ...)
end

local function clients()
  return (vim.lsp.get_clients or vim.lsp.get_active_clients)()
end

-- Keeps the version of a buffer that was opened just now: 0, and then Neovim's number of the last change.
local function watch(buffer)
  version[buffer] = 0
  vim.api.nvim_buf_attach(buffer, false, {
    on_lines = function(_, _, change)
      version[buffer] = change
    end,
    on_detach = function()
      version[buffer] = nil
    end,
  })
end

local function text_of(buffer)
  local text = table.concat(vim.api.nvim_buf_get_lines(buffer, 0, -1, true), '\n')
  return vim.bo[buffer].endofline and text .. '\n' or text
end

local function shown_in(buffer)
  local shown = {}
  for _, diagnostic in ipairs(vim.diagnostic.get(buffer)) do
    table.insert(shown, { line = diagnostic.lnum, severity = diagnostic.severity, message = diagnostic.message })
  end
  return shown
end

local record = { steps = {}, files = {}, library = {} }

-- Does an edit in the current buffer, waits for its diagnostics and writes them down.
local function step(name, edit)
  local buffer = vim.api.nvim_get_current_buf()
  local uri = vim.uri_from_bufnr(buffer)
  local before = version[buffer]
  if edit then
    published[uri] = nil
    edit()
  end
  if not version[buffer] then
    watch(buffer) -- opened, or read again
  elseif version[buffer] == before then
    error(name .. ': nothing was changed')
  end
  await(name, function()
    return published[uri] and published[uri].version == version[buffer]
  end)
  table.insert(record.steps, {
    name = name,
    text = text_of(buffer),
    diagnostics = published[uri].diagnostics,
    shown = shown_in(buffer),
  })
end

-- A number from 0 to below a bound; the same ones in each run.
local seed = 1
local function any(bound)
  seed = (seed * 16807) % 2147483647
  return seed % bound
end

local PIECES = { 'X', ' ', '\t', '\\*', '\\*x', 'END', 'é', '𝔸', '😀😀', "'", '<CR>', '<CR>  Y', '               Z<CR>' }
local REMOVALS = { 'x', 'dd', 'D', 'J', 'dw', 'd0', '2dd', 'P', 'yyp', 'u', 'u', '<C-r>', 'rX', '~' }

-- One of many small edits, somewhere.
local function edit_somewhere()
  keys(string.format('%dG%d|', 1 + any(vim.api.nvim_buf_line_count(0)), 1 + any(80)))
  if any(2) == 0 then
    keys('i' .. PIECES[1 + any(#PIECES)] .. '<Esc>')
  else
    pcall(keys, REMOVALS[1 + any(#REMOVALS)])
  end
end

local function edits()
  step('opened')
  step('a continuation moved to column 16', function() keys('4G0i      <Esc>') end)
  step('that undone', function() keys('u') end)
  step('that done again', function() keys('<C-r>') end)
  step('END typed below the last line', function() keys('Go         END<Esc>') end)
  step('a mark deleted', function() keys('3G72|x') end)
  step('a mark replaced by a blank', function() keys('6G$r ') end)
  step('that undone too', function() keys('u') end)
  step('text outside the BMP typed before a mark', function() keys('6G12|i𝔸😀é<Esc>') end)
  step('three characters behind it deleted', function() keys('6G16|3x') end)
  step('a character outside the BMP deleted', function() keys('6G12|x') end)
  step('a character outside the BMP replaced by another', function() keys('6G12|r𝔹') end)
  step('typed behind it', function() keys('6G13|ix<Esc>') end)
  step('all before it deleted', function() keys('6G12|d0') end)
  step('all of that undone', function() keys('4u') end)
  step('many lines pasted', function()
    local lines = { '*' .. string.rep(' ', 70) .. 'X' }
    for number = 1, 40 do
      table.insert(lines, string.format('               𝔸 line %2d', number) .. string.rep(' ', 47) .. 'X')
    end
    keys('2G')
    vim.api.nvim_put(lines, 'l', true, true)
  end)
  step('many lines pasted within a line', function()
    keys('2G5|')
    vim.api.nvim_paste('a\n  b\nc\n' .. string.rep('* 😀\n', 300) .. 'd', true, -1)
  end)
  step('a hundred lines deleted', function() keys('10G100dd') end)
  step('blanks typed before many lines at once', function() keys('2G0<C-v>6jI  <Esc>') end)
  step('lines joined', function() keys('2G6J') end)
  step('a line split', function() keys('2G4|i<CR><Esc>') end)
  step('every line with a mark deleted', function() vim.cmd([[silent global/\v%72v\S/delete]]) end)
  step('a replacement in every line', function() vim.cmd([[silent %s/\v( +)(.)$/\2\1/e]]) end)
  step('the last line deleted', function() keys('Gdd') end)
  step('a line typed above the first one', function() keys('ggO\\*<Esc>') end)
  step('the first lines moved to the end', function() vim.cmd('silent 1,3move $') end)
  step('all undone', function() vim.cmd('silent undo 0') end)
  for round = 1, 12 do
    step(string.format('ten edits somewhere, round %d', round), function()
      keys('ggO\\* round<Esc>')
      for _ = 1, 10 do
        edit_somewhere()
      end
    end)
  end
  step('the file read again', function() vim.cmd('edit!') end)
  step('END typed once more', function() keys('Go         END<Esc>') end)
  step('lines made comments', function() vim.cmd('1,3HlasmComment') end)
  local now = table.concat(vim.api.nvim_buf_get_lines(0, 0, 3, true), '|')
  assert(now:match('^%*%*  A file with faults|%*A        CSECT|%*         LR'), now)
  step('lines that are no comments any more', function() vim.cmd('1,3HlasmComment') end)
end

-- Each file beside the first: whether it counts as HLASM, and what is published for it; nothing is for a member of a library.
local function files()
  local members = vim.fn.split(vim.env.HLASM_TEST_MEMBERS, '\n')
  for _, name in ipairs(vim.fn.split(vim.env.HLASM_TEST_FILES, '\n')) do
    vim.cmd('silent edit ' .. vim.fn.fnameescape(name))
    local buffer = vim.api.nvim_get_current_buf()
    local entry = { name = name, filetype = vim.bo[buffer].filetype }
    if entry.filetype == 'hlasm' then
      assert(vim.wo.colorcolumn == '72', name .. ': the settings of the filetype are not there')
      assert(vim.bo.expandtab and vim.bo.varsofttabstop == '9,6,8' and not vim.wo.wrap, name .. ': typed otherwise')
      if not vim.tbl_contains(members, name) then
        local uri = vim.uri_from_bufnr(buffer)
        await(name, function()
          return published[uri]
        end)
        entry.diagnostics = published[uri].diagnostics
      end
    end
    table.insert(record.files, entry)
  end
  for _, name in ipairs(members) do
    assert(not published[vim.uri_from_fname(name)], name .. ': a list was published for a member')
  end
end

-- What is answered to a question about a place in the current buffer.
local function ask(method, line, character)
  local uri = vim.uri_from_bufnr(vim.api.nvim_get_current_buf())
  local params = { textDocument = { uri = uri }, position = { line = line, character = character } }
  for _, answer in pairs(vim.lsp.buf_request_sync(0, 'textDocument/' .. method, params, A_MINUTE) or {}) do
    return answer.result
  end
end

-- A program, and a macro in a library that it calls: each thing that happens to the macro changes the program's list.
local function library()
  local root = vim.env.HLASM_TEST_LIBRARY
  local program = vim.uri_from_fname(root .. '/p.hlasm')
  local member, groups = root .. '/lib/SHR.mac', root .. '/.hlasmplugin/proc_grps.json'
  local macro, settings = vim.fn.readfile(member), vim.fn.readfile(groups)
  local function lists(what, code)
    await(what, function()
      local list = published[program]
      return list and (code == nil and #list.diagnostics == 0 or #list.diagnostics == 1 and list.diagnostics[1].code == code)
    end)
    table.insert(record.library, { name = what, diagnostics = published[program].diagnostics })
  end
  vim.cmd('silent edit ' .. vim.fn.fnameescape(root .. '/p.hlasm'))
  lists('the program is opened', nil)
  vim.cmd('silent edit ' .. vim.fn.fnameescape(member))
  keys("2Go         MNOTE 8,'x'<Esc>")
  lists('the macro is edited', 'MNOTE')
  vim.cmd('bdelete!')
  lists('the macro is closed without being saved', nil)
  vim.fn.writefile({ macro[1], macro[2], "         MNOTE 8,'y'", macro[3] }, member)
  lists('the file of the macro is written', 'MNOTE')
  vim.fn.delete(member)
  lists('the file of the macro is deleted', 'H040')
  vim.fn.writefile(macro, member)
  lists('the file of the macro is there again', nil)
  vim.fn.writefile({ '{"pgroups":[]}' }, groups)
  lists('the settings have no library', 'H040')
  vim.fn.writefile(settings, groups)
  lists('the settings have the library again', nil)
  vim.api.nvim_buf_set_lines(0, 0, 0, true, { '* a line more' }) -- the questions come before the list of this change
  record.names = { hover = ask('hover', 1, 9), definition = ask('definition', 1, 9) }
  vim.fn.delete(member)
  lists('the file of the macro is deleted again', 'H040')
end

-- What the client offers to the user, and the folders of the workspaces.
local function offers()
  record.roots = {}
  for _, client in ipairs(clients()) do
    table.insert(record.roots, client.config.root_dir or '')
    for _, method in ipairs({ 'hover', 'definition', 'references', 'documentSymbol' }) do
      if not client.supports_method('textDocument/' .. method) then
        error('not offered: ' .. method)
      end
    end
  end
end

local function run()
  vim.o.hidden = true
  vim.cmd('silent edit ' .. vim.fn.fnameescape(vim.env.HLASM_TEST_FILE))
  edits()
  vim.cmd('silent write')
  files()
  library()
  offers()
  vim.lsp.stop_client(clients())
  await('the end of the servers', function()
    return #clients() == 0
  end)
end

local well, why = xpcall(run, debug.traceback)
record.fault = not well and tostring(why) or nil
record.messages = vim.fn.execute('messages')
local file = assert(io.open(vim.env.HLASM_TEST_RECORD, 'wb'))
file:write(vim.json.encode(record))
file:close()
vim.cmd(well and 'qall!' or 'cquit')
