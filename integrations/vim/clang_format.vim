" Formats C with clang_format. Goes to ~/.vim/plugin/ (Neovim: ~/.config/nvim/plugin/).
"
"   :ClangFormat          the whole buffer; the cursor stays on its character
"   :'<,'>ClangFormat     the lines of the range, and no others
"
" What you may want in your vimrc beside it:
"
"   autocmd FileType c setlocal formatexpr=ClangFormatExpr()    gq formats the lines that it is given
"   autocmd BufWritePre *.c,*.h ClangFormat                     formats when a file is saved
"   let g:clang_format_program = '/opt/bin/clang_format'        where it isn't on PATH
"   let g:clang_format_style = 'Google'                         default: the nearest .clang-format above the file
"
" Without this file: `autocmd FileType c setlocal equalprg=clang_format formatprg=clang_format`, for gg=G and gggqG. Vim
" gives such a program only the lines in question, so a part of a function comes back without its indentation, and
" the style is that of Vim's working folder.

if exists('g:loaded_clang_format_program')
  finish
endif
let g:loaded_clang_format_program = 1

function! s:Style() abort
  if exists('g:clang_format_style')
    return '--style=' . g:clang_format_style
  endif
  let l:folder = empty(expand('%')) ? getcwd() : expand('%:p:h')
  while !filereadable(l:folder . '/.clang-format')
    if fnamemodify(l:folder, ':h') ==# l:folder
      return '--style=LLVM'
    endif
    let l:folder = fnamemodify(l:folder, ':h')
  endwhile
  return '--style=file:' . l:folder . '/.clang-format'
endfunction

" The lines without what formatting changes: white space, and backslashes that splice lines.
function! s:Solid(lines) abort
  return substitute(join(map(copy(a:lines), 'substitute(v:val, ''\\$'', "", "")'), ''), '\s', '', 'g')
endfunction

" The column of a line that so many of its bytes, white space aside, stand before.
function! s:Column(line, place) abort
  let l:solid = 0
  let l:column = 1
  for l:character in split(a:line, '\zs')
    if l:character !~# '\s'
      if l:solid >= a:place
        break
      endif
      let l:solid += len(l:character)
    endif
    let l:column += len(l:character)
  endfor
  return l:column
endfunction

" Where a cursor stands, as a line and a column, that has so many bytes, white space aside, before it.
function! s:Position(place, first) abort
  let l:left = a:place
  for l:number in range(a:first, line('$'))
    let l:count = len(s:Solid([getline(l:number)]))
    if l:count > l:left
      return [l:number, s:Column(getline(l:number), l:left)]
    endif
    let l:left -= l:count
  endfor
  return [line('$'), 1]
endfunction

" How many items the lists have in common at their fronts.
function! s:Common(one, other) abort
  let l:most = min([len(a:one), len(a:other)])
  let l:count = 0
  while l:count < l:most && a:one[l:count] ==# a:other[l:count]
    let l:count += 1
  endwhile
  return l:count
endfunction

" Puts the lines in the place of `gone` lines behind line `first`.
function! s:Splice(first, gone, lines) abort
  let l:common = min([a:gone, len(a:lines)])
  if l:common > 0
    call setline(a:first + 1, a:lines[: l:common - 1])
  endif
  if a:gone > l:common
    call deletebufline('%', a:first + l:common + 1, a:first + a:gone)
  elseif len(a:lines) > l:common
    call append(a:first + l:common, a:lines[l:common :])
  endif
endfunction

" Makes the buffer these lines. Only lines between the first and the last that differ are touched, and the cursor
" stays on its character, and on its row of the window.
function! s:Replace(lines) abort
  let l:old = getline(1, '$')
  let l:first = s:Common(l:old, a:lines)
  let l:gone = len(l:old) - l:first
  let l:new = a:lines[l:first :]
  let l:last = s:Common(reverse(l:old[l:first :]), reverse(copy(l:new)))
  let l:gone -= l:last
  let l:new = l:new[: len(l:new) - l:last - 1]
  if len(a:lines) - l:first == l:last
    let l:new = []
  endif
  let l:view = winsaveview()
  let l:before = getline(l:first + 1, l:view.lnum - 1) + [strpart(getline('.'), 0, l:view.col)]
  call s:Splice(l:first, l:gone, l:new)
  let l:place = [l:view.lnum, l:view.col + 1]
  if l:view.lnum > l:first + l:gone
    let l:place[0] += len(l:new) - l:gone
  elseif l:view.lnum > l:first
    let l:place = s:Position(len(s:Solid(l:before)), l:first + 1)
  endif
  let l:top = max([1, l:view.topline + l:place[0] - l:view.lnum])
  call winrestview({'lnum': l:place[0], 'col': l:place[1] - 1, 'topline': l:top})
endfunction

" Formats the lines from first to last of the buffer; whether it could.
function! s:Format(first, last) abort
  let l:program = get(g:, 'clang_format_program', 'clang_format')
  let l:words = [l:program, s:Style()]
  if a:first > 1 || a:last < line('$')
    let l:words += ['--lines=' . a:first . ':' . a:last]
  endif
  let l:notes = tempname()
  let l:lines = systemlist(join(map(l:words, 'shellescape(v:val)')) . ' 2>' . shellescape(l:notes),
        \ getline(1, '$') + [''])
  let l:failed = v:shell_error != 0
  if l:failed
    let l:rows = filereadable(l:notes) ? readfile(l:notes) : []
    echohl ErrorMsg
    echomsg 'ClangFormat: ' . (empty(l:rows) ? 'status ' . v:shell_error : l:rows[-1])
    echohl None
  else
    if &fileformat ==# 'dos'
      call map(l:lines, 'substitute(v:val, ''\r$'', "", "")')
    endif
    call s:Replace(empty(l:lines) ? [''] : l:lines)
  endif
  call delete(l:notes)
  return !l:failed
endfunction

" For 'formatexpr'. Lines that are broken while they are typed are left to Vim.
function! ClangFormatExpr() abort
  if mode() =~# '[iR]'
    return 1
  endif
  call s:Format(v:lnum, v:lnum + v:count - 1)
  return 0
endfunction

command! -range=% -bar ClangFormat call s:Format(<line1>, <line2>)
