" For ~/.vim/ftplugin: :make draws the page of a source beside it, and its errors and warnings become vim's list.
setlocal makeprg=abel-page\ %:S\ %:r:S.html
setlocal errorformat=%f:%l:%c:\ %m,%-G%.%#
let b:undo_ftplugin = 'setlocal makeprg< errorformat<'
