" :make shows what b check finds. Written by tools/editors.
let current_compiler = "bthompson"
execute 'CompilerSet makeprg=' . escape(bthompson#check(), ' \|"')
CompilerSet errorformat=%f:%l:%c:\ %trror:\ %m,%f:%l:%c:\ %tarning:\ %m,%-G%.%#
