" Written by tools/editors.
setlocal cindent cinoptions=:0,l1,(0,W4 cinkeys-=0#
