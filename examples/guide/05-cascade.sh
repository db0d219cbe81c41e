keep undo 1 2>&1
keep undo 1 --with-all
keep redo 1 > /dev/null && keep redo 2 > /dev/null
