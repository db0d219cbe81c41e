keep empty 7
keep undo 7 2>&1
