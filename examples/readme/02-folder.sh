keep init ~/kept && export KEEP_REPOSITORY=~/kept
keep backup ~/notes
keep backup ~/notes --tag second
keep forget --keep-last 1
keep undo 3 > /dev/null && keep restore latest --target ~/restored
diff -r ~/notes ~/"restored$HOME/notes" && echo same
