keep restore @1 --target restored
cat "restored$PWD/notes/plan"
keep dump latest "$PWD/notes/plan"
