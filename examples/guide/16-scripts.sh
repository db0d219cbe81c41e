keep init lines > /dev/null
tools/files-to-lines notes web 2024-03-04T22:00:00Z | keepd --folder lines
echo 'restore @1' | keepd --folder lines > answer && tools/lines-to-files made < answer
