mkdir notes && echo plan > notes/plan && echo names > notes/names
keep init kept && export KEEP_REPOSITORY=$PWD/kept
keep backup notes --host web --time 2024-03-04T22:00:00Z
echo more >> notes/plan
keep backup notes --host web --time 2024-03-05T22:00:00Z
