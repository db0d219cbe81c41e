keep repair > /dev/null && keep check
truncate -s 9 kept/index/* && keep check 2>&1
mkdir aside && mv kept/journal kept/trash aside && keep check
echo drop index $(ls kept/index) | keep script
keep repair > /dev/null && keep check
