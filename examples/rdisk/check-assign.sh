# check-assign.sh
# check-assign.sh DECL ASSIGN [NAME..] says whether the workqueues in this commit can hang; with NAMEs, whether one of
# these items can be held up. It ends with the status of `deadlock` or `hang`, so CI stops where they can.
status=0
if [ $# -gt 2 ]; then
    wqplan hang "$@" || status=$?
else
    wqplan deadlock "$1" "$2" || status=$?
fi
case $status in
0) echo "these workqueues can't hang; read the notes above, if there are any" ;;
1) echo "these workqueues can hang: ask wqplan repair $1 $2, and change the driver" ;;
2) echo "a text is refused" ;;
*) echo "a fault, such as a file that is missing" ;;
esac
exit $status
