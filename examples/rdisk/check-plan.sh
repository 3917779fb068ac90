# check-plan.sh
# Says whether the plan in this commit still belongs to the declaration. It ends with the status of `check`, so CI stops at a plan
# that doesn't.
status=0
wqplan check rdisk.wq rdisk.plan || status=$?
case $status in
0) echo "the plan is safe, and no workqueue is too many" ;;
1) echo "the plan is wrong: run make-plan.sh, and change the driver" ;;
2) echo "a text is refused" ;;
*) echo "a fault, such as a file that is missing" ;;
esac
exit $status
