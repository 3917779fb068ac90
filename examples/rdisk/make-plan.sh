# make-plan.sh
# Writes the plan of rdisk.wq to rdisk.plan. Any other answer is shown, and rdisk.plan stays as it is.
wqplan plan rdisk.wq > rdisk.plan.new
status=$?
if [ $status -eq 0 ]; then
    mv rdisk.plan.new rdisk.plan
else
    cat rdisk.plan.new
    rm rdisk.plan.new
fi
exit $status
