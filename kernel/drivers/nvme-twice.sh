# For kernel/driver: as nvme.sh, but no new disk appears: the connections are lost twice, and that is all. (Besides, this
# file needs --file kernel/drivers/nvme.sh.)
twice=yes
. /nvme.sh
