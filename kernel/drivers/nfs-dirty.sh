# For kernel/driver: as nfs.sh, but first somebody writes to a file of the mount, and closes it. (Besides, this file
# needs --file kernel/drivers/nfs.sh.)
dirty=yes
. /nfs.sh
