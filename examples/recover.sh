#!/bin/sh
# A bank that is backed up, works on, is put back and rolled forward, in a folder of its own: `sh examples/recover.sh`.
set -e
home=$(cd "$(dirname "$0")/.." && pwd)
cd "$(mktemp -d)"

"$home/rdb" NEW BANK
"$home/rdb" RDO BANK "$home/examples/bank.rdo"
"$home/rdb" RMU/BACKUP BANK 1
"$home/rdb" RDO BANK "$home/examples/pay.rdo"
"$home/rdb" RMU/BACKUP/AFTER_JOURNAL BANK 1
"$home/rdb" RDO BANK "$home/examples/pay.rdo"

# A disk is lost, and with it an area.
rm BANK_2.RDA
"$home/rdb" RMU/RESTORE BANK 1
# The group of the first payment is in the copy of the journal: without it status 4.
"$home/rdb" RMU/RECOVER BANK || echo "a group is missing"
"$home/rdb" RMU/RECOVER BANK 1
"$home/rdb" RMU/VERIFY BANK
# Both payments are there: 0 and 30.
"$home/rdb" RDO BANK "$home/examples/look.rdo"
