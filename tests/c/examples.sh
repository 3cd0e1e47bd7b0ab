#!/usr/bin/env bash
# Runs the examples on copies of the samples and prints each command with what it writes and its exit status; run.sh compares that with examples.out.
# Usage: examples.sh FOLDER, which has the programs list, edit, vendor, backup and room, and list-N, edit-N, vendor-N and room-N compiled with the header of an older edition N.
set -uo pipefail
programs=$(cd "$1" && pwd)
samples=$(cd "$(dirname "$0")/../../samples" && pwd)
room=$(mktemp -d)
trap 'rm -rf "$room"' EXIT
cd "$room" || exit 1
cp "$samples"/*.vpd "$samples"/*.bin .
export LC_ALL=C

run() {
    echo "\$ $*"
    (PATH="$programs:$PATH" && "$@" 2>&1)
    local status=$?
    [ $status -eq 0 ] || echo "exit status $status"
}

bytes() {
    od -An -v -tx1 "$1"
}

echo '# list'
run list fboss fboss.bin
run list vpd sku.vpd
run list vpd board.vpd
run list vpd names.vpd
run list vpd frames.vpd
run list tiny tiny.bin
run list onie onie.bin
run list onie amplifier.bin
run list-1 fboss fboss.bin
run list-1 vpd board.vpd
run list-1 vpd names.vpd
run list-1 tiny tiny.bin
run list-2 fboss fboss.bin
run list-2 vpd board.vpd
run list-2 tiny tiny.bin
run list-3 vpd frames.vpd
run list-3 tiny tiny.bin
run list-3 onie onie.bin

echo '# list: what the samples do not show'
printf '\xFB\xFB\x05\xFF\x01\x03"\\~\x08\x01\xFF\x09\x01\x00\x0A\x01\x09\x0B\x00\x63\x03\x00\x41\xFF\x15\x00\xFA\x02\x16\xAC' >unnamed.fboss
run list fboss unnamed.fboss
printf '\xFB\xFB\x05\xFF\x01\x00\x08\x01\x01\x09\x01\x02\x0A\x01\x03\x0B\x00\x0D\x08%s\xFA\x02\xD0\x0A' 00010101 >first_day.fboss
run list fboss first_day.fboss
run list-1 fboss first_day.fboss
printf '\x01\x01A\x00\x01\x01B\x03\x41\x0A\x42\x01\x02_9\x02"x\xFE\x02\x1B"\x041234\x00' >bytes.vpd
run list vpd bytes.vpd
printf '\x56\x02\x04\x6F' >empty.tiny
run list tiny empty.tiny
printf '\x56\x02\x1C\x10\x07\x11\xF8\x23\xAA\xBB\x61\x00\x09\x63\x63\x00\xFF\x01\x08\x41\x07\xA2\xDC\x41\x42\x43\x44\x8F' >odd.tiny
run list tiny odd.tiny
printf '\x56\x02\x06\x01\x00\xF5' >no_strings.tiny
run list tiny no_strings.tiny
printf 'TlvInfo\x00\x01\x00\x06\xFE\x04\xD4\x43\x1C\x18' >empty.onie
run list onie empty.onie
printf 'TlvInfo\x00\x01\x00\x3D\x2F\x00\x21\x03"\\~\x24\x06\xFF\xFF\xFF\xFF\xFF\xFF\x2A\x02\xFF\xFF' >odd.onie
printf '\x25\x13%s\xFD\x04\x00\x00\x1F\x79\xFD\x04LAB\x0A\x01\x01\x1B\xFE\x04\x45\xAA\x71\xB1' '12/31/9999 23:59:59' >>odd.onie
run list onie odd.onie

echo '# list: refusals and failures'
run list vpd tiny.bin
printf '\x01\x01A\x00\x01\x01A\x00\x00' >twice.vpd
run list vpd twice.vpd
printf '\x01\x08lab.rack\x00\x01\x08lab.rack\x00\x00' >same_name.vpd
run list vpd same_name.vpd
run list-1 vpd same_name.vpd
printf '\x01\x08lab.rack\x00\x01\x00\x00\x00' >no_name.vpd
run list vpd no_name.vpd
run list-1 vpd no_name.vpd
printf '\xFB\xFB\x05\xFF\x01\x00\x08\x01\x01\x09\x01\x02\x0A\x01\x03\x0B\x00\x0D\x08%s\xFA\x02\x9C\x6C' 20230231 >no_day.fboss
run list fboss no_day.fboss
run list-1 fboss no_day.fboss
run list-2 fboss no_day.fboss
head -c 65537 /dev/zero >long.vpd
run list vpd long.vpd
head -c 65536 /dev/zero >longest.vpd
run list vpd longest.vpd
run list vpd missing.vpd
run list vpd .
run list onie sku.vpd
printf 'TlvInfo\x00\x01\x00\x0C\x21\x01A\x21\x01B\xFE\x04\x9E\x08\x19\xFC' >twice.onie
run list onie twice.onie
printf 'TlvInfo\x00\x01\x00\x08\xFE\x04\xDE\xDD\x31\x12\x00\x00' >length.onie
run list onie length.onie
printf 'TlvInfo\x00\x01\x00\x0A\x2C\x02CZ\xFE\x04\x89\xF1\x86\x1D' >check.onie
run list onie check.onie
printf 'TlvInfo\x00\x01\x00\x1B\x25\x13%s\xFE\x04\xB7\x9C\xAD\xD6' '12/31/2024 24:00:00' >no_time.onie
run list onie no_time.onie
run list-1 onie onie.bin
run list-2 onie onie.bin
run list eeprom onie.bin
run list vpd
echo '$ list vpd sku.vpd >/dev/full'
{ "$programs/list" vpd sku.vpd >/dev/full; } 2>&1
echo "exit status $?"

echo '# edit'
chmod 640 sku.vpd
run edit vpd sku.vpd 0 B
run bytes sku.vpd
run stat -c '%a' sku.vpd
run edit vpd sku.vpd 0 -3
run list vpd sku.vpd
run edit vpd sku.vpd 0 LONGER
run edit -s 16 vpd sku.vpd 0 LONGER
run bytes sku.vpd
run edit vpd sku.vpd 0 ''
run list vpd sku.vpd
run edit -x vpd board.vpd 3 2a:02:03:b3:d5:7D
run edit -x vpd board.vpd 0 00000080
run edit vpd board.vpd 1 'a longer text than before'
run list vpd board.vpd
run edit vpd names.vpd 1 R11.4
run edit vpd names.vpd 2 B
run edit-1 vpd names.vpd 3 by_edition_1
run list vpd names.vpd
run list-1 vpd names.vpd
run bytes names.vpd
run edit fboss fboss.bin 0 SECOND_SQUEEZE
run edit -x fboss fboss.bin 8 '0A'
run edit fboss fboss.bin 12 20240229
run edit -x fboss fboss.bin 16 '02 1A 2B 3C 4D 5E 00 10'
run list fboss fboss.bin
run edit -x tiny tiny.bin 1 0f
run edit -x -s 80 tiny tiny.bin 7 53:b9:50:b8:52:b7:51:b6
run list tiny tiny.bin
run edit onie onie.bin 2 LAB-472
run edit -x onie onie.bin 3 02:1a:2b:3c:4d:60
run edit onie onie.bin 4 '12/31/2024 23:59:59'
run edit -x onie onie.bin 8 0010
run edit onie onie.bin 10 DE
run edit -x onie onie.bin 12 '00 00 1F 79'
run list onie onie.bin
run edit -s 174 onie onie.bin 9 Works
run edit onie onie.bin 9 ''
run bytes onie.bin

echo '# edit: a symbolic link stays one'
ln -s board.vpd link.vpd
run edit vpd link.vpd 1 linked
run readlink link.vpd
run list vpd board.vpd

echo '# edit: refusals and failures; nothing is changed and nothing left behind'
cp -p board.vpd before.vpd
before=$(echo *)
run edit-1 -x vpd board.vpd 0 00000081
run edit -x vpd board.vpd 0 000081
run edit vpd board.vpd 4 x
run edit vpd board.vpd 18446744073709551615 x
run edit fboss fboss.bin 12 20231301
run edit fboss fboss.bin 12 20230229
run edit-1 fboss fboss.bin 12 20230431
run edit fboss no_day.fboss 5 20230228
run edit -x onie onie.bin 5 02
run edit onie onie.bin 4 2024-12-31
run edit onie onie.bin 4 '02/30/2024 23:59:59'
run edit onie onie.bin 4 '12/31/2024 23:59:60'
run edit onie onie.bin 10 Germany
run edit -x onie onie.bin 12 001f79
run edit onie onie.bin 9 'longer than the file has room for'
run edit onie twice.onie 0 x
run edit-2 onie onie.bin 0 x
run edit fboss board.vpd 0 x
run edit vpd same_name.vpd 0 x
run edit vpd no_name.vpd 0 x
run edit vpd long.vpd 0 x
run edit vpd missing.vpd 0 x
run edit vpd . 0 x
run edit vpd board.vpd 18446744073709551616 x
run edit vpd board.vpd one x
run edit vpd board.vpd 1
run edit -x vpd board.vpd 1 0g
run edit -x vpd board.vpd 1 012
run edit -x vpd board.vpd 1 01:
run edit -s 65537 vpd board.vpd 1 x
run cmp board.vpd before.vpd
[ "$(echo *)" = "$before" ] && echo 'the folder is as before'

echo '# edit by edition 1: what it does not name stays'
run edit-1 vpd board.vpd 1 by_edition_1
run list vpd board.vpd
run edit-1 tiny tiny.bin 0 X
run edit-1 -x tiny tiny.bin 0 02
run list tiny tiny.bin

echo '# edit by edition 3'
run edit-3 vpd names.vpd 2 C3
run list vpd names.vpd

echo '# edit: add and remove'
for name in board.vpd names.vpd frames.vpd fboss.bin tiny.bin onie.bin; do
    cp "$samples/$name" "my_$name"
done
chmod 640 my_board.vpd
run edit vpd my_board.vpd add 1 note 'rack 7, 2nd from top'
run edit -x vpd my_board.vpd add 0x01 mac2 02:1a:2b:3c:4d:5e
run list vpd my_board.vpd
run stat -c '%a %s' my_board.vpd
run edit vpd my_board.vpd remove 4
run edit vpd my_board.vpd remove 0
run edit -x vpd my_board.vpd add 254 '' 00000080
run list vpd my_board.vpd
run edit vpd my_names.vpd add 1 rack -3
run edit vpd my_names.vpd remove 1
run list vpd my_names.vpd
run edit -s 235 vpd my_frames.vpd add 1 x ''
run edit vpd my_frames.vpd remove 0
run list vpd my_frames.vpd
run bytes my_frames.vpd
run edit fboss my_fboss.bin remove 16
run edit fboss my_fboss.bin remove 1
run edit -x fboss my_fboss.bin add 17 '02 1A 2B 3C 4D 5E 00 10'
run list fboss my_fboss.bin
run edit tiny my_tiny.bin remove 2
run edit -x tiny my_tiny.bin add 0x60 02:1a:2b:3c:4d:60
run list tiny my_tiny.bin
run edit tiny my_tiny.bin remove 7
run list tiny my_tiny.bin
run edit -x tiny my_tiny.bin add 1 53:b9:50:b8
run list tiny my_tiny.bin
run edit onie my_onie.bin remove 11
run edit -x onie my_onie.bin add 0xFD '00 00 1F 79'
run edit -x onie my_onie.bin add 0xfd '00 00 1F 79'
run edit onie my_onie.bin add 0x2D Works
run list onie my_onie.bin
printf '\x01\x01A\x00\xFF' >last.vpd
run edit vpd last.vpd remove 0
run bytes last.vpd
ln -s last.vpd my_link.vpd
run edit -s 8 vpd my_link.vpd add 1 B ''
run readlink my_link.vpd
run bytes last.vpd

echo '# edit: add and remove, refusals and failures; nothing is changed and nothing left behind'
before=$(echo *)
for name in my_*; do
    cp -p "$name" "before_$name"
done
run edit vpd my_board.vpd add 1 lab.rack x
run edit vpd my_names.vpd add 1 lab.rack x
run edit vpd my_board.vpd add 1 '' x
run edit vpd my_board.vpd add 1 mac2 x
run edit -x vpd my_board.vpd add 0xFE other 00000080
run edit -x vpd my_board.vpd add 0xFE other 000080
run edit vpd my_board.vpd add 2 note x
run edit vpd my_board.vpd add 257 note x
run edit vpd my_board.vpd add 1 key 'longer than the file has room for, whose size stays'
run edit vpd my_board.vpd remove 9
run edit vpd my_board.vpd remove 18446744073709551615
run edit -s 7 vpd my_board.vpd remove 0
run edit fboss my_fboss.bin remove 0
run edit -x fboss my_fboss.bin add 18 0000000000000000
run edit fboss my_fboss.bin add 13 20230229
run edit fboss my_fboss.bin add 99 x
run edit tiny my_tiny.bin remove 9
run edit -x tiny my_tiny.bin add 1 41
run edit onie my_onie.bin remove 5
run edit onie my_onie.bin add 0x26 x
run edit-2 onie my_onie.bin remove 0
run edit fboss no_day.fboss remove 5
run edit vpd twice.vpd add 1 B x
run edit vpd same_name.vpd remove 1
run edit vpd long.vpd remove 0
run edit vpd missing.vpd remove 0
run edit vpd . add 1 note x
run edit vpd my_board.vpd add 1 note
run edit vpd my_board.vpd add 1
run edit vpd my_board.vpd add
run edit fboss my_fboss.bin add 12 note x
run edit vpd my_board.vpd add one note x
run edit vpd my_board.vpd add 4294967296 note x
run edit vpd my_board.vpd add 0x100000000 note x
run edit vpd my_board.vpd add 0x note x
run edit vpd my_board.vpd add 0x1g note x
run edit -x vpd my_board.vpd add 1 note 0g
run edit vpd my_board.vpd remove
run edit vpd my_board.vpd remove one
run edit vpd my_board.vpd remove 0 0
run edit vpd my_board.vpd drop 0
for name in my_*; do
    run cmp "$name" "before_$name"
    rm "before_$name"
done
[ "$(echo *)" = "$before" ] && echo 'the folder is as before'

echo '# edit: add and remove by edition 1: what it does not name is neither added nor removed, and stays'
run edit-1 vpd my_board.vpd remove 4
run edit-1 -x vpd my_names.vpd add 0xFE '' 00000080
run edit-1 vpd my_board.vpd add 1 by_edition_1 y
run edit-1 vpd my_board.vpd remove 0
run list vpd my_board.vpd
run list-1 vpd my_board.vpd
run edit-1 -x fboss my_fboss.bin add 17 0000000000000000
run edit-1 fboss my_fboss.bin remove 15
run edit-1 fboss my_fboss.bin add 2 PN-2
run list fboss my_fboss.bin
run edit-1 tiny my_tiny.bin remove 1
run edit-1 -x tiny my_tiny.bin add 0x11 0f
run list tiny my_tiny.bin
run edit-2 fboss my_fboss.bin remove 16
run edit-3 onie my_onie.bin remove 0
run list onie my_onie.bin

echo '# vendor'
cp "$samples/onie.bin" example.bin
run vendor example.bin
run vendor-3 example.bin
run vendor amplifier.bin
run edit onie amplifier.bin 2 LAB-000473
run edit onie amplifier.bin 4 '12/31/2024 23:59:59'
run edit onie amplifier.bin 10 spare
run vendor amplifier.bin
run edit -x onie amplifier.bin 9 '00 00 1F 79 00 00 00 09 00 80 FF 00 18'
run edit -x onie amplifier.bin 11 '00 00 1F 79 00 7F FE 01 81 19 FF 92 EB'
run vendor amplifier.bin
printf 'TlvInfo\x00\x01\x00\x22\xFD\x1A\x00\x00\x1F\x79\x00\x05\x1B[2J"\x00\x09\x00\x01\x02\x03\x04\x05\x06\x07\x08' >odd_serial.onie
printf '\x4E\x4D\x04\x4B\xFE\x04\x7F\x35\x18\x46' >>odd_serial.onie
run vendor odd_serial.onie

echo '# vendor: refusals and failures'
run vendor empty.onie
run vendor odd.onie
printf 'TlvInfo\x00\x01\x00\x0D\xFD\x05\x00\x00\x1F\x79\x00\xFE\x04\x7F\x3E\xE3\xA3' >no_parts.onie
run vendor no_parts.onie
run edit -x onie amplifier.bin 11 '00 00 1F 79 00 7F FE 01 81 19 FF 92 EC'
run list onie amplifier.bin
run vendor amplifier.bin
printf 'TlvInfo\x00\x01\x00\x1D\xFD\x15\x00\x00\x1F\x79\x00\x00\x00\x09\x01\x00\x00\x00\x00\x00\x00\x00\x00' >version.onie
printf '\x90\xBB\xF9\xE6\xFE\x04\x73\x01\x6A\x25' >>version.onie
run vendor version.onie
run vendor twice.onie
run vendor check.onie
run vendor tiny.bin
run vendor long.vpd
run vendor missing.onie
run vendor .
run vendor
run vendor onie amplifier.bin
echo '$ vendor odd_serial.onie >/dev/full'
{ "$programs/vendor" odd_serial.onie >/dev/full; } 2>&1
echo "exit status $?"

echo '# backup'
umask 027
run backup vpd frames.vpd 0 sku.entry
run bytes sku.entry
run stat -c '%a' sku.entry
run backup vpd frames.vpd 1 note.entry
run bytes note.entry
run backup vpd frames.vpd 2 log.entry
run cmp -i 23:0 -n 207 frames.vpd log.entry
run stat -c '%s' log.entry
cat sku.entry note.entry log.entry >joined
run stat -c '%s' joined
run cmp -n 230 frames.vpd joined
printf '\x01\x80\x80\x80\x01A\x80\x80\x80\x02B7\xFE\x80\x00\x80\x041234\x00' >forms.vpd
run backup vpd forms.vpd 0 forms.entry
run bytes forms.entry
run backup vpd forms.vpd 1 forms.entry
run bytes forms.entry
cp "$samples/fboss.bin" whole.fboss
cp "$samples/tiny.bin" whole.tiny
cp "$samples/onie.bin" whole.onie
run backup fboss whole.fboss 16 fboss.entry
run bytes fboss.entry
run backup tiny whole.tiny 0 serial.entry
run bytes serial.entry
run backup tiny whole.tiny 7 pool.entry
run bytes pool.entry
run backup onie whole.onie 5 onie.entry
run bytes onie.entry
run backup onie whole.onie 12 onie.entry
run bytes onie.entry

echo '# backup: after an edit, into files that are there'
chmod 604 note.entry
ln -s note.entry link.entry
run edit vpd frames.vpd 1 hi
run backup vpd frames.vpd 1 link.entry
run readlink link.entry
run stat -c '%a' note.entry
run bytes note.entry
run backup vpd frames.vpd 2 log.entry
run stat -c '%s' log.entry
run cmp -i 18:0 -n 207 frames.vpd log.entry
run edit-1 vpd frames.vpd 0 A8
run backup vpd frames.vpd 1 note.entry
run bytes note.entry

echo '# backup: refusals and failures; nothing is changed and nothing left behind'
cp -p note.entry before.entry
cp -p frames.vpd before.vpd
ln frames.vpd same.vpd
ln -s frames.vpd image.entry
ln -s nowhere lost.entry
before=$(echo *)
run backup vpd frames.vpd 3 note.entry
run backup vpd frames.vpd 18446744073709551615 note.entry
run backup fboss frames.vpd 0 note.entry
run backup vpd twice.vpd 0 note.entry
run backup fboss no_day.fboss 0 note.entry
run backup onie check.onie 0 note.entry
run backup vpd long.vpd 0 note.entry
run backup vpd missing.vpd 0 note.entry
run backup vpd . 0 note.entry
run backup vpd frames.vpd 0 frames.vpd
run backup vpd frames.vpd 0 same.vpd
run backup vpd frames.vpd 0 image.entry
run backup vpd frames.vpd 0 lost.entry
run backup vpd frames.vpd 0 .
run backup vpd frames.vpd 0 /dev/null
run backup vpd frames.vpd 0 nowhere/note.entry
run backup vpd frames.vpd 0 note.entry/note.entry
run backup vpd frames.vpd 0 ''
run backup vpd frames.vpd one note.entry
run backup vpd frames.vpd 18446744073709551616 note.entry
run backup eeprom frames.vpd 0 note.entry
run backup vpd frames.vpd 0
run cmp note.entry before.entry
run cmp frames.vpd before.vpd
[ "$(echo *)" = "$before" ] && echo 'the folder is as before'

echo '# room'
run room room.bin
run room-3 room.bin
for name in sku.vpd board.vpd fboss.bin tiny.bin onie.bin; do
    cp "$samples/$name" "body_$name"
done
run room my.room add 1002 vpd body_board.vpd
run bytes my.room
run stat -c '%a' my.room
run room my.room add 17 vpd body_sku.vpd
run room my.room add 0xF0000001 onie body_onie.bin
run room my.room add 2001 tiny body_tiny.bin
run room my.room add 0x3e9 fboss body_fboss.bin
run cmp my.room room.bin
run room my.room remove 1001
run room my.room
run room my.room replace 1002 tiny body_tiny.bin
run room my.room replace 17 vpd body_board.vpd
run room my.room
run room my.room fetch 17 fetched
run cmp fetched body_board.vpd
run stat -c '%a' fetched
run room my.room fetch 0xf0000001 fetched
run cmp fetched body_onie.bin
run room my.room remove 17
run room my.room remove 4026531841
run room my.room remove 2001
run room my.room remove 1002
run room my.room
run bytes my.room
run room my.room add 0 vpd body_sku.vpd
run room my.room add 4294967295 vpd body_sku.vpd
run room my.room add 2147483648 vpd body_sku.vpd
run room my.room add 2147483647 vpd body_sku.vpd
run room my.room
run bytes my.room

echo '# room: into files that are there; a symbolic link stays one'
chmod 604 my.room
ln -s my.room link.room
run room link.room remove 0
run readlink link.room
run stat -c '%a %s' my.room
ln -s fetched link.body
run room link.room fetch 0xffffffff link.body
run readlink link.body
run cmp fetched body_sku.vpd

echo '# room by edition 1: what it does not name stays; ONIE it does not have'
run room-1 room.bin
cp room.bin old.room
run room old.room remove 0xF0000001
run room-1 old.room remove 1001
run room-1 old.room add 5 vpd body_sku.vpd
run room-1 old.room replace 17 tiny body_tiny.bin
run room-1 old.room fetch 1002 fetched
run cmp fetched body_board.vpd
run room-1 old.room
run room old.room
run room old.room fetch 1002 fetched
run list vpd fetched
run room-2 old.room add 6 vpd body_board.vpd
run room old.room

echo '# room: refusals and failures; nothing is changed and nothing left behind'
cp -p my.room before.room
cp -p old.room before_old.room
cp -p room.bin before_room.bin
printf 'RM\1\0\0\2\0\0\0\0\0\5\2\0\0\10\0\0\0\6\3\0\0\4\001\003SKU\002A7V\2\4\157' >no_end.room
printf 'RM\1\0\0\2\0\0\0\0\0\5\2\0\0\1\0\0\0\6\11\0\0\1\0\0' >format.room
printf 'RM\1\0\0\2\0\0\0\0\0\5\2\0\0\1\0\0\0\5\2\0\0\1\0\0' >twice.room
printf 'RM\2\0\0\0\0\0\0\0\0\0' >form_2.room
head -c 8962 room.bin >cut.room
{ printf 'RM\1\0\0\1\0\0\0\0\0\5\2\0\377\360' && head -c 65520 /dev/zero; } >full.room
{ cat full.room && printf '\0'; } >long.room
: >empty.room
ln -s nowhere lost.room
mkfifo pipe.room
before=$(echo *)
run room my.room add 4294967295 vpd body_sku.vpd
run room my.room add 1 tiny body_sku.vpd
run room my.room add 1 fboss no_day.fboss
run room my.room add 1 vpd twice.vpd
run room my.room add 1 vpd long.vpd
run room my.room add 1 vpd longest.vpd
run room my.room add 1 vpd empty.room
run room my.room replace 5 vpd body_sku.vpd
run room my.room replace 4294967295 onie check.onie
run room my.room remove 0
run room my.room fetch 0 fetched
run room room.bin add 1 vpd same_name.vpd
run room-1 room.bin remove 17
run room-1 room.bin fetch 17 fetched
run room-2 room.bin add 1 vpd body_sku.vpd
run room full.room
run room full.room add 6 vpd body_sku.vpd
run room full.room replace 5 vpd longest.vpd
for name in no_end format twice form_2 cut long empty; do
    run room "$name.room"
    run room "$name.room" add 7 vpd body_sku.vpd
    run room "$name.room" remove 5
    run room "$name.room" fetch 6 fetched
done
run room body_sku.vpd
run room missing.room
run room missing.room remove 1
run room missing.room fetch 1 fetched
run room missing.room add 1 tiny body_sku.vpd
run room missing.room add 1 vpd missing.vpd
run room nowhere/my.room add 1 vpd body_sku.vpd
run room lost.room add 1 vpd body_sku.vpd
run room pipe.room
run room .
run room my.room add 1 vpd .
run room my.room fetch 4294967295 my.room
run room my.room fetch 4294967295 link.room
run room my.room fetch 4294967295 .
run room my.room fetch 4294967295 nowhere/fetched
run room my.room fetch 4294967295 ''
run room
run room my.room add
run room my.room add 1 vpd
run room my.room add one vpd body_sku.vpd
run room my.room add 4294967296 vpd body_sku.vpd
run room my.room add 0x100000000 vpd body_sku.vpd
run room my.room add -1 vpd body_sku.vpd
run room my.room add 1 eeprom body_sku.vpd
run room-2 my.room add 1 onie body_onie.bin
run room my.room remove
run room my.room remove 1 2
run room my.room fetch 1
run room my.room drop 1
echo '$ room my.room >/dev/full'
{ "$programs/room" my.room >/dev/full; } 2>&1
echo "exit status $?"
run cmp my.room before.room
run cmp old.room before_old.room
run cmp room.bin before_room.bin
run cmp fetched body_board.vpd
[ "$(echo *)" = "$before" ] && echo 'the folder is as before'
